"""Loops in rows that asks has taken, for pictures and for words beside a refusal."""
import words


def knots(count, onward):
    """For each of so many rows the lowest row of its knot: the rows that it leads to and that lead back to it."""
    low, order, stack, on = [0] * count, [0] * count, [], [False] * count
    knot, clock = [-1] * count, 0
    for start in range(count):
        if order[start]:
            continue
        work = [(start, iter(onward[start]))]
        clock += 1
        order[start] = low[start] = clock
        stack.append(start)
        on[start] = True
        while work:
            row, rest = work[-1]
            step = next((other for other in rest if not order[other] or on[other]), None)
            if step is None:
                work.pop()
                if work:
                    low[work[-1][0]] = min(low[work[-1][0]], low[row])
                if low[row] == order[row]:
                    untied(row, stack, on, knot)
            elif not order[step]:
                clock += 1
                order[step] = low[step] = clock
                stack.append(step)
                on[step] = True
                work.append((step, iter(onward[step])))
            else:
                low[row] = min(low[row], order[step])
    return knot


def untied(row, stack, on, knot):
    """Takes a whole knot off the stack."""
    at = stack.index(row)
    for member in stack[at:]:
        on[member] = False
        knot[member] = min(stack[at:])
    del stack[at:]


def is_hold(row):
    return words.operation_of(row.label) == words.HOLD


def is_wire(row):
    return words.operation_of(row.label) == words.WIRE


def unheld(rows, inputs):
    """The rows on a loop of which no step is taken from a hold, as a set for each knot."""
    return rounds([[] if is_hold(row) else list(inputs[place]) for place, row in enumerate(rows)])


def rounds(onward):
    """The rows that lead round in loops, as a set for each knot."""
    knot, found = knots(len(onward), onward), {}
    for place in range(len(onward)):
        found.setdefault(knot[place], set()).add(place)
    return [members for key, members in found.items() if len(members) > 1 or key in onward[key]]


def reached(starts, inputs):
    """All rows that some rows lead to, themselves too."""
    seen, left = set(starts), list(starts)
    while left:
        for other in inputs[left.pop()]:
            if other not in seen:
                seen.add(other)
                left.append(other)
    return seen
