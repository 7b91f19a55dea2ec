"""Where the boxes of one drawing stand: columns by the longest way from the sources, a free place in each column that a line passes."""
import loops

SWEEPS = 12
BOX, THIN, PASS = 38, 20, 12  # heights of a box, of a wire's box and of a line that passes
APART = 26  # between two boxes: the number stands there


class Node:
    """A box, or a place that a line passes."""

    def __init__(self, row, column, high):
        self.row = row  # None for a place that is only passed
        self.column, self.high = column, high
        self.before, self.after = [], []  # neighbours in the columns beside, each with how far from its middle the line ends
        self.y = 0.0


class Layout:
    def __init__(self, rows, inputs):
        self.rows, self.inputs = rows, inputs
        self.back, self.red_rows = cut_lines(rows, inputs)
        self.column = columns(inputs, self.back)
        self.boxes = [Node(at, self.column[at], THIN if loops.is_wire(row) else BOX) for at, row in enumerate(rows)]
        self.columns = [[] for _ in range(max(self.column, default=-1) + 1)]
        for node in sorted(self.boxes, key=lambda node: node.row):
            self.columns[node.column].append(node)
        self.lines = {}  # (row, place of the input): the places between
        self.lead_lines()
        for sweep in range(SWEEPS):
            self.sweep(sweep % 2 == 0)
        self.settle()

    def lead_lines(self):
        for row, entries in enumerate(self.inputs):
            for place, entry in enumerate(entries):
                if (row, place) in self.back:
                    continue
                passed = [Node(None, column, PASS) for column in range(self.column[entry] + 1, self.column[row])]
                for node in passed:
                    self.columns[node.column].append(node)
                way = [self.boxes[entry], *passed, self.boxes[row]]
                for left, right in zip(way, way[1:]):
                    last = right is way[-1]
                    left.after.append((right, port(place, len(entries)) if last else 0))
                    right.before.append((left, -port(place, len(entries)) if last else 0))
                self.lines[row, place] = passed

    def sweep(self, rightward):
        """Each column in the order of its neighbours' mean place."""
        spots = {}
        for column in self.columns:
            spots.update((id(node), at + 0.0) for at, node in enumerate(column))
        walk = self.columns if rightward else self.columns[::-1]
        for column in walk:
            for at, node in enumerate(column):
                near = node.before if rightward else node.after
                if near:
                    spots[id(node)] = sum(spots[id(other)] + offset / 1000 for other, offset in near) / len(near)
            column.sort(key=lambda node: spots[id(node)])
            spots.update((id(node), at + 0.0) for at, node in enumerate(column))

    def settle(self):
        """Heights: each node as near to the mean of its neighbours as those above and below it allow."""
        for column in self.columns:
            stand(column, [0.0] * len(column))
        for turn in range(12):
            for column in self.columns if turn % 2 == 0 else self.columns[::-1]:
                wanted = []
                for node in column:
                    near = node.before + node.after if turn > 1 else (node.before if turn % 2 == 0 else node.after)
                    wanted.append(mean_place(node, near))
                stand(column, wanted)
        top = min((node.y - node.high / 2 for column in self.columns for node in column), default=0)
        for column in self.columns:
            for node in column:
                node.y -= top
        self.high = max((node.y + node.high / 2 for column in self.columns for node in column), default=0)


def mean_place(node, near):
    """The mean of its neighbours' places; a line that passes is held straight above all."""
    if not near:
        return node.y
    weights = [(1, 3, 12)[(node.row is None) + (other.row is None)] for other, _ in near]
    return sum(weight * (other.y + offset) for weight, (other, offset) in zip(weights, near)) / sum(weights)


def port(place, count):
    """How far below a box's middle an input's line ends."""
    return (place - (count - 1) / 2) * (BOX - 12) / max(count - 1, 2)


def stand(column, wanted):
    """Nodes one under another, as near to the places wanted as can be: those in each other's way move together."""
    heaps = []  # each: the nodes' count, the sum of the tops wanted, and their height together
    for node, middle in zip(column, wanted):
        high = node.high + APART
        heaps.append([1, middle - high / 2, high])
        while len(heaps) > 1 and heaps[-2][1] / heaps[-2][0] + heaps[-2][2] > heaps[-1][1] / heaps[-1][0]:
            count, tops, high = heaps.pop()
            heaps[-1][1] += tops - count * heaps[-1][2]
            heaps[-1][0] += count
            heaps[-1][2] += high
    nodes = iter(column)
    for count, tops, _ in heaps:
        top = tops / count
        for node in (next(nodes) for _ in range(count)):
            node.y = top + (node.high + APART) / 2
            top += node.high + APART


def cut_lines(rows, inputs):
    """The lines that run back, and the rows on loops without a hold."""
    knot = loops.knots(len(rows), inputs)
    back = {
        (row, place)
        for row, entries in enumerate(inputs)
        for place, entry in enumerate(entries)
        if loops.is_hold(rows[row]) and knot[row] == knot[entry]
    }
    red = set().union(*loops.unheld(rows, inputs)) if rows else set()
    open_, done = set(), set()
    for start in range(len(rows)):
        turn_back(start, inputs, back, open_, done)
    return back, red


def turn_back(start, inputs, back, open_, done):
    """Cuts the lines that still close a loop: those that lead to a row from which the walk came."""
    work = [(start, 0)] if start not in done else []
    while work:
        row, place = work.pop()
        open_.add(row)
        if place == len(inputs[row]):
            open_.discard(row)
            done.add(row)
            continue
        work.append((row, place + 1))
        entry = inputs[row][place]
        if (row, place) in back or entry in done:
            continue
        if entry in open_:
            back.add((row, place))
        else:
            work.append((entry, 0))


def columns(inputs, back):
    """The longest way from the sources; a row that has none before it stands right before its nearest user."""
    count = len(inputs)
    forward = [[entry for place, entry in enumerate(entries) if (row, place) not in back] for row, entries in enumerate(inputs)]
    column, left = [None] * count, list(range(count))
    while left:
        row = left[-1]
        waiting = [entry for entry in forward[row] if column[entry] is None]
        if waiting:
            left += waiting
            continue
        left.pop()
        if column[row] is None:
            column[row] = max((column[entry] + 1 for entry in forward[row]), default=0)
    users = [[] for _ in range(count)]
    for row, entries in enumerate(forward):
        for entry in entries:
            users[entry].append(column[row])
    return [min(users[row]) - 1 if users[row] and not forward[row] else column[row] for row in range(count)]
