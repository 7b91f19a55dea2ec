#!/usr/bin/env python3
"""Makes the bundles of this folder and what the program must print for each: NAME.in and NAME.out, and crates/chains/stdin and stdout.

Run it anywhere: tests/bundles/make.py. It uses no line of the register. What is printed comes from a slow model below, written
from the rules: two rows have the same tree when they agree at every depth, and that is tried at depth 0, 1, 2, .. until a
further depth parts no two rows. Wires are taken out of the rows first, one after another. Every run writes the same files.
"""
import os
import random

CHANNEL, CONSTANT, DIFFERENCE, SUM, SCALE, HOLD, WIRE = 1, 2, 3, 4, 5, 6, 7
STORE = 32768
MOST_BYTES, MOST_ROWS, CAPACITY = 32768, 1024, 1024

# ---- the model


def classes(rows):
    """A class for each row, given as label and inputs: one class for one tree."""
    number = {}
    now = [number.setdefault((label, len(inputs)), len(number)) for label, inputs in rows]
    while True:
        count, number = len(number), {}
        now = [number.setdefault((label, tuple([now[i] for i in inputs])), len(number)) for label, inputs in rows]
        if len(number) == count:
            return now


def is_wire(row):
    return row[0] >> 16 == WIRE


def without_wires(rows):
    """The rows with every wire taken out of all inputs, where what it leads to takes its place, and itself read as that; None for a
    loop of wires, whose last wire leads to itself once the others are out."""
    rows = [(label, list(inputs)) for label, inputs in rows]
    for at, row in enumerate(rows):
        if is_wire(row):
            to, = row[1]
            if to == at:
                return None
            for _, inputs in rows:
                inputs[:] = [to if x == at else x for x in inputs]
    return [rows[row[1][0]] if is_wire(row) else row for row in rows]


def read(sheet, stored):
    """The sheet's rows, inputs as rows of the store and then the sheet; or the number of its refusal."""
    if len(sheet) < 7 or int.from_bytes(sheet[:4], "big") != len(sheet) - 4:
        return 3
    if sheet[4] != 1:
        return 4
    count, at, rows = int.from_bytes(sheet[5:7], "big"), 7, []
    if count > MOST_ROWS:
        return 5
    for _ in range(count):
        if at + 5 > len(sheet) or sheet[at + 4] > 4 or at + 5 + 2 * sheet[at + 4] > len(sheet):
            return 5
        label, n = int.from_bytes(sheet[at:at + 4], "big"), sheet[at + 4]
        rows.append((label, [int.from_bytes(sheet[at + 5 + 2 * j:at + 7 + 2 * j], "big") for j in range(n)]))
        at += 5 + 2 * n
    if at != len(sheet):
        return 5
    every = [x for _, inputs in rows for x in inputs]
    if any(x >= STORE for x in every):
        return 19
    if any(x >= count for x in every):
        return 6
    return [(label, [stored + x for x in inputs]) for label, inputs in rows]


def insert(store, sheet):
    """The number given back and the rows' numbers. The store, a list of rows, gets what is added."""
    stored = len(store)
    rows = read(sheet, stored)
    if isinstance(rows, int):
        return rows, []
    if any(is_wire(row) and len(row[1]) != 1 for row in rows):
        return 14, []
    together = without_wires(store + rows)
    if together is None:
        return 15, []
    kind = classes(together)
    number = {}
    for row, c in enumerate(kind):
        number.setdefault(c, len(number))
        assert row >= stored or number[c] == row, "the store has a tree twice"
    if len(number) > CAPACITY:
        return 8, []
    for row in range(stored, len(together)):
        if number[kind[row]] == len(store):
            label, inputs = together[row]
            store.append((label, [number[kind[i]] for i in inputs]))
    return 0, [number[c] for c in kind[stored:]]


def program(bundle):
    """What the program prints."""
    if len(bundle) > MOST_BYTES:
        return "long\n"
    store, at, place, lines, had = [], 0, 0, [], {}
    while at + 4 <= len(bundle):
        end = at + 4 + int.from_bytes(bundle[at:at + 4], "big")
        if end > len(bundle):
            break
        place += 1
        sheet, before = bundle[at:end], len(store)
        # into an unchanged store the same sheet does the same again
        if (before, sheet) not in had:
            had[(before, sheet)] = insert(store, sheet)
        number, answers = had[(before, sheet)]
        if len(store) > before:
            had = {}
        lines.append(" ".join(str(n) for n in [place, number, len(store) - before] + answers))
        at = end
    if at < len(bundle):
        lines.append(f"rest {len(bundle) - at}")
    return "".join(line + "\n" for line in lines)


# ---- sheets


def framed(body):
    return len(body).to_bytes(4, "big") + body


def row(operation, setting, *inputs, count=None):
    n = len(inputs) if count is None else count
    head = operation.to_bytes(2, "big") + setting.to_bytes(2, "big") + bytes([n])
    return head + b"".join(x.to_bytes(2, "big") for x in inputs)


def sheet(*rows, count=None, version=1):
    n = len(rows) if count is None else count
    return framed(bytes([version]) + n.to_bytes(2, "big") + b"".join(rows))


EMPTY = sheet()
A = sheet(row(HOLD, 0, 0))
B = sheet(row(HOLD, 0, 1), row(HOLD, 0, 0))
D = sheet(row(DIFFERENCE, 0, 1, 2), row(CHANNEL, 1), row(CONSTANT, 40))


def drawn(rows, order):
    """The rows, as operation, setting and inputs, written in another order: place k has row order[k]. Store numbers stay."""
    place = {r: k for k, r in enumerate(order)}
    return sheet(*(row(o, s, *(place[x] if x < STORE else x for x in inputs)) for o, s, inputs in (rows[r] for r in order)))


def chain(holds, end):
    """Holds, each of the one before it, upon `end`: a row like the others, or the store's number of one."""
    if isinstance(end, int):
        return [(HOLD, 0, [i - 1 if i else end]) for i in range(holds)]
    return [end] + [(HOLD, 0, [i]) for i in range(holds)]


def ring(rows, labels):
    """A loop of so many holds, each of the next, with a setting for each."""
    return [(HOLD, labels(i), [(i + 1) % rows]) for i in range(rows)]


def shifts(bits, setting):
    """A shift register: row s, of so many bits, shows its first bit and leads to the rest. All trees differ, and few rounds show it."""
    return [(HOLD, setting + (s >> bits - 1), [2 * s % (1 << bits)]) for s in range(1 << bits)]


def wired(rows, many=1):
    """The rows, and so many wires, one on another, before every input, drawn behind them."""
    out = [(o, s, list(inputs)) for o, s, inputs in rows]
    for _, _, inputs in out[:len(rows)]:
        for j in range(len(inputs)):
            for _ in range(many):
                out.append((WIRE, len(out) % 3, [inputs[j]]))
                inputs[j] = len(out) - 1
    return out


def forward(rows):
    return drawn(rows, range(len(rows)))


def reverse(rows):
    return drawn(rows, range(len(rows) - 1, -1, -1))


def shuffled(rows, seed):
    order = list(range(len(rows)))
    random.Random(seed).shuffle(order)
    return drawn(rows, order)


def channels(settings):
    return sheet(*(row(CHANNEL, s) for s in settings))


def chance(rng, rows, most, stored=0):
    """A random graph: few labels, so that trees meet; in one of twelve some inputs are store numbers, as old sheets had them."""
    out, old = [], stored and rng.random() < 0.08
    for _ in range(rows):
        n = rng.randrange(most + 1)
        pick = lambda: STORE + rng.randrange(stored) if old and rng.random() < 0.3 else rng.randrange(rows)
        out.append((rng.choice([CHANNEL, CONSTANT, HOLD]), rng.randrange(2), [pick() for _ in range(n)]))
    return out


# ---- bundles

DEEP = chain(1023, (CHANNEL, 0, []))
OTHER = chain(1023, (CHANNEL, 1, []))


def refusals():
    """Each way to be refused with 3 to 6 and 19, between sheets that are done."""
    hold = row(HOLD, 0, 0)
    return b"".join([
        framed(b""), framed(b"\1"), framed(b"\1\0"), EMPTY,
        sheet(hold, version=0), sheet(hold, version=2), sheet(version=255), sheet(hold, count=9, version=2), A,
        sheet(count=1025), sheet(hold, count=65535), sheet(*[row(CHANNEL, 0)] * 1025),
        sheet(hold, count=2), sheet(hold, count=0), sheet(hold, hold, count=1), sheet(b"\0", count=0),
        sheet(hold, b"\0\6\0"), sheet(row(HOLD, 0)[:4]), sheet(row(HOLD, 0, count=1)), sheet(row(HOLD, 0, count=1) + b"\0"), B,
        sheet(row(SUM, 0, 0, 0, 0, 0)), sheet(row(SUM, 0, 0, 0, 0, 0, 0)), sheet(row(SUM, 0, count=255)),
        sheet(row(HOLD, 0, 1)), sheet(row(HOLD, 0, 32767)), sheet(row(HOLD, 0, STORE + 2)), sheet(row(HOLD, 0, 65535)),
        sheet(row(HOLD, 0, STORE + 1)), sheet(row(HOLD, 0, STORE + 3)), sheet(row(HOLD, 0, STORE)), sheet(row(HOLD, 0, 5), row(HOLD, 0, STORE)),
        sheet(row(HOLD, 0, STORE), row(HOLD, 0, 5)), sheet(row(HOLD, 0, STORE), row(SUM, 0, 0, 0, 0, 0, 0)), sheet(row(HOLD, 0, STORE), version=2),
        sheet(row(HOLD, 0, 5), row(SUM, 0, 0, 0, 0, 0, 0)), sheet(row(HOLD, 0, 5), count=2), sheet(row(CHANNEL, 1), row(SCALE, 3, 0), row(SUM, 0, 1, 2)), D,
    ])


def full():
    """A full store: a new tree is refused with 8, a known one is done, and lower refusals come first."""
    return b"".join([
        channels(range(1024)), channels([1024]), channels([7]), sheet(row(CHANNEL, 3), row(CHANNEL, 5000)), sheet(row(HOLD, 0, 1), row(CHANNEL, 3)),
        sheet(row(HOLD, 0, STORE)), sheet(row(HOLD, 0, STORE + 1024)), sheet(row(CHANNEL, 0), version=3), A, EMPTY, channels(reversed(range(1024))),
        channels([9999]),
    ])


def nearly_full():
    """Room for one tree: it is the distinct new trees that count, not the rows."""
    two_turns_twice = sheet(row(HOLD, 0, 1), row(HOLD, 0, 0), row(HOLD, 0, 3), row(HOLD, 0, 2))
    return b"".join([channels(range(1023)), sheet(row(HOLD, 1, 0), row(HOLD, 2, 0)), two_turns_twice, A, channels([1023]), channels([5, 6, 5])])


def mixed():
    """Known and new rows in one sheet, a difference of old by store numbers and by its rows, swapped inputs, counts without labels."""
    return b"".join([
        D, sheet(row(DIFFERENCE, 0, STORE + 1, STORE + 2)), sheet(row(DIFFERENCE, 0, STORE + 2, STORE + 1)),
        sheet(row(DIFFERENCE, 0, 2, 1), row(CHANNEL, 1), row(CONSTANT, 40)), sheet(row(DIFFERENCE, 0, 1, 2), row(CHANNEL, 1), row(CONSTANT, 40)),
        sheet(row(CHANNEL, 1), row(CHANNEL, 2), row(SUM, 0, 0, 1), row(CHANNEL, 1), row(SUM, 0, 3, 1)),
        sheet(row(HOLD, 0, 1), row(HOLD, 0, 2), row(CHANNEL, 1)), sheet(row(HOLD, 0), row(HOLD, 0, 2), row(CHANNEL, 1)),
        sheet(row(SUM, 0, 0, 1, 2, 3), row(SUM, 0, 1, 0, 3, 2), row(SUM, 0, 2, 2, 2, 2), row(SUM, 0, 3, 1, 0, 0)), EMPTY, D,
    ])


def by_chance(seed, wires=False):
    """Small random sheets, some damaged in one byte past the length field; if asked for, every other one has wires."""
    rng = random.Random(seed)
    store, out = [], b""
    while len(out) < 9000:
        rows = chance(rng, rng.randrange(1, 40), 4, len(store))
        if wires and rng.random() < 0.5:
            rows = wired(rows, rng.randrange(1, 3))
        if wires and rng.random() < 0.3:
            at = rng.randrange(len(rows))
            rows[at] = (WIRE, 0, rows[at][2])
        one = bytearray(shuffled(rows, rng.random()))
        if rng.random() < 0.2:
            one[rng.randrange(4, len(one))] = rng.choice([0, 1, 2, 3, 4, 5, 6, 8, 16, 127, 128, 255])
        insert(store, bytes(one))
        out += bytes(one)
    return out


THREE = [(DIFFERENCE, 0, [1, 2]), (CHANNEL, 1, []), (CONSTANT, 40, [])]
LONG = [(HOLD, 5, [1])] + [(WIRE, 0, [i + 1]) for i in range(1, 1001)] + [(CHANNEL, 3, [])]


def wires():
    """One chain with wires and without, whichever comes first; a wire drawn first; to known rows; 1,000 in a row; settings of 7."""
    loop = [(SUM, 0, [1, 2]), (CHANNEL, 2, []), (HOLD, 0, [0])]
    return b"".join([
        forward(wired(THREE)), forward(THREE), shuffled(wired(THREE, 3), 1), forward(loop), reverse(wired(loop)), shuffled(wired(loop, 2), 2),
        sheet(row(WIRE, 0, 2), row(HOLD, 3, 0), row(CONSTANT, 9)), sheet(row(HOLD, 3, 1), row(CONSTANT, 9)), sheet(row(WIRE, 0, 1), row(CHANNEL, 77)),
        sheet(row(WIRE, 65535, 1), row(CONSTANT, 40)), sheet(row(WIRE, 7, 1), row(WIRE, 0, 2), row(WIRE, 1, 3), row(CHANNEL, 1)),
        sheet(row(WIRE, 1, STORE)), sheet(row(HOLD, 0, 1), row(WIRE, 0, 0)),
        sheet(row(0, 7), row(HOLD, 7, 0), row(HOLD, 7, 2), row(WIRE, 7, 1), row(8, 7, 3)), forward(LONG), reverse(LONG), shuffled(LONG, 3),
    ])


def wire_refusals():
    """14 and 15 among sheets that are done, all of them known after B and D; 19 and 6 come before them."""
    channel, short, own = row(CHANNEL, 1), row(WIRE, 0), row(WIRE, 0, 0)
    return b"".join([
        B, forward(wired(THREE)), sheet(short), sheet(row(WIRE, 9, 1, 1), channel), sheet(row(WIRE, 0, 1, 1, 1), channel),
        sheet(channel, row(WIRE, 0, 0, 0, 0, 0)), sheet(row(HOLD, 0, 1), row(WIRE, 0, 2), row(WIRE, 0)), D,
        sheet(own), sheet(row(WIRE, 1, 1), row(WIRE, 2, 0)), sheet(channel, *(row(WIRE, 0, 1 + (i + 1) % 500) for i in range(500))),
        sheet(row(HOLD, 0, 1), row(WIRE, 0, 2), row(WIRE, 0, 2)), sheet(row(WIRE, 0, 1), row(WIRE, 0, 2), row(WIRE, 0, 1)), A,
        sheet(own, short), sheet(own, row(WIRE, 0, 0, 0)), sheet(short, row(HOLD, 0, 2)), sheet(own, row(HOLD, 0, STORE)),
        sheet(short, version=2), sheet(own, count=2), sheet(row(WIRE, 0, 0, 0, 0, 0, 0)),
        sheet(row(HOLD, 0, 1), row(WIRE, 0, 0)), sheet(row(WIRE, 0, 1), row(CONSTANT, 40)),
    ])


def wires_nearly_full():
    """Room for one tree: a wire takes none, and known trees along wires are done."""
    return b"".join([
        channels(range(1023)), sheet(row(WIRE, 0, 1), row(HOLD, 0, 2), row(WIRE, 0, 3), row(HOLD, 1, 1)), sheet(*[row(WIRE, 0, 9)] * 9, row(HOLD, 0, 5)),
        sheet(row(WIRE, 0, 1), row(HOLD, 0, 0)), sheet(row(WIRE, 0, 1), row(CHANNEL, 1023)), sheet(row(WIRE, 0, 2), row(WIRE, 0, 3), row(HOLD, 0, 2), row(CHANNEL, 0)),
        sheet(row(WIRE, 0)), sheet(row(WIRE, 0, 0), row(CHANNEL, 5000)),
    ])


def exactly():
    """32,768 bytes: 1,024 rows of four inputs twice, and 471 of them."""
    rng = random.Random(5)
    rows = [(SUM, rng.randrange(3), [rng.randrange(1024) for _ in range(4)]) for _ in range(1024)]
    few = [(SUM, rng.randrange(3), [rng.randrange(471) for _ in range(4)]) for _ in range(471)]
    return forward(rows) + shuffled(rows, 6) + forward(few)


def ring_found_late():
    """512 holds in a loop, one of them odd, so that rows are told apart one round after another; then the loop in two turns."""
    odd = lambda i: 1 if i % 512 == 0 else 0
    return forward(ring(512, odd)) + forward(ring(1024, odd)) + shuffled(ring(1024, odd), 1) + reverse(ring(512, odd))


BUNDLES = {
    "b_a_d": lambda: B + A + D,
    "nothing": lambda: b"",
    "one_byte": lambda: b"\0",
    "cut_in_the_length": lambda: A + b"\0\0\0",
    "cut_in_the_sheet": lambda: B + A[:-1],
    "length_of_all_ones": lambda: D + b"\xff\xff\xff\xff" + A,
    "one_byte_too_few": lambda: EMPTY + (7).to_bytes(4, "big") + b"\1\0\0" + b"\0\0\0",
    "exactly_32768": exactly,
    "exactly_32768_with_a_rest": lambda: EMPTY * 4681 + b"\0",
    "long_by_one": lambda: exactly() + b"\0",
    "long_by_a_sheet": lambda: EMPTY * 4682,
    "refusals": refusals,
    "full": full,
    "nearly_full": nearly_full,
    "mixed": mixed,
    "chance_1": lambda: by_chance(1),
    "chance_2": lambda: by_chance(2),
    "chance_3": lambda: by_chance(3),
    "chance_wires": lambda: by_chance(4, wires=True),
    "wires": wires,
    "wire_refusals": wire_refusals,
    "wires_nearly_full": wires_nearly_full,
    "ring_found_late": ring_found_late,
    "ring_two_turns_then_one": lambda: forward(ring(1024, lambda i: i % 512)) + forward(ring(512, lambda i: i)),
    "deep_then_forward": lambda: forward(DEEP) + forward(OTHER),
    "deep_then_reverse": lambda: forward(DEEP) + reverse(OTHER),
    "deep_then_shuffled": lambda: forward(DEEP) + shuffled(OTHER, 2),
    "deep_shuffled_again": lambda: shuffled(DEEP, 3) + forward(DEEP) + reverse(DEEP),
    "two_chains_of_512": lambda: forward(chain(511, (CHANNEL, 0, [])) + [(o, s, [x + 512 for x in i]) for o, s, i in chain(511, (CHANNEL, 0, []))]) + reverse(chain(511, (CHANNEL, 0, []))) + forward(chain(512, (CHANNEL, 0, []))),
    "channels": lambda: channels(range(1024)) + channels(reversed(range(1024))) + channels([1024]),
    "deep_then_empty": lambda: forward(DEEP) + EMPTY * 3656,
    "deep_then_short": lambda: forward(DEEP) + (framed(b"") * 6398),
    "deep_then_known": lambda: forward(DEEP) + channels([0]) * 40 + A * 40,
    "empty_then_full_row_counts": lambda: EMPTY * 3 + b"".join(sheet(*[row(CHANNEL, 1)] * n) for n in (1023, 1024, 1025)),
}

# what the crate's own run covers: done, 3, 4, 5, 6, 8, 14, 15, wires that are skipped, known and new rows together, 19, the empty sheet, bytes left over
OWN = lambda: b"".join([
    refusals(), wire_refusals(), mixed(), forward(shifts(10, 0)), forward(shifts(9, 0)), forward(shifts(9, 2)), shuffled(shifts(9, 0), 4),
    b"".join(forward(shifts(k, 30 - 2 * k)) for k in (8, 7, 6, 5, 4)), sheet(row(HOLD, 0, 1), row(CHANNEL, 4), row(HOLD, 9, 2)),
    channels([5, 6]), channels([5]), channels([6]), A, EMPTY, D, A[:9],
])


def main():
    here = os.path.dirname(os.path.abspath(__file__))
    own = os.path.join(here, "..", "..", "crates", "chains")
    places = [(os.path.join(here, name + ".in"), os.path.join(here, name + ".out"), make) for name, make in BUNDLES.items()]
    for source, target, make in places + [(os.path.join(own, "stdin"), os.path.join(own, "stdout"), OWN)]:
        bundle = make()
        with open(source, "wb") as f:
            f.write(bundle)
        with open(target, "w", encoding="ascii") as f:
            f.write(program(bundle))


if __name__ == "__main__":
    main()
