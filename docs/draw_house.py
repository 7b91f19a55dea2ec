#!/usr/bin/env python3
"""Draws the house: docs/house.svg, from crates.txt and the crates' own files.

    docs/draw_house.py           writes docs/house.svg
    docs/draw_house.py --check   says whether it is as it would be drawn now, and whether a line in it crosses a box (status 1 if so)

The house is what makes the promises: the crates of PUBLIC, every crate of definitions and laws alone, and whatever these use. All other
crates are there to test and to run, and stand in the wing. A crate stands one floor above the highest crate that it uses, or right below
its users where that makes its lines shorter. A line goes to each crate that it uses and does not reach through another; on a floor that
a line passes it has a place of its own between the boxes. The wing's lines stay in the wing: a box there names what it uses of the house.
"""
import pathlib
import re
import sys

ROOT = pathlib.Path(__file__).resolve().parent.parent
PICTURE = ROOT / "docs" / "house.svg"
PUBLIC = ["register", "bundle", "face", "chains"]
WIDE, BROAD, HIGH, GAP, RISE, EDGE, SLOT = 88, 138, 30, 18, 66, 20, 14
PAPER = {"laws": "#e8eef7", "code": "#e6f2e3", "program": "#f8ecd8"}
KINDS = {
    "laws": "definitions and laws, no code",
    "code": "code with its proofs",
    "program": "a program",
}
NOTES = [
    "A line leads to a crate that is used. What is",
    "used through another crate has no line.",
    "In the wing, “on” names what is used of the house.",
]


# ---- the crates, and the part that each belongs to


def read_crates():
    """Each crate and those that it uses, without the kit's. A line is `NAME: CRATE ..`, of a static library `NAME staticlib: CRATE ..`."""
    uses = {}
    for line in (ROOT / "crates.txt").read_text().splitlines():
        name, _, below = line.partition("#")[0].partition(":")
        if name.strip():
            uses[name.split()[0]] = below.split()
    return {name: [c for c in below if c in uses] for name, below in uses.items()}


def kind_of(name):
    src = ROOT / "crates" / name / "src"
    if (src / "main.rt").exists():
        return "program"
    lines = [l.strip() for f in src.glob("**/*.rt") for l in f.read_text().splitlines()]
    return "code" if any(l and not l.startswith(("//", "#![")) for l in lines) else "laws"


def reached(name, uses):
    found = set()
    for below in uses[name]:
        found |= {below} | reached(below, uses)
    return found


def direct(name, uses):
    """The crates that it uses and does not reach through another."""
    return [b for b in uses[name] if not any(b in reached(o, uses) for o in uses[name] if o != b)]


def house_of(uses):
    roots = [n for n in uses if n in PUBLIC or kind_of(n) == "laws"]
    return {n for r in roots for n in {r} | reached(r, uses)}


# ---- floors, and a place on each floor that a line passes


def floors_of(names, lines):
    floor = {}
    left = list(names)
    while left:  # a crate may be listed before those that it uses
        ready = [n for n in left if all(b in floor for b in lines[n])]
        for name in ready:
            floor[name] = max((floor[b] + 1 for b in lines[name]), default=0)
        left = [n for n in left if n not in floor]
    for name in sorted(names, key=lambda n: -floor[n]):
        users = [n for n in names if name in lines[n]]
        if len(users) > len(lines[name]):
            floor[name] = min(floor[u] for u in users) - 1
    return floor


def paths_of(names, lines, floor):
    """Each line as the places that it goes through, from the user down: a box is its name, a place on a floor (user, used, floor)."""
    paths = []
    for name in names:
        for below in lines[name]:
            between = [(name, below, f) for f in range(floor[name] - 1, floor[below], -1)]
            paths.append([name, *between, below])
    return paths


def rows_of(names, paths, floor):
    rows = [[] for _ in range(max(floor.values()) + 1)]
    for name in names:
        rows[floor[name]].append(name)
    for path in paths:
        for place in path[1:-1]:
            rows[place[2]].append(place)
    return rows


def neighbours(paths):
    near = {}
    for path in paths:
        for upper, lower in zip(path, path[1:]):
            near.setdefault(upper, ([], []))[1].append(lower)
            near.setdefault(lower, ([], []))[0].append(upper)
    return near


# ---- the order on each floor: few lines that cross


def crossings(rows, near):
    count = 0
    for upper, lower in zip(rows[1:], rows):
        at = {p: i for i, p in enumerate(lower)}
        ends = [(i, at[q]) for i, p in enumerate(upper) for q in near.get(p, ([], []))[1]]
        count += sum((a - c) * (b - d) < 0 for k, (a, b) in enumerate(ends) for c, d in ends[:k])
    return count


def sweep(rows, near, side):
    """Every floor in turn by the middle of what it stands on (side 1) or of what stands on it (side 0)."""
    at = {}
    for row in rows if side else rows[::-1]:
        middle = {}
        for i, place in enumerate(row):
            seen = [at[q] for q in near.get(place, ([], []))[side]]
            middle[place] = sum(seen) / len(seen) if seen else (i + 0.5) / len(row)
        row.sort(key=lambda p: middle[p])
        for i, place in enumerate(row):
            at[place] = (i + 0.5) / len(row)


def swap(rows, near):
    """Two places side by side are exchanged where fewer lines cross then."""
    least = crossings(rows, near)
    for row in rows:
        for i in range(len(row) - 1):
            row[i], row[i + 1] = row[i + 1], row[i]
            now = crossings(rows, near)
            if now < least:
                least = now
            else:
                row[i], row[i + 1] = row[i + 1], row[i]


def ordered(rows, near):
    best = None
    for turn in range(16):
        sweep(rows, near, turn % 2 == 0)
        swap(rows, near)
        now = crossings(rows, near)
        if best is None or now < best[0]:
            best = (now, [list(row) for row in rows])
    return best[1]


# ---- where each place stands


def apart(wanted, gaps):
    """Positions as near as can be to the wanted ones (weight, position), at least these gaps apart, in the same order."""
    offsets = [0]
    for gap in gaps:
        offsets.append(offsets[-1] + gap)
    blocks = []  # weight, sum, members: a block is pushed into one where it would run into the one before
    for (weight, at), offset in zip(wanted, offsets):
        blocks.append([weight, weight * (at - offset), 1])
        while len(blocks) > 1 and blocks[-2][1] / blocks[-2][0] > blocks[-1][1] / blocks[-1][0]:
            last = blocks.pop()
            blocks[-1] = [a + b for a, b in zip(blocks[-1], last)]
    starts = [total / weight for weight, total, members in blocks for _ in range(members)]
    return [start + offset for start, offset in zip(starts, offsets)]


def width_of(place, wide):
    return wide if isinstance(place, str) else SLOT


def positions(rows, near, wide):
    at = {}
    for row in rows:
        x = 0
        for place in row:
            at[place] = x + width_of(place, wide) / 2
            x += width_of(place, wide) + GAP
    for turn in range(600):
        for row in rows if turn % 2 else rows[::-1]:
            wanted = []
            for place in row:
                ends = [q for side in near.get(place, ([], [])) for q in side]
                weights = [32 if isinstance(place, tuple) and isinstance(q, tuple) else 2 for q in ends]
                total = sum(weights)
                middle = sum(w * at[q] for w, q in zip(weights, ends)) / total if total else at[place]
                wanted.append((total or 1, middle))
            gaps = [(width_of(p, wide) + width_of(q, wide)) / 2 + GAP for p, q in zip(row, row[1:])]
            at.update(zip(row, apart(wanted, gaps)))
    left = min(at[p] - width_of(p, wide) / 2 for p in at)
    return {p: x - left for p, x in at.items()}


class Part:
    """The house or the wing: its rows from the ground up, and where its places stand, from its own left edge."""

    def __init__(self, names, lines, wide, high):
        self.wide, self.high = wide, high
        self.floor = floors_of(names, lines)
        self.paths = paths_of(names, lines, self.floor)
        self.near = neighbours(self.paths)
        self.rows = ordered(rows_of(names, self.paths, self.floor), self.near)
        self.at = positions(self.rows, self.near, wide)
        self.width = max(x + width_of(p, wide) / 2 for p, x in self.at.items())

    def move(self, left, ground):
        """`ground` is the foot of the lowest floor."""
        self.at = {p: x + left for p, x in self.at.items()}
        self.ground = ground

    def top(self, place):
        floor = self.floor[place] if isinstance(place, str) else place[2]
        return self.ground - self.high - floor * RISE

    def end(self, place, other, side):
        """Where a line meets a box: the lines on one side of it stand beside each other in the order of what they lead to."""
        ends = sorted(set(self.near[place][side]), key=lambda q: (self.at[q], str(q)))
        step = min(16, (self.wide - 16) / len(ends))
        return self.at[place] + (ends.index(other) - (len(ends) - 1) / 2) * step


# ---- the picture


def curve(points):
    """Down through the points, two by two: a bow between floors, straight past a floor."""
    words = [f"M{points[0][0]:.0f} {points[0][1]:.0f}"]
    for i, ((x1, y1), (x2, y2)) in enumerate(zip(points, points[1:])):
        middle = (y1 + y2) / 2
        words.append(f"L{x2:.0f} {y2:.0f}" if i % 2 else f"C{x1:.0f} {middle:.0f} {x2:.0f} {middle:.0f} {x2:.0f} {y2:.0f}")
    return " ".join(words)


def line(part, path):
    points = [(part.end(path[0], path[1], 1), part.top(path[0]) + part.high)]
    for place in path[1:-1]:
        points += [(part.at[place], part.top(place)), (part.at[place], part.top(place) + part.high)]
    points.append((part.end(path[-1], path[-2], 0), part.top(path[-1]) - 2))
    return f'<path id="{path[0]}-{path[-1]}" d="{curve(points)}" marker-end="url(#tip)"/>'


def box(name, x, top, wide, high, words=""):
    paper, text = PAPER[kind_of(name)], top + high / 2 + 4 - (6 if words else 0)
    out = (
        f'<rect id="{name}" x="{x - wide / 2:.0f}" y="{top:.0f}" width="{wide}" height="{high}" rx="5" fill="{paper}" stroke="#556"/>'
        f'<text x="{x:.0f}" y="{text:.0f}">{name}</text>'
    )
    return out + (f'<text x="{x:.0f}" y="{text + 14:.0f}" font-size="10">{words}</text>' if words else "")


def named(name, uses, house):
    """What a crate of the wing uses of the house, in words."""
    below = [b for b in direct(name, uses) if b in house]
    return "on " + ", ".join(below) if below else ""


def wing_parts(uses, wing):
    """The crates that lines join, and those that stand alone, two side by side."""
    lines = {n: [b for b in direct(n, uses) if b in wing] for n in wing}
    joined = [n for n in wing if lines[n] or any(n in lines[o] for o in wing)]
    loose = [n for n in wing if n not in joined]
    return joined, lines, [loose[i : i + 2] for i in range(0, len(loose), 2)]


def draw_wing(uses, house, left, ground):
    wing = [n for n in uses if n not in house]
    joined, lines, pairs = wing_parts(uses, wing)
    high, out, bows = HIGH + 10, [], []
    wide, top = 2 * BROAD + GAP, ground
    if joined:
        part = Part(joined, lines, BROAD, high)
        part.move(left + EDGE, ground)
        bows = [line(part, p) for p in part.paths]
        out = [box(n, part.at[n], part.top(n), BROAD, high, named(n, uses, house)) for n in joined]
        wide, top = max(wide, part.width), ground - high - (len(part.rows) - 1) * RISE
    for pair in pairs:
        top -= high + GAP
        for i, name in enumerate(pair):
            x = left + EDGE + wide / 2 + (i - (len(pair) - 1) / 2) * (BROAD + GAP)
            out.append(box(name, x, top, BROAD, high, named(name, uses, house)))
    panel = (
        f'<rect x="{left:.0f}" y="{top - 44:.0f}" width="{wide + 2 * EDGE:.0f}" height="{ground - top + 44 + EDGE:.0f}" rx="8" fill="#f6f6f4" stroke="#ccc"/>'
        f'<text x="{left + EDGE:.0f}" y="{top - 18:.0f}" text-anchor="start" font-weight="bold">The wing: tests and runs</text>'
    )
    return [panel] if wing else [], bows, out, left + wide + 2 * EDGE if wing else left


def legend(left, top):
    out = [f'<text x="{left:.0f}" y="{top + 12:.0f}" text-anchor="start" font-weight="bold">The house</text>']
    for i, (kind, words) in enumerate(KINDS.items()):
        y = top + 26 + i * 22
        out.append(f'<rect x="{left:.0f}" y="{y:.0f}" width="16" height="16" rx="3" fill="{PAPER[kind]}" stroke="#556"/>')
        out.append(f'<text x="{left + 24:.0f}" y="{y + 13:.0f}" text-anchor="start">{words}</text>')
    for i, words in enumerate(NOTES):
        y = top + 26 + 22 * len(KINDS) + 14 + i * 17
        out.append(f'<text x="{left:.0f}" y="{y:.0f}" text-anchor="start">{words}</text>')
    return out


def draw():
    uses = read_crates()
    house = house_of(uses)
    part = Part([n for n in uses if n in house], {n: direct(n, uses) for n in uses}, WIDE, HIGH)
    ground = EDGE + HIGH + (len(part.rows) - 1) * RISE
    part.move(EDGE, ground)
    right = EDGE + part.width + 2 * EDGE
    panel, bows, wing, width = draw_wing(uses, house, right, ground)
    lines = [line(part, p) for p in part.paths] + bows
    boxes = [box(n, part.at[n], part.top(n), WIDE, HIGH) for n in uses if n in house] + wing
    head = (
        f'<svg xmlns="http://www.w3.org/2000/svg" viewBox="0 0 {max(width, right + 300) + EDGE:.0f} {ground + 2 * EDGE:.0f}" '
        'font-family="sans-serif" font-size="13" text-anchor="middle">'
    )
    tip = (
        '<defs><marker id="tip" viewBox="0 0 8 8" refX="7" refY="4" markerWidth="7" markerHeight="7" orient="auto">'
        '<path d="M0 0 L8 4 L0 8 Z" fill="#667"/></marker></defs>'
    )
    note = "<title>The crates: each uses those below it that a line leads to, and what they use.</title>"
    paper = '<rect width="100%" height="100%" fill="#fff"/>'
    return "\n".join(
        [head, note, tip, paper, *panel, '<g fill="none" stroke="#889">', *lines, "</g>", *boxes, *legend(right, EDGE), "</svg>", ""]
    )


# ---- the check: no line crosses a box that it does not belong to


def points_on(path):
    """The ends of short straight pieces that a path is made of."""
    points = []
    for letter, numbers in re.findall(r"([MLC])([^MLC]*)", path):
        n = [float(w) for w in numbers.split()]
        if letter == "C":
            x0, y0 = points[-1]
            for i in range(1, 33):
                t, s = i / 32, 1 - i / 32
                weights = [s * s * s, 3 * s * s * t, 3 * s * t * t, t * t * t]
                points.append(tuple(sum(w * v for w, v in zip(weights, [o, *n[k::2]])) for k, o in enumerate((x0, y0))))
        else:
            points.append((n[0], n[1]))
    return points


def crosses(a, b, area):
    """Whether the piece from a to b meets the area: the part of it that is inside all four edges is not empty."""
    low, high = 0.0, 1.0
    for k in (0, 1):
        step = b[k] - a[k]
        near, far = area[k] - a[k], area[k] + area[k + 2] - a[k]
        if step == 0:
            if near > 0 or far < 0:
                return False
        else:
            low = max(low, min(near / step, far / step))
            high = min(high, max(near / step, far / step))
    return low <= high


def crossed(picture):
    """Each line and box of a picture that cross, and are not a line and its own end."""
    boxes = re.findall(r'<rect id="([^"]+)" x="([^"]+)" y="([^"]+)" width="([^"]+)" height="([^"]+)"', picture)
    areas = {name: tuple(float(n) for n in numbers) for name, *numbers in boxes}
    for ends, path in re.findall(r'<path id="([^"]+)" d="([^"]+)"', picture):
        points = points_on(path)
        for name, area in areas.items():
            if name not in ends.split("-") and any(crosses(a, b, area) for a, b in zip(points, points[1:])):
                yield ends, name


def check():
    picture = PICTURE.read_text() if PICTURE.exists() else ""
    found = [f"the line from {ends.replace('-', ' to ')} crosses the box {name}" for ends, name in crossed(picture)]
    if picture != draw():
        found.append("the picture docs/house.svg is not as crates.txt has it: run docs/draw_house.py")
    if found:
        sys.exit("\n".join(found))


def main():
    words = sys.argv[1:]
    if words == ["--check"]:
        check()
    elif words:
        sys.exit(__doc__)
    else:
        PICTURE.write_text(draw())


if __name__ == "__main__":
    main()
