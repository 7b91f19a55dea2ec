"""Counts and outputs over the ticks of a trace, as SVG of its own: channels thin, chains in colour, equal outputs as one line."""
import collections

import words
from pictures import EDGE, INK, QUIET, SMALL, STYLE, escape

WIDE, HIGH = 640, 320  # of the field that the lines are in
TOP, FOOT, GAP = 54, 40, 14
PALE = "#e4e4e4"
LINES = "#1f5fa8 #c4541a #2a7d3f #8a3fa0 #a8162b #0f7f86 #7a5c14 #3a3a3a".split()

# A label, the counts, the colour, and the width of the line.
Line = collections.namedtuple("Line", "label counts ink wide")


def lines_of(trace, outputs):
    """The channels that have a column, and a line for each different output with the names of its chains."""
    found = []
    for channel, place in sorted(trace.columns.items()):
        counts = trace.values[channel :: trace.channels]
        found.append(Line(trace.head[place].strip(), counts, QUIET, 0.8))
    shared = {}
    for title, counts in outputs.items():
        shared.setdefault(tuple(counts), []).append(title)
    for at, (counts, titles) in enumerate(shared.items()):
        found.append(Line(", ".join(titles), counts, LINES[at % len(LINES)], 1.8))
    return found


def steps(low, high, about):
    """Round numbers over a range, some five of them: 1, 2 or 5 and zeros apart."""
    least, step = max((high - low) / about, 1), 1
    while step < least:
        step = step * 5 // 2 if str(step)[0] == "2" else step * 2
    return list(range(-(-low // step) * step, high + 1, step))


def apart(places):
    """Places for the labels, as near to their lines as can be and a line of text from each other."""
    order = sorted(range(len(places)), key=lambda at: places[at])
    found, least = [0.0] * len(places), float("-inf")
    for at in order:
        found[at] = least = max(places[at], least + GAP)
    most = TOP + HIGH + FOOT - 8.0
    for at in reversed(order):
        found[at] = most = min(found[at], most)
        most -= GAP
    return found


class Plot:
    def __init__(self, trace, outputs):
        self.lines = lines_of(trace, outputs)
        self.ticks = len(trace.lines)
        every = [count for line in self.lines for count in line.counts]
        self.low, self.high = min(every, default=0), max(every, default=0)
        if self.low == self.high:
            self.low, self.high = self.low - 1, self.high + 1
        self.levels = steps(self.low, self.high, 5)
        self.left = EDGE + SMALL * max(len(f"{level:,}") for level in self.levels or [0]) + 8
        self.parts = []
        self.title(trace.name)
        self.grid()
        for line in self.lines if self.ticks else ():
            self.line(line)
        self.labels()

    def text(self, x, y, words_, size=11, ink=QUIET, more=""):
        self.parts.append(f"<text x='{x:.1f}' y='{y:.1f}' font-size='{size}' fill='{ink}'{more}>{escape(words_)}</text>")

    def x(self, tick):
        return self.left + WIDE * tick / max(self.ticks - 1, 1)

    def y(self, count):
        return TOP + HIGH * (self.high - count) / (self.high - self.low)

    def title(self, name):
        self.text(EDGE, EDGE + 6, name, 15, INK, " font-weight='bold'")
        self.text(EDGE + 10 * len(name) + 14, EDGE + 6, words.counted(self.ticks, "tick"), 12)

    def grid(self):
        """Levels across with their numbers, ticks below."""
        for level in self.levels:
            y = self.y(level)
            self.parts.append(f"<path d='M {self.left:.1f} {y:.1f} h {WIDE}' stroke='{PALE}' stroke-width='1'/>")
            self.text(self.left - 6, y + 4, f"{level:,}", more=" text-anchor='end'")
        for tick in steps(0, max(self.ticks - 1, 0), 8):
            x = self.x(tick)
            self.parts.append(f"<path d='M {x:.1f} {TOP + HIGH} v 5' stroke='{QUIET}' stroke-width='1'/>")
            self.text(x, TOP + HIGH + 18, f"{tick:,}", more=" text-anchor='middle'")
        self.text(self.left + WIDE / 2, TOP + HIGH + 34, "tick", more=" text-anchor='middle'")

    def line(self, line):
        points = " ".join(f"{self.x(tick):.1f},{self.y(count):.1f}" for tick, count in enumerate(line.counts))
        if self.ticks == 1:
            self.parts.append(f"<circle cx='{self.x(0):.1f}' cy='{self.y(line.counts[0]):.1f}' r='{line.wide + 1}' fill='{line.ink}'/>")
        else:
            self.parts.append(f"<polyline points='{points}' fill='none' stroke='{line.ink}' stroke-width='{line.wide}'/>")

    def labels(self):
        """At the right of each line's end; with no ticks one under another."""
        ends = [self.y(line.counts[-1]) if self.ticks else TOP for line in self.lines]
        for line, y in zip(self.lines, apart(ends)):
            self.text(self.left + WIDE + 8, y + 4, line.label, 11, line.ink)

    def svg(self):
        longest = max(len(line.label) for line in self.lines)
        wide, high = round(self.left + WIDE + 8 + SMALL * longest + EDGE), TOP + HIGH + FOOT + EDGE // 2
        head = f"<svg xmlns='http://www.w3.org/2000/svg' width='{wide}' height='{high}' viewBox='0 0 {wide} {high}' {STYLE}>"
        paper = f"<rect width='{wide}' height='{high}' fill='#ffffff'/>"
        return "\n".join([head, paper, *self.parts, "</svg>"]) + "\n"


def svg(trace, outputs):
    return Plot(trace, outputs).svg()
