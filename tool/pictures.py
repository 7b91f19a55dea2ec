"""Pictures of chains: SVG of its own, so that a picture is the same wherever it is drawn; or text for Graphviz."""
import collections
import colorsys

import files
import loops
import sheets
import stores
import words
from layout import Layout, port
from sheets import Row, Sheet

EDGE, HEAD, FOOT, GAP, LANE = 24, 44, 26, 52, 13
LETTER, SMALL = 7.3, 6.3  # about the width of a letter of the two sizes
INK, QUIET, RED = "#222222", "#666666", "#c4161c"
PAPERS = "#fbe0b5 #cfe2f7 #d3edc6 #f7cfd2 #ddd3f4 #fbf3a6 #c3ebe5 #ead3bd #f4c8ec #d5d9dd #dff28f #b9cdf9".split()
CENTRED = " text-anchor='middle'"
STYLE = "font-family='DejaVu Sans, Verdana, Arial, sans-serif'"

# One drawing: its rows with names, numbers and inputs as places among the rows.
Group = collections.namedtuple("Group", "title rows names numbers inputs")


def escape(text):
    return text.replace("&", "&amp;").replace("<", "&lt;").replace(">", "&gt;")


# ---- what is drawn


def groups(desk, given):
    """The sheets of all arguments, inserted into one empty store."""
    run, found = stores.empty(), []
    for argument in given:
        name, wanted = files.parted(argument)
        file = files.load(name, desk)
        for sheet in [files.one_sheet(file)] if wanted else file.sheets:
            group, run = one_group(desk, argument, file, sheet, wanted, run)
            found.append(group)
    return found


def one_group(desk, argument, file, sheet, wanted, run):
    title = argument if wanted else sheet.title
    if wanted:
        sheet = reached_from(desk, argument, file, sheet, wanted)
    done = files.inserted(sheet, run, desk)
    rows = sheets.rows_of(sheet.data)
    names = [sheet.name(row) for row in range(len(rows))]
    return Group(title, rows, names, done.answers[: len(rows)], [list(row.inputs) for row in rows]), done.store


def reached_from(desk, argument, file, sheet, wanted):
    """The rows that one row leads to, as a sheet of their own."""
    files.inserted(sheet, stores.empty(), desk)  # every input points somewhere
    rows = sheets.rows_of(sheet.data)
    if file.store:
        start = files.number_in(wanted, argument)
        number, _ = desk.asks.part_of(file.store.words, start, start)
        files.refuse_row(number, [files.Chain(argument, file.store.words, start)])
    else:
        start = files.place_in(sheet, wanted, argument)
    kept = sorted(loops.reached([start], [row.inputs for row in rows]))
    place = {row: at for at, row in enumerate(kept)}
    chosen = [Row(rows[row].label, tuple(place[entry] for entry in rows[row].inputs)) for row in kept]
    return Sheet(argument, sheets.lay_out(chosen), file.name, names=[sheet.name(row) for row in kept])


def colours(found):
    """A colour for each number that stands on more than one box."""
    times = collections.Counter(number for group in found for number in group.numbers)
    shared = [number for number in dict.fromkeys(number for group in found for number in group.numbers) if times[number] > 1]
    return {number: colour(at) for at, number in enumerate(shared)}


def colour(at):
    """Pale colours that lie far from each other; after the chosen ones they are reckoned."""
    if at < len(PAPERS):
        return PAPERS[at]
    hue = (0.08 + at * 0.618034) % 1
    light = (0.82, 0.72, 0.90)[at // 8 % 3]
    return "#" + "".join(f"{round(255 * part):02x}" for part in colorsys.hls_to_rgb(hue, light, 0.72))


def label_text(label):
    if words.operation_of(label) == words.SCALE:
        return f"{words.label_words(label)} (× {words.setting_of(label) / 256:g})"
    return words.label_words(label)


# ---- SVG


class Picture:
    def __init__(self, found):
        self.colours = colours(found)
        self.parts, self.wide, self.y = [], 0.0, float(EDGE)
        for group in found:
            self.group(group)
        self.legend(found)

    def text(self, x, y, words_, size=12, ink=INK, more=""):
        self.parts.append(f"<text x='{x:.1f}' y='{y:.1f}' font-size='{size}' fill='{ink}'{more}>{escape(words_)}</text>")

    def group(self, group):
        layout = Layout(group.rows, group.inputs)
        distinct = len(set(group.numbers))
        self.text(EDGE, self.y + 12, group.title, 15, INK, " font-weight='bold'")
        trees = f"{words.counted(len(group.rows), 'row')}, {words.counted(distinct, 'number')}"
        self.text(EDGE + LETTER * 1.35 * len(group.title) + 14, self.y + 12, trees, 12, QUIET)
        top = self.y + HEAD
        lefts, widths = self.measure(group, layout)
        lanes = self.lanes(layout)
        for (row, place), passed in layout.lines.items():
            self.line(layout, row, place, passed, lefts, widths, top)
        for at, (row, place) in enumerate(lanes):
            self.back_line(layout, (row, place), at, lefts, widths, top)
        for node in layout.boxes:
            self.box(group, layout, node, lefts, widths, top)
        self.wide = max(self.wide, lefts[-1] + widths[-1] + GAP if lefts else 0, EDGE * 2 + LETTER * 1.4 * len(group.title) + 160)
        self.y = top + layout.high + (len(lanes) * LANE + 12 if lanes else 0) + FOOT

    def measure(self, group, layout):
        """The left edge and the width of each column."""
        widths = []
        for column in layout.columns:
            rows = [node.row for node in column if node.row is not None]
            widths.append(max(self.width(group, row) for row in rows) if rows else 0)
        lefts, x = [], EDGE + (GAP / 2 if layout.back else 0)
        for width in widths:
            lefts.append(x)
            x += width + GAP
        return lefts, widths

    @staticmethod
    def width(group, row):
        if loops.is_wire(group.rows[row]):
            return LETTER * len(label_text(group.rows[row].label)) + SMALL * len(group.names[row]) + 22
        signs = 14 if words.operation_of(group.rows[row].label) == words.DIFFERENCE else 0
        return max(72.0, LETTER * len(label_text(group.rows[row].label)) + 18, SMALL * len(group.names[row]) + 18) + signs

    @staticmethod
    def lanes(layout):
        """Lines that run back, the shortest nearest to the boxes."""
        return sorted(
            layout.back,
            key=lambda line: (abs(layout.column[layout.inputs[line[0]][line[1]]] - layout.column[line[0]]), line),
        )

    def ends(self, layout, row, place, lefts, widths, top):
        """Where a line leaves the box of its input, and where it comes into its row."""
        entry = layout.boxes[layout.inputs[row][place]]
        node = layout.boxes[row]
        start = lefts[entry.column] + widths[entry.column], top + entry.y
        return start, (lefts[node.column], top + node.y + port(place, len(layout.inputs[row])))

    def ink(self, layout, row, entry):
        return RED if row in layout.red_rows and entry in layout.red_rows else INK

    def line(self, layout, row, place, passed, lefts, widths, top):
        (x, y), (to_x, to_y) = self.ends(layout, row, place, lefts, widths, top)
        way = f"M {x:.1f} {y:.1f}"
        for node in passed:
            left, right, middle = lefts[node.column], lefts[node.column] + widths[node.column], top + node.y
            way += curve(x, y, left, middle) + f" H {right:.1f}"
            x, y = right, middle
        way += curve(x, y, to_x, to_y)
        self.stroke(way, self.ink(layout, row, layout.inputs[row][place]), "")
        self.arrow(to_x, to_y, self.ink(layout, row, layout.inputs[row][place]))

    def back_line(self, layout, line, at, lefts, widths, top):
        """Below all boxes, each in a lane of its own, back to where the loop begins."""
        row, place = line
        (x, y), (to_x, to_y) = self.ends(layout, row, place, lefts, widths, top)
        lane = top + layout.high + 14 + LANE * at
        out, back = x + 10 + 5 * (at % 5), to_x - 15 - 5 * (at % 5)
        way = (
            f"M {x:.1f} {y:.1f} H {out - 5:.1f} Q {out:.1f} {y:.1f} {out:.1f} {y + 5:.1f} V {lane - 5:.1f}"
            f" Q {out:.1f} {lane:.1f} {out - 5:.1f} {lane:.1f} H {back + 5:.1f} Q {back:.1f} {lane:.1f} {back:.1f} {lane - 5:.1f}"
            f" V {to_y + 5:.1f} Q {back:.1f} {to_y:.1f} {back + 5:.1f} {to_y:.1f} H {to_x:.1f}"
        )
        ink = self.ink(layout, row, layout.inputs[row][place])
        self.stroke(way, ink, "" if ink == RED else " stroke-dasharray='5 3'")
        self.arrow(to_x, to_y, ink)

    def stroke(self, way, ink, more):
        self.parts.append(f"<path d='{way}' fill='none' stroke='{ink}' stroke-width='1.3'{more}/>")

    def arrow(self, x, y, ink):
        self.parts.append(f"<path d='M {x:.1f} {y:.1f} l -7 -3.2 v 6.4 z' fill='{ink}'/>")

    def box(self, group, layout, node, lefts, widths, top):
        row = group.rows[node.row]
        x, y, width = lefts[node.column], top + node.y - node.high / 2, widths[node.column]
        ink = RED if node.row in layout.red_rows else INK
        number = group.numbers[node.row]
        paper = self.colours.get(number, "#ffffff")
        round_ = 17 if loops.is_hold(row) else 3
        self.parts.append(
            f"<rect x='{x:.1f}' y='{y:.1f}' width='{width:.1f}' height='{node.high}' rx='{round_}' fill='{paper}' stroke='{ink}' stroke-width='1.3'/>"
        )
        signed = words.operation_of(row.label) == words.DIFFERENCE and len(row.inputs) == 2
        middle = x + width / 2 + (5 if signed else 0)
        if loops.is_wire(row):
            self.wire_words(row, group.names[node.row], middle, y + 14, ink)
        else:
            self.text(middle, y + 16, label_text(row.label), 12, ink, CENTRED)
            self.text(middle, y + 31, group.names[node.row], 11, QUIET, CENTRED + " font-style='italic'")
        self.text(x + 2, y - 5, str(number), 11, QUIET)
        for place, sign in enumerate("+−") if signed else ():
            self.text(x + 5, y + node.high / 2 + port(place, 2) + 4, sign, 12, ink)

    def wire_words(self, row, name, middle, y, ink):
        """A wire's box is thin: label and name stand in one line."""
        quiet = f"<tspan font-size='11' fill='{QUIET}' font-style='italic'>{escape(name)}</tspan>"
        self.parts.append(f"<text x='{middle:.1f}' y='{y:.1f}' font-size='12' fill='{ink}'{CENTRED}>{label_text(row.label)} {quiet}</text>")

    def legend(self, found):
        said = []
        if self.colours:
            said.append("one colour: one chain, one number")
        if any(loops.is_hold(row) for group in found for row in group.rows):
            said.append("dashed: back through a hold, one tick later")
        if any(Layout(group.rows, group.inputs).red_rows for group in found):
            said.append("red: a loop without a hold")
        if any(loops.is_wire(row) for group in found for row in group.rows):
            said.append("thin: a wire, with the number of what it leads to")
        if said:
            line = "; ".join(said)
            self.text(EDGE, self.y, line, 11, QUIET)
            self.wide = max(self.wide, EDGE * 2 + SMALL * len(line))
            self.y += 20


def curve(x, y, to_x, to_y):
    bend = (to_x - x) / 2
    return f" C {x + bend:.1f} {y:.1f} {to_x - bend:.1f} {to_y:.1f} {to_x:.1f} {to_y:.1f}"


def svg(found):
    picture = Picture(found)
    wide, high = round(picture.wide), round(picture.y)
    head = f"<svg xmlns='http://www.w3.org/2000/svg' width='{wide}' height='{high}' viewBox='0 0 {wide} {high}' {STYLE}>"
    title = f"<title>{escape(', '.join(group.title for group in found))}</title>"
    paper = f"<rect width='{wide}' height='{high}' fill='#ffffff'/>"
    return "\n".join([head, title, paper, *picture.parts, "</svg>"]) + "\n"


# ---- Graphviz


def quoted(text):
    return '"' + text.replace("\\", "\\\\").replace('"', '\\"') + '"'


def dot(found):
    paper = colours(found)
    lines = ["digraph chains {", "  rankdir=LR;", "  node [shape=box, style=filled, fillcolor=white];"]
    for at, group in enumerate(found):
        lines += [f"  subgraph cluster{at} {{", f"    label={quoted(group.title)};"]
        for place, row in enumerate(group.rows):
            between = " " if loops.is_wire(row) else "\\n"
            label = quoted(f"{group.numbers[place]}: {label_text(row.label)}")[:-1] + between + quoted(group.names[place])[1:]
            filled = f", fillcolor={quoted(paper[group.numbers[place]])}" if group.numbers[place] in paper else ""
            shape = ', style="filled,rounded"' if loops.is_hold(row) else ", height=0.2" if loops.is_wire(row) else ""
            lines.append(f"    g{at}r{place} [label={label}{filled}{shape}];")
        for place, entries in enumerate(group.inputs):
            for which, entry in enumerate(entries):
                lines.append(f"    g{at}r{entry} -> g{at}r{place} [headlabel={quoted(str(which))}];")
        lines.append("  }")
    return "\n".join(lines + ["}"]) + "\n"
