"""A refusal explained: in figures, in the drawer's own words, and in the bytes. What is said here stands beside the answer of asks."""
import loops
import sheets
import stores
import text
import words
from faults import Refused
from sheets import STORE

SHOWN = 8  # so many rows of a loop are named
MOST_CHANNELS = 8  # of a tick


def refused(sheet, number, place, run, store):
    """The refusal of a sheet, from the number and the place that asks gave."""
    if number in (1, 2):
        return stores.refused(number, run, store)
    meaning = words.NUMBERS[number][0]
    figures, row, inputs, span = FIGURES[number](sheet, place, run)
    figures, *advice = [figures] if isinstance(figures, str) else figures
    lines = [f"{sheet.title}: refused {number}: {meaning}", f"  {figures}"]
    members = {**sheet.members(), "number": number, "words": meaning, "place": place, "figures": figures}
    if row is not None:
        shown, column = marked(sheet, row, inputs)
        lines += [f"    {line}" for line in shown]
        members["row"] = row
        if sheet.drawn:
            members.update(line=sheet.drawn[row].number, column=column)
    if span:
        lines.append(f"  byte {span[0]}:")
        lines += sheets.dump(sheet.data, *span)
    return Refused(lines + [f"  {line}" for line in advice], **members)


# ---- what each number means here: the sentence, the row, its input, the bytes


def wrong_length(sheet, place, run):
    data = sheet.data
    if len(data) < sheets.HEAD:
        return f"the sheet has {words.counted(len(data), 'byte')}, and {sheets.HEAD} is the least", None, None, (0, len(data) - 1)
    said = int.from_bytes(data[:4], "big")
    return f"the length field says {said:,}, and {len(data) - 4:,} bytes follow it", None, None, (0, 3)


def wrong_version(sheet, place, run):
    return f"the version is {sheet.data[4]}", None, None, (4, 4)


def wrong_rows(sheet, place, run):
    data, count = sheet.data, sheets.row_count(sheet.data)
    if place == 5:
        return f"the row count is {count:,}, and {stores.MOST_ROWS:,} is the most", None, None, (5, 6)
    before = len(sheets.placed_rows(data, place))
    last = f"; the last good row is row {before - 1}" if before else ""
    if before >= count:
        left = len(data) - place
        verb = "is" if left == 1 else "are"
        return f"{words.counted(left, 'byte')} {verb} left over from byte {place} on{last}", None, None, (place, len(data) - 1)
    row = before if sheet.drawn else None
    if place + 4 < len(data) and data[place + 4] > stores.ROW_WORDS - 2:
        return f"row {before} (byte {place}) has {data[place + 4]} inputs{last}", row, None, (place, place + 4)
    what = "file" if sheet.title == sheet.file else "sheet"
    return f"row {before} of {count:,} starts at byte {place}, and the {what} ends at {len(data)}{last}", row, None, (place, len(data) - 1)


def points_nowhere(sheet, place, run):
    rows = sheets.placed_rows(sheet.data)
    row = max(at for at, (start, _) in enumerate(rows) if start < place)
    which = (place - rows[row][0] - 5) // 2
    entry = rows[row][1].inputs[which]
    if entry >= STORE:
        where = f"row {entry - STORE:,} of the store, which has {run[0]:,}"
    else:
        where = f"row {entry:,} of this sheet, which has {len(rows):,}"
    return f"row {row}, input {which}: {where}", row, which, (place, place + 1)


def no_room(sheet, place, run):
    return f"{stores.used(run)}, and the sheet brings more new ones than are left", None, None, None


def few_answers(sheet, place, run):
    return f"the sheet has {words.counted(sheets.row_count(sheet.data), 'row')}", None, None, None


def names_store(sheet, place, run):
    """The first input that names a row of a store: asks gives no place for it, so the bytes are found here."""
    rows = sheets.placed_rows(sheet.data)
    found = [(at, which) for at, (_, row) in enumerate(rows) for which, entry in enumerate(row.inputs) if entry >= STORE]
    if not found:
        return "no input that is plain to see", None, None, None
    row, which = found[0]
    start = rows[row][0] + 5 + 2 * which
    number = rows[row][1].inputs[which] - STORE
    more = f"; it is the first of {len(found):,} such inputs" if len(found) > 1 else ""
    name = "SHEET" if sheet.file == "-" else sheet.file
    advice = f"chain convert {name} --from STORE draws it into the sheet, from the store that this was drawn against"
    return [f"row {row}, input {which}: row {number:,} of a store{more}", advice], row, which, (start, start + 1)


def long_result(sheet, place, run):
    """How many rows the sheet has and leads to: its rows and behind them the store's, with the inputs of each as places in that list."""
    own, stored = sheets.rows_of(sheet.data), stores.rows_in(run, run[0])
    inputs = [[entry if entry < STORE else len(own) + entry - STORE for entry in row.inputs] for row in own]
    inputs += [[len(own) + entry for entry in row.inputs] for row in stored]
    more = len(loops.reached(range(len(own)), inputs)) - len(own)
    most = f"{stores.MOST_ROWS:,} is the most"
    return f"the sheet has {words.counted(len(own), 'row')} and leads to {more:,} of the store, and {most}", None, None, None


def short_buffer(sheet, place, run):
    return "the tool lends as many bytes as the longest sheet has", None, None, None


def first_unlisted(rows, met):
    """The first of some rows that the catalogue has not, and what is wrong with it."""
    for at in sorted(met):
        operation = words.operation_of(rows[at].label)
        wanted = words.CATALOGUE.get(operation)
        if wanted != len(rows[at].inputs):
            name = words.operation_name(operation)
            other = "is not in the catalogue" if wanted is None else f"takes {words.counted(wanted, 'input')}, and has {len(rows[at].inputs)}"
            return at, f"{name} {other}"
    return None, "no row that is plain to see"


def first_unheld(rows, inputs, met, name):
    """The first row of a loop without a hold among some rows, and the loop in names."""
    for members in loops.unheld(rows, inputs):
        if members <= met:
            names = [name(at) for at in sorted(members)]
            shown = ", ".join(names[:SHOWN]) + (" and more" if len(names) > SHOWN else "")
            return min(members), f"the loop through {shown} passes no hold"
    return None, "no loop that is plain to see"


def unlisted(sheet, place, run):
    rows = sheets.rows_of(sheet.data)
    at, what = first_unlisted(rows, range(len(rows)))
    return what if at is None else f"row {at}: {what}", at, None, None


def without_hold(sheet, place, run):
    rows = sheets.rows_of(sheet.data)
    at, what = first_unheld(rows, [row.inputs for row in rows], {*range(len(rows))}, sheet.name)
    return what, at, None, None


def short_wire(sheet, place, run):
    """The first wire that has not one input: asks gives no place for it, so the bytes are found here."""
    rows = sheets.placed_rows(sheet.data)
    short = [at for at, (_, row) in enumerate(rows) if loops.is_wire(row) and len(row.inputs) != 1]
    if not short:
        return "no wire that is plain to see", None, None, None
    start, row = rows[short[0]]
    named = [text.pointed(entry, len(rows), sheet.name) for entry in row.inputs]
    what = f"{words.counted(len(named), 'input')}, {listed(named)}" if named else "no input"
    more = f"; it is the first of {len(short):,} such wires" if len(short) > 1 else ""
    return f"row {short[0]}: the wire has {what}{more}", short[0], None, (start, start + 4 + 2 * len(named))


def wire_loop(sheet, place, run):
    """The wires of a loop in the order in which they lead round, from its first row in the sheet."""
    rows = sheets.rows_of(sheet.data)
    alone = [row.inputs if loops.is_wire(row) and len(row.inputs) == 1 else () for row in rows]
    onward = [[entry for entry in entries if entry < len(rows)] for entries in alone]
    first = min((min(members) for members in loops.rounds(onward)), default=None)
    if first is None:
        return "no loop that is plain to see", None, None, None
    way = [first]
    while onward[way[-1]][0] != first:
        way.append(onward[way[-1]][0])
    names = [sheet.name(row) for row in way]
    shown = " to ".join(names[:SHOWN]) + (f" and {len(names) - SHOWN:,} more" if len(names) > SHOWN else "")
    what = f"the wires lead from {shown} and back to {names[0]}" if way[1:] else f"the wire {names[0]} leads to itself"
    return what, first, None, None


def listed(names):
    """`a`, `a and b`, `a, b and c`."""
    return " and ".join(filter(None, [", ".join(names[:-1]), names[-1]]))


FIGURES = {
    3: wrong_length,
    4: wrong_version,
    5: wrong_rows,
    6: points_nowhere,
    7: few_answers,
    8: no_room,
    12: unlisted,
    13: without_hold,
    10: short_buffer,
    14: short_wire,
    15: wire_loop,
    19: names_store,
    20: long_result,
}


# ---- a run


def run_refused(chain, number, channels):
    """The refusal of a run, from the number that asks gave: over the rows that the chain leads to, by the drawer's names or by numbers."""
    meaning = words.NUMBERS[number][0]
    rows = stores.rows_in(chain.words, chain.words[0])
    inputs = [row.inputs for row in rows]
    met = loops.reached([chain.row], inputs)

    def name(at):
        return chain.names.get(at, f"n{at}")

    if number == 12:
        at, what = first_unlisted(rows, met)
        what = what if at is None else f"{name(at)}: {what}"
    elif number == 13:
        _, what = first_unheld(rows, inputs, met, name)
    else:
        what = channel_astray(rows, met, channels, name)
    return Refused([f"{chain.title}: refused {number}: {meaning}", f"  {what}"], chain=chain.title, number=number, words=meaning, figures=what)


def channel_astray(rows, met, channels, name):
    """The first channel that the trace has not: the counts are whole ticks of 1 to 8 channels, so nothing else is wrong."""
    for at in sorted(met):
        setting = words.setting_of(rows[at].label)
        if words.operation_of(rows[at].label) != words.CHANNEL or setting < channels:
            continue
        if setting >= MOST_CHANNELS:
            return f"{name(at)} reads channel {setting:,}, and a trace has channels 0 to {MOST_CHANNELS - 1} at the most"
        last = "channel 0 alone" if channels == 1 else f"channels 0 to {channels - 1}"
        return f"{name(at)} reads channel {setting}, and the trace has {last}: --channel {setting}=COLUMN names one"
    return "no channel that is plain to see"


# ---- the row as text


def marked(sheet, row, which):
    """The row's line and a mark below it, or below one of its inputs; and the mark's column in the drawer's line."""
    if sheet.drawn:
        line = sheet.drawn[row]
        source = line.source.split("#", 1)[0].rstrip()
        if which is None:
            column, width = source.index(line.name) + 1, len(line.name)
        else:
            column, width = line.inputs[which].column, len(line.inputs[which].word)
        return text.under(source, column, width), column
    rows = sheets.rows_of(sheet.data)
    spelled = [text.pointed(entry, len(rows), sheet.name) for entry in rows[row].inputs]
    front = f"{sheet.name(row)} = {words.label_words(rows[row].label)}"
    source = " ".join([front] + spelled)
    if which is None:
        return text.under(source, 1, len(sheet.name(row))), 1
    column = len(" ".join([front] + spelled[:which])) + 2
    return text.under(source, column, len(spelled[which])), column


# ---- a sheet byte by byte


def byte_by_byte(sheet):
    """The fields of a sheet that can be read: the byte, the bytes, what they say."""
    data = sheet.data
    rows = sheets.placed_rows(data)
    fields = [
        (0, data[:4], f"{words.counted(len(data) - 4, 'byte')} to follow"),
        (4, data[4:5], f"version {data[4]}"),
        (5, data[5:7], words.counted(len(rows), "row")),
    ]
    for place, row in rows:
        spelled = text.spelled(row, lambda entry: text.pointed(entry, len(rows), sheet.name))
        at = len(fields) - 3
        fields.append((place, data[place : place + 5 + 2 * len(row.inputs)], f"{sheet.name(at)} = {spelled}"))
    wide = max(len(part.hex(" ")) for _, part, _ in fields)
    return [f"{place:8}  {part.hex(' '):{wide}}  {meaning}" for place, part, meaning in fields]


def number_lines(number):
    meaning, advice = words.NUMBERS[number]
    return [f"{number}: {meaning}", f"  {advice}"]
