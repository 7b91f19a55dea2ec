"""Files of any kind as sheets, and CHAIN arguments as rows of a store."""
import collections
import os
import sys

import explain
import sheets
import stores
import text
import words
from asks import MOST_BYTES
from faults import Refused, Unusable, WrongUse
from sheets import Sheet

NOTES = 5  # so many notes on a file's input counts; a count stands for the rest

File = collections.namedtuple("File", "name kind sheets store")
# A row of a store; where the drawer named rows, the first name of each number.
Chain = collections.namedtuple("Chain", "title words row names", defaults=({},))


def contents(name):
    """The bytes of a file; `-` is standard input."""
    try:
        if name == "-":
            if sys.stdin is None:
                raise Unusable("-: standard input is closed", file=name)
            return sys.stdin.buffer.read()
        with open(name, "rb") as file:
            return file.read()
    except OSError as error:
        raise stores.unusable(name, error) from None


def load(name, desk):
    """A first byte of 0 is a sheet, a first line `chain store` a store, all else text."""
    data = contents(name)
    if stores.is_store(data):
        store = stores.parsed(name, data).checked()
        stores.sound(desk.asks, store, name)
        return File(name, "store", [store_sheet(name, store)], store)
    if data[:1] == b"\0":
        return File(name, "sheet", from_bundle(name, data, desk), None)
    return File(name, "text", from_text(name, data, desk), None)


def store_sheet(name, store):
    """All rows of a sound store as a sheet: numbers are places."""
    rows = stores.rows_in(store.words, store.words[0])
    return Sheet(name, sheets.lay_out(rows), name, prefix="n")


def title(name, place, count):
    return name if count == 1 else f"{name} sheet {place}"


def from_text(name, data, desk):
    found, notes = [], []
    parsed = text.parse(data, name)
    for place, (rows, lines) in enumerate(parsed, 1):
        notes += text.notes(lines, name)
        found.append(Sheet(title(name, place, len(parsed)), sheets.lay_out(rows), name, place, drawn=lines))
    for line in notes[:NOTES]:
        desk.say.note(line)
    if len(notes) > NOTES:
        desk.say.note(f"{name}: note: {len(notes) - NOTES:,} more rows have another input count than their operation takes")
    return found


def from_bundle(name, data, desk):
    """The sheets of a bundle. What is left over at its end stands as a sheet, for asks to refuse."""
    parts, place = [], 0
    while place < len(data):
        lengths = desk.asks.lengths(data[place : place + MOST_BYTES]) or [len(data) - place]
        for length in lengths:
            parts.append(data[place : place + length])
            place += length
    return [Sheet(title(name, at, len(parts)), part, name, at) for at, part in enumerate(parts, 1)]


# ---- CHAIN arguments


def parted(argument):
    """FILE or FILE:ROW; a file of that whole name goes first."""
    if argument == "-" or os.path.exists(argument):
        return argument, None
    name, colon, row = argument.rpartition(":")
    return (name, row) if colon and name else (argument, None)


def one_sheet(file):
    if len(file.sheets) != 1:
        raise Unusable(f"{file.name}: here are {len(file.sheets):,} sheets, and a chain is a row of one", file=file.name)
    return file.sheets[0]


def whole(word):
    """Whether a word is a whole number, and no longer than the numbers of a store are."""
    return word.isascii() and word.isdigit() and len(word) <= 10


def place_in(sheet, wanted, argument):
    """The row of a sheet that a name or a place means; row 0 where nothing is said."""
    count = sheets.row_count(sheet.data)
    names = [sheet.name(row) for row in range(count)]
    if not count:
        raise Unusable(f"{argument}: the sheet has no rows, so there is no chain in it", file=sheet.file)
    if wanted is None:
        return 0
    if wanted in names:
        return names.index(wanted)
    if whole(wanted) and int(wanted) < count:
        return int(wanted)
    raise Unusable(f"{argument}: '{wanted}' is no row of {sheet.title}{text.nearest(wanted, names)}", file=sheet.file)


def number_in(wanted, argument):
    if wanted is None:
        raise WrongUse(f"{argument}: a chain of a store has a number: {argument}:NUMBER")
    digits = wanted[1:] if wanted[:1] == "n" else wanted
    if not whole(digits) or int(digits) > 0xFFFFFFFF:
        raise WrongUse(f"{argument}: '{wanted}' is no number of a store")
    return int(digits)


def fits(sheet):
    if len(sheet.data) > MOST_BYTES:
        raise Unusable(f"{sheet.title}: {len(sheet.data):,} bytes do not fit a request, which takes {MOST_BYTES:,}", file=sheet.file)


def refuse_row(number, chains):
    """Stops where asks refused a row of a store; with 9, those that are plainly past the count are named."""
    if not number:
        return
    meaning = words.NUMBERS[number][0]
    past = [chain for chain in chains if chain.words and chain.row >= chain.words[0]]
    named = (past or chains)[0]
    lines = [f"{named.title}: refused {number}: {meaning}"]
    lines += [f"  {chain.title}: {stores.used(chain.words)}, numbered from 0" for chain in past if number == 9]
    raise Refused(lines, chain=named.title, number=number, words=meaning)


def inserted(sheet, run, desk, store="an empty store", strict=False):
    """What asks made of a sheet; its refusal stops the command."""
    fits(sheet)
    done = desk.asks.insert(run, sheet.data, strict)
    if done.number:
        raise explain.refused(sheet, done.number, done.place, run, store)
    return done


def converted(sheet, run, desk, store):
    """The bytes of an old sheet without its store numbers; the refusal of asks stops the command."""
    fits(sheet)
    number, place, data = desk.asks.convert(run, sheet.data)
    if number:
        raise explain.refused(sheet, number, place, run, store)
    return data


def chain(argument, desk):
    """A CHAIN as a store's words and a number in it; a sheet goes into an empty store in memory first."""
    name, wanted = parted(argument)
    file = load(name, desk)
    if file.store:
        return Chain(argument, file.store.words, number_in(wanted, argument))
    sheet = one_sheet(file)
    done = inserted(sheet, stores.empty(), desk)
    row = done.answers[place_in(sheet, wanted, argument)]
    named = reversed([(number, sheet.name(at)) for at, number in enumerate(done.answers[: sheets.row_count(sheet.data)])])
    return Chain(argument, done.store, row, dict(named))
