"""Chains as text: a row a line, read with line and column in every fault, and printed in one normal form."""
import collections
import difflib
import re

import words
from faults import Unusable
from sheets import MOST_INPUTS, MOST_ROWS, STORE, Row

LONG = 120  # letters of a line that are shown with a fault

NAME = re.compile(r"[^\W\d_][\w-]*\Z")
NUMBER = re.compile(r"-?[0-9]{1,18}\Z|0[xX][0-9a-fA-F]{1,18}\Z")
POINTER = re.compile(r"[%@][0-9]{1,18}\Z")
FREE = re.compile(r"op[0-9]+\Z")
TOKEN = re.compile(r"=|[^\s=]+")

Token = collections.namedtuple("Token", "word column")  # columns count from 1
# A row as it was drawn: its name, its line's number and text, and its input tokens.
Line = collections.namedtuple("Line", "name number source inputs label")


def fault(file, number, column, source, message, width=1):
    """A fault with its line, a mark below it, and the members for --json."""
    lines = [f"{file}:{number}:{column}: {message}"]
    if source.strip():
        lines += [f"  {line}" for line in under(source, column, width)]
    return Unusable(lines, file=file, line=number, column=column, fault=message)


def under(source, column, width):
    """A line, and below it a mark; of a long line the part about the mark."""
    if len(source) > LONG:
        first = max(column - LONG // 2, 0)
        front, back = ".." if first else "", ".." if first + LONG < len(source) else ""
        source, column = front + source[first : first + LONG] + back, column - first + len(front)
    before = "".join("\t" if letter == "\t" else " " for letter in source[: column - 1])
    return [source, before.ljust(column - 1) + "^" * max(min(width, len(source) - column + 1), 1)]


def nearest(word, names):
    close = difflib.get_close_matches(word, names, 1)
    return f"; did you mean '{close[0]}'?" if close else ""


class Reader:
    """Reads one line after another; every fault knows where it stands."""

    def __init__(self, file):
        self.file = file
        self.number, self.source = 0, ""

    def wrong(self, token, message):
        return fault(self.file, self.number, token.column, self.source, message, len(token.word))

    def end(self):
        """The place just past the line's last word."""
        return Token(" ", len(self.source.split("#")[0].rstrip()) + 2)

    def tokens(self, number, source):
        self.number, self.source = number, source
        bare = source.split("#", 1)[0]
        return [Token(found.group(), found.start() + 1) for found in TOKEN.finditer(bare)]

    def line(self, tokens, taken):
        """One row: NAME = OPERATION [SETTING] INPUT.."""
        name = self.name(tokens, taken)
        if len(tokens) < 3:
            raise self.wrong(self.end(), "an operation is missing behind '='")
        operation = self.operation(tokens[2])
        setting, inputs = self.setting(operation, tokens[2], tokens[3:])
        for token in inputs:
            self.input(token)
        if len(inputs) > MOST_INPUTS:
            raise self.wrong(inputs[MOST_INPUTS], f"a row has at most {MOST_INPUTS} inputs in a sheet's bytes")
        return Line(name, self.number, self.source, inputs, operation << 16 | setting)

    def name(self, tokens, taken):
        first = tokens[0]
        if len(tokens) < 2 or tokens[1].word != "=":
            place = tokens[1] if len(tokens) > 1 else self.end()
            raise self.wrong(place if first.word != "=" else first, "a row is written NAME = OPERATION [SETTING] INPUT..")
        if not NAME.match(first.word):
            raise self.wrong(first, f"'{first.word}' is no name: a letter, then letters, digits, '_' and '-'")
        if first.word in words.NAMED or FREE.match(first.word):
            raise self.wrong(first, f"'{first.word}' is an operation's name, and cannot name a row")
        if first.word in taken:
            raise self.wrong(first, f"'{first.word}' names the row of line {taken[first.word]} already")
        return first.word

    def operation(self, token):
        if token.word in words.NAMED:
            return words.NAMED[token.word]
        if FREE.match(token.word):
            if len(token.word) > 7 or int(token.word[2:]) > 65535:
                raise self.wrong(token, "operations go from op0 to op65535")
            return int(token.word[2:])
        raise self.wrong(token, f"'{token.word}' is no operation{nearest(token.word, words.NAMED)}")

    def setting(self, operation, token, rest):
        """The setting, 0 if it is left out, and the tokens behind it."""
        if not rest or not NUMBER.match(rest[0].word):
            if operation in words.WITH_SETTING:
                place = Token(" ", rest[0].column) if rest else self.end()
                raise self.wrong(place, f"{token.word} needs its setting, a number right behind it")
            return 0, rest
        least = -32768 if operation == words.CONSTANT else 0
        setting = int(rest[0].word, 16 if rest[0].word[:2] in ("0x", "0X") else 10)
        if not least <= setting <= 65535:
            raise self.wrong(rest[0], f"the setting of {token.word} goes from {least:,} to 65,535")
        return setting & 0xFFFF, rest[1:]

    def input(self, token):
        """An input's form; which row a name means is known when all lines are read."""
        if POINTER.match(token.word):
            if int(token.word[1:]) >= STORE:
                raise self.wrong(token, f"rows are numbered 0 to {STORE - 1:,} here")
        elif NUMBER.match(token.word):
            raise self.wrong(token, f"a bare number is a setting, and stands right behind the operation; row {token.word} is %{token.word}")
        elif not NAME.match(token.word):
            raise self.wrong(token, f"'{token.word}' is no input: a name, %N for row N of this sheet, or in an old sheet @N for row N of its store")

    def resolved(self, line, places):
        """The row's inputs as the sheet's bytes have them."""
        self.number, self.source = line.number, line.source
        inputs = []
        for token in line.inputs:
            if token.word[0] == "%":
                inputs.append(int(token.word[1:]))
            elif token.word[0] == "@":
                inputs.append(STORE + int(token.word[1:]))
            elif token.word in places:
                inputs.append(places[token.word])
            else:
                raise self.wrong(token, f"'{token.word}' names no row of this sheet{nearest(token.word, places)}")
        return Row(line.label, tuple(inputs))


def decoded(data, file):
    try:
        return data.decode("utf-8-sig")
    except UnicodeDecodeError as error:
        number = data.count(b"\n", 0, error.start) + 1
        column = error.start - data.rfind(b"\n", 0, error.start)
        raise fault(file, number, column, "", "the file is no text in UTF-8, no sheet and no store") from None


def parse(data, file):
    """The sheets of a text: for each its rows, and its lines as they were drawn."""
    reader, sheets, lines, taken = Reader(file), [], [], {}
    for number, source in enumerate(decoded(data, file).split("\n"), 1):
        source = source.rstrip("\r")
        tokens = reader.tokens(number, source)
        if [token.word for token in tokens] == ["---"]:
            sheets.append(lines)
            lines, taken = [], {}
        elif tokens:
            line = reader.line(tokens, taken)
            if len(lines) == MOST_ROWS:
                raise reader.wrong(tokens[0], f"a sheet's bytes hold at most {MOST_ROWS:,} rows")
            taken[line.name] = number
            lines.append(line)
    return [(resolve(reader, lines), lines) for lines in sheets + [lines]]


def resolve(reader, lines):
    places = {line.name: place for place, line in enumerate(lines[:STORE])}
    return [reader.resolved(line, places) for line in lines]


def notes(lines, file):
    """A line for each catalogue operation with another input count: it is written all the same."""
    for line in lines:
        name, wanted = words.OPERATIONS.get(words.operation_of(line.label), (None, None))
        if name and wanted != len(line.inputs):
            yield f"{file}:{line.number}: note: {name} takes {words.counted(wanted, 'input')}, and '{line.name}' has {len(line.inputs)}"


def spelled(row, name_of):
    """Operation, setting and inputs of a row."""
    return " ".join([words.label_words(row.label)] + [name_of(entry) for entry in row.inputs])


def pointed(entry, count, name):
    """An input of a sheet of so many rows as text has it."""
    if entry >= STORE:
        return f"@{entry - STORE}"
    return name(entry) if entry < count else f"%{entry}"


def normal(rows):
    """The normal text of a sheet's rows, named r0, r1 and so on."""
    count = len(rows)

    def name_of(entry):
        return pointed(entry, count, lambda place: f"r{place}")

    return columned([(f"r{place}", spelled(row, name_of)) for place, row in enumerate(rows)])


def stored(numbered, count):
    """The normal text of some rows of a store of so many, each with its number."""

    def name_of(entry):
        return f"n{entry}" if entry < count else f"%{entry}"

    return columned([(f"n{number}", spelled(row, name_of)) for number, row in numbered])


def columned(pairs):
    wide = max((len(name) for name, _ in pairs), default=0)
    return "".join(f"{name:{wide}} = {rest}\n" for name, rest in pairs)
