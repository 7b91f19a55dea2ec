"""How the bytes of a sheet are laid out. Whether a sheet is good is for asks to say: rows are read here only as far as it has taken them."""
import collections
import struct

STORE = 32768  # in an old sheet an input of this and up is a row of the store that it was drawn against
HEAD = 7  # bytes before the first row
MOST_ROWS = 65535  # what the row count field holds; how many may be used asks says
MOST_INPUTS = 255

Row = collections.namedtuple("Row", "label inputs")


class Sheet:
    """A sheet's bytes, with the drawer's own lines where it came as text."""

    def __init__(self, title, data, file, place=1, drawn=None, prefix="r", names=None):
        self.title = title  # as messages name it
        self.data = data
        self.file = file
        self.place = place  # its place in the file, from 1
        self.drawn = drawn  # text.Line for each row, or None
        self.prefix = prefix
        self.names = names

    def name(self, row):
        if self.drawn is not None:
            return self.drawn[row].name
        return self.names[row] if self.names else f"{self.prefix}{row}"

    def members(self):
        return {"file": self.file, "sheet": self.place}


def lay_out(rows):
    """The bytes of rows, as version 1 has them."""
    body = b"".join(
        struct.pack(f">IB{len(row.inputs)}H", row.label, len(row.inputs), *row.inputs) for row in rows
    )
    return struct.pack(">IBH", 3 + len(body), 1, len(rows)) + body


def placed_rows(data, end=None):
    """Each row that ends at or before a byte, with the byte at which it starts."""
    end = len(data) if end is None else end
    place, found = HEAD, []
    while place + 5 <= end:
        label, count = struct.unpack_from(">IB", data, place)
        after = place + 5 + 2 * count
        if after > end:
            break
        found.append((place, Row(label, struct.unpack_from(f">{count}H", data, place + 5))))
        place = after
    return found


def rows_of(data):
    """The rows of a sheet that asks has taken."""
    return [row for _, row in placed_rows(data)]


def row_count(data):
    return struct.unpack_from(">H", data, 5)[0]


def dump(data, first, last, before=2, after=2):
    """The lines of 16 bytes that hold bytes first to last, some lines about them, and a mark below the bytes meant."""
    lines = []
    low, high = first // 16 - before, last // 16 + after
    for start in range(max(low, 0) * 16, min(len(data), (high + 1) * 16), 16):
        part = data[start : start + 16]
        lines.append(f"{start:8}  {part.hex(' ')}")
        marked = [place for place in range(start, start + 16) if first <= place <= last]
        if marked:
            marks = " ".join("^^" if place in marked else "  " for place in range(start, marked[-1] + 1))
            lines.append(" " * 10 + marks)
    return lines
