"""Recorded counts in CSV: a head, and then a tick a line. Some of its columns are channels; all are passed on."""
import csv
import io
import re

import explain
import words
from asks import LEAST, MOST, MOST_WORDS
from faults import Unusable, WrongUse
from text import nearest

OWN = re.compile(r"ch([0-7])\Z")  # columns that are channels by their name
COUNT = re.compile(r"-?[0-9]{1,10}\Z", re.A)


class Trace:
    """The columns of a trace as they came, and the counts of its channels, tick after tick."""

    def __init__(self, name, data, named):
        self.name = name
        self.lines = list(self.read(data))
        while self.lines and not self.lines[-1][1]:
            self.lines.pop()  # empty lines at the end; one between would be a tick without counts
        if not self.lines or not self.lines[0][1]:
            raise Unusable(f"{name}: a trace has a head, the names of its columns", file=name)
        self.head = self.lines.pop(0)[1]
        for number, cells in self.lines:
            if len(cells) != len(self.head):
                raise self.fault(number, f"{words.counted(len(cells), 'cell')}, and the head has {len(self.head)}")
        self.columns = self.chosen(named)
        self.channels = max(self.columns) + 1
        if self.channels * len(self.lines) > MOST_WORDS:
            raise self.too_long()
        self.values = [value for line in self.lines for value in self.tick(*line)]

    def fault(self, number, message):
        return Unusable(f"{self.name}:{number}: {message}", file=self.name, line=number, fault=message)

    def read(self, data):
        """The cells of each line, with the number of the line that it ends on."""
        try:
            reader = csv.reader(io.StringIO(data.decode("utf-8-sig"), newline=""), strict=True)
        except UnicodeDecodeError as error:
            raise self.fault(data.count(b"\n", 0, error.start) + 1, "the trace is no text in UTF-8") from None
        try:
            for cells in reader:
                yield reader.line_num, cells
        except csv.Error as error:
            raise self.fault(reader.line_num, f"this is no CSV: {error}") from None

    def chosen(self, named):
        """The column of each channel: those that were named, and ch0 to ch7."""
        found = {}
        for channel, column in named.items():
            found[channel] = self.place(column)
        for place, column in enumerate(self.head):
            own = OWN.match(column.strip())
            if own and int(own[1]) not in named:
                found[int(own[1])] = self.place(column)
        if not found:
            raise Unusable(f"{self.name}: no column is a channel: they are ch0 to ch7, or named by --channel N=COLUMN", file=self.name)
        return found

    def place(self, column):
        """The place of a column, which has to be there once."""
        heads = [head.strip() for head in self.head]
        if heads.count(column.strip()) > 1:
            raise Unusable(f"{self.name}: there are {heads.count(column.strip())} columns '{column.strip()}'", file=self.name)
        if column.strip() not in heads:
            raise Unusable(f"{self.name}: there is no column '{column}'{nearest(column, heads)}", file=self.name)
        return heads.index(column.strip())

    def missing(self):
        """The channels that have no column, though a higher one has."""
        return [channel for channel in range(self.channels) if channel not in self.columns]

    def tick(self, number, cells):
        """The counts of a tick, channel 0 first."""
        for channel in range(self.channels):
            if channel not in self.columns:
                yield 0
                continue
            cell = cells[self.columns[channel]].strip()
            if not COUNT.match(cell) or not LEAST <= int(cell) <= MOST:
                column = self.head[self.columns[channel]].strip()
                raise self.fault(number, f"'{cell}' in column '{column}' is no count: a whole number from {LEAST:,} to {MOST:,}")
            yield int(cell)

    def too_long(self):
        ticks, channels = words.counted(len(self.lines), "tick"), words.counted(self.channels, "channel")
        return Unusable(
            f"{self.name}: {ticks} of {channels} are {len(self.lines) * self.channels:,} values, and a request takes {MOST_WORDS:,}: a trace "
            "cannot be cut, because holds begin at 0, so this one needs another program",
            file=self.name,
        )

    def with_outputs(self, outputs):
        """The trace as CSV with a column for each chain behind its own."""
        taken = [title for title in outputs if title in self.head]
        if taken:
            raise Unusable(f"{self.name}: there is a column '{taken[0]}' already", file=self.name)
        file = io.StringIO(newline="")
        writer = csv.writer(file, lineterminator="\n")
        writer.writerow([*self.head, *outputs])
        for (_, cells), row in zip(self.lines, zip(*outputs.values())):
            writer.writerow([*cells, *row])
        return file.getvalue()


def named_channels(given):
    """The columns that --channel names: N=COLUMN, each channel once."""
    found = {}
    for one in given:
        channel, equals, column = one.partition("=")
        if not equals or not column.strip() or not re.fullmatch("[0-9]", channel, re.A) or int(channel) >= explain.MOST_CHANNELS:
            raise WrongUse(f"--channel takes N=COLUMN, with a channel from 0 to {explain.MOST_CHANNELS - 1}, not '{one}'")
        if int(channel) in found:
            raise WrongUse(f"--channel names channel {channel} twice")
        found[int(channel)] = column
    return found
