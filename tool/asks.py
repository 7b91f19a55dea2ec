"""The one place that speaks to asks. What it answers is held against the request before anything is done with it."""
import collections
import os
import re
import shlex
import struct
import subprocess

import words
from faults import Broken, Unusable

CHECK, INSERT, WRITE_KEY, IS_KEY, COMPARE, PART_OF, NEXT_SHEET, READER, READ_SHEET, STRICT_INSERT, MEND, RUN, CONVERT = range(1, 14)
MOST_WORDS, MOST_BYTES, STEPS = 8192, 65536, 256
MOST_ANSWERS = 1024
LAST = 5  # seconds in which a child has to end when its input has ended
MOST_KEY = 13319  # bytes of the longest key, and of the longest sheet
DROPPED = 0xFFFFFFFF  # in the mender's list, for a row that was dropped
LEAST, MOST = -(2**31), 2**31 - 1  # a count
QEMU = ("/usr/bin/qemu-x86_64", "/usr/bin/qemu-x86_64-static")
ADVICE = "CHAIN_ASKS may name another program"

Inserted = collections.namedtuple("Inserted", "number added place store answers")
Mended = collections.namedtuple("Mended", "number dropped wires merged cleared store list")


def command():
    """How asks is started, and whether a child answers one request only: of another program nothing is known."""
    named = os.environ.get("CHAIN_ASKS")
    if named:
        return shlex.split(named), True
    here = os.path.dirname(os.path.realpath(__file__))
    on = os.path.join(os.path.dirname(here), "tests", "on")
    if os.access(on, os.X_OK):
        return [on, "asks"], False
    beside = os.path.join(here, "asks")
    if not os.path.exists(beside):
        raise Broken(f"asks is neither in the repository nor beside the tool; {ADVICE}")
    return emulator() + [beside], False


def emulator():
    """asks is for x86-64: on another processor Debian's emulator runs it, with the C library for it."""
    if os.uname().machine == "x86_64":
        return []
    found = next((name for name in QEMU if os.access(name, os.X_OK)), None)
    if not found:
        raise Broken(f"asks is for x86-64, and here it needs Debian's qemu-user and libc6-amd64-cross; {ADVICE}")
    return [found, "-L", "/usr/x86_64-linux-gnu"]


def number(value):
    return struct.pack(">I", value)


def word_run(run):
    if len(run) > MOST_WORDS:
        raise Unusable(f"a store of {len(run):,} words does not fit a request, which takes {MOST_WORDS:,}")
    return struct.pack(f">I{len(run)}I", len(run), *run)


def signed_run(run):
    if len(run) > MOST_WORDS:
        raise Unusable(f"a trace of {len(run):,} values does not fit a request, which takes {MOST_WORDS:,}")
    return struct.pack(f">I{len(run)}i", len(run), *run)


def byte_run(run):
    if len(run) > MOST_BYTES:
        raise Unusable(f"a sheet of {len(run):,} bytes does not fit a request, which takes {MOST_BYTES:,}")
    return number(len(run)) + run


def short(line):
    """What came, short enough for a message."""
    text = line.decode("ascii", "backslashreplace").rstrip("\n")
    return f"'{text}'" if len(text) <= 60 else f"'{text[:60]}..'"


class Asks:
    """One child for all requests of a command; it is started with the first."""

    def __init__(self):
        self.child = None

    # ---- the child

    def line(self, request):
        command_, alone = command()
        try:
            line, status = self.ask_alone(command_, request) if alone else self.ask_on(command_, request)
        except OSError as error:
            raise Broken(f"asks could not be started: {error.strerror or error} ({command_[0]})") from None
        if line.endswith(b"\n"):
            return line
        what = f"ended with status {status}" if status is None or status >= 0 else f"was ended by signal {-status}"
        raise Broken(f"asks gave no whole line and {what}; it wrote {short(line)}" if line else f"asks gave no line and {what}")

    @staticmethod
    def ask_alone(command_, request):
        """A child for this request alone: it may read all its input before it answers."""
        child = subprocess.Popen(command_, stdin=subprocess.PIPE, stdout=subprocess.PIPE)
        line, _ = child.communicate(request)
        if line.count(b"\n") > 1:
            raise Broken(f"asks wrote more than a line: {short(line)}")
        return line, child.returncode

    def ask_on(self, command_, request):
        """A line is written before the next request is read, so one child answers all."""
        if self.child is None:
            self.child = subprocess.Popen(command_, stdin=subprocess.PIPE, stdout=subprocess.PIPE)
        try:
            self.child.stdin.write(request)
            self.child.stdin.flush()
        except BrokenPipeError:
            pass  # it ended; what it wrote before tells more
        line = self.child.stdout.readline()
        return line, None if line.endswith(b"\n") else self.child.wait()

    def close(self):
        child, self.child = self.child, None
        if child is not None:
            try:
                child.stdin.close()
            except BrokenPipeError:
                pass
            child.stdout.close()
            try:
                child.wait(LAST)
            except subprocess.TimeoutExpired:
                child.kill()
                child.wait()

    # ---- lines

    def said(self, byte, request, values, runs):
        """The values and the runs of a line, whose form has to be the request's."""
        line = self.line(bytes([byte]) + request)
        if line == b"what\n":
            raise Broken("this build of asks does not know the request: build it again")
        head, *rest = line[:-1].decode("ascii", "replace").split(" / ")
        if not re.fullmatch(rf"{byte}(?: [0-9]{{1,10}}){{{values}}}", head) or len(rest) != runs:
            raise Broken(f"asks answered request {byte} with {short(line)}")
        return [int(word) for word in head.split(" ")[1:]], rest

    def refusal(self, byte, value, known):
        if value not in known:
            raise Broken(f"asks answered request {byte} with the number {value}, which it cannot give")
        return value

    @staticmethod
    def words_in(byte, run, lent):
        spelled = run.split(" ") if run else []
        if len(spelled) != len(lent) or not all(word.isascii() and word.isdigit() for word in spelled):
            raise Broken(f"asks answered request {byte} with a run of {len(spelled):,} entries, and {len(lent):,} words were lent")
        found = [int(word) for word in spelled]
        if found and max(found) > 0xFFFFFFFF:
            raise Broken(f"asks answered request {byte} with a word of more than 32 bits")
        return found

    @staticmethod
    def counts_in(byte, run, lent):
        spelled = run.split(" ") if run else []
        if len(spelled) != len(lent) or not all(re.fullmatch("-?[0-9]{1,10}", word, re.A) for word in spelled):
            raise Broken(f"asks answered request {byte} with a run of {len(spelled):,} entries, and {len(lent):,} counts were lent")
        found = [int(word) for word in spelled]
        if found and not LEAST <= min(found) <= max(found) <= MOST:
            raise Broken(f"asks answered request {byte} with a count of more than 32 bits")
        return found

    def yes_or_no(self, byte, value):
        if value > 1:
            raise Broken(f"asks answered request {byte} with {value} for yes or no")
        return value == 1

    # ---- the requests

    def check(self, store):
        (value,), _ = self.said(CHECK, word_run(store), 1, 0)
        return self.refusal(CHECK, value, {0, 1, 2})

    def read_sheet(self, sheet):
        (value, place), _ = self.said(READ_SHEET, byte_run(sheet), 2, 0)
        self.placed(READ_SHEET, value, place, sheet)
        return self.refusal(READ_SHEET, value, {0, 3, 4, 5}), place

    @staticmethod
    def placed(byte, value, place, sheet):
        if place and not (3 <= value <= 6 and place <= len(sheet)):
            raise Broken(f"asks answered request {byte} with the number {value} and the place {place}")

    def insert(self, store, sheet, strict=False):
        byte = STRICT_INSERT if strict else INSERT
        answers = [0] * MOST_ANSWERS
        request = word_run(store) + byte_run(sheet) + word_run(answers)
        (value, added, place), (after, given) = self.said(byte, request, 3, 2)
        known = {*range(9), 14, 15, 19} | ({12, 13} if strict else set())
        self.refusal(byte, value, known)
        self.placed(byte, value, place, sheet)
        done = Inserted(value, added, place, self.words_in(byte, after, store), self.words_in(byte, given, answers))
        self.held(byte, done, store, answers)
        return done

    @staticmethod
    def held(byte, done, store, answers):
        """A done insert has the old count and the rows added; a refused one has changed nothing."""
        if done.number == 0:
            good = done.store[0] == store[0] + done.added and max(done.answers) < max(done.store[0], 1)
        else:
            good = done.added == 0 and done.store == list(store) and done.answers == answers
        if not good:
            raise Broken(f"asks answered request {byte} with a store or answers that do not go with {done.added} rows added")

    def convert(self, store, sheet):
        """The number, the place, and the bytes of an old sheet without its store numbers."""
        (value, written, place), (buffer,) = self.said(CONVERT, word_run(store) + byte_run(sheet) + byte_run(bytes(MOST_KEY)), 3, 1)
        self.refusal(CONVERT, value, {*range(7), 10, 14, 15, 20})
        self.placed(CONVERT, value, place, sheet)
        if not re.fullmatch(f"[0-9a-f]{{{2 * MOST_KEY}}}", buffer) or written > MOST_KEY:
            raise Broken(f"asks answered request {CONVERT} with a buffer that is not the one lent")
        data = bytes.fromhex(buffer)
        done = written >= len(sheet) and data[:4] == number(written - 4) if value == 0 else written == 0
        if not done or any(data[written:]):
            raise Broken(f"asks answered request {CONVERT} with {written} bytes written and a buffer that does not go with them")
        return value, place, data[:written]

    def mend(self, store, taken, end):
        """A store that need not be sound, of which so many rows are taken; behind them comes the word `end`."""
        lent = [0] * MOST_ANSWERS
        values, (after, given) = self.said(MEND, word_run(store) + word_run(lent), 5, 2)
        self.refusal(MEND, values[0], {0, 1, 16})
        done = Mended(*values, self.words_in(MEND, after, store), self.words_in(MEND, given, lent))
        if done.number:
            good = not any(values[1:]) and done.store == list(store) and done.list == lent
        else:
            kept, entries = done.store[0], done.list[:taken]
            good = kept + done.merged + done.wires + done.dropped == taken and entries.count(DROPPED) == done.dropped
            good = good and {*entries} - {DROPPED} == {*range(kept)} and done.list[taken:] == lent[taken:]
            good = good and done.store[end:] == list(store[end:])
        if not good:
            raise Broken(f"asks answered request {MEND} with a store or a list that do not go with its counts")
        return done

    def write_key(self, store, row):
        request = word_run(store) + number(row) + byte_run(bytes(MOST_KEY))
        (value, written), (buffer,) = self.said(WRITE_KEY, request, 2, 1)
        self.refusal(WRITE_KEY, value, {0, 1, 2, 9, 10})
        if not re.fullmatch(f"[0-9a-f]{{{2 * MOST_KEY}}}", buffer) or written > MOST_KEY:
            raise Broken("asks answered request 3 with a buffer that is not the one lent")
        return value, bytes.fromhex(buffer)[:written]

    def is_key(self, data):
        (value,), _ = self.said(IS_KEY, byte_run(data), 1, 0)
        return self.yes_or_no(IS_KEY, value)

    def compare(self, store, row, other, other_row):
        request = word_run(store) + number(row) + word_run(other) + number(other_row)
        (value, yes), _ = self.said(COMPARE, request, 2, 0)
        return self.refusal(COMPARE, value, {0, 1, 2, 9}), self.yes_or_no(COMPARE, yes)

    def part_of(self, store, whole, part):
        (value, yes), _ = self.said(PART_OF, word_run(store) + number(whole) + number(part), 2, 0)
        return self.refusal(PART_OF, value, {0, 1, 2, 9}), self.yes_or_no(PART_OF, yes)

    def run(self, store, row, channels, values):
        """The number, and what the row gives at each tick."""
        lent = [0] * (len(values) // channels)
        request = word_run(store) + number(row) + number(channels) + signed_run(values) + signed_run(lent)
        (value,), (given,) = self.said(RUN, request, 1, 1)
        outputs = self.counts_in(RUN, given, lent)
        if self.refusal(RUN, value, {0, 1, 2, 9, 12, 13, 17, 18}) and outputs != lent:
            raise Broken(f"asks answered request {RUN} with a refusal and an output that was written to")
        return value, outputs

    def lengths(self, bundle):
        """The lengths of the sheets at the front of a bundle, some hundred at most, as far as they are whole in the bytes given."""
        line = self.line(bytes([READER]) + byte_run(bundle) + number(0) + number(STEPS)).decode("ascii", "replace")
        if not re.fullmatch(rf"{READER}(?: [0-9]+:[0-9]+){{{STEPS}}}\n", line):
            raise Broken(f"asks answered request {READER} with {short(line.encode())}")
        found, place = [], 0
        for word in line.split()[1:]:
            length, at = map(int, word.split(":"))
            if length == 0:
                break
            place += length
            if at != place or place > len(bundle):
                raise Broken(f"asks answered request {READER} with a sheet that is not in the bundle")
            found.append(length)
        return found


def words_for(value):
    """The header's words for a number."""
    return words.NUMBERS[value][0]
