"""Store files: their form, their checksum, their lock, and how one takes the place of another without a moment in which neither is whole.

A file has the mark `chain store` and a newline, the words a row, the word run as a request has it, and a CRC-32 of all before it."""
import fcntl
import os
import re
import stat
import struct
import time
import zlib

import words
from asks import MOST_WORDS
from faults import Busy, Refused, Unusable
from sheets import Row

MARK = b"chain store\n"
ROW_WORDS = 6  # label, input count, four inputs
HEAD = 20  # the mark, the words a row, the count of words
MOST_ROWS = 1024
PAUSE = 0.02  # seconds between two looks at a lock


def packed(run):
    body = MARK + struct.pack(f">II{len(run)}I", ROW_WORDS, len(run), *run)
    return body + struct.pack(">I", zlib.crc32(body))


def empty(rows=MOST_ROWS):
    return [0] * (1 + ROW_WORDS * rows)


def capacity(run):
    return min(MOST_ROWS, (len(run) - 1) // ROW_WORDS)


def taken(run):
    """The rows that the mender takes: the count, or the capacity where that is less."""
    return min(run[0], capacity(run)) if run else 0


def used(run):
    """How a person reads it: `11 of 1,024 rows used`."""
    if not run:
        return "no words"
    return f"{run[0]:,} of {words.counted(capacity(run), 'row')} used"


def rows_in(run, count):
    """The first rows of a store, as far as words are there."""
    rows = []
    for number in range(min(count, capacity(run))):
        start = 1 + ROW_WORDS * number
        label, inputs = run[start], run[start + 1]
        rows.append(Row(label, tuple(run[start + 2 : start + 2 + min(inputs, ROW_WORDS - 2)])))
    return rows


class Store:
    """A store file's words, and whether its checksum is right."""

    def __init__(self, path, data):
        self.path = path
        if len(data) < HEAD + 4:
            raise Unusable(f"{path}: the store is cut: {len(data)} bytes, and {HEAD + 4} is the least", file=path)
        layout, count = struct.unpack_from(">II", data, len(MARK))
        if layout != ROW_WORDS:
            raise Unusable(f"{path}: the store has {layout:,} words a row, and this register has {ROW_WORDS}", file=path)
        if count > MOST_WORDS:
            raise Unusable(f"{path}: {count:,} words do not fit a request, which takes {MOST_WORDS:,}", file=path)
        wanted = HEAD + 4 * count + 4
        if len(data) != wanted:
            what = "is cut" if len(data) < wanted else "is too long"
            raise Unusable(f"{path}: the store {what}: {count:,} words make {wanted:,} bytes, and it has {len(data):,}", file=path)
        self.words = list(struct.unpack_from(f">{count}I", data, HEAD))
        self.right = struct.unpack_from(">I", data, wanted - 4)[0] == zlib.crc32(data[:-4])

    def checked(self):
        """The same, where its checksum is right: one changed byte can leave a sound store of another chain."""
        if not self.right:
            raise Unusable(
                f"{self.path}: the checksum is wrong: the file was changed, and by nothing that saves stores", file=self.path
            )
        return self


def is_store(data):
    return data.startswith(MARK)


def read(path):
    try:
        with open(path, "rb") as file:
            data = file.read()
    except OSError as error:
        raise unusable(path, error) from None
    return parsed(path, data)


def parsed(path, data):
    if not is_store(data):
        raise Unusable(f"{path}: this is no store: it does not begin with '{MARK.decode().strip()}'", file=path)
    return Store(path, data)


def unusable(path, error):
    return Unusable(f"{path}: {error.strerror or error}", file=path)


# ---- putting a file in its place


def temporary(path):
    folder, name = os.path.split(os.path.realpath(path))
    return os.path.join(folder, f".{name}.{os.urandom(8).hex()}.new")


def left_over(path):
    """What a power cut left of earlier saves."""
    folder, name = os.path.split(os.path.realpath(path))
    form = re.compile(re.escape(f".{name}.") + r"[0-9a-f]{16}\.new\Z")
    return [os.path.join(folder, one) for one in os.listdir(folder) if form.match(one)]


def written(path, data, mode):
    """A new file beside the path with these bytes, safely on the disk; open, so that it can be locked."""
    beside = temporary(path)
    file = os.open(beside, os.O_CREAT | os.O_EXCL | os.O_RDWR | os.O_CLOEXEC, 0o666 if mode is None else 0o600)
    try:
        if mode is not None:
            os.fchmod(file, mode)
        view = memoryview(data)
        while view:
            view = view[os.write(file, view) :]
        os.fsync(file)
    except BaseException:
        os.close(file)
        os.unlink(beside)
        raise
    return beside, file


def settle(path):
    """The folder's own entry is on the disk."""
    folder = os.open(os.path.dirname(os.path.realpath(path)), os.O_RDONLY | os.O_DIRECTORY)
    try:
        os.fsync(folder)
    finally:
        os.close(folder)


def put(path, data):
    """A file for -o: whole or not at all. What is no plain file is written to as it is."""
    try:
        if os.path.exists(path) and not os.path.isfile(path):
            with open(path, "wb") as file:
                file.write(data)
            return
        mode = stat.S_IMODE(os.stat(path).st_mode) if os.path.exists(path) else None
        beside, file = written(path, data, mode)
        os.close(file)
        os.rename(beside, os.path.realpath(path))
        settle(path)
    except OSError as error:
        raise unusable(path, error) from None


def create(path, data, by="chain new"):
    """A new file. A link and no rename: it never takes the place of one that is there."""
    try:
        if os.path.lexists(path):
            raise FileExistsError
        beside, file = written(path, data, None)
        os.close(file)
        try:
            os.link(beside, path)
        finally:
            if os.path.exists(beside):
                os.unlink(beside)
        settle(path)
    except FileExistsError:
        raise Unusable(f"{path}: there is a file of this name already, and {by} replaces none", file=path) from None
    except OSError as error:
        raise unusable(path, error) from None


def create_mended(path, run, list_path, entries):
    """A mended store and the list of its old numbers. The list comes first, so that the store is never there without it."""
    lines = ["old,new\n"] + [f"{old},{new}\n" for old, new in enumerate(entries)]
    create(list_path, "".join(lines).encode(), "chain mend")
    try:
        create(path, packed(run), "chain mend")
    except Unusable:
        os.unlink(list_path)
        raise


# ---- the lock


class Locked:
    """A store that nobody else saves meanwhile. The lock is on the file itself, so that none is left over."""

    def __init__(self, path, wait):
        self.path = path
        self.file = None
        try:
            self.file = self.lock(time.monotonic() + wait)
            for one in left_over(path):
                os.unlink(one)
        except OSError as error:
            self.close()
            raise unusable(path, error) from None

    def lock(self, until):
        while True:
            file = os.open(self.path, os.O_RDWR | os.O_CLOEXEC)  # a store that may not be written is not replaced either
            try:
                fcntl.flock(file, fcntl.LOCK_EX | fcntl.LOCK_NB)
                now, held = os.stat(self.path), os.fstat(file)
                if (now.st_dev, now.st_ino) == (held.st_dev, held.st_ino):
                    return file
            except BlockingIOError:
                if time.monotonic() >= until:
                    os.close(file)
                    raise Busy(f"{self.path}: the store is busy: another insert has it (--wait SECONDS waits longer)", file=self.path) from None
                time.sleep(PAUSE)
            os.close(file)  # it was replaced meanwhile, or is busy: look again

    def read(self):
        with open(self.file, "rb", closefd=False) as file:
            return parsed(self.path, file.read())

    def save(self, run):
        """The new file is locked before it takes the name, and the old one is let go after."""
        try:
            mode = stat.S_IMODE(os.fstat(self.file).st_mode)
            beside, file = written(self.path, packed(run), mode)
            try:
                fcntl.flock(file, fcntl.LOCK_EX | fcntl.LOCK_NB)
                os.rename(beside, os.path.realpath(self.path))
            except BaseException:
                os.close(file)
                os.unlink(beside)
                raise
            os.close(self.file)
            self.file = file
        except OSError as error:
            raise Unusable(f"{self.path}: the store was not saved, and stands as it was: {error.strerror}", file=self.path) from None
        try:
            settle(self.path)
        except OSError as error:
            raise Unusable(f"{self.path}: the store is saved, and a power cut may still undo it: {error.strerror}", file=self.path) from None

    def close(self):
        if self.file is not None:
            os.close(self.file)
            self.file = None

    def __enter__(self):
        return self

    def __exit__(self, *_):
        self.close()


# ---- what is plain to see in a store that is not sound


def shape_fault(run):
    """The first count or row of the wrong shape in figures, or None. asks has judged already; this stands beside its answer."""
    if not run:
        return "the store has no words"
    if run[0] > capacity(run):
        return f"word 0: {run[0]:,} rows are in use, and there is room for {capacity(run):,}"
    for number in range(run[0]):
        start = 1 + ROW_WORDS * number
        if words.operation_of(run[start]) == words.WIRE:
            return f"row {number}, word {start}: a wire, and a store holds none"
        if run[start + 1] > ROW_WORDS - 2:
            return f"row {number}, word {start + 1}: {run[start + 1]:,} inputs, and {ROW_WORDS - 2} is the most"
        for place in range(ROW_WORDS - 2):
            word, value = start + 2 + place, run[start + 2 + place]
            if place < run[start + 1] and value >= run[0]:
                verb = "is" if run[0] == 1 else "are"
                return f"row {number}, word {word}: input {place} is row {value:,}, and {words.counted(run[0], 'row')} {verb} in use"
            if place >= run[start + 1] and value:
                return f"row {number}, word {word}: input {place} is not used and has to be 0, and is {value:,}"
    return None


def why_unsound(run):
    return shape_fault(run) or "each row has its right shape and none is a wire, so two rows have the same tree"


def sound(asks, store, title):
    """Stops where asks says that a store is not sound."""
    number = asks.check(store.words)
    if number:
        raise refused(number, store.words, title)


def refused(number, run, title, note=None):
    """The refusal of a store, with what is plain to see in it."""
    text = words.NUMBERS[number][0]
    lines = [f"{title}: refused {number}: {text}"]
    if number == 2:
        lines.append(f"  {why_unsound(run)}")
    if note:
        lines.append(f"  {note}")
    if number == 2:
        lines.append(f"  chain mend {title} -o NEW --list CSV makes a sound store of it")
    return Refused(lines, file=title, number=number, words=text)


def room(rows):
    """The rows asked for with --rows."""
    if not 0 <= rows <= MOST_ROWS:
        raise Unusable(f"a store has room for 0 to {MOST_ROWS:,} rows")
    return empty(rows)


def from_dump(path, data, order):
    """A logger's memory, as it is."""
    if len(data) % 4:
        raise Unusable(f"{path}: {len(data):,} bytes are no whole words", file=path)
    return list(struct.unpack(f"{'<' if order == 'little' else '>'}{len(data) // 4}I", data))


