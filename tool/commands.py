"""The commands. Each takes the desk (asks, what is said, the options) and its arguments, and gives its status."""
import os
import signal
import sys
import time
import traceback

import explain
import files
import helps
import loops
import pictures
import plots
import sheets
import stores
import text
import traces
import words
from asks import DROPPED, Asks
from faults import Broken, Refused, Stop, Unusable, WrongUse
from saying import Saying, to_terminal

SHOWN_ROWS = 16
SAVE_EVERY = 2  # seconds
WAIT = 10
MOST_DRAWN = 200


class Desk:
    def __init__(self, options):
        self.options = options
        self.say = Saying("--json" in options, "-q" in options)
        self.asks = Asks()


# ---- text and bytes


def put_out(desk, data, count, **members):
    """Bytes to the file of -o, or to standard output; --json has them as a member."""
    name = desk.options.get("-o")
    if name:
        stores.put(name, data)
        desk.say.answer(f"{name}: {count}", file=name, bytes=len(data))
    elif desk.say.as_json:
        desk.say.answer("", **members)
    elif not desk.say.quiet:
        desk.say.data(data)


def write(desk, name):
    file = files.load(name, desk)
    data = b"".join(sheet.data for sheet in file.sheets)
    count = f"{words.counted(len(file.sheets), 'sheet')}, {words.counted(len(data), 'byte')}"
    hexed = "--hex" in desk.options or ("-o" not in desk.options and to_terminal())
    put_out(desk, in_hex(data) if hexed else data, count, file=name, hex=data.hex())
    return 0


def in_hex(data):
    return "".join(data[at : at + 16].hex(" ") + "\n" for at in range(0, len(data), 16)).encode()


def read(desk, name):
    file = files.load(name, desk)
    for at, sheet in enumerate(file.sheets):
        files.fits(sheet)
        number, place = desk.asks.read_sheet(sheet.data)
        good = sheet.data if number == 0 else sheet.data[: max(place, sheets.HEAD)]
        rows = sheets.rows_of(good)
        shown = text.normal(rows)
        lines = (["---"] if at else []) + shown.splitlines()
        desk.say.answer(lines, **sheet.members(), rows=len(rows), text=shown)
        if number:
            raise explain.refused(sheet, number, place, stores.empty(0), "an empty store")
    return 0


def convert(desk, name):
    """Every sheet of the file over one store: numbers are never given twice, so the store may have grown since they were drawn."""
    source = desk.options.get("--from")
    if not source:
        raise WrongUse("chain convert needs --from STORE: the store that the sheet was drawn against")
    run = stores.read(source).checked().words
    file = files.load(name, desk)
    if file.store:
        raise Unusable(f"{name}: this is a store, and old sheets are converted", file=name)
    found = [files.converted(sheet, run, desk, source) for sheet in file.sheets]
    appended = sum(sheets.row_count(data) - sheets.row_count(sheet.data) for sheet, data in zip(file.sheets, found))
    data = b"".join(found)
    count = f"{words.counted(len(found), 'sheet')}, {words.counted(len(data), 'byte')}; {words.counted(appended, 'row')} of {source} appended"
    hexed = "--hex" in desk.options or ("-o" not in desk.options and to_terminal())
    put_out(desk, in_hex(data) if hexed else data, count, file=name, store=source, appended=appended, hex=data.hex())
    return 0


def key(desk, argument):
    chain = files.chain(argument, desk)
    number, data = desk.asks.write_key(chain.words, chain.row)
    files.refuse_row(number, [chain])
    if "-o" in desk.options:
        put_out(desk, data, words.counted(len(data), "byte"))
    else:
        desk.say.answer(data.hex(), chain=argument, key=data.hex())
    return 0


def iskey(desk, name):
    file = files.load(name, desk)
    if file.store:
        raise Unusable(f"{name}: this is a store, and holds chains; chain key {name}:NUMBER writes a key", file=name)
    yes = desk.asks.is_key(b"".join(sheet.data for sheet in file.sheets))
    desk.say.answer("a key" if yes else "no key", file=name, yes=yes)
    return 0 if yes else 1


# ---- questions


def same(desk, first, second):
    chains = [files.chain(first, desk), files.chain(second, desk)]
    number, yes = desk.asks.compare(chains[0].words, chains[0].row, chains[1].words, chains[1].row)
    files.refuse_row(number, chains)
    lines = ["the same chain"] if yes else ["two chains", f"  to see both: chain draw {first} {second} -o both.svg"]
    desk.say.answer(lines, first=first, second=second, same=yes)
    return 0 if yes else 1


def part(desk, whole, piece):
    """The piece's key goes into a copy of the whole's store. A tree that is there has all its parts there, so rows added are a no."""
    chains = [files.chain(whole, desk), files.chain(piece, desk)]
    number, data = desk.asks.write_key(chains[1].words, chains[1].row)
    files.refuse_row(number, chains[1:])
    done = desk.asks.insert(chains[0].words, data)
    if done.number in (0, 8):
        known = done.number == 0 and done.added == 0
        number, yes = desk.asks.part_of(chains[0].words, chains[0].row, done.answers[0] if known else chains[0].row)
        files.refuse_row(number, chains[:1])
        yes = known and yes
    else:
        files.refuse_row(done.number, chains[:1])
    verb = "is part of" if yes else "is no part of"
    desk.say.answer(f"{piece} {verb} {whole}", whole=whole, part=piece, yes=yes)
    return 0 if yes else 1


# ---- counts


def run_(desk, name, *given):
    """The trace with a column for each chain. All chains are run before anything is written."""
    twice = next((one for at, one in enumerate(given) if one in given[:at]), None)
    if twice:
        raise WrongUse(f"{twice} is given twice, and each chain has a column of its own")
    trace = traces.Trace(name, files.contents(name), traces.named_channels(desk.options.get("--channel", [])))
    if trace.missing():
        which = explain.listed([str(channel) for channel in trace.missing()])
        several = len(trace.missing()) > 1
        desk.say.note(f"{name}: note: {'channels' if several else 'channel'} {which} {'have no column, and are' if several else 'has no column, and is'} 0")
    outputs = {one: outputs_of(desk, files.chain(one, desk), trace) for one in given}
    table = trace.with_outputs(outputs)
    ticks = words.counted(len(trace.lines), "tick")
    if "--plot" in desk.options:
        stores.put(desk.options["--plot"], plots.svg(trace, outputs).encode())
        desk.say.note(f"{desk.options['--plot']}: {words.counted(len(set(map(tuple, outputs.values()))), 'output')} drawn over {ticks}")
    if "-o" not in desk.options and desk.say.as_json:
        for one, counts in outputs.items():
            desk.say.answer("", trace=name, chain=one, channels=trace.channels, ticks=len(counts), outputs=counts)
    else:
        put_out(desk, table.encode(), f"{ticks}, {words.counted(len(given), 'chain')}")
    return 0


def outputs_of(desk, chain, trace):
    number, outputs = desk.asks.run(chain.words, chain.row, trace.channels, trace.values)
    if number in (12, 13, 17):
        raise explain.run_refused(chain, number, trace.channels)
    files.refuse_row(number, [chain])
    return outputs


# ---- stores


def new(desk, name):
    options = desk.options
    if ("--words" in options) != ("--order" in options):
        raise WrongUse("--words and --order belong together: the bytes of a logger's memory, and which end comes first")
    if "--words" not in options:
        rows = helps.whole("--rows", options.get("--rows", str(stores.MOST_ROWS)))
        stores.create(name, stores.packed(stores.room(rows)))
        desk.say.answer(f"{name}: empty, room for {words.counted(rows, 'row')}", file=name, used=0, room=rows)
        return 0
    if options["--order"] not in ("little", "big") or "--rows" in options:
        raise WrongUse("--order is little or big, and --words brings its own room: --rows does not go with it")
    run = stores.from_dump(options["--words"], files.contents(options["--words"]), options["--order"])
    number = desk.asks.check(run)  # before anything is made, so that a dump that fits no request makes no file
    stores.create(name, stores.packed(run))
    if number:
        raise stores.refused(number, run, name, "it is kept as it is: chain show --anyway shows what can be seen")
    desk.say.answer(f"{name}: {stores.used(run)}", file=name, used=run[0], room=stores.capacity(run))
    return 0


def check(desk, name):
    store = stores.read(name)
    number = desk.asks.check(store.words)
    if number == 0 and store.right:
        desk.say.answer(
            f"{name}: sound, {stores.used(store.words)}", file=name, used=store.words[0], room=stores.capacity(store.words)
        )
        return 0
    if not store.right:
        also = "asks says that it is sound" if number == 0 else f"asks refuses it too, {number}: {words.NUMBERS[number][0]}"
        desk.say.note(f"{name}: {also}")
        store.checked()
    raise stores.refused(number, store.words, name)


def show(desk, name, *wanted):
    store = stores.read(name)
    if "--anyway" in desk.options:
        for line in ([] if store.right else ["the checksum is wrong"]) + damage(desk, store):
            desk.say.note(f"{name}: {line}")
    else:
        stores.sound(desk.asks, store.checked(), name)
    run = store.words
    rows = stores.rows_in(run, run[0] if run else 0)
    numbers = range(len(rows))
    if wanted:
        starts = [files.number_in(one, f"{name}:{one}") for one in wanted]
        for start in starts:
            number, _ = desk.asks.part_of(run, start, start)
            files.refuse_row(number, [files.Chain(f"{name}:{start}", run, start)])
        numbers = sorted(loops.reached(starts, [row.inputs for row in rows]))
    shown = text.stored([(number, rows[number]) for number in numbers], len(rows))
    desk.say.answer(shown.splitlines(), file=name, numbers=list(numbers), text=shown)
    return 0


def damage(desk, store):
    number = desk.asks.check(store.words)
    why = f"; {stores.why_unsound(store.words)}" if number == 2 else ""
    return [f"refused {number}: {words.NUMBERS[number][0]}{why}"] if number else []


class Inserting:
    """A bundle under one lock: saved at its end and every few seconds. What is said waits for the save that holds it."""

    def __init__(self, desk, locked):
        self.desk, self.locked = desk, locked
        self.run = locked.read().checked().words
        self.saved = time.monotonic()
        self.changed, self.waiting, self.refused = False, [], 0

    def sheets(self, found):
        for at, sheet in enumerate(found, 1):
            self.one(sheet)
            if self.refused and "--keep-going" not in self.desk.options:
                break
            self.desk.say.progress(f"insert: {at:,} of {len(found):,} sheets, {self.refused:,} refused")
            if time.monotonic() - self.saved > SAVE_EVERY:
                self.flush()
        self.flush()
        return 3 if self.refused else 0

    def one(self, sheet):
        before = self.run
        try:
            done = files.inserted(sheet, before, self.desk, self.locked.path, "--strict" in self.desk.options)
        except Refused as refusal:
            self.refused += 1
            self.waiting.append((self.desk.say.stop, (refusal,), {}))
            return
        self.run = done.store
        self.changed = self.changed or done.added > 0
        lines, members = inserted_lines(sheet, done, before[0], "--all" in self.desk.options)
        self.waiting.append((self.desk.say.answer, (lines,), members))

    def flush(self):
        if self.changed:
            self.locked.save(self.run)
            self.changed = False
        for say, given, members in self.waiting:
            say(*given, **members)
        sys.stdout.flush()
        self.waiting, self.saved = [], time.monotonic()


def inserted_lines(sheet, done, before, every):
    """The chain's number, and a row a line: its name, its number, and whether it was known."""
    count = sheets.row_count(sheet.data)
    numbers = done.answers[:count]
    marks, seen = [], set()
    for number in numbers:
        marks.append("same as above" if number in seen else "known" if number < before else "new")
        seen.add(number)
    names = [sheet.name(row) for row in range(count)]
    wide, figures = max(map(len, names), default=0), max((len(str(number)) for number in numbers), default=0)
    chain = f"chain {numbers[0]}, {marks[0]}" if count else "no chain"
    lines = [f"{sheet.title}: {chain}; {words.counted(count, 'row')}, {done.added:,} added"]
    shown = count if every else min(count, SHOWN_ROWS)
    lines += [f"  {names[row]:{wide}}  {numbers[row]:{figures}}  {marks[row]}" for row in range(shown)]
    if shown < count:
        lines.append(f"  .. and {count - shown:,} more (--all)")
    members = {"chain": numbers[0] if count else None, "rows": count, "added": done.added, "numbers": numbers, "names": names}
    return lines, {**sheet.members(), **members}


def insert(desk, name, *given):
    wait = helps.whole("--wait", desk.options.get("--wait", str(WAIT)))
    found = [sheet for one in given for sheet in files.load(one, desk).sheets]
    for sheet in found:
        files.fits(sheet)  # before the lock: a file that cannot be used inserts nothing
    with stores.Locked(name, wait) as locked:
        return Inserting(desk, locked).sheets(found)


def mend(desk, name):
    new_name, list_name = desk.options.get("-o"), desk.options.get("--list")
    if not new_name or not list_name:
        raise WrongUse("chain mend needs -o NEW and --list CSV: numbers move, and readings carry the old ones")
    store = stores.read(name)
    if not store.right:
        desk.say.note(f"{name}: the checksum is wrong: it is mended as it is now")
    taken = stores.taken(store.words)
    done = desk.asks.mend(store.words, taken, 1 + stores.ROW_WORDS * taken)
    if done.number:
        raise stores.refused(done.number, store.words, name)
    if desk.asks.check(done.store):
        raise Broken("asks mended the store, and does not take what it made of it for sound")
    stores.create_mended(new_name, done.store, list_name, done.list[:taken])
    desk.say.answer(mended_lines(name, taken, done, new_name, list_name), file=name, taken=taken, kept=done.store[0], dropped=done.dropped,
                    wires=done.wires, merged=done.merged, cleared=done.cleared, new=new_name, list=list_name, numbers=done.list[:taken])
    return 0


def mended_lines(name, taken, done, new_name, list_name):
    kinds = f"{done.store[0]:,} kept, {done.dropped:,} dropped, {words.counted(done.wires, 'wire')}, {done.merged:,} merged"
    return [
        f"{name}: {words.counted(taken, 'row')} taken: {kinds}; {words.counted(done.cleared, 'unused word')} cleared",
        f"{new_name}: sound, {stores.used(done.store)}",
        f"{list_name}: old and new numbers of {words.counted(taken, 'row')} ({DROPPED}: dropped)",
    ]


# ---- refusals and pictures


def explain_(desk, argument):
    if files.whole(argument):
        number = int(argument)
        if number not in words.NUMBERS:
            raise WrongUse(f"{argument} is not used" if number == 11 else f"{argument} is no number of this register")
        meaning, advice = words.NUMBERS[number]
        desk.say.answer(explain.number_lines(number), number=number, words=meaning, advice=advice)
        return 0
    into = desk.options.get("--into")
    run = stores.read(into).checked().words if into else stores.empty()
    store = into or "an empty store"
    for sheet in files.load(argument, desk).sheets:
        done = files.inserted(sheet, run, desk, store, "--strict" in desk.options)
        count = words.counted(sheets.row_count(sheet.data), "row")
        head = f"{sheet.title}: it would be done: {count}, {done.added:,} added to {store}"
        desk.say.answer([head] + explain.byte_by_byte(sheet), **sheet.members(), number=0, added=done.added)
        run = done.store
    return 0


def draw(desk, *given):
    groups = pictures.groups(desk, given)
    count = sum(len(group.rows) for group in groups)
    if count > MOST_DRAWN and "--all" not in desk.options:
        raise Unusable(
            f"{words.counted(count, 'row')} are too many for a picture: draw STORE:NUMBER or FILE:NAME instead, or give --all"
        )
    picture = pictures.dot(groups) if "--dot" in desk.options else pictures.svg(groups)
    put_out(desk, picture.encode(), f"{words.counted(count, 'row')} drawn", rows=count, picture=picture)
    return 0


RUN = {
    "write": write, "read": read, "convert": convert, "draw": draw, "new": new, "insert": insert, "show": show, "check": check, "mend": mend,
    "key": key, "iskey": iskey, "same": same, "part": part, "run": run_, "explain": explain_,
}


# ---- the whole


def main(arguments):
    try:
        standard_files()
        status = started(arguments)
        sys.stdout.flush()
        return status
    except BrokenPipeError:
        end_by(signal.SIGPIPE)
    except KeyboardInterrupt:
        end_by(signal.SIGINT)
    except OSError as error:
        os.write(2, f"chain: standard output could not be written: {error.strerror}\n".encode())
        os._exit(4)
    except Exception:  # Python's own status would be 1, which means no
        traceback.print_exc()
        return 5


def standard_files():
    """Text is UTF-8 whatever the machine's language, and a file's name is passed on as it came. A standard file that is closed would be
    the number of the next file opened, a store's even: instead input and output fail, and errors go nowhere."""
    for number, name in enumerate(["/dev/null", "/dev/full", "/dev/null"]):
        try:
            os.fstat(number)
        except OSError:
            os.open(name, os.O_RDWR)
    sys.stdout = sys.stdout or open(1, "w", encoding="utf-8", closefd=False)
    sys.stderr = sys.stderr or open(2, "w", encoding="utf-8", closefd=False)
    for file in (sys.stdout, sys.stderr):
        file.reconfigure(encoding="utf-8", errors="surrogateescape")


def end_by(number):
    """As any program ends that does not look at the signal: quietly."""
    signal.signal(number, signal.SIG_DFL)
    os.kill(os.getpid(), number)


def started(arguments):
    if not arguments:
        sys.stderr.write(helps.overview())
        return 2
    name, *rest = arguments
    if name in ("--help", "-h", "help"):
        if rest and rest[0] in helps.COMMANDS:
            sys.stdout.write(helps.help_for(rest[0]))
        else:
            sys.stdout.write(helps.overview())
        return 0
    try:
        if name not in RUN:
            raise unknown(name)
        given, options = helps.read_options(name, rest)
    except Stop as stop:
        Saying("--json" in rest, "-q" in rest).stop(stop)
        return stop.status
    if "--help" in options or "-h" in options:
        sys.stdout.write(helps.help_for(name))
        return 0
    return run(name, given, options)


def unknown(name):
    if name.startswith("-"):
        return WrongUse(f"options stand behind the command: chain COMMAND {name}")
    return WrongUse(f"chain has no command '{name}'{helps.guess(name, RUN) or '; chain --help lists them'}")


def run(name, given, options):
    desk = Desk(options)
    try:
        return RUN[name](desk, *given)
    except Stop as stop:
        desk.say.stop(stop)
        return stop.status
    finally:
        desk.asks.close()
