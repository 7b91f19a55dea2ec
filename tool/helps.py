"""What each command takes, in one table: the options are read by it, and the help texts are made from it."""
import collections
import difflib

import words
from faults import WrongUse

# least and most arguments; options with the name of their value, or None (with `..` behind it where they may come several times);
# an example, and what it prints
Command = collections.namedtuple("Command", "synopsis about least most options example prints statuses", defaults=("", (0, 2, 4)))

COMMON = {"--json": None, "-q": None, "--help": None}
MANY = 1000000
RAW = "echo 'raw = channel 1'"
LOOP = "echo 'kept = hold kept'"
TWICE = "printf 'a = hold b\\nb = hold a\\n'"
HELD = "printf 'kept = hold raw\\nraw = channel 0\\n'"

COMMANDS = {
    "write": Command(
        "chain write TEXT [-o SHEET] [--hex]",
        "Text to the bytes of a sheet. To a terminal it always writes hex.",
        1, 1, {"-o": "SHEET", "--hex": None},
        f"{RAW} | chain write - --hex", "00 00 00 08 01 00 01 00 01 00 01 00",
    ),
    "read": Command(
        "chain read SHEET",
        "Bytes to text, in one normal form. Of a sheet that cannot be read, the rows before the fault, and then what is wrong.",
        1, 1, {},
        f"{TWICE} | chain write - | chain read -", "r0 = hold r1\nr1 = hold r0", (0, 2, 3, 4, 5),
    ),
    "convert": Command(
        "chain convert SHEET --from STORE [-o NEW] [--hex]",
        "An old sheet without its store numbers (inputs of 32,768 and up, in text @N), which inserts refuse: they would mean other rows in\n"
        "another store. STORE is the one that the sheet was drawn against, and may have grown since. The sheet's rows stay where they are, and\n"
        "the rows of the store that they lead to are drawn behind them, by rising number. To a terminal it always writes hex.",
        1, 1, {"--from": "STORE", "-o": "NEW", "--hex": None},
        f"chain new -q hood.store && {RAW} | chain insert -q hood.store - && echo 'kept = hold @0' | chain convert - --from hood.store | chain read -",
        "r0 = hold r1\nr1 = channel 1", (0, 2, 3, 4, 5),
    ),
    "draw": Command(
        "chain draw FILE.. [-o PICTURE] [--dot] [--all]",
        "A picture of each file, one under another, as SVG (or with --dot as text for Graphviz). All go into one empty store:\n"
        "boxes with the same number have one colour, all others are white. A loop without a hold is red. A wire is a thin box with the\n"
        "number of what it leads to. Over 200 rows need --all.",
        1, MANY, {"-o": "PICTURE", "--dot": None, "--all": None},
        f"{LOOP} | chain draw - -o kept.svg", "kept.svg: 1 row drawn", (0, 2, 3, 4, 5),
    ),
    "new": Command(
        "chain new STORE [--rows N] [--words DUMP --order little|big]",
        "A new store, empty, with room for N rows (1,024 at most, and if nothing is said); or with the words of a logger's memory,\n"
        "as they are. It never replaces a file.",
        1, 1, {"--rows": "N", "--words": "DUMP", "--order": "little|big"},
        "chain new hood.store --rows 64", "hood.store: empty, room for 64 rows", (0, 2, 3, 4, 5),
    ),
    "insert": Command(
        "chain insert STORE FILE.. [--strict] [--keep-going] [--all] [--wait SECONDS]",
        "Inserts the sheets of files into a store file. It stops at the first refused sheet unless --keep-going; what was done before\n"
        "stays. --strict takes only catalogue operations with their input counts, and loops that pass a hold. A line is printed when\n"
        "the save that holds it is on the disk. Another insert that has the store is waited for, 10 seconds if nothing is said; on\n"
        "network file systems that lock may not hold. Of each sheet 16 rows are shown, with --all every row.",
        2, MANY, {"--strict": None, "--keep-going": None, "--all": None, "--wait": "SECONDS"},
        f"chain new -q hood.store && {TWICE} | chain insert hood.store -",
        "-: chain 0, new; 2 rows, 1 added\n  a  0  new\n  b  0  same as above", (0, 2, 3, 4, 5, 6),
    ),
    "show": Command(
        "chain show STORE [NUMBER..] [--anyway]",
        "The rows of a store as text; with numbers, those rows and all that they lead to. That text inserted into a new store of the\n"
        "same size makes the same store again. --anyway shows what can be seen of a damaged one.",
        1, MANY, {"--anyway": None},
        f"chain new -q hood.store && {TWICE} | chain insert -q hood.store - && chain show hood.store", "n0 = hold n0", (0, 2, 3, 4, 5),
    ),
    "check": Command(
        "chain check STORE",
        "Whether a store is whole and sound, and how many of its rows are used.",
        1, 1, {},
        "chain new -q hood.store && chain check hood.store", "hood.store: sound, 0 of 1,024 rows used", (0, 2, 3, 4, 5),
    ),
    "mend": Command(
        "chain mend STORE -o NEW --list CSV",
        "A sound store made of one that is not: with wires from the time when they were stored, or with rows spoiled by bad flash. Spoiled\n"
        "rows are dropped with all that lead to them, wires go, and each tree is kept once. It is never done in place: numbers move, and\n"
        "readings carry the old ones. The list has a line for each old number, with the new one, or 4294967295 where the row was dropped: put\n"
        "the numbers of old readings through it once. A wrong checksum is no hindrance. Neither file may be there already.",
        1, 1, {"-o": "NEW", "--list": "CSV"},
        f"chain new -q old.store && {LOOP} | chain insert -q old.store - && chain mend old.store -o new.store --list moved.csv",
        "old.store: 1 row taken: 1 kept, 0 dropped, 0 wires, 0 merged; 0 unused words cleared\n"
        "new.store: sound, 1 of 1,024 rows used\n"
        "moved.csv: old and new numbers of 1 row (4294967295: dropped)", (0, 2, 3, 4, 5),
    ),
    "key": Command(
        "chain key CHAIN [-o KEY]",
        "The key of a chain: its name outside any store, the same for every drawing of it. In hex, or as a file.",
        1, 1, {"-o": "KEY"},
        f"{TWICE} | chain key -", "0000000a01000100060000010000", (0, 2, 3, 4, 5),
    ),
    "iskey": Command(
        "chain iskey FILE",
        "Whether the bytes of a file are a key.",
        1, 1, {},
        f"{LOOP} | chain write - | chain iskey -", "a key", (0, 1, 2, 4, 5),
    ),
    "same": Command(
        "chain same CHAIN CHAIN",
        "Whether two drawings are one chain: ask it in a release check, by the status alone. A refusal is never 1.",
        2, 2, {},
        f"{LOOP} >one.chain && {TWICE} | chain same one.chain -", "the same chain", (0, 1, 2, 3, 4, 5),
    ),
    "part": Command(
        "chain part WHOLE PART",
        "Whether one chain is part of another.",
        2, 2, {},
        f"{LOOP} >whole.chain && {TWICE} | chain part whole.chain -:b", "-:b is part of whole.chain", (0, 1, 2, 3, 4, 5),
    ),
    "run": Command(
        "chain run TRACE CHAIN.. [--channel N=COLUMN].. [--plot PICTURE] [-o CSV]",
        "Recorded counts run through chains. The trace is CSV with a head, a tick a line; columns ch0 to ch7 are channels, and so are those that\n"
        "--channel names. A channel below these that has no column is 0. All columns are passed on, and behind them comes one for each chain.\n"
        "A hold begins with 0, so a trace cannot be cut: over 8,192 values (ticks times channels) another program has to run it. --plot draws\n"
        "the counts and the outputs as SVG; chains with equal outputs share a line.",
        2, MANY, {"--channel": "N=COLUMN..", "--plot": "PICTURE", "-o": "CSV"},
        f"{HELD} >held.chain && printf 'ch0\\n4\\n-5\\n6\\n' | chain run - held.chain", "ch0,held.chain\n4,0\n-5,4\n6,-5", (0, 2, 3, 4, 5),
    ),
    "explain": Command(
        "chain explain NUMBER\n       chain explain FILE [--into STORE] [--strict]",
        "What a number given back means, and what to do. Of a file, why it is refused; or that it would be done, and its sheet byte by\n"
        "byte. The store is not changed; without --into it is an empty one.",
        1, 1, {"--into": "STORE", "--strict": None},
        "chain explain 8",
        "8: used rows plus new distinct trees exceed the capacity\n"
        "  nothing is ever deleted: make a larger store and insert chain show's text into it",
        (0, 2, 3, 4, 5),
    ),
}

HEAD = """\
chain: chains as text, as pictures, and in store files

  chain write TEXT             text to a sheet's bytes
  chain read SHEET             a sheet's bytes to text
  chain convert SHEET          an old sheet without its store numbers
  chain draw FILE..            a picture, SVG
  chain new STORE              an empty store in a file
  chain insert STORE FILE..    sheets into a store
  chain show STORE [NUMBER..]  the rows of a store as text
  chain check STORE            whether a store is sound
  chain mend STORE             a sound store of one that is not
  chain key CHAIN              a chain's name outside any store
  chain iskey FILE             whether bytes are a key
  chain same CHAIN CHAIN       whether two drawings are one chain
  chain part WHOLE PART        whether one chain is part of another
  chain run TRACE CHAIN..      recorded counts run through chains
  chain explain NUMBER|FILE    what a refusal means

A row a line:  net = difference raw zero   (NAME = OPERATION [SETTING] INPUT..; '#' begins a comment, '---' the next sheet)
A FILE is a text, a sheet, a bundle of sheets or a store; '-' is standard input.
A CHAIN is FILE (its first row), FILE:NAME, FILE:PLACE or STORE:NUMBER.
Every command takes --json (an object a line), -q (the status alone) and --help, which has an example.
"""


def statuses(chosen):
    return "statuses: " + ", ".join(f"{status} {words.STATUSES[status]}" for status in chosen)


def overview():
    return f"{HEAD}{statuses(words.STATUSES)}\n"


def help_for(name):
    command = COMMANDS[name]
    prints = "".join(f"    {line}\n" for line in command.prints.split("\n"))
    return (
        f"usage: {command.synopsis}\n\n{command.about}\n\n"
        f"example:\n    {command.example}\nprints:\n{prints}\n{statuses(command.statuses)}\n"
    )


def guess(word, known):
    close = difflib.get_close_matches(word, known, 1, 0.65)
    return f"; did you mean '{close[0]}'?" if close else ""


def read_options(name, arguments):
    """The arguments and the options of a command."""
    command = COMMANDS[name]
    known = {**COMMON, "-h": None, **command.options}
    plain, options, left = [], {}, list(arguments)
    while left:
        word = left.pop(0)
        if word == "--":
            plain += left
            break
        if word == "-" or word.startswith("-:") or not word.startswith("-"):
            plain.append(word)
            continue
        option, equals, value = word.partition("=")
        if option not in known:
            raise WrongUse(f"chain {name} has no option '{option}'{guess(option, known)}")
        given = option_value(name, option, known[option], value if equals else None, left)
        many = (known[option] or "").endswith("..")
        options[option] = options.get(option, []) + [given] if many else given
    if "--help" not in options and "-h" not in options and not command.least <= len(plain) <= command.most:
        raise WrongUse(f"usage: {command.synopsis}")
    return plain, options


def option_value(name, option, wanted, value, left):
    if wanted is None:
        if value is not None:
            raise WrongUse(f"chain {name}: {option} takes no value")
        return True
    if value is None:
        if not left:
            raise WrongUse(f"chain {name}: {option} needs its {wanted.removesuffix('..')}")
        value = left.pop(0)
    return value


def whole(option, value):
    """A whole number for an option."""
    if not (value.isascii() and value.isdigit()) or len(value) > 9:
        raise WrongUse(f"{option} takes a whole number, not '{value}'")
    return int(value)
