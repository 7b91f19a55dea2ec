#!/usr/bin/env python3
"""Makes docs/BELIEVE.md from the sources: every definition that a public contract or a duty reaches.

    docs/believe.py                writes docs/BELIEVE.md
    docs/believe.py --check        says whether it is as it would be made now, and whether the definitions reached stand in specs/
    docs/believe.py --list-proofs  lists the definitions reached that stand in proofs/, and through which they are reached
    docs/believe.py --list-inner   lists the files of specs/ that nothing on the page reaches and that do not begin with `-- Inner:`

Status 1 where the page is old, or where a definition reached stands in proofs/ or in a file of specs/ that begins with `-- Inner:`.
A line `CRATE/proofs/FILE.antt NAME` in docs/believe-allowed.txt lets that one stand. Another kit than the page names is said, no more.

The public contracts are those of the crates in PUBLIC: the public functions of a library, its own and those that it passes on; of a
program all functions, and those of the repository that it calls. The duties are the records of DUTIES, each with the theorem that proves
it; a record without one ends the script. With them stand the laws that docs/PROMISES.md cites in the table of its section OUTCOMES and
that `one_outcome` does not say. From there on each name is followed through the `use` lines to the file that defines it. A word that is
neither bound nor defined ends the script.
"""
import pathlib
import re
import subprocess
import sys

sys.dont_write_bytecode = True
from draw_house import PUBLIC, ROOT, read_crates  # noqa: E402

PAGE = ROOT / "docs" / "BELIEVE.md"
PROMISES = ROOT / "docs" / "PROMISES.md"
ALLOWED = ROOT / "docs" / "believe-allowed.txt"
DUTIES = [ROOT / "crates" / crate / "specs" / name for crate, name in [("duties", "Duties.antt"), ("convertduties", "Converting.antt")]]
ONE_OUTCOME = ROOT / "crates" / "duties" / "proofs" / "Duties.antt"
OUTCOMES = "What the contracts have to say"
CRATES = list(read_crates())
# the files of a function's own proof
GOALS = ["Proof.antt", "Invariants.antt", "Answers.antt"]
TOKEN = re.compile(r'\.?[^\s(){}.;,@"«»]+')
NAME = r'[^\s(){}.;,@"«»:=]+'
# what the prover knows with no `use` line, and the words of its language
PRELUDE = ["⊥", "Unit", "×", "Dec", "Type"]
WORDS = {*": → = λ record data where pub abbrev unfoldable module _ let in requires ensures result".split()}
# the head of a clause, which may have a name
CLAUSE = re.compile(r"(\s+(?:requires|ensures))(?: \w+)? \{")

# what a name of the library means, where that is not plain
MEANS = {
    "◌-◌": "the difference, 0 where the second is larger",
    "◌/◌": "rounded down",
    "◌%◌": "the remainder",
    "suc": "one more",
    "eqb": "the test of `≡` on numbers",
    "leb": "the test of `≤`",
    "ltb": "the test of `<`",
    "get_or": "`get_or l i d` is entry i of l, d past its end",
    "take": "`take n l` is the first n entries, all where there are fewer",
    "drop": "`drop n l` is l without its first n entries",
    "replicate": "`replicate n x` is n times x",
    "set": "`set l i x` is l with x as entry i, l past its end",
    "sets": "`sets l i xs` is l with the entries of xs from entry i on",
    "◌++◌": "one list after another",
    "◌∷◌": "an entry before a list",
    "[]": "the list of no entries",
    "◌⊎◌": "or",
    "◌↔◌": "each from the other",
    "◌≡◌": "equal",
    "Bor": "a lent run: `.now` what it holds, `.ref_ptr` where it stands",
    "⊥": "what never holds",
    "Unit": "what always holds",
    "×": "and",
}

HEAD = """\
# What a reader must believe

Made by `docs/believe.py` from the sources, and held against them by the gate: every definition that a public contract or a duty reaches,
and no other. Who has read this page knows what the register promises. Whether that is what the rules ask is for the reader to judge;
`docs/PROMISES.md` has the rules' sentences beside the names.
The rules, in the sources "01", and the paper, "003", are documents that are not in the repository; `docs/FORMAT.md` says what they are.

## Proved, tested, trusted

**Proved**, from nothing, by the gate: every function in `crates/` returns, never indexes past an end, never wraps a sum, and meets its
contract. (What the gate has passed on a machine is kept there, and is proved there again once anything that the proof read has changed.) No public operation asks anything of its caller, save the room that the program's `print` asks, which the program has.
The duties below are theorems about whatever the contracts allow, and so are the laws that a contract allows one outcome.

**Tested**, since no contract can say it: that the bytes handed to `print` are those of standard input, and that what it gives is
written (`tests/bundles`); every line of `asks`; what happens where reading or writing fails (`tests/streams`); the calls from C, and the stack
that they take (`tests/c`); the programs beside a second program, written from the rules alone (`tests/compare`); the tool (`tests/tool`).

**Trusted**, below all this: the prover's kernel, and its logic of what a program does; the compiler from there to x86-64; the call from
C, where a run is a pointer and a length, as `include/chain_register.h` says; and the system's `read` and `write`, with what the kit's
library says of them. And this script, for having left nothing out: the gate makes the page anew.

The kit that this page was made with: `{kit}`.

## How to read it

In a contract `x.now` is what the run x holds that is lent for reading; of a run that is lent for writing `x.old` is what it holds when the
function is called, `x.new` what it holds when it returns. `x.entry` is x as it was lent, with the place where it stands, and `result` is what
is given back. A word between `ensures` and its brace is the name of that clause. A run is a list of natural numbers; that its words and bytes
have 32 and 8 bits is known of every run that is lent, and a law on lists says it where it needs it.
`P × Q` is P and Q, `P → ⊥` is not P, and `(x : A) → P` is P for all x. A record holds where all its fields do, a data type where one
of its cases does. A definition is shown whole, a theorem without its proof.
"""


# ---- Rattle's files: what they use, and their functions and types


def read_rattle(path, files={}):
    if path not in files:
        files[path] = parse_rattle(path.read_text())
    return files[path]


def parse_rattle(text):
    """Its `use` paths, its ghost imports, and its items: name, kind, whether it is public, and the text without a function's body."""
    uses = []
    for public, path, names in re.findall(r"^(pub )?use ([\w:]+?)(?:::\{([^{}]*)\})?;", text, re.M):
        uses += [(bool(public), [*path.split("::"), *name.split()]) for name in names.split(",") if name.strip() or not names]
    ghosts = imported(re.findall(r"^ghost use (\S+)\.\{([^}]*)\};", text, re.M))
    items, above, lines = {}, [], text.splitlines()
    for number, first in enumerate(lines):
        found = re.match(r'(pub )?(?:extern "C" )?(fn|struct|enum|const|type) (\w+)', first)
        if found:
            body = above + text_of_item(lines[number:], found[2] == "fn")
            items[found[3]] = (found[2], bool(found[1]), "\n".join(body))
        above = above + [first] if first.startswith(("//", "#[")) else []
    return uses, ghosts, items


def imported(found):
    """What `use` lines bring, by its name in the file: the path, and its name there."""
    out = {}
    for path, names in found:
        for name in [n.strip() for n in names.split(",") if n.strip()]:
            there, _, here = name.partition(" as ")
            out[here or there] = path, there
    return out


def text_of_item(lines, function):
    """A function's text ends where its body begins: the first brace that neither a clause nor anything in one opens."""
    out, deep = [], 0
    for line in lines:
        code = line.split("//")[0].rstrip()
        if function and deep == 0 and re.search(r"(^|\s)\{\}?$", code) and not CLAUSE.match(code):
            head = code[: code.rindex("{")].rstrip()
            return out + ([head] if head else [])
        out.append(line)
        deep += code.count("{") - code.count("}")
        if not function and (line == "}" or line.endswith(";") and not line.startswith(" ")):
            return out
    return out


def rattle_file(crate, modules):
    src = ROOT / "crates" / crate / "src"
    if modules:
        return src.joinpath(*modules).with_suffix(".rt")
    return src / "lib.rt" if (src / "lib.rt").exists() else src / "main.rt"


def rattle_item(crate, modules, name):
    """Where an item of that name stands: the crate, its modules and itself. None where it is not the repository's."""
    path = rattle_file(crate, modules)
    if not path.exists():
        return None
    uses, _, items = read_rattle(path)
    if name in items:
        return crate, tuple(modules), name
    for _, parts in uses:
        if parts[-1] == name:
            if parts[0] == "crate":
                return rattle_item(crate, parts[1:-1], name)
            if parts[0] in CRATES:
                return rattle_item(parts[0], parts[1:-1], name)
            return rattle_item(crate, [*modules, *parts[:-1]], name)
    return None


def rattle_entry(key):
    return read_rattle(rattle_file(key[0], key[1]))[2][key[2]]


# ---- the prover's files: what they use, and their definitions


class Item:
    """A definition or a law: its names, the constructors it makes, the comment above it, its statement, its equations or proof."""

    def __init__(self, names, kind, public, comment, part, modules):
        self.names, self.kind, self.public, self.comment, self.part = names, kind, public, comment, part
        self.modules, self.statement, self.rest = modules, [], []

    def parts(self):
        """The fields of a record, or the constructors of a data type."""
        found = [re.match(rf"\s+(?:pub )?({NAME}(?: {NAME})*) :(\s|$)", l) for l in self.statement[1:] if self.kind != "plain"]
        return [n for f in found if f for n in f[1].split()]

    def made(self):
        return self.parts() if self.kind == "data" else []

    def bound(self):
        """Names that mean something of the item's own in it: itself, its parts, and what its statement binds."""
        return {*self.names, *self.parts(), *bound_in([*self.modules, *self.statement])}

    def loose(self):
        """Names that may mean something of the item's own: those of its equations' left sides, and what its equations bind or name."""
        left = [found[1] for l in self.rest if (found := re.match(r"(\s*\S.*?) =(\s|$)", l))]
        lines = [*self.statement, *self.rest]
        return {*words_of(left), *bound_in(lines), *named_in(lines)}


def read_proofs(path, files={}):
    if path not in files:
        files[path] = parse_proofs(path.read_text().splitlines())
    return files[path]


def begins(line):
    """The names that a line declares, its kind, and whether they are public; None for any other line."""
    found = re.match(rf"((?:(?:pub|abbrev|unfoldable) )*)(record|data) ({NAME})", line)
    if found:
        return [found[3]], found[2], "pub" in found[1]
    found = re.match(rf"((?:(?:pub|abbrev|unfoldable) )*)({NAME}(?: {NAME})*)(?: \{{[^}}]*\}})? :(\s|$)", line)
    if found and found[2].split()[0] not in ("module", "use", "let"):
        return found[2].split(), "plain", "pub" in found[1]
    return None


def parse_proofs(lines):
    """The comment at the file's head, its imports, and its items in order."""
    head = []
    for line in lines:
        if not line.startswith("--"):
            break
        head.append(line)
    imports = imported(re.findall(r"^(?:pub )?use (\S+)\.\{([^}]*)\}", "\n".join(lines), re.M))
    items, state = [], {"modules": [], "comment": [], "part": None, "item": None, "open": False}
    for line in lines[len(head) :]:
        take_line(line, items, state)
    return head, imports, items


def take_line(line, items, state):
    """One more line: of a module's head, of a comment, of a new item, or of the item before it."""
    text, deep = line.lstrip(), len(line) - len(line.lstrip())
    if state["open"]:  # a module's head that goes on
        state["modules"][-1][1].append(line)
        state["open"] = not text.endswith("where")
        return
    if not text:
        state["comment"] = []
        return
    while state["modules"] and deep <= state["modules"][-1][0]:
        state["modules"].pop()
        state["item"] = None
    level = state["modules"][-1][0] + 2 if state["modules"] else 0
    if deep > level and state["item"]:
        item = state["item"]
        (item.rest if item.rest else item.statement).append(line)
    elif text.startswith("-- ----"):
        state["part"], state["comment"] = line, []
    elif text.startswith(("--", "infix")):
        state["comment"].append(line)
    elif text.startswith("module "):
        state["modules"].append((deep, [line]))
        state["open"], state["item"], state["comment"] = not text.endswith("where"), None, []
    elif begins(text):
        names, kind, public = begins(text)
        modules = ["\n".join(m[1]) for m in state["modules"]]
        state["item"] = Item(names, kind, public, state["comment"], state["part"], modules)
        state["item"].statement.append(line)
        state["comment"] = []
        items.append(state["item"])
    elif state["item"] and not text.startswith(("use ", "pub use ", "pub mod ", "mod ")):
        state["item"].rest.append(line)


def proofs_file(path):
    """The file that a `use` path names, or None; and for a type declared in Rattle its crate, modules and name."""
    parts = path.split(".")
    if parts[0] != "Rattle" or len(parts) < 4 or parts[1] not in CRATES:
        return None, None
    _, crate, part, *names = parts
    if names[0] == "declared":
        names = [n for n in names[1:] if n != "TheVariants"]
        return None, rattle_item(crate, names[:-1], names[-1])
    return ROOT / "crates" / crate / part / pathlib.Path(*names).with_suffix(".antt"), None


# ---- from the contracts and the duties to all that they reach


def words_of(lines):
    """The words of a text without its comments, fields left out; an operator `◌+◌` is met as `+`."""
    for line in lines:
        for word in TOKEN.findall(re.sub(r"(^|\s)--.*", "", line)):
            if not word.startswith("."):
                yield word


def bound_in(lines):
    """What a text binds before a colon or after a λ."""
    text = "\n".join(lines)
    found = re.findall(rf"[({{]({NAME}(?: {NAME})*) :\s", text) + re.findall(rf"λ ({NAME}(?: {NAME})*)\.", text)
    return {n for names in found for n in names.split()}


def named_in(lines):
    """What a let names, and the fields that a record is given."""
    return set(re.findall(rf"(?:let|[{{;])\s+({NAME}) [:=]\s", "\n".join(lines)))


def met_as(names):
    """How each name may stand in a text: itself, and each piece of an operator."""
    return {piece: name for name in names for piece in [name, *(p for p in name.split("◌") if "◌" in name and p)]}


class Reach:
    def __init__(self):
        self.through = {}  # a file and an item, or a type of Rattle: the name through which it was first reached
        self.library, self.prelude, self.waiting = {}, set(), []

    def add(self, key, through):
        if key not in self.through:
            self.through[key] = through
            self.waiting.append(key)

    def name(self, name, path, through):
        """A name as it stands at that path."""
        file, declared = proofs_file(path)
        if declared:
            self.add(declared, through)
        elif file is None:
            self.library.setdefault(path, set()).add(name)
        else:
            self.defined(file, name, through)

    def defined(self, file, name, through):
        head, imports, items = read_proofs(file)
        found = [i for i in items if name in i.names or name in i.made()]
        for item in found:
            self.add((file, item), through)
        if not found and name in imports:
            path, there = imports[name]
            self.name(there, path, through)
        elif not found:
            sys.exit(f"docs/believe.py: {file.relative_to(ROOT)} does not define {name}, which {through} uses")

    def text(self, lines, imports, through, bound, own=(), file=None):
        """Every name of a text: one of the file's own, one that it imports, one that the prover knows, or one that the text binds."""
        own, brought = met_as(own), met_as(imports)
        for word in words_of(lines):
            if word in own:
                self.defined(file, own[word], through)
            elif word in brought:
                path, there = imports[brought[word]]
                self.name(there, path, through)
            elif word in PRELUDE:
                self.prelude.add(word)
            elif word not in WORDS and word not in bound and not word.isdigit():
                sys.exit(f"docs/believe.py: it does not know what '{word}' is, in {through}")

    def item(self, file, item, whole):
        """A definition whole, or a law without its proof."""
        _, imports, items = read_proofs(file)
        bound = item.bound()
        own = [n for i in items if i is not item for n in [*i.names, *i.made()] if n not in bound]
        brought = {n: path for n, path in imports.items() if n not in bound}
        lines = [*item.modules, *item.statement, *(item.rest if whole else [])]
        self.text(lines, brought, item.names[0], bound | item.loose(), own, file)

    def types(self, key, text):
        """The types of the repository that a piece of Rattle names."""
        for word in re.findall(r"\b[A-Z]\w*", re.sub(r"//.*", "", text)):
            found = rattle_item(key[0], list(key[1]), word)
            if found and found != key:
                self.add(found, key[2])

    def contract(self, key):
        kind, _, text = rattle_entry(key)
        code = [l for l in text.splitlines() if not l.lstrip().startswith("//")]
        facts = [i for i, l in enumerate(code) if CLAUSE.match(l)]
        first = facts[0] if facts else len(code)
        self.types(key, "\n".join(code[:first]))
        bound = {*re.findall(r"(\w+): ", "\n".join(code[:first])), *bound_in(code[first:]), *named_in(code[first:])}
        clauses = [CLAUSE.sub(r"\1 {", l) for l in code[first:]]
        self.text(clauses, read_rattle(rattle_file(key[0], key[1]))[1], key[2], bound)

    def close(self):
        while self.waiting:
            key = self.waiting.pop(0)
            if len(key) == 3:
                self.types(key, rattle_entry(key)[2])
            else:
                self.item(*key, True)


# ---- where to begin


def contracts():
    """The public functions, by public crate: each as the crate, the modules and the name of its home."""
    out = {}
    for crate in [c for c in CRATES if c in PUBLIC]:
        path = rattle_file(crate, [])
        uses, _, items = read_rattle(path)
        program = path.name == "main.rt"
        own = [(crate, (), n) for n, (kind, public, _) in items.items() if kind == "fn" and (public or program) and n != "main"]
        passed = [rattle_item(crate, [], parts[-1]) for public, parts in uses if public or program]
        out[crate] = own + [key for key in passed if key and rattle_entry(key)[0] == "fn"]
        asking = [key[2] for key in out[crate] if not program and re.search(r"^\s+requires\b", rattle_entry(key)[2], re.M)]
        if asking:
            sys.exit(f"docs/believe.py: the page says that no public operation asks anything, but {', '.join(asking)} of {crate} does")
    return out


def laws_of_table(title):
    """The second column of the first table of a section, whose first names an operation."""
    found = re.search(rf"^## {re.escape(title)}\n(?:(?!## ).*\n)*?\| Operation \| Law \|\n\|[-|]+\n((?:\|.*\n)*)", PROMISES.read_text(), re.M)
    if not found:
        sys.exit(f"docs/believe.py: docs/PROMISES.md has no section '{title}' with a table of operations and laws")
    return "\n".join(line.split("|")[2] for line in found[1].splitlines())


def cited(text):
    """The words between backquotes, in order, each with the crate named before it in its cell."""
    out = {}
    for cell in re.split(r"[|\n]", text):
        crate = None
        for quoted, plain in re.findall(r"`([^`]*)`|([\w]+)", cell):
            crate = plain if plain in CRATES else crate
            for word in quoted.replace(",", " ").split():
                out.setdefault(word, crate)
    return out


def public_laws():
    """Every public law of the crates, by name: where it stands. A function's own proof has none."""
    laws = {}
    for crate in CRATES:
        for file in sorted((ROOT / "crates" / crate / "proofs").glob("**/*.antt")):
            if file.name not in GOALS or file.parent.name == "proofs":
                for item in read_proofs(file)[2]:
                    if item.public and item.kind == "plain":
                        for name in item.names:
                            laws.setdefault(name, []).append((crate, file, item))
    return laws


def laws_in(text, laws):
    """The public laws that a text cites. Where several crates have one, the text names the crate before it."""
    out = []
    for word, crate in cited(text).items():
        found = laws.get(word, [])
        if len(found) > 1:
            found = [f for f in found if f[0] == crate]
            if len(found) != 1:
                sys.exit(f"docs/believe.py: docs/PROMISES.md cites {word}, which several crates have: name one before it")
        out += [(file, item) for _, file, item in found]
    return out


def duties():
    """The records of DUTIES, each with the public law of its crate that ends in it."""
    out = []
    for duty in DUTIES:
        laws = [item for found in public_laws().values() for crate, _, item in found if crate == crate_of(duty)]
        for record in [i for i in read_proofs(duty)[2] if i.kind == "record"]:
            proved = [i for i in laws if re.search(rf"[→:] {re.escape(record.names[0])}(\s[^→]*)?$", "\n".join(i.statement))]
            if not proved:
                sys.exit(f"docs/believe.py: no theorem proves {record.names[0]} of {place_of(duty)}")
            out.append((duty, record, proved[0].names[0]))
    return out


def other_outcomes():
    """The laws of OUTCOMES from which `one_outcome` is not made: on contracts that it does not speak of."""
    said = set(ONE_OUTCOME.read_text().replace("{", " ").replace("}", " ").replace(",", " ").split())
    found = laws_in(laws_of_table(OUTCOMES), public_laws())
    return list(dict.fromkeys(f for f in found if not said & set(f[1].names) and "one_outcome" not in f[1].names))


# ---- the page


def crate_of(file):
    return file.relative_to(ROOT / "crates").parts[0]


def place_of(file):
    return str(file.relative_to(ROOT / "crates"))


def in_specs(file):
    return file.relative_to(ROOT / "crates").parts[1] == "specs"


def shown(items, wanted, whole):
    """The wanted items of a file in its own order, under the heads of their modules; a law without its proof."""
    out, modules, part = [], [], None
    for item in items:
        if not any(item is w for w in wanted):
            continue
        same = 0
        while same < min(len(modules), len(item.modules)) and modules[same] == item.modules[same]:
            same += 1
        heads = [(len(head) - len(head.lstrip()), head) for head in item.modules[same:]]
        if item.part and item.part != part and not whole:  # it stands above the modules that are deeper than it is
            heads.append((len(item.part) - len(item.part.lstrip()), item.part))
            heads.sort(key=lambda h: (h[0], h[1].lstrip().startswith("module")))
        for _, head in heads:
            out += ["", head]
        modules, part = item.modules, item.part
        gap = [] if not whole and not item.comment else [""]
        out += [*gap, *item.comment, *item.statement, *(item.rest if whole else [])]
    return "\n".join(out).strip("\n")


def block(language, text):
    return f"```{language}\n{text}\n```\n"


def prose(head):
    """The comment at a file's head as words of the page."""
    return " ".join(l.lstrip("-").strip() for l in head) + "\n" if head else ""


def write_contracts(found):
    out = ["## The public contracts\n"]
    for crate, keys in found.items():
        out.append(f"### {crate}\n")
        for home in dict.fromkeys((k[0], k[1]) for k in keys):
            path = place_of(rattle_file(*home))
            texts = [rattle_entry(k)[2] for k in keys if (k[0], k[1]) == home]
            out += [f"`{path}`:\n", block("rust", "\n\n".join(texts))]
    return out


def write_duties(found):
    out = ["## The duties\n"]
    for duty in DUTIES:
        head, _, items = read_proofs(duty)
        here = [(record, law) for file, record, law in found if file == duty]
        proofs = ", ".join(f"`{law}` proves `{record.names[0]}`" for record, law in here)
        out += [prose(head), f"`{place_of(duty)}`; {proofs}:\n", block("antt", shown(items, [r for r, _ in here], True))]
    return out


def write_laws(title, found):
    out = [f"## {title}\n"]
    files = sorted(dict.fromkeys(f for f, _ in found), key=lambda f: (CRATES.index(crate_of(f)), f.name))
    for file in files:
        head, _, items = read_proofs(file)
        wanted = [i for f, i in found if f == file]
        out += [f"### {place_of(file)}\n", prose(head), block("antt", shown(items, wanted, False))]
    return out


def file_order(file):
    """Files of a crate as its Lib.antt names them."""
    lib = file.parent / "Lib.antt"
    names = re.findall(r"^(?:pub )?mod (\S+)", lib.read_text(), re.M) if lib.exists() else []
    return (not in_specs(file), names.index(file.stem) if file.stem in names else len(names), str(file))


def write_definitions(reach):
    out = ["## The definitions\n", "In the order of `crates.txt`: a crate stands after those that it uses.\n"]
    for crate in CRATES:
        types = sorted(k for k in reach.through if len(k) == 3 and k[0] == crate)
        files = {k[0] for k in reach.through if len(k) == 2 and crate_of(k[0]) == crate}
        if types or files:
            out.append(f"### {crate}\n")
        for home in dict.fromkeys((k[0], k[1]) for k in types):
            texts = [rattle_entry(k)[2] for k in types if (k[0], k[1]) == home]
            out += [f"`{place_of(rattle_file(*home))}`:\n", block("rust", "\n\n".join(texts))]
        for file in sorted(files, key=file_order):
            head, _, items = read_proofs(file)
            wanted = [k[1] for k in reach.through if k[0] == file]
            out += [f"`{place_of(file)}`: {prose(head)}", block("antt", shown(items, wanted, True))]
    return out


def explained(names):
    return "; ".join(f"`{n}`" + (f" ({MEANS[n]})" if n in MEANS else "") for n in names)


def write_library(reach):
    out = ["## From the prover's library\n", "These names are the kit's own. They mean what its library says; the words beside them are a help.\n"]
    for path in sorted(reach.library):
        out.append(f"- `{path}`: " + explained(sorted(reach.library[path])))
    out.append("- with no `use` line: " + explained(n for n in PRELUDE if n in reach.prelude))
    return out + [""]


def gathered():
    reach, public, records, laws = Reach(), contracts(), duties(), other_outcomes()
    for key in dict.fromkeys(k for keys in public.values() for k in keys):
        reach.contract(key)
    for duty, record, _ in records:
        reach.item(duty, record, True)
    for file, item in laws:
        reach.item(file, item, False)
    reach.close()
    return reach, public, records, laws


def page(reach, public, records, laws, kit):
    defined = [k for k in reach.through if len(k) == 2]
    parts = [HEAD.format(kit=kit), *write_contracts(public), *write_duties(records)]
    parts += write_laws("One outcome for the other operations, the calls for C and the program", laws)
    parts += write_definitions(reach) + write_library(reach)
    parts.append(f"{len(defined)} definitions of {len({k[0] for k in defined})} files, and {len(reach.through) - len(defined)} types of Rattle.")
    return re.sub(r"\n{3,}", "\n\n", "\n".join(parts)) + "\n"


# ---- what the gate asks


def misplaced(reach):
    """The definitions reached that stand in proofs/ or in an inner file, each with its file and what it was reached through."""
    allowed = set(ALLOWED.read_text().splitlines()) if ALLOWED.exists() else set()
    for key, through in reach.through.items():
        if len(key) == 2:
            file, item = key
            inner = read_proofs(file)[0][:1] and read_proofs(file)[0][0].startswith("-- Inner:")
            if (not in_specs(file) or inner) and f"{place_of(file)} {item.names[0]}" not in allowed:
                yield place_of(file), item.names[0], through


def list_misplaced(reach):
    by_file = {}
    for file, name, through in misplaced(reach):
        by_file.setdefault(file, []).append(f"{name} (through {through})")
    return [f"{file}: " + ", ".join(names) for file, names in sorted(by_file.items(), key=lambda f: CRATES.index(f[0].split("/")[0]))]


def list_inner(reach):
    on_page = {*DUTIES, *(k[0] for k in reach.through if len(k) == 2)}
    for crate in CRATES:
        for file in sorted((ROOT / "crates" / crate / "specs").glob("**/*.antt")):
            if file.name != "Lib.antt" and file not in on_page and not file.read_text().startswith("-- Inner:"):
                yield place_of(file)


def kit_at_hand():
    try:
        return subprocess.run(["rt", "version"], capture_output=True, text=True, check=True).stdout.strip()
    except (OSError, subprocess.CalledProcessError):
        return "no kit"


def check(made, here):
    """Whether the page is as it would be made with the kit that it names."""
    text = PAGE.read_text() if PAGE.exists() else ""
    kit = re.search(r"^The kit that this page was made with: `(.*)`\.$", text, re.M)
    if kit and kit[1] != here:
        print(f"docs/BELIEVE.md was made with the kit '{kit[1]}'; here is '{here}'")
    found = ["docs/BELIEVE.md is not as the sources have it: run docs/believe.py"] if not kit or text != page(*made, kit[1]) else []
    wrong = list_misplaced(made[0])
    return found + (["definitions that a reader must believe stand outside the page's specs/:", *wrong] if wrong else [])


def main():
    words, made = sys.argv[1:], gathered()
    found = []
    if words == ["--list-proofs"]:
        print("\n".join(list_misplaced(made[0])))
    elif words == ["--list-inner"]:
        print("\n".join(list_inner(made[0])))
    elif words == ["--check"]:
        found = check(made, kit_at_hand())
    elif words:
        found = [__doc__]
    else:
        PAGE.write_text(page(*made, kit_at_hand()))
        found = list_misplaced(made[0])
    if found:
        sys.exit("\n".join(found))


if __name__ == "__main__":
    main()
