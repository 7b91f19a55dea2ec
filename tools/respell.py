#!/usr/bin/env python3
"""Respells the repository's own definitions, lemmas, constructors and fields: words in snake case, no dash inside a name.

usage: tools/respell.py        at the top, once, right after the kit's port.py

It goes over the .antt files, the clauses and imports of the .rt files and the .edit files below crates/. Names that the code of src/ declares
keep their spelling. Where the plain respelling falls together with another name, a lemma gets `_lem` and a definition the name in OTHER.
With --list it prints the names, old and new, and writes nothing.
"""
import collections
import os
import re
import sys

# A definition whose respelling is another name already.
OTHER = {
    "movedOn": "moved_along",
    "byteLeft": "sheet_and_byte",
    "cutShort": "cut_sheet",
    "leftOver": "refusals_left",
    "inOrder": "rising_inputs",
    "rowWords": "words_of_row",
    "placeAt": "place_put",
    "storeAfter": "store_written",
    "rowCount": "row_count_of",
    "oneClass": "class_of_one",
}
SIGNATURE = re.compile(r"^(?:(?:pub|abbrev|unfoldable) )*([^\s:(){}]+) :(?: |$)")
BLOCK = re.compile(r"^(\s*)(?:pub )?(record|data) (\S+)")
MEMBER = re.compile(r"^\s+(?:pub )?([^\s:(){}]+) : ")
NAME = re.compile(r"[A-Za-z0-9_'₀-₉′-]+")
CAMEL = re.compile(r"(?<=[a-z0-9])([A-Z])")
GOALS = ("Proof.antt", "Answers.antt", "Invariants.antt")


def files(ending):
    for folder, dirs, names in os.walk("crates"):
        dirs[:] = sorted(d for d in dirs if d != "out")
        for name in sorted(names):
            if name.endswith(ending):
                yield os.path.join(folder, name)


def of_goals(path):
    return os.path.basename(path) in GOALS and "/proofs/" in path and path.split("/proofs/")[1].count("/") > 0


def read(path):
    with open(path, encoding="utf-8") as f:
        return f.read()


def declared():
    """Each own name, and whether it is a definition of specs/."""
    found = collections.defaultdict(bool)
    for path in files(".antt"):
        if of_goals(path):
            continue
        block = None
        for line in read(path).split("\n"):
            begins = BLOCK.match(line)
            if begins:
                block = begins.group(3)
                continue
            if not line.strip():
                block = None
                continue
            member = MEMBER.match(line)
            if member and not line.lstrip().startswith("--"):
                found[member.group(1)] |= False
                continue
            top = SIGNATURE.match(line)
            if top and block is None or top and not line.startswith(" "):
                block = None
                found[top.group(1)] |= "/specs/" in path or line.startswith("abbrev")
    return found


def respellings():
    own = declared()
    plain = {}
    for name in own:
        if name[0].isupper() or not NAME.fullmatch(name):
            continue
        new = CAMEL.sub(lambda m: "_" + m.group(1).lower(), name).replace("-", "_")
        if new != name:
            plain[name] = new
    functions = set()
    for path in files(".rt"):
        functions |= set(re.findall(r"\bfn (\w+)", read(path)))
    count = collections.Counter(plain.values())
    out = {}
    for name, new in plain.items():
        lemma = "-" in name
        if name in OTHER:
            new = OTHER[name]
        elif lemma and (new in own or new in functions or count[new] > 1):
            new += "_lem"
        out[name] = new
    return out, own


def turned(text, names, dashes):
    def one(m):
        word = m.group(0)
        if "-" in word and not dashes:
            return word
        new = names.get(word, word)
        if new.endswith("_lem") and m.start() and text[m.start() - 1] == ".":
            return word
        return new

    return NAME.sub(one, text)


def turn_antt(line, names):
    at = re.search(r"(?:^|\s)--(?:\s|$)", line)
    if not at:
        return turned(line, names, True)
    return turned(line[: at.start()], names, True) + turned(line[at.start() :], names, False)


def turn_rt(line, names):
    at = line.find("//")
    code, said = (line, "") if at < 0 else (line[:at], line[at:])
    return turned(code, names, True) + turned(said, names, False)


def main():
    names, own = respellings()
    values = collections.Counter(names.values())
    for name, new in sorted(names.items()):
        if values[new] > 1 or new in own:
            print(f"respell: {name} and another name become {new}", file=sys.stderr)
    if "--list" in sys.argv:
        for name, new in sorted(names.items()):
            print(name, new)
        return
    for ending, turn in ((".antt", turn_antt), (".rt", turn_rt), (".edit", lambda l, n: turned(l, n, False))):
        for path in files(ending):
            text = read(path)
            after = "\n".join(turn(line, names) for line in text.split("\n"))
            if after != text:
                with open(path, "w", encoding="utf-8") as f:
                    f.write(after)
    print(f"respell: {len(names)} names")


if __name__ == "__main__":
    main()
