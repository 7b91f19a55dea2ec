#!/usr/bin/env python3
"""Functions of crates/*/src that are the same but for names, types and numbers: twins.py [LEAST TOKENS]

Each function's signature and body, without comments and clauses, is cut into words. A name stands for its place of first appearance, a type of
numbers for T, a number for N. Functions with the same words are printed as one group; the last line counts the groups and the functions in them.
"""
import glob
import re
import sys

LEAST = int(sys.argv[1]) if len(sys.argv) > 1 else 30
KEYWORDS = set("fn pub let mut if else while for in loop return match as const struct enum impl self Self true false unsafe extern".split())
NUMBERS = re.compile(r"[iu](?:8|16|32|64|size)$")
WORD = re.compile(r"[A-Za-z_]\w*|\d\w*|[^\s\w]")


def functions(path):
    lines = [re.sub(r"//.*", "", line) for line in open(path, encoding="utf-8").read().split("\n")]
    at = 0
    while at < len(lines):
        head = re.match(r"(\s*)(?:pub )?(?:const )?(?:extern \"C\" )?fn (\w+)", lines[at])
        if head:
            end = at
            while end < len(lines) and not (lines[end].startswith(head[1] + "}") or lines[end].rstrip().endswith("{}")):
                end += 1
            yield head[2], lines[at:end + 1]
            at = end
        at += 1


def shape(lines):
    text, clause = [], False
    for line in lines:
        if re.match(r"\s*(requires|ensures)\b", line):
            clause = True
        if clause:
            if line.strip() == "{":
                clause = False
            else:
                continue
        text.append(line)
    names, out = {}, []
    for word in WORD.findall("\n".join(text)):
        if word in KEYWORDS or not re.match(r"\w", word):
            out.append(word)
        elif NUMBERS.match(word):
            out.append("T")
        elif word[0].isdigit():
            out.append("N")
        else:
            out.append("n%d" % names.setdefault(word, len(names)))
    return tuple(out)


groups = {}
for path in sorted(glob.glob("crates/*/src/*.rt")):
    for name, lines in functions(path):
        words = shape(lines)
        if len(words) >= LEAST:
            groups.setdefault(words, []).append(f"{path}:{name}")
found = [g for g in groups.values() if len(g) > 1]
for group in sorted(found):
    print("  ".join(group))
print(f"{len(found)} groups, {sum(map(len, found))} functions")
