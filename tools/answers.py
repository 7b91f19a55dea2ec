#!/usr/bin/env python3
"""Turns a crate's Proof.antt files, a proof for each need of a function, into Invariants.antt and Answers.antt.

usage: tools/answers.py CRATE NAMES      NAMES: the names.json of `rt check --generated DIR --old-names` in the crate's folder

An answer that is only `search rules` is left out, since the check tries that by itself. What cannot be turned is named, and its file stays.
"""
import json
import os
import re
import sys

WORD = r"[A-Za-z0-9_'₀-₉′-]+"


def plain(name):
    return name.replace("_", "-")


def definitions(text):
    """The imports, and the top-level definitions in order: (comments, signature, body)."""
    uses, out, said, lines = [], [], [], text.split("\n")
    i = 0
    while i < len(lines):
        line = lines[i]
        if line.startswith("use "):
            uses.append(line)
            i += 1
        elif line.startswith("--"):
            said.append(line)
            i += 1
        elif not line.strip():
            i += 1
        else:
            block = [line]
            i += 1
            while i < len(lines) and lines[i].strip():
                block.append(lines[i])
                i += 1
            out.append((said, block))
            said = []
    return uses, out


def split_tuple(text):
    """The parts of a tuple, right-nested ones too: (a, (b, c)) has three; None where the text is no tuple."""
    text = text.strip()
    if not (text.startswith("(") and text.endswith(")")):
        return None
    depth, parts, start = 0, [], 1
    for k, ch in enumerate(text):
        if ch in "([{":
            depth += 1
        elif ch in ")]}":
            depth -= 1
            if depth == 0 and k < len(text) - 1:
                return None
        elif ch == "," and depth == 1:
            parts.append(text[start:k])
            start = k + 1
    if not parts:
        return None
    parts.append(text[start:-1])
    return [p.strip() for p in parts]


def parts_of(text, count):
    parts = split_tuple(text)
    while parts is not None and len(parts) < count:
        last = split_tuple(parts[-1])
        if last is None:
            return None
        parts = parts[:-1] + last
    return parts if parts is not None and len(parts) == count else None


def clauses():
    """For each function of src/, the names of its clauses: {crate: {function: {kind: names}}}."""
    out = {}
    for crate in sorted(os.listdir("crates")):
        for folder, dirs, names in os.walk(os.path.join("crates", crate, "src")):
            for name in names:
                if not name.endswith(".rt"):
                    continue
                text = open(os.path.join(folder, name), encoding="utf-8").read()
                for m in re.finditer(r"\bfn (\w+)", text):
                    rest = text[m.end() :]
                    stop = re.search(r"\n *\{\n|\bfn \w+|;\n", rest)
                    head = rest[: stop.start()] if stop else rest
                    out.setdefault(crate, {})[m.group(1)] = {
                        kind: re.findall(rf"^\s+{kind} (\w+) \{{", head, re.M) for kind in ("requires", "ensures")
                    }
    return out


CLAUSES = {}


def clause_names(crate, function, kind):
    if not CLAUSES:
        CLAUSES.update(clauses())
    for c in [crate] + sorted(CLAUSES):
        if function in CLAUSES.get(c, {}):
            return CLAUSES[c][function][kind]
    return []


def kept(words, params):
    """auto.1.1.0 of a call is what is kept of its third parameter."""
    if words and words[0] == "auto" and params:
        k, rest = 0, words[1:]
        while rest and rest[0] == "1":
            rest.pop(0)
            k += 1
        if rest and rest[0] == "0" and k < len(params):
            return ["auto", params[k]] + rest[1:]
    return words


def by_name(words, names):
    """The words of a path into several clauses, by their names: 0, 1.0 and 1.1 of three are the first, second and third."""
    if len(names) < 2:
        return words
    k, rest = 0, list(words)
    while rest and rest[0] in ("0", "1") and k < len(names) - 1:
        step = rest.pop(0)
        if step == "0":
            return [names[k]] + rest
        k += 1
    if k == len(names) - 1:
        return [names[k]] + rest
    return words


class Function:
    def __init__(self, names, crate, own):
        self.crate, self.own = crate, own
        self.needs = names["needs"]
        self.asked = names["asked_at"]
        self.loops = names["loops"]
        self.changed = names["changed"]
        self.places = {p[0]: p for p in names["places"]}
        self.order = [p[0] for p in names["places"]]
        self.arms = names["arms"]
        self.params = names["params"]

    def callee_of(self, step):
        for p in self.places.values():
            if p[2][1] == step and p[3]:
                return p[3].split("::")
        return None

    def need(self, name):
        want = plain(name)
        for k, (old, new) in enumerate(self.needs):
            if want in (plain(old), "overflow-" + plain(old), "nonzero-" + plain(old)):
                return k
        for k, (old, new) in enumerate(self.needs):
            if plain(new) == want:
                return k
        return None

    def loop(self, name):
        for k, ((old, new), variables) in enumerate(self.loops):
            if plain(old) == plain(name):
                return k
        for k, ((old, new), variables) in enumerate(self.loops):
            if plain(new) == plain(name):
                return k
        return None

    def path(self, place, words):
        """The new path for c.WORDS at an old place, the .before taken off."""
        first, rest = words[0], words[1:]
        if first == "requires":
            return "c." + ".".join([first] + by_name(rest, clause_names(self.crate, self.own, "requires")))
        if first in ("args", "ranges", "lifetimes"):
            return "c." + ".".join(words)
        # what an arm binds and says has a name of its own now
        at, best = place, None
        while at is not None and at in self.places:
            arm = self.arms[self.order.index(at)]
            for field, step, steps in arm[2] if arm else []:
                if plain(step) == plain(first) and rest[: len(steps)] == steps and len(steps) and (best is None or len(steps) > best[0]):
                    best = (len(steps), ".".join(["c", arm[0], field] + rest[len(steps) :]))
            at = self.places[at][1]
        if best:
            return best[1]
        at = place
        while at is not None:
            p = self.places.get(at)
            if p is None:
                break
            old, new = p[2]
            if plain(old) == plain(first):
                k = self.order.index(at)
                arm = self.arms[k] if k < len(self.arms) else None
                if rest and p[4]:
                    for a, b in p[4]:
                        if plain(a) == plain(rest[0]):
                            rest = [b] + rest[1:]
                            break
                if rest and rest[0] == "auto" and p[3]:
                    rest = kept(rest, self.params.get(p[3]))
                if rest and rest[0] == "ensures" and p[3]:
                    path = p[3].split("::")
                    rest = ["ensures"] + by_name(rest[1:], clause_names(path[0], path[-1], "ensures"))
                return "c." + ".".join([new] + rest)
            at = p[1]
        return None


def turn_body(fn, place, text, trouble):
    def one(m):
        words = [w for w in m.group(0).split(".")[1:]]
        words = [w for w in words if w]
        kept = list(words)
        while kept and kept[0] == "before":
            kept.pop(0)
        if not kept:
            trouble.append("a bare c.before")
            return m.group(0)
        new = fn.path(place, kept)
        if new is None:
            trouble.append(m.group(0))
            return m.group(0)
        return new

    text = re.sub(r"(?<![A-Za-z0-9_'-])c(?:\." + WORD + ")+", one, text)
    # a clause of what a let binds
    for m in list(re.finditer(r"let (\w+) = c\.requires in", text)):
        names = clause_names(fn.crate, fn.own, "requires")
        text = re.sub(
            rf"(?<![A-Za-z0-9_'.-]){m.group(1)}((?:\.{WORD})+)",
            lambda n: m.group(1) + "." + ".".join(by_name(n.group(1).split(".")[1:], names)),
            text,
        )
    for m in list(re.finditer(r"let (\w+) = (c\.[\w.-]+\.ensures|c\.[\w-]+) in", text)):
        callee = fn.callee_of(m.group(2).split(".")[1])
        if callee is None:
            continue
        names = clause_names(callee[0], callee[-1], "ensures")
        direct = m.group(2).endswith(".ensures")

        def named(n):
            words = n.group(1).split(".")[1:]
            if direct:
                words = by_name(words, names)
            elif words[0] == "auto":
                words = kept(words, fn.params.get("::".join(callee)))
            elif words[0] == "ensures":
                words = ["ensures"] + by_name(words[1:], names)
            return m.group(1) + "." + ".".join(words)

        text = re.sub(rf"(?<![A-Za-z0-9_'.-]){m.group(1)}((?:\.{WORD})+)", named, text)
    return text


def turn(crate, folder, names, module):
    path = os.path.join(folder, "Proof.antt")
    text = open(path, encoding="utf-8").read()
    if "tie.close" not in text:
        return f"{path}: walks by hand"
    fn = Function(names, crate, module.split('.')[-1])
    uses, blocks = definitions(text)
    trouble = []
    invariants, answers, helpers, top = [], [], [], []
    for said, block in blocks:
        k = 0
        while k < len(block) and block[k].startswith("unfolding"):
            k += 1
        sig = block[0]
        m = re.match(r"^(abbrev |pub )*(" + WORD + r") : tie\.(invariant|decreases)-(" + WORD + r")", sig)
        if m:
            loop = fn.loop(m.group(4))
            if loop is None:
                trouble.append(sig)
                continue
            (old, new), variables = fn.loops[loop]
            changed = fn.changed[loop]
            body = "\n".join(block[1:])
            head, right = re.split(r" =\s", body, maxsplit=1)
            params = head.split()[1:]
            want = [("l.initial." if c else "l.") + v for v, c in zip(variables, changed)]
            want += ["l." + v for v, c in zip(variables, changed) if c]
            if len(params) != len(want):
                trouble.append(f"{sig}: {len(params)} names for {len(want)}")
                continue
            table = dict(zip(params, want))
            right = re.sub(r"(?<![A-Za-z0-9_'.₀-₉′-])" + WORD, lambda m: table.get(m.group(0), m.group(0)), right)
            name = f"{m.group(3)}-{new}"
            invariants.append((said, f"abbrev pub {name} : goal.{name}\n{name} l = {right}"))
            continue
        m = re.match(r"^(" + WORD + r") : tie\.Need-(" + WORD + ")", sig)
        if m:
            local = m.group(1)
            need = fn.need(m.group(2))
            if need is None:
                if "\n".join(block[1:]).rstrip().endswith(" = search rules"):
                    continue
                trouble.append(sig)
                continue
            new = fn.needs[need][1]
            place = fn.asked[need][0]
            rest = block[1:]
            unfolds = []
            while rest and (rest[0].startswith("unfolding") or not rest[0].startswith(local)):
                unfolds.append(rest.pop(0))
            # a signature that went on to a second line
            unfolds = [u for u in unfolds if u.startswith("unfolding")]
            body = "\n".join(rest)
            head, eq, right = body.partition(" =")
            right = right.lstrip(" ")
            if right.strip() == "search rules" and not unfolds:
                continue
            # What the types say of a slice, and that it keeps its length, the check finds by itself.
            if re.fullmatch(r"omega \(arith, c[.\w-]*\bslice[-_]known\d*\.given [^()]*\)", right.strip()) or plain(m.group(2)).startswith("same-length"):
                continue
            lines = turn_body(fn, place, right, trouble)
            kinds = []
            if new.startswith("returns"):
                kinds = clause_names(crate, fn.own, "ensures")
            elif "-requires" in new:
                callee = new.split("-requires")[0].split("-")[0]
                kinds = clause_names(crate, callee, "requires")
            lets = re.match(r"\s*(?:let (?:(?! in\s)[^\n])* in\s+)+", lines)
            before = lets.group(0) if lets else ""
            parts = parts_of(lines[len(before) :], len(kinds)) if len(kinds) > 1 else None
            if parts:
                if before:
                    parts = [p if p.strip() == "search rules" and not unfolds else before + p for p in parts]
                for k, part in zip(kinds, parts):
                    if part.strip() != "search rules" or unfolds:
                        one = f"{new}-clause-{k}"
                        sep = " = " if not part.startswith("\n") else " ="
                        answers.append((said, f"pub {one} : goal.{one}\n" + "".join(u + "\n" for u in unfolds) + f"{one} c{sep}{part}"))
                        said = []
                continue
            sep = " = " if not lines.startswith("\n") else " ="
            text_of = f"pub {new} : goal.{new}\n" + "".join(u + "\n" for u in unfolds) + f"{new} c{sep}{lines}"
            answers.append((said, text_of))
            continue
        if ": {M : Type 1} → statement M" in sig or "-spec" in sig and "statement" in sig or "_spec" in sig and "statement" in sig:
            continue
        if "tie." in "\n".join(block):
            trouble.append("a helper over the tie: " + sig)
        helpers.append((said, "\n".join(block)))
    if trouble:
        return f"{path}: " + "; ".join(trouble)
    own = re.compile(r"\.(Statement|Tie|Reads|Lts)(\.|\s|$)")
    kept = [u for u in uses if not own.search(u)]

    def page(parts, goals, comments):
        body = "\n\n".join("".join(s + "\n" for s in said) + text for said, text in parts)
        need = []
        for u in kept:
            m = re.match(r"use ([^{]*)\.\{(.*)\}$", u)
            if not m:
                need.append(u)
                continue
            items = [i.strip() for i in m.group(2).split(",")]
            good = []
            for i in items:
                word = i.split(" as ")[-1]
                probe = word.replace("◌", "")
                if "◌" in word and probe in body or "◌" not in word and re.search(r"(?<![A-Za-z0-9_'.-])" + re.escape(word) + r"(?![A-Za-z0-9_'-])", body):
                    good.append(i)
            if good:
                need.append(f"use {m.group(1)}.{{{', '.join(good)}}}")
        head = "".join(c + "\n" for c in comments)
        return head + "".join(n + "\n" for n in need) + f"use Rattle.{crate}.proofs.{module}.{goals} as goal\n\n" + body + "\n"

    head = []
    for line in text.split("\n"):
        if line.startswith("--"):
            head.append(line)
        else:
            break
    # the comments at the head were read as those of the first definition
    for parts in (invariants, answers, helpers):
        for k, (said, t) in enumerate(parts):
            if said and head and said[: len(head)] == head:
                parts[k] = (said[len(head) :], t)
    if invariants:
        with open(os.path.join(folder, "Invariants.antt"), "w", encoding="utf-8") as f:
            f.write(page(invariants, "Given", head if not answers else []))
    if answers:
        with open(os.path.join(folder, "Answers.antt"), "w", encoding="utf-8") as f:
            f.write(page(helpers + answers, "Goals", head))
    os.remove(path)
    return None


def main():
    crate, file = sys.argv[1:3]
    with open(file, encoding="utf-8") as f:
        all_names = json.load(f)
    left = 0
    for key, names in sorted(all_names.items()):
        if not isinstance(names, dict) or "needs" not in names:
            continue
        m = re.match(rf"Rattle-{crate}-proofs\.(.*)\.Lts$", key)
        if not m:
            continue
        module = m.group(1)
        folder = os.path.join("crates", crate, "proofs", *module.split("."))
        if not os.path.exists(os.path.join(folder, "Proof.antt")):
            continue
        said = turn(crate, folder, names, module)
        if said:
            left += 1
            print("left:", said)
    print(f"answers: {left} files of {crate} left")


if __name__ == "__main__":
    main()
