"""What the pages and the house promise: README's transcript and picture, the help texts, the header's words, the cloud, the sources."""
import ast
import json
import pathlib
import random
import re
import shutil
import sqlite3
import subprocess
import sys
import xml.etree.ElementTree

from bench import EXAMPLES, HERE, ROOT, commands_folder, environment, equal, folder, good, need, surroundings
from transcripts import blocks, spoken

LONGEST = 40  # lines of a function


def readme_word_for_word():
    """The fenced blocks of README's part on the tool, run in a fresh folder."""
    text = (ROOT / "README.md").read_text()
    part = text.split("<!-- chain: the transcript begins -->")[1].split("<!-- chain: the transcript ends -->")[0]
    shown = "".join(re.findall(r"^```console\n(.*?)^```$", part, re.S | re.M))
    written = re.findall(r"^[^\n]*`(\w+\.chain)`:\n\n```text\n(.*?)^```$", part, re.S | re.M)
    equal([name for name, _ in written], ["one.chain", "two.chain"], "the files that README lets one write")
    with folder() as room:
        for name, lines in written:
            equal(lines, (room / name).read_text(), f"README's {name} beside examples/{name}")
        path = commands_folder(room)
        commands = blocks(shown)
        for command, said in commands:
            equal("\n".join(spoken(room, command, None, path)), "\n".join(said), f"README, '{command.splitlines()[0]}'")
    need(len(commands) >= 8, "README has fewer commands than it had")
    return f"{len(commands)} commands"


def picture_of_readme():
    """README's first picture is the loop in one turn and in two, as chain draw draws it now."""
    images = re.findall(r"!\[[^]]*\]\(([^)]*)\)", (ROOT / "README.md").read_text())
    equal(images[0], "docs/loop.svg", "README's first picture")
    drawn = good(EXAMPLES, "draw", "one.chain", "two.chain")
    equal(drawn.decode(), (ROOT / "docs" / "loop.svg").read_text(), "docs/loop.svg")


def pictures_as_they_were():
    """Each text of pictures/ is drawn as the picture beside it; every picture is well formed."""
    done = 0
    for text in sorted((HERE / "pictures").glob("*.chain")):
        drawn = good(text.parent, "draw", text.name)
        xml.etree.ElementTree.fromstring(drawn)
        equal(drawn.decode(), text.with_suffix(".svg").read_text(), f"pictures/{text.stem}.svg")
        done += 1
    need(done >= 4, "pictures are missing")
    return f"{done} pictures"


def pictures_of_chance():
    """Whatever asks has taken can be drawn: the picture is well formed and has a box for each row."""
    import commands
    import pictures
    from faults import Refused, Unusable
    from trips import bundle

    with folder() as room, environment(None):
        desk, drawn = commands.Desk({"-q": True}), 0
        for seed in range(1, 60):
            (room / "b").write_bytes(bundle(seed, 6))
            try:
                groups = pictures.groups(desk, [str(room / "b")])
            except (Refused, Unusable):  # or what is left over at its end does not fit a request
                continue
            tree = xml.etree.ElementTree.fromstring(pictures.svg(groups))
            boxes = len(tree.findall("{http://www.w3.org/2000/svg}rect")) - 1  # but for the paper
            equal(boxes, sum(len(group.rows) for group in groups), f"the boxes of seed {seed}")
            pictures.dot(groups)
            drawn += 1
        desk.asks.close()
    need(drawn >= 8, f"only {drawn} bundles could be drawn")
    return f"{drawn} bundles"


def help_examples():
    """The example in each command's help runs, and prints what the help says."""
    import helps

    for name, command in helps.COMMANDS.items():
        with folder() as room:
            found = spoken(room, command.example, None, commands_folder(room))
            equal("\n".join(found), command.prints, f"chain {name} --help")
            shown = good(room, name, "--help").decode()
            need(command.synopsis in shown and command.example in shown and "statuses: 0" in shown, f"chain {name} --help lacks something")
    return f"{len(helps.COMMANDS)} commands"


def words_of_the_header():
    """The words of every number are the comments of the header."""
    import words

    text = (ROOT / "include" / "chain_register.h").read_text()
    found = {int(number): said for number, said in re.findall(r"^    CHAIN_\w+ = (\d+),?\s*/\* (.*?) \*/$", text.split("};")[0], re.M)}
    need(len(found) >= 11, "the header's numbers were not found")
    ours = {number: said for number, (said, _) in words.NUMBERS.items()}
    equal(ours, found, "the words")
    return f"{len(found)} numbers"


def plots_by_chance():
    """Every plot is well formed, has a line for each channel and for each different output, and no two labels in one place."""
    import plots
    import traces

    dice = random.Random(13)
    for turn in range(200):
        channels, ticks = dice.randrange(1, 9), dice.choice([0, 1, 2, 30, 400])
        some = dice.choice([[0, 1, 5, -7], [-(2**31), 2**31 - 1, 0], [9]])
        rows = [",".join(str(dice.choice(some)) for _ in range(channels)) for _ in range(ticks)]
        data = "\n".join([",".join(f"ch{channel}" for channel in range(channels)), *rows]) + "\n"
        trace = traces.Trace("t<&>.csv", data.encode(), {})
        outputs = {f"chain {at}": [dice.choice(some) if at % 3 else 7 for _ in range(ticks)] for at in range(dice.randrange(1, 12))}
        tree = xml.etree.ElementTree.fromstring(plots.svg(trace, outputs))
        lines = channels + len({tuple(counts) for counts in outputs.values()}) if ticks else 0
        drawn = len(tree.findall("{http://www.w3.org/2000/svg}polyline")) + len(tree.findall("{http://www.w3.org/2000/svg}circle"))
        equal(drawn, lines, f"the lines of plot {turn}")
        right = max(float(text.get("x")) for text in tree.findall("{http://www.w3.org/2000/svg}text") if text.get("text-anchor") is None)
        labels = [float(text.get("y")) for text in tree.findall("{http://www.w3.org/2000/svg}text") if float(text.get("x")) == right]
        need(len(labels) == len(set(labels)) and max(labels) < float(tree.get("height")), f"plot {turn}: labels on top of each other")
    return "200 plots"


def hood_example():
    """The made trace of the hood, its outputs and its picture are what they were, and the page shows what is printed."""
    done = subprocess.run([str(EXAMPLES / "hood" / "run")], env=surroundings(), capture_output=True, check=False)
    equal((done.returncode, done.stderr), (0, b""), "the hood")
    page = (EXAMPLES / "hood" / "README.md").read_text()
    need("".join(f"    {line}\n" for line in done.stdout.decode().splitlines()) in page, f"examples/hood/README.md does not show {done.stdout}")
    xml.etree.ElementTree.fromstring((EXAMPLES / "hood" / "hood.svg").read_text())


def cloud_story():
    done = subprocess.run([sys.executable, str(EXAMPLES / "cloud" / "run")], env=surroundings(), capture_output=True, check=False)
    equal((done.returncode, done.stderr), (0, b""), "the cloud")
    equal(done.stdout.decode(), (EXAMPLES / "cloud" / "story.txt").read_text(), "the cloud's story")


RECURSIVE = """
WITH RECURSIVE reached (number) AS (
    SELECT CAST(? AS INTEGER)
    UNION
    SELECT CASE place.n WHEN 0 THEN input0 WHEN 1 THEN input1 WHEN 2 THEN input2 ELSE input3 END
    FROM reached JOIN store_row ON store_row.number = reached.number
    JOIN (SELECT 0 AS n UNION SELECT 1 UNION SELECT 2 UNION SELECT 3) AS place ON place.n < store_row.inputs
)
SELECT CASE
    WHEN EXISTS (
        SELECT 1 FROM reached JOIN store_row AS d ON d.number = reached.number
        JOIN store_row AS a ON a.number = d.input0 JOIN store_row AS b ON b.number = d.input1
        WHERE d.label / 65536 = 3 AND d.inputs = 2 AND a.label / 65536 = 1 AND b.label / 65536 = 2
    ) THEN 1
    WHEN EXISTS (SELECT 1 FROM reached JOIN store_row AS c ON c.number = reached.number WHERE c.label / 65536 = 2) THEN NULL
    ELSE 0 END
"""


def cloud_module(room):
    sys.path.insert(0, str(EXAMPLES / "cloud"))
    import asks
    import cloud

    speaker = asks.Asks()
    base = cloud.Cloud(speaker, str(room / "base"))
    base.build()
    return cloud, speaker, base


def cloud_judges_as_a_query_does():
    with folder() as room, environment(None):
        cloud, speaker, base = cloud_module(room)
        for name in ("one", "two", "plain", "late"):
            logger = cloud.Logger(speaker, name)
            number, _, key = logger.load(cloud.sheet_of(f"{name}.chain"))
            base.take(name, number, key)
        found = base.base.execute("SELECT number, zeroed FROM chain").fetchall()
        equal(sorted(zeroed if zeroed is not None else 9 for _, zeroed in found), [0, 1, 9], "the judgements")
        for number, zeroed in found:
            equal(base.base.execute(RECURSIVE, [number]).fetchone()[0], zeroed, f"chain {number}")
        speaker.close()
    return f"{len(found)} chains"


def cloud_has_two_writers():
    """The second of two writers is refused by the primary key and tries again; a changed label is noticed at the start."""
    with folder() as room, environment(None):
        cloud, speaker, base = cloud_module(room)
        other = cloud.Cloud(speaker, str(room / "base"))
        keys = [cloud.Logger(speaker, name).load(cloud.sheet_of(name))[2] for name in ("one.chain", "plain.chain")]
        seen, words = [], base.words

        def late_words():
            run = words()
            if not seen:  # between this writer's look and its rows comes the other one
                seen.append(other.insert(keys[1]))
            return run

        base.words = late_words
        equal(base.insert(keys[0]), (5, 6), "the first writer's chain")
        equal(seen, [(0, 5)], "the second writer's chain")
        base.words = words
        base.start()
        base.base.execute("UPDATE store_row SET label = label + 1 WHERE number = 4")
        need(speaker.check(base.words()) == 0, "the changed store is not sound, so this shows nothing")
        try:
            base.start()
            need(False, "a changed label was not noticed")
        except SystemExit:
            pass
        speaker.close()


def one_chain_one_reading():
    """A reading needs its chain: the foreign key refuses one whose chain the cloud has not heard of."""
    with folder() as room, environment(None):
        _, speaker, base = cloud_module(room)
        speaker.close()
        try:
            base.base.execute("INSERT INTO reading VALUES ('logger-1', 0, 0, 5)")
            need(False, "a reading without a chain was taken")
        except sqlite3.IntegrityError:
            pass


def release_check():
    for other, wanted in (("two.chain", 0), ("late.chain", 1), ("missing.chain", 4)):
        done = subprocess.run(
            [str(EXAMPLES / "release-check" / "check"), str(EXAMPLES / "one.chain"), str(EXAMPLES / other)], env=surroundings(),
            capture_output=True, check=False,
        )
        equal(done.returncode, wanted, f"the release check with {other}")


def sources():
    """Only the standard library, no function over 40 lines, and one module that speaks to asks."""
    files = sorted((ROOT / "tool").glob("*.py")) + [ROOT / "tool" / "chain", *sorted((EXAMPLES / "cloud").glob("*.py")), EXAMPLES / "cloud" / "run"]
    files.append(EXAMPLES / "hood" / "make")
    own = {file.stem for file in files}
    for file in files:
        tree = ast.parse(file.read_text())
        for node in ast.walk(tree):
            if isinstance(node, (ast.FunctionDef, ast.AsyncFunctionDef)):
                lines = node.end_lineno - node.lineno + 1
                need(lines <= LONGEST, f"{file.name}: {node.name} has {lines} lines")
            for name in imported(node):
                need(name in own or name in sys.stdlib_module_names, f"{file.name} imports {name}")
                speaks = file.stem == "asks" or "cloud" in file.parts
                need(name != "subprocess" or speaks, f"{file.name} starts programs, and only asks.py may")
    return f"{len(files)} files"


def imported(node):
    if isinstance(node, ast.Import):
        return [alias.name.split(".")[0] for alias in node.names]
    return [node.module.split(".")[0]] if isinstance(node, ast.ImportFrom) else []


def installed():
    """make install-tool puts the tool and asks in place, and it runs from there."""
    with folder() as room:
        made = subprocess.run(
            ["make", "-s", "-C", str(ROOT), "install-tool", f"PREFIX={room / 'usr'}"], env=surroundings(), capture_output=True, check=False
        )
        equal((made.returncode, made.stderr), (0, b""), "make install-tool")
        found = sorted(str(path.relative_to(room / "usr")) for path in (room / "usr").rglob("*") if path.is_file() and path.suffix != ".pyc")
        wanted = ["bin/chain", "lib/chain/asks"] + [f"lib/chain/{file.name}" for file in (ROOT / "tool").glob("*.py")]
        equal(found, sorted(wanted), "the files installed")
        one = subprocess.run(
            [sys.executable, str(room / "usr" / "bin" / "chain"), "same", "one.chain", "two.chain"], cwd=room, env=surroundings(),
            capture_output=True, check=False,
        )
        equal((one.returncode, one.stdout), (0, b"the same chain\n"), "the installed tool")


def needs_are_told():
    """The gate looks first for what it needs, and tests/needs names what is not on the path."""
    first = re.search(r"^part .*$", (ROOT / ".ci" / "run").read_text(), re.M)
    need(first and first[0].endswith(" tests/needs"), "the gate's first part is not tests/needs")
    tools = {"rt": "echo kit", "cc": "", "cargo": "", "python3": "", "make": "", "nm": ""}
    with folder() as room:
        path = room / "bin"
        path.mkdir()
        for name in ("dirname", "grep", "id"):
            (path / name).symlink_to(shutil.which(name))
        for name, does in {**tools, "uname": "echo x86_64", "setpriv": ""}.items():
            (path / name).write_text(f"#!/bin/sh\n{does}\n")
            (path / name).chmod(0o755)
        for gone in (None, *tools):
            if gone:
                (path / gone).rename(room / gone)
            done = subprocess.run(["/bin/sh", str(ROOT / "tests" / "needs")], env={"PATH": str(path)}, capture_output=True, text=True, check=False)
            said = [line for line in done.stdout.splitlines() if not line.startswith("needs: note: ")]
            equal((done.returncode, len(said)), (1, 1) if gone else (0, 0), f"tests/needs without {gone}: {said}")
            need(not gone or gone in said[0], f"tests/needs without {gone} says: {said}")
            if gone:
                (room / gone).rename(path / gone)
    return f"{len(tools)} tools"


def json_lines():
    """Whatever happens, --json prints objects and nothing else on standard output."""
    from bench import chain

    with folder() as room:
        good(room, "new", "s")
        (room / "bad").write_text("a = b\n")
        (room / "none").write_text("a = hold %3\n")
        (room / "short").write_text("a = sum a\nb = wire\n")  # two notes stand before its refusal
        (room / "counts").write_text("ch1\n4\n-5\n")  # a note stands before its outputs
        tried = [["insert", "s", "one.chain", "none"], ["insert", "s", "bad"], ["check", "s"], ["show", "s"], ["key", "one.chain"],
                 ["same", "one.chain", "late.chain"], ["part", "one.chain", "late.chain"], ["read", "one.chain"], ["write", "one.chain"],
                 ["explain", "none"], ["explain", "short"], ["explain", "8"], ["mend", "s", "-o", "t", "--list", "l"], ["mend", "s"],
                 ["convert", "none", "--from", "s"], ["convert", "one.chain", "--from", "s"], ["convert", "one.chain"], ["run", "counts", "one.chain", "two.chain"],
                 ["run", "counts", "one.chain", "-o", "out", "--plot", "plot"], ["run", "bad", "one.chain"], ["iskey", "two.chain"], ["draw", "one.chain"], ["draw", "bad"], ["new", "s"], ["same"]]
        for arguments in tried:
            _, out, err = chain(room, *arguments, "--json")
            need(out and all(isinstance(json.loads(line), dict) for line in out.splitlines()), f"chain {' '.join(arguments)} --json: {out}")
            equal(err, b"", f"chain {' '.join(arguments)} --json on standard error")
    return f"{len(tried)} commands"


def landing_note():
    need((ROOT / "docs" / "landings" / "tool.md").exists(), "docs/landings/tool.md is missing")
    need(pathlib.Path(ROOT / "docs" / "FORMAT.md").read_text().count("chain store"), "docs/FORMAT.md says nothing of store files")


TESTS = [
    readme_word_for_word, picture_of_readme, pictures_as_they_were, pictures_of_chance, plots_by_chance, help_examples, words_of_the_header,
    hood_example, cloud_story,
    cloud_judges_as_a_query_does, cloud_has_two_writers, one_chain_one_reading, release_check, sources, installed, needs_are_told, json_lines, landing_note,
]
