"""Stores under hardship: several inserts at once, inserts that are killed, a full disk, damaged files, a false asks."""
import os
import random
import resource
import shutil
import signal
import stat
import subprocess
import sys
import time

from bench import START, TOOL, chain, environment, equal, folder, good, need, surroundings


def start(room, *arguments, **more):
    return subprocess.Popen(
        [*START, *arguments], cwd=room, env=surroundings(), stdout=subprocess.PIPE, stderr=subprocess.PIPE, **more
    )


def used_rows(room):
    """How many rows of the store `s` are used: `1,024 of 1,024 rows used`."""
    return int(good(room, "check", "s").split()[2].replace(b",", b""))


def four_at_once():
    """24 inserts of a row each by four processes at a time: 24 rows, and each number was told once."""
    with folder() as room:
        good(room, "new", "s")
        for row in range(24):
            (room / f"c{row}").write_text(f"a = channel {row}\n")
        told = []
        for begin in range(0, 24, 4):
            running = [start(room, "insert", "s", f"c{row}", "--wait", "60") for row in range(begin, begin + 4)]
            for one in running:
                out, err = one.communicate()
                need(one.returncode == 0, f"an insert ended with {one.returncode}: {err.decode()}")
                told.append(int(out.split()[2].rstrip(b",")))
        equal(sorted(told), list(range(24)), "the numbers told")
        equal(good(room, "check", "s"), b"s: sound, 24 of 1,024 rows used\n", "the store")
        equal([name for name in os.listdir(room) if name.startswith(".")], [], "files left over")
    return "24 rows"


def replaced_meanwhile():
    """A store that is replaced between opening and locking it: the new one is locked and read, never the old one."""
    import stores

    with folder() as room:
        good(room, "new", "s")
        good(room, "new", "other")
        good(room, "insert", "other", "one.chain")
        really, turns = stores.fcntl.flock, []

        def late(file, how):
            if not turns:
                os.replace(room / "other", room / "s")
            turns.append(how)
            really(file, how)

        stores.fcntl.flock = late
        try:
            with stores.Locked(str(room / "s"), 1) as locked:
                equal(locked.read().words[0], 7, "the rows of the store that was locked")
        finally:
            stores.fcntl.flock = really
        equal(len(turns), 2, "how often it was locked")


def killed():
    """25 inserts killed at chance moments: sound after each, and every number that was told stands."""
    dice, hit = random.Random(5), 0
    with folder() as room:
        good(room, "new", "s")
        for turn in range(25):
            text = "---\n".join(f"a = channel {40 * turn + row}\n" for row in range(40))
            (room / "c").write_text(text)
            one = start(room, "insert", "s", "c")
            time.sleep(dice.uniform(0.02, 0.25))
            one.send_signal(signal.SIGKILL)
            out, _ = one.communicate()
            hit += one.returncode != 0
            used = used_rows(room)
            told = [int(line.split()[4].rstrip(b",")) for line in out.splitlines() if line.startswith(b"c sheet")]
            need(all(number < used for number in told), f"turn {turn}: {len(told)} numbers were told and {used} rows are there")
        good(room, "insert", "s", "c")
        equal([name for name in os.listdir(room) if name.startswith(".")], [], "files left over")
    need(hit, "no insert was hit")
    return f"{hit} of 25 hit"


def full_disk():
    """Where there is no room for the new file, the old store stands, and nothing is left over."""

    def small():
        resource.setrlimit(resource.RLIMIT_FSIZE, (20000, 20000))

    with folder() as room:
        good(room, "new", "s")
        before = (room / "s").read_bytes()
        for arguments in (["insert", "s", "one.chain"], ["new", "t"], ["mend", "s", "-o", "t", "--list", "l"]):
            one = start(room, *arguments, preexec_fn=small)
            out, err = one.communicate()
            need(one.returncode == 4 and not out, f"{arguments}: status {one.returncode}, wrote {out}")
            need(b"File too large" in err, f"{arguments}: it said {err}")
        equal((room / "s").read_bytes(), before, "the store")
        need(not (room / "t").exists() and not (room / "l").exists(), "a store was made, or a list without one")
        equal([name for name in os.listdir(room) if name.startswith(".")], [], "files left over")
    return None


def damaged():
    """A store with one byte changed, cut or longer: no command gives status 0."""
    import commands
    import stores
    from faults import Stop

    with folder() as room, environment(None):
        good(room, "new", "s", "--rows", "12")
        good(room, "insert", "s", "one.chain")
        whole = (room / "s").read_bytes()
        others = [whole[:at] + bytes([whole[at] ^ bit]) + whole[at + 1 :] for at in range(len(whole)) for bit in (1, 128, 255)]
        others += [whole[:at] for at in range(len(whole))] + [whole + b"\0", whole + whole]
        desk = commands.Desk({"-q": True})
        place = room / "other"
        for data in others:
            place.write_bytes(data)
            for name, arguments in (("check", [place]), ("show", [place]), ("key", [f"{place}:0"])):
                try:
                    status = commands.RUN[name](desk, *map(str, arguments))
                except Stop as stop:
                    status = stop.status
                need(status == 4, f"chain {name} on a changed store of {len(data)} bytes: status {status}")
        desk.asks.close()
        need(stores.read(str(room / "s")).right, "the store itself is taken for damaged")
    return f"{len(others):,} files"


FALSE = {
    "nothing": "",
    "another request": "1 0",
    "a number too few": "2 0 1 / {store} / {answers}",
    "a run too few": "2 0 1 0 / {store}",
    "a short store": "2 0 1 0 / {short} / {answers}",
    "a short list": "2 0 1 0 / {store} / 0 0 0",
    "a hole": "2 0 1 0 / {hole} / {answers}",
    "a word too large": "2 0 1 0 / {large} / {answers}",
    "a count that does not go with it": "2 0 2 0 / {store} / {answers}",
    "a number that is not in use": "2 0 1 0 / {store} / {beyond}",
    "a refusal that changed the store": "2 8 0 0 / {store} / {answers}",
    "a number that there is not": "2 11 0 0 / {lent} / {answers}",
    "a number of the strict insert alone": "2 12 0 0 / {lent} / {answers}",
    "a place without a fault": "2 8 0 9 / {lent} / {answers}",
    "a place beside a wire's refusal": "2 14 0 9 / {lent} / {answers}",
    "a place past the sheet": "2 6 0 900 / {lent} / {answers}",
    "signs": "2 0 +1 0 / {store} / {answers}",
    "letters": "two",
    "what": "what",
    "cut": "cut",
    "long": "long",
}


def false_line(form):
    """A line as asks would give it for one new row in an empty store of 2 rows, but for what is false."""
    store = [1, 65537, 0, 0, 0, 0, 0] + [0] * 6
    answers = " ".join(["0"] * 1024)
    return form.format(
        store=" ".join(map(str, store)), short=" ".join(map(str, store[:-1])), hole=" ".join(map(str, store)).replace("65537", ""),
        large=" ".join(map(str, store)).replace("65537", "4294967296"), lent=" ".join(["0"] * 13), answers=answers,
        beyond="5 " + answers[2:],
    )


def false_script(room, form):
    script = room / "false-asks"
    line = false_line(form)
    script.write_text("#!/bin/sh\n" + ("cat >/dev/null\n" if form else "") + (f"echo '{line}'\n" if form else ""))
    script.chmod(0o755)
    return script


def false_asks():
    """Whatever is wrong with a line: status 5, and the store is as it was."""
    with folder() as room:
        (room / "c").write_text("a = channel 1\n")
        good(room, "new", "s", "--rows", "2")
        before = (room / "s").read_bytes()
        for what, form in FALSE.items():
            status, out, err = chain(room, "insert", "s", "c", asks=str(false_script(room, form)))
            need(status == 5 and not out and err, f"{what}: status {status}, it wrote {out} and said {err}")
            equal((room / "s").read_bytes(), before, f"{what}: the store")
        right = false_script(room, "2 0 1 0 / {store} / {answers}")
        status, _, err = chain(room, "insert", "s", "c", asks=str(right))
        need(status == 0, f"the line with nothing false in it: status {status}, it said {err}")
    return f"{len(FALSE)} lines"


# For a store of a wire to row 1 and a channel: the lines that mend it and then find it sound, but for what is false.
FALSE_MEND = {
    "a count too few": "11 0 0 1 0 / {store} / {list}",
    "counts that do not make the rows": "11 0 0 1 1 0 / {store} / {list}",
    "a dropped row that is not listed": "11 0 1 0 0 0 / {store} / {list}",
    "a listed row that is not dropped": "11 0 0 1 0 0 / {store} / {gone}",
    "a number that no row has": "11 0 0 1 0 0 / {store} / {beyond}",
    "a list written past the rows": "11 0 0 1 0 0 / {store} / {past}",
    "words past the rows": "11 0 0 1 0 0 / {junk} / {list}",
    "a refusal with counts": "11 1 0 1 0 0 / {lent} / {zeros}",
    "a refusal that changed the store": "11 16 0 0 0 0 / {store} / {zeros}",
    "a number that there is not": "11 2 0 0 0 0 / {lent} / {zeros}",
    "what": "what",
}


def false_mend_line(form):
    """As asks would mend a store with room for 3 rows: row 0 a wire to row 1, row 1 a channel."""
    lent = [2, 458752, 1, 1, 0, 0, 0, 65537] + [0] * 11
    store = [1, 65537] + [0] * 17
    zeros = [0] * 1024
    runs = {"lent": lent, "store": store, "junk": store[:-1] + [5], "list": zeros, "zeros": zeros, "gone": [0xFFFFFFFF] + zeros[1:],
            "beyond": [0, 1] + zeros[2:], "past": zeros[:2] + [1] + zeros[3:]}
    return form.format(**{name: " ".join(map(str, run)) for name, run in runs.items()})


def false_mender():
    """Whatever is wrong with the mender's line: status 5, and no file is made; also where what it made is not sound."""
    with folder() as room:
        words = [2, 458752, 1, 1, 0, 0, 0, 65537] + [0] * 11
        (room / "w").write_bytes(b"".join(word.to_bytes(4, "big") for word in words))
        chain(room, "new", "s", "--words", "w", "--order", "big")
        script = room / "false-asks"
        right = false_mend_line("11 0 0 1 0 0 / {store} / {list}")
        tried = {what: (false_mend_line(form), "1 0") for what, form in FALSE_MEND.items()} | {"not sound after all": (right, "1 2")}
        for what, (line, checked) in {**tried, "nothing false": (right, "1 0")}.items():
            script.write_text(f"#!/bin/sh\ncase $(head -c 1 | od -An -tu1) in *11) echo '{line}' ;; *) echo '{checked}' ;; esac\ncat >/dev/null\n")
            script.chmod(0o755)
            status, out, err = chain(room, "mend", "s", "-o", "t", "--list", "l", asks=str(script))
            wanted = 0 if what == "nothing false" else 5
            need(status == wanted and bool(out) != bool(err), f"{what}: status {status}, it wrote {out} and said {err}")
            need((room / "t").exists() == (room / "l").exists() == (wanted == 0), f"{what}: the files")
        equal((room / "l").read_bytes(), b"old,new\n0,0\n1,0\n", "the list")
    return f"{len(tried)} lines"


# For a store of channel 0 and a trace of two ticks, 4 and -5: the lines that run it, but for what is false.
FALSE_RUN = {
    "nothing": "",
    "an output too few": "12 0 / 4",
    "an output too many": "12 0 / 4 -5 6",
    "no run": "12 0",
    "a value too many": "12 0 2 / 4 -5",
    "letters": "12 0 / 4 five",
    "a plus": "12 0 / +4 -5",
    "a hole": "12 0 / 4  -5",
    "a sign alone": "12 0 / 4 -",
    "more than 32 bits": "12 0 / 4 2147483648",
    "less than 32 bits": "12 0 / 4 -2147483649",
    "a number that there is not": "12 16 / 0 0",
    "a refusal that was written to": "12 17 / 4 -5",
    "what": "what",
}


def false_runner():
    """Whatever is wrong with the line of a run: status 5, and no file is made."""
    with folder() as room:
        (room / "c").write_text("a = channel 0\n")
        (room / "counts.csv").write_text("ch0\n4\n-5\n")
        good(room, "new", "s")
        good(room, "insert", "s", "c")
        script = room / "false-asks"
        for what, line in {**FALSE_RUN, "nothing false": "12 0 / 4 -5"}.items():
            script.write_text(f"#!/bin/sh\ncase $(head -c 1 | od -An -tu1) in *12) printf '%s\\n' '{line}' ;; *) echo 1 0 ;; esac\ncat >/dev/null\n")
            script.chmod(0o755)
            status, out, err = chain(room, "run", "counts.csv", "s:0", "-o", "t", "--plot", "p", asks=str(script))
            wanted = 0 if what == "nothing false" else 5
            need(status == wanted and bool(out) == (wanted == 0) and err, f"{what}: status {status}, it wrote {out} and said {err}")
            need((room / "t").exists() == (room / "p").exists() == (wanted == 0), f"{what}: the files")
        equal((room / "t").read_bytes(), b"ch0,s:0\n4,4\n-5,-5\n", "the trace with its outputs")
    return f"{len(FALSE_RUN)} lines"


# For a store of channel 1 and a hold of it by its number: the lines that convert the sheet, but for what is false.
FALSE_CONVERT = {
    "another request": "3 0 19 0 / {sheet}{rest}",
    "no place": "13 0 19 / {sheet}{rest}",
    "no run": "13 0 19 0",
    "a run more": "13 0 19 0 / {sheet}{rest} / ",
    "a short buffer": "13 0 19 0 / {sheet}",
    "a byte more": "13 0 19 0 / {sheet}{rest}00",
    "no hex": "13 0 19 0 / {sheet}xx{short}",
    "bytes past the result": "13 0 18 0 / {sheet}{rest}",
    "nothing written": "13 0 0 0 / {sheet}{rest}",
    "shorter than the sheet": "13 0 13 0 / 00000003010000{zero}",
    "more than was lent": "13 0 99999 0 / {sheet}{rest}",
    "written and refused": "13 20 19 0 / {sheet}{rest}",
    "changed and refused": "13 10 0 0 / {sheet}{rest}",
    "a number that it cannot give": "13 19 0 0 / {none}",
    "a place beside no fault": "13 0 19 4 / {sheet}{rest}",
    "a place past the sheet": "13 6 0 99 / {none}",
}


def false_convert_line(form):
    sheet = "0000000f01000200060000010001" + "0001000100"
    most = 2 * 13319
    return form.format(
        sheet=sheet, rest="0" * (most - len(sheet)), short="0" * (most - len(sheet) - 2), zero="0" * (most - 14), none="0" * most
    )


def false_converter():
    """Whatever is wrong with the converter's line: status 5, and no file is made."""
    with folder() as room:
        (room / "c").write_text("a = hold @0\n")
        good(room, "new", "s", "--rows", 2)
        good(room, "insert", "s", "-", data=b"raw = channel 1\n")
        script = room / "false-asks"
        for what, form in {**FALSE_CONVERT, "nothing false": "13 0 19 0 / {sheet}{rest}"}.items():
            script.write_text(f"#!/bin/sh\ncat >/dev/null\necho '{false_convert_line(form)}'\n")
            script.chmod(0o755)
            status, out, err = chain(room, "convert", "c", "--from", "s", "-o", "new", asks=str(script))
            wanted = 0 if what == "nothing false" else 5
            need(status == wanted, f"{what}: status {status}, it said {out} {err}")
            need((room / "new").exists() == (wanted == 0), f"{what}: a file was made, or none")
    return f"{len(FALSE_CONVERT)} lines"


def mended_by_chance():
    """Stores with words changed at chance are mended to sound ones; mended once more they are the same, and every number stays."""
    import stores

    dice, moved = random.Random(3), 0
    with folder() as room:
        good(room, "new", "s", "--rows", "40")
        good(room, "insert", "s", "one.chain", "plain.chain", "late.chain")
        whole = stores.read(str(room / "s")).words
        for turn in range(8):
            run = list(whole)
            for _ in range(dice.randrange(1, 6)):
                run[dice.randrange(7 * 12)] = dice.choice([0, 1, 2, 7 << 16, 65537, dice.randrange(12), 0xFFFFFFFF])
            (room / "s").write_bytes(stores.packed(run))
            good(room, "mend", "s", "-o", f"t{turn}", "--list", f"l{turn}")
            good(room, "mend", f"t{turn}", "-o", f"u{turn}", "--list", f"m{turn}")
            equal((room / f"u{turn}").read_bytes(), (room / f"t{turn}").read_bytes(), f"turn {turn}: mended again")
            kept = stores.read(str(room / f"t{turn}")).words[0]
            equal((room / f"m{turn}").read_text(), "old,new\n" + "".join(f"{row},{row}\n" for row in range(kept)), f"turn {turn}: the second list")
            need(len((room / f"l{turn}").read_text().splitlines()) == 1 + stores.taken(run), f"turn {turn}: the list's lines")
            moved += kept < stores.taken(run)
    need(moved, "no store was spoiled")
    return f"{moved} of 8 stores lost rows"


def false_child():
    """The same where one child answers all requests: it fails at the second sheet, and nothing is saved."""
    with folder() as room:
        shutil.copytree(TOOL.parent, room / "house" / "tool", ignore=shutil.ignore_patterns("__pycache__"))
        (room / "house" / "tests").mkdir()
        on = room / "house" / "tests" / "on"
        (room / "c").write_text("a = channel 1\n---\nb = channel 2\n")
        good(room, "new", "s", "--rows", "2")
        before = (room / "s").read_bytes()
        ends = {"it ends": "", "a cut line": "printf '2 0 1'", "a false line": "echo '2 0 1'", "a signal": "kill -9 $$", "what": "echo what"}
        for what, end in ends.items():
            first = false_line("2 0 1 0 / {store} / {answers}")
            on.write_text(f"#!/bin/sh\nhead -c 4173 >/dev/null\necho '{first}'\nhead -c 4173 >/dev/null\n{end}\n")
            on.chmod(on.stat().st_mode | stat.S_IXUSR)
            one = subprocess.run(
                [sys.executable, str(room / "house" / "tool" / "chain"), "insert", "s", "c"], cwd=room, env=surroundings(),
                capture_output=True, check=False, timeout=60,
            )
            need(one.returncode == 5 and not one.stdout, f"{what}: status {one.returncode}, it wrote {one.stdout}, said {one.stderr}")
            equal((room / "s").read_bytes(), before, f"{what}: the store")
    return f"{len(ends)} children"


def told_is_saved():
    """A long insert prints what is saved already, and goes on: killed then, every number that was told stands."""
    with folder() as room:
        good(room, "new", "s")
        (room / "c").write_text("---\n".join(f"a = channel {row}\n" for row in range(1024)) + "---\nb = channel 5\n" * 8000)
        one = start(room, "insert", "s", "c")
        first = one.stdout.readline()
        one.send_signal(signal.SIGKILL)
        rest, _ = one.communicate()
        told = [int(line.split()[4].rstrip(b",")) for line in (first + rest).splitlines() if line.startswith(b"c sheet")]
        used = used_rows(room)
        need(one.returncode == -signal.SIGKILL, "the insert was over before its first line was read")
        need(told and max(told) < used, f"{len(told)} numbers were told, and {used} rows are there")
    return f"{len(told):,} numbers told before the end"


def broken_tool():
    """Python's own status for an error is 1, and that would be a no: a broken tool gives 5."""
    with folder() as room:
        shutil.copytree(TOOL.parent, room / "tool", ignore=shutil.ignore_patterns("__pycache__"))
        for file, line in (("words.py", "import nothing_of_this_name\n"), ("files.py", "def chain(*_):\n    return 1 // 0\n")):
            with open(room / "tool" / file, "a", encoding="utf-8") as source:
                source.write(line)
            one = subprocess.run(
                [sys.executable, str(room / "tool" / "chain"), "same", "one.chain", "late.chain"], cwd=room, env=surroundings(),
                capture_output=True, check=False,
            )
            need(one.returncode == 5 and one.stderr, f"{file}: status {one.returncode}")
            shutil.copy(TOOL.parent / file, room / "tool" / file)


def closed_pipe():
    """A reader that has enough ends the tool quietly."""
    with folder() as room:
        (room / "c").write_text("a = channel 1\n" + "---\nb = channel 2\n" * 8000)
        command = f'"{sys.executable}" "{TOOL}" read c | head -n 1'
        one = subprocess.run(["sh", "-c", command], cwd=room, env=surroundings(), capture_output=True, check=False)
        equal((one.stdout, one.stderr), (b"r0 = channel 1\n", b""), "what came")
    return None


def on_a_terminal(room):
    """What an insert says on standard error, where that is a terminal."""
    import pty

    near, far = pty.openpty()
    one = subprocess.Popen(
        [*START, "insert", "s", "c"], cwd=room, env=surroundings(), stdout=subprocess.DEVNULL, stderr=far
    )
    os.close(far)
    said = b""
    try:
        while part := os.read(near, 65536):
            said += part
    except OSError:  # the terminal's other end is closed
        pass
    os.close(near)
    need(one.wait() == 0, "the insert failed")
    return said


def progress():
    """After a second, and only on a terminal, a line of progress."""
    with folder() as room:
        good(room, "new", "s")
        for count in (300, 1200, 4800):  # as many as take more than a second here
            (room / "c").write_text("---\n".join(f"a = channel {row % 1000}\n" for row in range(count)))
            begin = time.monotonic()
            said = on_a_terminal(room)
            if time.monotonic() - begin > 1.8:
                break
        need(f"of {count:,} sheets, 0 refused".encode() in said, f"it said {said[-200:]}")
        _, _, err = chain(room, "insert", "s", "c")
        equal(err, b"", "progress where there is no terminal")
    return f"{count:,} sheets"


TESTS = [
    four_at_once, replaced_meanwhile, killed, told_is_saved, full_disk, damaged, false_asks, false_mender, false_runner, false_converter, mended_by_chance,
    false_child, broken_tool,
    closed_pipe, progress,
]
