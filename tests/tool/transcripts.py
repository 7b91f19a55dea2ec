"""Commands with all that they must print, in files under said/: every fault of a text, every refusal, every status.

Each file is run in a fresh folder; a line that begins with `$ ` is a command, what stands below it is what it prints, and
`[status N]` is said where the status is not 0. The same files are run with asks and with the second program in its place."""
import concurrent.futures
import re
import subprocess
import sys

from bench import HERE, ROOT, SECOND, Failed, commands_folder, equal, folder, need, surroundings

SAID = HERE / "said"


def blocks(text):
    """Each command with what it prints."""
    found = []
    for line in text.splitlines():
        if line.startswith("$ "):
            found.append([line[2:], []])
        elif found:
            found[-1][1].append(line)
    return found


def spoken(room, command, asks, path):
    """What a command prints, both streams in the order of a terminal, and its status."""
    env = surroundings(asks, ROOT=str(ROOT), PATH=f"{path}:/usr/local/sbin:/usr/local/bin:/usr/sbin:/usr/bin:/sbin:/bin", PYTHONUNBUFFERED="1")
    done = subprocess.run(
        ["sh", "-c", command], cwd=room, env=env, stdin=subprocess.DEVNULL, stdout=subprocess.PIPE, stderr=subprocess.STDOUT,
        check=False, timeout=120,
    )
    lines = done.stdout.decode("utf-8", "backslashreplace").splitlines()
    return lines + ([f"[status {done.returncode}]"] if done.returncode else [])


def replay(text, asks):
    """The text again, with what the commands print now; and the folder's files at the end."""
    head = []
    for line in text.splitlines():
        if line.startswith("$ "):
            break
        head.append(line)
    with folder() as room:
        path = commands_folder(room)
        lines = head
        for command, _ in blocks(text):
            lines += [f"$ {command}"] + spoken(room, command, asks, path)
        files = {file.name: file.read_bytes() for file in sorted(room.iterdir()) if file.is_file()}
    return "\n".join(lines) + "\n", files


def files_said():
    return sorted(SAID.glob("*.txt"))


def compare(name, asks):
    file = SAID / f"{name}.txt"
    wanted = file.read_text()
    found, files = replay(wanted, asks)
    for (command, now), (_, before) in zip(blocks(found), blocks(wanted)):
        if now != before:
            equal("\n".join(now), "\n".join(before).rstrip("\n"), f"said/{file.name}, '{command}'")
    need(found == wanted, f"said/{file.name}: it is not what it would be written as now")
    return files


def both(name):
    with concurrent.futures.ThreadPoolExecutor(2) as two:
        ours, theirs = two.submit(compare, name, None), two.submit(compare, name, f"{SECOND} answer")
        files, others = ours.result(), theirs.result()
    need(files == others, f"said/{name}.txt: the files differ between asks and the second program")


def test_for(name):
    def test():
        both(name)
        return f"{len(blocks((SAID / f'{name}.txt').read_text()))} commands, alike with asks and with the second program"

    test.__name__ = f"commands_on_{name}"
    return test


def every_status_is_seen():
    text = "".join(file.read_text() for file in files_said())
    for status in range(1, 7):
        if not re.search(rf"^\[status {status}\]$", text, re.M):
            raise Failed(f"no command of said/ ends with status {status}")
    return "0 to 6"


TESTS = [test_for(file.stem) for file in files_said()] + [every_status_is_seen]

if __name__ == "__main__":
    # Writes what the commands print now; look at the difference before you keep it.
    for one in files_said():
        if len(sys.argv) < 2 or one.stem in sys.argv[1:]:
            one.write_text(replay(one.read_text(), None)[0])
