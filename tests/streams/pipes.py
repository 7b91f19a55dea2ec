#!/usr/bin/env python3
"""Runs a command on pipes that a shell cannot make. Python 3, standard library only.

pipes.py narrow ROOM COMMAND [WORD...]
    Its standard output is a pipe that refuses a write for which it has no room, and it has room for so many bytes. What went through is
    passed on when the command has ended, with the command's status.
pipes.py shut COMMAND [WORD...]
    Its standard output is a pipe that nobody reads. The status is the command's.
pipes.py talk REQUEST LINE COMMAND [WORD...]
    Sends the bytes of the file REQUEST twice, each time waits for the line of the file LINE, and then ends the input. The status is 0
    where the lines came and the command ended with 0.
"""
import fcntl
import os
import select
import subprocess
import sys

PIPE_SIZE = 1031  # fcntl's F_SETPIPE_SZ, which older versions do not name


def narrow(room, command):
    out, into = os.pipe()
    size = fcntl.fcntl(into, PIPE_SIZE, 4096)
    os.set_blocking(into, False)
    os.write(into, bytes(size - room))
    program = subprocess.Popen(command, stdout=into)
    os.close(into)
    status = program.wait()
    through = b""
    while part := os.read(out, 65536):
        through += part
    sys.stdout.buffer.write(through[size - room :])
    return status


def shut(command):
    out, into = os.pipe()
    os.close(out)
    return subprocess.run(command, stdout=into).returncode


def talk(request, line, command):
    program = subprocess.Popen(command, stdin=subprocess.PIPE, stdout=subprocess.PIPE)
    for _ in range(2):
        program.stdin.write(request)
        program.stdin.flush()
        came = b""
        while len(came) < len(line):
            if not select.select([program.stdout], [], [], 30)[0]:
                program.kill()
                return 1
            part = os.read(program.stdout.fileno(), 65536)
            if not part:
                return 1
            came += part
        if came != line:
            program.kill()
            return 1
    program.stdin.close()
    return program.wait() or len(program.stdout.read())


def main():
    words = sys.argv[1:]
    if len(words) > 2 and words[0] == "narrow":
        sys.exit(narrow(int(words[1]), words[2:]))
    if len(words) > 1 and words[0] == "shut":
        sys.exit(shut(words[1:]))
    if len(words) > 3 and words[0] == "talk":
        request, line = (open(name, "rb").read() for name in words[1:3])
        sys.exit(talk(request, line, words[3:]))
    sys.exit(__doc__)


if __name__ == "__main__":
    main()
