"""What a command says: lines for people, or an object a line with --json, or nothing with -q."""
import json
import os
import sys
import time


class Saying:
    def __init__(self, as_json=False, quiet=False):
        self.as_json = as_json
        self.quiet = quiet
        self.began = time.monotonic()
        self.shown = 0.0  # when progress was said last
        self.showing = False  # a line of progress stands on the terminal

    def answer(self, lines, **members):
        """What was asked for: standard output."""
        self.clear()
        if self.quiet:
            return
        if self.as_json:
            print(json.dumps(members, ensure_ascii=False))
        else:
            for line in [lines] if isinstance(lines, str) else lines:
                print(line)

    def stop(self, stop):
        """A refusal or fault: standard error, but an object among the others with --json."""
        self.clear()
        if self.quiet:
            return
        if self.as_json:
            members = stop.members if "fault" in stop.members or "number" in stop.members else {**stop.members, "fault": stop.lines[0]}
            print(json.dumps({**members, "status": stop.status}, ensure_ascii=False))
        else:
            sys.stdout.flush()
            for line in stop.lines:
                print(line, file=sys.stderr)

    def note(self, line):
        """Beside the answer: standard error, but an object before it with --json."""
        self.clear()
        if self.quiet:
            return
        if self.as_json:
            print(json.dumps({"note": line}, ensure_ascii=False))
        else:
            print(line, file=sys.stderr)

    def data(self, data):
        """Bytes or text that is the whole answer: it goes out even with --json, which has no better form for it."""
        sys.stdout.flush()
        sys.stdout.buffer.write(data)
        sys.stdout.buffer.flush()

    def progress(self, line):
        """After a second, and only on a terminal."""
        now = time.monotonic()
        if self.quiet or now - self.began < 1 or now - self.shown < 0.1 or not sys.stderr.isatty():
            return
        self.shown = now
        sys.stderr.write(f"\r{line}\033[K")
        sys.stderr.flush()
        self.showing = True

    def clear(self):
        if self.showing:
            sys.stderr.write("\r\033[K")
            sys.stderr.flush()
            self.showing = False


def to_terminal():
    return os.isatty(1)
