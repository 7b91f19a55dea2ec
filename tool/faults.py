"""The ways in which a command stops early. Each carries its status, the lines for people, and the members for --json."""


class Stop(Exception):
    status = 4

    def __init__(self, lines, **members):
        super().__init__(lines)
        self.lines = [lines] if isinstance(lines, str) else list(lines)
        self.members = members


class WrongUse(Stop):
    status = 2


class Refused(Stop):
    """The register said no to it: never to be taken for the answer no, which is status 1."""

    status = 3


class Unusable(Stop):
    """A file or a text that cannot be used."""

    status = 4


class Broken(Stop):
    """asks is missing, or says what it must not say."""

    status = 5


class Busy(Stop):
    status = 6
