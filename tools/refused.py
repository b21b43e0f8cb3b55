"""How a tool refuses what it was given."""


class Refused(Exception):
    """What was refused, as one line, and what was expected, where that is known."""

    def __init__(self, said, expected=None):
        super().__init__(said)
        self.expected = expected


def demand(holds, what):
    if not holds:
        raise Refused(what)
