"""What ends the asking: a word is answered by lines, or by one of these."""


class Cannot(Exception):
    """It could not be asked: exit status 3, and the message says why."""


class CannotWrite(Cannot):
    """Standard output is closed or full: no other plan can be answered either."""


class BadLine(Cannot):
    """A line of a text that can't be read; the message begins with its place."""


class Refused(Exception):
    """The proved program refused what is no plan: the line is the answer."""

    def __init__(self, line):
        super().__init__(line)
        self.line = line
