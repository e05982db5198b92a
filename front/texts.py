"""Plans, traces and job lists as texts: one thing to a line, # starts a comment. Only the form of a line is judged here; what its numbers mean is for the
proved program."""

from front.errors import BadLine
from front.numbers import MOST, written


class Form:
    """How a line of one word is written: names of its numbers, whether it may end in `owner N`, whether a text has at most one."""

    def __init__(self, numbers, owned=False, once=False):
        self.numbers, self.owned, self.once = numbers.split(), owned, once

    def shown(self, word):
        plain = " ".join([word, *self.numbers])
        return f"`{plain}` or `{plain} owner N`" if self.owned else f"`{plain}`"


class Line:
    """A line that was read: its word, its numbers, its owner (None if it names none) and where it stands."""

    def __init__(self, word, numbers, owner, at):
        self.word, self.numbers, self.owner, self.at = word, numbers, owner, at


PLAN = {
    "frame": Form("TICKS", once=True),
    "shortest": Form("TICKS", once=True),
    "rule": Form("N", once=True),
    "lose": Form("TICKS", once=True),
    "window": Form("START END", owned=True),
    "task": Form("WORK PERIOD DEADLINE", owned=True),
}
TRACE = {"release": Form("TASK WORK STAMP"), "complete": Form("TASK STAMP")}
JOBS = {"ticks": Form("N", once=True), "job": Form("RELEASE TASK WORK")}


def is_text(data):
    """Whether bytes can be a text at all: no control characters but those that part words and lines."""
    return not any(byte < 32 and byte not in b"\t\n\v\f\r" or byte == 127 for byte in data)


def cut(word):
    """A word in a message: of one that is very long its beginning."""
    return word if len(word) <= 40 else word[:40] + ".."


class Text:
    """A text's lines, and its name in messages."""

    def __init__(self, name, data, forms):
        self.name, self.forms, self.lines = name, forms, []
        self.rows = data.decode("utf-8-sig", "replace").removesuffix("\n").split("\n")
        self.length = len(self.rows) if data else 0
        for at, row in enumerate(self.rows, 1):
            words = row.split("#")[0].split()
            if words:
                self.lines.append(self._line(words, at))

    def of(self, *words):
        """The lines of these words, in the text's order."""
        return [line for line in self.lines if line.word in words]

    def only(self, word):
        """The number of the one line of a word, None where it is left out."""
        return next((line.numbers[0] for line in self.of(word)), None)

    def needed(self, word):
        """The same, of a line that must be there."""
        if not self.of(word):
            raise self.bad(self.length, f"no {word}: write {self.forms[word].shown(word)}")
        return self.only(word)

    def _line(self, words, at):
        word, rest = words[0], words[1:]
        form = self.forms.get(word)
        if form is None:
            raise self.bad(at, f"`{cut(word)}` is {_none_of(list(self.forms))}")
        if form.once and self.of(word):
            raise self.bad(at, f"a second {word}")
        count = len(form.numbers)
        owned = form.owned and len(rest) == count + 2 and rest[count] == "owner"
        if len(rest) != count and not owned:
            raise self.bad(at, f"write {form.shown(word)}")
        owner = self._number(rest[-1], at) if owned else None
        return Line(word, [self._number(part, at) for part in rest[:count]], owner, at)

    def _number(self, word, at):
        number = written(word)
        if number is None:
            raise self.bad(at, f"`{cut(word)}` is not a whole number")
        if number > MOST:
            raise self.bad(at, f"`{cut(word.lstrip('0'))}` is over {MOST}")
        return number

    def bad(self, at, message):
        return BadLine(f"{self.name}:{at}: {message}")


def _none_of(words):
    return "neither " + " nor ".join(words) if len(words) == 2 else "none of " + ", ".join(words)
