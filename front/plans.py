"""A plan as the words ask about it: read once from a file, a text or standard input, then its table and tasks as queries have them (docs/ASK.md)."""

import sys

from front import limits, program, texts
from front.errors import Cannot, Refused
from front.numbers import decode, encode, listed

# By the option that tells a plan file's form: the code that reads it, and how many settings stand first in it.
FORMS = {"": (10, 0), "with-shortest": (18, 1), "with-rule": (19, 3)}

# A plan is read up to here, which no plan reaches: the longest has 1,142 bytes, and a query takes 4,096.
PLAN_BYTES = 4_095

# Of lists that are no plan file's, one window and one task more than is legal is enough to be refused for, whatever follows.
WINDOWS_KEPT = limits.WINDOWS + 1
TASKS_KEPT = limits.TASKS + 1


def file_bytes(name, most=-1):
    """The first bytes of a file, or of standard input."""
    try:
        if name == "-":
            if sys.stdin is None:
                raise Cannot("standard input can't be read")
            return sys.stdin.buffer.read(most)
        with open(name, "rb") as file:
            return file.read(most)
    except OSError as error:
        raise Cannot(f"{'standard input' if name == '-' else name}: {error.strerror}") from None


def text_of(name, forms):
    """The text that a file has."""
    shown, data = "standard input" if name == "-" else name, file_bytes(name)
    if not texts.is_text(data):
        raise Cannot(f"{shown}: not a text; it may be a plan file or a trace file")
    return texts.Text(shown, data, forms)


class Plan:
    """What is asked about: `name` as it was given; `text` if it is one; `form` and `owner` as options or the text tell them, '' and None where they don't."""

    def __init__(self, name, is_text=False, form="", owner=None):
        self.name, self.form, self.owner, self.text = name, form, owner, None
        self._lists = None
        if is_text:
            self.text = text_of(name, texts.PLAN)
            self._take_text()
        else:
            self.bytes = file_bytes(name, PLAN_BYTES)

    def _take_text(self):
        """A text without owners has the bytes of a plan file; with them, or asked for one, it has the lists of a query, for plan files have no owners."""
        text = self.text
        frame, windows, tasks = text.needed("frame"), text.of("window"), text.of("task")
        shortest, rule, lost = (text.only(word) for word in ("shortest", "rule", "lose"))
        if rule is not None or lost is not None:
            self.form = "with-rule"
            settings = [1 if shortest is None else shortest, 2 if rule is None else rule, lost or 0]
        else:
            self.form = "" if shortest is None else "with-shortest"
            settings = [] if shortest is None else [shortest]
        if self.owner is None and not self.has_owners:
            self.bytes = encode([*settings, frame, len(windows), *_flat(windows), len(tasks), *_flat(tasks)])[:PLAN_BYTES]
            return
        self.owner = self.owner or 0
        foreign = next((task for task in tasks if (task.owner or 0) > 1), None)
        if foreign:
            raise text.bad(foreign.at, "a task's owner is 0 or 1")
        threes = [number for window in windows[:WINDOWS_KEPT] for number in (*window.numbers, window.owner or 0)]
        self._lists = settings, [frame, *listed(threes)], listed(_flat(self.own_tasks[:TASKS_KEPT]))

    @property
    def looks_like_text(self):
        """Whether a plan file's bytes may be a text that was not told."""
        return self.text is None and texts.is_text(self.bytes) and b"frame" in self.bytes

    @property
    def has_owners(self):
        return any(line.owner is not None for line in self.text.lines)

    @property
    def own_tasks(self):
        """The lines of the asked owner's tasks: among them a task's index counts."""
        return [task for task in self.text.of("task") if (task.owner or 0) == (self.owner or 0)]

    def verdict(self):
        """The line of the verdict. A plan is asked as it is, but for an owner."""
        if self.owner is None:
            return self._of_bytes(self.bytes)
        return self.ask(7, self.table, self.tasks)

    def _of_bytes(self, data):
        return program.ask([[FORMS[self.form][0], *listed(data)]])[0]

    @property
    def settings(self):
        """The shortest allowed window; or that, the rule and the lost ticks; or nothing."""
        return self.read()[0]

    @property
    def table(self):
        """The frame and the windows, as a query has them."""
        return self.read()[1]

    @property
    def tasks(self):
        """The tasks, as a query has them."""
        return self.read()[2]

    @property
    def frame(self):
        return self.table[0]

    @property
    def windows(self):
        """Start, end and owner of each window."""
        width = self.width
        return [(*self.table[at : at + 2], self.table[at + 2] if width == 3 else 0) for at in range(2, len(self.table), width)]

    @property
    def width(self):
        """How many numbers a window has in a query: on a board it has an owner."""
        return 3 if self.board else 2

    @property
    def group(self):
        """Work, period and deadline of each task."""
        return [tuple(self.tasks[at : at + 3]) for at in range(1, len(self.tasks), 3)]

    @property
    def board(self):
        """What stands before a query that is asked for an owner or with settings."""
        return [16, *listed([self.owner or 0, *self.settings])] if self.owner is not None or self.settings else []

    @property
    def lost(self):
        """How many ticks the board loses of every window."""
        return self.settings[2] if self.form == "with-rule" else 0

    def read(self):
        """Settings, table and tasks. The program is asked to read the plan with a byte left over: it names that byte exactly where the others are a plan, and
        judges nothing. A file that is none is refused as the program refuses it: 9, and the counts' 1 and 4."""
        if self._lists is None:
            if self._of_bytes(self.bytes + b"\0") != f"REFUSED 9 at {len(self.bytes)}":
                raise Refused(self._of_bytes(self.bytes))
            numbers = decode(self.bytes)
            first = FORMS[self.form][1]
            settings, frame, count = numbers[:first], numbers[first], 2 * numbers[first + 1]
            windows, tasks = numbers[first + 2 : first + 2 + count], numbers[first + 3 + count :]
            if self.owner is not None or settings:  # all are owner 0's, tasks too
                windows = [number for at in range(0, count, 2) for number in (*windows[at : at + 2], 0)]
                tasks = tasks if not self.owner else []
            self._lists = settings, [frame, *listed(windows)], listed(tasks)
        return self._lists

    def is_read(self):
        """Whether there is a table to ask about: of a file that is no plan there is none."""
        try:
            return bool(self.read())
        except Refused:
            return False

    def lines(self):
        """The plan as the lines of a text, each with its word and its index among those of that word: those from which `palikudyom plan` makes the same numbers."""
        lines = [("frame", 0, f"frame {self.frame}")]
        lines += [(word, 0, f"{word} {value}") for word, value in zip(("shortest", "rule", "lose"), self.settings) if (word, value) != ("rule", 2)]
        lines += [("window", at, f"window {start} {end}") for at, (start, end, _) in enumerate(self.windows)]
        return lines + [("task", at, f"task {work} {period} {deadline}") for at, (work, period, deadline) in enumerate(self.group)]

    def query(self, code, *parts):
        """A query about this plan's board: its code, then lists and numbers."""
        return [*self.board, code, *(number for part in parts for number in ([part] if isinstance(part, int) else part))]

    def ask(self, code, *parts):
        """The line of one such query."""
        return program.ask([self.query(code, *parts)])[0]


def _flat(lines):
    return [number for line in lines for number in line.numbers]
