"""A board's trace held against the tick machine (document 02, request 2)."""

from front import limits, program, sentences, texts
from front.errors import Cannot
from front.numbers import decode, encode
from front.plans import file_bytes, text_of

TOPIC = "runs"
ARGUMENTS = ("TRACE",)
SEVERAL = False
SUMMARY = "where a board's trace first leaves the rules"
HELP = """
Holds what a board released and finished against the rules: the same, the first
completion that differs with both sides, or a deadline that the rules themselves miss.
    $ palikudyom replay plans/w7-late.trace plans/w7.plan
    DIFFERS trace instant 16 task 0 machine instant 15 task 0
A trace file is records of numbers in groups of seven bits: kind (0 release, 1
completion), task, work (of a release), stamp. As text (--text) a record is a line,
`release TASK WORK STAMP` or `complete TASK STAMP`.
"""


class Trace:
    """A trace's bytes, and its text if it is one. Where there are more bytes than the program has room for, one more is enough to know."""

    def __init__(self, name, is_text):
        self.name, self.text = name, None
        if is_text:
            self.text = text_of(name, texts.TRACE)
            numbers = [number for line in self.text.lines for number in (line.word != "release", *line.numbers)]
            self.bytes = encode(numbers)[: program.ROOM + 1]
        else:
            self.bytes = file_bytes(name, program.ROOM + 1)

    @property
    def looks_like_text(self):
        """Whether a trace file's bytes may be a text that was not told."""
        return self.text is None and texts.is_text(self.bytes) and b"release" in self.bytes

    @property
    def records(self):
        """The records of bytes that the program has read: index, kind, task, instant and, of a release, work. A record is later than the one before it by what the
        board's counter, which goes past its top back to 0, went on."""
        numbers, records, instant, before, at = decode(self.bytes), [], 0, None, 0
        while at < len(numbers):
            release = numbers[at] == 0
            task, *work, stamp = numbers[at + 1 : at + (4 if release else 3)]
            instant += 0 if before is None else (stamp - before) % 2**32
            records.append(Record(len(records), release, task, instant, *work))
            before, at = stamp, at + (4 if release else 3)
        return records

    def about(self, record, sentence):
        """A sentence about a record, after its line if there is a text."""
        if self.text:
            sentence = sentences.stands_at(self.text, self.text.lines[record.index], sentence)
        return sentence + " Records and tasks are counted from 0."


class Record:
    def __init__(self, index, release, task, instant, work=None):
        self.index, self.release, self.task, self.instant, self.work = index, release, task, instant, work


def read(plan, name):
    return Trace(name, plan.text is not None)


def answer(plan, trace):
    numbers = [*plan.table, *plan.tasks]
    line = program.replay(plan.board[1:], numbers, trace.bytes)
    if line is None:
        left = program.ROOM - len(encode([*plan.board[1:], *numbers]))
        if len(trace.bytes) > left:
            raise Cannot(f"{trace.name}: a trace of more than {left} bytes can't be replayed on this plan")
        raise Cannot(f"{trace.name}: not replayed")
    return [line]


def tell(plan, lines, trace):
    words = lines[0].split()
    if words[0] == "SAME":
        if trace.bytes:
            return "The board finished every job up to the last record exactly when the rules say, and no deadline was missed by then."
        return "The trace has no records: there is nothing to compare."
    return _missed(plan, trace, int(words[2]), int(words[4])) if words[0] == "MISSED" else _differs(plan, trace, words[1:])


def _missed(plan, trace, deadline, job):
    """Jobs are counted among the releases alone. A difference before that instant would have been named instead."""
    record = [record for record in trace.records if record.release][job]
    return trace.about(
        record,
        f"by the rules the job of record {record.index} (task {record.task}, released at tick {record.instant}) is not finished at its deadline, tick {deadline}; "
        f"before that tick the board did as the rules say.{sentences.loss(plan)}",
    )


def _side(words):
    """Instant and task of one side of a difference, None where it has ended; and what follows."""
    return (None, words[2:]) if words[1] == "none" else ((int(words[2]), int(words[4])), words[5:])


def _differs(plan, trace, words):
    """The record is found by kind, task and instant: no two have all three in common."""
    board, words = _side(words)
    machine, _ = _side(words)
    if board is None:
        return f"By the rules task {machine[1]} finishes at tick {machine[0]}; the trace has no completion then or later.{sentences.loss(plan)} Tasks are counted from 0."
    instant, task = board
    if machine is None:  # the machine's run ends with the trace, or with a missed deadline
        rules = "no other job finishes then or later, before the trace ends or a deadline is missed"
    elif machine[1] == task:
        rules = f"it finishes at tick {machine[0]}"
    else:
        rules = f"task {machine[1]} finishes next, at tick {machine[0]}"
    record = next(record for record in trace.records if not record.release and (record.instant, record.task) == board)
    return trace.about(record, f"record {record.index}: the board finished task {task} at tick {instant}; by the rules {rules}.{sentences.loss(plan)}")


def refused(plan, number, place, trace):
    """What is no plan is refused before the trace is looked at."""
    if number not in (9, 10, 11) or not plan.is_read():
        return None
    if number == 9:
        hint = "\nOr it is a text: then say --text." if trace.looks_like_text else ""
        return sentences.damage("trace", place, "a record's kind is neither 0 nor 1") + hint
    return _oversize(trace) if number == 10 else _broken(trace, trace.records[place])


def _oversize(trace):
    """The first record past one of the limits. Stamps that were shuffled look like a counter that went nearly once around."""
    releases = 0
    for record in trace.records:
        releases += record.release
        if record.instant >= limits.RUN_TICKS:
            return trace.about(
                record,
                f"record {record.index} is at tick {record.instant}, and a trace has at most {limits.RUN_TICKS:,} ticks; a stamp below the one before it counts as the counter gone past its top.",
            )
        if releases > limits.JOBS:
            return trace.about(record, f"record {record.index} is one release more than the {limits.JOBS:,} that a trace has at most.")


def _broken(trace, record):
    """A record against the order, or a release that is not legal: a completion can only be the first."""
    order = "at one instant completions come before releases, each kind by rising task"
    if not record.release:
        return trace.about(record, f"record {record.index}, the completion of task {record.task} at tick {record.instant}, breaks the order: {order}.")
    return trace.about(
        record,
        f"record {record.index}, the release of task {record.task} with work {record.work} at tick {record.instant}, breaks the order ({order}), or is not legal: no such task, "
        f"work not 1 to C, or sooner than T after the task's previous release.",
    )
