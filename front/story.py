"""The numbers of a page about a plan, all asked of the proved program: what the board gives, who gets which tick, and both curves. Where to ask is worked out
from the plan; what is shown is answered."""

import heapq
import math

from front import limits, program
from front.answers import Answer
from front.errors import Cannot, Refused
from front.numbers import listed
from front.progress import Progress

CURVE = 1_200  # lengths at which a curve is asked for: more can't be told apart in a picture
CLOSE = 90  # lengths before the marked one that a closer view of the curves shows
ASKED = 1_000  # jobs of a long run whose ticks are looked for one by one
RISES = 4_096  # lengths among which the smallest margin is looked for
ROWS = 24  # a screenful
FIRST_ROWS = 8  # of a table that leaves out what stands between its first and its last
ENDLESS = (1_000_000, 1_000_000, 1_000_000)  # a task whose one job takes what is supplied


class Job:
    """A job of the shown miss: what it was released with, and its count in the run."""

    def __init__(self, release, task, work, deadline):
        self.release, self.task, self.work, self.deadline, self.count = release, task, work, deadline, 0

    @property
    def finished(self):
        """The instant at which it is complete, None where it is not."""
        return self.release + self.count if self.count else None

    @property
    def numbers(self):
        return [self.release, self.task, self.work]


class Miss:
    """The shown miss and its run: as many jobs and ticks of it as a run can have, and a closer view of its end where it is long."""

    def __init__(self, plan, line, columns, progress):
        self.length, self.start, self.demand, self.supply = map(int, line.split()[2::2])
        self.shown = self._shown_length(plan)
        self.end = self.start + self.shown
        self.jobs = self._released(plan)
        self.late = self._run(plan)
        self.view = View(plan, self, self.start, columns, progress)
        span = max(100, 8 * min(period for _, period, _ in plan.group))
        self.close = View(plan, self, self.end - span, columns, progress) if 4 * span <= self.shown else None

    @property
    def whole(self):
        return self.shown == self.length

    def _shown_length(self, plan):
        """The longest that has no more jobs than a run."""
        least, most = 1, self.length
        while least < most:
            middle = (least + most + 1) // 2
            if sum(-(-middle // period) for _, period, _ in plan.group) <= limits.JOBS:
                least = middle
            else:
                most = middle - 1
        return least

    def _released(self, plan):
        """Full jobs of every task at the start and each period after."""
        return [
            Job(release, task, work, release + deadline)
            for release, task, work, deadline in sorted(
                (release, task, work, deadline) for task, (work, period, deadline) in enumerate(plan.group) for release in range(self.start, self.end, period)
            )
        ]

    def _run(self, plan):
        """Runs the jobs; the job that is late at the end, None where the run is only a part."""
        words = plan.ask(*_run_parts(plan, self.end, self.jobs)).split()
        for job, count in zip(self.jobs, _counts(words)):
            job.count = count
        return self.jobs[int(words[4])] if words[0] == "MISSED" else None


def _run_parts(plan, end, jobs, cut=None):
    """The parts of a query that runs jobs up to an instant, the work of one cut if (job, work) is given."""
    cut_job, cut_work = cut or (None, None)
    numbers = [number for job in jobs for number in ([job.release, job.task, cut_work] if job is cut_job else job.numbers)]
    return 9, plan.table, plan.tasks, end, listed(numbers), len(jobs)


def _counts(words):
    return [int(word) for word in words[words.index("BUFFER") + 1 :]]


class View:
    """A part of the run, from a tick to its end, as finely as a picture of so many columns shows it: its jobs, and the stretches of ticks that each was given."""

    def __init__(self, plan, miss, first, columns, progress):
        self.first, self.end = first, miss.end
        self.jobs = [job for job in miss.jobs if job.finished is None or job.finished > first]
        self.finest = self._finest((self.end - first) / columns)
        self._known = {job: {job.work: job.finished} for job in self.jobs}
        self._ask(plan, miss, progress)
        self.stretches = {job: _stretches(job, self._known[job], self.finest) for job in self.jobs}

    def _finest(self, column):
        """The narrowest gap that is looked for: one tick where each has a column; else two columns, or more where too many jobs would have to be looked into."""
        if column <= 1:
            return 1
        counts = sorted((job.count for job in self.jobs if job.work > 1), reverse=True)
        return max(math.ceil(2 * column), counts[ASKED] + 1 if len(counts) > ASKED else 1)

    def given(self, job):
        """How many ticks a job was given: every one is looked for, however fine the picture is."""
        return max((work for work, instant in self._known[job].items() if instant is not None), default=0)

    @property
    def exact(self):
        return self.finest == 1

    def _ask(self, plan, miss, progress):
        """Tick w of a job is its count with its work cut to w. Works are halved until no gap as wide as the finest is left between two that are known."""
        index = {job: at for at, job in enumerate(miss.jobs)}
        wanted = [(job, 1) for job in self.jobs if job.work > 1 and (job.finished is None or job.count >= self.finest)]
        while wanted:
            progress.of += len(wanted)
            lines = program.ask((self._cut(plan, miss, job, work) for job, work in wanted), progress)
            for (job, work), line in zip(wanted, lines):
                count = _counts(line.split())[index[job]]
                self._known[job][work] = job.release + count if count else None
            wanted = [(job, work) for job in self.jobs for work in self._between(self._known[job])]

    def _cut(self, plan, miss, job, work):
        """The run with a job's work cut: it need not go on past an instant by which more of the work was done."""
        end = min([miss.end, *(instant for other, instant in self._known[job].items() if other > work and instant is not None)])
        return plan.query(*_run_parts(plan, end, [other for other in miss.jobs if other.release < end], (job, work)))

    def _between(self, known):
        """The works to ask for next: halfway between two that are known, where a gap lies between their ticks, or where the first is done and the second is not. What
        was done before the view is not looked at."""
        works = sorted(known)
        for low, high in zip(works, works[1:]):
            if high - low == 1 or known[low] is None:
                continue
            if known[high] is None or known[high] > self.first and known[high] - known[low] - (high - low) >= self.finest:
                yield (low + high) // 2


def _stretches(job, known, finest):
    """The ticks given, as stretches: from a first tick up to, but not including, an end, and how many ticks of it were given. Gaps below the finest are in them."""
    stretches, before = [], None
    for work in sorted(work for work in known if known[work] is not None):
        end = known[work]
        if before is not None and end - known[before] - (work - before) < finest:
            first, _, given = stretches.pop()
            stretches.append((first, end, given + work - before))
        elif before is None and work > 1:  # not looked into: somewhere while it was pending
            stretches.append((job.release, end, work))
        else:
            stretches.append((end - 1, end, 1))
        before = work
    return stretches


class Length:
    """What the program says of one length."""

    def __init__(self, length, supply, demand, margin):
        self.length, self.supply, self.demand, self.margin = length, supply, demand, margin


def at_lengths(plan, lengths, progress):
    """Least supply, demand and margin at each length."""
    queries = [query for t in lengths for query in (plan.query(1, plan.table, t), [5, *plan.tasks, t], plan.query(6, plan.table, plan.tasks, t))]
    progress.of += len(queries)
    amounts = [int(line.split()[1]) for line in program.ask(queries, progress)]
    return [Length(t, *amounts[3 * at : 3 * at + 3]) for at, t in enumerate(lengths)]


def rises(plan, most, count):
    """The first lengths up to one at which the demand rises, as many as count, and whether these are all."""
    waiting, found = [(deadline, period) for _, period, deadline in plan.group], []
    heapq.heapify(waiting)
    while waiting and waiting[0][0] <= most:
        length, period = waiting[0]
        if not found or found[-1] != length:
            if len(found) == count:
                return found, False
            found.append(length)
        heapq.heapreplace(waiting, (length + period, period))
    return found, True


def last_rises(plan, most, count):
    """The last such lengths up to one."""
    found = set()
    for _, period, deadline in plan.group:
        if deadline <= most:
            last = most - (most - deadline) % period
            found.update(range(last, max(deadline, last - count * period) - 1, -period))
    return sorted(found)[-count:]


class Curves:
    """Least supply and demand from 0 to a little past the marked length; the marked length is the miss's, or the one with the smallest margin."""

    def __init__(self, plan, miss, cycle, progress):
        self.searched = True
        mark = miss.length if miss else self._smallest(plan, cycle, progress)
        middle = plan.frame if mark is None else mark
        self.end = min(middle + max(2, middle // 8), limits.LENGTH)
        self.every = self.end <= CURVE
        near = range(max(0, middle - CLOSE), min(middle + CLOSE // 3, self.end) + 1) if mark and not self.every else ()
        wide = range(0, self.end + 1, 1 if self.every else -(-self.end // (CURVE // 2)))
        asked = at_lengths(plan, sorted({*wide, *near, self.end}), progress)
        self.close = [here for here in asked if here.length in near]
        self.lengths = [here for here in asked if here.length in wide or here.length in (middle - 1, middle, middle + 1, self.end)]
        self.mark = next((here for here in asked if here.length == mark), None)

    def _smallest(self, plan, cycle, progress):
        """The least length within a cycle at which the demand rises and the margin is smallest."""
        found, self.searched = rises(plan, cycle, RISES)
        if not found:
            return None
        self.searched_to = found[-1]
        progress.of += len(found)
        margins = [int(line.split()[1]) for line in program.ask([plan.query(6, plan.table, plan.tasks, t) for t in found], progress)]
        return found[margins.index(min(margins))]


def left_of_windows(plan):
    """Of each of the owner's windows the first tick that the board gives, and the end; None for the tick where it gives none. One tick of work, released at the
    window's start, is done in the first supplied tick from there on."""
    own = [(start, end) for start, end, owner in plan.windows if owner == (plan.owner or 0)]
    queries = [plan.query(9, plan.table, listed(ENDLESS), start + plan.frame, [3, start, 0, 1], 1) for start, _ in own]
    firsts = [start + _counts(line.split())[0] - 1 for (start, _), line in zip(own, program.ask(queries))]
    return [(start, first if first < end else None, end) for (start, end), first in zip(own, firsts)]


class Story:
    """Everything that a page shows about a plan."""

    def __init__(self, plan, columns):
        self.plan, self.miss, self.curves = plan, None, None
        try:
            plan.read()
            self.line = plan.verdict()
        except Refused as refused:
            self.line = refused.line
        self.refused = Answer([self.line]).refused
        if self.refused:
            return
        with Progress(0, "asking the proved program:") as progress:
            self.left = left_of_windows(plan)
            if self.line.startswith("MISS"):
                self.miss = Miss(plan, self.line, columns, progress)
                self.curves = Curves(plan, self.miss, None, progress)
            else:
                self.cycle = int(self.line.split()[2])
                self.curves = Curves(plan, None, self.cycle, progress)
            self.from_zero = self._from_zero() if self.curves.mark else None
            self.rows, self.left_out = self._rows(progress)

    @property
    def stretches(self):
        """The supplied stretches of one frame."""
        return [(first, end) for _, first, end in self.left if first is not None]

    def counted_from_zero(self, length):
        """The supply of the first ticks from tick 0 on, which the wrong lesson compares with: counted from the stretches that the program named."""
        frames, rest = divmod(length, self.plan.frame)
        return sum(frames * (end - first) + max(0, min(end, rest) - first) for first, end in self.stretches)

    def _from_zero(self):
        """That supply at the marked length, confirmed by a run up to there: so many ticks of work, released at tick 0, are done in it, and one more is not."""
        length = self.curves.mark.length
        amount = self.counted_from_zero(length)
        jobs = [[0, 0, amount], [0, 1, 1]][amount == 0 :]
        line = self.plan.ask(9, self.plan.table, listed(ENDLESS * 2), length, listed([number for job in jobs for number in job]), len(jobs))
        *before, after = _counts(line.split())
        if 0 in before or after != 0:
            raise Cannot("the supply from tick 0 is not what the program says")
        return amount

    def _rows(self, progress):
        """The lengths at which the demand rises, up to a screenful: without a miss those of the cycle from its first on, if the marked one is among them; else those up
        to the marked one, all or the first and the last of them, and how many stand between, None if too many to count."""
        if not self.curves.mark:
            return [], 0
        mark = self.curves.mark.length
        first, _ = rises(self.plan, mark if self.miss else self.cycle, ROWS)
        if first[-1] >= mark:
            return at_lengths(self.plan, first, progress), 0
        found, all_found = rises(self.plan, mark, RISES)
        shown = [*found[:FIRST_ROWS], *last_rises(self.plan, mark, ROWS - FIRST_ROWS)]
        return at_lengths(self.plan, shown, progress), len(found) - len(shown) if all_found else None
