"""The tick machine's run of a job list (document 01, "The tick machine")."""

from front import limits, sentences, texts
from front.numbers import listed
from front.plans import text_of
from front.sentences import ticks

TOPIC = "runs"
ARGUMENTS = ("JOBS",)
SEVERAL = False
SUMMARY = "the tick machine's run of a job list"
HELP = """
Runs a list of jobs on the plan, earliest deadline first: met, or the first missed
deadline and the job, counted from 0; the most jobs pending in a tick; and after
BUFFER each job's count, its ticks from release to completion, 0 if it is unfinished.
The list is a text: `ticks N` is the length of the run, tick 0 the start of a frame,
and `job RELEASE TASK WORK` a job, by rising tick, then by rising task.
    $ palikudyom run plans/w13.jobs.txt plans/w7.plan
    MET backlog 2 BUFFER 4 7
"""

JOBS_KEPT = limits.JOBS + 1  # one more than is legal is refused, whatever follows; these fit a stream, whatever their numbers


class Jobs:
    """A job list's text: its ticks, and the lines of its jobs."""

    def __init__(self, name):
        self.text = text_of(name, texts.JOBS)
        self.ticks, self.lines = self.text.needed("ticks"), self.text.of("job")

    def numbers(self, count):
        return [number for line in self.lines[:count] for number in line.numbers]


def read(plan, name):
    return Jobs(name)


def answer(plan, jobs):
    count = min(len(jobs.lines), JOBS_KEPT)
    line = plan.ask(9, plan.table, plan.tasks, jobs.ticks, listed(jobs.numbers(count)), count)
    return [" ".join(line.split()[:4]) if line.startswith("REFUSED") else line]


def tell(plan, lines, jobs):
    words = lines[0].split()
    if words[0] == "MET":
        backlog = words[2]
        return (
            f"No deadline is missed in the run, and at most {backlog} {'job is' if backlog == '1' else 'jobs are'} pending in a tick. After BUFFER stands each job's count, "
            f"its ticks from release to completion, 0 where it is unfinished at the end.{sentences.loss(plan)}"
        )
    instant, job = words[2], int(words[4])
    line = jobs.lines[job]
    release, task, _ = line.numbers
    where = sentences.stands_at(jobs.text, line, f"job {job} (task {task}, released at tick {release}) is not finished at its deadline, tick {instant}")
    return f"{where}; the run ends there. Jobs and tasks are counted from 0.{sentences.loss(plan)}"


def refused(plan, number, place, jobs):
    if number == 10:
        if len(jobs.lines) > limits.JOBS:
            return sentences.stands_at(jobs.text, jobs.lines[limits.JOBS], f"this is one job more than the {limits.JOBS:,} that a run has at most.")
        return sentences.stands_at(jobs.text, jobs.text.of("ticks")[0], f"a run has at most {ticks(limits.RUN_TICKS)}, and not {jobs.ticks}.")
    if number == 11:
        release, task, work = jobs.lines[place].numbers
        return sentences.stands_at(
            jobs.text,
            jobs.lines[place],
            f"job {place} (task {task}, work {work}, released at tick {release}) breaks the order, by rising tick and then by rising task, or is not legal: no such task, "
            f"work not 1 to C, released after the run's {ticks(jobs.ticks)}, or sooner than T after its task's job before.",
        )
    return None
