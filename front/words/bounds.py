"""The response bounds of all tasks: the word `bound`, asked of each."""

from front import limits, program
from front.words import bound

TOPIC = "the tasks"
ARGUMENTS = ()
SUMMARY = "the response bounds of all tasks, a line each"
HELP = """
What `palikudyom bound` says of task 0, 1, 2 and so on, a line each; nothing where the
plan has no tasks.
    $ palikudyom bounds plans/w4.plan
    BOUND 4
"""


def answer(plan):
    """One query more than there are tasks: it refuses by 7 where nothing else is wrong, so that a plan without tasks is judged too."""
    *lines, last = program.ask([plan.query(8, plan.table, plan.tasks, task) for task in range(min(len(plan.group), limits.TASKS) + 1)])
    return lines if last == "REFUSED 7 at 0" else [last]


def tell(plan, lines):
    if not lines:
        return "There are no tasks."
    return bound.sentence(plan, range(len(lines)), lines)
