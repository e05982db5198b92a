"""The fixed-priority response bound of a task (document 01, "The two tests")."""

from front import sentences
from front.sentences import ticks

TOPIC = "the tasks"
ARGUMENTS = ("TASK",)
SUMMARY = "the response bound of TASK by fixed priority"
HELP = """
The response bound of a task, counted from 0, where the lower index goes first: the
least length up to its deadline whose least supply covers its work and that of the
tasks before it. NO BOUND shows no miss by itself, and its exit status is 0.
    $ palikudyom bound 1 plans/w6.plan
    NO BOUND
"""


def answer(plan, task):
    return [plan.ask(8, plan.table, plan.tasks, task)]


def sentence(plan, tasks, lines):
    """What the lines say of tasks, and once what it means to have no bound."""
    bounds = [f"task {task}: " + ("none up to its deadline" if line == "NO BOUND" else ticks(int(line.split()[1]))) for task, line in zip(tasks, lines)]
    none = " To have none shows no miss by itself." if "NO BOUND" in lines else ""
    return f"Response bounds by fixed priority, lower index first: {'; '.join(bounds)}.{none}{sentences.loss(plan)}"


def tell(plan, lines, task):
    return sentence(plan, [task], lines)


def refused(plan, number, place, task):
    if number != 7:
        return None
    count = len(plan.group)
    return f"There is no task {task}{sentences.whose(plan)}: " + ("there are no tasks." if count == 0 else f"the last of {count} is task {count - 1}.")
