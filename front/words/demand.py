"""The demand of a length (document 01, "Supply and demand")."""

from front import program, sentences
from front.sentences import ticks

TOPIC = "the tasks"
ARGUMENTS = ("LENGTH",)
SUMMARY = "the work that must be done within LENGTH ticks"
HELP = """
The work of all jobs that are due within LENGTH ticks of a tick at which every task
releases a job in full, and each period after; LENGTH is at most 1,000,000. The table
is read and not judged.
    $ palikudyom demand 6 plans/w6.plan
    DEMAND 3
"""


def answer(plan, length):
    """Demand has no table, so no board stands before the query."""
    return program.ask([[5, *plan.tasks, length]])


def tell(plan, lines, length):
    amount = int(lines[0].split()[1])
    return f"Released in full together, and each period after, the tasks{sentences.whose(plan)} need {ticks(amount)} of work within {ticks(length)} to meet the deadlines in them."


def refused(plan, number, place, length):
    return sentences.long_length(length) if number == 7 else None
