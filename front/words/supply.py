"""The least supply of a length (document 01, "Supply and demand")."""

from front import sentences
from front.sentences import are, ticks

TOPIC = "the table"
ARGUMENTS = ("LENGTH",)
SUMMARY = "the least supply of any LENGTH ticks in a row"
HELP = """
The smallest number of supplied ticks in any LENGTH ticks in a row, over all starts;
LENGTH is at most 1,000,000.
    $ palikudyom supply 6 plans/w6.plan
    AMOUNT 2
"""


def answer(plan, length):
    return [plan.ask(1, plan.table, length)]


def tell(plan, lines, length):
    amount = int(lines[0].split()[1])
    which = "tick" if length == 1 else f"{ticks(length)} in a row"
    return f"Of any {which} at least {amount:,} {are(amount)} supplied{sentences.whose(plan, ' to')}, and of some no more.{sentences.loss(plan)}"


def refused(plan, number, place, length):
    return sentences.long_length(length) if number == 7 else None
