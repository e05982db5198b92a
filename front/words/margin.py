"""The margin at a length (document 01, "Supply and demand")."""

from front import sentences
from front.sentences import ticks

TOPIC = "the tasks"
ARGUMENTS = ("LENGTH",)
SUMMARY = "the least supply of LENGTH ticks less the demand"
HELP = """
The least supply of LENGTH ticks less the demand of that length, with a minus sign
where the demand is greater; LENGTH is at most 1,000,000. The exit status is 0: one
length is no verdict.
    $ palikudyom margin 6 plans/w6.plan
    MARGIN -1
"""


def answer(plan, length):
    return [plan.ask(6, plan.table, plan.tasks, length)]


def tell(plan, lines, length):
    margin = int(lines[0].split()[1])
    which = f"In the worst {ticks(length)} in a row" if length != 1 else "In the worst tick"
    what = f"{which} the supply{sentences.whose(plan, ' to')} "
    if margin < 0:
        what += f"falls short of the demand by {ticks(-margin)}."
    elif margin == 0:
        what += "is just the demand."
    else:
        what += f"exceeds the demand by {ticks(margin)}."
    return what + sentences.loss(plan)


def refused(plan, number, place, length):
    return sentences.long_length(length) if number == 7 else None
