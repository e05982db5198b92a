"""The longest outage (document 02, request 1)."""

from front import sentences
from front.sentences import ticks

TOPIC = "the table"
ARGUMENTS = ()
SUMMARY = "the longest time that the windows supply nothing"
HELP = """
The longest run of ticks that are not supplied, over endless frames: the end of one
joins the start of the next. Tasks are read and not judged.
    $ palikudyom outage plans/midnight.plan
    OUTAGE 6
"""


def answer(plan):
    return [plan.ask(4, plan.table)]


def tell(plan, lines):
    """Where the board is silent for so long: the program is asked for one tick of work each frame that is due in so many ticks, and the miss shows the start."""
    length = int(lines[0].split()[1])
    board = "The board is" if plan.owner is None else f"To owner {plan.owner} the board is"
    if length == 0:
        return f"{board} never silent: every tick is supplied."
    start = int(plan.ask(7, plan.table, [3, 1, plan.frame, length]).split()[4])
    return f"{board} silent for {ticks(length)} from tick {start:,} of each frame, and never for longer.{sentences.loss(plan)}"
