"""The delay (document 01, "Supply and demand")."""

from front import sentences
from front.sentences import are, ticks

TOPIC = "the table"
ARGUMENTS = ()
SUMMARY = "how far the least supply lags an even share"
HELP = """
The delay, in ticks times A, and A, the supplied ticks of a frame: the greatest of
A * t - P * (least supply of t) over the lengths t of a frame P.
    $ palikudyom delay plans/w6.plan
    DELAY 12 of 4
"""


def answer(plan):
    return [plan.ask(3, plan.table)]


def tell(plan, lines):
    delay, amount = map(int, lines[0].split()[1::2])
    return (
        f"Of {ticks(plan.frame)} {amount:,} {are(amount)} supplied{sentences.whose(plan, ' to')}. The delay is {delay:,}/{amount:,} ticks: in any ticks in a row at least as many are supplied "
        f"as an even share gives in {delay:,}/{amount:,} ticks less.{sentences.loss(plan)}"
    )
