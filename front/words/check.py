"""The verdict (document 01, "The two tests")."""

from front import sentences

TOPIC = "the verdict"
ARGUMENTS = ()
SUMMARY = "does the group meet its deadlines? A bare PLAN too"
HELP = """
Says whether the group meets every deadline under earliest deadline first: exactly
where at no length the demand exceeds the least supply. Else the least length that
shows the miss, the least start, and both amounts.
    $ palikudyom check plans/w6.plan
    MISS length 6 start 2 demand 3 supply 2
    $ palikudyom check plans/w4.plan plans/w5.plan
    plans/w4.plan: MEETS cycle 8
    plans/w5.plan: MISS length 3 start 2 demand 1 supply 0
Of several plans each line begins with the plan's name, and the worst exit status
counts: 0 meets, 1 a miss, 2 refused, 3 it could not be asked.
"""


def answer(plan):
    return [plan.verdict()]


def tell(plan, lines):
    return sentences.verdict(plan, lines[0])
