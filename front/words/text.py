"""A plan file as text."""

from front.answers import Answer
from front.errors import Cannot
from front.sentences import counted, ticks

TOPIC = "files"
ARGUMENTS = ()
SEVERAL = False
TEXT = False
SUMMARY = "a plan file as text"
HELP = """
Writes the numbers of a plan file as text, whatever they are: `palikudyom check` says
whether they are legal. A file that can't be read as numbers is refused.
    $ palikudyom text plans/w5.plan
    frame 8
    window 0 2
    window 5 7
    task 1 4 3
A plan file is numbers in groups of seven bits: the frame, how many windows, start and
end of each, how many tasks, work, period and deadline of each. It does not say
whether settings of the board stand first: --with-shortest says that the shortest
allowed window does, --with-rule that this, the rule and the lost ticks do.
"""


def answer(plan):
    if plan.owner is not None:
        raise Cannot("--owner: a plan file has no owners")
    return Answer([], "".join(f"{line}\n" for _, _, line in plan.lines()).encode())


def tell(plan, lines):
    return f"A frame of {ticks(plan.frame)}, {counted(len(plan.windows), 'window')}, {counted(len(plan.group), 'task')}; whether they are legal was not asked."


def refused(plan, number, place):
    return "It is a text already." if plan.looks_like_text else None
