"""The critical partition (document 01, "Supply and demand")."""

from front import sentences

TOPIC = "the table"
ARGUMENTS = ()
SUMMARY = "the lengths at which the least supply rises"
HELP = """
The critical partition: the lengths t from 0 up to the frame where the least supply of
t + 1 ticks exceeds that of t, as windows; start and end of each after BUFFER.
    $ palikudyom critical plans/w6.plan
    WINDOWS 2 BUFFER 3 5 6 8
"""

SHOWN = 4  # stretches in the sentence


def answer(plan):
    """Lent no room, the entry refuses by 8 and says how many numbers there are to write."""
    words = plan.ask(2, plan.table, 0).split()
    if words[:2] != ["REFUSED", "8"]:
        return [" ".join(words[:4])]
    return [plan.ask(2, plan.table, int(words[3]))]


def tell(plan, lines):
    numbers = lines[0].split()[3:]
    parts = [f"{int(start):,} to {int(end):,}" for start, end in zip(numbers[::2], numbers[1::2])]
    rising = sentences.some(parts, SHOWN)
    return f"From length 0 to {plan.frame:,} the least supply{sentences.whose(plan)} rises by 1 a tick from length {rising}, and nowhere else.{sentences.loss(plan)}"
