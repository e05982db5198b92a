"""A text as a plan file."""

import sys

from front.answers import Answer
from front.errors import Cannot
from front.sentences import counted

TOPIC = "files"
ARGUMENTS = ()
SEVERAL = False
TEXT = True
SUMMARY = "a text as a plan file: > FILE"
HELP = """
Writes the plan file of a text, one thing to a line, where # starts a comment:
  frame 8             ticks after which the windows repeat
  shortest 2          no window may have fewer ticks; 1 if left out
  lose 1              of every window the first tick is lost; 0 if left out
  rule 1              the board's rule; if left out 2 where `lose` stands, else 1
  window 0 2          supplied from tick 0 up to, but not including, tick 2
  task 1 4 4          work, least distance of releases, deadline after release
  task 1 4 3 owner 1  owner 1's; windows likewise; else they are owner 0's
    $ palikudyom plan plans/w6.txt | palikudyom check -
    MISS length 6 start 2 demand 3 supply 2
Where the text has `shortest`, that number stands first in the file, and where it has
`lose` or `rule`, all three do: say --with-shortest or --with-rule when it is read. A
plan file has no owners. `palikudyom text` goes back.
"""


def answer(plan):
    """The bytes are written where the proved reader reads them as a plan, whatever it would say of the numbers: else it refuses the counts."""
    if plan.owner is not None:
        raise Cannot(f"{plan.text.name if plan.has_owners else '--owner'}: a plan file has no owners")
    if sys.stdout is not None and sys.stdout.isatty():
        raise Cannot("a plan file is not for a terminal: write > FILE")
    plan.read()
    return Answer([], plan.bytes)


def tell(plan, lines):
    how = f"read with --{plan.form}" if plan.form else "read without an option"
    return f"A plan file of {counted(len(plan.bytes), 'byte')}, {how}; whether its numbers are legal was not asked."
