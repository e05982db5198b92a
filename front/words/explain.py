"""The miss, or the margin, as a page with pictures."""

from front import page, sentences
from front.answers import Answer
from front.pictures import COLUMNS
from front.story import Story

TOPIC = "the verdict"
ARGUMENTS = ()
SEVERAL = False
SUMMARY = "the verdict as a page with pictures: > page.html"
HELP = """
Writes one HTML page that needs nothing else: the verdict, the windows, for a miss who
gets which tick and who is late, the least supply beside the demand and the curve that
a wrong lesson draws, and a table. The exit status is that of `palikudyom check`.
    $ palikudyom explain plans/w6.plan > page.html
    In the 6 ticks from tick 2 of a frame, 2 are supplied. ..
"""


def answer(plan):
    story = Story(plan, COLUMNS)
    told = sentences.refusal(plan, *story.refused) if story.refused else sentences.verdict(plan, story.line)
    return Answer([story.line], page.page_of(story, told).encode())


def tell(plan, lines):
    return sentences.verdict(plan, lines[0])
