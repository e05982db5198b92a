"""The page about a plan: one HTML file that is also well-formed XML, with its style and pictures inside and nothing from elsewhere."""

from xml.sax.saxutils import escape

from front import pictures, sentences
from front.drawing import element
from front.sentences import are, ticks, whose
from front.story import FIRST_ROWS, ROWS
from front.style import STYLE

FOOT = "The answers are a proved program's, of the plan as it stands here. Ticks, tasks, windows and jobs are counted from 0."


def page_of(story, told):
    """The whole page, with the verdict's sentences."""
    name = "standard input" if story.plan.name == "-" else _printable(story.plan.name)
    kind = story.line.split()[0].lower()
    heading = {"miss": "misses a deadline", "meets": "meets every deadline", "refused": "is refused"}[kind]
    title = f"{name}{whose(story.plan, ',')} {heading}"
    verdict = element("p", element("code", escape(story.line)), class_="line")
    body = [element("h1", escape(title)), element("section", verdict, *map(_paragraph, told.split("\n")), aria_label="The verdict")]
    if kind != "refused":
        body += [_frame_section(story), _run_section(story) if story.miss else "", _curve_section(story), _rises_section(story)]
    body += [_plan_section(story), _paragraph(FOOT)]
    head = [
        element("meta", charset="utf-8"),
        element("meta", name="viewport", content="width=device-width, initial-scale=1"),
        element("meta", name="description", content=_printable(f"{story.line}. {told}".replace("\n", " "))),
        element("title", escape(f"{title} - palikudyom")),
        element("style", escape(STYLE)),
    ]
    return "<!DOCTYPE html>\n" + element("html", element("head", *head), element("body", element("main", *body), class_=kind), lang="en") + "\n"


def _printable(words):
    """Words with what no page can have replaced: a file's name may be any bytes."""
    return "".join(letter if letter.isprintable() else "\ufffd" for letter in words)


def _paragraph(words):
    return element("p", escape(_printable(words)))


def _counted(stretches, most):
    """Stretches of ticks in words, as first to last."""
    return sentences.some([f"tick {first:,}" if end - first == 1 else f"{first:,} to {end - 1:,}" for first, end in stretches], most)


def _figure(drawn, *captions):
    """A picture, the key to its shapes, and the text beside it."""
    svg, key, notes = drawn
    scroll = element("div", svg, class_="scroll", tabindex="0", role="group", aria_label="picture, may be scrolled sideways")
    return element("figure", _key(key), scroll, element("figcaption", *(_paragraph(words) for words in (*captions, *notes) if words)))


def _key(entries):
    samples = [
        element("li", element("svg", sample, viewBox="0 0 28 14", aria_hidden="true", xmlns="http://www.w3.org/2000/svg") + escape(words))
        for sample, words in entries
    ]
    return element("ul", *samples, class_="key")


def _table(caption, heads, rows):
    head = element("thead", element("tr", *(element("th", escape(words), scope="col", class_="words" if words == "ticks given" else None) for words in heads)))
    return element("div", element("table", element("caption", escape(caption)), head, element("tbody", *rows)), class_="scroll")


def _row(cells, marked, *more):
    return element("tr", *(element("td", escape(str(cell))) for cell in cells), *more, class_="marked" if marked else None)


def _frame_section(story):
    described = (
        f"Of the {ticks(story.plan.frame)} of a frame these are supplied{whose(story.plan, ' to')}: {_counted(story.stretches, 8)}. Then the frame repeats."
    )
    return element("section", element("h2", "The frame"), _figure(pictures.frame(story, described), described))


def _run_section(story):
    miss = story.miss
    title = f"From tick {miss.start:,}, for {ticks(miss.length)}"
    described = _run_told(story)
    figures = [_figure(pictures.run(story, miss.view, "run", title, described), described)]
    if miss.close:
        last = f"The last {ticks(miss.end - miss.close.first)}" + ("" if miss.whole else " that are drawn")
        figures.append(_figure(pictures.run(story, miss.close, "end", last, f"{last}, closer."), f"{last}, closer."))
    return element("section", element("h2", escape(title)), *figures, _jobs_table(story))


def _run_told(story):
    miss = story.miss
    words = f"Full jobs of every task are released at tick {miss.start:,} and each period after, and run earliest deadline first."
    if not miss.whole:
        return f"{words} Only the first {miss.shown:,} of the {miss.length:,} ticks are drawn: with more the run would have over 4,096 jobs. The job that is late comes after them."
    late = miss.late
    return (
        f"{words} At tick {miss.end:,}, the end of the {ticks(miss.length)}, the job of task {late.task} released at tick {late.release:,} is due and has been given "
        f"{miss.view.given(late):,} of its {ticks(late.work)}: it is late. No other order would do: {ticks(miss.demand)} of work {are(miss.demand)} due by then, and {miss.supply:,} {are(miss.supply)} supplied."
    )


def _jobs_table(story):
    """The jobs that are due by the end, in words, by deadline: the last of them, up to a screenful, the late job at the end. Which ticks each was given is told where
    every gap was looked for."""
    miss, view = story.miss, story.miss.view
    due = sorted((job for job in miss.jobs if job.deadline <= miss.end), key=lambda job: (job.deadline, job is miss.late, job.task))
    rows = []
    for job in due[-ROWS:]:
        finished = f"{job.finished:,}" if job.finished else "late" if job is miss.late else "not by then"
        given = [element("td", escape(_counted([(first, end) for first, end, _ in view.stretches[job]], 4) or "none"), class_="words")] if view.exact else []
        rows.append(_row([job.task, f"{job.release:,}", f"{job.deadline:,}", f"{job.work:,}", finished], job is miss.late, *given))
    part = f", the last {len(rows)} of {len(due):,}" if len(rows) < len(due) else ""
    return _table(
        f"The jobs that are due by tick {miss.end:,}{part}.", ["task", "released", "due", "work", "finished at", *(["ticks given"] if view.exact else [])], rows
    )


def _curve_section(story):
    curves, described = story.curves, _curves_told(story)
    drawn = pictures.curves(story, curves.lengths, "curves", "Least supply and demand over the length", described)
    figures = [_figure(drawn, described, _wrong_told(story))]
    if curves.close:
        closer = f"The same around length {curves.mark.length:,}, closer; amounts below those shown are cut off."
        figures.append(_figure(pictures.curves(story, curves.close, "near", "Least supply and demand around the marked length", closer), closer))
    return element("section", element("h2", "Least supply and demand"), *figures)


def _curves_told(story):
    curves, mark = story.curves, story.curves.mark
    if mark is None:
        return f"There is no demand: the group has no tasks. The least supply over {ticks(curves.end)} is {curves.lengths[-1].supply:,}."
    if story.miss:
        return (
            f"At length {mark.length:,} the demand is {mark.demand:,} and the least supply {mark.supply:,}, in the {ticks(mark.length)} from tick {story.miss.start:,} of a frame. "
            f"At every shorter length the demand is covered."
        )
    where = (
        f"within the cycle of {ticks(story.cycle)}" if curves.searched else f"up to length {curves.searched_to:,}, a part of the cycle of {ticks(story.cycle)}"
    )
    return (
        f"At no length is the demand above the least supply. Of the lengths at which the demand rises {where}, the margin is smallest at length {mark.length:,}: "
        f"demand {mark.demand:,}, least supply {mark.supply:,}, margin {mark.margin:,}."
    )


def _wrong_told(story):
    """What the wrong lesson sees at the marked length."""
    mark = story.curves.mark
    if mark is None:
        return ""
    if story.from_zero == mark.supply:
        return f"Counted from tick 0 as a wrong lesson did, the supply at length {mark.length:,} is the same, {story.from_zero:,}."
    lets_in = " It would see no miss at this length." if story.miss and story.from_zero >= mark.demand else ""
    return f"Counted from tick 0 as a wrong lesson did, {ticks(story.from_zero)} would seem to be supplied at length {mark.length:,}, and from the worst start it is {mark.supply:,}.{lets_in}"


def _rises_section(story):
    if not story.rows:
        return ""
    rows, mark = [], story.curves.mark
    for here in story.rows:
        if story.left_out != 0 and len(rows) == FIRST_ROWS:
            words = "more lengths are left out" if story.left_out is None else f"{story.left_out:,} more are left out"
            rows.append(element("tr", element("td", words, colspan=4, class_="words")))
        cells = (f"{number:,}".replace("-", "\u2212") for number in (here.length, here.demand, here.supply, here.margin))
        rows.append(_row(cells, here.length == mark.length))
    what = "it is above the least supply" if story.miss else "the margin is smallest" + ("" if story.curves.searched else " of the lengths that were looked at")
    caption = f"The lengths at which the demand rises, up to length {story.rows[-1].length:,}. At length {mark.length:,}, marked, {what}."
    return element("section", element("h2", "Where the demand rises"), _table(caption, ["length", "demand", "least supply", "margin"], rows))


def _plan_section(story):
    """The plan: a text as it was written, with the numbers of its lines; else the file's numbers as text. What a refusal is about is marked."""
    plan, refused = story.plan, story.refused or (None, None)
    if plan.text:
        line = sentences.blamed_line(plan, *refused)
        rows = [(f"{at:>3}  {row.expandtabs().rstrip()}", line is not None and line.at == at) for at, row in enumerate(plan.text.rows, 1)]
    elif plan.is_read():
        rows = [(line, (word, index) == sentences.blamed(plan, *refused)) for word, index, line in plan.lines()]
    else:
        return ""
    shown = [element("mark", escape(_printable(row))) if marked else escape(_printable(row)) for row, marked in rows]
    return element("section", element("h2", "The plan"), element("pre", "\n".join(shown)))
