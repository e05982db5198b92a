"""The pictures of a page: the windows over a frame, a run in lanes, both curves. Each is given as the picture, the key to its shapes, and notes on what is not drawn."""

import math

from front.drawing import Scale, box, element, hatch, line, marks, path, picture, text, ticks_axis

WIDTH = 960  # of a picture, in its own units
LEFT, RIGHT = 116, 48  # room for labels beside it
COLUMNS = WIDTH - LEFT - RIGHT
LANE = 30
SMALL = 6.2  # the width of a character of the small labels, at most
BESIDE = 12  # points from a release to the next that leave room for arrows
PALEST = 0.4  # of a column in which any tick counts
NAMED = 64  # points of a frame that leave room for its name


def frame(story, described):
    """The windows over one frame."""
    scale = Scale(0, story.plan.frame, LEFT, WIDTH - RIGHT)
    parts = [
        hatch("lost-frame", "hatched-given"),
        text(LEFT - 8, 31, "supplied", anchor="end"),
        _supply_lane(story, scale, 12, 30, "lost-frame"),
        ticks_axis(scale, 44),
    ]
    return picture("frame", WIDTH, 72, "The windows over one frame", described, *parts), _supply_key(story, "lost-frame"), []


def _shaded(stretches, scale, y, height, kind, **more):
    """Stretches of ticks, each (first, end, how many of its ticks count). Where a tick has a point or more they are boxes, touching ones as one; where it is thinner,
    each column of the picture is the paler the smaller the share of its ticks that count."""
    if scale.unit >= 1:
        parts = [(first, end, 1.0) for first, end in _joined(filter(None, (scale.clipped(first, end) for first, end, _ in stretches)))]
    else:
        parts = _columns(stretches, scale)
    return "".join(
        box(scale.at(first), y, (end - first) * scale.unit, height, kind, opacity=None if share >= 1 else max(PALEST, share), **more)
        for first, end, share in parts
    )


def _joined(stretches):
    """Stretches in order, those that touch as one."""
    joined = []
    for first, end in sorted(stretches):
        if joined and first <= joined[-1][1]:
            first = joined.pop()[0]
        joined.append((first, end))
    return joined


def _columns(stretches, scale):
    """The columns in which ticks count, each with their share in eighths; neighbours with one share as one. A stretch's ticks are taken to lie evenly in it."""
    width = 1 / scale.unit
    counted = [0.0] * (COLUMNS + 1)
    for first, end, given in stretches:
        shown = scale.clipped(first, end)
        if shown:
            low, high = ((edge - scale.first) / width for edge in shown)
            for column in range(int(low), min(math.ceil(high), COLUMNS)):
                counted[column] += (min(high, column + 1) - max(low, column)) * given / (end - first)
    parts = []
    for column, amount in enumerate(counted[:COLUMNS]):
        share = max(1, round(8 * amount)) / 8 if amount > 0 else 0
        if parts and parts[-1][2] == share and parts[-1][1] == column:
            parts.append((parts.pop()[0], column + 1, share))
        elif share:
            parts.append((column, column + 1, share))
    return [(scale.first + first * width, scale.first + end * width, share) for first, end, share in parts]


def _supply_lane(story, scale, y, height, pattern):
    """The windows over a stretch of ticks: what is supplied, what is lost and what is another team's."""
    frame_ticks = story.plan.frame
    windows = {"other": [(start, end) for start, end, owner in story.plan.windows if owner != (story.plan.owner or 0)], "lost": [], "given": story.stretches}
    windows["lost"] = [(start, end if first is None else first) for start, first, end in story.left if first != start]
    lane = box(scale.start, y, scale.at(scale.last) - scale.start, height, "unsupplied")
    for kind, some in windows.items():
        if frame_ticks * scale.unit < 1:  # frames that are thinner than a column
            stretches = [(scale.first, scale.last, (scale.last - scale.first) * sum(end - first for first, end in some) / frame_ticks)] if some else []
        else:
            frames = range(scale.first // frame_ticks * frame_ticks, scale.last, frame_ticks)
            stretches = [(at + first, at + end, end - first) for at in frames for first, end in some]
        lane += _shaded(stretches, scale, y, height, kind, **({"fill": f"url(#{pattern})"} if kind == "lost" else {}))
    return lane


def _supply_key(story, pattern):
    entries = [(box(1, 2, 26, 10, "given"), "supplied")]
    if any(first != start for start, first, _ in story.left):
        entries.append((box(1, 2, 26, 10, "lost", fill=f"url(#{pattern})"), "lost at the window's start"))
    if any(owner != (story.plan.owner or 0) for _, _, owner in story.plan.windows):
        entries.append((box(1, 2, 26, 10, "other"), "another owner's window"))
    return [*entries, (box(1, 2, 26, 10, "unsupplied"), "not supplied")]


def run(story, view, name, title, described):
    """The windows, and a lane for each task, as far as a view of the run goes."""
    miss, plan = story.miss, story.plan
    scale = Scale(view.first, view.end, LEFT, WIDTH - RIGHT)
    top, lanes = 24, 58
    bottom = lanes + LANE * len(plan.group)
    parts = [
        hatch(f"lost-{name}", "hatched-given"),
        hatch(f"late-{name}", "hatched-needed"),
        text(LEFT - 8, top + 19, "supplied", anchor="end"),
        _supply_lane(story, scale, top, 28, f"lost-{name}"),
        _frame_borders(story, scale, top, bottom),
    ]
    numbers = [" · ".join(f"{number:,}" for number in task) for task in plan.group]
    numbered = max(map(len, numbers)) * SMALL <= LEFT - 12
    close = [task for task, (_, period, _) in enumerate(plan.group) if period * scale.unit < BESIDE]
    for task in range(len(plan.group)):
        y = lanes + LANE * task
        parts.append(text(LEFT - 8, y + 14, f"task {task}", anchor="end"))
        parts.append(text(LEFT - 8, y + 25, numbers[task], "soft", "end") if numbered else "")
        parts.append(line(LEFT, y + LANE - 6, WIDTH - RIGHT, y + LANE - 6, "grid"))
        parts.append(_lane(view, [job for job in view.jobs if job.task == task], miss.late, scale, y, f"late-{name}"))
        parts += [] if task in close else [_arrows(job, scale, y) for job in miss.jobs if job.task == task]
    if miss.late:
        parts.append(text(WIDTH - RIGHT + 8, lanes + LANE * miss.late.task + 19, "late", "warn"))
    parts.append(ticks_axis(scale, bottom))
    notes = [
        "Beside each task stand its work, period and deadline." if numbered else "",
        "" if view.exact else f"Gaps of fewer than {view.finest:,} ticks were not looked for; the more of them there are, the paler is what is drawn.",
        f"Of {'task' if len(close) == 1 else 'tasks'} {', '.join(map(str, close))} releases and deadlines are too close together to draw." if close else "",
    ]
    return picture(name, WIDTH, bottom + 26, title, described, *parts), _run_key(miss, f"late-{name}"), notes


def _run_key(miss, pattern):
    return [
        (path("M14,13 V2 m-3,5 l3,-5 l3,5", "release"), "released"),
        (path("M14,1 V12 m-3,-5 l3,5 l3,-5 z", "due"), "due"),
        (line(1, 7, 27, 7, "pending"), "waits or works"),
        (box(1, 2, 26, 10, "work"), "is given the tick"),
        *([(box(1, 1, 26, 10, "late-work", fill=f"url(#{pattern})") + line(1, 13, 27, 13, "late-pending"), "the late job")] if miss.late else []),
    ]


def _frame_borders(story, scale, top, bottom):
    """Where a frame ends and the next begins, with names where there is room."""
    frame_ticks, parts = story.plan.frame, []
    if frame_ticks * scale.unit < 5:
        return ""
    for at in range(scale.first // frame_ticks * frame_ticks, scale.last + 1, frame_ticks):
        if scale.first <= at:
            parts.append(line(scale.at(at), top, scale.at(at), bottom, "frame" if frame_ticks * scale.unit >= NAMED else "grid"))
        shown = scale.clipped(at, at + frame_ticks)
        if shown and (shown[1] - shown[0]) * scale.unit >= NAMED:
            parts.append(text(scale.at(sum(shown) / 2), top - 4, f"frame {at // frame_ticks}", "soft", "middle"))
    return "".join(parts)


def _lane(view, jobs, late, scale, y, pattern):
    """A task's jobs: while each is pending, and the ticks it was given; those of the late job are taller and hatched."""
    base, parts = y + LANE - 6, []
    for job in jobs:
        pending = scale.clipped(job.release, job.finished or scale.last)
        if pending:
            parts.append(line(scale.at(pending[0]), base, scale.at(pending[1]), base, "late-pending" if job is late else "pending"))
    others = [view.stretches[job] for job in jobs if job is not late]
    for stretches in others if scale.unit >= 1 else [sum(others, [])]:
        parts.append(_shaded(stretches, scale, y + 9, LANE - 15, "work"))
    if late in jobs:
        parts.append(_shaded(view.stretches[late], scale, y + 3, LANE - 9, "late-work", fill=f"url(#{pattern})"))
    return "".join(parts)


def _arrows(job, scale, y):
    """A job's release, beside the deadline of the job before it, and its deadline."""
    base, parts = y + LANE - 6, []
    if job.release >= scale.first:
        parts.append(path(f"M{scale.at(job.release) + 2.5:.2f},{base} V{y + 3} m-3,5 l3,-5 l3,5", "release"))
    if scale.first < job.deadline <= scale.last:
        parts.append(path(f"M{scale.at(job.deadline) - 2.5:.2f},{y + 3} V{base} m-3,-5 l3,5 l3,-5 z", "due"))
    return "".join(parts)


def curves(story, shown, name, title, described):
    """Least supply and demand over the lengths shown, and the wrong lesson's curve. Closer, amounts below the least supply shown are cut off."""
    first, last, tall = shown[0].length, shown[-1].length + 1, 380
    amounts = [amount for here in shown for amount in (here.supply, here.demand, story.counted_from_zero(here.length))]
    least = 0 if first == 0 else min(here.supply for here in shown)
    scale = Scale(first, last, LEFT, WIDTH - RIGHT)
    height = Scale(least, max(least + 1, *amounts), tall, 40)
    wrong = _wrong_steps(story, shown, scale, height)
    pattern = f"short-{name}"
    parts = [
        hatch(pattern, "hatched-needed"),
        _curve_axes(scale, height, tall),
        element("clipPath", box(LEFT, 30, COLUMNS, tall - 26, "clip"), id=f"clip-{name}"),
        element(
            "g",
            _short_of(shown, scale, height, pattern),
            path(_steps([(here.length, here.supply) for here in shown], scale, height), "supply-curve"),
            path(_steps([(here.length, here.demand) for here in shown], scale, height), "demand-curve"),
            path(wrong, "wrong-curve") if wrong else "",
            clip_path=f"url(#clip-{name})",
        ),
        _mark(story, scale, tall) if story.curves.mark else "",
    ]
    key = [
        (line(1, 7, 27, 7, "supply-curve"), "least supply, from the worst start"),
        (line(1, 7, 27, 7, "demand-curve"), "demand"),
        *([(line(1, 7, 27, 7, "wrong-curve"), "the wrong lesson: supply counted from tick 0")] if wrong else []),
        *([(box(1, 1, 26, 12, "short", fill=f"url(#{pattern})"), "demand above supply")] if story.miss else []),
    ]
    notes = [] if len(shown) == last - first else [f"The curves are drawn at {len(shown):,} of the {last - first:,} lengths."]
    return picture(name, WIDTH, tall + 40, title, described, *parts), key, notes


def _curve_axes(scale, height, tall):
    parts = []
    for amount in marks(height.first, height.last, -height.unit, 24):
        parts.append(line(LEFT, height.at(amount), WIDTH - RIGHT, height.at(amount), "grid"))
        parts.append(text(LEFT - 8, height.at(amount) + 4, f"{amount:,}", anchor="end"))
    for length in marks(scale.first, scale.last - 1, scale.unit):
        parts.append(line(scale.at(length), tall, scale.at(length), tall + 4, "axis"))
        parts.append(text(scale.at(length), tall + 17, f"{length:,}", anchor="middle"))
    parts.append(text((LEFT + WIDTH - RIGHT) / 2, tall + 34, "length in ticks", "soft", "middle"))
    return "".join(parts)


def _with_ends(shown, scale):
    """Each length with the one up to which its amounts hold."""
    return zip(shown, [*(after.length for after in shown[1:]), scale.last])


def _steps(points, scale, height):
    """A step curve: each amount holds from its length to the next."""
    commands, before = [], None
    for length, amount in points:
        if before is None:
            commands.append(f"M{scale.at(length):.2f},{height.at(amount):.2f}")
        else:
            commands.append(f"H{scale.at(length):.2f}" + (f" V{height.at(amount):.2f}" if amount != before else ""))
        before = amount
    return " ".join([*commands, f"H{scale.at(scale.last):.2f}"])


def _wrong_steps(story, shown, scale, height):
    """The curve of the wrong lesson, where it differs from the least supply."""
    commands, drawing, before = [], False, story.counted_from_zero(shown[0].length)
    for here, end in _with_ends(shown, scale):
        amount = story.counted_from_zero(here.length)
        if amount != here.supply:
            commands += [] if drawing else [f"M{scale.at(here.length):.2f},{height.at(before):.2f}"]
            commands.append(f"V{height.at(amount):.2f} H{scale.at(end):.2f}")
        drawing, before = amount != here.supply, amount
    return " ".join(commands)


def _short_of(shown, scale, height, pattern):
    """Where the demand is above the least supply, as one shape: a hatched shape of each length would make a printed page large."""
    commands = [
        f"M{scale.at(here.length):.2f},{height.at(here.demand):.2f} H{scale.at(end):.2f} V{height.at(here.supply):.2f} H{scale.at(here.length):.2f} z"
        for here, end in _with_ends(shown, scale)
        if here.demand > here.supply
    ]
    return element("path", d=" ".join(commands), class_="short", fill=f"url(#{pattern})") if commands else ""


def _mark(story, scale, tall):
    """The marked length: a line, and what is there."""
    mark = story.curves.mark
    x = scale.at(mark.length)
    words = f"length {mark.length:,}: demand {mark.demand:,}, least supply {mark.supply:,}"
    half = len(words) * 3.9
    middle = min(max(x, LEFT + half), WIDTH - RIGHT - half)
    return line(x, 26, x, tall, "marked-length" if story.miss else "tight") + text(middle, 18, words, "warn" if story.miss else "strong", "middle")
