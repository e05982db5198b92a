"""Sentences for people: what a line says, in words. Each number in them is the line's or the plan's own."""

from front import limits

MOST_LOST = 65_535  # ticks of a window (document 02, request 7)


def ticks(count):
    return "1 tick" if count == 1 else f"{count:,} ticks"


def counted(count, word):
    return f"{count} {word}" if count == 1 else f"{count} {word}s"


def are(count):
    return "is" if count == 1 else "are"


def whose(plan, before=" of"):
    """The asked owner, where one is asked for."""
    return "" if plan.owner is None else f"{before} owner {plan.owner}"


def loss(plan):
    """One sentence more where windows are not given whole."""
    if plan.lost == 0:
        return ""
    return " The first tick of every window is lost." if plan.lost == 1 else f" The first {plan.lost:,} ticks of every window are lost."


def stands_at(text, line, sentence):
    """A sentence about a line of a text, after the line's place; standard input has none to look at."""
    return sentence if text.name == "standard input" else f"{text.name}:{line.at}: {sentence}"


def verdict(plan, line):
    words = line.split()
    if words[0] == "MEETS":
        return f"Every deadline{whose(plan)} is met: at no length does the demand exceed the least supply. Table and tasks repeat after {ticks(int(words[2]))}."
    length, start, demand, supply = map(int, words[2::2])
    return (
        f"In the {ticks(length)} from tick {start:,} of a frame, {supply:,} {are(supply)} supplied{whose(plan, ' to')}. Jobs of every task{whose(plan)} released in full at that tick, "
        f"and each period after, need {demand:,} by the end.{loss(plan)}"
    )


def refusal(plan, number, place):
    """Why the plan's table or tasks are refused, and what else its bytes may be."""
    return _REFUSALS[number](plan, place) + other_form(plan, number)


def blamed(plan, number, place):
    """What of a plan a refusal is about: a word of its text and the index among those of that word; None where it is no one thing."""
    if number in (3, 12) and place != limits.WINDOWS:
        return "window", place
    if number == 13:
        _, rule, lost = plan.settings
        return ("rule" if rule not in (1, 2) or rule == 1 and lost <= MOST_LOST else "lose"), 0
    return {5: ("task", place), 2: ("frame", 0), 12: ("shortest", 0)}.get(number)


def blamed_line(plan, number, place):
    """The line of a text that a refusal is about, None where there is none."""
    word, index = blamed(plan, number, place) or ("", 0)
    lines = plan.own_tasks if word == "task" else plan.text.of(word)
    return lines[index] if lines else None


def _of_plan(plan, number, place, sentence):
    """A sentence about a window or a task, with its line where there is a text."""
    word, index = blamed(plan, number, place)
    if plan.text and plan.name != "-":
        return stands_at(plan.text, blamed_line(plan, number, place), f"{word} {index} {sentence}")
    return f"{word} {index} (counted from 0) {sentence}"


def _of_setting(plan, number, place, sentence):
    """A sentence about a number that stands once, with its line where there is a text that has it."""
    line = blamed_line(plan, number, place) if plan.text and plan.name != "-" else None
    return stands_at(plan.text, line, sentence) if line else sentence[0].upper() + sentence[1:]


def _windows(plan, _):
    """A list with as many windows as are legal is refused so only for the owner's sake. One that is not was not always read."""
    if plan.owner is not None and plan.is_read() and 1 <= len(plan.windows) <= limits.WINDOWS:
        return f"Owner {plan.owner} has no window here."
    return f"There are no windows, or more than {limits.WINDOWS}."


def _window(plan, index):
    if plan.owner is not None:
        rules = "starts before the end of the one before it, or touches it and has the same owner; or its owner is neither 0 nor 1."
    else:
        rules = "does not start after the end of the one before it; touching windows are written as one."
    return _of_plan(plan, 3, index, f"is empty, ends past the frame, or {rules}")


def _task(plan, index):
    of = "" if plan.owner is None else f"of owner {plan.owner} "
    return _of_plan(plan, 5, index, f"{of}has a number that is not 1 to 1,000,000, or a deadline past its period.")


def _sliver(plan, index):
    """At 64, which is no window's index, the shortest allowed window is out of its range."""
    shortest = plan.settings[0]
    if index != limits.WINDOWS:
        start, end, _ = plan.windows[index]
        return _of_plan(plan, 12, index, f"has {ticks(end - start)}, and no window here may have fewer than {shortest}.")
    if plan.text and plan.name != "-":
        return _of_setting(plan, 12, index, "the shortest allowed window is not 1 to 65,536 ticks.")
    return f"The shortest allowed window is {ticks(shortest)}, and not 1 to 65,536."


def _lost(plan, place):
    """Which of its four causes a refusal 13 has, the first where there are several."""
    _, rule, lost = plan.settings
    if rule not in (1, 2):
        cause = f"the board's rule is {rule}, and neither 1 nor 2."
    elif lost > MOST_LOST:
        cause = f"the board loses {lost} ticks of every window, and not 0 to {MOST_LOST:,}."
    elif rule == 1:
        cause = f"the board's rule is 1, which gives whole windows, and it comes with {ticks(lost)} lost of each."
    else:
        cause = f"the board loses {ticks(lost)} of every window, and no window{whose(plan)} is longer: no tick is left."
    return _of_setting(plan, 13, place, cause)


def damage(what, place, also):
    return f"The {what} is damaged: look at byte {place}, counted from 0; a number is cut short, too long or too large there, or is missing, or {also}."


_REFUSALS = {
    1: _windows,
    2: lambda plan, place: _of_setting(plan, 2, place, "the frame is not 1 to 65,536 ticks."),
    3: _window,
    4: lambda plan, _: f"There are more than {limits.TASKS} tasks.",
    5: _task,
    6: lambda plan, _: "The least common multiple of the frame and all periods is over 1,000,000.",
    9: lambda plan, place: damage("plan file", place, "a byte is left over"),
    12: _sliver,
    13: _lost,
}

_OTHER_FORMS = {
    "": "Or it begins with the shortest allowed window: then say --with-shortest; or with that, the rule and the lost ticks: then say --with-rule.",
    "with-shortest": "Or it does not begin with the shortest allowed window: then leave --with-shortest out; or it has the rule and the lost ticks after it: then say --with-rule.",
    "with-rule": "Or it does not begin with the shortest allowed window, the rule and the lost ticks: then leave --with-rule out, or say --with-shortest if it has the first of them.",
}


def other_form(plan, number):
    """A plan file does not say which form it has, and in another form its numbers may be a plan too; but an owner without a window has none in any form."""
    if plan.text or number == 1 and plan.owner is not None and plan.is_read():
        return ""
    if plan.looks_like_text:
        return "\nOr it is a text: then say --text."
    return "\n" + _OTHER_FORMS[plan.form]


def long_length(length):
    return f"A length is at most {ticks(limits.LENGTH)}, and not {length}."


def some(parts, most):
    """The first of some stretches in words, and how many more there are."""
    more = len(parts) - most
    return ", ".join(parts[:most]) + ("" if more <= 0 else " and 1 stretch more" if more == 1 else f" and {more} stretches more")
