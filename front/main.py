"""The command: a word's lines on standard output, sentences on standard error, an exit status."""

import os
import sys

from front import program, sentences, words
from front.answers import Answer
from front.calls import Call, arguments_of, check_spelling, usage, word_usage
from front.errors import BadLine, Cannot, CannotWrite, Refused
from front.plans import Plan
from front.progress import Progress

CANNOT = 3


def say(message):
    """A sentence for people. Where nobody can read it, the answer and its status stand all the same."""
    if sys.stderr is not None:
        try:
            os.write(sys.stderr.fileno(), f"{message}\n".encode("utf-8", "backslashreplace"))
        except OSError:
            pass


def write(data):
    """Writes to standard output, all of it: what can't be written is told, for then the answer was not given."""
    try:
        if sys.stdout is None:
            raise OSError(9, os.strerror(9))
        sys.stdout.buffer.write(data)
        sys.stdout.buffer.flush()
    except OSError as error:
        sys.stdout = None  # what is left in it can't be written either
        raise CannotWrite(f"standard output can't be written: {error.strerror}") from None


def answer(word, plan, arguments):
    """A word's answer about a plan; what is no plan is refused as the program refuses it."""
    try:
        given = word.answer(plan, *arguments)
    except Refused as refused:
        given = [refused.line]
    return given if isinstance(given, Answer) else Answer(given)


def told(word, plan, given, arguments):
    """The sentences that go with an answer."""
    if not given.refused:
        return word.tell(plan, given.lines, *arguments)
    own = word.refused(plan, *given.refused, *arguments) if hasattr(word, "refused") else None
    return own or sentences.refusal(plan, *given.refused)


def reads_text(call, word):
    """Whether the plan is a text: a word may always or never read one."""
    always = getattr(word, "TEXT", None)
    if always is False and "text" in call.flags:
        raise Cannot(f"`{call.word}` reads a plan file, and --text says that it is a text")
    is_text = bool(always) or "text" in call.flags
    if is_text and call.form:
        raise Cannot(f"--{call.form} is for a plan file; a text says `shortest TICKS` and `lose TICKS`")
    return is_text


def tell_about(call, word, name, arguments, is_text, progress=None):
    """Asks the word about one plan and gives the answer, after the plan's name where it is one of several, whose progress is shown; the exit status."""
    plan = Plan(name, is_text, call.form, call.owner)
    if hasattr(word, "read"):
        arguments = [word.read(plan, *arguments)]
    given = answer(word, plan, arguments)
    prefix = f"{name}: " if progress else ""
    output = given.output
    if output is None:
        output = "".join(f"{prefix}{line}\n" for line in given.lines).encode("utf-8", "surrogateescape")
    if progress:
        progress.clear()
    write(output)
    if "quiet" not in call.flags:
        for sentence in filter(None, told(word, plan, given, arguments).split("\n")):
            say(sentence if sentence.startswith(f"{name}:") else prefix + sentence)
    return given.status


def failed(error, prefix=""):
    """Says why something could not be asked. A bad line of a text begins with its place."""
    say(str(error) if isinstance(error, BadLine) else f"palikudyom: {prefix}{error}")
    return CANNOT


def over_plans(call, word, arguments, names):
    """Asks about each plan; the worst status."""
    is_text = reads_text(call, word)
    if len(names) == 1:
        return tell_about(call, word, names[0], arguments, is_text)
    worst = 0
    with Progress(len(names), "plans done:") as progress:
        for done, name in enumerate(names):
            progress.done = done
            progress.show_done()
            try:
                worst = max(worst, tell_about(call, word, name, arguments, is_text, progress))
            except CannotWrite:
                raise
            except Cannot as error:
                progress.clear()
                worst = failed(error, "" if str(error).startswith(name) else f"{name}: ")
    return worst


def answer_stream(call):
    """`--ask`: the program's own lines. It says something only where the stream can't be read."""
    if call.word or "text" in call.flags or call.operands not in ([], ["-"]):
        raise Cannot("--ask reads standard input")
    if call.owner is not None or call.form:
        raise Cannot("--ask takes no owner and no plan: a query has its own")
    lines, message = program.pass_stream()
    write(lines)
    if message:
        raise Cannot(message)
    return 0


def perform(arguments):
    call = Call(arguments)
    if call.bare:
        check_spelling(call.bare)
    if "help" in call.flags:
        write(((word_usage(call.word) if call.word else usage()) + "\n").encode())
        return 0
    if "ask" in call.flags:
        return answer_stream(call)
    if not arguments and sys.stdin is not None and sys.stdin.isatty():
        raise Cannot(f"which plan?\n{usage()}")
    if call.word is None and len(call.operands) > 1:
        raise Cannot("one plan at a time; `palikudyom check` takes several")
    word = words.load(call.word or "check")
    values, names = arguments_of(call.word or "check", call.operands)
    if len(names) > 1 and not words.several(word):
        raise Cannot("one plan at a time")
    if names.count("-") > 1:
        raise Cannot("standard input can be read once")
    return over_plans(call, word, values, names)


def main(arguments):
    try:
        return perform(arguments)
    except Cannot as error:
        return failed(error)
    except KeyboardInterrupt:
        return CANNOT
