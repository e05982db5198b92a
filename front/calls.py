"""What the command is called with: options, a word, its arguments, plans. And its help."""

import os

from front import words
from front.errors import Cannot
from front.numbers import MOST, written

OPTIONS = """\
  --text            the plan and the trace are texts: `palikudyom plan --help`
  --with-shortest, --with-rule    how the plan file begins: `.. text --help`
  --owner N         for owner N, its own windows and tasks; else for owner 0
  --quiet, -q       no sentence on standard error;   --  no more options, words
  --ask < STREAM    answers a stream of queries: docs/ASK.md
exit status: 0 answered, 1 a miss or a difference, 2 refused, 3 not asked"""

FLAGS = {"--help": "help", "-h": "help", "--quiet": "quiet", "-q": "quiet", "--text": "text", "--ask": "ask"}
FORM_OPTIONS = ("--with-shortest", "--with-rule")


class Call:
    """What the command was called with. Options may stand anywhere before `--`; the first other argument may be a word."""

    def __init__(self, arguments):
        self.word, self.operands, self.form, self.owner, self.flags = None, [], "", None, set()
        self.bare = None  # the first argument, where it is no word: a plan, or a misspelt one
        rest = list(arguments)
        while rest:
            argument = rest.pop(0)
            if argument == "--":
                self.operands += rest
                break
            if argument.startswith("-") and not argument[1:].isdigit() and argument != "-":
                self._option(argument, rest)
            elif self.word is None and not self.operands and argument in words.NAMES:
                self.word = argument
            else:
                self.bare = argument if self.word is None and not self.operands else self.bare
                self.operands.append(argument)

    def _option(self, argument, rest):
        name, equals, value = argument.partition("=")
        if argument in FLAGS:
            self.flags.add(FLAGS[argument])
        elif name == "--owner":
            self.owner = whole("--owner", value if equals else rest.pop(0) if rest else "")
        elif argument in FORM_OPTIONS:
            if self.form not in ("", argument[2:]):
                raise Cannot("a plan file has one form: --with-shortest or --with-rule")
            self.form = argument[2:]
        else:
            known = nearest(argument, [*FLAGS, *FORM_OPTIONS, "--owner"])
            raise Cannot(f"no option {argument}; " + (f"the nearest is {known}" if known else "see palikudyom --help"))


def whole(name, value):
    """An argument that is a number."""
    number = written(value)
    if number is None or number > MOST:
        raise Cannot(f"{name} takes a whole number up to {MOST}" + (f", not `{value}`" if value else ""))
    return number


def arguments_of(name, operands):
    """A word's arguments, and the plans after them."""
    word, values = words.load(name), []
    count = len(word.ARGUMENTS)
    for argument, value in zip(word.ARGUMENTS, operands):
        if argument in words.NUMBERS:
            value = whole(argument, value)
        elif value == "-":
            raise Cannot(f"the {words.FILES[argument]} is a file; standard input is for the plan")
        values.append(value)
    if len(values) < count:
        missing = word.ARGUMENTS[len(values)]
        raise Cannot(f"which {words.FILES.get(missing, missing.lower())}? {name} {' '.join(word.ARGUMENTS)} [PLAN]")
    return values, operands[count:] or ["-"]


def nearest(word, known):
    """The known word that a misspelt one is most like, None where none is like it."""
    import difflib

    return next(iter(difflib.get_close_matches(word, known, 1, 0.6)), None)


def check_spelling(argument):
    """A plan that is not there may be a misspelt word; a name with a dot or a slash is a file's."""
    if os.path.lexists(argument) or "." in argument or "/" in argument:
        return
    if argument.lower() == "help":
        raise Cannot("say palikudyom --help, or palikudyom WORD --help")
    word = nearest(argument.lower(), words.NAMES)
    if word:
        raise Cannot(f"{argument}: no such file, and no word; the nearest word is {word}")


def usage():
    lines = [f"  {words.form(word):<21} {words.load(word).SUMMARY}" for word in words.ordered()]
    return "\n".join(
        [
            "usage: palikudyom [OPTION ..] [WORD [ARGUMENT]] [PLAN ..]",
            "Does a group of tasks meet its deadlines on a table of time windows? PLAN is",
            "standard input if - or left out. `palikudyom WORD --help` shows an example.",
            *lines,
            OPTIONS,
        ]
    )


def word_usage(name):
    word = words.load(name)
    return f"usage: palikudyom [OPTION ..] {' '.join([name, *word.ARGUMENTS])} [{words.operand(word)}]\n{word.HELP.strip()}"
