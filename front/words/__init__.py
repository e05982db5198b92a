"""The words of the command: each is a module of this folder, and adding one adds the word, its help and its tests of help.

A word has
  TOPIC       where it stands in --help, one of TOPICS
  ARGUMENTS   what stands before the plan: LENGTH or TASK, a number; TRACE or JOBS, a file
  SUMMARY     its line in --help
  HELP        what `palikudyom WORD --help` says, with an example that tests/words runs
  answer(plan, ..)        its lines, each a query's, or an Answer with a page or a file
  tell(plan, lines, ..)   the sentence that goes with them
and, where they differ from the others',
  SEVERAL     False where it takes one plan
  TEXT        True where the plan is always a text, False where it is never one
  read(plan, file)   what its file has, in place of the file's name: a pipe can be read once
  refused(plan, number, place, ..)   the sentence of a refusal that is not the plan's, else None
"""

import importlib
import os

TOPICS = ("the verdict", "the table", "the tasks", "runs", "files")
NUMBERS = ("LENGTH", "TASK")
FILES = {"TRACE": "trace", "JOBS": "job list"}
NAMES = sorted(file[:-3] for file in os.listdir(os.path.dirname(__file__)) if file.endswith(".py") and file != "__init__.py")


def load(name):
    return importlib.import_module(f"front.words.{name}")


def several(word):
    return getattr(word, "SEVERAL", True)


def form(name):
    """The word with its arguments and what it reads."""
    word = load(name)
    return " ".join([name, *word.ARGUMENTS, operand(word)])


def operand(word):
    """What a word is asked about."""
    return ("TEXT" if getattr(word, "TEXT", False) else "PLAN") + (" .." if several(word) else "")


def ordered():
    """The words as --help has them: by topic."""
    return sorted(NAMES, key=lambda name: (TOPICS.index(load(name).TOPIC), name))
