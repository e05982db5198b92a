"""The proved program: proved and built once, and asked. Every answer that the command gives comes from here."""

import os
import platform
import shutil
import subprocess
import sys
import time

from front.errors import Cannot
from front.numbers import encode
from front.progress import Progress

TOP = os.path.dirname(os.path.dirname(os.path.realpath(__file__)))
INSTALLED = os.path.join(TOP, "program")
BUILT = os.path.join(TOP, "target", "bin", "palikudyom")
STREAM = 65_536  # the bytes of a stream that the program uses: docs/ASK.md
ROOM = 131_072  # the bytes that it has room for of a trace and the numbers before it

_command = []


def _newer_than(program):
    """Whether a file that the program is made of is newer than it."""
    built = os.stat(program).st_mtime
    places = [os.path.join(TOP, "crates.txt")]
    for at, folders, names in os.walk(os.path.join(TOP, "crates")):
        folders[:] = [folder for folder in folders if folder != "out"]  # the kit's, made of the others
        places += [os.path.join(at, name) for name in names]
    return any(os.path.isfile(place) and os.stat(place).st_mtime > built for place in places)


def _build():
    """Proves and builds the program. An installed command has it beside itself."""
    if os.path.exists(INSTALLED):
        return INSTALLED
    if os.access(BUILT, os.X_OK) and not _newer_than(BUILT):
        return BUILT
    if not shutil.which("rt"):
        raise Cannot("the Rattle kit's rt is not on the path, and the program is not built")
    log = os.path.join(TOP, "target", "palikudyom.log")
    os.makedirs(os.path.dirname(log), exist_ok=True)
    started = time.monotonic()
    with open(log, "wb") as out, Progress() as progress:
        build = subprocess.Popen([os.path.join(TOP, "tools", "build"), "program"], stdin=subprocess.DEVNULL, stdout=out, stderr=out)
        while build.poll() is None:
            progress.show(f"proving and building the program, once, some minutes: {time.monotonic() - started:.0f} s")
            time.sleep(0.2)
    if build.returncode != 0:
        raise Cannot(f"it could not be built: see {log}")
    return BUILT


def _loader():
    """What runs an x86-64 program here: the kit's loader as tools/loader names it, or, where there is no kit, the machine itself."""
    if platform.machine() != "x86_64":
        raise Cannot("the program is for x86-64, and this processor is not")
    try:
        words = subprocess.run([os.path.join(TOP, "tools", "loader")], stdout=subprocess.PIPE, stderr=subprocess.DEVNULL, check=True, text=True)
    except (OSError, subprocess.CalledProcessError):
        return []
    return words.stdout.split("\n")[:-1]


def _start(arguments, **streams):
    """Runs the program to its end, proved and built before if need be."""
    if not _command:
        program = _build()
        _command.extend([*_loader(), program])
    try:
        done = subprocess.run([*_command, *arguments], stdout=subprocess.PIPE, stderr=subprocess.PIPE, **streams)
    except OSError as error:
        raise Cannot(f"the program can't be run: {error.strerror}") from None
    if done.returncode != 0:  # a proved program always ends with 0: it was not started, or was ended
        raise Cannot(f"the program can't be run: {done.stderr.decode().strip() or f'status {done.returncode}'}")
    return done


def _lines(done):
    return done.stdout.decode().split("\n")[:-1]


def ask(queries, progress=None):
    """The lines that answer queries, each a list of numbers, in as few streams as hold them."""
    lines = []
    for stream, count in _streams(queries):
        answered = _lines(_start(["--ask"], input=stream))
        if len(answered) != count or answered[-1].startswith("BAD QUERY"):
            raise Cannot("the program was asked what it can't be asked")
        lines += answered
        if progress:
            progress.step(count)
    return lines


def _streams(queries):
    """The streams that hold queries, each with how many it has."""
    stream, count = b"", 0
    for data in map(encode, queries):
        if count and len(stream) + len(data) > STREAM:
            yield stream, count
            stream, count = b"", 0
        stream, count = stream + data, count + 1
    if count:
        yield stream, count


def pass_stream():
    """What the program prints of the stream that is the command's own input, and why it could not be read, if it couldn't."""
    if sys.stdin is None:
        raise Cannot("standard input can't be read")
    done = _start(["--ask"])
    return done.stdout, done.stderr.decode().strip()


def replay(settings, numbers, trace):
    """The line of a trace's bytes after the numbers of its plan, with the board's settings first if it has any; None where there is no room for all of it."""
    lines = _lines(_start(["--replay-on" if settings else "--replay"], input=encode([*settings, *numbers]) + trace))
    return lines[0] if lines else None
