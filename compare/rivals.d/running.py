"""One run of one program, as a process of its own with a time limit."""

import os
import signal
import subprocess

import numpy

LIMIT = 10  # seconds
FILLS = (1, 170)  # what fresh memory is filled with in the first and the second run


class Run:
    """What a program did: `how` is ok, error, crash or late."""

    def __init__(self, how, words=""):
        self.how, self.words = how, words


def run(program, *words, fill=FILLS[0], **settings):
    environment = dict(os.environ, MALLOC_PERTURB_=str(fill), FILL=str(fill), **settings)
    process = subprocess.Popen([*program, *map(str, words)], stdout=subprocess.PIPE, stderr=subprocess.PIPE, env=environment, start_new_session=True)
    try:
        said, complaint = (text.decode(errors="replace") for text in process.communicate(timeout=LIMIT))
    except subprocess.TimeoutExpired:
        os.killpg(process.pid, signal.SIGKILL)
        process.communicate()
        return Run("late", f"no end within {LIMIT} s")
    if process.returncode < 0:
        return Run("crash", signal.Signals(-process.returncode).name)
    how, _, rest = said.strip().partition(" ")
    if process.returncode != 0 or how not in ("ok", "error"):
        return Run("crash", " ".join((said + " " + complaint).split())[:200])
    return Run(how, " ".join(rest.split()))


def read(program, path, out):
    """A reading, made twice with different fills: samples that differ between the two were never set."""
    first = run(program, "read", path, out)
    if first.how != "ok":
        return first
    width, height, *more = first.words.split(" ", 3)
    first.width, first.height = int(width), int(height)
    first.turn = int(more[0]) if more else 1
    first.warning = len(more) > 1
    first.samples = numpy.fromfile(out, "<f4")
    first.turned = None
    if first.turn != 1:
        sizes = run(program, "turned", path, out).words.split()
        first.turned = int(sizes[0]), int(sizes[1]), numpy.fromfile(out, "<f4")
    again = run(program, "read", path, out, fill=FILLS[1])
    first.unset = numpy.zeros(len(first.samples), bool)
    if again.how == "ok":
        first.unset = first.samples.view("<u4") != numpy.fromfile(out, "<f4").view("<u4")
    return first
