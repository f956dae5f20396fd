"""Reads and writes by OpenCV, as a program of its own: read FILE OUT, after FILE, write W H IN OUT, version."""

import os
import re
import sys
import tempfile

import cv2
import numpy


def loaded(path):
    """The picture or None, and what OpenCV says on standard error."""
    with tempfile.TemporaryFile() as words:
        kept = os.dup(2)
        os.dup2(words.fileno(), 2)
        picture = cv2.imread(path, cv2.IMREAD_UNCHANGED)
        os.dup2(kept, 2)
        words.seek(0)
        said = words.read().decode(errors="replace")
    found = re.search(r"error: \(.*?\) (.*?) in function", said)
    return picture, found.group(1) if found else " ".join(said.split())


def read(path, out):
    picture, said = loaded(path)
    if picture is None:
        return "error None; " + (said or "no words")
    numpy.ascontiguousarray(picture[:, :, ::-1], "<f4").tofile(out)
    return f"ok {picture.shape[1]} {picture.shape[0]}"


def after(path):
    return "ok " + ("imread gives None" if loaded(path)[0] is None else "imread gives a picture")


def write(width, height, samples, out):
    frame = numpy.fromfile(samples, "<f4").reshape(int(height), int(width), 3)
    done = cv2.imwrite(out, numpy.ascontiguousarray(frame[:, :, ::-1]))
    return "ok" if done else "error imwrite gives False"


def version():
    return "ok OpenCV " + cv2.__version__


print({"read": read, "after": after, "write": write, "version": version}[sys.argv[1]](*sys.argv[2:]))
