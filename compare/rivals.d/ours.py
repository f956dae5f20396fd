"""Reads and writes by Doorwhisp's replay program: PROGRAM.. is in the environment as REPLAY. The first word is the reading, by the
line that asks for it: readd, by the document, or read, as zune-hdr reads. Then
read FILE OUT, after FILE OUT, write W H IN OUT, length W H IN."""

import os
import subprocess
import sys

import numpy

REPLAY = os.environ["REPLAY"].split()
READING = sys.argv[1]
HEADER = {"readd": "headd", "read": "head"}[READING]
LIMIT = 65535


def ask(line):
    done = subprocess.run(REPLAY, input=line.encode() + b"\n", stdout=subprocess.PIPE, check=True)
    return done.stdout.decode().split()


def sizes(data):
    """The header's answer alone, by the same reading, for the length of the output."""
    return ask(f"{HEADER} {LIMIT} {LIMIT} " + (data.hex() or "-"))


def called(path):
    with open(path, "rb") as file:
        data = file.read()
    head = sizes(data)
    if head[0] != "0":
        return head, None
    width, height = int(head[2]), int(head[3])
    long = height if head[7:] and head[7][1] == "X" else width  # of a stored row, which is a column where X is named first
    answer = ask(f"{READING} {LIMIT} {LIMIT} {3 * width * height} {4 * long} " + data.hex())
    return answer, numpy.frombuffer(bytes.fromhex(answer[5]), ">f4")


def refusal(answer):
    return f"error refusal {answer[0]}" + (f" in row {answer[1]}" if answer[0] in ("9", "14", "25") else "")


def read(path, out):
    answer, samples = called(path)
    if answer[0] != "0":
        return refusal(answer)
    samples.astype("<f4").tofile(out)
    return f"ok {answer[2]} {answer[3]}"


def after(path, out):
    """The output afterwards. What was lent is the replay program's pattern, i mod 251; it is shown as 7s where it still stands."""
    answer, samples = called(path)
    if samples is None:
        return refusal(answer)
    lent = (numpy.arange(len(samples)) % 251).astype("<f4")
    numpy.where(samples == lent, 7, samples).astype("<f4").tofile(out)
    return "ok" if answer[0] == "0" else refusal(answer)


def hexadecimal(samples):
    return numpy.fromfile(samples, "<f4").astype(">f4").tobytes().hex()


def length(width, height, samples):
    answer = ask(f"len {width} {height} " + hexadecimal(samples))
    return f"ok {answer[2]}" if answer[0] == "0" else refusal(answer)


def write(width, height, samples, out):
    told = length(width, height, samples).split()
    if told[0] != "ok":
        return " ".join(told)
    answer = ask(f"write {width} {height} {told[1]} " + hexadecimal(samples))
    assert answer[2] == told[1], "the length was told wrongly"
    with open(out, "wb") as file:
        file.write(bytes.fromhex(answer[3]))
    return "ok"


print({"read": read, "after": after, "write": write, "length": length}[sys.argv[2]](*sys.argv[3:]))
