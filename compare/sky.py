"""Holds the program sky to answers of its own: compare/sky runs it. Only Python's own library is used.

The reader, the row coder and the light below follow docs/RULES.md, and share no code with the crates.
"""
import glob
import os
import random
import re
import shutil
import signal
import socket
import stat
import subprocess
import sys
import time
from fractions import Fraction

SKY, FOLDER = sys.argv[1], sys.argv[2]
TOP = os.path.dirname(SKY)
PART = 1 << 20
failures = []
checked = 0


# ---- RULES 4: rows read, by the document or as the crate zune-hdr reads them

DOCUMENT, CRATE = (), ("--crate",)


class Fault(Exception):
    """A row at fault: the number of the refusal."""


def channel(reading, src, at, store, first, width):
    done = 0
    while done < width:
        if at >= len(src):
            raise Fault(9)
        count = src[at]
        at += 1
        n = count - 128 if count > 128 else count
        if n > width - done:
            if reading == DOCUMENT:
                raise Fault(14)
            n = width - done
        wanted = 1 if count > 128 else n
        values = src[at : at + wanted]
        if len(values) < wanted and reading == DOCUMENT:
            raise Fault(9)
        at += len(values)
        values = values.ljust(wanted, b"\0")
        store[first + 4 * done : first + 4 * (done + n) : 4] = values * n if count > 128 else values
        done += n
    return at


def flat(reading, src, at, store, place, wanted):
    repeats = 0
    while wanted:
        four = src[at : at + 4]
        if len(four) < 4:
            raise Fault(9)
        n = 1
        if four[:3] == b"\1\1\1":
            if reading == CRATE:
                raise Fault(25)
            n = four[3] * 256**repeats
            if place == 0 or n > wanted:
                raise Fault(14)
            four = store[place - 4 : place]
            repeats += 1
        else:
            repeats = 0
        store[place : place + 4 * n] = four * n
        place += 4 * n
        wanted -= n
        at += 4
    return at


def read_row(reading, src, at, store, width):
    if width < 8 or width > 32767:
        return flat(reading, src, at, store, 0, width)
    if at >= len(src):
        raise Fault(9)
    if src[at] != 2:
        return flat(reading, src, at, store, 0, width)
    four = src[at : at + 4]
    if len(four) < 4:
        raise Fault(9)
    if four[1] != 2 or four[2] >= 128:
        store[0:4] = four
        return flat(reading, src, at + 4, store, 4, width - 1)
    if reading == DOCUMENT and 256 * four[2] + four[3] != width:
        raise Fault(14)
    at += 4
    for first in range(4):
        at = channel(reading, src, at, store, first, width)
    return at


# ---- RULES 5: rows written


def runs_of(values):
    runs = []
    for v in values:
        if runs and runs[-1][0] == v and runs[-1][1] < 127:
            runs[-1][1] += 1
        else:
            runs.append([v, 1])
    return runs


def stretch(gathered):
    if len(gathered) == 1 and gathered[0][1] >= 2:
        return bytes([128 + gathered[0][1], gathered[0][0]])
    values = b"".join(bytes([v]) * n for v, n in gathered)
    return b"".join(bytes([len(values[i : i + 128])]) + values[i : i + 128] for i in range(0, len(values), 128))


def code(values):
    out, gathered = b"", []
    for v, n in runs_of(values):
        if n >= 4:
            out += stretch(gathered) + bytes([128 + n, v])
            gathered = []
        else:
            gathered.append((v, n))
    return out + stretch(gathered)


def write_row(store, width):
    if width < 8 or width > 32767:
        return bytes(store[: 4 * width])
    return bytes([2, 2, width // 256, width % 256]) + b"".join(code(store[c : 4 * width : 4]) for c in range(4))


def sizes(axes, width, height):
    """The line of sizes, with these axes."""
    return b"%s %d %s %d\n" % (axes[:2], width if axes[1:2] == b"X" else height, axes[2:], height if axes[1:2] == b"X" else width)


def header(width, height, axes=b"-Y+X"):
    return b"#?RADIANCE\nSOFTWARE=zune-hdr\nFORMAT=32-bit_rle_rgbe\n\n" + sizes(axes, width, height)


def worst(long, count):
    """The most bytes that rows take."""
    return count * (4 * long if long < 8 or long > 32767 else 4 + 4 * (long + (long + 127) // 128))


# ---- RULES 3: what the lines of a header state, by the document; with --crate nothing


def nearest(x):
    """The f32 that is nearest to a number above 0, the even one of two; 0 where it is infinite."""
    power = 0
    while x >= 2 ** (power + 1):
        power += 1
    while x < Fraction(2) ** power and power > -126:
        power -= 1
    unit = Fraction(2) ** (power - 23)
    near = round(x / unit) * unit
    return near if near < 2**128 else Fraction(0)


def factor(text):
    """An exposure: 1 to 7 digits, a point or none, a power of ten or none; 0 where it cannot be read."""
    found = re.fullmatch(rb"([0-9]*)(?:\.([0-9]*))?(?:[eE]([+-]?[0-9]{1,2}))?", text)
    if not found:
        return Fraction(0)
    whole, part, power = found[1], found[2] or b"", int(found[3] or 0) - len(found[2] or b"")
    if not 1 <= len(whole + part) <= 7 or not -10 <= power <= 10 or int(whole + part) == 0:
        return Fraction(0)
    return nearest(int(whole + part) * Fraction(10) ** power)


def stated(reading, head):
    """The kind of colour and the exposure, each none where it is not stated. A line at fault is a Fault with its number, its place and the line."""
    colour, exposure = None, None
    for place, line in enumerate(head.split(b"\n")[1:], 2) if reading == DOCUMENT else ():
        if line == b"":
            break
        rest = line.partition(b"=")[2].strip(b"\t\n\v\f\r ")
        if line.startswith(b"FORMAT="):
            colour = {b"32-bit_rle_rgbe": "rgbe", b"32-bit_rle_xyze": "xyze"}.get(rest)
            if colour is None:
                raise Fault(15, place, line)
        if line.startswith(b"EXPOSURE="):
            x = factor(rest)
            exposure = x if exposure is None or x == 0 else nearest(exposure * x)
            if exposure == 0:
                raise Fault(16, place, line)
    return colour, exposure


EIGHT = {  # the orientations of the document: the first axis named runs from row to row, the second along a row
    b"-Y+X": "-Y +X: rows from the top, pixels from the left",
    b"-Y-X": "-Y -X: rows from the top, pixels from the right",
    b"+Y+X": "+Y +X: rows from the bottom, pixels from the left",
    b"+Y-X": "+Y -X: rows from the bottom, pixels from the right",
    b"+X-Y": "+X -Y: columns from the left, pixels from the top",
    b"-X-Y": "-X -Y: columns from the right, pixels from the top",
    b"+X+Y": "+X +Y: columns from the left, pixels from the bottom",
    b"-X+Y": "-X +Y: columns from the right, pixels from the bottom",
}


def axes_of(head):
    fields = head.split(b"\n\n", 1)[1].split(b" ")
    return fields[0] + fields[2]


def stored(reading, head, width, height):
    """How many pixels a stored row has, and how many stored rows there are. The crate has two orientations, and reads both alike."""
    axes = axes_of(head)
    if axes not in (EIGHT if reading == DOCUMENT else (b"-Y+X", b"+X-Y")):
        raise Fault(2)
    return (height, width) if reading == DOCUMENT and axes[1:2] == b"X" else (width, height)


def turned(reading, head):
    """The orientation, as `info` says it."""
    return EIGHT[axes_of(head)] if reading == DOCUMENT else "not told with --crate: rows are read from the top, pixels from the left"


# ---- Light, as a reading shows it


def light(reading, four):
    """A number and a power of two: 2m + 1 half steps by the document, m steps by the crate. The number of a black pixel is 0."""
    m, e = max(four[:3]), four[3]
    if e == 0:
        return (0, 0)
    if reading == DOCUMENT:
        return (2 * m + 1, e - 137)
    d = e - 128
    return (m, (d % 32 if d > 0 else -((-d) % 32)) - 8)


def value(lit):
    return lit[0] * Fraction(2) ** lit[1]


def decimal(lit):
    """Exactly where the power of two is from -40 to 55, else the first nine digits, the rest cut off, and a power of ten."""
    return exactly(value(lit)) if -40 <= lit[1] <= 55 else nine(value(lit))


def number(x):
    """An exposure: exactly where it has at most 40 decimals and is below 2^64, else as light."""
    return exactly(x) if x.denominator <= 2**40 and x < 2**64 else nine(x)


def nine(x):
    power = 0
    while x >= 10:
        x, power = x / 10, power + 1
    while x < 1:
        x, power = x * 10, power - 1
    text = str(int(x * 10**8))
    return "%s.%se%d" % (text[0], text[1:], power)


def exactly(x):
    digits = x.denominator.bit_length() - 1
    text = str(x.numerator * 10**digits // x.denominator).rjust(digits + 1, "0")
    return text if digits == 0 else text[:-digits] + "." + text[-digits:]


class Survey:
    """What is asked of the pixels of a file; `times` rows may be alike."""

    def __init__(self, reading):
        self.reading = reading
        self.black = self.outside = self.length = 0
        self.darkest = self.brightest = None

    def row(self, store, width, times=1):
        for q in (bytes(store[i : i + 4]) for i in range(0, 4 * width, 4)):
            lit = light(self.reading, q)
            if lit[0] == 0:
                self.black += times
                continue
            if not 97 <= q[3] <= 159:
                self.outside += times
            if self.darkest is None or value(lit) < value(self.darkest):
                self.darkest = lit
            if self.brightest is None or value(lit) > value(self.brightest):
                self.brightest = lit
        self.length += times * len(write_row(store, width))


def say_light(label, lit, height):
    none = "none, every pixel is black" if height else "none, there is no pixel"
    text = none if lit is None else "%s = %d x 2^%d" % (decimal(lit), lit[0], lit[1])
    return "  %-17s%s" % (label, text)


def say_stated(reading, head):
    """The lines of what a header states."""
    colour, exposure = stated(reading, head)
    unstated = "not stated" + (": %s lines are passed over with --crate" if reading == CRATE else "%.0s")
    return [
        "  colour           " + (colour or unstated % "FORMAT"),
        "  exposure         " + (unstated % "EXPOSURE" if exposure is None else number(exposure)),
    ]


def told(name, head, width, height, taken, after, survey):
    """The lines of `info` for a file that is whole."""
    return [
        name,
        "  width            %d" % width,
        "  height           %d" % height,
        "  orientation      " + turned(survey.reading, head),
        *say_stated(survey.reading, head),
        "  bytes taken      %d" % taken,
        "  bytes after      %d" % after,
        say_light("darkest pixel", survey.darkest, height),
        say_light("brightest pixel", survey.brightest, height),
        "  black pixels     %d" % survey.black,
        "  outside 97-159   %d" % survey.outside,
        "  if written anew  %d" % (len(head) + survey.length),
        "  at worst         %d" % (len(head) + worst(*stored(survey.reading, head, width, height))),
    ]


NAMES = ["status", "number", "row", "width", "height", "darkest pixel", "brightest pixel", "black pixels", "outside 97-159", "bytes after", "colour", "exposure", "orientation", "file"]


def whole(lines):
    """The line of `info --brief`, from the lines of `info`."""
    found = {line[2:19].strip(): line[19:].split(" ")[0].replace("none,", "-").replace("not", "-") for line in lines[1:]}
    found["orientation"] = "-" if found["orientation"] == "-" else lines[3][19:24].replace(" ", "")
    return "\t".join(["whole", "-", "-"] + [found[name] for name in NAMES[3:-1]] + [lines[0]])


def refused(name, number="-", row="-", width="-", height="-", colour="-", exposure="-", axes="-"):
    """The line of `info --brief` for a file that is refused."""
    return "\t".join(map(str, ["refused", number, row, width, height] + ["-"] * 5 + [colour, exposure, axes, name]))


def stops(reading, name, file, width, height, start):
    """The lines of `stops` for a whole file: rows by the reading, and light by the document, (2m + 1) 2^(E - 137)."""
    long, count = stored(reading, file[:start], width, height)
    store, at, counts, black = bytearray(4 * long), start, {}, 0
    for _ in range(count):
        at = read_row(reading, file, at, store, long)
        for q in (store[i : i + 4] for i in range(0, 4 * long, 4)):
            if q[3] == 0:
                black += 1
            else:
                power = (2 * max(q[:3]) + 1).bit_length() - 1 + q[3] - 137
                counts[power] = counts.get(power, 0) + 1
    lines = [name]
    for power in range(min(counts), max(counts) + 1) if counts else ():
        n = counts.get(power, 0)
        bar = "#" * (n // (max(counts.values()) // 50 + 1) + 1) + " " if n else ""
        lines.append("  2^%-5d%s %s%d" % (power, "|" if -32 <= power < 31 else " ", bar, n))
    if not counts:
        lines.append("  light            none, " + ("every pixel is black" if height else "there is no pixel"))
    return lines + ["  black pixels     %d" % black]


def answer(name, file, width, height, start, reading=DOCUMENT):
    """The lines of `info` for a file whose header takes `start` bytes, read by the rules. A refusal's sentence is left open."""
    try:
        long, count = stored(reading, file[:start], width, height)
    except Fault as fault:
        return [name, "  refused          number %d: *" % fault.args]
    store, at, survey = bytearray(4 * long), start, Survey(reading)
    for row in range(count):
        try:
            at = read_row(reading, file, at, store, long)
        except Fault as fault:
            return [name, "  refused          number %d in row %d (the first row is 0): *" % (*fault.args, row)]
        survey.row(store, long)
    return told(name, file[:start], width, height, at, len(file) - at, survey)


# ---- Running sky


def run(*words, prefix=(), folder=FOLDER):
    done = subprocess.run([*prefix, SKY, *words], cwd=folder, stdout=subprocess.PIPE, stderr=subprocess.PIPE)
    return done.stdout.decode().split("\n"), done.returncode, done.stderr.decode()


def same(got, want):
    return len(got) == len(want) and all(g == w or (w.endswith("*") and g.startswith(w[:-1]) and len(g) > len(w) + 8) for g, w in zip(got, want))


def check(what, ok):
    global checked
    checked += 1
    if not ok:
        failures.append(what)
        print("  differs: " + what)


def expect(what, want, status, *words, **more):
    """Runs sky, and holds what it says and its exit status to what is expected."""
    got, returned, _ = run(*words, **more)
    last = ["ok" if status == 0 else "refused", ""]
    check(what, same(got, want + last) and returned == status)
    if failures and failures[-1] == what:
        print("    got      ", returned, got[:14])
        print("    expected ", status, want[:14] + last)


def keep(name, data):
    with open(os.path.join(FOLDER, name), "wb") as f:
        f.write(data)
    return data


def load(name):
    if not there(name):
        return None
    with open(os.path.join(FOLDER, name), "rb") as f:
        return f.read()


def parts():
    """Files of copies that are at work, or were stopped."""
    return glob.glob(os.path.join(FOLDER, "*.part"))


def there(name):
    return os.path.exists(os.path.join(FOLDER, name))


# ---- The cases

TWICE = {}  # files whose copies are copied: their names, widths, heights and the lengths of their headers


def pixels(rng, width, kind):
    if kind == "smooth":
        return b"".join(bytes([40 + i * 3 // width, 60, 90 + i * 5 // width, 126]) for i in range(width))
    return b"".join(bytes([rng.randrange(256), rng.randrange(256), rng.randrange(256), rng.randrange(90, 170)]) for _ in range(width))


def least(times, *words):
    """The least time of some runs."""
    taken = []
    for _ in range(times):
        start = time.monotonic()
        run(*words)
        taken.append(time.monotonic() - start)
    return min(taken)


def large(kind):
    """4,096 by 2,048: 32 rows, each 64 times."""
    width, height, rng = 4096, 2048, random.Random(kind)
    rows = [pixels(rng, width, kind) for _ in range(32)]
    coded = [write_row(row, width) for row in rows]
    data = keep(kind + ".hdr", header(width, height) + b"".join(coded) * 64)
    survey = Survey(DOCUMENT)
    for row in rows:
        survey.row(row, width, 64)
    start = time.monotonic()
    lines = told(kind + ".hdr", header(width, height), width, height, len(data), 0, survey)
    expect(kind + " info", lines, 0, "info", kind + ".hdr")
    middle = time.monotonic()
    expect(kind + " copy", lines[:3] + lines[6:8] + ["  written to       copy.hdr", "  bytes written    %d" % len(data)], 0, "copy", kind + ".hdr", "copy.hdr", "--force")
    check(kind + " copied bytes", load("copy.hdr") == data)
    end = time.monotonic()
    print("  %s, %d bytes: info %.1f s, copy %.1f s" % (kind, len(data), middle - start, end - middle))
    if kind == "smooth":
        check("info takes at most twice as long as copy", least(3, "info", kind + ".hdr") <= 2 * least(3, "copy", kind + ".hdr", "copy.hdr", "--force"))
    _, _, said = run("info", kind + ".hdr")
    check(kind + " progress", ("90% 100%\n" in said) == (len(data) > 4194304))


def wide():
    width, rng = 40000, random.Random(7)
    rows = [pixels(rng, width, "noisy") for _ in range(3)]
    data = keep("wide.hdr", header(width, 3) + b"".join(rows) + b"end")
    expect("wide info", answer("wide.hdr", data, width, 3, len(header(width, 3))), 0, "info", "wide.hdr")
    run("copy", "wide.hdr", "wide2.hdr")
    check("wide copied bytes", load("wide2.hdr") == data[:-3])
    one, two = bytes([10, 10, 10, 129]), bytes([20, 20, 20, 129])
    old = keep("old.hdr", b"#?RGBE\n\n-Y 1 +X 4\n" + one + two + bytes([1, 1, 1, 2]))
    refused = ["old.hdr", "  refused          number 25 in row 0 (the first row is 0): an old run, *"]
    expect("old runs info", answer("old.hdr", old, 4, 1, 18), 0, "info", "old.hdr")
    expect("old runs info --crate", refused, 1, "info", "--crate", "old.hdr")
    expect("old runs copy --crate", refused, 1, "copy", "old.hdr", "--crate", "old2.hdr")
    check("old runs left nothing", not there("old2.hdr") and not parts())
    run("copy", "old.hdr", "old2.hdr")
    check("old runs copied", load("old2.hdr") == old[:18] + one + two * 3)
    keep("old.hdr", old[:-1])
    for reading in (DOCUMENT, CRATE):
        expect(" ".join(("old run without its last byte", *reading)), answer("old.hdr", old[:-1], 4, 1, 18, reading), 1, "info", *reading, "old.hdr")
    coded = keep("ones.hdr", header(8, 1) + bytes([2, 2, 0, 8]) + bytes([136, 1]) * 3 + bytes([136, 130]))
    expect("1,1,1,n in a coded row", answer("ones.hdr", coded, 8, 1, len(header(8, 1))), 0, "info", "ones.hdr")
    run("copy", "ones.hdr", "ones2.hdr")
    check("1,1,1,n in a coded row copied", load("ones2.hdr") == coded)


def cut():
    """A file cut off at every byte, with flat rows, coded ones and one after a pixel 2, 3: three stored rows of nine, in each orientation."""
    rng = random.Random(3)
    rows = write_row(pixels(rng, 9, "noisy"), 9) + b"\2\3\4\5" + pixels(rng, 8, "noisy") + b"\2\2\0\11" + b"\211\1\0\211\2\4abcd\205e\211\200"
    for axes in EIGHT:
        width, height = (3, 9) if axes[1:2] == b"X" else (9, 3)
        start = b"#?RGBE\nEXPOSURE=2\n\n" + sizes(axes, width, height)
        names = ["cut%s%d.hdr" % (axes.decode(), end) for end in range(len(rows) + 1)]
        for end, name in enumerate(names):
            keep(name, start + rows[:end])
        TWICE[names[-1]] = (width, height, len(start))
        for reading in (DOCUMENT, CRATE):
            want = [line for name in names for line in answer(name, load(name), width, height, len(start), reading)]
            expect(" ".join(("cut at every byte", axes.decode(), *reading)), want, 1, "info", *reading, *names)


def headers():
    table = {
        "empty": (b"", 1),
        "jpeg": (b"\xff\xd8\xff\xe0" + b"x" * 3000000, 1),
        "axes": (b"#?RADIANCE\n\n+Y 2 -Y 2\n" + b"\0" * 16, 2),
        "axes-long": (b"#?RADIANCE\n\n+Y 2 -Y 2\n" + b"\0" * 3000000, 2),
        "size": (b"#?RADIANCE\n\n-Y two +X 2\n", 3),
        "high": (b"#?RADIANCE\n\n-Y 65536 +X 2\n", 4),
        "wide5": (b"#?RADIANCE\n\n-Y 2 +X 65536\n", 5),
        "narrow": (b"#?RADIANCE\n\n-Y 2 +X 0\n", 7),
    }
    for name, (data, number) in table.items():
        keep(name, data)
        expect("header " + name, [name, "  refused          number %d: *" % number], 1, "info", name)
    data = keep("none.hdr", b"#?RADIANCE\n\n-Y 0 +X 3\nrest")
    expect("height 0", answer("none.hdr", data, 3, 0, 22), 0, "info", "none.hdr")
    line = b"x" * 1023 + b"\n"
    data = keep("comments", b"#?RGBE\n" + line * 1000 + b"\n-Y 1 +X 1\n\1\2\3\4" + b"\0" * 2000000)
    expect("many comments", answer("comments", data, 1, 1, data.index(b"-Y") + 10), 0, "info", "comments")
    keep("long-header", b"#?RGBE\n" + line * 1024 + b"\n-Y 1 +X 1\n\1\2\3\4")
    expect("long header", ["long-header", "  refused          the header is longer than *"], 1, "info", "long-header")


def long_rows():
    """Counts of 0 make a row as long as one likes: up to 1 MiB, and a byte more to see its end, is looked at, wherever it lies."""
    width, rng = 8, random.Random(5)
    start, tail = header(width, 40), write_row(pixels(rng, width, "noisy"), width)
    filled = tail[:4] + b"\0" * (PART - 1 - len(tail)) + tail[4:]
    longer = tail[:4] + b"\0" * (PART - len(tail)) + tail[4:]
    store = bytearray(4 * width)
    read_row(DOCUMENT, tail, 0, store, width)
    survey = Survey(DOCUMENT)
    survey.row(store, width, 40)
    for name, rows, lost in (("most", [tail] * 19 + [filled] * 3 + [tail] * 18, None), ("over", [tail] * 19 + [filled, longer] + [tail] * 19, 20)):
        data = keep(name, start + b"".join(rows))
        if lost is None:
            expect("long rows " + name, told(name, start, width, 40, len(data), 0, survey), 0, "info", name)
        else:
            expect("long rows " + name, [name, "  refused          row %d (the first row is 0) is longer than *" % lost], 1, "info", name)


def words():
    for what, line, asked in (
        ("no word", "sky: nothing is asked*", ()),
        ("unknown word", "sky: unknown word tell*", ("tell", "a")),
        ("no file", "sky: info wants a file*", ("info",)),
        ("copy alone", "sky: copy wants IN and OUT*", ("copy", "a")),
        ("copy to --force", "sky: copy wants IN and OUT*", ("copy", "a", "--force")),
    ):
        expect(what, [line], 1, *asked)
    got, status, _ = run("help")
    check("help", status == 0 and got[-2] == "ok" and any("./sky copy IN OUT" in line for line in got))
    expect("missing file", ["gone.hdr", "  refused          the file cannot be opened: *"], 1, "info", "gone.hdr")
    os.mkdir(os.path.join(FOLDER, "folder"))
    expect("folder", ["folder", "  refused          the file cannot be read: *"], 1, "info", "folder")
    small = answer("small.hdr", load("small.hdr"), 9, 2, len(header(9, 2)))
    gone = ["gone.hdr", "  refused          the file cannot be opened: *"]
    expect("a refused one among others", small + gone + small, 1, "info", "small.hdr", "gone.hdr", "small.hdr")


def copies():
    os.mkdir(os.path.join(FOLDER, "elsewhere"))
    rng = random.Random(11)
    source = header(9, 2) + write_row(pixels(rng, 9, "noisy"), 9) + pixels(rng, 9, "noisy") + b"after"
    anew = bytearray(36)
    keep("small.hdr", source)
    at, file = len(header(9, 2)), header(9, 2)
    for _ in range(2):
        at = read_row(DOCUMENT, source, at, anew, 9)
        file += write_row(anew, 9)
    run("copy", "small.hdr", "new.hdr")
    check("copy", load("new.hdr") == file)
    keep("kept.hdr", b"mine")
    expect("an output is kept", ["small.hdr", "  refused          kept.hdr is there already and is kept*"], 1, "copy", "small.hdr", "kept.hdr")
    check("it has its bytes", load("kept.hdr") == b"mine")
    run("copy", "small.hdr", "kept.hdr", "--force")
    check("--force", load("kept.hdr") == file)
    keep("self.hdr", source)
    run("copy", "self.hdr", "self.hdr")
    check("a file onto itself is kept", load("self.hdr") == source)
    run("copy", "--force", "self.hdr", "self.hdr")
    check("a file onto itself by --force", load("self.hdr") == file)
    keep("busy.hdr.part", b"theirs")
    run("copy", "small.hdr", "busy.hdr")
    check("a name that is taken is not met", load("busy.hdr") == file and load("busy.hdr.part") == b"theirs")
    os.remove(os.path.join(FOLDER, "busy.hdr.part"))
    keep("torn.hdr", source[:90])
    keep("whole.hdr", b"before")
    expect("a damaged input", ["torn.hdr", "  refused          number 9 in row *"], 1, "copy", "torn.hdr", "whole.hdr", "--force")
    check("the output is as it was", load("whole.hdr") == b"before" and not parts())
    expect("no such folder", ["small.hdr", "  refused          nowhere/x.hdr cannot be made: there is no folder nowhere"], 1, "copy", "small.hdr", "nowhere/x.hdr")
    expect("a folder", ["small.hdr", "  refused          elsewhere is a folder: name a file in it"], 1, "copy", "small.hdr", "elsewhere")
    expect("from another folder", answer("../small.hdr", source, 9, 2, len(header(9, 2))), 0, "info", "../small.hdr", folder=os.path.join(FOLDER, "elsewhere"))


def full():
    """A disk that is full: a limit on the length of files, with its signal ignored, makes writes fail alike."""
    limit = ("bash", "-c", "trap '' XFSZ; ulimit -f 1000; exec \"$@\"", "sky")
    expect("a full disk", ["noisy.hdr", "  refused          writing failed*"], 1, "copy", "noisy.hdr", "full.hdr", prefix=limit)
    check("it left nothing", not there("full.hdr") and not parts())


def kinds():
    """What is no plain file is not replaced; a file that is replaced keeps its mode, and a new one has that of the umask."""
    os.mkfifo(os.path.join(FOLDER, "fifo"))
    end = socket.socket(socket.AF_UNIX)
    end.bind(os.path.join(FOLDER, "socket"))
    os.symlink("nothing", os.path.join(FOLDER, "link.hdr"))
    keep("target.hdr", b"mine")
    os.symlink("target.hdr", os.path.join(FOLDER, "alias.hdr"))
    other, link = "no plain file and is kept", "a link and is kept: name the file that it leads to"
    for name, words in (("fifo", other), ("socket", other), ("link.hdr", link), ("alias.hdr", link)):
        before = os.lstat(os.path.join(FOLDER, name))
        for force in ((), ("--force",)):
            expect(" ".join((name, "is kept", *force)), ["small.hdr", "  refused          %s is %s" % (name, words)], 1, "copy", "small.hdr", name, *force)
            check(name + " is as it was", os.lstat(os.path.join(FOLDER, name)).st_ino == before.st_ino)
    check("what a link leads to is as it was", load("target.hdr") == b"mine")
    keep("private.hdr", b"mine")
    os.chmod(os.path.join(FOLDER, "private.hdr"), 0o600)
    run("copy", "small.hdr", "private.hdr", "--force")
    check("a replaced file keeps its mode", mode("private.hdr") == 0o600 and load("private.hdr") == load("new.hdr"))
    run("copy", "small.hdr", "masked.hdr", prefix=("bash", "-c", "umask 027; exec \"$@\"", "sky"))
    check("a new file follows the umask", mode("masked.hdr") == 0o640)


def mode(name):
    return stat.S_IMODE(os.stat(os.path.join(FOLDER, name)).st_mode)


def lost():
    """Output that cannot be written: status 2, and a line on standard error."""
    for end in (">/dev/full", ">&-"):
        for asked in (("help",), ("info", "small.hdr"), ("copy", "small.hdr", "lost.hdr", "--force"), ("--version",)):
            prefix = ("bash", "-c", "exec \"$@\" " + end, "sky")
            _, status, said = run(*asked, prefix=prefix)
            check("lost " + end + " " + asked[0], status == 2 and said.startswith("sky: ") and said.count("\n") == 1)
    check("the copy is whole", load("lost.hdr") == load("new.hdr") and not parts())
    gone = subprocess.run(["bash", "-c", "\"$@\" | true; exit ${PIPESTATUS[0]}", "sky", SKY, "info", "small.hdr", "smooth.hdr"], cwd=FOLDER, stderr=subprocess.PIPE)
    check("nobody reads", gone.returncode == 2 and gone.stderr.decode().startswith("sky: "))
    run("copy", "noisy.hdr", "shut.hdr", prefix=("bash", "-c", "exec \"$@\" <&- 2>&-", "sky"))
    check("nothing is said into the copy", load("shut.hdr") == load("noisy.hdr"))


def heeded():
    """Signals that whoever started this script has ignored would be ignored by what it starts."""
    for sent in (signal.SIGTERM, signal.SIGHUP, signal.SIGINT):
        signal.signal(sent, signal.SIG_DFL)


def begin(*words):
    """Starts a copy, and waits until it has a file to write to."""
    started = subprocess.Popen(
        [SKY, *words], cwd=FOLDER, stdout=subprocess.PIPE, stderr=subprocess.PIPE, start_new_session=True, preexec_fn=heeded
    )
    while not parts() and started.poll() is None:
        time.sleep(0.01)
    return started


def stopped():
    """A copy that is stopped leaves OUT as it was, and nothing beside it; after a KILL, nothing that hinders a later copy."""
    keep("stop.hdr", b"before")
    for sent in (signal.SIGTERM, signal.SIGHUP, signal.SIGINT, signal.SIGKILL):
        started = begin("copy", "noisy.hdr", "stop.hdr", "--force")
        if sent == signal.SIGINT:
            os.killpg(started.pid, sent)
        else:
            started.send_signal(sent)
        started.communicate()
        check("%s is how it ends" % sent.name, started.returncode == -sent)
        check("%s left nothing" % sent.name, sent == signal.SIGKILL or not parts())
        time.sleep(3)
        check("%s left OUT" % sent.name, load("stop.hdr") == b"before")
        for name in parts() if sent != signal.SIGKILL else ():
            os.remove(name)
    left = [os.path.getsize(name) for name in parts()]
    check("its program ended too", all(n < os.path.getsize(os.path.join(FOLDER, "noisy.hdr")) for n in left))
    _, status, _ = run("copy", "noisy.hdr", "stop.hdr", "--force")
    check("a later copy", status == 0 and load("stop.hdr") == load("noisy.hdr"))
    for name in parts():
        os.remove(name)
    for name, make, force in (("sudden.hdr", lambda path: keep(path, b"theirs"), ()), ("pipe.hdr", lambda path: os.mkfifo(os.path.join(FOLDER, path)), ("--force",))):
        started = begin("copy", "noisy.hdr", name, *force)
        make(name)
        said = started.communicate()[0].decode()
        check("what appears meanwhile is kept: " + name, started.returncode == 1 and "  refused          %s is " % name in said and not parts())
    check("it is as it was made", load("sudden.hdr") == b"theirs" and stat.S_ISFIFO(os.stat(os.path.join(FOLDER, "pipe.hdr")).st_mode))
    two = [subprocess.Popen([SKY, "copy", "noisy.hdr", "once.hdr"], cwd=FOLDER, stdout=subprocess.PIPE, stderr=subprocess.PIPE) for _ in range(2)]
    check("one of two copies", sorted((one.communicate(), one.returncode)[1] for one in two) == [0, 1] and load("once.hdr") == load("noisy.hdr") and not parts())


def misled():
    """Words that say what is wrong, and not something else."""
    returns = "its lines end with CR LF, and have to end with LF alone"
    for name, data, number, words in (
        ("returns", b"#?RADIANCE\r\n\r\n-Y 1 +X 1\r\n\1\2\3\4", 1, returns),
        ("returns-later", b"#?RADIANCE\nFORMAT=32-bit_rle_rgbe\r\n\r\n-Y 1 +X 1\r\n\1\2\3\4", 2, returns),
        ("digits", b"#?RADIANCE\n\n-Y 1 +X 12345678901234567890123\n", 3, "the height or the width is too large: 65535 is the most"),
        ("digits-high", b"#?RADIANCE\n\n-Y 18446744073709551616 +X 1\n", 3, "the height or the width is too large: 65535 is the most"),
        ("no-digits", b"#?RADIANCE\n\n-Y 1e99999999999999999999 +X 1\n", 3, "the height or the width is no number"),
        ("no-returns", b"#?RADIANCE\n\n+Y 1 -Y 1\n\n\r\n", 2, "the line of sizes has to name X and Y, each with a sign and then its size, *"),
    ):
        keep(name, data)
        expect("words of " + name, [name, "  refused          number %d: %s" % (number, words)], 1, "info", name)
    keep("returns-long", b"#?RADIANCE\nFORMAT=32-bit_rle_rgbe\r\n\r\n-Y 1 +X 1\r\n" + b"\1" * 3000000)
    expect("words of returns-long", ["returns-long", "  refused          the header has no end that can be found: " + returns], 1, "info", "returns-long")


def shown():
    """No control character of a name reaches the terminal."""
    name = "a\x1b[2J\tb\n\x7f\u0085\u00dc.hdr"
    shutil.copy(os.path.join(FOLDER, "noisy.hdr"), os.path.join(FOLDER, name))
    plain = "a?[2J?b??\u00c2?\u00dc.hdr".encode().replace("\u00c2?".encode(), b"\xc2?")
    for asked in (("info", name), ("copy", name, name), ("copy", name, "x" + name), ("copy", "small.hdr", name + "/x"), (name,)):
        done = subprocess.run([SKY, *asked], cwd=FOLDER, stdout=subprocess.PIPE, stderr=subprocess.PIPE)
        said = done.stdout + done.stderr
        check("shown by " + asked[0], plain in said and all(x == 10 or 32 <= x != 127 for x in said) and "\u0085".encode() not in said)


def asked():
    for word in ("--help", "-h"):
        check(word, run(word) == run("help"))
    got, status, _ = run("--version")
    kit = subprocess.run(["rt", "version"], stdout=subprocess.PIPE).stdout.decode().strip()
    check("--version", status == 0 and len(got) == 3 and got[0].startswith("sky ") and got[0][4].isdigit() and got[1] == "proved by " + kit)


def built():
    """The program is built anew where something that it is made of is newer; a clone that cannot be written says so."""
    clone, tools = os.path.join(FOLDER, "clone"), os.path.join(FOLDER, "tools")
    os.mkdir(clone)
    os.mkdir(tools)
    for name in ("tools", "crates"):
        shutil.copytree(os.path.join(TOP, name), os.path.join(clone, name), ignore=shutil.ignore_patterns("out"))
    for name in ("sky", "crates.txt", "bindings/rust/Cargo.toml"):
        os.makedirs(os.path.dirname(os.path.join(clone, name)), exist_ok=True)
        shutil.copy(os.path.join(TOP, name), os.path.join(clone, name))
    keep("tools/rt", b"#!/bin/sh\necho built >>../../../built\nmkdir -p out\ncp \"$PROGRAM\" out/sky\n")
    os.chmod(os.path.join(tools, "rt"), 0o755)
    kit = os.environ.get("RATTLE_HOME") or os.path.dirname(os.path.dirname(os.path.realpath(shutil.which("rt"))))
    more = {**os.environ, "PATH": tools + ":" + os.environ["PATH"], "RATTLE_HOME": kit, "PROGRAM": os.path.join(TOP, "crates/sky/out/sky")}

    def start(what, status, builds, prefix=()):
        done = subprocess.run([*prefix, clone + "/sky", "help"], cwd="/", env=more, stdout=subprocess.PIPE, stderr=subprocess.PIPE)
        check(what, done.returncode == status and (load("built") or b"").count(b"built") == builds)
        return done.stderr.decode()

    start("a first start builds", 0, 1)
    start("a second one does not", 0, 1)
    for i, name in enumerate(("crates/light/src/lib.rt", "crates/sky/proofs/Lib.antt", "crates/steps/specs/Loop.antt", "crates.txt")):
        os.utime(os.path.join(clone, name))
        start("built anew for " + name, 0, i + 2)
        start("and only once", 0, i + 2)
    os.utime(os.path.join(clone, "crates/kept/specs/Lib.antt"))
    start("not for a crate that it is not made of", 0, 5)
    shutil.rmtree(os.path.join(clone, "target"))
    for folder, _, names in os.walk(clone):
        os.chmod(folder, 0o555)
    for folder in (FOLDER, tools):
        os.chmod(folder, 0o755)
    nobody = ("setpriv", "--reuid", "65534", "--regid", "65534", "--clear-groups") if os.getuid() == 0 else ()
    said = start("a clone that cannot be written", 2, 5, nobody)
    check("it says so in a line", said == "sky: it has to be built, and nothing can be written in %s\n" % clone)
    for folder, _, names in os.walk(clone):
        os.chmod(folder, 0o755)


def tables():
    """One line to a file."""
    keep("black.hdr", header(8, 1) + bytes(32))
    want = ["\t".join(NAMES)]
    want += [whole(answer(name, load(name), w, h, len(header(w, h)))) for name, w, h in (("small.hdr", 9, 2), ("wide.hdr", 40000, 3), ("black.hdr", 8, 1), ("saved-dark.hdr", 3, 2))]
    want += [whole(answer("none.hdr", load("none.hdr"), 3, 0, 22)), refused("gone.hdr"), refused("axes", 2), refused("digits", 3), refused("returns", 1)]
    want += [refused("returns-long"), refused("over", "-", 20, 8, 40, "rgbe", axes="-Y+X"), refused("torn.hdr", 9, 0, 9, 2, "rgbe", axes="-Y+X")]
    got, status, said = run("info", "--brief", *(line.split("\t")[-1] for line in want[1:]))
    check("a table", got == want + [""] and status == 1)
    check("how many", said == "sky: 5 whole, 7 refused\n")
    if got != want + [""]:
        print("\n".join("    %s\n    %s" % pair for pair in zip(got, want) if pair[0] != pair[1]))
    got, status, said = run("info", "--brief", "small.hdr", "small.hdr")
    check("a table of whole files", got == want[:2] + want[1:2] + [""] and status == 0 and said == "sky: 2 whole, 0 refused\n")
    check("a table of nothing", run("info", "--brief")[1] == 1)


def charts():
    """How much light lies in each power of two."""
    rng = random.Random(17)
    every = b"".join(bytes([1 << rng.randrange(8), 0, rng.randrange(256), e]) for e in range(256)) + bytes([0, 0, 0, 200]) * 9
    keep("every.hdr", header(265, 1) + write_row(every, 265))
    for name, width, height in (("small.hdr", 9, 2), ("wide.hdr", 40000, 3), ("every.hdr", 265, 1), ("black.hdr", 8, 1)):
        for reading in (DOCUMENT, CRATE):
            expect(" ".join(("stops", *reading, name)), stops(reading, name, load(name), width, height, len(header(width, height))), 0, "stops", *reading, name)
    expect("stops none.hdr", stops(DOCUMENT, "none.hdr", load("none.hdr"), 3, 0, 22), 0, "stops", "none.hdr")
    expect("stops torn.hdr", ["torn.hdr", "  refused          number 9 in row 0 (the first row is 0): *"], 1, "stops", "torn.hdr")
    expect("stops of no file", ["sky: stops wants a file*"], 1, "stops")


def broken():
    """Rows that the document has no reading of, each by its number, and what the crate shows of them."""
    rows = {
        "mark": (8, b"\2\2\0\11" + b"\210\1" * 4),
        "run": (8, b"\2\2\0\10" + b"\211\1" * 4),
        "literals": (8, b"\2\2\0\10" + b"\204\1\5abcde" * 4),
        "count": (8, b"\2\2\0\10\211"),
        "run-byte": (8, b"\2\2\0\10\210"),
        "nothing": (8, b"\2\2\0\10" + b"\0\0\210\1" * 4),
        "start": (4, b"\1\1\1\0" + b"abcd" * 4),
        "start-cut": (4, b"\1\1\1"),
        "start-two": (9, b"\2\3\4\5\1\1\1\10"),
        "past": (4, b"abcd\1\1\1\4"),
        "second": (4, b"abcd\1\1\1\0\1\1\1\1"),
        "again": (600, b"abcd\1\1\1\0\1\1\1\2" + b"efgh" * 87),
        "apart": (600, b"abcd\1\1\1\2efgh\1\1\1\2" + b"efgh" * 594),
        "third": (600, b"abcd\1\1\1\0\1\1\1\0\1\1\1\1"),
    }
    for reading in (DOCUMENT, CRATE):
        for name, (width, row) in rows.items():
            data = keep(name, header(width, 1) + row)
            want = answer(name, data, width, 1, len(header(width, 1)), reading)
            expect(" ".join((name, *reading)), want, 1 if "refused" in want[1] else 0, "info", *reading, name)
    want = ["mark", "  refused          number 14 in row 0 (the first row is 0): the row is broken: *"]
    expect("a broken row in words", want, 1, "info", "mark")
    expect("a broken row is not copied", want, 1, "copy", "mark", "mark2.hdr")
    run("copy", "--crate", "mark", "mark2.hdr")
    check("but as the crate shows it", load("mark2.hdr") == header(8, 1) + b"\2\2\0\10" + b"\210\1" * 4)


def scattered():
    """Small files of bytes that often mean something, by both readings; every second one has one of the eight orientations."""
    rng, files = random.Random(23), {}
    for k in range(400):
        long, count = rng.choice((1, 3, 7, 8, 9, 20)), rng.randrange(1, 4)
        bytes_of = (0, 1, 1, 1, 2, 2, long, 128, 129, 130, 128 + long, rng.randrange(256))
        rows = b"".join(
            rng.choice((b"", b"\2\2\0" + bytes([long]), pixels(rng, long, "noisy"))) + bytes(rng.choice(bytes_of) for _ in range(rng.randrange(5 * long)))
            for _ in range(count)
        )
        axes = rng.choice(list(EIGHT)) if k % 2 else b"-Y+X"
        width, height = (count, long) if axes[1:2] == b"X" else (long, count)
        files["scattered%d" % k] = (width, height, len(header(width, height)))
        keep("scattered%d" % k, header(width, height, axes) + rows)
    TWICE.update(list(files.items())[:60])
    for reading in (DOCUMENT, CRATE):
        want = [line for name, (w, h, start) in files.items() for line in answer(name, load(name), w, h, start, reading)]
        expect(" ".join(("scattered bytes", *reading)), want, 1, "info", *reading, *files)
        check(" ".join(("of which some are whole", *reading)), 10 < sum(line.startswith("  at worst") for line in want) < 390)


def lights():
    """Light from the darkest to the brightest that a pixel can have."""
    names = []
    for e in range(256):
        for m in (0, 1, 128, 177, 255):
            names.append("light-%d-%d" % (m, e))
            keep(names[-1], header(1, 1) + bytes([m, 0, 0, e]))
    for reading in (DOCUMENT, CRATE):
        want = [line for name in names for line in answer(name, load(name), 1, 1, len(header(1, 1)), reading)]
        expect(" ".join(("every light", *reading)), want, 0, "info", *reading, *names)
    for name, by_document, by_crate in (
        ("light-128-129", "1.00390625 = 257 x 2^-8", "1 = 128 x 2^-7"),
        ("light-128-96", "1.16870069e-10 = 257 x 2^-41", "0.5 = 128 x 2^-8"),
        ("light-128-160", "2155872256 = 257 x 2^23", "0.5 = 128 x 2^-8"),
        ("light-255-255", "1.69808876e38 = 511 x 2^118", "2139095040 = 255 x 2^23"),
    ):
        for reading, lit in ((DOCUMENT, by_document), (CRATE, by_crate)):
            check(" ".join(("by hand", *reading, name)), run("info", *reading, name)[0][8:10] == ["  darkest pixel    " + lit, "  brightest pixel  " + lit])
    for order in (("--brief", "--crate"), ("--crate", "--brief")):
        got, status, _ = run("info", *order, names[-1], "small.hdr")
        want = [whole(answer(name, load(name), w, h, len(header(w, h)), CRATE)) for name, w, h in ((names[-1], 1, 1), ("small.hdr", 9, 2))]
        check("a table by " + " ".join(order), got == ["\t".join(NAMES)] + want + [""] and status == 0)


NONE = "none, every pixel is black"
DIM = (  # pixels 0,0,0,E: a name, six exponent bytes, and by hand the darkest and the brightest, how many are black and how many outside
    ("saved-dark.hdr", (128,) * 6, "0.001953125 = 1 x 2^-9", "0.001953125 = 1 x 2^-9", 0, 0),
    ("half-black.hdr", (0, 128, 0, 134, 0, 128), "0.001953125 = 1 x 2^-9", "0.125 = 1 x 2^-3", 3, 0),
    ("all-black.hdr", (0,) * 6, NONE, NONE, 6, 0),
    ("dim-bright.hdr", (200,) * 6, "9.22337203e18 = 1 x 2^63", "9.22337203e18 = 1 x 2^63", 0, 6),
    ("dim-edges.hdr", (96, 97, 159, 160, 0, 0), "4.54747350e-13 = 1 x 2^-41", "8388608 = 1 x 2^23", 2, 2),
    ("dim-exact.hdr", (97, 192, 0, 0, 0, 0), "0.0000000000009094947017729282379150390625 = 1 x 2^-40", "36028797018963968 = 1 x 2^55", 4, 1),
    ("dim-cut-off.hdr", (96, 193, 0, 0, 0, 0), "4.54747350e-13 = 1 x 2^-41", "7.20575940e16 = 1 x 2^56", 4, 2),
)
DIM_STOPS = (  # the charts of some
    ("saved-dark.hdr", ["  2^-9   | ####### 6"], 0),
    ("half-black.hdr", ["  2^-9   | ### 2", "  2^-8   | 0", "  2^-7   | 0", "  2^-6   | 0", "  2^-5   | 0", "  2^-4   | 0", "  2^-3   | ## 1"], 3),
    ("all-black.hdr", ["  light            " + NONE], 6),
    ("dim-bright.hdr", ["  2^63     ####### 6"], 0),
)


def dim():
    """Mantissas of 0, as zune-hdr saved dark skies: half a step of light by the document, black by the crate. A chart is by the document always."""
    for name, exponents, *answers in DIM:
        keep(name, header(3, 2) + b"".join(bytes([0, 0, 0, e]) for e in exponents))
        for reading, values in ((DOCUMENT, answers), (CRATE, (NONE, NONE, 6, 0))):
            says = ["rgbe", "not stated"] if reading == DOCUMENT else ["not stated: %s lines are passed over with --crate" % word for word in ("FORMAT", "EXPOSURE")]
            start = [name, "  width            3", "  height           2", "  orientation      " + turned(reading, header(3, 2))]
            start += ["  colour           " + says[0], "  exposure         " + says[1], "  bytes taken      87", "  bytes after      0"]
            lines = ["  %-17s%s" % pair for pair in zip(NAMES[5:9], values)]
            expect(" ".join(("info", *reading, name)), start + lines + ["  if written anew  87", "  at worst         87"], 0, "info", *reading, name)
    for name, chart, black in DIM_STOPS:
        for reading in (DOCUMENT, CRATE):
            expect(" ".join(("stops", *reading, name)), [name, *chart, "  black pixels     %d" % black], 0, "stops", *reading, name)


SAID = (  # lines of a header, and by hand the kind of colour and the exposure
    (b"", "not stated", "not stated"),
    (b"FORMAT=32-bit_rle_rgbe\n", "rgbe", "not stated"),
    (b"FORMAT= 32-bit_rle_xyze \r\nEXPOSURE=1.5\n", "xyze", "1.5"),
    (b"FORMAT=32-bit_rle_xyze\nFORMAT=32-bit_rle_rgbe\n", "rgbe", "not stated"),
    (b"# EXPOSURE=7\n EXPOSURE=7\nexposure=7\nEXPOSURE =7\nFORMAT \n", "not stated", "not stated"),
    (b"EXPOSURE=2\nEXPOSURE=.25\n", "not stated", "0.5"),
    (b"EXPOSURE=\t1.e2\n", "not stated", "100"),
    (b"EXPOSURE=0.1\n", "not stated", "0.100000001490116119384765625"),
    (b"EXPOSURE=1E-10\n", "not stated", "1.00000001e-10"),
    (b"EXPOSURE=16777217e+00\n", None, 16),
    (b"EXPOSURE=1e+10\nEXPOSURE=1e9\n", "not stated", "9999999980506447872"),
    (b"EXPOSURE=1e10\nEXPOSURE=1e10\n", "not stated", "1.00000002e20"),
)
FAULTS = (  # lines of a header, and by hand the number, the line's place and the line as it is shown
    (b"FORMAT=32-bit_rle_cmyk\n", 15, 2, "FORMAT=32-bit_rle_cmyk"),
    (b"FORMAT=\r\n", 15, 2, "FORMAT="),
    (b"FORMAT=32-bit_rle_rgbe\nFORMAT=other\nEXPOSURE=0\n", 15, 3, "FORMAT=other"),
    (b"EXPOSURE=0\nFORMAT=other\n", 16, 2, "EXPOSURE=0"),
    (b"EXPOSURE=\n", 16, 2, "EXPOSURE="),
    (b"EXPOSURE=12345678\n", 16, 2, "EXPOSURE=12345678"),
    (b"EXPOSURE=-1\n", 16, 2, "EXPOSURE=-1"),
    (b"EXPOSURE=1e11\n", 16, 2, "EXPOSURE=1e11"),
    (b"EXPOSURE=1.1e-10\n", 16, 2, "EXPOSURE=1.1e-10"),
    (b"EXPOSURE=1e10\n" * 4, 16, 5, "EXPOSURE=1e10"),
    (b"EXPOSURE=1e-10\n" * 6, 16, 6, "EXPOSURE=1e-10"),
    (b"#\n" * 1000 + b"EXPOSURE=1\n" * 40000 + b"EXPOSURE=x\n" * 9, 16, 41002, "EXPOSURE=x"),
    (b"FORMAT=\x1b[2J\t\x00\xff\xc2\x85\n", 15, 2, "FORMAT=?[2J?????"),
    (b"FORMAT=" + b"y" * 53 + b"\n", 15, 2, "FORMAT=" + "y" * 53),
    (b"FORMAT=" + b"y" * 54 + b"\n", 15, 2, "FORMAT=" + "y" * 53 + ".."),
)


def says():
    """What a header states, and the line at fault; with --crate neither is read."""
    end = b"\n-Y 1 +X 1\n\x80\x40\x20\x81"
    for k, (lines, colour, exposure) in enumerate(SAID):
        name, data = "said%d" % k, b"#?RADIANCE\n" + lines + end
        keep(name, data)
        if colour is None:
            expect("by hand " + name, [name, "  refused          number %d in line *" % exposure], 1, "info", name)
            continue
        got, status, _ = run("info", name)
        check("by hand " + name, status == 0 and got[4:6] == ["  colour           " + colour, "  exposure         " + exposure])
        for reading in (DOCUMENT, CRATE):
            expect(" ".join(("info", *reading, name)), answer(name, data, 1, 1, len(data) - 4, reading), 0, "info", *reading, name)
        got, status, _ = run("info", "--brief", name)
        check("table of " + name, got[1:] == [whole(answer(name, data, 1, 1, len(data) - 4)), ""])
    for k, (lines, number, place, line) in enumerate(FAULTS):
        name, data = "fault%d" % k, b"#?RADIANCE\n" + lines + end
        keep(name, data)
        keep("out.hdr", b"mine")
        want = [name, "  refused          number %d in line %d (%s): *" % (number, place, line)]
        for asked in (("info", name), ("stops", name), ("copy", name, "out.hdr", "--force")):
            expect(" ".join((asked[0], name)), want, 1, *asked)
        check(name + " left OUT", load("out.hdr") == b"mine" and not parts())
        check("table of " + name, run("info", "--brief", name)[0][1:] == [refused(name, number), ""])
        try:
            stated(DOCUMENT, data)
            check("RULES of " + name, False)
        except Fault as fault:
            check("RULES of " + name, fault.args[:2] == (number, place))
        expect("info --crate " + name, answer(name, data, 1, 1, len(data) - 4, CRATE), 0, "info", "--crate", name)
    keep("both", b"#?RADIANCE\nFORMAT=x\n\n+Y 1 -Y 1\n")
    expect("a FORMAT before axes", ["both", "  refused          number 15 in line 2 (FORMAT=x): *"], 1, "info", "both")
    expect("axes with --crate", ["both", "  refused          number 2: *"], 1, "info", "--crate", "both")
    keep("both", b"#?RADIANT\nFORMAT=x\n\n+Y 1 -Y 1\n")
    expect("the first line before all", ["both", "  refused          number 1: *"], 1, "info", "both")


def keeps():
    """A copy has the header of its file, byte for byte."""
    row = b"\2\2\0\10" + b"\210\1" * 4
    lines = b"#?RGBE\n# by hand\nFORMAT=32-bit_rle_xyze\r\nEXPOSURE=1.5\nVIEW= -vh 90\n\xff\0\n\n-Y 1 +X 8 \t\n"
    for name, data, want in (
        ("lines", lines + row + b"after", lines + row),
        ("long", b"#?RGBE\n" + (b"x" * 1022 + b"\n") * 1000 + b"\n-Y 1 +X 8\n" + row, None),
        ("square", b"#?RGBE\n\n+X 8 -Y 8\n" + row * 8, None),
        ("no-rows", b"#?RGBE\nEXPOSURE=2\n\n-Y 0 +X 8", None),
        ("no-rows-after", b"#?RGBE\n\n-Y 0 +X 8\nafter", b"#?RGBE\n\n-Y 0 +X 8\n"),
    ):
        keep(name + ".hdr", data)
        want = data if want is None else want
        for reading in (DOCUMENT, CRATE):
            got, status, _ = run("copy", *reading, name + ".hdr", "keeps.hdr", "--force")
            check(" ".join(("kept", *reading, name)), status == 0 and load("keeps.hdr") == want and got[-3] == "  bytes written    %d" % len(want))
            check(" ".join(("its length", *reading, name)), "  if written anew  %d" % len(want) in run("info", *reading, name + ".hdr")[0])
    data = keep("unknown.hdr", b"#?RGBE\nFORMAT=other\nEXPOSURE=none\n\n-Y 1 +X 8\n" + row)
    run("copy", "--crate", "unknown.hdr", "keeps.hdr", "--force")
    check("lines that are not read are kept with --crate", load("keeps.hdr") == data)


STATED = b"#?RGBE\n# by hand\nEXPOSURE=.5\n\n"
ENDS = {  # a line of sizes and what follows it; by hand what each reading says of it, which is the same
    "zero-width": (b"+X 0 -Y 3\n" + b"\0" * 12, "number 7: *"),
    "x-high": (b"+X 1 -Y 65536\n", "number 4: *"),
    "x-wide": (b"+X 65536 -Y 1\n", "number 5: *"),
    "x-both": (b"+X 65536 -Y 65536\n", "number 4: *"),
    "x-size": (b"+X two -Y 1\n", "number 3: *"),
    "x-large": (b"+X 18446744073709551616 -Y 1\n", "number 3: the height or the width is too large: 65535 is the most"),
    "x-twice": (b"+X 1 +X 1\nabcd", "number 2: *"),
    "no-sign": (b"Y 1 X 1\nabcd", "number 2: *"),
    "no-axis": (b"1 1 1 1\nabcd", "number 2: *"),
    "small-letter": (b"-y 1 +x 1\nabcd", "number 2: *"),
}
AT = {  # by hand: where rows of the document end or break that are columns of the picture
    "cut-columns": (b"+X 3 -Y 2\n" + b"abcd" * 5, "number 9 in row 2 *"),
    "cut-rows": (b"+Y 2 -X 3\n" + b"abcd" * 5, "number 9 in row 1 *"),
    "mark-width": (b"-X 20 +Y 9\n" + b"\2\2\0\11" + b"\211\1" * 4 + b"\2\2\0\24" + b"\224\1" * 4, "number 14 in row 1 *"),
    "mark-height": (b"-Y 9 -X 20\n" + b"\2\2\0\24" + b"\224\1" * 4 + b"\2\2\0\11" + b"\211\1" * 4, "number 14 in row 1 *"),
}


def ends():
    """Headers and rows that are refused, with X named first or Y: by hand."""
    for name, (data, words) in {**ENDS, **AT}.items():
        keep(name, STATED + data)
        for reading in (DOCUMENT, CRATE) if name in ENDS else (DOCUMENT,):
            expect(" ".join((name, *reading)), [name, "  refused          " + words], 1, "info", *reading, name)
    want = [refused("cut-columns", 9, 2, 3, 2, "-", "0.5", "+X-Y"), refused("mark-width", 14, 1, 20, 9, "-", "0.5", "-X+Y"), refused("x-high", 4)]
    check("a table of the refused", run("info", "--brief", "cut-columns", "mark-width", "x-high")[0][1:] == want + [""])
    keep("no-height", b"#?RGBE\n\n-X 3 +Y 0\nrest")
    none = ["none, there is no pixel"] * 2
    lines = ("3", "0", "-X +Y: columns from the right, pixels from the bottom", "not stated", "not stated", "18", "4", *none, "0", "0", "18", "18")
    labels = ("width", "height", "orientation", "colour", "exposure", "bytes taken", "bytes after", *NAMES[5:9], "if written anew", "at worst")
    expect("a height of 0", ["no-height"] + ["  %-17s%s" % pair for pair in zip(labels, lines)], 0, "info", "no-height")
    expect("the light of no height", ["no-height", "  light            none, there is no pixel", "  black pixels     0"], 0, "stops", "no-height")
    run("copy", "no-height", "no-height2")
    check("a copy of no height", load("no-height2") == b"#?RGBE\n\n-X 3 +Y 0\n")


def shapes(axes):
    """Files of an orientation: stored rows that are flat, coded, and as long as a row can be that is coded or a pixel longer; and none."""
    rng = random.Random(axes)
    for long, count in ((5, 3), (3, 20), (20, 3), (300, 2), (0, 4), *(((32767, 1), (32768, 1)) if axes in (b"+X-Y", b"-Y-X") else ())):
        width, height = (count, long) if axes[1:2] == b"X" else (long, count)
        if width:
            start = STATED + sizes(axes, width, height)
            rows = [pixels(rng, long, rng.choice(("noisy", "smooth"))) for _ in range(count)]
            coded = b"".join(row if k % 2 else write_row(row, long) for k, row in enumerate(rows))
            yield "%s-%dx%d" % (axes.decode(), width, height), width, height, start, coded


def eight():
    """The eight orientations: `info`, its table and `stops`; `twice` copies these files."""
    files = {}
    for axes in EIGHT:
        for name, width, height, start, rows in shapes(axes):
            name = "eight" + name
            keep(name, start + rows + b"after")
            files[name] = (width, height, len(start))
    found = {name: answer(name, load(name), *file) for name, file in files.items()}
    check("many of each", len(files) == 8 * 4 + 4 + 2 * 2 and all(len(lines) == 14 for lines in found.values()))
    expect("eight orientations", [line for lines in found.values() for line in lines], 0, "info", *files)
    got, status, said = run("info", "--brief", *files)
    check("their table", got == ["\t".join(NAMES), *map(whole, found.values()), ""] and status == 0)
    expect("their light", [line for name, file in files.items() for line in stops(DOCUMENT, name, load(name), *file)], 0, "stops", *files)
    by_crate = {name: answer(name, load(name), *file, CRATE) for name, file in files.items()}
    expect("eight orientations --crate", [line for lines in by_crate.values() for line in lines], 1, "info", "--crate", *files)
    check("of which the crate takes two", {axes_of(load(name)) for name, lines in by_crate.items() if "number 2:" not in lines[1]} == {b"-Y+X", b"+X-Y"})
    TWICE.update(files)


def anew(reading, file, width, height, start):
    """The copy of a file: its header, and its stored rows by RULES 4, written by RULES 5; none where it is refused."""
    try:
        long, count = stored(reading, file[:start], width, height)
        store, at, copy = bytearray(4 * long), start, file[:start]
        for _ in range(count):
            at = read_row(reading, file, at, store, long)
            copy += write_row(store, long)
    except Fault:
        return None
    return copy


def twice():
    """A copy of a copy is the copy, by either reading under which its rows are as long, whatever the first file is like: other axes and lines, other codes for the same pixels, old runs, any light."""
    files = {name: (w, h, len(header(w, h))) for name, w, h in (("small.hdr", 9, 2), ("wide.hdr", 40000, 3), ("saved-dark.hdr", 3, 2), ("dim-edges.hdr", 3, 2), ("nothing", 8, 1), ("apart", 600, 1))}
    files["none.hdr"] = (3, 0, 22)
    rng = random.Random(29)
    every = [bytes([m, rng.randrange(256), rng.randrange(256), e]) for e in range(256) for m in (0, 1, 127, 128, 255)]
    keep("lights.hdr", header(1280, 1) + b"".join(every))
    files["lights.hdr"] = (1280, 1, len(header(1280, 1)))
    dusk = keep("dusk.hdr", open(os.path.join(TOP, "skies/dusk.hdr"), "rb").read())
    files["dusk.hdr"] = (64, 32, dusk.index(b"\n", dusk.index(b"\n\n") + 2) + 1)
    files.update(TWICE)
    copied = 0
    for name, (width, height, start) in files.items():
        for reading in (DOCUMENT, CRATE):
            want = anew(reading, load(name), width, height, start)
            if want is None:
                continue
            copied += 1
            run("copy", *reading, name, "first.hdr", "--force")
            check(" ".join(("the copy of", name, *reading)), load("first.hdr") == want)
            for again in (DOCUMENT, CRATE):
                if anew(again, want, width, height, start) is None or len({stored(one, want[:start], width, height) for one in (reading, again)}) == 2:
                    continue
                run("copy", *again, "first.hdr", "second.hdr", "--force")
                check(" ".join(("the copy of the copy of", name, *reading, "then", *again)), load("second.hdr") == want)
    print("  %d copies, each copied again" % copied)
    check("many copies of copies", copied > 30)


def main():
    copies()
    words()
    cut()
    broken()
    scattered()
    lights()
    dim()
    says()
    keeps()
    ends()
    eight()
    headers()
    wide()
    long_rows()
    large("smooth")
    large("noisy")
    full()
    kinds()
    lost()
    stopped()
    misled()
    shown()
    asked()
    built()
    tables()
    charts()
    twice()
    print("%d checked, %d differ" % (checked, len(failures)))
    sys.exit(1 if failures else 0)


main()
