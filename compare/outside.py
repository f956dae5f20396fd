"""Our files read by OpenCV, OpenImageIO and vips, theirs read by us, and their row coders beside ours; our document reading beside theirs and image's."""

import os
import subprocess
import sys
import tempfile

import cv2
import numpy
import OpenImageIO

from papers import decode, lower_edge, middle, numbers, pixels_of, split_file

SEED = int(sys.argv[1])
IMAGE = sys.argv[2]
REPLAY = sys.argv[3:]


def ask(lines):
    """The replay program's answers, each split into its fields."""
    done = subprocess.run(REPLAY, input="".join(line + "\n" for line in lines).encode(), stdout=subprocess.PIPE, check=True)
    answers = [line.split(" ") for line in done.stdout.decode().splitlines()]
    assert len(answers) == len(lines), "an answer is missing"
    return answers


def hexadecimal(data):
    return data.hex() or "-"


# ---- the programs


class OpenCV:
    name = "OpenCV " + cv2.__version__
    predicted = staticmethod(lower_edge)
    edge = "lower edge"

    @staticmethod
    def read(path):
        return cv2.imread(path, cv2.IMREAD_UNCHANGED)[:, :, ::-1]

    @staticmethod
    def write(path, frame):
        assert cv2.imwrite(path, numpy.ascontiguousarray(frame[:, :, ::-1]))


class OpenImageIO_:
    name = "OpenImageIO " + OpenImageIO.VERSION_STRING
    predicted = staticmethod(lower_edge)
    edge = "lower edge"

    @staticmethod
    def read(path):
        file = OpenImageIO.ImageInput.open(path)
        frame = file.read_image("float")
        file.close()
        return frame

    @staticmethod
    def write(path, frame):
        file = OpenImageIO.ImageOutput.create(path)
        height, width, _ = frame.shape
        assert file.open(path, OpenImageIO.ImageSpec(width, height, 3, "float"))
        assert file.write_image(numpy.ascontiguousarray(frame))
        file.close()


class Vips:
    name = subprocess.run(["vips", "--version"], stdout=subprocess.PIPE, check=True).stdout.decode().split()[0]
    predicted = staticmethod(middle)
    edge = "middle"

    @staticmethod
    def read(path):
        run = lambda *words: subprocess.run(["vips", *words], check=True)
        run("rad2float", path, path + ".v")
        run("rawsave", path + ".v", path + ".raw")
        sizes = [int(subprocess.run(["vipsheader", "-f", f, path], stdout=subprocess.PIPE, check=True).stdout) for f in ("height", "width")]
        return numpy.fromfile(path + ".raw", "=f4").reshape(*sizes, 3)

    @staticmethod
    def write(path, frame):
        height, width, _ = frame.shape
        frame.astype("=f4").tofile(path + ".raw")
        run = lambda *words: subprocess.run(["vips", *words], check=True)
        run("rawload", path + ".raw", path + ".v", str(width), str(height), "3", "--format", "float", "--interpretation", "scrgb")
        run("float2rad", path + ".v", path + ".w.v")
        run("radsave", path + ".w.v", path)


class Image:
    name = "image " + subprocess.run(["dpkg-query", "-W", "-f", "${Version}", "librust-image-dev"], stdout=subprocess.PIPE, check=True).stdout.decode().split("-")[0]
    predicted = staticmethod(lower_edge)
    edge = "lower edge"

    @staticmethod
    def read(path):
        said = subprocess.run([IMAGE, "read", path, path + ".raw"], stdout=subprocess.PIPE, check=True).stdout.decode().split()
        assert said[0] == "ok", said
        return numpy.fromfile(path + ".raw", "<f4").reshape(int(said[2]), int(said[1]), 3)


PROGRAMS = [OpenCV, OpenImageIO_, Vips]


# ---- frames


def frame_of(random, width, height, low, high):
    """A frame whose largest samples run from 2^low to below 2^high, in noise, ramps and runs."""
    brightness = numpy.exp2(random.uniform(low, high - 0.001, (height, width, 1)))
    if random.random() < 0.5:
        brightness = brightness[:, (numpy.arange(width) // random.integers(1, 200)) % width]
    frame = brightness * random.uniform(0, 1, (height, width, 3))
    frame[:, :, random.integers(3)] = brightness[:, :, 0]
    frame[random.uniform(0, 1, (height, width)) < 0.05] = 0
    if random.random() < 0.5:
        frame = frame[:, (numpy.arange(width) // 9) * 9]
    return frame.astype(numpy.float32)


WIDTHS = [1, 2, 7, 8, 9, 100, 127, 128, 129, 130, 255, 256, 257, 600]


def frames(random, low, high):
    """Frames of every width in the list, and one on each side of 32,767."""
    made = [frame_of(random, width, int(random.integers(1, 6)), low, high) for width in WIDTHS]
    return made + [frame_of(random, width, 1, low, high) for width in (32767, 32768)]


class Row:
    """One row of the table."""

    def __init__(self, *words):
        self.words, self.frames, self.values, self.near, self.differences = words, 0, 0, 0, 0

    def add(self, found, expected, inexact=None):
        """Counts values that differ; where the program's own factor is inexact, one that is next to the expected is near."""
        found, expected = numpy.asarray(found).reshape(-1), numpy.asarray(expected).reshape(-1)
        self.frames += 1
        self.values += len(expected)
        if len(found) != len(expected):
            self.differences += len(expected)
            return
        differ = found != expected
        if inexact is not None:
            near = differ & inexact.reshape(-1) & (abs(found - expected) <= expected * 2.0**-23)
            self.near += int(near.sum())
            differ &= ~near
        self.differences += int(differ.sum())

    def __str__(self):
        numbers = [self.frames, self.values, self.near, self.differences]
        return "| " + " | ".join([*self.words, *map(str, numbers)]) + " |"


def progress(words):
    print("outside: " + words, file=sys.stderr, flush=True)


def inexact_factors(folder):
    """For each program the exponent bytes whose factor it has not as a power of two, found on one flat row of ours."""
    pixels = b"".join(bytes([128, 128, 128, e]) for e in range(256))
    length, data = ask([f"write4 256 1 2000 {pixels.hex()}"])[0][2:]
    path = os.path.join(folder, "factors.hdr")
    with open(path, "wb") as file:
        file.write(bytes.fromhex(data)[:int(length)])
    found = []
    for program in PROGRAMS:
        differ = (program.read(path) != program.predicted(pixels, (1, 256)))[0, :, 0]
        found.append(numpy.flatnonzero(differ))
    return found


def ours_read_by_them(random, folder):
    """Files that we write, read by each program."""
    made = frames(random, -100, 127) + frames(random, -8, 8)
    lines = []
    for frame in made:
        height, width, _ = frame.shape
        room = 80 + height * (4 + 4 * (width + width // 128 + 1))
        lines.append(f"write {width} {height} {room} " + hexadecimal(frame.astype(">f4").tobytes()))
    answers = ask(lines)
    rows = [Row("ours", program.name, program.edge) for program in PROGRAMS]
    inexact = inexact_factors(folder)
    bytes_row = Row("ours", "the documents", "four-byte pixels")
    for number, (frame, answer) in enumerate(zip(made, answers)):
        height, width, _ = frame.shape
        assert answer[:2] == ["0", "0"], f"no file: {answer[0]}"
        data = bytes.fromhex(answer[3])[:int(answer[2])]
        pixels = pixels_of(frame)
        bytes_row.add(numbers(decode(split_file(data, width, height), width, height)), numbers(pixels))
        path = os.path.join(folder, f"ours{number}.hdr")
        with open(path, "wb") as file:
            file.write(data)
        for row, program, exponents in zip(rows, PROGRAMS, inexact):
            at = numpy.isin(numbers(pixels)[3::4], exponents).repeat(3)
            row.add(program.read(path).astype(float), program.predicted(pixels, frame.shape), at)
    notes = [f"{program.name}: factors that are no power of two at exponent bytes {list(map(int, exponents))}" for program, exponents in zip(PROGRAMS, inexact) if len(exponents)]
    return [bytes_row, *rows], notes


def theirs_read_by_us(random, folder, call, name, edge, low, high):
    """Files that each program writes, read by us, within demand 3's range for that reading: by the document it is the middle, else the lower edge."""
    table, predicted = [], {"lower edge": lower_edge, "middle": middle}[edge]
    for program in PROGRAMS:
        row = Row(program.name, name, edge + ", whole file taken")
        lines, expected = [], []
        for number, frame in enumerate(frames(random, low, high)):
            height, width, _ = frame.shape
            path = os.path.join(folder, f"theirs{number}.hdr")
            program.write(path, frame)
            with open(path, "rb") as file:
                data = file.read()
            pixels = decode(split_file(data, width, height), width, height)
            lines.append(f"{call} 65535 65535 {3 * width * height} {4 * width} " + hexadecimal(data))
            expected.append((["0", "0", str(width), str(height), str(len(data))], predicted(pixels, frame.shape)))
        for answer, (words, values) in zip(ask(lines), expected):
            found = numpy.frombuffer(bytes.fromhex(answer[5]), ">f4") if answer[:5] == words else []
            row.add(found, values)
        table.append(row)
    return table


# ---- the document reading beside the others


def half_step(pixels, shape):
    """What the middle of a step lies above its lower edge; nothing at exponent byte 0."""
    return middle(pixels, shape) - lower_edge(pixels, shape)


def patterns(samples):
    """The samples' bits, for those that have to be the same to the bit."""
    return samples.astype("<f4").view("<u4")


def read_alike(files, programs, what, folder):
    """Files, each with its four-byte pixels, read by us by the document and by the programs: the same to the bit, or half a step above a program that
    gives the lower edge. The half step is taken off ours, so that a program's inexact factor is measured against what it should give."""
    lines = [f"readd 65535 65535 {3 * w * h} {4 * w} " + hexadecimal(data) for w, h, data, _ in files]
    ours = ask(lines)
    rows = [Row(what, f"ours by the document, and {p.name}", "alike" if p.edge == "middle" else "half a step apart") for p in programs]
    inexact = dict(zip((p.name for p in PROGRAMS), inexact_factors(folder)))
    path = os.path.join(folder, "alike.hdr")
    for (w, h, data, pixels), answer in zip(files, ours):
        with open(path, "wb") as file:
            file.write(data)
        done = answer[:5] == ["0", "0", str(w), str(h), str(len(data))]
        samples = numpy.frombuffer(bytes.fromhex(answer[5]), ">f4").astype(float).reshape(h, w, 3) if done else numpy.full((h, w, 3), numpy.nan)
        at = numbers(pixels)[3::4].repeat(3)
        for row, program in zip(rows, programs):
            found = program.read(path)
            if program.edge == "middle":
                row.add(patterns(found), patterns(samples))
            else:
                row.add(found.astype(float), samples - half_step(pixels, (h, w)), numpy.isin(at, inexact.get(program.name, [])))
    return rows


def every_pair():
    """Three files of ours, a row to an exponent byte, each with all 65,536 pairs of mantissa and exponent byte: at another place of the pixel in each."""
    files = []
    for turn in range(3):
        rows = [[((m + i + turn) % 256, e) for m in range(0, 256, 3) for i in range(3)] for e in range(256)]
        assert len({pair for row in rows for pair in row}) == 65536, "a pair is missing"
        pixels = b"".join(bytes([row[i][0], row[i + 1][0], row[i + 2][0], row[i][1]]) for row in rows for i in range(0, 258, 3))
        length, data = ask([f"write4 86 256 100000 {pixels.hex()}"])[0][2:]
        files.append((86, 256, bytes.fromhex(data)[:int(length)], pixels))
    return files


def old_run_row(random, width):
    """A flat row with old runs, and its four-byte pixels: n * 256^k copies, k the runs directly ahead, 0 among the n. Some rows start with 2."""
    def pixel(red, green):
        return bytes([red, green, random.integers(0, 256), random.integers(1, 256)])

    last = row = pixel(random.choice([0, 2, 3, 200]), 3)
    pixels, shift = [last], 0
    while len(pixels) < width:
        most = (width - len(pixels)) >> shift
        kind = random.random()
        if kind < 0.1 and shift < 16:
            row, shift = row + bytes([1, 1, 1, 0]), shift + 8
        elif kind < 0.5 and most > 0:
            n = int(min(most, 255, random.choice([1, 2, 255, random.integers(1, most + 1)])))
            pixels += [last] * (n << shift)
            row, shift = row + bytes([1, 1, 1, n]), shift + 8
        else:
            last = pixel(random.integers(3, 256), random.integers(0, 256))
            row, shift = row + last, 0
            pixels.append(last)
    return row, b"".join(pixels)


def files_with_old_runs(random, count):
    files = []
    for _ in range(count):
        width, height = int(random.choice([1, 2, 5, 7, 8, 9, 20, 100, 256, 257, 258, 300, 600, 1200])), int(random.integers(1, 4))
        rows = [old_run_row(random, width) for _ in range(height)]
        head = b"#?RADIANCE\nFORMAT=32-bit_rle_rgbe\n\n-Y %d +X %d\n" % (height, width)
        files.append((width, height, head + b"".join(r for r, _ in rows), b"".join(p for _, p in rows)))
    return files


# ---- row coders


def coded_row(random, width):
    """A row whose four channels have runs of their own."""
    quads = numpy.zeros((1, width, 4), int)
    for channel, (low, high) in enumerate([(128, 256), (0, 256), (0, 256), (100, 156)]):
        letters = int(random.choice([2, 3, 20, high - low]))
        lengths = [[1], [1, 1, 1, 2, 3, 4], [1, 2, 3, 4, 5, 9], [1, 2, 3, 126, 127, 128, 129, 255]][random.integers(4)]
        place = 0
        while place < width:
            count = int(random.choice(lengths))
            quads[0, place:place + count, channel] = low + random.integers(min(letters, high - low))
            place += count
    return ((2 * quads[:, :, :3] + 1) * numpy.ldexp(1.0, quads[:, :, 3:] - 137)).astype(numpy.float32)


def row_coders(random, folder, count):
    """Random rows written by each program and by us from the same four-byte pixels."""
    table = []
    path = os.path.join(folder, "row.hdr")
    for program in PROGRAMS[:2]:
        row = Row(program.name, "ours", "the row coder's bytes")
        lines, expected = [], []
        for number in range(count):
            width = int(random.choice(WIDTHS)) if number % 2 else int(random.integers(8, 400))
            frame = coded_row(random, width)
            program.write(path, frame)
            with open(path, "rb") as file:
                rows = split_file(file.read(), width, 1)
            lines.append(f"write4 {width} 1 {len(rows) + 80} " + hexadecimal(decode(rows, width, 1)))
            expected.append((width, rows))
        for answer, (width, rows) in zip(ask(lines), expected):
            found = split_file(bytes.fromhex(answer[3])[:int(answer[2])], width, 1) if answer[0] == "0" else b""
            row.add(numbers(found), numbers(rows))
        table.append(row)
    return table


def main():
    random = numpy.random.default_rng(SEED)
    with tempfile.TemporaryDirectory() as folder:
        progress("files that we write, read by others")
        table, notes = ours_read_by_them(random, folder)
        progress("files that others write, read by us")
        table += theirs_read_by_us(random, folder, "read", "ours", "lower edge", -31, 31)
        table += theirs_read_by_us(random, folder, "readd", "ours by the document", "middle", -100, 127)
        progress("every mantissa and exponent byte, and old runs")
        table += read_alike(every_pair(), [OpenCV, OpenImageIO_, Image, Vips], "ours, all 65,536 pairs", folder)
        table += read_alike(files_with_old_runs(random, 200), [Image, Vips], "files with old runs", folder)
        progress("row coders")
        table += row_coders(random, folder, 1000)
    print(f"seed {SEED}\n")
    print("| written by | read by or held to | as | frames | values | one unit off | differences |")
    print("|---|---|---|---|---|---|---|")
    for row in table:
        print(row)
    for note in notes:
        print("\n" + note)
    sys.exit(1 if any(row.differences for row in table) else 0)


main()
