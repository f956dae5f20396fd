"""The document reading, made from docs/RULES.md and the tickets that ordered it, and from nothing of the crates.

`answer` answers the replay program's lines `readd` and `headd`. Only Python's own library is used, and a number is a fraction until it is
rounded.
"""

import functools
import re
import struct
from fractions import Fraction

LARGEST = 65535  # the largest limit that counts
BLANKS = b"\t\n\x0b\x0c\r "


class Refused(Exception):
    """A refusal: its number, and the row where it has one and that is known."""

    def __init__(self, number, row=None):
        super().__init__(number)
        self.number, self.row = number, row


class Source:
    """The bytes, and the place up to which they are taken."""

    def __init__(self, data):
        self.data, self.place = data, 0

    def take(self, count):
        """The next bytes; a missing one is 9."""
        taken = self.data[self.place:self.place + count]
        if len(taken) < count:
            raise Refused(9)
        self.place += count
        return taken

    def until(self, end):
        """The bytes up to `end`, which is taken too, or to the end of the bytes."""
        start = self.place
        found = self.data.find(end, start)
        self.place = len(self.data) if found < 0 else found + 1
        return self.data[start:self.place]


# ---- what the lines of a header say


KINDS = {b"32-bit_rle_rgbe": "rgbe", b"32-bit_rle_xyze": "xyze"}
EXPOSURE = re.compile(rb"([0-9]*)(?:\.([0-9]*))?(?:[eE]([+-]?[0-9]{1,2}))?")
INFINITE = 0x7F800000  # the bit pattern of infinity


@functools.cache
def two_to(power):
    return Fraction(2) ** power


def nearest(value):
    """The bit pattern of the f32 nearest to a fraction above 0, of two as near the one whose pattern is even; or that of infinity."""
    power = value.numerator.bit_length() - value.denominator.bit_length()
    if two_to(power) > value:
        power -= 1
    power = max(power, -126)  # of two: the largest that is not above the value, and none below -126
    # how many units there are of the last place, by Python's rounding of fractions, which takes the even one of two as near
    units = round(value / two_to(power - 23))
    return min(INFINITE, ((power + 126) << 23) + units)


def number(pattern):
    """The fraction of which this is the bit pattern, one that is not negative and not infinite."""
    power = max(pattern >> 23, 1) - 127
    return ((pattern & 0x7FFFFF) + (0x800000 if pattern >> 23 else 0)) * two_to(power - 23)


def exposure(text):
    """The bit pattern of an exposure as it is written: 1 to 7 digits with a point anywhere or none, and a power of ten or none."""
    found = EXPOSURE.fullmatch(text)
    if not found:
        raise Refused(16)
    whole, part, power = found[1], found[2] or b"", int(found[3] or 0)
    if not 1 <= len(whole + part) <= 7 or not -10 <= power - len(part) <= 10 or int(whole + part) == 0:
        raise Refused(16)
    return nearest(int(whole + part) * Fraction(10) ** (power - len(part)))


def product(a, b):
    """The bit pattern of a product of two bit patterns; one that becomes zero or infinite is 16."""
    pattern = nearest(number(a) * number(b))
    if pattern in (0, INFINITE):
        raise Refused(16)
    return pattern


def said(lines):
    """The kind of colour that the last FORMAT line says, and the bit pattern of the product of all exposures; None where there is none. 15 or 16."""
    kind = total = None
    for line in lines:
        if line.startswith(b"FORMAT="):
            kind = KINDS.get(line[7:].strip(BLANKS))
            if kind is None:
                raise Refused(15)
        if line.startswith(b"EXPOSURE="):
            factor = exposure(line[9:].strip(BLANKS))
            total = factor if total is None else product(total, factor)
    return kind, total


# ---- the header, and the checks 1 to 8


def first_line(source):
    if source.until(b"\n") not in (b"#?RADIANCE\n", b"#?RGBE\n"):
        raise Refused(1)


def further_lines(source):
    """The lines up to one whose first byte is a line feed, which is taken too, or to the end of the bytes."""
    while (line := source.until(b"\n"))[:1] not in (b"\n", b""):
        yield line


def size(field):
    digits = field[1:] if field[:1] == b"+" else field
    if not digits.isdigit() or int(digits) >= 2**64:
        raise Refused(3)
    return int(digits)


EIGHT = [(f"{a}Y".encode(), f"{b}X".encode()) for a in "-+" for b in "+-"]
EIGHT += [(b, a) for a, b in EIGHT]


def sizes(source, known=EIGHT):
    """Width, height and the two axes as they are named, which are to be known ones; 2 or 3."""
    fields = [source.until(end).strip(BLANKS) for end in (b" ", b" ", b" ", b"\n")]
    axes = fields[0], fields[2]
    if axes not in known:
        raise Refused(2)
    first, second = size(fields[1]), size(fields[3])
    return (first, second, axes) if axes[0].endswith(b"X") else (second, first, axes)


def limited_header(source, widest, highest):
    """Width, height, axes, kind of colour and exposure; 1, 15 or 16, 2, 3, 4 or 5."""
    first_line(source)
    kind, total = said(further_lines(source))
    width, height, axes = sizes(source)
    if height > min(highest, LARGEST):
        raise Refused(4)
    if width > min(widest, LARGEST):
        raise Refused(5)
    return width, height, axes, kind, total


def stored(width, height, axes):
    """How many rows are stored, and how many pixels each has: the first axis named runs from row to row."""
    return (width, height) if axes[0].endswith(b"X") else (height, width)


def checked_header(source, widest, highest, samples, places):
    """Width, height and axes, where the limits, the output and the row store allow them."""
    width, height, axes, *_ = limited_header(source, widest, highest)
    for number, failed in (
        (6, samples < 3 * width * height),
        (7, width == 0),
        (8, places < 4 * stored(width, height, axes)[1]),
    ):
        if failed:
            raise Refused(number)
    return width, height, axes


# ---- rows


def flat_part(source, store, place, end):
    """Pixels from a place of the row store to the row's end. Only whole pixels and copies enter the store."""
    ahead = 0  # the repeats directly ahead
    while place < end:
        four = source.take(4)
        if four[:3] != b"\1\1\1":
            store[place:place + 4] = four
            place, ahead = place + 4, 0
            continue
        length = 4 * four[3] * 256**ahead
        if place == 0 or place + length > end:
            raise Refused(14)
        store[place:place + length] = store[place - 4:place] * (length // 4)
        place, ahead = place + length, ahead + 1


def channel(source, store, first, width):
    """Every fourth byte of the row store, from the first on. A count that passes the row's end is at fault before its bytes are looked at."""
    done = 0
    while done < width:
        count = source.take(1)[0]
        length = count - 128 if count > 128 else count
        if done + length > width:
            raise Refused(14)
        value = source.take(1)[0] if count > 128 else None
        for at in range(done, done + length):
            store[4 * at + first] = source.take(1)[0] if value is None else value
        done += length


def row(source, store, width):
    """One row into the row store; 9 or 14."""
    end = 4 * width
    if not 8 <= width <= 32767 or source.data[source.place:source.place + 1] != b"\2":
        return flat_part(source, store, 0, end)
    four = source.take(4)
    if four[1] != 2 or four[2] >= 128:
        store[0:4] = four
        return flat_part(source, store, 4, end)
    if 256 * four[2] + four[3] != width:
        raise Refused(14)
    for first in range(4):
        channel(source, store, first, width)


# ---- the frame


def sample(mantissa, exponent):
    """(2m + 1) * 2^(E-137), the middle of the step, and 0 where E is 0: exact in Python's numbers, and an f32."""
    return (2 * mantissa + 1) * 2.0 ** (exponent - 137) if exponent else 0.0


PATTERNS = [[struct.pack(">f", sample(m, e)) for m in range(256)] for e in range(256)]


def pixel_at(width, height, axes, k, i):
    """The place in the picture, from the top row and the left pixel on, of pixel i of the stored row k."""
    first, second = axes
    steps = {first: k, second: i}
    x = steps[b"+X"] if b"+X" in steps else width - 1 - steps[b"-X"]
    y = steps[b"-Y"] if b"-Y" in steps else height - 1 - steps[b"+Y"]
    return y * width + x


def rows(source, width, height, axes, out, store):
    """The stored rows one after another into the output: how many were read, and the refusal or 0."""
    count, long = stored(width, height, axes)
    store[:4 * long] = bytes(4 * long)
    for k in range(count):
        try:
            row(source, store, long)
        except Refused as refused:
            return k, refused.number
        for i in range(long):
            r, g, b, e = store[4 * i:4 * i + 4]
            place = 3 * pixel_at(width, height, axes, k, i)
            out[place:place + 3] = PATTERNS[e][r], PATTERNS[e][g], PATTERNS[e][b]
    return count, 0


def read(data, widest, highest, out, store):
    """Number, place, width, height and bytes taken. `out` is a list of bit patterns and `store` a bytearray, both lent."""
    source = Source(data)
    try:
        width, height, axes = checked_header(source, widest, highest, len(out), len(store))
    except Refused as refused:
        return refused.number, 0, 0, 0, 0
    done, number = rows(source, width, height, axes, out, store)
    return (number, done, 0, 0, 0) if number else (0, 0, width, height, source.place)


def picture(data, limit):
    """Width, height and the samples' bit patterns, read with room enough under a limit for both sizes; or a refusal is raised."""
    width, height, axes = checked_header(Source(data), limit, limit, 3 * limit**2, 4 * limit)
    out = [b""] * (3 * width * height)
    number, row, *_ = read(data, limit, limit, out, bytearray(4 * stored(width, height, axes)[1]))
    if number:
        raise Refused(number, row)
    return width, height, b"".join(out)


# ---- lines


def lent_samples(count):
    return [struct.pack(">f", i % 251) for i in range(count)]


def lent_bytes(count):
    return bytearray(i % 251 for i in range(count))


def bytes_of(data):
    return b"" if data == "-" else bytes.fromhex(data)


def read_answer(widest, highest, samples, places, data):
    out, store = lent_samples(samples), lent_bytes(places)
    words = read(bytes_of(data), widest, highest, out, store)
    return " ".join([*map(str, words), b"".join(out).hex() or "-", store.hex() or "-"])


def head_answer(widest, highest, data):
    source = Source(bytes_of(data))
    try:
        width, height, axes, kind, total = limited_header(source, widest, highest)
    except Refused as refused:
        return f"{refused.number} 0 0 0 0 none none none"
    return f"0 0 {width} {height} {source.place} {kind or 'none'} {'none' if total is None else format(total, '08x')} {b''.join(axes).decode()}"


def answer(line):
    """The answer to a line `readd MAXW MAXH OUTLEN STORELEN BYTES` or `headd MAXW MAXH BYTES`."""
    word, *numbers, data = line.split(" ")
    call, count = {"readd": (read_answer, 4), "headd": (head_answer, 2)}[word]
    assert len(numbers) == count, line
    return call(*map(int, numbers), data)
