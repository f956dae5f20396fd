"""Cases of the document reading, files and headers, answered by the replay program and by compare/reading.py: document.py SEED COUNT DIFFERENCES PROGRAM.."""

import collections
import itertools
import random
import subprocess
import sys
from fractions import Fraction

import list_document
import list_header
import list_orientation
import reading
from lines import file, hexed

PART = 4000  # lines to a run of the program


def line(data, w, h, out=0, store=0, limits=(65535, 65535), long=None):
    """A line for a file of w by h; `out` and `store` are how much is lent beyond what is needed, or how much less. A stored row is w long, unless it is told."""
    return f"readd {limits[0]} {limits[1]} {max(0, 3 * w * h + out)} {max(0, 4 * (w if long is None else long) + store)} {hexed(data)}"


# ---- every case of a kind


def every_value():
    """All pairs of mantissa and exponent byte: a pixel has three mantissas, and none starts 1,1,1 or is a mark's."""
    for e in range(256):
        rows = [b for m in range(0, 256, 2) for b in (m, m + 1, 255 - m, e)]
        yield line(file(128, 1, rows), 128, 1)


def every_flat_row():
    """Lists of up to five pixels and repeats, a first pixel that starts with 2 among them, at narrow widths and at 8."""
    letters = [[9, 8, 7, 129], [1, 1, 2, 129], [2, 2, 128, 9], *([1, 1, 1, n] for n in (0, 1, 2, 3, 7, 255))]
    for count in range(6):
        for chosen in itertools.product(letters, repeat=count):
            if count == 5 and chosen[0] is not letters[0]:
                continue
            rows = sum(chosen, [])
            for w in (1, 3, 4, 8):
                if w == 4 or count < 4:
                    yield line(file(w, 1, rows), w, 1)


def every_mark():
    """Four bytes over eight letters as a row's start, with none, a few or enough bytes behind them."""
    behind = ([], [136, 5], [136, 5] * 3 + [136, 130], [7, 7, 7, 130] * 7)
    for four in itertools.product((0, 1, 2, 8, 9, 127, 128, 255), repeat=4):
        for more in behind if four[0] == 2 else behind[1:2]:
            yield line(file(8, 1, [*four, *more]), 8, 1)


def every_channel():
    """Lists of up to four counts, with the bytes that they ask for or fewer, as the first channel or as the last."""
    counts = (0, 1, 2, 7, 8, 9, 128, 129, 130, 135, 136, 137, 255)
    for count in range(5):
        for chosen in itertools.product(counts if count < 4 else counts[::2], repeat=count):
            codes = [b for i, c in enumerate(chosen) for b in [c] + [60 + i] * (1 if c > 128 else min(c, 9))]
            for rows in (codes + [136, 5] * 3, [136, 5] * 3 + codes, codes[:-1]):
                yield line(file(8, 1, [2, 2, 0, 8] + rows), 8, 1)


def every_beginning():
    """Good files of each kind that lose their end at every place behind the header."""
    chance = random.Random(1)
    for _ in range(60):
        w, h = chance.choice((1, 2, 5, 7, 8, 9, 12, 20)), chance.randint(1, 3)
        rows = sum((good_row(chance, w) for _ in range(h)), [])
        for n in range(len(rows) + 1):
            yield line(file(w, h, rows[:n]), w, h)


# ---- orientations


AXES = [(a, b) for a in ("-Y", "+Y") for b in ("+X", "-X")]
AXES += [(b, a) for a, b in AXES]


def turned(axes, count, long, rows):
    """A file of so many stored rows; its width and its height."""
    first, second = axes
    w, h = (count, long) if first[1] == "X" else (long, count)
    return f"#?RGBE\n\n{first} {count} {second} {long}\n".encode() + bytes(rows), w, h


def every_orientation():
    """Good files of all eight, in many shapes, and every beginning of the small ones."""
    chance = random.Random(2)
    for axes in AXES:
        for count, long in itertools.product((0, 1, 2, 3, 7, 8, 9), (0, 1, 2, 3, 7, 8, 9, 129)):
            rows = sum((good_row(chance, long) for _ in range(count)), [])
            yield line(*turned(axes, count, long, rows), long=long)
            for n in range(len(rows)) if count in (2, 3) and long < 9 else ():
                yield line(*turned(axes, count, long, rows[:n]), long=long)


def wide_rows():
    """Rows and columns on both sides of 32,767, coded, by repeats, and with a repeat that passes their end."""
    for axes, w in itertools.product((AXES[0], AXES[-1]), (32767, 32768)):
        for more in (-1, 0, 1):
            n = w - 1 + more
            for start in ([9, 8, 7, 129], [2, 2, w // 256, w % 256]):
                yield line(*turned(axes, 1, w, start + [1, 1, 1, n % 256, 1, 1, 1, n // 256, 5, 6, 7, 130]), long=w)
        codes = [255, 130] * (w // 127) + [128 + w % 127, 130]
        for named in (w - 1, w, w + 1):
            yield line(*turned(axes, 1, w, [2, 2, named // 256, named % 256] + codes * 4), long=w)


def every_pair():
    """All pairs of names of axes and of what is near them, at the head of a file."""
    names = ("-Y", "+Y", "-X", "+X", "Y", "X", "-y", "+x", "", "-", "--Y", "+XX", "Z", "-Y+X")
    for a, b in itertools.product(names, repeat=2):
        for sizes in ((2, 3), (0, 1), (1, 0), (65535, 65535), (65536, 1), (1, 65536)):
            data = f"#?RGBE\n\n{a} {sizes[0]} {b} {sizes[1]}\n".encode()
            yield f"headd 65535 65535 {hexed(data)}"
            if sizes[0] < 4:
                yield line(data + bytes([9, 8, 7, 129] * 6), 2, 3, long=3)


# ---- random ones


def noise(chance):
    """A pixel that is no repeat and does not start with 2."""
    exponent = chance.choice((0, 1, 9, 96, 97, 159, 160, 255, chance.randrange(256)))
    return [chance.choice((0, 3, 9, 128, 255, chance.randrange(3, 256))), chance.randrange(256), chance.randrange(256), exponent]


def flat_row(chance, w):
    """Pixels and repeats that fill the row: k grows with the repeats directly ahead, 0 among them."""
    row = noise(chance)
    if chance.random() < 0.2:
        row[:3] = [2, *chance.choice(((3, 4), (0, 0), (2, 128), (2, 255), (1, 1)))]
    done, k = 1, 0
    while done < w:
        left, scale = w - done, 256**k
        kind = chance.random()
        if kind < 0.15:
            row, k = row + [1, 1, 1, 0], k + 1
        elif kind < 0.5 and scale <= left:
            n = min(255, left // scale, chance.choice((1, 2, 255, chance.randint(1, left // scale))))
            row, done, k = row + [1, 1, 1, n], done + n * scale, k + 1
        else:
            row, done, k = row + noise(chance), done + 1, 0
    return row


def channel(chance, w):
    """Counts that fill a channel: runs and literals of many lengths, and counts of 0."""
    codes, left = [], w
    while left:
        if chance.random() < 0.1:
            codes.append(0)
        n = min(left, chance.choice((1, 2, 3, 126, 127, 128, left, chance.randint(1, left))))
        if chance.random() < 0.5:
            n = min(n, 127)
            codes += [128 + n, chance.randrange(256)]
        else:
            n = min(n, 128)
            codes += [n, *(chance.randrange(256) for _ in range(n))]
        left -= n
    return codes


def good_row(chance, w):
    if not 8 <= w <= 32767 or chance.random() < 0.4:
        return flat_row(chance, w)
    return [2, 2, w // 256, w % 256] + sum((channel(chance, w) for _ in range(4)), [])


WIDTHS = (1, 2, 3, 4, 7, 8, 8, 8, 9, 12, 20, 40, 127, 128, 129, 255, 256, 257, 258, 300, 520)
BYTES = (0, 1, 2, 3, 7, 8, 9, 127, 128, 129, 135, 136, 137, 255)


def damaged(chance, rows):
    """Bytes changed, lost, doubled, put in or cut off; an old run put in."""
    at = chance.randrange(len(rows) + 1)
    kind = chance.randrange(7)
    if kind == 0:
        return rows[:at]
    if kind == 1:
        return rows[:at] + rows[at + chance.randint(1, 4):]
    if kind == 2:
        return rows[:at] + [chance.choice(BYTES)] + rows[at:]
    if kind == 3:
        at -= at % 4
        return rows[:at] + [1, 1, 1, chance.choice(BYTES)] + rows[at + 4 * chance.randrange(2):]
    if kind == 4:
        return rows[:at] + rows[max(0, at - chance.randint(1, 8)):]
    byte = chance.choice(BYTES) if kind == 5 else chance.randrange(256)
    return rows[:at] + [byte] + rows[at + 1:]


def good_file(chance):
    """Axes, of which half are -Y +X, how many rows are stored, how long each is, and their bytes."""
    axes = chance.choice(AXES if chance.random() < 0.57 else AXES[:1])
    long = chance.choice(WIDTHS)
    count = chance.randint(int(axes[0][1] == "X"), 1 + 40 // long)
    rows = sum((good_row(chance, long) for _ in range(count)), [])
    return axes, count, long, rows


def random_line(chance, damages):
    """A good file with so many damages, and now and then with bytes behind, odd buffers and odd limits."""
    axes, count, long, rows = good_file(chance)
    for _ in range(damages):
        rows = damaged(chance, rows)
    if chance.random() < 0.2:
        rows = rows + [chance.choice(BYTES) for _ in range(chance.randint(1, 9))]
    data, w, h = turned(axes, count, long, rows)
    out, store, limits = 0, 0, (65535, 65535)
    if chance.random() < 0.1:
        out, store = chance.choice((-1, 0, 1, 7)), chance.choice((-1, 0, 1, 9))
    if chance.random() < 0.05:
        limits = chance.choice(((w, h), (max(0, w - 1), h), (w, max(0, h - 1)), (h, w), (2**64 - 1, 65536)))
    return line(data, w, h, out, store, limits, long)


# ---- what headers say


def header(lines, sizes=b"-Y 3 +X 4\n", first=b"#?RADIANCE\n"):
    return f"headd 65535 65535 {hexed(first + b''.join(lines) + bytes([10]) + sizes)}"


def every_text():
    """An EXPOSURE line of every text of up to five letters out of seven."""
    return list_header.texts(b"07.eE+-", 5)


def every_power():
    """Digits with a point at each place, and every power of two digits."""
    for digits in (b"1", b"37", b"1234567"):
        for at in range(len(digits) + 2):
            text = digits[:at] + b"." * (at <= len(digits)) + digits[at:]
            for power in range(-99, 100):
                yield header([b"EXPOSURE=%se%d\n" % (text, power)])


def decimal(chance):
    """An exposure as it may be written: most can be read."""
    count = chance.choice((1, 2, 3, 6, 7, 7, 7, chance.randint(1, 7)))
    digits = "".join(chance.choice("0123456789") for _ in range(count))
    at = chance.randint(0, count)
    point = chance.random() < 0.6
    text = digits[:at] + "." + digits[at:] if point else digits
    if chance.random() < 0.7:
        power = chance.randint(-10, 10) + (count - at if point else 0)
        if chance.random() < 0.05:
            power += chance.choice((-1, 1, 20))
        sign = "-" if power < 0 else chance.choice(("", "+"))
        text += chance.choice("eE") + sign + format(abs(power), chance.choice(("", "02")))
    return text.encode()


def near_a_tie(chance):
    """Seven digits and a power: in the middle between two f32, where there is such a number, or as close to it as one comes."""
    power, digits = chance.randint(-10, 10), chance.randint(1000000, 9999999)
    place = reading.nearest(digits * Fraction(10) ** power) >> 23  # 2^(place - 150) is the unit of the last place
    # digits * 10^power are digits * factor / modulus units, and the middle is half of the modulus
    units = Fraction(10) ** power / Fraction(2) ** (place - 150)
    factor, modulus = units.numerator, units.denominator
    close = (modulus // 2 + chance.choice((-1, 0, 0, 1))) * pow(factor, -1, modulus) if modulus > 1 else digits
    return b"%de%d" % (max(1, digits - (digits - close) % modulus), power)


BLANK = ["", "", "", " ", "\t", "\r", "\v\f", " \r"]
ODD = (
    b"FORMAT=16-bit_any\n", b"FORMAT=\n", b" FORMAT=x\n", b"FORMAT =x\n", b"format=x\n", b"EXPOSURE=\n", b"EXPOSURE=0\n", b"EXPOSURE=-1\n", b"EXPOSURE=1,5\n", b" EXPOSURE=x\n", b"EXPOSURE =0\n", b"EXPOSURE=nan\n",
    b"VIEW=-vtv\n", b"# text\n", b"\r\n", b"EXPOSURE=2\r\n", b"FORMAT\n",
)  # fmt: skip


def random_text(chance):
    return near_a_tie(chance) if chance.random() < 0.2 else decimal(chance)


def random_header_line(chance, oddity):
    blank = (lambda: chance.choice(BLANK).encode())
    kind = chance.random()
    if kind < oddity:
        return chance.choice(ODD)
    if kind < 0.3:
        return b"FORMAT=" + blank() + chance.choice((b"32-bit_rle_rgbe", b"32-bit_rle_xyze")) + blank() + b"\n"
    if kind < 0.8:
        return b"EXPOSURE=" + blank() + random_text(chance) + blank() + b"\n"
    return chance.choice(ODD[-5:])


def damaged_bytes(chance, data):
    at = chance.randrange(len(data) + 1)
    byte = bytes([chance.choice(b"\n\r 0159.eE+-=FX\0\xff")])
    return chance.choice((data[:at], data[:at] + data[at + 1:], data[:at] + byte + data[at:], data[:at] + byte + data[at + 1:]))


def random_sizes(chance):
    """A line of sizes: -Y and +X in either order, or any of the eight, and now and then none of them."""
    a, b = chance.choice(AXES) if chance.random() < 0.3 else AXES[0]
    if chance.random() < 0.95:
        return chance.choice((f"{a} 3 {b} 4\n", f"{b} 4 {a} 3\n", f"\n{a} 0 {b} 0", f"{a} 65535 {b} 65535\n")).encode()
    return chance.choice((f"{a} 3 {a} 4\n", f"{a} x {b} 1\n", f"{a} 65536 {b} 1\n", f"{a} 1 {b} 65536\n", f"{a[1]} 1 {b} 1\n", "")).encode()


def random_header(chance):
    """Up to six lines, and now and then a wrong first line, odd sizes, a byte of all that changed, lost or put in, or the end cut off."""
    lines = [random_header_line(chance, chance.choice((0, 0, 0.1))) for _ in range(chance.randint(0, 6))]
    first = b"#?RGBE\n" if chance.random() < 0.99 else b"#?RGBX\n"
    data = first + b"".join(lines) + b"\n" + random_sizes(chance)
    if chance.random() < 0.2:
        data = damaged_bytes(chance, data)
    return f"headd 65535 65535 {hexed(data)}"


def random_product(chance):
    """Up to sixteen factors, of which many bring the product to the ends of the f32: to subnormal ones, to zero, to infinity."""
    goal = chance.choice((None, -149, -140, -126, 127, 128))
    texts = [random_text(chance) for _ in range(chance.randint(2, 6))]
    if goal is not None:
        far = b"9765625e-10" if goal < 0 else b"1024"
        small = (b".5", b".25", b".75", b".6", b"1.5", b"3", b".3") if goal < 0 else (b"2", b"4", b"1.5", b"1.25", b"1.999999", b"4097", b"1801")
        texts = [chance.choice((b"1", b"3", b"4095", b"18631", random_text(chance)))] + [far] * (abs(goal) // 10 - chance.randint(0, 1)) + [chance.choice(small) for _ in range(chance.randint(0, 12))]
    return header([b"EXPOSURE=" + text + b"\n" for text in texts])


def kinds(seed, count):
    """The kinds of cases, each with its name and its lines."""
    chance = random.Random(seed)
    yield "the fixed list's", [line for line, _ in list_document.by_hand()] + list(list_document.by_reading())
    yield "the fixed list's headers", [line for line, _ in list_header.by_hand() if line.startswith(("readd ", "headd "))] + list(list_header.by_reading())
    yield "the fixed list's orientations", [line for line, _ in list_orientation.by_hand() if line.startswith(("readd ", "headd "))] + list(list_orientation.by_reading())
    yield "every mantissa and exponent", every_value()
    yield "flat rows, every short list", every_flat_row()
    yield "marks, every four bytes", every_mark()
    yield "channel codes, every short list", every_channel()
    yield "every beginning of good files", every_beginning()
    yield "wide rows and columns", wide_rows()
    yield "orientations, all eight in many shapes", every_orientation()
    yield "pairs of axes, every one and what is near", every_pair()
    yield "exposures, every short text", every_text()
    yield "exposures, every power", every_power()
    yield "good files, random", (random_line(chance, 0) for _ in range(count // 5))
    yield "one damage, random", (random_line(chance, 1) for _ in range(count // 2))
    yield "several damages, random", (random_line(chance, chance.randint(2, 5)) for _ in range(count - count // 5 - count // 2))
    yield "headers, random", (random_header(chance) for _ in range(count // 2))
    yield "products, random", (random_product(chance) for _ in range(count // 5))


# ---- held together


def parts(lines):
    lines = iter(lines)
    while part := list(itertools.islice(lines, PART)):
        yield part


def answers(program, part):
    text = "".join(line + "\n" for line in part).encode()
    done = subprocess.run(program, input=text, stdout=subprocess.PIPE, check=True)
    return done.stdout.decode().split("\n")[:-1]


def held(program, lines, differences):
    """How many lines there are, how many of each number, and how many differ."""
    numbers, differ = collections.Counter(), 0
    for part in parts(lines):
        found = answers(program, part)
        assert len(found) == len(part), "an answer is missing"
        for asked, theirs in zip(part, found):
            ours = reading.answer(asked)
            numbers[ours.split(" ", 1)[0]] += 1
            if theirs != ours:
                differ += 1
                differences.write(f"{asked}\n  replay: {theirs}\n  rules:  {ours}\n")
    return sum(numbers.values()), *(numbers[n] for n in ("0", "9", "14", "15", "16")), differ


def main():
    seed, count, path, *program = sys.argv[1:]
    sums = [0] * 7
    print("| kind of case | lines | read | 9 | 14 | 15 | 16 | other refusals | differences |")
    print("|---|---|---|---|---|---|---|---|---|")

    def show(name, numbers):
        lines, *counted, differ = numbers
        print("|", " | ".join(map(str, (name, lines, *counted, lines - sum(counted), differ))), "|", flush=True)

    with open(path, "w") as differences:
        for name, lines in kinds(int(seed), int(count)):
            numbers = held(program, lines, differences)
            sums = [a + b for a, b in zip(sums, numbers)]
            show(name, numbers)
    show("all", sums)
    sys.exit(1 if sums[-1] else 0)


main()
