"""The fixed list's lines of the document reading: `by_hand` with their answers, `by_reading` those that compare/reading.py answers."""

from lines import file, hexed, lent, lent_samples, middles

P, Q = [10, 20, 30, 129], [40, 50, 60, 130]
TWO = [2, 3, 4, 129]  # a pixel that starts with 2 and is no mark

# A coded row of 8: a run; literals; a run and literals; counts of 0, runs and literals. And what it puts into the row store.
EIGHT = [2, 2, 0, 8] + [136, 7] + [8, 1, 2, 3, 4, 5, 6, 7, 8] + [131, 9, 5, 5, 4, 3, 2, 1] + [0, 132, 129, 0, 2, 130, 131, 130, 128]
EIGHT_PIXELS = [
    [7, 1, 9, 129], [7, 2, 9, 129], [7, 3, 9, 129], [7, 4, 5, 129], [7, 5, 4, 130], [7, 6, 3, 131], [7, 7, 2, 128], [7, 8, 1, 128],
]  # fmt: skip


def run(n):
    """An old run: a pixel 1,1,1,n."""
    return [1, 1, 1, n]


def reds(values):
    """A row store in which the first channel alone has bytes."""
    return [b for v in values for b in (v, 0, 0, 0)]


# ---- by hand


def told(number, w, h, rows, shown, store=None, behind=()):
    """A reading that is done, or refused in the row after the pixels that are shown; and the row store, which ends in zeros."""
    data = file(w, h, rows)
    store = sum(shown[-w:], []) if store is None else store
    out = middles(shown) + lent_samples(3 * w * h)[24 * len(shown):]
    words = f"{number} {len(shown) // w} 0 0 0" if number else f"0 0 {w} {h} {len(data)}"
    line = f"readd 65535 65535 {3 * w * h} {4 * w} {hexed(data + bytes(behind))}"
    return line, f"{words} {out} {hexed(store + [0] * (4 * w - len(store)))}"


def repeats():
    """n * 256^k copies; 0 counts in k; a pixel begins k anew, and so does a row; sample sky 5's row is the first."""
    yield told(0, 4, 1, P + Q + run(2), [P, Q, Q, Q])
    yield told(0, 4, 1, P + run(3), [P] * 4, behind=run(3))
    yield told(0, 5, 1, P + run(1) + Q + run(2), [P, P, Q, Q, Q])
    yield told(0, 6, 2, (P + run(2) + Q + run(2)) * 2, ([P] * 3 + [Q] * 3) * 2)
    yield told(0, 3, 1, P + run(0) + Q + run(0) + P, [P, Q, P])
    yield told(0, 2, 1, P + run(0) * 5 + Q, [P, Q])
    yield told(0, 260, 1, P + run(3) + run(1), [P] * 260)
    yield told(0, 257, 1, P + run(0) + run(1), [P] * 257)
    yield told(0, 258, 1, P + run(0) + run(1) + Q, [P] * 257 + [Q])
    yield told(14, 260, 1, P + run(0) * 2 + run(1), [], P)
    yield told(14, 260, 1, P + run(0) * 3 + run(255), [], P)
    # n * 256^k has no upper end: not at 2^16, 2^32 or 2^64
    for k in (2, 3, 4, 7, 8, 9, 16, 32, 64):
        yield told(14, 4, 1, P + run(0) * k + run(1), [], P, behind=Q * 3)
        yield told(0, 2, 1, P + run(0) * k + Q, [P, Q], behind=Q)
    # one that passes the row's end writes nothing
    yield told(14, 4, 1, P + run(4), [], P)
    yield told(14, 4, 1, P + run(2) + run(1), [], P * 3)
    yield told(14, 5, 2, P * 5 + Q + run(255), [P] * 5, Q + P * 4)
    # pixel 0 of a row that starts with 2 counts as a pixel
    yield told(0, 9, 1, TWO + run(8), [TWO] * 9)
    yield told(0, 9, 1, [2, 2, 128, 129] + run(7) + P, [[2, 2, 128, 129]] * 8 + [P])
    yield told(14, 9, 1, TWO + run(9), [], TWO)
    yield told(0, 7, 1, [2, 2, 0, 7] + run(6), [[2, 2, 0, 7]] * 7)


def first_in_a_row():
    """A repeat with no pixel before it in its row: 14 for every n. Where a byte of it is missing: 9."""
    for n in (0, 1, 3, 255):
        yield told(14, 5, 1, run(n), [])
        yield told(14, 5, 2, P * 5 + run(n), [P] * 5, behind=Q * 5)
        yield told(14, 9, 1, run(n), [], behind=P * 9)
        yield told(14, 8, 2, EIGHT + run(n), EIGHT_PIXELS)
    for n in range(4):
        yield told(9, 5, 1, [1] * n, [])
        yield told(9, 5, 2, P * 5 + [1] * n, [P] * 5)
        yield told(9, 9, 1, [1] * n, [])


def missing_in_flat_parts():
    """A pixel enters the row store only whole, a repeat's bytes never, and no byte of four that start with 2 early."""
    for n in range(4):
        for start in (P, TWO):
            yield told(9, 9, 1, start + [1] * n, [], start)
            yield told(9, 9, 1, start + [7] * n, [], start)
        yield told(9, 9, 1, P + run(3) + [7] * n, [], P * 4)
        yield told(9, 5, 2, P * 5 + [7] * n, [P] * 5)
        yield told(9, 8, 2, EIGHT + [7] * n, EIGHT_PIXELS)
        for start in ([2, 3, 4], [2, 2, 0], [2, 2, 200]):
            yield told(9, 8, 2, EIGHT + start[:n], EIGHT_PIXELS)
            yield told(9, 8, 1, start[:n], [])


def marks():
    """The mark's width: 14 as soon as the four bytes are there, whatever follows; no byte of it is stored."""
    for mark in ([2, 2, 0, 7], [2, 2, 0, 9], [2, 2, 1, 8], [2, 2, 127, 255], [2, 2, 0, 0], [2, 2, 8, 0]):
        yield told(14, 8, 1, mark, [])
        yield told(14, 8, 1, mark + EIGHT[4:], [])
        yield told(14, 8, 2, EIGHT + mark, EIGHT_PIXELS, behind=EIGHT[4:])


def counts():
    """0 does nothing, 128 is literals; one that passes the row's end is 14 with no byte behind it, and writes nothing."""
    yield told(0, 8, 1, EIGHT, EIGHT_PIXELS)
    yield told(0, 8, 2, EIGHT * 2, EIGHT_PIXELS * 2, behind=[5])
    for count in (9, 127, 128, 137, 255):
        yield told(14, 8, 1, [2, 2, 0, 8, count], [])
        yield told(14, 8, 1, [2, 2, 0, 8, count], [], behind=[5] * 200)
        yield told(14, 8, 1, [2, 2, 0, 8, 1, 5, 0, count], [], reds([5]), behind=[6])
    yield told(14, 8, 1, [2, 2, 0, 8, 7, 1, 2, 3, 4, 5, 6, 7, 130], [], reds([1, 2, 3, 4, 5, 6, 7]))
    yield told(14, 8, 1, [2, 2, 0, 8, 7, 1, 2, 3, 4, 5, 6, 7, 2], [], reds([1, 2, 3, 4, 5, 6, 7]))
    # missing bytes: literals before one stand in the store, a run writes nothing
    for codes, values in (([], []), ([136], []), ([0], []), ([3], []), ([3, 1, 2], [1, 2]), ([3, 1, 2, 3], [1, 2, 3]), ([3, 1, 2, 3, 133], [1, 2, 3]), ([131, 4, 5], [4] * 3)):
        yield told(9, 8, 1, [2, 2, 0, 8] + codes, [], reds(values))
        yield told(9, 8, 2, EIGHT + [2, 2, 0, 8] + codes, EIGHT_PIXELS, [b for i, p in enumerate(EIGHT_PIXELS) for b in values[i:i + 1] + p[len(values[i:i + 1]):]])
    # the cuts that the crate reading passes: before the last run's byte, and before the last literal
    yield told(9, 8, 1, [2, 2, 0, 8, 136, 5, 136, 6, 136, 7, 136], [], [5, 6, 7, 0] * 8)
    yield told(9, 8, 1, [2, 2, 0, 8, 136, 5, 136, 6, 136, 7, 8] + [129] * 7, [], [5, 6, 7, 129] * 7 + [5, 6, 7, 0])
    # a row's first byte is missing
    yield told(9, 8, 2, EIGHT, EIGHT_PIXELS)
    yield told(9, 3, 1, [], [])


def memory():
    """The checks 6 to 8 come first; places beyond the result and beyond 4w bytes of the row store are as lent."""
    fault, sound = hexed(file(1, 2, P + run(5))), hexed(file(1, 2, P + Q))
    for data in (fault, sound):
        yield f"readd 9 9 5 4 {data}", f"6 0 0 0 0 {lent_samples(5)} {lent(4)}"
        yield f"readd 9 9 6 3 {data}", f"8 0 0 0 0 {lent_samples(6)} {lent(3)}"
        yield f"readd 9 1 6 4 {data}", f"4 0 0 0 0 {lent_samples(6)} {lent(4)}"
        yield f"readd 0 9 6 4 {data}", f"5 0 0 0 0 {lent_samples(6)} {lent(4)}"
    yield f"readd 9 9 8 6 {fault}", f"14 1 0 0 0 {middles([P])}{lent_samples(8)[24:]} {hexed(P + [4, 5])}"
    yield f"readd 9 9 8 6 {sound}", f"0 0 1 2 26 {middles([P, Q])}{lent_samples(8)[48:]} {hexed(Q + [4, 5])}"
    yield f"readd 9 9 0 0 {hexed(file(0, 1, run(5)))}", "7 0 0 0 0 - -"
    yield f"readd 9 9 0 4 {hexed(file(1, 0, run(5)))}", "0 0 1 0 18 - 00000000"


def values():
    """Samples at the ends of the exponent bytes and around 97 and 159, subnormal ones too; 0 at exponent byte 0, and nowhere else."""
    for four, samples in (
        # 0 whatever the mantissas are
        ([0, 0, 0, 0], "00000000" * 3),
        ([0, 1, 255, 0], "00000000" * 3),
        ([255, 255, 255, 0], "00000000" * 3),
        # 257, 3 and 511 halves of the least step, 2^-136; 257, 129 and 65 of 2^-8
        ([128, 1, 255, 1], "00202000" "00006000" "003fe000"),
        ([128, 64, 32, 129], "3f808000" "3f010000" "3e820000"),
        # sample sky 4: 257 * 2^-41 and 257 * 2^23
        ([128, 0, 0, 96], "2f008000" "2b000000" "2b000000"),
        ([128, 0, 0, 160], "4f008000" "4b000000" "4b000000"),
        ([128, 1, 0, 96], "2f008000" "2bc00000" "2b000000"),
        ([128, 1, 0, 160], "4f008000" "4bc00000" "4b000000"),
        # where the crate's sample is half a step below: 2^-39 and 0, and 2^30, 2^29, 2^28
        ([1, 0, 0, 97], "2c400000" "2b800000" "2b800000"),
        ([128, 64, 32, 159], "4e808000" "4e010000" "4d820000"),
        # the brightest, 511 * 2^118
        ([128, 255, 0, 255], "7e808000" "7eff8000" "7a800000"),
        ([255, 255, 255, 255], "7eff8000" * 3),
        # a mantissa of 0 is half a step, 2^(E-137): the least of all is 2^-136, and 2^-126 the first that is not subnormal
        ([0, 0, 0, 1], "00002000" * 3),
        ([0, 0, 0, 9], "00200000" * 3),
        ([0, 0, 0, 10], "00400000" * 3),
        ([0, 0, 0, 11], "00800000" * 3),
        ([0, 0, 0, 22], "06000000" * 3),
        ([0, 0, 0, 97], "2b800000" * 3),
        ([0, 0, 0, 128], "3b000000" * 3),
        ([0, 0, 0, 159], "4a800000" * 3),
        ([0, 0, 0, 255], "7a800000" * 3),
        # subnormal beside what is not, in one pixel
        ([0, 1, 255, 9], "00200000" "00600000" "03ff8000"),
        ([0, 1, 255, 10], "00400000" "00c00000" "047f8000"),
    ):
        yield f"readd 9 9 3 4 {hexed(file(1, 1, four))}", f"0 0 1 1 22 {samples} {hexed(four)}"


def by_hand():
    for part in (repeats, first_in_a_row, missing_in_flat_parts, marks, counts, memory, values):
        yield from part()


# ---- by compare/reading.py


def line(w, h, rows, spare=0):
    return f"readd 65535 65535 {3 * w * h + spare} {4 * w + spare} {hexed(file(w, h, rows))}"


def exponents():
    """Every exponent byte, sixteen to a flat row."""
    for start in range(0, 256, 16):
        yield line(16, 1, sum(([255, 1, 128, e] for e in range(start, start + 16)), []))


GOOD = [
    (2, 2, P + Q + Q + P),
    (5, 2, P + run(1) + Q + run(0) + P + Q + Q + run(3) + P),
    (9, 2, TWO + run(3) + P + run(3) + Q + [2, 2, 128, 1] + run(0) * 2 + P + Q * 7),
    (8, 2, EIGHT + [2, 2, 0, 8] + [136, 1, 4, 1, 2, 3, 4, 132, 5, 136, 3, 136, 129]),
    (8, 3, P + Q + run(6) + EIGHT + TWO + run(7)),
    (260, 1, P + run(2) + run(1) + Q),
]


def beginnings():
    """Every beginning of good files: each that loses a byte of a row is 9 in that row. And bytes behind the file."""
    for w, h, rows in GOOD[:5]:
        for n in range(len(rows) + 1):
            yield line(w, h, rows[:n])
        for behind in ([0], run(2), EIGHT):
            yield line(w, h, rows + behind, spare=3)
    for n in range(len(GOOD[5][2]) + 1):
        if n % 4 in (0, 3):
            yield line(260, 1, GOOD[5][2][:n])
    whole = file(2, 1, P + Q)
    for n in range(0, len(whole) - 8, 3):
        yield f"readd 9 9 6 8 {hexed(whole[:n])}"


def faults():
    """One byte of a good file changed, at every place."""
    for (w, h, rows), letters in zip(GOOD, ([1], [1, 255], [1], [0, 9, 128, 137, 255], [1, 2])):
        for at in range(len(rows)):
            for byte in letters:
                yield line(w, h, rows[:at] + [byte] + rows[at + 1:])


def coded_row(w):
    """A coded row of runs of 127 and one of literals of 128."""
    runs = [code for left in range(w, 0, -127) for code in (128 + min(left, 127), 100 + left % 50)]
    literals = [code for at in range(0, w, 128) for code in [min(128, w - at), *range(1, min(128, w - at) + 1)]]
    return [2, 2, w // 256, w % 256] + runs + literals + runs * 2


def repeated_row(w, more=0):
    """A row of one pixel and repeats of it, as few as they can be, and so many pixels more than the row holds."""
    low, high = (w - 1 + more) % 256, (w - 1 + more) // 256
    return P + run(low) + (run(high) if high else [])


def widths():
    """Rows of each kind at each boundary width, with a pixel or a count more and less than the row holds."""
    for w in (1, 2, 7, 8, 9, 127, 128, 129, 255, 256, 257, 258):
        yield line(w, 1, P * w)
        yield line(w, 1, TWO + P * (w - 1))
        yield line(w, 1, repeated_row(w))
        yield line(w, 1, repeated_row(w, 1))
        yield line(w, 1, P + Q + run(max(w - 3, 0) % 256) + P * 3)
        yield line(w, 1, [2, 2, w // 256, w % 256] + P * w)
        if w >= 8:
            yield line(w, 1, coded_row(w))
            yield line(w, 1, [2, 2, w // 256, w % 256] + coded_row(w - 1)[4:] + [5])
            yield line(w, 1, coded_row(w + 1))
            yield line(w, 1, [2, 2, w // 256, w % 256] + coded_row(w + 1)[4:])
    for w in (32767, 32768, 65535):
        yield f"readd 65535 65535 0 0 {hexed(file(w, 1, repeated_row(w)))}"
        yield f"readd {w - 1} 1 0 0 {hexed(file(w, 1, repeated_row(w)))}"


def powers():
    """k repeats directly ahead, k from 0 to 3, of each n, in rows that hold them and in rows that do not."""
    for k in range(4):
        for n in (0, 1, 2, 255):
            for w in (3, 515 if (k, n) == (1, 2) else 258):
                yield line(w, 1, P + run(0) * k + run(n) + Q * 2)
                yield line(w, 1, Q + P + run(0) * k + run(n) + Q)


def buffers():
    """An output and a row store too short, exact and longer; limits exact, one less and one more."""
    for w, h, rows in (GOOD[0], (8, 1, EIGHT), (8, 1, EIGHT[:-1]), (4, 1, P + run(4))):
        data = hexed(file(w, h, rows))
        need, store = 3 * w * h, 4 * w
        for out in (0, need - 1, need, need + 7):
            for keep in (0, store - 1, store, store + 9):
                yield f"readd 9 9 {out} {keep} {data}"
        for limits in ((w, h), (w - 1, h), (w, h - 1), (w + 1, h + 1), (0, 0)):
            yield f"readd {limits[0]} {limits[1]} {need} {store} {data}"


def headers():
    """First lines, further lines, axes and sizes."""
    tail = b"-Y 1 +X 2\n"
    for first in (b"#?RADIANCE\n", b"#?RGBE\n", b"#?RGBE\r\n", b"#?rgbe\n", b"#?RADIANCE", b"\n", b""):
        yield first + b"\n" + tail
    for lines in (b"FORMAT=32-bit_rle_xyze\nEXPOSURE=2\n", b"# text\n#\n=\n", b"\r\n", b" \n", b"a\n\nb\n"):
        yield b"#?RGBE\n" + lines + b"\n" + tail
    yield b"#?RGBE\n\n\n" + tail
    for a in (b"-Y", b"+Y", b"-X", b"+X"):
        for b in (b"-Y", b"+Y", b"-X", b"+X"):
            yield b"#?RGBE\n\n" + a + b" 1 " + b + b" 2\n"
    for size in (b"0", b"+2", b"02", b"", b"+", b"-1", b"1a", b"\t2", b"2\r", b"2\0", b"2\xa0", b"65536", b"18446744073709551615", b"18446744073709551616"):
        yield b"#?RGBE\n\n-Y 1 +X " + size + b"\n"
        yield b"#?RGBE\n\n-Y " + size + b" +X 2\n"


def by_reading():
    for part in (exponents, beginnings, faults, widths, powers, buffers):
        yield from part()
    for head in headers():
        yield f"readd 65535 65535 12 16 {hexed(head + bytes(P + run(1) + Q))}"
