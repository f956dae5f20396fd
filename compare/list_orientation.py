"""The fixed list's lines on orientations: `by_hand` with their answers, from the ticket W-205, `by_reading` those that compare/reading.py answers.

The Radiance document: "The first axis named is the one that changes slowest, from scanline to scanline; the second runs along a scanline. A minus on Y starts at the top; a plus on X starts at the left."
"""

import itertools
import random

from lines import hexed, lent, lent_samples, lower_edges, middles

# A picture of 3 by 2, its top row A B C and its other row D E F.
PIXELS = {"A": [10, 20, 30, 129], "B": [40, 50, 60, 130], "C": [70, 80, 90, 131], "D": [100, 110, 120, 132], "E": [130, 140, 150, 133], "F": [160, 170, 180, 134]}
PICTURE = "ABCDEF"

# Its stored rows in each orientation.
STORED = {
    "-Y +X": ("ABC", "DEF"),
    "-Y -X": ("CBA", "FED"),
    "+Y -X": ("FED", "CBA"),
    "+Y +X": ("DEF", "ABC"),
    "+X -Y": ("AD", "BE", "CF"),
    "-X -Y": ("CF", "BE", "AD"),
    "-X +Y": ("FC", "EB", "DA"),
    "+X +Y": ("DA", "EB", "FC"),
}
TURNED = [axes for axes in STORED if axes[1] == "X"]  # X is named first: stored rows are columns

# Pictures of one row, A B C D, and of one column, from its top on.
ONE_ROW = {
    "-Y +X": ("ABCD",), "-Y -X": ("DCBA",), "+Y -X": ("DCBA",), "+Y +X": ("ABCD",),
    "+X -Y": ("A", "B", "C", "D"), "-X -Y": ("D", "C", "B", "A"), "-X +Y": ("D", "C", "B", "A"), "+X +Y": ("A", "B", "C", "D"),
}  # fmt: skip
ONE_COLUMN = {
    "-Y +X": ("A", "B", "C", "D"), "-Y -X": ("A", "B", "C", "D"), "+Y -X": ("D", "C", "B", "A"), "+Y +X": ("D", "C", "B", "A"),
    "+X -Y": ("ABCD",), "-X -Y": ("ABCD",), "-X +Y": ("DCBA",), "+X +Y": ("DCBA",),
}  # fmt: skip


def pixels(letters):
    return [PIXELS.get(letter) for letter in letters]


def flat(letters):
    """The bytes of pixels one after another."""
    return sum(pixels(letters), [])


def run(n):
    """An old run: a pixel 1,1,1,n."""
    return [1, 1, 1, n]


def header(axes, w, h):
    """A short header: each size behind its axis."""
    first, second = axes.split()
    size = {"X": w, "Y": h}
    return f"#?RGBE\n\n{first} {size[first[-1]]} {second} {size[second[-1]]}\n".encode()


def file(axes, w, h, rows):
    return header(axes, w, h) + bytes(rows)


def shown(picture, count):
    """The output: the samples of pixels, and what was lent where a pixel is none and behind the picture."""
    lent_ones = lent_samples(count)
    known = "".join(middles([p]) if p else lent_ones[24 * i:24 * i + 24] for i, p in enumerate(picture))
    return (known + lent_ones[len(known):] if count else "") or "-"


# ---- by hand


def told(number, axes, w, h, rows, picture, store, place=0, behind=(), spare=0):
    """A reading that is done, or refused in a stored row; the pixels that the output then has, and the row store, which ends in zeros."""
    data, long = file(axes, w, h, rows), h if axes in TURNED else w
    words = f"{number} {place} 0 0 0" if number else f"0 0 {w} {h} {len(data)}"
    kept = store + [0] * (4 * long - len(store)) + [i % 251 for i in range(4 * long, 4 * long + spare)]
    line = f"readd 65535 65535 {3 * w * h + spare} {4 * long + spare} {hexed(data + bytes(behind))}"
    return line, f"{words} {shown(picture, 3 * w * h + spare)} {hexed(kept)}"


def whole():
    """One picture in all eight orientations; pictures of one pixel, one row and one column; memory beyond them and bytes behind."""
    for axes, rows in STORED.items():
        stored = flat("".join(rows))
        yield told(0, axes, 3, 2, stored, pixels(PICTURE), flat(rows[-1]))
        yield told(0, axes, 3, 2, stored, pixels(PICTURE), flat(rows[-1]), behind=run(5), spare=7)
        yield told(0, axes, 1, 1, flat("B"), pixels("B"), flat("B"))
        yield told(0, axes, 4, 1, flat("".join(ONE_ROW[axes])), pixels("ABCD"), flat(ONE_ROW[axes][-1]))
        yield told(0, axes, 1, 4, flat("".join(ONE_COLUMN[axes])), pixels("ABCD"), flat(ONE_COLUMN[axes][-1]))


def cut():
    """A byte is missing, at every place: 9 names the stored row, and the output has those before it in their places, and the rest as lent."""
    for axes, rows in STORED.items():
        stored = flat("".join(rows))
        long = 4 * len(rows[0])
        for n in range(len(stored)):
            k = n // long
            placed = "".join(rows[:k])
            picture = [p if letter in placed else None for letter, p in zip(PICTURE, pixels(PICTURE))]
            # whole pixels of this row stand over the one before it, or over zeros
            whole_ones = n % long // 4
            before = flat(rows[k - 1]) if k else [0] * long
            yield told(9, axes, 3, 2, stored[:n], picture, flat(rows[k][:whole_ones]) + before[4 * whole_ones:], k)


def later():
    """14 in each stored row: a repeat with no pixel before it, and one that passes the row's end behind the first pixel."""
    for axes, rows in STORED.items():
        for k in range(len(rows)):
            before, long = "".join(rows[:k]), len(rows[0])
            picture = [p if letter in before else None for letter, p in zip(PICTURE, pixels(PICTURE))]
            store = flat(rows[k - 1]) if k else []
            yield told(14, axes, 3, 2, flat(before) + run(1), picture, store, k, behind=flat("ABCDEF"))
            yield told(14, axes, 3, 2, flat(before) + flat(rows[k][0]) + run(long), picture, flat(rows[k][0]) + store[4:], k)


def repeats():
    """Old runs along a stored row: copies run as its pixels do, and begin anew with each."""
    a, b, c, d = (PIXELS[letter] for letter in "ABCD")
    # 2 by 4: the first stored column is A and three copies, the second B, C and two copies of C, from the top or from the bottom
    one, other = a + run(3), b + c + run(2)
    for axes, picture in (("+X -Y", "AB" "AC" "AC" "AC"), ("+X +Y", "AC" "AC" "AC" "AB"), ("-X -Y", "BA" "CA" "CA" "CA"), ("-X +Y", "CA" "CA" "CA" "BA")):
        yield told(0, axes, 2, 4, one + other, pixels(picture), b + c * 3)
    # 4 by 2: rows of A and three copies, and of B, C and two copies
    for axes, picture in (("-Y +X", "AAAA" "BCCC"), ("-Y -X", "AAAA" "CCCB"), ("+Y -X", "CCCB" "AAAA"), ("+Y +X", "BCCC" "AAAA")):
        yield told(0, axes, 4, 2, one + other, pixels(picture), b + c * 3)
    # 5 by 2: a column holds two, though a row of the picture would hold five; and 2 by 5 the other way round
    for axes in TURNED:
        yield told(14, axes, 5, 2, a + run(2), [None] * 10, a, behind=b * 9)
        yield told(0, axes, 2, 5, a + run(4) + b + run(4), pixels("AB" * 5 if axes[0] == "+" else "BA" * 5), b * 5)
    # 257 high: 0 copies, and 1 x 256
    for axes in TURNED:
        yield told(0, axes, 1, 257, d + run(0) + run(1), [d] * 257, d * 257)


# ---- larger pictures, by hand: the steps of each axis


def along(axis, w, h):
    """The columns, or the rows, in the order in which an axis runs through them."""
    return {"+X": list(range(w)), "-X": list(range(w - 1, -1, -1)), "-Y": list(range(h)), "+Y": list(range(h - 1, -1, -1))}[axis]


def stored_rows(axes, w, h):
    """Column and row of each pixel of each stored row."""
    first, second = axes.split()
    for slow in along(first, w, h):
        yield [(slow, fast) if first[1] == "X" else (fast, slow) for fast in along(second, w, h)]


def pixel(x, y):
    """A pixel of its own for each place: its red names the column, its green the row."""
    return [100 + x, 150 + y, 7, 129]


def coded(row):
    """A coded row: two channels of literals and two runs; shorter than 128."""
    n = len(row)
    return [2, 2, 0, n] + [n, *(100 + x for x, _ in row)] + [n, *(150 + y for _, y in row)] + [128 + n - n // 2, 7, 128 + n // 2, 7] + [128 + n, 129]


def picture_of(w, h, rows, first=None):
    """The part of the picture that these stored rows have; each may have another first pixel."""
    known = {place: pixel(*place) for row in rows for place in row}
    if first:
        known.update((row[0], first) for row in rows)
    return [known.get((x, y)) for y in range(h) for x in range(w)]


def put(row):
    return sum((pixel(*place) for place in row), [])


def lengths():
    """Rows of 8 and more are judged by the stored row's length: 9 by 3 is coded by rows and flat by columns, 3 by 9 the other way round."""
    assert all([tuple("".join(PICTURE[y * 3 + x] for x, y in row) for row in stored_rows(axes, 3, 2)) == rows for axes, rows in STORED.items()])
    for axes, (w, h) in itertools.product(STORED, ((9, 3), (3, 9), (8, 7), (7, 8))):
        rows = list(stored_rows(axes, w, h))
        last, picture = put(rows[-1]), picture_of(w, h, rows)
        yield told(0, axes, w, h, sum(map(put, rows), []), picture, last)
        if len(rows[0]) >= 8:
            yield told(0, axes, w, h, sum((coded(row) if k % 2 else put(row) for k, row in enumerate(rows)), []), picture, last)
            yield told(0, axes, w, h, sum(map(coded, rows), []), picture, last)
        else:
            # what would be a mark is a pixel
            mark = [2, 2, 0, max(w, h)]
            yield told(0, axes, w, h, sum((mark + put(row)[4:] for row in rows), []), picture_of(w, h, rows, mark), mark + last[4:])


def marks():
    """The mark's width is the stored row's length: one of the picture's other size is 14, in the first row and in a later one."""
    for axes, (w, h) in itertools.product(STORED, ((9, 12), (12, 9))):
        rows = list(stored_rows(axes, w, h))
        wrong = [2, 2, 0, w if axes in TURNED else h]
        yield told(14, axes, w, h, wrong + coded(rows[0])[4:], [], [])
        for k in (1, len(rows) - 1):
            yield told(14, axes, w, h, sum(map(coded, rows[:k]), []) + wrong, picture_of(w, h, rows[:k]), put(rows[k - 1]), k, behind=coded(rows[k])[4:])
    # 3 by 9 by columns: a mark of 3
    for axes in TURNED:
        rows = list(stored_rows(axes, 3, 9))
        yield told(14, axes, 3, 9, coded(rows[0]) + [2, 2, 0, 3], picture_of(3, 9, rows[:1]), put(rows[0]), 1)


def codes():
    """In a coded row: 14 by a count that passes its end, and 9 by a byte that is missing, with the literals before it in the row store."""
    for axes in STORED:
        w, h = (3, 9) if axes in TURNED else (9, 3)
        rows = list(stored_rows(axes, w, h))
        start = coded(rows[0]) + [2, 2, 0, 9]
        known, over = picture_of(w, h, rows[:1]), put(rows[0])
        yield told(14, axes, w, h, start + [138], known, over, 1, behind=[5] * 9)
        yield told(14, axes, w, h, start + [3, 1, 2, 3, 7], known, [1] + over[1:4] + [2] + over[5:8] + [3] + over[9:], 1, behind=[5] * 9)
        yield told(9, axes, w, h, start + [3, 1, 2], known, [1] + over[1:4] + [2] + over[5:], 1)
        yield told(9, axes, w, h, start + [137], known, over, 1)


def memory():
    """6 by 3wh samples, 8 by 4 times the stored row's length: exact, one short, longer; 6 before 8."""
    for axes, rows in STORED.items():
        data = file(axes, 3, 2, flat("".join(rows)))
        sound, long = hexed(data), 8 if axes in TURNED else 12
        done = f"0 0 3 2 {len(data)}"
        last = flat(rows[-1])
        for store in (0, long):
            yield f"readd 9 9 17 {store} {sound}", f"6 0 0 0 0 {lent_samples(17)} {lent(store)}"
        for store in (0, long - 1):
            yield f"readd 9 9 18 {store} {sound}", f"8 0 0 0 0 {lent_samples(18)} {lent(store)}"
        for out, store in ((18, long), (18, 12), (24, 30)):
            kept = [*last, *range(long, store)]
            yield f"readd 9 9 {out} {store} {sound}", f"{done} {shown(pixels(PICTURE), out)} {hexed(kept)}"


def limits():
    """The height has its limit and the width its own, wherever they are named."""
    for axes, rows in STORED.items():
        data, store = file(axes, 3, 2, flat("".join(rows))), 8 if axes in TURNED else 12
        for widest, highest, number in ((2, 3, 5), (9, 1, 4), (2, 1, 4)):
            yield f"headd {widest} {highest} {hexed(data)}", f"{number} 0 0 0 0 none none none"
            yield f"readd {widest} {highest} 18 {store} {hexed(data)}", f"{number} 0 0 0 0 {lent_samples(18)} {lent(store)}"
        yield f"headd 3 2 {hexed(data)}", f"0 0 3 2 {len(header(axes, 3, 2))} none none {axes.replace(' ', '')}"
        yield f"readd 3 2 18 {store} {hexed(data)}", f"0 0 3 2 {len(data)} {shown(pixels(PICTURE), 18)} {hexed(flat(rows[-1]))}"
    for axes in TURNED:
        for w, h, number in ((65536, 65535, 5), (65535, 65536, 4), (65536, 65536, 4), (18446744073709551616, 1, 3), (1, 18446744073709551616, 3)):
            yield f"headd 18446744073709551615 65536 {hexed(header(axes, w, h))}", f"{number} 0 0 0 0 none none none"
        data = header(axes, 65535, 65535)
        yield f"headd 65535 65535 {hexed(data)}", f"0 0 65535 65535 {len(data)} none none {axes.replace(' ', '')}"
        yield f"readd 65535 65535 0 0 {hexed(data)}", "6 0 0 0 0 - -"


def empty():
    """7 is the width alone. Of height 0: columns of no pixel need no row store, and nothing is read; rows of w need one, which is cleared."""
    for axes in STORED:
        for h, store in ((0, 0), (3, 0), (3, 12)):
            yield f"readd 9 9 0 {store} {hexed(file(axes, 0, h, [9] * 4))}", f"7 0 0 0 0 - {lent(store)}"
        data = hexed(file(axes, 3, 0, run(5)))
        if axes in TURNED:
            for out, store in ((0, 0), (0, 5), (2, 0), (2, 13)):
                yield f"readd 9 9 {out} {store} {data}", f"0 0 3 0 18 {lent_samples(out)} {lent(store)}"
        else:
            yield f"readd 9 9 2 11 {data}", f"8 0 0 0 0 {lent_samples(2)} {lent(11)}"
            yield f"readd 9 9 2 13 {data}", f"0 0 3 0 18 {lent_samples(2)} {'00' * 12}0c"


ODD = ("Y", "X", "-y", "+x", "", "--Y", "+Z", "X+", "-Y+X")  # names of no axis


def pairs():
    """Any other pair of axes is 2: two of one letter, no sign, small letters, words."""
    alike = [(first, second) for first, second in itertools.product(("-Y", "+Y", "-X", "+X"), repeat=2) if first[1] == second[1]]
    beside = [pair for name in ODD for pair in ((name, "+X"), ("-Y", name), (name, "-Y"), ("+X", name))] + [("Y", "X"), ("X", "Y"), ("-y", "+x"), ("", "")]
    for first, second in alike + beside:
        data = f"#?RGBE\n\n{first} 2 {second} 3\n".encode()
        yield f"headd 9 9 {hexed(data)}", "2 0 0 0 0 none none none"
        if (first, second) in alike:
            yield f"head 9 9 {hexed(data)}", "2 0 0 0 0"
            yield f"readd 9 9 18 12 {hexed(data + bytes(flat(PICTURE)))}", f"2 0 0 0 0 {lent_samples(18)} {lent(12)}"


def by_crate():
    """As zune-hdr reads: the six others are 2, and +X w -Y h is h rows of w, from the top and from the left."""
    for axes in STORED:
        data, files = header(axes, 3, 2), file(axes, 3, 2, flat(PICTURE))
        if axes in ("-Y +X", "+X -Y"):
            yield f"head 9 9 {hexed(data)}", f"0 0 3 2 {len(data)}"
            yield f"read 9 9 18 12 {hexed(files)}", f"0 0 3 2 {len(files)} {lower_edges(pixels(PICTURE))} {hexed(flat('DEF'))}"
            yield f"read 9 9 18 11 {hexed(files)}", f"8 0 0 0 0 {lent_samples(18)} {lent(11)}"
            yield f"read 9 9 18 12 {hexed(files[:-1])}", f"9 1 0 0 0 {lower_edges(pixels('ABC'))}{lent_samples(18)[72:]} {hexed(flat('DEF')[:-1] + [131])}"
        else:
            yield f"head 9 9 {hexed(data)}", "2 0 0 0 0"
            yield f"read 9 9 18 12 {hexed(files)}", f"2 0 0 0 0 {lent_samples(18)} {lent(12)}"


def said():
    """An orientation beside what the lines say; white space around the fields, sizes with a plus, and the end of the bytes."""
    for axes in STORED:
        first, second = axes.split()
        orient = first + second
        data = b"#?RADIANCE\nFORMAT=32-bit_rle_xyze\nEXPOSURE=2\n" + header(axes, 3, 2)[7:]
        yield f"headd 9 9 {hexed(data)}", f"0 0 3 2 {len(data)} xyze 40000000 {orient}"
        w, h = (3, 2) if first[1] == "X" else (2, 3)
        for text in (f"\n\t{first}\r +3 {second}\t 02\r\n", f"{first} 3 {second} 2"):
            data = b"#?RGBE\n\n" + text.encode()
            yield f"headd 9 9 {hexed(data)}", f"0 0 {w} {h} {len(data)} none none {orient}"


def orders():
    """1, then 15 or 16, 2, 3, 4, 5, 6, 7, 8, and the rows' 9 or 14: each with all that come later at fault too, where both can be."""
    for axes in ("+X -Y", "-X +Y"):
        first, second = axes.split()
        for top, lines, sizes, number in (
            (b"#?RGBX\n", b"FORMAT=x\nEXPOSURE=x\n", f"{first} x {first} 99", 1),
            (b"#?RGBE\n", b"FORMAT=x\nEXPOSURE=x\n", f"{first} x {first} 99", 15),
            (b"#?RGBE\n", b"EXPOSURE=x\nFORMAT=x\n", f"{first} x {first} 99", 16),
            (b"#?RGBE\n", b"", f"{first} x {first} 99", 2),
            (b"#?RGBE\n", b"", f"{first} 99 {second} x", 3),
            (b"#?RGBE\n", b"", f"{first} x {second} 99", 3),
            (b"#?RGBE\n", b"", f"{first} 99 {second} 99", 4),
            (b"#?RGBE\n", b"", f"{first} 0 {second} 99", 4),
            (b"#?RGBE\n", b"", f"{first} 99 {second} 9", 5),
            (b"#?RGBE\n", b"", f"{first} 9 {second} 9", 6),
            (b"#?RGBE\n", b"", f"{first} 0 {second} 9", 7),
        ):
            data = top + lines + b"\n" + sizes.encode() + b"\n"
            yield f"readd 9 9 2 3 {hexed(data + bytes(run(1)))}", f"{number} 0 0 0 0 {lent_samples(2)} {lent(3)}"
            if number < 6 or number > 14:
                yield f"headd 9 9 {hexed(data)}", f"{number} 0 0 0 0 none none none"
        # the row store before the rows: it is short, or the first row is at fault
        for rows, number in ((run(1), 14), ([9, 9], 9)):
            data = hexed(file(axes, 1, 2, rows))
            yield f"readd 9 9 6 7 {data}", f"8 0 0 0 0 {lent_samples(6)} {lent(7)}"
            yield f"readd 9 9 6 8 {data}", f"{number} 0 0 0 0 {lent_samples(6)} {'00' * 8}"


def by_hand():
    for part in (whole, cut, later, repeats, lengths, marks, codes, memory, limits, empty, pairs, by_crate, said, orders):
        yield from part()


# ---- by compare/reading.py


def line(axes, w, h, rows, out=0, store=0):
    long = h if axes in TURNED else w
    return f"readd 65535 65535 {max(0, 3 * w * h + out)} {max(0, 4 * long + store)} {hexed(file(axes, w, h, rows))}"


def beginnings():
    """Every beginning of the line of sizes."""
    for axes in TURNED:
        data = header(axes, 12, 3)
        for n in range(7, len(data)):
            yield f"headd 99 99 {hexed(data[:n])}"


def some_row(chance, n):
    """A stored row of n pixels: flat, with old runs, or coded."""
    kind = chance.randrange(3)
    if n >= 8 and kind == 0:
        return coded([(chance.randrange(90), chance.randrange(90)) for _ in range(n)])
    row = [100 + chance.randrange(90), chance.randrange(256), chance.randrange(256), chance.choice((0, 1, 129, 255))]
    if n > 1 and kind == 1:
        return row + run(n - 1)
    return row + [b for _ in range(n - 1) for b in (chance.randrange(2, 256), *(chance.randrange(256) for _ in range(3)))]


def changed():
    """Good files of all eight, and with a byte changed, lost or put in, or the end cut off; memory now and then short or longer."""
    chance = random.Random(205)
    for axes, (w, h) in itertools.product(STORED, ((2, 3), (8, 2), (2, 8), (9, 4))):
        long, count = (h, w) if axes in TURNED else (w, h)
        rows = sum((some_row(chance, long) for _ in range(count)), [])
        yield line(axes, w, h, rows, chance.choice((0, 5)), chance.choice((0, 5)))
        for _ in range(3):
            at, byte = chance.randrange(len(rows)), chance.choice((0, 1, 2, 8, 9, 128, 137, 255))
            damaged = chance.choice((rows[:at], rows[:at] + rows[at + 1:], rows[:at] + [byte] + rows[at:], rows[:at] + [byte] + rows[at + 1:]))
            yield line(axes, w, h, damaged, chance.choice((0,) * 9 + (-1, 3)), chance.choice((0,) * 9 + (-1, 3)))


def by_reading():
    yield from beginnings()
    yield from changed()
