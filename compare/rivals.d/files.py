"""The test files, made from the documents' words, each with the picture that the documents give it."""

HEADER = b"#?RADIANCE\nFORMAT=32-bit_rle_rgbe\n\n"


class Case:
    """A file. `pixels` is the picture from the top left, four bytes to a pixel, and None where the file holds no pixel.
    A damaged file has no picture by the documents: `pixels` is then what its rows hold up to the header's width.
    `word` is what a reading of these pixels is called."""

    def __init__(self, group, name, data, width, height, pixels, damaged=False, word="document"):
        self.group, self.name, self.data, self.damaged, self.word = group, name, data, damaged, word
        self.width, self.height, self.pixels = width, height, pixels
        assert len(pixels) == width * height, name


def pixel(i):
    """The i-th pixel of a picture: no two alike, each with a mantissa of 128 or more and an exponent byte from 126 to 131."""
    return bytes([128 + i % 120, (7 * i + 5) % 256, (201 - 3 * i) % 256, 126 + i % 6])


def pixels(count, start=0):
    return [pixel(start + i) for i in range(count)]


def old_run(count):
    return bytes([1, 1, 1, count])


def flat(row):
    return b"".join(row)


def channels(row, first=None):
    """The four components of a row: `first` replaces the first one's bytes; the others are literals, the last a run where it can be."""
    out = b""
    for i in range(4):
        component = bytes(p[i] for p in row)
        if i == 0 and first is not None:
            out += first
        elif len(set(component)) == 1:
            out += bytes([128 + len(row), component[0]])
        else:
            out += bytes([len(row)]) + component
    return out


def coded(row, named=None, first=None):
    """A coded row of at most 127 pixels; `named` is the width in its mark."""
    named = len(row) if named is None else named
    return bytes([2, 2, named >> 8, named & 255]) + channels(row, first)


def even(row):
    """The row with one exponent byte, so that a run is written."""
    return [p[:3] + row[0][3:] for p in row]


def sizes(width, height):
    return b"-Y %d +X %d\n" % (height, width)


def file(width, height, rows, header=HEADER):
    return header + sizes(width, height) + rows


def plain():
    narrow, wide = pixels(8), even(pixels(24))
    yield Case("plain", "flat rows, width 4", file(4, 2, flat(narrow)), 4, 2, narrow)
    yield Case("plain", "flat rows, width 12", file(12, 2, flat(wide)), 12, 2, wide)
    yield Case("plain", "coded rows, width 12", file(12, 2, coded(wide[:12]) + coded(wide[12:])), 12, 2, wide)


def old_runs():
    a, b, c, d = pixels(4)
    made = [
        ("one run, width 4", 4, 1, [a] + [old_run(3)], [a] * 4),
        ("runs in two rows, width 12", 12, 2, [a, b, old_run(9), c, d, old_run(11)], [a] + [b] * 10 + [c] + [d] * 12),
        ("one run, width 4, and 12 bytes after the row", 4, 1, [a] + [old_run(3), b, c, d], [a] * 4),
        ("a run, a pixel, a run, width 8", 8, 1, [a, old_run(2), b, old_run(3), c], [a] * 3 + [b] * 4 + [c]),
        ("two shifts, 42 + 256, width 300", 300, 1, [a, old_run(42), old_run(1), b], [a] * 299 + [b]),
        ("three shifts, 86 + 2·256 + 0, width 600", 600, 1, [a, old_run(86), old_run(2), old_run(0), b], [a] * 599 + [b]),
        ("three shifts, 110 + 17·256 + 65,536, width 70,000", 70000, 1, [a, old_run(110), old_run(17), old_run(1), b], [a] * 69999 + [b]),
    ]
    for name, width, height, rows, picture in made:
        yield Case("old runs", name, file(width, height, flat(rows)), width, height, picture)


def both_kinds():
    rows = [even(pixels(12, 12 * i)) for i in range(3)]
    repeated = [rows[2][0]] + [rows[2][1]] * 10 + [rows[2][2]]
    written = flat([rows[2][0], rows[2][1], old_run(9), rows[2][2]])
    yield Case("both row kinds", "flat, coded", file(12, 2, flat(rows[0]) + coded(rows[1])), 12, 2, rows[0] + rows[1])
    yield Case("both row kinds", "coded, flat", file(12, 2, coded(rows[0]) + flat(rows[1])), 12, 2, rows[0] + rows[1])
    yield Case("both row kinds", "coded, flat, coded", file(12, 3, coded(rows[0]) + flat(rows[1]) + coded(rows[2])), 12, 3, sum(rows, []))
    yield Case("both row kinds", "flat, coded, old run", file(12, 3, flat(rows[0]) + coded(rows[1]) + written), 12, 3, rows[0] + rows[1] + repeated)


def mark_width():
    picture = even(pixels(24))
    for named in (8, 13, 12 + 512):
        rows = coded(picture[:12]) + coded(picture[12:], named)
        yield Case("mark width", f"row 1 of width 12 is marked {named}", file(12, 2, rows), 12, 2, picture, damaged=True)
    yield Case("mark width", "row 0 of width 12 is marked 8", file(12, 2, coded(picture[:12], 8) + coded(picture[12:])), 12, 2, picture, damaged=True)


def cut_off():
    picture = even(pixels(36))
    rows = [coded(picture[i:i + 12]) for i in (0, 12, 24)]
    whole = file(12, 3, b"".join(rows))
    two = len(whole) - len(rows[2])
    missing = [None] * 12
    yield Case("truncated", "in the FORMAT line", whole[:20], 12, 3, missing * 3)
    yield Case("truncated", "in the size line, behind `+X 1` of 12", HEADER + b"-Y 3 +X 1", 1, 3, [None] * 3)
    yield Case("truncated", "behind the size line", file(12, 3, b""), 12, 3, missing * 3)
    yield Case("truncated", "between coded rows 1 and 2 of 3", whole[:two], 12, 3, picture[:24] + missing)
    for name, more in [("in row 2's mark", 2), ("behind row 2's mark", 4), ("in row 2's literals", 10), ("between components of row 2", 17),
                       ("before row 2's last byte, a run's", len(rows[2]) - 1)]:
        yield Case("truncated", "coded rows, " + name, whole[:two + more], 12, 3, picture[:24] + missing)
    many = [even(pixels(12, i)) for i in range(600)]
    rows = [coded(row) for row in many]
    data = file(12, 600, b"".join(rows))
    yield Case("truncated", "600 coded rows, in row 500's literals", data[:len(data) - sum(map(len, rows[500:])) + 10], 12, 600, sum(many[:500], []) + [None] * 1200)
    for width, kept in ((4, 6), (12, 18)):
        some = pixels(2 * width)
        data = file(width, 2, flat(some))[:-4 * (2 * width - kept)]
        gone = [None] * (2 * width - kept)
        yield Case("truncated", f"flat rows, width {width}, between pixels of row 1", data, width, 2, some[:kept] + gone)
        yield Case("truncated", f"flat rows, width {width}, in a pixel of row 1", data[:-2], width, 2, some[:kept - 1] + [None] + gone)


def overlong():
    picture = even(pixels(24))
    same = [picture[0][:1] + p[1:] for p in picture[:12]]
    good = coded(picture[12:])
    first = bytes(p[0] for p in picture[:12])
    yield Case("overlong", "a run of 13 at width 12", file(12, 2, coded(same, first=bytes([128 + 13, same[0][0]])) + good), 12, 2, same + picture[12:], damaged=True)
    yield Case("overlong", "14 literals at width 12", file(12, 2, coded(picture[:12], first=bytes([14]) + first + b"\x50\x50") + good), 12, 2, picture, damaged=True)
    yield Case("overlong", "a count of 0", file(12, 2, coded(picture[:12], first=bytes([0, 12]) + first) + good), 12, 2, picture, damaged=True)
    a, b = pixels(2)
    yield Case("overlong", "an old run of 9 at width 4", file(4, 2, flat([a, old_run(9)] + [b] * 4)), 4, 2, [a] * 4 + [b] * 4, damaged=True)
    yield Case("overlong", "an old run with no pixel before it", file(4, 1, flat([old_run(1), a, b, a])), 4, 1, [None, a, b, a], damaged=True)


def exponents():
    for name, low, high in (("exponent bytes 97 to 159", 97, 160), ("dark: 1 to 96", 1, 97), ("bright: 160 to 255", 160, 256), ("black: 0", 0, 1)):
        row = [bytes([128, 64, 201, e]) for e in range(low, high)]
        yield Case("exponents", name, file(len(row), 1, flat(row)), len(row), 1, row)
    dark = [bytes([0, 0, 0, 128])] * 8
    yield Case("exponents", "dark as zune-hdr saved it: 0,0,0,128", file(8, 1, flat(dark)), 8, 1, dark)


def headers():
    picture = pixels(4)
    made = [
        ("first line #?RGBE", b"#?RGBE\nFORMAT=32-bit_rle_rgbe\n\n"),
        ("no FORMAT line", b"#?RADIANCE\n\n"),
        ("FORMAT=32-bit_rle_xyze", b"#?RADIANCE\nFORMAT=32-bit_rle_xyze\n\n"),
        ("FORMAT=16-bit_any", b"#?RADIANCE\nFORMAT=16-bit_any\n\n"),
        ("EXPOSURE=2", b"#?RADIANCE\nEXPOSURE=2\nFORMAT=32-bit_rle_rgbe\n\n"),
        ("EXPOSURE=bright", b"#?RADIANCE\nEXPOSURE=bright\nFORMAT=32-bit_rle_rgbe\n\n"),
        ("a line without an equals sign", b"#?RADIANCE\nrpict -vp 1 2 3\nFORMAT=32-bit_rle_rgbe\n\n"),
        ("first line #?WRONG", b"#?WRONG\nFORMAT=32-bit_rle_rgbe\n\n"),
    ]
    for name, header in made:
        wrong = name in ("FORMAT=16-bit_any", "EXPOSURE=bright", "first line #?WRONG")
        word = "stored samples" if name in ("FORMAT=32-bit_rle_xyze", "EXPOSURE=2") else "document"
        yield Case("header", name, file(2, 2, flat(picture), header), 2, 2, picture, wrong, word)


AXES = ("-Y +X", "-Y -X", "+Y +X", "+Y -X", "+X -Y", "+X +Y", "-X -Y", "-X +Y")


def stored_rows(picture, width, height, axes):
    """A picture's rows as they are stored: the axis named first runs from row to row, -Y from the top and +X from the left."""
    order = {"+X": range(width), "-X": range(width)[::-1], "-Y": range(height), "+Y": range(height)[::-1]}
    first, second = axes.split()
    places = [[(i, j) if first[1] == "X" else (j, i) for j in order[second]] for i in order[first]]
    return [[picture[y * width + x] for x, y in row] for row in places]


def orientations():
    """Two pictures in each of the eight orientations: one with flat rows and one with coded rows."""
    for axes in AXES:
        first, second = axes.split()
        for kind, write, width, height in (("flat rows", flat, 3, 2), ("coded rows", coded, 12, 9)):
            picture, long = even(pixels(width * height)), {"X": width, "Y": height}
            rows = stored_rows(picture, width, height, axes)
            line = f"{first} {long[first[1]]} {second} {long[second[1]]}\n".encode()
            case = Case(kind, axes, HEADER + line + b"".join(map(write, rows)), width, height, picture)
            case.stored = b"".join(map(flat, rows))
            yield case


def cases():
    for group in (plain, old_runs, both_kinds, mark_width, cut_off, overlong, exponents, headers):
        yield from group()
