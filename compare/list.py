"""The replay program's fixed list: cases with answers by the rules, cases of the document reading, of headers and of orientations by it, then cases that the unchanged Rust answers.

Use: list.py ORACLE      (from the repository's top; compare/list builds the oracle first)

No answer comes from the replay program.
"""
import subprocess
import sys

import list_document
import list_header
import list_orientation
import reading
from lines import file, hexed, lent, lent_samples, lower_edges, middles

HEADER = "#?RADIANCE\nSOFTWARE=zune-hdr\nFORMAT=32-bit_rle_rgbe\n\n-Y {h} +X {w}\n"


# ---- Answers by the rules

def sky_lines(path):
    """The sample skies, each with its answer, as compare/skies has them."""
    lines = [line for line in open(path).read().split("\n") if line and not line.startswith("#")]
    return list(zip(lines[::2], lines[1::2]))


def reader_refusals():
    """The refusals of the reader that the Rust has not, and the order of its checks."""
    one = file(1, 1, [128, 64, 32, 129])
    kept = lent_samples(3)
    yield f"read 9 9 3 4 {hexed(one)}", f"0 0 1 1 22 3f8000003f0000003e800000 80402081"
    # 8: a row store one byte short, and none; a longer one keeps the places beyond
    yield f"read 9 9 3 3 {hexed(one)}", f"8 0 0 0 0 {kept} {lent(3)}"
    yield f"read 9 9 3 0 {hexed(one)}", f"8 0 0 0 0 {kept} -"
    yield f"read 9 9 3 6 {hexed(one)}", f"0 0 1 1 22 3f8000003f0000003e800000 804020810405"
    # 8 comes at height 0 too, and a good store is cleared there
    yield f"read 9 9 0 11 {hexed(file(3, 0))}", f"8 0 0 0 0 - {lent(11)}"
    yield f"read 9 9 0 12 {hexed(file(3, 0))}", "0 0 3 0 18 - 000000000000000000000000"
    # 6 before 8, and 7 at any height; an output one short
    yield f"read 9 9 2 0 {hexed(one)}", f"6 0 0 0 0 {lent_samples(2)} -"
    yield f"read 9 9 2 4 {hexed(one)}", f"6 0 0 0 0 {lent_samples(2)} {lent(4)}"
    yield f"read 9 9 0 0 {hexed(file(0, 0))}", "7 0 0 0 0 - -"
    yield f"read 9 9 0 0 {hexed(file(0, 9))}", "7 0 0 0 0 - -"
    # 4 before 5, both before 6
    yield f"read 8 8 0 0 {hexed(file(9, 9))}", "4 0 0 0 0 - -"
    yield f"read 8 9 0 0 {hexed(file(9, 9))}", "5 0 0 0 0 - -"
    yield f"read 9 9 0 0 {hexed(file(9, 9))}", "6 0 0 0 0 - -"
    # a limit above 65,535 counts as 65,535
    for limit in (65535, 65536, 18446744073709551615):
        yield f"head {limit} {limit} {hexed(file(65535, 65535))}", "0 0 65535 65535 26"
        yield f"head {limit} {limit} {hexed(file(65536, 65535))}", "5 0 0 0 0"
        yield f"head {limit} {limit} {hexed(file(65535, 65536))}", "4 0 0 0 0"
    # a byte of 128 or more is no white space
    yield f"head 9 9 {hexed(b'#?RGBE' + bytes([10, 10]) + b'-Y 1 +X 1' + bytes([160, 10]))}", "3 0 0 0 0"


P, Q = [10, 20, 30, 129], [40, 50, 60, 130]


def in_row(number, w, h, above, row, behind=(), spare=0):
    """A read that is refused in a row: the bytes taken of it stand over the row above, or over zeros, and the rows above in the output."""
    data = file(w, h, sum(above, []) + row + list(behind))
    shown = 3 * w * (len(above) // w)
    out = lower_edges(above) + lent_samples(3 * w * h + spare)[8 * shown :]
    store = row + (sum(above[-w:], []) or [0] * 4 * w)[len(row) :] + [i % 251 for i in range(4 * w, 4 * w + spare)]
    return f"read 65535 65535 {3 * w * h + spare} {4 * w + spare} {hexed(data)}", f"{number} {len(above) // w} 0 0 0 {out} {hexed(store)}"


def old_runs():
    """Refusal 25: at every pixel of a flat row, of each n, with and without bytes behind it, in a later row, after pixel 0 of a broken mark."""
    for w in (1, 2, 3, 4, 5, 7):
        for before in range(w):
            for n in (0, 1, 2, 255):
                run = [1, 1, 1, n]
                yield in_row(25, w, 1, [], P * before + run)
                yield in_row(25, w, 1, [], P * before + run, Q * w, spare=5)
    # sample sky 5's row in a second row, over the first; two and three runs, of which the first is met
    yield in_row(25, 4, 2, [Q, P, Q, P], P + Q + [1, 1, 1, 2], P)
    yield in_row(25, 4, 3, [Q] * 8, [1, 1, 1, 0], [1, 1, 1, 0] * 2)
    yield in_row(25, 4, 1, [], P + [1, 1, 1, 3], [1, 1, 1, 1] * 3)
    # widths 8 and more: flat by the first byte, after a 2 that is no mark's, after a coded row
    for start in (P, [2, 3, 4, 129], [2, 2, 128, 129], [2, 1, 1, 1]):
        for before in (0, 1, 6, 7, 10):
            for n in (0, 3, 255):
                yield in_row(25, 12, 1, [], start + Q * before + [1, 1, 1, n], P * 12)
    yield in_row(25, 8, 1, [], [1, 1, 1, 8], P * 7)
    data = hexed(file(8, 2, [2, 2, 0, 8, 136, 1, 136, 1, 136, 1, 136, 129] + P + [1, 1, 1, 7]))
    out = lower_edges([[1, 1, 1, 129]] * 8) + lent_samples(48)[8 * 24 :]
    yield f"read 9 9 48 32 {data}", f"25 1 0 0 0 {out} {hexed(P + [1, 1, 1, 7] + [1, 1, 1, 129] * 6)}"
    # a byte of it is missing: 9
    for before in (0, 1, 2):
        for n in range(4):
            yield in_row(9, 3, 1, [], P * before + [1] * n)
            yield in_row(9, 9, 1, [], [2, 3, 4, 129] + P * before + [1] * n)
    # 6, 7 and 8 come first
    five = hexed(file(1, 1, [1, 1, 1, 5]))
    yield f"read 9 9 2 4 {five}", f"6 0 0 0 0 {lent_samples(2)} {lent(4)}"
    yield f"read 9 9 3 3 {five}", f"8 0 0 0 0 {lent_samples(3)} {lent(3)}"
    yield f"read 9 9 0 0 {hexed(file(0, 1, [1, 1, 1, 5]))}", "7 0 0 0 0 - -"
    # it is no pixel of the picture: the rows end before it, or there are none
    yield f"read 9 9 3 4 {hexed(file(1, 1, P + [1, 1, 1, 5]))}", f"0 0 1 1 22 {lower_edges([P])} {hexed(P)}"
    yield f"read 9 9 0 4 {hexed(file(1, 0, [1, 1, 1, 5]))}", "0 0 1 0 18 - 00000000"
    # two ones are an ordinary pixel's
    for four in ([1, 1, 2, 129], [1, 2, 1, 129], [2, 1, 1, 129], [1, 1, 0, 129]):
        yield f"read 9 9 3 4 {hexed(file(1, 1, four))}", f"0 0 1 1 22 {lower_edges([four])} {hexed(four)}"
    # in a coded row 1,1,1,n is a pixel
    data = hexed(file(8, 1, [2, 2, 0, 8, 136, 1, 136, 1, 136, 1, 136, 130]))
    yield f"read 9 9 24 32 {data}", f"0 0 8 1 30 {lower_edges([[1, 1, 1, 130]] * 8)} {hexed([1, 1, 1, 130] * 8)}"


def writer_refusals():
    """The refusals 7 and 10 to 13, their order and their places."""
    grey, bright = "3f8000003f8000003f800000", "7f0000000000000000000000"
    black, zero = "00000000" * 3, "00000000"
    one = HEADER.format(w=1, h=1).encode() + bytes([128, 128, 128, 129])
    for call, each in (("len", grey), ("len4", "80808081")):
        yield f"{call} 0 1 -", "7 0 0"
        yield f"{call} 0 65536 -", "7 0 0"
        yield f"{call} 65536 1 -", "10 0 0"
        yield f"{call} 1 65536 -", "10 0 0"
        yield f"{call} 18446744073709551615 18446744073709551615 -", "10 0 0"
        yield f"{call} 65535 65535 -", "11 0 0"
        yield f"{call} 1 1 -", "11 0 0"
        yield f"{call} 2 1 {each}", "11 0 0"
        yield f"{call} 1 1 {each * 2}", "11 0 0"
        yield f"{call} 1 1 {each}", "0 0 67"
        yield f"{call} 5 0 -", "0 0 63"
        yield f"{call} 65535 0 -", "0 0 67"
    # a count of samples that is no multiple of three
    yield f"len 1 1 {zero * 2}", "11 0 0"
    yield f"len 1 1 {zero * 4}", "11 0 0"
    # 12 names the first pixel, row by row
    yield f"len 1 1 {bright}", "12 0 0"
    yield f"len 3 2 {black * 4 + bright + bright}", "12 4 0"
    yield f"len 2 2 {black * 3 + bright}", "12 3 0"
    yield f"len 1 1 {zero * 2}7f800000", "12 0 0"
    yield f"len 1 1 {zero * 2}ff800000", "0 0 67"
    yield f"len 1 1 {zero * 2}ff7fffff", "0 0 67"
    # the writers: a room one short, exact and longer; 12 before 13; four-byte pixels have no check 12
    yield f"write 1 1 66 {grey}", f"13 0 0 {lent(66)}"
    yield f"write 1 1 0 {grey}", "13 0 0 -"
    yield f"write 1 1 67 {grey}", f"0 0 67 {hexed(one)}"
    yield f"write 1 1 69 {grey}", f"0 0 67 {hexed(one)}4344"
    yield f"write 1 1 0 {bright}", "12 0 0 -"
    yield f"write 1 1 3 -", f"11 0 0 {lent(3)}"
    yield f"write 0 1 3 -", f"7 0 0 {lent(3)}"
    yield f"write 65536 1 3 -", f"10 0 0 {lent(3)}"
    yield f"write4 1 1 66 80808081", f"13 0 0 {lent(66)}"
    yield f"write4 1 1 67 80808081", f"0 0 67 {hexed(one)}"
    yield f"write4 1 1 68 ffffffff", f"0 0 67 {hexed(HEADER.format(w=1, h=1).encode())}ffffffff43"
    yield f"write4 1 1 3 808080", f"11 0 0 {lent(3)}"
    yield f"write4 0 1 3 -", f"7 0 0 {lent(3)}"
    # height 0: the header alone
    yield f"write 5 0 64 -", f"0 0 63 {hexed(HEADER.format(w=5, h=0).encode())}3f"
    yield f"write4 5 0 62 -", f"13 0 0 {lent(62)}"


def pixels():
    """Pixels by the documents: powers of two, the last dark one, no numbers, negative ones."""
    def line(samples, four):
        return f"write 1 1 67 {samples}", f"0 0 67 {hexed(HEADER.format(w=1, h=1).encode())}{four}"

    yield line("3f8000003f7fffff3f000000", "807f4081")
    yield line("3f7fffff0000000000000000", "ff000080")
    yield line("400000003f80000000000000", "80400082")
    yield line("0a4fb11f0a4fb11f0a4fb11f", "00000000")
    yield line("0a4fb1200000000000000000", "cf000016")
    yield line("80000000bf800000ff800000", "00000000")
    yield line("7fc000007f800001ffffffff", "00000000")
    yield line("7fc00000ffc000003f800000", "00008081")
    yield line("bf8000003f800000ff7fffff", "00800081")


def bounds_of_bytes():
    """Where check 12 passes no byte is over 255 and no pixel starts 1,1,1; at 2^127 the exponent byte would be 256."""
    def line(w, samples, four):
        data = hexed(HEADER.format(w=w, h=1).encode()) + four
        return f"write {w} 1 {len(data) // 2} {samples}", f"0 0 {len(data) // 2} {data}"

    # the largest f32 below 2^127, alone, three times, and beside what counts as 0
    yield line(1, "7effffff0000000000000000", "ff0000ff")
    yield line(1, "7effffff" * 3, "ffffffff")
    yield line(1, "ff8000007effffffffc00000", "00ff00ff")
    # 2^127 in each place, the next f32, the largest and infinity
    for bright in ("7f000000", "7f000001", "7f7fffff", "7f800000"):
        for k in range(3):
            samples = ["7effffff"] * 3
            samples[k] = bright
            yield f"len 1 1 {''.join(samples)}", "12 0 0"
            yield f"write 2 1 70 {'7effffff' * 3}{''.join(samples)}", f"12 1 0 {lent(70)}"
    # the largest f32 below a power of two has the byte 255, the power itself 128
    yield line(1, "3f7fffff3f8000003f7fffff", "7f807f81")
    yield line(1, "3f7fffff" * 3, "ffffff80")
    # 1,1 beside 128, and 0.004, which the Rust writes as 1,1,1,128, in rows of one and of seven
    yield line(1, "3f8000003c0000003c000000", "80010181")
    yield line(1, "3c0000003f8000003c000000", "01800181")
    yield line(1, "3c0000003c0000003f800000", "01018081")
    yield line(1, "3b83126f" * 3, "83838379")
    yield line(7, "3b83126f" * 21, "83838379" * 7)
    # the writer of four-byte pixels writes what it is given
    file1 = hexed(HEADER.format(w=1, h=1).encode())
    for four in ("01010101", "01010180", "010101ff"):
        yield f"write4 1 1 67 {four}", f"0 0 67 {file1}{four}"


def saved_twice():
    """Frames that are written, read and written again: the same bytes in a reading's range; outside it some are others."""
    def saved(w, h, call, samples, fours, back, again):
        head, n = HEADER.format(w=w, h=h).encode(), 4 * w * h
        size = len(head) + n
        yield f"write {w} {h} {size} {samples}", f"0 0 {size} {hexed(head)}{fours}"
        yield f"{call} {w} {h} {3 * w * h} {4 * w} {hexed(head)}{fours}", f"0 0 {w} {h} {size} {back} {fours[-8 * w :]}"
        yield f"write {w} {h} {size} {back}", f"0 0 {size} {hexed(head)}{again}"

    def kept(w, h, pairs, calls=("read", "readd")):
        """Pixels in range: what comes back is the lower edge of each step, or its middle, and the bytes are the same."""
        samples, fours = ("".join(part) for part in zip(*pairs))
        pixels = [list(bytes.fromhex(four)) for _, four in pairs]
        for call in calls:
            shows = lower_edges if call == "read" else middles
            back = "".join(shows([pixel]) if pixel[3] else "00000000" * 3 for pixel in pixels)
            yield from saved(w, h, call, samples, fours, back, fours)

    # 1, 0.5, 0.25; 0.003; -1, no number, 2^-32; the largest below 2^31 beside minus infinity; what is written black: the last dark f32, negative ones, no numbers
    both = [
        ("3f8000003f0000003e800000", "80402081"), ("3b449ba63b449ba63b449ba6", "c4c4c478"), ("bf8000007fc000002f800000", "00008061"), ("ff8000004effffff80000000", "00ff009f"),
        ("0a4fb11f0a4fb11f0a4fb11f", "00000000"), ("bf800000c0000000ff800000", "00000000"), ("7fc000007f800001ffc00000", "00000000"),
    ]
    # by the document reading alone: 2^-106; just below 2^-32; 2^31; the largest below 2^127; and though it is below 2^-106, the least f32 with the byte 208
    document = [("0a8000000000000000000000", "80000017"), ("7fc000002f7fffffbf800000", "00ff0060"), ("4f0000004f0000004f000000", "808080a0"), ("7effffff0000000000000000", "ff0000ff"), ("0a5000000000000000000000", "d0000016")]
    for pair in both:
        yield from kept(1, 1, [pair])
    for pair in document:
        yield from kept(1, 1, [pair], ("readd",))
    yield from kept(7, 1, both)
    yield from kept(4, 3, both + document, ("readd",))
    # the f32 next above 1e-32 falls to black by the document reading; by the crate reading the one next below 2^-32, and 2^31, get the exponent byte 128
    yield from saved(1, 1, "readd", "0a4fb1200000000000000000", "cf000016", "0a4f80000600000006000000", "00000000")
    yield from saved(1, 1, "read", "2f7fffff0000000000000000", "ff000060", "3f7f00000000000000000000", "ff000080")
    yield from saved(1, 1, "read", "4f0000000000000000000000", "800000a0", "3f0000000000000000000000", "80000080")


def worst_lengths():
    """Worst lengths: 61 bytes and the digits, then 4w a row, or at widths 8 to 32,767 a mark and four channels of literals."""
    def answer(w, h):
        row = 4 + 4 * (w + (w + 127) // 128) if 8 <= w <= 32767 else 4 * w
        return f"0 0 {61 + len(str(w)) + len(str(h)) + h * row}"

    for w in (1, 7, 8, 9, 127, 128, 129, 256, 257, 32767, 32768, 65535):
        for h in (0, 1, 65535):
            yield f"worst {w} {h}", answer(w, h)
    yield "worst 0 0", "7 0 0"
    yield "worst 0 65536", "7 0 0"
    yield "worst 1 65536", "10 0 0"
    yield "worst 18446744073709551615 1", "10 0 0"


def no_form():
    """Lines that are of no form."""
    for line in (
        "", " ", "?", "read", "Read 9 9 0 0 -", "reads 9 9 0 0 -", "rea 9 9 0 0 -", " size 1 1", "size 1 1 ", "size  1 1", "size 1", "size 1 1 1",
        "size +1 1", "size -1 1", "size 1 00", "size 0 01", "size 1\t1", "size 1 1\r", "size 1a 1", "size 99999999999999999999 1",
        "size 1 18446744073709551616", "worst 1", "worst 1 1 -", "head 1 1", "head 1 1 ", "head 1 1 -- ", "head 1 1 --", "head 1 1 0g", "head 1 1 0G",
        "head 1 1 012", "head 1 1 01 ", "head 1 1 01 02", "head 1 - 01", "read 1 1 1 01", "read 1 1 1 1", "read 1 1 1 1 1 -", "read 1 1 - 1 -",
        "read 1 1 18446744073709551615 1 -", "read 1 1 1 18446744073709551615 -", "len 1 1", "len 1 1 3f80000", "len 1 1 3f8000000", "len 1 1 3F800000",
        "len4 1 1 1", "len4 1 1 80 ", "write 1 1 -", "write 1 1 01 -", "write 1 1 18446744073709551615 -", "write4 1 1 1 0x", "write4 1 1 1",
        "write5 1 1 1 -", "\0", "size 1\0 1", "é", "readd", "readd 1 1 1 1", "readd 1 1 1 01", "readd 1 1 1 1 1 -", "readd 1 1 1 1 0", "readd 01 1 1 1 -",
        "readd 1 1 18446744073709551615 1 -", "readd 1 1 1 18446744073709551615 -", "readD 9 9 0 0 -", "readdd 9 9 0 0 -",
        "headd", "headd 1 1", "headd 1 1 ", "headd 1 1 0", "headd 1 1 0G", "headd 1 1 01 ", "headd 1 1 1 -", "headd 1 -", "headd 01 1 -", "headd 1 18446744073709551616 -", "headD 1 1 -",
        "headdd 1 1 -", "head d 1 1 -",
    ):
        yield line, "?"


# ---- Cases for the Rust

def headers():
    """First lines, further lines, size fields, limits, and every beginning of a header."""
    tail = b"-Y 2 +X 3\n"
    for first in (b"#?RADIANCE\n", b"#?RGBE\n", b"#?RGBE\r\n", b"#?RGBE \n", b" #?RGBE\n", b"#?rgbe\n", b"#?RADIANC\n", b"#?RADIANCE", b"?RGBE\n", b"\n"):
        yield 9, 9, first + b"\n" + tail
    for lines in (b"", b"FORMAT=32-bit_rle_rgbe\n", b"FORMAT=32-bit_rle_xyze\nEXPOSURE=2\n", b"# text\n#\n=\n==\n", b"\r\n", b" \n", b"a\n\nb\n", b"-Y 1 +X 1\n", b"x" * 300 + b"\n"):
        yield 9, 9, b"#?RGBE\n" + lines + b"\n" + tail
    yield 9, 9, b"#?RGBE\n" + tail
    yield 9, 9, b"#?RGBE\n\n\n" + tail
    yield 9, 9, b"#?RGBE\n\n\r\n\t " + tail
    for a in (b"-Y", b"+Y", b"-X", b"+X", b"Y", b"", b"-y"):
        for b in (b"-Y", b"+Y", b"-X", b"+X"):
            yield 9, 9, b"#?RGBE\n\n" + a + b" 2 " + b + b" 3\n"
    sizes = (
        b"0", b"1", b"9", b"10", b"+1", b"+0", b"01", b"+0003", b"", b"+", b"-1", b"-0", b"++1", b"1+", b"1a", b"0x1", b"1.0",
        b"\t2", b"2\r", b"\x0b\x0c2", b"2\0", b"65534", b"65535", b"65536", b"18446744073709551615", b"18446744073709551616",
        b"00000000000000000000000000000000007", b"99999999999999999999999",
    )
    for size in sizes:
        yield 9, 65535, b"#?RGBE\n\n-Y " + size + b" +X 3\n"
        yield 65535, 9, b"#?RGBE\n\n+X " + size + b" -Y 3\n"
        yield 65535, 9, b"#?RGBE\n\n-Y 3 +X " + size
    for limit in ((2, 2), (3, 1), (3, 2), (2, 1), (0, 0), (3, 65535)):
        yield *limit, b"#?RGBE\n\n" + tail
    whole = b"#?RGBE\nA=1\n\n-Y 2 +X 3\n"
    for n in range(len(whole)):
        yield 9, 9, whole[:n]


LITERAL = list(range(1, 9))
COUNTS = [[0, 8] + LITERAL, [0, 0, 136, 7], [136, 7], [137, 7], [255, 7], [8] + LITERAL, [9] + LITERAL + [9], [128] + LITERAL, [4, 1, 2, 3, 4, 132, 5],
          [129, 1] * 8, [3, 1, 2, 3, 130, 9, 3, 4, 5, 6], [7, 1, 2, 3, 4, 5, 6, 7, 130, 9]]
SAME = [136, 6, 136, 5, 136, 130]


def rows_read():
    """Each kind of row at each boundary width; the files have all their bytes, or a byte more."""
    flat = [[i * 7 % 256, i * 5 % 256, i * 3 % 256, 125 + i % 8] for i in range(300)]
    for w in (1, 2, 3, 6, 7):
        yield w, 1, sum(flat[:w], [])
        yield w, 2, sum(flat[1 : 2 * w + 1], []) + [5]
        yield w, 1, [2, 2, 0, w] + SAME * w
    for w in (8, 9, 127, 128, 129):
        pixels = sum(flat[1:w], [])
        yield w, 1, [9, 2, 0, w] + pixels
        yield w, 1, [2, 1, 0, w] + pixels
        yield w, 1, [2, 3, 7, 8] + pixels
        yield w, 1, [2, 2, 128, w] + pixels
        yield w, 1, [2, 2, 255, 130] + pixels
        run = [code for left in range(w, 0, -127) for code in (128 + min(left, 127), left % 251)]
        yield w, 1, [2, 2, 0, w] + run * 3 + [x if i % 2 == 0 else 130 for i, x in enumerate(run)]
        yield w, 2, ([2, 2, 127, 255] + run * 4) * 2 + [1]
        literal = [code for at in range(0, w, 128) for code in [min(128, w - at)] + list(range(1, min(128, w - at) + 1))]
        yield w, 1, [2, 2, 0, 0] + literal * 4
    for codes in COUNTS:
        yield 8, 1, [2, 2, 0, 8] + codes + SAME
        yield 8, 1, [2, 2, 0, 8, 136, 1, 136, 2, 136, 3] + codes
    for w in (255, 256, 257):
        run = [code for left in range(w, 0, -127) for code in (128 + min(left, 127), 128 + left % 9)]
        yield w, 1, [2, 2, w // 256, w % 256] + run * 4


def beginnings():
    """Files that lose their end at every place: in a flat row, a broken mark, each channel's count, run and literals."""
    p = [10, 20, 30, 129]
    files = [
        (2, 2, p * 4),
        (3, 1, p + [1, 1, 2, 1] + p),
        (8, 2, [2, 2, 0, 8, 136, 7, 4, 1, 2, 3, 4, 132, 5] + SAME[:4] + [2, 9, 9, 134, 130]),
        (8, 2, [2, 2, 0, 8, 136, 7] + SAME + [2, 2, 0, 8, 136, 1, 8] + LITERAL + [136, 3, 136, 129]),
        (9, 1, [2, 3, 4, 129] + p * 8),
    ]
    for w, h, rows in files:
        for n in range(len(rows) + 1):
            yield w, h, rows[:n]


def wide_rows():
    """The widest coded row, and a wider one, which is flat and here ends early."""
    codes = [255, 200] * 258 + [129, 7]
    yield 32767, 1, [2, 2, 127, 255] + codes * 3 + [255, 130] * 258 + [129, 129]
    yield 32768, 1, [2, 2, 127, 255] + codes


def buffers():
    """An output and a row store exact and longer, an output one short and none; limits exact, one less and one more."""
    for w, h, rows in ((2, 2, [10, 20, 30, 129] * 4), (8, 1, [2, 2, 0, 8, 136, 7] + SAME), (8, 1, [2, 2, 0, 8, 136, 7])):
        data = hexed(file(w, h, rows))
        need, store = 3 * w * h, 4 * w
        for out in (0, 1, need - 1, need, need + 1, need + 7):
            for keep in (store, store + 1, store + 9):
                yield f"read 9 9 {out} {keep} {data}"
        for limits in ((w, h), (w - 1, h), (w, h - 1), (w + 1, h + 1), (0, 0)):
            yield f"read {limits[0]} {limits[1]} {need} {store} {data}"


PIXELS = [[200, 7, 9, 130], [130, 140, 11, 140], [128, 3, 255, 129]]


def rows_written():
    """Runs and stretches of lengths around 2, 4, 127 and 128 at each boundary width, with room for them."""
    a, b, c = PIXELS
    rows = [[a] * n for n in (1, 2, 7, 8, 9, 126, 127, 128, 129, 254, 255, 256)]
    rows += [[a, b] * (n // 2) + [a] * (n % 2) for n in (2, 7, 8, 9, 127, 128, 129, 130, 257)]
    rows += [[a] * n + [b] * (8 - n) for n in range(1, 8)]
    rows += [[c] + [a] * n + [b] * (11 - n) for n in range(1, 8)]
    rows += [[a] * 127 + [b] * n for n in (1, 2, 3, 4)] + [[a] * 128 + [b] * n for n in (1, 2, 3, 4)]
    rows += [[a, b] * 63 + [c] * n + [a] for n in (1, 2, 3, 4, 5)]
    rows += [[a, a, b, b, b, c, c, c, c, a, b], [a, a, a, b, c, c, c], [a, b, c, a, b, c, c, c, c, c, c, c]]
    for row in rows:
        yield len(row), 1, sum(row, [])
    yield 2, 3, sum([a, b, c, c, b, a], [])
    yield 8, 2, sum([a] * 8 + [b] * 3 + [c] * 5, [])


def frames_of_samples():
    """Frames of samples in the middle of their steps, where the Rust's conversion and the documents' give the same bytes."""
    for w, h, four in rows_written():
        if w < 20:
            yield w, h, middles([four[i : i + 4] for i in range(0, len(four), 4)])


def wide_frames():
    """The widest coded row and the next, which is flat."""
    for w in (32767, 32768):
        yield f"len4 {w} 1 {hexed(PIXELS[0] * w)}"


def sizes():
    """Buffer sizes around the places where a product or a sum passes 2^64 - 1."""
    top = 2**64
    for w, h in ((0, 0), (0, top - 1), (top - 1, 0), (1, 1), (65535, 65535), (2**32, 2**32), (2**32, 2**32 - 1), (2**31, 2**31), (2**31, 2**30)):
        yield f"size {w} {h}"
    for edge in (top // 3, (top - 1024) // 4, top // 4, top - 1):
        for w in (edge - 1, edge, edge + 1):
            if w < top:
                yield f"size {w} 1"
                yield f"size 1 {w}"


def rust_cases(ask):
    for widest, highest, data in headers():
        yield f"head {widest} {highest} {hexed(data)}"
    for part in (rows_read, beginnings, wide_rows):
        for w, h, rows in part():
            yield f"read 65535 65535 {3 * w * h} {4 * w} {hexed(file(w, h, rows))}"
    yield from buffers()
    for w, h, four in rows_written():
        data = hexed(four)
        length = int(ask(f"len4 {w} {h} {data}").split()[2])
        yield f"len4 {w} {h} {data}"
        yield f"write4 {w} {h} {length} {data}"
        yield f"write4 {w} {h} {length - 1} {data}"
        yield f"write4 {w} {h} {length + 3} {data}"
    for w, h, data in frames_of_samples():
        length = int(ask(f"len {w} {h} {data}").split()[2])
        yield f"len {w} {h} {data}"
        yield f"write {w} {h} {length} {data}"
    yield from wide_frames()
    yield from sizes()


# ---- The list

def main():
    oracle = sys.argv[1]

    def answers(lines):
        text = "".join(line + "\n" for line in lines)
        run = subprocess.run([oracle, "answer"], input=text.encode(), stdout=subprocess.PIPE, check=True)
        return run.stdout.decode().split("\n")[:-1]

    pairs = sky_lines("compare/skies")
    for part in (reader_refusals, old_runs, writer_refusals, pixels, bounds_of_bytes, saved_twice, worst_lengths, no_form):
        pairs += dict.fromkeys(part())
    by_rules = len(pairs)
    counts = []
    for part in (list_document, list_header, list_orientation):
        before, known = len(pairs), dict(pairs)
        pairs += [pair for pair in dict(part.by_hand()).items() if pair[0] not in known]
        known, hand = dict(pairs), len(pairs)
        pairs += [(line, reading.answer(line)) for line in dict.fromkeys(part.by_reading()) if line not in known]
        counts.append((hand - before, len(pairs) - hand))
    for line, answer in pairs:
        if line.startswith(("readd ", "headd ")) and answer != "?" and reading.answer(line) != answer:
            sys.exit(f"list: compare/reading.py answers otherwise than by hand: {line[:200]}")
    lines = list(dict.fromkeys(rust_cases(lambda line: answers([line])[0])))
    for line, answer in zip(lines, answers(lines), strict=True):
        if answer[0] in "~!?" or answer.startswith("25 "):
            sys.exit(f"list: the Rust has no answer to: {line[:200]}")
        pairs.append((line, answer))
    # the last line has no line feed
    pairs.append(("size 3 4", "36 1072"))
    with open("crates/replay/stdin", "wb") as f:
        f.write("\n".join(line for line, _ in pairs).encode())
    with open("crates/replay/stdout", "wb") as f:
        f.write("".join(answer + "\n" for _, answer in pairs).encode())
    print(f"list: {by_rules + 1} lines by the rules, {len(lines)} by the Rust")
    for name, (hand, rest) in zip(("the document reading", "headers by it", "orientations"), counts):
        print(f"list: of {name} {hand} lines by hand, {rest} by compare/reading.py")


main()
