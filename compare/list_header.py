"""The fixed list's lines on what a header says: `by_hand` with their answers, from the ticket W-204, `by_reading` those that compare/reading.py answers.

The bit patterns are those that C's strtof and its products give; none was worked out by a program of this repository.
"""

import itertools

from lines import hexed, lent, lent_samples, lower_edges, middles

SIZES = b"\n-Y 1 +X 2\n"
P, Q = [10, 20, 30, 129], [40, 50, 60, 130]


def head(data, answer, limits="9 9"):
    return f"headd {limits} {hexed(data)}", answer


def told(lines, kind="none", exposure="none"):
    """A header with these lines, which say a kind of colour and an exposure."""
    data = b"#?RGBE\n" + lines + SIZES
    return head(data, f"0 0 2 1 {len(data)} {kind} {exposure} -Y+X")


def refused(number, lines):
    return head(b"#?RGBE\n" + lines + SIZES, f"{number} 0 0 0 0 none none none")


def factors(*texts):
    """An EXPOSURE line for each."""
    return b"".join(b"EXPOSURE=" + text + b"\n" for text in texts)


# ---- by hand


def digits():
    """1 to 7 digits, leading zeros among them, with a point before, behind, between or none."""
    for text, pattern in (
        (b"1", "3f800000"), (b"2", "40000000"), (b"7", "40e00000"), (b"10", "41200000"), (b"0000001", "3f800000"), (b"0000010", "41200000"),
        (b"1234567", "4996b438"), (b"9999999", "4b18967f"), (b"1000000", "49742400"), (b"8388609", "4b000001"),
        (b"1.", "3f800000"), (b".5", "3f000000"), (b"1.5", "3fc00000"), (b"0.5", "3f000000"), (b"00.5", "3f000000"), (b"1.50", "3fc00000"),
        (b".1", "3dcccccd"), (b"0.1", "3dcccccd"), (b"3.3", "40533333"), (b"1.1", "3f8ccccd"), (b"1.000000", "3f800000"), (b"1000000.", "49742400"),
        (b"123456.7", "47f1205a"), (b"1.234567", "3f9e064b"), (b".1234567", "3dfcd6de"), (b"1234567.", "4996b438"), (b"0.000001", "358637bd"), (b".0000001", "33d6bf95"),
        (b"000000.1", "3dcccccd"), (b"0.003012", "3b4564f9"), (b"9.999999", "411fffff"), (b".9999999", "3f7ffffe"),
    ):
        yield told(factors(text), exposure=pattern)
    for text in (b"12345678", b"00000001", b"10000000", b"1234567.8", b"1.2345678", b".12345678", b"12345678.", b"0.0000001", b"1.0000000", b"00000000.1", b"1" * 40):
        yield refused(16, factors(text))


def powers():
    """e or E, a sign or none, one or two digits; the power less the digits behind the point from -10 to 10."""
    for text, pattern in (
        (b"5e0", "40a00000"), (b"5E0", "40a00000"), (b"5e+0", "40a00000"), (b"5e-0", "40a00000"), (b"5e00", "40a00000"), (b"5E+00", "40a00000"),
        (b"5e1", "42480000"), (b"5e01", "42480000"), (b"5E+1", "42480000"), (b"5e+01", "42480000"), (b"5e-1", "3f000000"), (b"5E-01", "3f000000"),
        (b"1.5e1", "41700000"), (b"1.e1", "41200000"), (b".1e1", "3f800000"), (b"0.1e+01", "3f800000"),
        (b"1e10", "501502f9"), (b"1e-10", "2edbe6ff"), (b"9999999e10", "5bb1a2bb"), (b"9999999e-10", "3a83126e"), (b"0000001e10", "501502f9"), (b"0000001e-10", "2edbe6ff"),
        (b"1.e10", "501502f9"), (b"1.e-10", "2edbe6ff"), (b"1.0e11", "51ba43b7"), (b"1.0e-9", "3089705f"), (b".1e11", "501502f9"), (b".1e-9", "2edbe6ff"),
        (b"1.234567e16", "5a2f7149"), (b"1.234567e-4", "39017428"), (b".1234567e17", "5a2f7149"), (b".1234567e-3", "39017428"), (b".0000001e17", "501502f9"), (b".0000001e-3", "2edbe6ff"),
        (b"9765625e-10", "3a800000"),
    ):
        yield told(factors(text), exposure=pattern)
    for text in (
        b"1e11", b"1e-11", b"9999999e11", b"1.e11", b"1.e-11", b"1.0e12", b"1.0e-10", b".1e12", b".1e-10", b"1.234567e17", b"1.234567e-5", b".1234567e18", b".1234567e-4",
        b"1e99", b"1e-99", b"1e38", b"1e-38", b"0000000e11",
    ):  # fmt: skip
        yield refused(16, factors(text))


def roundings():
    """Once, to the nearest f32; of two as near, to the even one."""
    for text, pattern in (
        # ties: 33554450 and 67108900 lie between 8388612 and 8388613 units, 33554470 between 8388617 and 8388618, 67109100 between 8388637 and 8388638
        (b"3355445e1", "4c000004"), (b"3355447e1", "4c00000a"), (b"671089e2", "4c800004"), (b"671091e2", "4c80001e"),
        # 268436000 is 8388625 units, and 268437000 is 8388656.25
        (b"268436e3", "4d800011"), (b"268437e3", "4d800030"),
        # .01 is another f32 than .1 times .1, which stands below
        (b".01", "3c23d70a"), (b"1.21", "3f9ae148"), (b"16777.21", "4683126c"), (b"8388609", "4b000001"), (b"16777e3", "4b7fff28"),
    ):
        yield told(factors(text), exposure=pattern)


def no_numbers():
    """What is not written so."""
    for text in (
        b"", b" ", b".", b"..", b"1..", b"..1", b"1.2.3", b".1.", b"e5", b"E5", b".e5", b"5e", b"5E", b"5e+", b"5e-", b"5e001", b"5e123", b"5e+123", b"1e123", b"5e1.0", b"5e.1", b"5e++1", b"5e+-1",
        b"5ee1", b"5e1e1", b"5e1+", b"5 e1", b"5e 1", b"5e+ 1", b"5e1 1", b"1 2", b"1\t2", b"1\r2", b"1,5", b"1_0", b"1'0", b"+1", b"-1", b"+.5", b"-.5", b"--1", b"+0", b"-0", b"1+", b"1-",
        b"nan", b"NaN", b"inf", b"Infinity", b"-inf", b"0x1", b"0x1p3", b"1p3", b"1d5", b"1f", b"1.5f", b"1^2", b"1/2", b"1*2", b"1%", b"one", b"=1", b"EXPOSURE=1", b"(1)", b"\"1\"", b"1;", b"1#",
        b"1\0", b"\x001", b"1\x08", b"\x0e1", b"1\x1c", b"1\x1f", b"\x7f1", b"1\x85", b"\xa01", b"1\xa0", b"\xb2", b"\xd9\xa1", b"\xef\xbc\x91", b"1\xff", b"/", b":", b"1/", b"1:", b"5e/", b"5e:", b"5f1", b"5d1", b"5F1", b"5D1",
    ):  # fmt: skip
        yield refused(16, factors(text))
    for text in (b"0", b"0000000", b"0.0", b".0", b"0.", b"0e0", b"0e10", b"0e-10", b"00.000e1", b".0000000"):
        yield refused(16, factors(text))
        yield refused(16, factors(b"2", text))


def blanks():
    """The rest of a line is trimmed at both ends, of the bytes 9 to 13 and 32."""
    for before, behind in itertools.product((b"", b" ", b"\t", b"\x0b", b"\x0c", b"\r", b" \t\x0b\x0c\r "), repeat=2):
        yield told(b"EXPOSURE=" + before + b"2" + behind + b"\n", exposure="40000000")
        yield told(b"FORMAT=" + before + b"32-bit_rle_xyze" + behind + b"\n", "xyze")
    for byte in (b"\0", b"\x08", b"\x0e", b"\x1c", b"\x1f", b"!", b"\x7f", b"\x85", b"\xa0"):
        yield refused(16, b"EXPOSURE=" + byte + b"2\n")
        yield refused(16, b"EXPOSURE=2" + byte + b"\n")
        yield refused(15, b"FORMAT=" + byte + b"32-bit_rle_rgbe\n")
        yield refused(15, b"FORMAT=32-bit_rle_rgbe" + byte + b"\n")


def formats():
    """The two kinds, of which the last line says which; each line that says another is refused, wherever it stands."""
    rgbe, xyze = b"FORMAT=32-bit_rle_rgbe\n", b"FORMAT=32-bit_rle_xyze\n"
    yield told(b"")
    yield told(rgbe, "rgbe")
    yield told(xyze, "xyze")
    yield told(rgbe * 3, "rgbe")
    yield told(rgbe + xyze, "xyze")
    yield told(xyze + rgbe, "rgbe")
    yield told(xyze + b"VIEW=1\n" + rgbe + b"# FORMAT=32-bit_rle_xyze\n", "rgbe")
    for text in (
        b"", b" ", b"32-bit_rle_rgb", b"32-bit_rle_rgbee", b"2-bit_rle_rgbe", b"32-bit_rle_RGBE", b"32-BIT_RLE_RGBE", b"32-bit_rle_xyz", b"32-bit_rle_xyzE", b"32-bit_rle_xyzee", b"32-bit_rle_",
        b"16-bit_any", b"rgbe", b"xyze", b"32-bit_rle_rgbe 32-bit_rle_xyze", b"32-bit_rle_rgbe#", b"32-bit_rle_ rgbe", b"32-bit rle rgbe", b"=32-bit_rle_rgbe", b"32_bit_rle_rgbe", b"32-bit-rle-rgbe", b"32-bit_rle_xgbe",
        b"32-bit_rle_rgbe\0", b"FORMAT=32-bit_rle_rgbe", b"x" * 40,
    ):  # fmt: skip
        wrong = b"FORMAT=" + text + b"\n"
        yield refused(15, wrong)
        yield refused(15, wrong + rgbe)
        yield refused(15, xyze + wrong)


def names():
    """A line counts if it starts with the name and the equals sign, and no other does."""
    for line in (
        b" EXPOSURE=x", b"\tEXPOSURE=x", b"\rEXPOSURE=x", b"\x0bEXPOSURE=x", b"\x0cEXPOSURE=x", b"EXPOSURE =x", b"EXPOSURE\t=x", b"exposure=x", b"Exposure=x", b"EXPOSURE", b"EXPOSURE:2", b"EXPOSURE 2", b"#EXPOSURE=x",
        b"EXPOSURES=x", b"XEXPOSURE=x", b"EXPOSUR=x", b"EXPOSURE\0=x", b"EXPOSUREFORMAT=x", b" FORMAT=x", b"\tFORMAT=x", b"\rFORMAT=x", b"FORMAT =x", b"FORMAT\r=x", b"format=x", b"Format=x", b"FORMAT", b"FORMAT:x", b"#FORMAT=x",
        b"FORMATS=x", b"XFORMAT=x", b"FORMA=x", b"VIEW=FORMAT=x", b"VIEW=EXPOSURE=x", b"\0FORMAT=x", b"=", b"x", b"\r", b" ", b"COLORCORR=1 1 1", b"PIXASPECT=x", b"GAMMA=x", b"E=x", b"F=x", b"#",
    ):  # fmt: skip
        yield told(line + b"\n")
        yield told(b"EXPOSURE=2\n" + line + b"\nFORMAT=32-bit_rle_xyze\n", "xyze", "40000000")


def products():
    """Several lines multiply in file order, each product rounded once; where it becomes zero or infinite, 16, whatever follows."""
    tenth, ten = b"9765625e-10", b"1024"  # 2^-10 and 2^10
    least = (tenth,) * 14 + (b".5",) * 9  # 2^-149
    for texts, pattern in (
        ((b"2", b"3"), "40c00000"), ((b"2", b".5"), "3f800000"), ((b"1", b"1", b"1"), "3f800000"), ((b"1.1", b"1.1"), "3f9ae148"), ((b"1.1",) * 3, "3faa5e36"),
        ((b".1", b".1"), "3c23d70b"), ((b".1", b"10"), "3f800000"), ((b"3", b".3333333"), "3f7fffff"), ((b"2", b"0000001e-10", b"1e10"), "40000000"),
        # ties: 18631 times 1801 is 2^25 - 1, and 4097 times 4099 lies between 8396801 and 8396802 units of 2
        ((b"18631", b"1801"), "4c000000"), ((b"4097", b"4099"), "4b802002"), ((b"4097", b"4097"), "4b801000"),
        # subnormal ones; of a tie the even one: 1.5 and 2.5 units are 2 and 2, 3.5 are 4
        ((tenth,) * 13, "00080000"), ((tenth,) * 12 + (b".015625",), "00800000"), ((tenth,) * 12 + (b".015625", b".5"), "00400000"), ((b"1e-10",) * 4, "000116c2"),
        (least, "00000001"), ((*least, b"1.5"), "00000002"), ((*least, b"2.5"), "00000002"), ((*least, b"3.5"), "00000004"), ((*least, b".6"), "00000001"), ((*least, b"1.4"), "00000001"),
        ((*least, b"3", b".5"), "00000002"), ((*least, b"5", b".5"), "00000002"), ((*least, b"7", b".5"), "00000004"),
        # the order of the lines
        ((*least, b"3", b".5", b"2"), "00000004"), ((*least, b"3", b"2", b".5"), "00000003"), ((*least, ten, b".5"), "00000200"),
        # the largest: 4095 times 4097 is 2^24 - 1
        ((ten,) * 12 + (b"128",), "7f000000"), ((b"4095", *(ten,) * 10, b"16", b"4097"), "7f7fffff"), ((*(ten,) * 12, b"128", b".5", b"2"), "7f000000"), ((*(ten,) * 12, b"128", b"1.999999"), "7f7ffff8"),
        ((b"9999999e10", b"1e-10", b"1e10", b"1e-10"), "4b18967f"),
    ):  # fmt: skip
        yield told(factors(*texts), exposure=pattern)
    for texts in (
        # 2^-150 is a tie, and goes to zero; so does all below; what follows would lead back
        (*least, b".5"), (*least, b".5", b"2"), (*least, b".5", ten, ten), (*least, b".4", b"5"), (b"1e-10",) * 5, (*(b"1e-10",) * 5, *(b"1e10",) * 5), (tenth,) * 15,
        # 2^128; a tie with it: 18631 times 1801 times 2^103
        (*(ten,) * 12, b"128", b"2"), (*(ten,) * 12, b"128", b"2", b".5"), (*(ten,) * 12, b"256"), (*(ten,) * 13, *(tenth,) * 13), (b"1e10",) * 4, (*(b"1e10",) * 4, *(b"1e-10",) * 4), (b"18631", *(ten,) * 10, b"8", b"1801"),
    ):  # fmt: skip
        yield refused(16, factors(*texts))


def ends():
    """The header ends at a line whose first byte is a line feed, or with the bytes: a last line ended so counts. Where neither 15 nor 16 applies, there are no axes."""
    for number, rest in (
        (15, b"FORMAT="), (15, b"FORMAT=x"), (15, b"FORMAT=32-bit_rle_rgb"), (2, b"FORMAT=32-bit_rle_rgbe"), (2, b"FORMAT=32-bit_rle_xyze\r"), (2, b"FORMAT"), (2, b" FORMAT=x"),
        (16, b"EXPOSURE="), (16, b"EXPOSURE=x"), (16, b"EXPOSURE=0"), (2, b"EXPOSURE=2"), (16, b"EXPOSURE=2e"), (2, b"EXPOSURE=2\t"), (2, b"EXPOSURE"), (16, b"EXPOSURE=1e10\n" * 3 + b"EXPOSURE=1e10"),
        # what stands behind the header's end is none of its lines
        (2, b"\nFORMAT=x\n"), (2, b"\nEXPOSURE=x\n"), (2, b"\n\nFORMAT=x"), (2, b""), (2, b"\n"),
        # a carriage return first is not blank: the line behind it counts
        (15, b"\r\nFORMAT=x\n" + SIZES), (16, b"\r\nEXPOSURE=x\n" + SIZES), (16, b" \nEXPOSURE=x\n" + SIZES),
    ):  # fmt: skip
        yield head(b"#?RGBE\n" + rest, f"{number} 0 0 0 0 none none none")
    yield told(b"\r\nEXPOSURE=2\r\n\r\nFORMAT=32-bit_rle_xyze\r\n", "xyze", "40000000")
    # an extra blank line before the sizes does no harm; the other axes; what follows the sizes
    for tail, size, axes in ((b"\n\n-Y 1 +X 2\n", 0, "-Y+X"), (b"\n+X 2 -Y 1\n", 0, "+X-Y"), (SIZES + b"FORMAT=x\nEXPOSURE=x\n", 20, "-Y+X"), (b"\n-Y 1 +X 2", 0, "-Y+X")):
        data = b"#?RADIANCE\nEXPOSURE=.5\nFORMAT=32-bit_rle_rgbe\n" + tail
        yield head(data, f"0 0 2 1 {len(data) - size} rgbe 3f000000 {axes}")


def orders():
    """1, then 15 or 16 by the line that comes first, then 2, 3, 4, 5; and in a file 6, 7, 8 and the rows."""
    a, b = b"FORMAT=x\n", b"EXPOSURE=x\n"
    for first in (b"#?RGBX\n", b"\n", b"", b"FORMAT=x\n", b"#?RGBE", b"#?RGBE FORMAT=x\n"):
        for lines in (a, b, a + b):
            yield head(first + lines + SIZES, "1 0 0 0 0 none none none")
    yield refused(15, a + b)
    yield refused(16, b + a)
    yield refused(15, b"EXPOSURE=2\n" + a + b)
    yield refused(16, b"FORMAT=32-bit_rle_xyze\n" + b + a)
    yield refused(16, factors(*[b"1e10"] * 4) + a)
    yield refused(15, factors(*[b"1e10"] * 3) + a + factors(b"1e10"))
    for sizes, number in ((b"\n-Y 1 +Y 2\n", 2), (b"\n+X 1 -X 2\n", 2), (b"\n-Y x +X 2\n", 3), (b"\n-Y 1 +X 18446744073709551616\n", 3), (b"\n-Y 10 +X 2\n", 4), (b"\n-Y 10 +X 10\n", 4), (b"\n-Y 1 +X 10\n", 5)):
        for lines, found in ((b"", number), (a, 15), (b, 16), (b"EXPOSURE=0\n", 16), (b"FORMAT=32-bit_rle_xyze\nEXPOSURE=2\n", number)):
            yield head(b"#?RGBE\n" + lines + sizes, f"{found} 0 0 0 0 none none none")
    # limits above 65,535 count as 65,535; height 0 and width 0 are none of the header's refusals
    for limit in (65535, 65536, 18446744073709551615):
        for h, w, answer in ((65535, 65535, "0 0 65535 65535 {n} xyze 40000000 -Y+X"), (65536, 65535, "4 0 0 0 0 none none none"), (65535, 65536, "5 0 0 0 0 none none none")):
            data = b"#?RGBE\nEXPOSURE=2\nFORMAT=32-bit_rle_xyze\n\n-Y %d +X %d\n" % (h, w)
            yield head(data, answer.format(n=len(data)), f"{limit} {limit}")
    for h, w in ((0, 3), (3, 0), (0, 0)):
        yield head(b"#?RGBE\nEXPOSURE=2\n\n-Y %d +X %d\n" % (h, w), f"0 0 {w} {h} 29 none 40000000 -Y+X")


def files():
    """By the document reading a file is refused by 15 and 16 too, with no lent memory changed; its samples are not divided by the exposure."""
    for number, lines in ((15, b"FORMAT=x\n"), (16, b"EXPOSURE=-1\n"), (16, factors(b"1e10", b"1e10", b"1e10", b"1e10", b"1e-10")), (15, b"EXPOSURE=2\nFORMAT=\nEXPOSURE=\n")):
        data = hexed(b"#?RGBE\n" + lines + SIZES + bytes(P + Q))
        for out, store in ((6, 8), (7, 9), (0, 0), (5, 8), (6, 7)):
            yield f"readd 9 9 {out} {store} {data}", f"{number} 0 0 0 0 {lent_samples(out)} {lent(store)}"
        yield f"readd 1 1 6 8 {data}", f"{number} 0 0 0 0 {lent_samples(6)} {lent(8)}"
        # the width is 0, and a byte of the rows is missing
        yield f"readd 9 9 0 0 {hexed(b'#?RGBE' + bytes([10]) + lines + bytes([10]) + b'-Y 1 +X 0' + bytes([10]))}", f"{number} 0 0 0 0 - -"
        yield f"readd 9 9 6 8 {data[:-2]}", f"{number} 0 0 0 0 {lent_samples(6)} {lent(8)}"
    for lines in (b"", b"EXPOSURE=4\n", b"FORMAT=32-bit_rle_xyze\nEXPOSURE=.25\n", b"EXPOSURE=1e-10\n" * 4, b" FORMAT=x\nEXPOSURE =0\n"):
        data = b"#?RGBE\n" + lines + SIZES + bytes(P + Q)
        yield f"readd 9 9 6 8 {hexed(data)}", f"0 0 2 1 {len(data)} {middles([P, Q])} {hexed(P + Q)}"


def by_crate():
    """The crate reading passes over all lines."""
    for lines in (
        b"FORMAT=x\n", b"FORMAT=\n", b"EXPOSURE=x\n", b"EXPOSURE=0\n", b"EXPOSURE=\n", b"EXPOSURE=2\n", b"FORMAT=32-bit_rle_xyze\n", b"FORMAT=32-bit_rle_xyze\nEXPOSURE=.5\n", b"FORMAT=x\nEXPOSURE=x\n",
        factors(*[b"1e10"] * 4), factors(*[b"1e-10"] * 5), b"EXPOSURE=12345678\n", b"EXPOSURE=-1\r\n",
    ):  # fmt: skip
        data = b"#?RGBE\n" + lines + SIZES
        yield f"head 9 9 {hexed(data)}", f"0 0 2 1 {len(data)}"
        yield f"read 9 9 6 8 {hexed(data + bytes(P + Q))}", f"0 0 2 1 {len(data) + 8} {lower_edges([P, Q])} {hexed(P + Q)}"
    for rest, number in ((b"FORMAT=x\n", 2), (b"EXPOSURE=x", 2), (b"FORMAT=x\n\n-Y x +X 1\n", 3), (b"EXPOSURE=0\n\n-Y 99 +X 1\n", 4), (b"EXPOSURE=0\n\n-Y 1 +X 99\n", 5)):
        yield f"head 9 9 {hexed(b'#?RGBE' + bytes([10]) + rest)}", f"{number} 0 0 0 0"


def by_hand():
    for part in (digits, powers, roundings, no_numbers, blanks, formats, names, products, ends, orders, files, by_crate):
        yield from part()


# ---- by compare/reading.py


def line(data):
    return f"headd 65535 65535 {hexed(data)}"


WHOLE = b"#?RADIANCE\nEXPOSURE= 1.25e-3\r\nFORMAT=32-bit_rle_xyze\nVIEW=-vtv\nEXPOSURE=40\n\n-Y 12 +X 34\n"


def beginnings():
    """Every beginning of a header."""
    for n in range(len(WHOLE) + 1):
        yield line(WHOLE[:n])


def changed():
    """One byte changed, lost, or put in, at every place of the lines."""
    for at in range(11, len(WHOLE) - 13):
        for byte in (b"\n", b" ", b"0"):
            yield line(WHOLE[:at] + byte + WHOLE[at + 1:])
        yield line(WHOLE[:at] + WHOLE[at + 1:])
        yield line(WHOLE[:at] + b"1" + WHOLE[at:])


def texts(letters, most):
    """An EXPOSURE line of every text of up to so many letters."""
    for count in range(most + 1):
        for chosen in itertools.product(letters, repeat=count):
            yield line(b"#?RGBE\nEXPOSURE=" + bytes(chosen) + b"\n" + SIZES)


def by_reading():
    yield from beginnings()
    yield from changed()
    yield from texts(b"05.e+ ", 3)
