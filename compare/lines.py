"""How lines of the replay program are put together: shared by compare/list.py and what it and compare/document.py take their cases from."""

import struct


def hexed(data):
    return bytes(data).hex() or "-"


def lent(n):
    """A lent buffer of n bytes."""
    return hexed(i % 251 for i in range(n))


def sample(value):
    """The bit pattern of a whole number below 2^24."""
    if value == 0:
        return "00000000"
    size = value.bit_length()
    return format((126 + size) << 23 | (value << (24 - size)) & 0x7FFFFF, "08x")


def lent_samples(n):
    """A lent output of n samples."""
    return "".join(sample(i % 251) for i in range(n)) or "-"


def file(w, h, rows=()):
    """A short header, and rows after it."""
    return f"#?RGBE\n\n-Y {h} +X {w}\n".encode() + bytes(rows)


def lower_edges(pixels):
    """The crate reading's samples of four-byte pixels, which have an exponent byte from 97 to 159."""
    return "".join(struct.pack(">f", m * 2.0 ** (pixel[3] - 136)).hex() for pixel in pixels for m in pixel[:3])


def middles(pixels):
    """The document reading's samples of four-byte pixels, which have an exponent byte above 0: half a step above the lower edge."""
    return "".join(struct.pack(">f", (m + 0.5) * 2.0 ** (pixel[3] - 136)).hex() for pixel in pixels for m in pixel[:3])
