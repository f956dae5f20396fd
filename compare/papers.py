"""The documents' pixel, and reading a file by the documents: shared by compare/outside.py and compare/rivals.py."""

import math

import numpy

BLACK = float(numpy.float32(1e-32))


def numbers(data):
    return numpy.frombuffer(data, numpy.uint8)


def four_bytes(samples):
    """Three samples to four bytes, as RULES 5.1 has it; Python's numbers are wide enough to be exact."""
    largest = max(samples)
    if not largest > BLACK:
        return bytes(4)
    e = math.frexp(largest)[1]
    return bytes([max(0, math.floor(math.ldexp(s, 8 - e))) for s in samples] + [e + 128])


def pixels_of(frame):
    """The four-byte pixels of a frame, row by row."""
    return b"".join(four_bytes([float(s) for s in pixel]) for row in frame for pixel in row)


def lower_edge(pixels, shape):
    """m * 2^(E-136), and 0 where E is 0."""
    quads = numbers(pixels).reshape(shape[0], shape[1], 4)
    scale = numpy.ldexp(1.0, quads[:, :, 3:].astype(int) - 136) * (quads[:, :, 3:] > 0)
    return quads[:, :, :3] * scale


def middle(pixels, shape):
    """(2m + 1) * 2^(E-137), and 0 where E is 0."""
    quads = numbers(pixels).reshape(shape[0], shape[1], 4)
    scale = numpy.ldexp(1.0, quads[:, :, 3:].astype(int) - 137) * (quads[:, :, 3:] > 0)
    return (2.0 * quads[:, :, :3] + 1) * scale


def split_file(data, width, height):
    """The rows' bytes of a file, behind its header."""
    sizes = b"-Y %d +X %d\n" % (height, width)
    place = data.index(b"\n\n" + sizes)
    return data[place + 2 + len(sizes):]


def decode(rows, width, height):
    """The four-byte pixels of rows, by the documents; no old runs."""
    place, out = 0, bytearray()
    for _ in range(height):
        if rows[place:place + 4] != bytes([2, 2, width >> 8, width & 255]) or not 8 <= width <= 32767:
            out += rows[place:place + 4 * width]
            place += 4 * width
            continue
        place += 4
        channels = []
        for _ in range(4):
            channel = bytearray()
            while len(channel) < width:
                count = rows[place]
                if count > 128:
                    channel += bytes([rows[place + 1]]) * (count - 128)
                    place += 2
                else:
                    channel += rows[place + 1:place + 1 + count]
                    place += 1 + count
            assert len(channel) == width, "a channel passes the row's end"
            channels.append(bytes(channel))
        out += bytes(b for quad in zip(*channels) for b in quad)
    assert place == len(rows), "bytes behind the last row"
    return bytes(out)
