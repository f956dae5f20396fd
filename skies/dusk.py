"""A dusk sky of 64 by 32: dark blue above, warm at the horizon, some stars. skies/make runs it.

Every number is a whole number over a power of two until the last step, so that each machine computes the same samples.
"""
import struct
import subprocess
import sys

WIDTH, HEIGHT = 64, 32
TOP = (3, 6, 22)  # of 4096: the colour of the highest row
LOW = (2600, 1250, 420)  # of 4096: the colour of the horizon
STARS = ((5, 3, 900), (17, 7, 1400), (29, 2, 2600), (41, 9, 700), (52, 4, 1900), (60, 11, 800), (11, 12, 600))


def sample(column, row, channel):
    """One sample, of 2^-24: the colours mixed by the square of the height, brighter where the sun went down."""
    down = (row + 1) * (row + 1)
    glow = 64 - abs(column - 40)
    mixed = TOP[channel] * (1024 - down) * 64 + LOW[channel] * down * glow
    return mixed >> 4


def samples():
    values = []
    for row in range(HEIGHT):
        for column in range(WIDTH):
            pixel = [sample(column, row, channel) for channel in range(3)]
            for x, y, light in STARS:
                if (x, y) == (column, row):
                    pixel = [light << 12] * 3
            values.extend(pixel)
    return values


def main():
    file, replay = sys.argv[1], sys.argv[2:]
    words = "".join("%08x" % struct.unpack("<I", struct.pack("<f", value / 2.0**24))[0] for value in samples())
    line = "write %d %d 16384 %s\n" % (WIDTH, HEIGHT, words)
    answer = subprocess.run(replay, input=line.encode(), stdout=subprocess.PIPE, check=True).stdout.decode().split()
    number, length, out = answer[0], int(answer[2]), answer[3]
    if number != "0":
        sys.exit("skies: the writer refuses the sky, number " + number)
    with open(file, "wb") as f:
        f.write(bytes.fromhex(out)[:length])


main()
