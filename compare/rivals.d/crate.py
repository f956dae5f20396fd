"""The crate's way of reading, written from RULES 3 and 4: the header, the rows, the samples. Old runs are zune-hdr's (DIFFERENCES 2), or refused (RULES 4.11)."""

import numpy

from reading import Refused, Source, first_line, further_lines, sizes


class Input(Source):
    def __init__(self, data, old_runs):
        super().__init__(data)
        self.old_runs = old_runs

    def byte(self):
        return self.take(1)[0]

    def byte_or_0(self):
        return 0 if self.place == len(self.data) else self.byte()


def flat_part(source, store, start, wanted):
    place, shift = start, 0
    while wanted > 0:
        for i in range(4):
            store[place + i] = source.byte()
        if store[place:place + 3] != b"\x01\x01\x01":
            place, wanted, shift = place + 4, wanted - 1, 0
            continue
        if not source.old_runs:
            raise Refused(25)
        count = store[place + 3] << shift
        while wanted > 0 and place - start > 4 and count > 0:
            store[start + 4:start + 8] = store[place - 4:place]
            place, wanted, count = place + 4, wanted - 4, count - 1
        shift += 8
        if shift > 16:
            return


def channel(source, store, i, width):
    x = 0
    while x < width:
        count = source.byte()
        run = count > 128
        value = source.byte_or_0() if run else 0
        for _ in range(min(count - 128 if run else count, width - x)):
            store[4 * x + i] = value if run else source.byte_or_0()
            x += 1


def row(source, store, width):
    if not 8 <= width <= 32767 or source.data[source.place:source.place + 1] != b"\x02":
        return flat_part(source, store, 0, width)
    source.byte()
    store[1] = source.byte()
    store[2] = source.byte()
    fourth = source.byte()
    if store[1] != 2 or store[2] >= 128:
        store[0], store[3] = 2, fourth
        return flat_part(source, store, 4, width - 1)
    for i in range(4):
        channel(source, store, i, width)


def sample(m, e):
    if e == 0:
        return 0.0
    d = e - 128
    k = abs(d) % 32
    return m * 2.0 ** (k - 8 if d > 0 else -k - 8)


def read(data, limit, old_runs):
    """Width, height and samples, read with room enough under a limit for both sizes; or a refusal is raised."""
    source = Input(data, old_runs)
    first_line(source)
    for _ in further_lines(source):
        pass
    width, height, _ = sizes(source, [(b"-Y", b"+X"), (b"+X", b"-Y")])
    if height > limit or width > limit:
        raise Refused(4 if height > limit else 5)
    if width == 0:
        raise Refused(7)
    store, samples = bytearray(4 * width), []
    for y in range(height):
        try:
            row(source, store, width)
        except Refused as refused:
            raise Refused(refused.number, y) from None
        for x in range(width):
            samples += [sample(m, store[4 * x + 3]) for m in store[4 * x:4 * x + 3]]
    return width, height, numpy.array(samples, numpy.float32)
