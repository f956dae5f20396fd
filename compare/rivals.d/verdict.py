"""A few words for what a program did with a file."""

import numpy

import crate
import reading
from papers import lower_edge, middle

VALUES = ((middle, ""), (lower_edge, ", lower edge"))
TURNINGS = {  # the eight ways in which a picture can lie
    "upright": lambda picture: picture,
    "left and right exchanged": lambda picture: picture[:, ::-1],
    "top and bottom exchanged": lambda picture: picture[::-1],
    "turned by 180 degrees": lambda picture: picture[::-1, ::-1],
    "columns as rows": lambda picture: picture.transpose(1, 0, 2),
    "columns as rows, turned by 180 degrees": lambda picture: picture.transpose(1, 0, 2)[::-1, ::-1],
    "turned by 90 degrees clockwise": lambda picture: numpy.rot90(picture, -1),
    "turned by 90 degrees counterclockwise": lambda picture: numpy.rot90(picture),
}


def expected(case, value):
    """The picture's samples by one of the two values, and no number where the file holds no pixel."""
    quads = b"".join(p or bytes(4) for p in case.pixels)
    samples = value(quads, (case.height, case.width)).reshape(-1)
    samples[numpy.repeat([p is None for p in case.pixels], 3)] = numpy.nan
    return samples


def same(found, wanted):
    """Equal wherever a sample is wanted."""
    return len(found) == len(wanted) and bool(numpy.all((found == wanted) | numpy.isnan(wanted)))


def as_told(done, read):
    """Whether the reading is the one that a function gives: width, height and samples, or a refusal. Words that are no refusal's do for each."""
    try:
        width, height, samples = read()
    except reading.Refused as refused:
        words = f"refusal {refused.number}" + ("" if refused.row is None else f" in row {refused.row}")
        return done.how == "error" and done.words == (words if done.words.startswith("refusal") else done.words)
    return done.how == "ok" and (done.width, done.height) == (width, height) and same(done.samples, samples)


def by_crate(case, done, limit=2**32, old_runs=True):
    """Whether the reading is the one of the crate's rule under a limit for both sizes, with its old runs or without."""
    return as_told(done, lambda: crate.read(case.data, limit, old_runs))


def by_document(case, done, limit):
    """Whether the reading is the document's, to the bit and to the row of a refusal."""
    def read():
        width, height, patterns = reading.picture(case.data, limit)
        return width, height, numpy.frombuffer(patterns, ">f4")

    return as_told(done, read)


def invented(case, done):
    """What stands where the file holds no pixel."""
    gone = numpy.array([p is None for p in case.pixels])
    frame = done.samples.reshape(-1, 3)
    if done.unset.any():
        return "memory never set"
    if not frame[gone].any():
        return "black"
    first = numpy.flatnonzero(gone)[0]
    if first > 0 and (frame[gone] == frame[first - 1]).all():
        return "copies of the last pixel"
    return "light that is not in the file"


def accepted(case, done, name):
    """Words for a picture that has all pixels which are in the file."""
    warned = ", with a warning" if done.warning else ""
    if None in case.pixels:
        return f"accepted{warned}; missing pixels: {invented(case, done)}"
    if case.damaged:
        return "accepted" + warned + (", read to the header's width" if case.group != "header" else "")
    return case.word + name + warned


def apart(case, done):
    """How a picture differs from the document's."""
    warned = ", with a warning" if done.warning else ""
    if (done.width, done.height) != (case.width, case.height):
        return f"accepted as {done.width} by {done.height}{warned}"
    if not done.samples.any():
        return f"all {case.width * case.height} pixels black{warned}"
    counts = []
    for value, name in VALUES:
        wanted = expected(case, value)
        wrong = ~((done.samples == wanted) | numpy.isnan(wanted))
        near = wrong & (abs(done.samples - wanted) <= abs(wanted) * 2.0**-23)
        if near.sum() == wrong.sum():
            return f"document{name}, {wrong.sum()} of {len(wrong)} samples one unit off"
        counts.append(int(wrong.reshape(-1, 3).any(1).sum()))
    return f"other samples in {min(counts)} of {case.width * case.height} pixels{warned}" + (", memory never set among them" if done.unset.any() else "")


def called(case, done):
    if done.how != "ok":
        return done.words if done.how == "late" else f"{done.how}: {done.words}"
    if (done.width, done.height) == (case.width, case.height):
        for value, name in VALUES:
            if same(done.samples, expected(case, value)):
                return accepted(case, done, name)
    if by_crate(case, done):
        return "crate rule"
    return apart(case, done)


def lies(case, width, height, samples):
    """How the document's picture lies in these samples, at either of the two values; none if they are no turning of it."""
    for value, _ in VALUES:
        for words, turning in TURNINGS.items():
            picture = turning(expected(case, value).reshape(case.height, case.width, 3))
            if picture.shape[:2] == (height, width) and same(samples, picture.reshape(-1)):
                return words
        if same(samples, value(case.stored, (1, len(case.pixels))).reshape(-1)):
            return f"stored pixels in rows of {width}"
    return None


def laid(case, done):
    """Words for how the picture lies, and how by the program's own turning where it tells an orientation."""
    if done.how != "ok":
        return called(case, done)
    words = lies(case, done.width, done.height, done.samples) or called(case, done)
    if done.turned:
        words += f"; says orientation {done.turn}, its own turning gives it {lies(case, *done.turned) or 'otherwise'}"
    return words
