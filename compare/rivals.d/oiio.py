"""Reads and writes by OpenImageIO, as a program of its own: read FILE OUT, turned FILE OUT, after FILE OUT, write W H IN OUT, version."""

import sys

import numpy
import OpenImageIO


def save(frame, out):
    numpy.ascontiguousarray(frame, "<f4").tofile(out)
    return f"ok {frame.shape[1]} {frame.shape[0]}"


def read(path, out):
    """The picture as read_image gives it, and the orientation that goes with it."""
    file = OpenImageIO.ImageInput.open(path)
    if file is None:
        return "error " + OpenImageIO.geterror()
    frame = file.read_image("float")
    if frame is None:
        return "error " + file.geterror()
    return save(frame, out) + f" {file.spec().getattribute('Orientation') or 1}"


def turned(path, out):
    """The picture after OpenImageIO's own reorient."""
    return save(OpenImageIO.ImageBufAlgo.reorient(OpenImageIO.ImageBuf(path)).get_pixels(OpenImageIO.FLOAT), out)


def after(path, out):
    """What an ImageBuf holds when its reading fails."""
    picture = OpenImageIO.ImageBuf(path)
    done = picture.read(0, 0, True, OpenImageIO.FLOAT)
    save(picture.get_pixels(OpenImageIO.FLOAT), out)
    return "ok" if done else "error " + picture.geterror()


def write(width, height, samples, out):
    frame = numpy.fromfile(samples, "<f4").reshape(int(height), int(width), 3)
    file = OpenImageIO.ImageOutput.create(out)
    done = file.open(out, OpenImageIO.ImageSpec(int(width), int(height), 3, "float")) and file.write_image(frame)
    return "ok" if file.close() and done else "error " + file.geterror()


def version():
    return "ok OpenImageIO " + OpenImageIO.VERSION_STRING


print({"read": read, "turned": turned, "after": after, "write": write, "version": version}[sys.argv[1]](*sys.argv[2:]))
