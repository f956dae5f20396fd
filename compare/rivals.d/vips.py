"""Reads and writes by the vips program: read FILE OUT, piped FILE OUT, after FILE, write W H IN OUT, version."""

import os
import re
import subprocess
import sys


class Failed(Exception):
    """vips ended with a status other than 0; its words."""


def vips(*steps):
    """Runs vips for each step; what it says on standard error. A signal is passed on."""
    words = []
    for step in steps:
        done = subprocess.run(["vips", *step], stdout=subprocess.PIPE, stderr=subprocess.PIPE)
        if done.returncode < 0:
            os.kill(os.getpid(), -done.returncode)
        said = re.sub(r"\(vips:\d+\): VIPS-WARNING \*\*: [\d:.]+: ", "", done.stderr.decode(errors="replace"))
        words.append(" ".join(said.split()))
        if done.returncode:
            raise Failed(words[-1])
    return " ".join(w for w in words if w)


def result(out, said):
    sizes = [subprocess.run(["vipsheader", "-f", f, out + ".v"], stdout=subprocess.PIPE, check=True).stdout.decode().strip() for f in ("width", "height")]
    return "ok " + " ".join(sizes) + (f" 1 {said}" if said else "")


def read(path, out):
    """The loader by its name, then samples, then a file of samples alone."""
    return result(out, vips(("radload", path, out + ".r.v"), ("rad2float", out + ".r.v", out + ".v"), ("rawsave", out + ".v", out)))


def piped(path, out):
    """Loading and samples in one run."""
    return result(out, vips(("rad2float", path, out + ".v"), ("rawsave", out + ".v", out)))


def after(path):
    """What a loading with one thread leaves of its output file."""
    os.environ["VIPS_CONCURRENCY"] = "1"
    out = path + ".after.v"
    try:
        vips(("radload", path, out))
        how = "status 0"
    except Failed:
        how = "status 1"
    return f"ok {how}; output file of {os.path.getsize(out) if os.path.exists(out) else 'no'} bytes"


def write(width, height, samples, out):
    vips(("rawload", samples, out + ".v", width, height, "3", "--format", "float", "--interpretation", "scrgb"),
         ("float2rad", out + ".v", out + ".w.v"), ("radsave", out + ".w.v", out))
    return "ok"


def version():
    return "ok " + subprocess.run(["vips", "--version"], stdout=subprocess.PIPE, check=True).stdout.decode().split()[0]


try:
    print({"read": read, "piped": piped, "after": after, "write": write, "version": version}[sys.argv[1]](*sys.argv[2:]))
except Failed as words:
    print(f"error {words}")
