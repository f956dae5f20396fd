"""Looks for float divides in what tools/no-divide made: no-divide.py FOLDER RLIBS

There `links` are the archive's symbols and relocations, `code` its instructions, and each *.json is a library in the words that the compiler
is given; those of the kit stand in RLIBS. Code is taken to reach all that it names, whether it calls it or not.
Exit status: 0 no reading call reaches a float divide or a square root, 1 one does, or reaches code that is not there, 2 the calls or the
code are not as expected.
"""
import functools
import glob
import json
import os
import re
import sys

# The calls of the face that write. Every other is a reading call.
WRITING = set(
    """doorwhisp_length doorwhisp_length4 doorwhisp_worst doorwhisp_write doorwhisp_write4 doorwhisp_expected_buffer_size
    doorwhisp_pixel_to_bytes""".split()
)
# What a reading call may ask of the C library.
OUTSIDE = {"memset"}
# What is done with floats in the compiler's words, but for the divide, the remainder and the square root.
HARMLESS = set(
    """FloatAdd FloatSub FloatMul FloatNeg FloatEq FloatNe FloatLt FloatLe FloatToInt FloatToFloat FloatToBits FloatFromBits""".split()
)


def lines(path):
    with open(path, encoding="utf-8", errors="replace") as file:
        return file.read().splitlines()


class Code:
    """Pieces of code, each by its name: what it names, and its float divides as pairs of a function and a word."""

    def __init__(self):
        self.named, self.divides = {}, {}
        self.calls = {}  # the face's functions, each with its piece
        self.unseen = set()  # pieces with functions of which no instruction was seen

    def piece(self, name):
        self.named.setdefault(name, set())
        self.divides.setdefault(name, [])
        return name

    def ways(self, calls):
        """Of each piece that one of the calls reaches the pieces on the way to it."""
        starts = [self.calls[name] for name in calls]
        ways = {start: [start] for start in starts}
        todo = list(starts)
        for name in todo:
            for other in sorted(self.named.get(name, set()) - set(ways)):
                ways[other] = ways[name] + [other]
                todo.append(other)
        return ways


# ---- The archive. A piece is a section: the compiler gives each function one of its own.

SYMBOL = re.compile(r"[0-9a-f]{16} (.{7}) ([^\t]+)\t[0-9a-f]+ (?:\.hidden )?(.+)")
LINK = re.compile(r"[0-9a-f]{16} R_\w+ +(.+?)(?:[-+]0x[0-9a-f]+)?")
LABEL = re.compile(r"[0-9a-f]{16} <(.+)>:")
INSTRUCTION = re.compile(r" *[0-9a-f]+:\t([^<#]+)")


def divides_in(instruction):
    """Its words that are a divide, a remainder, a square root or a reciprocal of floats; the integer's divide is none."""
    found = re.findall(r"\b\w*(?:div|prem|sqrt|rcp)\w*", instruction)
    return [word for word in found if not re.fullmatch(r"i?div[bwlq]?", word)]


def take_links(folder, code):
    """Takes up what each section names, which of them hold functions, and where the calls stand."""
    section_of, here = {}, None
    for line in lines(f"{folder}/links"):
        symbol, link = SYMBOL.fullmatch(line), LINK.fullmatch(line)
        if symbol:
            flags, section, name = symbol.groups()
            section_of[name] = name if section == "*UND*" else code.piece(section)
            if flags.endswith("F"):
                code.unseen.add(section)
            if flags.endswith("F") and flags.startswith("g"):
                code.calls[name] = section
        elif line.startswith("RELOCATION RECORDS FOR ["):
            here = code.piece(line[24:-2])
        elif link:
            code.named[here].add(section_of[link[1]])


def archive(folder):
    code = Code()
    take_links(folder, code)
    for line in lines(f"{folder}/code"):
        label, instruction = LABEL.fullmatch(line), INSTRUCTION.match(line)
        if line.startswith("Disassembly of section "):
            here = code.piece(line[23:-1])
        elif label:
            function = label[1]
        elif instruction:
            code.unseen.discard(here)
            code.divides[here] += [(function, word) for word in divides_in(instruction[1])]
    return code


# ---- The crates. A piece is a function.


def words_in(part, field=""):
    """Each string of a part of a function, with the field whose value it is or begins; a field's own name has none."""
    if isinstance(part, dict):
        for name, value in part.items():
            yield "", name
            yield from words_in(value, name)
    elif isinstance(part, list):
        for i, value in enumerate(part):
            yield from words_in(value, "" if i else field)
    elif isinstance(part, str):
        yield field, part


def crates(folder, rlibs):
    """The functions of our libraries, and those of the kit's that they reach."""
    ours = {os.path.basename(path)[:-5]: path for path in glob.glob(f"{folder}/*.json")}

    @functools.cache
    def functions(crate):
        path = ours.get(crate, f"{rlibs}/{crate}.rlib/toolchain/mir.json")
        return dict(json.loads("\n".join(lines(path)))) if os.path.exists(path) else {}

    code = Code()
    todo = [name for crate in sorted(ours) for name in functions(crate)]
    seen = set(todo)
    for name in todo:
        code.piece(name)
        for field, word in words_in(functions(name.partition("::")[0])[name]):
            there = word in functions(word.partition("::")[0])
            if there or field in ("Fn", "symbol"):
                code.named[name].add(word)
            if there and word not in seen:
                seen.add(word)
                todo.append(word)
            if re.fullmatch(r"Float[A-Z]\w*", word) and word not in HARMLESS:
                code.divides[name].append((name, word))
        if name.startswith("doorwhisp::"):
            code.calls[name.rpartition("::")[2]] = name
    return code


# ---- What is said of them


def told(what, code, ways):
    """Prints what is reached and what was found, and answers how much of that is reached."""
    places = sorted({name.removeprefix(".text.").partition("::")[0] for name in ways})
    print(f"{what}: the reading calls reach {len(set(ways) & set(code.named))} of {len(code.named)}, in {' '.join(places)}")
    bad = [(name, f"{name}, which is not there") for name in sorted(set(ways) - set(code.named) - OUTSIDE)]
    found = [(name, f"{word} in {function}") for name in sorted(code.divides) for function, word in code.divides[name]]
    for name, words in bad + found:
        print(f"  {words}: " + (f"reached, by {' > '.join(ways[name])}" if name in ways else "reached by no reading call"))
    return len(bad) + sum(name in ways for name, _ in found)


def main(folder, rlibs):
    built, written = archive(folder), crates(folder, rlibs)
    reading = sorted(set(built.calls) - WRITING)
    strange = built.unseen | WRITING - set(built.calls) | set(built.calls) - set(written.calls)
    if strange or not reading:
        print(f"no-divide: without code, or no calls: {' '.join(sorted(strange) or ['what reads'])}")
        return 2
    here, there = built.ways(reading), written.ways(reading)
    lost = {name.removeprefix(".text.") for name in here} & set(written.named) - set(there)
    if lost or len(there) == len(reading):
        print(f"no-divide: what the crates' functions name is not understood: {' '.join(sorted(lost))}")
        return 2
    reached = told("sections of the archive", built, here) + told("functions of the crates", written, there)
    print(f"no-divide: {reached} float divides or square roots are reached from a reading call")
    return 1 if reached else 0


if __name__ == "__main__":
    sys.exit(main(*sys.argv[1:]))
