"""Reads the programs of the checker and the texts of the solver, with what is printed for each. bin/programs says how they are
written."""

import collections
import glob
import os
import re
import sys

from edits import TOP

CLAIM = re.compile(r"//= (.*?) *$")
ANSWER = re.compile(r"<stdin>:(\d+):\d+: (.*)")
REPEATED = re.compile(r"«(\d+) ([^»]*)»")

# A program: the line in its file where it begins, its source, and what is printed for it
Program = collections.namedtuple("Program", "line source printed")


def files():
    """Returns the paths of the files of the checker's programs."""
    return sorted(glob.glob(f"{TOP}/examples/checker/programs/*.txt"))


def wrong_texts():
    """Returns the paths of the files of the solver's wrong texts."""
    return sorted(glob.glob(f"{TOP}/examples/solver/*.txt"))


def examples():
    """Returns the paths of the programs that have a file each."""
    return sorted(glob.glob(f"{TOP}/examples/checker/*.lang"))


def goals():
    """Returns the paths of the solver's texts."""
    return sorted(glob.glob(f"{TOP}/examples/solver/*.goals"))


def lines_of(path):
    """Returns the lines of a file."""
    with open(path, encoding="utf-8", newline="") as it:
        return it.read().split("\n")


def claimed(path):
    """Returns the answer in the comment behind each goal of a text, by its line."""
    found = ((number, CLAIM.search(line)) for number, line in enumerate(lines_of(path), 1))
    return {number: it[1] for number, it in found if it}


def answered(path):
    """Returns the answer to each goal in an output, by its line."""
    return {int(it[1]): it[2] for it in map(ANSWER.fullmatch, lines_of(path)) if it}


def tells_overlaps(printed):
    """Whether an output begins with the line on overlaps, for which --overlap asks: without a line's number behind the name."""
    return printed.startswith("<stdin>: ")


def repeated(text):
    """Returns the text with each «COUNT TEXT» written out."""
    return REPEATED.sub(lambda it: int(it[1]) * it[2], text)


def program(path, number, lines):
    """Returns the program of these lines of a file, of which the first has this number."""
    if lines.count("---") != 1:
        sys.exit(f"{os.path.relpath(path, TOP)}:{number}: this program has not one line '---'")
    end = lines.index("---")
    printed = "\n".join(lines[end + 1 :]).rstrip("\n") + "\n"
    return Program(number, repeated("\n".join(lines[:end])), repeated(printed))


def programs_of(path):
    """Returns the programs of a file, in order."""
    lines = lines_of(path)
    begins = [at for at, line in enumerate(lines) if line == "===" or line.startswith("=== ")]
    return [program(path, at + 2, lines[at + 1 : end]) for at, end in zip(begins, begins[1:] + [len(lines)])]


def is_wanted(printed, wanted):
    """Whether a program printed what is wanted."""
    return re.fullmatch(".*".join(re.escape(it) for it in wanted.split("…")), printed, re.DOTALL) is not None
