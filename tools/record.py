"""The record of the wrong bodies: a line for each crate that has must-fail edits, with what was tried of which contracts."""

import functools
import glob
import hashlib
import os
import re
import subprocess

from edits import COMMENT, TOP, applied, changed, edits_of, functions, plain, read
from judging import below, uses

FILE = f"{TOP}/wrong-bodies.txt"
HEAD = """\
# The record of the wrong bodies: for each crate how many were tried, refused and excepted, with which kit and on which day, and
# sums of what it was made from: the contracts with the definitions that they cite, the edits, and the bodies that these change.
# `bin/wrong-bodies CRATE` writes a crate's line. `bin/test` fails where a sum differs, and names the crate. A crate in work is
# marked as pending by `bin/wrong-bodies --pending CRATE`, and then only `bin/test --full` fails.
"""
SUMS = ("contracts", "edits", "bodies")
FUNCTION = re.compile(r"( *)(?:pub(?:\(\w+\))? )?(?:const |final |unsafe )*fn \w")
USE = re.compile(r"(?ms)^(?:pub )?use .*?;\n?")
SILENT = re.compile(r" *#!?\[(?:inline|tactic|cycle|must_use|allow)\b")
CITED = re.compile(r"\bRattle\.(\w+)\.specs\.((?:\w+\.)*\w+)")
LINE = re.compile(r"^(\w+): (.*)$", re.MULTILINE)


def judged_crates():
    """Returns the names of the crates that have edits, lowest first."""
    return [it for it in uses() if edits_of(f"{TOP}/crates/{it}")]


def stated(text):
    """Returns the text of a source without its comments and the bodies of its functions."""
    kept, signature, body = [], None, None
    for line in COMMENT.sub("", text).split("\n"):
        if body is not None:
            # (the layout ends a body where its function begins)
            body = None if line == f"{body}}}" else body
            continue
        begins = FUNCTION.match(line)
        signature = begins[1] if begins else signature
        is_outer = signature is not None and line.startswith(signature) and not line[len(signature) :].startswith(" ")
        if is_outer and line.endswith("{"):
            signature, body = None, signature
        elif is_outer and line.endswith((";", "}")):
            signature = None
        if line.strip(" {") and not SILENT.match(line):
            kept.append(line.rstrip())
    return USE.sub("", "\n".join(kept))


@functools.lru_cache(maxsize=None)
def source(path):
    """Returns what a source states."""
    return stated(read(path))


@functools.lru_cache(maxsize=None)
def definitions(path):
    """Returns a file of definitions without its comments."""
    lines = [it.rstrip() for it in read(path).split("\n")]
    return "\n".join(it for it in lines if it and not it.lstrip().startswith("--"))


def items_of(crate, form):
    """Returns the items of the crate's sources that begin with this form, each up to the end of its block."""
    texts = [source(it) for it in sorted(glob.glob(f"{TOP}/crates/{crate}/src/**/*.rt", recursive=True))]
    return [it for text in texts for it in re.findall(rf"(?ms)^(?:pub )?{form}.*?(?:^\}}|[;}}]$)", text)]


def place_of(crate, path):
    """Returns the file of definitions that a cited path names, or the declared type that it does."""
    parts = path.split(".")
    if parts[0] == "declared":
        return None, next((it for it in parts if it[0].isupper()), None)
    for end in range(len(parts), 0, -1):
        file = f"{TOP}/crates/{crate}/specs/{'/'.join(parts[:end])}.antt"
        if os.path.isfile(file):
            return file, None
    return None, None


def contracts(crate):
    """Returns the texts of the crate's contracts, and of what they cite in it and in the crates below."""
    sources = sorted(glob.glob(f"{TOP}/crates/{crate}/src/**/*.rt", recursive=True))
    files = sorted(glob.glob(f"{TOP}/crates/{crate}/specs/**/*.antt", recursive=True))
    texts = [source(it) for it in sources] + [definitions(it) for it in files]
    low, found, types, left = below(crate), set(), set(), list(texts)
    while left:
        for of, path in CITED.findall(left.pop()):
            if of not in low:
                continue
            file, named = place_of(of, path)
            if file and file not in found:
                found.add(file)
                left.append(definitions(file))
            if named and (of, named) not in types:
                types.add((of, named))
                left += items_of(of, rf"(?:enum|struct) {named}\b")
    texts += [definitions(it) for it in sorted(found)]
    for of, named in sorted(types):
        texts += items_of(of, rf"(?:enum|struct) {named}\b")
    # What an impl states is stated by its trait, and a type is what its model says.
    traits = set(re.findall(r"(?m)^impl\b.*?\b(\w+)(?:<[^{}]*>)? for ", "\n".join(texts[: len(sources)])))
    for of in low:
        texts += [it for name in sorted(traits) for it in items_of(of, rf"trait {name}\b")]
        texts += items_of(of, r"impl(?:<[^{}]*>)? Model for ")
    return texts


def bodies(crate):
    """Returns the texts of the functions that the crate's edits change."""
    folder, texts = f"{TOP}/crates/{crate}", []
    for edit in edits_of(folder):
        after = applied(edit, {}, folder)
        names = {it.name for it in changed({}, after, folder)[0]}
        for path in sorted(after):
            texts += [plain(it.text) for it in functions(path, read(f"{folder}/{path}")) if it.name in names]
    return texts


def sums_of(crate):
    """Returns the sums of what the crate's line is made from."""
    def sum_of(texts):
        return hashlib.sha256("\0".join(texts).encode()).hexdigest()[:16]

    edits = [f"{os.path.basename(it)}\n{read(it)}" for it in edits_of(f"{TOP}/crates/{crate}")]
    return dict(zip(SUMS, map(sum_of, (contracts(crate), edits, bodies(crate)))))


def lines():
    """Returns the record's lines by their crates."""
    return dict(LINE.findall(read(FILE))) if os.path.exists(FILE) else {}


def write(changed_lines):
    """Writes the record with these lines in place of the ones of their crates."""
    known = {**lines(), **changed_lines}
    with open(FILE, "w", encoding="utf-8") as it:
        it.write(HEAD + "".join(f"{crate}: {known[crate]}\n" for crate in judged_crates() if crate in known))


def line_of(crate, tried, excepted, day):
    """Returns the line of a crate each of whose wrong bodies was refused, but for the excepted ones."""
    kit = subprocess.run(["rt", "version"], stdout=subprocess.PIPE, text=True, check=True).stdout.strip()
    sums = ", ".join(f"{name} {value}" for name, value in sums_of(crate).items())
    but = f", excepted {len(excepted)} ({' '.join(excepted)})" if excepted else ""
    return f"tried {tried}, refused {tried - len(excepted)}{but}; {sums}; {kit}; {day}"


def stale(known):
    """Returns for each crate whose line isn't fresh what is wrong with it, and the crates that are marked as pending."""
    wrong, pending = {}, []
    for crate in judged_crates():
        line = known.get(crate)
        if line is None:
            wrong[crate] = "it has no line"
        elif line.startswith("pending"):
            pending.append(crate)
        else:
            differ = [name for name, value in sums_of(crate).items() if f"{name} {value}" not in line]
            if differ:
                wrong[crate] = f"its {' and '.join(differ)} aren't the ones of its line"
    for crate in known.keys() - set(judged_crates()):
        wrong[crate] = "it has a line and no edits"
    return wrong, pending
