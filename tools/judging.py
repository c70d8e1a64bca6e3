"""Judges a crate whose text an edit changed, by `rattle check` over the libraries below it as they are built."""

import functools
import os
import re
import shutil
import subprocess
import sys
import tempfile

from edits import TOP, read

PARTS = ("src", "specs", "proofs")
VERDICT = re.compile(r"^fn (\S+): (.*)", re.MULTILINE)


@functools.lru_cache(maxsize=None)
def kit():
    """Returns the folder of the kit: the one of the page that `rt doc` names."""
    page = subprocess.run(["rt", "doc"], stdout=subprocess.PIPE, text=True, check=True).stdout.strip()
    return os.path.dirname(page)


@functools.lru_cache(maxsize=None)
def uses(top=TOP):
    """Returns the libraries that each crate names in crates.txt, lowest crate first."""
    lines = [it.partition(":") for it in read(f"{top}/crates.txt").split("\n") if ":" in it and not it.startswith("#")]
    return {name.strip(): after.split() for name, _, after in lines}


def below(crate):
    """Returns the crates of this repository that the crate reaches, each after those that it uses."""
    found = []
    for it in uses()[crate]:
        if it in uses():
            found += [low for low in [*below(it), it] if low not in found]
    return found


def library_of(crate, over):
    """Returns the built library of the crate, in the first of these checkouts that has it, if there is one."""
    found = [f"{it}/crates/{crate}/out/rlib/{crate}.rlib" for it in over]
    return next((it for it in found if os.path.isfile(f"{it}/format")), None)


def words_of(crate, over, jobs):
    """Returns the words that `rattle check` is to have for the crate, over the libraries of these checkouts."""
    lacking = [it for it in below(crate) if not library_of(it, over)]
    if lacking:
        sys.exit(f"{' '.join(over)}: no built library of {' '.join(lacking)}")
    words = ["check", "--crate-name", crate, "src/lib.rt"]
    for it in ["std", *uses()[crate]]:
        words += ["--extern", f"{it}={library_of(it, over) if it in uses() else f'{kit()}/rlibs/{it}.rlib'}"]
    for it in [f"{kit()}/rlibs", *(os.path.dirname(library_of(low, over)) for low in below(crate))]:
        words += ["-L", f"dependency={it}"]
    logic = ["--antt-project", f"{kit()}/rattle/logic/antt-project.json", "--logic-built", f"{kit()}/logic_built"]
    return [*words, *logic, "--links", f"{crate}=", "--jobs", str(jobs)]


def checked(words, folder):
    """Runs the prover with these words in the folder, and returns all that was said."""
    how = {"stdin": subprocess.DEVNULL, "stdout": subprocess.PIPE, "stderr": subprocess.STDOUT, "text": True}
    return subprocess.run([f"{kit()}/bin/rattle", *words], cwd=folder, errors="replace", **how).stdout


def proved_over(crate, over, kept, jobs):
    """Checks the crate itself, keeps the work in this folder, and returns all that was said."""
    return checked([*words_of(crate, over, jobs), "--incremental", kept], f"{TOP}/crates/{crate}")


def judged(crate, texts, over, kept=None, only=()):
    """Checks a copy of the crate with these texts in place of its own, and returns all that was said.

    It begins with a copy of the folder of kept work, if there is one; `only` names the functions to judge, where it isn't the
    whole crate.
    """
    with tempfile.TemporaryDirectory(prefix="wrong-body-") as room:
        for part in PARTS:
            if os.path.isdir(f"{TOP}/crates/{crate}/{part}"):
                shutil.copytree(f"{TOP}/crates/{crate}/{part}", f"{room}/{part}")
        for path, text in texts.items():
            with open(f"{room}/{path}", "w", encoding="utf-8") as it:
                it.write(text)
        words = words_of(crate, over, 1)
        for it in only:
            words += ["--only", it]
        if kept:
            # The checker replaces the files that it keeps, and changes none.
            subprocess.run(["cp", "-al", kept, f"{room}/kept"], check=True)
            words += ["--incremental", f"{room}/kept"]
        return checked(words, room)


def verdicts(said):
    """Returns what was said of each function, by its name as edits know it."""
    # A method is named by the module of its type, which needn't be the one of its file.
    found = {}
    for name, verdict in VERDICT.findall(said):
        path = name.split("::")[1:]
        is_method = len(path) > 1 and path[-2][:1].isupper()
        found["::".join(path[-2:] if is_method else path)] = verdict
    return found
