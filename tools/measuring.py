"""What the tools that measure share: programs are run in turn on the same input, and their figures printed."""

import filecmp
import math
import os
import platform
import re
import resource
import shutil
import subprocess
import sys
from collections import namedtuple

# The name of the tool that measures.
NAME = os.path.basename(sys.argv[0])
# GNU time starts the program from a small process: the peak of a child's memory is never less than what its parent had.
TIME = shutil.which("time")
VALGRIND = shutil.which("valgrind")
COUNTED = [VALGRIND, "--tool=cachegrind", "--cache-sim=no", "--cachegrind-out-file=/dev/null"]
# Valgrind counts each byte of a block copy as an instruction, where glibc copies by one instruction (`rep movsb`). With
# these limits glibc copies by loads and stores.
LOADS_AND_STORES = ":".join(f"glibc.cpu.x86_rep_{it}_threshold=1000000000" for it in ("movsb", "stosb"))
NONE = "–"

# What was measured of a program on a script. `wrong` says why nothing else was, and `instructions` may be None.
Figures = namedtuple("Figures", "seconds instructions kilobytes wrong")


def say(text):
    print(f"{NAME}: {text}", file=sys.stderr, flush=True)


def run(words, script, output=os.devnull):
    """Runs a command on the script. Returns its status, its processor time and the peak of its memory in kB."""
    files = [
        (os.POSIX_SPAWN_OPEN, 0, script, os.O_RDONLY, 0),
        (os.POSIX_SPAWN_OPEN, 1, output, os.O_WRONLY | os.O_CREAT | os.O_TRUNC, 0o600),
        (os.POSIX_SPAWN_OPEN, 2, os.devnull, os.O_WRONLY, 0),
    ]
    child = os.posix_spawn(words[0], words, os.environ, file_actions=files)
    _, status, used = os.wait4(child, 0)
    return status, used.ru_utime + used.ru_stime, used.ru_maxrss


class Bench:
    """The programs, which are measured in turn, and a folder for scripts and answers."""

    def __init__(self, programs, folder):
        self.programs, self.folder = programs, folder
        self.script = os.path.join(folder, "script")
        self.failed, self.differ = [], []

    def write(self, lines):
        """Writes a script, in a process of its own, so that its memory isn't counted as a program's."""
        child = os.fork()
        if child == 0:
            status = 1
            try:
                with open(self.script, "w", encoding="utf-8", newline="\n") as file:
                    file.writelines(f"{line}\n" for line in lines())
                status = 0
            finally:
                os._exit(status)
        if os.waitpid(child, 0)[1]:
            sys.exit(f"{NAME}: a script couldn't be written")

    def peak(self, program, output):
        """Runs the program. Returns its status, and the peak of its memory in kB, or None where that can't be seen."""
        if not TIME:
            status, _, kilobytes = run([program], self.script, output)
            return status, kilobytes if kilobytes > resource.getrusage(resource.RUSAGE_SELF).ru_maxrss else None
        told = os.path.join(self.folder, "peak")
        status, _, _ = run([TIME, "-q", "-o", told, "-f", "%M", program], self.script, output)
        with open(told, encoding="utf-8") as file:
            return status, int(file.read().split()[-1])

    def counted(self, program):
        """Returns how many instructions the program takes, or None where they can't be counted."""
        if not VALGRIND:
            return None
        with open(self.script, "rb") as script:
            how = {"stdin": script, "stdout": subprocess.DEVNULL, "stderr": subprocess.PIPE}
            ran = subprocess.run([*COUNTED, program], env={**os.environ, "GLIBC_TUNABLES": LOADS_AND_STORES}, **how)
        found = re.search(rb"I +refs: +([\d,]+)", ran.stderr)
        return int(found[1].replace(b",", b"")) if found and not ran.returncode else None

    def measured(self, name, lines, runs):
        """Returns the figures of each program on a script."""
        say(f"{name} ..")
        self.write(lines)
        answers = [os.path.join(self.folder, f"answers{at}") for at in range(len(self.programs))]
        wrong, peaks, least = [], [], [math.inf] * len(self.programs)
        for program, output in zip(self.programs, answers):
            status, kilobytes = self.peak(program, output)
            peaks.append(kilobytes)
            wrong.append("failed" if status else None if filecmp.cmp(answers[0], output, shallow=False) else "differs")
        if wrong[0]:
            sys.exit(f"{NAME}: {self.programs[0]} failed on {name}")
        if "failed" in wrong:
            self.failed.append(name)
        if "differs" in wrong:
            self.differ.append(name)
        for _ in range(runs):
            for at, program in enumerate(self.programs):
                if not wrong[at]:
                    least[at] = min(least[at], run([program], self.script)[1])
        return [
            Figures(None, None, None, it) if it else Figures(least[at], self.counted(program), peaks[at], None)
            for at, (program, it) in enumerate(zip(self.programs, wrong))
        ]


def digits(value):
    """Returns a number to three digits."""
    if value is None:
        return NONE
    return f"{value:,.0f}" if value >= 99.95 else f"{value:.1f}" if value >= 9.995 else f"{value:.2f}"


def ratio(figures, of):
    """Returns the ratio of a figure of two programs, by the function that takes it."""
    first, second = (None if it.wrong else of(it) for it in figures)
    return NONE if first is None or not second else f"{first / second:.2f}"


def seconds(it):
    return it.seconds


def instructions(it):
    return it.instructions


def kilobytes(it):
    return it.kilobytes


def part(value, of):
    """Returns a figure in another unit."""
    return None if value is None else value / of


def table(heads, rows):
    print("| " + " | ".join(heads) + " |")
    print("|" + "---|" * len(heads))
    for row in rows:
        print("| " + " | ".join(row) + " |")
    print(flush=True)


def heads_of_work(is_beside):
    """Returns the heads of the table of workloads."""
    heads = ["workload", "time, ms", "instructions, millions", "memory, MB"]
    return [heads[0]] + [it for head in heads[1:] for it in (head, "ratio")] if is_beside else heads


def row_of_work(name, figures):
    """Returns a row of that table, with ratios where two programs were measured."""
    cells = [name]
    for of, unit in ((seconds, 1e-3), (instructions, 1e6), (kilobytes, 1024)):
        cells += [digits(part(of(figures[0]), unit))] + ([ratio(figures, of)] if len(figures) == 2 else [])
    return cells


def machine():
    """Returns what is known of the machine."""
    try:
        with open("/proc/cpuinfo", encoding="utf-8") as file:
            model = re.search(r"^model name\s*: (.*)$", file.read(), re.M)
    except OSError:
        model = None
    return f"{os.cpu_count()} cores, {model[1] if model else platform.machine()}"


def tell_conditions(bench, load, more=""):
    """Prints what the figures depend on, and what has none. Returns the status of the tool."""
    loads = f"the load was {load:.1f} at the start and {os.getloadavg()[0]:.1f} at the end"
    print(f"{machine()}; {loads}{more}")
    if not VALGRIND:
        print("Instructions weren't counted: valgrind isn't there.")
    if not TIME:
        print("Memory is told only where it is more than this program's own: GNU time isn't there.")
    for name in bench.failed:
        print(f"{bench.programs[1]} failed on {name}")
    for name in bench.differ:
        print(f"{bench.programs[1]} prints other answers to {name}")
    return 1 if bench.differ else 0
