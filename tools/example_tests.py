#!/usr/bin/env python3
"""Prints a module of tests: one for each script, program and text of examples/, which has to print what is in the file beside it,
and one for each file of small programs (bin/programs), without the large ones, which take long without optimization. Wrong
programs of the checker have one more, for what is said of them to people."""

import glob
import os
import sys

sys.dont_write_bytecode = True
from edits import TOP
from programs import files, programs_of, tells_overlaps, wrong_texts

HEAD = """\
//! The scripts, programs and texts of examples/.

use checker::{Verdict, View, rendered, run, verdict_of};
use std::alloc::Global;
use std::process::Abort;
use std::test::Fail;
use type_terms::run_script;

// Asserts that the checker prints this for each source, which is at this line of its file.
fn are_checked(rt: &impl Abort, alloc: Global, programs: &[(u64, &str, &str)]) -> Result<(), Fail> {
    for (line, source, printed) in programs {
        let mut output = Vec::new(alloc);
        run(alloc, source.as_bytes(), &mut output)?;
        let output = String::from_utf8_lossy(alloc, output.as_slice())?;
        assert_eq!(rt; output.as_str(), *printed, "line {line}");
    }
    Ok(())
}

// Asserts that the solver prints this for each source, which is at this line of its file.
fn are_answered(rt: &impl Abort, alloc: Global, programs: &[(u64, &str, &str)]) -> Result<(), Fail> {
    for (line, source, printed) in programs {
        let mut output = Vec::new(alloc);
        solver_programs::run(alloc, source.as_bytes(), &mut output, false)?;
        let output = String::from_utf8_lossy(alloc, output.as_slice())?;
        assert_eq!(rt; output.as_str(), *printed, "line {line}");
    }
    Ok(())
}

// Asserts that the checker says this of the wrong program in the file of this name, and the same in colours.
fn is_reported(rt: &impl Abort, alloc: Global, name: &str, source: &str, said: &str) -> Result<(), Fail> {
    let Verdict::Wrong(reports) = verdict_of(alloc, source) else {
        assert!(rt; false, "{name} isn't wrong");
        return Ok(());
    };
    let view = View { name, source, is_coloured: false };
    let plain = rendered(alloc, view, reports.as_slice())?;
    assert_eq!(rt; plain.as_str(), said);
    let coloured = rendered(alloc, View { is_coloured: true, ..view }, reports.as_slice())?;
    let mut text = String::new(alloc);
    for (number, part) in coloured.as_str().split('\\x1b').enumerate() {
        match part.split_once('m') {
            Some((_colour, part)) if number > 0 => text.push_str(part)?,
            _ => text.push_str(part)?,
        }
    }
    assert_eq!(rt; text.as_str(), said);
    assert!(rt; text.len() < coloured.len());
    Ok(())
}
"""
TEST = """
#[test]
fn {name}(rt: HostRuntime) -> Result<(), Fail> {{
    let source = b"{source}";
    let printed = b"{printed}";
    let mut output = Vec::new(rt.alloc());
    {call}(rt.alloc(), source.as_slice(), &mut output{further})?;
    assert!(rt; output.as_slice() == printed.as_slice());
    Ok(())
}}
"""
REPORT = """
#[test]
fn {name}_reported(rt: HostRuntime) -> Result<(), Fail> {{
    is_reported(&rt, rt.alloc(), {file}, {source}, {said})
}}
"""
PROGRAMS = """
#[test]
fn programs_{name}(rt: HostRuntime) -> Result<(), Fail> {{
    {call}(&rt, rt.alloc(), [
{rows}
    ].as_slice())
}}
"""
# The call that runs each kind of example
CALLS = {
    "*.terms": "run_script",
    "worked/*.terms": "run_script",
    "checker/*.lang": "run",
    "solver/*.goals": "solver_programs::run",
}
# The most characters of a source that isn't large
LARGEST = 1000


def literal(path):
    """Returns the bytes of a file as they are written in a literal."""
    with open(path, "rb") as it:
        return "".join(chr(byte) if 32 <= byte < 127 and byte not in b'"\\' else f"\\x{byte:02x}" for byte in it.read())


def quoted(text):
    """Returns the literal of a text."""
    return '"' + "".join(it if it.isprintable() and it not in '"\\' else f"\\u{{{ord(it):x}}}" for it in text) + '"'


def text_of(path):
    """Returns the text of a file as it is."""
    with open(path, encoding="utf-8", newline="") as it:
        return it.read()


def example_test(path, call):
    """Returns the test of a script, a program or a text, by the function that runs it."""
    name, printed = os.path.relpath(path, f"{TOP}/examples").partition(".")[0].replace("/", "_"), f"{path}.stdout"
    # The solver's function takes whether overlaps are asked for.
    further = f", {tells_overlaps(text_of(printed))}".lower() if path.endswith(".goals") else ""
    return TEST.format(name=name, call=call, source=literal(path), printed=literal(printed), further=further)


def report_test(path):
    """Returns the test of what is said of the wrong program of a file."""
    said, file = text_of(f"{path}.report"), os.path.relpath(path, TOP)
    name = os.path.basename(path).partition(".")[0]
    return REPORT.format(name=name, file=quoted(file), source=quoted(text_of(path)), said=quoted(said))


def programs_test(path, call):
    """Returns the test of a file of small programs, by the function that runs them."""
    small = [it for it in programs_of(path) if len(it.source) <= LARGEST and "…" not in it.printed]
    rows = "\n".join(f"        ({it.line}, {quoted(it.source)}, {quoted(it.printed)})," for it in small)
    return PROGRAMS.format(name=os.path.basename(path).partition(".")[0], call=call, rows=rows)


def main():
    print(HEAD, end="")
    for pattern, call in CALLS.items():
        for path in sorted(glob.glob(f"{TOP}/examples/{pattern}")):
            print(example_test(path, call), end="")
    for path in sorted(glob.glob(f"{TOP}/examples/checker/*.lang.report")):
        print(report_test(path[: -len(".report")]), end="")
    for path, call in [(it, "are_checked") for it in files()] + [(it, "are_answered") for it in wrong_texts()]:
        print(programs_test(path, call), end="")
    return 0


if __name__ == "__main__":
    sys.exit(main())
