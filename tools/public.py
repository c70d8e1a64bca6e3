"""What bin/unturned and bin/calls know of the names that `type_terms` gives its users."""

import glob
import re

from edits import TOP, library, parts_of, read

TYPE = re.compile(r"\b[A-Z]\w*")


def named(text, form):
    """Returns the names that the form finds at the beginnings of the text's lines."""
    return set(re.findall(form, text, re.MULTILINE))


def sources(folder):
    """Returns the files of a crate's sources, in order."""
    return sorted(glob.glob(f"{folder}/src/**/*.rt", recursive=True))


def public_names():
    """Returns the names that `type_terms` gives on, with the types that its aliases name, and all traits of the library."""
    given_on = named(read(f"{TOP}/crates/type_terms/src/lib.rt"), r"^pub use .*?(\w+);$")
    texts = [read(file) for folder in library() for file in sources(folder)]
    traits = set().union(*(named(it, r"^pub trait (\w+)") for it in texts))
    aliases = set().union(*(named(it, r"^pub type (\w+).*= (?:\w+::)*(\w+)") for it in texts))
    return given_on | {meant for name, meant in aliases if name in given_on}, traits


def is_public(name, owner, has_pub, given_on, traits):
    """Returns whether a user can call the function of this name, in the impl or trait of this first line."""
    if not owner:
        return name.rpartition("::")[2] in given_on
    if "trait " in owner:
        return name.partition("::")[0] in given_on
    _, trait, subject = parts_of(owner)
    if not trait:
        return has_pub and TYPE.findall(subject)[0] in given_on
    trait = TYPE.findall(trait)[0]
    return trait in given_on or trait not in traits and bool(given_on & set(TYPE.findall(subject)))
