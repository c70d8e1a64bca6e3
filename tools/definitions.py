"""The definitions of specs/: where each is, what it says in plain words, and which others it uses."""

import collections
import functools
import glob
import itertools
import os
import re

from edits import COMMENT, TOP, functions, library, read

USE = re.compile(r"\b(?:ghost |pub )?use Rattle\.(\w+)\.specs\.([\w.«»]+?)(?:\.\{([^}]*)\}| as (\w+))?;?$", re.MULTILINE)
NAMED = re.compile(r"^ *(?:abbrev |unfoldable )?(?:pub )?(?:(?:data|record) (\w+)|(\w+(?: \w+)*) : )")
MODULE = re.compile(r"^( *)module _ ")
WORD = re.compile(r"(?:(\w+)\.)?([\w«»◌∷≡≤+⊎×⟨⟩]+)")
BODY = re.compile(r"\n *(?:\{\}?|;) *(?=\n|$)|;\n|\{\}$")

# A definition: its file, its names, its first line there, its lines, and the heads of the modules that it is in
Definition = collections.namedtuple("Definition", "file names place lines around")


def is_comment(line):
    return line.lstrip().startswith("--")


def words(definition):
    """Returns what the comment above the definition says."""
    lines = itertools.dropwhile(lambda it: not is_comment(it), definition.lines)
    return " ".join(it.strip()[3:] for it in itertools.takewhile(is_comment, lines))


def code(definition):
    """Returns the definition's text without comments, below the heads of its modules."""
    return "\n".join([*definition.around, *(it.partition(" --")[0] for it in definition.lines if not is_comment(it))])


def imported(text):
    """Returns the names that a file imports from specs/, and its names for other files of specs/, each with its crate and path."""
    names, files = {}, {}
    for crate, path, listed, alias in USE.findall(text):
        for it in filter(None, (it.strip() for it in listed.split(","))):
            name, _, here = it.partition(" as ")
            names[here or name] = (crate, path, name)
        if alias:
            files[alias] = (crate, path)
    return names, files


def paragraphs(text):
    """Returns the paragraphs of a file with the numbers of their first lines."""
    found, start = [], None
    lines = text.split("\n")
    for number, line in enumerate([*lines, ""], 1):
        if line.strip() and start is None:
            start = number
        elif not line.strip() and start is not None:
            found.append((start, lines[start - 1 : number - 1]))
            start = None
    return found


class File:
    """A file of specs/."""

    def __init__(self, crate, path):
        text = read(path)
        self.crate, self.path, self.definitions, around = crate, path, [], []
        self.module = os.path.relpath(path, f"{TOP}/crates/{crate}/specs")[: -len(".antt")].replace("/", ".")
        self.imports, self.words = imported(text), text.partition("\n")[0].removeprefix("-- ")
        for start, lines in paragraphs(text):
            said = [it for it in lines if not is_comment(it)]
            if not said or said[0].startswith(("use ", "pub use ")):
                continue
            indent = len(said[0]) - len(said[0].lstrip())
            around = [it for it in around if it[0] < indent]
            names = [name for it in map(NAMED.match, said) if it for name in (it[1] or it[2]).split()]
            if names:
                self.definitions.append(Definition(self, names, start, lines, [it for _, it in around]))
            around += [(len(it[1]), it.string) for it in map(MODULE.match, said) if it]

    def named(self, name):
        """Returns the definitions of this name, which may be of several paragraphs."""
        return [it for it in self.definitions if name in it.names]


@functools.lru_cache(maxsize=None)
def files():
    """Returns the files of specs/ of the library by crate and module, lower crates first."""
    found = {it: sorted(glob.glob(f"{it}/specs/**/*.antt", recursive=True)) for it in library()}
    every = [File(os.path.basename(folder), path) for folder, paths in found.items() for path in paths]
    return {(it.crate, it.module): it for it in every}


def defined(crate, path, name):
    """Returns the definitions that a name imported from this path means."""
    parts = path.split(".")
    places = [(crate, ".".join(parts[:end])) for end in range(len(parts), 0, -1)]
    file = next((files()[it] for it in places if it in files()), None)
    if file is None:
        return []
    passed_on = file.imports[0].get(name)
    return file.named(name) or (defined(*passed_on) if passed_on else [])


def meant(alias, name, imports, file=None):
    """Returns the definitions that a word of a text with these imports means."""
    names, aliases = imports
    found = defined(*aliases[alias], name) if alias in aliases else []
    for it in filter(None, (alias, name)):
        found = found or (file.named(it) if file else []) or (defined(*names[it]) if it in names else [])
    return found


def cited(text, imports, file=None):
    """Returns the definitions that a text with these imports names."""
    return [it for alias, name in WORD.findall(text) for part in ((alias, name), ("", alias)) for it in meant(*part, imports, file)]


def reached(text, imports):
    """Returns the definitions that a text with these imports names, and the ones that these use, in turn."""
    found, left = {}, cited(text, imports)
    while left:
        it = left.pop()
        if (it.file.path, it.place) not in found:
            found[it.file.path, it.place] = it
            left += cited(code(it), it.file.imports, it.file)
    return list(found.values())


def contract(crate, name):
    """Returns the signatures and contracts of the functions of this name, with the imports of their files."""
    for path in sorted(glob.glob(f"{TOP}/crates/{crate}/src/**/*.rt", recursive=True)):
        text = read(path)
        for it in functions(path, text):
            if it.name.endswith(name) and "ensures" in it.text:
                yield BODY.split(COMMENT.sub("", it.text))[0], imported(text), path
