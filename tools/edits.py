"""What bin/unturned and bin/wrong-bodies know of Rattle's sources and of the edits that must be refused."""

import collections
import glob
import os
import re

TOP = os.path.dirname(os.path.dirname(os.path.realpath(__file__)))
COMMENT = re.compile(r"/\*.*?\*/|//[^\n]*", re.DOTALL)
ITEM = re.compile(
    r"^ *(?:pub )?(?:impl|trait)\b[^{]*\{|^\}|#\[cycle\((\w+)\)\]|(?:\bpub(?:\(\w+\))? )?(?:const |final )*\bfn (\w+)",
    re.MULTILINE,
)

# A function: its name as the checker gives it, less a method's module; the cycle of calls that it is in; the first line of
# its impl or trait; its place, and its text without comments, up to the next one
Function = collections.namedtuple("Function", "name cycle owner place text")


def read(file):
    with open(file, encoding="utf-8") as it:
        return it.read()


def called(text, parameters, between=""):
    """Returns how the checker calls a type or a trait in the name of an impl: with what it is applied to, but for parameters
    and lifetimes."""
    text, before = re.sub(r"'\w+\b,? *", "", text).strip(), ""
    if text.startswith("("):
        return f"Tuple{text.count(',') + 1}"
    while text[0] in "&[":
        before += {"&": "Ref", "[": "Slice"}[text[0]]
        text = text[1:].strip()
    names = [it for it in re.findall(r"(?:\w+::)*(\w+)", text) if it not in parameters]
    return before + between.join(it[0].upper() + it[1:] for it in names) or "Any"


def parts_of(header):
    """Returns the parameters, the trait and the type that the first line of an impl names; of no trait, an empty text."""
    header, parameters = re.sub(r"^impl", "", " ".join(header.rstrip("{").split()).partition(" where ")[0]), []
    if header.startswith("<"):
        depth, end = 0, 0
        for end, letter in enumerate(header):
            depth += (letter == "<") - (letter == ">" and header[end - 1] != "-")
            if not depth:
                break
        parameters = [re.sub(r"^const ", "", it.split(":")[0].strip()) for it in header[1:end].split(",")]
        header = header[end + 1 :]
    trait, _, subject = header.strip().rpartition(" for ")
    return parameters, trait, subject


def owner_name(header):
    """Returns how the checker calls an impl or a trait, which stands before a function's name."""
    if "trait " in header:
        return re.search(r"trait (\w+)", header)[1]
    parameters, trait, subject = parts_of(header)
    # A parameter inside the argument of a type is part of the checker's name, as in Binder<Option<T>>.
    if not trait and "<" in subject.partition("<")[2]:
        parameters = []
    return called(subject, parameters) + called(trait, parameters) if trait else called(subject, parameters, "+")


def functions(path, text):
    """Returns the functions of a file's text."""
    module = re.sub(r"^src/|\.rt$", "", path).replace("/", "::")
    module = "" if module in ("lib", "main") else f"{module}::"
    text = COMMENT.sub(lambda it: re.sub(r"[^\n]", " ", it[0]), text)
    found, owner, cycle = [], "", None
    items = list(ITEM.finditer(text))
    for it, end in zip(items, [*(it.start() for it in items[1:]), len(text)]):
        if it[1]:
            cycle = it[1]
        elif it[2]:
            name = f"{owner_name(owner)}::{it[2]}" if owner else f"{module}{it[2]}"
            place = f"{path}:{text.count(chr(10), 0, it.start()) + 1}"
            found.append(Function(name, cycle, owner, place, text[it.start() : end]))
            cycle = None
        else:
            owner = "" if it[0] == "}" else it[0]
    return found


def library():
    """Returns the folders of the library's crates, lowest first: `type_terms` and those of this repository that it uses."""
    lines = [it.partition(":") for it in read(f"{TOP}/crates.txt").split("\n") if not it.startswith("#")]
    uses = next(after.split() for name, _, after in lines if name == "type_terms")
    return [f"{TOP}/crates/{name}" for name, _, _ in lines if name == "type_terms" or name in uses]


def edits_of(folder):
    return sorted(glob.glob(f"{folder}/must-fail/*.edit"))


def applied(edit, texts, folder):
    """Returns the texts with the edit's pairs applied in turn, or None where one of its old texts isn't there once."""
    texts, path, old = dict(texts), None, None
    for line in read(edit).split("\n"):
        word, _, text = line.partition(":")
        text = re.sub("^ ", "", text)
        if word == "file":
            path = text
            texts.setdefault(path, read(f"{folder}/{path}"))
        elif word == "old":
            old = text
        elif word == "new":
            if texts[path].count(old) != 1:
                return None
            texts[path] = texts[path].replace(old, text)
    return texts


def plain(text):
    """Returns the text without its layout."""
    return "".join(text.split()).replace(",)", ")").replace(",>", ">")


def changed(before, after, folder):
    """Returns the functions that differ between the texts, and whether something outside of functions does alone."""
    differ, elsewhere = [], False
    for path, text in after.items():
        old = before[path] if path in before else read(f"{folder}/{path}")
        if old == text:
            continue
        known = collections.defaultdict(list)
        for it in functions(path, old):
            known[it.name].append(plain(it.text))
        found = [it for it in functions(path, text) if it.name in known and plain(it.text) not in known[it.name]]
        differ += found
        elsewhere = elsewhere or not found
    return differ, elsewhere
