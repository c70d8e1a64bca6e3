"""The public calls of `type_terms`, read from the sources and arranged in sections, for the pages that bin/calls writes."""

import collections
import os
import re
import textwrap

from edits import TOP, called, library, parts_of, read
from public import is_public, public_names, sources

LAWS = "Functions that do nothing. The contract of each states a fact, which a caller has after the call."
GROUPS = ["Make an interner", "Build", "Declare", "Read", "Test conditions", "Facts"]
OWNER = re.compile(r"(?:pub )?(?:impl|trait)\b")
TYPE = re.compile(r"pub (trait|struct|enum|type) (\w+)")
FUNCTION = re.compile(r" *(pub )?(?:const |final )*fn (\w+)")
CLAUSE = re.compile(r" *(?:requires|ensures|ghost|//)")
MEMBER = r"(?:^    //[^\n]*\n)*^    %s .*?;$"
TYPES = re.compile(MEMBER % "(?:type|const)", re.MULTILINE)
GHOSTS = re.compile(MEMBER.replace(";", "};") % "ghost(?! use)", re.MULTILINE | re.DOTALL)
MODULES = re.compile(r"^(?:[a-z_]\w*::)+")

# A function: the first line of its impl or trait, its name, whether it is marked as public, the lines of its doc comment, the
# texts of its signature and its contract, and its file
Call = collections.namedtuple("Call", "owner name has_pub doc signature contract file")

# A trait or a type: its name, the lines of its doc comment, and its file; and of a trait, the text of its first line with the
# types that it has, and the text of its ghost members
Type = collections.namedtuple("Type", "name doc signature contract file")

# A section, and one of its groups. A group has no title if its section has no other group, and a type if that is its title
Section = collections.namedtuple("Section", "title text groups")
Group = collections.namedtuple("Group", "title type calls")


def header_at(lines, place):
    """Returns the lines of the first line of an impl or a trait, or of a function's signature, where it is broken."""
    for end in range(place + 1, len(lines)):
        plain = "".join(lines[place:end]).replace("->", "")
        if all(plain.count(first) == plain.count(last) for first, last in ("()", "<>", "[]")):
            return lines[place:end]
    return lines[place:]


def joined(lines):
    """Returns the lines of a header as one line, without the mark at its end."""
    text = " ".join(" ".join(lines).split()).rstrip(";{ ")
    return re.sub(r",? ([)>])", r"\1", re.sub(r"([(<]) ", r"\1", text))


def dedented(lines):
    """Returns the lines of a header or of a contract as one text, without their indentation and the mark at their end."""
    return re.sub(r"(?:[,;]| \{\}?)?$", "", textwrap.dedent("\n".join(lines)), count=1)


def function_at(lines, place):
    """Returns the texts of a function's signature, with the bounds after it, and of its contract."""
    header, contract = header_at(lines, place), []
    after, is_over = place + len(header), header[-1].endswith((";", "{", "{}"))
    while not is_over and not lines[after].lstrip().startswith("{"):
        (contract if contract or CLAUSE.match(lines[after]) else header).append(lines[after])
        is_over = lines[after].endswith(";")
        after += 1
    return re.sub(r"\bmut (\w+:)", r"\1", dedented(header)), dedented(contract)


def trait_at(lines, place):
    """Returns the texts of a trait's first line, with the types that it has, and of its ghost members."""
    header = header_at(lines, place)
    is_empty = header[-1].endswith("{}")
    body = "" if is_empty else "\n".join(lines[place : lines.index("}", place)])
    return "\n".join([joined(header).removesuffix(" {}"), *TYPES.findall(body)]), textwrap.dedent("\n".join(GHOSTS.findall(body)))


def items_of(file):
    """Yields the functions, the traits and the types of a file."""
    lines, path = read(file).split("\n"), os.path.relpath(file, TOP)
    owner, doc = "", []
    for place, line in enumerate(lines):
        words = line.strip()
        if words.startswith("///"):
            doc.append(words[3:].strip())
        elif not words.startswith("#["):
            named, function = TYPE.match(line), FUNCTION.match(line)
            if named:
                yield Type(named[2], doc, *(trait_at(lines, place) if named[1] == "trait" else ("", "")), path)
            if OWNER.match(line):
                owner = joined(header_at(lines, place))
            elif line == "}":
                owner = ""
            elif function:
                yield Call(owner, function[2], bool(function[1]), doc, *function_at(lines, place), path)
            doc = []


def public_items():
    """Returns the public functions, without impls of traits, and the traits and types by their names."""
    given_on, traits = public_names()
    found, types = [], {}
    for it in (it for folder in library() for file in sources(folder) for it in items_of(file)):
        if isinstance(it, Type):
            types.setdefault(it.name, it)
        elif not it.owner or it.owner.startswith("pub trait ") or not parts_of(it.owner)[1]:
            if is_public(name_of(it), it.owner, it.has_pub, given_on, traits):
                found.append(it)
    return found, types


def title_of(owner):
    """Returns the trait, or the type of the impl, of this first line."""
    trait = re.match(r"pub trait (\w+)", owner)
    return trait[1] if trait else parts_of(owner)[2]


def name_of(call):
    """Returns the name of a call, with its trait or type."""
    return f"{title_of(call.owner)}::{call.name}" if call.owner else call.name


def short(call):
    """Returns the signature of a call as one line, from its name on and without the bounds after it."""
    return joined(call.signature.split("\n")).partition("fn ")[2].partition(" where ")[0]


def is_law(call):
    """Returns whether the function returns nothing, so that its contract is all that it gives."""
    return short(call).endswith(")")


def group_of(call):
    """Returns the group of the interner's calls that the call is in."""
    signature = short(call)
    if is_law(call):
        return "Facts"
    if signature.endswith("-> bool"):
        return "Test conditions"
    if "self" not in signature:
        return "Make an interner"
    if "&mut self" in signature:
        return "Declare" if call.name.startswith(("declare", "define")) else "Build"
    return "Read"


def by_owner(calls, types):
    """Returns a group for each trait or type of the calls, in the order of their names."""
    groups = collections.defaultdict(list)
    for it in calls:
        groups[title_of(it.owner)].append(it)
    named = sorted((re.match(r"\w+", title)[0], title) for title in groups)
    return [Group(title, types[name], groups[title]) for name, title in named]


def sections():
    """Returns the sections of the reference."""
    calls, types = public_items()
    own = [it for it in calls if it.owner == "impl Interner"]
    functions = [it for it in calls if not it.owner]
    methods = [it for it in calls if it.owner.startswith("impl") and it not in own]
    return [
        Section("The interner", "", [Group(it, None, [call for call in own if group_of(call) == it]) for it in GROUPS]),
        Section("Functions", "", [Group(None, None, [it for it in functions if not is_law(it)])]),
        Section("Traits", "", by_owner([it for it in calls if it.owner.startswith("pub trait ")], types)),
        Section("Types", "", by_owner(methods, types)),
        Section("Laws", LAWS, [Group(None, None, [it for it in functions if is_law(it)])]),
    ]


def owner_anchor(owner):
    """Returns the anchor of the trait or type of an impl's or a trait's first line: `Binder-FnSig` of `impl Binder<FnSig>`."""
    if owner.startswith("pub trait "):
        return title_of(owner)
    parameters, _, subject = parts_of(owner)
    return called(subject, parameters, "-")


def anchor_of(call):
    """Returns the anchor of a call: `Interner.mk_ty`, or the name of a free function."""
    return f"{owner_anchor(call.owner)}.{call.name}" if call.owner else call.name


def anchors(parts):
    """Returns the anchors of the calls of these sections, by the names that doc comments have for the calls."""
    found = collections.Counter(anchor_of(call) for section in parts for group in section.groups for call in group.calls)
    twice = sorted(it for it, count in found.items() if count > 1)
    if twice:
        raise SystemExit(f"more than one call has the anchor: {', '.join(twice)}")
    names = {}
    # A name leads to the type without arguments, if both this and one with arguments have the call.
    for anchor in sorted(found, key=lambda it: "-" in it):
        names.setdefault(re.sub(r"-[\w-]*", "", anchor).replace(".", "::"), anchor)
    return names


def anchor_at(path, names):
    """Returns the anchor that the path of a doc comment's link leads to, or None."""
    return names.get(MODULES.sub("", path))
