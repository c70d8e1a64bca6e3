"""The script language of `terms` on plain trees: what the answers to a script may be.

It follows docs/SCRIPT.md and the definitions in words of docs/TRUST.md, and shares no code with the library. A type is a
tree of tuples without sharing, and each call is the definition itself: nothing is cached, skipped or counted binder by binder.
"""

import re

GREATEST = 4294967040
U32 = 4294967295
PRIMITIVES = "bool char str never i8 i16 i32 i64 i128 isize u8 u16 u32 u64 u128 usize".split()

# The flags that a leaf or a region adds.
LEAVES = {"param": 0x1, "bound": 0x80000, "cbound": 0x4080000, "infer": 0x8, "placeholder": 0x40, "error": 0x8000}
REGIONS = {
    "static": 0x20000,
    "erased": 0x200000,
    "?": 0x20210,
    "p": 0x20202,
    "^": 0x40000,
    "c": 0x4040000,
    "e": 0x30000,
}
BINDER_VARS = 0x1000000


class Bad(Exception):
    """The line is not a call."""


# A type is (head, numbers, region or None, children). Only the head `fn` has its children under a binder. A region is (sort,
# numbers). In a reading, the index of a bound variable is ("own", d) or ("outer", j) in place of a number.


def children(tree, under):
    """Yields the children, each with the number of binders around it."""
    inside = under + (tree[0] == "fn")
    for child in tree[3]:
        yield child, inside


def places(tree, under=0, around=()):
    """Yields each type of the tree with the number of binders around it and the types around it, itself among them."""
    around = (*around, tree)
    yield tree, under, around
    for child, inside in children(tree, under):
        yield from places(child, inside, around)


def mapped(tree, leaf, region, under=0):
    """Returns the tree with each type for which `leaf` returns another, and each region, replaced."""
    other = leaf(tree, under)
    if other is not None:
        return other
    head, numbers, of, _ = tree
    inside = [mapped(child, leaf, region, at) for child, at in children(tree, under)]
    return head, numbers, of and region(of, under), tuple(inside)


def reading(tree):
    """Returns the tree in which each bound variable says whether the tree binds it, or how far outside it is bound."""

    def read(index, under):
        return ("own", index) if index < under else ("outer", index - under)

    def leaf(it, under):
        return (it[0], (read(it[1][0], under), it[1][1]), None, ()) if it[0] == "bound" else None

    def region(it, under):
        return (it[0], (read(it[1][0], under), it[1][1])) if it[0] == "^" else it

    return mapped(tree, leaf, region)


def written(read):
    """Returns the tree of a reading, or None if a bound variable would have an index that is too great."""
    fits = [True]

    def write(index, under):
        number = index[1] + (under if index[0] == "outer" else 0)
        fits[0] = fits[0] and number < GREATEST
        return number

    def leaf(it, under):
        return (it[0], (write(it[1][0], under), it[1][1]), None, ()) if it[0] == "bound" else None

    def region(it, under):
        return (it[0], (write(it[1][0], under), it[1][1])) if it[0] == "^" else it

    tree = mapped(read, leaf, region)
    return tree if fits[0] else None


def moved(read, amount):
    """Returns the reading with the amount added to each variable that is bound outside."""

    def move(index):
        return ("outer", index[1] + amount) if index[0] == "outer" else index

    def leaf(it, _):
        return (it[0], (move(it[1][0]), it[1][1]), None, ()) if it[0] == "bound" else None

    def region(it, _):
        return (it[0], (move(it[1][0]), it[1][1])) if it[0] == "^" else it

    return mapped(read, leaf, region)


def region_reading(region):
    return ("^", (("outer", region[1][0]), region[1][1])) if region[0] == "^" else region


def replaced(read, arguments):
    """Returns the reading with each parameter replaced by the reading of its argument, if that is of its kind."""

    def argument(sort, index):
        return arguments[index][1] if index < len(arguments) and arguments[index][0] == sort else None

    def leaf(it, _):
        return argument("type", it[1][0]) if it[0] == "param" else None

    def region(it, _):
        return (argument("region", it[1][0]) if it[0] == "p" else None) or it

    return mapped(read, leaf, region)


def parameters(tree):
    """Yields the sort and the index of each parameter."""
    for it, _, _ in places(tree):
        if it[0] == "param":
            yield "type", it[1][0]
        if it[2] and it[2][0] == "p":
            yield "region", it[2][1][0]


def causes(tree, arguments):
    """Returns the causes for which an instantiation is refused."""
    found = set()
    for sort, index in parameters(tree):
        if not arguments:
            found.add("NoArguments")
        elif index >= len(arguments):
            found.add("ArgOutOfRange")
        elif arguments[index][0] != sort:
            found.add("ArgKind")
    if arguments:
        for it, _, around in places(tree):
            if it[2] and it[2][0] == "?" and all(any(True for _ in parameters(one)) for one in around):
                found.add("RegionVariable")
    return found


def erased(tree):
    """Returns the tree with the erased region for each region that it doesn't bind, but for canonical ones."""

    def region(it, under):
        return it if it[0] == "c" or it[0] == "^" and it[1][0] < under else ("erased", ())

    return mapped(tree, lambda it, under: None, region)


def information(tree):
    """Returns the flags and the outer exclusive binder."""
    flags, outer = 0, 0
    for it, under, _ in places(tree):
        flags |= LEAVES.get(it[0], 0) | (REGIONS[it[2][0]] if it[2] else 0)
        flags |= BINDER_VARS if it[0] == "fn" and it[1][0] > 0 else 0
        bound = [it[1][0]] if it[0] == "bound" else [it[2][1][0]] if it[2] and it[2][0] == "^" else []
        for index in bound:
            outer = max(outer, index - under + 1)
    return f"flags {flags:08X} outer {outer}"


def number(text, greatest):
    if not re.fullmatch("[0-9]+", text) or int(text) > greatest:
        raise Bad
    return int(text)


def position(text):
    if not text.startswith("%"):
        raise Bad
    return number(text[1:], U32)


def region_of(text):
    if text in ("'static", "'erased"):
        return text[1:], ()
    for start, sort, limits in (
        ("'?", "?", [GREATEST]),
        ("'p", "p", [U32]),
        ("'c.", "c", [GREATEST]),
        ("'e", "e", [U32]),
        ("'^", "^", [GREATEST, GREATEST]),
    ):
        if text.startswith(start):
            parts = text[len(start) :].split(".")
            if len(parts) != len(limits):
                raise Bad
            return sort, tuple(number(part, limit) for part, limit in zip(parts, limits))
    raise Bad


def counted(words, least, most=None):
    if len(words) < least or len(words) > (least if most is None else most):
        raise Bad


class Script:
    """The answers to the lines so far: a tree, or None for an answer that is no type."""

    def __init__(self):
        self.answers = []

    def at(self, where):
        """Returns the type at a position, or None."""
        return self.answers[where - 1] if 0 < where <= len(self.answers) else None

    def allowed(self, line):
        """Returns the answers that a line may have, and the tree that it gives if it is not refused; None for an empty line."""
        line = line[:-1] if line.endswith("\r") else line
        words = [it for it in line.split(" ") if it]
        if not words:
            return None
        try:
            return self.call(words[0], words[1:])
        except Bad:
            return {"bad line"}, None

    def built(self, head, numbers, region, positions, deep):
        """Returns the answers to a call that builds this type; `deep` says that one of its indices is the greatest."""
        parts = [self.at(it) for it in positions]
        causes_here = ({"NoSuchAnswer"} if None in parts else set()) | ({"GreatestIndex"} if deep else set())
        if causes_here:
            return {f"refused {it}" for it in causes_here}, None
        return {"ok"}, (head, numbers, region, tuple(parts))

    def call(self, word, words):
        if word in PRIMITIVES:
            counted(words, 0)
            return self.built(word, (), None, [], False)
        if word in ("param", "cbound", "infer", "error"):
            counted(words, 1)
            limit = U32 if word in ("param", "error") else GREATEST
            return self.built(word, (number(words[0], limit),), None, [], False)
        if word in ("bound", "placeholder"):
            counted(words, 2)
            numbers = tuple(number(it, GREATEST) for it in words)
            return self.built(word, numbers, None, [], word == "bound" and numbers[0] == GREATEST)
        if word in ("ref", "refmut"):
            counted(words, 2)
            region = region_of(words[0])
            return self.built(word, (), region, [position(words[1])], is_deep(region))
        if word in ("ptr", "ptrmut", "slice"):
            counted(words, 1)
            return self.built(word, (), None, [position(words[0])], False)
        if word == "tuple":
            return self.built(word, (), None, [position(it) for it in words], False)
        if word == "fn":
            counted(words, 2, U32)
            return self.built(word, (number(words[0], 255),), None, [position(it) for it in words[1:]], False)
        return self.on_types(word, words)

    def on_types(self, word, words):
        """Returns the answers to a call on types that are there."""
        if word == "inst":
            counted(words, 1, U32)
            return self.inst(position(words[0]), words[1:])
        counted(words, {"shift": 2, "erase": 1, "equal": 2, "info": 1}.get(word, -1))
        positions = [position(it) for it in (words[:1] if word == "shift" else words)]
        amount = number(words[1], U32) if word == "shift" else 0
        trees = [self.at(it) for it in positions]
        if None in trees:
            return {"refused NoSuchAnswer"}, None
        if word == "shift":
            tree = written(moved(reading(trees[0]), amount))
            return ({"ok"}, tree) if tree else ({"refused GreatestIndex"}, None)
        if word == "erase":
            return {"ok"}, erased(trees[0])
        if word == "equal":
            return {"yes" if trees[0] == trees[1] else "no"}, None
        return {information(trees[0])}, None

    def inst(self, where, words):
        arguments, lacking, deep = [], self.at(where) is None, False
        for it in words:
            if it.startswith("%"):
                tree = self.at(position(it))
                lacking = lacking or tree is None
                arguments.append(("type", tree and reading(tree)))
            else:
                region = region_of(it)
                deep = deep or is_deep(region)
                arguments.append(("region", region_reading(region)))
        if lacking:
            return {"refused NoSuchAnswer"} | ({"refused GreatestIndex"} if deep else set()), None
        tree = self.at(where)
        found = causes(tree, arguments)
        answer = written(replaced(reading(tree), arguments))
        if deep or answer is None:
            return {f"refused {it}" for it in found | {"GreatestIndex"}}, None
        if found:
            return {f"refused {it}" for it in found}, None
        return {"ok"}, answer


def is_deep(region):
    return region[0] == "^" and region[1][0] == GREATEST


def size(tree):
    return 1 + sum(size(it) for it in tree[3])
