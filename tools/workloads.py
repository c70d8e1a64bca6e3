"""The scripts that bin/bench measures `terms` with.

A workload is a function of this module. It returns the lines of a script (docs/SCRIPT.md), the same ones each time:
what is random is drawn by `random.Random.random`, whose numbers for a seed are the same in every version of Python.
"""

import random

PRIMITIVES = "bool char str never i8 i16 i32 i64 i128 isize u8 u16 u32 u64 u128 usize".split()


class Chance:
    """Draws numbers and items, by a seed."""

    def __init__(self, seed):
        self.draw = random.Random(seed).random

    def below(self, end):
        return int(self.draw() * end)

    def of(self, items):
        return items[int(self.draw() * len(items))]


class Script:
    """The lines of a script. The number of a call is its line's number, since no line is empty."""

    def __init__(self):
        self.lines = []

    def call(self, line):
        """Adds a line, and returns the position that names its answer."""
        self.lines.append(line)
        return f"%{len(self.lines)}"


def fresh(calls, seed):
    """Distinct types: each is made of earlier ones, drawn from all of them."""
    chance, lines = Chance(seed), PRIMITIVES[:calls]
    seen = set(lines)
    while len(lines) < calls:
        a, b = chance.below(len(lines)) + 1, chance.below(len(lines)) + 1
        form = chance.below(8)
        if form == 0:
            line = f"tuple %{a} %{b}"
        elif form == 1:
            line = f"tuple %{a} %{b} %{chance.below(len(lines)) + 1}"
        elif form == 2:
            line = f"fn 1 %{a} %{b}"
        elif form == 3:
            line = f"ref 'static %{a}"
        elif form == 4:
            line = f"ref '^{chance.below(4)}.0 %{a}"
        elif form == 5:
            line = f"refmut '?{chance.below(100)} %{a}"
        elif form == 6:
            line = f"ptr %{a}"
        else:
            line = f"slice %{a}"
        # The parts are distinct types, so that distinct lines build distinct types.
        if line not in seen:
            seen.add(line)
            lines.append(line)
    return lines


def intern(calls, seed):
    """Half of the calls build distinct types, and the others are the same lines again."""
    lines = fresh(calls // 2, seed)
    return lines + lines


def pair(levels):
    """A parameter paired with itself, that pair with itself and so on, instantiated; the same is built and compared."""
    script = Script()
    top, made = script.call("param 0"), script.call("i32")
    for _ in range(levels):
        top = script.call(f"tuple {top} {top}")
    instance = script.call(f"inst {top} {made}")
    for _ in range(levels):
        made = script.call(f"tuple {made} {made}")
    script.call(f"equal {instance} {made}")
    script.call(f"info {instance}")
    return script.lines


def wide(parts, lists, seed):
    """A tuple of distinct generic parts, instantiated with lists of 16 arguments: 12 types and 4 regions."""
    chance, script = Chance(seed), Script()
    ground = [script.call(it) for it in PRIMITIVES]
    params = [script.call(f"param {it}") for it in range(12)]
    items = []
    for number in range(parts):
        param, own = chance.of(params), script.call(f"infer {number}")
        item = script.call(f"tuple {param} {own} {chance.of(params)}")
        item = script.call(f"ref 'p{12 + chance.below(4)} {item}")
        items.append(script.call(f"fn 1 {item} {param}") if chance.below(4) == 0 else item)
    whole = script.call(" ".join(["tuple", *items]))
    types = ground + [script.call(f"slice {it}") for it in ground]
    types += [script.call(f"ref '{region} {it}") for region in ("static", "^0.0", "^1.0", "^2.0") for it in types]
    regions = ["'static", "'erased", "'?1", "'^0.0", "'^1.0", "'e3"]
    for _ in range(lists):
        arguments = [chance.of(types) for _ in range(12)] + [chance.of(regions) for _ in range(4)]
        script.call(" ".join(["inst", whole, *arguments]))
    return script.lines


def deep(levels, shifts):
    """A chain of references, a function in place of each tenth, around a variable that escapes: shifted by 1, 2 .."""
    script = Script()
    at = script.call("u32")
    # No binder of the chain binds it, however many there are.
    at = script.call(f"ref '^2000000.0 {at}")
    for level in range(1, levels + 1):
        at = script.call(f"ref '^0.0 {at}" if level % 10 else f"fn 1 {at}")
    for amount in range(1, shifts + 1):
        script.call(f"shift {at} {amount}")
    script.call(f"info {at}")
    return script.lines


def spread(levels):
    """Each type is in the next one twice, outside and under a binder, around a parameter: instantiated and shifted.

    The tuple at k levels from the outside is under 0 to k binders, so that n levels have some n^2 / 2 pairs of a tuple
    and a number of binders.
    """
    script = Script()
    top = script.call("param 0")
    for _ in range(levels):
        under = script.call(f"fn 0 {top}")
        top = script.call(f"tuple {top} {under}")
    leaf = script.call("u32")
    leaf = script.call(f"ref '^0.0 {leaf}")
    made = script.call(f"inst {top} {leaf}")
    made = script.call(f"shift {made} 1")
    script.call(f"info {made}")
    return script.lines


# `mixed` builds types only of those whose trees have at most so many types and regions.
SMALL = 300
# The parameters of `mixed`: as many types, and then as many regions.
TYPES, REGIONS = 4, 2


class Mixed:
    """The script of `mixed`.

    A type that others are built of is a triple: its position, a bound on its tree, and whether a region variable may be
    in it.
    """

    def __init__(self, seed):
        self.chance, self.script = Chance(seed), Script()
        self.types, self.asked = [], []
        for word in PRIMITIVES:
            self.keep(word, 1, False)

    def keep(self, line, size, variable):
        """Adds a line that builds a type."""
        at = self.script.call(line)
        if size <= SMALL:
            self.types.append((at, size, variable))
        else:
            self.asked.append(at)

    def region(self):
        sort = self.chance.below(12)
        if sort < 3:
            return "'static"
        if sort < 5:
            return f"'p{TYPES + self.chance.below(REGIONS)}"
        if sort < 9:
            return f"'^{self.chance.below(3)}.{self.chance.below(2)}"
        return ("'erased", f"'c.{self.chance.below(2)}", f"'?{self.chance.below(9)}")[sort - 9]

    def leaf(self):
        word = self.chance.of(("param", "bound", "cbound", "infer", "placeholder", "error"))
        second = f" {self.chance.below(2)}" if word in ("bound", "placeholder") else ""
        self.keep(f"{word} {self.chance.below(TYPES)}{second}", 1, False)

    def pointer(self):
        at, size, variable = self.chance.of(self.types)
        word = self.chance.of(("ref", "ref", "refmut", "ptr", "ptrmut", "slice"))
        if word in ("ref", "refmut"):
            region = self.region()
            word, variable = f"{word} {region}", variable or region.startswith("'?")
        self.keep(f"{word} {at}", size + 2, variable)

    def row(self):
        items = [self.chance.of(self.types) for _ in range(self.chance.below(5))]
        word = f"fn {self.chance.below(3)}" if items and self.chance.below(3) == 0 else "tuple"
        size = 1 + sum(it[1] for it in items)
        self.keep(" ".join([word, *[it[0] for it in items]]), size, any(it[2] for it in items))

    def shift(self):
        at, size, variable = self.chance.of(self.types)
        self.keep(f"shift {at} {self.chance.below(4)}", size, variable)

    def erase(self):
        at, size, variable = self.chance.of(self.types)
        self.keep(f"erase {at}", size, variable)

    def inst(self):
        at, size, variable = self.chance.of(self.types)
        types = [self.chance.of(self.types) for _ in range(TYPES)]
        words = [it[0] for it in types] + [self.region() for _ in range(REGIONS)]
        # One in eight has too few arguments, which is refused where the type has the others as parameters.
        few = self.chance.below(8) == 0
        line = " ".join(["inst", at, *words[: self.chance.below(TYPES) if few else TYPES + REGIONS]])
        if few or variable:
            self.asked.append(self.script.call(line))
        else:
            self.keep(line, size * max(it[1] for it in types), True)

    def ask(self):
        at = self.chance.of(self.asked) if self.asked and self.chance.below(3) == 0 else self.chance.of(self.types)[0]
        self.script.call(f"info {at}" if self.chance.below(2) else f"equal {at} {self.chance.of(self.types)[0]}")

    def bad(self):
        words = ("u9", "ref %1", "tuple %", "shift %1", "ref '^4294967041.0 %1", "tuple %0", "fn 0")
        self.script.call(self.chance.of(words))


def mixed(calls, seed):
    """Lines of all words on small trees, with some refused calls and some bad lines."""
    script = Mixed(seed)
    steps = [script.leaf] * 8 + [script.pointer] * 22 + [script.row] * 25 + [script.shift] * 12 + [script.inst] * 12
    steps += [script.erase] * 6 + [script.ask] * 14 + [script.bad]
    while len(script.script.lines) < calls:
        script.chance.of(steps)()
    return script.script.lines
