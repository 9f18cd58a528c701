"""Where fields lie in memory, for tools/portable.py, read off the structs of Rattle's sources.

The parts of a struct lie in the order in which they are declared, each at the next multiple of its alignment. An `Option`
has a byte that is 1 if it is `Some`, and then the value. A `Vec` has an address, a length and a room. A `Result` has a byte that
is 1 if it is an `Err`, and behind that byte the value or the failure: what lies where the other does has the names of both.
Another enum has a byte that numbers its variant, and then the parts of that variant. The parts of its longest variant stand for
those of all."""
import re
from collections import namedtuple

from llvm_module import parted

NUMBERS = {"u8": 1, "bool": 1, "u16": 2, "i32": 4, "u32": 4, "u64": 8, "i64": 8, "usize": 8}
# types without bytes
EMPTY = ("Global", "PhantomData", "Steps", "AllocError")
# of std, with the same parameter
KNOWN = {
    "Vec": [("", "*const T"), ("len", "usize"), ("room", "usize")],
    "Option": [("has", "u8"), ("", "T")],
    "Box": [("", "*const T")],
}
# the parts of a variant have no names: numbers of these types are those of a link
PARTS_OF_LINK = {"u16": "high", "u32": "low"}
STRUCT = re.compile(r"^(?:pub(?:\([^)]*\))? )?struct (\w+)(?:<([^{;]*)>)? \{\n(.*?)^\}", re.M | re.S)
FIELD = re.compile(r"^ {4}(?:pub(?:\([^)]*\))? )?(\w+): (.*),$", re.M)
ENUM = re.compile(r"^enum (\w+)<([^{;]*)> \{\n(.*?)^\}", re.M | re.S)
VARIANT = re.compile(r"^ {4}\w+\((.*)\),$", re.M)
# an enum whose variants have no parts: a byte has its number
CHOICE = re.compile(r"^(?:pub(?:\([^)]*\))? )?enum (\w+) \{\n(?: {4}(?:///.*|\w+,)\n)+\}", re.M)

# a part of a type: its name, its type and where it lies
Part = namedtuple("Part", "name kind at")


def parted_types(text):
    """The types, or the names with types, that stand between commas."""
    return parted(text, "<([", ">)]")


def with_types(text, given):
    """A type with other types in place of some names."""
    return re.sub(r"\w+", lambda it: given.get(it[0], it[0]), text)


class Layouts:
    """The layouts of the types of some sources, whose texts are given."""

    def __init__(self, texts):
        self.structs, self.made = {}, {}
        self.numbers = NUMBERS | {name: 1 for text in texts for name in CHOICE.findall(text)}
        for name, places, fields in (it for text in texts for it in STRUCT.findall(text)):
            fields = re.sub(r"^ *(?:///|//|ghost )[^\n]*\n", "", fields, flags=re.M)
            parameters = [it.split(":")[0] for it in parted_types(places) if it[0] != "'"]
            self.structs[name] = (parameters, FIELD.findall(fields))
        for name, places, variants in (it for text in texts for it in ENUM.findall(text)):
            longest = max(map(parted_types, VARIANT.findall(variants)), key=len)
            parts = [("has_pair", "u8"), *((PARTS_OF_LINK.get(it, ""), it) for it in longest)]
            self.structs[name] = (places.split(", "), parts)

    def declared(self, kind):
        """The names and the types of the parts of a type."""
        if kind[0] == "(":
            return [("", it) for it in parted_types(kind[1:-1])]
        head, _, given = kind.partition("<")
        if head in KNOWN:
            return [(name, with_types(it, {"T": parted_types(given[:-1])[0]})) for name, it in KNOWN[head]]
        if head == "Result":
            made, failed = parted_types(given[:-1])
            return [("has_failed", "u8"), ("made", made), (failed.lower(), failed)]
        if head not in self.structs:
            raise SystemExit(f"layout: the type {kind} is unknown")
        parameters, fields = self.structs[head]
        # a type that is left out is the allocator's
        known = dict.fromkeys(parameters, "Global") | dict(zip(parameters, parted_types(given[:-1])))
        return [(name, with_types(it, known)) for name, it in fields]

    def layout(self, kind):
        """The parts of a type, its number of bytes and its alignment."""
        if kind not in self.made:
            self.made[kind] = self.new_layout(kind)
        return self.made[kind]

    def new_layout(self, kind):
        if kind in self.numbers or kind[0] in "*&":
            size = self.numbers.get(kind, 8)
            return [], size, size
        if kind.partition("<")[0] in EMPTY:
            return [], 0, 1
        declared = self.declared(kind)
        # what a result holds lies behind the same byte, whichever it is
        ways = [[declared[0], it] for it in declared[1:]] if kind.startswith("Result<") else [declared]
        rows = [self.row(it) for it in ways]
        end, most = (max(it[at] for it in rows) for at in (1, 2))
        return list(dict.fromkeys(it for parts, _, _ in rows for it in parts)), -(-end // most) * most, most

    def row(self, declared):
        """Where parts lie that stand one behind the other, where the last one ends, and their alignment."""
        parts, end, most = [], 0, 1
        for name, kind in declared:
            _, size, align = self.layout(kind)
            at = -(-end // align) * align
            parts, end, most = [*parts, Part(name, kind, at)], at + size, max(most, align)
        return parts, end, most

    def is_known(self, kind):
        """Whether the sources tell the layout of a type."""
        try:
            return bool(self.layout(kind))
        except SystemExit:
            return False

    def size(self, kind):
        return self.layout(kind)[1]

    def fields(self, kind, name=""):
        """The numbers and addresses of a type, by where they lie: the name of each, and its type."""
        parts, size, _ = self.layout(kind)
        if not parts:
            return {0: (name, kind)} if size else {}
        is_named = kind.partition("<")[0] in KNOWN
        found = {}
        for part in parts:
            words = [part.name, name] if part.name == "has" else [name, part.name]
            inner = "_".join(filter(None, words)) if is_named else part.name
            for at, (field, its) in self.fields(part.kind, inner).items():
                other, _ = found.get(part.at + at, (field, its))
                found[part.at + at] = (field if field == other else f"{other}_or_{field}", its)
        return found

    def views(self, kind, at):
        """What an address is that lies so far behind the start of a type: that place, and those in its parts."""
        parts, size, _ = self.layout(kind)
        found = [(kind, at)] if parts and at < size else []
        for part in parts:
            if part.at <= at < part.at + self.size(part.kind):
                found += self.views(part.kind, at - part.at)
        return found
