"""What Rattle's sources say of the functions of a module of LLVM, for tools/portable.py: the file, the first sentence of the
comment, the names and the types of the parameters."""
import re
import textwrap

from layout import KNOWN, Layouts, parted_types, with_types
from sources import LINK, comment_above, impls

# what the crate for C has in place of parameters that are types
GIVEN = {"K": "u64", "V": "u64", "X": "Kept<u64>", "P": "(Stored<u64>, Kept<u64>)", "A": "Global"}
# what has more bytes is handed on by its address
IN_REGISTERS = 16
CONSTANT = re.compile(r"^(?:pub(?:\(crate\))? )?const (\w+): (?:u64|usize) = (\d{10,});", re.M)
STATUS = re.compile(r"^pub const (\w+): i32 = (-\d+);", re.M)
# what stands behind a function's name
SIGNATURE = re.compile(r"(?:<(?:[^()]|\(\))*?>)?\((.*?)\)(?: -> ([^\n]+))?\n", re.S)
# of a line of C
WIDTH = 118


def path_of(name):
    """The modules and the name of a function of Rattle."""
    return re.sub(r"::<.*", "", name).split("::")


def commented(comment, where):
    """The first sentence of a comment and where it is from, as comments of C."""
    first = re.split(r"(?<=\.) (?=[A-Z`])", LINK.sub(r"\1", " ".join(comment.split())))[0]
    return [f"// {line}" for it in (first, where) for line in textwrap.wrap(it, WIDTH - 3)]


class Origins:
    """The sources, whose texts are given by path."""

    def __init__(self, texts):
        self.texts, self.layouts = texts, Layouts(texts.values())
        # large numbers that have a name, by their types, and how statuses of failures are called
        self.constants = {("i64", int(it)): name for text in texts.values() for name, it in CONSTANT.findall(text)}
        self.statuses = {int(it) % (1 << 32): name for text in texts.values() for name, it in STATUS.findall(text)}
        for number in [it for (_, it), name in self.constants.items() if name == "NOWHERE"]:
            self.constants |= {("i16", number >> 32): "NOWHERE_HIGH", ("i32", number % (1 << 32)): "NOWHERE_LOW"}

    def file(self, name):
        """The file that has a function, as far as a look tells; None if none of the sources has it."""
        *modules, last = path_of(name)
        crate = modules[0] if modules else "intmap_c"
        there = [it for it, text in self.texts.items() if f"/{crate}/" in it and re.search(rf"\bfn {re.escape(last)}\b", text)]

        def rank(path):
            kinds = [kind for _, kind, _ in self.places(path, last)]
            return any(it in modules for it in kinds), sum(it.lower() in path for it in [*modules[1:], last])

        return max(there, key=rank, default=None)

    def places(self, path, last):
        """Where a file has functions of a name: where the name ends, and the name and the type of the `impl`, or nothing."""
        text = self.texts[path]
        return [(it.end(), *self.impl_at(text, it.start())) for it in re.finditer(rf"\bfn {re.escape(last)}\b", text)]

    def found(self, name):
        """Where a function's name ends in its file, and the type of the `impl` that has it, or nothing."""
        *modules, last = path_of(name)
        types = self.places(self.file(name), last)
        end, _, whole = next((it for it in types if it[1] in modules), types[0])
        return end, whole

    @staticmethod
    def impl_at(text, place):
        return next(((kind, whole) for start, end, kind, _, whole in impls(text) if start < place < end), ("", ""))

    def about(self, name):
        """What stands above a function or a struct: the first sentence of its comment, its name and its file."""
        bare = name.split("::<")[0]
        if "::" not in name and not name.startswith("intmap_"):
            return self.about_type(name)
        path = self.file(name)
        if not path:
            return commented("", f"{bare}, in Rattle's library {path_of(name)[0]}")
        at = self.texts[path].rindex("\n", 0, self.found(name)[0]) + 1
        return commented(comment_above(self.texts[path], at), f"{bare}, in {path}")

    def about_type(self, kind):
        for path, text in self.texts.items():
            found = re.search(rf"^.*\bstruct {kind.partition('<')[0]}\b", text, re.M) if kind[0] != "(" else None
            if found:
                return commented(comment_above(text, found.start()), f"{kind}, in {path}")
        return commented("", f"{kind.partition('<')[0]}, in Rattle's library" if kind.partition("<")[0] in KNOWN else kind)

    def parameters(self, function):
        """The name and the type of each parameter of a function, as the module numbers them."""
        if not self.file(function.name):
            return []
        end, own = self.found(function.name)
        found = SIGNATURE.match(self.texts[self.file(function.name)], end)
        kind = with_types(found[2] or "()", GIVEN)
        # a small result goes by registers, unless nobody uses it
        is_large = not self.layouts.is_known(kind) or self.layouts.size(kind) > IN_REGISTERS
        is_written = found[2] and is_large and (function.result == "void" or function.result == "ptr" and kind[0] not in "&*")
        places = [("result", f"&{kind}")] if is_written else []
        for it in parted_types(re.sub(r"//[^\n]*|\s+", " ", found[1])):
            name, _, kind = it.partition(": ")
            if name.endswith("self"):
                name, kind = "self", name.replace("self", own)
            more = self.registers(name, with_types(kind, GIVEN))
            if more is None:
                break
            places += more
        return places

    def returned(self, function):
        """The names and the types of the parts that a function returns in registers, as far as the sources tell."""
        signature = self.file(function.name) and SIGNATURE.match(self.texts[self.file(function.name)], self.found(function.name)[0])
        found = signature and signature[2] and self.registers("", with_types(signature[2], GIVEN)) or []
        parts = [(name.strip("_"), kind) for name, kind in found]
        return parts if len(parts) == function.result.count(",") + 1 else []

    def registers(self, name, kind):
        """The parameters that one of the source becomes; None if its type is unknown."""
        if kind[0] in "&*":
            return [(name, kind), *([(f"{name}_len", "usize")] if "[" in kind else [])]
        if not self.layouts.is_known(kind):
            return None
        if self.layouts.size(kind) > IN_REGISTERS:
            return [(name, f"&{kind}")]
        fields = list(self.layouts.fields(kind).values())
        return [(name if len(fields) == 1 else f"{name}_{field}".rstrip("_"), its) for field, its in fields]
