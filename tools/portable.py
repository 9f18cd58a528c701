"""Prints a module of LLVM as C, for tools/printed: the library for C as one file for any compiler.

Each function of the module becomes one of C, between the parts of tools/portable_driver that are written by hand. A
value that is used once is printed where it is used, unless a store or a call comes between. Blocks become `if`, `for`,
`switch` and `goto`, by who dominates whom. An instruction of an unknown form ends the printing, so none is left out."""
import re
import textwrap
from collections import defaultdict, namedtuple

from crates import text_of
from layout import parted_types
from llvm_module import NAME, NUMBERED, TYPE, VALUE, bare, functions_of, groups_of, parted, result_type
from places import CALL, MAP, NEXT, PART, ROW, STORED, Places, title
from origins import WIDTH, Origins, path_of
from scopes import Scopes

PARTS = "tools/portable_driver"
# Functions that stay functions, so that no other becomes too long to read. The compiler of the C inlines them in LLVM's place.
APART = (
    *("IntMap::get_counted", "IntMap::get_mut", "IntMap::fit", "load::wanted_capacity"),
    *("IntMap::takes_one_more", "insertion::put", "refill::put_at", "Pool::add_new", "Pool::release"),
    *("Slots::clone", "Bits::clone", "copy_drop::copy_bits"),
    *("chain::last_in", "chain::seek", "reached::link_to", "Slots::remove_at", "Bits::next_in"),
    *("removal::unlink", "keep::drop_front", "Vec::reserve_exact", "Vec::shrink_to_fit"),
)
# How clang prints a module, with names: as it is given, and behind the optimiser. Vectors have no form in C, and unrolled
# loops are longer and no faster.
GIVEN = "-Xclang -disable-llvm-passes -fno-discard-value-names -S -emit-llvm"
MODULE = "-O2 -fno-vectorize -fno-slp-vectorize -fno-unroll-loops -fno-discard-value-names -S -emit-llvm"
BINARY = {
    "add": "+",
    "sub": "-",
    "mul": "*",
    "and": "&",
    "or": "|",
    "xor": "^",
    "shl": "<<",
    "lshr": ">>",
    "udiv": "/",
    "urem": "%",
}
COMPARED = {"eq": "==", "ne": "!=", "gt": ">", "ge": ">=", "lt": "<", "le": "<="}
# of two values that are true or false
OF_TESTS = {"xor": "!=", "and": "&", "or": "|"}
CONTRARY = {"==": "!=", "!=": "==", "<": ">=", "<=": ">", ">": "<=", ">=": "<"}
# numbers of 128 bits have functions of head.c
WIDE = {"add": "u128_add", "mul": "u128_mul", "udiv": "u128_div"}
WIDE_COMPARED = {
    "u>": "u128_above({0}, {1})",
    "u<": "u128_above({1}, {0})",
    "u<=": "!u128_above({0}, {1})",
    "u>=": "!u128_above({1}, {0})",
}
# what u128_div can divide by
SMALL_DIVISOR = range(1, 1 << 63)
# of the compiler's own functions: the name in head.c, how many arguments count, and what their result is called
HELPERS = {
    "llvm.cttz.i64": ("place_of_lowest_1", 1, "lowest"),
    "llvm.ctlz.i64": ("high_zeros", 1, "zeros"),
    "llvm.ctpop.i64": ("ones_in", 1, "ones"),
    "llvm.umax.i64": ("greater", 2, "most"),
    "llvm.umin.i64": ("lesser", 2, "least"),
    "llvm.uadd.sat.i64": ("sum_or_most", 2, "sum"),
}
MOVES = {"llvm.memset": "memset", "llvm.memcpy": "memcpy", "llvm.memmove": "memmove"}
NO_CODE = ("llvm.lifetime", "llvm.assume")
# requests for memory, with the names of their parameters
HEAP = {"rattle_alloc": ["size"], "rattle_realloc": ["block", "size", "size"], "rattle_dealloc": ["block"]}
ADDRESS_AND_NUMBER = rf"getelementptr (?:(?:inbounds|nuw|nusw) )*i8, ptr ({VALUE}), i64 (-?\d+)$"
# numbers of things of 8 and of 24 bytes for which no block of memory has room
TOO_MANY = {((1 << 63) - 1) // size + 1: size for size in (8, 24)}
# what has the bits of a number but for the lowest, what is true of none, and what is one of several numbers or the same number
LESS_ONE = re.compile(rf"add (?:(?:nuw|nsw) )*i64 ({VALUE}), -1$")
BOTH = re.compile(rf"and i64 ({VALUE}), ({VALUE})$")
IS_NONE = re.compile(rf"icmp eq {TYPE} ({VALUE}), (0|null)$")
ONE_OF = re.compile(rf"(?:select i1 {VALUE}, {TYPE} ({VALUE}), {TYPE} ({VALUE})|(?:trunc|zext) .*?{TYPE} ({VALUE}) to {TYPE})$")
# what the optimiser appends to a name
APPENDED = "i\\d*|sroa|sroa_idx|copyload|fca|extract|insert|pre-phi|pre|not|le|lcssa|unr|ph|preheader|fr|pn"
INSERTED = rf"insertvalue ({TYPE}) ({VALUE}), ({TYPE}) ({VALUE}), (\d+)$"
# the instructions of a block that only returns
ENDS = re.compile(rf"(?:%{NAME} = (?:phi|insertvalue) |ret )")
TAKEN = set("switch default case if else for do while return break continue goto new delete this".split())
FIELD_TYPES = {"i64": "word", "i32": "half", "i8": "byte", "i1": "truth", "ptr": "address"}
FIELDS = ("first", "second", "third", "fourth")
# an arm that the sources call unreachable, which they prove
NEVER = "abort(); // The proof excludes this."
STEP = "    "
# what the head may define for nobody, with the comment above it and the blank line below
HELPER = re.compile(
    r"(?:^//[^\n]*\n)*^(?:static inline [^\n]*?\b|#define )(\w+)\([^\n]*?\)(?: \{(?:[^\n]*\}\n|\n.*?^\}\n)\n?| [^\n]*\n)",
    re.M | re.S,
)

# an expression that waits for its one use, whether it reads memory, and its contrary if it is a test
Waiting = namedtuple("Waiting", "text reads contrary")


def known(table, key, line):
    """What a table has for a word of a line, which must be there."""
    if key not in table:
        raise SystemExit(f"portable: {key} is unknown here: {line}")
    return table[key]


def bits(kind):
    return int(kind[1:])


def is_odd(kind):
    """Whether head.c loads and stores so many bits byte by byte."""
    return kind[0] == "i" and bits(kind) not in (1, 8, 16, 32, 64, 128)


def fields_of(kind):
    return parted(kind[1:-1])


def struct_name(kind):
    return "_".join(FIELD_TYPES[it] for it in fields_of(kind))


def c_type(kind):
    """A type of the module in C."""
    if kind[0] == "{":
        return f"struct {struct_name(kind)}"
    named = {"void": "void", "ptr": "char *", "i1": "bool", "i128": "u128"}
    return named.get(kind) or next(f"uint{it}_t" for it in (8, 16, 32, 64) if bits(kind) <= it)


def declared(kind, name):
    """A variable, a field or a function of this type."""
    return f"{c_type(kind)}{name}" if kind == "ptr" else f"{c_type(kind)} {name}"


def constant(number, kind):
    """A number as this type has it: none is negative."""
    number %= 1 << bits(kind)
    if bits(kind) == 128:
        wide = f"u128_two({constant(number >> 64, 'i64')}, {constant(number, 'i64')})"
        return f"u128_of({number}u)" if number < 1 << 31 else wide
    if number < 1 << 31:
        return str(number)
    if bits(kind) < 64:
        return f"{number}u"
    if number in TOO_MANY:
        return f"TOO_MANY({TOO_MANY[number]})"
    return "UINT64_MAX" if number == (1 << 64) - 1 else f"UINT64_C({number})"


def nothing(kind):
    """What stands for a value that nobody may look at, and for zero."""
    if kind[0] == "{":
        return f"empty_{struct_name(kind)}()"
    return {"ptr": "NULL", "i128": "u128_of(0)", "i1": "false"}.get(kind, "0")


def type_name(kind):
    """What a type is called: a result as what it is of, and a tuple as its parts, if it has no name of its own."""
    if kind.startswith("Result<"):
        return f"made_{type_name(parted_types(kind.partition('<')[2][:-1])[0])}"
    name = title(kind)
    return name if name[0] != "(" else "_and_".join(map(type_name, parted_types(kind[1:-1]))) or "nothing"


def is_whole(text):
    """Whether an expression needs no brackets: it is a name, a field or one call."""
    if re.fullmatch(r"\w+(?:\.\w+)?", text):
        return True
    if not re.fullmatch(r"\w+\(.*\)", text):
        return False
    depth = 0
    for at, sign in enumerate(text):
        depth += (sign == "(") - (sign == ")")
        if sign == ")" and depth == 0 and at + 1 < len(text):
            return False
    return True


def unique(name, taken):
    """The name, with a number behind it if it is taken. Then it is."""
    found, number = name, 2
    while found in taken:
        found, number = f"{name}_{number}", number + 1
    taken.add(found)
    return found


def word_of(name):
    """A name in C for a block: without what inlining and splitting appended to it."""
    if "::" in name:
        path = re.sub(r"::<.*", "", re.sub(r"(?:\.exit|\.loopexit).*", "", name)).split("::")
        return "after_" + re.sub(r"\W+", "_", "_".join([it for it in path if it][-2:])).strip("_")
    name = re.sub(rf"\.({APPENDED})(?=\.|$)", "", name)
    if not re.match(r"\w+\.\d+$", name):
        name = re.sub(r"(\.\d+)+$", "", name)
    name = re.sub(r"\W+", "_", name).strip("_") or "exit"
    return f"x{name}" if name[0].isdigit() else f"{name}_" if name in TAKEN else name


class Printer:
    """What is known of the whole module: the names of its functions, the structs that they return, the places of values, and
    the types whose fields have names."""

    def __init__(self, functions, texts):
        self.origins = Origins(texts)
        self.places = Places(functions, self.origins)
        # no function of Rattle gets the name of a call
        self.names, self.taken, self.structs = {}, {it.name for it in functions if "::" not in it.name}, {}
        # types whose fields have names, and numbers that have
        self.laid_out, self.forms, self.defined = {}, {}, {}

    def name(self, name):
        """A function's name in C. One that C calls has the same name, with a word before it."""
        if name.startswith("llvm."):
            raise SystemExit(f"portable: {name} is unknown")
        if name not in self.names:
            path = path_of(name)
            plain = f"do_{name}" if len(path) == 1 else re.sub(r"\W+", "_", "_".join(path[-2:])).lower()
            self.names[name] = unique(plain, self.taken)
        return self.names[name]

    def struct(self, kind):
        self.structs.setdefault(tuple(fields_of(kind)), kind)
        return struct_name(kind)

    def constant(self, number, kind, is_returned=False):
        """A number, by the name that the sources give it, if any."""
        number %= 1 << bits(kind)
        status = self.origins.statuses.get(number) if is_returned and bits(kind) in (32, 64) else None
        name = status or self.origins.constants.get((kind, number))
        if not name:
            return constant(number, kind)
        self.defined[name] = constant(number, "i32" if status else kind)
        return name

    def fields(self, kind):
        """The fields of a type of which it has several, by where they lie."""
        layouts = self.origins.layouts
        fields = layouts.fields(kind) if kind[0] != ROW and layouts.is_known(kind) else {}
        return fields if len(fields) > 1 else {}

    def field_name(self, kind, field):
        """The name of a type's field, or of its size. Types have one name if their fields lie alike."""
        self.laid_out.setdefault(kind, set()).add(field)
        fields = {at: name for at, (name, _) in self.origins.layouts.fields(kind).items()}
        form, name, number = (fields, self.origins.layouts.size(kind)), type_name(kind), 2
        while self.forms.setdefault(name, form) != form:
            name, number = f"{type_name(kind)}_{number}", number + 1
        return f"{name}_{field or 'address'}".upper()

    def size(self, kind):
        """The name of a type's size."""
        return self.field_name(kind, "size")

    def layouts(self):
        """The enums that say where fields lie, of the types whose fields have names."""
        layouts = self.origins.layouts
        # of some types only the size counts
        whole = {it for it, used in self.laid_out.items() if used != {"size"}}
        laid_out = {self.size(it): it for it in sorted(self.laid_out, key=whole.__contains__)}
        if laid_out:
            yield "// Where the fields of structs lie, by the names of the sources, and how many bytes a struct has.\n"
        for name, kind in sorted(laid_out.items(), key=lambda it: (-layouts.size(it[1]), it)):
            fields = layouts.fields(kind) if kind in whole else {}
            places = {field or "address": at for at, (field, _) in fields.items()} | {"size": layouts.size(kind)}
            words = ",\n".join(f"{STEP}{self.field_name(kind, it)} = {at}" for it, at in places.items())
            yield from [*self.origins.about(kind), "enum {", words, "};"]
        if self.defined:
            yield "// Numbers that the sources name. Statuses are those of intmap.h, without a sign.\n"
        yield from (f"#define {name} {number}" for name, number in self.defined.items())
        yield ""


class FunctionInC:
    """One function as C."""

    def __init__(self, printer, function):
        self.printer, self.function, self.graph = printer, function, function.graph
        self.is_call_of_c = "::" not in function.name
        self.returned = function.returned()
        # blocks that only return: each way to one ends with a return of its own
        self.ends = {it for it, lines in function.blocks.items() if all(ENDS.match(line) for line in lines)}
        self.graph.joins -= self.ends
        self.name, self.taken, self.names, self.types = printer.name(function.name), set(), {}, {}
        labels = set()
        self.labels = {it: unique(word_of(it), labels) for it in self.graph.order}
        self.types |= {name: kind for kind, name in function.parameters}
        self.types |= {name: kind for every in function.joined.values() for name, kind, _ in every}
        self.cases = {value: list(its.values()) for every in function.joined.values() for value, _, its in every}
        self.handed_back, self.fates = self.found_handed_back(), self.found_fates()
        self.name_parameters()
        # what the statements declare: variables, helpers of copies, rooms
        self.variables, self.copies_of, self.rooms = {}, {}, {}
        # structs that are made of values, labels and loops that are left, expressions that wait for their use
        self.made, self.used_labels, self.left_loops, self.waiting = {}, set(), set(), {}

    def name_parameters(self):
        for _, value in self.function.parameters:
            self.names[value] = unique(self.place_name(value) or value, self.taken)

    def place_name(self, value):
        """What a value is called by the sources, if its place or its making tells."""
        name, places = self.printer.places.name(self.function, value), self.printer.places.of(self.function, f"%{value}")
        if value in self.handed_back and not name:
            name = self.printer.places.name_of_place(self.handed_back[value])
        # an address of the first field is one of the whole
        wholes = [kind for kind, at in places or () if at == 0 and self.printer.fields(kind) and title(kind) != "vec"]
        if wholes and str(name).endswith("_at"):
            name = type_name(wholes[0])
        # of several addresses not all dangle
        name = None if name == "dangling" and value in self.cases else name
        return f"{name}_" if name in TAKEN else name

    def parts_returned(self):
        """The values that are parts of what is returned, each with the name and the type that the sources have for the part."""
        known = self.printer.origins.returned(self.function)
        for value in self.returned & self.function.made_by.keys():
            part = re.match(INSERTED, self.function.made_by[value])
            if part and int(part[5]) < len(known):
                yield bare(part[4]), *known[int(part[5])]

    def found_handed_back(self):
        """By value where its address leads to, if the sources say that of an address which is returned."""
        addresses = {it: self.printer.places.leads_to(kind) for it, _, kind in self.parts_returned() if kind[0] in "*&"}
        return addresses | {bare(it): places for value, places in addresses.items() for it in self.cases.get(value, ())}

    def found_fates(self):
        """By value the one name of all fields in which it is stored or returned, and of all parameters that it is handed to."""
        places, found = self.printer.places, defaultdict(set)
        for value, name, _ in self.parts_returned():
            found[f"%{value}"].add(name or None)
        for line in (line for lines in self.function.blocks.values() for line in lines):
            code = line.split(" = ", 1)[-1]
            stored, called = STORED.match(code), CALL.match(code)
            fields = filter(None, map(places.field, places.of(self.function, stored[2]) or ())) if stored else ()
            found[stored[1] if stored else None] |= {it or "address" for it, _ in [*fields][:1]}
            name = called[1].strip('"') if called else None
            values = [it for _, it in places.functions[name].parameters] if name in places.functions else []
            known = [places.parameters[name].get(it, (None, ()))[0] for it in values] or HEAP.get(name, [])
            known = [None, None, "size"] if called and name.startswith(tuple(MOVES)) else known
            for given, it in zip(parted(called[2]), known) if called else ():
                found[given.split()[-1]].add(it if it != "self" else None)
        names = {bare(it): its - {None} for it, its in found.items() if it and it[0] == "%"}
        return {it: its.pop() for it, its in names.items() if len(its) == 1}

    def base_name(self, value, seen=()):
        """What a value is called but for a number that tells it from others; None if nothing tells."""
        if value in seen:
            return None
        if any(value == it for _, it in self.function.parameters):
            return self.names[value]
        seen = (*seen, value)
        fate = self.fates.get(value)
        found = self.place_name(value) or (fate if value in self.cases else None) or self.name_of_making(value, seen)
        return found or fate or self.number_name(value, seen)

    def name_of_making(self, value, seen):
        """A name after the function that is called, or after what the value is one of."""
        code = self.function.made_by.get(value, "")
        called, both, is_none, one_of = CALL.match(code), BOTH.match(code), IS_NONE.match(code), ONE_OF.match(code)
        if called:
            name = called[1].strip('"')
            return path_of(name)[-1] if "::" in name else HELPERS.get(name, ("", 0, None))[2]
        if PART.match(code):
            return self.part_name(*PART.match(code).groups())
        if is_none and self.base_name(bare(is_none[1]), seen):
            return f"{self.base_name(bare(is_none[1]), seen)}_is_{is_none[2]}"
        parts = []
        for one, other in (both.groups(), both.groups()[::-1]) if both else ():
            less = LESS_ONE.match(self.function.made_by.get(bare(one), ""))
            parts += [other] if less and less[1] == other else []
        parts += [it for it in one_of.groups() if it] if one_of else self.cases.get(value, [])
        names = {self.base_name(bare(it), seen) for it in parts if it[0] == "%"} - {None, "dangling"}
        names = {it.removeprefix("next_") for it in names} if len(names) > 1 else names
        return names.pop() if len(names) == 1 else None

    def part_name(self, whole, at):
        """What the sources call a part of what a function returns."""
        called = CALL.match(self.function.made_by.get(bare(whole), ""))
        function = self.printer.places.functions.get(called[1].strip('"')) if called else None
        parts = self.printer.origins.returned(function) if function else []
        return parts[int(at)][0] or None if parts else None

    def plain_name(self, value):
        """A name for what has none: the number that the module gave it, or what the optimiser did to make it."""
        number = re.match(r"([ra]\d+)(?:\.|$)|(\d+)$", value)
        if number:
            return number[1] or f"x{number[2]}"
        return "chosen" if self.function.made_by.get(value, "").startswith("select ") else "joined" if value in self.cases else "x"

    def number_name(self, value, seen):
        """What a value is called by what is done with it: with a number that chooses one of many, or with a block."""
        code, users = self.function.made_by.get(value, ""), [it for it, _ in self.function.uses.get(value, ()) if it]
        following, uses = NEXT.match(code), [self.function.made_by.get(it, "") for it in users]
        if following and bare(following[1]) in self.cases and self.base_name(bare(following[1]), seen):
            return f"next_{self.base_name(bare(following[1]), seen)}"
        if any(self.printer.places.stride_name(self.function, it) == "u64" for it in users):
            return "word"
        if any(it.startswith("lshr i64 ") and it.endswith(", 32") for it in uses):
            return "link"
        if re.match("mul|shl|and", code) and any(it.startswith("getelementptr ") for it in uses):
            return "offset"
        if code.startswith("getelementptr ") and self.printer.places.of(self.function, f"%{value}") == ((f"{ROW}u64", 0),):
            return "word_at"
        if code.startswith("inttoptr "):
            return "address"
        if value in self.returned and any(self.status(it) for it in self.cases.get(value, ())):
            return "status"
        if value in self.returned and self.types.get(value, "")[:1] == "{":
            return "returned"
        return "place" if self.is_place(value) else None

    def status(self, text):
        return text.lstrip("-").isdigit() and self.printer.origins.statuses.get(int(text) % (1 << 32))

    def is_place(self, value):
        """Whether a number counts the nodes of a chain as a loop follows it."""
        beside = next((every for every in self.function.joined.values() if any(it == value for it, _, _ in every)), ())
        steps = [NEXT.match(self.function.made_by.get(bare(it), "")) for it in self.cases.get(value, ())]
        is_counted = any(it and bare(it[1]) == value for it in steps)
        return is_counted and any(self.place_name(it) in ("at", "link") for it, _, _ in beside)

    # Values.

    def variable(self, value):
        if value not in self.names:
            self.names[value] = unique(self.base_name(value) or self.plain_name(value), self.taken)
        return self.names[value]

    def assigned(self, value):
        """The variable of a value, which is then declared."""
        self.variables.setdefault(value)
        return self.variable(value)

    def operand(self, text, kind, is_whole_wanted=True, result=None):
        """What an instruction takes for its result, as an expression. What waits for this use is printed here."""
        text = text.strip()
        if text[0] == "%":
            return self.used(bare(text), is_whole_wanted)
        if text in ("null", "poison", "undef", "zeroinitializer"):
            if kind[0] == "{":
                self.printer.struct(kind)
            return nothing(kind)
        if text in ("true", "false"):
            return text
        if number := re.fullmatch(r"inttoptr \(i64 (-?\d+) to ptr\)", text):
            return f"(char *)(uintptr_t){self.printer.constant(int(number[1]), 'i64')}"
        return "(char *)no_bytes" if text[0] == "@" else self.printer.constant(int(text), kind, result in self.returned)

    def used(self, value, is_whole_wanted):
        if value in self.made:
            return self.made_struct(value)
        if value in self.waiting:
            text = self.waiting.pop(value).text
        elif value in self.function.free:
            text = self.expression(value)
        else:
            return self.variable(value)
        return text if not is_whole_wanted or is_whole(text) else f"({text})"

    def made_struct(self, value):
        kind, parts = self.made[value]
        texts = [self.operand(part, it, False, value) for part, it in zip(parts, fields_of(kind))]
        return f"made_{self.printer.struct(kind)}({', '.join(texts)})"

    def condition(self, text, is_contrary):
        value = bare(text)
        if value in self.waiting and self.waiting[value].contrary:
            it = self.waiting.pop(value)
            return it.contrary if is_contrary else it.text
        found = self.operand(text, "i1", is_contrary)
        return f"!{found}" if is_contrary else found

    # Expressions. Each is printed with all that it takes.

    def expression(self, value, is_contrary=False):
        line = self.function.made_by[value]
        word = line.split()[0]
        if word in BINARY:
            kind, text = self.binary(value, word, line)
        elif word == "load":
            kind, text = self.loaded(value, line)
        elif word == "icmp":
            kind, text = "i1", self.compared(line, is_contrary)
        elif word == "getelementptr":
            kind, text = "ptr", self.moved_address(line)
        elif word in ("zext", "trunc", "ptrtoaddr", "ptrtoint", "inttoptr"):
            kind, text = self.converted(word, line, is_contrary)
        elif word == "select":
            test, kind, one, other = groups_of(rf"select i1 ({VALUE}), ({TYPE}) ({VALUE}), {TYPE} ({VALUE})$", line)
            parts = [self.operand(it, kind, result=value) for it in (one, other)]
            text = f"{self.operand(test, 'i1')} ? {parts[0]} : {parts[1]}"
        elif word == "freeze":
            kind, one = groups_of(rf"freeze ({TYPE}) ({VALUE})$", line)
            text = self.operand(one, kind, False)
        else:
            whole, one, at = groups_of(rf"extractvalue ({TYPE}) ({VALUE}), (\d+)$", line)
            kind, text = fields_of(whole)[int(at)], f"{self.operand(one, whole)}.{FIELDS[int(at)]}"
        self.types[value] = kind
        return text

    def loaded(self, value, line):
        kind, address = groups_of(rf"load ({TYPE}), ptr ({VALUE})(?:, align \d+)?$", line)
        address = self.place(address)
        if is_odd(kind):
            return kind, f"({c_type(kind)})load_bytes({address}, {bits(kind) // 8})"
        if kind == "i1":
            return kind, f"(load8({address}) & 1) != 0"
        return kind, f"load_address({address})" if kind == "ptr" else f"load{bits(kind)}({address})"

    def moved_address(self, line):
        # a shorter number would have a sign
        base, by = groups_of(rf"getelementptr (?:(?:inbounds|nuw|nusw) )*i8, ptr ({VALUE}), i64 ({VALUE})$", line)
        if not re.match(r"-?\d+$", by):
            return f"{self.operand(base, 'ptr')} + {self.operand(by, 'i64')}"
        by = int(by)
        return self.field(base, by) or f"{self.operand(base, 'ptr')} {'-' if by < 0 else '+'} {abs(by)}"

    def field(self, base, by):
        """The address of a field, by its name, or of a byte inside it; None if nobody knows that."""
        known = self.printer.places.of(self.function, base) or self.handed_back.get(bare(base), ())
        for kind, at in known:
            fields = self.printer.fields(kind) if at == 0 else {}
            start = max((it for it in fields if it <= by), default=None)
            if start is not None and by < self.printer.origins.layouts.size(kind):
                inside = f" + {by - start}" if by > start else ""
                return f"{self.operand(base, 'ptr')} + {self.printer.field_name(kind, fields[start][0])}{inside}"
        return None

    def place(self, address):
        """Where something is read or written."""
        is_moved = re.match(ADDRESS_AND_NUMBER, self.function.made_by.get(bare(address), ""))
        return (None if is_moved else self.field(address, 0)) or self.operand(address, "ptr", False)

    def compared(self, line, is_contrary):
        how, kind, one, other = groups_of(rf"icmp (?:samesign )?(\w+) ({TYPE}) ({VALUE}), ({VALUE})$", line)
        how, other = self.with_named_bound(how, kind, other)
        left, right = self.operand(one, kind), self.operand(other, kind)
        sign = COMPARED[how[-2:]]
        sign = CONTRARY[sign] if is_contrary else sign
        if kind == "i128":
            return known(WIDE_COMPARED, f"{how[0]}{sign}", line).format(left, right)
        cast = f"(int{bits(kind)}_t)" if how[0] == "s" else "(uintptr_t)" if kind == "ptr" and how[0] == "u" else ""
        return f"{cast}{left} {sign} {cast}{right}"

    def with_named_bound(self, how, kind, number):
        """A comparison of unsigned numbers with the next number, if that is the one which the sources name."""
        following = {"ugt": "uge", "ule": "ult"}.get(how)
        is_named = following and number.isdigit() and (kind, int(number) + 1) in self.printer.origins.constants
        return (following, str(int(number) + 1)) if is_named else (how, number)

    def binary(self, value, word, line):
        kind, one, other = groups_of(rf"{word} (?:(?:nuw|nsw|exact|disjoint) )*({TYPE}) ({VALUE}), ({VALUE})$", line)
        if kind == "i128":
            return kind, self.wide(word, one, other, line)
        left = self.operand(one, kind)
        if kind == "i64" and word == "add" and re.match(r"-\d", other):
            return kind, f"{left} - {constant(-int(other), kind)}"
        if kind == "i64" and word == "xor" and other == "-1":
            return kind, f"~{left}"
        skipped = self.printer.places.stride_name(self.function, value) if word == "mul" else None
        right = self.printer.size(skipped) if skipped else self.operand(other, kind)
        if word == "and" and re.match(r"\d{10,}$", other):
            right = f"UINT64_C(0x{int(other):X})"
        if kind == "i1":
            return kind, f"{left} {known(OF_TESTS, word, line)} {right}"
        # C computes with numbers of at least 32 bits, and with signs if they are shorter
        if re.fullmatch(r"\d+u?", left) or bits(kind) < 32 and word in ("mul", "shl"):
            left = f"({c_type(kind) if bits(kind) > 32 else 'uint32_t'}){left}"
        text = f"{left} {BINARY[word]} {right}"
        if parts := re.fullmatch(r"\(\(\(uint64_t\)(.+)\) << 32\) \| \(\(uint64_t\)(.+)\)", text):
            return kind, f"link_of({parts[1]}, {parts[2]})"
        if is_odd(kind):
            text = f"({text}) & UINT64_C({(1 << bits(kind)) - 1})"
        return kind, f"({c_type(kind)})({text})" if bits(kind) < 64 else text

    def wide(self, word, one, other, line):
        if word == "add" and other == "-1":
            return f"u128_less_one({self.operand(one, 'i128', False)})"
        if word == "udiv" and not (other.isdigit() and int(other) in SMALL_DIVISOR):
            raise SystemExit(f"portable: u128_div doesn't divide by {other}")
        return f"{known(WIDE, word, line)}({self.operand(one, 'i128', False)}, {self.operand(other, 'i128', False)})"

    def converted(self, word, line, is_contrary):
        source, one, kind = groups_of(rf"{word} (?:(?:nuw|nsw|nneg) )*({TYPE}) ({VALUE}) to ({TYPE})$", line)
        if kind == "i128":
            return kind, f"u128_of({self.operand(one, source, False)})"
        if source == "i128":
            return kind, f"{known({'i64': 'u128_low'}, kind, line)}({self.operand(one, source, False)})"
        text = self.operand(one, source)
        if source == "ptr":
            return kind, f"{known({'i64': '(uint64_t)(uintptr_t)'}, kind, line)}{text}"
        if word == "inttoptr":
            return kind, f"(char *)(uintptr_t){text}"
        if kind == "i1":
            return kind, f"({text} & 1) {'==' if is_contrary else '!='} 0"
        if is_odd(kind):
            return kind, f"({c_type(kind)})({text} & UINT64_C({(1 << bits(kind)) - 1}))"
        return kind, f"({c_type(kind)}){text}"

    # Statements.

    def call(self, value, line):
        """The statement of a call; None if it has no code."""
        before, name, places = groups_of(rf"(?:tail |musttail |notail )?call (?:fastcc )?(.*?)@({NAME})\((.*)\)", line)
        name, kind = name.strip('"'), result_type(before)
        if name.startswith(NO_CODE):
            return None
        given = []
        for place in parted(places):
            its = re.match(TYPE, place)[0]
            given.append(self.operand(re.search(rf"({VALUE})\s*$", NUMBERED.sub("", place[len(its) :]))[1], its, False))
        if value:
            self.types[value] = kind
        if name == "llvm.trap":
            return NEVER
        moves = next((it for start, it in MOVES.items() if name.startswith(f"{start}.p0")), None)
        if moves:
            address = re.search(rf"({VALUE})$", parted(places)[0])[1]
            kind = self.printer.places.kind_of(self.function, address, int(given[2])) if given[2].isdigit() else None
            return f"{moves}({', '.join(given[:2])}, {self.printer.size(kind) if kind else given[2]});"
        if self.printer.places.is_for_a_map(self.function, value):
            if given[0] != str(self.printer.origins.layouts.size(MAP)):
                raise SystemExit(f"portable: a map has {given[0]} bytes, and in the sources another number")
            given[0] = self.printer.size(MAP)
        helper, count, _ = HELPERS.get(name, (None, len(given), ""))
        text = f"{helper or (name if name in HEAP else self.printer.name(name))}({', '.join(given[:count])});"
        if name == "llvm.cttz.i64" and given[1] != "true":
            text = f"({given[0]}) != 0 ? {text[:-1]} : 64;"
        uses = self.function.uses.get(value)
        is_used = kind != "void" and uses is not None and (uses or value in self.function.free)
        return f"{self.assigned(value)} = {text}" if is_used else text

    def settle(self, out, is_for_store=False):
        """Assigns what waits for its use, or of that what reads memory."""
        for value in list(self.waiting):
            if value in self.waiting and (self.waiting[value].reads or not is_for_store):
                text = self.waiting.pop(value).text
                out.append(f"{self.assigned(value)} = {text};")

    def statements(self, block):
        """A block without what joins values at its start and its last instruction."""
        out, self.waiting = [], {}
        for line in self.function.blocks[block][:-1]:
            name, code = groups_of(rf"(?:(%{NAME}) = )?(.*)", line)
            value, word = bare(name) if name else None, code.split()[0]
            if word == "phi":
                continue
            if word == "insertvalue":
                self.insert_field(value, code, out)
            elif word == "alloca":
                self.make_room(value, code)
            elif word == "store":
                self.store(code, out)
            elif re.match(r"(?:tail |musttail |notail )?call ", code):
                self.call_in_turn(value, code, out)
            elif value in self.function.free or value not in self.function.uses:
                self.note_type(value, code)
            else:
                self.compute(block, value, code, out)
        return out

    def insert_field(self, value, code, out):
        kind, whole, _, part, at = groups_of(INSERTED, code)
        self.types[value] = kind
        if bare(whole) in self.made:
            parts = list(self.made[bare(whole)][1])
        elif whole in ("poison", "undef"):
            parts = ["poison"] * len(fields_of(kind))
        else:
            raise SystemExit(f"portable: a field of a value is changed: {code}")
        parts[int(at)] = part
        self.made[value] = (kind, parts)
        for it in map(bare, parts):
            if it in self.waiting:
                out.append(f"{self.assigned(it)} = {self.waiting.pop(it).text};")

    def make_room(self, value, code):
        (kind,) = groups_of(rf"alloca ({TYPE})(?:, align \d+)?$", code)
        many = re.match(r"\[(\d+) x i8\]", kind)
        size = int(many[1]) if many else 8 if kind == "ptr" else (bits(kind) + 7) // 8
        self.types[value] = "ptr"
        self.rooms[self.variable(value)] = (size + 7) // 8

    def store(self, code, out):
        kind, one, address = groups_of(rf"store ({TYPE}) ({VALUE}), ptr ({VALUE})(?:, align \d+)?$", code)
        one, address = self.operand(one, kind, False), self.place(address)
        self.settle(out, True)
        if is_odd(kind):
            out.append(f"store_bytes({address}, {one}, {bits(kind) // 8});")
        else:
            out.append(f"store_address({address}, {one});" if kind == "ptr" else f"store{max(8, bits(kind))}({address}, {one});")

    def call_in_turn(self, value, code, out):
        statement = self.call(value, code)
        if statement:
            if not re.search(r"@llvm\.(ct|u)", code):
                self.settle(out, True)
            out.append(statement)

    def note_type(self, value, code):
        """The type of what is printed at each use, or never."""
        part = re.match(rf"extractvalue ({TYPE}) ({VALUE}), (\d+)$", code)
        same = re.match(rf"freeze ({TYPE})", code)
        self.types[value] = fields_of(part[1])[int(part[3])] if part else same[1] if same else "ptr"

    def compute(self, block, value, code, out):
        """Lets an expression wait for its use, if that is the only one and in this block; or assigns it."""
        before = dict(self.waiting)
        text, contrary = self.expression(value), None
        if code.startswith("icmp ") or code.endswith(" to i1"):
            left, self.waiting = self.waiting, before
            contrary = self.expression(value, True)
            self.waiting = left
        uses = self.function.uses[value]
        if len(uses) == 1 and uses[0][1] == block:
            self.waiting[value] = Waiting(text, "load" in text, contrary)
        else:
            out.append(f"{self.assigned(value)} = {text};")

    # Blocks. Lines that lead on also tell whether they end at what comes next, as others end by a jump.

    def joined(self, block, other):
        """The assignments by which the other block's start knows that it comes from this one. They happen at once."""
        left, out = [], []
        for value, kind, cases in self.function.joined[other]:
            if not self.function.uses.get(value):
                continue
            text = cases[block]
            text = "0" if text in ("poison", "undef") and kind[0] == "i" else self.operand(text, kind, False, value)
            name = self.assigned(value)
            if text != name:
                left.append((name, kind, text))
        while left:
            one = next(
                (it for it in left if not any(re.search(rf"\b{it[0]}\b", text) for name, _, text in left if name != it[0])), None
            )
            if one:
                left.remove(one)
                out.append(f"{one[0]} = {one[2]};")
            else:
                self.set_aside(left, out)
        return out

    def set_aside(self, left, out):
        """Breaks a circle of assignments: the first is made to a variable of its own."""
        name, kind, text = left.pop(0)
        aside = unique(f"{name}_new", self.taken)
        self.copies_of[aside] = kind
        out.append(f"{aside} = {text};")
        left.append((name, kind, aside))

    def edge(self, block, other, following, loop):
        """The lines from a block to one that it leads to."""
        if other in self.ends:
            return [self.end(other, {value: cases[block] for value, _, cases in self.function.joined[other]})], False
        waiting = dict(self.waiting)
        out = self.joined(block, other)
        waiting = {it: waiting[it] for it in waiting if it in self.waiting}
        is_back = other in self.graph.loops and self.graph.dominates(other, block)
        if not is_back and other not in self.graph.joins:
            lines, goes_on = self.tree(other, following, loop)
            self.waiting = waiting
            return out + lines, goes_on
        self.waiting = waiting
        if other == following:
            return out, True
        if other == loop[0]:
            return out + ["continue;"], False
        if other == loop[1]:
            self.left_loops.add(loop[0])
            return out + ["break;"], False
        self.used_labels.add(other)
        return out + [f"goto {self.labels[other]};"], False

    def tree(self, block, following, loop):
        """The lines of a block and of all that it dominates."""
        joins = sorted((it for it in self.graph.children[block] if it in self.graph.joins), key=self.graph.rank.get)
        if block not in self.graph.loops:
            return self.chain(block, joins, following, loop)
        inside = [it for it in joins if it in self.graph.loops[block]]
        behind = [it for it in joins if it not in self.graph.loops[block]]
        lines, _ = self.chain(block, inside, block, (block, behind[0] if behind else following))
        more, goes_on = self.rest(behind, following, loop)
        return [f"@{block}", "for (;;) {", *lines, "}", *more], goes_on if behind else block in self.left_loops

    def rest(self, joins, following, loop):
        """The lines of blocks at which ways meet, one after the other."""
        out, goes_on = [], False
        for at, block in enumerate(joins):
            lines, goes_on = self.tree(block, joins[at + 1] if at + 1 < len(joins) else following, loop)
            out += lines if block in self.graph.loops else [f"@{block}", *lines]
        return out, goes_on

    def chain(self, block, joins, following, loop):
        """The lines of a block, of where it leads to, and of where these ways meet."""
        out, last = self.statements(block), self.function.blocks[block][-1]
        word, first, goes_on = last.split()[0], joins[0] if joins else following, False
        if word == "ret":
            out.append(self.end(block, {}))
        elif word == "unreachable":
            out += [NEVER] if out[-1:] != [NEVER] else []
        elif word == "switch":
            lines, goes_on = self.switch(block, last, first)
            out += lines
        elif len(self.graph.successors[block]) == 1:
            lines, goes_on = self.edge(block, self.graph.successors[block][0], first, loop)
            out += lines
        else:
            lines, goes_on = self.fork(block, last, first, loop)
            out += lines
        if joins:
            lines, goes_on = self.rest(joins, following, loop)
            out += lines
        return out, goes_on

    def end(self, block, given):
        """The return of a block, where values that it joins are given."""
        kind, value = groups_of(rf"ret ({TYPE})(?: ({VALUE}))?$", self.function.blocks[block][-1])
        if kind == "void":
            return "return;"
        code, parts = self.function.made_by.get(bare(value), ""), {}
        while code.startswith("insertvalue "):
            _, whole, _, part, at = groups_of(INSERTED, code)
            parts.setdefault(int(at), given.get(bare(part), part))
            code = self.function.made_by.get(bare(whole), "")
        if parts:
            self.made[bare(value)] = (kind, [parts.get(at, "poison") for at in range(len(fields_of(kind)))])
        return f"return {self.operand(given.get(bare(value), value), kind, False, bare(value))};"

    def switch(self, block, last, following):
        kind, value, otherwise, cases = groups_of(rf"switch ({TYPE}) ({VALUE}), label (%{NAME}) \[ (.*) \]$", last)
        out, goes_on = [f"switch ({self.operand(value, kind, False)}) {{"], False
        ways = [
            (f"case {self.printer.constant(int(number), kind)}:", target)
            for number, target in re.findall(rf"{TYPE} (-?\d+), label (%{NAME})", cases)
        ]
        for head, target in [*ways, ("default:", otherwise)]:
            lines, is_on = self.edge(block, bare(target), following, (None, None))
            out += [head, *lines, *["break;"] * is_on]
            goes_on |= is_on
        return [*out, "}"], goes_on

    def fork(self, block, last, following, loop):
        test, one, other = groups_of(rf"br i1 ({VALUE}), label (%{NAME}), label (%{NAME})$", last)
        before = dict(self.waiting)
        is_so, after = self.condition(test, False), self.waiting
        self.waiting = before
        is_not = self.condition(test, True)
        self.waiting = dict(after)
        yes, is_on = self.edge(block, bare(one), following, loop)
        self.waiting = dict(after)
        no, is_on_otherwise = self.edge(block, bare(other), following, loop)
        goes_on = is_on or is_on_otherwise
        if not yes and is_on:
            return [f"if ({is_not}) {{", *no, "}"] if no else [], goes_on
        if not no and is_on_otherwise:
            return [f"if ({is_so}) {{", *yes, "}"], goes_on
        if not is_on and (is_on_otherwise or len(yes) <= len(no)):
            return [f"if ({is_so}) {{", *yes, "}", *no], goes_on
        if not is_on_otherwise:
            return [f"if ({is_not}) {{", *no, "}", *yes], goes_on
        return [f"if ({is_so}) {{", *yes, "} else {", *no, "}"], goes_on

    # The text.

    def head(self):
        """The function as it is declared."""
        marks = "ALIGNED NOINLINE" if "noinline" in self.function.attributes else "ALIGNED"
        marks = "COLD" if "cold" in self.function.attributes else marks
        marks = "ALWAYS_INLINE" if self.is_call_of_c or self.function.name.split("::<")[0].endswith(APART) else marks
        places = ", ".join(declared(kind, self.variable(it)) for kind, it in self.function.parameters)
        return f"static {marks} {declared(self.function.result, self.name)}({places or 'void'})"

    def declared_in(self, lines):
        """The lines with the declarations of all variables, each where it is set first or at the start of a block."""
        scopes, starts = Scopes(lines), defaultdict(list)
        for name, kind in ({self.variable(it): self.types[it] for it in self.variables} | self.copies_of).items():
            at, is_set = scopes.declaration(name)
            starts[at] += [] if is_set else [(name, kind)]
            lines[at] = declared(kind, lines[at]) if is_set else lines[at]
        behind = [[*self.declarations(starts[at], len(scopes.blocks[at]) if at >= 0 else -1)] for at in range(-1, len(lines))]
        return [*behind[0], *self.declared_rooms(), *(it for one, more in zip(lines, behind[1:]) for it in (one, *more))]

    @staticmethod
    def declarations(variables, depth):
        """The declarations of variables that aren't set, those of a type together."""
        by_type = defaultdict(list)
        for name, kind in variables:
            by_type[c_type(kind)].append(name)
        for kind, names in by_type.items():
            star = "*" if kind.endswith("*") else ""
            line = f"{kind.rstrip('*').rstrip()} {', '.join(star + it for it in names)};"
            yield from textwrap.wrap(line, WIDTH - len(STEP) * (depth + 2), subsequent_indent=STEP)

    def declared_rooms(self):
        for name, words in self.rooms.items():
            if words:
                yield f"uint64_t {name}_room[{words}];"
            yield f"char *{name} = (char *){f'{name}_room' if words else 'no_bytes'};"

    @staticmethod
    def indented(lines):
        depth = 1
        for line in lines:
            depth -= line[0] == "}"
            yield STEP * (depth - (line.startswith(("case ", "default:")) or line.endswith(":;"))) + line
            depth += line[-1] == "{"

    def text(self):
        lines, _ = self.tree(self.graph.order[0], None, (None, None))
        lines = lines[:-1] if lines[-1] == "return;" else lines
        lines = [f"{self.labels[it[1:]]}:;" if it[0] == "@" else it for it in lines if it[0] != "@" or it[1:] in self.used_labels]
        body = "\n".join(lines)
        unused = [self.variable(it) for _, it in self.function.parameters if not re.search(rf"\b{self.variable(it)}\b", body)]
        lines = [*(f"(void){it};" for it in unused), *self.declared_in(lines)]
        return "\n".join([*self.printer.origins.about(self.function.name), f"{self.head()} {{", *self.indented(lines), "}"])


def struct_in_c(kind, bodies):
    """A struct that functions return, and what makes one."""
    name, places = struct_name(kind), [declared(it, field) for it, field in zip(fields_of(kind), FIELDS)]
    lines = [f"struct {name} {{", *(f"{STEP}{it};" for it in places), "};"]
    # heap.c makes one of two words
    if f"made_{name}(" in bodies or name == "word_word":
        sets = [f"{STEP}made.{it} = {it};" for it in FIELDS[: len(places)]]
        lines += [
            f"static inline struct {name} made_{name}({', '.join(places)}) {{",
            f"{STEP}struct {name} made;",
            *sets,
            f"{STEP}return made;",
            "}",
        ]
    if f"empty_{name}(" in bodies:
        made = [f"{STEP}struct {name} made;", f"{STEP}memset(&made, 0, sizeof made);", f"{STEP}return made;"]
        lines += [f"static inline struct {name} empty_{name}(void) {{", *made, "}"]
    return "\n".join(lines)


def without_unused(text):
    """The text without helpers that nobody calls: a compiler would warn of each."""
    while True:
        helpers = {it[1]: it[0] for it in HELPER.finditer(text)}
        rest = HELPER.sub("", text)
        unused = [
            name
            for name in helpers
            if not re.search(rf"\b{name}\b", rest)
            and not any(re.search(rf"\b{name}\b", it) for other, it in helpers.items() if other != name)
        ]
        if not unused:
            return text
        text = HELPER.sub(lambda it: "" if it[1] in unused else it[0], text)


def behind_called(functions, calls):
    """The functions, each behind those that it calls, so that none has to be declared. `calls` has the callers of each."""
    found = {}

    def visit(it, above):
        for other in functions:
            if it.name in (caller for caller, _ in calls[other.name]):
                if other.name in above:
                    raise SystemExit(f"portable: {other.name} calls itself")
                visit(other, (*above, other.name))
        found.setdefault(it.name, it)

    for it in functions:
        visit(it, (it.name,))
    return list(found.values())


def c_of_module(module, head, sources, last=f"{PARTS}/calls.c"):
    """The whole text: `head` comes first, and the file `last` last. `sources` has the texts of Rattle's sources by path."""
    functions = functions_of(module)
    printer = Printer(functions, sources)
    for it in functions:
        printer.name(it.name)
    bodies = "\n\n".join(FunctionInC(printer, it).text() for it in behind_called(functions, printer.places.calls))
    for it in functions:
        if it.result[0] == "{":
            printer.struct(it.result)
    structs = "\n".join(struct_in_c(it, bodies) for it in printer.structs.values())
    parts = [head + text_of(f"{PARTS}/head.c"), structs, text_of(f"{PARTS}/heap.c"), *printer.layouts(), bodies, "", text_of(last)]
    return without_unused("\n".join(parts))
