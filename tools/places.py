"""Finds what values of a module of LLVM lead to, for tools/portable.py: a map, its slots, their pairs, or numbers of these.

It starts from what the sources say of parameters, and follows loads, stores, calls and what is computed of addresses. A
place is a type with a number of bytes behind its start; an address may be several, as the first field of a struct is at
the struct's start. Where ways meet, those places stay that hold on each. So a name is only given where it is always right."""
import re
from collections import defaultdict

from llvm_module import NAME, TYPE, VALUE, bare, groups_of, parted

MAP = "IntMap<u64, u64, Global>"
# C's words lead to a map, though they are declared as addresses of bytes
WORDS = ("Handle", "Word")
# the calls that return a block of memory
BLOCKS = ("rattle_alloc", "rattle_realloc")
# the first sign of the type of a value that is one of many
ROW = "["
# what a type is called, if not by its own name, and what an address of it is called, if not that
TITLES = {"(Stored": "pair"}
CALLED = {"int_map": "map"}
STRUCTS = ("int_map", "slot", "node", "pair")
# how a number is called that chooses one of many
NUMBERS_OF = {"slot": "index", "node": "at"}
MOVED = re.compile(rf"getelementptr (?:(?:inbounds|nuw|nusw) )*i8, ptr ({VALUE}), i64 ({VALUE})$")
SAME = re.compile(rf"(?:freeze|inttoptr|ptrtoint|ptrtoaddr) {TYPE} ({VALUE})(?: to {TYPE})?$")
LOADED = re.compile(rf"load {TYPE}, ptr ({VALUE})(?:, align \d+)?$")
CHOSEN = re.compile(rf"select i1 {VALUE}, {TYPE} ({VALUE}), {TYPE} ({VALUE})$")
TIMES = re.compile(rf"(mul|shl|and) (?:(?:nuw|nsw) )*i64 {VALUE}, (-?\d+)$")
PART = re.compile(rf"extractvalue {TYPE} ({VALUE}), (\d+)$")
JOINED = re.compile(rf"or disjoint i64 ({VALUE}), {VALUE}$")
NEXT = re.compile(rf"add (?:(?:nuw|nsw) )*i64 ({VALUE}), 1$")
HASHED = re.compile(rf"mul i64 {VALUE}, -7046029254386353067$")
MASKED = re.compile(rf"and i64 ({VALUE}), ({VALUE})$")
COPY = re.compile(rf"(?:tail )?call void @llvm\.mem(?:cpy|move)\S*\(.*?(%{NAME}), ptr .*?(%{NAME}), i64 (\d+), i1 false\)")
CALL = re.compile(rf"(?:tail |musttail |notail )?call (?:fastcc )?.*?@({NAME})\((.*)\)")
STORED = re.compile(rf"store {TYPE} ({VALUE}), ptr ({VALUE})(?:, align \d+)?$")


def meet(one, other):
    """The places that hold on both ways; None is a way of which nothing is known yet."""
    if one is None or other is None:
        return other if one is None else one
    return tuple(it for it in one if it in other)


class Places:
    """The places of all values of some functions."""

    def __init__(self, functions, origins):
        self.layouts = origins.layouts
        self.functions = {it.name: it for it in functions}
        self.found, self.returned = {}, {}
        self.parameters = {it.name: self.declared(it, origins.parameters(it)) for it in functions}
        self.joined = {(it.name, value): cases for it in functions for every in it.joined.values() for value, _, cases in every}
        self.calls, self.copies = {it.name: [] for it in functions}, defaultdict(list)
        for function in functions:
            for line in (line for lines in function.blocks.values() for line in lines):
                called, copied = CALL.match(line.split(" = ", 1)[-1]), COPY.match(line)
                if copied:
                    self.copies[function.name, bare(copied[1])].append((copied[2], int(copied[3])))
                if called and called[1].strip('"') in self.calls:
                    self.calls[called[1].strip('"')].append((function.name, [it.split()[-1] for it in parted(called[2])]))
        self.made = self.made_blocks()
        self.given, before = {}, None
        # what a call hands on is taken from the round before, so that each round only takes places away
        while before != (self.given, self.returned, self.made):
            before = (self.given, self.returned, dict(self.made))
            self.found, self.returned = {}, {}
            while any([self.is_refined(it) for it in functions]):
                pass
            places = ((it, value, at) for it in functions for at, (_, value) in enumerate(it.parameters))
            self.given = {(it.name, value): self.of_calls(it, at) for it, value, at in places}

    # Where it starts.

    def declared(self, function, signature):
        """The name and the places of each parameter, as far as the sources tell."""
        known = {f"a{at}": it for at, it in enumerate(signature)}
        found = {value: known[value] for _, value in function.parameters if value in known}
        # the sources and the module have to agree on which are addresses
        if any((kind == "ptr") != (found[value][1][0] in "&*") for kind, value in function.parameters if value in found):
            return {}
        return {value: (name, self.leads_to(kind) if kind[0] in "&*" else ()) for value, (name, kind) in found.items()}

    def leads_to(self, kind):
        """What an address of this type leads to."""
        inner = re.sub(r"^(?:&(?:'\w+ )?(?:mut )?|\*(?:mut|const) )", "", kind).strip("[]")
        if inner in WORDS:
            return ((inner, 0),)
        if not self.layouts.is_known(inner):
            return ()
        return self.in_row(inner, 0) if kind[0] == "*" or "[" in kind else tuple(self.layouts.views(inner, 0))

    def in_row(self, kind, at):
        """The places of one of many values of this type, which lie one behind the other."""
        at %= self.layouts.size(kind)
        return ((ROW + kind, at), *self.layouts.views(kind, at))

    def made_blocks(self):
        """Values of which only their uses tell what they lead to: blocks of memory that were just made."""
        found = {}
        for function in self.functions.values():
            for value, line in function.made_by.items():
                called = CALL.match(line)
                if called and called[1] in BLOCKS:
                    found[function.name, value] = None
        return found

    # One round.

    def is_refined(self, function):
        """Finds anew what the values of a function lead to, and tells whether anything was found."""
        name, before = function.name, dict(self.found)
        for _, value in function.parameters:
            self.put(function, value, self.of_parameter(function, value))
        for block in function.graph.order:
            for value, _, cases in function.joined[block]:
                found = None
                for it in cases.values():
                    found = meet(found, self.of(function, it))
                self.put(function, value, found)
            for line in function.blocks[block]:
                value, _, code = line.rpartition(" = ") if line.startswith("%") else ("", "", line)
                if value and not code.startswith("phi "):
                    self.put(function, bare(value), self.of_code(function, bare(value), code))
                stored = STORED.match(code)
                if stored:
                    self.tell_block(function, stored[1], self.behind(self.of(function, stored[2])))
                if code.startswith("ret {"):
                    parts, known = self.parts_of(function, code.split()[-1]), self.returned.get(name, {})
                    self.returned[name] = {it: meet(parts.get(it), known.get(it)) for it in {*parts, *known}}
        return before != self.found

    def put(self, function, value, found):
        if found is not None:
            self.found[function.name, value] = found

    def of(self, function, text):
        """The places of an operand; None of a constant, which is no place, and of what isn't known yet."""
        return self.found.get((function.name, bare(text))) if text[0] == "%" else None

    def of_parameter(self, function, value):
        return self.given.get((function.name, value)) or self.parameters[function.name].get(value, (None, ()))[1]

    def of_calls(self, function, at):
        """What all calls of a function hand to one of its parameters."""
        found = None
        for caller, given in self.calls[function.name]:
            found = meet(found, self.of(self.functions[caller], given[at]))
        return found

    def of_code(self, function, value, code):
        same, chosen, part = SAME.match(code), CHOSEN.match(code), PART.match(code)
        if code.startswith("alloca [0 x"):
            return None
        if code.startswith("alloca "):
            return self.of_room(function, value)
        if same:
            return self.of(function, same[1])
        if chosen:
            return meet(self.of(function, chosen[1]), self.of(function, chosen[2]))
        if code.startswith("getelementptr "):
            return self.moved(function, code)
        if code.startswith("load "):
            return self.behind(self.of(function, groups_of(LOADED, code)[0]))
        if part:
            return self.of_part(function, bare(part[1]), int(part[2]))
        return ()

    def of_room(self, function, value):
        """What a room of a function leads to: what the sources say of calls that take it, and what is copied there."""
        found = None
        for called, calls in ((self.functions[name], its) for name, its in self.calls.items()):
            for given in (given for caller, given in calls if caller == function.name and f"%{value}" in given):
                found = meet(found, self.of_parameter(called, called.parameters[given.index(f"%{value}")][1]) or None)
        for source, size in self.copies.get((function.name, value), ()):
            kind = self.kind_of(function, source, size)
            found = meet(found, tuple(self.layouts.views(kind, 0)) if kind else None)
        return found or ()

    def kind_of(self, function, address, size):
        """The type of so many bytes that starts at an address, or nothing."""
        there = (kind for kind, at in self.of(function, address) or () if at == 0 and kind[0] != ROW and kind not in WORDS)
        return next((it for it in there if self.layouts.size(it) == size and self.layouts.declared(it)), None)

    def moved(self, function, code):
        base, by = groups_of(MOVED, code)
        places = self.of(function, base)
        if not places:
            return places
        if re.match(r"-?\d+$", by):
            return self.shifted(places, int(by))
        kind = places[0][0]
        return places if kind[0] == ROW and self.stride(function, by) == self.layouts.size(kind[1:]) else ()

    def shifted(self, places, by):
        """The places that lie so many bytes behind these."""
        found = []
        for kind, at in places:
            if kind[0] == ROW:
                found += self.in_row(kind[1:], at + by)
            elif kind not in WORDS and 0 <= at + by < self.layouts.size(kind):
                found += self.layouts.views(kind, at + by)
        return tuple(dict.fromkeys(found))

    def stride(self, function, by, seen=()):
        """Of what a number is a multiple, as far as the last step tells."""
        found = TIMES.match(function.made_by.get(bare(by), ""))
        if found:
            number = int(found[2])
            return number if found[1] == "mul" else 1 << number if found[1] == "shl" else number & -number
        cases = {} if bare(by) in seen else self.joined.get((function.name, bare(by)), {})
        strides = {self.stride(function, it, (*seen, bare(by))) for it in cases.values() if it != "0"}
        return strides.pop() if len(strides) == 1 else None

    def behind(self, places):
        """What the address leads to that lies at a place."""
        for kind, at in places or ():
            if kind in WORDS:
                return tuple(self.layouts.views(MAP, 0))
            its = self.field((kind, at))
            if its and its[1][0] in "*&":
                return self.leads_to(its[1])
        return places if places is None else ()

    def field(self, place):
        """The name and the type of the field at a place, if it is the start of one."""
        kind, at = place
        return None if kind[0] == ROW or kind in WORDS else self.layouts.fields(kind).get(at)

    def parts_of(self, function, value):
        """What the fields of a returned struct lead to."""
        found, code = {}, function.made_by.get(bare(value), "")
        while code.startswith("insertvalue"):
            whole, part, at = re.match(rf"insertvalue {TYPE} ({VALUE}), {TYPE} ({VALUE}), (\d+)$", code).groups()
            found.setdefault(int(at), self.of(function, part))
            code = function.made_by.get(bare(whole), "")
        return found

    def of_part(self, function, whole, at):
        called = CALL.match(function.made_by.get(whole, ""))
        if (function.name, whole) in self.made:
            return self.made[function.name, whole] if at == 1 else ()
        if called and called[1].strip('"') in self.functions:
            return self.returned.get(called[1].strip('"'), {}).get(at)
        return ()

    def tell_block(self, function, value, places):
        """Notes what a block is for: its address is stored where such an address lies."""
        code = function.made_by.get(bare(value), "")
        while SAME.match(code):
            value = SAME.match(code)[1]
            code = function.made_by.get(bare(value), "")
        part = PART.match(code)
        if places and part and (function.name, bare(part[1])) in self.made:
            self.made[function.name, bare(part[1])] = meet(self.made[function.name, bare(part[1])], places)

    def is_for_a_map(self, function, value):
        """Whether a call returns a block in which a map is made."""
        return (MAP, 0) in (self.made.get((function.name, value)) or ())

    # Names.

    def field_name(self, function, base, by):
        """The name of the field that lies so far behind an address, with the type that has it; None if nobody knows."""
        for kind, at in self.of(function, base) or ():
            field = self.field((kind, by)) if at == 0 else None
            if field and len(self.layouts.fields(kind)) > 1:
                return f"{title(kind)}_{field[0] or 'address'}".upper(), kind
        return None

    def stride_name(self, function, value):
        """The type of which a number skips several, as it is added to an address."""
        for user, _ in function.uses.get(value, ()):
            moved = MOVED.match(function.made_by.get(user, ""))
            places = self.of(function, moved[1]) if moved and bare(moved[2]) == value else self.made.get((function.name, user))
            kind = (places or [("", 0)])[0][0]
            if kind[:1] == ROW and self.stride(function, f"%{value}") == self.layouts.size(kind[1:]):
                return kind[1:]
        return None

    def name(self, function, value, seen=()):
        """What a value is called, if its place or its making tells."""
        code, places = function.made_by.get(value, ""), self.of(function, f"%{value}") or ()
        given, _ = self.parameters[function.name].get(value, (None, ()))
        if given not in (None, "self"):
            return given
        found = (
            self.field_read(function, code)
            or self.name_of_cases(function, value, (*seen, value))
            or self.name_of_place(places)
            or self.name_of_making(function, code)
        )
        # a number may be an address
        is_address = found and places and re.match("load i64|ptrtoint", code)
        return f"{found}_address" if is_address else found or self.number_name(function, value)

    def name_of_cases(self, function, value, seen):
        """The one name of all values that a value may be, constants aside."""
        cases = [bare(it) for it in self.joined.get((function.name, value), {}).values() if it[0] == "%"]
        names = {self.name(function, it, seen) for it in cases if it not in seen}
        return None if len(names) != 1 or self.number_name(function, value) else names.pop()

    def field_read(self, function, code):
        """The name of the field that is read, if one is."""
        loaded = LOADED.match(code)
        for place in (self.of(function, loaded[1]) or ()) if loaded else ():
            if place[0] == f"{ROW}u64":
                return "bits"
            if self.field(place):
                return self.field(place)[0] or "address"
        return None

    def name_of_place(self, places):
        for kind, at in places:
            if at == 0 and (title(kind) in STRUCTS or (kind, at) == places[0] and title(kind) == "vec"):
                return CALLED.get(title(kind), title(kind))
        field = self.field(places[0]) if places else None
        return f"{field[0] or 'address'}_at" if field else None

    @staticmethod
    def name_of_making(function, code):
        if code.startswith("alloca [0 x"):
            return "dangling"
        masked, called = MASKED.match(code), CALL.match(code)
        if masked and any(HASHED.match(function.made_by.get(bare(it), "")) for it in masked.groups()):
            return "index"
        if called and called[1] in BLOCKS:
            return "block"
        if JOINED.match(code) and re.match("shl .*, 32$", function.made_by.get(bare(JOINED.match(code)[1]), "")):
            return "link"
        return "hash" if HASHED.match(code) else None

    def number_name(self, function, value):
        """What a number is called that chooses one of many values."""
        following = NEXT.match(function.made_by.get(value, ""))
        if following and self.number_name(function, bare(following[1])):
            return f"next_{self.number_name(function, bare(following[1]))}"
        for user, _ in function.uses.get(value, ()):
            kind = self.stride_name(function, user) if user else None
            if kind and title(kind) in NUMBERS_OF:
                return NUMBERS_OF[title(kind)]
        return None


def title(kind):
    """What a type is called."""
    head, _, given = kind.lstrip(ROW).partition("<")
    if head == "Result":
        return f"made_{title(given)}"
    head = head.split(",")[0]
    return TITLES.get(head) or re.sub(r"(?<=[a-z])(?=[A-Z])", "_", head).lower()
