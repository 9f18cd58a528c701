"""What rows of JSON, of sparse vectors and of sets answer by plain lists."""
import json
import re

from lists import (
    GREATEST,
    NoMemory,
    PlainList,
    TooLarge,
    Unknown,
    above_text,
    armed_answer,
    brackets,
    keys,
    made,
    memory_of,
    refused_text,
    requests_of,
    sum_of,
    truth,
)

GREATEST_KEY = 2**64 - 1
LEAST_VALUE, GREATEST_VALUE = -(2**63), 2**63 - 1
# the bytes of a member, which has no value
MEMBER = 8


class Float:
    """A number that is neither a whole one of 64 bits without a sign nor one with it."""

    def __init__(self, _):
        pass


def number_of(text):
    number = int(text)
    return number if LEAST_VALUE <= number <= GREATEST_KEY else Float(text)


def holds_float(value):
    if isinstance(value, dict):
        return holds_float(list(value.values()))
    if isinstance(value, list):
        return any(map(holds_float, value))
    return isinstance(value, Float)


def is_key(text):
    return re.fullmatch("0|[1-9][0-9]*", text, re.ASCII) and int(text) <= GREATEST_KEY


def of_texts(members):
    """Members in the byte order of their texts. The last of a text stays."""
    return sorted(members.items(), key=lambda member: member[0].encode())


def written(members):
    """The text of an object of keys, or why there is none."""
    if holds_float(members):
        return "HoldsFloat"
    return json.dumps(members, separators=(",", ":"), ensure_ascii=False, sort_keys=True)


def read(value):
    """What a value is read as."""
    if not isinstance(value, dict):
        return "NotAnObject"
    if not all(map(is_key, value)):
        return "BadKey"
    if holds_float(value):
        return "HoldsFloat"
    one = list_of(value)
    keys = "".join(f" {key}" for key, _ in one.walk())
    return f"{one.slots} slots, keys{keys}, {written(dict(of_texts(value)))}"


def list_of(members):
    """The list that a map of these members is read as."""
    one = made(f"with_capacity {len(members)}")
    for text, member in of_texts(members):
        one.insert(int(text), member, False)
    return one


def many_members(count):
    """What an object of so many members is read as, and whether it is written again."""
    members = {str(7 * place): 10**12 + place for place in range(count)}
    one = list_of(members)
    pairs = one.walk()
    written = "as read" if {str(key): value for key, value in pairs} == members else "otherwise"
    return f"{one.slots} slots, {sum_of(pairs)}, written {written}"


class Json:
    """Texts, none of which is kept."""

    def memory(self):
        return memory_of([])

    def answer(self, call):
        """The answer to the call of a row of JSON."""
        name, _, text = call.partition(" ")
        if name == "members":
            return many_members(int(text))
        try:
            value = json.loads(text if name == "write" else call, parse_int=number_of, parse_float=Float)
        except ValueError:
            return "no JSON"
        return written(value) if name == "write" else read(value)


class Vectors:
    """Two sparse vectors as plain lists: the one that calls are made on, and another."""

    def __init__(self):
        self.vectors = [PlainList(), PlainList()]
        self.armed = 0

    def memory(self):
        return memory_of(self.vectors)

    def answer(self, call):
        """The answer to the call of a row of sparse vectors."""
        name, *words = call.split(" ")
        if name == "refused":
            return refused_text(*self.calling(call.removeprefix("refused ")))
        if name == "above":
            return above_text(int(words[0]), *self.calling(" ".join(words[1:])))
        if name == "arm":
            self.armed = int(words[0])
            return "done"
        if name == "other":
            self.vectors.reverse()
            return "done"
        if name == "new":
            self.vectors[0] = PlainList()
            return "done"
        if name in ("dot", "dot_self"):
            return product(self.vectors[0], self.vectors[name == "dot"])
        if name == "equal":
            return truth(self.vectors[0].bindings() == self.vectors[1].bindings())
        found, self.armed = armed_answer(vector_answer, self.vectors[0], call, self.armed)
        return found

    def calling(self, call):
        """The bytes of each request of a call, and what gives its answer where one is refused and where none
        is."""
        requests = PlainList().asked if call == "new" else requests_of(vector_answer, self.vectors[0], call)
        return requests, lambda refuses: "Memory" if refuses else self.answer(call)


def product(one, other):
    """The sum of products in the walk of the one with fewer places; `none` where a partial sum is out of
    the range of 128 bits."""
    fewer, more = (other, one) if len(other.pairs) < len(one.pairs) else (one, other)
    total = 0
    for place, value in fewer.walk():
        total += value * (more.get(place) or 0)
        if not -(2**127) <= total < 2**127:
            return "none"
    return str(total)


def put(it, place, value, refuses):
    """Sets a value, of which 0 is not stored. Answers the value before."""
    old = it.insert(place, value, refuses) if value else it.remove(place)
    return old or 0


def add(it, place, more, refuses):
    total = (it.get(place) or 0) + more
    if not LEAST_VALUE <= total <= GREATEST_VALUE:
        return "Overflow"
    put(it, place, total, refuses)
    return str(total)


def each_below(it, count, call):
    for place in range(count):
        call(it, place)
    return "done"


def vector_answer(it, call, refuses):
    name, *words = call.split(" ")
    numbers = [int(word) for word in words]
    called = VECTOR_CALLS.get((name, len(numbers)))
    if not called:
        raise Unknown(call)
    try:
        return called(it, refuses, *numbers)
    except NoMemory:
        return "Memory"
    except TooLarge:
        return "TooLarge"


def pairs_text(it, before, between, after):
    return before + between.join(f"{place}: {value}" for place, value in it.walk()) + after


VECTOR_CALLS = {
    ("set", 2): lambda it, refuses, place, value: str(put(it, place, value, refuses)),
    ("add", 2): lambda it, refuses, place, more: add(it, place, more, refuses),
    ("set_below", 2): lambda it, _, count, value: each_below(it, count, lambda it, place: put(it, place, value, False)),
    ("add_below", 2): lambda it, _, count, more: each_below(it, count, lambda it, place: add(it, place, more, False)),
    ("reserve_insertions", 1): lambda it, refuses, n: it.reserve_pairs(n, refuses, n) or "done",
    ("get", 1): lambda it, _, place: str(it.get(place) or 0),
    ("len", 0): lambda it, _: str(len(it.pairs)),
    ("is_empty", 0): lambda it, _: truth(not it.pairs),
    ("show", 0): lambda it, _: pairs_text(it, "{", ", ", "}"),
    ("iter", 0): lambda it, _: pairs_text(it, "", " ", ""),
}


class Sets:
    """Two sets as plain lists of pairs with the value 0: the one that calls are made on, and another."""

    def __init__(self):
        self.set, self.other = PlainList(pair=MEMBER), PlainList(pair=MEMBER)
        self.armed = 0

    def memory(self):
        return memory_of([self.set, self.other])

    @property
    def asked(self):
        return self.set.asked + self.other.asked

    @asked.setter
    def asked(self, requests):
        self.set.asked, self.other.asked = requests, []

    def answer(self, call):
        """The answer to the call of a row of sets."""
        name, *words = call.split(" ")
        if name == "refused":
            return refused_text(*self.calling(call.removeprefix("refused ")))
        if name == "above":
            return above_text(int(words[0]), *self.calling(" ".join(words[1:])))
        if name == "arm":
            self.armed = int(words[0])
            return "done"
        if name == "left":
            return str(self.armed)
        if name in EACH:
            return self.insert_each(name, EACH[name](self, [int(word) for word in words]))
        found, self.armed = armed_answer(set_answer, self, call, self.armed)
        return found

    def calling(self, call):
        """The bytes of each request of a call, and what gives its answer where one is refused and where none
        is."""
        requests = requests_of(lambda it, call, _: it.answer(call), self, call)
        return requests, lambda refuses: "refused: memory" if refuses else self.answer(call)

    def insert_each(self, name, members):
        """Inserts keys in turn. The first refusal ends it, and the keys before that one stay."""
        new = 0
        for place, key in enumerate(members):
            found, self.armed = armed_answer(set_answer, self, f"insert {key}", self.armed)
            if found.startswith("refused"):
                return found if name == "insert_many" else f"stopped at {key} after {place}: {found.split(': ')[1]}"
            new += found == "true"
        return f"{new} new" if name == "insert_many" else "done"

    def make(self, slots, members, refuses):
        """Puts a set with so many slots at first, and with these members, in the place of the one."""
        return self.put_made(f"with_capacity {slots}", members, refuses)

    def put_made(self, call, members, refuses):
        """The same of a set that a call makes."""
        one = made(call, MEMBER)
        if refuses or not one:
            raise NoMemory
        for key in members:
            one.insert_checked(key, 0, False)
        self.set = one
        return "done"

    def make_of_array(self, members, refuses):
        """The same of an array, whose keys lie in a vector first."""
        self.make(len(members), members, refuses)
        self.set.asked.insert(0, MEMBER * len(members)) if members else None
        return "done"

    def clone(self, refuses):
        if refuses:
            raise NoMemory
        self.other = self.set.cloned()
        self.other.asked = self.set.requests_of_a_clone()
        return "done"

    def swap(self):
        self.set, self.other = self.other, self.set
        return "done"


def members_of(one):
    return [key for key, _ in one.walk()]


def difference(one, other):
    return [key for key in members_of(one) if key not in other.place_of]


def intersection(one, other):
    fewer, more = (other, one) if len(other.pairs) < len(one.pairs) else (one, other)
    return [key for key in members_of(fewer) if key in more.place_of]


def union(one, other):
    more, fewer = (other, one) if len(one.pairs) < len(other.pairs) else (one, other)
    return members_of(more) + difference(fewer, more)


def symmetric_difference(one, other):
    return difference(one, other) + difference(other, one)


def retain_alternate(one):
    kept = set(members_of(one)[::2])
    asked = len(one.pairs)
    one.retain(lambda key, _: key in kept)
    return str(asked)


def extract_odd(one, count):
    picked = [key for key in members_of(one) if key % 2][:count]
    one.retain(lambda key, _: key not in picked)
    return brackets(picked)


def set_answer(it, call, refuses):
    name, *words = call.split(" ")
    numbers = [int(word) for word in words]
    called = SET_CALLS.get((name, len(numbers))) or SET_CALLS.get((name, None))
    if not called:
        raise Unknown(call)
    try:
        return called(it, refuses, *numbers)
    except TooLarge:
        return "refused: too large"
    except NoMemory:
        return "refused: memory"


# the calls that insert keys in turn, and which
EACH = {
    "extend": lambda it, numbers: numbers,
    "extend_many": lambda it, numbers: keys(*numbers),
    "extend_other": lambda it, _: members_of(it.other),
    "extend_from_set": lambda it, _: members_of(it.other),
    "insert_many": lambda it, numbers: keys(*numbers),
}

# the members that iterators over one or two sets give
WALKS = {
    "iter": lambda one, _: members_of(one),
    "difference": difference,
    "intersection": intersection,
    "union": union,
    "symmetric_difference": symmetric_difference,
}

# each other call by its name and how many numbers follow, None for any number of them
SET_CALLS = {
    ("new", 0): lambda it, refuses: it.make(4, [], refuses),
    ("with_capacity", 1): lambda it, refuses, slots: it.make(slots, [], refuses),
    ("with_room_for", 1): lambda it, refuses, n: it.put_made(f"with_room_for {n}", [], refuses),
    ("from_iter", None): lambda it, refuses, *numbers: it.make(len(numbers), numbers, refuses),
    ("from_iter_many", 3): lambda it, refuses, *numbers: it.make(numbers[1], keys(*numbers), refuses),
    ("from_array", None): lambda it, refuses, *numbers: it.make_of_array(numbers, refuses),
    ("from_array_many", 3): lambda it, refuses, *numbers: it.make_of_array(keys(*numbers), refuses),
    ("from_union", 0): lambda it, refuses: it.make(0, union(it.set, it.other), refuses),
    ("clone", 0): lambda it, refuses: it.clone(refuses),
    ("other", 0): lambda it, _: it.swap(),
    ("drain", 1): lambda it, _, n: brackets(k for k, _ in it.set.drain(n)),
    ("drain_forget", 1): lambda it, _, n: brackets(k for k, _ in it.set.drain(n)),
    ("extract_odd", 1): lambda it, _, n: extract_odd(it.set, n),
    ("extract_forget", 1): lambda it, _, n: extract_odd(it.set, n),
    ("into_iter", 1): lambda it, refuses, n: brackets(k for k, _ in it.set.into_walk(refuses)[:n]),
    ("insert", 1): lambda it, refuses, k: truth(it.set.insert_checked(k, 0, refuses)),
    ("remove", 1): lambda it, _, k: truth(it.set.remove(k) is not None),
    ("contains", 1): lambda it, _, k: truth(k in it.set.place_of),
    ("reserve", 1): lambda it, refuses, n: it.set.reserve(n, refuses) or "done",
    ("reserve_members", 1): lambda it, refuses, n: it.set.reserve_pairs(n, refuses) or "done",
    ("reserve_insertions", 1): lambda it, refuses, n: it.set.reserve_pairs(n, refuses, n) or "done",
    ("clear", 0): lambda it, _: it.set.clear() or "done",
    ("retain_odd", 0): lambda it, _: it.set.retain(lambda key, _: key % 2) or "done",
    ("retain_above", 1): lambda it, _, n: it.set.retain(lambda key, _: key > n) or "done",
    ("retain_alternate", 0): lambda it, _: retain_alternate(it.set),
    ("len", 0): lambda it, _: str(len(it.set.pairs)),
    ("is_empty", 0): lambda it, _: truth(not it.set.pairs),
    ("capacity", 0): lambda it, _: str(it.set.slots),
    ("state", 0): lambda it, _: f"{brackets(members_of(it.set))}, {it.set.slots} slots",
    ("debug", 0): lambda it, _: "{" + ", ".join(map(str, members_of(it.set))) + "}",
    ("equal", 0): lambda it, _: " ".join([truth(it.set.bindings() == it.other.bindings())] * 2),
    ("is_subset", 0): lambda it, _: truth(not difference(it.set, it.other)),
    ("is_superset", 0): lambda it, _: truth(not difference(it.other, it.set)),
    ("is_disjoint", 0): lambda it, _: truth(not intersection(it.set, it.other)),
    ("contains_many", 3): lambda it, _, *numbers: str(sum(k in it.set.place_of for k in keys(*numbers))),
    ("remove_many", 3): lambda it, _, *numbers: str(sum(it.set.remove(k) is not None for k in keys(*numbers))),
}
for _name, _walk in WALKS.items():
    SET_CALLS |= {
        (f"to_{_name}", 0): lambda it, refuses, walk=_walk: it.make(4, walk(it.set, it.other), refuses),
        (_name, 0): lambda it, _, walk=_walk: brackets(walk(it.set, it.other)),
        (f"{_name}_debug", 0): lambda it, _, walk=_walk: brackets(walk(it.set, it.other)),
    }
