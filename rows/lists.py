"""Calls and commands on plain lists of pairs, and what they answer. A list has the bytes of each request for
memory that a map makes, in their order, and so knows which call a refused one belongs to, and how much the
call got before it. It keeps the room of its nodes, and so knows how many bytes a map has."""
import copy
import itertools

MULTIPLIER = 11400714819323198549
GREATEST = 2**64 - 1
GREATEST_CAPACITY = 2**63
# how many nodes there is at least room for where an insertion asks for nodes
LEAST_ROOM = 4
# the bytes of a word, and of a pair of two numbers
WORD, PAIR = 8, 16


class TooLarge(Exception):
    """The wanted capacity or length is out of range."""


class NoMemory(Exception):
    """The call is taken as refused for want of memory."""


class PlainList:
    """Pairs by their places in a list that no growth touches, a number of slots, and a load factor. A pair
    takes `pair` bytes. And the bytes of each request for memory that a map would have made, `asked`: those of
    a new one, and those of its calls since then, or since it was last emptied.

    A slot has room for its first pair. The further pairs of all slots have a node each, and there is room for
    `room` nodes. An insertion, a growth and a clone ask for nodes. No call but a growth gives any back."""

    def __init__(self, slots=4, pair=PAIR):
        self.pairs = {}
        self.place_of = {}
        self.next_place = 0
        self.factor = 909
        self.pair = pair
        self.room = 0
        self.set_slots(slots)
        self.asked = self.blocks()

    def slot_of(self, key):
        return key * MULTIPLIER % self.slots

    def sort_into_slots(self):
        self.classes = {}
        for place, (key, _) in self.pairs.items():
            self.classes.setdefault(self.slot_of(key), []).append(place)

    def set_slots(self, slots):
        self.slots = slots
        self.sort_into_slots()

    def further(self):
        """How many pairs aren't the first ones of their slots."""
        return len(self.pairs) - len(self.classes)

    def grow(self, slots, more=0):
        """The slots are asked for, their words of bits, and nodes for as many further pairs as there were before,
        and for so many more."""
        self.room = self.further() + more
        self.set_slots(slots)
        self.asked += self.blocks()

    def grow_with(self, slots, key, value):
        """Grows and adds a pair. Where one of its slot goes to the same new slot, there is room for one node more."""
        others = self.classes.get(self.slot_of(key), [])
        stays = any((self.pairs[place][0] - key) % slots == 0 for place in others)
        self.grow(slots, 1 if stays else 0)
        self.append(key, value)

    def needs_room(self, key):
        """Whether the pair of a new key needs a node, and all nodes have a pair."""
        return self.slot_of(key) in self.classes and self.further() == self.room

    def make_room(self, key):
        """Twice as many nodes are asked for where that is so."""
        if self.needs_room(key):
            self.room = max(2 * self.room, LEAST_ROOM)
            self.asked += self.nodes()

    def get(self, key):
        return self.pairs[self.place_of[key]][1] if key in self.place_of else None

    def remove(self, key):
        """The last pair of the key's class goes to the place of the pair that is taken out."""
        if key not in self.place_of:
            return None
        place, value = self.place_of.pop(key), self.get_at(key)
        slot = self.slot_of(key)
        last = self.classes[slot].pop()
        if not self.classes[slot]:
            del self.classes[slot]
        if last != place:
            self.pairs[place] = self.pairs[last]
            self.place_of[self.pairs[place][0]] = place
        del self.pairs[last]
        return value

    def write(self, key, value):
        """The value gets the place of the one before. None, and nothing, where the key has none."""
        old = self.get(key)
        if old is not None:
            self.pairs[self.place_of[key]] = (key, value)
        return old

    def retain(self, keeps):
        """Each pair is asked about once, in the order of the walk. Those that stay keep their places."""
        kept = [(key, value) for key, value in self.walk() if keeps(key, value)]
        self.place_of = {key: self.place_of[key] for key, _ in kept}
        self.pairs = {place: self.pairs[place] for place in sorted(self.place_of.values())}
        self.sort_into_slots()

    def drain(self, count):
        """Takes so many pairs out of the front of the walk, or all where there are fewer."""
        return self.cut(0, count)

    def cut(self, passed, count):
        """Takes so many pairs out, behind so many at the front of the walk."""
        taken = self.walk()[passed : passed + count]
        keys = {key for key, _ in taken}
        self.retain(lambda key, _: key not in keys)
        return taken

    def extract(self, more, count):
        """Each pair in the order of the walk is asked about, and `more` is added to its value. Takes out
        so many of those whose value is then a multiple of 3, and asks about none behind the last."""
        taken = []
        for key, value in self.walk():
            if len(taken) == count:
                break
            self.write(key, (value + more) & GREATEST)
            if self.get(key) % 3 == 0:
                taken.append((key, self.get(key)))
        keys = {key for key, _ in taken}
        self.retain(lambda key, _: key not in keys)
        return taken

    def add_places(self, count):
        """Adds one to the first value, two to the second, and so on, of so many pairs, or of all where
        there are fewer. Answers these pairs then."""
        keys = [key for key, _ in self.walk()[:count]]
        for place, key in enumerate(keys):
            self.write(key, (self.get(key) + place + 1) & GREATEST)
        return self.walk()[:count]

    def into_walk(self, refuses):
        """The list is then empty, and as a new one, which is asked for first."""
        if refuses:
            raise NoMemory
        taken, asked = self.walk(), self.asked
        self.__init__(pair=self.pair)
        self.asked = asked + self.asked
        return taken

    def cloned(self):
        """The same list, with room for as many nodes as it has further pairs, and for no more."""
        made = copy.deepcopy(self)
        made.room = self.further()
        return made

    def requests_of_a_clone(self):
        """The bytes of all that the clone has."""
        return self.cloned().blocks()

    def bindings(self):
        return dict(self.pairs.values())

    def get_at(self, key):
        return next(v for k, v in [self.pairs[p] for p in self.classes[self.slot_of(key)]] if k == key)

    def append(self, key, value):
        place, self.next_place = self.next_place, self.next_place + 1
        self.pairs[place] = (key, value)
        self.place_of[key] = place
        self.classes.setdefault(self.slot_of(key), []).append(place)

    def wanted(self, length, factor):
        slots = self.slots
        while length * 1000 // slots > factor:
            slots *= 2
        if slots > GREATEST_CAPACITY:
            raise TooLarge
        return slots

    def insert(self, key, value, refuses):
        if key in self.place_of:
            old = self.remove(key)
            self.append(key, value)
            return old
        self.add(key, value, refuses)
        return None

    def insert_checked(self, key, value, refuses):
        """A bound key keeps its value and its place."""
        is_new = key not in self.place_of
        if is_new:
            self.add(key, value, refuses)
        return is_new

    def entry_insert(self, key, value, refuses):
        """A bound key gets the value in its place. Answers the value before."""
        old = self.write(key, value)
        if old is None:
            self.add(key, value, refuses)
        return old

    def or_insert(self, key, value, refuses):
        """Answers the value that the key then has."""
        self.insert_checked(key, value, refuses)
        return self.get(key)

    def add_to(self, key, more, refuses):
        """Adds to the value of the key, which is 0 where it has none. Answers the sum."""
        self.write(key, (self.or_insert(key, 0, refuses) + more) & GREATEST)
        return self.get(key)

    def and_modify(self, key, more, refuses):
        """Adds to the value of a bound key, and binds another one. Answers the value then."""
        return self.add_to(key, more, refuses) if key in self.place_of else self.or_insert(key, more, refuses)

    def add(self, key, value, refuses):
        """Adds the pair of a key that has none."""
        length = len(self.pairs) + 1
        slots = self.wanted(length, self.factor) if length // 4 % 2 else self.slots
        if refuses and (slots > self.slots or self.needs_room(key)):
            raise NoMemory
        if slots > self.slots:
            self.grow_with(slots, key, value)
        else:
            self.make_room(key)
            self.append(key, value)

    def clear(self):
        """The pairs go, and nothing else."""
        self.pairs, self.place_of, self.classes = {}, {}, {}

    def reserve(self, additional, refuses):
        wanted = len(self.pairs) + additional
        if wanted > GREATEST_CAPACITY:
            raise TooLarge
        if wanted > self.slots:
            if refuses or wanted > 2**40:
                raise NoMemory
            self.grow(1 << (wanted - 1).bit_length())

    def reserve_pairs(self, additional, refuses, sharing=0):
        """There are as many slots as so many pairs more want, and nodes for so many of them."""
        length = len(self.pairs) + additional
        if length > GREATEST:
            raise TooLarge
        slots = self.wanted(length, self.factor)
        nodes = self.further() + sharing
        if slots > self.slots or nodes > self.room:
            if refuses or max(slots, nodes) > 2**40:
                raise NoMemory
        if slots > self.slots:
            self.grow(slots, sharing)
        elif nodes > self.room:
            self.room = nodes
            self.asked += self.nodes()

    def set_load_factor(self, factor, refuses):
        slots = self.wanted(len(self.pairs), factor)
        if slots > self.slots:
            if refuses:
                raise NoMemory
            self.grow(slots)
        self.factor = factor

    def table(self):
        """The bytes of the slots, each with a pair and a word that has its link, and of the words of bits."""
        return [(self.pair + WORD) * self.slots, WORD * -(-self.slots // 64)]

    def nodes(self):
        """The bytes of the nodes, each of which is as large as a slot. None are asked for where there are none."""
        return [(self.pair + WORD) * self.room] if self.room else []

    def blocks(self):
        """The bytes of each block that a map has."""
        return [*self.table(), *self.nodes()]

    def shown(self, key):
        return key

    def debug_of(self, key):
        return key

    def walk(self):
        places = sorted(sorted(self.pairs), key=lambda place: self.slot_of(self.pairs[place][0]))
        return [self.pairs[place] for place in places]


def option(value):
    return "none" if value is None else f"some {value}"


def truth(value):
    return "true" if value else "false"


def written(old, value):
    return f"back {value}" if old is None else option(old)


def entered(old):
    return "fresh" if old is None else option(old)


def insert_debug(it, refuses, key, value):
    """The same texts as derived ones."""
    refused = "Err(Refused {{ value: {}, cause: {} }})"
    try:
        old = it.insert(key, value, refuses)
    except NoMemory:
        return refused.format(value, "Memory")
    except TooLarge:
        return refused.format(value, "TooLarge")
    return "Ok(None)" if old is None else f"Ok(Some({old}))"


def entry(it, key):
    shown = it.shown(key)
    return f"occupied {shown}: {it.get(key)}" if key in it.place_of else f"vacant {shown}"


def pair(it, key, value):
    """A key beside its value, or that it has none."""
    return option(None if value is None else f"{it.shown(key)}: {value}")


def insert_entry(it, refuses, key, value):
    it.entry_insert(key, value, refuses)
    return entry(it, key)


def vacant_insert_entry(it, refuses, key, value):
    return f"back {value}" if key in it.place_of else insert_entry(it, refuses, key, value)


def braces(pairs):
    return "{" + ", ".join(f"{k}: {v}" for k, v in pairs) + "}"


def walk(it):
    return braces((it.shown(k), v) for k, v in it.walk())


def debug(it):
    return braces((it.debug_of(k), v) for k, v in it.walk())


def brackets(items):
    return "[" + ", ".join(map(str, items)) + "]"


def state(it):
    return f"{walk(it)}, {len(it.pairs)} pairs, {it.slots} slots, factor {it.factor}"


def keys(first, count, step):
    return [(first + place * step) & GREATEST for place in range(count)]


def ten_more(key):
    return (key + 10) & GREATEST


def insert_many(it, insertion, *numbers):
    """How many were new, and each length that changed the slots, with these."""
    new, changes = 0, ""
    for key in keys(*numbers):
        slots = it.slots
        new += key not in it.place_of
        insertion(it, key, ten_more(key), False)
        changes += f", {len(it.pairs)}: {it.slots}" if it.slots != slots else ""
    return f"{new} new{changes}"


def sum_of(pairs):
    total = 0
    for key, value in pairs:
        total = ((total * 31 + key) * 31 + value) & GREATEST
    return f"{len(pairs)} pairs, sum {total}"


def text_sum(text):
    """How many bytes a text has, and a sum that tells each of them and their order."""
    total = 0
    for byte in text.encode():
        total = (total * 31 + byte) & GREATEST
    return f"{len(text.encode())} bytes, sum {total}"


def memory_of(lists):
    """How many bytes maps of these lists have, and in how many blocks."""
    blocks = [block for it in lists for block in it.blocks()]
    return f"{sum(blocks)} bytes in {len(blocks)} blocks"


def cut_alternate(it):
    """Takes out the second pair, the fourth, and so on."""
    taken = it.walk()[1::2]
    keys = {key for key, _ in taken}
    it.retain(lambda key, _: key not in keys)
    return sum_of(taken)


def extract_hint(it, count):
    """How many pairs are left to be asked about once so many were taken out."""
    asked = it.walk()
    taken = it.extract(0, count)
    if len(taken) < count:
        return "(0, Some(0))"
    at = asked.index(taken[-1]) + 1 if taken else 0
    return f"(0, Some({len(asked) - at}))"


def retain_alternate(it):
    """Keeps the first pair, the third, and so on. How many the closure saw."""
    asked = []
    it.retain(lambda key, _: asked.append(key) or len(asked) % 2)
    return str(len(asked))


def retain_all(it):
    asked = []
    it.retain(lambda *pair: asked.append(pair) or True)
    return sum_of(asked)


def for_each_add(it, more):
    """Adds to each value. The sum of the pairs before."""
    asked = it.walk()
    for key, value in asked:
        it.write(key, (value + more) & GREATEST)
    return sum_of(asked)


def rest(items, shown, count):
    """The first items, the others by a clone of the iterator, and the text of the iterator then."""
    left = items[count:]
    return f"{shown(items[:count])} {shown(left)} {brackets(left)}"


def size_hints(it, refuses):
    it.into_walk(refuses)
    return " ".join(["(0, None)"] * ITERATORS)


def find_many(find, first, count, step, more=10):
    """How many were bound, and before that how many of these to ten more, or to so much more."""
    found = [(key, find(key)) for key in keys(first, count, step)]
    bound = [(key, value) for key, value in found if value is not None]
    return f"{sum(value == key + more & GREATEST for key, value in bound)} of {len(bound)}"


def hand_back(it, key, more):
    """The value comes back with more added, at the end of its slot. Answers it."""
    old = it.get(key)
    if old is not None:
        it.insert(key, old + more & GREATEST, False)
    return it.get(key)


def entry_replace_many(it, first, count, step, more):
    """Writes so much more than each key where the value is ten more. How many that was."""
    return str(sum(it.write(key, key + more & GREATEST) == ten_more(key) for key in keys(first, count, step)))


def collisions_of(it):
    """A list of each number of pairs above 1 that a slot has, by its first appearance, with the number
    of slots that have so many."""
    counts = {}
    for slot in sorted(it.classes):
        size = len(it.classes[slot])
        if size > 1:
            counts[size] = counts.get(size, 0) + 1
    one = PlainList()
    for size, count in counts.items():
        one.insert(size, count, False)
    return one


def collisions(it, refuses, shown):
    if refuses:
        raise NoMemory
    one = collisions_of(it)
    it.asked += one.asked
    return shown(one)


# how many kinds of iterators there are, none of which says how many items it has
ITERATORS = 7


# Each call on a list, or command, by its name and how many numbers follow: the table of the calls of rows. tools/rows answers
# by it.
CALLS = {
    ("get", 1): lambda it, _, k: option(it.get(k)),
    ("get_counted", 1): lambda it, _, k: option(it.get(k)),
    ("get_key_value", 1): lambda it, _, k: pair(it, k, it.get(k)),
    ("index", 1): lambda it, _, k: option(it.get(k)),
    ("contains_key", 1): lambda it, _, k: truth(k in it.place_of),
    ("remove", 1): lambda it, _, k: option(it.remove(k)),
    ("remove_entry", 1): lambda it, _, k: pair(it, k, it.remove(k)),
    ("get_mut", 2): lambda it, _, k, v: written(it.write(k, v), v),
    ("entry", 1): lambda it, _, k: entry(it, k),
    ("entry_key", 1): lambda it, _, k: str(it.shown(k)),
    ("entry_forget", 1): lambda it, _, k: "done",
    ("entry_into_key", 1): lambda it, _, k: option(None if k in it.place_of else it.shown(k)),
    ("entry_remove", 1): lambda it, _, k: option(it.remove(k)),
    ("entry_remove_entry", 1): lambda it, _, k: pair(it, k, it.remove(k)),
    ("entry_hand_over", 1): lambda it, _, k: option(it.remove(k)),
    ("entry_hand_back", 2): lambda it, _, k, more: option(hand_back(it, k, more)),
    ("entry_get_mut", 2): lambda it, _, k, v: written(it.write(k, v), v),
    ("entry_insert", 2): lambda it, refuses, k, v: entered(it.entry_insert(k, v, refuses)),
    ("entry_add", 2): lambda it, refuses, k, v: str(it.add_to(k, v, refuses)),
    ("or_insert", 2): lambda it, refuses, k, v: str(it.or_insert(k, v, refuses)),
    ("or_insert_add", 2): lambda it, refuses, k, v: str(it.add_to(k, v, refuses)),
    ("or_insert_with", 2): lambda it, refuses, k, v: str(it.or_insert(k, v, refuses)),
    ("or_insert_with_key", 2): lambda it, refuses, k, n: str(it.or_insert(k, k + n & GREATEST, refuses)),
    ("or_try_insert_with", 2): lambda it, refuses, k, v: str(it.or_insert(k, v, refuses)),
    ("or_try_insert_error", 2): lambda it, _, k, n: f"error {n}" if it.get(k) is None else str(it.get(k)),
    ("or_default_add", 2): lambda it, refuses, k, n: str(it.add_to(k, n, refuses)),
    ("insert_entry", 2): lambda it, refuses, k, v: insert_entry(it, refuses, k, v),
    ("vacant_insert_entry", 2): lambda it, refuses, k, v: vacant_insert_entry(it, refuses, k, v),
    ("and_modify", 2): lambda it, refuses, k, v: str(it.and_modify(k, v, refuses)),
    ("insert", 2): lambda it, refuses, k, v: option(it.insert(k, v, refuses)),
    ("insert_debug", 2): lambda it, refuses, k, v: insert_debug(it, refuses, k, v),
    ("insert_checked", 2): lambda it, refuses, k, v: truth(it.insert_checked(k, v, refuses)),
    ("clear", 0): lambda it, _: it.clear() or "done",
    ("retain", 0): lambda it, _: it.retain(lambda _, value: value % 2) or "done",
    ("retain_odd", 0): lambda it, _: it.retain(lambda key, _: key % 2) or "done",
    ("retain_except", 1): lambda it, _, k: it.retain(lambda key, _: key != k) or "done",
    ("retain_above", 1): lambda it, _, n: it.retain(lambda key, _: key > n) or "done",
    ("retain_alternate", 0): lambda it, _: retain_alternate(it),
    ("retain_all", 0): lambda it, _: retain_all(it),
    ("reserve", 1): lambda it, refuses, n: it.reserve(n, refuses) or "done",
    ("reserve_pairs", 1): lambda it, refuses, n: it.reserve_pairs(n, refuses) or "done",
    ("reserve_insertions", 1): lambda it, refuses, n: it.reserve_pairs(n, refuses, n) or "done",
    ("set_load_factor", 1): lambda it, refuses, n: it.set_load_factor(n, refuses) or "done",
    ("get_load_factor", 0): lambda it, _: str(it.factor),
    ("len", 0): lambda it, _: str(len(it.pairs)),
    ("is_empty", 0): lambda it, _: truth(not it.pairs),
    ("capacity", 0): lambda it, _: str(it.slots),
    ("load", 0): lambda it, _: str(len(it.classes)),
    ("load_rate", 0): lambda it, _: str(len(it.pairs) * 1000 // it.slots),
    ("assert_count", 0): lambda it, _: "true",
    ("collisions", 0): lambda it, refuses: collisions(it, refuses, walk),
    ("collisions_debug", 0): lambda it, refuses: collisions(it, refuses, walk),
    ("collisions_state", 0): lambda it, refuses: collisions(it, refuses, state),
    ("walk", 0): lambda it, _: walk(it),
    ("first_key_value", 0): lambda it, _: option(next((f"{it.shown(k)}: {v}" for k, v in it.walk()), None)),
    ("debug", 0): lambda it, _: debug(it),
    ("keys", 0): lambda it, _: brackets(it.shown(k) for k, _ in it.walk()),
    ("values", 0): lambda it, _: brackets(v for _, v in it.walk()),
    ("iter", 1): lambda it, _, n: braces(it.walk()[:n]),
    ("keys", 1): lambda it, _, n: brackets(k for k, _ in it.walk()[:n]),
    ("values", 1): lambda it, _, n: brackets(v for _, v in it.walk()[:n]),
    ("iter_rest", 1): lambda it, _, n: rest(it.walk(), braces, n),
    ("keys_rest", 1): lambda it, _, n: rest([k for k, _ in it.walk()], brackets, n),
    ("values_rest", 1): lambda it, _, n: rest([v for _, v in it.walk()], brackets, n),
    ("drain", 1): lambda it, _, n: braces(it.drain(n)),
    ("drain_forget", 1): lambda it, _, n: braces(it.drain(n)),
    ("step", 1): lambda it, _, n: braces(it.walk()[:n]),
    ("cut", 2): lambda it, _, n, m: braces(it.cut(n, m)),
    ("cut_alternate", 0): lambda it, _: cut_alternate(it),
    ("extract", 2): lambda it, _, n, m: braces(it.extract(n, m)),
    ("extract_hint", 1): lambda it, _, n: extract_hint(it, n),
    ("iter_mut", 1): lambda it, _, n: braces(it.add_places(n)),
    ("iter_mut_forget", 1): lambda it, _, n: braces(it.add_places(n)),
    ("values_mut", 1): lambda it, _, n: str(len(it.add_places(n))),
    ("iter_mut_add", 1): lambda it, _, n: str(for_each_add(it, n).split(" ")[0]),
    ("values_mut_add", 1): lambda it, _, n: str(for_each_add(it, n).split(" ")[0]),
    # keys below N are bound to texts, twice: how many came back, and how many pairs there are
    ("insert_items", 1): lambda it, _, n: f"{n} back, {n} pairs",
    ("insert_checked_items", 1): lambda it, _, n: f"{n} new, {n} pairs",
    ("for_each_add", 1): lambda it, _, n: for_each_add(it, n),
    ("into_iter", 1): lambda it, refuses, n: braces(it.into_walk(refuses)[:n]),
    ("into_keys", 1): lambda it, refuses, n: brackets(k for k, _ in it.into_walk(refuses)[:n]),
    ("into_values", 1): lambda it, refuses, n: brackets(v for _, v in it.into_walk(refuses)[:n]),
    ("size_hints", 0): lambda it, refuses: size_hints(it, refuses),
    ("state", 0): lambda it, _: state(it),
    ("insert_many", 3): lambda it, _, *numbers: insert_many(it, PlainList.insert, *numbers),
    ("insert_checked_many", 3): lambda it, _, *numbers: insert_many(it, PlainList.insert_checked, *numbers),
    ("entry_insert_many", 3): lambda it, _, *numbers: insert_many(it, PlainList.entry_insert, *numbers),
    ("or_insert_many", 3): lambda it, _, *numbers: insert_many(it, PlainList.or_insert, *numbers),
    ("contains_many", 3): lambda it, _, *numbers: str(sum(k in it.place_of for k in keys(*numbers))),
    ("entry_replace_many", 4): lambda it, _, *numbers: entry_replace_many(it, *numbers),
}

# those that leave a bound key, and those that write its value in its place
for _name in ("or_insert_with", "or_insert_with_key", "or_try_insert_with", "vacant_insert_entry"):
    CALLS[f"{_name}_many", 3] = CALLS["or_insert_many", 3]
for _name in ("or_default", "insert_entry"):
    CALLS[f"{_name}_many", 3] = CALLS["entry_insert_many", 3]

# those that look for many keys, bound to ten more than themselves, or to a fourth number more
for _count in (3, 4):
    CALLS |= {
        ("get_many", _count): lambda it, _, *numbers: find_many(it.get, *numbers),
        ("get_mut_many", _count): lambda it, _, *numbers: find_many(it.get, *numbers),
        ("remove_many", _count): lambda it, _, *numbers: find_many(it.remove, *numbers),
        ("entry_remove_many", _count): lambda it, _, *numbers: find_many(it.remove, *numbers),
        ("entry_hand_over_many", _count): lambda it, _, *numbers: find_many(it.remove, *numbers),
        ("entry_hand_back_many", _count): lambda it, _, *numbers: find_many(lambda k: hand_back(it, k, 0), *numbers),
    }


def pairs_of(numbers):
    """A key and a value in turn. A last number alone makes no pair."""
    return list(zip(numbers[::2], numbers[1::2]))


def many_pairs(*numbers):
    return [(key, ten_more(key)) for key in keys(*numbers)]


def squares(count):
    return [(number, number * number & GREATEST) for number in range(count)]


# the calls that put pairs into a list, and those that make one of pairs, by their names
EXTENDING = {"extend": lambda *numbers: pairs_of(numbers), "extend_many": many_pairs}
COLLECTING = {
    "from_iter": lambda *numbers: pairs_of(numbers),
    "from_iter_many": many_pairs,
    "from_array": lambda *numbers: pairs_of(numbers),
    "from_array_many": many_pairs,
    "from_squares": squares,
    "from_squares_back": lambda count: squares(count)[::-1],
    # of at most so many pairs, by an iterator whose size_hint says so many
    "from_claimed": lambda claimed, *numbers: pairs_of(numbers)[:claimed],
}


# the least and the greatest key of each kind of integer beside u64
INTEGERS = {
    "u8": (0, 2**8 - 1),
    "u16": (0, 2**16 - 1),
    "u32": (0, 2**32 - 1),
    "usize": (0, 2**64 - 1),
    "i32": (-(2**31), 2**31 - 1),
    "i64": (-(2**63), 2**63 - 1),
}


class KindList(PlainList):
    """The same of keys of another kind than u64: a list of their numbers, and how they are written."""

    def __init__(self, kind):
        super().__init__()
        self.kind = kind
        self.written = {}

    def number_of(self, key):
        """A negative key counts as 2^64 more. None where the text is no key of this kind."""
        if self.kind == "cell":
            row, column = [int(part) for part in key.split(":")]
            number = row * 2**32 + column if max(row, column) < 2**32 else None
        else:
            least, greatest = INTEGERS[self.kind]
            number = int(key) % 2**64 if least <= int(key) <= greatest else None
        self.written[number] = key
        return number

    def shown(self, number):
        return self.written[number]

    def debug_of(self, number):
        """A cell is shown by its fields, an integer as it is written."""
        row, _, column = self.shown(number).partition(":")
        return f"Cell {{ row: {row}, column: {column} }}" if column else row


def insert_range(it, first, last):
    numbers = [it.number_of(str(key)) for key in range(int(first), int(last) + 1)]
    new = sum(it.insert(number, ten_more(number), False) is None for number in numbers)
    return f"{new} new"


def kind_answer(it, call, refuses):
    name, *words = call.split(" ")
    if name == "insert_range":
        return insert_range(it, *words)
    if words:
        number = it.number_of(words[0])
        if number is None:
            return "not a call"
        words[0] = str(number)
    return answer(it, " ".join([name, *words]), refuses)


# the calls that hand a value back where they are refused: the last number, 0, or the sum of both
HAND_BACK = (
    "insert",
    "insert_checked",
    "entry_insert",
    "or_insert",
    "or_insert_with",
    "or_try_insert_with",
    "insert_entry",
    "vacant_insert_entry",
    "and_modify",
)
HAND_0_BACK = ("entry_add", "or_insert_add", "or_default_add")


class Unknown(Exception):
    """A line isn't understood."""


def answer(it, call, refuses):
    name, *numbers = call.split(" ")
    numbers = [int(number) for number in numbers]
    called = CALLS.get((name, len(numbers)))
    if not called:
        raise Unknown(call)
    own = f" {numbers[-1]}" if name in HAND_BACK else " 0" if name in HAND_0_BACK else ""
    own = f" {sum(numbers) & GREATEST}" if name == "or_insert_with_key" else own
    try:
        return called(it, refuses, *numbers)
    except TooLarge:
        return f"refused{own}: too large"
    except NoMemory:
        return f"refused{own}: memory"


def command_answer(it, command, refuses):
    """A list is asked for where the answer is one and has an item. Its bytes aren't known."""
    name, *numbers = command.split(" ")
    if it.pairs and (name in ("walk", "keys", "values") or name == "drain" and int(numbers[0])):
        if refuses:
            return "refused: memory"
        it.asked.append(None)
    if name == "collisions" and collisions_of(it).pairs:
        it.asked.append(None)
    return answer(it, command, refuses)


def requests_of(answers, it, call):
    """The bytes of each request that the call makes where none is refused. The list stays as it is."""
    tried = copy.deepcopy(it)
    tried.asked = []
    answers(tried, call, False)
    return tried.asked


def refused_text(requests, called):
    """What is told of a call with each of its requests refused in turn. `called` gives its answer where
    one is refused and where none is."""
    times = len(requests)
    if not times:
        return f"{called(False)} at once"
    refusal = called(True)
    return f"{times} times {refusal}, then {called(False)}"


def above_text(most, requests, called):
    """What is told of a call with each request for more bytes than these refused."""
    if None in requests:
        raise Unknown("a call whose requests have bytes that no list knows")
    granted = list(itertools.takewhile(lambda size: size <= most, requests))
    return f"{called(len(granted) < len(requests))}, granted {sum(granted)} bytes"


def armed_answer(answers, it, call, armed):
    """The answer to a call where the request so many away is refused, none at 0, and how far away
    that one is afterwards."""
    if not armed:
        return answers(it, call, False), 0
    requests = len(requests_of(answers, it, call))
    if requests >= armed:
        return answers(it, call, True), 0
    return answers(it, call, False), armed - requests


def extended(it, pairs, armed, stopped="stopped at {} {} after {}: {}", done="done"):
    """The answer to an insertion of pairs in turn where the request so many away is refused, and how
    far away that one is afterwards."""
    for place, (key, value) in enumerate(pairs):
        found, armed = armed_answer(answer, it, f"insert {key} {value}", armed)
        if found.startswith("refused"):
            return stopped.format(key, value, place, found.split(": ")[1]), armed
    return done, armed


def run_answers(it, commands, armed):
    """The answers to the commands of a run, and the same number afterwards. The first request is for
    the room of the answers; where it is the refused one, there are none."""
    if commands and armed == 1:
        return None, 0
    armed -= 1 if commands and armed else 0
    texts = []
    for command in commands:
        name, *numbers = command.split(" ")
        if name == "extend":
            text, armed = extended(it, pairs_of([int(number) for number in numbers]), armed)
        else:
            text, armed = armed_answer(command_answer, it, command, armed)
        texts.append(text)
    return texts, armed


# the calls that make a list
MAKING = ("new", "with_capacity", "with_room_for")


def made(call, pair=PAIR):
    """The list that a call makes; None where no memory has room for it."""
    if call == "new":
        return PlainList(pair=pair)
    name, number = call.split(" ")
    slots = int(number) if name == "with_capacity" else PlainList(2).wanted(int(number), 909)
    if slots > GREATEST_CAPACITY:
        raise TooLarge
    return PlainList(1 << (max(slots, 2) - 1).bit_length(), pair) if slots < 2**40 else None
