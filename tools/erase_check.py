"""A check of what tools/erase writes. It shares no rule and no line with the eraser.

The eraser works on tokens. This check works on lines: `rt fmt` puts each clause and each ghost on lines of
its own, and closes each item with a brace at the item's depth. Both ways must leave the same Rust:

- Each token of an erased file is a token of its source, in the same order, but for what OTHERWISE names. Its comments
  are lines of the source, in the same order.
- No token is left out but those of contracts, of ghosts, of the bounds of types, and of the items and the lines named
  here. An `impl Drop` that is left out drops fields alone.
- What is private to a crate of Rattle is private to a module.
- Each source is erased, but for those named here, and no other file claims to be.
- The public functions that require something of their caller are those that the crate's README names.
"""
import glob
import itertools
import os
import re

CRATES = {"table": "intmap_table", "map": "intmap", "set": "intmap_set"}
BY_HAND = ("/mending.rs", "/written.rs")
PAGE = "README.md"

# sources that aren't erased
LEFT = [
    "intmap/src/decimal.rt",
    "intmap/src/laws.rt",
    "intmap/src/map/iter/cursor.rt",
    "intmap/src/map/iter/disjoint.rt",
    "intmap/src/map/iter/keep.rt",
    "intmap/src/map/iter/written.rt",
    "intmap/src/map/json.rt",
    "intmap/src/map/json/read.rt",
    "intmap_table/src/lent.rt",
    "intmap_table/src/linked/keep.rt",
    "intmap_table/src/table/keep.rt",
    "intmap_table/src/table/slots/keep.rt",
    "intmap_table/src/table/slots/reached.rt",
    "intmap_table/src/table/walk.rt",
    "intmap_set/src/laws.rt",
    "intmap_set/src/set/iter/extract.rt",
    "intmap_set/src/set/owned.rt",
]
# lines of sources that are left out alone
LEFT_LINES = {
    "#![tactic(auto)]",
    "#[derive(Drop)]",
    "mod decimal;",
    "pub mod lent;",
    "pub mod laws;",
    "pub(crate) mod json;",
    "pub use map::json::JsonCause;",
    "pub use decimal::key_of;",
    "use std::marker::Model;",
}
# what no call of the crate reaches, by source: the first words of a line, or of an item with its attributes
NOT_CALLED = {
    "intmap/src/entry.rt": """
        pub fn key(&self)
        pub fn or_insert(self,
        pub fn into_map(self)""",
    "intmap/src/entry/insert.rt": """
        use std::default::MadeWith;
        fn insert_made<E: From<Refused<V>>>(
        pub fn or_insert_with_key<F: FnOnce(K) -> V>(
        pub fn or_insert_with<F: FnOnce() -> V>(
        pub fn or_default(self)
        fn allocator(&self)
        pub fn or_try_insert_with<E: From<Refused<V>>""",
    "intmap/src/entry/occupied.rt": """
        pub fn leave(self)
        pub fn into_map(self)""",
    "intmap/src/entry/vacant.rt": """
        pub fn insert(self,
        pub fn into_map(self)""",
    "intmap/src/map/build.rt": """
        pub(crate) fn allocator(&self)
        pub fn from_array<const N: usize>(""",
    "intmap/src/map/figures.rt": """
        pub fn load_rate(&self)""",
    "intmap/src/map/get.rt": """
        use std::ops::Index;
        impl<K: IntKey, V, A: Allocator + Copy> Index<K> for IntMap<K, V, A> {""",
    "intmap/src/map/iter.rt": """
        mod cursor;
        pub use cursor::Cursor;
        mod disjoint;
        pub use disjoint::
        mod keep;""",
    "intmap/src/map/iter/writing.rt": """
        impl<'a, K: IntKey, V, A: Allocator + Copy> IntoIterator for &'a mut IntMap<K, V, A> {""",
    "intmap/src/refusal.rt": """
        use std::alloc::AllocError;
        impl From<AllocError> for Cause {""",
    "intmap/src/map/traits.rt": """
        impl<K: IntKey + fmt::Debug, V: fmt::Debug, A: Allocator + Copy> fmt::Debug for IntMap<K, V, A> {
        impl<K: IntKey, V: Clone, A: Allocator + Copy> Clone for IntMap<K, V, A> {""",
    "intmap_set/src/set.rt": """
        mod owned;""",
    "intmap_set/src/set/iter.rt": """
        mod extract;
        pub use extract::ExtractIf;""",
    "intmap_set/src/set/build.rt": """
        pub fn from_array<const N: usize>(alloc: A,""",
    "intmap_set/src/set/traits.rt": """
        impl<K: IntKey + fmt::Debug, A: Allocator + Copy> fmt::Debug for IntSet<K, A> {
        impl<K: IntKey, A: Allocator + Copy> Clone for IntSet<K, A> {""",
    "intmap_table/src/linked.rt": """
        pub(crate) mod keep;""",
    "intmap_table/src/linked/row/removal.rt": """
        pub(crate) fn remove<P, A: Allocator>(""",
    "intmap_table/src/linked/chain.rt": """
        pub(crate) fn skip<P, A: Allocator>(
        pub(crate) fn find_behind<P, A: Allocator>(""",
    "intmap_table/src/table.rt": """
        mod keep;
        pub mod walk;""",
    "intmap_table/src/table/slots.rt": """
        mod keep;
        pub(crate) mod reached;""",
    "intmap_table/src/table/slots/pairs.rt": """
        pub(crate) fn remove_at(&mut self,""",
}
# names that only those items have, by source, each with what stands around it in the list that it is used by, and what is
# left of that
NOT_NAMED = {
    "intmap/src/map/traits.rt": {"{AllocError, Allocator}": "Allocator"},
    "intmap_set/src/set/traits.rt": {"{AllocError, Allocator}": "Allocator"},
    "intmap_table/src/linked/row/removal.rt": {"{find_behind, last_from": "{last_from"},
}
# how the items of sources begin that are left out
LEFT_ITEMS = re.compile(r"impl\b[^;]* (Model|Drop) for |unsafe impl (Send|Sync) for Tally \{\}")
# what an `impl Drop` may have that is left out: it takes the value apart, lets the prover see it, and drops a field
DROPS_FIELDS = re.compile(r"fn drop\(self\) \{ let \w+ \{[\w:, ]*\} = self; (\w+\.known\(\); )?(drop\(\w+\); )?\} \}")
# a text, a character, a word, signs that one operator may have, or another sign
TOKEN = re.compile(r""""(?:\\.|[^"\\])*"|'(?:\\.|[^'\\])'|\w+|[&|<>=!+*/%^:.-]+|[^\w\s]""")
# what is written otherwise in Rust: in the source, and in the erased text
OTHERWISE = [
    ("#[derive(Debug, Drop)]", "#[derive(Debug)]"),
    ("    where\n        V: Drop,\n", ""),
    ("    where\n        P: Drop,\n", ""),
    ("    where\n        X: Drop,\n", ""),
    (": Drop", ""),
    (" + Drop", ""),
    ("use std::marker::{Model, Send, Sync};", ""),
    ("fn fmt<W: fmt::Write>(&self, f: &mut fmt::Formatter<W>)", "fn fmt(&self, f: &mut fmt::Formatter<'_>)"),
    # the compiler says what to do for a type that isn't a key
    (
        "pub trait IntKey: Copy + Eq {",
        """#[diagnostic::on_unimplemented(
    message = "`{Self}` isn't a type of keys",
    label = "this type has no `IntKey`",
    note = "the macro `int_key!` makes types of keys, and a type that is `Copy + Eq` can have an `impl IntKey`"
)]
pub trait IntKey: Copy + Eq {""",
    ),
    # a guard holds the slots while pairs move
    (
        """        move_rows(
            &mut self.slots,
            &mut bits,
            &mut pool,
            &self.bits,
            &mut self.pool,
            &mut from,
            &mut rest,
            self.mask,
            capacity - 1,
            placed,
        );
""",
        """        super::mending::moving(self, &mut bits, &mut pool, &mut from, &mut rest, |old, bits, pool, from, rest| {
            let (slots, old_mask) = (&mut old.slots, old.mask);
            move_rows(slots, bits, pool, &old.bits, &mut old.pool, from, rest, old_mask, capacity - 1, placed);
        });
""",
    ),
    # and the map where an insertion isn't done at once
    (
        "            Spot::Other(slot) => self.insert_otherwise(slot, key, value),",
        "            Spot::Other(slot) => super::mending::held(self, |map| map.insert_otherwise(slot, key, value)),",
    ),
    (
        "            Spot::Other(slot) => self.insert_checked_otherwise(slot, sought, value),",
        "            Spot::Other(slot) => super::mending::held(self, |map| map.insert_checked_otherwise(slot, sought, value)),",
    ),
]
# the first line of a type, up to the bound of its keys, which is left out
BOUND = re.compile(r"(?<=\n)((?:pub |pub\(crate\) )?(?:struct|enum) [^\n]*?K): IntKey")
PRELUDE = "use crate::memory::prelude::*;"
NOTE = "// Only Rust has what follows. It is tested, not proved."
NOTED = re.compile(r"(pub )?mod (mending|written);")

CONTRACT = re.compile(r"(pub )?ghost |requires |ensures\*? ")


def read(path):
    with open(path, encoding="utf-8") as file:
        return file.read()


def behind_braces(lines, i):
    """The line at which the first braces from line `i` on are closed, and what is behind them there."""
    depth = 0
    for at in range(i, len(lines)):
        for place, sign in enumerate(lines[at]):
            depth += (sign == "{") - (sign == "}")
            if sign == "}" and depth == 0:
                return at, lines[at][place + 1 :]
    raise ValueError(f"line {i + 1} opens a brace that isn't closed")


def behind_item(lines, i):
    """The line behind the item that starts at line `i`."""
    if lines[i].endswith(("{}", ";")):
        return i + 1
    depth = len(lines[i]) - len(lines[i].lstrip())
    return lines.index(" " * depth + "}", i) + 1


def not_called(source):
    """How the lines of a source begin, that or whose items no call of the crate reaches."""
    return tuple(it.strip() for it in NOT_CALLED.get(source, "").strip().split("\n") if it)


def without_attributes(lines):
    """Lines up to an item, without the attributes of the item."""
    while lines and lines[-1].startswith("#["):
        lines = lines[:-1]
    return lines


def without_empty(lines):
    """Lines of code without each `impl` of a type that has none."""
    kept = []
    for line in lines:
        if line == "}" and kept and re.match(r"impl\b(?!.* for ).*\{$", kept[-1]):
            kept.pop()
        elif line and not line.startswith("//"):
            kept.append(line)
    return kept


def without_contracts(lines):
    """Lines of a source without clauses and ghosts."""
    kept, i = [], 0
    while i < len(lines):
        line = lines[i].strip()
        if CONTRACT.match(line):
            i, rest = behind_braces(lines, i)
            kept.append("" if "ghost" in line.split()[:2] else rest)
        else:
            kept.append(lines[i])
        i += 1
    return kept


def code_of_source(text, source):
    """The lines of code that a source has for Rust."""
    for theirs, ours in OTHERWISE:
        text = text.replace(theirs, ours)
    for named, left in NOT_NAMED.get(source, {}).items():
        text = text.replace(named, left, 1)
    text = BOUND.sub(r"\1", text)
    lines, kept, i = without_contracts(text.split("\n")), [], 0
    while i < len(lines):
        line = lines[i].strip()
        if line.startswith(not_called(source)):
            kept, i = without_attributes(kept), behind_item(lines, i)
        elif LEFT_ITEMS.match(line):
            i = behind_item(lines, i)
        else:
            kept.append("" if line in LEFT_LINES else line)
            i += 1
    return without_empty(kept)


def missing(text, starts):
    """Which of these no line of a text begins with, or several do."""
    lines = [it.strip() for it in text.split("\n")]
    return [start for start in starts if sum(it.startswith(start) for it in lines) != 1]


def other_drops(text):
    """The first lines of each `impl Drop` that does more than to drop fields, as Rust does by itself."""
    lines = without_contracts(text.split("\n"))
    for i, line in enumerate(lines):
        if LEFT_ITEMS.match(line) and " Drop for " in line:
            body = " ".join(" ".join(lines[i : behind_item(lines, i)]).split()).partition(" { ")[2]
            if not DROPS_FIELDS.fullmatch(body):
                yield line


def paths_of_rattle(text, home):
    """The text of an erased file with the paths that its source has."""
    text = text.replace(f"pub(in crate::proved::{home})", "pub(crate)")
    text = text.replace(f"crate::proved::{home}::", "crate::")
    for module, crate in CRATES.items():
        text = text.replace(f"crate::proved::{module}::", f"{crate}::")
    return re.sub(r"(?<![\w:])(core|crate::memory)::", "std::", text)


def tokens_of(lines):
    """The tokens of lines of code, each with its line."""
    found = []
    for number, line in enumerate(lines, 1):
        code = line.strip()
        if not code.startswith("//"):
            found += [(it, number) for it in TOKEN.findall(code)]
    return found


def comments_of(text):
    return [it.strip() for it in text.split("\n") if it.strip().startswith("//")]


def is_within(part, whole):
    """Whether the items of a list are in another one, in the same order."""
    rest = iter(whole)
    return all(it in rest for it in part)


def faults_of(text, source, home):
    """What is wrong with an erased text, each as a line. The source is named by its path below crates."""
    (text, _, added), theirs_all = text.partition(NOTE), read(f"crates/{source}")
    wrong = [f"`{it}` is added" for it in added.split("\n") if it and not NOTED.fullmatch(it)]
    wrong += [f"no line of the source begins with `{it}`" for it in missing(theirs_all, not_called(source))]
    wrong += [f"`{it}` does more than to drop fields" for it in other_drops(theirs_all)]
    if re.search(r"pub\s*\(\s*crate\s*\)", text):
        wrong.append("what is private to a crate of Rattle is open here")
    text = paths_of_rattle(text.replace(PRELUDE, "", 1), home)
    if not is_within(comments_of(text), comments_of(theirs_all)):
        wrong.append("a comment isn't one of the source, or not at its place")
    for (ours, line), (theirs, at) in itertools.zip_longest(
        tokens_of(text.split("\n")), tokens_of(code_of_source(theirs_all, source)), fillvalue=("the end", 0)
    ):
        if ours != theirs:
            return [*wrong, f"line {line} has `{ours}` where the source has `{theirs}`"]
    return wrong


def erased_files(folder):
    """Each erased file below the folder, with its module and its source."""
    for path in sorted(glob.glob(f"{folder}/src/proved/**/*.rs", recursive=True)):
        name = os.path.relpath(path, folder)
        home, _, rest = name.removeprefix("src/proved/").removesuffix(".rs").partition("/")
        if not name.endswith(BY_HAND):
            yield name, home, f"{CRATES.get(home)}/src/{rest or 'lib'}.rt"


def called(text, source):
    """The text of a source without the items that no call reaches, and none if it isn't erased."""
    if source in LEFT and not source.endswith("/written.rt"):
        return ""
    lines, kept, i = text.split("\n"), [], 0
    while i < len(lines):
        if lines[i].strip().startswith(not_called(source)):
            i = behind_item(lines, i)
        else:
            kept.append(lines[i])
            i += 1
    return "\n".join(kept)


def asks():
    """The public functions that require something of their caller, each as the README has it."""
    found = []
    for home in ("map", "set"):
        for path in sorted(glob.glob(f"crates/{CRATES[home]}/src/**/*.rt", recursive=True)):
            place = os.path.relpath(path, f"crates/{CRATES[home]}/src").removesuffix(".rt")
            text = called(read(path), path.removeprefix("crates/"))
            for name, clauses in re.findall(r"^ *pub fn (\w+)(.*?)^ *(?:\{|\})", text, re.M | re.S):
                if re.search(r"^ *requires ", clauses, re.M):
                    found.append(f"proved/{home}/{place}.rs: {name}")
            found += [f"proved/{home}/{place}.rs: {it}" for it in re.findall(r"^ *ghost can_(\w+) = ", text, re.M)]
    return found


def faults(folder):
    """What is wrong with the crate in a folder, each as a line."""
    wrong, erased = [], set()
    for name, home, source in erased_files(folder):
        erased.add(source)
        if not os.path.exists(f"crates/{source}"):
            wrong.append(f"{name} has no source")
            continue
        wrong += [f"{name}: {it}" for it in faults_of(read(f"{folder}/{name}"), source, home)]
    for crate in CRATES.values():
        for path in glob.glob(f"crates/{crate}/src/**/*.rt", recursive=True):
            source = path.removeprefix("crates/")
            if (source in erased) == (source in LEFT):
                wrong.append(f"{path} is {'' if source in erased else 'not '}erased")
    named = re.findall(r"^proved/\S+\.rs: \w+$", read(f"{folder}/{PAGE}"), re.M)
    if sorted(named) != sorted(asks()):
        wrong.append(f"rust/{PAGE} doesn't name the functions that `tools/erase --asks` prints")
    return wrong


def summary(folder):
    """How much was compared."""
    files = list(erased_files(folder))
    tokens = sum(len(tokens_of(read(f"{folder}/{name}").split("\n"))) for name, _, _ in files)
    return f"{len(files)} erased files, {tokens} tokens of code"
