"""The rules by which a Rattle source becomes Rust. Each only leaves text out, but for rules 7 to 9 and 11.

1.  A ghost is left out, with its doc comment: `ghost use ..;`, `ghost name = {..};`, `ghost name: {..},`.
    So is a block of a doc comment, which shows calls as Rattle makes them.
2.  A clause of a contract is left out, with the notes before it: `requires`, `ensures` and `ensures*`.
3.  `#![tactic(..)]` is left out, and so is `Drop` in a list of derived traits or in a bound: Rust drops
    every type.
4.  An `impl Model` is left out: all it has are ghosts. So is an `unsafe impl` of `Send` or `Sync`, which
    Rust finds by itself.
5.  An `impl Drop` is left out if its body is one of DROPS: those drop fields, as Rust does by itself.
6.  The modules of LEFT_OUT are left out, with the lines that name them. If the crate has a file of that
    name written by hand, that file takes the module's place and the lines stay. So are the items of UNCALLED,
    with their doc comments, and an `impl` of a type that has none left.
7.  The one form of `fmt` that Rattle has becomes Rust's.
8.  A path names a module in place of a crate: `intmap_table::`, `crate::`, `pub(crate)` and `std::`.
9.  A file that uses anything uses the names of `memory` too. It gets the lines of ADDED, each of which
    names a file written by hand.
10. A `struct` or an `enum` leaves out the bound of its keys, which Rust needs where a call is made alone. So a struct
    of a program can have a map, and name no bound.
11. The texts of REPLACED become others: calls that are made under a guard, which is written by hand, and the trait of
    keys, of which Rust's compiler says what to do for another type.

What no rule knows ends the erasing: a word of Rattle that is left, an `unsafe`, an unknown `impl Drop`, a
module or an item that isn't there.
"""
import re

# a crate of Rattle, and the module that its erased text becomes
HOMES = {"intmap_table": "table", "intmap": "map", "intmap_set": "set"}

LEFT_OUT = {
    "intmap_table": ["lent", "linked/keep", "table/keep", "table/slots/keep", "table/slots/reached", "table/walk"],
    "intmap": [
        "decimal", "laws", "map/iter/cursor", "map/iter/disjoint", "map/iter/keep", "map/iter/written", "map/json",
    ],
    "intmap_set": ["laws", "set/iter/extract", "set/owned"],
}

# What no call of the crate for Rust reaches, by its source: how the first line of each item begins. `tools/erased`
# asks the compiler whether more is reached by none. An item that is called in spite of this list isn't there.
UNCALLED = {
    "intmap/entry": ["pub fn key(", "pub fn or_insert(", "pub fn into_map("],
    "intmap/entry/insert": [
        "fn insert_made<",
        "pub fn or_insert_with_key<",
        "pub fn or_insert_with<",
        "pub fn or_default(",
        "fn allocator(",
        "pub fn or_try_insert_with<",
        "use std::default::MadeWith;",
    ],
    "intmap/entry/occupied": ["pub fn leave(", "pub fn into_map("],
    "intmap/entry/vacant": ["pub fn insert(", "pub fn into_map("],
    "intmap/map/build": ["pub(crate) fn allocator(", "pub fn from_array<"],
    "intmap/map/figures": ["pub fn load_rate("],
    "intmap/map/get": ["impl<K: IntKey, V, A: Allocator + Copy> Index<K> for IntMap", "use std::ops::Index;"],
    "intmap/map/iter/writing": ["impl<'a, K: IntKey, V, A: Allocator + Copy> IntoIterator for &'a mut IntMap"],
    "intmap/refusal": ["impl From<AllocError> for Cause {", "use std::alloc::AllocError;"],
    "intmap/map/traits": [
        "impl<K: IntKey + fmt::Debug, V: fmt::Debug, A: Allocator + Copy> fmt::Debug for IntMap",
        "impl<K: IntKey, V: Clone, A: Allocator + Copy> Clone for IntMap",
    ],
    "intmap_set/set/build": ["pub fn from_array<"],
    "intmap_set/set/traits": [
        "impl<K: IntKey + fmt::Debug, A: Allocator + Copy> fmt::Debug for IntSet",
        "impl<K: IntKey, A: Allocator + Copy> Clone for IntSet",
    ],
    "intmap_table/linked/chain": ["pub(crate) fn skip<", "pub(crate) fn find_behind<"],
    "intmap_table/linked/row/removal": ["pub(crate) fn remove<"],
    "intmap_table/table/slots/pairs": ["pub(crate) fn remove_at("],
}
# What a source uses for items of UNCALLED alone, by the source: names in its `use` lists.
UNNAMED = {
    "intmap/map/traits": ["AllocError"],
    "intmap_set/set/traits": ["AllocError"],
    "intmap_table/linked/row/removal": ["find_behind"],
}

# Calls that run a key's `number` while pairs are on their way, and the trait of keys, by the source, each with what is
# written in its place.
REPLACED = {
    "intmap_table/key": [
        (
            "pub trait IntKey: Copy + Eq {",
            """#[diagnostic::on_unimplemented(
    message = "`{Self}` isn't a type of keys",
    label = "this type has no `IntKey`",
    note = "the macro `int_key!` makes types of keys, and a type that is `Copy + Eq` can have an `impl IntKey`"
)]
pub trait IntKey: Copy + Eq {""",
        )
    ],
    "intmap_table/table/slots/grow": [
        (
            """        move_rows(
            &mut self.slots,
            &mut bits,
            &mut pool,
            &self.bits,
            &mut self.pool,
            &mut from,
            &mut rest,
            self.mask,
            capacity - 1,
            placed,
        );
""",
            """        super::mending::moving(self, &mut bits, &mut pool, &mut from, &mut rest, |old, bits, pool, from, rest| {
            let (slots, old_mask) = (&mut old.slots, old.mask);
            move_rows(slots, bits, pool, &old.bits, &mut old.pool, from, rest, old_mask, capacity - 1, placed);
        });
""",
        )
    ],
    "intmap/map/insert": [
        (
            "Spot::Other(slot) => self.insert_otherwise(slot, key, value),",
            "Spot::Other(slot) => super::mending::held(self, |map| map.insert_otherwise(slot, key, value)),",
        ),
        (
            "Spot::Other(slot) => self.insert_checked_otherwise(slot, sought, value),",
            "Spot::Other(slot) => super::mending::held(self, |map| map.insert_checked_otherwise(slot, sought, value)),",
        ),
    ],
}

DROPS = [
    "let VacantEntry { map: _, key: _, slot: _, } = self;",
    "let Drain { map, front: _ } = self; map.known();",
    "let Drain { set, from: _ } = self; set.known();",
    "let ExtractIf { map, at: _, test } = self; map.known(); drop(test);",
]

FMT = "fn fmt<W: fmt::Write>(&self, f: &mut fmt::Formatter<W>)"
FMT_OF_RUST = "fn fmt(&self, f: &mut fmt::Formatter<'_>)"

# modules of Rattle's std that `memory` has. The others are those of Rust's `core`.
OF_MEMORY = ["alloc", "clone", "vec"]
# traits of Rattle's `std::marker` that are ghosts, or that Rust has in its prelude
MARKERS = ["Model", "Owns", "Move", "Send", "Sync"]
PRELUDE = "use crate::memory::prelude::*;"

ADDED_NOTE = "// Only Rust has what follows. It is tested, not proved."
ADDED = {
    "intmap_table/bits": ["pub mod written;"],
    "intmap_table/linked/closures": ["pub mod written;"],
    "intmap_table/linked/node": ["mod written;"],
    "intmap_table/linked/pool": ["pub mod written;"],
    "intmap_table/table": ["mod mending;", "pub mod written;"],
    "intmap_table/table/slots": ["mod mending;", "pub mod written;"],
    "intmap/entry": ["mod mending;"],
    "intmap/map": ["mod mending;"],
    "intmap_set/set": ["mod mending;", "mod written;"],
}

RATTLE = ["ghost", "requires", "ensures", "tactic", "unsafe"]
# a comment, a string, a character, a lifetime, a word, space, or a sign
TOKEN = re.compile(r"""//[^\n]*|"(?:\\.|[^"\\])*"|'(?:\\.|[^'\\])'|'\w+|\w+|\s+|.""", re.S)
CLOSES = {"{": "}", "(": ")", "[": "]"}


class Refused(Exception):
    """A source that no rule knows."""


def is_note(token):
    """Whether a token is a comment that isn't a doc comment."""
    return token.startswith("//") and not token.startswith(("///", "//!"))


def group_end(tokens, start):
    """The index behind the group whose bracket opens at the index `start`."""
    depth = 0
    for i in range(start, len(tokens)):
        if tokens[i] in CLOSES:
            depth += 1
        elif tokens[i] in CLOSES.values():
            depth -= 1
            if depth == 0:
                return i + 1
    raise Refused("a bracket isn't closed")


def next_solid(tokens, i):
    """The index of the next token that is neither space nor a comment."""
    while tokens[i].isspace() or tokens[i].startswith("//"):
        i += 1
    return i


def ghost_end(tokens, i):
    """The index behind a ghost, whose keyword is at the index `i`: a `use`, a member, or a clause of a function."""
    i = next_solid(tokens, i + 1)
    if tokens[i] == "use":
        return tokens.index(";", i) + 1
    end = group_end(tokens, tokens.index("{", i))
    i = next_solid(tokens, end)
    if tokens[i] == "by":
        end = group_end(tokens, tokens.index("{", i))
        i = next_solid(tokens, end)
    return i + 1 if tokens[i] in (";", ",") else end


def clause_end(tokens, i):
    """The index behind a clause, whose keyword is at the index `i`."""
    i = next_solid(tokens, i + 1)
    if tokens[i] == "*":
        i = next_solid(tokens, i + 1)
    if tokens[i] != "{":
        i = next_solid(tokens, i + 1)
    if tokens[i] != "{":
        raise Refused("a clause without braces")
    return group_end(tokens, i)


def space_for(kept, tokens, i):
    """The space between the tokens that are kept and the one at the index `i`, behind a clause."""
    if tokens[i] == ";":
        return ""
    last = next(it for it in reversed(kept) if not it.isspace())
    return "\n" + tokens[i - 1].rpartition("\n")[2] if last == "," else " "


def without_ghosts(text):
    """Rules 1 and 2."""
    tokens, kept, i = TOKEN.findall(text), [], 0
    while i < len(tokens):
        if tokens[i] == "ghost":
            while kept and (kept[-1].isspace() or kept[-1].startswith("///") or kept[-1] == "pub"):
                kept.pop()
            kept.append("\n")
            i = ghost_end(tokens, i)
        elif tokens[i] in ("requires", "ensures"):
            while kept[-1].isspace() or is_note(kept[-1]):
                kept.pop()
            i = next_solid(tokens, clause_end(tokens, i))
            if tokens[i] not in ("requires", "ensures"):
                kept.append(space_for(kept, tokens, i))
        else:
            kept.append(tokens[i])
            i += 1
    return "".join(kept)


def code_of(text):
    """What of a text the compiler reads, in a line: without contracts, ghosts, comments and layout."""
    return " ".join(it for it in TOKEN.findall(without_ghosts(text)) if not it.isspace() and not it.startswith("//"))


def item_start(text, at):
    """Where the item at `at` starts: before its comments and attributes."""
    start = text.rfind("\n", 0, at) + 1
    while start > 0:
        before = text.rfind("\n", 0, start - 1) + 1
        if not re.match(r"\s*(//[^!]|#\[)", text[before:start]):
            break
        start = before
    return start


def item_end(text, at):
    """Where the item at `at` ends."""
    tokens = TOKEN.findall(text[at:])
    i = 0
    while tokens[i] not in ("{", ";") or tokens[0] == "use" and tokens[i] != ";":
        i = group_end(tokens, i) if tokens[i] in ("(", "[") else i + 1
    return at + len("".join(tokens[: i + 1 if tokens[i] == ";" else group_end(tokens, i)]))


def without_impls(text):
    """Rules 4 and 5."""
    while found := re.search(r"^(unsafe )?impl\b[^{;]* (Model|Drop|Send|Sync) for [^{;]*", text, re.M):
        start, end = item_start(text, found.start()), item_end(text, found.start())
        body = " ".join(text[found.end() : end].split())
        method = re.fullmatch(r"\{ fn drop\(self\) \{ (.*) \} \}", body)
        if found[2] == "Drop" and not (method and method[1] in DROPS):
            raise Refused("an `impl Drop` has a body that isn't known")
        if found[2] != "Drop" and body.replace(" ", "") != "{}":
            raise Refused(f"an `impl {found[2]}` isn't empty")
        text = text[:start] + text[end:].lstrip("\n")
    return text


def without_uncalled(text, where):
    """Rule 6 for items."""
    for start in UNCALLED.get(where, []):
        found = list(re.finditer(rf"^[ ]*(?={re.escape(start)})", text, re.M))
        if len(found) != 1:
            raise Refused(f"{len(found)} items begin with `{start}`, not one")
        first, end = item_start(text, found[0].start()), item_end(text, found[0].end())
        text = text[:first] + text[end:].lstrip("\n")
    return re.sub(r"^impl\b(?:(?! for )[^{;])*\{\s*\}\n", "", text, flags=re.M)


def without_unnamed(text, where):
    """Rule 6 for names."""
    for name in UNNAMED.get(where, []):
        text, count = re.subn(rf"^(use [^;]*\{{[^;]*?)\b{name}\b(?:,\s*|(?=\s*\}}))", r"\1", text, flags=re.M)
        if count != 1 or re.search(rf"\b{name}\b", text):
            raise Refused(f"`{name}` isn't named once, in a `use` list")
        text = re.sub(r"^(use [^;{]*)\{(\w+)\};", r"\1\2;", text, flags=re.M)
    return text


def with_replaced(text, where):
    """Rule 11."""
    for old, new in REPLACED.get(where, []):
        if old not in text:
            raise Refused(f"there is no text `{old}`")
        text = text.replace(old, new)
    return text


def without_attributes(text):
    """Rule 3."""
    text = re.sub(r"^#!\[tactic\(\w+\)\]\n", "", text, flags=re.M)
    text = re.sub(r"^[ ]*#\[derive\(Drop\)\]\n", "", text, flags=re.M)
    text = re.sub(r"(#\[derive\([^)]*?)(?:, Drop\b|\bDrop, )", r"\1", text)
    text = re.sub(r"\s+where\s+\w+: Drop,\s+\{", " {", text)
    return re.sub(r" \+ Drop\b|: Drop\b(?! \+)", "", text)


def without_modules(text, crate, name, by_hand):
    """Rule 6."""
    for module in LEFT_OUT.get(crate, []):
        parent, _, last = module.rpartition("/")
        if module in by_hand:
            continue
        if name == (parent or "lib"):
            text, count = re.subn(rf"^(pub(\(\w+\))? )?mod {last};\n", "", text, flags=re.M)
            if count != 1:
                raise Refused(f"there is no module `{last}`")
        path = module.replace("/", "::") if name == "lib" else last
        text = re.sub(rf"^pub use {path}::.*;\n", "", text, flags=re.M)
    return text


def without_markers(text):
    """The traits of MARKERS leave the lines that name them, which rule 4 made idle."""

    def left(found):
        names = [it for it in re.findall(r"\w+", found[1]) if it not in MARKERS]
        if not names:
            return ""
        return f"use std::marker::{names[0] if len(names) == 1 else '{' + ', '.join(names) + '}'};\n"

    return re.sub(r"^use std::marker::(\w+|\{[^}]*\});\n", left, text, flags=re.M)


def with_paths(text, home):
    """Rule 8."""
    text = re.sub(r"\bcrate::", f"crate::proved::{home}::", text)
    text = text.replace("pub(crate)", f"pub(in crate::proved::{home})")
    for crate, module in HOMES.items():
        text = re.sub(rf"(?<![\w:]){crate}::", f"crate::proved::{module}::", text)
    text = re.sub(rf"(?<![\w:])std::({'|'.join(OF_MEMORY)})\b", r"crate::memory::\1", text)
    return re.sub(r"(?<![\w:])std::", "core::", text)


def without_shown(text):
    """Rule 1 for doc comments."""
    return re.sub(r"(^ *///\n)?^( *///) ```text\n(\2.*\n)*?\2 ```\n", "", text, flags=re.M)


def with_added(text, where):
    """Rule 9."""
    text = re.sub(r"^(?=use )", f"{PRELUDE}\n", text, count=1, flags=re.M)
    lines = ADDED.get(where, [])
    return text + (f"\n{ADDED_NOTE}\n" + "\n".join(lines) + "\n" if lines else "")


def without_bounds(text):
    """Rule 10."""
    return re.sub(r"^((?:pub(?:\([^)]*\))? )?(?:struct|enum) \w+<[^>]*?\bK): IntKey\b", r"\1", text, flags=re.M)


def tidied(text):
    """The text without the empty lines that the rules left."""
    text = re.sub(r"[ \t]+\n", "\n", text)
    text = re.sub(r"\n{3,}", "\n\n", text)
    text = re.sub(r"\{\n\n+", "{\n", text)
    text = re.sub(r"\n\n+([ ]*\})", r"\n\1", text)
    text = re.sub(r"\{\s+\}", "{}", text)
    return text.strip("\n") + "\n"


def erased(text, crate, name, by_hand):
    """The Rust text of the source `name` of a crate. `by_hand` are the modules that are written by hand."""
    text = tidied(without_ghosts(without_shown(text)))
    text = tidied(without_uncalled(without_impls(text), f"{crate}/{name}"))
    text = with_replaced(without_unnamed(text, f"{crate}/{name}"), f"{crate}/{name}")
    text = without_attributes(text).replace(FMT, FMT_OF_RUST)
    text = without_bounds(without_markers(without_modules(text, crate, name, by_hand)))
    for token in TOKEN.findall(text):
        if token in RATTLE:
            raise Refused(f"`{token}` is left")
    return tidied(with_added(with_paths(text, HOMES[crate]), f"{crate}/{name}"))
