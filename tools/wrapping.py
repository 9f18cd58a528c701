"""The public calls of the crate for Rust, and the proved calls that they make.

It reads what is written by hand in the folder rust/src. `table` is what the crate's README says of each public call,
`unwrapped` finds the public calls of the proved map and set that no public call of the crate makes, and `untested` the
public calls that have no line in the table of tests."""
import glob
import os
import re

PAGE = "README.md"
# the lines of tests, which begin with the name of a call
TESTS = "tests/calls/table.rs"
# what isn't the public layer: the proved text, and what it stands on
BELOW = ("proved", "memory", "guard.rs")

# Public calls of the proved map and set that no public call of the crate makes, and why.
LEFT = {
    "Entry::key": "the crate's `Entry` has its two kinds in its own hands",
    "Entry::into_map": "a proof follows the map out of an entry by it; Rust's borrows end by themselves",
    "OccupiedEntry::into_map": "the same",
    "OccupiedEntry::leave": "the same",
    "VacantEntry::into_map": "the same",
    "Entry::or_insert": "a guard holds the map while it may grow, and safe Rust gives no reference out of that",
    "Entry::or_insert_with": "the same",
    "Entry::or_insert_with_key": "the same; and std's closure takes the key by reference",
    "Entry::or_default": "the same; and std's `Default` takes no allocator",
    "Entry::or_try_insert_with": "the same",
    "VacantEntry::insert": "the same; `insert_entry` returns a place, which outlasts the guard",
    "IntMap::from_array": "it allocates a vector beside the map; Rust's arrays are iterators",
    "IntMap::get_counted": "the counter has no number in Rust",
    "DisjointMut::next_counted": "the same",
    "IntMap::load_rate": "Rust's `intmap` returns it as an `f64`",
    "IntMap::step": "an iterator borrows the map, and needs no cursor",
    "IntMap::copy_pairs": "the same",
    "IntMap::cut": "`extract_if` removes on the way",
    "IntMap::keep_marked": "`retain` removes in one pass",
    "IntMap::take_front": "`drain` makes it, and keeps what it requires",
    "IntSet::from_array": "it allocates a vector beside the set; Rust's arrays are iterators",
    "IntSet::extract_if": "the crate's goes by the step of the map's, which looks at each slot once",
    "IntSet::to_union": "Rust has operators, and `try_from_iter` of an iterator over two sets",
    "IntSet::to_intersection": "the same",
    "IntSet::to_difference": "the same",
    "IntSet::to_symmetric_difference": "the same",
    "IntSet::extend_from_set": "`extend` takes references to keys",
}

# A proved call under the guard that mends a map or a set after a panic.
GUARDED = re.compile(r"guarded!\(&mut (self\.\w+), \|(\w+)\| \2\.(\w+\((?:[^()]|\(\))*\))\)")
# A name that a body gives to one call and returns.
NAMED = re.compile(r"let (\w+) = ([^;{}]*); ([^;]*\b\1\b[^;]*)$")

# the crates of the map and the set, and the modules whose functions aren't calls on them
CRATES, NOT_CALLS = ["intmap", "intmap_set"], ("/laws.rt", "/decimal.rt", "/json.rt", "/json/read.rt")
# How a public call of the crate reaches a proved one of a type: the files, and what is before the name.
OF_MAP, OF_SET, OF_ENTRY = r"(map|traits|iter|entry)(/|\.rs)", r"set(/|\.rs)", r"entry(/|\.rs)"
REACHED = {
    "IntMap": (OF_MAP, r"(self\.map\.|Proved::)"),
    "IntSet": (OF_SET, r"(self\.set\.|Proved::)"),
    "Entry": (OF_ENTRY, r"(self\.proved\(\)|entry_of\(found\))\."),
    "OccupiedEntry": (r"entry/occupied\.rs", r"self\.0\."),
    "VacantEntry": (r"entry/vacant\.rs", r"(self\.0|vacant_entry\(key, slot\))\."),
}

# The body of a call that is a proved one: the call with its arguments as they are, and what may be around it.
CALL = r"(?:self\.(?:map|set|0|inner)|self\.proved\(\)|Proved)(?:\.|::)\w+\((?:[\w&., ]|\.into_iter\(\))*\)"
FORWARDS = [
    r"CALL;?",
    r"granted\(CALL\)",
    r"self\.(?:map|set) == other\.(?:map|set)",
    r"(?:Ok\()?[\w$]+ \{ (?:map|set|inner): CALL\??,? \}\)?",
    r"Debug::fmt\(&self\.inner, f\)",
    r"Entry::of\(CALL\)",
]
# A call of another public call of the crate, which is what that one is.
PASSES_ON = r"(?:granted\()?(?:self\.|Int(?:Map|Set)::)(\w+)\([\w, ]*\)\)?;?"
# the types and the calls whose loans of values are written by hand below `proved`
LENT = {"IterMut", "ValuesMut", "iter_mut", "values_mut", "retain_mut", "get_disjoint_mut"}
# The public calls of sets whose part below `proved` is written by hand, over one proved call of the map.
OVER_MAP = {"`IntSet`": ["get", "load", "load_factor_thousandths", "try_set_load_factor_thousandths"], "`set::ExtractIf`": ["next"]}
# Calls in a body that are proved, or public calls of the crate. Lengths are beside the point, and what mends.
CALLS = r"(self\.(?:map|set|0|inner)|self|Proved|Int(?:Map|Set))(?:\.|::)(\w+)\("
BESIDE = {"len", "capacity", "proved", "parted"}
AGAIN = r"\bmap\.(entry_of|vacant_entry)\([\w, ]*\)"

KINDS = ["Is one proved call", "One proved call, and more by hand", "By hand"]
RULE = "---|---|---|---"


def text_of(path):
    with open(path, encoding="utf-8") as file:
        return file.read()


def layer(folder):
    """The code of each file that is written by hand for users, without comments, by its path."""
    found = {}
    for path in sorted(glob.glob(f"{folder}/src/**/*.rs", recursive=True)):
        name = os.path.relpath(path, f"{folder}/src")
        if not name.startswith(BELOW):
            lines = GUARDED.sub(r"\1.\3", text_of(path)).split("\n")
            found[name] = "\n".join(it for it in lines if not it.lstrip().startswith("//"))
    macros = {it[1]: it[0] for text in found.values() for it in re.finditer(r"^macro_rules! (\w+) \{\n(?:.*\n)*?\}\n", text, re.M)}
    for name, text in found.items():
        elsewhere = [it for it in macros if re.search(rf"^{it}!", text, re.M) and macros[it] not in text]
        found[name] = "".join(macros[it] for it in elsewhere) + text
    return found


def group(text, start):
    """What is within the first braces from a place on."""
    depth, first = 0, text.index("{", start)
    for at in range(first, len(text)):
        depth += (text[at] == "{") - (text[at] == "}")
        if depth == 0:
            return text[first + 1 : at]
    raise ValueError("a brace isn't closed")


def without_generics(head):
    """The head of an `impl` without the generics of its own and of its type, and without lifetimes and bounds."""
    head = re.sub(r"&?'\w+ ?", lambda it: "&" if it[0][0] == "&" else "", head).partition(" where ")[0].replace("->", "")
    trait, _, of = head.rpartition(" for ")
    while (fewer := re.sub(r"<[^<>]*>", "", of)) != of:
        of = fewer
    trait += f" for {of.strip()}" if "mut " in of else ""
    return re.sub(r"^<.*?>(?= \w| \$)", "", trait).strip(), re.sub(r"&|mut ", "", of).strip()


def names_made(text, macro):
    """The names that a macro is given where it is used, each the first word of a line of its."""
    for use in re.findall(rf"\b{macro}!\s*[({{]((?:[^(){{}}]|\([^()]*\))*)[)}}]", text):
        for line in re.sub(r"\[[^\]]*\]|\|[^;]*", "", use).split(";"):
            words = re.findall(r"(?<![\w<&'])[A-Za-z]\w*", line)
            yield from words[:1] if re.search(r"=|->", line) else words


def public_calls(text):
    """Each public call that a text has: the type, the trait if it is of one, the name, and the body in a line."""
    for impl in re.finditer(r"^ *impl\b([^{]*)(?=\{)", text, re.M):
        trait, of = without_generics(impl[1])
        macros = re.findall(r"macro_rules! (\w+)", text[: impl.start()])
        made = list(names_made(text, macros[-1])) if "$" in trait + of else [""]
        body = group(text, impl.end())
        for call in re.finditer(r"^ *(pub )?fn ([\w$]+)", body, re.M):
            for name in made if trait or call[1] else []:
                code = " ".join(group(body, call.end()).split()).replace("copied(&self.inner)", "self.inner.clone()")
                if named := NAMED.search(code):
                    returned = re.sub(rf"{{ {named[1]} }}", f"{{ {named[1]}: {named[1]} }}", named[3])
                    returned = re.sub(rf"\b{named[1]}\b(?!:)", lambda _: named[2], returned)
                    code = code[: named.start()] + returned
                code = code.replace("Self::", f"{of}::")
                yield re.sub(r"\$\w+", name, of), re.sub(r"\$\w+", name, trait), call[2], code


def is_proved(body):
    """Whether a body is one proved call."""
    return any(re.fullmatch(it.replace("CALL", CALL), body) for it in FORWARDS)


def kind_of(body, trait, bodies, seen=()):
    """Which of KINDS a body is, by its number. A trait is named if the body is of one."""
    other = re.fullmatch(PASSES_ON, body)
    if other and other[1] in bodies and other[1] not in seen:
        return kind_of(bodies[other[1]], "", bodies, (*seen, other[1]))
    if is_proved(body):
        return 0
    made = [it for it in re.findall(CALLS, re.sub(AGAIN, "self.0", body)) if it[1] not in BESIDE]
    if trait == "Debug" or len(made) != 1:
        return 2
    (receiver, name), *_ = made
    if name in LENT:
        return 2
    is_own = receiver in ("self", "IntMap", "IntSet") and name in bodies and name not in seen
    return max(1, kind_of(bodies[name], "", bodies, (*seen, name))) if is_own else 1


def path_of(file, of):
    """What users call a type of a file."""
    place = {"iter.rs": "iter::", "set/iter.rs": "set::"}.get(file, "")
    return f"`{of}`" if of in ("IntMap", "IntSet") else f"`{place}{of}`"


def table(folder):
    """The table of the public calls by what they are. Types whose calls are alike are in one row."""
    calls = [(file, *it) for file, text in layer(folder).items() for it in public_calls(text)]
    found = {}
    for file, of, trait, call, body in calls:
        bodies = {it[3]: it[4] for it in calls if it[1] == of and not it[2]}
        path = path_of(file, of)
        kind = 2 if {of, call} & LENT else 1 if call in OVER_MAP.get(path, []) else kind_of(body, trait, bodies)
        cells = found.setdefault(path, [set() for _ in KINDS])
        cells[kind].add(call if trait in ("", "Iterator") else trait)
    rows = {}
    for of, cells in found.items():
        row = " | ".join(", ".join(f"`{it}`" for it in sorted(cell)) or "-" for cell in cells)
        rows.setdefault(row, []).append(of)
    return "\n".join([" | ".join(["Type", *KINDS]), RULE, *(f"{', '.join(of)} | {it}" for it, of in rows.items()), ""])


def page(folder):
    """The crate's README with the table of its public calls, which stands where a table with its first line was."""
    made = table(folder)
    first = made.split("\n")[0]
    return re.sub(rf"^{re.escape(first)}\n(.+\n)*", lambda _: made, text_of(f"{folder}/{PAGE}"), count=1, flags=re.M)


def proved_calls():
    """The public calls of the proved map and set, each with its source: `Type::name`."""
    for crate in CRATES:
        for path in sorted(glob.glob(f"crates/{crate}/src/**/*.rt", recursive=True)):
            text = "\n".join(it for it in text_of(path).split("\n") if not it.lstrip().startswith("//"))
            if path.endswith(NOT_CALLS):
                continue
            for impl in re.finditer(r"^impl\b([^{]*?)(?= \{$)(.*?)^\}", text, re.M | re.S):
                trait, of = without_generics(impl[1])
                yield from [(f"{of}::{it}", path) for it in re.findall(r"^    pub fn (\w+)", impl[2], re.M) if not trait]


def is_reached(call, files):
    """Whether a public call of the crate makes a proved one."""
    of, _, name = call.partition("::")
    places, before = REACHED.get(of, ("$.", ""))
    pattern = re.compile(rf"{before}{name}\(")
    return any(pattern.search(text) for file, text in files.items() if re.match(places, file))


def unwrapped(folder):
    """Each public call of the proved map and set that no public call of the crate makes and LEFT doesn't have, as a
    line. And what LEFT has to no purpose."""
    files, calls = layer(folder), dict(proved_calls())
    for call, path in calls.items():
        if not is_reached(call, files) and call not in LEFT:
            yield f"{path}: no public call of the crate makes `{call}`, and LEFT of tools/wrapping.py has no reason"
    for call in LEFT:
        if call not in calls or is_reached(call, files):
            yield f"tools/wrapping.py: LEFT has `{call}`, which {'is made' if call in calls else 'is no proved call'}"


def untested(folder):
    """Each public call of a map, an entry and a set that has no line in the table of tests, as a line."""
    lines = set(re.findall(r'"(\w+::\w+)', text_of(f"{folder}/{TESTS}")))
    for file, text in layer(folder).items():
        for of, trait, name, _ in public_calls(text):
            if of in REACHED and not trait and f"{of}::{name}" not in lines:
                yield f"{folder}/src/{file}: {TESTS} has no line of `{of}::{name}`"


def faults(folder):
    """What is wrong with the public calls of the crate in a folder, each as a line."""
    yield from unwrapped(folder)
    yield from untested(folder)
    if table(folder) not in text_of(f"{folder}/{PAGE}"):
        yield f"rust/{PAGE} doesn't have the table of public calls that tools/erase writes"
