"""What is written from the sources into the pages of docs/reference that have calls: the types, functions and laws of a crate,
each with its signature, its comment, its cost, lines of code and its contract. It stands between two marks, and the rest of a
page is by hand. Behind a contract are links to the definitions that it cites, in the files of specs."""
import collections
import functools
import re
import textwrap

from packed import BLOCK, headings
from sources import Sources
from tables import Definitions, calls_of_laws, sentence, wrapped

API, LAWS, HEADER = "docs/API.md", "docs/reference/Laws.md", "bindings/c/intmap.h"
# the first mark says who writes it
BEGIN, END = "<!-- tools/calls --write writes this -->", "<!-- to here -->"
WRITTEN = re.compile(rf"(?<={re.escape(BEGIN)}\n)(.*?)(?={re.escape(END)})", re.S)
DECLARED = re.compile(r"^\w.*?\b(intmap_\w+)\(", re.M)
HEADING = re.compile(r"^#+ .+$\n", re.M)
# by page: its crate, its types in order, and its functions that are of none; all of them, as the header for C has them
ALL = ["all"]
PAGES = {
    "IntMap": ("intmap", ["IntMap"], []),
    "Entry": ("intmap", ["Entry", "OccupiedEntry", "VacantEntry"], []),
    "Iterators": ("intmap", "Iter Keys Values IterMut ValuesMut DisjointMut IntoIter IntoKeys IntoValues Drain ExtractIf Cursor".split(), ["are_distinct"]),
    "Errors": ("intmap", ["Cause", "Refused", "RefusedPair", "JsonCause"], []),
    "IntKey": ("intmap", ["IntKey", "Steps"], ["key_of"]),
    "IntSet": ("intmap_set", ["IntSet", "Difference", "Intersection", "Union", "SymmetricDifference", "Drain", "ExtractIf"], []),
    "SparseVec": ("intmap_sparse", ["SparseVec", "SparseCause"], []),
    "Runs": ("intmap_run", ["Command", "Answer", "Judge"], ["run"]),
    "Text": ("intmap_text", ["Line", "OddJudge"], ["read_line", "print_answer", "serve"]),
    "C": ("intmap_c", ["Handle", "Word", "FoundValue", "Pair", "FoundPair"], ALL),
}
CRATES = [*dict.fromkeys(it[0] for it in PAGES.values())]
# types and calls of the crate below that `intmap` passes on
PASSED_ON = ["key.rt", "steps.rt", "table/walk.rt"]
# what a row of API.md links to
LINKED = re.compile(r"\]\(reference/(\w+)\.md#([\w-]+)\)")
WITH_PRIVATE_TYPES = {"intmap_text"}
# traits that nearly every type has, or that proofs alone see
UNSAID = {"Model", "Drop"}


@functools.lru_cache(None)
def paths_of(crate, paths):
    """The sources of a crate and of what it passes on, in one order everywhere."""
    of = [f"crates/{crate}/src/"] + ([f"crates/intmap_table/src/{it}" for it in PASSED_ON] if crate == "intmap" else [])
    return sorted(it for it in paths if it.startswith(tuple(of)) and it.endswith(".rt"))


@functools.lru_cache(None)
def sources_in(texts):
    return Sources(dict(texts))


def sources_of(crate, files):
    """The public items of a crate, and those that it passes on."""
    return sources_in(tuple((it, files[it]) for it in paths_of(crate, tuple(files))))


@functools.lru_cache(None)
def costs_in(text):
    """By page and anchor that a row of API.md links to: the place of the row, and its cost."""
    found = {}
    for table in re.findall(r"^Call \|.*Cost\n(?:.*\|.*\n)*", text, re.M):
        for row in table.splitlines():
            found |= {it: (len(found), row.rpartition("| ")[2]) for it in LINKED.findall(row) if it not in found}
    return found


def cost_of(page, item, anchor, files):
    """The place of a call's row in API.md, and its cost, or None if no row links to the call."""
    rows = costs_in(files[API])
    # a heading that occurs again may have the row of the first; what no row has of a set is as of a map
    links = [(page, anchor), (page, re.sub(r"-\d+$", "", anchor)), (item.owner.replace("IntSet", "IntMap"), anchor)]
    return next((rows[it] for it in links if it in rows), (len(rows), None))


def anchored(sources, types):
    """By type of a page: its calls, each with the anchor of its heading."""
    times = collections.Counter()
    for kind in types:
        calls = [it for it in sources.calls if it.owner == kind]
        yield kind, [(it, f"{it.name}-{times[it.name]}" if times[it.name] else it.name) for it in calls]
        times.update(it.name for it in calls)


def block(kind, text):
    return f"```{kind}\n{text.rstrip()}\n```\n"


def paragraphs(comment):
    return "".join(f"{it}\n\n" if it.startswith("- ") else wrapped(it) for it in comment.split("\n\n"))


def with_index(page, text, files):
    """A text behind links to its headings, each with the first sentence below it."""
    whole = files.get(page, "").partition(BEGIN)[0] + text
    below = HEADING.split(BLOCK.sub("", whole))[1:]
    lines = []
    for (depth, head, anchor), told in zip(headings(whole), below):
        if depth > 1:
            lines.append(f"{'  ' * (depth - 2)}- [{head}](#{anchor})" + (f": {sentence(told)}." if told.strip() else ""))
    return "\n" + "\n".join(lines) + "\n\n" + text


class Reference:
    """Renders items of a crate on a page."""

    def __init__(self, page, crate, files, definitions):
        self.name, self.crate, self.files, self.definitions = page, crate, files, definitions
        self.sources = sources_of(crate, files)

    def links(self, item, told=""):
        """A sentence, and links to the definitions that a contract cites."""
        return wrapped(f"{told} {self.definitions.links(item.contract, self.files[item.path])}".strip())

    def call(self, item, anchor="", name="", note=""):
        """A call: comment, signature with contract, cost, links to the definitions that the contract cites, lines of code."""
        head = name or f"`{item.name}`"
        _, cost = cost_of(self.name, item, anchor or headings(f"# {head}\n")[0][2], self.files)
        is_of_trait = item.contract.startswith("impl")
        told = [item.signature, item.contract] if is_of_trait else [f"{item.signature}\n{textwrap.indent(item.contract, '    ')}"]
        text = f"### {head}\n\n{paragraphs(item.comment)}" + "".join(f"{block('rust', it)}\n" for it in told)
        text += self.links(item, f"Cost: {cost}." if cost else note)
        return text + "".join(f"{block('text', it)}\n" for it in item.example)

    def traits(self, kind):
        """The traits of a type, and what those promise of which no method has a comment."""
        told, promised = [f"`{it}`" for it in self.sources.types[kind].traits if it not in UNSAID], ""
        for trait, whole, it, methods in self.sources.traits.get(kind, []):
            if it.path.startswith(f"crates/{self.crate}/"):
                told += [f"`{trait}`" + (f" of `{whole}`" if whole.startswith("&") else "")] * (trait not in UNSAID)
                is_shown = it.contract and not methods and (trait not in UNSAID or trait == "Drop")
                promised += paragraphs(it.comment) + f"{block('rust', it.contract)}\n{self.links(it)}" if is_shown else ""
        return wrapped(f"Traits: {', '.join(dict.fromkeys(told))}." if told else "") + promised

    def type(self, kind, calls):
        """A type: what of it is public, comment, traits, calls with their anchors, and what its traits say of their methods."""
        it = self.sources.types[kind]
        text = f"## `{kind}`\n\n{block('rust', it.signature)}\n{paragraphs(it.comment)}"
        text += "".join(f"{block('text', one)}\n" for one in it.example) + self.traits(kind)
        text += "".join(self.call(*one) for one in sorted(calls, key=lambda one: cost_of(self.name, *one, self.files)[0]))
        for trait, whole, _, methods in self.sources.traits.get(kind, []):
            of = f" of `{whole}`" if whole.startswith("&") else ""
            text += "".join(self.call(one, name=f"`{trait}::{one.name}`{of}") for one in methods if trait not in UNSAID)
        return text

    def page(self, types, functions):
        names = {it.name: it for it in self.sources.calls if not it.owner}
        if functions is ALL:
            # what the header lacks comes last: tools/header names it
            declared = DECLARED.findall(self.files[HEADER])
            functions = sorted(names, key=lambda it: declared.index(it) if it in declared else len(declared))
        text = "".join(self.type(*it) for it in anchored(self.sources, types)) + ("## Functions\n\n" if functions else "")
        return text + "".join(self.call(names[it]) for it in functions)

    def laws(self, shown):
        """The laws of the crate: the functions that take and return nothing. `shown` has where each is called."""
        found = [it for it in self.sources.calls if not it.owner and it.signature.endswith("()")]
        text = "".join(self.call(it, note=shown.get((self.crate, it.name), "")) for it in found)
        return f"## Of {self.crate}::laws\n\n{text}" if found else ""


def not_told(files):
    """The public types and functions of the crates that no page has, and what has no comment."""
    for crate in CRATES:
        root = files[f"crates/{crate}/src/lib.rt"]
        named = {*re.findall(r"\w+", " ".join(re.findall(r"^pub use ([^;]+);", root, re.M)))}
        found = sources_of(crate, files)
        # a module that is private, with nothing named of it, has types of its own
        public = {it for it in found.types if it in named or crate not in WITH_PRIVATE_TYPES}
        public |= {it.name for it in found.calls if not it.owner and it.name in named}
        shown = {it for of, types, functions in PAGES.values() if of == crate for it in [*types, *functions]}
        yield from (f"tools/reference.py: no page has {it} of {crate}" for it in sorted(public - shown))
        yield from (f"{it.path}: no comment is above {it.name or it.owner}" for it in [*found.calls, *found.types.values()] if not it.comment)
    yield from Definitions(files).uncommented()


def rendered(files):
    """What stands between the marks of each page."""
    definitions, shown = Definitions(files), calls_of_laws(files)
    pages = {f"docs/reference/{name}.md": Reference(name, it[0], files, definitions).page(*it[1:]) for name, it in PAGES.items()}
    pages[LAWS] = "".join(Reference("Laws", crate, files, definitions).laws(shown) for crate in CRATES)
    return {page: with_index(page, text, files) for page, text in pages.items()}
