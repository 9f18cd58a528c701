"""What other crates can name of the sources: types, functions and methods, each with its comment, its signature and its
contract."""
import functools
import re

# a function's head up to its name, at the indentation of a group
HEAD = re.compile(r'^( *)pub (?:unsafe )?(?:extern "C" )?fn (\w+)', re.M)
CLAUSE = re.compile(r"^ +(?:requires|ensures|ghost)\b", re.M)
TYPE = re.compile(r"^pub (?:struct|enum|trait) (\w+)", re.M)
GHOST = re.compile(r"^    ghost (?!use )\w+ = \{", re.M)
IMPL = re.compile(r"^(?:unsafe )?impl(.*?) \{(\}?)$", re.M | re.S)
# a method of a trait with a comment of its own
OF_TRAIT = re.compile(r"(?<=\n)    fn (\w+).*?(?= \{\n|;\n|\n    \{)", re.S)
DERIVED = re.compile(r"#\[derive\((.*)\)\]\n(?:#.*\n)*$")
BRACE = re.compile(r"[{}]")
EXAMPLE = re.compile(r"^```text\n(.*?)^```\n?", re.M | re.S)
LINK = re.compile(r"\[(`[^`]+`)\](?:\([^)]*\))?")


class Item:
    """A type or a call: of which type, by which name, from which file, and what its source says."""

    def __init__(self, owner, name, path, comment, signature, contract="", traits=()):
        self.owner, self.name, self.path = owner, name, path
        self.comment = LINK.sub(r"\1", EXAMPLE.sub("", comment)).strip("\n")
        self.example = EXAMPLE.findall(comment)
        self.signature, self.contract, self.traits = signature, contract, traits


def comment_above(text, at):
    """The documentation comment that ends above a place, without its slashes; attributes may stand between."""
    lines = []
    for line in reversed(text[:at].splitlines()):
        if not line.strip().startswith(("///", "#[")):
            break
        if line.strip().startswith("///"):
            lines.append(f"{line.strip().removeprefix('///').removeprefix(' ')}\n")
    return "".join(reversed(lines))


def closed(text, at):
    """The place behind the brace that closes the one at a place."""
    depth = 0
    for brace in BRACE.finditer(text, at):
        depth += 1 if brace[0] == "{" else -1
        if not depth:
            return brace.end()
    raise ValueError(f"no brace closes that at {at}")


def dedented(lines):
    margin = min((len(it) - len(it.lstrip()) for it in lines if it.strip()), default=0)
    return "\n".join(it[margin:].rstrip() for it in lines)


def halves_of(head):
    """The signature of a function's head, and its contract with the comments in it."""
    lines = head.rstrip().splitlines()
    at = next((at for at, it in enumerate(lines) if CLAUSE.match(it)), len(lines))
    while lines[at - 1].strip().startswith("//"):
        at -= 1
    return dedented(lines[:at]).rstrip().removesuffix(","), dedented(lines[at:])


def functions(text, path, owner_at):
    """The public functions of a file."""
    for mark in HEAD.finditer(text):
        body = re.compile(rf"^{mark[1]}\{{\}}?$|^{mark[1]}pub .*fn .*\{{$|^{mark[1]}(?:\)|where).*\{{$", re.M).search(text, mark.start())
        head = text[mark.start() : body.end() if body else len(text)].removesuffix("}").removesuffix("{")
        yield Item(owner_at(mark.start()), mark[2], path, comment_above(text, mark.start()), *halves_of(head))


def type_of(header):
    """The type that an `impl` is for, and its trait, if any."""
    header = re.sub(r"\s+", " ", header)
    depth = 0
    for at, letter in enumerate(header):
        depth += {"<": 1, ">": -1}.get(letter, 0) if header[at - 1] != "-" else 0
        if not depth:
            break
    rest = header[at + 1 :] if header.startswith("<") else header
    rest = rest.split(" where ")[0].strip()
    trait, _, kind = rest.rpartition(" for ")
    return re.sub(r"^&(?:'\w+ )?(?:mut )?", "", kind).split("<")[0].split("::")[-1], trait, kind


def impls(text):
    """Each `impl` of a file: from where to where, its type, its trait and the whole type."""
    for mark in IMPL.finditer(text):
        end = mark.end() if mark[2] else text.index("\n}", mark.end() - 1)
        yield (mark.start(), end, *type_of(mark[1].strip()))


def public_lines(lines):
    """The public fields of a struct, with their comments."""
    comment, found = [], []
    for line in lines:
        comment = [*comment, line] if line.lstrip().startswith(("///", "pub ")) else []
        if line.lstrip().startswith("pub "):
            found, comment = found + comment, []
    return found


def declared(text, path):
    """The public types of a file, each with what of it is public, and the traits that are derived."""
    for mark in TYPE.finditer(text):
        is_unit = text[mark.end()] == ";"
        end = mark.end() + 1 if is_unit else closed(text, text.index("{", mark.start()))
        first, *lines = text[mark.start() : end].splitlines()
        shown = public_lines(lines[:-1]) if first.startswith("pub struct") else lines[:-1]
        signature = "\n".join([first, *shown, "}"]) if shown else first.removesuffix(" {")
        derived = DERIVED.search(text[: mark.start()])
        traits = derived[1].split(", ") if derived else []
        yield Item(mark[1], "", path, comment_above(text, mark.start()), signature, traits=traits)


def promised(text):
    """What an `impl` promises: its head, what it has for proofs alone, and the methods with a contract."""
    parts = [f"{text[it.start() : closed(text, it.end() - 1)]};" for it in GHOST.finditer(text)]
    parts += [it[0] for it in OF_TRAIT.finditer(text) if CLAUSE.search(it[0])]
    return "\n".join([text.partition(" {\n")[0], *parts]) if parts else ""


@functools.lru_cache(None)
def of_file(path, text):
    """The calls, the types and the traits of a file. A trait has its type, its name, the whole type, what its `impl` says, and
    the methods that have a comment."""
    groups, traits = [*impls(text)], []

    def owner_at(place):
        return next((it[2] for it in groups if it[0] <= place < it[1] and not it[3]), "")

    for start, end, kind, trait, whole in groups:
        if trait:
            body = text[start:end]
            heads = ((it, comment_above(body, it.start())) for it in OF_TRAIT.finditer(body))
            methods = [Item(kind, it[1], path, told, halves_of(it[0])[0], promised(body)) for it, told in heads if told]
            traits.append((kind, trait, whole, Item(kind, trait, path, comment_above(text, start), "", promised(body)), methods))
    return [*functions(text, path, owner_at)], [*declared(text, path)], traits


class Sources:
    """The public items of some files; and the traits of each type."""

    def __init__(self, files):
        self.calls, self.types, self.traits = [], {}, {}
        for path, text in files.items():
            calls, types, traits = of_file(path, text)
            self.calls += calls
            self.types |= {it.owner: it for it in types if it.owner not in self.types}
            for it in traits:
                self.traits.setdefault(it[0], []).append(it[1:])
