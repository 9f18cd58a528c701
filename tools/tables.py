"""What tools/calls writes into pages beside the calls: links to the definitions that contracts cite, where laws are called, and the
table of scripts."""
import glob
import os
import re
import textwrap

from crates import text_of

# the page that has the table of scripts
SCRIPTS = "CONTRIBUTING.md"
# from the folder of these pages
TOP = "../../"
# whose sources show how to call, and whose answers how to apply
CALLERS = "crates/caller"
IMPORTED = re.compile(r"^use (\w+)::(?:\{[^}]*\blaws\b[^}]*\}|laws);", re.M)
# an answer's law
APPLIED = re.compile(r"\bc\.(\w+)\.ensures")
# what the gate runs, and the line at which its proofs begin
GATE, PROOFS = ".ci/run", 'echo "== rt ci"'
CRATES = ["intmap_table", "intmap", "intmap_set", "intmap_sparse", "intmap_run", "intmap_text", "intmap_c"]
DEFINITION = re.compile(r"^( *)((?:-- .*\n *)*)((?:(?:abbrev|unfoldable) pub|pub (?:record|data)) (\w+)(?= [:({])(?:.+\n)+)", re.M)
MODULE = re.compile(r"^pub mod (\w+)$", re.M)
# the definitions that a file names
USED = re.compile(r"\buse Rattle\.(\w+)\.specs\.(\w+)\.\{([^}]*)\}")
WORD = re.compile(r"(?<![\w.'-])[A-Za-z_][\w'-]*")
# what `intmap` passes on of the crate below
PASSED_ON = re.compile(r"^pub use Rattle\.intmap_table\.specs\.(\w+)", re.M)
# what the first line of a file ends with whose words no public clause has
UNCITED = re.compile(r"-- .*No public clause cites this")


def wrapped(text):
    lines = textwrap.wrap(text, 150, break_long_words=False, break_on_hyphens=False)
    return "\n".join(lines) + "\n\n" if lines else ""


def comment_of(lines):
    """What a comment says, without its stop."""
    return " ".join(it.strip().removeprefix("--").strip() for it in lines.strip().splitlines()).removesuffix(".")


def files_of(crate, files):
    """The files of a crate that have words of contracts, in the order of its modules."""
    root = files[f"crates/{crate}/specs/Lib.antt"]
    modules = MODULE.findall(root)
    if crate == "intmap_table":
        cited = {it for path, text in files.items() if path.startswith("crates/intmap/specs/") for it in PASSED_ON.findall(text)}
        modules = [it for it in modules if it in cited]
    found = [(it, f"crates/{crate}/specs/{it}.antt") for it in modules]
    return [(it, path) for it, path in found if DEFINITION.search(files.get(path, "")) and not UNCITED.match(files[path])]


class Definitions:
    """The definitions that contracts cite, by crate, module and name: each with its file, its line there, and its comment."""

    def __init__(self, files):
        self.found = {}
        for crate in CRATES:
            for module, path in files_of(crate, files):
                for mark in DEFINITION.finditer(files[path]):
                    line = files[path].count("\n", 0, mark.start(3)) + 1
                    self.found[crate, module, mark[4]] = path, line, comment_of(mark[2])

    def links(self, text, source):
        """Links to the definitions that a text cites, of those that its source names."""
        named = {name: (crate, module) for crate, module, names in USED.findall(source) for name in names.split(", ")}
        cited = [(it, *named[it]) for it in dict.fromkeys(WORD.findall(text)) if it in named]
        # `intmap` passes on modules of the crate below
        at = [(it, self.found.get((crate, module, it)) or self.found.get(("intmap_table", module, it))) for it, crate, module in cited]
        links = [f"[{it}]({TOP}{place[0]}#L{place[1]})" for it, place in at if place]
        return f"Definitions: {', '.join(links)}." if links else ""

    def uncommented(self):
        """The definitions without a comment."""
        return [f"{path}: no comment is above {name}" for (_, _, name), (path, _, told) in self.found.items() if not told]


def calls_of_laws(files):
    """By crate and law: links to a file that calls it and to an answer of that file that applies it, callers first."""
    calls, applied = {}, {}
    for path in sorted(files, key=lambda it: (not it.startswith(CALLERS), it)):
        if path.endswith(".rt") and "laws::" in files[path]:
            for crate in IMPORTED.findall(files[path]):
                for name in re.findall(r"\blaws::(\w+)", files[path]):
                    calls.setdefault((crate, name), []).append(path)
        elif path.endswith("/Answers.antt"):
            for name in APPLIED.findall(files[path]):
                applied.setdefault(name, []).append(path)
    found = {}
    for law, paths in calls.items():
        proofs = tuple(re.sub(r"(/(lib|main))?\.rt$", "/", it).replace("/src/", "/proofs/") for it in paths)
        answers = [it for it in applied.get(law[1], []) if it.startswith(proofs)]
        links = [f"{how} in [{it[0]}]({TOP}{it[0]})" for how, it in (("Called", paths), ("applied", answers)) if it]
        found[law] = f"{', '.join(links)}."
    return found


def sentence(text):
    """The first sentence of a text, without its stop."""
    return re.match(r".*?(?=\.(?:\s|$))", " ".join(text.split()))[0]


def first_sentence(path):
    """The first sentence of a script's own text."""
    text = text_of(path).partition("\n")[2]
    told = text.split('"""')[1] if text.startswith('"""') else re.match(r"(?:#.*\n)+", text)[0].replace("# ", "")
    return sentence(told)


def in_gate(script, gate):
    """How the gate runs a script: before its proofs, behind them, and with what."""
    found = []
    for when, part in zip(("first", "last"), gate.split(PROOFS)):
        for words in re.findall(rf"^[^#\n]*\b{script}\b((?: --[\w-]+)*)", part, re.M):
            found.append(f"{when}{f': `{words.strip()}`' if words else ''}")
    return "; ".join(found)


def scripts():
    """The scripts in the order of the gate, each with its first sentence and how the gate runs it."""
    gate = text_of(GATE)
    names = [it for it in glob.glob("tools/*") if os.path.isfile(it) and os.access(it, os.X_OK)]
    rows = [f"`{it}` | {first_sentence(it)} | {in_gate(it, gate) or 'by hand'}\n" for it in sorted(names, key=lambda it: (gate.find(it) % len(gate), it))]
    return f"\nScript | Does | In the gate\n---|---|---\n{''.join(rows)}\n"
