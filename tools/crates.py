"""What the scripts of this folder share: the crates of this repository, and what was built of them. All of it runs at
the top of the repository."""
import glob
import os
import re
import shutil
import subprocess

# what the example of bindings/c is given, and what it prints
GIVEN_IN_C, PRINTED_IN_C = "7 21 7 3\n21 7\n", "21: 2\n7: 3\n3: 1\n3 numbers in 4 slots\n"
# of what failed, so many of its last lines are shown
SHOWN = 40


def text_of(path):
    with open(path, encoding="utf-8", newline="") as file:
        return file.read()


def told(*words, **how):
    """The status of a command and what it said; status 124 if it took too long."""
    try:
        ran = subprocess.run(words, stdout=subprocess.PIPE, stderr=subprocess.STDOUT, text=True, errors="replace", **how)
    except subprocess.TimeoutExpired as late:
        return 124, f"it took more than {late.timeout} seconds"
    return ran.returncode, ran.stdout


def skip(what, *missing):
    """Says by name what isn't tried, since this machine lacks what it needs. .ci/run counts these lines."""
    print(f"skipped: {what}: there is no {', no '.join(missing)}", flush=True)


class Checks:
    """Counts what passed, failed and was skipped, and prints why something failed."""

    def __init__(self):
        self.passed, self.failed, self.skipped = 0, 0, 0

    def add(self, name, is_good, said):
        """One check more. Returns whether it passed."""
        self.passed, self.failed = self.passed + bool(is_good), self.failed + (not is_good)
        print(f"{name}: {'passed' if is_good else 'FAILED'}", flush=True)
        if not is_good:
            print("\n".join(said.splitlines()[-SHOWN:]), flush=True)
        return is_good

    def has(self, what, *names):
        """Whether all these programs are there. If not, what needs them is skipped."""
        missing = [it for it in names if not shutil.which(it)]
        if missing:
            self.skip(what, *missing)
        return not missing

    def skip(self, what, *missing):
        self.skipped += 1
        skip(what, *missing)

    def ended(self):
        """Prints the last line, and returns the status of the script."""
        print(f"{self.passed} passed, {self.failed} failed, {self.skipped} skipped")
        return 1 if self.failed or not self.passed else 0


def libraries_of(text):
    """The crates that lines of crates.txt name, each with the libraries that it uses."""
    return {name: uses.split() for name, uses in re.findall(r"^(\w+)[^:#\n]*:([^#\n]*)", text, re.M)}


def lines_for(text, names):
    """The lines of crates.txt for these crates."""
    return "".join(it for it in text.splitlines(keepends=True) if re.split(r"[ :]", it)[0] in names)


def crates_below(name):
    """A crate and those of this repository that it stands on, lowest first."""
    libraries = libraries_of(text_of("crates.txt"))
    found = []
    for library in libraries[name]:
        if library in libraries:
            found += [it for it in crates_below(library) if it not in found]
    return [*found, name]


def is_built(path, name):
    """Whether a file that is built from a crate is there, and no older than a source."""
    folders = [f"crates/{crate}/{part}" for crate in crates_below(name) for part in ("src", "specs", "proofs")]
    sources = [it for folder in folders if os.path.isdir(folder) for it in glob.glob(f"{folder}/**", recursive=True)]
    return os.path.exists(path) and all(os.path.getmtime(it) <= os.path.getmtime(path) for it in ["crates.txt", *sources])


def keep_checks(source, crate):
    """Lets a copy of a crate begin with what checks of the crate kept, unless it has that already. What was proved is
    linked, since a check replaces such a file and changes none."""

    def copy(one, other):
        try:
            if one.endswith(".oantt"):
                return os.link(one, other)
        except OSError:
            pass
        return shutil.copy2(one, other)

    if os.path.isdir(f"{source}/out") and not os.path.isdir(f"{crate}/out"):
        shutil.copytree(f"{source}/out", f"{crate}/out", symlinks=True, copy_function=copy)


def kit():
    """The folder of the toolchain."""
    return os.path.dirname(told("rt", "doc")[1].strip())


def are_left_by_ci(libraries):
    """Whether the libraries that were built last are those of `rt ci`: what a session's own checks build has a stamp."""
    folders = [(f"crates/{it}/out/rlib", it) for it in libraries]
    return all(os.path.isdir(f"{at}/{it}.rlib") and not os.path.exists(f"{at}/stamp") for at, it in folders)


def build_words(name, toolchain):
    """The command that proves a library for C over the libraries below it, as they were built last, and builds it
    by a toolchain. It takes further words."""
    place = kit()
    words = [f"{place}/bin/rattle", "build", "src/lib.rt", "--crate-name", name, "--crate-type", "staticlib"]
    for library in crates_below(name)[:-1]:
        folder = f"../{library}/out/rlib"
        words += ["--extern", f"{library}={folder}/{library}.rlib", "-L", f"dependency={folder}"]
    words += ["--extern", f"std={place}/rlibs/std.rlib", "-L", f"dependency={place}/rlibs"]
    words += ["--antt-project", f"{place}/rattle/logic/antt-project.json", "--logic-built", f"{place}/logic_built"]
    return [*words, "--toolchain", toolchain, "--backend", "llvm", "--jobs", str(min(4, len(os.sched_getaffinity(0))))]
