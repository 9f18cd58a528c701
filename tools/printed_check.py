"""Tries the library for C as it is printed, for tools/printed, beside the archive that was built."""
import shutil

from crates import GIVEN_IN_C, PRINTED_IN_C, kit, skip, text_of, told
from portable import MODULE, c_of_module

FOLDER = "bindings/c"
PORTABLE = f"{FOLDER}/intmap.c"
COMPILERS = ["gcc", "clang"]
# what compiles for other machines, and what runs that, as Debian has them
EMULATED = [
    ("aarch64-linux-gnu-gcc", ["qemu-aarch64", "-L", "/usr/aarch64-linux-gnu"]),
    ("s390x-linux-gnu-gcc", ["qemu-s390x", "-L", "/usr/s390x-linux-gnu"]),
]
# all that the file may need
NEEDED = {"malloc", "realloc", "free", "memmove", "memset", "memcpy", "abort", "__udivti3", "__divti3", "__popcountdi2"}
# makes the same calls in each library, and tells what it requested
TEST = f"{FOLDER}/test.c"
# a setting of glibc
UNFRESH = ["env", "MALLOC_PERTURB_=90"]
# becomes C by way of a module, and is tried beside itself
SAMPLES = "tools/portable_driver/samples.c"
WRAPPED = [f"-Wl,--wrap={it}" for it in ("malloc", "realloc", "free")]
CALLS, CALLS_IN_BOTH = 20_000, 1_000_000
# fills each variable that a function doesn't start, if a compiler knows it
FILLED = "-ftrivial-auto-var-init=pattern"
# in seconds, of a run, which takes a few
LIMIT = 120


def names(*words):
    """The names that nm prints, without their versions."""
    status, said = told("nm", "--format=just-symbols", *words)
    return {line.split()[-1].partition("@")[0] for line in said.splitlines()} if status == 0 else {said}


def wrong_names(compiler, room):
    """What is wrong with the names of the file, as this compiler takes it."""
    module, library = f"{room}/intmap.o", f"{room}/libintmap.so"
    for words in (["-O2", "-c", PORTABLE, "-o", module], ["-O2", "-shared", "-fPIC", "-Wl,-z,text", PORTABLE, "-o", library]):
        status, said = told(compiler, *words)
        if status:
            yield f"{compiler} {' '.join(words)}: {said}"
            return
    exported, shared = names("--extern-only", "--defined-only", module), names("--dynamic", "--defined-only", library)
    for name in sorted(names("--undefined-only", module) - NEEDED):
        yield f"{PORTABLE} by {compiler} needs {name}"
    for name in sorted(it for it in exported if not it.startswith("intmap_")):
        yield f"{PORTABLE} by {compiler} exports {name}"
    if exported != shared or not exported:
        yield f"{PORTABLE} by {compiler} exports {sorted(exported)}, and as a shared library {sorted(shared)}"


def said_in(room, compiler, library, *words):
    """What the test says over this library, behind words for the compiler. New and freed blocks are filled."""
    program = f"{room}/test"
    status, said = told(compiler, "-std=gnu11", "-O2", f"-I{FOLDER}", *words, *WRAPPED, TEST, *library, "-o", program)
    return said if status else told(*UNFRESH, program, str(CALLS_IN_BOTH), timeout=LIMIT)[1]


def unlike_calls(room, archive):
    """By which compilers the file differs from the archive in some call."""
    for compiler in filter(shutil.which, COMPILERS):
        wanted = said_in(room, compiler, [archive, f"{kit()}/c/liblibc_c.a"])
        filled = [] if told(compiler, FILLED, "-fsyntax-only", "-x", "c", "/dev/null")[0] else [FILLED]
        for words in (["-O2"], ["-O3", "-DINTMAP_PLAIN_C"], ["-O1", *filled]):
            said = said_in(room, compiler, [PORTABLE], *words)
            if said != wanted or ", 0 wrong, " not in said:
                yield f"{PORTABLE} by {compiler} {' '.join(words)} isn't like the archive: {said}in place of {wanted}"


def wrong_samples(compiler, room):
    """Whether the samples do something else once they are printed from a module."""
    status, said = told(
        f"{kit()}/toolchain/bin/clang", "--no-default-config", *MODULE.split(), SAMPLES, "-o", f"{room}/samples.ll"
    )
    if status:
        yield said
        return
    with open(f"{room}/samples.c", "w", encoding="utf-8") as file:
        file.write(c_of_module(text_of(f"{room}/samples.ll"), "#define PRINTED\n", {}, SAMPLES))
    for words in ([], ["-DINTMAP_PLAIN_C"]):
        program = f"{room}/samples"
        status, said = told(compiler, "-O2", "-w", f"-I{FOLDER}", *words, SAMPLES, f"{room}/samples.c", "-o", program)
        if status == 0:
            status, said = told(program, timeout=LIMIT)
        if status or not said.endswith(" rounds, 0 differ\n"):
            yield f"{SAMPLES} isn't the same behind the printer, by {compiler} {' '.join(words)}: status {status}\n{said}"


def wrong_run(compiler, runs, room, name, words, given, wanted):
    """What is wrong with a program of the folder over the file, on an emulated machine."""
    program, wrapped = f"{room}/{name}", WRAPPED if name == "test" else []
    status, said = told(compiler, "-O2", f"-I{FOLDER}", f"{FOLDER}/{name}.c", PORTABLE, "-pthread", "-o", program, *wrapped)
    if status == 0:
        status, said = told(*runs, program, *words, input=given, timeout=LIMIT)
    if status != 0 or not said.startswith(wanted):
        yield f"{name}.c by {compiler} and {runs[0]}: status {status}\n{said}"


def faults(room, archive):
    """What is wrong with the file as compilers take it, a line each. What was tried is printed."""
    there = [it for it in COMPILERS if shutil.which(it)]
    for compiler in set(COMPILERS) - set(there):
        skip(f"intmap.c by {compiler}", compiler)
    for compiler in there:
        yield from wrong_names(compiler, room)
    yield from unlike_calls(room, archive)
    for compiler in there[:1]:
        yield from wrong_samples(compiler, room)
    for compiler, runs in EMULATED:
        if shutil.which(compiler) and shutil.which(runs[0]):
            there.append(compiler)
            yield from wrong_run(compiler, runs, room, "example", [], GIVEN_IN_C, PRINTED_IN_C)
            yield from wrong_run(compiler, runs, room, "test", [str(CALLS)], "", f"{CALLS} calls, ")
        else:
            lacking = [it for it in (compiler, runs[0]) if not shutil.which(it)]
            skip("intmap.c on an emulated machine", *lacking)
    print(f"printed: tried by {', '.join(there) or 'no compiler'}", flush=True)
