"""The repository's programs: their proved builds, and those that are compiled from the sources without a proof."""
import contextlib
import functools
import hashlib
import os
import shutil
import signal
import subprocess
import sys
import tempfile
import time

from . import compiler
from .kit import CC, TOP, demand, guarded, load_rt, place, read, say, stop, text_of, version_of_rt, written
from .sources import needs_of, sum_of_files, walked

# Their names in the shell.
NAMES = ("cookie-run", "cookie-jar")
COMPILED, LOG = f"{TOP}/out/compiled", f"{TOP}/out/{{}}.log"
# The folders of a crate that a build reads.
PARTS = ("src", "specs", "proofs")
SUFFIXES = f"{TOP}/examples/suffixes.dat"
SEED = "00" * 32
BEGIN = "2024-01-01T00:00:00Z"
# Words with which a program ends with 0, over a store file or a jar that isn't there.
STORE = "store.ron"
RUN = {"cookie-run": [SUFFIXES, SEED, STORE, BEGIN],
       "cookie-jar": ["--now", BEGIN, "--suffixes", SUFFIXES, "--format", "ron", STORE, "list"]}
# Seconds of a first compile, on four calm cores at 2.5 GHz.
SECONDS = {"cookie-run": 55, "cookie-jar": 70}
# Drops what the program doesn't reach, optimises the rest in little time, puts the checks of memory in, and makes code
# in four parts at once. (The parts are of a shared object, since an executable's would be of what is called from
# outside alone.)
CLANG = """#!/bin/sh
case " $* " in *" -fsanitize=address "*) ;; *) exec "{clang}" "$@" ;; esac
steps='sroa,early-cse<memssa>,simplifycfg,instcombine<no-verify-fixpoint>,memcpyopt,dse,simplifycfg'
ld="${0%clang}ld.lld"
"$ld" -shared -Bsymbolic --lto-newpm-passes="globaldce,cgscc(inline,function($steps)),globaldce,asan" \\
    -mllvm -inline-threshold=0 -mllvm -no-trap-after-noreturn -mllvm -trap-unreachable -mllvm -no-x86-call-frame-opt \\
    --lto-partitions=4 --lto-CGO0 --lto-obj-path=part.o module.bc -o whole.so && exec "$ld" -r part.o* -o module.o
"""
# Keeps the program that it links, since the run that is made of it takes its folder away.
LINKER = """#!/bin/sh
"{ld.lld}" "$@" || exit
case " $* " in *" -o program "*) cp program "KEPT" ;; esac
"""


def crate_of(command):
    return f"{command.replace('-', '_')}_program"


def built(command, top=TOP):
    name = crate_of(command)
    return f"{top}/crates/{name}/out/{name}"


def given(path, command):
    """The program of a script's option, else the proved build. Ends with a line where that isn't there."""
    found = os.path.realpath(path or built(command))
    if not (os.path.isfile(found) and os.access(found, os.X_OK)):
        stop(f"{found} is no program; `rt run` in crates/{crate_of(command)} builds it")
    return found


@functools.cache
def crates_to(crate):
    """The repository's crates that one is made of, itself the last."""
    uses = needs_of(text_of(f"{TOP}/crates.txt"))
    return [*dict.fromkeys(it for below in uses[crate] if below in uses for it in crates_to(below)), crate]


def parts_of(crate, parts=PARTS):
    """The folders of a crate and of those below it that a build reads, by their paths in the tree."""
    return [f"crates/{name}/{part}" for name in crates_to(crate) for part in parts]


def is_built(command):
    """Whether a program is built, and no younger file of its crates' tells that it is stale."""
    return os.access(built(command), os.X_OK) and is_fresh(crate_of(command), built(command))


def is_fresh(crate, path):
    """Whether no file of a crate and of those below it is younger than this one."""
    files = [f"{TOP}/crates.txt"]
    for part in parts_of(crate):
        for at, _, names in os.walk(f"{TOP}/{part}"):
            files += [at, *(f"{at}/{it}" for it in names)]
    return max(map(os.path.getmtime, files)) <= os.path.getmtime(path)


def made_of(crate, *more, top=TOP):
    """What a build tells that it is made of and by: the toolchain, and one sum of the files of a crate of a tree, of
    those below it, and of `more`, whether git knows them or not."""
    names = walked(top, "crates.txt", "HANDLES", *parts_of(crate), *more)
    return f"toolchain={version_of_rt()}\nsources={sum_of_files(top, names)}\n"


def put_note(path, told, note=None):
    """Tells in a note beside a built file what it is made of, or else of it, and its sum."""
    written(note or f"{path}.made", f"{told}sha256={hashlib.sha256(read(path)).hexdigest()}\n")


def noted(path, note=None):
    """What is told so of a file, or None where no note tells of its bytes."""
    note = note or f"{path}.made"
    told, _, its_sum = text_of(note).partition("sha256=") if os.path.isfile(note) else ("", "", "")
    return told if its_sum and its_sum.strip() == hashlib.sha256(read(path)).hexdigest() else None


def compiled(command):
    """Where a program stands that is compiled of the sources as they are, by the toolchain that is here."""
    names = walked(TOP, "crates.txt", *parts_of(crate_of(command), ("src", "specs")))
    sums = sum_of_files(TOP, names) + os.path.realpath(load_rt().rtlib.KIT)
    return f"{COMPILED}/{command}/{hashlib.sha256(sums.encode()).hexdigest()[:32]}/{command}"


def ready(command):
    """The program that is proved and built, else the one that is compiled of these sources, else none."""
    if is_built(command):
        return built(command)
    path = compiled(command)
    return path if os.access(path, os.X_OK) else None


def build(command):
    """Proves and builds the program anew, and the crates below it, over what their proofs have kept."""
    demand("rt", CC[0])
    crate, log, began = crate_of(command), LOG.format("build"), time.time()
    made = made_of(crate)
    # (so that none of it is taken for the next one's)
    for ending in ("", ".o", ".o.made", ".stamp"):
        with contextlib.suppress(FileNotFoundError):
            os.remove(f"{built(command)}{ending}")
    say(f"proving and building {len(crates_to(crate))} crates; {os.path.relpath(log)} tells of each")
    os.makedirs(f"{TOP}/out", exist_ok=True)
    with open(log, "wb") as to, tempfile.TemporaryDirectory() as room:
        words = ["rt", "run", "--", *(f"{room}/store.ron" if it == STORE else it for it in RUN[command])]
        how = {"stdin": subprocess.DEVNULL, "stdout": to, "stderr": to}
        status = subprocess.run(words, cwd=f"{TOP}/crates/{crate}", **how).returncode
    if status or not os.path.isfile(built(command)):
        stop(f"{command} was not built; {os.path.relpath(log)} tells why", 126)
    # (a source that was changed meanwhile is younger)
    os.utime(built(command), (began, began))
    put_note(f"{built(command)}.o", made)


def built_for(command, processor):
    return f"{built(command)}.o" if processor == "x86_64" else f"{TOP}/out/{processor}/{crate_of(command)}.o"


def is_built_for(command, processor):
    """Whether a program is built for a processor, of the sources and by the toolchain that are here. Where no note
    tells of one for x86-64, as where `rt` alone built it, its time alone tells that."""
    made, crate = built_for(command, processor), crate_of(command)
    if not (is_built(command) and os.path.exists(made) and is_fresh(crate, made)):
        return False
    return noted(made) in (made_of(crate), *[None] * (processor == "x86_64"))


def build_for(command, processor):
    """Proves and builds a program for a processor: for another than x86-64 its object alone, over what is kept."""
    if processor == "x86_64":
        build(command)
        return
    rtlib, to, began = load_rt().rtlib, built_for(command, processor), time.time()
    made, crate = made_of(crate_of(command)), toolchains(command)
    words = crate.words(["--jobs", "1", f"--target={processor}-unknown-linux-gnu", "--backend", "llvm"])
    words += ["--toolchain", place("toolchain"), "--incremental", "out/incremental"]
    os.makedirs(os.path.dirname(to), exist_ok=True)
    with open(LOG.format("build"), "ab") as log:
        how = {"cwd": crate.folder, "stdin": subprocess.DEVNULL, "stdout": log, "stderr": log}
        status = subprocess.run([*guarded(rtlib), rtlib.RATTLE, "build", *words, "-o", to], **how).returncode
    if status:
        stop(f"{command} was not built for {processor}; {os.path.relpath(log.name)} tells why", 1)
    # (a source that was changed meanwhile is younger)
    os.utime(to, (began, began))
    put_note(to, made)


def toolchains(command):
    """The program's crate as the toolchain's library has it."""
    return next(it for it in load_rt().rtlib.crates_below(TOP) if it.name == crate_of(command))


def compile_sources(command):
    """Compiles the program from its sources, with checks of each index, sum and access of memory and with no proof,
    and keeps it in the place of those of other sources. Returns its path."""
    demand("rt", CC[0])
    path, folder, log = compiled(command), f"{COMPILED}/{command}", LOG.format("compile")
    with compiler.alone(f"{folder}/lock", lambda: say("waiting for another compile")):
        if not os.access(path, os.X_OK):
            say(f"compiling {command}, with no proof: some {SECONDS[command]} seconds, once")
            with tempfile.TemporaryDirectory(dir=folder) as room:
                put_compiled(command, room, path, log)
    if not os.access(path, os.X_OK):
        stop(f"{command} was not compiled; {os.path.relpath(log)} tells why", 126)
    return path


def put_compiled(command, room, path, log):
    """Compiles the program in a folder, and puts it at its path at once, if it can be compiled."""
    made, folder = f"{room}/made/{command}", os.path.dirname(room)
    os.makedirs(os.path.dirname(made))
    links = ["--link", place("os"), "--link", place("libc")]
    with open(log, "wb") as to:
        compiler.compiled(toolchains(command), room, CLANG, to, links, LINKER.replace("KEPT", f"{made}.program"))
    if os.path.isfile(f"{made}.program"):
        put_words(made)
        for it in {*os.listdir(folder)} - {"lock", os.path.basename(room)}:
            shutil.rmtree(f"{folder}/{it}")
        os.rename(os.path.dirname(made), os.path.dirname(path))


def put_words(made):
    """Puts a file beside the program, wherever both are moved, that runs it by the toolchain's C library."""
    lib = place("lib")
    words = f'"{lib}/ld-linux-x86-64.so.2" --inhibit-cache --library-path "{lib}" "$(readlink -f "$0").program" "$@"'
    os.chmod(written(made, f"#!/bin/sh\nexec {words}\n"), 0o755)


def start(command):
    """Runs a program with this one's words in the place of this one; or proves and builds it by `--prove`."""
    compiler.end_by_exception()
    try:
        if sys.argv[1:] == ["--prove"]:
            if not is_built_for(command, "x86_64"):
                build(command)
            sys.exit()
        path = ready(command)
        if not path:
            path = compile_sources(command)
            say(f"compiled, and not proved here; ./{command} --prove proves and builds it")
    except KeyboardInterrupt:
        sys.exit(128 + signal.SIGINT)
    os.execv(path, [path, *sys.argv[1:]])
