"""The tests that are run and not proved: the crate whose sources stand in tests/, outside what `rt ci` reads."""
import os
import re
import shutil
import subprocess
import sys
import tempfile
import time
from dataclasses import dataclass, field

sys.dont_write_bytecode = True
sys.path.insert(0, os.path.dirname(os.path.dirname(os.path.abspath(__file__))))

from gate import bounded, pages
from gate.kit import CC, TOP, demand, load_rt, place, text_of, written
from gate.script import side_by_side

CRATE = "unproved_tests"
# Where a run keeps the program of the tests.
PROGRAM = f"{TOP}/out/tests/{CRATE}"
# What the names of its sources end with.
SUFFIX = ".rt.txt"
# What its program writes where it refuses a growth.
TOLD = "refuse.c: this growth is refused"
LISTED = re.compile(r"^(\S+): test$", re.M)
# Beside proofs a test may wait long for a processor.
SECONDS = 900
# What a test writes of the reads, writes, flushes and fills that it made fail.
FAILED = re.compile(r"\bmade to fail: (\d+) (\d+) (\d+) (\d+)$", re.M)


def sources():
    found = [os.path.join(at, it) for at, _, names in os.walk(f"{TOP}/tests") for it in names if it.endswith(SUFFIX)]
    return sorted(os.path.relpath(it, f"{TOP}/tests") for it in found)


def put(room, layers=(), filled=pages.filled):
    """Copies the crates to a folder, with the tests as one more crate, all of them or those of some layers alone, and
    with the pages' blocks, and returns that one's folder."""
    shutil.copytree(f"{TOP}/crates", f"{room}/crates", ignore=shutil.ignore_patterns("out", "must-fail", "proofs"))
    folder = f"{room}/crates/{CRATE}"
    for path in sources():
        # (a file that no `mod` names is refused)
        if not layers or re.split(r"[/.]", path)[0] in ("lib", *layers):
            written(f"{folder}/src/{path.removesuffix('.txt')}", filled(text_of(f"{TOP}/tests/{path}")))
    written(f"{room}/crates.txt", text_of(f"{TOP}/crates.txt") + text_of(f"{TOP}/tests/crate.txt"))
    if layers:
        written(f"{folder}/src/lib.rt", "#![tactic(auto)]\n\n" + "".join(f"mod {it};\n" for it in sorted(layers)))
    return folder


def format_all():
    """Formats its sources as `rt fmt` does."""
    with tempfile.TemporaryDirectory(prefix="tests-") as room:
        folder = put(room, filled=str)
        status = subprocess.run(["rt", "fmt"], cwd=folder).returncode
        for path in sources():
            shutil.copyfile(f"{folder}/src/{path.removesuffix('.txt')}", f"{TOP}/tests/{path}")
    return status


@dataclass
class Ran:
    """What a compile wrote that failed, and of each test that was run whether it passed, and what it wrote."""

    log: str = ""
    tests: dict = field(default_factory=dict)

    def failed(self):
        return [name for name, (is_passed, _) in self.tests.items() if not is_passed]

    def made_to_fail(self):
        """How many reads, writes, flushes and fills the tests that passed made fail."""
        told = [map(int, it) for is_passed, wrote in self.tests.values() if is_passed for it in FAILED.findall(wrote)]
        return [sum(it) for it in zip(*told)] or [0] * 4


def run(planted=None):
    """Compiles the tests with the crates below from their sources, runs each, and keeps the program.

    The program is that of `rt try --test`, with one more object file in it, which can refuse a growth of memory.
    Sources that `rt fmt` would change fail before that. A planted body (an Edit of the crates) is put into the sources,
    and such a program isn't kept.
    """
    demand("rt", CC[0])
    if not planted:
        os.makedirs(os.path.dirname(PROGRAM), exist_ok=True)
        if os.path.exists(PROGRAM):
            os.remove(PROGRAM)
    # (a program is linked to its place, so it is made on the same file system)
    with tempfile.TemporaryDirectory(prefix="try-", dir=None if planted else os.path.dirname(PROGRAM)) as room:
        put(room, planted.layers if planted else ())
        for file, old, new in planted.pairs if planted else ():
            written(f"{room}/{file}", text_of(f"{room}/{file}").replace(old, new))
        kept = f"{room}/kept" if planted else PROGRAM
        words = [*CC, "-O2", "-fPIC", "-c", f'-DKEPT="{kept}"', f'-DTOLD="{TOLD}"']
        subprocess.run([*words, f"{TOP}/tools/gate/refuse.c", "-o", f"{room}/refuse.o"], check=True)
        log = compiled(room, kept)
        return Ran(log) if log else Ran(tests=run_each(kept, room))


def compiled(room, kept):
    """Has the program compiled, up to the place where it is kept. Returns what was written where it isn't."""
    with open(f"{room}/log", "w+", encoding="utf-8", errors="replace") as log:
        how = {"stdin": subprocess.DEVNULL, "stdout": log, "stderr": subprocess.STDOUT}
        ran = subprocess.Popen([sys.executable, __file__, room], env={**os.environ, "TMPDIR": room}, **how)
        while not os.path.exists(kept) and ran.poll() is None:
            time.sleep(0.1)
        # (it would run one test after the other, on one processor)
        ran.terminate()
        ran.wait()
        log.seek(0)
        return "" if os.path.exists(kept) else log.read() or f"status {ran.returncode}"


def run_each(path, room):
    """Runs each test of the program in a folder of its own, as many at once as there are processors."""
    command = command_of(path)
    # (those of many rows take longest, and would be run last)
    names = sorted(listed(command), key=lambda name: "many" not in name)
    return dict(zip(names, side_by_side(lambda name: run_one(command, name, room), names)))


def listed(command):
    told = subprocess.run([*command, "--list"], stdout=subprocess.PIPE, text=True, check=True).stdout
    return LISTED.findall(told)


def run_one(command, name, room):
    with tempfile.TemporaryDirectory(dir=room) as folder:
        status, told = bounded.told([*command, name], SECONDS, cwd=folder)
    return status == 0, told


def command_of(path):
    lib = place("lib")
    return [f"{lib}/ld-linux-x86-64.so.2", "--inhibit-cache", "--library-path", lib, path]


def main(room):
    rt = load_rt()
    crate = next(it for it in rt.rtlib.crates_below(room) if it.name == CRATE)
    if rt.rtlib.fmt(crate.folder, "--check", sys.stdout):
        sys.exit("the tests are not formatted: tools/run-tests --format")
    crate.c_code = lambda _: [f"{room}/refuse.o"]
    # The check that would hint at names that a proof refuses takes longer than the run.
    rt.rtlib.RATTLE = "true"
    os.chdir(crate.folder)
    return crate.try_unproved(["--test"], [])


if __name__ == "__main__":
    sys.exit(main(*sys.argv[1:]))
