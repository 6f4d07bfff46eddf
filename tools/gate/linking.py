"""Links what packages hold: the shared library of an archive, and the programs as static files."""
import functools
import os
import shlex
import shutil
import subprocess
import sys
import tempfile

from . import library, program as programs
from .kit import CC, TOP, place, read, written
from .packing import printed

# The number in the shared library's name, which changes with what it exports.
SONAME = "libfonnalich.so.0"
# A compiler for aarch64, which links the programs for it with its C library.
ARM_CC = os.environ.get("ARM_CC") or "aarch64-linux-gnu-gcc"
EXPORTS = "FONNALICH_0 { global: fonnalich_*; local: *; };\n"
# What the library takes of the C library, all of it since glibc's first version for each processor.
TAKEN = ("malloc", "realloc", "free", "memcpy", "memmove", "memset")
LEAST = {"x86_64": "GLIBC_2.2.5 { global: *; };\n", "aarch64": "GLIBC_2.17 { global: *; };\n"}
PACKAGING = f"{TOP}/tools/packaging"
# What stands for the toolchain's functions in C in a program for aarch64.
FOR_ARM = (f"{TOP}/bindings/c/heap.c", f"{PACKAGING}/os.c")
PLAIN = ("--build-id=none", "-z", "now", "-z", "relro", "--gc-sections", "-s")


def shared(processor, archive):
    """The shared library of an archive, which exports the calls of the header and nothing else. The toolchain links it,
    so that it has the same bytes on each machine."""
    with tempfile.TemporaryDirectory() as room:
        exports, made = written(f"{room}/exports", EXPORTS), f"{room}/made"
        words = ["-shared", "-soname", SONAME, f"--version-script={exports}", *PLAIN]
        whole = ["--whole-archive", archive, "--no-whole-archive"]
        linker = place("ld.lld")
        printed(linker, "-o", made, *words, *whole, *stubs(room, linker, processor))
        return read(made)


def stubs(room, linker, processor):
    """What stands at a link for the C library, by the names that are taken of it, and for the compiler's division."""
    build, target = library.load_build(TOP), f"{processor}-unknown-linux-gnu"
    names = written(f"{room}/names.c", "".join(f"void {it}(void) {{}}\n" for it in TAKEN))
    words = ["-shared", "-soname", "libc.so.6", f"--version-script={written(f'{room}/least', LEAST[processor])}"]
    printed(linker, "-o", f"{room}/libc.so", *words, build.in_c(room, names, target))
    return [build.in_c(room, f"{PACKAGING}/division.c", target), "--as-needed", f"{room}/libc.so"]


def compiler_for(processor):
    return CC if processor == "x86_64" else shlex.split(ARM_CC)


def why_none(processor, command):
    """Why a program isn't packed, if that is so: it isn't there, or no static file can be linked."""
    if not programs.is_built(command):
        return "it isn't proved and built"
    if not links_static(processor):
        return (f"'{shlex.join(compiler_for(processor))}' isn't there, or links no static file: the C library's are "
                f"wanted, as of Debian's package libc6-dev{'-arm64-cross' * (processor != 'x86_64')}")
    if not programs.is_built_for(command, processor):
        return f"there is no object of it for {processor} of these sources by this toolchain"
    return ""


def program(processor, command):
    """A proved program as a static file."""
    words, beside = compiler_for(processor), FOR_ARM if processor != "x86_64" else (place("os"), place("libc"))
    try:
        return static(words, [programs.built_for(command, processor), *beside])
    except subprocess.CalledProcessError:
        sys.exit(f"package: '{shlex.join(words)}' doesn't link {command}, as stands above")


def linker_of(processor):
    """The compiler and the C library that a processor's programs are linked by, as they name themselves."""
    words, how = compiler_for(processor), {"stdout": subprocess.PIPE, "text": True, "check": True}
    compiler = subprocess.run([*words, "--version"], **how).stdout.splitlines()[0]
    asked = "#include <features.h>\n__GLIBC__.__GLIBC_MINOR__\n"
    told = subprocess.run([*words, "-E", "-P", "-x", "c", "-"], input=asked, **how).stdout.strip().splitlines()[-1]
    return f"{compiler}, {'a C library without a number' if '__' in told else 'glibc ' + told.replace(' ', '')}"


@functools.lru_cache(None)
def links_static(processor):
    """Whether a compiler for a processor is there, with a C library that links static files."""
    words = compiler_for(processor)
    if not shutil.which(words[0]):
        return False
    with tempfile.TemporaryDirectory() as room:
        words = [*words, "-static", written(f"{room}/it.c", "int main(void) {}\n"), "-o", f"{room}/it"]
        return subprocess.run(words, stderr=subprocess.DEVNULL, check=False).returncode == 0


def static(words, parts):
    """A static file of these objects, and of these files in C, by the words of a compiler."""
    flags = ["-O2", "-std=gnu11", "-Wall", "-Wextra", "-static", "-Wl,--build-id=none", "-Wl,--gc-sections",
             "-Wl,-s"]
    with tempfile.TemporaryDirectory() as room:
        printed(*words, *parts, *flags, "-o", f"{room}/made")
        return read(f"{room}/made")
