"""What the scripts need that run the library in other programs: it, a Python with a framework, and commands."""
import os
import shutil
import socket
import subprocess
import sys

from .bounded import run
from .compiler import alone
from .kit import TOP

OUT = f"{TOP}/out"
SECONDS = 60


def python_with(*modules):
    """A Python that has these modules: this one, the PATH's or the distribution's. None where none has."""
    code = "\n".join(f"import {it}" for it in modules)
    for it in dict.fromkeys([sys.executable, shutil.which("python3"), "/usr/bin/python3"]):
        if it and os.path.exists(it) and run([it, "-c", code], SECONDS)[0] == 0:
            return it
    return None


def missing(modules, commands):
    """What of these isn't there, in words, or nothing."""
    left = [it for it in commands if not shutil.which(it)]
    if modules and not python_with(*modules):
        left += modules
    return f"{' and '.join(left)} isn't there" if left else ""


def held_port():
    """A socket that keeps its port of loopback, while it is open, for a server that asks for it by SO_REUSEADDR."""
    held = socket.socket()
    held.setsockopt(socket.SOL_SOCKET, socket.SO_REUSEADDR, 1)
    held.bind(("127.0.0.1", 0))
    return held


def is_listening(port):
    """Whether something listens on a port of loopback."""
    with socket.socket() as asked:
        return asked.connect_ex(("127.0.0.1", port)) == 0


def environment():
    """The environment of a command that uses the library of out/, from C, Rust, Python and others."""
    library = {"FONNALICH_DIR": OUT, "FONNALICH_LIB": f"{OUT}/libfonnalich.so"}
    return {**os.environ, **library, "PYTHONDONTWRITEBYTECODE": "1"}


def put_library():
    """Has the library compiled, with no proof, where it isn't there; once where several ask for it."""
    with alone(f"{OUT}/library.lock"):
        if not all(os.path.exists(f"{OUT}/{it}") for it in ("libfonnalich.a", "libfonnalich.so", "fonnalich.h")):
            subprocess.run([f"{TOP}/bindings/build"], stdout=subprocess.DEVNULL, check=True)
