"""The files of a tree, the sums of them that packages tell, and its commit."""
import hashlib
import os
import re
import subprocess
import sys

# What the library and the programs are made of, and what else is packed with them and packs them.
MADE_OF = ("crates", "crates.txt", "HANDLES", "bindings/c/fonnalich.h")
PACKED = ("CHANGELOG.md", "LICENSE-APACHE", "LICENSE-MIT", "bindings", "examples/suffixes.dat", "tools/gate",
          "tools/package", "tools/packaging")
# What the library's archive is made of beside its crates.
BESIDE = ("bindings/build", "bindings/c/fonnalich.h", "bindings/c/forms.c", "bindings/c/heap.c")
# Folders that hold no source.
PASSED_OVER = ("out", "target", "__pycache__", ".git")


def git(top, *words):
    """What git says of a tree, or None of one without git. Ends where git fails in a tree of its own, since what it
    doesn't know isn't told from what it does then."""
    if not has_git(top):
        return None
    # (it is asked of this tree, and of none that this one is within)
    env = {**os.environ, "GIT_CEILING_DIRECTORIES": os.path.dirname(os.path.realpath(top))}
    try:
        ran = subprocess.run(["git", *words], cwd=top, env=env, capture_output=True, check=False)
    except OSError as why:
        sys.exit(f"git: {top} has a .git, and git doesn't run: {why}")
    if ran.returncode:
        why = ran.stderr.decode(errors="replace").strip().partition("\n")[0]
        sys.exit(f"git: {top} has a .git, and git says: {why}")
    return ran.stdout.decode(errors="surrogateescape")


def has_git(top):
    """Whether a tree is one of git's, and not only within another one. (A folder without a HEAD marks the top of a
    copy; `rt ci` puts its lock there.)"""
    path = f"{top}/.git"
    return os.path.lexists(f"{path}/HEAD") if os.path.isdir(path) else os.path.lexists(path)


def needs_of(text):
    """What each line of a crates.txt says that a crate stands on. (A kind may stand behind its name.)"""
    lines = [it.split("#")[0].partition(":") for it in text.splitlines()]
    return {head.split()[0]: needs.split() for head, colon, needs in lines if colon}


def walked(top, *parts):
    """The files of these files and folders of a tree, but for what is built, and git's own."""
    names = [it for it in parts if os.path.isfile(f"{top}/{it}")]
    for part in parts:
        for at, folders, found in os.walk(f"{top}/{part}"):
            folders[:] = [it for it in folders if it not in PASSED_OVER]
            names += [os.path.relpath(f"{at}/{it}", top) for it in found]
    return sorted(names, key=os.fsencode)


def listed(top, *parts):
    """Those of them that git knows; all of them in a tree without git."""
    told = git(top, "ls-files", "-z", *parts)
    return walked(top, *parts) if told is None else [it for it in told.split("\0") if os.path.isfile(f"{top}/{it}")]


def line_of(*parts):
    """What prints the sum of these parts in a shell."""
    return f"git ls-files -z {' '.join(parts)} | xargs -0 sha256sum | sha256sum"


def sum_of(top, *parts):
    """One sum of the files' sums and names: what `line_of` prints where git is."""
    return sum_of_files(top, listed(top, *parts))


def sum_of_files(top, names):
    total = hashlib.sha256()
    for name in names:
        with open(f"{top}/{name}", "rb") as file:
            total.update(f"{hashlib.sha256(file.read()).hexdigest()}  ".encode() + os.fsencode(name) + b"\n")
    return total.hexdigest()


def commit(top):
    """The commit of a tree, `+` behind it where files differ from it or are unknown to it, or None without one."""
    told = git(top, "status", "--porcelain=v2", "--branch")
    if told is None:
        return None
    name = re.search(r"^# branch\.oid ([0-9a-f]+)$", told, re.M)
    is_changed = any(not it.startswith("# ") for it in told.splitlines())
    return f"{name[1]}{'+' if is_changed else ''}" if name else None
