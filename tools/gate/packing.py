"""Archives whose bytes depend on nothing but what lies in them: of each file its path, its bytes and its rights."""
import base64
import hashlib
import io
import os
import pathlib
import re
import subprocess
import tempfile
import zipfile

from .kit import TOP, read, text_of, written

# The moment that each file of an archive has: the first that a zip can say.
YEAR, MOMENT = 1980, 315532800
PROGRAM, FILE, LINK = 0o755, 0o644, 0o120777
TAR = ("tar", "--format=ustar", "--sort=name", "--owner=0", "--group=0", "--numeric-owner", f"--mtime=@{MOMENT}")
DEB = ("dpkg-deb", "--root-owner-group", "--uniform-compression", "-Zgzip", "--build")
# A link of a page to another file.
ELSEWHERE = re.compile(r"\[([^]]+)\]\((?:\.\./|\w+\.md)[^)]*\)")
# What a page begins with in a package.
HEAD = """# Fonnalich from C, Rust and Python

The cookies of a client and of a site (RFC 6265), by a library that is proved where `PROVENANCE.json` says so. This page
is that of the sources: commands of `bindings/` and `tools/` are run there, and files that it names lie there.

"""


class Tree(dict):
    """The files of a package by their paths: of each its bytes and rights, and of a link where it leads."""

    def put(self, path, data, mode=FILE):
        self[os.path.normpath(path)] = (data if isinstance(data, bytes) else data.encode(), mode)

    def write(self, folder):
        """Puts all into a folder, with the rights of a package."""
        for path, (data, mode) in self.items():
            os.makedirs(os.path.dirname(f"{folder}/{path}"), exist_ok=True)
            if mode == LINK:
                os.symlink(data, f"{folder}/{path}")
            else:
                os.chmod(written(f"{folder}/{path}", data), mode)
        for at, _, _ in os.walk(folder):
            os.chmod(at, PROGRAM)


def printed(*words, **how):
    return subprocess.run(words, stdout=subprocess.PIPE, check=True, **how).stdout


def tar(tree, top):
    """A `tar.gz` of a tree below a folder of this name."""
    with tempfile.TemporaryDirectory() as room:
        tree.write(f"{room}/{top}")
        return gzipped(printed(*TAR, "-C", room, "-c", top))


def gzipped(data):
    return printed("gzip", "-9n", input=data)


def page():
    """The page of bindings/ as packages have it: with its own beginning, and no links to files that they lack."""
    _, heading, below = text_of(f"{TOP}/bindings/README.md").partition("## Packages\n")
    if not heading:
        raise ValueError("the page has no '## Packages'")
    return HEAD + heading + ELSEWHERE.sub(r"\1", below)


def installed_size(tree):
    """The KiB that Debian says of a tree: each file's, whole, and one for each link and each folder."""
    folders = {at for path in tree for at in pathlib.PurePath(path).parents}
    return sum(-(-len(data) // 1024) for data, _ in tree.values()) + len(folders)


def wheel(tree, info):
    """A wheel of a tree, with its record in the folder `info`."""
    record = "".join(f"{path},sha256={digest(data)},{len(data)}\n" for path, (data, _) in sorted(tree.items()))
    tree.put(f"{info}/RECORD", f"{record}{info}/RECORD,,\n")
    made = io.BytesIO()
    with zipfile.ZipFile(made, "w", zipfile.ZIP_DEFLATED) as archive:
        for path, (data, mode) in sorted(tree.items()):
            entry = zipfile.ZipInfo(path, (YEAR, 1, 1, 0, 0, 0))
            entry.external_attr, entry.compress_type = mode << 16, zipfile.ZIP_DEFLATED
            archive.writestr(entry, data)
    return made.getvalue()


def digest(data):
    return base64.urlsafe_b64encode(hashlib.sha256(data).digest()).rstrip(b"=").decode()


def deb(tree):
    """A package of Debian of a tree, whose file DEBIAN/control it has."""
    with tempfile.TemporaryDirectory() as room:
        tree.write(f"{room}/root")
        printed(*DEB, f"{room}/root", f"{room}/made.deb", env={**os.environ, "SOURCE_DATE_EPOCH": str(MOMENT)})
        return read(f"{room}/made.deb")
