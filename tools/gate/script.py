"""How a script reads its words and its rows, goes over these side by side, and ends."""
import argparse
import os
import re
import sys
from concurrent.futures import ThreadPoolExecutor

from .compiler import end_by_exception

# In which the programs run.
ENVIRONMENT = {"PATH": "/usr/local/bin:/usr/bin:/bin", "LANG": "C.UTF-8", "LC_ALL": "C.UTF-8"}
ESCAPES = {b"t": b"\t", b"r": b"\r", b"n": b"\n", b"s": b" ", b"0": b"", b"\\": b"\\"}


def words(doc):
    """What reads a script's words. By --help it prints the script's own text."""
    return argparse.ArgumentParser(description=doc, formatter_class=argparse.RawDescriptionHelpFormatter)


def unescaped(text):
    """The bytes of a row: \\t, \\r, \\n, \\s, \\\\ and \\xFF stand for others, \\0 for none, and <x*9> for many."""
    text = re.sub(rb"<x\*(\d+)>", lambda it: b"x" * int(it[1]), text)
    return re.sub(rb"\\(?:x([0-9a-f]{2})|(.))", lambda it: bytes([int(it[1], 16)]) if it[1] else ESCAPES[it[2]], text)


def side_by_side(function, rows):
    """What a function gives for each row, in their order, as many at once as there are processors."""
    with ThreadPoolExecutor(len(os.sched_getaffinity(0))) as pool:
        yield from pool.map(function, rows)


def run(main):
    """Ends with the script's status. Where it is interrupted nothing half made is left, and nothing more is told."""
    end_by_exception()
    try:
        sys.exit(main())
    except KeyboardInterrupt:
        sys.exit(130)
