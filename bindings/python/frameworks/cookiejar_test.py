"""Plays CPython's own tests of `http.cookiejar` with a `Jar` in the place of `CookieJar`, and holds what becomes of
each against the table of bindings/FOREIGN_TESTS.md.

usage: python3 -m unittest frameworks.cookiejar_test
       python3 -m frameworks.cookiejar_test    tells what becomes of each

It plays those that make a `CookieJar` and don't look at its privates. The others are of functions of the module, and of
jars in files.
"""
import inspect
import re
import sys
import sysconfig
import unittest

# (before the `test` of this folder)
sys.path.insert(0, sysconfig.get_paths()["stdlib"])
import test.test_http_cookiejar as theirs

from fonnalich import Client, Jar, Rules

from frameworks.kit import TOP

SUFFIXES = "com\nnet\norg\nno\nuk\nco.uk\n"
PRIVATE = re.compile(r"\w\._[a-z]")
# What the page says of a test that this Python needn't have.
NEWER = "newer Pythons have it"
# The newest Python that the page was tried with: a later one may have other tests.
NEWEST = (3, 13)


class StandIn(Jar):
    """A `Jar` that is made as a `CookieJar`. Its policy is passed over, since a client judges by its rules."""

    made = 0

    def __init__(self, policy=None):
        StandIn.made += 1
        super().__init__(Client(SUFFIXES, rules=Rules.BROWSER))


class Told(unittest.TestResult):
    """What became of a test, whose parts count as it."""

    def addSubTest(self, test, subtest, err):
        if err is not None:
            self.addError(test, err)


def public_tests():
    """The tests that look at no privates."""
    for kind in vars(theirs).values():
        if isinstance(kind, type) and issubclass(kind, unittest.TestCase):
            for test in unittest.defaultTestLoader.loadTestsFromTestCase(kind):
                if not PRIVATE.search(inspect.getsource(getattr(test, test._testMethodName))):
                    yield test


def played():
    """What became of each of them that makes a jar: its name, and nothing or the trace of its failure."""
    kept, theirs.CookieJar = theirs.CookieJar, StandIn
    try:
        for test in public_tests():
            before, told = StandIn.made, Told()
            test.run(told)
            if StandIn.made > before:
                yield test._testMethodName, "".join(trace for _, trace in [*told.failures, *told.errors])
    finally:
        theirs.CookieJar = kept


def names():
    """The names of all tests of this Python."""
    kinds = [it for it in vars(theirs).values() if isinstance(it, type) and issubclass(it, unittest.TestCase)]
    return {name for kind in kinds for name in dir(kind) if name.startswith("test_")}


def table():
    """The rows of the page: whether each test passes, and what is said of it."""
    with open(f"{TOP}/bindings/FOREIGN_TESTS.md", encoding="utf-8") as page:
        section = page.read().partition("\n## Python's `http.cookiejar`\n")[2].partition("\n## ")[0]
    rows = re.findall(r"^\| `(\w+)` \| (passes|fails) \| ?(.*)\|$", section, re.M)
    return {name: (end == "passes", told.strip()) for name, end, told in rows}


class Table(unittest.TestCase):
    def test_holds(self):
        found, there = {name: not trace for name, trace in played()}, names()
        wanted = {name: is_passed for name, (is_passed, told) in table().items() if name in there or told != NEWER}
        self.assertGreater(len(found), 20)
        if sys.version_info[:2] > NEWEST:
            for name in sorted(found.keys() ^ wanted.keys()):
                print(f"skipped: http.cookiejar: {name}, which the page or this later Python hasn't", flush=True)
            found, wanted = ({name: it[name] for name in found.keys() & wanted.keys()} for it in (found, wanted))
        self.assertEqual(wanted, found)

    def test_says_why(self):
        for name, (is_passed, told) in table().items():
            self.assertTrue(is_passed or told, name)


if __name__ == "__main__":
    for played_name, played_trace in played():
        places = [it.strip() for it in played_trace.splitlines() if "test_http_cookiejar.py" in it]
        print(played_name, "fails" if played_trace else "passes", *places[-1:], sep=" | ")
