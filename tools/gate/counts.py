"""What a script's checks came to: it tells of each, and ends with the line 'N passed, M failed'."""


def differs(what, wanted, found):
    """How what is found differs from what is wanted, a line each."""
    if wanted != found:
        yield f"{what}: wanted {wanted!r:.2000}"
        yield f"{' ' * len(what)}   found {found!r:.2000}"


class Counts:
    """How many passed, how many failed, and how many were skipped. The last line names `what` they are, as 'cases', and
    `how` they passed."""

    def __init__(self, what="", is_quiet=False, how="passed"):
        self.what, self.is_quiet, self.how = what, is_quiet, how
        self.passed = self.failed = self.skipped = 0

    def tell(self, name, wrong=(), said=""):
        """Counts one check, which passed where nothing is wrong, and tells of it: `said` where it passed, else what is
        wrong, a line each. Where `is_quiet` only what failed is told. Returns whether it passed."""
        wrong = [wrong] if isinstance(wrong, str) and wrong else [*wrong]
        self.passed += not wrong
        self.failed += bool(wrong)
        lines = [f"FAILED: {name}", *wrong] if wrong else [f"passed: {name}{said and f': {said}'}"]
        if wrong or not self.is_quiet:
            print("\n".join(lines).replace("\n", "\n    "), flush=True)
        return not wrong

    def skip(self, name, why):
        """Counts one that can't be run here, and says why, as `test` reads it."""
        self.skipped += 1
        print(f"skipped: {name}: {why}", flush=True)

    def add(self, passed, failed=0):
        """Counts what something else told of."""
        self.passed += passed
        self.failed += failed

    def end(self):
        """Writes the last line and returns the script's status: 1 where one failed, or where nothing was looked at."""
        skipped = f", {self.skipped} skipped" if self.skipped else ""
        print(f"{self.passed} {self.what and f'{self.what} '}{self.how}, {self.failed} failed{skipped}", flush=True)
        return 1 if self.failed or not self.passed + self.skipped else 0
