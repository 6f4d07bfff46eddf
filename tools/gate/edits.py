"""Edits of a crate's sources: the wrong bodies of its folder must-fail/, and the bodies that tests are planted."""
import os
import re

from gate.kit import text_of

LINE = re.compile(r"^(file|in|tests|old|new): ?(.*)$", re.M)
# The words at which a body goes two ways.
BRANCH = re.compile(r"\b(?:if|else|match|while|for|loop|return|break|continue)\b|=>|\?|&&|\|\|")


class Edit:
    """Pairs of texts, each within one line of a file, and what is said of them beside."""

    def __init__(self, path):
        self.path, self.label, self.text = path, os.path.basename(path).removesuffix(".edit"), text_of(path)
        # The function that must be refused, how often a check told nothing of it, since others' edits were in it, and
        # the pairs, each behind its file.
        self.function, self.tries, self.pairs, said = None, 0, [], {}
        for key, text in LINE.findall(self.text):
            said[key] = text
            if key == "new" and "old" in said:
                self.pairs.append((said.get("file", "").strip(), said.pop("old"), text))
        # The function that an edit outside bodies names.
        self.named = said.get("in", "").strip()
        # Of a planted body the layers of tests/ that are compiled for it; none are all.
        self.layers = said.get("tests", "").split()

    def makes_a_branch(self):
        """Whether its new texts have more of such words than what was there."""
        return sum(len(BRANCH.findall(new)) - len(BRANCH.findall(old)) for _, old, new in self.pairs) > 0

    def locate(self, functions, texts):
        """Finds the function that must be refused, and returns why there is none, if that is so."""
        if self.named:
            found, why = [it for it in functions if it.name == self.named], f"no function is named {self.named}"
        else:
            lines = [(file, texts.get(file, "").partition(old)[0].count("\n")) for file, old, _ in self.pairs]
            found = [it for it in functions if all(it.holds(*at) for at in lines)]
            why = "it changes more than the body of one function, and has no line 'in: module::function'"
        self.function = found[0] if found else None
        return None if found else why

    def put(self, files):
        """Puts it into the lines of files, in which other edits may stand, each in the body of another function."""
        for file, old, new in self.pairs:
            lines, its = files[file], self.function
            inside = range(len(lines)) if self.named else range(its.first, its.last + 1)
            at = next(it for it in inside if old in lines[it])
            lines[at] = lines[at].replace(old, new)
