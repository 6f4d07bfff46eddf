"""Checks of many wrong bodies at once, and what each says of them."""
import glob
import os
import re
import shutil
import subprocess
import tempfile

from gate.kit import guarded, text_of, written

HOLE = """use Rattle.{crate}.proofs.{module}.Statement as stated

pub {name}_spec : {{M : Type 1}} → stated.statement M
{name}_spec = ?
"""
TOLD = re.compile(r"^fn (\S+): (.*)$")
OPEN = re.compile(r"^note: src/\S+: it is not proved that (?:.*\(`([^`]+)`\))?")
# How a refused answer begins: with the name of its goal, or of a lemma that stands beside the answers.
ANSWER = re.compile(r"`([^`]+)`: ")
ANSWERED = re.compile(r"^pub (\S+) :\s+goal\.", re.M)
# A goal that a call has to meet, of a function or of a member of a cycle.
OF_A_CALLEE = re.compile(r"(?!returns)\S*-requires(?:-|$)")
ERROR = re.compile(r"^(?:\./)?((?:src|specs|proofs)/\S+?):\d+:\d+: error: (.*)$")
ITEM = re.compile(r"^(?:struct|enum|union|trait|impl) \S+: ")
# The words by which antt says that a proof file names what is not there, and that this is a goal.
GONE = re.compile(r"has no field|is not in scope|has no `")
GOAL_GONE = re.compile(r"Goals` has no `")
# What wasn't looked at, since it stands on what failed before it.
UNSEEN = re.compile(r"\d+ declarations? that depends? on .*\b(?:was|were) not checked")
FAILS = ("not proved", "no proof")
PASSES = re.compile(r"no holes$|proved$|depends on a hole in ")
# What a check says of an edit: it is refused, or others' edits hide it; and what fails: it isn't refused, or by these
# alone; or the check broke off, or tells nothing of its function.
REFUSED, AGAIN, PASSED, BROKEN = "refused", "again", "NOT REFUSED", "BAD EDIT"
CALLEE, NAME = "REFUSED BY WHAT A CALLEE REQUIRES ALONE", "REFUSED BY A NAME ALONE"
BRANCH = "REFUSED BY A SEARCH IN A NEW BRANCH ALONE"


def place_of(goal):
    """The goal of which this one is a clause."""
    return goal.partition("-clause-")[0]


def goals_in(folder, name, edit):
    """The places of the goals that the files of this name answer, of an edit's function."""
    paths = glob.glob(f"**/{name}", root_dir=folder, recursive=True)
    texts = [text_of(f"{folder}/{it}") for it in paths if edit.function.owns_file(f"proofs/{it}")]
    return {place_of(it) for text in texts for it in ANSWERED.findall(text)}


class Bundle:
    """One check of a copy of the crate with these edits in it, or of their functions as they stand.

    Each other function has a hole in the place of its proof and no body, but for those that call themselves, so these
    are proved from what the contracts of their callees say. An edit outside bodies has to compile with all bodies.
    """

    def __init__(self, trial, edits):
        self.trial, self.crate, self.functions, self.edits = trial, trial.crate, trial.functions, edits
        self.asked = {it.function.name: it.function for it in edits}
        self.told, self.opened, self.errors = {}, {}, []
        self.is_whole, self.output = False, ""

    def run(self, is_edited=True):
        """Makes the check. Afterwards `is_whole` says whether it came to its end."""
        ran = self.check(is_edited, "--only", "--allow-holes")
        self.output = ran.stdout
        self.read()
        is_stray = any(not any(self.is_of(it, file) for it in self.edits) for file, _ in self.errors)
        last = ran.stdout.rstrip("\n").rpartition("\n")[2]
        self.is_whole = ran.returncode in (0, 1) and last.startswith("only=") and not is_stray
        return self

    def standing(self):
        """The places of the goals of each edit's function as it stands, by the edit's label."""
        goals = f"{self.trial.room}/goals"
        self.check(False, "--start", "--generated", goals)
        folder = f"{goals}/Rattle-{self.crate.name}-proofs"
        return {it.label: goals_in(folder, "AnswersOffered.antt", it) for it in self.edits}

    def check(self, is_edited, option, *words):
        """Has a copy checked, with an option for each function that is asked for."""
        rtlib = self.trial.rt.rtlib
        words = [*self.crate.words(["--jobs", "1"], keeps=False), "--incremental", f"{self.trial.room}/kept", *words]
        words += [it for name in self.asked for it in (option, f"{self.crate.name}::{name}")]
        with tempfile.TemporaryDirectory(prefix="wrong-bodies-") as room:
            self.fill(room, is_edited)
            return subprocess.run([*guarded(rtlib), rtlib.RATTLE, "check", *words], cwd=room, text=True,
                                  errors="replace", stdin=subprocess.DEVNULL, stdout=subprocess.PIPE,
                                  stderr=subprocess.STDOUT)

    def fill(self, room, is_edited):
        for part in self.trial.rt.rtlib.PARTS:
            if os.path.isdir(f"{self.crate.folder}/{part}"):
                shutil.copytree(f"{self.crate.folder}/{part}", f"{room}/{part}")
        files = {file: text.split("\n") for file, text in self.trial.texts.items()}
        for edit in self.edits if is_edited else ():
            edit.put(files)
        keeps_bodies = is_edited and any(it.named for it in self.edits)
        for it in self.functions:
            if it.name not in self.asked and not it.cycle:
                shutil.rmtree(f"{room}/{it.folder}", ignore_errors=True)
                hole = HOLE.format(crate=self.crate.name, module=".".join(it.names), name=it.names[-1])
                written(f"{room}/{it.folder}/Proof.antt", hole)
                # (each line keeps its number)
                if not keeps_bodies and it.last - it.opens > 1:
                    inside = it.last - it.opens - 1
                    files[it.file][it.opens + 1 : it.last] = ["unreachable!()"] + [""] * (inside - 1)
        for file, lines in files.items():
            written(f"{room}/{file}", "\n".join(lines))

    def read(self):
        """Takes from the output what is said of each function: its line, the open goals above it, and errors."""
        opened, lines = [], self.output.split("\n")
        for line, below in zip(lines, [*lines[1:], ""]):
            if goal := OPEN.match(line):
                opened.append(goal[1] or "")
            elif error := ERROR.match(line):
                # (a long message goes on in the line below)
                self.errors.append((error[1], error[2] + (below if below.startswith("  ") else "")))
            elif told := TOLD.match(line):
                name = told[1].partition("::")[2]
                self.told[name], self.opened[name], opened = told[2], opened, []
            elif ITEM.match(line):
                opened = []

    def is_of(self, edit, file):
        """Whether an error in the file is due to the edit: where it is tried alone, so is one in any lemma."""
        is_lemma = file.startswith("proofs/") and not any(it.owns_file(file) for it in self.functions)
        return is_lemma and len(self.edits) == 1 or edit.function.owns_file(file)

    def judge(self, edit):
        """What the check says of one of its edits: a word of those above, and of what, and the goals of a branch."""
        if not self.is_whole:
            return BROKEN, f"its check breaks off: {self.first_error()}", ()
        own = {name: told for name, told in self.told.items() if edit.function.owns(name)}
        failed = [name for name, told in own.items() if told.startswith(FAILS)]
        errors = [it for it in self.errors if self.is_of(edit, it[0]) and not UNSEEN.match(it[1])]
        gone = [it for it in errors if GONE.search(it[1])]
        verdict = self.judge_goals(edit, failed, errors, gone) if failed else None
        if verdict:
            return verdict
        if failed and gone:
            return NAME, f"{', '.join(failed)}: {gone[0][1][:160]}", ()
        if failed and len(self.edits) > 1:
            return AGAIN, "", ()
        if edit.function.name in own and all(map(PASSES.match, own.values())):
            return PASSED, ", ".join(own), ()
        return BROKEN, f"its check tells nothing of {edit.function.name}", ()

    def judge_goals(self, edit, failed, errors, gone):
        """What the goals of these functions say that are open or whose answer is refused, or None where none is."""
        # (a goal can be open only because its answer, or the loop's invariant, went with a name)
        is_blind = any(GOAL_GONE.search(text) or file.endswith("/Invariants.antt") for file, text in gone)
        opened = [] if is_blind else [it for name in failed for it in self.opened[name]]
        answers = [ANSWER.match(it[1]) for it in errors if it not in gone]
        refused = [it[1] if it else "" for it in answers]
        own = {place_of(it) for it in opened if not OF_A_CALLEE.match(it)}
        is_new = edit.makes_a_branch() and not own & goals_in(f"{self.crate.folder}/proofs", "Answers.antt", edit)
        if own and not is_new or not all(map(OF_A_CALLEE.match, refused)):
            return REFUSED, ", ".join(failed), ()
        if own:
            return BRANCH, ", ".join(failed), own
        return (CALLEE, f"{', '.join(failed)}: {', '.join([*opened, *refused])}", ()) if opened or refused else None

    def first_error(self):
        lines = self.output.rstrip("\n").split("\n")
        return next((it for it in lines if ": error" in it), lines[-1])[:160]
