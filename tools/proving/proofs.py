"""Makes tasks of proving crates, of running what was made of them, and of trying their edits; and counts what
passed."""
import os
import re
import shutil
import threading
import time
import traceback

from .crates import Proving, why_refused
from .figures import EDITS, PROOFS, TESTS, of_kind
from .keys import KnownEdits
from .kit import rt, rtlib
from .lanes import Task
from .libraries import library_sum
from .parts import LeftOut
from .static_library import StaticProving, StaticTrial
from .store import Sums, sum_of, sum_of_scripts
from .trial import BAD, REFUSED, Result, Trial

# The scripts that decide whether an edit is refused. If one of them has changed, all edits are tried anew.
DECIDING = "edits functions kit modules trial twins verdicts"
# The scripts that make the code of a static library, and try its edits.
OF_STATIC = "static_library"
# A proof takes at most this part of the memory that rt foresees; one of a program, or of tests, at most the other part:
# 0.7 was measured.
NEEDED, NEEDED_WITH_CODE = 0.6, 0.8


class Tally:
    """What passed, what failed, and how much of it was known from earlier runs on this machine."""

    def __init__(self):
        self.passed, self.failed, self.lock = 0, [], threading.Lock()
        self.proofs = self.known_proofs = self.edits = self.known_edits = 0
        self.left_out = LeftOut()

    def say(self, text):
        with self.lock:
            print(text, flush=True)

    def add(self, passed, failed=()):
        with self.lock:
            self.passed += passed
            self.failed += failed

    def add_left_out(self, entries, second):
        """Adds what a part left out, and what passed there only the second time."""
        with self.lock:
            self.left_out.add(entries, second)

    def closing_lines(self, requires_all):
        """Returns the last lines. If all is required, what was left out or passed only the second time has failed."""
        left_out, second = self.left_out.entries(), self.left_out.second
        failed = self.failed + ([*left_out, *second] if requires_all else [])
        lines = ["check: FAILED: " + "; ".join(failed)] if failed else []
        return [*lines, *self.left_out.lines(), f"{self.passed} passed, {len(failed)} failed"], len(failed)

    def add_proof(self, line, is_known):
        """Counts a proof, and prints a line with its number."""
        with self.lock:
            self.passed += 1
            self.proofs += 1
            self.known_proofs += is_known
            print(line.format(self.proofs), flush=True)

    def add_edits(self, number, known):
        with self.lock:
            self.edits += number
            self.known_edits += known

    def reused(self):
        """Returns a sentence about what earlier runs on this machine have proved."""
        proofs, edits = f"{self.known_proofs} of {self.proofs} proofs", f"{self.known_edits} of {self.edits} edits"
        return f"{proofs} and {edits} were known from earlier runs on this machine"


class Proofs:
    """The proofs of crates, what is made of them, and their edits."""

    def __init__(self, crates, store, tally):
        self.crates, self.store, self.tally = crates, store, tally
        self.sums, self.scripts = Sums(), sum_of_scripts(DECIDING)
        self.paths, self.tasks, self.proofs = {}, {}, 0

    def add_proof(self, crate, is_of_tests=False):
        """Adds the task of proving a crate, or its tests, after those below it."""
        proving, is_compiled = proving_of(crate, is_of_tests), is_of_tests or not crate.makes_rlib()
        # Code of all crates below is compiled for a program.
        seconds = seconds_of(crate) * (2 if is_compiled else 1)
        memory = rt.need(crate) * (NEEDED_WITH_CODE if is_compiled else NEEDED)
        waits_for = [self.tasks[below.name] for below in crate.below()]
        run = lambda jobs: self.guarded(proving.name, lambda: self.prove(proving, jobs))
        task = Task(proving.name, of_kind(PROOFS, run), waits_for, seconds, memory, most_jobs=4)
        self.tasks[proving.name] = task
        self.proofs += 1
        return task

    def add_run(self, crate, is_of_tests=False):
        """Adds the task of running a program, or the tests of a crate, once it is proved."""
        name = f"{crate.name}_tests" if is_of_tests else crate.name
        run = lambda _: self.guarded(name, lambda: self.run(crate, is_of_tests))
        waits_for = [self.tasks[name]]
        # Some tests watch threads by the clock.
        task = Task(f"run {name}", of_kind(TESTS, run), waits_for, seconds=20, is_alone=is_of_tests)
        self.tasks[task.name] = task

    def add_edits(self, crate, names=None, alone=False):
        """Adds the task of trying a crate's must-fail edits, or those of some names, once it is proved."""
        files, misplaced = rt.edits_of(crate)
        files = [file for file in files if names is None or os.path.basename(file) in names]
        for file in misplaced:
            label = f"{crate.name}/{os.path.basename(file)}"
            self.tally.say(f"  {label}: {BAD}: its name ends in .edit, and it is right in must-fail/")
            self.tally.add(0, [label])
        if files:
            name, waits_for = f"edits of {crate.name}", [self.tasks[crate.name]]
            run = lambda _: self.guarded(name, lambda: self.try_edits(crate, files, alone))
            seconds, memory = 20 + 8 * len(files), rt.need(crate) * NEEDED
            self.tasks[name] = Task(name, of_kind(EDITS, run), waits_for, seconds, memory)

    def guarded(self, name, call):
        """Makes a call, and counts its failure: it returns whether all is well."""
        try:
            is_well = call()
        except (Exception, SystemExit):
            is_well = False
            self.tally.say(f"{name}: {traceback.format_exc()}")
        if not is_well:
            self.tally.add(0, [name])
        return is_well

    def prove(self, proving, jobs):
        """Proves a crate, unless that is known; and puts its library, or its program, where crates above it find it."""
        crate, begun = proving.crate, time.monotonic()
        why = why_refused(crate, self.crates)
        if why:
            self.tally.say(f"{crate.name}: {why}")
            return False
        keys = self.keys_of(proving)
        path = known = self.store.find_first(crate.name, keys)
        path = path or self.store.keep(crate.name, keys[0], lambda folder: proving.make(folder, jobs))
        if not path:
            self.tally.say(f"{proving.said}{proving.name} isn't proved, or isn't built")
            return False
        self.put(proving, path)
        took = "known" if known else f"{time.monotonic() - begun:.0f} s"
        self.tally.add_proof(f"{{:2}} of {self.proofs}: {proving.name}, {took}", bool(known))
        return True

    def keys_of(self, proving):
        """Returns the keys under which what is made of a crate may be kept. A library is kept by its own files and the
        libraries below it. By all files, also those below, everything was kept once; only libraries no longer are."""
        crate = proving.crate
        by_files = sum_of(self.sums.of(crate), proving.made, *self.sums_of_static(crate))
        return [sum_of(self.sums.over(crate), proving.made), by_files] if is_library(proving) else [by_files]

    def sums_of_static(self, crate):
        """Returns a sum of the scripts on which only a static library depends, if the crate is one."""
        return [sum_of_scripts(OF_STATIC)] if crate.is_static else []

    def put(self, proving, path):
        """Puts what was made of a crate where others look for it."""
        crate = next(it for it in self.crates if it.name == proving.crate.name)
        self.paths[proving.made] = path
        if is_library(proving):
            crate.rlib = f"{path}/{proving.made}"
            self.sums.libraries[crate.name] = library_sum(path, crate.rlib)
            return
        to = f"{crate.folder}/out/{proving.made}"
        os.makedirs(os.path.dirname(to), exist_ok=True)
        shutil.copy2(f"{path}/{proving.made}", f"{to}.new")
        os.replace(f"{to}.new", to)
        if not proving.is_of_tests:
            with open(f"{to}.made-of", "w", encoding="utf-8") as it:
                it.write(made_of(crate, self.sums))

    def run(self, crate, is_of_tests):
        """Runs a program, or a crate's tests, as rt does, and returns whether it wrote what it has to."""
        is_well = rt.run(crate, is_of_tests)
        self.tally.add(is_well)
        return is_well

    def try_edits(self, crate, files, alone):
        """Tries a crate's edits, except those that are known to be refused, and counts them."""
        begun, known = time.monotonic(), self.known_edits(crate, files, alone)
        results, left = known.results(), known.left(files)
        for name, result in self.trial_of(crate, left, alone).results() if left else ():
            results[name] = result
            if result.kind == REFUSED:
                known.keep(name, result)
        for name in map(os.path.basename, files):
            self.report(f"{crate.name}/{name}", results[name])
        count = len(files) - len(left)
        self.tally.add_edits(len(files), count)
        self.tally.say(f"tried: {len(files)} edits of {crate.name} ({count} known, {time.monotonic() - begun:.0f} s)")
        return True

    def known_edits(self, crate, files, alone):
        """Returns which edits of a crate are known to be refused."""
        how = [self.scripts, alone, *self.sums_of_static(crate)]
        sums = {os.path.basename(file): sum_of(how, rtlib.sum_of(file)) for file in files}
        known = KnownEdits(self.store, crate, self.paths[proving_of(crate).made], sums)
        left = known.left(files)
        if left and not alone:
            known.find_by_keys(self.trial_of(crate, left, alone), sum_of(self.sums.base, crate.said, how))
        return known

    def trial_of(self, crate, files, alone):
        """Returns the trial of some edits of a crate."""
        if crate.is_static:
            return StaticTrial(crate, self.paths[proving_of(crate).made], files, self.tally.say, alone)
        return Trial(crate, files, self.tally.say, alone)

    def report(self, label, result):
        """Reports and counts the result of an edit."""
        is_refused = result.kind == REFUSED
        kind = f"{result.kind} alone" if is_refused and result.is_alone else result.kind
        self.tally.say(f"  {label}: {kind}: {' '.join(result.said.split())[:160]}")
        self.tally.add(is_refused, [] if is_refused else [label])


def has_only_tests(crate):
    """Returns whether a library has nothing without its tests: each module of its root is compiled for tests alone."""
    if crate.is_program:
        return False
    text = re.sub(r"^(//|#!\[).*", "", rtlib.text_of(f"{crate.folder}/src/lib.rt"), flags=re.MULTILINE)
    return bool(re.fullmatch(r"(\s*#\[cfg\(test\)\]\s*mod \w+;)+\s*", text))


def is_library(proving):
    """Returns whether a library is made, which crates above read."""
    return proving.made.endswith(".rlib")


def proving_of(crate, is_of_tests=False):
    """Returns the proof of a crate, or of its tests."""
    return StaticProving(crate) if crate.is_static and not is_of_tests else Proving(crate, is_of_tests)


def made_of(crate, sums):
    """Returns a sum of all that a program, or a static library's code, was made of, and of what was made."""
    return sum_of(sums.of(crate), rtlib.sum_of(f"{crate.folder}/out/{proving_of(crate).made}"))


def is_made_of(crate, sums):
    """Returns whether a crate's program, or code, is there, and was proved and made of the files as they are."""
    return rtlib.text_of(f"{crate.folder}/out/{proving_of(crate).made}.made-of") == made_of(crate, sums)


def seconds_of(crate):
    """Returns about how many seconds of one processor the proof of a crate takes: fitted to what was measured."""
    files = [file for file in rtlib.files_of(crate.folder) if file.endswith(".antt")]
    definitions = sum(rtlib.text_of(file).count("\n") for file in files)
    below = sum(it.count(rb"\n") for it in crate.below())
    return 25 + crate.count(rb"\n") / 12 + definitions / 80 + below / 250 + 15 * len(crate.of_kit)
