"""Tries the must-fail edits of a crate: those of functions' bodies together, all others alone, as rt tries them."""
import shutil
import subprocess
import tempfile
from collections import namedtuple
from contextlib import contextmanager

from .edits import Edit, functions_touched
from .functions import IN_A_TWIN, IN_PLACE, Unreadable, calls_of, functions_of, readers_of, source_files
from .kit import rt, rtlib
from .modules import save_nothing_of, unpack_modules
from .twins import InPlace, Twin, apart, placed_of, tried_of, wants_copy, write_texts, write_with
from .verdicts import MAY_LACK_A_FIELD, NAME_IS_GONE, Judge, Reading

# The results that a try can have.
REFUSED, LOSES_A_NAME, NOT_REFUSED, BAD = "refused", "loses a name", "NOT REFUSED", "BAD EDIT"
# What is said of a try: which of these, the line that shows it, and whether it was tried alone.
Result = namedtuple("Result", "kind said is_alone")
# So many edits are tried together at most: each has a twin, which a check holds in memory.
MOST_TOGETHER = 64
# So many edits in place are worth a check of their own. Else each would want a copy of its function, which is proved.
WORTH_A_CHECK = 5


class Trial:
    """A crate's edits, tried over what the crate's own proof left in its library."""

    def __init__(self, crate, files, report, alone=False):
        self.crate, self.report, self.flags = crate, report, ["--jobs", "1"]
        self.functions, self.calls = functions_of(crate.name, crate.folder), self.read_calls()
        self.edits = [Edit(file, crate, self.functions, self.calls) for file in files]
        self.batches = [] if alone else self.make_batches()
        # The edits with which the crate is surely still proved over what is kept.
        self.proved = set()
        # The edits whose changed functions no check has tried, and that aren't to be tried as rt tries them.
        tried = {edit.name for batch in self.batches for edit in batch}
        self.untried = set() if alone else {edit.name for edit in self.edits} - tried

    def read_calls(self):
        """Returns for each function of the crate which of its functions it calls or passes on."""
        return calls_of(self.crate.rlib)

    def make_batches(self):
        """Returns the edits to try together each time. Those in place go with the first twins, as far as they can, and
        else with each other."""
        twins, placed = ([edit for edit in self.edits if edit.way == way] for way in (IN_A_TWIN, IN_PLACE))
        batches = [twins[at : at + MOST_TOGETHER] for at in range(0, len(twins), MOST_TOGETHER)] or [[]]
        batches[0] += apart(placed, batches[0], self.calls)
        left = [edit for edit in placed if edit not in batches[0]]
        while left:
            batches.append(apart(left, [], self.calls))
            left = [edit for edit in left if edit not in batches[-1]]
        for chosen in iter(lambda: self.better_placed(batches[0]), []):
            batches[0] = [edit for edit in batches[0] if edit not in chosen]
            batches.append(chosen)
        return batches

    def better_placed(self, batch):
        """Returns edits of a batch that are better made in place, with each other: each is the only one of its
        functions, and wants a copy beside its twin. None, if they are too few for a check of their own."""
        functions, placed = [it for edit in batch for it in edit.changes], placed_of(self.crate, batch, self.calls)
        is_only = lambda edit: all(functions.count(it) == 1 for it in edit.changes)
        lone = [edit for edit in batch if edit not in placed and is_only(edit) and wants_copy(self.crate, edit)]
        chosen = apart(lone, [], self.calls)
        return chosen if len(chosen) >= WORTH_A_CHECK else []

    def results(self):
        """Tries all edits, and yields each one's name with its result."""
        tried = set()
        with tempfile.TemporaryDirectory(prefix="sabsim-edits-") as kept:
            unpack_modules(self.crate, kept)
            for batch in self.batches:
                found = self.try_batch(batch, kept)
                tried.update(found)
                yield from found.items()
            for edit in self.edits:
                if edit.name not in tried:
                    yield edit.name, self.try_alone(edit, kept)

    def try_batch(self, batch, kept):
        """Tries edits together. Returns the results of those that are refused so. If a check decides nothing, it tries
        the batch without the edits that can't be read, or each half of it."""
        found, why, unread = self.check_together(batch, kept) if batch else ({}, "", ())
        if not why:
            return found
        self.report(f"{self.crate.name}: {len(batch)} edits together decide nothing: {why[:300]}")
        half, rest = len(batch) // 2, [edit for edit in batch if edit not in unread]
        parts = [rest] if len(rest) < len(batch) else [batch[:half], batch[half:]] if half else []
        return {name: result for part in parts for name, result in self.try_batch(part, kept).items()}

    def check_together(self, batch, kept):
        """Checks functions with edits. Returns the results of the edits that are refused, why it decides nothing, or
        nothing, and the edits that can't be read."""
        tried = tried_of(self.crate, batch, self.calls)
        with tempfile.TemporaryDirectory(prefix="sabsim-twins-") as room:
            functions = self.functions_with(tried, room)
            if not functions:
                return {}, "the text can't be read", [edit for edit in batch if not self.is_readable(edit)]
            with copy_of(kept) as own:
                judge, why, unread = self.judge(tried, functions, room, own)
        if why:
            return {}, why, unread
        why = judge.why_spoiled()
        return ({}, why, ()) if why else (self.results_of(judge, tried), "", ())

    def judge(self, tried, functions, room, kept):
        """Checks what is tried in the copy of the crate in a folder, which has these functions. Returns a judge of what
        the check said, why it has no verdict, or nothing, and the edits that can't be read then."""
        only = [word for it in tried for word in ("--only", it.name.partition("::")[2])]
        save_nothing_of({it.name for it in tried}, self.crate, kept)
        ran = run_check(self.crate, room, [*self.flags, *only], kept)
        sources = {file: rtlib.text_of(f"{room}/{file}") for file in source_files(room)}
        reading = Reading(ran.returncode, ran.stdout)
        judge, why = Judge(reading, tried, functions, sources), reading.why_no_verdict()
        return judge, why, judge.unread_edits() if why else ()

    def functions_with(self, tried, room):
        """Writes the crate with what is tried into a folder. Returns its functions; none, if it can't be read or has
        others than it should."""
        write_with(self.crate, tried, room)
        try:
            functions = functions_of(self.crate.name, room)
        except Unreadable:
            return []
        twins = [it for it in tried if isinstance(it, Twin)]
        names = sorted(it.name for it in [*self.functions, *twins])
        return functions if sorted(it.name for it in functions) == names else []

    def is_readable(self, edit):
        """Returns whether the crate with this edit alone can be read, and has the functions that it should."""
        with tempfile.TemporaryDirectory(prefix="sabsim-twins-") as room:
            return bool(self.functions_with(tried_of(self.crate, [edit], self.calls), room))

    def results_of(self, judge, tried):
        """Returns the results of the edits that are refused: one is refused if a function is with it."""
        found, left = {}, {}
        for it in (it for it in tried if it.edit):
            line, why = judge.verdict(it)
            if line:
                found.setdefault(it.edit.name, Result(REFUSED, line, False))
            left.setdefault(it.edit.name, why)
            if judge.is_proved(it):
                self.proved.add(it.edit.name)
        for name in left.keys() - found.keys():
            self.report(f"{self.crate.name}/{name}: not refused with others: {left[name][:300]}")
        return found

    def try_alone(self, edit, kept):
        """Tries an edit alone: the functions that it changes, if no check has tried them, and then the crate as rt
        does: over what is kept, and from nothing if it is read and isn't refused so."""
        result = self.try_touched(edit, kept) if edit.name in self.untried else None
        if result:
            return result
        if edit.name not in self.proved:
            with copy_of(kept) as own:
                result = self.try_as_rt_does(edit, own)
            if result.kind in (REFUSED, LOSES_A_NAME) or result.said.startswith(BAD):
                return result
        return self.try_as_rt_does(edit)

    def try_as_rt_does(self, edit, kept=None):
        """Tries an edit as rt does, over what a folder of modules keeps, if one is given. rt doesn't know each way to
        say that a record has no field, and cuts the line off. So where rt's line may say that, all lines are read."""
        result = result_of(rt.must_fail(self.crate, edit.file, self.flags, kept))
        may_lack_a_field = result.kind == REFUSED and MAY_LACK_A_FIELD.search(result.said)
        return result_of_lines(result, self.read_alone(edit, kept)) if may_lack_a_field else result

    def read_alone(self, edit, kept):
        """Returns what a check of the crate with an edit says, over what a folder of modules keeps, if one is given."""
        texts, _ = rt.read_edit(edit.file, self.crate.folder)
        with tempfile.TemporaryDirectory(prefix="sabsim-edit-") as room:
            write_texts(self.crate, texts, room)
            ran = run_check(self.crate, room, self.flags, kept)
        return Reading(ran.returncode, ran.stdout)

    def try_touched(self, edit, kept):
        """Tries the functions that an edit changes or adds, or that name a constant which it changes, and nothing else
        of the crate. Returns the edit's result if one of them is refused for a reason of its own. Else this decides
        nothing, and it returns None; also if the edit changes more than code, since then not all that it changes is
        read."""
        texts, why = rt.read_edit(edit.file, self.crate.folder)
        if why or not all(file.startswith("src/") for file in texts):
            return None
        with tempfile.TemporaryDirectory(prefix="sabsim-edit-") as room:
            readers = self.readers_of_texts(texts, room)
            tried = [InPlace(it, edit) for it in functions_touched(texts, self.crate.folder, readers)]
            if not tried:
                return None
            functions = [function for reader in readers for function in reader.found]
            with copy_of(kept) as own:
                judge, why, _ = self.judge(tried, functions, room, own)
        line = "" if why else next((line for line, _ in map(judge.verdict, tried) if line), "")
        return Result(REFUSED, line, True) if line else None

    def readers_of_texts(self, texts, room):
        """Writes the crate with some texts of its files into a folder. Returns the readers of its files; none, if it
        can't be read."""
        write_texts(self.crate, texts, room)
        try:
            return readers_of(self.crate.name, room)
        except Unreadable:
            return []


def result_of(answer):
    """Returns a result, from what rt's own try of an edit returns: a kind and a text."""
    said = answer[1].partition(".edit: ")[2]
    if said.startswith("refused, as it must be"):
        kind = LOSES_A_NAME if "only because a proof file names" in said else REFUSED
    else:
        kind = NOT_REFUSED if said.startswith("NOT REFUSED") else BAD
    return Result(kind, said, True)


def result_of_lines(result, reading):
    """Returns the result of an edit that rt calls refused, by all lines that refuse something: whether one does that
    isn't about a name that went."""
    lines = [line for _, _, line in reading.places]
    line = next((line for line in lines if not NAME_IS_GONE.search(line)), "")
    if line or not lines:
        return result._replace(said=line or result.said)
    return Result(LOSES_A_NAME, lines[0], result.is_alone)


@contextmanager
def copy_of(kept):
    """Yields a copy of a folder of modules. A check keeps there what it checks of functions with edits, in place of
    what the crate's own proof has checked, and the next check would check that again."""
    with tempfile.TemporaryDirectory(prefix="sabsim-kept-") as own:
        shutil.copytree(kept, own, dirs_exist_ok=True)
        yield own


def run_check(crate, room, flags, kept=None):
    """Checks the copy of a crate in a folder, over what a folder of modules keeps, if one is given."""
    over = ["--incremental", kept] if kept else []
    words = [rtlib.RATTLE, "check", *crate.words(flags, keeps=False), *over]
    streams = {"stdin": subprocess.DEVNULL, "stdout": subprocess.PIPE, "stderr": subprocess.STDOUT}
    return subprocess.run([*rtlib.guarded(), *words], cwd=room, errors="replace", **streams)
