"""Writes a copy of a crate in which edits of functions' bodies can be tried together.

A twin is the function with an edit in its body: the same attributes, contract and body, under another name, right after
the function, with its own copy of the function's proof files. Nothing calls a twin, and a twin calls the functions as
they are. So no edit can hide another one, and what a twin rests on is the crate as it is.

A method of a trait's impl has no room for a twin, and is edited in place, if neither a twin nor another function that
is edited in place reaches it by calls. Then too, all that each one rests on is the crate as it is. So is a function
with one edit and proof files of its own: in place it needs no copy of these, and no twin that shows that copies serve.
"""
import os
import re
import shutil

from .edits import Change, changed
from .functions import IN_A_TWIN, IN_PLACE, reached_by
from .kit import rtlib


class Twin:
    """A twin: which edit it has, none for a function as it is, and its name."""

    def __init__(self, function, edit, number):
        self.function, self.edit = function, edit
        self.short = f"{function.name_token.text}_tried_{number}"
        self.name = f"{function.name.rpartition('::')[0]}::{self.short}"

    def changes(self, source):
        """Returns what is changed in the text of the function's file: the twin is put after the function."""
        return [Change(self.function.end, self.function.end, f"\n\n{self.text(source)}")]

    def text(self, source):
        """Returns the twin's text, from the text of the function's file."""
        function, begin = self.function, self.function.begin
        name = function.name_token
        changes = [Change(name.begin, name.end, self.short), *(self.edit.changes[function] if self.edit else [])]
        inside = [Change(it.begin - begin, it.end - begin, it.text) for it in changes]
        return changed(source[begin : function.end], inside)

    def proof_files(self, crate):
        """Returns the twin's proof files, as texts by their paths: copies of the function's that name the twin's
        modules."""
        own, copy, found = proof_folder(self.function.name), proof_folder(self.name), {}
        path = re.escape(".".join(self.function.name.split("::")[1:]))
        module = re.compile(rf"(?<![\w.])(Rattle\.{crate.name}\.(?:proofs|specs\.contracts)\.){path}(?=[.\s{{])")
        twin = ".".join(self.name.split("::")[1:])
        for at, _, names in os.walk(f"{crate.folder}/{own}"):
            for name in names:
                with open(f"{at}/{name}", encoding="utf-8") as it:
                    inside = os.path.relpath(f"{at}/{name}", f"{crate.folder}/{own}")
                    found[f"{copy}/{inside}"] = module.sub(lambda at: at[1] + twin, it.read())
        return found


class InPlace:
    """A function that is edited where it is."""

    def __init__(self, function, edit):
        self.function, self.edit = function, edit
        self.name = function.name
        self.short = function.name.partition("::")[2]

    def changes(self, _):
        return self.edit.changes[self.function]

    def proof_files(self, _):
        """Returns no files: those of the function serve."""
        return {}


def proof_folder(name):
    """Returns where the proof files of a function's own are, in its crate's folder."""
    return "/".join(["proofs", *name.split("::")[1:]])


def has_proof_files(crate, function):
    return os.path.isdir(f"{crate.folder}/{proof_folder(function.name)}")


def tried_of(crate, edits, calls):
    """Returns what tries edits together: twins, one with no edit for each function that has proof files of its own,
    which shows by its proof that copies of these files serve; and functions edited in place."""
    placed = placed_of(crate, edits, calls)
    pairs = [(function, edit) for edit in edits if edit not in placed for function in edit.changes]
    pairs += [(function, None) for function in dict.fromkeys(it for it, _ in pairs) if has_proof_files(crate, function)]
    twins = [Twin(function, edit, number) for number, (function, edit) in enumerate(pairs)]
    return twins + [InPlace(function, edit) for edit in placed for function in edit.changes]


def placed_of(crate, edits, calls):
    """Returns those of some edits to make in place: those that can have no twin, and those whose twin wants a copy of
    the function as it is beside it, if no other edit changes the function, and nothing that is tried reaches it by
    calls."""
    functions = [function for edit in edits for function in edit.changes]
    reached = set().union(*(reached_by(function.name, calls) for function in functions))
    is_free = lambda it: functions.count(it) == 1 and it.name not in reached
    may_be = lambda edit: wants_copy(crate, edit) and all(map(is_free, edit.changes))
    return [edit for edit in edits if edit.way == IN_PLACE or may_be(edit)]


def wants_copy(crate, edit):
    """Returns whether a twin for an edit wants a copy beside it: if a function that it changes has proof files."""
    return any(has_proof_files(crate, it) for it in edit.changes)


def apart(edits, twins, calls):
    """Returns those of some edits that can be made in place beside twins for others: no function of one is reached by
    calls of a twin, and none is or reaches a function of another one in place."""
    chosen, names = [], set()
    below = set().union(*(reached_by(function.name, calls) for edit in twins for function in edit.changes))
    for edit in edits:
        own = {function.name for function in edit.changes}
        reached = set().union(*(reached_by(name, calls) for name in own))
        if not own & (names | below) and not reached & names:
            chosen.append(edit)
            names |= own
            below |= reached
    return chosen


def write_texts(crate, texts, room):
    """Writes a copy of the crate with these texts in place of its own into an empty folder."""
    for part in rtlib.PARTS:
        if os.path.isdir(f"{crate.folder}/{part}"):
            shutil.copytree(f"{crate.folder}/{part}", f"{room}/{part}")
    for file, text in texts.items():
        with open(f"{room}/{file}", "w", encoding="utf-8") as it:
            it.write(text)


def write_with(crate, tried, room):
    """Writes a copy of the crate with these twins, or functions edited in place, into an empty folder."""
    write_texts(crate, {}, room)
    for file in {it.function.file for it in tried}:
        with open(f"{crate.folder}/{file}", encoding="utf-8") as it:
            source = it.read()
        changes = [change for it in tried if it.function.file == file for change in it.changes(source)]
        with open(f"{room}/{file}", "w", encoding="utf-8") as it:
            it.write(changed(source, changes))
    for file, text in (row for it in tried for row in it.proof_files(crate).items()):
        os.makedirs(os.path.dirname(f"{room}/{file}"), exist_ok=True)
        with open(f"{room}/{file}", "w", encoding="utf-8") as it:
            it.write(text)
