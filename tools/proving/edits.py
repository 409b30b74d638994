"""What a must-fail edit changes: the bodies of which functions, if nothing else; and so how it can be tried."""
import os
from collections import namedtuple

from .functions import ALONE, reached_by
from .kit import rt

# A piece of a file that is replaced: where it begins and ends, in characters, and what is put there.
Change = namedtuple("Change", "begin end text")


class Edit:
    """An edit of a crate: the functions whose bodies it changes, with the changes in each one's file, and how it is
    tried."""

    def __init__(self, file, crate, functions, calls):
        self.file, self.name = file, os.path.basename(file)
        self.changes, self.way = {}, ALONE
        texts, why = rt.read_edit(file, crate.folder)
        if not why:
            self.read(crate, texts, functions, calls)

    def read(self, crate, texts, functions, calls):
        """Finds the functions that the edited texts change, and how all of them can be tried."""
        names = [function.name for function in functions]
        for file, text in texts.items():
            with open(f"{crate.folder}/{file}", encoding="utf-8") as it:
                changes = changes_between(it.read(), text)
            for change in changes:
                inside = [it for it in functions if it.file == file and it.body <= change.begin and change.end < it.end]
                if not inside:
                    return
                innermost = max(inside, key=lambda it: it.begin)
                self.changes.setdefault(innermost, []).append(change)
        ways = {way_of(function, names, calls) for function in self.changes}
        self.way = ways.pop() if len(ways) == 1 else ALONE


def way_of(function, names, calls):
    """Returns how an edit of a function is tried: alone, if rattle's name for it isn't sure, or if it calls itself."""
    is_sure = names.count(function.name) == 1 and function.name in calls
    return function.way if is_sure and function.name not in reached_by(function.name, calls) else ALONE


def changes_between(old, new):
    """Returns what differs between two texts with equally many lines, as an edit's texts have: a change for each
    line."""
    changes, at = [], 0
    for one, other in zip(old.split("\n"), new.split("\n")):
        if one != other:
            head = len(os.path.commonprefix([one, other]))
            tail = len(os.path.commonprefix([one[head:][::-1], other[head:][::-1]]))
            changes.append(Change(at + head, at + len(one) - tail, other[head : len(other) - tail]))
        at += len(one) + 1
    return changes


def functions_touched(texts, folder, readers):
    """Returns the functions that edited texts change, and that have a name of their own: those with a line which isn't
    in the files of a folder. If there is none, it returns those that name a constant with such a line."""
    functions = [function for reader in readers for function in reader.found]
    names, found = [function.name for function in functions], touched(texts, folder, functions)
    if not found:
        constants = touched(texts, folder, [constant for reader in readers for constant in reader.constants])
        changed_names = {constant.name for constant in constants}
        found = [function for reader in readers for function in reader.functions_naming(changed_names)]
    return [function for function in found if names.count(function.name) == 1]


def touched(texts, folder, items):
    """Returns the items of edited texts that have a line which isn't in the files of a folder."""
    found = []
    for file, text in texts.items():
        with open(f"{folder}/{file}", encoding="utf-8") as it:
            old, new = it.read().split("\n"), text.split("\n")
        lines = [at for at, (one, other) in enumerate(zip(old, new), 1) if one != other]
        for item in (it for it in items if it.file == file):
            first, last = lines_of(item, text)
            found += [item] * any(first <= line <= last for line in lines)
    return found


def lines_of(item, text):
    """Returns the numbers of the first and the last line of an item, from the text of its file."""
    return text.count("\n", 0, item.begin) + 1, text.count("\n", 0, item.end) + 1


def changed(text, changes):
    """Returns a text with changes made in it, which don't overlap."""
    for begin, end, new in sorted(changes, reverse=True):
        text = text[:begin] + new + text[end:]
    return text
