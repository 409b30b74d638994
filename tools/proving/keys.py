"""Keys of must-fail edits: sums of all that decides whether an edit of a function's body is refused.

With the same key an edit has the same result, also beside another proof, body or comment elsewhere. A key is of

- the edit, the files that it edits, the proof files of each function that it changes, and all attributes of tactics;
- what was checked of each of these functions, and so the contracts of what they call;
- the modules of lemmas that these checks import, and those behind them;
- the definitions that these checks read, and those behind them; the declared types and the contracts of traits' impls,
  of the crate and of those below it. If the edit brings a word that its function lacks, or names a function that the
  check didn't read, all definitions and contracts of these crates.

An edit that is tried alone has no key: there other functions decide, too.
"""
import json
import os
import re
from bisect import bisect_left
from itertools import islice, takewhile

from .edits import changed
from .functions import ALONE, source_files
from .kit import rtlib
from .libraries import sum_of_member
from .modules import members_of
from .store import sum_of, sum_of_scripts
from .trial import Result
from .twins import proof_folder

# The file beside a library that has the sums of its checked modules, and the scripts that make it.
KEPT, SCRIPTS = "modules.json", "keys libraries modules"
WORD = re.compile(r"[A-Za-z_]\w*")
# What is below a module's name and the first part of its library's: definitions, which a proof may read.
OF_SPECS = re.compile(r"Rattle-\w+[-.]specs(\.|\Z)")
FUNCTION = re.compile(r"Rattle-\w+-specs\.contracts\.(?:.*\.)?([^.]+)\.Key")
IMPL = re.compile(r"(Rattle-\w+-specs\.contracts\..+\.)TheImpl")
ATTRIBUTE = re.compile(r"#!?\[tactic\(.*?\)\]", re.DOTALL)
DECLARED = re.compile(r"Rattle-\w+-specs\.declared\.")


class KnownEdits:
    """The edits of a crate that are known to be refused. The results of those that were tried beside the same library
    are kept beside it, by sums of the edits; those of all versions of the crate in its folder, by keys."""

    def __init__(self, store, crate, path, sums):
        """`path` is the folder of the crate's library, and `sums` has a sum of each edit and of how it is tried."""
        self.store, self.path, self.sums = store, path, sums
        self.of_all_versions, self.keys = store.path_of(crate), {}
        self.kept = store.results(path)

    def find_by_keys(self, trial, base):
        """Makes the keys of the edits of a trial, and takes the results that are known by them."""
        keys = EditKeys(trial.crate, base)
        found = ((edit.name, keys.key_of(edit)) for edit in trial.edits)
        self.keys = {name: key for name, key in found if key}
        kept = self.store.results(self.of_all_versions)
        known = {self.sums[name]: kept[key] for name, key in self.keys.items() if key in kept}
        if known:
            self.kept.update(known)
            self.store.keep_results(self.path, self.kept)

    def left(self, files):
        """Returns those of the files of edits that aren't known."""
        return [file for file in files if self.sums[os.path.basename(file)] not in self.kept]

    def results(self):
        return {name: Result(*self.kept[made]) for name, made in self.sums.items() if made in self.kept}

    def keep(self, name, result):
        """Keeps the result of an edit that is refused; by its key only if it was tried with others. Alone it may be
        refused since another function isn't proved with it."""
        self.kept[self.sums[name]] = result
        self.store.keep_results(self.path, self.kept)
        if name in self.keys and not result.is_alone:
            self.store.add_results(self.of_all_versions, {self.keys[name]: result})


class Modules:
    """The checked modules of the libraries of some crates: for each its sum, and the modules of these libraries that it
    imports and that it saw."""

    def __init__(self, crates):
        self.found = {}
        for crate in crates:
            self.found.update(modules_of(crate.rlib))
        self.lemmas = {name for crate in crates for name in lemmas_of(crate)}
        self.names, self.contracts = sorted(self.found), {}
        for at in filter(None, map(FUNCTION.fullmatch, self.names)):
            self.contracts.setdefault(at[1], set()).add(at[0])

    def inside(self, prefix):
        """Returns the modules whose names begin with a prefix."""
        begin = bisect_left(self.names, prefix)
        return [*takewhile(lambda name: name.startswith(prefix), islice(self.names, begin, None))]

    def sums(self, names):
        """Returns the names of modules with their sums, in order."""
        return [(name, self.found[name][0]) for name in sorted(names)]

    def imported(self, names):
        """Returns the modules that some modules import, and those behind lemmas and behind what passes on others'."""
        found, left = set(), [it for name in names for it in self.found[name][1]]
        while left:
            name = left.pop()
            if name in self.found and name not in found:
                found.add(name)
                left += self.found[name][1] if name in self.lemmas or passes_on(name) else []
        return found

    def read_definitions(self, names):
        """Returns the modules of definitions that some modules read, and those behind them."""
        found, left = set(), [*names]
        while left:
            _, imported, seen = self.found[left.pop()]
            new = {it for it in [*imported, *seen] if it in self.found and OF_SPECS.match(it)} - found
            found |= new
            left += new
        return found

    def of_all_functions(self):
        """Returns the modules of declared types, and of the contracts of traits' impls, which a body may need without
        naming them."""
        impls = [at[1] for at in map(IMPL.fullmatch, self.names) if at]
        return {*filter(DECLARED.match, self.names), *(name for impl in impls for name in self.inside(impl))}

    def contracts_of(self, words):
        """Returns the modules of the contracts of all functions of some names."""
        return {name for word in words for name in self.contracts.get(word, ())}


class EditKeys:
    """Makes keys of the edits of a proved crate."""

    def __init__(self, crate, base):
        """`base` is of all that is the same for each edit of the crate: the kit, the scripts and the way to prove."""
        self.crate = crate
        self.modules = Modules([crate, *crate.below()])
        self.base = [base, sum_of_scripts(SCRIPTS), attributes_of(crate.folder)]
        of_all = self.modules.of_all_functions()
        self.of_all = self.modules.read_definitions(of_all) | of_all

    def key_of(self, edit):
        """Returns the key of an edit; None if its result may depend on more."""
        own = [self.own_modules(function) for function in edit.changes]
        if edit.way == ALONE or not own or not all(own):
            return None
        checked = {name for names in own for name in names}
        read = self.modules.read_definitions(checked) | self.of_all
        if not self.is_within(edit, read):
            read = set(filter(OF_SPECS.match, self.modules.found))
        names = checked | self.modules.imported(checked) | read
        return sum_of(self.base, rtlib.sum_of(edit.file), self.texts_of(edit), self.modules.sums(names))

    def own_modules(self, function):
        """Returns the modules of what was checked of a function."""
        path = ".".join(function.name.split("::")[1:])
        return self.modules.inside(f"Rattle-{self.crate.name}-proofs.{path}.")

    def texts_of(self, edit):
        """Returns the sums of the files that an edit edits, and of the proof files of the functions that it changes."""
        files = {f"{self.crate.folder}/{function.file}" for function in edit.changes}
        for function in edit.changes:
            files |= {f"{at}/{name}" for at, _, names in os.walk(f"{self.crate.folder}/{proof_folder(function.name)}")
                      for name in names}
        return [(os.path.relpath(file, self.crate.folder), rtlib.sum_of(file)) for file in sorted(files)]

    def is_within(self, edit, read):
        """Returns whether the new lines of an edit have only words that their function has, and name only functions
        whose contracts were read."""
        new = set()
        for function, changes in edit.changes.items():
            source = rtlib.text_of(f"{self.crate.folder}/{function.file}")
            lines = new_lines(source, changes)
            new |= lines
            if lines - {*WORD.findall(source[function.begin : function.end])}:
                return False
        return self.modules.contracts_of(new) <= read


def new_lines(source, changes):
    """Returns the words of the lines that changes of a text make."""
    old = source.split("\n")
    return {word for one, line in zip(old, changed(source, changes).split("\n")) if one != line
            for word in WORD.findall(line)}


def lemmas_of(crate):
    """Returns the modules of the files of proofs that a crate has."""
    for at, _, names in os.walk(f"{crate.folder}/proofs"):
        for name in (it for it in names if it.endswith(".antt")):
            path = os.path.relpath(f"{at}/{name}", f"{crate.folder}/proofs")[: -len(".antt")]
            yield f"Rattle-{crate.name}-proofs.{path.replace('/', '.')}"


def passes_on(name):
    """Returns whether a module is of a library's facade, which has nothing of its own."""
    return re.match(r"Rattle-\w+(\.|\Z)", name) is not None


def attributes_of(folder):
    """Returns the attributes of tactics in a crate's source, with their files."""
    return [(file, ATTRIBUTE.findall(rtlib.text_of(f"{folder}/{file}"))) for file in source_files(folder)]


def modules_of(rlib):
    """Returns the checked modules of a library, as `Modules` has them. They are kept beside the library."""
    file, scripts = f"{os.path.dirname(rlib)}/{os.path.basename(rlib)}.{KEPT}", sum_of_scripts(SCRIPTS)
    try:
        with open(file, encoding="utf-8") as it:
            kept = json.load(it)
    except (OSError, ValueError):
        kept = {}
    if kept.get("scripts") != scripts:
        with open(f"{rlib}/toolchain/checked.a", "rb") as it:
            members = [member for member in members_of(it.read()) if member.name.endswith(".oantt")]
        found = {it.name[: -len(".oantt")]: [sum_of_member(it.data), *references_of(it.data)] for it in members}
        kept = {"scripts": scripts, "modules": found}
        with open(f"{file}.new", "w", encoding="utf-8") as it:
            json.dump(kept, it)
        os.replace(f"{file}.new", file)
    return kept["modules"]


def references_of(data):
    """Returns the names of the modules of crates that a checked module imports, and of those that it saw."""
    head = data.partition(b"\n--@ body ")[0].decode(errors="replace")
    return [re.findall(rf"(?m)^--@ {word} (Rattle-\S+)", head) for word in ("import", "saw")]
