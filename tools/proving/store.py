"""Keeps what this machine has proved: libraries, programs, tests and the results of edits, each by a sum of all that it
depends on. So a later run, also one in another clone, proves what has changed."""
import hashlib
import json
import os
import shutil
import tempfile
import threading
import time

from .kit import kit_sum, rt, rtlib, stop

# So many versions of a crate are kept: those that were used last. A crate with tests has two for each of its states.
MOST_VERSIONS = 3
# So many results of a crate's edits are kept by their keys: the last ones.
MOST_RESULTS = 5000
# How the name of a folder begins that isn't whole yet. If it is older than a day, it was broken off.
NEW, DAY = ".new-", 24 * 3600
# The file that has the results of edits: beside a library those that were tried beside it, and in the folder of a crate
# those of all its versions.
RESULTS = "edits.json"


def default_folder():
    """Returns the folder of the store, which is there then: in the user's own folder for what can be made anew."""
    cache = os.environ.get("XDG_CACHE_HOME", "")
    folder = f"{cache if os.path.isabs(cache) else os.path.expanduser('~/.cache')}/sabsim"
    try:
        os.makedirs(folder, exist_ok=True)
    except OSError as error:
        stop(f"{folder}, for what is proved, can't be made: {error.strerror}. XDG_CACHE_HOME can name another place")
    return folder


def sum_of(*parts):
    return hashlib.sha256(repr(parts).encode()).hexdigest()


def sum_of_scripts(names):
    """Returns a sum of some of these scripts."""
    folder = os.path.dirname(os.path.realpath(__file__))
    return sum_of([(name, rtlib.sum_of(f"{folder}/{name}.py")) for name in names.split()])


def link_or_copy(one, other):
    """Gives a file a second name, or copies it. Files of the store are replaced, and nothing is written into them."""
    try:
        os.link(one, other)
    except OSError:
        shutil.copy2(one, other)


class Sums:
    """Sums of crates: of their files, of those below them, of the kit, of what HANDLES allows, and of how they are
    proved."""

    def __init__(self):
        self.base, self.known = sum_of(kit_sum(), rt.Crate.allowed, sum_of_scripts("crates kit")), {}
        # The sums of proved libraries, by their names, once they are there (libraries.py).
        self.libraries = {}

    def of(self, crate):
        """Returns the sum of a crate with the files of those below it."""
        if crate.name not in self.known:
            below = [self.of(dep) for dep in crate.deps]
            self.known[crate.name] = sum_of(self.base, crate.said, self.files_of(crate), below)
        return self.known[crate.name]

    def over(self, crate):
        """Returns the sum of a crate with the libraries below it, which are proved."""
        below = [(it.name, self.libraries[it.name]) for it in crate.below()]
        return sum_of("over libraries", self.base, crate.said, self.files_of(crate), below)

    @staticmethod
    def files_of(crate):
        return [(os.path.relpath(file, crate.folder), rtlib.sum_of(file)) for file in rtlib.files_of(crate.folder)]


class Store:
    """A folder of what was proved: for each crate a folder of its versions, by keys."""

    def __init__(self, folder):
        self.folder, self.used, self.lock = folder, set(), threading.Lock()

    def path(self, name, key):
        return f"{self.folder}/{name}/{key[:32]}"

    def path_of(self, crate):
        """Returns the folder of all versions of a crate."""
        return f"{self.folder}/{crate.name}"

    def find(self, name, key):
        """Returns the folder of what was kept of a crate under a key, or None."""
        path = self.path(name, key)
        if not os.path.isdir(path):
            return None
        os.utime(path)
        self.used.add(path)
        return path

    def find_first(self, name, keys):
        """Returns the folder of what was kept of a crate under the first of some keys, or None. What was kept under
        another one of them is from then on kept under the first, too."""
        path = next((path for path in (self.find(name, key) for key in keys) if path), None)
        if not path or path == self.path(name, keys[0]):
            return path
        copy = lambda folder: shutil.copytree(path, folder, copy_function=link_or_copy, dirs_exist_ok=True)
        return self.keep(name, keys[0], copy)

    def keep(self, name, key, make):
        """Keeps what a call makes in an empty folder under a key, and returns that folder; None if the call fails."""
        path = self.path(name, key)
        os.makedirs(os.path.dirname(path), exist_ok=True)
        room = tempfile.mkdtemp(prefix=NEW, dir=os.path.dirname(path))
        try:
            if not make(room):
                return None
            with self.lock:
                shutil.rmtree(path, ignore_errors=True)
                os.replace(room, path)
                self.used.add(path)
            return path
        finally:
            shutil.rmtree(room, ignore_errors=True)

    def results(self, path):
        """Returns the results of edits in a folder, as `keep_results` has written them."""
        try:
            with open(f"{path}/{RESULTS}", encoding="utf-8") as it:
                return json.load(it)
        except (OSError, ValueError):
            return {}

    def add_results(self, path, results):
        """Adds results of edits to those of a folder, and forgets the oldest if there are too many."""
        kept = {**self.results(path), **results}
        self.keep_results(path, dict([*kept.items()][-MOST_RESULTS:]))

    def keep_results(self, path, results):
        """Writes the results of edits into a folder, by sums of what decides them."""
        with tempfile.NamedTemporaryFile("w", dir=path, delete=False, encoding="utf-8") as it:
            json.dump(results, it)
        os.replace(it.name, f"{path}/{RESULTS}")

    def prune(self):
        """Removes all but the last versions of each crate that was used."""
        for folder in {os.path.dirname(path) for path in self.used}:
            paths = [f"{folder}/{it}" for it in os.listdir(folder) if os.path.isdir(f"{folder}/{it}")]
            found = sorted(paths, key=os.path.getmtime, reverse=True)
            whole = [path for path in found if NEW not in path]
            broken_off = [path for path in found if NEW in path and os.path.getmtime(path) < time.time() - DAY]
            for path in [*whole[MOST_VERSIONS:], *broken_off]:
                if path not in self.used:
                    shutil.rmtree(path, ignore_errors=True)

