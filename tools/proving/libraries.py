"""Sums of proved libraries as crates above read them: of all that is in a library, without the comments of its texts.

rattle has noted for each checked module on which items of other libraries it rests, down to their proofs and bodies,
and takes no module if one of these is another. So with the same sum the libraries above are as they would be proved."""
import hashlib
import json
import os
import re

from .kit import rtlib
from .modules import members_of
from .store import sum_of, sum_of_scripts

# The file beside a library that has its sum, and the scripts that make it.
KEPT, SCRIPTS = "library.json", "libraries modules"
# The texts of specs and proofs. What was checked of them is in the archive of modules.
TEXT = re.compile(r"lang/antt/(specs|proofs)/.*\.antt|lang/antt/(specs|proofs)\.antt")
MODULES = "toolchain/checked.a"
# Where the modules are in the archive.
PLACES = "toolchain/checked.json"
# What the library needs. Lines that begin so have sums of its other files.
NEEDS, OF_FILES = "format", ("checked ", "sum ")
# Where the head of a module ends, and its lines that are about the text: a sum of it, places in it, and sums of these.
HEAD_END, OF_TEXT = b"\n--@ body ", tuple(f"--@ {word} ".encode() for word in "source walked head digest".split())
# A place in the text, as other lines of the head name it.
PLACE = re.compile(rb'"span":\[\d+,\d+\]')


def library_sum(path, rlib):
    """Returns the sum of a library in a folder of the store, in which it is kept."""
    file, scripts = f"{path}/{KEPT}", sum_of_scripts(SCRIPTS)
    try:
        with open(file, encoding="utf-8") as it:
            kept = json.load(it)
    except (OSError, ValueError):
        kept = {}
    if kept.get("scripts") != scripts:
        kept = {"scripts": scripts, "sum": sum_of_library(rlib)}
        with open(f"{file}.new", "w", encoding="utf-8") as it:
            json.dump(kept, it)
        os.replace(f"{file}.new", file)
    return kept["sum"]


def sum_of_library(rlib):
    """Returns the sum of a library, from its files."""
    paths = [f"{at}/{name}" for at, _, names in os.walk(rlib) for name in names]
    files = {os.path.relpath(path, rlib): path for path in sorted(paths)}
    whole = [name for name in files if name not in (MODULES, PLACES, NEEDS) and not TEXT.fullmatch(name)]
    needs = [line for line in rtlib.text_of(files[NEEDS]).split("\n") if not line.startswith(OF_FILES)]
    with open(files[MODULES], "rb") as it:
        modules = [(member.name, sum_of_member(member.data)) for member in members_of(it.read())]
    return sum_of([(name, rtlib.sum_of(files[name])) for name in whole], needs, modules)


def sum_of_member(data):
    """Returns the sum of a checked module without what its head says about its text, or of anything else as it is."""
    head, end, body = data.partition(HEAD_END)
    lines = [PLACE.sub(b"", line) for line in head.split(b"\n") if not line.startswith(OF_TEXT)] if end else [head]
    made = hashlib.sha256(repr(lines).encode())
    made.update(body)
    return made.hexdigest()
