"""The file beside the module that says what it was made of: sources, kit, binaryen, and digests of the results."""
import hashlib
import json
import os

from proving.kit import rtlib

from .module import HERE, binaryen

ROOT = os.path.dirname(os.path.dirname(HERE))
MODULE, ORIGIN = "recorder/wasm/sabsim.wasm", "recorder/wasm/sabsim.json"
CRATE = "sabsim_wasm"
# What besides crates decides what the module has.
STEPS = ["tools/proving/static_library.py", "tools/webassembly/module.py", "tools/webassembly/heap.c"]


def digest_of(file):
    with open(file, "rb") as it:
        return hashlib.sha256(it.read()).hexdigest()


def sources_of(crate):
    """Returns the files whose code the module has: those of the crate and of the crates below it, and those that make
    the module of them."""
    folders = [f"{it.folder}/src" for it in [*crate.below(), crate]]
    files = [f"{at}/{name}" for folder in folders for at, _, names in os.walk(folder) for name in names]
    return sorted(os.path.relpath(file, ROOT) for file in [*files, *(f"{ROOT}/{step}" for step in STEPS)])


def sources_digest(crate):
    """Returns a digest of these files, with their names."""
    lines = [f"{digest_of(f'{ROOT}/{file}')}  {file}\n" for file in sources_of(crate)]
    return hashlib.sha256("".join(lines).encode()).hexdigest()


def kit():
    return rtlib.text_of(f"{rtlib.KIT}/KIT-ID").strip()


def has_logic_of(origin):
    """Returns whether a module's kit has the logic of this one. Kits of several names have the same logic, and README
    asks for the logic alone. Whether they make the same code is another question."""
    made_by, here = (name.partition(" logic ")[2] for name in (origin.get("kit", ""), kit()))
    return made_by != "" and made_by == here


def origin_of(crate, before, module):
    """Returns what is said about a module: `before` is its form before binaryen."""
    return {
        "sources": sources_digest(crate),
        "kit": kit(),
        "binaryen": binaryen(),
        "beforeBinaryen": digest_of(before),
        "module": digest_of(module),
    }


def is_current(crate):
    """Returns whether the module in the repository was made of the sources as they are, by this kit."""
    origin = kept_origin()
    is_there = os.path.isfile(f"{ROOT}/{MODULE}") and origin.get("module") == digest_of(f"{ROOT}/{MODULE}")
    return is_there and origin["sources"] == sources_digest(crate) and origin["kit"] == kit()


def kept_origin():
    """Returns what is said about the module in the repository; nothing if there is none."""
    text = rtlib.text_of(f"{ROOT}/{ORIGIN}")
    return json.loads(text) if text else {}
