"""Proves a static library, keeps the code that its proof is about, and tries its edits."""
import copy
import os
import shlex
import tempfile

from .crates import Proving
from .kit import rtlib
from .modules import calls_in
from .trial import Trial

TOOLCHAIN = f"{rtlib.KIT}/toolchain"
# What the check of a static library leaves beside its code, for its edits.
CHECKED = "checked"


class StaticProving(Proving):
    """The proof of a static library. What is made of it is its code, as LLVM's bitcode."""

    @property
    def made(self):
        return f"{self.name}.bc"

    def prove(self, folder, jobs):
        """Proves the library, keeps what was checked, and the code that the kit gives to its clang for x86-64. Nothing
        is compiled."""
        # Later processors of this kind have instructions of their own, which the code could name.
        words = [*self.crate.words(["--jobs", str(jobs)], keeps=False), "--cpu=x86-64"]
        status = self.crate.prove(["check", *words, "-o", f"{folder}/{CHECKED}"])
        for flag in ("--logic-built", "--jobs"):
            at = words.index(flag)
            words = [*words[:at], *words[at + 2 :]]
        with tempfile.TemporaryDirectory(prefix="sabsim-bitcode-") as room:
            toolchain = toolchain_that_keeps(f"{folder}/{self.made}", room)
            # It makes nothing unless the code is what the check has proved.
            how = ["--crate-checked", f"{folder}/{CHECKED}", "--toolchain", toolchain, "--backend", "llvm"]
            return status or self.crate.call(rtlib.RATTLE, "build", *words, *how, "-o", f"{room}/unused.a")


class StaticTrial(Trial):
    """The edits of a static library, tried on it as on a plain library, over what its own proof left in a folder."""

    def __init__(self, crate, folder, files, report, alone=False):
        plain = copy.copy(crate)
        plain.is_static, plain.rlib = False, f"{folder}/{CHECKED}"
        super().__init__(plain, files, report, alone)

    def read_calls(self):
        """Returns for each function of the crate which of its functions it calls or passes on."""
        return calls_in(self.crate)


def toolchain_that_keeps(bitcode, room):
    """Makes a toolchain of links to the kit's, whose clang keeps what it is given, and makes an empty object file.
    Returns the toolchain's path."""
    made = f"{room}/toolchain"
    os.makedirs(f"{made}/bin")
    for part in (it for it in os.listdir(TOOLCHAIN) if it != "bin"):
        os.symlink(f"{TOOLCHAIN}/{part}", f"{made}/{part}")
    for tool in (it for it in os.listdir(f"{TOOLCHAIN}/bin") if it != "clang"):
        os.symlink(f"{TOOLCHAIN}/bin/{tool}", f"{made}/bin/{tool}")
    with open(f"{made}/bin/clang", "w", encoding="utf-8") as it:
        it.write(f"#!/bin/sh\ncp module.bc {shlex.quote(bitcode)} || exit\n")
        it.write(f"exec {TOOLCHAIN}/bin/clang --target=x86_64-unknown-linux-gnu -x c /dev/null -c -o module.o\n")
    os.chmod(f"{made}/bin/clang", 0o755)
    return made
