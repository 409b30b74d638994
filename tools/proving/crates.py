"""Proves one crate from nothing, and makes its library, its program or the program of its tests of what was proved."""
import copy
import os
import re
import signal
import tempfile

from .kit import rt, rtlib

LLVM = ["--toolchain", f"{rtlib.KIT}/toolchain", "--backend", "llvm"]


class Proving:
    """The proof of a crate, or of its tests, with what is said of it."""

    def __init__(self, crate, is_of_tests=False):
        # The two proofs of a crate may run side by side, and each writes for itself.
        self.crate, self.is_of_tests, self.said = copy.copy(crate), is_of_tests, ""

    @property
    def name(self):
        """The name of what is proved: the crate, or its tests."""
        return f"{self.crate.name}_tests" if self.is_of_tests else self.crate.name

    @property
    def made(self):
        """The name of what is made: a library, or a program."""
        return self.name if self.is_of_tests or self.crate.is_program else f"{self.name}.rlib"

    def make(self, folder, jobs):
        """Proves the crate, or its tests, and makes what is made of it in a folder. Returns whether all is well."""
        with tempfile.TemporaryFile("w+", errors="replace") as self.crate.out:
            try:
                status = self.prove(folder, jobs)
                if status == -signal.SIGKILL:
                    print("the check was killed, most likely for memory: once more, with one job", file=self.crate.out)
                    status = self.prove(folder, 1)
                if status < 0:
                    print(f"the check was ended by signal {-status}", file=self.crate.out)
            except SystemExit:
                status = 1
            self.crate.out.seek(0)
            self.said = self.crate.out.read()
        return not status

    def prove(self, folder, jobs):
        words = ["build", *self.crate.words(["--jobs", str(jobs)], tests=self.is_of_tests, keeps=False)]
        if not self.is_of_tests and not self.crate.is_program:
            return self.crate.prove([*words, "-o", f"{folder}/{self.made}"])
        code = f"{folder}/{self.made}.o"
        status = self.crate.prove([*words, *LLVM, "-o", code])
        # rt reads the program's path from the crate's folder on.
        status = status or self.crate.link(code, os.path.relpath(f"{folder}/{self.made}", self.crate.folder))
        if not status:
            os.remove(code)
        return status


def why_refused(crate, crates):
    """Returns why the text of a crate is refused before any proof, as `rt ci` refuses it, or nothing."""
    try:
        rtlib.stop_on_links(crate.folder)
        rtlib.stop_on_unread(crate.folder, crates)
        rtlib.stop_on_text(crate, "verdict")
        rt.stop_on_words(crate)
    except SystemExit:
        return "rt refuses its text, as it says above"
    code = rtlib.code_of(crate.folder)
    beyond = [handle for handle, words in rt.REACHES.items() if handle not in crate.allowed and re.search(words, code)]
    if re.search(rt.RENAMES, code):
        return "it renames std, or takes it whole: name what it uses of std by its path"
    if re.search(rt.IGNORED, code):
        return "it has a test under #[ignore], which nothing would run"
    if beyond:
        return f"it names what only the handle {beyond[0]} reaches, which HANDLES doesn't allow"
    if {"libc", "os"} & {*crate.of_kit}:
        return "it uses libc or os, which reach past the handles: call std instead"
    with open(os.devnull, "w", encoding="utf-8") as out:
        return "run rt fmt in its folder" if rtlib.fmt(crate.folder, "--check", out) else ""


def stop_on_unread_files(root, crates):
    """Ends the command if the repository has a file of Rattle that no crate reads, as `rt ci` does."""
    for name in sorted(os.listdir(root)):
        if name.endswith((".rt", ".antt")):
            rtlib.stop(f"no check reads {name}: it goes into a crate that crates.txt names")
        if os.path.isdir(f"{root}/{name}") and name != ".git":
            rtlib.stop_on_unread(f"{root}/{name}", crates)
