"""The parts that can be fetched: the packages of each, and what is done with them."""
import os
import re
from dataclasses import dataclass
from typing import Callable

# The files of Debian's jest that ask Debian's own node where its modules are, and what they ask.
ASKING = ("jest-config/build/Defaults.js", "jest-resolve/build/resolver.js", "jest-resolve/build/nodeModulesPaths.js")
VARIABLES = {"node_relative_path": "'share/nodejs'", "node_prefix": "require('path').join(__dirname, '../../../..')"}


def lead_runners_to_their_folder(root):
    """Changes Debian's jest so that it finds its modules beside itself, with each node. ava gets them by a link."""
    os.symlink("nodejs", f"{root}/usr/share/node_modules")
    for name in ASKING:
        path = f"{root}/usr/share/nodejs/{name}"
        with open(path, encoding="utf8") as file:
            text = file.read()
        for variable, value in VARIABLES.items():
            text = re.sub(rf"process\.config\.variables\.{variable}\b", lambda _: value, text)
        with open(path, "w", encoding="utf8") as file:
            file.write(text)


def replace_with_link(path, target):
    """Puts a link where a file may be."""
    if os.path.lexists(path):
        os.remove(path)
    os.symlink(target, path)


def start_chromium_itself(root):
    """Names Chromium itself `chromium`. Debian's script of that name needs files in /etc, where nothing is laid."""
    replace_with_link(f"{root}/usr/bin/chromium", "../lib/chromium/chromium")


def name_the_daemons_of_slurm(root):
    """Gives Slurm's daemons the names that they have when Debian installs them."""
    for name in ("slurmctld", "slurmd", "slurmstepd"):
        replace_with_link(f"{root}/usr/sbin/{name}", f"{name}-wlm")


@dataclass(frozen=True)
class Part:
    """Packages that are fetched together, by the name of their folder.

    The version of the first package that is fetched is that of the part. A part that is laid `over` this machine has
    the packages that this machine lacks. Another has all that its packages need. If it is only JavaScript, it has those
    for every processor alone: this machine's node runs them. `suite` is Debian's; without one it is this machine's.
    """

    packages: tuple
    what: str
    over: bool = False
    only_javascript: bool = False
    suite: str = ""
    finish: Callable = None


PARTS = {
    "types": Part(("node-typescript",), "tsc", only_javascript=True),
    "runners": Part(
        ("mocha", "jest", "ava"), "mocha, jest and ava", only_javascript=True, finish=lead_runners_to_their_folder
    ),
    "pictures": Part(("librsvg2-bin", "fonts-dejavu-core"), "rsvg-convert", over=True),
    "browsers": Part(
        ("chromium", "firefox-esr", "fonts-dejavu-core"), "Chromium and Firefox", over=True,
        finish=start_chromium_itself,
    ),
    "slurm": Part(("slurm-wlm", "munge"), "Slurm", over=True, finish=name_the_daemons_of_slurm),
    "parallel": Part(("parallel",), "GNU parallel", over=True),
    "binaryen": Part(("binaryen",), "wasm-opt", over=True),
    "node": Part(("nodejs",), "the newest node that Debian has", suite="sid"),
}
