"""The kit's command rt, loaded as a module, and what its tries of an edit mean."""
import hashlib
import importlib.machinery
import importlib.util
import os
import shutil
import sys

# What is used of rt. Kits differ in other names.
NAMES = (
    "BACKENDS Crate IGNORED REACHES RENAMES edits_of free handles_of must_fail need processors read_edit run"
    " stop_on_words unread"
)


def stop(why):
    """Ends the command that is running, with the status of a command that couldn't begin."""
    print(f"{os.path.basename(sys.argv[0])}: {why}", file=sys.stderr)
    sys.exit(2)


def load_rt():
    """Returns the kit's `rt` as a module."""
    path = shutil.which("rt")
    if not path:
        stop("there is no rt on this machine; it comes with the Rattle kit, which sabsim is proved and built with")
    loader = importlib.machinery.SourceFileLoader("rt", os.path.realpath(path))
    module = importlib.util.module_from_spec(importlib.util.spec_from_loader("rt", loader))
    sys.modules["rt"] = module
    loader.exec_module(module)
    lacking = [name for name in NAMES.split() if not hasattr(module, name)]
    if lacking:
        stop(f"the rt of this kit has no {', '.join(lacking)}: take the kit that README names")
    return module


rt = load_rt()
rtlib = rt.rtlib


def kit_sum():
    """Returns a sum of the kit: its compiler, logic and libraries, and the scripts that judge what the compiler
    says."""
    files = [f"{rtlib.KIT}/WHAT", os.path.realpath(rt.__file__), os.path.realpath(rtlib.__file__)]
    return hashlib.sha256(repr([rtlib.sum_of(file) for file in files]).encode()).hexdigest()


def crates_of(root):
    """Returns the crates of the repository, each after those that it uses, and holds them to HANDLES."""
    rtlib.Crate = rt.Crate
    rt.Crate.allowed = rt.handles_of(root)
    # The crates above a library load its proofs too, which the library's must-fail edits begin with.
    rt.Crate.cuts_libraries = False
    return rtlib.crates_below(root)
