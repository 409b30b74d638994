"""Notes which commits have passed ./check on this machine, for tools/release."""
import os
import subprocess

from .store import default_folder

NAME = "passed"


def clean_commit(root):
    """Returns the commit that is checked out in a folder, if all files are as it has them; else None."""
    git = lambda *words: subprocess.run(["git", "-C", root, *words], capture_output=True, text=True, check=False)
    head, changes = git("rev-parse", "HEAD"), git("status", "--porcelain")
    is_clean = head.returncode == 0 and changes.returncode == 0 and not changes.stdout
    return head.stdout.strip() if is_clean else None


def note_passed(commit):
    """Adds a commit to those that have passed."""
    with open(f"{default_folder()}/{NAME}", "a", encoding="utf-8") as it:
        it.write(f"{commit}\n")


def has_passed(commit):
    """Returns whether a commit has passed."""
    file = f"{default_folder()}/{NAME}"
    if not os.path.isfile(file):
        return False
    with open(file, encoding="utf-8") as it:
        return commit in it.read().split()
