"""Runs the tests that aren't proofs: commands whose last line is `N passed, M failed`, as tasks beside the proofs."""
import os
import re
import subprocess
import tempfile
import time
from dataclasses import dataclass, field

from .figures import TESTS, of_kind
from .kit import rtlib
from .lanes import Task

COUNTS = re.compile(r"(?:.* )?(\d+) passed, (\d+) failed")
# What may stand before the counts: what was left out, since the machine lacks something, and what failed first.
LEFT_OUT, SECOND = "left out: ", "passed only the second time: "
# An entry of what was left out: a command, or a number of tests, and what was lacking.
ENTRY = re.compile(r"(?:(?P<count>\d+) tests?|(?P<name>\S+)) \((?P<why>[^()]*)\)")


@dataclass
class Part:
    """A command, the programs that it needs, by their crates, and about how many seconds it takes.

    `tools` are those that it runs with if tools/fetch has fetched them (tools/with), and `env` what it is given in the
    environment.
    """

    words: list
    needs: list = field(default_factory=list)
    seconds: float = 10
    tools: tuple = ()
    env: dict = field(default_factory=dict)

    @property
    def name(self):
        return self.words[0]

    @property
    def command(self):
        return ["tools/with", *self.tools, "--", *self.words] if self.tools else self.words


@dataclass
class Said:
    """What the last lines of a command say: its counts, what it left out, and what passed only the second time."""

    passed: int = 0
    failed: int = 0
    left_out: list = field(default_factory=list)
    second: str = ""
    has_counts: bool = False
    is_understood: bool = True


def entries_of(line):
    """Returns the entries of a line about what was left out; nothing if it isn't understood."""
    found = list(ENTRY.finditer(line))
    is_whole = LEFT_OUT + ", ".join(it[0] for it in found) == line
    return [it.groupdict() for it in found] if is_whole else []


def said_by(text):
    """Returns what a command's output says in its last lines."""
    *before, last = text.splitlines()[-3:] or [""]
    found, said = COUNTS.fullmatch(last), Said()
    if found:
        said.passed, said.failed, said.has_counts = int(found[1]), int(found[2]), True
    for line in before:
        if line.startswith(LEFT_OUT):
            said.left_out = entries_of(line)
            said.is_understood = bool(said.left_out)
        if line.startswith(SECOND):
            said.second = line.removeprefix(SECOND)
    return said


def why_bad(said, status):
    """Returns why what a command said isn't well, besides tests that failed; nothing if it is."""
    if not said.has_counts:
        return "it ended without its counts"
    if status and not said.failed:
        return f"it ended with status {status}"
    if not said.is_understood:
        return "its line about what it left out isn't understood"
    if not said.passed and not said.failed and not said.left_out:
        return "it ran nothing, and doesn't say why"
    return ""


def part_task(part, tasks, tally):
    """Returns the task of running a part from the root of the repository, once what it needs has ended well."""
    waits_for = [tasks[name] for name in part.needs if name in tasks]
    return Task(part.name, of_kind(TESTS, lambda _: run_part(part, tally)), waits_for, part.seconds)


def run_part(part, tally):
    """Runs a part, counts what it counted, and shows what it printed if something failed, also if only at first."""
    begun = time.monotonic()
    with tempfile.TemporaryFile("w+", errors="replace") as out:
        how = {"stdin": subprocess.DEVNULL, "stdout": out, "stderr": subprocess.STDOUT}
        command, env = [*rtlib.guarded(), *part.command], {**os.environ, **part.env}
        status = subprocess.run(command, env=env, **how).returncode
        out.seek(0)
        text = out.read().rstrip("\n")
    said = said_by(text)
    why = why_bad(said, status)
    is_well = not said.failed and not why
    is_brief = is_well and not said.second
    shown = text.rpartition("\n")[2] if is_brief else f"{text}\n{why}".rstrip("\n")
    tally.say(f"== {part.name}, {time.monotonic() - begun:.0f} s: {shown}")
    tally.add(said.passed, [] if is_well else [f"{part.name}: {why or f'{said.failed} failed'}"])
    tally.add_left_out(said.left_out, said.second)
    return is_well


class LeftOut:
    """What all parts left out, and what passed only the second time."""

    def __init__(self):
        self.names, self.tests, self.second = [], {}, []

    def add(self, entries, second):
        """Adds what a part left out, and what passed there only the second time."""
        for it in entries:
            if it["name"]:
                self.names.append(f"{it['name']} ({it['why']})")
            else:
                self.tests[it["why"]] = self.tests.get(it["why"], 0) + int(it["count"])
        if second:
            self.second.append(second)

    def entries(self):
        """Returns an entry for each command, and for all tests that lacked the same."""
        tests = [f"{count} {'test' if count == 1 else 'tests'} ({why})" for why, count in self.tests.items()]
        return [*self.names, *tests]

    def lines(self):
        """Returns the lines that stand before the counts: two at most."""
        entries = self.entries()
        left_out = [LEFT_OUT + ", ".join(entries)] if entries else []
        return left_out + ([SECOND + ", ".join(self.second)] if self.second else [])
