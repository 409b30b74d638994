"""Searches files while the program is refused one allocation, and compares what it finds with the model."""
import json
import os
import random
import subprocess

from .drawn import drawn
from .program import wrong_output
from model.lines import spelled
from model.reading import read
from model.result import result_in
from model.search import cut_short, search

TESTS = os.path.dirname(os.path.dirname(os.path.dirname(os.path.realpath(__file__))))
# Of how many allocations one is refused in the search of a file, in turn.
REFUSALS = 5
OUT_OF_MEMORY = (4, "", "sabsim: 5 OutOfMemory\n")


class Refusing:
    """Runs the built program with an allocation refused, by tests/refuse.c."""

    def __init__(self, program, folder):
        self.program, self.library, self.report = program, f"{folder}/refuse.so", f"{folder}/report"
        words = ["-O2", "-fPIC", "-shared", "-o", self.library, f"{TESTS}/refuse.c", "-ldl", "-lpthread"]
        subprocess.run(["cc", *words], check=True)

    def searched(self, text, words, number):
        """Searches a file with the allocation of this number refused, or none if it is 0. Returns how that ended, and
        how many allocations there were."""
        words = [self.program, "search", "--format", "json", *words]
        given = {"LD_PRELOAD": self.library, "REFUSE_ALLOCATION": str(number), "REFUSE_REPORT": self.report}
        ran = subprocess.run(words, input=text, capture_output=True, env={**os.environ, **given})
        with open(self.report, encoding="utf-8") as it:
            allocations = int(it.read().split()[1])
        return (ran.returncode, ran.stdout.decode(), ran.stderr.decode()), allocations


def wrong_without_memory(refusing, seed):
    """Returns what is wrong with a search of a seed's file while an allocation is refused, and how many of the searches
    such a refusal ended."""
    it, draw, cuts = drawn(seed), random.Random(seed), 0
    text = json.dumps(it.file).encode()
    words = ["--timeouts", it.choice, "--limit", str(it.limit)]
    automata = read(text)
    found = search(automata, it.choice, it.limit)
    _ended, allocations = refusing.searched(text, words, 0)
    for _ in range(REFUSALS):
        number = draw.randrange(1, allocations + 1)
        ended, _allocations = refusing.searched(text, words, number)
        if ended == OUT_OF_MEMORY:
            continue
        wrong, is_cut = wrong_ending(ended, automata, found, it)
        if wrong:
            return f"without allocation {number}: {wrong}", cuts
        cuts += is_cut
    return None, cuts


def wrong_ending(ended, automata, found, it):
    """Returns what is wrong with what the program wrote, and whether a refusal ended its search."""
    first = json.loads(ended[1].split("\n")[0] or "{}")
    is_cut = "why" in first
    if is_cut:
        found = cut_short(found, first["states"], first["expanded"])
        if not found:
            return f"the search can't have ended at {spelled(first)}", is_cut
    result = result_in(automata, found, it.choice, it.limit)
    return wrong_output(*ended, automata, it.choice, {**result, **({"why": "memory"} if is_cut else {})}), is_cut
