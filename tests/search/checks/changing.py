"""Tries the statements of checks/statements.py on examples and on random files, and counts what the files have."""
from collections import Counter

from .guarded import guarded
from .premises import EXAMPLES
from .statements import PREMISES, Trial

# How many files that lack one premise are tried, for each hundred with all of them.
LACKING = 5


class Changing:
    """Counts files: those with all premises by what they have, and those that lack one by what contradicts."""

    def __init__(self):
        self.whole, self.lacking = Counter(), {premise: Counter() for premise in PREMISES}

    def rows(self, files):
        """Yields the name of each test, and what is wrong in it."""
        for example in EXAMPLES:
            yield f"example {example.name}", example.wrong()
        seed = 0
        while self.whole["files"] < files:
            it = guarded(seed)
            trial = it and Trial(it.file, it.choice)
            if trial and not trial.lacks:
                yield f"changes {seed}", self.tried(trial, seed)
            elif trial and len(trial.lacks) == 1:
                wrong = self.contradicted(trial, seed, files * LACKING // 100)
                if trial.lacks == {"failed"}:
                    yield f"races {seed}", wrong
            seed += 1
        yield "files with data that agents share", None if 3 * self.whole["sharing"] > files else "they are too few"
        yield "files with choices", None if 10 * self.whole["choosing"] > files else "they are too few"

    def tried(self, trial, seed):
        """Returns what is wrong about a file with all premises; None if nothing is."""
        has_ordinary, shares = trial.shares()
        kinds = trial.unordered(seed)
        self.whole.update(files=1, ordinary=int(has_ordinary), sharing=int(shares), unordered=int(bool(kinds)))
        self.whole.update(choosing=int(trial.chooses()))
        return trial.wrong_answers() or trial.wrong_kinds(kinds)

    def contradicted(self, trial, seed, most):
        """Counts whether a file that lacks one premise contradicts the statements, if not too many were tried.

        Returns what contradicts the one about races, which must hold if some state is failed.
        """
        counts = self.lacking[min(trial.lacks)]
        if counts["files"] >= most:
            return None
        races = trial.wrong_kinds(trial.unordered(seed))
        counts.update(files=1, answers=int(bool(trial.wrong_answers())), races=int(bool(races)))
        return races

    def lines(self):
        """Returns in words how many files there were."""
        whole = self.whole
        made = f"{whole['ordinary']} have ordinary accesses, {whole['sharing']} data that agents share"
        made += f", {whole['choosing']} choices, {whole['unordered']} an exchange that is unordered"
        yield f"{whole['files']} files have all premises: {made}"
        for premise, counts in self.lacking.items():
            wrong = f"{counts['answers']} contradict the statement about answers, {counts['races']} that about races"
            yield f"{counts['files']} files lack '{premise}' alone: {wrong}"
