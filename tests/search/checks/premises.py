"""Files that lack one premise of the statements in checks/statements.py, each as small as we found it.

Each contradicts a statement. So no premise can be left out, and the comparison can fail. The last file has all
premises, and shows what may be unordered.
"""
from typing import NamedTuple, Set, Tuple

from .apart import wrong_history
from .statements import Trial

VIEWS = [{"name": name, "kind": "Int32", "block": 0, "offset": offset, "length": 1}
         for name, offset in [("x", 0), ("z", 4)]]  # fmt: skip
FINISHED, THREW = {"finished": True}, {"threw": "no"}


class Example(NamedTuple):
    """A file: the premises that it lacks, how its timed waits end, and what contradicts the statements."""

    name: str
    lacks: Set[str]
    choice: str
    automata: Tuple[list, ...]
    has_new_history: bool
    unordered: Tuple[str, ...]

    @property
    def file(self):
        automata = [{"name": f"a{number}", "nodes": nodes} for number, nodes in enumerate(self.automata)]
        agents = [{"automaton": it["name"], "block": True} for it in automata]
        return {"blocks": [8], "views": VIEWS, "automata": automata, "agents": agents}

    def wrong(self):
        """Returns what is other than the example says; None if nothing is."""
        trial = Trial(self.file, self.choice)
        found = (trial.lacks, wrong_history(self.file, self.choice) is not None, tuple(sorted(trial.unordered(0))))
        wanted = (self.lacks, self.has_new_history, self.unordered)
        return None if found == wanted else f"{found}, and not {wanted}"


def call(*does, **edges):
    return {"call": list(does), "edges": [[answer.strip("_").replace("_", "-"), to] for answer, to in edges.items()]}


def read(byte, size=1, **edges):
    return {"read": [0, byte, size], "edges": [[answer.strip("_"), to] for answer, to in edges.items()]}


def write(byte, digits, to):
    return {"write": [0, byte, digits], "edges": [["", to]]}


EXAMPLES = [
    # Between its two writes nobody else moves, so 00 and 01 are read only if accesses are acts.
    Example("conflict", {"conflict"}, "early", (
        [write(0, "01", 1), write(0, "02", 2), FINISHED],
        [read(0, _00=1, _01=1, _02=1), FINISHED],
    ), True, ("data race", "ordinary access")),
    # No run goes on behind the throw, so 1 is loaded only before the write.
    Example("failed", {"failed"}, "early", (
        [call("store", "x", 0, 1, _1=1), write(4, "01", 2), THREW],
        [call("load", "x", 0, _0=1, _1=1), FINISHED],
    ), True, ()),
    # The store's act leads nowhere, since what is read behind it has no edge.
    Example("unknown", {"unknown"}, "early", (
        [call("store", "x", 0, 1, _1=1), read(4)],
        [call("load", "x", 0, _0=1, _1=1), FINISHED],
    ), True, ()),
    Example("no first state", {"unknown"}, "early", (
        [read(4)],
        [read(4, _00=1), FINISHED],
    ), True, ()),
    # A run in which the read comes first leads nowhere.
    Example("unknown, with a race", {"unknown"}, "early", (
        [call("store", "x", 0, 1, _1=1), FINISHED],
        [call("load", "z", 0, _0=1), read(0, _01=2), FINISHED],
    ), True, ("data race",)),
    # The other agent's first load of 0 leads to another state, since its read before is forgotten then.
    Example("last", {"last"}, "last", (
        [call("wait", "x", 0, 0, 1, ok=1, timed_out=1), call("store", "x", 0, 1, _1=2), FINISHED],
        [read(4, _00=1), call("load", "x", 0, _0=1, _1=2), FINISHED],
    ), True, ()),
    # The wait ends only when the other agent has ended, and nothing orders the two.
    Example("last, with a race", {"last"}, "last", (
        [call("wait", "x", 0, 0, 1, timed_out=1), read(4, _01=2), FINISHED],
        [write(4, "01", 1), call("load", "x", 0, _0=2), FINISHED],
    ), False, ("data race",)),
    # All premises are there. The exchange and the read are unordered, but no data race: the store lies between them.
    Example("exchange", set(), "early", (
        [call("compareExchange", "x", 0, 0, 1, _0=1, _2=1), FINISHED],
        [call("store", "x", 0, 2, _2=1), read(0, 4, _02000000=2), FINISHED],
    ), False, ("compareExchange",)),
]  # fmt: skip

