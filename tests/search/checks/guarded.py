"""Files of automata drawn at random from a seed, whose agents mostly guard the data that they share.

An agent makes a few sections one after the other, such as a locked access to data.
"""
import random
from typing import NamedTuple

from .machine import Machine

VIEWS = [{"name": name, "kind": kind, "block": 0, "offset": offset, "length": None}
         for name, kind, offset in [("f", "Int32", 0), ("g", "Int32", 4), ("d", "Int8", 8)]]  # fmt: skip
DATA, OWN = 8, 12
# Where an answer leads: to the next node, the one after it, the section's first one, behind the section, or an end.
NEXT, OVER, AGAIN, BEHIND, FINISHED, THREW = "next", "over", "again", "behind", "finished", "threw"
MOST_STATES = 150


class Guarded(NamedTuple):
    """A file, and when its timed waits may end."""

    file: dict
    choice: str


def guarded(seed):
    """Returns the file of a seed; None if runs reach too many states."""
    draw = random.Random(f"guarded {seed}")
    writer = Writer(draw)
    made = [writer.nodes(number) for number in range(draw.choice([1, 2, 2, 2, 3]))]
    if draw.random() < 0.3:
        change(draw, *draw.choice(made))
    automata = [{"name": f"a{number}", "nodes": nodes} for number, (nodes, _leads) in enumerate(made)]
    names = [it["name"] for it in automata] + ["a0"] * (len(made) == 1 or (len(made) == 2 and draw.random() < 0.2))
    agents = [{"automaton": name, "block": True} for name in names]
    file = {"blocks": [16], "views": VIEWS, "automata": automata, "agents": agents}
    choice = draw.choice(["early", "early", "early", "early", "early", "never", "never", "last"])
    unknown = draw.choice(7 * [0] + [0.1])
    is_whole = grow(draw, file, choice, [leads for _nodes, leads in made], unknown)
    return Guarded(file, choice) if is_whole else None


class Writer:
    """Draws the automata of one file: the nodes of each without edges, and where a node's answers lead."""

    def __init__(self, draw):
        self.draw = draw
        self.word, self.byte = draw.choice(["f", "f", "g"]), draw.choice([0, 0, 1])
        # How often data is accessed by calls, and whether agents may throw.
        self.calls, self.throws = draw.choice([0, 0, 0, 0.4]), draw.random() < 0.1
        locks, flags = [self.locked, self.slept], [self.published, self.consumed, self.awaited]
        self.kinds = draw.choice([locks, locks, flags, flags, locks + flags + [self.counted]])

    def nodes(self, number):
        """Returns an automaton's nodes and where their answers lead: by node and answer, or by None for all others."""
        nodes, leads = [], []
        for _ in range(self.draw.choice([1, 1, 2])):
            section = self.section(number)
            start = len(nodes)
            for at, (node, targets) in enumerate(section, start):
                places = {NEXT: at + 1, OVER: at + 2, AGAIN: start, BEHIND: start + len(section)}
                nodes.append({**node, "edges": []})
                leads.append({answer: places.get(to, to) for answer, to in {None: NEXT, **targets}.items()})
        ends = {FINISHED: len(nodes), THREW: len(nodes) + 1}
        leads = [{answer: ends.get(to, to) for answer, to in targets.items()} for targets in leads]
        for node, targets in zip(nodes, leads):
            if "write" in node:
                node["edges"].append(["", targets[None]])
        return nodes + [{"finished": True}, {"threw": "no"}], leads

    def section(self, number):
        draw = self.draw
        kinds = [self.published] if number == 0 and self.published in self.kinds[:1] else self.kinds
        before = self.own(number) if draw.random() < 0.2 else []
        before += self.chosen(NEXT, BEHIND, FINISHED) if draw.random() < 0.1 else []
        return before + draw.choice(kinds)() + (self.chosen(BEHIND, AGAIN, FINISHED) if draw.random() < 0.2 else [])

    def called(self, *call, **targets):
        """Returns a call, and where its answers lead: `_0` is the answer 0, and `other` all others."""
        leads = {answer.strip("_").replace("_", "-"): to for answer, to in targets.items() if answer != "other"}
        return {"call": list(call)}, {**leads, None: targets.get("other", NEXT)}

    def access(self):
        """Returns an access to the data that agents share."""
        draw = self.draw
        if draw.random() < self.calls:
            function = draw.choice(["load", "store", "compareExchange"])
            values = {"load": [], "store": [draw.choice([1, 2])], "compareExchange": [draw.choice([0, 1]), 2]}[function]
            return self.called(function, "d", self.byte, *values)
        size, alone = draw.choice([1, 1, 1, 2]), draw.random() < 0.1
        if draw.random() < 0.5:
            digits = "".join(draw.choice(["01", "02"]) for _ in range(size))
            return {"write": [0, DATA + self.byte, digits], "alone": alone}, {}
        leads = {"00" * size: THREW} if self.throws and draw.random() < 0.5 else {}
        return {"read": [0, DATA + self.byte, size], "alone": alone}, leads

    def accesses(self):
        return [self.access() for _ in range(self.draw.choice([1, 1, 2]))]

    def own(self, number):
        """Returns an access to a byte of the agent's own."""
        byte = OWN + number
        return [({"write": [0, byte, "01"]} if self.draw.random() < 0.5 else {"read": [0, byte, 1]}, {})]

    def chosen(self, *places):
        """Returns a choice between two places."""
        first, second = self.draw.sample(places, 2)
        return [({"choose": 2}, {"0": first, "1": second})]

    def store(self, value):
        return [self.called("store", self.word, 0, value)]

    def notify(self):
        return [self.called("notify", self.word, 0, *self.draw.choice([[], [1]]))]

    def wait(self, value, **targets):
        return self.called("wait", self.word, 0, value, *self.draw.choice([[], [100]]), **targets)

    def load(self, *others):
        return [self.called("load", self.word, 0, _1=NEXT, other=self.draw.choice(others))]

    def published(self):
        return self.accesses() + self.store(1) + self.draw.choice([[], self.notify()])

    def consumed(self):
        return self.load(AGAIN, BEHIND, FINISHED) + self.accesses()

    def awaited(self):
        wait = self.wait(0, timed_out=self.draw.choice([AGAIN, FINISHED]))
        return [wait] + self.load(AGAIN, FINISHED) + self.accesses()

    def locked(self):
        other = self.draw.choice([AGAIN, AGAIN, BEHIND, FINISHED])
        taken = self.called("compareExchange", self.word, 0, 0, 1, _0=NEXT, other=other)
        return [taken] + self.accesses() + self.store(0)

    def slept(self):
        """Returns a lock whose agents sleep while it is taken."""
        taken = self.called("compareExchange", self.word, 0, 0, 1, _0=OVER)
        return [taken, self.wait(1, other=AGAIN)] + self.accesses() + self.store(0) + self.notify()

    def counted(self):
        """Returns a count of the agents that came: who isn't the first accesses the data once more."""
        count = self.called("add", "g", 0, 1, _1=NEXT, other=self.draw.choice([BEHIND, FINISHED]))
        return self.accesses() + [count] + self.accesses()


def change(draw, nodes, leads):
    """Changes one node of an automaton: where a call's other answers or the choice of 1 lead, or that an access is
    `alone`."""
    at = draw.randrange(len(leads))
    if "choose" in nodes[at]:
        leads[at]["1"] = draw.randrange(len(nodes) - 1)
    elif "call" in nodes[at]:
        leads[at][None] = draw.randrange(len(nodes) - 1)
    else:
        nodes[at]["alone"] = True


def grow(draw, file, choice, leads, unknown):
    """Gives edges to the answers of all runs, except to a few; returns whether runs reach few states."""
    left = set()
    first = with_edges(draw, file, lambda: Machine(file), leads, unknown, left)
    found, open_ones = set(), [first] if first else []
    while open_ones:
        machine = open_ones.pop()
        if machine.described() in found:
            continue
        found.add(machine.described())
        if len(found) > MOST_STATES:
            return False
        for mover in machine.movers(choice):
            after = with_edges(draw, file, lambda: machine.stepped(mover)[1], leads, unknown, left)
            open_ones += [after] if after else []
    return True


def with_edges(draw, file, again, leads, unknown, left):
    """Returns the machine after an act for which edges are made as long as one lacks; None if one is left out."""
    machine = again()
    while machine.lost:
        automaton, at, answer = machine.lost
        if machine.lost in left or draw.random() < unknown:
            left.add(machine.lost)
            return None
        targets = leads[automaton][at]
        file["automata"][automaton]["nodes"][at]["edges"].append([answer, targets.get(answer, targets[None])])
        machine = again()
    return machine
