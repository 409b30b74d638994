"""Files of automata drawn at random from a seed, small enough for a slow search.

The nodes come first, without edges. Then the agents run, and most answers that they meet get an edge; a few get none.
"""
import random
from typing import NamedTuple

from .machine import Machine, Thrown

# Kinds with their sizes: the first ones can be waited on.
KINDS = [("Int32", 4), ("Int32", 4), ("Int32", 4), ("BigInt64", 8), ("Int8", 1), ("Uint8", 1),
         ("Int16", 2), ("Uint16", 2), ("Uint32", 4), ("BigUint64", 8), ("Float32", 4), ("Uint8Clamped", 1)]  # fmt: skip
SIZES = dict(KINDS)
ACCESSES = ["load", "store", "store", "exchange", "add", "sub", "and", "or", "xor", "compareExchange"]
VALUES = [0, 0, 0, 0, 1, 1, 1, 1, 2, -1, 255, 256, 2**31, -(2**40)]
# What waits expect, besides what is there at first.
EXPECTED = [0, 1, -1]
BOUNDS, COUNTS = [[], [0], [100], [-1]], [[], [1], [1], [2], [0], [-3]]
TEXTS = ["no", "gave up", "", "caf\u00e9 \u2192"]
WALKS, STEPS = 25, 14
# How many agents a file has at most that has several of an automaton.
MOST_AGENTS = 5


class Drawn(NamedTuple):
    """A file, and how it is searched."""

    file: dict
    choice: str
    limit: int


def drawn(seed, only_calls=False, has_likes=False):
    """Returns the file of a seed; if asked without ordinary accesses, on zero bytes, and with timeouts at any time;
    or with several agents of an automaton."""
    draw = random.Random(f"{seed} {only_calls}{' likes' * has_likes}")
    choice = "early" if only_calls else draw.choice(["early", "early", "last", "last", "never"])
    file = Writer(draw, only_calls, has_likes).file()
    grow(draw, file, choice)
    return Drawn(file, choice, draw.choice([1, 2, 4, 9, 17, 33] + 10 * [200]))


class Writer:
    """Draws the parts of one file."""

    def __init__(self, draw, only_calls, has_likes):
        self.draw, self.only_calls, self.has_likes = draw, only_calls, has_likes
        self.blocks = draw.choice([[8], [8], [16], [8, 8], [8, 8], [4, 8], [8, 0], [8, 8, 1]])
        self.views = [self.view(n) for n in range(draw.randrange(1, 6))]
        digits = ["00"] if only_calls or draw.random() < 0.5 else ["01", "ff"] + 10 * ["00"]
        self.initial = ["".join(draw.choice(digits) for _ in range(length)) for length in self.blocks]
        # Few elements on which most calls are, so that agents meet.
        spots = [(view, index) for view in self.views[:2] for index in range(self.length(view))]
        self.spots = draw.sample(spots, min(len(spots), draw.choice([1, 2, 2])))
        # Whether the first automaton begins with a wait, and the second one with a notify there.
        self.meets = draw.random() < 0.6
        # How often a node is an ordinary access, and of what its calls are.
        self.ordinary = 0 if only_calls else draw.choice([0, 0.2, 0.5])
        self.waiting, self.throwing = draw.choice([0.2, 0.6, 0.9]), draw.choice([0, 0, 0.1])
        # How often a node is a choice.
        self.choosing = draw.choice([0, 0, 0.2, 0.4])

    def view(self, number):
        # The first views can be waited on.
        kind, size = self.draw.choice(KINDS[:4] if number < 2 else KINDS)
        fitting = [n for n, length in enumerate(self.blocks) if length % size == 0 and (length or number)]
        block = self.draw.choice(fitting) if fitting else 0
        if not fitting or (number == 0 and self.blocks[block] < size):
            kind, size, block = "Int32", 4, 0
        room = self.blocks[block] // size
        offset = self.draw.choice(10 * [0] + [room]) if number else 0
        length = self.draw.choice([None, None, room - offset])
        return {"name": f"v{number}", "kind": kind, "block": block, "offset": offset * size, "length": length}

    def file(self):
        draw = self.draw
        count = draw.choice([2, 2, 3] if self.meets else [1, 2])
        automata = [{"name": f"a{n}", "nodes": self.nodes(n)} for n in range(count)]
        # Mostly each automaton has an agent.
        names = [it["name"] for it in automata] + [draw.choice(automata)["name"] for _ in range(draw.randrange(3))]
        if self.has_likes:
            names = [it["name"] for it in automata for _ in range(draw.randrange(1, 5))][:MOST_AGENTS]
        elif not self.meets:
            names = names[draw.randrange(2) :]
        agents = [{"automaton": name, "block": draw.random() > self.throwing} for name in names]
        file = {"blocks": self.blocks, "views": self.views, "automata": automata, "agents": agents}
        if not self.only_calls and set("".join(self.initial)) - {"0"}:
            file["initial"] = self.initial
        return file

    def nodes(self, number):
        """Returns the nodes of an automaton; the last ones are ends."""
        nodes = []
        if self.meets:
            view, index = self.spots[-1 if number == 2 else 0]
            first = self.at_first(view, index)
            call = self.notify(view, index) if number == 1 else self.wait(view, index, [first])
            nodes.append({"call": call, "edges": []})
        for _ in range(self.draw.randrange(2, 6)):
            nodes.append(self.node())
        nodes.append({"finished": True})
        if self.draw.random() < 0.3:
            nodes.append({"threw": self.draw.choice(TEXTS)})
        for at, node in enumerate(nodes):
            if "write" in node:
                node["edges"] = [["", target(self.draw, nodes, at)]]
        return nodes

    def node(self):
        """Returns an ordinary access, a choice or a call."""
        if self.draw.random() < self.ordinary:
            return self.access()
        if self.draw.random() < self.choosing:
            return {"choose": self.draw.choice([1, 2, 2, 2, 3]), "edges": []}
        return {"call": self.call(), "edges": []}

    def access(self):
        block = self.draw.randrange(len(self.blocks))
        start = self.draw.randrange(self.blocks[block] + 1)
        size = min(self.draw.choice([0, 1, 1, 2, 4]), self.blocks[block] - start)
        if self.draw.random() < 0.5:
            node = {"read": [block, start, size], "edges": []}
        else:
            digits = "".join(self.draw.choice(["00", "01", "01", "ff"]) for _ in range(size))
            node = {"write": [block, start, digits], "edges": []}
        alone = self.draw.choice([None, False, True])
        return node if alone is None else {**node, "alone": alone}

    def operand(self, view, values=VALUES):
        value = self.draw.choice(values)
        is_other = self.draw.random() < self.throwing / 4
        is_big = view["kind"].startswith("Big") != (is_other and abs(value) < 2**53)
        return str(value) if is_big else value

    def call(self):
        """Returns a call, as a script spells it."""
        if self.draw.random() < self.waiting:
            view, index = self.spot() if self.draw.random() < 0.9 else self.element()
            if self.draw.random() < 0.35:
                return self.notify(view, index)
            return self.wait(view, index, [self.at_first(view, index)] * 4 + EXPECTED)
        view, index = self.spot() if self.draw.random() < 0.5 else self.element()
        function = self.draw.choice(ACCESSES)
        operands = {"load": 0, "compareExchange": 2}.get(function, 1)
        return [function, view["name"], index, *(self.operand(view) for _ in range(operands))]

    def at_first(self, view, index):
        """Returns the element there before the first act, as a signed number; 0 if there is none."""
        size = SIZES[view["kind"]]
        start = view["offset"] + index * size
        there = bytes.fromhex(self.initial[view["block"]])[start : start + size] if index >= 0 else b""
        return int.from_bytes(there, "little", signed=True)

    def wait(self, view, index, values):
        return ["wait", view["name"], index, self.operand(view, values)] + self.draw.choice(BOUNDS)

    def notify(self, view, index):
        return ["notify", view["name"], index] + self.draw.choice(COUNTS)

    def length(self, view):
        room = self.blocks[view["block"]] - view["offset"]
        return room // SIZES[view["kind"]] if view["length"] is None else view["length"]

    def spot(self):
        return self.draw.choice(self.spots)

    def element(self):
        view = self.draw.choice(self.views)
        return view, self.index(view)

    def index(self, view):
        if self.draw.random() < self.throwing:
            return self.draw.choice([-1, self.length(view), 2**40])
        return self.draw.randrange(max(self.length(view), 1))


def is_segment(node):
    """Returns whether a node is an ordinary access that isn't `alone`."""
    return ("read" in node or "write" in node) and not node.get("alone")


def targets(nodes, at):
    """Returns the nodes to which an edge from a node may lead."""
    if not is_segment(nodes[at]):
        return range(len(nodes))
    return [to for to, node in enumerate(nodes) if to > at or not is_segment(node)]


def target(draw, nodes, at):
    """Returns the node to which a drawn edge leads: the next one, an end, or any."""
    if draw.random() < 0.4:
        return at + 1
    found = targets(nodes, at)
    ends = [to for to in found if "edges" not in nodes[to]]
    return draw.choice(ends if draw.random() < 0.3 else found)


def grow(draw, file, choice):
    """Gives edges to the answers that runs meet, except to a few."""
    left = set()
    unknown = draw.choice([0, 0, 0.05, 0.2])
    for _ in range(WALKS):
        machine = Machine(file)
        for _ in range(STEPS):
            machine = with_edges(draw, file, machine, left, unknown, lambda: Machine(file))
            movers = machine and machine.movers(choice)
            if not movers:
                break
            mover = draw.choice(movers)
            before = machine
            machine = before.stepped(mover)[1]
            machine = with_edges(draw, file, machine, left, unknown, lambda: before.stepped(mover)[1])
            if not machine:
                break


def with_edges(draw, file, machine, left, unknown, again):
    """Returns the machine after an act for which edges are drawn as long as one lacks; None if one is left out."""
    while machine.lost:
        if machine.lost in left or draw.random() < unknown:
            left.add(machine.lost)
            return None
        automaton, at, answer = machine.lost
        nodes = file["automata"][automaton]["nodes"]
        nodes[at]["edges"].append([answer, target(draw, nodes, at)])
        machine = again()
    return machine
