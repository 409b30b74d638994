"""A machine that makes the acts of a file's agents, one after the other. It works on the file's value as JSON has it.

The model says what a state is, and this machine has one and changes it: bytes in place, and tickets in place of a line.
So a mistake in one of them shows. A file must be one that isn't refused.
"""
import struct
from typing import NamedTuple, Optional

CODES = {"Int8": "b", "Uint8": "B", "Int16": "h", "Uint16": "H", "Int32": "i", "Uint32": "I",
         "BigInt64": "q", "BigUint64": "Q", "Uint8Clamped": "B", "Float32": "I", "Float64": "Q"}  # fmt: skip


class Thrown(Exception):
    """A call throws the error of this name."""


class Mover(NamedTuple):
    """An agent that has an act, and the number that it chooses, if the act is a choice."""

    agent: int
    chosen: Optional[int] = None


def mover_of(agent, did):
    """Returns the mover of an act, by its agent and its words."""
    return Mover(agent, int(did.split()[1]) if did.startswith("choose ") else None)


class Agent:
    """How far an agent is: its node, its ticket and place if it waits, whether it was woken, its recent accesses."""

    def __init__(self, automaton, nodes, can_block):
        self.automaton, self.nodes, self.can_block = automaton, nodes, can_block
        self.at, self.ticket, self.place, self.is_woken, self.recent = 0, None, None, False, []

    def copy(self):
        it = Agent(self.automaton, self.nodes, self.can_block)
        it.at, it.ticket, it.place, it.is_woken = self.at, self.ticket, self.place, self.is_woken
        it.recent = list(self.recent)
        return it

    @property
    def node(self):
        return self.nodes[self.at]

    def is_like(self, other):
        return (self.automaton, self.can_block) == (other.automaton, other.can_block)


class Machine:
    """The memory and the agents of a run. `lost` is the result without an edge, as (automaton, node, answer)."""

    def __init__(self, file=None):
        self.tickets, self.lost = 0, None
        if file is None:
            return
        self.views = {view["name"]: view for view in file["views"]}
        self.memory = [bytearray(length) for length in file["blocks"]]
        for block, digits in zip(self.memory, file.get("initial", [])):
            block[:] = bytes.fromhex(digits)
        names = [it["name"] for it in file["automata"]]
        self.agents = []
        for it in file["agents"]:
            automaton = names.index(it["automaton"])
            self.agents.append(Agent(automaton, file["automata"][automaton]["nodes"], it["block"]))
        for agent in self.agents:
            self.run_on(agent)

    def copy(self):
        it = type(self)()
        it.tickets, it.lost, it.views = self.tickets, self.lost, self.views
        it.memory = [bytearray(block) for block in self.memory]
        it.agents = [agent.copy() for agent in self.agents]
        return it

    def row(self):
        """Returns the state as a result describes it."""
        line = sorted((agent.ticket, n, *agent.place) for n, agent in enumerate(self.agents) if agent.place)
        return {
            "blocks": [block.hex() for block in self.memory],
            "line": [list(it[1:]) for it in line],
            "woken": [n for n, agent in enumerate(self.agents) if agent.is_woken],
            "nodes": [agent.at for agent in self.agents],
            "recent": [agent.recent for agent in self.agents],
        }  # fmt: skip

    def described(self):
        """Returns the state as text: equal for equal states alone."""
        return repr(self.row())

    def go(self, agent, answer):
        """Goes along the edge of an answer."""
        for spelled, target in agent.node["edges"]:
            if spelled == answer and not self.lost:
                agent.at = target
                return
        self.lost = self.lost or (agent.automaton, agent.at, answer)

    def make(self, node):
        """Makes an ordinary access, and returns its answer."""
        block, byte, what = node.get("read") or node["write"]
        if "read" in node:
            return bytes(self.memory[block][byte : byte + what]).hex()
        for k in range(0, len(what), 2):
            self.memory[block][byte + k // 2] = int(what[k : k + 2], 16)
        return ""

    def run_on(self, agent):
        """Makes the ordinary accesses up to the next call, `alone` access, choice or end."""
        agent.recent = []
        while ("read" in agent.node or "write" in agent.node) and not agent.node.get("alone") and not self.lost:
            agent.recent.append(agent.at)
            self.go(agent, self.make(agent.node))

    def element(self, agent, does):
        """Returns the code of a call's element, its block and its byte, or throws."""
        view = self.views[does[1]]
        kind, code = view["kind"], "<" + CODES[view["kind"]]
        size = struct.calcsize(code)
        of_waiters = does[0] in ("wait", "notify")
        if kind not in ("Int32", "BigInt64") and (of_waiters or kind in ("Uint8Clamped", "Float32", "Float64")):
            raise Thrown("TypeError")
        room = len(self.memory[view["block"]]) - view["offset"]
        length = view["length"] if view["length"] is not None else room // size
        if does[2] < 0 or does[2] >= length:
            raise Thrown("RangeError")
        operands = {"load": [], "compareExchange": does[3:5], "notify": []}.get(does[0], does[3:4])
        if any(isinstance(operand, str) != kind.startswith("Big") for operand in operands):
            raise Thrown("TypeError")
        if does[0] == "wait" and not agent.can_block:
            raise Thrown("TypeError")
        return code, view["block"], view["offset"] + does[2] * size

    def packed(self, code, operand):
        """Returns the bytes that an operand is written as."""
        size = struct.calcsize(code)
        return struct.pack(code.upper(), int(operand) & ((1 << (8 * size)) - 1))

    def call(self, agent, does):
        """Makes a call, and returns its answer; None if the agent joined the line."""
        try:
            code, block, byte = self.element(agent, does)
        except Thrown as error:
            return str(error)
        size, name, memory = struct.calcsize(code), does[0], self.memory[block]
        old = bytes(memory[byte : byte + size])
        answer = "%d%s" % (struct.unpack(code, old)[0], "n" if code in ("<q", "<Q") else "")
        if name == "load":
            return answer
        if name == "notify":
            return self.wake((block, byte), does[3] if len(does) > 3 else 99)
        given = self.packed(code, does[3])
        if name == "wait":
            if given != old:
                return "not-equal"
            self.tickets += 1
            agent.ticket, agent.place, agent.recent = self.tickets, (block, byte), []
            return None
        if name == "compareExchange":
            if given == old:
                memory[byte : byte + size] = self.packed(code, does[4])
            return answer
        before, operand = int.from_bytes(old, "little"), int.from_bytes(given, "little")
        after = {"store": operand, "exchange": operand, "add": before + operand, "sub": before - operand,
                 "and": before & operand, "or": before | operand, "xor": before ^ operand}[name]  # fmt: skip
        memory[byte : byte + size] = self.packed(code, after)
        return f"{does[3]}{'n' if isinstance(does[3], str) else ''}" if name == "store" else answer

    def wake(self, place, most):
        """Wakes the agents that have waited longest at a place, and returns how many."""
        waiting = sorted((agent for agent in self.agents if agent.place == place), key=lambda agent: agent.ticket)
        count = 0
        while waiting and count < most:
            agent = waiting.pop(0)
            agent.ticket, agent.place, agent.is_woken = None, None, True
            count += 1
        return str(count)

    def own(self, number):
        """Returns an agent's movers of acts that aren't the end of its time: at a choice one for each number."""
        agent = self.agents[number]
        if self.thrown() or agent.place or "edges" not in agent.node:
            return []
        return [Mover(number, k) for k in range(agent.node["choose"])] if "choose" in agent.node else [Mover(number)]

    def has_time(self, number):
        """Returns whether an agent is in a timed wait."""
        agent = self.agents[number]
        return not self.thrown() and bool(agent.place) and len(agent.node["call"]) == 5

    def step(self, mover):
        """Makes a mover's act, which its agent must have: its own one, the end of its time, or the choice of a number.
        Returns what it did."""
        agent = self.agents[mover.agent]
        if agent.place:
            agent.ticket, agent.place = None, None
            did, answer = "leave timed-out", "timed-out"
        elif agent.is_woken:
            agent.is_woken = False
            did, answer = "leave ok", "ok"
        elif "call" in agent.node:
            answer = self.call(agent, agent.node["call"])
            if answer is None:
                return "wait"
            did = f"act {answer}"
        elif "choose" in agent.node:
            did, answer = f"choose {mover.chosen}", str(mover.chosen)
        else:
            answer = self.make(agent.node)
            did = f"read {answer}" if "read" in agent.node else "write"
        self.go(agent, answer)
        self.run_on(agent)
        return did

    def stepped(self, mover):
        """Returns what a mover's act does, and the machine after it."""
        it = self.copy()
        return it.step(mover), it

    def movers(self, choice):
        """Returns the movers of all acts, known or not, in the order of the agents and of the numbers that they
        choose."""
        agents = range(len(self.agents))
        own = [mover for number in agents for mover in self.own(number)]
        timed = [Mover(number) for number in agents if self.has_time(number)]
        if choice == "never":
            return own
        if choice == "last":
            before = self.described()
            after = [self.stepped(mover)[1] for mover in own]
            if any(it.lost or it.described() != before for it in after):
                return own
        return sorted(own + timed, key=lambda mover: mover.agent)

    def thrown(self):
        """Returns the texts of the ends that threw."""
        return {agent.node["threw"] for agent in self.agents if "threw" in agent.node}

    def is_final(self):
        return all("finished" in agent.node for agent in self.agents)

    def is_ended(self):
        return bool(self.thrown()) or self.is_final()

    def touched(self, agent):
        """Returns an agent's open accesses: name, block, first byte, the byte after the last, writes, is atomic."""
        found = []
        standing = [] if agent.place or agent.is_woken else [agent.at]
        for at in agent.recent + standing:
            node = agent.nodes[at]
            if "call" in node:
                found += self.called(agent, at, node["call"])
            elif "read" in node or "write" in node:
                block, byte, what = node.get("read") or node["write"]
                size = what if "read" in node else len(what) // 2
                found.append(((agent.automaton, at), block, byte, byte + size, "write" in node, False))
        return found

    def called(self, agent, at, does):
        """Returns what a call would touch now."""
        try:
            code, block, byte = self.element(agent, does)
        except Thrown:
            return []
        end = byte + struct.calcsize(code)
        writes = does[0] not in ("load", "wait")
        if does[0] == "compareExchange":
            writes = self.packed(code, does[3]) == self.memory[block][byte:end]
        return [] if does[0] == "notify" else [((agent.automaton, at), block, byte, end, writes, True)]

    def conflicts(self):
        """Returns the pairs of accesses that conflict."""
        pairs = set()
        for n, agent in enumerate(self.agents):
            for other in self.agents[:n]:
                for one in self.touched(agent):
                    for two in self.touched(other):
                        if conflict(one, two):
                            pairs.add((min(one[0], two[0]), max(one[0], two[0])))
        return pairs


def conflict(one, two):
    """Returns whether two accesses conflict."""
    _name, block, start, end, writes, is_atomic = one
    _name, other_block, other_start, other_end, other_writes, other_is_atomic = two
    if block != other_block or not (writes or other_writes):
        return False
    if is_atomic and other_is_atomic and (start, end) == (other_start, other_end):
        return False
    return max(start, other_start) < min(end, other_end)
