"""Reads a file of automata, or refuses it with the number of its fault and the place."""
import json
import re
from typing import Dict, NamedTuple, Optional, Tuple, Union

from .calls import OF_WAITERS, OPERANDS, Call, can_answer
from .elements import KINDS, Operand, View

FAULTS = {
    3: "TooMany", 10: "BadShape", 11: "BadName", 12: "BadNumber", 13: "BadCall", 14: "BadView", 16: "NotJson",
    18: "TooLong", 20: "NoBlock", 22: "BadEdge", 23: "NoNode", 24: "BadRange",
}  # fmt: skip
MOST_BYTES, MOST_OPEN, MOST_NODES, MOST_EDGES, MOST_AGENTS = 16_777_216, 127, 262_144, 65_536, 16
MOST_BLOCKS, MOST_VIEWS, MOST_BLOCK_BYTES, SAFE, BIG = 4, 64, 65_536, 2**53 - 1, 2**127
MOST_CHOICES = 1_000
NAME, HEX, BIGINT = re.compile(r"[A-Za-z0-9_]{1,32}"), re.compile(r"([0-9a-f]{2})*"), re.compile(r"0|-?[1-9][0-9]*")


class Refused(Exception):
    """A file is refused: the fault's number, and the place in words."""

    def __init__(self, number, place):
        super().__init__(f"{place}: {number} {FAULTS[number]}")
        self.number = number


class CallNode(NamedTuple):
    """A node with a call."""

    call: Call
    edges: Dict[str, int]


class AccessNode(NamedTuple):
    """A node with an ordinary access: a write if it has bytes to write, else a read."""

    block: int
    byte: int
    size: int
    written: Optional[bytes]
    is_alone: bool
    edges: Dict[str, int]


class ChooseNode(NamedTuple):
    """A node with the choice of a whole number below `count`."""

    count: int
    edges: Dict[str, int]


class EndNode(NamedTuple):
    """An end: finished, or threw with a text."""

    threw: Optional[str]


Node = Union[CallNode, AccessNode, ChooseNode, EndNode]


class Agent(NamedTuple):
    """An agent: the position of its automaton, and whether it can block."""

    automaton: int
    can_block: bool


class Automata(NamedTuple):
    """What a file spells."""

    blocks: Tuple[bytes, ...]
    automata: Tuple[Tuple[Node, ...], ...]
    agents: Tuple[Agent, ...]

    def node(self, agent, position):
        return self.automata[self.agents[agent].automaton][position]


class NotWhole:
    """A number that isn't whole, or is written as if it weren't."""


def read(text):
    """Returns the automata that the bytes of a file spell."""
    if len(text) > MOST_BYTES:
        raise Refused(18, "script")
    return automata_of(json_of(text))


def json_of(text):
    """Returns the value that a text spells, with NotWhole for each number that isn't written as a whole one."""

    def no_constant(_word):
        raise ValueError

    def number(digits):
        if float(digits) in (float("inf"), float("-inf")):
            raise ValueError
        return NotWhole() if set(digits) & set(".eE") or digits == "-0" else int(digits)

    try:
        found = json.loads(text.decode("utf-8"), parse_int=number, parse_float=number, parse_constant=no_constant)
        if not is_sound(found):
            raise ValueError
    except (ValueError, RecursionError):
        raise Refused(16, "script") from None
    return found


def is_sound(found, opened=0):
    """Returns whether no bracket is too deep, and no text has half of a surrogate pair."""
    if isinstance(found, str):
        return found.isascii() or not any("\ud800" <= letter <= "\udfff" for letter in found)
    parts = found if isinstance(found, list) else [*found, *found.values()] if isinstance(found, dict) else []
    if isinstance(found, (list, dict)) and opened == MOST_OPEN:
        return False
    return all(is_sound(part, opened + 1) for part in parts)


def members(found, needed, optional, place):
    """Returns an object that has the needed members, and perhaps the optional ones, alone."""
    if not isinstance(found, dict) or not set(needed) <= set(found) <= set(needed) | set(optional):
        raise Refused(10, place)
    return found


def listed(found, most, place):
    """Returns a list of at most so many items."""
    if not isinstance(found, list):
        raise Refused(10, place)
    if most is not None and len(found) > most:
        raise Refused(3, place)
    return found


def whole(found, place):
    """Returns a whole number."""
    if isinstance(found, NotWhole) or (type(found) is int and abs(found) > SAFE):
        raise Refused(12, place)
    if type(found) is not int:
        raise Refused(10, place)
    return found


def texted(found, place):
    if not isinstance(found, str):
        raise Refused(10, place)
    return found


def flag(found, place):
    if not isinstance(found, bool):
        raise Refused(10, place)
    return found


def new_name(found, taken, place):
    """Returns a name that isn't taken."""
    if not NAME.fullmatch(texted(found, place)) or found in taken:
        raise Refused(11, place)
    return found


def hexed(found, place):
    """Returns the bytes that hexadecimal digits spell."""
    if not HEX.fullmatch(texted(found, place)):
        raise Refused(10, place)
    return bytes.fromhex(found)


def automata_of(found):
    """Returns the automata of a file's value."""
    members(found, ("blocks", "views", "automata", "agents"), ("initial",), "script")
    blocks = blocks_of(found)
    views = views_of(found["views"], blocks)
    names, automata = [], []
    for position, it in enumerate(listed(found["automata"], None, "automata")):
        place = f"automata[{position}]"
        members(it, ("name", "nodes"), (), place)
        names.append(new_name(it["name"], names, f"{place}.name"))
        automata.append(nodes_of(it["nodes"], blocks, views, f"{place}.nodes"))
    if not automata:
        raise Refused(23, "automata")
    if sum(map(len, automata)) > MOST_NODES:
        raise Refused(3, "automata")
    return Automata(blocks, tuple(automata), agents_of(found["agents"], names))


def blocks_of(found):
    """Returns the bytes of the blocks at first."""
    lengths = [whole(it, "blocks") for it in listed(found["blocks"], MOST_BLOCKS, "blocks")]
    if not lengths:
        raise Refused(20, "blocks")
    if any(length < 0 for length in lengths):
        raise Refused(12, "blocks")
    if any(length > MOST_BLOCK_BYTES for length in lengths):
        raise Refused(3, "blocks")
    if "initial" not in found:
        return tuple(bytes(length) for length in lengths)
    initial = tuple(hexed(it, "initial") for it in listed(found["initial"], None, "initial"))
    if [len(it) for it in initial] != lengths:
        raise Refused(10, "initial")
    return initial


def views_of(found, blocks):
    """Returns the views by their names."""
    views = {}
    for position, it in enumerate(listed(found, MOST_VIEWS, "views")):
        place = f"views[{position}]"
        members(it, ("name", "kind", "block", "offset", "length"), (), place)
        name = new_name(it["name"], views, f"{place}.name")
        views[name] = view_of(it, blocks, place)
    return views


def view_of(found, blocks, place):
    """Returns a view, if it can be made."""
    block, offset = whole(found["block"], place), whole(found["offset"], place)
    length = None if found["length"] is None else whole(found["length"], place)
    if texted(found["kind"], place) not in KINDS:
        raise Refused(14, place)
    if not 0 <= block < len(blocks):
        raise Refused(20, place)
    kind, size = KINDS[found["kind"]], len(blocks[block])
    if offset < 0 or offset % kind.size != 0 or offset > size:
        raise Refused(14, place)
    if length is None and size % kind.size != 0:
        raise Refused(14, place)
    if length is not None and (length < 0 or offset + length * kind.size > size):
        raise Refused(14, place)
    return View(kind, block, offset, (size - offset) // kind.size if length is None else length)


def nodes_of(found, blocks, views, place):
    """Returns the nodes of an automaton."""
    nodes = [node_of(it, blocks, views, f"{place}[{n}]") for n, it in enumerate(listed(found, None, place))]
    if not nodes:
        raise Refused(23, place)
    for position, node in enumerate(nodes):
        if isinstance(node, EndNode):
            continue
        if not all(0 <= target < len(nodes) for target in node.edges.values()):
            raise Refused(22, f"{place}[{position}]")
        if not all(may_lead(nodes, position, target) for target in node.edges.values()):
            raise Refused(22, f"{place}[{position}]")
    return tuple(nodes)


def is_within_act(node):
    """Returns whether a node's access is made in the act before it."""
    return isinstance(node, AccessNode) and not node.is_alone


def may_lead(nodes, position, target):
    """Returns whether an edge may lead from a node to another: no segment goes back."""
    return not is_within_act(nodes[position]) or not is_within_act(nodes[target]) or target > position


def node_of(found, blocks, views, place):
    """Returns a node."""
    if not isinstance(found, dict):
        raise Refused(10, place)
    if "call" in found:
        members(found, ("call", "edges"), (), place)
        call = call_of(found["call"], views, f"{place}.call")
        return CallNode(call, edges_of(found["edges"], lambda answer: can_answer(call, answer), place))
    if "read" in found or "write" in found:
        return access_of(found, blocks, place)
    if "choose" in found:
        return choice_of(found, place)
    if "finished" in found:
        if members(found, ("finished",), (), place)["finished"] is not True:
            raise Refused(10, place)
        return EndNode(None)
    return EndNode(texted(members(found, ("threw",), (), place)["threw"], place))


def access_of(found, blocks, place):
    """Returns a node with an ordinary access."""
    does = "read" if "read" in found else "write"
    members(found, (does, "edges"), ("alone",), place)
    given = listed(found[does], None, place)
    if len(given) != 3:
        raise Refused(10, place)
    block, byte = whole(given[0], place), whole(given[1], place)
    written = hexed(given[2], place) if does == "write" else None
    size = whole(given[2], place) if written is None else len(written)
    if not 0 <= block < len(blocks) or byte < 0 or size < 0 or byte + size > len(blocks[block]):
        raise Refused(24, place)
    digits = 2 * size if written is None else 0
    edges = edges_of(found["edges"], lambda answer: HEX.fullmatch(answer) and len(answer) == digits, place)
    if written is not None and len(edges) != 1:
        raise Refused(22, place)
    return AccessNode(block, byte, size, written, flag(found.get("alone", False), place), edges)


def choice_of(found, place):
    """Returns a node with a choice."""
    members(found, ("choose", "edges"), (), place)
    count = whole(found["choose"], place)
    if not 1 <= count <= MOST_CHOICES:
        raise Refused(12, place)
    answers = frozenset(map(str, range(count)))
    return ChooseNode(count, edges_of(found["edges"], lambda answer: answer in answers, place))


def edges_of(found, is_answer, place):
    """Returns the nodes to which edges lead, by their answers."""
    edges = {}
    for it in listed(found, MOST_EDGES, place):
        if not isinstance(it, list) or len(it) != 2:
            raise Refused(10, place)
        answer, target = texted(it[0], place), whole(it[1], place)
        if answer in edges or not is_answer(answer):
            raise Refused(22, place)
        edges[answer] = target
    return edges


def call_of(found, views, place):
    """Returns a call, as a script spells it."""
    given = listed(found, None, place)
    if not given:
        raise Refused(13, place)
    function = texted(given[0], place)
    if function not in OPERANDS:
        raise Refused(13, place)
    fixed = 3 + OPERANDS[function]
    if len(given) not in ((fixed, fixed + 1) if function in OF_WAITERS else (fixed,)):
        raise Refused(13, place)
    if texted(given[1], place) not in views:
        raise Refused(11, place)
    operands = tuple(operand_of(it, place) for it in given[3:fixed])
    bound = whole(given[fixed], place) if len(given) > fixed else None
    return Call(function, views[given[1]], whole(given[2], place), operands, bound)


def operand_of(found, place):
    """Returns an operand: a number is a Number, and a string a BigInt."""
    if not isinstance(found, str):
        return Operand(whole(found, place), False)
    if not BIGINT.fullmatch(found) or len(found) > 40 or not -BIG <= int(found) < BIG:
        raise Refused(12, place)
    return Operand(int(found), True)


def agents_of(found, names):
    """Returns the agents."""
    agents = []
    for position, it in enumerate(listed(found, MOST_AGENTS, "agents")):
        place = f"agents[{position}]"
        members(it, ("automaton", "block"), (), place)
        if texted(it["automaton"], place) not in names:
            raise Refused(23, place)
        agents.append(Agent(names.index(it["automaton"]), flag(it["block"], place)))
    return tuple(agents)
