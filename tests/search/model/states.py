"""States of a run, and the acts that lead from one to another."""
from typing import List, NamedTuple, Optional, Tuple, Union

from .calls import Shared, act
from .elements import Place, with_bytes
from .reading import AccessNode, CallNode, ChooseNode, EndNode, is_within_act

CHOICES = ("early", "last", "never")


class State(NamedTuple):
    """A state: what agents share, each agent's node, and the nodes of its ordinary accesses since its last act."""

    shared: Shared
    nodes: Tuple[int, ...]
    recent: Tuple[Tuple[int, ...], ...]


class Unknown(NamedTuple):
    """A result that has no edge: the automaton's position, the node, and the result."""

    automaton: int
    node: int
    answer: str


class Act(NamedTuple):
    """What an agent did, in words, and the state to which it leads, or the edge that isn't there.

    `order` has for each place of that state the agent that has come there from the state before, if agents were sorted.
    """

    agent: int
    did: str
    to: Union[State, Unknown]
    order: Optional[Tuple[int, ...]] = None


class Segment(NamedTuple):
    """Ordinary accesses made in one act: the bytes after them, the node after them, and their nodes."""

    blocks: Tuple[bytes, ...]
    node: int
    made: Tuple[int, ...]


def put(members, position, member):
    """Returns a tuple with another member at a position."""
    return members[:position] + (member,) + members[position + 1 :]


def accessed(blocks, node):
    """Returns the answer of an ordinary access, and the blocks after it."""
    if node.written is None:
        return blocks[node.block][node.byte : node.byte + node.size].hex(), blocks
    return "", with_bytes(blocks, Place(node.block, node.byte), node.written)


def segment(automata, agent, blocks, at) -> Union[Segment, Unknown]:
    """Returns the segment that an agent makes from a node on; the edge that isn't there, if one is lacking."""
    made = ()
    while is_within_act(automata.node(agent, at)):
        node = automata.node(agent, at)
        answer, blocks = accessed(blocks, node)
        if answer not in node.edges:
            return Unknown(automata.agents[agent].automaton, at, answer)
        made, at = made + (at,), node.edges[answer]
    return Segment(blocks, at, made)


def first_state(automata) -> Union[State, Unknown]:
    """Returns the state after each agent's accesses before its first call."""
    blocks, nodes, recent = automata.blocks, (), ()
    for agent in range(len(automata.agents)):
        it = segment(automata, agent, blocks, 0)
        if isinstance(it, Unknown):
            return it
        blocks, nodes, recent = it.blocks, nodes + (it.node,), recent + (it.made,)
    return State(Shared(blocks, (), frozenset()), nodes, recent)


def led_on(automata, state, agent, answer, shared) -> Union[State, Unknown]:
    """Returns the state after an agent's act that had an answer and left some shared state."""
    at = state.nodes[agent]
    node = automata.node(agent, at)
    if answer not in node.edges:
        return Unknown(automata.agents[agent].automaton, at, answer)
    it = segment(automata, agent, shared.blocks, node.edges[answer])
    if isinstance(it, Unknown):
        return it
    shared = shared._replace(blocks=it.blocks)
    return State(shared, put(state.nodes, agent, it.node), put(state.recent, agent, it.made))


def texts_thrown(automata, state):
    """Returns the texts of the ends that threw at which agents are."""
    ends = [automata.node(agent, at) for agent, at in enumerate(state.nodes)]
    return {end.threw for end in ends if isinstance(end, EndNode) and end.threw is not None}


def waits(state, agent):
    """Returns whether an agent is in the line."""
    return agent in [waiter.agent for waiter in state.shared.line]


def own_act(automata, state, agent) -> Optional[Act]:
    """Returns an agent's act that isn't the end of its time; None if it has none."""
    node = automata.node(agent, state.nodes[agent])
    if isinstance(node, AccessNode):
        answer, blocks = accessed(state.shared.blocks, node)
        did = f"read {answer}" if node.written is None else "write"
        return Act(agent, did, led_on(automata, state, agent, answer, state.shared._replace(blocks=blocks)))
    if not isinstance(node, CallNode) or waits(state, agent):
        return None
    if agent in state.shared.woken:
        shared = state.shared._replace(woken=state.shared.woken - {agent})
        return Act(agent, "leave ok", led_on(automata, state, agent, "ok", shared))
    answer, shared = act(node.call, agent, automata.agents[agent].can_block, state.shared)
    if answer is None:
        return Act(agent, "wait", State(shared, state.nodes, put(state.recent, agent, ())))
    return Act(agent, f"act {answer}", led_on(automata, state, agent, answer, shared))


def choices(automata, state, agent) -> List[Act]:
    """Returns an agent's choices, by the number that it chooses; none if it isn't at a choice."""
    node = automata.node(agent, state.nodes[agent])
    if not isinstance(node, ChooseNode):
        return []
    numbers = map(str, range(node.count))
    return [Act(agent, f"choose {it}", led_on(automata, state, agent, it, state.shared)) for it in numbers]


def time_up(automata, state, agent) -> Optional[Act]:
    """Returns the end of an agent's timed wait; None if it isn't in one."""
    node = automata.node(agent, state.nodes[agent])
    if not waits(state, agent) or node.call.bound is None:
        return None
    line = tuple(waiter for waiter in state.shared.line if waiter.agent != agent)
    shared = state.shared._replace(line=line)
    return Act(agent, "leave timed-out", led_on(automata, state, agent, "timed-out", shared))


def acts(automata, choice, state):
    """Returns the acts of a state, in the order of the agents. An agent has at most one, or its choices."""
    if texts_thrown(automata, state):
        return []
    agents = range(len(automata.agents))
    own = [it for it in (own_act(automata, state, agent) for agent in agents) if it]
    own += [it for agent in agents for it in choices(automata, state, agent)]
    ended = [it for it in (time_up(automata, state, agent) for agent in agents) if it]
    has_timeouts = {"early": True, "never": False, "last": all(it.to == state for it in own)}[choice]
    return sorted(own + ended if has_timeouts else own, key=lambda it: it.agent)
