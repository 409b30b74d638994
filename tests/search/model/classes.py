"""Like agents, and which state of those that differ only by an exchange of like agents is kept: the sorted one."""
from typing import Tuple

from .states import State


def place_in_line(state, agent):
    """Returns how many waiters are before an agent in the line: all, if it isn't there."""
    waiting = [waiter.agent for waiter in state.shared.line]
    return waiting.index(agent) if agent in waiting else len(waiting)


def key(state, agent):
    """Returns what like agents are sorted by: node, woken or not, place in the line, recent accesses."""
    return (state.nodes[agent], agent in state.shared.woken, place_in_line(state, agent), state.recent[agent])


def sorted_order(automata, state) -> Tuple[int, ...]:
    """Returns for each place the agent that comes there if like agents are sorted.

    Each place in turn is exchanged with each later one whose agent is like its own and comes before it.
    """
    order = list(range(len(automata.agents)))
    for at, agent in enumerate(automata.agents):
        for other in range(at + 1, len(order)):
            if automata.agents[other] == agent and key(state, order[other]) < key(state, order[at]):
                order[at], order[other] = order[other], order[at]
    return tuple(order)


def exchanged(state, order):
    """Returns a state with the agents in other places: in each the one that the order has there."""
    line = tuple(waiter._replace(agent=order.index(waiter.agent)) for waiter in state.shared.line)
    woken = frozenset(order.index(agent) for agent in state.shared.woken)
    nodes, recent = (tuple(members[agent] for agent in order) for members in (state.nodes, state.recent))
    return State(state.shared._replace(line=line, woken=woken), nodes, recent)
