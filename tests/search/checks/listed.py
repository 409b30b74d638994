"""Checks the lines that the program writes of the states that it lists: each has a state as the run along its parents
has it.

The run names the agents, and the model has each state sorted. Which of several agents comes first that a sorted state
can't tell apart isn't fixed. So the names aren't compared with others: a line's state is what the act of the line makes
of the state of its parent's line, and sorted it is the model's.
"""
import json

from model.calls import Shared, Waiter
from model.classes import exchanged, sorted_order
from model.elements import Place
from model.lines import STATE, spelled
from model.result import members
from model.states import State, acts, first_state


def state_of(line):
    """Returns the state that a line describes."""
    blocks = tuple(bytes.fromhex(digits) for digits in line["blocks"])
    waiters = tuple(Waiter(agent, Place(block, byte)) for agent, block, byte in line["line"])
    shared = Shared(blocks, waiters, frozenset(line["woken"]))
    return State(shared, tuple(line["nodes"]), tuple(map(tuple, line["recent"])))


def wrong_line(automata, choice, states, number, line, found):
    """Returns what is wrong with the line of the state that comes after some states; None if nothing is."""
    if sorted(line) != sorted(("state", *STATE)):
        return "it has other members"
    if (line["state"], line["depth"], line["parent"]) != (number, found["depth"], found["parent"]):
        return "its number, depth or parent is another"
    state = state_of(line)
    if any(line[member] != value for member, value in members(state).items()):
        return "its state is spelled otherwise"
    kept = members(exchanged(state, sorted_order(automata, state)))
    if any(found[member] != value for member, value in kept.items()):
        return f"sorted it isn't {found}"
    if number == 0:
        return None if line["by"] is None and state == first_state(automata) else "it isn't the first state"
    agent, did = line["by"]
    led = [act.to for act in acts(automata, choice, states[found["parent"]]) if (act.agent, act.did) == (agent, did)]
    return None if led == [state] else f"from the state of its parent's line, agent {agent} doesn't {did} to it"


def wrong_states(automata, choice, found, lines):
    """Returns what is wrong with the lines of the states that a result has found; None if nothing is."""
    if len(lines) != len(found):
        return f"the program writes {len(lines)} lines of states, and not {len(found)}"
    states = []
    for number, (text, row) in enumerate(zip(lines, found)):
        line = json.loads(text)
        wrong = wrong_line(automata, choice, states, number, line, row)
        if wrong or spelled(line) != text:
            return f"the program writes {text}: {wrong or 'it is spelled otherwise'}"
        states.append(state_of(line))
    return None
