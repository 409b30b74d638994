"""States that differ only by an exchange of like agents: agents of one automaton that can block alike.

Classes are found by trying all exchanges, and the sorted state of a class as docs/MODEL.md says.
"""
from itertools import permutations, product


def groups(agents):
    """Returns lists of the numbers of like agents; agents are like if they are the same here."""
    found = {}
    for number, agent in enumerate(agents):
        found.setdefault(repr(agent), []).append(number)
    return list(found.values())


def exchanges(file):
    """Returns all exchanges of a file's like agents: for each place the agent that comes there."""
    found, likes = [], groups(file["agents"])
    for each in product(*(permutations(numbers) for numbers in likes)):
        order = dict(zip(sum(likes, []), sum(map(list, each), [])))
        found.append([order[number] for number in range(len(order))])
    return found


def exchanged(row, order):
    """Returns a state, as a result describes it, with the agents in other places."""
    return {
        "blocks": row["blocks"],
        "line": [[order.index(agent), *place] for agent, *place in row["line"]],
        "woken": sorted(order.index(agent) for agent in row["woken"]),
        "nodes": [row["nodes"][agent] for agent in order],
        "recent": [row["recent"][agent] for agent in order],
    }


def class_of(row, orders):
    """Returns a name that two states have exactly if they are the same except for one of the exchanges."""
    return min(repr(exchanged(row, order)) for order in orders)


def sort_agents(machine):
    """Sorts the like agents of a machine. Returns for each place the number of the agent that has come there."""
    agents = machine.agents
    line = sorted((agent for agent in agents if agent.place), key=lambda agent: agent.ticket)
    order = list(range(len(agents)))

    def rank(number):
        agent = agents[number]
        return agent.at, agent.is_woken, line.index(agent) if agent.place else len(line), agent.recent

    for at in range(len(agents)):
        for other in range(at + 1, len(agents)):
            if agents[at].is_like(agents[other]) and rank(other) < rank(at):
                agents[at], agents[other] = agents[other], agents[at]
                order[at], order[other] = order[other], order[at]
    return order
