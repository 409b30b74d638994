"""Two statements about automata whose agents change only at calls, tried on a file.

Answers: what an agent gets in a run with accesses apart it gets in the run with the same acts, in the same order.
Races: the events of no run have a data race, and what is unordered is an earlier compareExchange and a later read.
"""
import random

from .apart import apart, reached, wrong_order
from .judged import ordinary, unordered
from .machine import Machine

PREMISES = ("conflict", "failed", "unknown", "last")


class Trial:
    """A file, how its timed waits end, the states that runs reach, and the premises that it lacks."""

    def __init__(self, file, choice):
        self.file, self.choice = file, choice
        first = Machine(file)
        self.machines = [] if first.lost else list(reached(first, choice).values())
        self.lacks = {"last"} if choice == "last" else set()
        self.lacks |= {"conflict"} if any(it.conflicts() for it in self.machines) else set()
        self.lacks |= {"failed"} if any(it.thrown() for it in self.machines) else set()
        steps = (it.stepped(mover)[1] for it in self.machines for mover in it.movers(choice))
        self.lacks |= {"unknown"} if first.lost or any(it.lost for it in steps) else set()

    def wrong_answers(self):
        """Returns an answer that contradicts the first statement; None if there is none."""
        return wrong_order(self.file, self.choice)

    def unordered(self, seed):
        """Returns the kinds of unordered accesses in runs drawn from a seed.

        If the file has all premises, runs with accesses apart are judged too.
        """
        draw = random.Random(seed)
        kinds = unordered(draw, self.file, self.choice)
        return kinds if self.lacks else kinds | unordered(draw, apart(self.file), self.choice)

    @staticmethod
    def wrong_kinds(kinds):
        """Returns the kinds of unordered accesses that contradict the second statement, in words; None if none does."""
        races = sorted(kinds - {"compareExchange"})
        return f"unordered: {races}" if races else None

    def chooses(self):
        """Returns whether an agent is at a choice in some state."""
        return any("choose" in agent.node for machine in self.machines for agent in machine.agents)

    def accesses(self, number):
        """Returns the events of an agent's ordinary accesses, over all states."""
        agents = [machine.agents[number] for machine in self.machines]
        nodes = [agent.nodes[at] for agent in agents for at in agent.recent]
        nodes += [agent.node for agent in agents if agent.node.get("alone")]
        return {ordinary(number, node) for node in nodes}

    def shares(self):
        """Returns whether agents have ordinary accesses, and whether those of two agents are to the same data."""
        made = [self.accesses(number) for number in range(len(self.file["agents"]))]
        pairs = ((one, other) for n, ones in enumerate(made) for others in made[:n] for one in ones for other in others)
        return any(made), any(one.conflicts(other) for one, other in pairs)
