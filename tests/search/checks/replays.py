"""Turns a run of automata into a script, and has the simulator replay it. The simulator is proved, and is no search."""
import json
import subprocess

from .machine import Machine

# The moves of an act: a call begins, acts and returns; or begins and joins the line; or leaves it and returns. A choice
# has none, since a script has only calls.
CALLS = {"act": 3, "wait": 2}


def random_run(draw, file, most):
    """Returns the acts of a run, with each agent's node before it, and the machine after it."""
    machine, acts = Machine(file), []
    while len(acts) < most:
        movers = machine.movers("early")
        if not movers:
            break
        mover = draw.choice(movers)
        at = machine.agents[mover.agent].at
        did, after = machine.stepped(mover)
        if after.lost:
            break
        acts.append((mover.agent, at, did))
        machine = after
    return acts, machine


def script_of(file, acts):
    """Returns the script of a run, and the lines that the report must have for its acts."""
    names = [it["name"] for it in file["automata"]]
    agents = [{"block": it["block"], "calls": []} for it in file["agents"]]
    schedule, lines = [], []
    for agent, at, did in acts:
        word = did.split()[0]
        if word == "choose":
            continue
        if word in CALLS:
            nodes = file["automata"][names.index(file["agents"][agent]["automaton"])]["nodes"]
            agents[agent]["calls"].append(nodes[at]["call"])
            moves = [agent] * CALLS[word]
        else:
            moves = [{"timeout": agent} if did == "leave timed-out" else agent, agent]
        shown = len(schedule) + (1 if word in CALLS else 0)
        lines.append(f"{shown} {agent} {len(agents[agent]['calls']) - 1} {did}")
        schedule += moves
    return {"blocks": file["blocks"], "views": file["views"], "agents": agents, "schedule": schedule}, lines


def wrong_replay(simulator, draw, file):
    """Returns what the simulator reports otherwise about a run at random; None if nothing."""
    acts, machine = random_run(draw, file, 60)
    script, lines = script_of(file, acts)
    ran = subprocess.run(simulator + ["replay", "--acts"], input=json.dumps(script).encode(), capture_output=True)
    report = ran.stdout.decode().splitlines()
    blocks = [f"block {n} {bytes(block).hex() or '-'}" for n, block in enumerate(machine.memory)]
    expected = lines + blocks
    if ran.returncode or report[: len(expected)] != expected:
        return f"the simulator reports {report or ran.stderr.decode()}, and not {expected}"
    return None
