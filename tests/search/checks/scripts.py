"""Compares the scripts that the program makes of failures with those of the model's schedules, and replays them."""
import json
import subprocess

from .machine import Machine, mover_of
from .replays import script_of

NO_SCRIPT = (1, "", "sabsim: 3 TooMany\n")
# How many failures of a result are tried, besides the last number.
MOST_TRIED = 4
# What a script can have.
MOST_CALLS, MOST_MOVES, MOST_BYTES = 1_000, 1_048_576, 1_048_576


def failures_of(result):
    """Returns the schedules of a result's failures, in the order in which they are listed."""
    rows = [result["deadlock"], *result["failed"], result["no_way_out"], *result["conflicts"]["listed"]]
    return [row["schedule"] for row in rows if row]


def has_script(file, script):
    """Returns whether a file's accesses are all calls, its bytes are zeros at first, and a script isn't too large."""
    is_of_calls = not any("read" in node or "write" in node for it in file["automata"] for node in it["nodes"])
    is_zero = not any(digits.strip("0") for digits in file.get("initial", []))
    is_small = len(script["schedule"]) <= MOST_MOVES and len(spelled(script)) <= MOST_BYTES
    return is_of_calls and is_zero and is_small and all(len(it["calls"]) <= MOST_CALLS for it in script["agents"])


def spelled(script):
    """Returns the text of a script as the program writes it."""
    return json.dumps(script, ensure_ascii=False, separators=(",", ":"), sort_keys=True) + "\n"


def wanted(file, schedule):
    """Returns the script of a schedule and the first lines of its report; None and nothing if it has no script."""
    machine, acts = Machine(file), []
    for agent, did in schedule:
        at = machine.agents[agent].at
        _did, machine = machine.stepped(mover_of(agent, did))
        acts.append((agent, at, did))
    script, lines = script_of(file, acts)
    blocks = [f"block {n} {bytes(block).hex() or '-'}" for n, block in enumerate(machine.memory)]
    return (spelled(script), lines + blocks) if has_script(file, script) else (None, [])


def wrong_script(simulator, text, file, words, schedule, status):
    """Returns what is wrong with the script that the program writes of a schedule; None if nothing is."""
    ran = subprocess.run([*simulator, "search", "--format", "script", *words], input=text, capture_output=True)
    found = (ran.returncode, ran.stdout.decode(), ran.stderr.decode())
    script, lines = ("", []) if schedule is None else wanted(file, schedule)
    if found != (NO_SCRIPT if script is None else (status, script, "")):
        return f"{' '.join(words)}: the program ends with status {found[0]}: {found[1] or found[2]}, and not {script}"
    if not script:
        return None
    ran = subprocess.run([*simulator, "replay", "--acts"], input=ran.stdout, capture_output=True)
    report = ran.stdout.decode().splitlines()
    return None if report[: len(lines)] == lines else f"{' '.join(words)}: it replays to {report}, and not {lines}"


def wrong_scripts(simulator, text, file, result):
    """Returns what is wrong with the scripts of a result's failures, of each number and of none; None if nothing is."""
    words = ["--timeouts", result["timeouts"], "--limit", str(result["limit"])]
    schedules = failures_of(result)
    rows = [([], min(schedules, key=len, default=None))]
    numbered = [*enumerate([*schedules, None], 1)]
    rows += [(["--failure", str(n)], schedule) for n, schedule in [*numbered[:MOST_TRIED], numbered[-1]]]
    status = result["status"]
    wrongs = (wrong_script(simulator, text, file, [*words, *more], schedule, status) for more, schedule in rows)
    return next(filter(None, wrongs), None)
