"""Compares what the program finds, or refuses, with the model. The program's search is proved."""
import subprocess
from itertools import zip_longest

from .listed import wrong_states
from model.lines import lines_of
from model.reading import FAULTS


def searched(simulator, text, *words):
    """Runs the program's search on a file."""
    ran = subprocess.run([*simulator, "search", "--format", "json", *words], input=text, capture_output=True)
    return ran.returncode, ran.stdout.decode(), ran.stderr.decode()


def wrong_search(simulator, text, automata, choice, limit, result):
    """Returns what the program finds otherwise than the model's result, which may list states; None if nothing."""
    words = ["--timeouts", choice, "--limit", str(limit), *["--states"] * ("found" in result)]
    return wrong_output(*searched(simulator, text, *words), automata, choice, result)


def wrong_output(status, output, error, automata, choice, result):
    """Returns how a run of the program ended otherwise than the model's result has it; None if it didn't."""
    if (status, error) != (result["status"], ""):
        return f"the program ends with status {status}, and not {result['status']}: {error}"
    lines, found = output.splitlines(), [*lines_of(result)]
    states = lines[len(found) :] if "found" in result else []
    for line, wanted in zip_longest(lines[: len(lines) - len(states)], found, fillvalue=""):
        if line != wanted:
            return f"the program writes {line}, and not {wanted}"
    if not output.endswith("\n"):
        return "the program's last line doesn't end"
    return wrong_states(automata, choice, result.get("found", []), states)


def wrong_fault(simulator, text, number):
    """Returns what is wrong with the program's refusal of a file; None if it has this fault, or with 0 isn't
    refused."""
    status, output, error = searched(simulator, text)
    if not number:
        return None if status in (0, 5, 6) and output else f"the program refuses it: {error}"
    wanted = (1, "", f"sabsim: {number} {FAULTS[number]}\n")
    return None if (status, output, error) == wanted else f"the program ends with status {status}: {output}{error}"
