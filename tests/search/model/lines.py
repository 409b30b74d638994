"""The lines that the program prints about what it finds, with --format json."""
import json

FIRST = ("timeouts", "limit", "closed", "states", "acts", "expanded", "depth")
# The members of the line of a state, besides its number.
STATE = ("depth", "parent", "by", "blocks", "line", "woken", "nodes", "recent")


def lines_of(result):
    """Yields the lines: of the search, and of each kind."""
    final, conflicts = result["final"], result["conflicts"]
    counts = {"conflicts": conflicts["count"], "finals": final["count"], "final_states": final["states"]}
    why = {"why": result["why"]} if "why" in result else {}
    yield spelled({**{member: result[member] for member in FIRST}, **counts, **why})
    for name, rows in (
        ("deadlock", [result["deadlock"] or {}]),
        ("failed", result["failed"]),
        ("no way out", [result["no_way_out"] or {}]),
        ("unknown", result["unknown"]),
        ("conflict", conflicts["listed"]),
        ("final", final["listed"]),
    ):
        yield from (spelled({"kind": name, **row}) for row in rows if row)


def spelled(value):
    """Returns a value as JSON without spaces, members by their names."""
    return json.dumps(value, ensure_ascii=False, separators=(",", ":"), sort_keys=True)
