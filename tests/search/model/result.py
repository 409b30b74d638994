"""The result of a search, as data for JSON."""
from .kinds import conflicts, is_deadlock, is_final, unknown, without_way_out
from .search import search
from .states import State, texts_thrown

MOST_CONFLICTS, MOST_FINAL = 100, 1_000


def schedule_to(found, number):
    """Returns the acts that lead to a state, from the first one on, by the agents as a run has them."""
    rows = [found[number]]
    while rows[0].parent is not None:
        rows.insert(0, found[rows[0].parent])
    names, acts = rows[0].order, []
    for row in rows[1:]:
        acts.append([names[row.act.agent], row.act.did])
        names = [names[agent] for agent in row.order]
    return acts


def grouped(numbers_by_name, found, order=lambda name: name):
    """Returns rows of names with their states: by the first state that has the name, then by the name."""
    rows = sorted(numbers_by_name.items(), key=lambda row: (row[1][0], order(row[0])))
    return [(name, {"states": len(at), "schedule": schedule_to(found, at[0])}) for name, at in rows]


def collect(rows):
    """Returns the numbers of states by each name that they have."""
    found = {}
    for number, names in rows:
        for name in names:
            found.setdefault(name, []).append(number)
    return found


def one_kind(numbers, found):
    """Returns the count and the schedule of a kind without names; None if no state has it."""
    return {"states": len(numbers), "schedule": schedule_to(found, numbers[0])} if numbers else None


def status_of(result):
    """Returns the program's status: 5 if more than unknown edges is listed, 6 if it isn't closed or some are."""
    if result["deadlock"] or result["failed"] or result["no_way_out"] or result["conflicts"]["count"]:
        return 5
    return 6 if result["unknown"] or not result["closed"] else 0


def members(state):
    """Returns the members of a state, as data."""
    shared = state.shared
    return {
        "blocks": [block.hex() for block in shared.blocks],
        "line": [[waiter.agent, *waiter.place] for waiter in shared.line],
        "woken": sorted(shared.woken),
        "nodes": list(state.nodes),
        "recent": [list(made) for made in state.recent],
    }


def described(it):
    """Returns a state found, as data. It is sorted, and the act is of an agent of the parent, which is sorted too."""
    by = it.act and [it.act.agent, it.act.did]
    return {"depth": it.depth, "parent": it.parent, "by": by, **members(it.state)}


def result_of(automata, choice="early", limit=1_000_000, with_states=False):
    """Returns the result of a search."""
    return result_in(automata, search(automata, choice, limit), choice, limit, with_states)


def result_in(automata, it, choice, limit, with_states=False):
    """Returns the result of what a search has found."""
    found, acts_of = it.found, it.acts
    # A search that isn't closed says something of the states of these depths alone.
    within = [(n, row.state) for n, row in enumerate(found) if it.is_closed or row.depth <= it.depth]
    stuck = without_way_out(acts_of) if it.is_closed else set()
    taken = found[: it.expanded]
    edges = grouped(collect((n, unknown(acts_of[s])) for n, s in within), found, spelled_bytes)
    if it.lost:
        edges = [(it.lost, {"states": 0, "schedule": []})]
    pairs = grouped(collect((n, conflicts(automata, s)) for n, s in within), found)
    finals = grouped(collect((n, [s.shared.blocks]) for n, s in within if is_final(automata, s)), found)
    result = {
        "timeouts": choice,
        "limit": limit,
        "closed": it.is_closed,
        "states": len(found),
        "acts": sum(isinstance(act.to, State) for row in taken for act in acts_of[row.state]),
        "expanded": it.expanded,
        "depth": it.depth,
        "deadlock": one_kind([n for n, s in within if is_deadlock(automata, s, acts_of[s])], found),
        "failed": [
            {"text": text, **row}
            for text, row in grouped(collect((n, texts_thrown(automata, s)) for n, s in within), found, str.encode)
        ],
        "no_way_out": one_kind([n for n, s in within if s in stuck], found),
        "unknown": [{**edge._asdict(), **row} for edge, row in edges],
        "conflicts": {
            "count": len(pairs),
            "listed": [{"pair": [list(name) for name in pair], **row} for pair, row in pairs[:MOST_CONFLICTS]],
        },
        "final": {
            "states": sum(row["states"] for _blocks, row in finals),
            "count": len(finals),
            "listed": [{"blocks": [b.hex() for b in blocks], **row} for blocks, row in finals[:MOST_FINAL]],
        },
    }
    result["status"] = status_of(result)
    if with_states:
        result["found"] = [described(row) for row in found]
    return result


def spelled_bytes(edge):
    """Returns the key by which unknown edges of one state are ordered."""
    return (edge.automaton, edge.node, edge.answer.encode())
