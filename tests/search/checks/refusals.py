"""Files that are refused: a small file with one value changed, and the fault's number; 0 if it isn't refused."""
import json

SMALL = {
    "blocks": [8],
    "initial": ["0000000000000000"],
    "views": [
        {"name": "m", "kind": "Int32", "block": 0, "offset": 0, "length": None},
        {"name": "b", "kind": "BigInt64", "block": 0, "offset": 0, "length": None},
        {"name": "f", "kind": "Float32", "block": 0, "offset": 0, "length": None},
    ],
    "automata": [
        {
            "name": "one",
            "nodes": [
                {"call": ["load", "m", 0], "edges": [["0", 1], ["-5", 2]]},
                {"call": ["wait", "m", 0, 1, 100], "edges": [["ok", 0], ["timed-out", 5], ["not-equal", 2]]},
                {"read": [0, 4, 2], "edges": [["0000", 3], ["0100", 5]]},
                {"write": [0, 4, "0100"], "alone": False, "edges": [["", 4]]},
                {"call": ["notify", "m", 1, 2], "edges": [["0", 6], ["2", 6]]},
                {"threw": "no"},
                {"finished": True},
            ],
        }
    ],
    "agents": [{"automaton": "one", "block": True}, {"automaton": "one", "block": False}],
}
NODES = ("automata", 0, "nodes")
LOAD, WAIT, READ, WRITE, NOTIFY, END = [(*NODES, at) for at in (0, 1, 2, 3, 4, 6)]
ABSENT = "it is taken out"

REFUSALS = [
    (0, ("blocks",), [8]),
    (0, ("initial",), ABSENT),
    (0, ("agents",), []),
    (0, (*READ, "alone"), True),
    (0, (*READ, "edges"), [["0000", 2 + 1], ["0100", 0]]),
    (0, (*WRITE, "edges"), [["", 0]]),
    (0, LOAD, {"call": ["load", "b", 0], "edges": [["-9223372036854775808n", 1], ["5n", 1]]}),
    (0, LOAD, {"call": ["load", "f", 0], "edges": [["TypeError", 1]]}),
    (0, LOAD, {"call": ["load", "m", 2], "edges": [["RangeError", 1]]}),
    (0, LOAD, {"call": ["store", "m", 0, 2**40], "edges": [[str(2**40), 1]]}),
    (0, LOAD, {"call": ["load", "m", 0], "edges": []}),
    (0, LOAD, {"choose": 2, "edges": [["0", 1], ["1", 5]]}),
    (0, LOAD, {"choose": 1_000, "edges": [["999", 0]]}),
    (0, LOAD, {"choose": 1, "edges": []}),
    (0, NODES, [{"choose": 1, "edges": [["0", 1]]}, {"read": [0, 0, 1], "edges": [["00", 0]]}]),
    (3, ("blocks",), [8, 0, 0, 0, 0]),
    (3, ("agents",), [{"automaton": "one", "block": True}] * 17),
    (3, (*LOAD, "edges"), [[str(n), 1] for n in range(65_537)]),
    (10, ("views",), ABSENT),
    (10, ("more",), 1),
    (10, ("automata",), {}),
    (10, ("initial",), []),
    (10, ("initial",), ["00000000000000"]),
    (10, ("initial",), ["000000000000000A"]),
    (10, (*LOAD, "alone"), True),
    (10, (*END, "finished"), False),
    (10, (*END, "edges"), []),
    (10, (*READ, "edges"), ABSENT),
    (10, (*READ, "alone"), 1),
    (10, READ, {"read": [0, 4], "edges": []}),
    (10, READ, {"read": [0, 4, 2], "write": [0, 4, "0100"], "edges": []}),
    (10, (*WRITE, "write"), [0, 4, "010"]),
    (10, LOAD, {"choose": "2", "edges": []}),
    (10, LOAD, {"choose": [2], "edges": []}),
    (10, LOAD, {"choose": 2}),
    (10, LOAD, {"choose": 2, "alone": False, "edges": []}),
    (10, LOAD, {"choose": 2, "edges": {}}),
    (10, LOAD, {"choose": 2, "edges": [[0, 1]]}),
    (10, ("agents", 0, "block"), 1),
    (11, ("automata", 0, "name"), "one or two"),
    (11, ("automata", 0, "name"), ""),
    (11, ("views", 1, "name"), "m"),
    (11, (*LOAD, "call"), ["load", "n", 0]),
    (12, (*LOAD, "edges"), [["0", 1.0]]),
    (12, (*LOAD, "call"), ["load", "m", 2**53]),
    (12, (*LOAD, "call"), ["store", "m", 0, "-0"]),
    (12, LOAD, {"choose": 0, "edges": []}),
    (12, LOAD, {"choose": -1, "edges": []}),
    (12, LOAD, {"choose": 1_001, "edges": []}),
    (12, LOAD, {"choose": 2**32 + 2, "edges": []}),
    (12, LOAD, {"choose": 2.0, "edges": []}),
    (12, LOAD, {"choose": 1.5, "edges": []}),
    (13, (*LOAD, "call"), ["load", "m", 0, 0]),
    (13, (*LOAD, "call"), ["wake", "m", 0]),
    (14, ("views", 0, "offset"), 2),
    (14, ("views", 0, "kind"), "Int64"),
    (20, ("blocks",), []),
    (20, ("views", 0, "block"), 1),
    (22, (*LOAD, "edges"), [["0", 7]]),
    (22, (*LOAD, "edges"), [["0", 1], ["0", 1]]),
    (22, (*LOAD, "edges"), [["00", 1]]),
    (22, (*LOAD, "edges"), [["-0", 1]]),
    (22, (*LOAD, "edges"), [["5n", 1]]),
    (22, (*LOAD, "edges"), [["ok", 1]]),
    (22, (*LOAD, "edges"), [["2147483648", 1]]),
    (22, LOAD, {"call": ["store", "m", 0, 5], "edges": [["6", 1]]}),
    (22, LOAD, {"call": ["load", "b", 0], "edges": [["5", 1]]}),
    (22, WAIT, {"call": ["wait", "m", 0, 1], "edges": [["timed-out", 1]]}),
    (22, (*WAIT, "edges"), [["1", 1]]),
    (22, (*NOTIFY, "edges"), [["-1", 1]]),
    (22, (*NOTIFY, "edges"), [["ok", 1]]),
    (22, (*READ, "edges"), [["00", 3]]),
    (22, (*READ, "edges"), [["000A", 3]]),
    (22, (*READ, "edges"), [["0000", 2]]),
    (22, (*WRITE, "edges"), [["", 2]]),
    (22, (*WRITE, "edges"), [["", 4], ["00", 5]]),
    (22, (*WRITE, "edges"), []),
    (22, LOAD, {"choose": 2, "edges": [["2", 1]]}),
    (22, LOAD, {"choose": 2, "edges": [["-1", 1]]}),
    (22, LOAD, {"choose": 2, "edges": [["01", 1]]}),
    (22, LOAD, {"choose": 2, "edges": [["+1", 1]]}),
    (22, LOAD, {"choose": 2, "edges": [["", 1]]}),
    (22, LOAD, {"choose": 2, "edges": [["1n", 1]]}),
    (22, LOAD, {"choose": 2, "edges": [["ok", 1]]}),
    (22, LOAD, {"choose": 2, "edges": [["1", 7]]}),
    (22, LOAD, {"choose": 2, "edges": [["1", 1], ["0", 2], ["1", 1]]}),
    (23, (*NODES,), []),
    (23, ("agents", 0, "automaton"), "two"),
    (24, (*READ, "read"), [0, 7, 2]),
    (24, (*READ, "read"), [1, 0, 2]),
    (24, (*WRITE, "write"), [0, 8, "0100"]),
]


def changed(path, value):
    """Returns the small file with another value at a path, or without it, as text."""
    file = json.loads(json.dumps(SMALL))
    *before, last = path
    it = file
    for step in before:
        it = it[step]
    if value is ABSENT:
        del it[last]
    else:
        it[last] = value
    return json.dumps(file).encode()
