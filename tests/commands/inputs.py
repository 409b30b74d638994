"""The inputs and texts of tests/commands/table.txt that are made here, since they are long or of many kinds, and the
lists that its rows go over."""
import json
import os
import re
from glob import glob

COMMANDS = os.path.dirname(os.path.realpath(__file__))
TESTS = os.path.dirname(COMMANDS)
EXAMPLES = os.path.join(os.path.dirname(TESTS), "examples")
WORD = {"name": "a", "kind": "Int32", "block": 0, "offset": 0, "length": None}
WAIT, STORE, LOAD = ["wait", "a", 0, 0, 5], ["store", "a", 0, 5], ["load", "a", 0]


def spelled(tree):
    return json.dumps(tree, separators=(",", ":"))


def agent(*calls):
    return {"block": True, "calls": list(calls)}


def script(agents=(), schedule=(), blocks=(4,), views=(WORD,)):
    return spelled({"blocks": blocks, "views": views, "agents": agents, "schedule": schedule})


def event(position, of_agent, does, byte, size, flags):
    """A line of a trace. The flags are letters: it reads, it writes, it is atomic."""
    what = {"event": position, "agent": of_agent, "call": 0, "does": does, "block": 0, "byte": byte, "size": size}
    how = {name: name[0] in flags for name in ("read", "write", "atomic")}
    return spelled({**what, **how, "waiters": False, "source": None}) + "\n"


def scripts():
    whole = script([agent(STORE, LOAD)])
    waits = agent(*[WAIT] * 1000)
    return {
        "no-call": script([agent()]), "timed-wait": script([agent(WAIT)]), "endless-wait": script([agent(WAIT[:4])]),
        **dict.fromkeys(("store-and-load", "-", "--acts", "two\nlines"), whole), "source-input": "[]\n",
        **dict.fromkeys(("sources/a.json", "sources/-", "sources/--acts", "sources/a b"), script(blocks=[], views=[])),
        # The longest report of blocks: 524,328 bytes, which is more than a pipe takes without a reader.
        "four-blocks": script(blocks=[65_536] * 4, views=[]),
        "long-schedule": script([agent()], [0] * 100_000, views=[]),
        # 1,005,000 moves of one agent at 1,000 steps a wait, and 2,010,000 of two.
        "thousand-waits": script([waits]), "two-thousand-waits": script([waits] * 2),
        "thousand-throwing-waits": script([{**waits, "block": False}], [0] * 3000),
        "longest": whole.ljust(1_048_576), "one-byte-longer": whole.ljust(1_048_576) + "\n",
        "thousand-throws": script([agent(*[["load", "a", 1]] * 1000)]),
        "no-block": script(blocks=[], views=[]), "list": "[]\n", "unclosed": "[1", "no-member": "{}",
        "no-text": b'{"\xff":0}', "long-block": script(blocks=[65_537], views=[]),
        "most-spaces": " " * 1_048_576, "more-spaces": " " * 1_048_577,
        "name-of-no-view": script([agent(["load", "b", 0])]), "fraction": script([agent(["store", "a", 0, 1.5])]),
        "no-such-call": script([agent(["loads", "a", 0])]), "part-of-a-word": script(blocks=[6]),
        "move-of-no-agent": script(schedule=[0], views=[]), "none": "",
    }


def scripts_at_limits():
    waits = [["wait", f"v{63 - k}", 0, 0, 5] for k in range(16)]
    steps = [*range(16), *range(16), *({"timeout": k} for k in range(16)), *range(16)]
    views = [{**WORD, "name": f"v{k}", "block": k % 4, "offset": k * 1024} for k in range(64)]
    stores = [agent(*[["store", name, 0, 1]] * 1000) for name in "ab"]
    old = {name: value for name, value in WORD.items() if name != "block"}
    crowd = {"bytes": 4, "views": [old], "agents": [agent(*[["wait", "a", 0, 1]] * 1000)] * 16, "schedule": [0]}
    # The longest script, without its line feed, and one that is longer by a byte: 10,000 calls of 90 bytes, and as many
    # moves as are wanted. The one text of the second would have 1,048,577 bytes.
    name = "abcdefghijklmnopqrstuvwxyz_01234"
    calls = [["store", name, 0, "-170141183460469231731687303715884105728"]] * 1000
    view = {"block": 0, "kind": "BigInt64", "length": None, "name": name, "offset": 0}
    long, longer = (
        spelled({"agents": [agent(*calls)] * 10, "blocks": [size], "schedule": [0] * 74_090, "views": [view]})
        for size in (8, 16)
    )
    return {
        # All limits at once: four blocks of 65,536 bytes, 64 views, and 16 agents, each of which waits 65 times at a
        # view of its own until its time is up. In the schedule each wait is begun, joins the line, leaves and returns.
        "all-limits": script([agent(*[each] * 65) for each in waits], steps * 65, [65_536] * 4, views),
        # A thousand stores of a word and a thousand of its first byte: each of the word races with each of the byte.
        "million-races": script(stores, [0] * 3000 + [1] * 3000, views=[WORD, {**WORD, "name": "b", "kind": "Uint8"}]),
        # 16 agents, each of which waits a thousand times, make 112,000 moves at two steps a wait.
        "crowd-of-waits": spelled(crowd),
        "long-kept": long, "long-canonical": long + "\n", "too-long-kept": longer,
    }


def spellings():
    """Scripts that are spelled otherwise, in the form with `blocks` and in the older one. A script is read from its
    tokens if it can be, and else from its tree."""
    with open(os.path.join(COMMANDS, "spellings"), encoding="utf-8") as file:
        lines = [line.rstrip().split(" ", 1) for line in file]
    calls, moves = spelled([STORE, LOAD]), "[0,0,0,0,0,0]"
    for form, member, size, block in (("newer", "blocks", "[4]", '"block":0,'), ("older", "bytes", "4", "")):
        values = {
            "lens": f'"{member}":{size}', "escaped": f'"\\u0062{member[1:]}":{size}',
            "spaced": f'"{member}" :\t{spelled(json.loads(size)).replace("4", " 4 ") if block else size}',
            "other": f'"{member}":{size.replace("4", "8")}', "block": block, "calls": calls, "moves": moves,
            "view": f'{{"name":"a","kind":"Int32",{block}"offset":0,"length":null}}',
            "agent": f'{{"block":true,"calls":{calls}}}',
        }
        for name, template in lines:
            text = template.replace("\\n", "\n").replace("\\r", "\r")
            yield f"{form}-{name}", re.sub(r"\{(\w+)\}", lambda word: values[word[1]], text)


def searches():
    """Files of automata with one word `m`."""
    def searched(names, nodes, **more):
        agents = [{"automaton": name, "block": True} for name in names]
        views, automata = [{**WORD, "name": "m"}], [{"name": name, "nodes": nodes} for name in dict.fromkeys(names)]
        return spelled({"blocks": [4], **more, "views": views, "automata": automata, "agents": agents})

    asleep = [{"call": ["wait", "m", 0, 0, 5], "edges": [["timed-out", 1]]}, {"finished": True}]
    loads = [{"call": ["load", "m", 0], "edges": [["0", k + 1]]} for k in range(1001)]
    walks = [*loads[:31], {"finished": True}]
    return {
        "asleep": searched(["sleeper"], asleep),
        # What no script can have: an agent's 1,001st call, and a byte that isn't zero at first.
        "late": searched(["loader"], [*loads, {"threw": "late"}]),
        "asleep-later": searched(["sleeper"], asleep, blocks=[8], initial=["0000000000000001"]),
        # Four agents that each make 31 loads: 32^4 states, of which one is final. If the agents are alike, as many
        # states as there are multisets of four of 32 nodes.
        "walkers": searched(["one", "two", "three", "four"], walks),
        "like-walkers": searched(["walker"] * 4, walks),
    }


def traces():
    racy = event(0, 0, "store", 0, 4, "wa") + event(1, 1, "read", 1, 1, "r")
    twice = re.sub(r'(?m)^\{("event":[01]),(.*)\}$', r"{ \2, \1 }", racy.replace('"agent":0', '"agent":1,"agent":0'))
    third = {
        "position": event(1, 0, "read", 0, 1, "r"), "agent": event(2, 16, "read", 0, 1, "r"), "cut": "{\n",
        "bytes": event(2, 0, "read", 65_535, 2, "r"), "flags": event(2, 0, "load", 0, 4, "wa"),
        "idle": event(2, 0, "leave", 0, 4, ""), "size": event(2, 0, "load", 0, 3, "ra"), "long": '"",' * 300 + "\n",
        "throws": event(2, 0, "load", -9, 3, ""),
    }
    # After a hundred races that are no data races there is one that is: two writes of byte 200.
    hidden = [event(0, 0, "write", 200, 1, "w"), *(event(k + 1, 0, "read", k, 1, "r") for k in range(100))]
    hidden += [*(event(k + 101, 1, "write", k, 1, "w") for k in range(100)), event(201, 1, "write", 200, 1, "w")]
    return {
        "racy-trace": racy, "trace-twice": twice, **{f"trace-{name}": racy + line for name, line in third.items()},
        "trace-shape": "[]\n" + racy, "trace-longer": '"",' * 400 + racy, "trace-empty": "{}\n",
        "trace-number-first": event(1, 16, "read", 65_535, 2, "r"),
        "trace-agent-first": event(0, 16, "read", 65_535, 2, "r"),
        "long-trace": "".join(event(k, k % 16, "load", 0, 4, "ra") for k in range(100_000)),
        "hundred-races": "".join(event(k, k, "write", 0, 4, "w") for k in range(16)), "hidden-race": "".join(hidden),
    }


def named_views():
    """Scripts of a store, with a view of a name on which nothing is done."""
    names = "ordinary_unseen ordinary_Int32 ordinary_ init_Uint8_b1 init_ ordinary init Ordinary_Int32 INIT_"
    for name in f"{names} an_ordinary_ to_init_ ordinary1_ initial_".split():
        view = {**WORD, "name": name, "kind": "Uint8"}
        yield f"view-{name}", script([agent(["store", "a", 0, 1])], [0, 0, 0], views=[WORD, view])
    init = {"kind": "Uint8", "length": None, "name": "init_Uint8", "offset": 0}
    yield "view-older", spelled({"agents": [], "bytes": 1, "schedule": [], "views": [init]})


def reports():
    """The reports of `timed-wait` by races with so many steps at the wait, and the check of a thousand throws."""
    for spins in (0, 1, 3, 7, 1000):
        moves = ["begin", "wait", *["stuck waiting"] * spins, "leave timed-out", "return timed-out"]
        lines = [f"{k} 0 0 {what}\n" for k, what in enumerate(moves)]
        yield f"waited-{spins}", "".join(lines) + f"{len(moves)} 0 1 stuck done\nblock 0 00000000\nagent 0 1 of 1\n"
    why = "load on a always throws RangeError: there is no index 1: the length is 1"
    lines = [f"warning: agents[0].calls[{k}]: {why}\n" for k in range(1000)]
    yield "thousand-warnings", "".join(["ok: 1 block, 1 view, 1 agent, 1000 calls, 0 moves\n", *lines])


def examples_of_help(text):
    """The example in the help for each job, as a script for the shell, and what the help says that it writes."""
    for job in ("replay", "check", "judge", "search"):
        said = text(f"help/{job}").decode()
        shown, wrote = re.search(r"(?s)\nExample:\n(.*?\n)(?:writes\n(.*?\n))?\n", said).groups("")
        yield f"example-{job}", shown
        if wrote:
            yield f"example-{job}-writes", re.sub("(?m)^  ", "", wrote)
        yield f"example-{job}-race", "".join(re.findall(r"(?m)^  (data race at .*\n)", said))


def write_all(text):
    """Writes all inputs and texts, as files of the folder where this process works. It is given how a text is read."""
    os.mkdir("folder")
    os.mkdir("sources")
    some = {**scripts(), **scripts_at_limits(), **searches(), **traces()}
    for name, made in [*some.items(), *spellings(), *named_views(), *reports(), *examples_of_help(text)]:
        with open(name, "wb") as file:
            file.write(made if isinstance(made, bytes) else made.encode())
    with open("unreadable", "wb"):
        os.chmod("unreadable", 0o200)


def is_finished(report):
    """Whether by this report all calls of all agents have returned."""
    return all(returned == of for returned, of in re.findall(r"(?m)^agent \d+ (\d+) of (\d+)", report))


def lists():
    """What rows of the table go over: the examples and the verdicts by their paths without ending, and the results of
    searches, each with the status with which the program is to end; and the spellings by their names."""
    def read(path):
        with open(path, encoding="utf-8") as file:
            return file.read()

    examples = [path[:-5] for path in sorted(glob(os.path.join(EXAMPLES, "*.json")))]
    verdicts = [path[:-5] for path in sorted(glob(os.path.join(TESTS, "verdicts", "*.json")))]
    results = sorted(glob(os.path.join(TESTS, "search", "examples", "*.result.json")))
    chosen = [(path.replace(".result", ""), result) for path in results for result in json.loads(read(path))]
    return {
        "EXAMPLES": [(path, 0 if is_finished(read(f"{path}.report")) else 5) for path in examples],
        "VERDICTS": [(path, 0 if read(f"{path}.verdict").startswith("no data race: ") else 5) for path in verdicts],
        "SEARCHES": [
            (path, it["timeouts"], it["limit"], "closed" if it["closed"] else "not closed", it["status"])
            for path, it in chosen
        ],
        "SPELLINGS": [(name,) for name, _ in spellings()],
    }
