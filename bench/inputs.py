"""Makes the scripts, traces and files of automata that are measured. They are the same each time: what is drawn comes
from a seed."""
import json

SEED = 20
MASK = 2**64 - 1
ATOMIC_KINDS = ["Int8", "Uint8", "Int16", "Uint16", "Int32", "Uint32", "BigInt64", "BigUint64"]
ACCESSES = ["load", "store", "exchange", "add", "sub", "and", "or", "xor", "compareExchange"]
MODIFYING = {"exchange", "add", "sub", "and", "or", "xor", "compareExchange"}
READING = MODIFYING | {"load", "read"}
WRITING = MODIFYING | {"store", "write"}
LONGEST_BLOCK = 65536


class Draws:
    """Draws numbers by SplitMix64. The numbers of Python's `random` may change with its version."""

    def __init__(self):
        self.state = SEED

    def below(self, bound):
        """Returns a number from 0 to bound - 1."""
        self.state = (self.state + 0x9E3779B97F4A7C15) & MASK
        mixed = (self.state ^ self.state >> 30) * 0xBF58476D1CE4E5B9 & MASK
        mixed = (mixed ^ mixed >> 27) * 0x94D049BB133111EB & MASK
        return (mixed ^ mixed >> 31) % bound

    def of(self, items):
        """Returns one of the items."""
        return items[self.below(len(items))]


# ---- Scripts


def script_of(form, length, views, agents, schedule):
    """Returns the text of a script with one block, in the form with `blocks` or in the older one with `bytes`."""
    on_block = {"block": 0} if form == "blocks" else {}
    script = {
        form: [length] if form == "blocks" else length,
        "views": [{"name": name, "kind": kind, **on_block, "offset": 0, "length": None} for name, kind in views],
        "agents": [{"block": True, "calls": calls} for calls in agents],
        "schedule": schedule,
    }
    text = json.dumps(script, separators=(",", ":"))
    assert len(text) <= 2**20 and len(schedule) <= 100_000
    return text


def small(form):
    """One agent makes two calls."""
    return script_of(form, 4, [("a", "Int32")], [[["store", "a", 0, 5], ["load", "a", 0]]], [0] * 6)


def block(form):
    """The longest block, and nothing else."""
    return script_of(form, LONGEST_BLOCK, [], [], [])


def idle(form):
    """As many moves as a script can have, of an agent without calls."""
    return script_of(form, 0, [], [[]], [0] * 100_000)


def waits(form):
    """Fifteen agents wait at one word, and one wakes them all, a thousand times."""
    all_twice = [agent for agent in range(15) for _ in range(2)]
    agents = [[["wait", "a", 0, 0]] * 1000] * 15 + [[["notify", "a", 0]] * 1000]
    return script_of(form, 4, [("a", "Int32")], agents, (all_twice + [15] * 3 + all_twice) * 1000)


def access(form):
    """Sixteen agents make all accesses, by all kinds that `Atomics` takes, on the longest block."""
    draws = Draws()
    views = [(f"view{number}", draws.of(ATOMIC_KINDS)) for number in range(64)]

    def call():
        function, (name, kind) = draws.of(ACCESSES), draws.of(views)
        operands = {"load": 0, "compareExchange": 2}.get(function, 1)
        numbers = [draws.below(200) - 100 for _ in range(operands)]
        return [function, name, draws.below(100), *([str(it) for it in numbers] if "Big" in kind else numbers)]

    agents = [[call() for _ in range(1000)] for _ in range(16)]
    left, schedule = [3000] * 16, []
    while len(schedule) < 48_000:
        agent = draws.below(16)
        if left[agent]:
            left[agent] -= 1
            schedule.append(agent)
    return script_of(form, LONGEST_BLOCK, views, agents, schedule)


SCRIPTS = [small, block, idle, waits, access]


# ---- Traces


class Trace:
    """A trace, event by event, as the recorder writes it."""

    def __init__(self):
        self.lines, self.calls, self.draws = [], [0] * 16, Draws()

    def add(self, agent, does, byte, size=4):
        """Adds an event, at a line of code that is drawn."""
        is_call = does not in ("read", "write")
        event = {
            "event": len(self.lines), "agent": agent, "call": self.calls[agent], "does": does,
            "block": 0, "byte": byte, "size": size, "read": does in READING, "write": does in WRITING,
            "atomic": is_call and does != "notify", "waiters": does == "notify",
            "source": f"queue.mjs:{10 + self.draws.below(90)}:{1 + self.draws.below(60)}",
        }
        self.calls[agent] += is_call
        self.lines.append(json.dumps(event, separators=(",", ":")) + "\n")


def trace_of(events, add_some):
    """Returns the text of a trace, to which events are added until there are enough."""
    trace = Trace()
    while len(trace.lines) < events:
        add_some(trace, trace.draws)
    return "".join(trace.lines[:events])


def call(trace, draws):
    """One of four agents makes a call on one of 16 words."""
    does = draws.of(["load", "store", "add", "exchange", "compareExchange", "notify"])
    trace.add(draws.below(4), does, 4 * draws.below(16))


def ordinary(trace, draws, agent, span):
    """An agent reads and writes words among so many bytes."""
    for _ in range(2 + draws.below(10)):
        trace.add(agent, draws.of(["read", "read", "write"]), 64 + 4 * draws.below(span // 4))


def locked(trace, draws, agent, act):
    """An agent takes a lock, does something, and leaves the lock."""
    trace.add(agent, "compareExchange", 0)
    act(trace, draws, agent)
    trace.add(agent, "store", 0)
    trace.add(agent, "notify", 0)


def data(span):
    """One of four agents reads and writes data of so many bytes behind a lock."""
    act = lambda trace, draws, agent: ordinary(trace, draws, agent, span)
    return lambda trace, draws: locked(trace, draws, draws.below(4), act)


def racy(trace, draws):
    """One of four agents reads and writes data, and one time in twenty without the lock."""
    if draws.below(20):
        data(64)(trace, draws)
    else:
        ordinary(trace, draws, draws.below(4), 64)


def again(size):
    """An agent writes the same bytes again."""
    return lambda trace, _: trace.add(0, "write", 0, size)


def wide_and_narrow(trace, draws, agent=0):
    """An agent writes nearly 64 KiB, and reads 4 bytes of them."""
    trace.add(agent, "write", 4, LONGEST_BLOCK - 4)
    trace.add(agent, "read", 4 * (1 + draws.below(LONGEST_BLOCK // 4 - 1)))


def by_two(trace, draws):
    """One of two agents, which a lock orders, writes nearly 64 KiB, and reads 4 bytes of them."""
    locked(trace, draws, draws.below(2), wide_and_narrow)


def ragged(trace, draws):
    """An agent writes a range that begins and ends anywhere."""
    byte = draws.below(LONGEST_BLOCK)
    trace.add(0, "write", byte, 1 + draws.below(LONGEST_BLOCK - byte))


TRACES = [
    ("calls alone", 3_000, call),
    ("few bytes", 3_000, data(64)),
    ("many bytes", 3_000, data(16_384)),
    ("few bytes", 10_000, data(64)),
    ("few bytes", 100_000, data(64)),
    ("with races", 3_000, racy),
    ("4 bytes again", 1_200, again(4)),
    ("64 KiB again", 1_200, again(LONGEST_BLOCK)),
    ("64 KiB, 4 bytes", 1_200, wide_and_narrow),
    ("64 KiB by two", 1_200, by_two),
    ("ragged", 1_200, ragged),
]


# ---- Files of automata


class Graph:
    """The nodes of an automaton, with labels to which edges lead."""

    def __init__(self):
        self.nodes, self.labels = [], {}

    def at(self, label):
        """Gives the next node a label."""
        self.labels[label] = len(self.nodes)

    def add(self, does, edges):
        """Adds a node. Its edges lead from answers to labels."""
        self.nodes.append({**does, "edges": edges})

    def call(self, *words, **edges):
        """Adds a call on the view `m`. The edge of an answer that is a number is given with `_` before it."""
        function, *operands = words
        edges = {answer.strip("_").replace("_", "-"): to for answer, to in edges.items()}
        self.add({"call": [function, "m", *operands]}, edges)

    def finished(self):
        """Adds an end, and returns the nodes."""
        end = len(self.nodes)
        for node in self.nodes:
            node["edges"] = [[answer, end if to == "end" else self.labels[to]] for answer, to in node["edges"].items()]
        return self.nodes + [{"finished": True}]


def automata_of(length, initial, automata, agents):
    """Returns the text of a file of automata with one block, whose words have these values at first."""
    block = b"".join(value.to_bytes(4, "little") for value in initial).ljust(length, b"\0")
    return json.dumps({
        "blocks": [length],
        "initial": [block.hex()],
        "views": [{"name": "m", "kind": "Int32", "block": 0, "offset": 0, "length": None}],
        "automata": [{"name": name, "nodes": nodes} for name, nodes in automata.items()],
        "agents": [{"automaton": name, "block": True} for name in agents],
    })


def numbered(least, greatest, label):
    """Returns edges from the numbers of a range to one label."""
    return {f"_{number}": label for number in range(least, greatest + 1)}


def take(graph, word, most, it):
    """A semaphore at a word is taken: it is counted down, or waited for while it is 0."""
    graph.at(f"take {it}")
    graph.call("load", word, _0=f"wait {it}", **{f"_{n}": f"try {n} {it}" for n in range(1, most + 1)})
    graph.at(f"wait {it}")
    graph.call("wait", word, 0, ok=f"take {it}", not_equal=f"take {it}")
    for n in range(1, most + 1):
        graph.at(f"try {n} {it}")
        others = {answer: f"take {it}" for answer in numbered(0, most, "")}
        graph.call("compareExchange", word, n, n - 1, **{**others, f"_{n}": f"taken {it}"})
    graph.at(f"taken {it}")


def give(graph, word, most, it, to):
    """A semaphore at a word is given back, and one agent is woken that waits for it."""
    graph.call("add", word, 1, **numbered(0, most - 1, f"given {it}"))
    graph.at(f"given {it}")
    graph.call("notify", word, 1, _0=to, _1=to)


def mutex(agents, rounds):
    """Agents take a mutex of three states so many times, and add 1 to a byte behind it."""
    graph, most = Graph(), agents * rounds
    for n in range(rounds):
        after = f"lock {n + 1}" if n + 1 < rounds else "end"
        graph.at(f"lock {n}")
        graph.call("compareExchange", 0, 0, 1, _0=f"locked {n}", _1=f"await {n}", _2=f"await {n}")
        graph.at(f"await {n}")
        graph.call("exchange", 0, 2, _0=f"locked {n}", _1=f"sleep {n}", _2=f"sleep {n}")
        graph.at(f"sleep {n}")
        graph.call("wait", 0, 2, ok=f"await {n}", not_equal=f"await {n}")
        graph.at(f"locked {n}")
        graph.add({"read": [0, 4, 1]}, {f"{value:02x}": f"write {value} {n}" for value in range(most)})
        for value in range(most):
            graph.at(f"write {value} {n}")
            graph.add({"write": [0, 4, f"{value + 1:02x}"]}, {"": f"unlock {n}"})
        graph.at(f"unlock {n}")
        graph.call("sub", 0, 1, _1=after, _2=f"store {n}")
        graph.at(f"store {n}")
        graph.call("store", 0, 0, _0=f"notify {n}")
        graph.at(f"notify {n}")
        graph.call("notify", 0, 1, _0=after, _1=after)
    return automata_of(8, [0], {"locker": graph.finished()}, ["locker"] * agents)


def semaphore(agents, rounds, permits):
    """Agents take one of a few permits so many times, and give it back."""
    graph = Graph()
    for n in range(rounds):
        take(graph, 0, permits, n)
        give(graph, 0, permits, n, f"take {n + 1}" if n + 1 < rounds else "end")
    return automata_of(4, [permits], {"user": graph.finished()}, ["user"] * agents)


def seqlock(writes, readers):
    """One agent writes two bytes behind a count, and others read them until the count is even and stays."""
    writer, reader, last = Graph(), Graph(), 2 * writes
    for n in range(writes):
        writer.call("add", 0, 1, **{f"_{2 * n}": f"low {n}"})
        writer.at(f"low {n}")
        writer.add({"write": [0, 4, f"{n + 1:02x}"], "alone": True}, {"": f"high {n}"})
        writer.at(f"high {n}")
        writer.add({"write": [0, 5, f"{n + 1:02x}"], "alone": True}, {"": f"done {n}"})
        writer.at(f"done {n}")
        writer.call("add", 0, 1, **{f"_{2 * n + 1}": f"next {n}" if n + 1 < writes else "end"})
        writer.at(f"next {n}")
    reader.at("begin")
    reader.call("load", 0, **{f"_{n}": "begin" if n % 2 else f"low {n}" for n in range(last + 1)})
    for n in range(0, last + 1, 2):
        reader.at(f"low {n}")
        reader.add({"read": [0, 4, 1], "alone": True}, {f"{v:02x}": f"high {n} {v}" for v in range(writes + 1)})
        for v in range(writes + 1):
            reader.at(f"high {n} {v}")
            reader.add({"read": [0, 5, 1], "alone": True}, {
                f"{w:02x}": f"{'same' if v == w else 'torn'} {n}" for w in range(writes + 1)})
        reader.at(f"same {n}")
        reader.call("load", 0, **{**numbered(0, last, "begin"), f"_{n}": "end"})
        reader.at(f"torn {n}")
        reader.call("load", 0, **{f"_{v}": "begin" for v in range(last + 1) if v != n})
    automata = {"writer": writer.finished(), "reader": reader.finished()}
    return automata_of(8, [0], automata, ["writer"] + ["reader"] * readers)


def queue(capacity, items, pairs):
    """Agents put items into the slots of a queue, and as many take them out. It has two semaphores and two counts."""
    producer, consumer, all_items = Graph(), Graph(), items * pairs
    for n in range(items):
        for graph, waits_for, gives, count in ((producer, 0, 1, 2), (consumer, 1, 0, 3)):
            take(graph, waits_for, capacity, n)
            graph.call("add", count, 1, **{f"_{at}": f"slot {at % capacity} {n}" for at in range(all_items)})
            for slot in range(capacity):
                graph.at(f"slot {slot} {n}")
                if graph is producer:
                    graph.add({"write": [0, 16 + slot, f"{n + 1:02x}"]}, {"": f"give {n}"})
                else:
                    graph.add({"read": [0, 16 + slot, 1]}, {f"{value:02x}": f"give {n}" for value in range(items + 1)})
            graph.at(f"give {n}")
            give(graph, gives, capacity, n, f"take {n + 1}" if n + 1 < items else "end")
    agents = ["producer"] * pairs + ["consumer"] * pairs
    automata = {"producer": producer.finished(), "consumer": consumer.finished()}
    return automata_of(16 + capacity + -capacity % 4, [capacity, 0, 0, 0], automata, agents)


# The files that are searched, with how many states runs reach.
SEARCHES = [
    ("mutex of 3 agents", 118_345, lambda: mutex(3, 6)),
    ("semaphore of 4 agents", 733_445, lambda: semaphore(4, 4, 2)),
    ("seqlock of 4 agents", 129_551, lambda: seqlock(4, 3)),
    ("queue of 4 agents", 45_376, lambda: queue(2, 2, 2)),
]


def rows():
    """Gives each row: its name, the command's words, how many events or states it has (a script 0), and the input."""
    for maker in SCRIPTS:
        for form in ("blocks", "bytes"):
            yield f"{maker.__name__}, {form}", ["replay"], 0, maker(form)
    for name, events, add_some in TRACES:
        yield f"{name}, {events:,}", ["judge", "--trace"], events, trace_of(events, add_some)
    for name, states, maker in SEARCHES:
        yield f"{name}, {states:,}", ["search", "--format", "json"], states, maker()
