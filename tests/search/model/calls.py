"""Calls of `Atomics`: their checks, in order, and what each does to the bytes, the line and the woken agents."""
from typing import FrozenSet, NamedTuple, Optional, Tuple

from .elements import Operand, Place, View, agrees, element_at, place_of, raw, spelled, value, with_element

COMBINED = {
    "exchange": lambda old, given: given,
    "add": lambda old, given: old + given,
    "sub": lambda old, given: old - given,
    "and": lambda old, given: old & given,
    "or": lambda old, given: old | given,
    "xor": lambda old, given: old ^ given,
}
# How many operands a call has; `wait` and `notify` may have a timeout and a count besides.
OPERANDS = {"load": 0, "store": 1, **{name: 1 for name in COMBINED}, "compareExchange": 2, "wait": 1, "notify": 0}
OF_WAITERS = ("wait", "notify")
# An agent can wake at most all others of 16.
MOST_WOKEN = 15


class Call(NamedTuple):
    """A call. `bound` is the timeout of a wait or the count of a notify, if one is given."""

    function: str
    view: View
    index: int
    operands: Tuple[Operand, ...]
    bound: Optional[int]

    @property
    def place(self):
        return place_of(self.view, self.index)

    @property
    def kind(self):
        return self.view.kind


class Waiter(NamedTuple):
    """An agent that waits at a place."""

    agent: int
    place: Place


class Shared(NamedTuple):
    """The state of the sequential object: bytes, waiters of all places in order of arrival, woken agents."""

    blocks: Tuple[bytes, ...]
    line: Tuple[Waiter, ...]
    woken: FrozenSet[int]


def failing(call):
    """Returns the error of the first check that fails for every agent; None if none does."""
    is_of_kind = call.kind.is_waitable if call.function in OF_WAITERS else call.kind.is_atomic
    if not is_of_kind:
        return "TypeError"
    if call.place is None:
        return "RangeError"
    return None if all(agrees(operand, call.kind) for operand in call.operands) else "TypeError"


def verdict(call, can_block):
    """Returns the error that a call throws; None if it throws none."""
    error = failing(call)
    return "TypeError" if error is None and call.function == "wait" and not can_block else error


def can_answer(call, answer):
    """Returns whether a call can have an answer, of some agent and in some state."""
    error = failing(call)
    if error:
        return answer == error
    if call.function == "store":
        return answer == spelled(call.operands[0])
    if call.function == "wait":
        return answer in ("ok", "not-equal", "TypeError") or (answer == "timed-out" and call.bound is not None)
    if call.function == "notify":
        most = MOST_WOKEN if call.bound is None else min(max(call.bound, 0), MOST_WOKEN)
        return answer in map(str, range(most + 1))
    return is_value(answer, call.kind)


def is_value(answer, kind):
    """Returns whether an answer spells a value of a kind."""
    digits = answer[:-1] if kind.is_big and answer.endswith("n") else answer
    if not digits.lstrip("-").isascii() or not digits.lstrip("-").isdigit() or len(digits) > 20:
        return False
    operand = Operand(int(digits), kind.is_big)
    return spelled(operand) == answer and value(raw(operand, kind), kind) == operand


def changed_element(call, old):
    """Returns the raw element that an access writes over an old one; None if it writes none."""
    given = [raw(operand, call.kind) for operand in call.operands]
    if call.function == "load":
        return None
    if call.function == "store":
        return given[0]
    if call.function == "compareExchange":
        return given[1] if given[0] == old else None
    return COMBINED[call.function](old, given[0]) % 2 ** (8 * call.kind.size)


def act(call, agent, can_block, shared):
    """Returns a call's answer and the state after its act. The answer is None if the call joins the line."""
    error = verdict(call, can_block)
    if error:
        return error, shared
    if call.function == "notify":
        return notify(call, shared)
    old = element_at(shared.blocks, call.place, call.kind.size)
    if call.function == "wait":
        if raw(call.operands[0], call.kind) != old:
            return "not-equal", shared
        return None, shared._replace(line=shared.line + (Waiter(agent, call.place),))
    answer = call.operands[0] if call.function == "store" else value(old, call.kind)
    element = changed_element(call, old)
    if element is not None:
        shared = shared._replace(blocks=with_element(shared.blocks, call.place, call.kind.size, element))
    return spelled(answer), shared


def notify(call, shared):
    """Returns how many agents a notify wakes, and the state after it."""
    waiting = [waiter for waiter in shared.line if waiter.place == call.place]
    woken = waiting if call.bound is None else waiting[: max(call.bound, 0)]
    line = tuple(waiter for waiter in shared.line if waiter not in woken)
    return str(len(woken)), shared._replace(line=line, woken=shared.woken | {waiter.agent for waiter in woken})
