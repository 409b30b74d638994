"""Measures what a run costs: the processor seconds of all processes that it has waited for, by kinds of tasks, and how
fast this machine's processors are meanwhile."""
import contextvars
import os
import statistics
import threading
import time
from concurrent.futures import ThreadPoolExecutor

from .kit import rtlib

# The kinds of tasks, in the order of the line.
KINDS = PROOFS, EDITS, TESTS = "proofs", "edits", "tests"
# So many additions take about 50 milliseconds. They are made once in so many seconds.
ADDITIONS, PAUSE = 400_000, 60

# The kind of the task that is running.
running_kind = contextvars.ContextVar("kind", default="")


class Figures:
    """The processor seconds of each kind of tasks, and the additions in a second that were measured."""

    def __init__(self):
        self.seconds, self.speeds, self.lock = dict.fromkeys(KINDS, 0), [], threading.Lock()
        self.is_over = threading.Event()

    def begin(self):
        """Counts each process from now on that this one waits for, and measures additions until the end."""
        os.waitpid = self.wait
        # rt checks a crate in a thread of its own, whose processes are of the same kind.
        rtlib.ThreadPoolExecutor = PoolInContext
        threading.Thread(target=self.measure_additions, daemon=True).start()

    def wait(self, process, options):
        """Waits as os.waitpid does, and counts what the process and those that it has waited for have used."""
        process, status, used = os.wait4(process, options)
        kind = running_kind.get()
        if kind:
            with self.lock:
                self.seconds[kind] += used.ru_utime + used.ru_stime
        return process, status

    def measure_additions(self):
        """Measures additions in slices, with pauses between them."""
        while not self.is_over.is_set():
            self.speeds.append(additions_a_second())
            self.is_over.wait(PAUSE)

    def line(self):
        """Ends the measuring, and returns the figures as one line."""
        self.is_over.set()
        speeds = self.speeds or [additions_a_second()]
        seconds = ", ".join(f"{round(self.seconds[kind]):,} of {kind}" for kind in KINDS)
        return f"processor seconds: {seconds}; {statistics.median(speeds) / 1e6:.1f} million additions a second"


class PoolInContext(ThreadPoolExecutor):
    """Threads that do each call in the context of the thread which asked for it."""

    def submit(self, call, *words, **named):
        return super().submit(contextvars.copy_context().run, call, *words, **named)


def of_kind(kind, call):
    """Returns a call that does the same, and whose processes are counted for a kind of tasks."""
    return lambda *words: contextvars.Context().run(run_of_kind, kind, call, words)


def run_of_kind(kind, call, words):
    running_kind.set(kind)
    return call(*words)


def additions_a_second():
    """Returns how many additions a loop of Python makes in a second of one processor."""
    count, begun = 0, time.thread_time()
    while count < ADDITIONS:
        count += 1
    return count / (time.thread_time() - begun)
