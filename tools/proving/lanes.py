"""Runs tasks side by side: as many as there are processors and memory for, those first that most work waits for."""
import time
from concurrent.futures import FIRST_COMPLETED, ThreadPoolExecutor, wait
from dataclasses import dataclass, field
from typing import Callable

from .kit import rt

# At most this part of the free memory is planned for: some proofs take more than is foreseen.
MEMORY = 0.85
# A task's further jobs take this part of what is foreseen for its first one: a gigabyte each, when that was measured.
FURTHER = 0.4
# A task is urgent if it begins a chain of this part of the longest one. It gets so many jobs even if all processors are
# busy. That shortens the longest chain, but each further job makes a proof take about a seventh more processor time.
URGENT = 0.7
URGENT_JOBS = 3
# A task is long if it takes this part of the time that is left, with one job. It gets so many jobs even if all
# processors are busy: with one job it would end after all others, alone.
LONG = 0.5
LONG_JOBS = 2


@dataclass(eq=False)
class Task:
    """Work that one process does, or several jobs of it."""

    name: str
    # Does the work, given how many jobs it may use. Returns whether all is well.
    run: Callable[[int], bool]
    # The tasks that have to end well before it.
    waits_for: list = field(default_factory=list)
    # How long it takes with one job, as far as is foreseen, in seconds, and how much memory, in bytes.
    seconds: float = 1
    memory: int = 0
    most_jobs: int = 1
    # Whether nothing else may run beside it.
    is_alone: bool = False


class Lanes:
    """The tasks that are left, those that run, and the results of those that ended."""

    def __init__(self, tasks, processors, hurries=False):
        self.left, self.running, self.ended = list(tasks), {}, {}
        # All of the machine's processors may be taken by urgent tasks; if fewer were asked for, no more than these.
        self.processors, self.hurries = processors, hurries and processors >= rt.processors()
        self.memory, self.behind = MEMORY * rt.free(), chains(tasks)

    def run(self):
        """Runs all tasks, and returns whether each one ended well, by the tasks. One that waits for a task which ended
        badly isn't run, and isn't in what is returned."""
        with ThreadPoolExecutor(max(len(self.left), 1)) as pool:
            while self.left or self.running:
                self.drop_hopeless()
                for task, jobs in self.startable():
                    self.left.remove(task)
                    self.running[pool.submit(task.run, jobs)] = task, jobs, needs(task, jobs)
                for it in wait(self.running, return_when=FIRST_COMPLETED).done:
                    self.ended[self.running.pop(it)[0]] = it.result()
        return self.ended

    def drop_hopeless(self):
        """Drops what waits for a task that ended badly, or was dropped."""
        may_serve = lambda below: self.ended.get(below, below in self.left or self.is_running(below))
        is_hopeless = lambda it: not all(map(may_serve, it.waits_for))
        while any(map(is_hopeless, self.left)):
            self.left = [it for it in self.left if not is_hopeless(it)]

    def is_running(self, task):
        return any(task is it for it, _, _ in self.running.values())

    def startable(self):
        """Yields the tasks to start now, each with its number of jobs."""
        ready = [it for it in self.left if all(below in self.ended for below in it.waits_for)]
        ready.sort(key=lambda it: -self.behind[it])
        unended = [*self.left, *(it for it, _, _ in self.running.values())]
        for at, task in enumerate(ready):
            jobs = self.jobs_for(task, at, len(ready) - at - 1, self.least_jobs(task, unended))
            if jobs:
                yield task, jobs

    def least_jobs(self, task, unended):
        """Returns how many jobs a ready task gets at least, given the tasks that haven't ended: 1 if it has to wait for
        an idle processor."""
        if task.most_jobs > 1 and self.hurries and self.behind[task] >= URGENT * max(self.behind[it] for it in unended):
            return URGENT_JOBS
        is_long = task.most_jobs > 1 and task.seconds >= LONG * sum(it.seconds for it in unended) / self.processors
        return LONG_JOBS if is_long else 1

    def jobs_for(self, task, at, others, least):
        """Returns how many jobs a ready task may begin with, given its place, how many come after it, and how many it
        gets at least; 0 if none."""
        used = sum(jobs for _, jobs, _ in self.running.values())
        # One more than there are processors is planned for: a task that all others wait for gets its share sooner.
        idle = self.processors + 1 - used
        room = self.memory - sum(memory for _, _, memory in self.running.values())
        is_taken = task.is_alone or any(it.is_alone for it, _, _ in self.running.values())
        if self.running and (is_taken or task.memory > room):
            return 0
        if idle < 1 and least == 1:
            return 0
        # The first has the longest chain behind it, so all processors but one for each other task are best spent there.
        jobs = max(idle - others if at == 0 else idle // (others + 1), least)
        fitting = 1 + int((room / task.memory - 1) / FURTHER) if task.memory else jobs
        return max(1, min(jobs, self.processors, task.most_jobs, fitting))


def needs(task, jobs):
    """Returns the memory that a task takes with so many jobs."""
    return task.memory * (1 + FURTHER * (jobs - 1))


def chains(tasks):
    """Returns the seconds of the longest chain of tasks that begins with each one. A task comes after those that it
    waits for."""
    behind = {task: 0 for task in tasks}
    for task in reversed(list(tasks)):
        behind[task] += task.seconds
        for below in task.waits_for:
            behind[below] = max(behind[below], behind[task])
    return behind
