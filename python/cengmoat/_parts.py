"""Runs in parts by an engine of the user's: anything with `submit(f, *args)` whose futures have `result()`.

The program begins a run, each part is some tasks of one operation, and the program's `resume` ends it. So whatever the engine
loses or does twice, what is stored at the end is the result.
"""
from __future__ import annotations

import queue
import re
from typing import TYPE_CHECKING, Any, Callable, Mapping, NamedTuple, Optional, Sequence

from ._part import Ended, run_part
from ._program import LOG
from .errors import NotReady, Stopped, error_of

if TYPE_CHECKING:
    from ._nodes import Graph

# The seconds that a part is meant to take, the tasks of the first parts, and how many parts wait or run at once.
SECONDS = 3.0
FIRST_TASKS = 8
MOST_WAITING = 64
# How often a part is tried again whose worker was lost, or that came before what it reads.
MOST_AGAIN = 4


class Step(NamedTuple):
    """An operation of a plan: its number, its tasks, and the operations whose results it reads."""

    number: int
    tasks: int
    reads: tuple[int, ...]


class Part(NamedTuple):
    """Some tasks of an operation: from `start` to before `stop`."""

    step: int
    start: int
    stop: int
    tried: int = 0


def read_steps(text: str) -> list[Step]:
    """Return the operations that the program printed. Where it doesn't say what one reads, it waits for all before it."""
    found = []
    for number, tasks, reads in re.findall(r"^op (\d+) \w+ node=\d+ tasks=(\d+) cells=\d+ projected=\d+(?: reads=([\d,]*))?$", text, re.M):
        known = " reads=" in text
        found.append(Step(int(number), int(tasks), tuple(map(int, filter(None, reads.split(",")))) if known else tuple(range(int(number)))))
    return found


def mapped(path: str, paths: Mapping[str, str]) -> str:
    """Return a path as it is on the engine's machines: the longest head that is mapped is exchanged."""
    for head in sorted(paths, key=len, reverse=True):
        if path == head or path.startswith(head.rstrip("/") + "/"):
            return paths[head] + path[len(head):]
    return path


def check_executor(executor: Any) -> None:
    """Refuse what is no executor, by a TypeError."""
    if isinstance(executor, type) or not callable(getattr(executor, "submit", None)):
        kind = f"the class {executor.__name__}" if isinstance(executor, type) else f"one of {type(executor).__name__}"
        raise TypeError(f"executor= is an object with submit(f, *args), as concurrent.futures.ThreadPoolExecutor(4) or dask.distributed.Client(..),"
                        f" and not {kind}. Nothing was stored")


class Engine:
    """Hands the parts of a run to an executor.

    Parameters
    ----------
    words : sequence of str
        The words of a part, without its operation and its tasks.
    graph, name : Graph, str
        The expression, and the name of its result.
    executor : object
        Has `submit`.
    paths : mapping from str to str
        Heads of paths here, and what they are on the executor's machines.
    tell : callable
        Is told how many tasks are done.
    """

    def __init__(self, words: Sequence[str], graph: Graph, name: str, executor: Any, paths: Mapping[str, str], tell: Callable[[int], None]) -> None:
        program, folder, *rest = words
        self.words = [mapped(program, paths), mapped(folder, paths), *rest]
        self.text, self.expression_of = graph.text(name), graph.expression
        self.executor, self.tell = executor, tell
        self.ended: queue.Queue[tuple[Part, Any]] = queue.Queue()
        self.futures: dict[Part, Any] = {}
        # Tasks that are done of each operation, the tasks of a part, and those that aren't handed on yet.
        self.done: dict[int, int] = {}
        self.size: dict[int, int] = {}
        self.next: dict[int, int] = {}

    def run(self, steps: list[Step]) -> None:
        """Run all parts.

        Raises
        ------
        CengmoatError
            The answer of a part, where it isn't one that is tried again.
        """
        try:
            while any(self.done.get(step.number, 0) < step.tasks for step in steps):
                self.submit_ready(steps)
                self.take(*self.ended.get())
        finally:
            for future in self.futures.values():
                if hasattr(future, "cancel"):
                    future.cancel()

    def submit_ready(self, steps: list[Step]) -> None:
        """Hand on parts of the operations whose inputs are done."""
        finished = {step.number for step in steps if self.done.get(step.number, 0) >= step.tasks}
        for step in steps:
            while len(self.futures) < MOST_WAITING and self.next.get(step.number, 0) < step.tasks and finished >= set(step.reads):
                start = self.next.get(step.number, 0)
                stop = min(step.tasks, start + self.size.get(step.number, FIRST_TASKS))
                self.next[step.number] = stop
                self.submit(Part(step.number, start, stop))

    def submit(self, part: Part) -> None:
        words = [*self.words, "--op", str(part.step), "--from", str(part.start), "--to", str(part.stop)]
        future = self.executor.submit(run_part, words, self.text)
        self.futures[part] = future
        if hasattr(future, "add_done_callback"):
            future.add_done_callback(lambda ended: self.ended.put((part, ended)))
        else:
            self.ended.put((part, future))

    def take(self, part: Part, future: Any) -> None:
        """Take the end of a part, or try it again."""
        self.futures.pop(part, None)
        try:
            ended: Optional[Ended] = future.result()
            why = ""
        except Exception as error:
            ended, why = None, f"{type(error).__name__}: {error}"
        if ended is not None:
            LOG.info("part of operation %d, tasks %d to %d: status %d in %.3f s", part.step, part.start, part.stop - 1, ended.status, ended.seconds)
        if ended is not None and ended.status == 0:
            self.done[part.step] = self.done.get(part.step, 0) + part.stop - part.start
            fitting = int((part.stop - part.start) * SECONDS / max(ended.seconds, 0.01))
            self.size[part.step] = max(1, min(fitting, 16 * (part.stop - part.start)))
            self.tell(sum(self.done.values()))
            return
        is_killed = ended is not None and ended.status < 0
        is_early = ended is not None and ended.status == NotReady.status
        if (ended is None or is_killed or is_early) and part.tried < MOST_AGAIN:
            self.submit(part._replace(tried=part.tried + 1))
        elif ended is None:
            raise Stopped(f"a part was lost {part.tried + 1} times by the executor: {why}")
        else:
            raise error_of(ended.status, ended.errors, self.expression_of)
