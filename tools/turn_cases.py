#!/usr/bin/env python3
"""Writes turns.json in crates/test_cases/data: the table of cases in which workers take turns at a task table.

usage: tools/turn_cases.py

What must come is computed by the machine below, which was written from the rules of the task table and not from the program. A table
may start any of the tasks that can be started, so the machine keeps every state that can be, and a turn has each answer that may come.
The operations, their tasks and their memory come from compare/rules.py; which tasks make the chunks that a task reads is said here.
"""
import json
import os
import sys

TOP = os.path.dirname(os.path.dirname(os.path.realpath(__file__)))
sys.path.insert(0, f"{TOP}/compare")
sys.path.insert(0, f"{TOP}/tools")
import rules  # noqa: E402
from elementwise_cases import node  # noqa: E402
from said import usage_if_asked

AMPLE = 200_000_000


def number_of(grid, place):
    """Returns the row-major number of a place."""
    number = 0
    for size, at in zip(grid, place):
        number = number * size + at
    return number


class Tasks:
    """The operations of a plan: of each how many tasks it has, what a task needs, and the tasks that make the chunks that each reads."""

    def __init__(self, plan):
        self.plan = plan
        self.steps = [step for _, step in plan.operations()]
        self.counts = [step.tasks() for step in self.steps]
        self.rooms = [plan.projected(step) for step in self.steps]
        self.last = {}
        self.reads = []
        for op, (k, step) in enumerate(plan.operations()):
            self.reads.append([self.read(op, k, step, place) for place in step.places()])
            self.last[k] = op

    def made_by(self, op, place):
        return (op, number_of(self.steps[op].grid(), place))

    def read(self, op, k, step, place):
        """Returns the tasks that make a chunk that a task reads. The arrays that reductions read have one axis."""
        before = op - 1 if op and self.plan.operations()[op - 1][0] == k else None
        if step.kind.endswith("merge"):
            first = sum(place) * self.plan.split_every
            return [(before, at) for at in range(first, min(first + self.plan.split_every, self.counts[before]))]
        if step.kind == "copy" and not step.is_second:
            before = self.last.get(step.arg)
        if step.kind == "copy":
            return [] if before is None else [self.made_by(before, where) for where in step.within(place, step.source)]
        made = [self.last[arg] for arg in self.plan.arrays(k) if arg in self.last]
        if step.kind == "pull":
            return [(maker, task) for maker in made for task in range(self.counts[maker])]
        if step.kind.endswith("fold"):
            return [self.made_by(maker, place or (0,)) for maker in made if self.counts[maker]]
        return [self.made_by(self.last[arg], where) for arg, where in self.plan.task_inputs(k, place) if arg in self.last]

    def all(self):
        return [(op, task) for op, count in enumerate(self.counts) for task in range(count)]


class State:
    """What is done, how often each task failed, who runs what, and how the run ended."""

    def __init__(self, done, failures=(), running=(), ended=None):
        self.done, self.failures, self.running, self.ended = frozenset(done), failures, running, ended

    def key(self):
        return (self.done, self.failures, self.running, self.ended)

    def copies(self, task):
        return sum(1 for _, runs in self.running if runs == task)

    def without(self, worker):
        return tuple(pair for pair in self.running if pair[0] != worker)


class Case:
    """A case of the table: its members and its turns."""

    def __init__(self, name, nodes, allowed=AMPLE, split=4, retries=2, backups=False, done=(), workers=8, inputs=(), out=None):
        expr = {"nodes": nodes, "out": out or nodes[-1]["id"], "store_as": "y"}
        held = {f"{array}/zarr.json": json.dumps(rules.Array(dtype, shape, chunk).written()).encode() for array, dtype, shape, chunk in inputs}
        self.tasks = Tasks(rules.counted_plan(json.dumps(expr).encode(), held.get, allowed, 0, split))
        self.retries, self.backups = retries, backups
        every = self.tasks.all()
        self.states = [State(every[number] for number in done)]
        self.said = {"name": name, "expr": expr, "inputs": list(inputs), "allowed": allowed, "split": split, "retries": retries,
                     "backups": backups, "done": list(done), "workers": workers}
        self.turns = []

    def ready(self, state, task):
        return all(made in state.done for made in self.tasks.reads[task[0]][task[1]])

    def startable(self, state):
        """Returns the ready waiting tasks; where there are none and second copies are on, those that run in exactly one copy."""
        open_tasks = [task for task in self.tasks.all() if task not in state.done]
        waiting = [task for task in open_tasks if state.copies(task) == 0 and self.ready(state, task)]
        if waiting or not self.backups:
            return waiting
        return [task for task in open_tasks if state.copies(task) == 1]

    def claimed(self, state, worker):
        """Yields each answer that a claim may have, and the state that it leaves."""
        if state.ended:
            yield " ".join(map(str, state.ended)), state
        elif len(state.done) == sum(self.tasks.counts):
            yield "finished", state
        else:
            found = self.startable(state)
            for op, task in found:
                running = (*state.running, (worker, (op, task)))
                text = f"run {op} {task} {state.copies((op, task))} start {op} {task} {self.tasks.rooms[op]}"
                yield text, State(state.done, state.failures, running, state.ended)
            if not found:
                yield "idle", state

    def ended(self, state, word, task, copy):
        """Returns the entry that the end of a copy makes, and the state that it leaves."""
        workers = sorted(worker for worker, runs in state.running if runs == task)
        if copy >= len(workers):
            raise SystemExit(f"{self.said['name']}: nobody runs {task}")
        running = state.without(workers[copy])
        if state.ended or task in state.done:
            return "late", State(state.done, state.failures, running, state.ended)
        if word == "ok":
            return "done", State(state.done | {task}, state.failures, running)
        if word != "store":
            return "halt", State(state.done, state.failures, running, ("halted", "memory" if word == "memory" else "x/c/0 3 4"))
        failures = (*state.failures, task)
        broken = failures.count(task) == self.retries + 1
        return "failed", State(state.done, tuple(sorted(failures)), running, ("broken", *task) if broken else None)

    def add(self, what, answers):
        """Adds a turn, from the answers that may come and the states that they leave."""
        self.turns.append([what, *sorted({text for text, _ in answers})])
        self.states = list({state.key(): state for _, state in answers}.values())

    def claim(self, *workers):
        for worker in workers:
            found = []
            for state in self.states:
                runs = any(who == worker for who, _ in state.running)
                found += [("none", state)] if runs else list(self.claimed(state, worker))
            self.add(["claim", worker], found)

    def start(self, worker, op, task):
        """Adds a claim that must start this task, one of those that can be started."""
        found = [(text, left) for state in self.states for text, left in self.claimed(state, worker) if (worker, (op, task)) in left.running]
        assert found, f"{self.said['name']}: {worker} can't start {op} {task}"
        self.add(["claim", worker], found)

    def end(self, word, op, *tasks, copy=0):
        for task in tasks:
            found = []
            for state in self.states:
                kind, left = self.ended(state, word, (op, task), copy)
                found.append((f"{kind} {op} {task} 0", left))
            self.add([word, op, task, copy], found)

    def whole(self):
        """Returns the case as the table has it."""
        return {**self.said, "turns": self.turns}


ADDED = [node("a", "input", name="a"), node("b", "input", name="b"), node("s", "add", "a", "b")]
SIX = [["a", "int32", [6], [4]], ["b", "int32", [6], [4]]]


def full(count, chunk, **members):
    return node("f", "full", shape=[count], dtype="int64", value=1, chunk=[chunk], **members)


def next_operation_starts():
    case = Case("the next operation starts before the first is done", [*ADDED, node("t", "multiply", "s", 2)], 1600, inputs=SIX)
    case.claim(0, 1, 2)
    case.end("ok", 0, 0)
    case.claim(2, 3)
    case.end("ok", 0, 1)
    case.claim(3, 4)
    case.end("ok", 1, 1, 0)
    case.claim(0, 1, 2)
    return case


def own_next_operation():
    """The worker that ended the first task starts the task that reads its chunk, while another runs the second."""
    case = Case("a worker starts the next operation while another runs the first", [*ADDED, node("t", "multiply", "s", 2)], 1600, inputs=SIX)
    case.start(0, 0, 0)
    case.start(1, 0, 1)
    case.end("ok", 0, 0)
    case.start(0, 1, 0)
    return case


def both_copies(backups):
    name = "a worker that finds nothing to start runs a second copy" if backups else "without second copies it is idle"
    case = Case(name, ADDED, 1600, backups=backups, inputs=SIX)
    case.claim(0, 1)
    if backups:
        case.claim(2, 3, 4)
        case.end("ok", 0, 0)
        case.end("ok", 0, 0)
        case.claim(5)
        case.end("store", 0, 1, copy=1)
        case.claim(6)
        case.end("ok", 0, 1)
        case.end("memory", 0, 1)
        case.claim(7)
    else:
        case.claim(2, 2)
        case.end("ok", 0, 0, 1)
        case.claim(2)
    return case


def chain():
    case = Case("three maps in a row, the last task first", [full(3, 1), node("n", "negative", "f"), node("m", "negative", "n")], 1048)
    case.claim(0, 1, 2, 3)
    case.end("ok", 0, 2)
    case.claim(3, 4)
    case.end("ok", 1, 2)
    case.claim(4, 5)
    case.end("ok", 0, 0, 1)
    case.claim(5, 6, 7)
    case.end("ok", 2, 2)
    case.end("ok", 1, 1, 0)
    case.claim(0, 1, 2, 3)
    return case


def one_worker():
    case = Case("one worker does one task after another", [full(2, 1), node("n", "negative", "f")], 1048, done=[1, 3])
    case.claim(0)
    case.end("store", 0, 0)
    case.claim(0)
    case.end("store", 0, 0)
    case.claim(0)
    case.end("ok", 0, 0)
    case.claim(0, 0, 1, 2)
    case.end("ok", 1, 0)
    case.claim(0, 1)
    return case


def places_in_rounds():
    case = Case("the place of the least element in rounds of two", [full(5, 2), node("m", "argmin", "f")], split=2)
    case.claim(0, 1, 2, 3)
    case.end("ok", 0, 2)
    case.claim(3)
    case.end("ok", 0, 0)
    case.claim(4, 5)
    case.end("ok", 1, 0)
    case.end("ok", 1, 2)
    case.claim(5, 6)
    case.end("ok", 0, 1)
    case.claim(6, 7)
    case.end("ok", 2, 1)
    case.end("ok", 1, 1)
    case.claim(0, 1)
    case.end("ok", 2, 0)
    case.claim(1, 2)
    case.end("ok", 3, 0)
    case.claim(0, 7)
    return case


def sum_in_rounds():
    case = Case("a sum in rounds of three, whose last group is shorter", [full(7, 1), node("s", "sum", "f")], split=3, done=range(7))
    case.claim(*range(7))
    case.claim(7)
    case.end("ok", 1, 6)
    case.claim(7)
    case.end("ok", 1, 0, 1, 3, 4, 5)
    case.end("store", 1, 2)
    case.claim(0, 1)
    case.claim(2, 3)
    case.end("ok", 2, 1, 2)
    case.claim(4)
    case.end("ok", 1, 2)
    case.claim(5)
    case.end("ok", 2, 0)
    case.claim(6, 0)
    case.end("ok", 3, 0)
    case.claim(1)
    return case


def copied():
    nodes = [full(180, 20), node("n", "negative", "f"), node("r", "rechunk", "n", chunk=[30])]
    case = Case("copies whose tasks write several chunks from several tasks", nodes, 1504, done=[*range(9), 9, 10, 16, 17, 20], workers=9)
    case.claim(*range(5))
    case.claim(5)
    for task in (4, 5):
        case.end("ok", 1, task)
        case.claim(5)
    case.end("ok", 1, 6)
    case.claim(6, 7)
    case.end("store", 1, 3)
    case.end("ok", 1, 2)
    case.claim(7, 8)
    case.end("ok", 2, 1)
    case.claim(8)
    case.end("ok", 1, 3)
    case.claim(5, 0)
    case.end("ok", 2, 0)
    case.claim(0, 1)
    case.end("ok", 3, 1, 0)
    case.claim(1)
    return case


def two_copies():
    nodes = [node("f", "full", shape=[6, 6], dtype="int64", value=1, chunk=[6, 1]), node("r", "rechunk", "f", chunk=[1, 6])]
    case = Case("two copies in a row in little memory", nodes, 200, workers=16)
    case.claim(*range(6))
    case.claim(6)
    for task in (5, 3, 1, 4, 2):
        case.end("ok", 0, task)
        case.claim(*range(7, 10))
    case.end("ok", 0, 0)
    case.claim(*range(10, 16))
    return case


def turned_over():
    case = Case("a view waits for the whole of its source", [full(3, 1), node("v", "flip", "f")])
    case.claim(0, 1, 2)
    case.claim(3)
    case.end("ok", 0, 0, 2)
    case.claim(3)
    case.end("ok", 0, 1)
    case.claim(3, 4, 5, 6)
    case.end("ok", 1, 1, 0, 2)
    case.claim(0)
    return case


def broken(retries):
    case = Case(f"a task that fails with {retries} tries more breaks the run", [full(2, 1)], retries=retries, done=[1])
    case.claim(0)
    for _ in range(retries + 1):
        case.claim(1)
        case.end("store", 0, 0)
        case.claim(0)
    case.claim(1, 2)
    return case


def failures_apart():
    case = Case("the failures of each task count for it alone", [full(3, 1)], retries=1)
    case.claim(0, 1, 2)
    case.end("store", 0, 0, 1, 2)
    case.claim(0, 1, 2)
    case.end("store", 0, 1)
    case.claim(3)
    case.end("ok", 0, 0)
    case.end("store", 0, 2)
    case.claim(0, 1, 2)
    return case


def failures_of_copies():
    case = Case("the failures of both copies of a task count", [full(1, 1)], retries=1, backups=True)
    case.claim(0, 1)
    case.end("store", 0, 0, copy=1)
    case.claim(2)
    case.end("store", 0, 0)
    case.claim(3)
    case.end("ok", 0, 0)
    case.claim(0)
    return case


def halted(word):
    name = {"memory": "want of memory ends the run at once", "bad": "a bad chunk ends the run at once"}[word]
    case = Case(name, [full(3, 1), node("n", "negative", "f")], 1048)
    case.claim(0, 1, 2)
    case.end("ok", 0, 0)
    case.claim(3)
    case.end(word, 1, 0)
    case.claim(3, 4)
    case.end("ok", 0, 1)
    case.end("store", 0, 2)
    case.claim(0, 1, 2)
    return case


def late_faults():
    case = Case("an end that is late changes nothing, whatever it is", [full(2, 1)], retries=0, backups=True)
    case.claim(0, 1, 2, 3)
    case.end("ok", 0, 0)
    case.end("store", 0, 0)
    case.claim(4)
    case.end("ok", 0, 1)
    case.end("bad", 0, 1)
    case.claim(4)
    return case


def opened():
    case = Case("a table that is opened with tasks that are done", [full(4, 1), node("n", "negative", "f")], 1048, done=[0, 1, 2, 5])
    case.claim(0, 1, 2)
    case.claim(3)
    case.end("ok", 0, 3)
    case.claim(3, 4)
    case.end("ok", 1, 0, 2, 3)
    case.claim(0)
    return case


def opened_whole():
    case = Case("a table that is opened with all tasks done", [full(2, 1), node("n", "negative", "f")], 1048, done=range(4))
    case.claim(0, 1)
    return case


def without_tasks():
    case = Case("an array without elements has no task", [full(0, 1), node("n", "negative", "f"), node("s", "sum", "n")], 1100)
    case.claim(0, 1)
    return case


def written():
    """Returns all cases."""
    made = [next_operation_starts(), own_next_operation(), chain(), one_worker(), places_in_rounds(), sum_in_rounds(), copied(), two_copies(), turned_over()]
    made += [both_copies(True), both_copies(False), failures_of_copies(), late_faults(), failures_apart()]
    made += [broken(retries) for retries in (0, 1, 2)]
    made += [halted("memory"), halted("bad"), opened(), opened_whole(), without_tasks()]
    return made


def main():
    rows = ",\n".join(json.dumps(case.whole()) for case in written())
    with open(f"{TOP}/crates/test_cases/data/turns.json", "w", encoding="ascii") as out:
        out.write('{\n"kind": "turns",\n"cases": [\n' + rows + "\n]}\n")


if __name__ == "__main__":
    usage_if_asked(__doc__)
    main()
