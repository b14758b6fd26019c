#!/usr/bin/env python3
"""Writes parts.json in crates/test_cases/data: plans that are begun and then run part by part over a folder, as an engine does.

usage: tools/part_cases.py            the table of the gate
       tools/part_cases.py FOLDER     all cases: each stop of each part, and each order of the parts

Each call fails once and for good; parts come in every order, twice, and before what they read; numbers are wrong; the sink fails.
Keys, records, operations and projections come from compare/rules.py, bytes from NumPy, what tasks read and write from the scripts of the
other tables. What a part asks for is worked out here: `looked_for` says it. Nothing comes from the program.
"""
import itertools
import os
import sys

TOP = os.path.dirname(os.path.dirname(os.path.realpath(__file__)))
sys.path.insert(0, f"{TOP}/tools")
import elementwise_cases as tables  # noqa: E402
import rules  # noqa: E402
import stop_cases  # noqa: E402
from elementwise_cases import expression, inputs_of, line_of, node, stored  # noqa: E402
from stop_cases import after, reset  # noqa: E402
from said import usage_if_asked


class Parts(stop_cases.Job):
    """A text over arrays, its plan, and the calls of its parts."""

    def __init__(self, job):
        self.__dict__.update(job.__dict__)
        self.maker = {key: task for task in self.tasks for key in task.writes}
        self.counts = [step.tasks() for _, step in self.plan.operations()]

    def task(self, op, number):
        return next(task for task in self.tasks if (task.op, task.number) == (op, number))

    def reads(self, op):
        """Returns the operations whose chunks an operation reads, in order."""
        return sorted({self.maker[key].op for task in self.tasks if task.op == op for key in task.reads if key in self.maker})

    def begun(self):
        """Returns what `begin` prints: the lines of `plan`, each operation's with what it reads."""
        *lines, last = self.plan.lines().splitlines()
        told = [f"{line} reads={','.join(map(str, self.reads(op)))}\n" for op, line in enumerate(lines)]
        return "".join(told) + last + "\n"

    def part(self, op, first, end):
        return {"words": ["part", "--op", str(op), "--from", str(first), f"--to={end}", *self.words], "input": {"named": self.label}}

    def part_report(self, op, tasks, starts, failed=0):
        step = self.plan.operations()[op][1]
        return f"ok ops=1 tasks={tasks} starts={starts} failed={failed} peak={self.plan.projected(step)}\n"

    def looked_for(self, op, first, end, held):
        """Returns the calls of a part before its tasks, each with its line where it fails for good; the tasks that are to start; and the task
        that may not, if any. The chunks of each task are asked for, and, where one is absent, the made ones that it reads, each key once."""
        calls = [(f"error 16 key={key}", None) for key in [*self.names, self.record]]
        chosen, known = [], set()
        for number in range(first, end):
            task = self.task(op, number)
            calls += [(f"error 16 key={key}", None) for key in task.writes]
            if all(key in held for key in task.writes):
                continue
            for key in dict.fromkeys(key for key in task.reads if key in self.maker):
                if key in known:
                    continue
                known.add(key)
                calls.append((f"error 16 key={key}", None))
                if key not in held:
                    return calls, chosen, number
            chosen.append(task)
        return calls, chosen, None

    def part_calls(self, op, first, end, held):
        """Returns all calls of a part, how many tasks it starts, and the line of its answer, none where it is 0."""
        calls, chosen, early = self.looked_for(op, first, end, held)
        if early is not None:
            return calls, 0, f"error 21 op={op} task={early}"
        for task in chosen:
            line = f"error 10 op={op} task={task.number}"
            calls += [(line, None) for _ in task.reads] + [(line, key) for key in task.writes]
        return calls, len(chosen), ""

    def answered(self, op, first, end, held):
        """Returns a part over what is held, which is carried out, and what is held then."""
        calls, starts, line = self.part_calls(op, first, end, held)
        now = after(calls, len(calls), held)
        ended = {"line": line} if line else {"output": self.part_report(op, end - first, starts)}
        return {**self.part(op, first, end), **ended, "leaves": self.kept(now)}, now

    def finished(self, held):
        starts = sum(not all(key in held for key in task.writes) for task in self.tasks)
        return {**self.called("resume"), "output": self.report(starts), "leaves": self.kept(self.keys)}


def fresh(job):
    return {"holds": job.inputs + reset(job, ())}


def begun(job):
    """A plan that is begun, over the inputs alone."""
    return {**fresh(job), **job.called("begin"), "output": job.begun(), "leaves": job.kept(job.keys[:2])}


# `begin`

def begin_steps(job):
    """Each call of `begin` fails for good and once; what a stop leaves blocks the next one, once the record is held."""
    calls, steps = job.run_calls(), []
    for count in range(len(calls)):
        held = after(calls, count, ())
        steps.append({**fresh(job), **job.called("begin"), "fail_from": count, "line": calls[count][0], "leaves": job.kept(held)})
        again = {"line": f"error 9 key={job.record}", "leaves": job.kept(held)} if held else {"output": job.begun(), "leaves": job.kept(job.keys[:2])}
        steps.append({**job.called("begin"), **again})
        steps.append({**fresh(job), **job.called("begin"), "fail_from": count, "fail_times": 1, "output": job.begun(), "leaves": job.kept(job.keys[:2])})
    for size in (0, 1, len(job.begun()) - 1):
        steps.append({**fresh(job), **job.called("begin"), "sink_room": size, "line": "error 12", "output": job.begun()[:size], "leaves": job.kept(job.keys[:2])})
    steps += [{**fresh(job), **job.called("begin"), "source_fails_at": 0, "line": "error 11", "leaves": job.kept(())}, begun(job)]
    steps.append({**job.called("run"), "line": f"error 9 key={job.record}", "leaves": job.kept(job.keys[:2])})
    for key in job.way:
        value = job.value.get(key, "")
        held = [[key, value]] if key in job.value else [[key, ""]]
        steps.append({"holds": reset(job, ()) + held, **job.called("begin"), "line": f"error 9 key={key}", "leaves": [[other, None] for other in job.keys if other != key] + held})
        if key not in job.value:
            steps.append({"holds": [[key, None]], **job.called("plan"), "output": job.plan.lines(), "leaves": []})
    return steps


# `part`

def whole_operations(job):
    return [(op, 0, count) for op, count in enumerate(job.counts)]


def single_tasks(job):
    return [(op, at, at + 1) for op, count in enumerate(job.counts) for at in range(count)]


def stopped_parts(job, parts, every=1):
    """Parts in the plan's order, each of whose calls fails for good and once; from what a stop leaves the part is run again."""
    steps, held = [begun(job)], set(job.keys[:2])
    for part in parts:
        calls, starts, line = job.part_calls(*part, held)
        assert not line
        tasks = part[2] - part[1]
        first = next((at for at, call in enumerate(calls) if call[0].startswith("error 10")), len(calls))
        for count in range(0, len(calls), every):
            now = after(calls, count, held)
            steps.append({"holds": reset(job, held), **job.part(*part), "fail_from": count, "line": calls[count][0], "leaves": job.kept(now)})
            again, then = job.answered(*part, now)
            steps.append(again)
            assert then == after(calls, len(calls), held)
            failed = int(count >= first)
            steps.append({"holds": reset(job, held), **job.part(*part), "fail_from": count, "fail_times": 1, "output": job.part_report(part[0], tasks, starts + failed, failed),
                          "leaves": job.kept(then)})
        held = after(calls, len(calls), held)
        steps.append(job.answered(*part, held)[0])
    steps.append(job.finished(held))
    return steps


def ordered(job, parts):
    """Parts in this order, and then `resume`: what comes too early is refused, and what is there isn't started."""
    steps, held = [begun(job)], set(job.keys[:2])
    for part in parts:
        step, held = job.answered(*part, held)
        steps.append(step)
    return [*steps, job.finished(held)]


def all_orders(job, parts, every=1):
    return [step for at, order in enumerate(itertools.permutations(parts)) if at % every == 0 for step in ordered(job, order)]


def numbers(job):
    """Numbers that the plan hasn't, with a plan that is begun."""
    most, steps = 2**64 - 1, [begun(job)]

    def refused(op, first, end):
        tasks = job.counts[op] if op < len(job.counts) else 0
        steps.append({**job.part(op, first, end), "line": f"error 20 op={op} tasks={tasks}", "leaves": job.kept(job.keys[:2])})

    for op in (len(job.counts), len(job.counts) + 1, 2**32, most):
        for first, end in ((0, 0), (0, 1), (1, 0), (most, most)):
            refused(op, first, end)
    for op, count in enumerate(job.counts):
        for first, end in ((0, count + 1), (1, 0), (count, 0), (count, count + 1), (count + 1, count + 1), (0, 2**32), (2**32, 2**32), (most, 0), (0, most), (most, most)):
            refused(op, first, end)
        for at in range(count + 1):
            steps.append({**job.part(op, at, at), "output": job.part_report(op, 0, 0), "leaves": job.kept(job.keys[:2])})
    return steps


def repeated(job):
    """Each part twice, and a chunk that is lost: what is there isn't started, what isn't is."""
    steps, held = [begun(job)], set(job.keys[:2])
    for part in whole_operations(job):
        for _ in range(2):
            step, held = job.answered(*part, held)
            steps.append(step)
    for op, first, end in whole_operations(job):
        for key in [key for at in range(first, end) for key in job.task(op, at).writes]:
            step, now = job.answered(op, first, end, held - {key})
            steps.append({"holds": [[key, None]], **step})
            assert now == held
    return [*steps, job.finished(held)]


def failing(job):
    """A task that fails as often as it is tried, and once less; with no further try; and a put that lands late."""
    steps, text = [begun(job)], {"leaves": job.kept(job.keys[:2])}
    part = (0, 0, job.counts[0])
    calls, starts, _ = job.part_calls(*part, set(job.keys[:2]))
    first = next(at for at, call in enumerate(calls) if call[0].startswith("error 10"))
    tasks = part[2]
    now = after(calls, len(calls), job.keys[:2])
    for times in (1, 2):
        steps.append({"holds": reset(job, job.keys[:2]), **job.part(*part), "fail_from": first, "fail_times": times, "output": job.part_report(0, tasks, starts + times, times), "leaves": job.kept(now)})
    steps.append({"holds": reset(job, job.keys[:2]), **job.part(*part), "fail_from": first, "fail_times": 3, "line": calls[first][0], **text})
    once = job.part(*part)
    once["words"] = [*once["words"], "--retries", "0"]
    steps.append({"holds": reset(job, job.keys[:2]), **once, "fail_from": first, "fail_times": 1, "line": calls[first][0], **text})
    steps.append({"holds": reset(job, job.keys[:2]), **once, "fail_from": 0, "fail_times": 1, "line": calls[0][0], **text})
    full = {"leaves": job.kept(now)}
    steps.append({"holds": reset(job, job.keys[:2]), **job.part(*part), "sink_fails_at": 0, "line": "error 12", **full})
    steps.append({"holds": reset(job, job.keys[:2]), **job.part(*part), "sink_room": 5, "line": "error 12", "output": "ok op", **full})
    steps.append({**job.part(*part), "source_fails_at": 0, "line": "error 11", **full})
    return steps


def unbegun(job):
    """No record, that of another plan, and a chunk of an input that is cut short."""
    part, steps = (0, 0, 1), []
    steps.append({**fresh(job), **job.called("plan"), "output": job.plan.lines(), "leaves": job.kept(())})
    steps.append({**job.part(*part), "line": "error 15", "leaves": job.kept(())})
    steps.append({**job.part(9, 5, 1), "line": "error 15", "leaves": job.kept(())})
    record = rules.compact(job.texts[job.value[job.record]["named"]])
    for other in stop_cases.others_of(record and job.texts[job.value[job.record]["named"]])[:4]:
        place = stop_cases.place_of(record.encode(), other.encode())
        held = [[job.record, other]]
        steps.append({"holds": held, **job.part(*part), "line": f"error 14 place={place}", "leaves": held})
    return steps


def cut_short(job):
    """A chunk of an input that is cut short ends a part; whole again, the part goes on."""
    task = job.task(0, 0)
    whole = dict((key, value) for key, value in job.inputs)
    key = task.reads[0]
    steps = [begun(job), {"holds": [[key, {"hex": "00"}]], **job.part(0, 0, job.counts[0]), "line": f"error 13 key={key} got=1 want={wanted(job, key)}",
                          "leaves": job.kept(job.keys[:2])}]
    step, held = job.answered(0, 0, job.counts[0], set(job.keys[:2]))
    return [*steps, {"holds": [[key, whole[key]]], **step}]


def wanted(job, key):
    """The bytes of a chunk of the input whose key this is."""
    name = key.split("/")[0]
    meta = next(meta for entry, meta in job.plan.metas.items() if entry == name)
    return rules.bytes_of(meta.dtype, meta.chunk)


# Jobs

def nothing():
    """A plan whose operations have no tasks."""
    arrays = {"a": stored("int32", [0], [4], []), "b": stored("int32", [0], [4], [])}
    text = expression(tables.ADDED)
    plan = tables.plan_over(text, arrays, 1600)
    return Parts(stop_cases.Job("none", tables.ran(arrays, text, 1600), plan, tables.tasks_of(plan), arrays))


def chain():
    """Three maps, of which the memory that is allowed keeps each by itself: the second reads the first, and the third both."""
    arrays = {"a": line_of("int32", [1, 2, 3, 4, 5, 6], 4)}
    nodes = [*inputs_of("a"), node("s", "add", "a", 1), node("t", "multiply", "s", 2), node("u", "subtract", "t", "s")]
    text = expression(nodes)
    plan = tables.plan_over(text, arrays, 1600)
    assert len(plan.made) == 3, plan.lines()
    return Parts(stop_cases.Job("chain", tables.ran(arrays, text, 1600), plan, tables.tasks_of(plan), arrays))


def cases_of(every):
    add, copy, search = Parts(stop_cases.addition()), Parts(stop_cases.copies()), Parts(stop_cases.rounds())
    links, none = chain(), nothing()
    jobs = [add, copy, search, links, none]
    pick = (lambda few: 1) if every else (lambda few: few)
    named = [("an addition", add), ("two copies", copy), ("a search in rounds", search), ("a chain of maps", links)]
    cases = [{"name": f"{name} is begun, each call failing", "steps": begin_steps(job)} for name, job in named[:2]]
    cases += [{"name": "a plan without tasks is begun, and its parts do nothing", "steps": without_tasks(none)}]
    for name, job in named:
        cases.append({"name": f"{name}, operation by operation, each call failing", "steps": stopped_parts(job, whole_operations(job), pick(3))})
        cases.append({"name": f"{name}, task by task, each call failing", "steps": stopped_parts(job, single_tasks(job), pick(5))})
        cases.append({"name": f"{name}, its operations in every order", "steps": all_orders(job, whole_operations(job))})
        cases.append({"name": f"{name}, each part twice, and chunks that are lost", "steps": repeated(job)})
    cases.append({"name": "an addition, its tasks in every order", "steps": all_orders(add, single_tasks(add))})
    cases.append({"name": "a chain of maps, its tasks in orders", "steps": all_orders(links, single_tasks(links), pick(37))})
    cases.append({"name": "two copies, their tasks in orders", "steps": all_orders(copy, single_tasks(copy), pick(5))})
    cases.append({"name": "numbers that a plan hasn't", "steps": numbers(links)})
    cases.append({"name": "a task that fails, and a sink and a source", "steps": failing(add)})
    cases.append({"name": "a plan that isn't begun", "steps": unbegun(add)})
    cases.append({"name": "a chunk of an input that is cut short", "steps": cut_short(add)})
    return jobs, cases


def without_tasks(job):
    steps = [begun(job)]
    for op in range(len(job.counts)):
        steps.append({**job.part(op, 0, 0), "output": job.part_report(op, 0, 0), "leaves": job.kept(job.keys)})
        steps.append({**job.part(op, 0, 1), "line": f"error 20 op={op} tasks=0", "leaves": job.kept(job.keys)})
    return [*steps, job.finished(set(job.keys))]


def main():
    every = len(sys.argv) > 1
    jobs, cases = cases_of(every)
    stop_cases.write("parts.json", jobs, cases, *sys.argv[1:])


if __name__ == "__main__":
    usage_if_asked(__doc__)
    main()
