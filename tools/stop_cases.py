#!/usr/bin/env python3
"""Writes resume_stops.json and failing_calls.json in crates/test_cases/data: runs over a folder that are stopped after each call, runs
that go on from there and are stopped after each call too, and each call that fails once, by one worker and by four.

usage: tools/stop_cases.py            the tables of the gate: all pairs of stops of the addition, and some of the rest
       tools/stop_cases.py FOLDER     all cases, some 3,500 calls; `tools/tables_by_stops.py` runs them

A folder tells nothing of its contents, so a run may go on there in a table. Its calls are numbered in the order of their making,
whichever worker makes them. Keys, records and counts come from compare/rules.py, bytes from NumPy, the order of one worker's tasks from
tools/worker.py. Of four workers the order is free, and each line that may come stands in the row. Nothing comes from the program.
"""
import os
import sys

TOP = os.path.dirname(os.path.dirname(os.path.realpath(__file__)))
sys.path.insert(0, f"{TOP}/tools")
import demo_cases  # noqa: E402
import elementwise_cases as tables  # noqa: E402
import reduction_cases  # noqa: E402
import rules  # noqa: E402
import worker  # noqa: E402
from elementwise_cases import ADDED, a_and_b, expression, inputs_of, line_of, node  # noqa: E402
from rechunk_cases import TWO_COPIES, small_grid  # noqa: E402
from rechunk_cases import tasks_of as copy_tasks  # noqa: E402
from said import usage_if_asked


class Job:
    """A text over arrays, its plan, and the calls by which it is carried out."""

    def __init__(self, label, row, plan, tasks, arrays):
        self.label, self.words, self.plan, self.tasks = label, row["words"][1:], plan, tasks
        self.inputs = tables.holds_of(arrays)
        self.names = [f"{entry['name']}/zarr.json" for entry in plan.expr["nodes"] if entry["op"] == "input"]
        record, metadata, zarray, *chunks = plan.keys_in_the_way()
        self.record, self.metadata, self.way, self.chunks = record, metadata, [record, metadata, zarray, *chunks], chunks
        self.value = {key: {"named": f"{label} {at}"} for at, (key, _) in enumerate(row["leaves"])}
        self.texts = {f"{label} {at}": value for at, (_, value) in enumerate(row["leaves"])}
        self.texts[label] = row["input"]
        self.keys = [record, metadata, *chunks]

    def report(self, starts, failed=0):
        return f"ok ops={len(self.plan.operations())} tasks={len(self.tasks)} starts={starts} failed={failed} peak={self.plan.peak()}\n"

    def called(self, command, workers=1):
        words = [command, *(["--workers", str(workers)] if workers > 1 else []), *self.words]
        return {"words": words, "input": {"named": self.label}}

    def kept(self, held):
        """Returns what each key of the plan holds where these are held."""
        return [[key, self.value[key] if key in held else None] for key in self.keys]

    def task_calls(self, held):
        """Returns the calls of the tasks that aren't done, by one worker: the line if it fails for good, and the key if it is a put."""
        found = [at for at, task in enumerate(self.tasks) if all(key in held for key in task.writes)]
        calls = []
        for task in worker.in_turn(self.tasks, found):
            line = f"error 10 op={task.op} task={task.number}"
            calls += [(line, None) for _ in task.reads] + [(line, key) for key in task.writes]
        return calls, len(self.tasks) - len(found)

    def run_calls(self):
        """Returns the calls of a run before its tasks."""
        return [(f"error 16 key={key}", None) for key in self.names + self.way] + [(f"error 16 key={key}", key) for key in (self.record, self.metadata)]

    def resume_calls(self, held):
        """Returns the calls of a run that goes on before its tasks."""
        calls = [(f"error 16 key={key}", None) for key in [*self.names, self.record, self.metadata, *self.chunks]]
        return calls + ([] if self.metadata in held else [(f"error 16 key={self.metadata}", self.metadata)])


def after(calls, count, held):
    """Returns the keys that are held if a run is stopped after so many of its calls."""
    return set(held) | {key for _, key in calls[:count] if key}


def addition():
    arrays, text = a_and_b(), expression(ADDED)
    plan = tables.plan_over(text, arrays, 1600)
    return Job("add", tables.ran(arrays, text, 1600), plan, tables.tasks_of(plan), arrays)


def copies():
    arrays = small_grid()
    from rechunk_cases import plan_over, ran
    plan = plan_over(arrays, TWO_COPIES, 16)
    return Job("copy", ran(arrays, TWO_COPIES, 16), plan, copy_tasks(plan), arrays)


def rounds():
    arrays = {"a": line_of("int16", [3, 1, 1, 1, 2], 2)}
    text = expression([*inputs_of("a"), node("r", "argmin", "a")])
    plan = reduction_cases.plan_over(text, arrays, reduction_cases.AMPLE, 0, 2)
    tasks = [worker.Task(at, task, reduction_cases.chunks_read(plan, 1, at, place), [plan.part_key(1, at, which, place) for which in range(len(step.arrays))])
             for at, step in enumerate(plan.steps[1]) for task, place in enumerate(step.places())]
    return Job("place", reduction_cases.ran(arrays, text, None, 2), plan, tasks, arrays)


# One worker: each answer and each key is known

def stopped(job, command, calls, count, held, starts):
    """A call that is stopped after so many calls, from what is held."""
    now = after(calls, count, held)
    ended = {"line": calls[count][0]} if count < len(calls) else {"output": job.report(starts)}
    return {**job.called(command), "fail_from": count, **ended, "leaves": job.kept(now)}, now


def reset(job, held):
    return [[key, None] for key in job.keys if key not in held]


def without_record(job, count):
    """A run that goes on where no record is held, stopped after so many calls."""
    asked = [*job.names, job.record]
    line = f"error 16 key={asked[count]}" if count < len(asked) else "error 15"
    return {**job.called("resume"), "fail_from": count, "line": line, "leaves": job.kept(())}


def pairs_after(job, count, every):
    """A run that is stopped after so many calls. From there a run that goes on is stopped after every so many of its calls, and goes on from
    there over a folder that no longer fails; with 0 it isn't stopped."""
    before = job.run_calls()
    calls, starts = job.task_calls(())
    first, held = stopped(job, "run", before + calls, count, (), starts)
    steps = [{"holds": job.inputs + reset(job, ()), **first}]
    if not held:
        steps += [without_record(job, at) for at in range(len(job.names) + 2)]
        return steps + [{**job.called("resume"), "line": "error 15", "leaves": job.kept(())}]
    calls, starts = job.task_calls(held)
    calls = job.resume_calls(held) + calls
    for at in [*range(0, len(calls), every), len(calls)] if every else [len(calls)]:
        second, then = stopped(job, "resume", calls, at, held, starts)
        left = job.task_calls(then)[1]
        steps += [{"holds": reset(job, held), **second}, {**job.called("resume"), "output": job.report(left), "leaves": job.kept(job.keys)}]
    return steps


def stop_cases(job, name, every=1, second=1):
    """A case for every so many calls after which the run is stopped. What a stop leaves is a front of the keys in their order: so the second
    stops are tried once for each such front, and for an addition each time."""
    before = job.run_calls()
    calls = before + job.task_calls(())[0]
    cases, seen = [], set()
    for count in range(0, len(calls) + 1, every):
        stored = len(after(calls, count, ()))
        again = second if stored not in seen or len(job.tasks) == 2 else 0
        cases.append({"name": f"{name}, stopped after {count} calls, and again", "steps": pairs_after(job, count, again)})
        seen.add(stored)
    return cases


# Four workers: the order of the tasks' calls is free

def lines_of(job):
    return [f"error 10 op={task.op} task={task.number}" for task in job.tasks]


def reports(job):
    return [job.report(starts) for starts in range(len(job.tasks) + 1)]


def loose(job):
    """What may be left where tasks ran in any order."""
    return {"leaves": [[key, job.value[key]] for key in (job.record, job.metadata)], "may_leave": [[key, job.value[key]] for key in job.chunks]}


def finished(job):
    """A run by four that goes on from any state, over a folder that doesn't fail."""
    whole = reports(job)
    return {**job.called("resume", 4), "output": whole[0], "or_outputs": whole[1:], "leaves": job.kept(job.keys)}


def stopped_by_four(job, command, before, count, total):
    """A call by four workers that is stopped after so many calls. The calls before the tasks have one order."""
    step = {**job.called(command, 4), "fail_from": count}
    if count < len(before):
        return {**step, "line": before[count][0]}
    return {**step, "line": "", "or_lines": lines_of(job), "output": "", "or_outputs": reports(job), **loose(job)}


def four_after(job, count, stride):
    before = job.run_calls()
    total = len(before) + len(job.task_calls(())[0])
    first = stopped_by_four(job, "run", before, count, total)
    held = after(before, count, ())
    if count < len(before):
        first["leaves"] = job.kept(held)
    elif count < total:
        first.update(line=lines_of(job)[0], or_lines=lines_of(job)[1:], or_outputs=[])
    else:
        first.update(output=job.report(len(job.tasks)), or_lines=[], or_outputs=[], leaves=job.kept(job.keys), may_leave=[])
    steps = [{"holds": job.inputs + reset(job, ()), **first}]
    if not held:
        return steps
    asked = job.resume_calls(held)
    most = len(asked) + total - len(before)
    for at in range(0, most + 1, stride):
        second = stopped_by_four(job, "resume", asked, at, most)
        if at < len(asked):
            second.update(loose(job))
            if self_made(job, held):
                second.update(leaves=[[job.record, job.value[job.record]], [job.metadata, None]])
        # A run that goes on changes what a next one finds: so each begins from the stop before it.
        steps += [{"holds": reset(job, held), **second}, finished(job)]
    return steps


def self_made(job, held):
    return job.metadata not in held


def four_cases(job, name, every=1, second=1):
    total = len(job.run_calls()) + len(job.task_calls(())[0])
    return [{"name": f"{name} by four, stopped after {count} calls, and again", "steps": four_after(job, count, second)} for count in range(0, total + 1, every)]


# Each call failing once

def once_by(job, workers, every=1):
    """A run and a run that goes on, of each of which every so many calls one fails once: they end with 0."""
    steps = []
    before = job.run_calls()
    total = len(before) + len(job.task_calls(())[0])
    for count in range(0, total, every):
        failed = int(count >= len(before))
        steps.append({"holds": (job.inputs if not steps else []) + reset(job, ()), **job.called("run", workers), "fail_from": count, "fail_times": 1,
                      "output": job.report(len(job.tasks) + failed, failed), "leaves": job.kept(job.keys)})
    for held in ([job.record], job.keys[:3]):
        asked = job.resume_calls(held)
        calls, starts = job.task_calls(held)
        for count in range(0, len(asked) + len(calls), every):
            failed = int(count >= len(asked))
            steps.append({"holds": reset(job, held), **job.called("resume", workers), "fail_from": count, "fail_times": 1,
                          "output": job.report(starts + failed, failed), "leaves": job.kept(job.keys)})
    return steps


def other_commands(job):
    """The commands that have one worker: each call fails once, and from each call on all fail."""
    loaded = {"name": "c", "data_type": "int32", "shape": [6], "chunk_shape": [4], "elements": [1, 2, 3, 4, 5, 6]}
    a = dict((key, value) for key, value in job.inputs)
    c = [["c/zarr.json", a["a/zarr.json"]], ["c/c/0", a["a/c/0"]], ["c/c/1", a["a/c/1"]]]
    order = ["c/c/0", "c/c/1", "c/zarr.json"]
    steps = [{"holds": job.inputs + reset(job, ()), **job.called("run"), "output": job.report(2), "leaves": job.kept(job.keys)}]
    load = ["_cubed/c/plan.json", "c/zarr.json", "c/.zarray", *order]
    for count, key in enumerate(load):
        gone = [[key, None] for key, _ in c]
        put = order[:max(0, count - 3)]
        steps += [{"holds": gone, "words": ["load"], "input": loaded, "fail_from": count, "line": f"error 16 key={key}",
                   "leaves": [[key, value if key in put else None] for key, value in c]},
                  {"holds": gone, "words": ["load"], "input": loaded, "fail_from": count, "fail_times": 1, "output": "ok elements=6 chunks=2\n", "leaves": c}]
    text = {"named": job.label}
    read = [("print", ["print", "y"], None, ["y/zarr.json", "y/c/0", "y/c/1"], "int32 shape [6] chunk [4]\n11 22 33 44 55 66\n"),
            ("check", ["check"], text, ["a/zarr.json", "b/zarr.json", "y/zarr.json", "a/c/0", "a/c/1", "b/c/0", "b/c/1", "y/c/0", "y/c/1"], "equal 6\n"),
            ("plan", ["plan", *job.words], text, ["a/zarr.json", "b/zarr.json"], job.plan.lines())]
    for _, words, told, keys, output in read:
        for count, key in enumerate(keys):
            call = {"words": words, **({"input": told} if told else {}), "fail_from": count}
            fronts = [] if words[0] != "print" else ["int32 shape [6] chunk [4]\n", "int32 shape [6] chunk [4]\n11 22 33 44", "int32 shape [6] chunk [4]\n11 22 33 44 "]
            steps += [{**call, "line": f"error 16 key={key}", "or_outputs": fronts if count else [], "leaves": job.kept(job.keys)},
                      {**call, "fail_times": 1, "output": output, "leaves": job.kept(job.keys)}]
    removed = [job.metadata, *job.chunks, job.record]
    for count, key in enumerate([*job.names, job.record, *removed]):
        gone = removed[:max(0, count - len(job.names) - 1)]
        full = [[key, job.value[key]] for key in job.keys]
        steps += [{"holds": full, **job.called("drop"), "fail_from": count, "line": f"error 16 key={key}", "leaves": job.kept([key for key in job.keys if key not in gone])},
                  {"holds": full, **job.called("drop"), "fail_from": count, "fail_times": 1, "output": f"ok keys={len(job.keys)}\n", "leaves": job.kept(())}]
    return steps


def dropped_and_resumed(job):
    """All tries to remove the last chunk fail, so the record stays; a run that goes on makes what was removed."""
    last = job.chunks[-1]
    before = len(job.names) + 1 + [job.metadata, *job.chunks].index(last)
    kept = [job.record, last]
    made = job.report(len(job.tasks) - 1)
    assert made == "ok ops=1 tasks=2 starts=1 failed=0 peak=1600\n"
    return {"name": "a plan is dropped but for a chunk, and the run goes on", "steps": [
        {"holds": job.inputs, **job.called("run"), "output": job.report(len(job.tasks)), "leaves": job.kept(job.keys)},
        {**job.called("drop"), "fail_from": before, "fail_times": 3, "line": f"error 16 key={last}", "leaves": job.kept(kept)},
        {**job.called("resume"), "output": made, "leaves": job.kept(job.keys)}]}


def place_of(text, other):
    """Returns the first byte at which two texts differ, or at which one of them ends."""
    return next((at for at, pair in enumerate(zip(text, other)) if pair[0] != pair[1]), min(len(text), len(other)))


def others_of(record):
    """Records that aren't this one: of another version, memory or metadata, cut off, and longer."""
    text = rules.compact(record)
    assert text.startswith('{"allowed":1600,"cubed":2,'), text
    changed = [text.replace('"cubed":2', f'"cubed":{version}') for version in ("1", "3", "0", "20", "-2", "null")]
    changed += [text.replace('"cubed":2,', ""), text.replace("1600", "1601", 1), text.replace("1600", "160", 1), text.replace('"reserved":0', '"reserved":1'),
                text.replace('"split_every":4', '"split_every":40'), text.replace('"split_every":4', '"split_every":5'), text.replace('"fill_value":0', '"fill_value":1', 1),
                text.replace('"add"', '"and"'), text.replace('"store_as":"y"', '"store_as":"z"'), text[:-1], text[:1], "", text + " ", text + text, "[" + text[1:]]
    return [other for other in changed if other != text]


def other_records(job):
    """Both commands that look for the record find another one, named by its first byte that differs; nothing is changed."""
    record = job.texts[job.value[job.record]["named"]]
    text, steps = rules.compact(record), []
    for other in others_of(record):
        for words in (job.called("resume"), job.called("drop")):
            place = place_of(text.encode(), other.encode())
            steps.append({"holds": (job.inputs if not steps else []) + [[job.record, other]], **words, "line": f"error 14 place={place}",
                          "leaves": [[job.record, other], *[[key, None] for key in job.keys[1:]]]})
    assert steps[0]["line"] == "error 14 place=24" and any(step["line"] == "error 14 place=14" for step in steps)
    return {"name": "records of other plans are refused at their place", "steps": steps}


def streams_of(job, workers):
    """A run that goes on whose source or sink fails: the text, its end, and the report. A third read isn't made, nor a second write."""
    held = [job.record]
    call = {"holds": reset(job, held), **job.called("resume", workers)}
    whole = {"output": job.report(2), "leaves": job.kept(job.keys)}
    return [*[{**call, "source_fails_at": at, "line": "error 11", "leaves": job.kept(held)} for at in (0, 1)], {**call, "source_fails_at": 2, **whole},
            {**call, "sink_fails_at": 0, "line": "error 12", "leaves": job.kept(job.keys)}, {**call, "sink_room": 5, "line": "error 12", "output": "ok op", "leaves": job.kept(job.keys)}]


def demonstrated(workers, every=1):
    """A demonstration whose tasks follow one another: every so many calls one fails once, and from there on all fail."""
    demo = demo_cases.small()
    keys = [key for key, _ in demo["leaves"]]
    asked = [key for name in ("demo_a", "demo_b", "demo_y") for key in (f"_cubed/{name}/plan.json", f"{name}/zarr.json", f"{name}/.zarray")] + keys[6:]
    calls = [(f"error 16 key={key}", None) for key in asked] + [(f"error 16 key={key}", key) for key in keys[:6]]
    for op, reads in enumerate([1, 3, 1, 1]):
        line = f"error 10 op={op} task=0"
        calls += [(line, None)] * reads + [(line, keys[6 + op])]
    calls.append(("error 16 key=demo_y/c", None))
    steps = []
    for at in range(0, len(calls), every):
        line, held = calls[at][0], after(calls, at, ())
        call = {"holds": [[key, None] for key in keys], "words": ["demo", "4", "--workers", str(workers)], "fail_from": at}
        again = demo["output"].replace("starts=4 failed=0", "starts=5 failed=1") if "error 10" in line else demo["output"]
        steps += [{**call, "line": line, "leaves": [[key, value if key in held else None] for key, value in demo["leaves"]]},
                  {**call, "fail_times": 1, "output": again, "leaves": demo["leaves"]}]
    return {"name": f"a demonstration by {workers}, each call failing once and for good", "steps": steps}


# Writing

def members(texts):
    return "{\n" + ",\n".join(f"  {rules.json.dumps(name)}: {rules.json.dumps(value)}" for name, value in texts.items()) + "}"


def text_of_case(case, dumped):
    """Returns a case as text, with a line for each step. What most steps say alike stands in the case."""
    said = {}
    for name in ("words", "input", "leaves"):
        found = [dumped(step[name]) for step in case["steps"] if name in step]
        if len(found) == len(case["steps"]):
            said[name] = max(dict.fromkeys(found), key=found.count)
    steps = [{name: value for name, value in step.items() if said.get(name) != dumped(value)} for step in case["steps"]]
    shared = "".join(f' {dumped(name)}: {value},\n' for name, value in said.items())
    return f'{{"name": {dumped(case["name"])},\n{shared} "steps": {tables.joined(map(dumped, steps), "  ")}}}'


def write(file, jobs, cases, folder=f"{TOP}/crates/test_cases/data"):
    texts = {name: value for job in jobs for name, value in job.texts.items()}
    lines = [text_of_case(case, rules.json.dumps) for case in cases]
    with open(f"{folder}/{file}", "w", encoding="ascii") as out:
        out.write(f'{{\n"kind": "folder",\n"texts": {members(texts)},\n"cases": {tables.joined(lines, "")}\n}}\n')


def named_once(job, name, workers, every=1):
    return {"name": f"{name} by {workers}, each call failing once", "steps": once_by(job, workers, every)}


def streams(job):
    steps = [{"holds": job.inputs + [[job.record, job.value[job.record]]], **job.called("plan"), "output": job.plan.lines(), "leaves": []}]
    return {"name": "a source and a sink that fail where a run goes on", "steps": [*steps, *streams_of(job, 1), *streams_of(job, 4)]}


def of_the_gate(add, copy, search):
    """What a minute of the gate has room for: a folder syncs each file."""
    stops = [other_records(add), *stop_cases(add, "an addition"), *stop_cases(copy, "two copies", 4, 11), *stop_cases(search, "a search in rounds", 5, 13),
             *four_cases(add, "an addition", 1, 9), *four_cases(copy, "two copies", 7, 17), *four_cases(search, "a search in rounds", 10, 19)]
    calls = [named_once(add, "an addition", 1), named_once(add, "an addition", 4), named_once(copy, "two copies", 4, 5), named_once(search, "a search in rounds", 4, 7),
             streams(add), demonstrated(4, 3), {"name": "the other commands, each call failing once and for good", "steps": other_commands(add)}, dropped_and_resumed(add)]
    return stops, calls


def of_all(add, copy, search):
    jobs = ((add, "an addition"), (copy, "two copies"), (search, "a search in rounds"))
    stops = [other_records(add)] + [case for job, name in jobs for case in stop_cases(job, name)]
    stops += [case for (job, name), second in zip(jobs, (1, 5, 5)) for case in four_cases(job, name, 1, second)]
    calls = [named_once(job, name, workers) for job, name in jobs for workers in (1, 2, 4)]
    return stops, [*calls, streams(add), demonstrated(1), demonstrated(4), {"name": "the other commands, each call failing once and for good", "steps": other_commands(add)},
                   dropped_and_resumed(add)]


def main():
    jobs = [addition(), copies(), rounds()]
    if len(sys.argv) > 1:
        stops, calls = of_all(*jobs)
        write("resume_stops.json", jobs, stops, sys.argv[1])
        write("failing_calls.json", jobs, calls, sys.argv[1])
    else:
        stops, calls = of_the_gate(*jobs)
        write("resume_stops.json", jobs, stops)
        write("failing_calls.json", jobs, calls)


if __name__ == "__main__":
    usage_if_asked(__doc__)
    main()
