#!/usr/bin/env python3
"""Writes gates.json and gates_folder.json in crates/test_cases/data: runs by several workers with a gate that holds tasks until others have
come. So they show that tasks run at once, that a task starts before the operation before it is done, and second copies.

usage: tools/gate_cases.py

A case fails if a task gives up at the gate, and if one that is awaited doesn't come. So one thread that runs all tasks in turn is found out. Keys, records and counts
come from compare/rules.py, bytes from NumPy. Nothing comes from the program.
"""
import os
import sys

TOP = os.path.dirname(os.path.dirname(os.path.realpath(__file__)))
sys.path.insert(0, f"{TOP}/tools")
import elementwise_cases as tables  # noqa: E402
import reduction_cases  # noqa: E402
import stop_cases  # noqa: E402
from elementwise_cases import ADDED, DOUBLED, a_and_b, expression, line_of, ran, six  # noqa: E402
from said import usage_if_asked


def by(workers, row, hold=(), until=(), backups=False):
    """A row by so many workers that holds tasks until others have come: each an operation, a number and how often."""
    words = [row["words"][0], "--workers", str(workers), *(["--backups", "1"] if backups else []), *row["words"][1:]]
    return {**row, "words": words, "hold": [list(task) for task in hold], "until": [[*task, 1][:3] for task in until]}


def starts(row, most):
    """The outputs of a row with more starts, up to so many."""
    least = int(row["output"].split(" starts=")[1].split(" ")[0])
    return [row["output"].replace(f" starts={least} ", f" starts={count} ") for count in range(least, most + 1)]


def sixteen():
    return {"a": line_of("int32", list(range(1, 17))), "b": line_of("int32", [10] * 16)}


def meeting_rows():
    two, four = ran(a_and_b(), expression(ADDED), 1600), ran(sixteen(), expression(ADDED), 1600)
    assert four["output"] == "ok ops=1 tasks=4 starts=4 failed=0 peak=1600\n" and ["y/c/3", {"hex": "17000000 18000000 19000000 1a000000"}] in four["leaves"]
    first, second, all_four = (0, 0), (0, 1), [(0, task) for task in range(4)]
    return [by(2, two, [first], [second]), by(2, two, [second], [first]), by(2, two, [first, second], [first, second]), by(4, four, all_four, all_four),
            by(3, four, all_four[:3], all_four[:3]), by(64, four, all_four, all_four)]


def search():
    """A search for a place in rounds: three tasks, then two, then one."""
    array = {"a": line_of("int32", [3, 1, 1, 1, 2], 2)}
    return reduction_cases.ran(array, expression([*tables.inputs_of("a"), tables.node("r", "argmin", "a")]), None, 2)


def overlap_rows():
    """A task of the second operation has come while one of the first is held, which isn't done."""
    doubled = ran(a_and_b(), expression(DOUBLED), 1600)
    assert doubled["output"] == "ok ops=2 tasks=4 starts=4 failed=0 peak=1600\n"
    return [by(2, doubled, [(0, 1)], [(1, 0)]), by(2, doubled, [(0, 0)], [(1, 1)]), by(3, search(), [(0, 2)], [(1, 0)]), by(3, search(), [(0, 0), (0, 1), (0, 2)], [(0, 0), (0, 1), (0, 2)])]


def backup_rows():
    """Second copies: without a gate there may be one, with a gate that waits for it there is. Both tasks get one where there are four workers."""
    two, four = ran(a_and_b(), expression(ADDED), 1600), sixteen()
    one = ran({"a": six([1, 2, 3, 4, 5, 6]), "b": six([10, 20, 30, 40, 50, 60])}, expression(ADDED), 1600)
    free = by(2, two, backups=True)
    rows = [{**free, "or_outputs": starts(two, 3)[1:]}]
    for held in ((0, 0), (0, 1)):
        rows.append({**by(2, one, [held], [(*held, 2)], True), "output": starts(one, 3)[-1]})
    both = [(0, 0), (0, 1)]
    rows.append({**by(4, one, both, [(*task, 2) for task in both], True), "output": starts(one, 4)[-1]})
    wide = ran(four, expression(ADDED), 1600)
    some = starts(wide, 8)[1:]
    rows.append({**by(5, wide, [(0, 3)], [(0, 3, 2)], True), "output": some[0], "or_outputs": some[1:]})
    return rows


def gone_on():
    """Over a folder: a run that goes on by several workers, whose two tasks meet; and one that overlaps."""
    job = stop_cases.addition()
    two = [[0, 0], [0, 1]]
    once = [[*task, 1] for task in two]
    steps = [{"holds": job.inputs, **job.called("run", 2), "hold": two, "until": once, "output": job.report(2), "leaves": job.kept(job.keys)},
             {"holds": stop_cases.reset(job, [job.record]), **job.called("resume", 2), "hold": two, "until": once, "output": job.report(2), "leaves": job.kept(job.keys)},
             {**job.called("resume", 4), "output": job.report(0), "leaves": job.kept(job.keys)}]
    backups = {**job.called("resume", 2), "output": job.report(3), "leaves": job.kept(job.keys)}
    backups["words"] = ["resume", "--backups", "1", *backups["words"][1:]]
    steps.append({"holds": stop_cases.reset(job, [job.record]), **backups, "hold": [[0, 0]], "until": [[0, 0, 2]]})
    return job, steps


def main():
    tables.write("gates.json", [
        {"name": "tasks that wait for one another meet", "rows": meeting_rows()},
        {"name": "a task starts before the operation before it is done", "rows": overlap_rows()},
        {"name": "second copies", "rows": backup_rows()}])
    job, steps = gone_on()
    stop_cases.write("gates_folder.json", [job], [{"name": "tasks of a run that goes on in a folder meet", "steps": steps}])


if __name__ == "__main__":
    usage_if_asked(__doc__)
    main()
