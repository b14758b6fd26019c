#!/usr/bin/env python3
"""Writes late_puts.json in crates/test_cases/data: runs over a folder of which one put fails and lands after 0 to 6 further calls, and runs
that go on from there.

usage: tools/late_cases.py            the table of the gate: each put of the addition, and some of the rest
       tools/late_cases.py FOLDER     all puts; `tools/tables_by_stops.py` runs them

A run without retries ends with the put that fails, so the late put lands before the call of that number of the run that goes on, or of
the next one where that ends sooner. A run with retries goes on itself, and a put that is made again may land twice. What each call of one
worker finds follows from its number. Of four workers each line that may come stands in the row. Nothing comes from the program.
"""
import sys

import stop_cases as stops
from said import usage_if_asked

WAITS = range(7)


def without_retries(job, command, workers=1):
    call = job.called(command, workers)
    return {**call, "words": [command, "--retries", "0", *call["words"][1:]]}


def goes_on(job, held, key, wait):
    """A run that goes on, of which the late put of this key lands before the call of this number; the key is None where nothing is late.
    Returns the step, what is held then, and how many calls more the late put waits for, or None where it has landed."""
    asked = [*job.names, job.record, job.metadata, *job.chunks]
    found = {name for at, name in enumerate(asked) if name in held or (name == key and wait <= at)}
    step = job.called("resume")
    if job.record not in found:
        made = len(job.names) + 1
        then = set(held) | ({key} if key and wait < made else set())
        left = wait - made if key and wait >= made else None
        return {**step, "line": "error 15", "leaves": job.kept(then)}, then, left
    calls, starts = job.task_calls(found)
    made = len(asked) + (job.metadata not in found) + len(calls)
    assert key is None or wait < made, "a late put that is late at the end would be late in the next row"
    return {**step, "output": job.report(starts), "leaves": job.kept(job.keys)}, set(job.keys), None


def ended_by(job, count, wait):
    """A run that ends with the put of this number, which lands after so many calls of the runs that go on from there."""
    calls = job.run_calls() + job.task_calls(())[0]
    line, key = calls[count]
    held = stops.after(calls, count, ())
    steps = [{"holds": stops.reset(job, ()), **without_retries(job, "run"), "fail_from": count, "land": wait, "line": line, "leaves": job.kept(held)}]
    while True:
        step, held, left = goes_on(job, held, key, wait)
        steps.append(step)
        if "output" in step:
            return steps
        key, wait = (key, left) if left is not None else (None, 0)


def made_twice(job, count, wait):
    """A run of which one put fails once and is made again, so that it may land before that or after it; and a run that goes on."""
    failed = int(count >= len(job.run_calls()))
    after = len(job.run_calls() + job.task_calls(())[0]) - count + len(job.names) + len(job.keys)
    assert wait < after, "a late put that is late at the end would be late in the next row"
    return [{"holds": stops.reset(job, ()), **job.called("run"), "fail_from": count, "fail_times": 1, "land": wait,
             "output": job.report(len(job.tasks) + failed, failed), "leaves": job.kept(job.keys)},
            {**job.called("resume"), "output": job.report(0), "leaves": job.kept(job.keys)}]


def puts_of(job):
    return [at for at, (_, key) in enumerate(job.run_calls() + job.task_calls(())[0]) if key]


def case_of(job, name, steps):
    """A case whose first step has the inputs, which no step changes."""
    first, *others = steps
    return {"name": name, "steps": [{**first, "holds": job.inputs + first["holds"]}, *others]}


def each_put(job, name, every=1, waits=WAITS):
    """Two cases for every so many puts, and for the last one."""
    puts, cases = puts_of(job), []
    for number, count in enumerate(puts):
        if number % every and count != puts[-1]:
            continue
        for steps_of, what in ((ended_by, "ends a run"), (made_twice, "is made again")):
            steps = [step for wait in waits for step in steps_of(job, count, wait)]
            cases.append(case_of(job, f"{name}, put {number} fails and {what}, and lands late", steps))
    return cases


def by_four(job, name, every, waits):
    """Four workers: from every so many calls of the tasks on each call fails, and the first put among them lands late."""
    before = len(job.run_calls())
    lines, cases = stops.lines_of(job), []
    for count in range(before, before + len(job.task_calls(())[0]), every):
        steps = []
        for wait in waits:
            steps += [{"holds": stops.reset(job, ()), **without_retries(job, "run", 4), "fail_from": count, "land": wait,
                       "line": lines[0], "or_lines": lines[1:], **stops.loose(job)}, stops.finished(job), {**stops.finished(job), "output": job.report(0), "or_outputs": []}]
        cases.append(case_of(job, f"{name} by four, the first put from call {count} on fails and lands late", steps))
    return cases


def main():
    jobs = add, copy, search = stops.addition(), stops.copies(), stops.rounds()
    if len(sys.argv) > 1:
        named = list(zip(jobs, ("an addition", "two copies", "a search in rounds")))
        cases = [case for job, name in named for case in each_put(job, name)] + [case for job, name in named for case in by_four(job, name, 1, WAITS)]
        stops.write("late_puts.json", jobs, cases, sys.argv[1])
        return
    cases = [*each_put(add, "an addition"), *each_put(copy, "two copies", 9), *each_put(search, "a search in rounds", 6),
             *by_four(add, "an addition", 2, (0, 3, 6)), *by_four(copy, "two copies", 23, (1, 4)), *by_four(search, "a search in rounds", 9, (2, 5))]
    stops.write("late_puts.json", jobs, cases)


if __name__ == "__main__":
    usage_if_asked(__doc__)
    main()
