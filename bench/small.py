#!/usr/bin/env python3
"""Adds two int32 arrays of 2^22 elements in 16,384 chunks of 1 KiB, for what a small task costs beside its bytes.

  small.py [--program FILE] [--dir FOLDER].. [--runs N] [--workers N..] [--calls] [--absent] [--profile]

It prints the microseconds a task, by the clock and split into those of the processor in the program and in the system: of the best of
the rounds, with one worker and with four. One worker comes first in one round and last in the next. It looks at the result's chunks.
In memory, if there is a folder in memory, and else on the disk. With --calls it counts the system's calls a task by strace too, and with
--profile the instructions a task by callgrind, function by function: in runs of their own, which aren't timed. With --absent it tells
what a task costs where no chunk of the second input is there, of 2,048 tasks and of 8,192: that should be the same, and less.
"""
import array
import json
import os
import re
import resource
import shutil
import statistics
import subprocess
import sys
import tempfile
import time

sys.dont_write_bytecode = True
from measured import words_of
from stored import folders, metadata, put, see_that_it_is_built

TASKS, ELEMENTS = 1 << 14, 1 << 8
INPUTS = {"a": 1, "b": 10}
EXPRESSION = json.dumps({
    "nodes": [{"id": "a", "op": "input", "name": "a"}, {"id": "b", "op": "input", "name": "b"},
              {"id": "s", "op": "add", "args": ["a", "b"]}],
    "out": "s", "store_as": "y"})


def chunk_of(number):
    return array.array("I", [number] * ELEMENTS).tobytes()


def make_inputs(folder, tasks=TASKS, absent=""):
    for name, number in INPUTS.items():
        put(os.path.join(folder, name, "zarr.json"), metadata("int32", [tasks * ELEMENTS], [ELEMENTS]).encode())
        os.makedirs(os.path.join(folder, name, "c"))
        for task in range(0 if name in absent else tasks):
            with open(os.path.join(folder, name, "c", str(task)), "wb") as file:
                file.write(chunk_of(number))


def clear(folder):
    for made in ("y", "_cubed"):
        shutil.rmtree(os.path.join(folder, made), ignore_errors=True)
    os.sync()


def command(program, folder, workers):
    return [program, folder, "run", *(["--workers", str(workers)] if workers > 1 else [])]


def see_that_it_is_right(folder):
    whole = chunk_of(sum(INPUTS.values()))
    for task in range(TASKS):
        with open(os.path.join(folder, "y", "c", str(task)), "rb") as file:
            if file.read() != whole:
                raise SystemExit(f"chunk {task} of the result is wrong")


def spent(words, tasks=TASKS):
    """Runs a command over the expression: the microseconds a task by the clock, in the program and in the system, and what it printed."""
    before = resource.getrusage(resource.RUSAGE_CHILDREN)
    start = time.perf_counter()
    ran = subprocess.run(words, input=EXPRESSION, stdout=subprocess.PIPE, text=True, check=True)
    taken = time.perf_counter() - start
    after = resource.getrusage(resource.RUSAGE_CHILDREN)
    user, system = after.ru_utime - before.ru_utime, after.ru_stime - before.ru_stime
    return tuple(1e6 * seconds / tasks for seconds in (taken, user, system)), ran.stdout.strip()


def show(workers, runs):
    (clock, user, system), report = min(runs)
    median = statistics.median(each[0][0] for each in runs)
    print(f"  {TASKS} tasks of {4 * ELEMENTS} bytes, {workers} worker{'s' * (workers > 1)}: {clock:.1f} us a task (median {median:.1f}; processor:"
          f" {user:.1f} us in the program, {system:.1f} us in the system): {report}", flush=True)


def measure_small(program, parent, rounds, crews):
    """Prints what a small task costs with each of these numbers of workers. Returns the least microseconds of each."""
    with tempfile.TemporaryDirectory(dir=parent, prefix="cubed-bench-") as folder:
        make_inputs(folder)
        runs = {workers: [] for workers in crews}
        for number in range(rounds):
            for workers in crews[::1 if number % 2 == 0 else -1]:
                clear(folder)
                runs[workers].append(spent(command(program, folder, workers)))
                if number == 0:
                    see_that_it_is_right(folder)
        for workers in crews:
            show(workers, runs[workers])
        least = {workers: min(runs[workers])[0][0] for workers in crews}
        for workers in crews[1:]:
            print(f"  {workers} workers beside {crews[0]}: {least[crews[0]] / least[workers]:.2f} times as fast", flush=True)
        return least


def count_calls(program, parent, workers):
    """Prints how often a run calls each call of the system, a task."""
    with tempfile.TemporaryDirectory(dir=parent, prefix="cubed-bench-") as folder, tempfile.NamedTemporaryFile("r") as told:
        make_inputs(folder)
        subprocess.run(["strace", "-f", "-c", "-o", told.name, *command(program, folder, workers)], input=EXPRESSION, stdout=subprocess.PIPE, text=True, check=True)
        rows = [line.split() for line in told.read().splitlines()]
        counts = {row[-1]: int(row[3]) for row in rows if len(row) >= 5 and row[3].isdigit() and row[-1] != "total"}
        often = {call: count / TASKS for call, count in counts.items() if count >= TASKS / 8}
        print(f"  calls of the system a task, {workers} worker{'s' * (workers > 1)}: " + ", ".join(f"{call} {count:.2f}" for call, count in sorted(often.items()))
              + f"; {sum(often.values()):.2f} in all", flush=True)


def measure_absent(program, parent, rounds):
    """Prints what a task costs where no chunk of the second input is there, beside what it costs where all are."""
    for tasks in (1 << 11, 1 << 13):
        for absent in ("", "b"):
            with tempfile.TemporaryDirectory(dir=parent, prefix="cubed-bench-") as folder:
                make_inputs(folder, tasks, absent)
                runs = []
                for _ in range(rounds):
                    clear(folder)
                    runs.append(spent(command(program, folder, 1), tasks)[0])
            clock, user, system = min(runs)
            print(f"  {tasks} tasks, {'no chunk of the second input' if absent else 'all chunks there'}: {clock:.1f} us a task"
                  f" ({user:.1f} us in the program, {system:.1f} us in the system)", flush=True)


def instructions(program, parent, tasks):
    """The instructions of a run of so many tasks, by the functions in which they stand."""
    with tempfile.TemporaryDirectory(dir=parent, prefix="cubed-bench-") as folder:
        make_inputs(folder, tasks)
        out = os.path.join(folder, "callgrind.out")
        subprocess.run(["valgrind", "--tool=callgrind", f"--callgrind-out-file={out}", *command(program, folder, 1)], input=EXPRESSION, capture_output=True, text=True, check=True)
        told = subprocess.run(["callgrind_annotate", "--threshold=100", "--show-percs=no", out], capture_output=True, text=True, check=True).stdout
    found = {}
    for count, name in re.findall(r"^ *([\d,]+) +(\S.*)$", told, re.M):
        name = re.sub(r" *\[[^]]*\]$", "", name).partition(":")[2] or name
        found[name] = found.get(name, 0) + int(count.replace(",", ""))
    return found


def profile(program, parent):
    """Prints the instructions a task, as the difference of two runs, and the functions that have most of them."""
    few, many = (instructions(program, parent, tasks) for tasks in (500, 1500))
    each = {name: (many[name] - few.get(name, 0)) / 1000 for name in many}
    total = sum(count for name, count in each.items() if "TOTALS" in name)
    print(f"  instructions a task: {total:.0f}")
    for name, count in sorted(each.items(), key=lambda row: -row[1])[:40]:
        print(f"  {count:10.0f}  {name[:120]}")


def main():
    words = words_of(__doc__)
    words.add_argument("--workers", type=int, nargs="+", default=[1, 4], help="how many workers, as many numbers as wanted")
    words.add_argument("--calls", action="store_true", help="count the system's calls too")
    words.add_argument("--absent", action="store_true", help="measure absent chunks too")
    words.add_argument("--profile", action="store_true", help="count the instructions too")
    given = words.parse_args()
    program = os.path.abspath(given.program)
    see_that_it_is_built(program)
    for parent in given.dir or folders()[:1]:
        print(f"in {parent}, {os.cpu_count()} processors, load {os.getloadavg()[0]:.1f}, the best of {given.runs} runs:", flush=True)
        measure_small(program, parent, given.runs, given.workers)
        for workers in given.workers if given.calls else []:
            count_calls(program, parent, workers)
        if given.absent:
            measure_absent(program, parent, given.runs)
        if given.profile:
            profile(program, parent)


if __name__ == "__main__":
    main()
