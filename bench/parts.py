#!/usr/bin/env python3
"""Computes a plan in parts by several processes, and by one process with as many workers, in one run; what one part costs; and a model.

  parts.py [--program FILE] [--dir FOLDER] [--runs N] [--processes N] [--tasks N] [--part N] [--only WORD..]

  plan    `negative` over chunks of 1 MiB: `begin`, parts of so many tasks by `xargs -P`, `resume`; beside it `run --workers`.
          Which comes first changes at each round, and both results are compared. The aim: parts take at most 1.15 of the run's time.
  part    what a part costs beside its look-ups and its tasks (start, reading the text, planning): a part of no task, over an expression of
          256 nodes and over a plan of 65,536 tasks. The aim: at most 5 ms each.
  model   1,000 workers over 65,536 tasks, whose times are those of the parts of `plan` (or 50 to 150 ms where these weren't run): a map, a
          fold over it, and merges of 4. It says what part of the time the workers wait, if one operation follows another, and if a
          part starts as soon as the tasks that it reads are done.

All chunks of the input are hard links to 64 files, so that the input takes 64 MiB.
"""
import heapq
import json
import os
import random
import shutil
import statistics
import subprocess
import sys
import tempfile
import time

sys.dont_write_bytecode = True
from measured import in_memory, words_of
from stored import MIB, metadata, put, see_that_it_is_built

PLAN_AIM, PART_AIM = 1.15, 0.005
FILES = 64


def make_input(folder, tasks, size):
    """Stores an array of so many chunks, each a hard link to one of a few files."""
    put(os.path.join(folder, "a", "zarr.json"), metadata("int8", [tasks * size], [size]).encode())
    top = os.path.join(folder, "a", "c")
    for at in range(min(FILES, tasks)):
        put(os.path.join(top, str(at)), bytes([(at + 1) % 128]) * size)
    for at in range(FILES, tasks):
        os.link(os.path.join(top, str(at % FILES)), os.path.join(top, str(at)))


def text_of(nodes):
    given = [{"id": "a", "op": "input", "name": "a"}]
    return json.dumps({"nodes": given + nodes, "out": nodes[-1]["id"], "store_as": "y"}).encode()


def call(program, folder, text, *words):
    ran = subprocess.run([program, folder, *words], input=text, stdout=subprocess.PIPE, check=False)
    if ran.returncode:
        raise SystemExit(f"{' '.join(words)} ended with status {ran.returncode}")
    return ran.stdout.decode()


def remove_result(folder):
    for name in ("y", "_cubed"):
        shutil.rmtree(os.path.join(folder, name), ignore_errors=True)


# One part by a shell: the program, the folder, the text's file, how many tasks, and the first.
ONE_PART = 'exec "$1" "$2" part --op 0 --from "$5" --to "$(($5 + $4))" < "$3"'


def by_parts(given, folder, text):
    """The seconds of begin, of the parts by `xargs`, and of resume; and those of a part."""
    with tempfile.NamedTemporaryFile(dir=given.dir) as file:
        file.write(text)
        file.flush()
        start = time.perf_counter()
        call(given.program, folder, text, "begin")
        begun = time.perf_counter()
        firsts = "\n".join(map(str, range(0, given.tasks, given.part)))
        words = ["xargs", "-P", str(given.processes), "-n", "1", "sh", "-c", ONE_PART, "sh", given.program, folder, file.name, str(given.part)]
        subprocess.run(words, input=firsts.encode(), stdout=subprocess.DEVNULL, check=True)
        ended = time.perf_counter()
        told = call(given.program, folder, text, "resume")
        taken = time.perf_counter() - start
    if " starts=0 " not in told:
        raise SystemExit(f"a task was left: {told}")
    return taken, [(ended - begun) * given.processes / (given.tasks // given.part)]


def by_workers(given, folder, text):
    start = time.perf_counter()
    call(given.program, folder, text, "run", "--workers", str(given.processes))
    return time.perf_counter() - start


def is_right(folder, tasks):
    """Whether each chunk of the result is the negative of its input's."""
    wanted = {at: bytes([(256 - (at + 1) % 128) % 256]) * MIB for at in range(min(FILES, tasks))}
    for at in range(tasks):
        with open(os.path.join(folder, "y", "c", str(at)), "rb") as file:
            if file.read() != wanted[at % FILES]:
                return False
    return True


def plan(given, folder):
    make_input(folder, given.tasks, MIB)
    text = text_of([{"id": "n", "op": "negative", "args": ["a"]}])
    seconds = {"parts": [], "workers": []}
    own = []
    for number in range(given.runs):
        for way in ("parts", "workers")[:: 1 if number % 2 == 0 else -1]:
            remove_result(folder)
            if way == "parts":
                taken, told = by_parts(given, folder, text)
                own += told
            else:
                taken = by_workers(given, folder, text)
            seconds[way].append(taken)
            if not is_right(folder, given.tasks):
                raise SystemExit(f"{way}: the result is wrong")
    remove_result(folder)
    least = {way: min(told) for way, told in seconds.items()}
    ratio = least["parts"] / least["workers"]
    print(f"{given.tasks} tasks of 1 MiB: {given.processes} processes in parts of {given.part} {least['parts']:.3f} s, "
          f"run --workers {given.processes} {least['workers']:.3f} s, ratio {ratio:.2f} (aim {PLAN_AIM})", flush=True)
    return own


def cost_of_a_part(given, folder, name, text):
    remove_result(folder)
    call(given.program, folder, text, "begin")
    words = ("part", "--op", "0", "--from", "0", "--to", "0")
    told = []
    for _ in range(20 * given.runs):
        start = time.perf_counter()
        call(given.program, folder, text, *words)
        told.append(time.perf_counter() - start)
    remove_result(folder)
    print(f"a part of no task, {name}: least {1000 * min(told):.1f} ms, median {1000 * statistics.median(told):.1f} ms "
          f"(aim {1000 * PART_AIM:.0f})", flush=True)


def part(given, folder):
    make_input(folder, 4, 1024)
    chain = [{"id": "n0", "op": "negative", "args": ["a"]}]
    chain += [{"id": f"n{at}", "op": "negative", "args": [f"n{at - 1}"]} for at in range(1, 255)]
    cost_of_a_part(given, folder, "256 nodes", text_of(chain))
    shutil.rmtree(os.path.join(folder, "a"))
    make_input(folder, 65536, 16)
    cost_of_a_part(given, folder, "65,536 tasks", text_of([{"id": "n", "op": "negative", "args": ["a"]}]))
    shutil.rmtree(os.path.join(folder, "a"))


# A model of many workers

def parts_between(first, end, size):
    return [(at, min(at + size, end)) for at in range(first, end, size)]


def operations():
    """Counts of tasks, and which tasks of the one before a task reads: a map, a fold, and merges of 4."""
    counts = [65536, 65536]
    while counts[-1] > 1:
        counts.append(-(-counts[-1] // 4))
    reads = [lambda at: range(0), lambda at: range(at, at + 1)]
    reads += [lambda at: range(4 * at, 4 * at + 4)] * (len(counts) - 2)
    return counts, reads


def waited(workers, size, seconds, one_by_one):
    """The part of the time that workers wait. A part of `size` tasks starts when a worker is free and what it reads is done."""
    counts, reads = operations()
    chance = random.Random(1)
    free = [0.0] * workers
    heapq.heapify(free)
    done, busy, before = [], 0.0, []
    for count, read in zip(counts, reads):
        all_done, now = max(done, default=0.0), [0.0] * count
        ready = []
        for first, end in parts_between(0, count, size):
            needs = [before[of] for at in range(first, end) for of in read(at) if of < len(before)]
            ready.append((all_done if one_by_one else max(needs, default=0.0), first, end))
        for at, first, end in sorted(ready):
            start = max(at, heapq.heappop(free))
            taken = chance.choice(seconds) * (end - first) / size
            busy += taken
            heapq.heappush(free, start + taken)
            now[first:end] = [start + taken] * (end - first)
        done.append(max(now))
        before = now
    return 1 - busy / (workers * max(done))


def model(given, own):
    seconds = own or [0.05 + 0.1 * at / 99 for at in range(100)]
    for one_by_one, name in ((True, "one operation after another"), (False, "as soon as what it reads is done")):
        print(f"model, 1,000 workers, {name}: workers wait {100 * waited(1000, given.part, seconds, one_by_one):.0f} % of the time",
              flush=True)


def main():
    words = words_of(__doc__, runs=3, place=in_memory(), program=os.path.abspath)
    words.add_argument("--processes", type=int, default=4)
    words.add_argument("--tasks", type=int, default=4096)
    words.add_argument("--part", type=int, default=64)
    words.add_argument("--only", choices=["plan", "part", "model"], nargs="*", default=["plan", "part", "model"])
    given = words.parse_args()
    if given.tasks % given.part:
        words.error("the tasks are no whole number of parts")
    see_that_it_is_built(given.program)
    own = []
    with tempfile.TemporaryDirectory(prefix="cubed-parts-", dir=given.dir) as folder:
        if "plan" in given.only:
            own = plan(given, folder)
            shutil.rmtree(os.path.join(folder, "a"))
        if "part" in given.only:
            part(given, folder)
    if "model" in given.only:
        model(given, own)


if __name__ == "__main__":
    main()
