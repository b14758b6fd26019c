#!/usr/bin/env python3
"""Runs the parts of plans by several processes at once over one folder, and compares each result with NumPy byte by byte.

usage: tools/parts_at_once.py [--program FILE] [--kills N] [--pool P] [--seed S] [--fusion 1|2]

Without --kills: two and four processes at once with parts of their own, and the same part by two and by four processes. With --kills N
processes of random parts are killed N times, at random moments, under a pool of P at once (16), with random repeats. Without --fusion the
plans of both versions are run.

A part that comes too early (21) is tried again, as an engine does. At the end `resume` must answer 0. Of the answers of parts only 0 and 21
may come, and none may leave a chunk that is cut short.
"""
import argparse
import itertools
import json
import os
import random
import shutil
import struct
import subprocess
import sys
import tempfile
import time

from zarr_store import Layout

TOP = os.path.dirname(os.path.dirname(os.path.realpath(__file__)))
EXPRESSIONS = {
    # Three operations: a map, a fold over chunks and rounds of merges.
    "sums": [{"id": "s", "op": "add", "args": ["a", "b"]}, {"id": "r", "op": "sum", "args": ["s"], "axes": [1]}],
    # Two copies into other chunks, and a map over them.
    "copies": [{"id": "t", "op": "rechunk", "args": ["a"], "chunk": [8, 96]}, {"id": "u", "op": "multiply", "args": ["t", 3]}],
    # A view, which reads every chunk of its source.
    "turned": [{"id": "s", "op": "multiply", "args": ["a", "b"]}, {"id": "p", "op": "permute_dims", "args": ["s"], "axes": [1, 0]}],
    # A map over a view and the last merges of a sum: with --fusion 2 its tasks wait for partial results.
    "merged": [{"id": "f", "op": "flip", "args": ["b"], "axes": [0]}, {"id": "s", "op": "sum", "args": ["f"], "axes": [0], "keepdims": True},
               {"id": "q", "op": "multiply", "args": ["s", "s"]}],
}
SHAPE, CHUNK = [96, 96], [16, 96]
WORDS = ["--allowed-mem", "40000", "--split-every", "2"]
TRIES, EARLY = 400, 21


def elements(name):
    """Returns the elements of an input, row-major."""
    count = SHAPE[0] * SHAPE[1]
    return [(7 * at + 3) % 1009 - 500 if name == "a" else (5 * at) % 211 for at in range(count)]


def store(folder, name):
    """Stores an input, whose chunks are whole rows."""
    os.makedirs(f"{folder}/{name}/c")
    with open(f"{folder}/{name}/zarr.json", "w", encoding="ascii") as out:
        out.write(Layout("int32", SHAPE, CHUNK).text())
    told, size = elements(name), CHUNK[0] * CHUNK[1]
    for at in range(SHAPE[0] // CHUNK[0]):
        os.makedirs(f"{folder}/{name}/c/{at}", exist_ok=True)
        with open(f"{folder}/{name}/c/{at}/0", "wb") as out:
            out.write(struct.pack(f"<{size}i", *told[at * size:(at + 1) * size]))


def wanted(name):
    """Returns what NumPy gives."""
    import numpy

    a, b = (numpy.array(elements(one), dtype="int32").reshape(SHAPE) for one in "ab")
    if name == "sums":
        return (a + b).sum(axis=1, dtype="int64")
    if name == "copies":
        return a * numpy.int32(3)
    if name == "merged":
        return b.sum(axis=0, keepdims=True, dtype="int64") ** 2
    return (a * b).T


def read(folder):
    """Returns the stored output."""
    import numpy

    with open(f"{folder}/y/zarr.json", encoding="ascii") as told:
        told = json.load(told)
    shape, chunk = told["shape"], told["chunk_grid"]["configuration"]["chunk_shape"]
    found = numpy.zeros(shape, told["data_type"])
    for place in numpy.ndindex(*(-(-size // side) for size, side in zip(shape, chunk))):
        file = f"{folder}/y/c/{'/'.join(map(str, place))}"
        part = numpy.fromfile(file, found.dtype).reshape(chunk)
        box = tuple(slice(at * side, min((at + 1) * side, size)) for at, side, size in zip(place, chunk, shape))
        found[box] = part[tuple(slice(0, one.stop - one.start) for one in box)]
    return found


class Engine:
    """An engine over one folder: what it starts, and how it goes on."""

    def __init__(self, program, folder, name, fusion):
        self.program, self.folder, self.name = program, folder, name
        self.words = WORDS + (["--fusion", str(fusion)] if fusion > 1 else [])
        nodes = [{"id": one, "op": "input", "name": one} for one in "ab"] + EXPRESSIONS[name]
        self.text = json.dumps({"nodes": nodes, "out": nodes[-1]["id"], "store_as": "y"}).encode()
        self.answers = {}

    def call(self, *words):
        done = subprocess.run([self.program, self.folder, *words], input=self.text, capture_output=True, check=False)
        return done.returncode, done.stdout.decode(), done.stderr.decode()

    def begin(self):
        for name in "ab":
            store(self.folder, name)
        status, out, err = self.call("begin", *self.words)
        assert status == 0, err
        lines = [dict(field.split("=") for field in line.split() if "=" in field) for line in out.splitlines()[:-1]]
        self.counts = [int(line["tasks"]) for line in lines]
        self.reads = [[int(op) for op in line["reads"].split(",") if op] for line in lines]

    def start(self, op, first, end):
        """Starts a part, and returns the process."""
        process = subprocess.Popen([self.program, self.folder, "part", *self.words, "--op", str(op), "--from", str(first), "--to", str(end)],
                                   stdin=subprocess.PIPE, stdout=subprocess.PIPE, stderr=subprocess.PIPE)
        try:
            process.stdin.write(self.text)
            process.stdin.close()
        except BrokenPipeError:
            pass
        process.stdin = None
        return process

    def ended(self, process):
        """Waits for a part, and returns its answer."""
        _, err = process.communicate()
        self.answers[process.returncode] = self.answers.get(process.returncode, 0) + 1
        assert process.returncode in (0, EARLY) or process.returncode < 0, err.decode()
        return process.returncode

    def finish(self):
        import numpy

        status, out, err = self.call("resume", *self.words)
        assert status == 0, err
        assert numpy.array_equal(read(self.folder), wanted(self.name)), f"{self.name} is wrong"
        status, again, err = self.call("resume", *self.words)
        assert status == 0 and " starts=0 " in again, again + err
        return out


def parts_of(engine, size):
    return [(op, first, min(first + size, count)) for op, count in enumerate(engine.counts) for first in range(0, count, size)]


def at_once(engine, count, same):
    """So many processes at once: the parts of an operation, or each part by all of them."""
    engine.begin()
    for op, first, end in parts_of(engine, 2):
        if same:
            waiting = [(op, first, end)] * count
            for process in [engine.start(*part) for part in waiting]:
                assert engine.ended(process) == 0, "a part whose inputs are there is carried out"
    if not same:
        left = parts_of(engine, 2)
        for _ in range(TRIES):
            if not left:
                break
            now, left = left[:count], left[count:]
            # What comes too early waits behind the rest.
            left += [part for part, process in [(part, engine.start(*part)) for part in now] if engine.ended(process) == EARLY]
        assert not left, "parts that came too early again and again"
    assert " starts=0 " in engine.finish(), "a task was left"


def killed(engine, kills, pool, chance):
    """Processes of random parts, of which so many are killed at a random moment."""
    engine.begin()
    parts = parts_of(engine, 2)
    running, count, left = [], 0, set(parts)
    while count < kills or left:
        while len(running) < pool:
            part = chance.choice(sorted(left) or parts) if chance.random() < 0.8 else chance.choice(parts)
            running.append((part, engine.start(*part)))
        if count < kills and chance.random() < 0.5:
            # The one that was started last: the others may have ended.
            _, process = running.pop()
            time.sleep(chance.random() * 0.01)
            process.kill()
            count += engine.ended(process) < 0
            continue
        part, process = running.pop(0)
        if engine.ended(process) == 0:
            left.discard(part)
    for _, process in running:
        engine.ended(process)
    engine.finish()
    return count


def main():
    parser = argparse.ArgumentParser(description="Runs the parts of plans by several processes at once.")
    parser.add_argument("--program", default=f"{TOP}/crates/cu_bin/out/cu_bin")
    parser.add_argument("--kills", type=int, default=0)
    parser.add_argument("--pool", type=int, default=16)
    parser.add_argument("--seed", type=int, default=1)
    parser.add_argument("--fusion", type=int, choices=[1, 2])
    given = parser.parse_args()
    try:
        import numpy  # noqa: F401
    except ModuleNotFoundError:
        sys.exit("parts_at_once: NumPy isn't there: not run")
    if not os.access(given.program, os.X_OK):
        sys.exit(f"parts_at_once: {given.program} isn't there: not run")
    chance = random.Random(given.seed)
    room = tempfile.mkdtemp(prefix="parts-")
    try:
        for name, fusion in itertools.product(EXPRESSIONS, [given.fusion] if given.fusion else [1, 2]):
            for count, same in ((2, False), (4, False), (2, True), (4, True)) if not given.kills else ():
                engine = Engine(given.program, tempfile.mkdtemp(dir=room), name, fusion)
                at_once(engine, count, same)
                print(f"{name}, version {fusion + 1}, by {count} at once{', each part by all' if same else ''}: {sum(engine.answers.values())} parts, right")
            if given.kills:
                engine = Engine(given.program, tempfile.mkdtemp(dir=room), name, fusion)
                count = killed(engine, given.kills, given.pool, chance)
                print(f"{name}, version {fusion + 1}: {count} killed, {engine.answers.get(0, 0)} done, {engine.answers.get(EARLY, 0)} too early; right")
    finally:
        shutil.rmtree(room)


if __name__ == "__main__":
    main()
