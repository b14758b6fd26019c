#!/usr/bin/env python3
"""Adds two int32 arrays of 2^24 elements in chunks of 2^18, with the program and with NumPy, over the same chunk files;
and two of 2^22 elements in 16,384 chunks of 1 KiB with the program alone, for the cost of a task beside its bytes.

  add.py [--program FILE] [--dir FOLDER].. [--runs N]

Both read, add and write one chunk after another, and put each in place by a synced new file that is renamed. Which of
the two is first changes at each round, and the least time of each is kept. It prints both times, their ratio, the
greatest resident memory of each, and how long it takes to write as many chunks with and without the sync: on the
disk of the folder for temporary files and, where there is one, in the folder in memory beside it.
"""
import argparse
import array
import os
import shutil
import sys
import tempfile
import time

from measured import node, over, turns, words_of
from small import measure_small
from stored import has_numpy, metadata, see_that_it_is_built, store, timed

ELEMENTS, CHUNK = 1 << 24, 1 << 18
CHUNKS, CHUNK_BYTES = ELEMENTS // CHUNK, 4 * CHUNK
OUTPUTS = {"cubed": "y", "numpy": "z"}
EXPRESSION = over("ab", node("s", "add", "a", "b"))
METADATA = metadata("int32", [ELEMENTS], [CHUNK])


def make_inputs(folder):
    """Two arrays: 0, 1, 2, .. and its double, both with places where the sum wraps."""
    for name, step in (("a", 131), ("b", 262)):
        os.makedirs(os.path.join(folder, name, "c"))
        with open(os.path.join(folder, name, "zarr.json"), "w") as file:
            file.write(METADATA)
        for number in range(CHUNKS):
            low = number * CHUNK
            words = array.array("I", ((place * step) & 0xFFFFFFFF for place in range(low, low + CHUNK)))
            with open(os.path.join(folder, name, "c", str(number)), "wb") as file:
                words.tofile(file)


def add_by_numpy(folder, name, sync):
    """The peer: one chunk of each input is read, added and stored at a time. The seconds that this takes."""
    import numpy
    start = time.perf_counter()
    left, right, sums = (numpy.empty(CHUNK, numpy.int32) for _ in range(3))
    os.makedirs(os.path.join(folder, name, "c"))
    store(os.path.join(folder, name, "zarr.json"), METADATA.encode(), sync)
    for number in range(CHUNKS):
        for source, cells in (("a", left), ("b", right)):
            with open(os.path.join(folder, source, "c", str(number)), "rb", buffering=0) as file:
                if file.readinto(cells) != CHUNK_BYTES:
                    raise SystemExit("a chunk was cut short")
        numpy.add(left, right, out=sums)
        store(os.path.join(folder, name, "c", str(number)), sums, sync)
    return time.perf_counter() - start


def write_only(folder, name, sync):
    """Stores as many chunks and does nothing else."""
    data = os.urandom(CHUNK_BYTES)
    os.makedirs(os.path.join(folder, name, "c"))
    start = time.perf_counter()
    for number in range(CHUNKS):
        store(os.path.join(folder, name, "c", str(number)), data, sync)
    return time.perf_counter() - start


def same(folder, one, other):
    for number in range(CHUNKS):
        paths = [os.path.join(folder, name, "c", str(number)) for name in (one, other)]
        with open(paths[0], "rb") as left, open(paths[1], "rb") as right:
            if left.read() != right.read():
                return False
    return True


def show(name, runs):
    taken, _, told = min(runs)
    print(f"  {name} {taken:.3f} s", end="")
    if told:
        user, system, memory = told
        print(f" (processor: {user} s in it, {system} s in the system), resident {int(memory) / 1024:.1f} MiB", end="")
    print()


def measure(program, folder, rounds):
    runs = {"cubed": [], "numpy": []}
    commands = {"cubed": [program, folder, "run"],
                "numpy": [sys.executable, os.path.abspath(__file__), "--numpy", folder]}
    peers = list(runs) if has_numpy() else ["cubed"]
    for peer in turns(peers, rounds):
        for made in (OUTPUTS[peer], "_cubed"):
            shutil.rmtree(os.path.join(folder, made), ignore_errors=True)
        os.sync()
        runs[peer].append(timed(commands[peer], EXPRESSION))
    for peer in peers:
        show(peer, runs[peer])
    if len(peers) == 1:
        print("  NumPy can't be imported by this Python, so the program is measured alone")
        return
    inside = min(float(said) for _, said, _ in runs["numpy"])
    cubed, whole = min(runs["cubed"])[0], min(runs["numpy"])[0]
    by_rounds = ", ".join(f"{one[0] / float(other[1]):.2f}" for one, other in zip(runs["cubed"], runs["numpy"]))
    print(f"  numpy without the start of Python and the import: {inside:.3f} s")
    print(f"  ratio cubed / numpy: {cubed / whole:.2f} by whole commands, {cubed / inside:.2f} without that start"
          f" (by rounds: {by_rounds})")
    print("  both made the same chunks" if same(folder, *OUTPUTS.values()) else "  THE CHUNKS DIFFER")


def measure_sync(folder, rounds):
    least = {}
    for sync in (True, False):
        for _ in range(rounds):
            shutil.rmtree(os.path.join(folder, "w"), ignore_errors=True)
            os.sync()
            least[sync] = min(least.get(sync, 1e9), write_only(folder, "w", sync))
    print(f"  {CHUNKS} chunks written alone: {least[True]:.3f} s with the sync, {least[False]:.3f} s without")


def measure_in(parent, program, rounds):
    with tempfile.TemporaryDirectory(dir=parent, prefix="cubed-bench-") as folder:
        make_inputs(folder)
        print(f"in {os.path.dirname(folder)}, load {os.getloadavg()[0]:.1f}:")
        measure(program, folder, rounds)
        measure_sync(folder, rounds)
    measure_small(program, parent, min(rounds, 3), [1])


def main():
    words = words_of(__doc__)
    words.add_argument("--numpy", help=argparse.SUPPRESS)
    given = words.parse_args()
    if given.numpy:
        print(add_by_numpy(given.numpy, OUTPUTS["numpy"], True))
        return
    see_that_it_is_built(given.program)
    print(f"two int32 arrays of {ELEMENTS} elements in {CHUNKS} chunks of {CHUNK_BYTES} bytes, "
          f"{os.cpu_count()} processors, the best of {given.runs} runs")
    for parent in given.dir or [tempfile.gettempdir(), *filter(os.path.isdir, ["/dev/shm"])]:
        measure_in(parent, given.program, given.runs)


if __name__ == "__main__":
    main()
