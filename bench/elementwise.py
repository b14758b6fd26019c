#!/usr/bin/env python3
"""Computes (a*2 + b) > c over three int32 arrays of 256 MiB in chunks of 4 MiB, with the program, with NumPy chunk by chunk, and
with Dask over zarr where both can be imported; and an expression of 256 nodes over one chunk with the program alone.

  elementwise.py [--program FILE] [--dir FOLDER].. [--runs N] [--python FILE] [--mebibytes N]

The program stores what each function makes, as its plan says, so it writes and reads two arrays of 256 MiB more than the others:
NumPy is measured twice, storing those too, and storing the result alone. All put each chunk in place by a synced new file that is
renamed, but for Dask, which writes as zarr does. Which comes first changes at each round, and the least time of each is kept. It
prints the times and their ratios, the greatest resident memory of each beside what the report projects, and the time of `cp`
and `cat` for the bytes that the program reads and writes: on the disk and, where there is one, in the folder in memory beside it.
"""
import argparse
import array
import json
import os
import shutil
import subprocess
import tempfile
import time

from measured import turns, words_of
from stored import GNU_TIME, can_import, link_as_version_2, metadata, see_that_it_is_built, store, timed

CHUNK = 1 << 20
CHUNK_BYTES = 4 * CHUNK
INPUTS = {"a": (40503, 7), "b": (12289, 1), "c": (30011, 5)}
NODES = [*({"id": name, "op": "input", "name": name} for name in INPUTS),
         {"id": "d", "op": "multiply", "args": ["a", 2]}, {"id": "s", "op": "add", "args": ["d", "b"]},
         {"id": "g", "op": "greater", "args": ["s", "c"]}]
EXPRESSION = json.dumps({"nodes": NODES, "out": "g", "store_as": "y"})
PEERS = {"numpy": "NumPy, storing each array", "once": "NumPy, storing the result alone", "dask": "Dask with zarr, one thread"}


def make_inputs(folder, chunks):
    """Stores three arrays, of which the chunks differ and sums wrap here and there."""
    for name, (step, shift) in INPUTS.items():
        os.makedirs(os.path.join(folder, name, "c"))
        with open(os.path.join(folder, name, "zarr.json"), "w") as file:
            file.write(metadata("int32", [chunks * CHUNK], [CHUNK]))
        words = array.array("I", ((place * step * 101 + shift) & 0xFFFFFFFF for place in range(CHUNK)))
        for number in range(chunks):
            turned = words[number * 4099 % CHUNK:] + words[:number * 4099 % CHUNK]
            with open(os.path.join(folder, name, "c", str(number)), "wb") as file:
                turned.tofile(file)


def chunks_in(folder, name):
    return len(os.listdir(os.path.join(folder, name, "c")))


def by_numpy(folder, is_each):
    """The peer: function by function as the program, each array stored, or chunk by chunk, the result alone stored."""
    import numpy
    start = time.perf_counter()
    chunks = chunks_in(folder, "a")
    room = {name: numpy.empty(CHUNK, numpy.int32) for name in ("left", "right", "made")}
    truth = numpy.empty(CHUNK, numpy.bool_)

    def read(name, number, cells):
        with open(os.path.join(folder, name, "c", str(number)), "rb", buffering=0) as file:
            if file.readinto(cells) != CHUNK_BYTES:
                raise SystemExit("a chunk was cut short")
        return cells

    def put(name, number, cells):
        store(os.path.join(folder, name, "c", str(number)), cells, True)

    for name in (("numpy", "numpy_d", "numpy_s") if is_each else ("once",)):
        os.makedirs(os.path.join(folder, name, "c"))
    store(os.path.join(folder, "numpy" if is_each else "once", "zarr.json"), metadata("bool", [chunks * CHUNK], [CHUNK]).encode(), True)
    if is_each:
        for number in range(chunks):
            numpy.multiply(read("a", number, room["left"]), numpy.int32(2), out=room["made"])
            put("numpy_d", number, room["made"])
        for number in range(chunks):
            numpy.add(read("numpy_d", number, room["left"]), read("b", number, room["right"]), out=room["made"])
            put("numpy_s", number, room["made"])
        for number in range(chunks):
            numpy.greater(read("numpy_s", number, room["left"]), read("c", number, room["right"]), out=truth)
            put("numpy", number, truth)
    else:
        for number in range(chunks):
            numpy.multiply(read("a", number, room["left"]), numpy.int32(2), out=room["made"])
            numpy.add(room["made"], read("b", number, room["right"]), out=room["made"])
            numpy.greater(room["made"], read("c", number, room["right"]), out=truth)
            put("once", number, truth)
    return time.perf_counter() - start


def by_dask(folder):
    """The peer over the same files: zarr opens and stores the arrays, Dask goes over the chunks with one thread."""
    import dask
    import dask.array
    import zarr
    chunks, is_new = chunks_in(folder, "a"), int(zarr.__version__.split(".")[0]) >= 3
    paths = [os.path.join(folder, name) if is_new else link_as_version_2(folder, name, "<i4", [chunks * CHUNK], [CHUNK]) for name in INPUTS]
    start = time.perf_counter()
    a, b, c = (dask.array.from_zarr(path) for path in paths)
    target = os.path.join(folder, "dask")
    if is_new:
        made = zarr.create_array(target, shape=a.shape, chunks=(CHUNK,), dtype="bool", compressors=None, zarr_format=3)
    else:
        made = zarr.open(target, mode="w", shape=a.shape, chunks=(CHUNK,), dtype="bool", compressor=None)
    with dask.config.set(scheduler="synchronous"):
        dask.array.store((a * 2 + b) > c, made, lock=False)
    taken = time.perf_counter() - start
    if not is_new:
        os.makedirs(os.path.join(target, "c"))
        for number in range(chunks):
            os.link(os.path.join(target, str(number)), os.path.join(target, "c", str(number)))
    return taken


def same(folder, one, other):
    for number in range(chunks_in(folder, one)):
        paths = [os.path.join(folder, name, "c", str(number)) for name in (one, other)]
        with open(paths[0], "rb") as left, open(paths[1], "rb") as right:
            if left.read() != right.read():
                return False
    return True


def chunk_paths(folder, name):
    return [os.path.join(folder, name, "c", file) for file in os.listdir(os.path.join(folder, name, "c"))]


def copy_time(folder, rounds):
    """Returns the seconds in which `cp` and `cat` read and write as many bytes as the program: two arrays and the quarter of one are
    copied, and as much more is read as makes five arrays."""
    a, b, c = (chunk_paths(folder, name) for name in INPUTS)
    quarter = len(c) // 4
    copied, only_read = a + b + c[:quarter], a + b + c[quarter:]
    least = float("inf")
    for _ in range(rounds):
        target = os.path.join(folder, "copied")
        for name in INPUTS:
            os.makedirs(os.path.join(target, name))
        os.sync()
        start = time.perf_counter()
        for name, paths in zip(INPUTS, (a, b, c[:quarter])):
            if paths:
                subprocess.run(["cp", *paths, os.path.join(target, name)], check=True)
        subprocess.run(["cat", *only_read], stdout=subprocess.DEVNULL, check=True)
        os.sync()
        least = min(least, time.perf_counter() - start)
        shutil.rmtree(target)
    return least, len(copied) * CHUNK_BYTES, (len(copied) + len(only_read)) * CHUNK_BYTES


def show(name, runs, inside=None):
    taken, _, told = min(runs)
    print(f"  {name}: {taken:.3f} s", end="")
    if inside is not None:
        print(f", {inside:.3f} s without the start of Python and the imports", end="")
    if told:
        user, system, memory = told
        print(f" (processor: {user} s in it, {system} s in the system), resident {int(memory) / 1024:.1f} MiB", end="")
    print()


def projected(report):
    return int(report.rsplit("peak=", 1)[1])


def measure(program, folder, rounds, python):
    """Runs the program and its peers in turn, and prints their times."""
    peers = [peer for peer, needs in (("numpy", ["numpy"]), ("once", ["numpy"]), ("dask", ["dask.array", "zarr"])) if can_import(python, *needs)]
    commands = {"cubed": [program, folder, "run"], **{peer: [python, os.path.abspath(__file__), "--peer", peer, folder] for peer in peers}}
    runs = {name: [] for name in commands}
    for name in turns(commands, rounds):
        for made in ("y", "_cubed", "numpy", "numpy_d", "numpy_s", "once", "dask"):
            if name == "cubed" or made not in ("y", "_cubed"):
                shutil.rmtree(os.path.join(folder, made), ignore_errors=True)
        os.sync()
        runs[name].append(timed(commands[name], EXPRESSION))
        if name != "cubed" and os.path.isdir(os.path.join(folder, "y")) and not same(folder, "y", name):
            raise SystemExit(f"the chunks of {name} and of the program differ")
    show("cubed", runs["cubed"])
    best, report, told = min(runs["cubed"])
    print(f"    {report}: {projected(report) / 2**20:.1f} MiB projected" + (f", {int(told[2]) * 1024 / projected(report):.2f} of it resident" if told else ""))
    for peer in peers:
        inside = min(float(said) for _, said, _ in runs[peer])
        show(PEERS[peer], runs[peer], inside)
        print(f"    ratio cubed / {peer}: {best / inside:.2f} without that start, {best / min(runs[peer])[0]:.2f} by whole commands")
    copied, wrote, read = copy_time(folder, min(rounds, 3))
    print(f"  cp and cat, which read {read >> 20} MiB and write {wrote >> 20} as the program does: {copied:.3f} s, ratio {best / copied:.2f}")


def measure_nodes(program, parent, rounds):
    """Prints the time of an expression of 256 nodes over one chunk, beside that of two nodes."""
    with tempfile.TemporaryDirectory(dir=parent, prefix="cubed-bench-") as folder:
        os.makedirs(os.path.join(folder, "a", "c"))
        with open(os.path.join(folder, "a", "zarr.json"), "w") as file:
            file.write(metadata("int32", [4], [4]))
        with open(os.path.join(folder, "a", "c", "0"), "wb") as file:
            file.write(array.array("I", [1, 2, 3, 4]).tobytes())
        for count in (2, 256):
            nodes = [{"id": "n0", "op": "input", "name": "a"}]
            nodes += [{"id": f"n{k}", "op": "add", "args": [f"n{k - 1}", f"n{max(0, k - 2)}"]} for k in range(1, count)]
            text = json.dumps({"nodes": nodes, "out": f"n{count - 1}", "store_as": "y"})
            runs, plans = [], []
            for _ in range(rounds):
                for made in ("y", "_cubed"):
                    shutil.rmtree(os.path.join(folder, made), ignore_errors=True)
                runs.append(timed([program, folder, "run"], text)[0])
                plans.append(refused_time(program, folder, text))
            print(f"  {count} nodes over one chunk: {1e3 * min(runs):.1f} ms in all; refused at the record, so read, typed, lowered and"
                  f" counted but not run: {1e3 * min(plans):.1f} ms")


def refused_time(program, folder, text):
    """Returns the seconds of a run that finds the record in its way."""
    start = time.perf_counter()
    ended = subprocess.run([program, folder, "run"], input=text, capture_output=True, text=True, check=False)
    taken = time.perf_counter() - start
    if ended.returncode != 9:
        raise SystemExit(f"a second run ended with {ended.returncode}")
    return taken


def measure_in(parent, given):
    chunks = given.mebibytes * 2**20 // CHUNK_BYTES
    with tempfile.TemporaryDirectory(dir=parent, prefix="cubed-bench-") as folder:
        make_inputs(folder, chunks)
        print(f"in {os.path.dirname(folder)}, load {os.getloadavg()[0]:.1f}:")
        measure(given.program, folder, given.runs, given.python)
    measure_nodes(given.program, parent, given.runs)


def main():
    words = words_of(__doc__, python="NumPy, Dask and zarr")
    words.add_argument("--mebibytes", type=int, default=256, help="the size of each of the three arrays")
    words.add_argument("--peer", nargs=2, help=argparse.SUPPRESS)
    given = words.parse_args()
    if given.peer:
        peer, folder = given.peer
        print(by_dask(folder) if peer == "dask" else by_numpy(folder, peer == "numpy"))
        return
    see_that_it_is_built(given.program)
    if not os.access(GNU_TIME, os.X_OK):
        print(f"without {GNU_TIME} no memory is told")
    print(f"(a*2 + b) > c over three int32 arrays of {given.mebibytes} MiB in chunks of {CHUNK_BYTES >> 20} MiB, {os.cpu_count()} processors,"
          f" the best of {given.runs} runs")
    for parent in given.dir or [tempfile.gettempdir(), *filter(os.path.isdir, ["/dev/shm"])]:
        measure_in(parent, given)


if __name__ == "__main__":
    main()
