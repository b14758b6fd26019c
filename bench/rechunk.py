#!/usr/bin/env python3
"""Copies an int32 array of [8192,8192] elements (256 MiB) from chunks of [8192,256] to chunks of [256,8192], with the program, allowed 64 MiB
and 16 MiB, and with Dask over the same files where it and zarr can be imported; and times `plan` for expressions of 256 nodes.

  rechunk.py [--program FILE] [--dir FOLDER].. [--runs N] [--python FILE] [--side N]

The program stores what lies between two copies, so it writes the array twice, and syncs each file before its rename; Dask keeps what lies
between in memory, and writes as zarr does, without a sync. Dask goes over the chunks with one thread, and with as many as it takes by
itself. Which comes first changes at each round, and the least time of each is kept; what all store is compared byte by byte. It prints
the times, the greatest resident memory (of a child process, by GNU time), what the report projects, and the bytes of all files that are
written, as rows of a table: in the folder in memory where there is one, and on the disk.
"""
import argparse
import json
import os
import shutil
import subprocess
import tempfile
import time

from measured import node, over, turns, words_of
from stored import GNU_TIME, MIB, can_import, link_as_version_2, metadata, put, same_as_version_2, see_that_it_is_built, timed

ALLOWED = (64, 16)
PEERS = {"dask": "Dask, one thread", "threads": "Dask, its threads"}


def make_input(folder, side, strip):
    """Stores the array `x`, whose chunks are strips of columns: as version 3, and the same files as version 2 for a zarr that doesn't read
    version 3."""
    import numpy
    put(os.path.join(folder, "x", "zarr.json"), metadata("int32", [side, side], [side, strip]).encode())
    rows = numpy.arange(side, dtype="int32")[:, None] * numpy.int32(65537)
    for number in range(side // strip):
        columns = numpy.arange(number * strip, (number + 1) * strip, dtype="int32")[None, :]
        put(os.path.join(folder, "x", "c", "0", str(number)), (rows ^ columns * numpy.int32(40503)).tobytes())
    link_as_version_2(folder, "x", "<i4", [side, side], [side, strip])


def by_dask(folder, strip, is_alone):
    """The peer: Dask's own plan of the copy, over zarr."""
    import dask
    import dask.array
    import zarr
    start = time.perf_counter()
    source = dask.array.from_zarr(zarr.open(os.path.join(folder, "x_v2"), mode="r"))
    side = source.shape[0]
    target = zarr.open(os.path.join(folder, "dask"), mode="w", shape=source.shape, chunks=(strip, side), dtype="int32", compressor=None)
    with dask.config.set(scheduler="synchronous" if is_alone else "threads"):
        source.rechunk((strip, side)).to_zarr(target)
    return time.perf_counter() - start


def written(folder, *names):
    """Returns the bytes of all files below these folders."""
    return sum(os.path.getsize(os.path.join(path, file)) for name in names for path, _, files in os.walk(os.path.join(folder, name)) for file in files)


def expression(side, strip):
    return over("x", node("r", "rechunk", "x", chunk=[strip, side]))


class Told:
    """What was measured of one way: the least time with its memory, and the bytes that were written."""

    def __init__(self):
        self.runs, self.bytes, self.report, self.inside = [], 0, "", []

    def seconds(self):
        return min(self.inside) if self.inside else min(self.runs)[0]

    def resident(self):
        best = min(self.runs)[2]
        return f"{int(best[2]) / 1024:.0f} MiB" if best else "not told"

    def projected(self):
        return f", {int(self.report.rsplit('peak=', 1)[1]) / MIB:.1f} projected" if "peak=" in self.report else ""


def measure(given, folder):
    """Runs the program and Dask in turn, and returns what was measured of each way."""
    strip = given.side // 32
    make_input(folder, given.side, strip)
    share = (given.side / 8192) ** 2
    ways = {f"cubed, {mebibytes} MiB allowed": [given.program, folder, "run", "--allowed-mem", str(int(mebibytes * MIB * share))] for mebibytes in ALLOWED}
    if can_import(given.python, "dask.array", "zarr"):
        ways.update({PEERS[peer]: [given.python, os.path.abspath(__file__), "--peer", peer, folder, str(strip)] for peer in PEERS})
    told = {way: Told() for way in ways}
    for way in turns(ways, given.runs):
        is_ours = way.startswith("cubed")
        made = ("y", "_cubed") if is_ours else ("dask",)
        for name in made:
            shutil.rmtree(os.path.join(folder, name), ignore_errors=True)
        os.sync()
        run = timed(ways[way], expression(given.side, strip))
        told[way].runs.append(run)
        told[way].bytes = written(folder, *made)
        if is_ours:
            told[way].report = run[1]
        else:
            told[way].inside.append(float(run[1]))
        if os.path.isdir(os.path.join(folder, "y")) and os.path.isdir(os.path.join(folder, "dask")) and not same_as_version_2(folder, "y", "dask"):
            raise SystemExit("the chunks of Dask and of the program differ")
    return told


def table(found):
    """Prints the rows of a table, of one column a folder."""
    print("| | " + " | ".join(f"{folder}: time | resident | written" for folder in found) + " |")
    print("|---" * (1 + 3 * len(found)) + "|")
    ways = list(next(iter(found.values())))
    for way in ways:
        cells = [f"{told[way].seconds():.3f} s | {told[way].resident()}{told[way].projected()} | {told[way].bytes / MIB:.0f} MiB" for told in found.values()]
        print(f"| {way} | " + " | ".join(cells) + " |")
    for way in ways:
        for peer in PEERS.values():
            if way.startswith("cubed") and peer in ways:
                print(f"| ratio {way} / {peer} | " + " | ".join(f"**{told[way].seconds() / told[peer].seconds():.2f}** | |" for told in found.values()) + " |")


# The time of `plan`

def chain(count, op):
    nodes = [{"id": "n0", "op": "input", "name": "a"}, {"id": "b", "op": "input", "name": "b"}]
    return nodes + [op(k) for k in range(1, count - 1)]


PLANS = {
    "254 additions over one chunk": ("a", lambda k: {"id": f"n{k}", "op": "add", "args": [f"n{k - 1}", f"n{max(0, k - 2)}"]}),
    "254 additions, each with an argument that is copied": ("a", lambda k: {"id": f"n{k}", "op": "add", "args": [f"n{k - 1}", "b"]}),
    "254 changes of chunks, to and fro": ("a", lambda k: {"id": f"n{k}", "op": "rechunk", "args": [f"n{k - 1}"], "chunk": [1 + k % 2]}),
    "254 additions of 256 chunks each (65,024 tasks)": ("wide", lambda k: {"id": f"n{k}", "op": "add", "args": [f"n{k - 1}", 1]}),
    "43 sums, each of 1,024 chunks in 5 rounds": ("long", lambda k: {"id": f"n{k}", "op": "sum", "args": ["n0"], "keepdims": True} if k < 44 else {"id": f"n{k}", "op": "add", "args": [f"n{k - 1}", f"n{k - 43}"]})}


def measure_plans(given):
    with tempfile.TemporaryDirectory(dir=given.dir[0], prefix="cubed-bench-") as folder:
        for name, size, chunk in (("a", 4, 4), ("b", 4, 3), ("wide", 256, 1), ("long", 1024, 1)):
            put(os.path.join(folder, name, "zarr.json"), metadata("int32", [size], [chunk]).encode())
        for what, (array, op) in PLANS.items():
            nodes = chain(256, op)
            nodes[0]["name"] = array
            text = json.dumps({"nodes": nodes, "out": f"n{len(nodes) - 2}", "store_as": "y"})
            times, line = [], ""
            for _ in range(max(9, given.runs)):
                start = time.perf_counter()
                ended = subprocess.run([given.program, folder, "plan"], input=text, capture_output=True, text=True, check=False)
                times.append(time.perf_counter() - start)
                line = (ended.stdout or ended.stderr).strip().rsplit("\n", 1)[-1]
            print(f"plan of {what}: {1e3 * min(times):.1f} ms ({line})", flush=True)


def main():
    words = words_of(__doc__, runs=3, python="NumPy, Dask and zarr")
    words.add_argument("--side", type=int, default=8192, help="how many rows and columns the array has; less memory is allowed in proportion")
    words.add_argument("--peer", nargs=3, help=argparse.SUPPRESS)
    given = words.parse_args()
    if given.peer:
        peer, folder, strip = given.peer
        print(by_dask(folder, int(strip), peer == "dask"))
        return
    given.program = os.path.abspath(given.program)
    see_that_it_is_built(given.program)
    if not os.access(GNU_TIME, os.X_OK):
        print(f"without {GNU_TIME} no memory is told")
    given.dir = given.dir or [*filter(os.path.isdir, ["/dev/shm"]), tempfile.gettempdir()]
    print(f"int32 [{given.side},{given.side}] in 32 chunks of columns, to 32 chunks of rows, {os.cpu_count()} processors, a load of"
          f" {os.getloadavg()[0]:.1f}, the least of {given.runs} runs")
    measure_plans(given)
    found = {}
    for parent in given.dir:
        with tempfile.TemporaryDirectory(dir=parent, prefix="cubed-bench-") as folder:
            found[parent] = measure(given, folder)
    table(found)


if __name__ == "__main__":
    main()
