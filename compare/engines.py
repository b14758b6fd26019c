#!/usr/bin/env python3
"""Stores results in parts under an engine whose workers are killed, and compares each with NumPy.

usage: engines.py [--program FILE] [--dir FOLDER] [--rounds N] [--seconds S] [--seed N]

The engine is `dask.distributed.LocalCluster` with four processes, each with one thread. While a result is stored a thread kills a worker's
process every S seconds (0.5), once all four are there again, and the cluster starts another. The package submits the parts, tries again what was lost, and at the end
calls `resume`. The expressions have maps, a reduction over several rounds, and a change of chunks.

It needs NumPy, dask.distributed (Debian's python3-distributed) and the program. It ends with how many rounds were right, how many workers
were killed, and status 1 if a result was wrong.
"""
import argparse
import os
import random
import shutil
import signal
import sys
import tempfile
import threading

TOP = os.path.dirname(os.path.dirname(os.path.realpath(__file__)))
sys.dont_write_bytecode = True
sys.path.insert(0, os.path.join(TOP, "python"))


WORKERS = 4


def expressions(a, b):
    """The expressions by name: the same words for arrays of the package and of NumPy."""
    return {
        "map": lambda: a * 2 + b,
        "reduction": lambda: (a + b).sum(axis=0),
        "prefix sums": lambda: a.cumsum(axis=0),
        "other chunks": lambda: (a.rechunk((24, 192)) if hasattr(a, "rechunk") else a) - 1,
    }


class Killer(threading.Thread):
    """Kills a worker's process every so often, until it is told to stop."""

    def __init__(self, cluster, seconds, chance):
        super().__init__(daemon=True)
        self.cluster, self.seconds, self.chance = cluster, seconds, chance
        self.killed, self.ended = 0, threading.Event()

    def run(self):
        while not self.ended.wait(self.seconds * (0.5 + self.chance.random())):
            pids = [nanny.pid for nanny in list(self.cluster.workers.values()) if getattr(nanny, "pid", None)]
            # A cluster that loses workers faster than they come back breaks off by itself.
            if pids and len(self.cluster.scheduler.workers) == WORKERS:
                try:
                    os.kill(self.chance.choice(pids), signal.SIGKILL)
                    self.killed += 1
                except ProcessLookupError:
                    pass


def main():
    words = argparse.ArgumentParser(description=__doc__, formatter_class=argparse.RawDescriptionHelpFormatter)
    words.add_argument("--program", type=os.path.abspath, default=os.path.join(TOP, "crates", "cu_bin", "out", "cu_bin"))
    words.add_argument("--dir", default=tempfile.gettempdir())
    words.add_argument("--rounds", type=int, default=3)
    words.add_argument("--seconds", type=float, default=0.5)
    words.add_argument("--seed", type=int, default=1)
    given = words.parse_args()

    import cengmoat
    import dask
    import numpy
    from distributed import Client, LocalCluster

    dask.config.set({"distributed.scheduler.allowed-failures": 100})
    chance = random.Random(given.seed)
    rng = numpy.random.default_rng(given.seed)
    inputs = [rng.integers(-1000, 1000, (768, 192), dtype="int32") for _ in range(2)]
    right = rounds = killed = 0
    for number in range(given.rounds):
        folder = tempfile.mkdtemp(prefix="cubed-engine-", dir=given.dir)
        cluster = LocalCluster(n_workers=WORKERS, threads_per_worker=1, dashboard_address=None)
        client = Client(cluster)
        try:
            store = cengmoat.Store(folder, program=given.program, split_every=2)
            lazy = [store.save(name, values, chunks=(8, 96)) for name, values in zip("ab", inputs)]
            wanted = expressions(*inputs)
            for name, made in expressions(*lazy).items():
                client.wait_for_workers(WORKERS, timeout=30)
                killer = Killer(cluster, given.seconds, chance)
                killer.start()
                try:
                    made().store("y", executor=client)
                finally:
                    killer.ended.set()
                    killer.join()
                killed += killer.killed
                rounds += 1
                same = numpy.array_equal(store.read("y"), wanted[name]())
                right += same
                print(f"round {number}, {name}: {'right' if same else 'WRONG'}, {killer.killed} workers killed", flush=True)
                store.remove("y")
        except TimeoutError:
            print(f"round {number}: the cluster gave a worker up", flush=True)
        finally:
            client.close(timeout=5)
            cluster.close(timeout=5)
            shutil.rmtree(folder, ignore_errors=True)
    print(f"{right} of {rounds} right, {killed} workers killed")
    return 0 if right == rounds else 1


if __name__ == "__main__":
    sys.exit(main())
