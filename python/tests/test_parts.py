"""Runs in parts by an executor, over a program that plays the parts, and over the proved one where it has them."""
from __future__ import annotations

import concurrent.futures
import multiprocessing
import os
import threading
import unittest
from typing import Any

from .support import PROGRAM, Case, WithProgram, cengmoat, np, xp

# A program of two operations of six tasks, the second of which reads the first; it writes down what it is asked.
PLAYED = """
import json, re
command, options = words[1], dict(zip(words[2::2], words[3::2]))
text = sys.stdin.read()
if not text:
    print("error 3 code=1 node=0", file=sys.stderr)
    sys.exit(3)
folder, name = words[0], json.loads(text)["store_as"]
LOG, FAIL = LOG_PATH, FAIL_PATH
with open(LOG, "a") as log:
    log.write(" ".join([command, *(options.get(it, "") for it in ("--op", "--from", "--to"))]).strip() + chr(10))
def put(key, data):
    path = os.path.join(folder, key)
    os.makedirs(os.path.dirname(path), exist_ok=True)
    open(path, "wb").write(data)
plan = "op 0 map node=1 tasks=6 cells=6 projected=9READ0" + chr(10) + "op 1 map node=2 tasks=6 cells=6 projected=9READ1" + chr(10) + "plan ops=2 tasks=12 cells=12 peak=9"
if command in ("begin", "plan"):
    if command == "begin":
        put(f"_cubed/{name}/plan.json", b"{}")
        put(f"{name}/zarr.json", open(os.path.join(folder, "t", "zarr.json"), "rb").read())
    print(plan.replace("READ0", " reads=" if command == "begin" else "").replace("READ1", " reads=0" if command == "begin" else ""))
elif command == "part":
    op, start, stop = (int(options[it]) for it in ("--op", "--from", "--to"))
    if os.path.exists(FAIL):
        how = open(FAIL).read()
        os.unlink(FAIL)
        if how == "die":
            os.kill(os.getpid(), 9)
        print(how, file=sys.stderr)
        sys.exit(int(how.split()[1]))
    for at in range(start, stop):
        if op == 1 and not os.path.exists(os.path.join(folder, f"_cubed/{name}/0/c/{at}")):
            print(f"error 21 op=1 task={at}", file=sys.stderr)
            sys.exit(21)
        put(f"_cubed/{name}/0/c/{at}" if op == 0 else f"{name}/c/{at}", bytes([at]))
    print(f"ok ops=1 tasks={stop - start} starts={stop - start} failed=0 peak=9")
else:
    print("ok ops=2 tasks=12 starts=0 failed=0 peak=9")
"""


class Simple:
    """The least that an executor is."""

    class Future:
        def __init__(self, value: Any) -> None:
            self.value = value

        def result(self) -> Any:
            return self.value

    def submit(self, f: Any, *args: Any) -> Simple.Future:
        return Simple.Future(f(*args))


class Played(Case):
    def setUp(self) -> None:
        super().setUp()
        self.log, self.fail_at = os.path.join(self.folder, "log"), os.path.join(self.folder, "fails")
        text = PLAYED.replace("LOG_PATH", repr(self.log)).replace("FAIL_PATH", repr(self.fail_at))
        self.here = self.store(program=self.fake_program(text))
        self.x = self.here.save("t", np.arange(6, dtype="int8"), 1) * 2 + 1
        self.first = cengmoat._parts.FIRST_TASKS
        cengmoat._parts.FIRST_TASKS = 2
        self.addCleanup(setattr, cengmoat._parts, "FIRST_TASKS", self.first)

    def said(self) -> list[str]:
        with open(self.log, encoding="utf-8") as file:
            return file.read().splitlines()

    def test_parts_are_handed_on_when_their_inputs_are_done(self) -> None:
        with concurrent.futures.ThreadPoolExecutor(3) as pool:
            for number, executor in enumerate((pool, Simple())):
                if os.path.exists(self.log):
                    os.unlink(self.log)
                stored = self.x.store(f"y{number}", executor=executor)
                self.same(stored.compute(), np.arange(6, dtype="int8"))
                said = self.said()
                self.assertEqual((said[0], said[-1]), ("begin", "resume"))
                parts = [tuple(map(int, line.split()[1:])) for line in said if line.startswith("part")]
                for op in (0, 1):
                    tasks = sorted(at for its, start, stop in parts if its == op for at in range(start, stop))
                    self.assertEqual(tasks, list(range(6)))
                self.assertGreater(min(at for at, part in enumerate(parts) if part[0] == 1), max(at for at, part in enumerate(parts) if part[0] == 0))

    def test_workers_that_live_on_hold_no_lock(self) -> None:
        """A pool forks its workers while the lock is held, and they have its open file."""
        with concurrent.futures.ProcessPoolExecutor(2, multiprocessing.get_context("fork")) as pool:
            self.x.store("y", executor=pool)
            self.assertEqual(self.here.status()["y"].state, "finished")
            self.here.remove("y")
            self.same(self.x.store("y", executor=pool).compute(), np.arange(6, dtype="int8"))

    def test_lost_workers_and_early_parts_are_tried_again(self) -> None:
        for how in ("die", "error 21 op=0 task=0"):
            with open(self.fail_at, "w", encoding="utf-8") as file:
                file.write(how)
            name = "y" + how[:3]
            self.same(self.x.store(name, executor=Simple()).compute(), np.arange(6, dtype="int8"))
            self.assertFalse(os.path.exists(self.fail_at))

        class Broken(Simple):
            def submit(self, f: Any, *args: Any) -> Any:
                future: concurrent.futures.Future[Any] = concurrent.futures.Future()
                future.set_exception(RuntimeError("a worker is gone"))
                return future

        with self.assertRaises(cengmoat.Stopped) as found:
            self.x.store("z", executor=Broken())
        self.assertIn("a worker is gone", str(found.exception))
        self.assertIn("x.store('z', resume=True) goes on", str(found.exception))

    def test_other_answers_end_the_run(self) -> None:
        with open(self.fail_at, "w", encoding="utf-8") as file:
            file.write("error 10 op=0 task=1")
        with self.assertRaises(cengmoat.TaskFailed):
            self.x.store("y", executor=Simple())
        self.assertEqual(self.here.status()["y"].state, "unfinished")

    def test_ctrl_c_cancels_what_waits(self) -> None:
        cancelled: list[Any] = []

        class Waiting:
            class Future:
                def add_done_callback(self, f: Any) -> None:
                    threading.Timer(0.05, lambda: f(self)).start()

                def result(self) -> Any:
                    raise KeyboardInterrupt

                def cancel(self) -> None:
                    cancelled.append(self)

            def submit(self, f: Any, *args: Any) -> Any:
                return Waiting.Future()

        with self.assertRaises(KeyboardInterrupt) as found:
            self.x.store("y", executor=Waiting())
        self.assertGreater(len(cancelled), 0)
        self.assertIn("x.store('y', resume=True) goes on", str(found.exception))

    def test_paths_on_other_machines(self) -> None:
        mapped = cengmoat._parts.mapped
        paths = {"/data": "/mnt", "/data/fast": "/fast", "/opt/cubed": "/usr/bin/cubed"}
        self.assertEqual([mapped(it, paths) for it in ("/data/a", "/data/fast/b", "/database", "/opt/cubed")],
                         ["/mnt/a", "/fast/b", "/database", "/usr/bin/cubed"])

    def test_a_program_without_parts(self) -> None:
        here = self.store(program=self.fake_program("sys.exit(2)"))
        self.assertRaises(NotImplementedError, (here["t"] + 1).store, "y", executor=Simple())


class Parts(WithProgram):
    def test_over_the_program(self) -> None:
        if not cengmoat._offers.offers_words(PROGRAM or "", "begin"):
            self.skipTest("the program has no parts")
        here = self.store()
        data = np.arange(60, dtype="int32").reshape(10, 6)
        t = here.save("t", data, (2, 3))
        with concurrent.futures.ProcessPoolExecutor(2) as pool:
            for number, (lazy, exact) in enumerate(((t * 2 + 1, data * 2 + 1), (t.sum(axis=0), data.sum(axis=0)), (t.rechunk((10, 1)).max(axis=1), data.max(axis=1)),
                                                    (xp.flip(t) + np.arange(6, dtype="int32"), data[::-1, ::-1] + np.arange(6, dtype="int32")))):
                self.same(lazy.store(f"y{number}", executor=pool).compute(), exact)
            self.same((t + 1).store("y0x", executor=pool, progress=True).compute(), data + 1)


if __name__ == "__main__":
    unittest.main()
