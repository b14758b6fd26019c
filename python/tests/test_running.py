"""Runs: what is left after an interrupt, locks, unfinished results, plans and progress."""
from __future__ import annotations

import io
import os
import signal
import subprocess
import sys
import textwrap
import threading
import time
import unittest
from typing import Any

from .support import PROGRAM, PYTHON, Case, WithProgram, cengmoat, np, xp

# A program that begins a run, stores one chunk, and goes on until it is stopped.
ENDLESS = """
import json
job = json.load(sys.stdin)
name = job["store_as"]
def put(key, text):
    path = os.path.join(words[0], key)
    os.makedirs(os.path.dirname(path), exist_ok=True)
    with open(path, "w") as file:
        file.write(text)
meta = open(os.path.join(words[0], "t", "zarr.json")).read()
put(f"_cubed/{name}/plan.json", "{}")
put(f"_cubed/{name}/0/c/0", "x")
put(f"{name}/zarr.json", meta)
put(f"{name}/c/0", "x" * 16)
put("begun", "")
time.sleep(600)
"""


# (a process that runs in the background may have been told to leave Ctrl-C alone)
HEARS = "import signal\nsignal.signal(signal.SIGINT, signal.default_int_handler)\n"


def until(holds: Any) -> None:
    """Wait until something holds, at most a minute."""
    end = time.monotonic() + 60
    while not holds():
        if time.monotonic() > end:
            raise AssertionError("it didn't come")
        time.sleep(0.01)


class Interrupts(Case):
    """What a run leaves that is stopped in its midst."""

    def begin(self, work: str, program: str) -> subprocess.Popen[bytes]:
        """Start Python with a store `s` and its array `t`, and let it work."""
        script = f"{HEARS}import cengmoat\ns = cengmoat.Store({self.here.folder!r}, program={program!r})\nt = s['t']\n{work}"
        return subprocess.Popen([sys.executable, "-c", script], env={**os.environ, "PYTHONPATH": PYTHON}, stderr=subprocess.PIPE)

    def setUp(self) -> None:
        super().setUp()
        self.here = self.store()
        self.here.save("t", np.arange(6, dtype="int32"), 4)
        self.before = self.keys(self.here.folder)
        self.begun = os.path.join(self.here.folder, "begun")

    def left(self) -> list[str]:
        return [key for key in self.keys(self.here.folder) if key not in self.before and key != "begun"]

    def end(self, process: subprocess.Popen[bytes]) -> bytes:
        """Return what Python wrote on standard error, once it has ended."""
        return process.communicate(timeout=20)[1]

    def test_ctrl_c_leaves_no_key(self) -> None:
        process = self.begin("(t + 1).compute()", self.fake_program(ENDLESS))
        until(lambda: os.path.exists(self.begun))
        self.assertEqual(len(self.left()), 4)
        process.send_signal(signal.SIGINT)
        self.assertIn(b"KeyboardInterrupt", self.end(process))
        self.assertEqual(self.left(), [])
        self.assertEqual(os.listdir(os.path.join(self.here.folder, ".locks")), ["t"])

    def test_ctrl_c_in_memory_too(self) -> None:
        process = self.begin("import numpy\n(t + numpy.arange(6)).compute()", self.fake_program(ENDLESS))
        until(lambda: os.path.exists(self.begun))
        self.assertEqual(sum("-0/" in key for key in self.left()), 2)
        process.send_signal(signal.SIGINT)
        self.end(process)
        self.assertEqual(self.left(), [])

    def test_ctrl_c_waits_for_the_end_of_clearing(self) -> None:
        done = []
        before = signal.signal(signal.SIGINT, signal.default_int_handler)
        self.addCleanup(signal.signal, signal.SIGINT, before)
        with self.assertRaises(KeyboardInterrupt):
            with cengmoat._temporary.uninterrupted():
                signal.raise_signal(signal.SIGINT)
                done.append(True)
        self.assertEqual(done, [True])
        self.assertIs(signal.getsignal(signal.SIGINT), signal.default_int_handler)

    def test_an_error_leaves_no_key(self) -> None:
        ending = ENDLESS.replace("time.sleep(600)", "sys.stderr.write('error 10 op=0 task=1')\nsys.exit(10)")
        store = self.store(program=self.fake_program(ending))
        self.assertRaises(cengmoat.TaskFailed, (store["t"] + 1).compute)
        self.assertEqual(self.left(), [])

    def test_a_killed_process_is_cleared_after(self) -> None:
        process = self.begin("(t + 1).compute()", self.fake_program(ENDLESS))
        until(lambda: os.path.exists(self.begun))
        process.kill()
        self.end(process)
        # (the program ends with the process that started it, and the lock with both)
        [name] = [it for it in os.listdir(os.path.join(self.here.folder, ".locks")) if it.startswith("tmp-")]
        until(lambda: not cengmoat._locks.is_locked(self.here.folder, name))
        self.assertEqual(len(self.left()), 4)
        ending = "sys.stderr.write('error 70')\nsys.exit(70)"
        store = self.store(program=self.fake_program(ending))
        self.assertRaises(cengmoat.NoMemory, (store["t"] + 1).compute)
        self.assertEqual(self.left(), [])

    def test_ctrl_c_says_what_is_left(self) -> None:
        for work, wanted in (("(t + 1).compute()", ["x.compute() in", "was stopped. Nothing of it is left."]),
                             ("(t + 1).store('y')", ["x.store('y') in", "Left of y: 1 of 2 chunks (16 B), 1 files on the way to them (1 B), and the record",
                                                     "x.store('y', resume=True) goes on", "store.remove('y') removes it"])):
            if os.path.exists(self.begun):
                os.unlink(self.begun)
            process = self.begin(work, self.fake_program(ENDLESS))
            until(lambda: os.path.exists(self.begun))
            process.send_signal(signal.SIGINT)
            said = process.communicate(timeout=60)[1].decode()
            last = said.strip().splitlines()[-1]
            self.assertTrue(last.startswith("KeyboardInterrupt: "), said)
            for text in wanted:
                self.assertIn(text, last)

    def test_a_lock_says_who_holds_it(self) -> None:
        process = self.begin("(t + 1).store('y')", self.fake_program(ENDLESS))
        until(lambda: os.path.exists(self.begun))
        with self.assertRaises(cengmoat.Locked) as found:
            self.here.save("y", np.arange(3))
        self.assertEqual(found.exception.pid, process.pid)
        self.assertRegex(str(found.exception), rf"process {process.pid}, since \d{{4}}-\d\d-\d\d \d\d:\d\d:\d\d: wait")
        process.send_signal(signal.SIGINT)
        self.end(process)

    def test_two_runs_of_one_name(self) -> None:
        process = self.begin("(t + 1).store('y')", self.fake_program(ENDLESS))
        until(lambda: os.path.exists(self.begun))
        store = self.store(program=self.fake_program("print('ok ops=1 tasks=2 starts=2 failed=0 peak=1600')"))
        self.assertRaises(cengmoat.Locked, (store["t"] + 1).store, "y")
        self.assertRaises(cengmoat.Locked, store.save, "y", np.arange(3))
        self.assertRaises(cengmoat.Locked, store.remove, "y")
        self.assertEqual(store.status()["y"].state, "running")
        process.send_signal(signal.SIGINT)
        self.end(process)
        self.assertEqual(store.status()["y"].state, "unfinished")
        store.remove("y")
        self.assertEqual(self.left(), [])

    def test_locks_of_threads(self) -> None:
        store = self.store(program=self.fake_program(ENDLESS.replace("sleep(600)", "sleep(1)")))
        found: list[BaseException] = []

        def run() -> None:
            try:
                (store["t"] + 1).store("y")
            except Exception as error:
                found.append(error)

        threads = [threading.Thread(target=run) for _ in range(3)]
        for thread in threads:
            thread.start()
        for thread in threads:
            thread.join()
        self.assertEqual(sum(isinstance(error, cengmoat.Locked) for error in found), 2, found)


class Words(Case):
    def test_words_of_each_command(self) -> None:
        """What a store says is what the program is told."""
        path = os.path.join(self.folder, "words")
        text = f"open({path!r}, 'a').write(' '.join(words) + chr(10))\nsys.stderr.write('error 70')\nsys.exit(70)"
        here = self.store(program=self.fake_program(text), allowed_mem="1MB", reserved_mem=7, workers=3, retries=1, split_every=5)
        t = here.save("t", np.arange(4))
        for call in ((t + 1).plan, lambda: (t + 1).store("y"), lambda: (t + 1).check("t")):
            self.assertRaises(cengmoat.NoMemory, call)
        memory = "--allowed-mem 1000000 --reserved-mem 7 --split-every 5"
        said = self.words_in(path, here.folder)
        self.assertEqual(said, [f"{here.folder} plan {memory}", f"{here.folder} run {memory} --retries 1 --workers 3",
                                f"{here.folder} check --retries 1"])
        os.unlink(path)
        self.assertRaises(cengmoat.NoMemory, (self.store(program=here.program)["t"] + 1).store, "y")
        processors = len(os.sched_getaffinity(0))
        self.assertEqual(self.words_in(path, here.folder), [f"{here.folder} run --allowed-mem 200000000 --reserved-mem 0 --split-every 4 --retries 2"
                                                            f"{f' --workers {processors}' if processors > 1 else ''}"])

    def words_in(self, path: str, folder: str) -> list[str]:
        """Return what a program was told over a folder; what it offers is asked of it over another one."""
        with open(path, encoding="utf-8") as file:
            return [line for line in file.read().splitlines() if line.startswith(f"{folder} ")]

    def test_temporary_results_are_stored_without_syncs(self) -> None:
        """Where the program knows the option, which it is asked once."""
        for status in (3, 2, 1):
            offers = status == 3
            path = os.path.join(self.folder, f"words-{status}")
            text = f"""
words = words[1:]
open({path!r}, 'a').write(' '.join(words) + chr(10))
if not sys.stdin.read():
    sys.exit({status})
sys.stderr.write("error 70")
sys.exit(70)
"""
            here = self.store(program=self.fake_program(text), workers=1)
            t = here["t"] if "t" in here else here.save("t", np.arange(4))
            for call in ((t + 1).compute, (t + 2).compute, lambda: (t + 1).store("y")):
                self.assertRaises(cengmoat.NoMemory, call)
            with open(path, encoding="utf-8") as file:
                said = file.read().splitlines()
            run = f"run --allowed-mem 200000000 --reserved-mem 0 --split-every 4{' --fusion 2' if offers else ''} --retries 2"
            end = " --sync 0" if offers else ""
            self.assertEqual(said, ["plan --fusion 2", "run --sync 0", run + end, run + end, run])

    def test_workers_are_the_processors_that_the_process_may_use(self) -> None:
        code = "import os, cengmoat; os.sched_setaffinity(0, [min(os.sched_getaffinity(0))]); print(cengmoat.Store('x').workers, cengmoat.Store('x', workers=3).workers)"
        said = subprocess.run([sys.executable, "-c", code], env={**os.environ, "PYTHONPATH": PYTHON}, capture_output=True, text=True)
        self.assertEqual(said.stdout.split(), ["1", "3"], said.stderr)
        self.assertEqual(self.store().workers, min(64, len(os.sched_getaffinity(0))))


# A program that has both versions of plans, and writes down what it is told; it ends with 70 once there is a file `fails`.
BOTH_VERSIONS = """
import json
folder, *words = words
text = sys.stdin.read()
if not text:
    sys.exit(3)
job, options = json.loads(text), dict(zip(words[1::2], words[2::2]))
if words[0] != "plan":
    with open(os.path.join(folder, "told"), "a") as log:
        log.write(f"{words[0]} {options.get('--fusion')}" + chr(10))
if os.path.exists(os.path.join(folder, "fails")):
    print("error 70", file=sys.stderr)
    sys.exit(70)
def put(key, data):
    path = os.path.join(folder, key)
    os.makedirs(os.path.dirname(path), exist_ok=True)
    with open(path, "wb") as file:
        file.write(data)
if words[0] == "plan":
    print(f"op 0 map node=1 tasks=1 cells=1 projected=9{chr(10)}plan ops=1 tasks=1 cells=1 peak=9")
    sys.exit(0)
meta = open(os.path.join(folder, "t", "zarr.json"), "rb").read()
put(f"_cubed/{job['store_as']}/plan.json", json.dumps({"allowed": 200000000, "cubed": 1 + int(options.get("--fusion", 1)), "expr": job,
                                                      "inputs": {"t": json.loads(meta)}, "reserved": 0, "split_every": 4}).encode())
put(f"{job['store_as']}/zarr.json", meta)
put(f"{job['store_as']}/c/0", bytes(16))
print("ok ops=1 tasks=1 starts=1 failed=0 peak=9")
"""


class Versions(Case):
    """Plans of both versions: 2 is what a store takes, and a run that is taken up again goes by its record."""

    def setUp(self) -> None:
        super().setUp()
        self.here = self.store(program=self.fake_program(BOTH_VERSIONS), workers=1)
        self.t = self.here.save("t", np.arange(4, dtype="int32"))
        self.first = self.store(program=self.here.program, workers=1, fusion=1)

    def told(self) -> list[str]:
        """Return the commands that were run since this was asked, with what was said of the version."""
        path = os.path.join(self.here.folder, "told")
        with open(path, encoding="utf-8") as file:
            found = file.read().splitlines()
        os.unlink(path)
        return found

    def test_what_a_store_takes(self) -> None:
        self.assertEqual((self.here.fusion, self.first.fusion, cengmoat.Store(self.folder).fusion), (2, 1, 2))
        (self.t + 1).store("y")
        (self.t + 1).store("z", self.first)
        (self.t + 1).compute()
        (self.t + 1).compute(store=self.first)
        self.assertEqual(self.told(), ["run 2", "run None", "run 2", "run None"])
        lazy = cengmoat.from_zarr(self.here.folder, "t", program=self.here.program, workers=1, fusion=1) + 1
        lazy.compute()
        self.assertEqual(self.told(), ["run None"])

    def test_a_run_is_taken_up_by_its_record(self) -> None:
        (self.t + 1).store("y", self.first)
        (self.t + 1).store("z")
        for name in "yz":
            os.unlink(os.path.join(self.here.folder, name, "c", "0"))
        self.told()
        for store in (self.here, self.first):
            for name, version in (("y", "None"), ("z", "2")):
                (self.t + 1).store(name, store, resume=True)
                os.unlink(os.path.join(self.here.folder, name, "c", "0"))
                self.assertEqual(self.told(), [f"resume {version}"])
        (self.t + 1).store("new", self.first, resume=True)
        self.assertEqual(self.told(), ["run None"])

    def test_a_whole_result_of_either_version_is_taken_up_without_the_program(self) -> None:
        (self.t + 1).store("y", self.first)
        (self.t + 1).store("z")
        self.told()
        with open(os.path.join(self.here.folder, "fails"), "w", encoding="utf-8"):
            pass
        for store in (self.here, self.first):
            for name in "yz":
                (self.t + 1).store(name, store, resume=True)
                self.assertRaises(cengmoat.OtherPlan, (self.t + 2).store, name, store, resume=True)
        self.assertFalse(os.path.exists(os.path.join(self.here.folder, "told")))

    def test_a_record_of_no_version_is_another_plan(self) -> None:
        (self.t + 1).store("y")
        path = os.path.join(self.here.folder, "_cubed", "y", "plan.json")
        with open(path, encoding="utf-8") as file:
            record = file.read()
        for other in ("1", "4", "true", "[3]", "null", "3.5"):
            with open(path, "w", encoding="utf-8") as file:
                file.write(record.replace('"cubed": 3', f'"cubed": {other}'))
            self.assertRaises(cengmoat.OtherPlan, (self.t + 1).store, "y", resume=True)
        for other in ("", "[]", "{"):
            with open(path, "w", encoding="utf-8") as file:
                file.write(other)
            self.assertRaises(cengmoat.OtherPlan, (self.t + 1).store, "y", resume=True)


class Programs(Case):
    """Where the program is found."""

    def put(self, path: str, mode: int = 0o755) -> str:
        path = os.path.join(self.folder, path)
        os.makedirs(os.path.dirname(path), exist_ok=True)
        with open(path, "w", encoding="utf-8") as file:
            file.write("#!/bin/sh\n")
        os.chmod(path, mode)
        return path

    def test_behind_the_script_of_a_repository(self) -> None:
        find = cengmoat._program.find_program
        script = self.put("cubed")
        self.assertEqual(find(script), script)
        source, _ = self.put("crates/cu_top/src/lib.rt", 0o644), self.put("crates.txt", 0o644)
        self.assertRaises(cengmoat.NoProgram, find, script)
        built = self.put("crates/cu_bin/out/cu_bin")
        link = os.path.join(self.folder, "link")
        os.symlink(script, link)
        self.assertEqual((find(script), find(link)), (built, built))
        self.put("crates/cu_top/must-fail/a.rt")
        os.utime(source, (time.time() + 9, time.time() + 9))
        os.utime(built)
        self.assertRaises(cengmoat.NoProgram, find, script)
        archived = self.put("program/cubed")
        self.assertEqual(find(script), archived)

    def test_the_environment_and_the_path(self) -> None:
        code = "import cengmoat; print(cengmoat._program.find_program())"
        one, other = self.put("one/cubed"), self.put("other/program")
        for more, wanted in (({"CENGMOAT_CUBED": other}, other), ({"CENGMOAT_CUBED": other, "PATH": os.path.dirname(one)}, other)):
            said = subprocess.run([sys.executable, "-c", code], env={**os.environ, "PYTHONPATH": PYTHON, **more}, capture_output=True, text=True)
            self.assertEqual(said.stdout.strip(), wanted, said.stderr)
        self.assertRaises(cengmoat.NoProgram, cengmoat._program.find_program, os.path.join(self.folder, "none"))


class Unfinished(WithProgram):
    def setUp(self) -> None:
        super().setUp()
        self.here = self.store()
        self.t = self.here.save("t", np.arange(1, 13, dtype="int32").reshape(3, 4), (1, 3))
        self.y = self.t * 2 + 1
        self.y.store("y")
        self.exact = np.arange(1, 13, dtype="int32").reshape(3, 4) * 2 + 1

    def stop(self) -> None:
        """Leave what a run leaves that was stopped before its last chunks."""
        for key in ("y/c/1/1", "y/c/2/0", "y/c/2/1", "_cubed/y/0/c/2/1"):
            path = os.path.join(self.here.folder, key)
            if os.path.exists(path):
                os.unlink(path)

    def test_status(self) -> None:
        self.stop()
        found = self.here.status()["y"]
        self.assertEqual((found.name, found.dtype, found.shape, found.chunks), ("y", np.dtype("int32"), (3, 4), (1, 3)))
        self.assertEqual((found.stored, found.nchunks, found.is_finished, found.state, found.nbytes), (3, 6, False, "unfinished", 36))
        self.assertTrue(self.here.status()["t"].is_finished)
        self.assertIn("3 of 6", repr(self.here.status()))
        self.assertIn("unfinished", self.here.status()._repr_html_())
        os.unlink(os.path.join(self.here.folder, "y", "zarr.json"))
        self.assertFalse(self.here.status()["y"].is_finished)
        self.assertEqual(self.here.names(), ["t"])

    def test_it_is_refused_as_an_input(self) -> None:
        stored = self.here["y"]
        self.stop()
        self.assertRaises(cengmoat.Unfinished, self.here.__getitem__, "y")
        self.assertRaises(cengmoat.Unfinished, self.here.read, "y")
        self.assertRaises(cengmoat.Unfinished, (stored + 1).compute)
        self.assertRaises(cengmoat.Unfinished, stored.compute)
        self.assertRaises(cengmoat.Unfinished, self.y.check, "y")
        self.assertRaises(cengmoat.Unfinished, (stored + 1).store, "z")
        half = self.exact.copy()
        half[1, 3:], half[2] = 0, 0
        self.same((self.here.array("y", unfinished=True) + 1).compute(), half + 1)
        self.same(self.here.read("y", unfinished=True), half)
        self.same(cengmoat.from_zarr(self.here.folder, "y", unfinished=True, program=PROGRAM).compute(), half)

    def test_it_is_taken_up_again(self) -> None:
        self.stop()
        self.assertRaises(cengmoat.Exists, self.y.store, "y")
        with self.assertRaises(cengmoat.OtherPlan):
            (self.t * 2 + 3).store("y", resume=True)
        with self.assertRaises(cengmoat.OtherPlan):
            self.y.store("y", self.store(allowed_mem=10**6), resume=True)
        self.assertFalse(self.here.status()["y"].is_finished)
        self.same(self.y.store("y", resume=True).compute(), self.exact)
        self.same(self.y.store("y", resume=True).compute(), self.exact)
        self.same(self.y.store("new", resume=True).compute(), self.exact)
        self.assertTrue(all(it.is_finished for it in self.here.status()))

    def test_a_whole_result_is_taken_up_without_the_program(self) -> None:
        other = self.store()
        folder = os.path.join(self.here.folder, "old")
        os.makedirs(folder)
        with open(os.path.join(folder, ".zarray"), "w", encoding="utf-8") as file:
            file.write('{"chunks":[2],"compressor":null,"dtype":">i4","fill_value":-1,"filters":null,"order":"C","shape":[4],"zarr_format":2}')
        old = other["old"]
        for name, lazy in (("one", self.t * 2 + 1), ("two", old + self.t), ("three", self.t + np.array([1, 2, 3, 4], "int32"))):
            exact = lazy.store(name, other).compute()
            other._program = self.fake_program("sys.exit(70)")
            self.same(lazy.store(name, other, resume=True).compute(), exact)
            self.assertRaises(cengmoat.OtherPlan, (lazy + 1).store, name, other, resume=True)
            other._program = PROGRAM
        other.remove("old", inputs=True)
        self.here.save("old", np.array([1, 2, 3, 4], "int32"))
        self.assertRaises(cengmoat.OtherPlan, (other["old"] + self.t).store, "two", other, resume=True)

    def test_with_an_array_in_memory(self) -> None:
        def lazy() -> Any:
            return self.t + np.array([1, 2, 3, 4])

        lazy().store("m")
        os.unlink(os.path.join(self.here.folder, "m", "c", "2", "1"))
        self.same(lazy().store("m", resume=True).compute(), self.exact // 2 + np.array([1, 2, 3, 4]))
        self.assertEqual(self.here.names(), ["m", "t", "y"])


class Counts(Case):
    def test_an_input_is_known_to_be_finished_by_one_listing(self) -> None:
        """No chunk of an input of 1,000 chunks is looked at: its folder is listed once, and its record and metadata are read."""
        text = "print('equal 1000')"
        here = self.store(program=self.fake_program(text))
        y = here.save("y", np.arange(1000, dtype="int8"), 1)
        os.makedirs(os.path.join(here.folder, "_cubed", "y"))
        with open(os.path.join(here.folder, "_cubed", "y", "plan.json"), "w", encoding="utf-8"):
            pass
        asked: list[str] = []
        before = os.stat, os.scandir, os.open

        def counting(call: Any) -> Any:
            def counted(path: Any, *args: Any, **options: Any) -> Any:
                if isinstance(path, str) and path.startswith(os.path.join(here.folder, "y")):
                    asked.append(path)
                return call(path, *args, **options)
            return counted

        os.stat, os.scandir, os.open = map(counting, before)  # type: ignore[assignment]
        try:
            (y + 1).check("y")
        finally:
            os.stat, os.scandir, os.open = before
        self.assertLess(len(asked), 12, asked)
        self.assertEqual(sum(path.endswith("y/c") for path in asked), 2)


class Running(WithProgram):
    def setUp(self) -> None:
        super().setUp()
        self.here = self.store()
        self.data = np.arange(-10, 20, dtype="int16").reshape(5, 6)
        self.t = self.here.save("t", self.data, (2, 4))

    def test_compute_leaves_no_key(self) -> None:
        before = self.keys(self.here.folder)
        a, b, again = cengmoat.compute(self.t + 1, (self.t > 3).any(axis=1), self.t + 1)
        self.same(a, self.data + np.int16(1))
        self.same(b, (self.data > 3).any(axis=1))
        self.same(again, self.data + np.int16(1))
        self.same(np.asarray(self.t - self.t), self.data - self.data)
        self.assertEqual(self.keys(self.here.folder), before)
        self.assertEqual(cengmoat.compute(), ())

    def test_values(self) -> None:
        total = self.t.sum()
        self.assertEqual((int(total), bool(total), float(total), complex(total), range(20)[self.t.max()]), (135, True, 135.0, 135 + 0j, 19))
        self.assertFalse(bool((self.t > 100).any()))
        self.assertEqual([int(row.sum()) for row in self.t], self.data.sum(axis=1).tolist())

    def test_storing(self) -> None:
        stored = cengmoat.to_zarr(self.t.T, "turned")
        self.assertEqual((stored.node.op, stored.shape, stored.chunksize), ("input", (6, 5), (4, 2)))
        self.assertEqual(self.here.report.ops, 1)
        self.same(self.here.read("turned", (slice(1, None, 2), -1)), self.data.T[1::2, -1])
        self.same(cengmoat.from_zarr(self.here.folder, "turned", program=PROGRAM).compute(), self.data.T)
        (xp.asarray([1, 2]) - xp.asarray([5, 9])).store("memory", self.here)
        self.same(self.here.read("memory"), np.array([-4, -7]))
        self.assertEqual([name for name in self.here.names() if name.startswith("data-")], [])
        xp.ones((2, 2), dtype="uint8").store("made", self.here)
        self.same(self.here.read("made"), np.ones((2, 2), "uint8"))

    def test_plans(self) -> None:
        lazy = (self.t + self.here.save("o", np.ones(6, "int8"), 6)).sum(axis=0)
        exact = (self.data + np.ones(6, "int8")).sum(axis=0)
        # Of each operation its kind, its tasks, its chunks and their bytes.
        inner = [("fold", 6, 6, 6 * 32), ("merge", 2, 2, 2 * 32)]
        for fusion, wanted in ((1, [("copy", 1, 2, 2 * 4), ("map", 6, 6, 6 * 16), *inner]), (2, [("copy", 1, 2, 2 * 4), *inner])):
            here = self.store(fusion=fusion)
            plan = lazy.plan(store=here)
            self.assertEqual([(it.kind, it.tasks, it.stored, it.nbytes) for it in plan], wanted)
            self.assertEqual((plan.tasks, plan.stored, plan.nbytes), tuple(sum(column) for column in list(zip(*wanted))[1:]))
            self.assertEqual(plan.peak, max(it.memory for it in plan))
            self.same(lazy.store(f"sums{fusion}", here, keep=True).compute(), exact)
            self.assertEqual((here.report.tasks, here.report.peak), (plan.tasks, plan.peak))
            self.assertEqual(self.stored_bytes(f"sums{fusion}"), plan.nbytes)
            for said in ("t + o", "sum(t + o, axis=0)", "(5, 6)", "int16", "copy", "peak"):
                self.assertIn(said, repr(plan))
            self.assertIn("<table>", plan._repr_html_())

    def test_what_plans_read_and_inline(self) -> None:
        self.here.save("o", np.ones(6, "int8"), 6)
        for fusion in (1, 2):
            store = self.store(workers=3, fusion=fusion)
            t = store["t"]
            for lazy, *wanted in self.planned(t, store["o"]):
                plan = lazy.plan()
                reads, inlined = wanted[fusion - 1] if len(wanted) > 1 else wanted[0]
                found = {(it.kind, it.number): it.reads for it in plan}
                if plan.operations[0].kind == "copy" and len(plan) == len(reads) + 1:
                    found.pop(("copy", 0))
                self.assertEqual((list(found.values()), plan.inlined), (reads, inlined), plan)
                self.assertEqual((plan.inputs["t"], plan.workers, plan.memory), (6 * 16, 3, plan.peak * min(3, max(it.tasks for it in plan))))
                for said in ("computed within the tasks of others", "read: t (96 B)", f"memory: at most {cengmoat._sizes.bytes_text(plan.memory)} with 3 workers"):
                    self.assertIn(said, repr(plan))
                    self.assertIn(said, plan._repr_html_())

    def planned(self, t: cengmoat.Array, o: cengmoat.Array) -> list[tuple[Any, ...]]:
        """Return expressions with what each operation reads and what is computed within others, for both versions where they differ."""
        lines = np.arange(6, dtype="int16")
        square = (t + 1) * (t + 1)
        return [
            ((t + o).sum(axis=0), ([("o",), ("t", "op 0"), ("op 1",), ("op 2",)], ()), ([("o",), ("t", "op 0"), ("op 1",)], ("t + o",))),
            ((t + o) * 2, ([("o",), ("t", "op 0")], ("t + o",))), ((t * 2 + 1).rechunk((5, 6)), ([("t",), ("op 0",)], ("t * 2",))),
            (t.argmax(axis=0), ([("t",), ("op 0",)], ())), (t @ t.T, ([("t",), ("t", "op 0"), ("op 1",)], ())),
            (xp.flip(t) + 1, ([("t",), ("op 0",)], ()), ([("t",)], ("flip(t, axis=(0, 1))",))), (xp.flip(t) + t, ([("t",), ("op 0", "t")], ()), ([("t",)], ("flip(t, axis=(0, 1))",))),
            (square.max(), ([("t",), ("op 0",), ("op 1",), ("op 2",), ("op 3",)], ()), ([("t",), ("op 0",), ("op 1",)], ("t + 1", "(t + 1) * (t + 1)"))),
            (t - lines, ([("t", "op 0")], ())), (t.cumsum(0), ([("t",), ("op 0",), ("t", "op 1")], ())), (cengmoat.groupby_sum(t, lines, 1, 3), ([("t", "op 0"), ("op 1",)], ())),
            (t.cumsum(0) * 2, ([("t",), ("op 0",), ("t", "op 1"), ("op 2",)], ()), ([("t",), ("op 0",), ("t", "op 1")], ("cumulative_sum(t, axis=0)",))),
            (t.sum(axis=0) // 2, ([("t",), ("op 0",), ("op 1",)], ()), ([("t",), ("op 0",)], ("sum(t, axis=0)",))),
            (t.rechunk((5, 6)).rechunk((1, 6)), ([("t",), ("op 0",)], ()), ([("t",)], ("rechunk(t, chunks=(5, 6))",)))]

    def test_an_expression_that_is_read_twice_at_each_step(self) -> None:
        """What it reads is found once for each of its nodes."""
        x, exact = self.t, self.data
        for _ in range(30):
            x, exact = x * x, exact * exact
        self.assertEqual([it.reads for it in x.plan()], [("t",)])
        self.same(x.compute(), exact)

    def test_a_run_that_is_explained(self) -> None:
        for call in (lambda: (self.t + 1).compute(explain=True), lambda: (self.t + 1).store("y", explain=True),
                     lambda: cengmoat.compute(self.t + 1, explain=True), lambda: cengmoat.to_zarr(self.t + 1, "z", explain=True)):
            before, sys.stdout = sys.stdout, io.StringIO()
            try:
                call()
                said = sys.stdout.getvalue()
            finally:
                sys.stdout = before
            self.assertIn(repr((self.t + 1).plan()), said)

    def stored_bytes(self, name: str) -> int:
        """Return the bytes of all chunks of a run."""
        return sum(os.path.getsize(os.path.join(at, file)) for top in (name, f"_cubed/{name}")
                   for at, _, files in os.walk(os.path.join(self.here.folder, top)) for file in files if not file.endswith(".json"))

    def test_bytes_of_plans(self) -> None:
        wide = self.here.save("wide", np.arange(96, dtype="int32").reshape(8, 12), (8, 1))
        for number, lazy in enumerate((wide.rechunk((1, 12)), wide.argmax(axis=1), wide.argmin(), wide[:, ::2], wide.any(),
                                       wide @ wide.T, xp.matmul(wide[:, 0], wide), wide.astype("int8").astype("int64"), wide.sum(axis=0),
                                       wide.cumsum(1), wide.cumsum(0), cengmoat.groupby_min(wide, np.arange(12), 1, 5), cengmoat.groupby_sum(wide, np.arange(8), 0, 3),
                                       wide.cumsum(1) + 1, wide.sum(axis=1) * 2, (wide + 1).argmax(axis=1), wide.rechunk((3, 4)).rechunk((8, 5)), (wide + wide.rechunk((2, 3))).max())):
            for fusion in (1, 2):
                here = self.store(allowed_mem=300 if number == 0 else 10**5, fusion=fusion)
                plan = lazy.plan(store=here)
                lazy.store(f"r{number}-{fusion}", here, keep=True)
                self.assertEqual(self.stored_bytes(f"r{number}-{fusion}"), plan.nbytes, plan)
        self.assertEqual([it.kind for it in wide.rechunk((1, 12)).plan(store=self.store(allowed_mem=300))], ["copy", "copy"])
        levels = wide.cumsum(1).plan(store=self.store(split_every=3))
        self.assertEqual([it.kind for it in levels], ["fold", "merge", "merge", "carry", "carry", "carry", "scan"])
        self.assertEqual([it.reads for it in levels][3:], [("op 2",), ("op 1", "op 3"), ("op 0", "op 4"), ("wide", "op 5")])

    def test_progress(self) -> None:
        plan = (self.t * 2 + 1).plan()
        stream = io.StringIO()
        bar = cengmoat._progress.Bar(self.here.folder, "p", plan, "p", stream)
        bar.bar = None
        (self.t * 2 + 1).store("p", keep=True)
        self.assertEqual(bar.stored(), plan.stored)
        bar.show(plan.operations[0].stored)
        bar.watch()
        bar.close(True)
        self.assertIn(f"{plan.operations[0].tasks}/{plan.tasks} tasks", stream.getvalue())
        self.assertIn(f"{plan.tasks}/{plan.tasks} tasks", stream.getvalue())
        before, sys.stderr = sys.stderr, io.StringIO()
        try:
            (self.t + 1).store("q", progress=True)
            self.assertIn("6/6", sys.stderr.getvalue())
            self.assertIn("96 B of 96 B", sys.stderr.getvalue())
            (self.t + 1).store("r", progress=False)
            self.assertNotIn("r:", sys.stderr.getvalue())
        finally:
            sys.stderr = before

    def test_a_real_run_is_interrupted(self) -> None:
        self.here.save("big", np.ones(1500, "int64"), 1)
        before = self.keys(self.here.folder)
        work = HEARS + textwrap.dedent(f"""
            import cengmoat
            x = cengmoat.Store({self.here.folder!r}, program={PROGRAM!r})["big"]
            for _ in range(8):
                x = cengmoat.array_api.flip(x)
            x.compute()
        """)
        # (it is tried again where the run ended before it was interrupted)
        self.assertTrue(any(self.interrupted(work, before) for _ in range(5)))

    def interrupted(self, work: str, before: list[str]) -> bool:
        """Interrupt a run when it has stored some chunks, see that nothing of it is left, and return whether it was in time."""
        process = subprocess.Popen([sys.executable, "-c", work], env={**os.environ, "PYTHONPATH": PYTHON}, stdout=subprocess.PIPE,
                                   stderr=subprocess.PIPE)
        records = os.path.join(self.here.folder, "_cubed")

        def begun() -> bool:
            heads = os.listdir(records) if os.path.isdir(records) else []
            return process.poll() is not None or any(os.path.isdir(os.path.join(records, head, "0", "c")) for head in heads)

        until(begun)
        process.send_signal(signal.SIGINT)
        said = process.communicate(timeout=60)[1]
        self.assertEqual(self.keys(self.here.folder), before)
        return b"KeyboardInterrupt" in said


if __name__ == "__main__":
    unittest.main()
