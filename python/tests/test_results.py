"""Results over others, what status says, programs that end with their starter, who works, and errors of files."""
from __future__ import annotations

import concurrent.futures
import json
import os
import pwd
import signal
import subprocess
import sys
import textwrap
import time
import unittest
from typing import Any
from unittest import mock

from .support import PROGRAM, PYTHON, TOP, Case, WithProgram, cengmoat, np
from .test_running import ENDLESS, HEARS, until


class Executors(Case):
    def test_what_is_no_executor_is_refused_before_anything_is_stored(self) -> None:
        here = self.store(program=self.fake_program("open(words[0] + '/called', 'w')\nsys.exit(70)"))
        t = here.save("t", np.arange(4))
        before = self.keys(self.folder)

        class Odd:
            submit = 3

        for bad in ("dask", 4, object(), Odd(), concurrent.futures.ThreadPoolExecutor, [], True, lambda f: f):
            with self.assertRaises(TypeError, msg=bad) as found:
                (t + 1).store("y", executor=bad)
            self.assertIn("submit(f, *args)", str(found.exception))
        self.assertEqual(self.keys(self.folder), before)


class Overwriting(WithProgram):
    def setUp(self) -> None:
        super().setUp()
        self.here = self.store()
        self.data = np.arange(6, dtype="int32")
        self.t = self.here.save("t", self.data, 2)

    def test_a_result_is_replaced(self) -> None:
        (self.t + 1).store("y", keep=True)
        self.assertRaises(cengmoat.Exists, (self.t + 2).store, "y")
        self.same((self.t + 2).store("y", overwrite=True).compute(), self.data + np.int32(2))
        self.same((self.t.sum()).store("y", overwrite=True).compute(), np.array(15))
        os.unlink(os.path.join(self.here.folder, "y", "c"))
        self.assertEqual(self.here.status()["y"].state, "unfinished")
        self.same(cengmoat.to_zarr(self.t * 3, "y", overwrite=True).compute(), self.data * np.int32(3))
        os.unlink(os.path.join(self.here.folder, "y", "zarr.json"))
        self.same((self.t + np.arange(6, dtype="int32")).store("y", overwrite=True).compute(), self.data * np.int32(2))
        self.same((self.t - 1).store("new", overwrite=True).compute(), self.data - np.int32(1))
        self.assertEqual([key for key in self.keys(self.here.folder) if "data-" in key], [])

    def test_nothing_else_goes(self) -> None:
        y = (self.t + 1).store("y")
        self.here.save("mine", np.arange(3))
        os.symlink(os.path.join(self.here.folder, "mine"), os.path.join(self.here.folder, "link"))
        os.makedirs(os.path.join(self.here.folder, "group", "a"))
        for key, text in (("group/zarr.json", '{"zarr_format":3,"node_type":"group"}'), ("group/a/zarr.json", "{}"), ("y/notes", "mine")):
            with open(os.path.join(self.here.folder, key), "w", encoding="utf-8") as file:
                file.write(text)
        before = self.keys(self.here.folder)
        for name in ("mine", "link", "group", "t"):
            with self.assertRaises((cengmoat.NotRemoved, ValueError)):
                (self.t + 2).store(name, overwrite=True)
        with self.assertRaises(ValueError) as found:
            (y + 1).store("y", overwrite=True)
        self.assertIn("reads y", str(found.exception))
        self.assertRaises(ValueError, (self.t + 1).store, "y", overwrite=True, resume=True)
        self.assertRaises(TypeError, (self.t + 2).store, "y", overwrite=True, executor="none")
        with self.assertRaises(cengmoat.OverMemory):
            (self.t + 2).store("y", self.store(allowed_mem=100), overwrite=True)
        gone = self.here.save("gone", np.arange(6, dtype="int32"))
        self.here.remove("gone", inputs=True)
        self.assertRaises(cengmoat.NoArray, (gone + 1).store, "y", overwrite=True)
        self.assertEqual(self.keys(self.here.folder), before)
        self.same(y.compute(), self.data + np.int32(1))
        self.same((self.t + 2).store("y", overwrite=True).compute(), self.data + np.int32(2))
        self.assertIn("y/notes", self.keys(self.here.folder))

    def test_it_waits_for_no_run(self) -> None:
        (self.t + 1).store("y")
        with cengmoat._locks.locked(self.here.folder, "y"):
            self.assertRaises(cengmoat.Locked, (self.t + 2).store, "y", overwrite=True)
        self.same(self.here.read("y"), self.data + np.int32(1))


class Said(Case):
    def setUp(self) -> None:
        super().setUp()
        self.here = self.store()
        self.here.save("t", np.arange(6, dtype="int32"), 2)
        plain = json.loads(cengmoat._metadata.Metadata(np.dtype("int32"), (6,), (2,)).text())
        self.put("float/zarr.json", {**plain, "data_type": "float64"})
        self.put("packed/zarr.json", {**plain, "codecs": [*plain["codecs"], {"name": "zstd"}]})
        self.put("two/.zarray", {"chunks": [2], "compressor": {"id": "zlib"}, "dtype": "<i2", "fill_value": 0, "filters": None, "order": "C", "shape": [2],
                                 "zarr_format": 2})
        self.put("bad/zarr.json", [1])
        self.put("lost/c/0", 1)
        self.put("sparse/zarr.json", plain)
        self.put("_cubed/begun/plan.json", {})
        for name in ("half", "wrong", "done"):
            self.put(f"{name}/zarr.json", plain)
            self.put(f"_cubed/{name}/plan.json", {})
            for at in range(3 if name != "half" else 2):
                self.put(f"{name}/c/{at}", bytes(9 if name == "wrong" and at == 1 else 8))
        self.put("pipe/zarr.json", plain)
        os.mkdir(os.path.join(self.here.folder, "pipe", "c"))
        os.mkfifo(os.path.join(self.here.folder, "pipe", "c", "2"))

    def put(self, key: str, content: Any) -> None:
        path = os.path.join(self.here.folder, key)
        os.makedirs(os.path.dirname(path), exist_ok=True)
        with open(path, "wb") as file:
            file.write(content if isinstance(content, bytes) else json.dumps(content).encode())

    def test_what_cannot_be_read_is_never_finished(self) -> None:
        found = self.here.status()
        self.assertEqual({it.name: it.state for it in found}, {
            "t": "finished", "float": "can't be read", "packed": "can't be read", "two": "can't be read", "bad": "can't be read", "lost": "can't be read",
            "sparse": "finished", "begun": "unfinished", "half": "unfinished", "wrong": "can't be read", "done": "finished", "pipe": "can't be read"})
        for name, wanted in (("float", "another type"), ("packed", "compressed"), ("two", "compressed"), ("bad", "isn't a JSON object"), ("lost", "no zarr.json"),
                             ("wrong", "1 damaged chunk, wrong/c/1 has 9 bytes in place of 8"), ("pipe", "a named pipe"), ("t", ""), ("half", "")):
            self.assertIn(wanted, found[name].why, name)
            self.assertEqual(bool(found[name].why), bool(wanted))
            self.assertEqual(found[name].is_finished, found[name].state == "finished")
            self.assertIn(f"can't be read: {found[name].why}" if wanted else found[name].state, repr(found))
        self.assertEqual([(found[name].stored, found[name].nchunks, found[name].nbytes) for name in ("t", "wrong", "half", "sparse", "float")],
                         [(3, 3, 24), (2, 3, 16), (2, 3, 16), (0, 3, 0), (0, 0, 0)])

    def test_the_script_says_the_same(self) -> None:
        """The states of `cubed DIR status`, in its words."""
        script = os.path.join(TOP, "tools", "folder.py")
        if not os.path.isfile(script):
            self.skipTest("the scripts lie in the repository")
        ended = subprocess.run([sys.executable, script, self.here.folder, "status"], capture_output=True, text=True)
        rows = {line.split()[0]: line for line in ended.stdout.splitlines()[1:]}
        found = self.here.status()
        self.assertEqual(sorted(rows), [it.name for it in found])
        for it in found:
            row = rows[it.name]
            said = "unfinished" if "unfinished" in row else "can't be read" if any(word in row for word in ("not read", "damaged", "no zarr.json")) else "finished"
            self.assertEqual(it.state, said, row)
            if it.dtype is not None:
                self.assertIn(f" {it.stored} of {it.nchunks} ", row)


class Ends(Case):
    """A program ends where the Python that started it does."""

    def setUp(self) -> None:
        super().setUp()
        self.here = self.store()
        self.here.save("t", np.arange(6, dtype="int32"), 4)
        self.fake = self.fake_program(ENDLESS.replace('put("begun", "")', 'put("begun", str(os.getpid()))'))
        self.begun = os.path.join(self.here.folder, "begun")

    def begin(self, work: str) -> subprocess.Popen[bytes]:
        script = f"{HEARS}import cengmoat\ns = cengmoat.Store({self.here.folder!r}, program={self.fake!r})\nt = s['t']\n{work}"
        process = subprocess.Popen([sys.executable, "-c", script], env={**os.environ, "PYTHONPATH": PYTHON}, stderr=subprocess.DEVNULL)
        self.addCleanup(process.wait)
        self.addCleanup(process.kill)
        until(lambda: os.path.exists(self.begun) and os.path.getsize(self.begun))
        return process

    def program(self) -> int:
        with open(self.begun, encoding="utf-8") as file:
            return int(file.read())

    def is_there(self, number: int) -> bool:
        try:
            with open(f"/proc/{number}/stat", encoding="ascii") as file:
                return file.read().rpartition(")")[2].split()[0] not in "ZX"
        except OSError:
            return False

    def test_a_killed_python_takes_its_program_with_it(self) -> None:
        for how in (signal.SIGKILL, signal.SIGTERM):
            for work in ("(t + 1).store('y')", "(t + 1).compute()",
                         "import threading\nthread = threading.Thread(target=(t + 1).compute)\nthread.start()\nthread.join()",
                         f"from cengmoat._part import run_part\nrun_part([{self.fake!r}, {self.here.folder!r}, 'run'], '{{\"store_as\": \"p\"}}')"):
                if os.path.exists(self.begun):
                    os.unlink(self.begun)
                    self.here.remove("y") if "y" in self.here else None
                process = self.begin(work)
                program = self.program()
                self.assertTrue(self.is_there(program))
                process.send_signal(how)
                process.wait()
                until(lambda: not self.is_there(program))

    def test_the_lock_is_free_then(self) -> None:
        process = self.begin("(t + 1).store('y')")
        self.assertRaises(cengmoat.Locked, self.here.save, "y", np.arange(3))
        process.kill()
        process.wait()
        until(lambda: not cengmoat._locks.is_locked(self.here.folder, "y"))
        self.assertEqual(self.here.status()["y"].state, "unfinished")

    def test_who_works_is_named_where_who_began_has_ended(self) -> None:
        """A process that took a lock and ended, whose open file another one has, as one that the scripts started."""
        took = textwrap.dedent(f"""
            import subprocess, sys
            import cengmoat
            with cengmoat._locks.locked({self.here.folder!r}, "y") as lock:
                child = subprocess.Popen([sys.executable, "-c", "import time; time.sleep(600)"], pass_fds=[lock.descriptor], stdout=subprocess.DEVNULL)
                print(child.pid, flush=True)
                import os
                os._exit(0)
        """)
        process = subprocess.Popen([sys.executable, "-c", took], env={**os.environ, "PYTHONPATH": PYTHON}, stdout=subprocess.PIPE, text=True)
        child = int(process.communicate()[0])
        self.addCleanup(os.kill, child, signal.SIGKILL)
        self.assertNotEqual(child, process.pid)
        with self.assertRaises(cengmoat.Locked) as found:
            self.here.save("y", np.arange(3))
        self.assertEqual(found.exception.pid, child)
        self.assertIn(f"process {child}:", str(found.exception))
        self.assertNotIn(str(process.pid), str(found.exception))

    def test_who_works_is_named_while_it_lives(self) -> None:
        process = self.begin("(t + 1).store('y')")
        with self.assertRaises(cengmoat.Locked) as found:
            self.here.save("y", np.arange(3))
        self.assertEqual(found.exception.pid, process.pid)


class Files(Case):
    """Errors of files are errors of the package, with the path."""

    def setUp(self) -> None:
        super().setUp()
        self.here = self.store(program=self.fake_program("sys.exit(70)"))
        self.t = self.here.save("t", np.arange(6, dtype="int32"), 2)

    def test_each_call(self) -> None:
        refused = PermissionError(13, "Permission denied", os.path.join(self.here.folder, "t"))
        calls = (lambda: self.here["t"], lambda: self.here.read("t"), lambda: self.here.status(), lambda: (self.t + 1).compute(), lambda: (self.t + 1).store("y"),
                 lambda: self.here.save("u", np.arange(3)), lambda: self.here.remove("t", inputs=True), lambda: (self.t + 1).check("t"), lambda: self.t.compute(),
                 lambda: dict(self.here.items()), lambda: cengmoat.from_zarr(self.here.folder, "t"))

        def refusing(asked: Any) -> Any:
            def called(path: Any, *words: Any, **options: Any) -> Any:
                if isinstance(path, str) and (path.startswith(self.here.folder) or "dir_fd" in options):
                    raise refused
                return asked(path, *words, **options)
            return called

        for name, asked in (("os.stat", os.stat), ("os.open", os.open), ("os.scandir", os.scandir), ("os.listdir", os.listdir), ("os.makedirs", os.makedirs)):
            for number, call in enumerate(calls):
                with mock.patch(name, refusing(asked)):
                    try:
                        call()
                    except cengmoat.CengmoatError as error:
                        if isinstance(error, cengmoat.StoreFailed):
                            self.assertIn(self.here.folder, str(error), (name, number))
        self.assertEqual([it.state for it in self.here.status()], ["finished"])

    def test_as_another_user(self) -> None:
        """What the system refuses one who may not read or write is said with the folder, and is no error of Python's own."""
        if os.getuid() != 0:
            self.skipTest("only root becomes another user")
        work = textwrap.dedent(f"""
            import os, sys
            import numpy as np
            import cengmoat
            os.setgid({pwd.getpwnam("nobody").pw_gid})
            os.setuid({pwd.getpwnam("nobody").pw_uid})
            folder = {self.here.folder!r}
            store = cengmoat.Store(folder, program={self.here.program!r})
            for call in (lambda: store["t"], lambda: store.read("t"), lambda: store.status(), lambda: store.save("u", np.arange(3)), lambda: store.names(),
                         lambda: cengmoat.Store("/proc/none/x").save("u", np.arange(3)), lambda: cengmoat.Store("/etc/passwd").save("u", np.arange(3))):
                try:
                    call()
                    print("no error")
                except cengmoat.CengmoatError as error:
                    print(type(error).__name__, str(error).replace(chr(10), " "))
        """)
        os.chmod(self.folder, 0o755)
        os.chmod(os.path.join(self.folder, "fake"), 0o755)
        os.chmod(os.path.join(self.here.folder), 0o000)
        ended = subprocess.run([sys.executable, "-c", work], env={**os.environ, "PYTHONPATH": PYTHON}, capture_output=True, text=True)
        os.chmod(os.path.join(self.here.folder), 0o755)
        if "No module named" in ended.stderr or "Permission denied" in ended.stderr and "import" in ended.stderr:
            self.skipTest("nobody can't read the package")
        self.assertEqual(ended.returncode, 0, ended.stderr)
        lines = ended.stdout.splitlines()
        self.assertEqual([line.split()[0] for line in lines], ["StoreFailed"] * 7, lines)
        for line, path in zip(lines, [self.here.folder] * 5 + ["/proc/none/x", "/etc/passwd"]):
            self.assertIn(path, line)

    def test_an_error_of_the_data_is_the_users(self) -> None:
        class Far:
            shape, dtype = (3,), np.dtype("int8")

            def __getitem__(self, key: Any) -> Any:
                raise OSError("the file of the user is cut off")

        with self.assertRaises(OSError) as found:
            self.here.save("u", Far())
        self.assertNotIsInstance(found.exception, cengmoat.CengmoatError)
        self.assertEqual(self.here.names(), ["t"])


if __name__ == "__main__":
    unittest.main()
