"""Tests which calls of one name work side by side, and which keep each other out: the script cubed,
tools/zarr, and the package in Python, where NumPy can be imported.

The program is a script of the test's own; tools/test_scripts.py runs all.
"""
from __future__ import annotations

import contextlib
import fcntl
import json
import os
import subprocess
import sys
import unittest

from test_base import ADDITION, TOP, WithProgram, files_in, put, run, text_of, wait_until

try:
    import cengmoat
    import numpy
except ImportError:
    numpy = None
SHARING = (["run"], ["resume"], ["begin"], ["part", "--op", "0", "--from", "0", "--to", "1"])
LOADED = b'{"name":"y","data_type":"int8","shape":[2],"chunk_shape":[1],"elements":[1,2]}'
# A program that takes its text, says that it began, and works until it is told to end.
WORKS = 'cat >/dev/null; echo $$ >"$1/begun.$2"; while [ ! -e "$1/go" ]; do sleep 0.02; done; echo ok'


class Locks(WithProgram):
    def setUp(self):
        super().setUp()
        self.program(WORKS)
        for name in "ab":
            self.put_array(name, range(6), 4)
        self.put_array("y", range(6), 4, chunks=1)

    def begin(self, *words, text=None, stdin=None):
        """A call that works: its process, once the program has its text."""
        began = f"{self.top}/begun.{words[0]}"
        with contextlib.suppress(FileNotFoundError):
            os.remove(began)
        process = subprocess.Popen([self.script, self.top, *words], stdin=stdin or subprocess.PIPE,
                                   stdout=subprocess.PIPE, stderr=subprocess.PIPE)
        self.addCleanup(process.communicate)
        self.addCleanup(process.kill)
        if stdin is None:
            process.stdin.write(text_of(ADDITION) if text is None else text)
            process.stdin.close()
            process.stdin = None
        self.assertTrue(wait_until(lambda: os.path.exists(began) and os.stat(began).st_size), words)
        return process

    def end(self, *processes):
        put(f"{self.top}/go")
        for process in processes:
            self.assertEqual(process.communicate(timeout=30)[0], b"ok\n")
        os.remove(f"{self.top}/go")

    def refused(self, *words, process=None, text=LOADED, script=None):
        ended = run(script or self.script, self.top, *words, text=text)
        self.assertEqual((ended.returncode, ended.stdout, ended.stderr.count(b"\n")), (1, b"", 1), ended)
        self.assertIn(b"y is being computed or stored by process ", ended.stderr)
        if process is not None:
            self.assertIn(b"process %d" % process.pid, ended.stderr)

    def test_a_run_whose_text_comes_by_a_pipe_keeps_its_files(self):
        put(f"{self.top}/_cubed/y/plan.json", b"{}")
        for words in SHARING:
            before = files_in(f"{self.top}/y")
            process = self.begin(*words)
            self.assertIn("a run is at work", self.cubed("status"))
            self.refused("remove", "y", process=process)
            self.refused("remove", "y", "--dry-run", process=process)
            self.assertEqual(files_in(f"{self.top}/y"), before)
            self.end(process)
        self.cubed("remove", "y")
        self.assertEqual(files_in(f"{self.top}")[:1], ["a/c/0"])

    def test_those_who_compute_share_and_keep_out_who_stores_or_removes(self):
        working = [self.begin(*words) for words in SHARING]
        for words in (["load"], ["drop"]):
            self.refused(*words, text=LOADED if words == ["load"] else text_of(ADDITION))
        working[0].kill()
        working[0].wait()
        self.refused("drop", text=text_of(ADDITION))
        self.end(*working[1:])
        self.program("cat >/dev/null; echo ok")
        self.assertEqual(run(self.script, self.top, "drop", text=text_of(ADDITION)).stdout, b"ok\n")

    def test_who_stores_or_removes_keeps_out_all_others(self):
        for words, text in ((["load"], LOADED), (["drop"], text_of(ADDITION))):
            process = self.begin(*words, text=text)
            for other in SHARING:
                self.refused(*other, process=process, text=text_of(ADDITION))
            self.refused("load", process=process)
            self.end(process)

    def test_another_name_is_free(self):
        process = self.begin("run")
        self.program("cat >/dev/null; echo ok")
        other = text_of({**ADDITION, "store_as": "z"})
        self.assertEqual(run(self.script, self.top, "drop", text=other).stdout, b"ok\n")
        self.assertEqual(run(self.script, self.top, "load", text=LOADED.replace(b'"y"', b'"z"')).stdout, b"ok\n")
        self.end(process)

    def test_the_one_that_is_named_still_works(self):
        """Of two that share a lock the one that came last ends first, and the file still names it."""
        first, second = self.begin("run"), self.begin("resume")
        self.refused("load", process=second)
        second.kill()
        second.wait()
        self.refused("load", process=first)
        self.end(first)

    def test_a_demo_keeps_its_three_names(self):
        process = self.begin("demo", "4", text=b"")
        for name, holds in (("demo_a", False), ("demo_b", False), ("demo_y", True)):
            text = text_of({**ADDITION, "store_as": name})
            self.assertEqual(self.is_shared(name), holds, name)
            self.assertEqual(run(self.script, self.top, "drop", text=text).returncode, 1, name)
        self.end(process)

    def is_shared(self, name):
        with open(f"{self.top}/.locks/{name}", "rb") as file:
            try:
                fcntl.flock(file, fcntl.LOCK_SH | fcntl.LOCK_NB)
            except BlockingIOError:
                return False
        return True

    def test_a_terminal_changes_nothing(self):
        """There the script waits for the program, which holds the lock too."""
        self.program('cat >/dev/null; exec 2>&-; ls -l /proc/$$/fd')
        status, _, printed = self.on_terminal("run", text=text_of(ADDITION))
        self.assertEqual(status, 0)
        self.assertIn("/.locks/y", printed)
        self.assertNotIn(".locks/y", files_in(self.top))

    def test_many_that_share_leave_a_whole_content(self):
        """They write who they are over one another, and each finds a content that is a lock's."""
        self.program("cat >/dev/null; echo ok")
        working = [subprocess.Popen([self.script, self.top, "run"], stdin=subprocess.PIPE,
                                    stdout=subprocess.PIPE, stderr=subprocess.PIPE) for _ in range(40)]
        ended = [process.communicate(text_of(ADDITION)) for process in working]
        self.assertEqual(set(ended), {(b"ok\n", b"")})
        with open(f"{self.top}/.locks/y", "rb") as file:
            said = json.loads(file.readline())
        self.assertIn(said["pid"], [process.pid for process in working])

    def test_what_is_refused_makes_no_folder(self):
        self.program("cat >/dev/null; exit 3")
        new = f"{self.top}/new"
        made = text_of({"nodes": [{"id": "s", "op": "arange", "start": 0, "stop": 4, "step": 1, "dtype": "int8",
                                   "chunk": [2]}], "out": "s", "store_as": "y"})
        for words, text in ((["run"], text_of(ADDITION)), (["run"], b"{}"), (["run", "--workers", "65"], made),
                            (["resume"], made), (["drop"], made), (SHARING[3], made), (["demo", "0"], b"")):
            self.assertEqual(run(self.script, new, *words, text=text).returncode, 3)
            self.assertFalse(os.path.exists(new), words)

    def test_streams_that_are_closed_get_no_lock(self):
        """What is printed never lands in the lock's file, and no file is taken for a text."""
        self.program('echo printed; echo told >&2; cat; ls /proc/$$/fd >/dev/null; exit 0')
        put(f"{self.room}/text", text_of(ADDITION))
        for closed in ("0<&-", "1>&-", "2>&-", "0<&- 1>&- 2>&-", "1>&- 2>&-"):
            given = "" if "0<&-" in closed else f'<"{self.room}/text"'
            run("/bin/sh", "-c", f'"{self.script}" "$@" {given} {closed}', "sh", self.top, "run")
            for name in files_in(f"{self.top}/.locks") if os.path.isdir(f"{self.top}/.locks") else []:
                with open(f"{self.top}/.locks/{name}", "rb") as file:
                    self.assertNotIn(b"printed", file.read(), closed)

    @unittest.skipIf(numpy is None, "NumPy can't be imported")
    def test_the_package_and_the_script_have_the_same_lock(self):
        store = cengmoat.Store(self.top, program=f"{self.archive}/program/cubed")
        process = self.begin("run")
        for call in (lambda: store.save("y", numpy.arange(3)), lambda: store.remove("y", inputs=True)):
            with self.assertRaises(cengmoat.Locked) as found:
                call()
            self.assertEqual(found.exception.pid, process.pid)
        self.end(process)

    @unittest.skipIf(numpy is None, "NumPy can't be imported")
    def test_a_run_of_the_package_shares_and_its_program_holds_the_lock(self):
        """It holds the lock alone until its record is there, so that no other one begins the name meanwhile."""
        code = ("import cengmoat, sys\nstore = cengmoat.Store(sys.argv[1], program=sys.argv[2])\n"
                "(store['a'] + store['b']).store('y')\n")
        os.rename(f"{self.top}/y", f"{self.room}/y")
        process = subprocess.Popen([sys.executable, "-c", code, self.top, f"{self.archive}/program/cubed"],
                                   env={**os.environ, "PYTHONPATH": f"{TOP}/python"}, stderr=subprocess.DEVNULL)
        self.addCleanup(process.wait)
        self.addCleanup(process.kill)
        self.assertTrue(wait_until(lambda: os.path.exists(f"{self.top}/begun.run")))
        self.refused("run", process=process, text=text_of(ADDITION))
        put(f"{self.top}/_cubed/y/plan.json", b"{}")
        self.assertTrue(wait_until(lambda: self.is_shared("y")))
        other = self.begin(*SHARING[3])
        other.kill()
        other.wait()
        self.refused("load", process=process)
        with open(f"{self.top}/begun.run", encoding="ascii") as file:
            program = int(file.read())
        held = [os.readlink(f"/proc/{program}/fd/{number}") for number in os.listdir(f"/proc/{program}/fd")]
        self.assertIn(f"{self.top}/.locks/y", held)
        put(f"{self.top}/go")
        process.wait(60)
        self.program("cat >/dev/null; echo ok")
        self.assertTrue(wait_until(lambda: run(self.script, self.top, "load", text=LOADED).stdout == b"ok\n"))


__all__ = ["Locks"]
