"""Tests calls of the script cubed: its words, what it says on a terminal, stops, the lock of
`load`, and `explain` over a text.

Where a test says what the program does, the program is a script of the test's own;
tools/test_scripts.py runs all.
"""
import fcntl
import json
import os
import subprocess
import threading
import time
import unittest
from unittest import mock

from test_base import ADDITION, TOP, InFolder, WithProgram, files_in, put, rules, run, signal, text_of, wait_until
import word_cases
import words
from zarr_store import bytes_in

LOADED = b'{"name":"c","data_type":"int8","shape":[2],"chunk_shape":[1],"elements":[1,2]}'
# What a run leaves that stored one chunk of two.
HALF = 'mkdir -p "$1/y/c"; printf 1234567812345678 >"$1/y/c/0"'


class Words(WithProgram):
    def test_words_are_those_of_the_program(self):
        """Each row of the table of words is accepted or refused with the code that it has there."""
        count = 0
        for _, rows in [*word_cases.commands(), *word_cases.ends(), *word_cases.numbers(),
                        *word_cases.forms(), *word_cases.positionals(),
                        *word_cases.demonstrations()]:
            for row in rows:
                wanted = word_cases.answer(row)
                wrong = words.told_of(["scratch", *row])
                found = f"error 2 code={wrong.code}" if wrong else "accepted"
                self.assertEqual(found, wanted if wanted.startswith("error 2") else "accepted", row)
                count += 1
        self.assertGreater(count, 500)

    def test_a_wrong_word_is_told_before_anything_is_built(self):
        self.script = f"{self.room}/copy/cubed"
        with open(f"{TOP}/cubed", "rb") as script:
            put(self.script, script.read())
        os.chmod(self.script, 0o755)
        put(f"{self.room}/copy/crates.txt")
        put(f"{self.room}/copy/crates/lib.rt")
        for name in os.listdir(f"{TOP}/tools"):
            if name.endswith(".py") and name != "prove.py":
                os.makedirs(f"{self.room}/copy/tools", exist_ok=True)
                os.symlink(f"{TOP}/tools/{name}", f"{self.room}/copy/tools/{name}")
        put(f"{self.room}/copy/tools/prove.py", b"print('building')\nraise SystemExit(1)\n")
        put(f"{self.room}/bin/rt", b"#!/bin/sh\n")
        os.chmod(f"{self.room}/bin/rt", 0o755)
        path = {**os.environ, "PATH": f"{self.room}/bin:{os.environ['PATH']}"}
        for row, line, told in ((["rnu"], "error 2 code=1", "near: run"),
                                (["run", "--wokers", "2"], "error 2 code=2", "near: workers"),
                                (["run", "--allowed-mem", "64MiB"], "error 2 code=2",
                                 "67108864 bytes"),
                                (["run", "--workers", "65"], "error 2 code=2", "from 1 to 64"),
                                (["print", "_y"], "error 2 code=3", "name"),
                                (["load", "--workers", "2"], "error 2 code=2", "--retries"),
                                (["run", b"\xff"], "error 2 code=2", "UTF-8")):
            ended = run(self.script, self.top, *row, env=path)
            self.assertEqual((ended.returncode, ended.stdout), (2, b""), row)
            self.assertEqual(ended.stderr.decode().split("\n")[0], line)
            self.assertIn(told, ended.stderr.decode())
        ended = run(self.script, self.top, "run", "--workers", "64", env=path)
        self.assertEqual((ended.returncode, ended.stdout), (1, b"building\n"))

    def test_a_wrong_word_is_named_on_a_terminal(self):
        self.program("echo 'error 2 code=2' >&2; exit 2")
        status, told, _ = self.on_terminal("run", "--allowed-mem", "1.5GB", text=b"{}")
        self.assertEqual((status, told.split("\n")[0]), (2, "error 2 code=2"))
        self.assertIn("1500000000 bytes", told)
        self.assertEqual(run(self.script, self.top, "run", "--allowed-mem", "1.5GB").stderr,
                         b"error 2 code=2\n")


class Progress(WithProgram):
    def setUp(self):
        super().setUp()
        self.put_array("a", range(6), 4)
        self.put_array("b", range(6), 4)
        # It takes no word that isn't its own.
        self.program(f'case "$*" in *progress*) exit 2;; esac; cat >/dev/null; {HALF}; sleep 1; cp "$1/y/c/0" "$1/y/c/1"; echo ok ops=1')

    def test_it_shows_the_tasks_that_are_done(self):
        for form in (["--progress", "1"], ["--progress=1"]):
            status, told, printed = self.on_terminal("run", *form, text=text_of(ADDITION))
            self.assertEqual((status, printed), (0, "ok ops=1\n"))
            self.assertIn("1 of 2 tasks done, operation 1 of 1 (map)", told)
            self.assertIn("2 of 2 tasks done", told)
            os.remove(f"{self.top}/y/c/1")

    def test_the_programs_line_stays(self):
        self.program(f"cat >/dev/null; {HALF}; sleep 1; echo 'error 10 op=0 task=1' >&2; exit 10")
        status, told, _ = self.on_terminal("run", "--progress", "1", text=text_of(ADDITION))
        self.assertEqual(status, 10)
        self.assertRegex(told, r"(?s)1 of 2 tasks done.*\r\x1b\[Kerror 10 op=0 task=1\n.*bytes")

    def test_it_shows_nothing_elsewhere_or_unasked(self):
        ended = run(self.script, self.top, "run", "--progress", "1", text=text_of(ADDITION))
        self.assertEqual((ended.returncode, ended.stdout, ended.stderr), (0, b"ok ops=1\n", b""))
        for form in ([], ["--progress", "0"]):
            self.assertEqual(self.on_terminal("run", *form, text=text_of(ADDITION))[:2], (0, ""))

    def test_it_is_refused_where_it_means_nothing(self):
        for row in (["run", "--progress"], ["run", "--progress", "2"],
                    ["demo", "4", "--progress", "1"], ["run", "--progress=1", "--progress=1"]):
            ended = run(self.script, self.top, *row)
            self.assertEqual((ended.returncode, ended.stderr.split(b"\n")[0]),
                             (2, b"error 2 code=2"), row)


class Stops(WithProgram):
    def setUp(self):
        super().setUp()
        metas = {name: self.put_array(name, range(6), 4) for name in "ab"}
        self.record = text_of(self.put_record(ADDITION, metas).record())
        os.remove(f"{self.top}/_cubed/y/plan.json")
        put(f"{self.room}/record", self.record)

    def stored(self):
        return os.path.exists(f"{self.top}/y/c/0")

    def test_ctrl_c_tells_what_is_stored_and_how_to_go_on(self):
        self.program(f'cat >/dev/null; mkdir -p "$1/_cubed/y"; cp {self.room}/record "$1/_cubed/y/plan.json"; {HALF}; exec sleep 60')
        status, told, _ = self.on_terminal("run", text=text_of(ADDITION), send=signal.SIGINT,
                                           until=self.stored)
        self.assertEqual(status, -signal.SIGINT)
        self.assertIn("1 of 2 tasks of y are done: resume", told)

    def test_before_the_record_nothing_is_stored(self):
        self.program('cat >/dev/null; echo >"$1/begun"; exec sleep 60')
        status, told, _ = self.on_terminal("run", text=text_of(ADDITION), send=signal.SIGTERM,
                                           until=lambda: os.path.exists(f"{self.top}/begun"))
        self.assertEqual(status, -signal.SIGTERM)
        self.assertIn("run begins anew", told)

    def test_the_end_of_the_script_ends_the_program(self):
        """What the program would print ends with it: it sleeps for longer than that is waited for."""
        self.program(f'cat >/dev/null; {HALF}; exec sleep 90')
        status, _, _ = self.on_terminal("run", text=text_of(ADDITION), send=signal.SIGKILL, until=self.stored)
        self.assertEqual(status, -signal.SIGKILL)

    def test_what_is_ignored_stays_ignored(self):
        """As under nohup, and as Ctrl-C for what a shell runs in the background."""
        self.program('cat >/dev/null; echo >"$1/begun"; while [ ! -e "$1/go" ]; do sleep 0.05; done; echo ok')
        ignored = (signal.SIGHUP, signal.SIGINT)
        process = subprocess.Popen([self.script, self.top, "load"], stdin=subprocess.PIPE,
                                   stdout=subprocess.PIPE, stderr=subprocess.PIPE,
                                   preexec_fn=lambda: [signal.signal(it, signal.SIG_IGN) for it in ignored])
        self.addCleanup(process.kill)
        process.stdin.write(LOADED)
        process.stdin.close()
        process.stdin = None
        self.assertTrue(wait_until(lambda: os.path.exists(f"{self.top}/begun")))
        for number in ignored:
            process.send_signal(number)
        time.sleep(0.2)
        put(f"{self.top}/go")
        printed, told = process.communicate(timeout=30)
        self.assertEqual((process.returncode, printed, told), (0, b"ok\n", b""))

    def test_a_limit_on_the_size_of_files_is_no_signal(self):
        """The program gets SIGXFSZ ignored, on a terminal too; nothing else is ignored that wasn't.
        """
        self.program('grep SigIgn /proc/self/status')
        limit = 1 << (signal.SIGXFSZ - 1)
        # Under nohup SIGHUP was ignored before. SIGPIPE is ignored by Python alone, which gives it back to what it starts.
        with open("/proc/self/status", encoding="ascii") as status:
            before = next(int(line.split()[1], 16) for line in status if line.startswith("SigIgn"))
        before &= ~(1 << (signal.SIGPIPE - 1) | limit)
        for told in (run(self.script, self.top, "plan").stdout,
                     self.on_terminal("plan", text=b"{}")[2].encode(),
                     run(self.script, self.top, "load", text=LOADED).stdout):
            self.assertEqual(int(told.split()[1], 16) & ~before, limit, told)

    def test_a_limit_on_the_size_of_files_has_an_answer(self):
        self.proved()
        limited = f'ulimit -f 0; exec "{self.script}" "$@"'
        ended = run("/bin/sh", "-c", limited, "sh", self.top, "load", text=LOADED)
        self.assertEqual((ended.returncode, ended.stderr), (16, b"error 16 key=c/c/0\n"))


class Faults(WithProgram):
    def test_after_16_it_says_what_it_finds(self):
        self.program("echo 'error 16 key=y/zarr.json' >&2; exit 16")
        put(f"{self.top}/y")
        status, told, _ = self.on_terminal("run", text=text_of(ADDITION))
        self.assertEqual((status, told.split("\n")[0]), (16, "error 16 key=y/zarr.json"))
        self.assertIn(f"{self.top}/y is no folder", told)
        self.assertRegex(told, r"has \d+ bytes.* left")
        self.assertEqual(run(self.script, self.top, "run", text=text_of(ADDITION)).stderr,
                         b"error 16 key=y/zarr.json\n")

    def test_it_names_links_that_loop_folders_and_limits(self):
        self.program("echo 'error 16 key=y/c/0' >&2; exit 16")
        os.makedirs(f"{self.top}/y/c/0")
        self.assertIn("is a folder, and a file is wanted",
                      self.on_terminal("run", text=text_of(ADDITION))[1])
        os.rmdir(f"{self.top}/y/c/0")
        os.symlink("0", f"{self.top}/y/c/0")
        self.assertIn("Too many levels of symbolic links",
                      self.on_terminal("run", text=text_of(ADDITION))[1])

    @unittest.skipIf(os.geteuid() == 0, "root may write everywhere")
    def test_after_10_it_says_who_may_write(self):
        self.program("echo 'error 10 op=0 task=1' >&2; exit 10")
        self.put_array("a", range(6), 4)
        self.put_array("b", range(6), 4)
        os.makedirs(f"{self.top}/y/c")
        os.chmod(f"{self.top}/y/c", 0o555)
        self.addCleanup(os.chmod, f"{self.top}/y/c", 0o755)
        self.assertRegex(self.on_terminal("run", text=text_of(ADDITION))[1],
                         r"y/c can't be written: .*dr-xr-xr-x")

    def test_after_10_it_looks_at_the_folder_of_the_operation(self):
        self.program("echo 'error 10 op=1 task=0' >&2; exit 10")
        self.put_array("a", range(6), 4)
        self.put_array("b", range(6), 3)
        put(f"{self.top}/y/c")
        told = self.on_terminal("run", text=text_of(ADDITION))[1]
        self.assertIn(f"{self.top}/y/c is no folder" if "no folder" in told else f"{self.top}/y",
                      told)
        self.assertRegex(told, r"has \d+ bytes.* left")


class Load(WithProgram):
    def lock(self):
        put(f"{self.top}/.locks/c")
        file = open(f"{self.top}/.locks/c", "r+b")  # noqa: SIM115
        self.addCleanup(file.close)
        fcntl.flock(file, fcntl.LOCK_EX)
        return file

    def test_two_that_load_one_name_keep_each_other_out(self):
        self.program('cat >/dev/null; echo >"$1/begun"; while [ ! -e "$1/go" ]; do sleep 0.05; done; echo ok elements=2 chunks=2')
        ended = []
        first = threading.Thread(target=lambda: ended.append(run(self.script, self.top, "load",
                                                                 text=LOADED)))
        first.start()
        self.assertTrue(wait_until(lambda: os.path.exists(f"{self.top}/begun")))
        second = run(self.script, self.top, "load", text=LOADED)
        put(f"{self.top}/go")
        first.join()
        other = run(self.script, self.top, "load", text=LOADED)
        self.assertEqual((ended[0].returncode, ended[0].stdout), (0, b"ok elements=2 chunks=2\n"))
        self.assertEqual((second.returncode, second.stdout), (1, b""))
        self.assertRegex(second.stderr.decode(), r"^cubed: c is being computed or stored by process \d+, since "
                                                 r"[-: \d]+: wait until it has ended, and call again\n$")
        self.assertEqual(other.returncode, 0)
        # (the lock's file stays: the program itself holds the lock, and no script is there at its end)
        self.assertEqual(files_in(self.top), [".locks/c", "begun", "go"])

    def test_the_lock_is_that_of_the_package(self):
        self.program("cat >/dev/null; echo ok")
        file = self.lock()
        self.assertEqual(run(self.script, self.top, "load", text=LOADED).returncode, 1)
        self.assertEqual(run(f"{TOP}/tools/zarr", self.top, "write", "c", "1").returncode, 1)
        self.assertEqual(run(self.script, self.top, "load",
                             text=LOADED.replace(b'"c"', b'"d"')).returncode, 0)
        file.close()
        self.assertEqual(run(self.script, self.top, "load", text=LOADED).stdout, b"ok\n")

    def test_what_a_stop_leaves_of_a_lock_holds_nobody_up(self):
        """What the package noted there for itself stays."""
        self.program("cat >/dev/null; echo ok")
        said = b'{"pid": 1, "host": "far", "since": "1999", "temporary": ["data-1"]}\n'
        for rest in (b"", b'"temporary": ["data-1", "data-2"]}\n'):
            put(f"{self.top}/.locks/c", said + rest)
            self.assertEqual(run(self.script, self.top, "load", text=LOADED).stdout, b"ok\n")
            with open(f"{self.top}/.locks/c", "rb") as file:
                self.assertEqual(json.load(file)["temporary"], ["data-1"])

    def refused(self, told):
        """A `load` that is refused in one line, and stores nothing."""
        ended = run(self.script, self.top, "load", text=LOADED)
        self.assertEqual((ended.returncode, ended.stdout, ended.stderr.count(b"\n")), (1, b"", 1))
        self.assertIn(told, ended.stderr.decode())

    def test_a_file_of_a_user_is_no_lock(self):
        """Also where its name is that of a lock: nothing of it is written over, and it stays."""
        self.program("cat >/dev/null; echo ok")
        put(f"{self.room}/outside/c", b"mine")
        os.symlink(f"{self.room}/outside", f"{self.top}/.locks")
        self.refused(".locks is a link, or no folder")
        os.unlink(f"{self.top}/.locks")
        put(f"{self.top}/.locks", b"a file")
        self.refused(".locks is a link, or no folder")
        os.unlink(f"{self.top}/.locks")
        os.mkdir(f"{self.top}/.locks")
        os.link(f"{self.room}/outside/c", f"{self.top}/.locks/c")
        self.refused("has another name")
        with open(f"{self.room}/outside/c", "rb") as file:
            self.assertEqual(file.read(), b"mine")
        os.unlink(f"{self.top}/.locks/c")
        for target in ("/dev/null", f"{self.room}/outside/c"):
            os.symlink(target, f"{self.top}/.locks/c")
            self.refused(".locks/c can't be locked: Too many levels of symbolic links")
            os.unlink(f"{self.top}/.locks/c")
        os.mkfifo(f"{self.top}/.locks/c")
        self.refused(".locks/c is no file")
        os.unlink(f"{self.top}/.locks/c")
        said = {"pid": 1, "host": "far", "since": "1999", "temporary": []}
        for text in (b"mine", b"{}", b"[]", b"\xff", b"[" * 100000, b'{"pid":1}', b" " * 70000,
                     json.dumps({**said, "more": 1}).encode(),
                     json.dumps({**said, "pid": "1"}).encode(),
                     json.dumps({**said, "temporary": None}).encode()):
            put(f"{self.top}/.locks/c", text)
            self.refused("a content that isn't a lock's")
            with open(f"{self.top}/.locks/c", "rb") as file:
                self.assertEqual(file.read(), text)
        self.assertEqual(files_in(self.top), [".locks/c"])

    def test_only_a_folder_that_takes_no_locks_is_loaded_into_without_one(self):
        import errno
        import locks
        import zarr_store
        for number in (errno.EROFS, errno.EACCES, errno.EPERM, errno.ENOLCK, errno.ENOSYS):
            with mock.patch("locks.taken", side_effect=OSError(number, "told")):
                self.assertIsNone(locks.hold(self.top, "c"))
        for number in (errno.ELOOP, errno.EMFILE, errno.ENOSPC, errno.ENOENT, errno.EIO):
            with mock.patch("locks.taken", side_effect=OSError(number, "told")), \
                    self.assertRaisesRegex(zarr_store.Failed, "told"):
                locks.hold(self.top, "c")
        put(f"{self.room}/plain", b"a file")
        self.assertIsNone(locks.hold(f"{self.room}/plain", "c"))

    def test_a_full_disk_keeps_what_a_lock_says(self):
        import locks
        said = b'{"pid": 1, "host": "far", "since": "1999", "temporary": ["data-1"]}\n'
        put(f"{self.top}/.locks/c", said)
        write, left = os.pwrite, [10]

        def short(descriptor, data, at):
            return write(descriptor, data[:left.pop()] if left else data, at)

        with mock.patch("os.pwrite", short), locks.held(self.top, "c"):
            self.assertEqual(left, [])
        with open(f"{self.top}/.locks/c", "rb") as file:
            self.assertEqual(file.read(), said)

    def test_the_package_sees_the_lock_of_a_load(self):
        try:
            import cengmoat
            import numpy
        except ImportError:
            self.skipTest("NumPy can't be imported")
        store = cengmoat.Store(self.top)
        self.program('cat >/dev/null; echo >"$1/begun"; exec sleep 60')
        process = subprocess.Popen([self.script, self.top, "load"], stdin=subprocess.PIPE,
                                   stderr=subprocess.DEVNULL)
        self.addCleanup(process.wait)
        self.addCleanup(process.kill)
        process.stdin.write(LOADED)
        process.stdin.close()
        self.assertTrue(wait_until(lambda: os.path.exists(f"{self.top}/begun")))
        with self.assertRaises(cengmoat.Locked):
            store.save("c", numpy.arange(2))
        put(f"{self.top}/c/c/0", b"1")
        self.assertIn("a load is at work", self.cubed("status"))
        process.kill()
        process.wait()
        self.assertTrue(wait_until(lambda: "load it again" in self.cubed("status"), 10))
        os.rename(f"{self.top}/c", f"{self.room}/c")
        store.save("c", numpy.arange(2))

    def test_what_is_refused_makes_no_folder(self):
        self.program("cat >/dev/null; echo 'error 18 code=2' >&2; exit 18")
        for text in (b"", b"[]", b"{}", LOADED.replace(b"[1,2]", b"[1,200]"),
                     LOADED.replace(b'"c"', b'"/c"'), b"\xff", b"[" * 5000,
                     LOADED.replace(b"[2]", b"[2.0]"), LOADED + b" " * (1 << 20)):
            ended = run(self.script, f"{self.top}/new", "load", text=text)
            self.assertEqual((ended.returncode, ended.stderr), (18, b"error 18 code=2\n"),
                             text[:100])
        self.assertEqual(os.listdir(self.top), [])

    def test_the_program_gets_the_text_as_it_is(self):
        self.program("cat")
        for text in (LOADED, b"", b"\xff\n\0", LOADED + b" " * (1 << 20)):
            self.assertEqual(run(self.script, self.top, "load", text=text).stdout,
                             text[:(1 << 20) + 2])

    def test_a_text_that_cannot_be_read_is_the_programs_to_tell(self):
        self.program("read x || { echo 'error 11' >&2; exit 11; }")
        folder = os.open(self.top, os.O_RDONLY)
        self.addCleanup(os.close, folder)
        for given in (folder, subprocess.DEVNULL):
            ended = subprocess.run([self.script, self.top, "load"], stdin=given,
                                   stderr=subprocess.PIPE, check=False, timeout=60)
            self.assertEqual((ended.returncode, ended.stderr[-9:]), (11, b"error 11\n"))

    def test_many_loads_of_one_name_store_one_whole_array(self):
        self.proved()
        texts = [json.dumps({"name": "c", "data_type": "int32", "shape": [200], "chunk_shape": [5],
                             "elements": [at] * 200}).encode() for at in range(4)]
        ended = []
        threads = [threading.Thread(target=lambda text=text: ended.append(run(self.script,
                                                                              self.top, "load",
                                                                              text=text)))
                   for text in texts]
        for thread in threads:
            thread.start()
        for thread in threads:
            thread.join()
        self.assertEqual([it.returncode for it in ended].count(0), 1, [it.stderr for it in ended])
        self.assertLessEqual({it.returncode for it in ended}, {0, 1, 9})
        printed = run(self.script, self.top, "print", "c").stdout.decode().split("\n")[1].split()
        self.assertEqual((len(printed), len(set(printed))), (200, 1))


# Of each fault the nodes behind an input `t` (int16 [2,3]) and `o` (int8 [3]), the answer, and what
# is told of it.
FORMS = (
    ([{"id": "s", "op": "sum", "args": ["t"], "axis": [0]}], 3, '"axis" (near: axes)',
     "may have axes, keepdims"),
    ([{"id": "s", "op": "astype", "args": ["t"], "dtype": "int23"}], 3, '"int23" (near: int32',
     "uint64"),
    ([{"id": "s", "op": "astype", "args": ["t"]}], 3, "dtype is missing",
     "astype has id, op, args, dtype"),
    ([{"id": "s", "op": "sum", "args": ["t"], "axes": [0, 1.0]}], 3, "entry 1, 1.0", "or null"),
    ([{"id": "s", "op": "rechunk", "args": ["t"], "chunk": [0, 1]}], 3, "entry 0, 0",
     "a list of sizes from 1"),
    ([{"id": "s", "op": "flip", "args": ["t"], "axes": 1}], 3, "axes is 1", "a list"),
    ([{"id": "s", "op": "groupby_min", "args": ["t", "o"], "axis": 0, "groups": 0}], 3,
     "groups is 0", "from 1 to 65536"),
    ([{"id": 3, "op": "add", "args": ["t", 1]}], 3, "id is 3", "a text"),
    ([["add"]], 3, '["add"]', "an object is wanted"),
    ([{"id": "s", "op": "ad", "args": ["t", 1]}], 4, '"ad" (near: add', ""),
    ([{"id": "s", "op": "add", "args": ["t"]}], 5, "1 argument", "takes 2"),
    ([{"id": "s", "op": "concat", "args": [["t", "o"]], "axis": 0}], 5, "argument 0 is a list",
     "stand in one list"),
    ([{"id": "s", "op": "add", "args": [1, 2]}], 5, "all arguments are written", ""),
    ([{"id": "s", "op": "sum", "args": [5]}], 5, "argument 0 is written, 5", "arrays alone"),
    ([{"id": "s", "op": "add", "args": ["t", "oo"]}], 6, '"oo"', "near: o"),
    ([{"id": "s", "op": "add", "args": ["t", "u"]}, {"id": "u", "op": "abs", "args": ["t"]}], 6,
     "u is node 3", "before"),
    ([{"id": "t", "op": "abs", "args": ["t"]}], 6, "t is that of node 0", ""),
    ([{"id": "s/", "op": "abs", "args": ["t"]}], 6, '"s/" isn\'t one', ""),
)
TYPES = (
    ([{"id": "u", "op": "astype", "args": ["t"], "dtype": "uint64"},
      {"id": "s", "op": "add", "args": ["t", "u"]}], 1, "int16 and uint64 have no common type"),
    ([{"id": "s", "op": "add", "args": ["t", "w"]}], 2, "axis 1 has the sizes 3 and 4"),
    ([{"id": "s", "op": "matmul", "args": ["t", "w"]}], 2, "the inner sizes are 3 and 4"),
    ([{"id": "s", "op": "concat", "args": ["t", "o"], "axis": 0}], 2, "[2,3] and [3] differ"),
    ([{"id": "s", "op": "groupby_sum", "args": ["t", "o"], "axis": -2, "groups": 3}], 2,
     "the labels have the shape [3], and [2] is wanted: one for each place of axis 0"),
    ([{"id": "s", "op": "cumulative_sum", "args": ["t"]}], 3,
     "the argument has 2 axes, and with more than one, axis is named"),
    ([{"id": "s", "op": "cumulative_sum", "args": ["t"], "axis": 2}], 3,
     "axis is 2; the argument of shape [2,3] has the axes -2 to 1"),
    ([{"id": "s", "op": "sum", "args": ["t"], "axes": [2]}], 3,
     "axes is [2]; the argument of shape [2,3] has the axes -2 to 1"),
    ([{"id": "s", "op": "tril", "args": ["o"], "k": 0}], 3,
     "two axes or more, and the argument has 1"),
    ([{"id": "s", "op": "add", "args": ["o", 300]}], 5,
     "300 is written, and int8 has the numbers from -128 to 127"),
    ([{"id": "s", "op": "logical_not", "args": ["t"]}], 6, "logical_not of int16"),
    ([{"id": "s", "op": "reshape", "args": ["t"], "shape": [4]}], 8,
     "[2,3] has 6 elements, and shape is [4]"),
    ([{"id": "s", "op": "index", "args": ["t"], "index": [2]}], 9, "shape [2,3], and index is [2]"),
)
INPUTS = [{"id": "t", "op": "input", "name": "t"}, {"id": "o", "op": "input", "name": "o"}]


class ExplainText(InFolder):
    def setUp(self):
        super().setUp()
        for name, dtype, shape in (("t", "int16", [2, 3]), ("o", "int8", [3]), ("w", "int32", [4])):
            put(f"{self.top}/{name}/zarr.json", text_of(rules.Array(dtype, shape, shape).written()))

    def explain(self, line, text, *folder):
        ended = run(f"{TOP}/cubed", *folder, "explain", line, text=text)
        self.assertEqual((ended.returncode, ended.stderr), (0, b""), ended.stderr)
        return ended.stdout.decode()

    def answer(self, nodes):
        """A text, and the answer that the rules have for it."""
        text = json.dumps({"nodes": nodes, "out": "s", "store_as": "y"}).encode()
        held = {f"{name}/zarr.json": bytes_in(f"{self.top}/{name}/zarr.json", 1000)
                for name in "tow"}
        try:
            rules.typed_plan(text, held.get)
        except rules.Refused as refused:
            return text, f"error {refused}"
        raise AssertionError(f"{nodes} is accepted")

    def test_it_names_the_member_and_what_is_allowed(self):
        for nodes, code, *told in FORMS:
            text, line = self.answer(INPUTS + nodes)
            self.assertEqual(line, f"error 3 code={code} node=2")
            found = self.explain(line, text)
            for part in told:
                self.assertIn(part, found.partition("here: node 2: ")[2], nodes)

    def test_it_tells_types_shapes_and_axes(self):
        for nodes, code, told in TYPES:
            nodes = [*INPUTS, {"id": "w", "op": "input", "name": "w"}, *nodes]
            text, line = self.answer(nodes)
            self.assertEqual(line, f"error 4 code={code} node={len(nodes) - 1}")
            found = self.explain(line, text, self.top)
            self.assertIn(told, found, nodes)
            self.assertRegex(found, r"[to]: int(16|8), shape \[.*3\], chunk \[.*3\]")
            self.assertIn("with the folder before the word explain", self.explain(line, text))

    def test_it_finds_the_place_of_what_is_no_expression(self):
        good = {"nodes": INPUTS, "out": "o", "store_as": "y"}
        for text, code, told in (
                (b'{"nodes":[],\n "out" "o"}', 1, "line 2, character 8"), (b"{\xff}", 1, "byte 1"),
                                 (b"[" * 200 + b"]" * 200, 1, "127 levels"), (b" ", 1, "empty"),
                (b"[]", 2, "an object of nodes, out and store_as"),
                                 (json.dumps({**good, "output": 1}).encode(), 2,
                                  "has the member \"output\""),
                (json.dumps({**good, "out": "oo"}).encode(), 2,
                 '"oo", which is the id of no node (near: o)'),
                (json.dumps({**good, "store_as": "/y"}).encode(), 2, '"/y"'),
                                 (json.dumps({"nodes": [], "out": "o"}).encode(), 2,
                                  "no member store_as"),
                (json.dumps({**good, "nodes": INPUTS * 129}).encode(), 7, "256 nodes"),
                                 (b" " * (1 << 20) + b"  ", 7, "1048576 are the most")):
            self.assertIn(told, self.explain(f"error 3 code={code} node=0", text), text[:60])

    def test_another_text_is_told(self):
        good = json.dumps({"nodes": INPUTS, "out": "o", "store_as": "y"}).encode()
        self.assertIn("this text is an expression", self.explain("error 3 code=3 node=2", good))
        self.assertIn("this text is refused with error 3 code=1",
                      self.explain("error 3 code=3 node=2", b"nothing"))
        self.assertIn("this text has 2 nodes", self.explain("error 4 code=3 node=7", good,
                                                            self.top))

    def test_no_text_and_strange_ones_leave_the_row(self):
        alone = self.explain("error 3 code=3 node=2", b"")
        self.assertRegex(alone,
                         r"^error 3 code=3 node=N\n  cause: .*\n  stored: nothing\n  what to do: .*\n$")
        for text in (b"[" * 5000, b'{"nodes":7}',
                     b'{"nodes":[7],"out":"\\ud800","store_as":"\\u001b[31m"}', b"9" * 9000, b"9" * 400,
                     b'{"nodes":[{"id":"\\n","op":"\\u0007"}],"out":"a","store_as":"y"}'):
            for line in ("error 3 code=3 node=0", "error 4 code=1 node=99999999999"):
                found = self.explain(line, text, self.top)
                self.assertTrue(all(letter.isprintable() or letter == "\n" for letter in found),
                                found)
        # A pipe in which nothing comes holds it up for two seconds.
        ends = os.pipe()
        began = time.monotonic()
        subprocess.run([f"{TOP}/cubed", "explain", "error 3 code=3 node=2"], stdin=ends[0],
                       stdout=subprocess.DEVNULL, check=True, timeout=30)
        self.assertLess(time.monotonic() - began, 20)
        for end in ends:
            os.close(end)

    def test_it_tells_which_word_is_wrong(self):
        for row, told in ((["--allowed-mem", "64MiB"], "67108864 bytes"),
                          (["--allowed-mem=2 GB"], "2000000000 bytes"),
                          (["--workers", "65"], "from 1 to 64"),
                          (["--worker", "4"], "near: workers"), (["y"], "takes no word"),
                          (["--retries", "2", "--retries", "2"], "twice"), ([], "accepted")):
            ended = run(f"{TOP}/cubed", "explain", "error 2 code=2", "scratch", "run", *row)
            self.assertIn(told, ended.stdout.decode().partition("here: ")[2], row)

    def test_operators_that_are_near_are_told(self):
        self.assertIn(b"(near: sum)", run(f"{TOP}/cubed", "explain", "summ").stderr)
