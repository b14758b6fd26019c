"""Tests `status`, `remove` and tools/zarr over folders and files in which not all is as the program
makes it; tools/test_scripts.py runs all.
"""
import contextlib
import io
import json
import os
import socket
import struct
import subprocess
import sys
from unittest import mock

from test_base import TOP, InFolder, files_in, put, run, text_of, wait_until
from zarr_store import Layout

GOOD = json.loads(Layout("int8", [6], [2]).text())
TWICE = {"nodes": [{"id": "a", "op": "input", "name": "a"},
                   {"id": "s", "op": "add", "args": ["a", 1]},
                   {"id": "t", "op": "sum", "args": ["s"]}], "out": "t", "store_as": "y"}


def printable(text):
    return all(letter.isprintable() or letter == "\n" for letter in text)


class StrangeStatus(InFolder):
    def put_result(self, chunks=3):
        """A result of three chunks of two bytes."""
        self.put_array("y", [1] * 6, 2, "int8", chunks)
        put(f"{self.top}/_cubed/y/plan.json", b"{}")

    def listed(self, name):
        """The row of an array."""
        [row] = [line for line in self.cubed("status").split("\n") if line.split()[:1] == [name]]
        return row

    def test_pipes_devices_and_loops_hold_nothing_up(self):
        for name in ("fifo", "socket", "loop", "folder", "device"):
            os.makedirs(f"{self.top}/{name}/zarr.json" if name == "folder"
                        else f"{self.top}/{name}")
        os.mkfifo(f"{self.top}/fifo/zarr.json")
        os.symlink("zarr.json", f"{self.top}/loop/zarr.json")
        os.symlink("/dev/zero", f"{self.top}/device/zarr.json")
        with socket.socket(socket.AF_UNIX) as made:
            made.bind(f"{self.top}/socket/zarr.json")
        os.symlink("itself", f"{self.top}/itself")
        os.symlink("nowhere", f"{self.top}/nothing")
        self.put_array("good", [1], 1)
        for name in ("fifo", "socket", "loop", "folder", "device"):
            self.assertIn("not read: its zarr.json", self.listed(name))
            for words in (["info", name], ["read", name, "--raw", "-"]):
                self.zarr(*words, status=1)
        self.assertIn("1 of 1", self.listed("good"))

    def test_chunks_that_are_no_files_are_damaged(self):
        self.put_result()
        for at in range(3):
            os.remove(f"{self.top}/y/c/{at}")
        os.mkfifo(f"{self.top}/y/c/0")
        os.symlink("1", f"{self.top}/y/c/1")
        os.mkdir(f"{self.top}/y/c/2")
        told = self.cubed("status", "y", status=1)
        for part in ("0 of 3", "c/0 is no file", "c/1 can't be read: Too many levels",
                     "c/2 is no file"):
            self.assertIn(part, told)
        self.zarr("read", "y", "--raw", "-", status=1)

    def test_a_record_that_is_a_pipe_holds_nothing_up(self):
        self.put_result(1)
        os.remove(f"{self.top}/_cubed/y/plan.json")
        os.mkfifo(f"{self.top}/_cubed/y/plan.json")
        self.assertIn("unfinished: a run was stopped, or is at work",
                      self.cubed("status", "y", status=1))

    def test_strange_metadata_is_told_in_one_line(self):
        strange = [{**GOOD, **part} for part in (
            {"codecs": [5]}, {"codecs": 7}, {"codecs": [None, {}]},
                                                 {"codecs": [{"name": "a\u001b[31m\n"}]},
                                                 {"data_type": "\ud800"},
            {"data_type": "\u001b[31mred"}, {"a\u0007\u202e\n": 1}, {"\ud800": 1},
                                                 {"shape": [10**400]}, {"shape": [-2]},
                                                 {"shape": [True]},
            {"shape": [1] * 5000}, {"shape": [2**40, 2**40]}, {"fill_value": 10**4000},
                                                 {"fill_value": 1e999},
                                                 {"chunk_grid": {"name": "\u001b"}},
            {"chunk_grid": {"name": "regular", "configuration": {"chunk_shape": [0]}}},
                                                 {"chunk_key_encoding": {"name": "v2",
                                                                         "configuration": {"separator": []}}},
            {"node_type": ["array"]}, {"zarr_format": {}})]
        texts = [json.dumps(value).encode() for value in strange]
        texts += [b"[" * 100000, b'{"shape":' + b"9" * 9000 + b"}", b"\xff\xfe", b"",
                  b" " * (1 << 21), b'{"a":NaN}', b'"\\ud800"']
        for number, text in enumerate(texts):
            put(f"{self.top}/a{number}/zarr.json", text)
        told = self.cubed("status")
        self.assertEqual(len(told.split("\n")), len(texts) + 2)
        self.assertEqual(told.count("not read: "), len(texts))
        self.assertTrue(printable(told))
        for number in range(len(texts)):
            ended = run(f"{TOP}/tools/zarr", self.top, "info", f"a{number}")
            self.assertEqual((ended.returncode, ended.stderr.count(b"\n")), (1, 1), ended.stderr)
            self.assertTrue(printable(ended.stderr.decode()))

    def test_a_folder_that_cannot_be_entered_leaves_the_rest(self):
        self.put_array("good", [1], 1)
        put(f"{self.top}/_cubed", b"a file")
        self.assertIn("1 of 1", self.listed("good"))

    def test_a_chunk_of_another_length_is_told_everywhere(self):
        self.put_result()
        put(f"{self.top}/y/c/1", b"")
        put(f"{self.top}/y/c/2", b"123")
        self.assertRegex(self.listed("y"), r"1 of 3 +result of a run; 2 damaged chunks$")
        told = self.cubed("status", "y", status=1)
        self.assertIn("c/1 has 0 bytes in place of 2\nc/2 has 3 bytes in place of 2\n", told)
        self.assertIn("resume takes each file that is there for done: check finds a wrong one",
                      told)
        self.assertIn("1 of 3 chunks are stored; 2 damaged, as c/1",
                      self.zarr("info", "y").decode())
        self.put_array("a", [1, 2], 2, "int8")
        put(f"{self.top}/a/c/0", b"")
        self.assertIn("write it again", self.cubed("status", "a", status=1))

    def test_a_link_that_leads_nowhere_is_no_chunk(self):
        """What the row says is what the lines below it say."""
        self.put_array("a", [1] * 4, 2, "int8", 1)
        os.symlink("nowhere", f"{self.top}/a/c/1")
        told = self.cubed("status", "a")
        self.assertRegex(told, r"1 of 2 +array; a chunk without a file is the fill value")
        self.assertIn("without a file: c/1", told)


class HowFar(InFolder):
    def test_tasks_are_counted_also_of_arrays_in_between(self):
        array = self.put_array("a", range(8), 2)
        plan = self.put_record(TWICE, {"a": array})
        keys = plan.made_keys()
        self.assertEqual(len(keys), 4 + 4 + 1)
        for count, line in ((0, "0 of 9 tasks done"), (3, "3 of 9 tasks done"),
                            (6, "6 of 9 tasks done")):
            for key in keys[:count]:
                put(f"{self.top}/{key}", b"1234")
            put(f"{self.top}/_cubed/y/0/c/7", b"no chunk of it")
            put(f"{self.top}/y/zarr.json", text_of(plan.array(plan.out).written()))
            self.assertIn(f"unfinished: {line}; a run was stopped, or is at work",
                          self.cubed("status"))
        told = self.cubed("status", "y", status=1)
        self.assertIn("op 1 fold: 2 of 4 tasks done\nop 2 merge: 0 of 1 task done\n", told)

    def test_tasks_of_plans_with_inlined_arrays_are_counted(self):
        """The record says which version the plan has, and `remove` takes what either one stored."""
        array = self.put_array("a", range(8), 2)
        before = files_in(self.top)
        for fusion, tasks in ((2, 5), (1, 9)):
            plan = self.put_record(TWICE, {"a": array}, fusion)
            self.assertEqual(len(plan.made_keys()), tasks)
            put(f"{self.top}/y/zarr.json", text_of(plan.array(plan.out).written()))
            for count in (0, 3):
                for key in plan.made_keys()[:count]:
                    put(f"{self.top}/{key}", b"1234")
                self.assertIn(f"unfinished: {count} of {tasks} tasks done; a run was stopped",
                              self.cubed("status"))
            kind = "fold" if fusion == 2 else "map"
            self.assertIn(f"op 0 {kind}: 3 of 4 tasks done\n", self.cubed("status", "y", status=1))
            self.cubed("remove", "y")
            self.assertEqual([it for it in files_in(self.top) if ".locks" not in it], before)

    def test_tasks_of_copies_and_searches_are_counted(self):
        """A task of a copy is done with all chunks of its region, one of a search with its values
        and its places.
        """
        nodes = [{"id": "a", "op": "input", "name": "a"},
                 {"id": "r", "op": "rechunk", "args": ["a"], "chunk": [3]},
                 {"id": "x", "op": "argmax", "args": ["r"], "axis": 0}]
        array = self.put_array("a", range(12), 2)
        plan = self.put_record({"nodes": nodes, "out": "x", "store_as": "y"}, {"a": array})
        [copy, search, *_] = plan.operations()
        self.assertEqual((copy[1].kind, copy[1].tasks(), search[1].kind, search[1].tasks()),
                         ("copy", 1, "pairfold", 4))
        for key in plan.made_keys()[:3]:
            put(f"{self.top}/{key}", b"1234")
        self.assertIn("unfinished: 0 of 6 tasks done", self.cubed("status"))
        for key in plan.made_keys()[:7]:
            put(f"{self.top}/{key}", b"1234")
        self.assertIn("unfinished: 2 of 6 tasks done", self.cubed("status"))

    def test_strange_records_leave_the_count_out(self):
        array = self.put_array("a", range(8), 2)
        record = self.put_record(TWICE, {"a": array}).record()
        for text in (b"", b"[]", b"{}", b"\xff", json.dumps({**record, "allowed": True}).encode(),
                     json.dumps({**record, "allowed": 1}).encode(),
                     json.dumps({**record, "split_every": 1}).encode(),
                     *[json.dumps({**record, "cubed": version}).encode()
                       for version in (0, 1, 4, True, None, "2", [2], 2.5)],
                     json.dumps({**record, "inputs": []}).encode(),
                     json.dumps({**record, "expr": {**record["expr"], "store_as": "z"}}).encode(),
                     b" " * (1 << 23), b"[" * 100000,
                     *[json.dumps({**record, "inputs": {"a": {**record["inputs"]["a"], **more}}}).encode()
                       for more in ({"shape": [2**40]}, {"attributes": {"a": 10**400}},
                                    {"fill_value": -10**400})]):
            put(f"{self.top}/_cubed/y/plan.json", text)
            self.assertIn("unfinished: a run was stopped, or is at work; no metadata",
                          self.cubed("status"))

    def test_a_run_that_is_at_work_is_seen(self):
        array = self.put_array("a", range(8), 2)
        self.put_record(TWICE, {"a": array})
        put(f"{self.room}/text", text_of(TWICE))
        # Python takes a folder for a program where this file lies in it: so a process has the words
        # of a run, and waits.
        put(f"{self.top}/__main__.py", b"import time\ntime.sleep(60)\n")
        with open(f"{self.room}/text", "rb") as given:
            process = subprocess.Popen(["/somewhere/cubed", "arrays", "run"],
                                       executable=sys.executable, stdin=given, cwd=self.room)
        self.addCleanup(process.wait)
        self.addCleanup(process.kill)
        self.assertTrue(wait_until(lambda: "; a run is at work" in self.cubed("status")))
        before = files_in(self.top)
        for words in (["y"], ["y", "--dry-run"], ["y", "--input"]):
            ended = run(f"{TOP}/cubed", self.top, "remove", *words)
            self.assertEqual((ended.returncode, ended.stdout), (1, b""))
            self.assertIn(b"y isn't removed: a run is at work that makes it", ended.stderr)
        self.assertEqual(files_in(self.top), before)
        process.kill()
        process.wait()
        self.assertIn("a run was stopped, or is at work", self.cubed("status"))
        self.cubed("remove", "y")
        self.assertNotIn("_cubed/y/plan.json", files_in(self.top))


class StrangeRemoval(InFolder):
    def put_result(self):
        self.put_array("y", [1] * 6, 2, "int8")
        put(f"{self.top}/_cubed/y/plan.json", b"{}")
        for at in range(2):
            put(f"{self.top}/_cubed/y/0/c/{at}", b"1")

    def test_no_link_is_followed(self):
        for at in ("_cubed/y", "y/c", "_cubed/y/0", "_cubed/y/0/c", "y"):
            with self.subTest(at=at):
                self.put_result()
                os.rename(f"{self.top}/{at}", f"{self.room}/outside")
                os.symlink(f"{self.room}/outside", f"{self.top}/{at}")
                before = files_in(f"{self.room}/outside")
                told = self.cubed("remove", "y", *(["--input"] if at == "y" else []))
                self.assertTrue(before)
                self.assertEqual(files_in(f"{self.room}/outside"), before)
                self.assertIn("the link" if at in ("y", "_cubed/y") else "stays", told)
                run("rm", "-rf", f"{self.room}/outside", self.top)

    def test_a_link_that_comes_meanwhile_isn_t_followed(self):
        import folder
        for key in ("0", "c/0", "0/c/0", "y/0/c/0", "y/plan.json", "plan.json", "zarr.json"):
            put(f"{self.room}/outside/{key if key != '0' else 'c/c/0'}", b"1")
        before = files_in(f"{self.room}/outside")
        for at, far in (("y/c", "c"), ("y", ""), ("_cubed/y/0/c", "c"), ("_cubed/y/0", ""),
                        ("_cubed/y", ""), ("_cubed", "")):
            with self.subTest(at=at):
                self.put_result()
                found = folder.named(self.top, "y")
                os.rename(f"{self.top}/{at}", f"{self.room}/kept")
                os.symlink(f"{self.room}/outside/{far}", f"{self.top}/{at}")
                with self.assertRaises(OSError):
                    folder.remove_all(found)
                self.assertEqual(files_in(f"{self.room}/outside"), before)
                run("rm", "-rf", f"{self.room}/kept", self.top)

    def test_a_folder_of_plans_that_is_a_link_isn_t_followed(self):
        self.put_result()
        os.rename(f"{self.top}/_cubed", f"{self.room}/outside")
        os.symlink(f"{self.room}/outside", f"{self.top}/_cubed")
        before = files_in(f"{self.room}/outside") + files_in(self.top)
        ended = run(f"{TOP}/cubed", self.top, "remove", "y", "--input")
        self.assertEqual((ended.returncode, ended.stdout), (1, b""))
        self.assertIn(b"_cubed is a link, and nothing behind a link is removed", ended.stderr)
        self.assertEqual(files_in(f"{self.room}/outside") + files_in(self.top), before)
        run("rm", "-rf", f"{self.room}/outside/y")
        self.cubed("remove", "y", "--input")
        self.assertEqual(files_in(self.top), [])

    def test_what_comes_before_the_lock_is_held_is_looked_at(self):
        """A result goes, and an input of the same name is loaded, between the look and the lock."""
        import folder
        import locks
        from zarr_store import Failed
        self.put_result()
        held, printed = locks.held, io.StringIO()

        @contextlib.contextmanager
        def late(*words):
            with held(*words) as lock:
                os.remove(f"{self.top}/_cubed/y/plan.json")
                yield lock

        with mock.patch("locks.held", late), contextlib.redirect_stdout(printed), \
                self.assertRaisesRegex(Failed, "no record of a plan"):
            folder.remove(self.top, ["y"])
        self.assertEqual(printed.getvalue(), "")
        self.assertEqual(len(files_in(f"{self.top}/y")), 4)

    def test_only_what_the_program_makes_goes(self):
        own = ["2024", "c/2024", "c/3", "c/7", "c/00", "c/0/0", "draft.new", "draft.new2", "c/0.new",
               "c/9.new1", "notes.txt", "0", "0.0", ".zattrs", "zarr.json.bak", "zarr.json.newest"]
        plan = ["7", "0/c/0.new", "0/c/x", "0/1", "plan.json.new", "plan.json~", "00/c/0",
                "0/c/0/0/0/0/0/0/0", "a/c/0"]
        self.put_result()
        for name in own:
            if name != "c/0/0":
                put(f"{self.top}/y/{name}", b"mine")
        for name in plan:
            if name != "0/c/0/0/0/0/0/0/0":
                put(f"{self.top}/_cubed/y/{name}", b"mine")
        gone = ["y/c/0.new17", "y/zarr.json.new3", "_cubed/y/plan.json.new1234567",
                "_cubed/y/0/c/1.new0"]
        for name in gone:
            put(f"{self.top}/{name}", b"left by a kill")
        kept = [f"y/{name}" for name in own if name != "c/0/0"] + [f"_cubed/y/{name}"
                                                                   for name in plan
                                                                   if name != "0/c/0/0/0/0/0/0/0"]
        told = self.cubed("remove", "y")
        self.assertEqual(files_in(self.top), sorted(kept))
        for name in kept:
            self.assertIn(f"stays, since it is no part of the array: {name}\n", told)

    def test_names_are_printed_as_they_may_be(self):
        self.put_result()
        put(f"{self.top}/y/\x1b[31m\n", b"")
        put(os.fsencode(f"{self.top}/y/") + b"\xff", b"")
        told = self.cubed("remove", "y")
        self.assertTrue(printable(told), told)
        self.assertEqual(told.count("stays"), 2)

    def test_an_array_that_is_not_read_stays(self):
        put(f"{self.top}/a/zarr.json", json.dumps({**GOOD, "codecs": [{"name": "zstd"}]}).encode())
        put(f"{self.top}/a/c/0", b"compressed")
        before = files_in(self.top)
        ended = run(f"{TOP}/cubed", self.top, "remove", "a", "--input")
        self.assertEqual((ended.returncode, ended.stdout), (1, b""))
        self.assertIn(b"its chunks can't be told from other files", ended.stderr)
        self.assertEqual(files_in(self.top), before)

    def test_what_is_being_made_stays(self):
        import locks
        self.put_result()
        with locks.held(self.top, "y"):
            self.cubed("remove", "y", status=1)
            self.assertIn("y/zarr.json", files_in(self.top))
        self.cubed("remove", "y")
        self.assertEqual(files_in(self.top), [])


def npy(header, data=b"", version=1):
    """A file of numpy.save with this text as its header."""
    text = header if isinstance(header, bytes) else header.encode()
    size = struct.pack("<H" if version == 1 else "<I", len(text))
    return b"\x93NUMPY" + bytes([version, 0]) + size + text + data


def header(descr="'|i1'", is_fortran="False", shape="(2,)"):
    return f"{{'descr': {descr}, 'fortran_order': {is_fortran}, 'shape': {shape}, }}\n"


class StrangeFiles(InFolder):
    def refused(self, *words, text=b""):
        """A `write` that is refused in one line, and stores nothing."""
        ended = run(f"{TOP}/tools/zarr", self.top, "write", "x", *words, text=text)
        self.assertIn(ended.returncode, (1, 2), words)
        self.assertEqual((ended.stdout, ended.stderr.count(b"\n")), (b"", 1), ended.stderr[-400:])
        self.assertTrue(printable(ended.stderr.decode()), ended.stderr)
        self.assertEqual(os.listdir(self.top), [], words)
        return ended.stderr.decode()

    def test_crafted_headers_are_refused(self):
        files = [npy(header(shape=shape), b"\1" * 6) for shape in (
            "(-2,-3)", "(True,)", "True", "[6]", "(6.0,)", "('6',)", "(2,)", "(10**9,)",
                                                                   "(99999999999999999999,)",
                                                                   "(6,)*7", "(1,1,1,1,1,1,6)",
                                                                   "(" * 3000, "None")]
        files += [npy(header(descr=descr), b"\1" * 2)
                  for descr in ("'<f8'", "'i1'", "'xi1'", "1", "''", "'|i3'", "[('a','|i1')]",
                                "'\\x1b[31m'", "'|O'")]
        files += [npy(header(is_fortran="1"), b"\1\1"), npy("[]", b"\1"), npy("{}", b"\1"),
                  npy(b"\xff\xfe", b"\1"), npy("__import__('os')", b"\1"),
                  npy(header(), b"\1"), npy(header(), b"\1\1\1"),
                  npy(header(), b"\1\1", version=2)[:-1], b"", b"\x93NUMPY", b"\x93NUMPY\1\0",
                  b"\x93NUMPY\1\0\xff\xff{",
                  b"\x93NUMPY\2\0\xff\xff\xff\x7f{}", b"\x93NUMPY\7\0\2\0{}", b"PK\3\4" * 10,
                  npy("{'descr': '|i1', 'fortran_order': False, 'shape': (" + "9" * 5000 + ",)}",
                      b"\1")]
        for data in files:
            path = f"{self.room}/in.npy"
            put(path, data)
            self.refused("--npy", path)
            self.refused("--npy", "-", text=data)

    def test_a_header_of_each_version_is_read(self):
        for version in (1, 2, 3):
            put(f"{self.room}/in.npy", npy(header(), b"\1\2", version))
            self.zarr("write", f"x{version}", "--npy", f"{self.room}/in.npy")
            self.assertEqual(self.zarr("read", f"x{version}", "--raw", "-"), b"\1\2")

    def test_strange_words_and_texts_are_refused(self):
        much = "9" * 5000
        for words in (["--shape", much, "1"], ["--shape", "9999999999999,9999999999999", "1"],
                      ["--shape", "-1", "1"], ["--shape", "1," * 9000 + "1", "1"],
                      ["--chunk", much, "1"], ["--chunk", "1,1,1,1,1,1,1", "1"],
                      ["--chunk", "999999999999999", "1"], ["--fill", much, "1"],
                      ["--fill", "-" + much, "1"],
                      ["--dtype", "int8\n", "1"], ["--dtype", b"\xff", "1"], [b"\xff"], [much],
                      ["1", b"\xff"], ["--x\x1b[31m"], ["--raw", b"/no/\xff"], ["--raw", ""],
                      ["--raw", f"{self.room}"], ["--raw", "/dev/zero"], ["--npy", "/dev/null"],
                      ["--shape", "\u0662", "1", "2"]):
            self.refused(*words)
        for text in (much.encode(), b"1 " * 10 + b"x", b"\xff\xfe", b"1\x002",
                     ("\u0661" * 5).encode(), b"1" * (3 << 20), b"1 2 3 \x1b[31m"):
            self.refused(text=text)

    def test_what_is_in_the_way_of_a_file_is_not_written_through(self):
        self.zarr("write", "x", "1", "2")
        process = subprocess.Popen([f"{TOP}/tools/zarr", self.top, "read", "x", "--raw",
                                    f"{self.room}/out"], stderr=subprocess.PIPE)
        process.communicate()
        self.assertEqual(process.returncode, 0)
        # The shell's own number is that of the script, which is called in its place.
        put(f"{self.room}/precious", b"mine")
        ended = run("/bin/sh", "-c",
                    f'ln -s precious "{self.room}/out2.new$$"; exec python3 "{TOP}/tools/zarr" "{self.top}" read x --raw "{self.room}/out2"')
        self.assertEqual(ended.returncode, 1)
        with open(f"{self.room}/precious", "rb") as file:
            self.assertEqual(file.read(), b"mine")

    def test_only_a_file_is_replaced(self):
        """A pipe, a folder, and what a link leads to stay as they are, and so does a device, which
        only root can put here.
        """
        self.zarr("write", "x", "1", "2")
        put(f"{self.room}/out/precious", b"mine")
        os.mkfifo(f"{self.room}/pipe")
        os.symlink("out/precious", f"{self.room}/link")
        os.symlink("/dev/null", f"{self.room}/null")
        before = {name: os.lstat(f"{self.room}/{name}") for name in ("pipe", "link", "null", "out")}
        for name in before:
            for form in ("--raw", "--npy"):
                ended = run(f"{TOP}/tools/zarr", self.top, "read", "x", form, f"{self.room}/{name}")
                self.assertEqual((ended.returncode, ended.stdout, ended.stderr.count(b"\n")), (1, b"", 1))
                self.assertIn(b"is no file", ended.stderr)
        for name, told in before.items():
            self.assertTrue(os.path.samestat(told, os.lstat(f"{self.room}/{name}")), name)
        self.assertEqual(sorted(os.listdir(self.room)), ["arrays", "link", "null", "out", "pipe"])
        self.zarr("read", "x", "--raw", f"{self.room}/out/precious")
        with open(f"{self.room}/out/precious", "rb") as file:
            self.assertEqual(file.read(), bytes([1, 0, 0, 0, 2, 0, 0, 0]))

    def test_elements_come_through_a_pipe(self):
        os.mkfifo(f"{self.room}/pipe")
        process = subprocess.Popen(["/bin/sh", "-c", f'printf 12 >"{self.room}/pipe"'])
        self.zarr("write", "x", "--raw", f"{self.room}/pipe", "--dtype", "int8")
        process.wait()
        self.assertEqual(self.zarr("read", "x", "--raw", "-"), b"12")

