#!/usr/bin/env python3
"""Tests what the program does with the files of a folder that other programs write to as well: two processes at once, what lies at the
names of new files, files in the way of keys, and files that aren't synced.

usage: tools/test_folders.py [--program FILE] [TEST..]     the program that ./cubed built where none is given

It ends with 77 where there is no program. What counts system calls is left out without strace.
"""
import json
import os
import re
import shutil
import signal
import subprocess
import sys
import tempfile
import time
import unittest
from said import usage_if_asked

TOP = os.path.dirname(os.path.dirname(os.path.realpath(__file__)))
PROGRAM = f"{TOP}/crates/cu_bin/out/cu_bin"
# The names of new files: 10^9 numbers for each process.
NAMES_OF_A_PROCESS = 1_000_000_000
TRIED = 100
SECONDS = 30
NEW = re.compile(r"\.new[0-9]+$")


def array(name, values, chunk, kind="int8"):
    """The text of an array of one axis."""
    told = {"name": name, "data_type": kind, "shape": [len(values)], "chunk_shape": [chunk], "elements": values}
    return json.dumps(told).encode()


def negated(name, stored):
    nodes = [{"id": "a", "op": "input", "name": name}, {"id": "n", "op": "negative", "args": ["a"]}]
    return json.dumps({"nodes": nodes, "out": "n", "store_as": stored}).encode()


class InFolder(unittest.TestCase):
    def setUp(self):
        room = tempfile.TemporaryDirectory()
        self.addCleanup(room.cleanup)
        self.dir, self.outside = f"{room.name}/arrays", f"{room.name}/outside"
        os.mkdir(self.dir)

    def path(self, key):
        return os.path.join(self.dir, key)

    def put(self, key, data=b""):
        os.makedirs(os.path.dirname(self.path(key)), exist_ok=True)
        with open(self.path(key), "wb") as file:
            file.write(data)

    def read(self, key):
        with open(self.path(key), "rb") as file:
            return file.read()

    def files(self):
        return sorted(os.path.relpath(os.path.join(at, name), self.dir) for at, _, names in os.walk(self.dir) for name in names)

    def call(self, *words, text=b"", front=()):
        """Runs the program, and returns its status and what it printed."""
        ended = subprocess.run([*front, PROGRAM, self.dir, *words], input=text, capture_output=True, timeout=SECONDS, check=False)
        return ended.returncode, (ended.stdout + ended.stderr).decode().strip()

    def call_after(self, prepare, *words, text=b""):
        """Runs the program in a process whose id `prepare` is told before the program begins."""
        ready, go = os.pipe(), os.pipe()
        with subprocess.Popen(
            ["sh", "-c", f'echo >&{ready[1]}; read line <&{go[0]}; exec "$@"', "", PROGRAM, self.dir, *words],
            stdin=subprocess.PIPE, stdout=subprocess.PIPE, stderr=subprocess.STDOUT, pass_fds=(ready[1], go[0]),
        ) as started:
            try:
                os.read(ready[0], 1)
                prepare(started.pid)
                os.write(go[1], b"\n")
                said, _ = started.communicate(text, timeout=SECONDS)
            except subprocess.TimeoutExpired:
                started.kill()
                self.fail("the program hangs")
            finally:
                for end in (*ready, *go):
                    os.close(end)
        return started.returncode, said.decode().strip()


def new_names(key, process, count):
    """The first names that this process has for new files beside a key's."""
    first = process * NAMES_OF_A_PROCESS
    return [f"{key}.new{number}" for number in range(first, first + count)]


class NewFiles(InFolder):
    def at_new_names(self, make, count=20):
        """Loads two chunks where something lies at each name that was meant for their new files; all that was made stays as it is."""
        made = []

        def prepare(process):
            for key in ("x/c/0", "x/c/1"):
                os.makedirs(self.path("x/c"), exist_ok=True)
                for name in new_names(key, process, count):
                    make(self.path(name))
                    made.append(name)

        told = self.call_after(prepare, "load", text=array("x", [1, 2, 3, 4], 2))
        self.assertEqual(told, (0, "ok elements=4 chunks=2"))
        self.assertEqual((self.read("x/c/0"), self.read("x/c/1")), (b"\1\2", b"\3\4"))
        self.assertEqual([name for name in made if not os.path.lexists(self.path(name))], [])
        self.assertEqual(len(os.listdir(self.path("x/c"))), 2 + len(made))
        return made

    def test_a_pipe_at_a_new_name_is_not_opened(self):
        self.at_new_names(os.mkfifo)

    def test_a_link_at_a_new_name_is_not_followed(self):
        with open(self.outside, "wb") as file:
            file.write(b"of another")
        self.at_new_names(lambda path: os.symlink(self.outside, path))
        with open(self.outside, "rb") as file:
            self.assertEqual(file.read(), b"of another")

    def test_a_link_at_a_new_name_that_leads_nowhere_makes_no_file(self):
        self.at_new_names(lambda path: os.symlink(self.outside, path))
        self.assertFalse(os.path.lexists(self.outside))

    def test_what_a_killed_process_left_is_not_written_to(self):
        def leave(path):
            with open(path, "wb") as file:
                file.write(b"left")

        for name in self.at_new_names(leave):
            self.assertEqual(self.read(name), b"left")

    def test_a_folder_at_a_new_name_is_passed_over(self):
        self.at_new_names(os.mkdir)

    def test_a_run_tries_a_further_name(self):
        """Of the hundred names that a worker tries for a chunk only the last is free. A worker's first name is the first of the process."""
        made = []

        def prepare(process):
            for name in new_names("y/c/0", process, TRIED - 1):
                os.makedirs(self.path(name))
                made.append(name)

        self.assertEqual(self.call("load", text=array("x", [1, 2, 3], 2))[0], 0)
        status, said = self.call_after(prepare, "run", "--retries", "0", text=negated("x", "y"))
        self.assertEqual((status, said.split(" ")[0]), (0, "ok"))
        self.assertEqual((self.read("y/c/0"), self.read("y/c/1")[:1]), (b"\xff\xfe", b"\xfd"))
        self.assertEqual(sorted(os.listdir(self.path("y/c"))), sorted(["0", "1", *map(os.path.basename, made)]))

    def test_names_that_are_all_taken_are_a_fault(self):
        def prepare(process):
            os.makedirs(self.path("x/c"))
            for name in new_names("x/c/0", process, TRIED + 20):
                self.put(name, b"left")

        self.assertEqual(self.call_after(prepare, "load", "--retries", "0", text=array("x", [1, 2], 2)), (16, "error 16 key=x/c/0"))
        self.assertEqual(len(self.files()), TRIED + 20)
        self.assertEqual({self.read(key) for key in self.files()}, {b"left"})

    def test_a_leftover_is_never_read(self):
        self.put("x/c/0.new0", b"\7\7")
        self.assertEqual(self.call("load", text=array("x", [1, 2], 2))[0], 0)
        os.remove(self.path("x/c/0"))
        self.assertEqual(self.call("print", "x"), (0, "int8 shape [2] chunk [2]\n0 0"))


class TwoProcesses(InFolder):
    ROUNDS, CHUNK, CHUNKS = 12, 1 << 13, 8

    def begin(self, text, *front):
        """Starts a `load` of this text, in a group of processes of its own."""
        with tempfile.TemporaryFile() as room:
            room.write(text)
            room.seek(0)
            words = [*front, PROGRAM, self.dir, "load"]
            return subprocess.Popen(words, stdin=room, stdout=subprocess.DEVNULL, stderr=subprocess.DEVNULL, start_new_session=True)

    def test_each_chunk_is_that_of_one_of_them(self):
        size = self.CHUNK * self.CHUNKS
        texts = [array("x", [number] * size, self.CHUNK) for number in (1, 2)]
        for _ in range(self.ROUNDS):
            started = []
            for text in texts:
                started.append(self.begin(text))
            statuses = [process.wait(SECONDS) for process in started]
            # The one that came later may find the other's metadata.
            self.assertIn(0, statuses)
            self.assertLessEqual(set(statuses), {0, 9})
            for number in range(self.CHUNKS):
                self.assertIn(self.read(f"x/c/{number}"), (b"\1" * self.CHUNK, b"\2" * self.CHUNK), "a chunk of neither")
            self.assertEqual([key for key in self.files() if NEW.search(key)], [])
            shutil.rmtree(self.path("x"))

    def test_a_killed_one_leaves_the_chunk_of_the_other(self):
        """One is held before it renames its new file, and the other is killed before it writes to its own."""
        if not shutil.which("strace"):
            self.skipTest("no strace")

        def begin(call, seconds):
            late = ("strace", "-f", "-o", "/dev/null", "-e", f"trace={call}", "-e", f"inject={call}:delay_enter={seconds * 1_000_000}")
            return self.begin(array("x", [1] * self.CHUNK, self.CHUNK), *late)

        def await_new(size):
            until = time.monotonic() + SECONDS
            while not any(NEW.search(key) and os.path.getsize(self.path(key)) == size for key in self.files()):
                self.assertLess(time.monotonic(), until, "no new file")

        first = begin("rename", 2)
        await_new(self.CHUNK)
        second = begin("write", 20)
        await_new(0)
        status = first.wait(SECONDS)
        os.killpg(second.pid, signal.SIGKILL)
        second.wait(SECONDS)
        self.assertEqual(status, 0)
        self.assertEqual(self.read("x/c/0"), b"\1" * self.CHUNK)


class FilesInTheWay(InFolder):
    def test_a_key_below_a_file_is_absent(self):
        self.assertEqual(self.call("load", text=array("x", [1, 2, 3], 2))[0], 0)
        shutil.rmtree(self.path("x/c"))
        self.put("x/c", b"a file")
        self.assertEqual(self.call("print", "x"), (0, "int8 shape [3] chunk [2]\n0 0 0"))

    def test_chunks_of_version_2_below_chunks_of_fewer_axes_are_absent(self):
        told = {"zarr_format": 2, "shape": [1, 1, 1], "chunks": [1, 1, 1], "dtype": "|i1", "fill_value": 7, "order": "C",
                "compressor": None, "filters": None, "dimension_separator": "/"}
        self.put("x/.zarray", json.dumps(told).encode())
        self.put("x/0/0", b"\1")
        self.assertEqual(self.call("print", "x"), (0, "int8 shape [1,1,1] chunk [1,1,1]\n7"))

    def test_a_key_below_a_file_is_a_fault_for_a_put(self):
        self.put("x/c", b"a file")
        self.assertEqual(self.call("load", text=array("x", [1, 2, 3], 2)), (16, "error 16 key=x/c/0"))
        self.assertEqual(self.files(), ["x/c"])


class Syncing(InFolder):
    def everything(self, *options):
        """Loads an array and computes another; returns the files with their bytes."""
        for words, text in ((("load",), array("x", [1, 2, 3], 2)), (("run",), negated("x", "y")), (("demo", "4"), b"")):
            status, said = self.call(*words, *options, text=text)
            self.assertEqual(status, 0, said)
        return {key: self.read(key) for key in self.files()}

    def test_no_byte_differs(self):
        synced = self.everything()
        shutil.rmtree(self.dir)
        self.assertEqual(self.everything("--sync", "0"), synced)

    def test_a_run_goes_on_with_the_other_choice(self):
        self.assertEqual(self.call("load", text=array("x", [1, 2, 3], 2))[0], 0)
        self.assertEqual(self.call("run", "--sync=0", text=negated("x", "y"))[0], 0)
        os.remove(self.path("y/c/1"))
        self.assertEqual(self.call("resume", text=negated("x", "y"))[0], 0)
        self.assertEqual(self.read("y/c/1")[:1], b"\xfd")

    @unittest.skipUnless(shutil.which("strace"), "no strace")
    def test_files_are_synced_unless_0_is_given(self):
        def syncs(command, text, *options):
            """How many files a call syncs, and how many get their names."""
            trace = f"{self.outside}.trace"
            ended = self.call(command, *options, text=text, front=("strace", "-f", "-o", trace, "-e", "trace=fdatasync,fsync,rename"))
            self.assertEqual(ended[0], 0, ended)
            with open(trace, encoding="utf-8") as file:
                lines = file.read()
            return len(re.findall(r"\bf(?:data)?sync\(", lines)), len(re.findall(r"\brename\(", lines))

        # The metadata of an array, its chunks, and of a run the record too. Each worker stores chunks by itself.
        loaded, ran = array("x", [1, 2, 3, 4, 5, 6, 7], 2), negated("x", "y")
        for options, is_synced in (((), True), (("--sync", "1"), True), (("--sync", "0"), False)):
            self.assertEqual(syncs("load", loaded, *options), (5 * is_synced, 5), options)
            for workers in ("1", "2"):
                self.assertEqual(syncs("run", ran, "--workers", workers, *options), (6 * is_synced, 6), options)
                for name in ("0", "2"):
                    os.remove(self.path(f"y/c/{name}"))
                self.assertEqual(syncs("resume", ran, "--workers", workers, *options), (2 * is_synced, 2), options)
                shutil.rmtree(self.path("y"))
                shutil.rmtree(self.path("_cubed"))
            shutil.rmtree(self.dir)

    def test_other_values_and_commands_are_refused(self):
        for words in (("load", "--sync", "2"), ("run", "--sync", "-1"), ("demo", "4", "--sync"), ("resume", "--sync=x"),
                      ("drop", "--sync", "0"), ("plan", "--sync", "0"), ("check", "--sync", "0"), ("print", "x", "--sync", "0")):
            self.assertEqual(self.call(*words), (2, "error 2 code=2"), words)


def cube(name, rank):
    """The text of an array of this many axes of two elements each, in chunks of one."""
    told = {"name": name, "data_type": "int8", "shape": [2] * rank, "chunk_shape": [1] * rank, "elements": list(range(2**rank))}
    return json.dumps(told).encode()


def twice_negated(name, stored):
    nodes = [{"id": "a", "op": "input", "name": name}, {"id": "n", "op": "negative", "args": ["a"]}, {"id": "m", "op": "negative", "args": ["n"]}]
    return json.dumps({"nodes": nodes, "out": "m", "store_as": stored}).encode()


class Emptied(InFolder):
    def folders(self):
        return sorted(os.path.relpath(os.path.join(at, name), self.dir) for at, names, _ in os.walk(self.dir) for name in names)

    def test_a_result_of_any_rank_may_follow_a_dropped_one(self):
        """With the array in between stored too. Nothing of the dropped one is left, no folder either."""
        for rank in range(4):
            self.assertEqual(self.call("load", text=cube(f"x{rank}", rank))[0], 0)
        left = (self.files(), self.folders())
        for fusion in ("1", "2"):
            for first in range(4):
                for then in range(4):
                    for rank in (first, then):
                        text = twice_negated(f"x{rank}", "y")
                        told = self.call("run", "--fusion", fusion, text=text)
                        self.assertEqual(told[0], 0, (first, then, told))
                        self.assertEqual(self.call("drop", "--fusion", fusion, text=text)[0], 0)
                        self.assertEqual((self.files(), self.folders()), left)

    def test_the_folder_of_the_arrays_stays(self):
        self.assertEqual(self.call("load", text=array("x", [1, 2, 3], 2))[0], 0)
        self.assertEqual(self.call("run", text=negated("x", "y"))[0], 0)
        shutil.rmtree(self.path("x"))
        os.mkdir(self.path("of another"))
        self.assertEqual(self.call("drop", text=negated("x", "y"))[0], 8)
        self.assertEqual(self.call("load", text=array("x", [1, 2, 3], 2))[0], 0)
        self.assertEqual(self.call("drop", text=negated("x", "y"))[0], 0)
        self.assertEqual(sorted(os.listdir(self.dir)), ["of another", "x"])

    def test_what_others_have_put_beside_stays(self):
        self.assertEqual(self.call("load", text=array("x", [1, 2, 3], 2))[0], 0)
        self.assertEqual(self.call("run", text=negated("x", "y"))[0], 0)
        self.put("y/c/notes", b"of another")
        self.assertEqual(self.call("drop", text=negated("x", "y"))[0], 0)
        self.assertEqual(self.read("y/c/notes"), b"of another")

    def test_a_folder_in_a_keys_place_is_no_value(self):
        self.assertEqual(self.call("load", text=array("x", [1, 2, 3], 2))[0], 0)
        os.makedirs(self.path("y/c/1"))
        self.assertEqual(self.call("run", text=negated("x", "y"))[0], 0)
        self.assertEqual(self.read("y/c/1")[:1], b"\xfd")
        os.remove(self.path("x/c/1"))
        self.put("x/c/1/notes", b"of another")
        self.assertEqual(self.call("print", "x"), (0, "int8 shape [3] chunk [2]\n1 2 0"))
        self.put("w/c/0/notes", b"of another")
        self.assertEqual(self.call("load", text=array("w", [1], 1)), (16, "error 16 key=w/c/0"))
        self.assertEqual(self.read("w/c/0/notes"), b"of another")


@unittest.skipUnless(shutil.which("strace"), "no strace")
class FailingCalls(InFolder):
    """The system's calls fail by strace."""

    def traced(self, calls, *words, inject=None, text=b"", only=()):
        trace = f"{self.outside}.trace"
        front = ["strace", "-f", "-o", trace, *only, "-e", f"trace={calls}", *(("-e", f"inject={inject}") if inject else ())]
        told = self.call(*words, text=text, front=front)
        with open(trace, encoding="utf-8") as file:
            return told, file.read().splitlines()

    def test_a_file_that_is_short_when_it_is_closed_is_a_fault_with_and_without_syncs(self):
        # A write of a chunk's two bytes that is answered and stores nothing leaves a file as a quota does that is told at closing.
        text = array("x", [1, 2, 3], 2)
        for sync in ("0", "1"):
            lost = "write:retval=2:when=1"
            told, _ = self.traced("write", "load", "--sync", sync, "--retries", "0", inject=lost, text=text)
            self.assertEqual((told, self.files()), ((16, "error 16 key=x/c/0"), []))
            # One such write, and the put is tried again.
            told, _ = self.traced("write", "load", "--sync", sync, "--retries", "1", inject=lost, text=text)
            self.assertEqual((told[0], self.read("x/c/0"), self.read("x/c/1")[:1]), (0, b"\1\2", b"\3"))
            shutil.rmtree(self.path("x"))

    def test_a_read_and_a_write_that_are_interrupted_go_on(self):
        for call, path in (("read", "in"), ("write", "out")):
            with open(f"{self.outside}.in", "wb") as file:
                file.write(array("x", [1, 2, 3], 2))
            path, counted = f"{self.outside}.{path}", f"{self.outside}.trace"
            front = ["strace", "-f", "-o", counted, "-P", path, "-e", f"trace={call}", "-e", f"inject={call}:error=EINTR:when=1..5"]
            with open(f"{self.outside}.in", "rb") as text, open(f"{self.outside}.out", "wb") as out:
                ended = subprocess.run([*front, PROGRAM, self.dir, "load"], stdin=text, stdout=out, timeout=SECONDS, check=False)
            with open(f"{self.outside}.out", "rb") as file:
                self.assertEqual((ended.returncode, file.read()), (0, b"ok elements=3 chunks=2\n"), call)
            with open(counted, encoding="utf-8") as file:
                self.assertEqual(file.read().count("INJECTED"), 5)
            shutil.rmtree(self.path("x"))

    def test_folders_that_are_there_are_not_made(self):
        self.assertEqual(self.call("load", text=array("x", [1, 2, 3], 2))[0], 0)
        told, lines = self.traced("mkdir", "load", text=array("z", [1, 2, 3], 2))
        self.assertEqual(told[0], 0)
        made = [line.split('"')[1] for line in lines if "mkdir(" in line]
        self.assertEqual(made, [self.path("z/c"), self.path("z"), self.path("z/c")])


if __name__ == "__main__":
    usage_if_asked(__doc__)
    if sys.argv[1:2] == ["--program"]:
        PROGRAM = os.path.abspath(sys.argv[2])
        del sys.argv[1:3]
    if not os.access(PROGRAM, os.X_OK):
        print("test_folders: the program isn't built: ./cubed DIR demo 4 builds it", file=sys.stderr)
        sys.exit(77)
    unittest.main()
