#!/usr/bin/env python3
"""Tests the scripts beside the program: tools/zarr, the script cubed, and its commands `status`, `remove` and `explain`.

usage: tools/test_scripts.py [TEST..]     as tools/test_scripts.py Folder

What needs the program runs over the one that the gate built, and is left out where there is none. The files of NumPy are read and
written by NumPy too where it can be imported. test_calls.py has the tests of calls, test_contract.py those of the size of the
contract, test_hostile.py those of strange folders, and test_loops.py that of the loops beside which a day's work is measured.
"""
import array
import concurrent.futures
import contextlib
import hashlib
import io
import itertools
import json
import math
import os
import random
import re
import runpy
import shutil
import sys
import tempfile
import time
import unittest
import unittest.mock
import zipfile

sys.dont_write_bytecode = True
from test_base import TOP, InFolder, files_in, put, rules, run, wait_until
from test_calls import *  # noqa: F403
from test_contract import *  # noqa: F403
from test_documents import *  # noqa: F403
from test_hostile import *  # noqa: F403
from test_locks import *  # noqa: F403
from test_loops import *  # noqa: F403
from test_manual import *  # noqa: F403
import folder as folder_commands
import prove
import shipped
import variant_files
import word_cases
from zarr_store import TYPES, Layout, item_bytes

try:
    import numpy
except ImportError:
    numpy = None
RECORD = '{"allowed":200000000}'


class Zarr(InFolder):
    def chunk(self, name, *coordinate):
        with open(os.path.join(self.top, name, "c", *map(str, coordinate)), "rb") as file:
            return file.read()

    def test_chunks_are_whole_and_padded_with_the_fill_value(self):
        self.zarr("write", "a", "--dtype", "int8", "--shape", "2,3", "--chunk", "2,2", "--fill", "9", "1", "2", "3", "4", "5", "6")
        self.assertEqual(self.chunk("a", 0, 0), bytes([1, 2, 4, 5]))
        self.assertEqual(self.chunk("a", 0, 1), bytes([3, 9, 6, 9]))
        with open(f"{self.top}/a/zarr.json", encoding="ascii") as file:
            self.assertEqual(file.read(), Layout("int8", [2, 3], [2, 2], 9).text())

    def test_bytes_come_back_in_every_type_shape_and_chunk(self):
        pick = random.Random(1)
        for count, dtype in enumerate(TYPES):
            shape = [pick.randrange(6) for _ in range(pick.randrange(4))]
            chunk = [pick.randrange(1, 5) for _ in shape]
            data = pick.randbytes(item_bytes(dtype) * math.prod(shape))
            data = bytes(byte & 1 for byte in data) if dtype == "bool" else data
            put(f"{self.top}/in.raw", data)
            sizes = ["--shape", ",".join(map(str, shape)), "--chunk", ",".join(map(str, chunk))]
            self.zarr("write", f"a{count}", "--raw", f"{self.top}/in.raw", "--dtype", dtype, *sizes)
            self.assertEqual(self.zarr("read", f"a{count}", "--raw", "-"), data)
            self.zarr("write", f"b{count}", "--raw", f"{self.top}/in.raw", "--dtype", dtype, "--big", *sizes)
            swapped = array.array(TYPES[dtype], data)
            swapped.byteswap()
            self.assertEqual(self.zarr("read", f"b{count}", "--raw", "-"), swapped.tobytes())

    def test_text_comes_from_standard_input(self):
        self.zarr("write", "a", "--dtype", "bool", text=b"true false\ntrue")
        self.assertEqual(self.chunk("a", 0), bytes([1, 0, 1]))
        for text in (b"128", b"1.0", b"1_0", b"x", "\u0661".encode(), b"1 2-3"):
            self.zarr("write", "b", "--dtype", "int8", status=1, text=text)
            self.assertEqual(set(os.listdir(self.top)) - {".locks"}, {"a"})

    def test_what_is_there_or_is_wrong_is_refused_and_leaves_nothing(self):
        self.zarr("write", "a", "1")
        self.zarr("write", "a", "1", status=1)
        put(f"{self.top}/_cubed/b/plan.json")
        self.zarr("write", "b", "1", status=1)
        for words in (["--shape", "2"], ["--chunk", "0"], ["--chunk", "1,1"], ["--dtype", "float64"], ["--fill", "x"], ["--x", "1"], ["--chunk"]):
            ended = run(f"{TOP}/tools/zarr", self.top, "write", "c", "1", *words)
            self.assertIn(ended.returncode, (1, 2), words)
            self.assertEqual(ended.stdout, b"")
        self.assertEqual(set(os.listdir(self.top)) - {".locks"}, {"_cubed", "a"})

    def test_an_absent_chunk_is_the_fill_value_and_a_short_one_is_refused(self):
        self.zarr("write", "a", "--dtype", "int8", "--chunk", "2", "--fill", "7", "1", "2", "3", "4")
        os.remove(f"{self.top}/a/c/0")
        self.assertEqual(self.zarr("read", "a", "--raw", "-"), bytes([7, 7, 3, 4]))
        put(f"{self.top}/a/c/1", b"\0")
        self.zarr("read", "a", "--raw", f"{self.top}/out", status=1)
        self.assertFalse([name for name in os.listdir(self.top) if name.startswith("out")])

    def test_an_unfinished_result_is_refused(self):
        self.zarr("write", "a", "--dtype", "int8", "--chunk", "2", "1", "2", "3", "4")
        put(f"{self.top}/_cubed/a/plan.json", RECORD.encode())
        self.zarr("read", "a", "--raw", "-")
        os.remove(f"{self.top}/a/c/1")
        self.zarr("read", "a", "--raw", "-", status=1)
        self.assertEqual(self.zarr("read", "a", "--raw", "-", "--unfinished"), bytes([1, 2, 0, 0]))

    def test_version_2_is_read_where_it_lies(self):
        told = {"zarr_format": 2, "shape": [3], "chunks": [2], "dtype": ">i2", "compressor": None, "filters": None, "order": "C", "fill_value": None}
        put(f"{self.top}/a/.zarray", json.dumps(told).encode())
        put(f"{self.top}/a/.zattrs", b'{"_ARRAY_DIMENSIONS":["x"],"units":"K","scale_factor":0.1}')
        put(f"{self.top}/a/0", b"\0\1\0\2")
        self.assertEqual(self.zarr("read", "a", "--raw", "-"), b"\1\0\2\0\0\0")
        self.assertIn("1 of 2", self.cubed("status"))
        self.zarr("adopt", "a")
        self.assertEqual(self.zarr("read", "a", "--raw", "-"), b"\1\0\2\0\0\0")
        with open(f"{self.top}/a/zarr.json", encoding="ascii") as file:
            members = json.load(file)
        self.assertEqual((members["dimension_names"], members["attributes"]), (["x"], {"units": "K", "scale_factor": 0.1}))
        self.zarr("adopt", "a", status=1)
        for name, value in (("compressor", {"id": "zstd"}), ("filters", [{"id": "delta"}]), ("dtype", "<f4"), ("dtype", "|i2"), ("order", "F"),
                            ("fill_value", 40000), ("dimension_separator", "-"), ("zarr_format", 3)):
            put(f"{self.top}/b/.zarray", json.dumps({**told, name: value}).encode())
            self.zarr("adopt", "b", status=1)
            self.zarr("read", "b", "--raw", "-", status=1)

    def test_an_adopted_array_stays_readable(self):
        """Attributes that the program doesn't read, as zarr-python's NaN, are left out, and the others stay."""
        told = {"zarr_format": 2, "shape": [3], "chunks": [2], "dtype": "|i1", "compressor": None, "filters": None, "order": "C", "fill_value": None}
        for number, odd in enumerate((b"NaN", b"[0,-Infinity]", b"1e999", b'"\\ud800"', b"1" + b"0" * 400, b"[" * 200 + b"]" * 200)):
            put(f"{self.top}/a{number}/.zarray", json.dumps(told).encode())
            put(f"{self.top}/a{number}/.zattrs", b'{"odd":' + odd + b',"units":"K"}')
            self.zarr("adopt", f"a{number}")
            with open(f"{self.top}/a{number}/zarr.json", "rb") as file:
                data = file.read()
            self.assertIsInstance(rules.meta_or_code(data), rules.Array, odd)
            self.assertEqual(json.loads(data)["attributes"], {"units": "K"})

    @unittest.skipIf(numpy is None, "NumPy can't be imported")
    def test_files_of_numpy(self):
        pick = numpy.random.default_rng(1)
        for count, (dtype, is_fortran, order) in enumerate(zip(TYPES, itertools.cycle((False, True)), itertools.cycle("<<>>"))):
            given = pick.integers(0, 2, size=(5, 4, 3)).astype(numpy.dtype(dtype).newbyteorder(order))
            given = numpy.asfortranarray(given) if is_fortran else given
            numpy.save(f"{self.top}/in.npy", given)
            self.zarr("write", f"a{count}", "--npy", f"{self.top}/in.npy", "--chunk", "2,3,2")
            self.zarr("read", f"a{count}", "--npy", f"{self.top}/out.npy")
            found = numpy.load(f"{self.top}/out.npy")
            self.assertEqual(found.dtype, numpy.dtype(dtype))
            self.assertTrue((found == given).all())
        numpy.save(f"{self.top}/in.npy", numpy.zeros(3))
        self.zarr("write", "f", "--npy", f"{self.top}/in.npy", status=1)


class Folder(InFolder):
    def make_result(self, chunks=2):
        """A result of three chunks of which so many are stored, with two chunks in between and a write that was stopped."""
        layout = Layout("int8", [6], [2])
        put(f"{self.top}/y/zarr.json", layout.text().encode())
        for at in range(chunks):
            put(f"{self.top}/y/c/{at}", b"\1\2")
        put(f"{self.top}/y/c/{min(chunks, 2)}.new17", b"\1")
        put(f"{self.top}/_cubed/y/plan.json", RECORD.encode())
        for at in range(2):
            put(f"{self.top}/_cubed/y/0/c/{at}", b"\1\2")

    def test_status_tells_what_is_unfinished(self):
        self.make_result()
        self.assertIn("2 of 3", self.cubed("status"))
        self.assertIn("unfinished", self.cubed("status", "y", status=1))
        put(f"{self.top}/y/c/2", b"\1\2")
        self.assertIn("result of a run", self.cubed("status", "y"))
        self.cubed("status", "z", status=1)
        self.cubed("status", "-x", status=2)

    def test_remove_takes_the_whole_result_and_nothing_else(self):
        self.make_result()
        put(f"{self.top}/a/zarr.json", Layout("int8", [1], [1]).text().encode())
        put(f"{self.top}/y/note.txt")
        before = files_in(self.top)
        self.cubed("remove", "y", "--dry-run")
        self.assertEqual(files_in(self.top), before)
        self.assertIn("note.txt", self.cubed("remove", "y"))
        self.assertEqual(files_in(self.top), ["a/zarr.json", "y/note.txt"])
        self.cubed("remove", "a", status=1)
        self.cubed("remove", "a", "--input")
        self.assertEqual(files_in(self.top), ["y/note.txt"])

    def test_a_removal_that_is_stopped_goes_on_and_leaves_no_array(self):
        for stop in range(9):
            self.make_result(3)
            with contextlib.redirect_stdout(io.StringIO()), stopped_after(stop):
                folder_commands.main([self.top, "remove", "y"])
            if stop:
                self.assertNotIn("y/zarr.json", files_in(self.top))
            if files_in(self.top):
                self.assertIn("_cubed/y/plan.json", files_in(self.top))
                self.assertIn("unfinished" if stop else "result of a run", self.cubed("status"))
                self.cubed("remove", "y")
            self.assertEqual(files_in(self.top), [])

    def test_a_link_goes_and_what_it_leads_to_stays(self):
        put(f"{self.top}/far/x/zarr.json", Layout("int8", [1], [1]).text().encode())
        os.symlink("far/x", f"{self.top}/x")
        self.cubed("remove", "x", status=1)
        self.cubed("remove", "x", "--input")
        self.assertEqual(files_in(self.top), ["far/x/zarr.json"])

    def test_what_a_killed_write_left_is_shown_and_goes(self):
        name = "a" * 32 + ".new12345"
        put(f"{self.top}/{name}/c/0", b"\1")
        self.assertIn("left by a write that was stopped", self.cubed("status"))
        self.cubed("remove", name)
        self.assertEqual(files_in(self.top), [])

    def test_a_group_and_a_wrong_name_are_refused(self):
        put(f"{self.top}/g/zarr.json", b'{"zarr_format":3,"node_type":"group"}')
        put(f"{self.top}/h/.zgroup", b"{}")
        os.makedirs(f"{self.top}/plain/c")
        self.cubed("remove", "plain", "--input", status=1)
        self.assertTrue(os.path.isdir(f"{self.top}/plain/c"))
        self.assertNotIn("plain", self.cubed("status"))
        for name, status in (("g", 1), ("h", 1), ("..", 2), (".", 2), ("_cubed", 2), ("", 2), ("a/b", 2)):
            self.cubed("remove", name, "--input", status=status)
        self.assertEqual(files_in(self.top), ["g/zarr.json", "h/.zgroup"])


@contextlib.contextmanager
def stopped_after(count):
    """Lets so many files be removed, and breaks off then."""
    unlink, left = folder_commands.unlink, [count]

    def counted(name, at):
        if not left[0]:
            raise KeyboardInterrupt
        left[0] -= 1
        unlink(name, at)

    folder_commands.unlink = counted
    try:
        with contextlib.redirect_stderr(io.StringIO()):
            yield
    finally:
        folder_commands.unlink = unlink


class Months(InFolder):
    def months(self, year, *calendar):
        """The expression of a year's months, and the days that they have together."""
        ended = run(sys.executable, f"{TOP}/examples/calendar/months.py", "days", str(year), "y", *calendar)
        self.assertEqual(ended.returncode, 0, ended.stderr)
        slices = [node["index"][0] for node in json.loads(ended.stdout)["nodes"] if node["op"] == "index"]
        self.assertEqual([it["start"] for it in slices], [0] + [it["stop"] for it in slices[:-1]])
        return ended.stdout, slices[-1]["stop"], [it["stop"] - it["start"] for it in slices]

    def test_years_have_their_days_in_each_calendar(self):
        """The days of years as the CF conventions and the calendars themselves have them."""
        for year, calendar, days, february in (
                (2001, "standard", 365, 28), (2000, "standard", 366, 29), (1900, "standard", 365, 28), (1500, "standard", 366, 29),
                (1582, "gregorian", 355, 28), (1582, "proleptic_gregorian", 365, 28), (1500, "proleptic_gregorian", 365, 28),
                (1900, "julian", 366, 29), (2000, "noleap", 365, 28), (2000, "365_day", 365, 28), (2001, "all_leap", 366, 29),
                (2001, "366_day", 366, 29), (2001, "360_day", 360, 30)):
            text, found, lengths = self.months(year, calendar)
            self.assertEqual((len(lengths), found, lengths[1]), (12, days, february), calendar)
            plan = rules.typed_plan(text, {"days/zarr.json": rules.compact(rules.Array("int16", [days], [days]).written()).encode()}.get)
            self.assertEqual(plan.infos[plan.out][1], [12])
        self.assertEqual(self.months(2001)[1:], self.months(2001, "standard")[1:])

    def test_labels_name_the_same_months(self):
        for words, days in ((["2001"], 365), (["2000", "2003"], 1461), (["2000", "2003", "noleap"], 1460), (["1582", "gregorian"], 355)):
            labels = [int(it) for it in run(sys.executable, f"{TOP}/examples/calendar/month_labels.py", *words).stdout.split()]
            self.assertEqual((len(labels), labels[:32], labels[-1]), (days, [0] * 31 + [1], 11), words)

    def test_another_calendar_is_refused(self):
        self.assertEqual(run(sys.executable, f"{TOP}/examples/calendar/months.py", "days", "2001", "y", "lunar").returncode, 1)
        for words in ([], ["2001", "lunar"], ["2001", "2002", "2003"]):
            self.assertEqual(run(sys.executable, f"{TOP}/examples/calendar/month_labels.py", *words).returncode, 1)


class Archive(InFolder):
    """What tools/archive makes of a program. The program of these tests is a script."""

    PROGRAM = b'#!/bin/sh\n# as if it were linked with GLIBC_2.17 and GLIBC_2.9\necho "$@"\n'

    def setUp(self):
        super().setUp()
        put(f"{self.room}/program", self.PROGRAM)
        self.made = runpy.run_path(f"{TOP}/tools/archive")
        self.dist = f"{self.room}/dist"
        os.mkdir(self.dist)

    def pack(self, *kinds):
        return self.made["pack"](self.dist, {kind: f"{self.room}/program" for kind in kinds})

    def test_each_script_finds_what_it_imports(self):
        os.mkdir(f"{self.room}/alone")
        shipped.put_scripts(f"{self.room}/alone")
        modules = [name[:-3] for names in shipped.SHIPPED.values() for name in names if name.endswith(".py")]
        self.assertGreater(len(modules), 8)
        places = [f"{self.room}/alone/{place}" for place in shipped.SHIPPED]
        ended = run(sys.executable, "-c", f"import sys; sys.path[:0] = {places!r}; import {', '.join(modules)}")
        self.assertEqual((ended.returncode, ended.stderr.decode()), (0, ""))

    def test_it_runs_where_it_is_unpacked_and_says_what_it_is(self):
        names = self.pack("x86-64-v2", "x86-64-v3")
        self.assertEqual([name for name in names if "v2" in name and "v3" not in name], names[:2])
        shutil.unpack_archive(f"{self.dist}/{names[0]}", self.room, filter="data") if sys.version_info >= (3, 12) \
            else shutil.unpack_archive(f"{self.dist}/{names[0]}", self.room)
        script = f"{self.room}/cubed/cubed"
        told = run(script, "--version").stdout.decode()
        for part in ("for x86-64-v2", "SSE4.2", "the C library 2.17 or", hashlib.sha256(self.PROGRAM).hexdigest()):
            self.assertIn(part, told)
        self.assertEqual(run(script, self.top, "print", "y").stdout.decode(), f"{self.top} print y\n")
        self.assertTrue(run(script, "help").stdout.startswith(b"cubed DIR COMMAND"))
        self.assertIn(b"cause: ", run(script, "explain", "14").stdout)

    def test_the_checksums_are_those_of_the_files_and_come_again(self):
        names = self.pack("x86-64-v2")
        with open(f"{self.dist}/SHA256SUMS", encoding="ascii") as file:
            said = file.read()
        for name in names:
            with open(f"{self.dist}/{name}", "rb") as file:
                self.assertIn(f"{hashlib.sha256(file.read()).hexdigest()}  {name}\n", said)
        time.sleep(1.1)
        self.pack("x86-64-v2")
        with open(f"{self.dist}/SHA256SUMS", encoding="ascii") as file:
            self.assertEqual(file.read(), said)

    def test_the_wheel_is_one_of_its_platform_with_the_program(self):
        name = self.pack("x86-64-v3")[1]
        self.assertRegex(name, r"^cengmoat-[0-9.]+-3_x86_64_v3-py3-none-manylinux_2_17_x86_64\.whl$")
        with zipfile.ZipFile(f"{self.dist}/{name}") as wheel:
            self.assertEqual(wheel.read("cengmoat/cubed"), self.PROGRAM)
            self.assertTrue(wheel.getinfo("cengmoat/cubed").external_attr >> 16 & 0o100)
            self.assertIn(b"AVX2", wheel.read("cengmoat/PROVED.txt"))
            rows = wheel.read(next(it for it in wheel.namelist() if it.endswith("RECORD"))).decode()
            self.assertEqual({row.split(",")[0] for row in rows.split()}, set(wheel.namelist()))


    def test_without_a_program_the_version_says_so(self):
        """pip shows nothing else of a build: its last line is `Successfully installed cengmoat-0.1.0+without.program`."""
        backend = runpy.run_path(f"{TOP}/python/backend.py")
        for program, wanted in ((None, r"^cengmoat-[0-9.]+\+without\.program-py3-none-any\.whl$"),
                                (f"{self.room}/program", r"^cengmoat-[0-9.]+-py3-none-linux_\w+\.whl$")):
            backend["build_wheel"].__globals__["_program"] = lambda program=program: program
            name = backend["build_wheel"](self.dist)
            self.assertRegex(name, wanted)
            with zipfile.ZipFile(f"{self.dist}/{name}") as wheel:
                told = wheel.read(next(it for it in wheel.namelist() if it.endswith("METADATA"))).decode()
                self.assertEqual("cengmoat/cubed" in wheel.namelist(), program is not None)
            self.assertEqual("+without.program" in told.split("\n")[2], program is None)


class Proving(InFolder):
    """What tools/prove.py shows while it proves."""

    def test_it_shows_how_far_it_is_and_guesses_what_is_left(self):
        room = unittest.mock.Mock(lines={"cu_text": "", "cu_shape": "", "cu_codec": ""})
        with unittest.mock.patch.object(prove, "PROGRESS", f"{self.room}/progress"), \
                unittest.mock.patch.object(prove, "bytes_of", {"cu_text": 100, "cu_shape": 100, "cu_codec": 200}.get):
            work = prove.Work(room, 1)
            work.show()
            self.assertRegex(self.line(), r"^0 of 3 crates are proved, \d+ s gone$")
            work.began -= 600
            work.kept.add("cu_text")
            work.note("cu_text")
            # What is kept took no time, so it says nothing of what is left.
            self.assertEqual(self.line(), "1 of 3 crates are proved, 10 min gone")
            work.note("cu_shape")
            self.assertEqual(self.line(), "2 of 3 crates are proved, 10 min gone, about 20 min left")
            work.note("cu_codec")
            self.assertRegex(self.line(), r"^3 of 3 crates are proved, 10 min gone, the program itself")

    def line(self):
        with open(f"{self.room}/progress", encoding="utf-8") as file:
            return file.read().strip()

    def test_the_file_is_kept_new_while_a_crate_is_proved(self):
        room = unittest.mock.Mock(lines={"cu_text": ""})
        with unittest.mock.patch.object(prove, "PROGRESS", f"{self.room}/progress"), \
                unittest.mock.patch.object(prove, "EVERY", 0.05), prove.Work(room, 1) as work:
            work.began -= 600
            self.assertTrue(wait_until(lambda: os.path.exists(f"{self.room}/progress") and "10 min gone" in self.line()))
            work.began -= 60
            self.assertTrue(wait_until(lambda: "11 min gone" in self.line()))


class VariantFiles(InFolder):
    """Files in which a form of an expression stands, or a kind of operation."""

    def put_crates(self, **files):
        put(f"{self.top}/crates/cu_form/src/form.rt", b"""/// What a node is.
pub enum Form {
    /// a stored array
    Input {
        name: IdText,
    },
    Flip {
        axes: Items<i64>,
    },
    Matmul,
}
""")
        put(f"{self.top}/crates/cu_op/src/operation.rt", b"""pub enum Op {
    Map { out: u32 },
    Flip,
}
""")
        for path, text in files.items():
            put(f"{self.top}/crates/{path}", text.encode())

    def test_each_file_that_names_a_form_counts_once(self):
        self.put_crates(**{
            "cu_read/src/view.rt": "Form::Flip { axes }\nForm::Flip { axes }\n// Form::Matmul\n",
            "cu_read/specs/View.antt": "use Rattle.cu_form.specs.declared.form.Form.TheVariants.{Flip, Input}\n",
            "cu_mean/proofs/Kept.antt": "kept (Form.Matmul) = tt\n-- and Form.Flip\n",
            "cu_mean/proofs/Examples.antt": "flipped = Form.Flip []\n",
            "cu_mean/src/other.rt": "Pull::Flip\nForm::Flipped\n",
            "test_rows/src/lib.rt": "Form::Flip\n"})
        declared = "cu_form/src/form.rt"
        self.assertEqual(variant_files.files_of(variant_files.FORMS, self.top), {
            "Input": [declared, "cu_read/specs/View.antt"],
            "Flip": [declared, "cu_read/src/view.rt", "cu_read/specs/View.antt"],
            "Matmul": [declared, "cu_mean/proofs/Kept.antt"]})

    def test_a_kind_is_told_from_a_form_of_the_same_name(self):
        self.put_crates(**{
            "cu_task/src/compute.rt": "Op::Map { out } => Op::map_of(out)\n",
            "cu_task/proofs/Rooms.antt": "use Rattle.cu_op.specs.declared.operation.Op.TheVariants.{Map, Flip}\n",
            "cu_view/proofs/Views.antt": "use Rattle.cu_form.specs.declared.form.Form.TheVariants.{Flip}\n",
            "cu_fuse/src/join.rt": "Op::map_of(kernel)\n"})
        declared = "cu_op/src/operation.rt"
        self.assertEqual(variant_files.files_of(variant_files.KINDS, self.top), {
            "Map": [declared, "cu_task/src/compute.rt", "cu_task/proofs/Rooms.antt"],
            "Flip": [declared, "cu_task/proofs/Rooms.antt"]})

    def test_each_stands_in_few_files(self):
        for counted, count in ((variant_files.FORMS, 20), (variant_files.KINDS, 11)):
            found = variant_files.files_of(counted)
            self.assertEqual(len(found), count)
            self.assertEqual(variant_files.in_too_many(counted, found), [])


class Help(unittest.TestCase):
    ROW = re.compile(r"^  --(\S+) N +\S.*?  +(\d+) to (\d+) +(\d+|-) +(\S.*)$", re.MULTILINE)

    def test_options_are_those_of_the_table(self):
        """The help has each option with its range, its number where it isn't given, and its commands, as the cases have them."""
        told = {}
        for name, least, most, default, commands in self.ROW.findall(run(f"{TOP}/cubed", "help").stdout.decode()):
            told[name] = (int(least), int(most), None if default == "-" else int(default), sorted(commands.split(", ")))
        table = {name: (*row[:3], sorted(row[3])) for name, row in word_cases.OPTIONS.items()}
        # That of the script itself.
        self.assertEqual(told.pop("progress"), (0, 1, 0, ["resume", "run"]))
        self.assertEqual(told, table)


class Types(unittest.TestCase):
    """The types of the scripts that users call, and of what measures share, as mypy.ini of each folder lists them."""

    @unittest.skipIf(shutil.which("mypy") is None, "mypy isn't there")
    def test_the_types_are_right(self):
        with tempfile.TemporaryDirectory() as cache:
            for place in ("tools", "bench"):
                ended = run("mypy", "--cache-dir", f"{cache}/{place}", cwd=f"{TOP}/{place}", seconds=600)
                self.assertEqual(ended.returncode, 0, ended.stdout.decode())

    def test_each_script_of_an_archive_is_among_them(self):
        with open(f"{TOP}/tools/mypy.ini", encoding="utf-8") as file:
            listed = re.split(r"[,\s]+", file.read().partition("files = ")[2].partition("\n#")[0].strip())
        self.assertLessEqual(set(shipped.SHIPPED["tools"]), set(listed))


class Explain(unittest.TestCase):
    def explain(self, *words, status=0):
        ended = run(f"{TOP}/cubed", "explain", *words)
        self.assertEqual(ended.returncode, status, words)
        return ended.stdout.decode()

    def test_one_row_for_a_code_and_all_without(self):
        self.assertEqual(self.explain("3", "code=3"), self.explain("error 3 code=3 node=2"))
        self.assertEqual(len(re.findall(r"^error", self.explain("3", "code=3"), re.M)), 1)
        self.assertEqual(len(re.findall(r"^error", self.explain("3"), re.M)), 7)
        self.assertEqual(len(re.findall(r"^error", self.explain("error 6 which=2 count=300000"), re.M)), 1)

    def test_each_answer_has_a_row_and_points_nowhere(self):
        for number in (*range(19), 20, 21, 70, 130, 137, 143):
            text = self.explain(str(number))
            self.assertNotRegex(re.sub("above the k-th|above, or", "", text), r"\b(above|below)\b")
        self.assertRegex(self.explain("9"), r"cause: perhaps a run that was stopped")

    def test_each_operator_has_an_example_of_itself(self):
        with open(f"{TOP}/docs/OPERATORS.md", encoding="utf-8") as page:
            table = page.read().partition("## All operators")[2].partition("\n## ")[0]
        names = [name for row in re.findall(r"^\| (`.*?) \|", table, re.M) for name in re.findall(r"`(\w+)`", row)]
        self.assertGreater(len(names), 50)
        for name in names:
            example = re.search(r"example: (.*)", self.explain(name))[1]
            self.assertEqual(json.loads(example)["op"], name)

    def test_what_is_unknown_is_told(self):
        for words in ([], ["99"], ["3", "code=99"], ["nope"], ["code=3"]):
            self.explain(*words, status=2)


def run_apart(name):
    """Runs the tests of one class in a process of its own, and returns how many there were, how many were left out, and what went wrong."""
    ended = run(sys.executable, "-W", "ignore", os.path.realpath(__file__), name, seconds=600)
    told = ended.stderr.decode()
    count, skipped = re.search(r"^Ran (\d+) test", told, re.M), re.search(r"skipped=(\d+)", told)
    return int(count[1]) if count else 0, int(skipped[1]) if skipped else 0, told if ended.returncode else ""


def main():
    """Runs all classes side by side, and prints one line, and all of what failed."""
    began = time.monotonic()
    names = [name for name, value in globals().items() if isinstance(value, type) and issubclass(value, unittest.TestCase)
             and unittest.defaultTestLoader.getTestCaseNames(value)]
    with concurrent.futures.ThreadPoolExecutor(len(os.sched_getaffinity(0))) as pool:
        ended = list(pool.map(run_apart, names))
    failed = [told for _, _, told in ended if told]
    print("\n".join(failed), end="")
    print(f"scripts: {sum(it[0] for it in ended)} tests, {sum(it[1] for it in ended)} of them left out, "
          f"{len(failed)} of {len(names)} groups failed, in {time.monotonic() - began:.0f} s")
    return 1 if failed or not names else 0


if __name__ == "__main__":
    if sys.argv[1:]:
        unittest.main()
    else:
        sys.exit(main())
