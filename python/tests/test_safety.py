"""Nothing that isn't the package's own is touched, and nothing that isn't a regular file is opened."""
from __future__ import annotations

import json
import os
import pwd
import shutil
import socket
import subprocess
import sys
import textwrap
import unittest
from typing import Any
from unittest import mock

from .support import PROGRAM, PYTHON, Case, WithProgram, cengmoat, np, xp

# A program that stores what a run of one chunk of four int32 stores, beside something in between.
STORES = """
import json
job = json.load(sys.stdin)
name = job["store_as"]
def put(key, data):
    path = os.path.join(words[0], key)
    os.makedirs(os.path.dirname(path), exist_ok=True)
    with open(path, "wb") as file:
        file.write(data)
if words[1] == "run":
    meta = open(os.path.join(words[0], "t", "zarr.json"), "rb").read()
    put(f"_cubed/{name}/plan.json", json.dumps({
        "allowed": 200000000, "cubed": 2, "expr": job, "inputs": {"t": json.loads(meta)}, "reserved": 0, "split_every": 4}).encode())
    put(f"_cubed/{name}/0/c/0", bytes(16))
    put(f"{name}/zarr.json", meta)
    put(f"{name}/c/0", bytes([7, 0, 0, 0] * 4))
print("ok ops=2 tasks=2 starts=2 failed=0 peak=1600")
"""


class Temporary(Case):
    def setUp(self) -> None:
        super().setUp()
        self.here = self.store(program=self.fake_program(STORES))
        self.t = self.here.save("t", np.arange(4, dtype="int32"))

    def test_arrays_of_a_user_stay(self) -> None:
        kept = ("tmp-", "tmp-0123456789", "tmp-results", "data-0123456789abcdef01234567", "tmp-cengmoat")
        for name in kept:
            self.here.save(name, np.arange(4, dtype="int32"))
        before = self.keys(self.here.folder)
        self.same((self.t + 1).compute(), np.full(4, 7, "int32"))
        self.same((self.t + np.arange(4, dtype="int32")).compute(), np.full(4, 7, "int32"))
        self.assertEqual(self.keys(self.here.folder), before)

    def test_names_of_its_own_are_refused(self) -> None:
        for name in ("tmp-cengmoat-0123456789", "tmp-cengmoat-0123456789-3", "data-cengmoat-0123456789abcdef01"):
            self.assertRaises(ValueError, self.here.save, name, np.arange(3))
            self.assertRaises(ValueError, (self.t + 1).store, name)

    def test_what_another_program_named_so_stays(self) -> None:
        name = "tmp-cengmoat-0123456789"
        os.makedirs(os.path.join(self.here.folder, name))
        for at, data in (("zarr.json", cengmoat._metadata.Metadata(np.dtype("int8"), (1,), (1,)).text()), ("c", "")):
            with open(os.path.join(self.here.folder, name, at), "w", encoding="utf-8") as file:
                file.write(data)
        before = self.keys(self.here.folder)
        (self.t + 1).compute()
        self.assertEqual(self.keys(self.here.folder), before)

    def test_what_a_killed_call_left_is_swept(self) -> None:
        name = "tmp-cengmoat-0123456789"
        with cengmoat._locks.locked(self.here.folder, name) as lock:
            lock.write([name])
            (self.t + 1).node.store = self.here
        os.makedirs(os.path.join(self.here.folder, name, "c"))
        for key in (f"{name}/c/0", f"{name}/zarr.json.new17"):
            with open(os.path.join(self.here.folder, key), "w", encoding="utf-8"):
                pass
        before = [key for key in self.keys(self.here.folder) if not key.startswith("tmp-")]
        (self.t + 1).compute()
        self.assertEqual(self.keys(self.here.folder), before)
        self.assertEqual([it for it in os.listdir(os.path.join(self.here.folder, ".locks")) if it.startswith("tmp-")], [])

    def test_a_lock_that_names_an_array_of_a_user(self) -> None:
        with cengmoat._locks.locked(self.here.folder, "other") as lock:
            lock.write(["t", "../arrays/t", "tmp-cengmoat-0123456789"])
        before = self.keys(self.here.folder)
        (self.t + 1).compute()
        self.assertEqual(self.keys(self.here.folder), before)

    def test_what_lies_between_goes_with_the_end(self) -> None:
        (self.t + 1).store("y")
        self.assertEqual([key for key in self.keys(self.here.folder) if "y" in key], ["_cubed/y/plan.json", "y/c/0", "y/zarr.json"])
        (self.t + 1).store("z", keep=True)
        self.assertIn("_cubed/z/0/c/0", self.keys(self.here.folder))

    def test_a_whole_result_is_taken_up_without_the_program(self) -> None:
        (self.t + 1).store("y")
        other = self.store(program=self.fake_program("sys.exit(70)"))
        self.same((other["t"] + 1).store("y", resume=True).compute(), np.full(4, 7, "int32"))
        self.assertRaises(cengmoat.OtherPlan, (other["t"] + 2).store, "y", resume=True)
        self.assertRaises(cengmoat.OtherPlan, (other["t"] + 1).store, "y", self.store(program=other.program, split_every=5), resume=True)


    def test_a_result_that_is_gone_is_not_zeros(self) -> None:
        """The program ends with 0 also where its folder, or a chunk behind the work, was removed meanwhile."""
        gone = "import shutil\nshutil.rmtree(os.path.join(words[0], {0}))\nshutil.rmtree(os.path.join(words[0], '_cubed'))\n"
        for what in ("name", "os.path.join(name, 'c')"):
            here = self.store(program=self.fake_program(STORES.replace('print("ok', gone.format(what) + 'print("ok')))
            with self.assertRaises(cengmoat.Unfinished) as found:
                (here["t"] + 1).compute()
            self.assertIn("another program removed", str(found.exception))


class Removing(Case):
    def setUp(self) -> None:
        super().setUp()
        self.here = self.store(program=self.fake_program(STORES))
        self.t = self.here.save("t", np.arange(4, dtype="int32"))

    def put(self, key: str, text: str = "") -> None:
        path = os.path.join(self.folder, key)
        os.makedirs(os.path.dirname(path), exist_ok=True)
        with open(path, "w", encoding="utf-8") as file:
            file.write(text)

    def test_a_link_goes_and_what_it_leads_to_stays(self) -> None:
        far = cengmoat.Store(os.path.join(self.folder, "far"))
        far.save("x", np.arange(3))
        before = self.keys(far.folder)
        os.symlink(os.path.join(far.folder, "x"), os.path.join(self.here.folder, "x"))
        self.assertRaises(cengmoat.NotRemoved, self.here.remove, "x")
        self.assertTrue(os.path.islink(os.path.join(self.here.folder, "x")))
        self.here.remove("x", inputs=True)
        self.assertFalse(os.path.lexists(os.path.join(self.here.folder, "x")))
        self.assertEqual(self.keys(far.folder), before)

    def test_a_plan_behind_a_link_stays(self) -> None:
        (self.t + 1).store("y", keep=True)
        plan, far = os.path.join(self.here.folder, "_cubed", "y"), os.path.join(self.folder, "scratch")
        os.rename(plan, far)
        os.symlink(far, plan)
        self.here.remove("y")
        self.assertEqual(self.here.names(), ["t"])
        self.assertFalse(os.path.lexists(plan))
        self.assertEqual(self.keys(far), ["0/c/0", "plan.json"])

    def test_groups_stay(self) -> None:
        self.put("arrays/g/zarr.json", '{"zarr_format": 3, "node_type": "group", "attributes": {}}')
        self.put("arrays/g/a/zarr.json", self.text())
        self.put("arrays/h/.zgroup", "{}")
        self.put("arrays/h/0/0", "x")
        self.put("arrays/i/0/.zarray", "{}")
        self.put("arrays/i/0/0", "x")
        before = self.keys(self.here.folder)
        for name in "ghi":
            self.assertRaises(cengmoat.NotRemoved, self.here.remove, name, inputs=True)
        self.assertEqual(self.keys(self.here.folder), before)

    def text(self) -> str:
        return cengmoat._metadata.Metadata(np.dtype("int8"), (1,), (1,)).text()

    def test_other_files_stay(self) -> None:
        (self.t + 1).store("y", keep=True)
        for key in ("y/notes.txt", "y/notes.new1", "y/c/readme", "_cubed/y/log", "_cubed/y/0/own"):
            self.put(f"arrays/{key}")
        os.symlink(self.folder, os.path.join(self.here.folder, "y", "c", "1"))
        kept = self.here.remove("y")
        self.assertEqual(sorted(kept), ["_cubed/y/0/own", "_cubed/y/log", "y/c/1", "y/c/readme", "y/notes.new1", "y/notes.txt"])
        self.assertEqual([key for key in self.keys(self.here.folder) if not key.startswith("t/")],
                         ["_cubed/y/0/own", "_cubed/y/log", "y/c/readme", "y/notes.new1", "y/notes.txt"])
        self.assertTrue(os.path.islink(os.path.join(self.here.folder, "y", "c", "1")))

    def test_only_what_the_program_makes_goes(self) -> None:
        """Names that look like those of chunks, and are none of this array."""
        own = ["2024", "2025/05/7", "c/2024", "c/7", "c/00", "c/1/0", "draft.new", "draft.new2", "c/0.new", "c/9.new1", "notes.txt", "0", "0.0", "c.0",
               ".zattrs", ".zarray", "zarr.json.bak", "zarr.json.newest"]
        plan = ["7", "0/c/0.new", "0/c/x", "0/1", "plan.json.new", "plan.json~", "00/c/0", "1234567/c/0", "0/c/00", "0/c/123456", "a/c/0"]
        (self.t + 1).store("y", keep=True)
        kept = [f"y/{name}" for name in own] + [f"_cubed/y/{name}" for name in plan]
        for key in kept:
            self.put(f"arrays/{key}", "mine")
        for key in ("y/c/0.new17", "y/zarr.json.new3", "_cubed/y/plan.json.new1234567", "_cubed/y/0/c/1.new0"):
            self.put(f"arrays/{key}", "left by a kill")
        cengmoat._removing.remove_between(self.here.folder, "y")
        self.assertEqual([key for key in self.keys(self.here.folder) if key.startswith("_cubed")],
                         sorted(key for key in [*kept, "_cubed/y/plan.json", "_cubed/y/plan.json.new1234567"] if key.startswith("_cubed")))
        self.assertEqual(sorted(self.here.remove("y")), sorted(kept))
        self.assertEqual([key for key in self.keys(self.here.folder) if not key.startswith("t/")], sorted(kept))

    def test_chunks_go_by_the_grid_and_the_key_encoding(self) -> None:
        told = {"chunks": [2, 2], "compressor": None, "dtype": "|i1", "fill_value": 0, "filters": None, "order": "C", "shape": [3, 4],
                "zarr_format": 2}
        named = {"chunk_key_encoding": {"name": "default", "configuration": {"separator": "."}}}
        plain = json.loads(cengmoat._metadata.Metadata(np.dtype("int8"), (3, 4), (2, 2)).text())
        for key, members, ours, own in (
            (".zarray", told, ("0.0", "1.1", "1.0.new3", ".zattrs"), ("0.2", "2.0", "0", "0.0.0", "c.0.0", "0.00", "zarr.json.new", "k/0/0")),
            (".zarray", {**told, "dimension_separator": "/"}, ("0/0", "1/1", "1/0.new3"), ("0/2", "2/0", "0.0", "0/0.new", "c/0/0", "00/1")),
            (".zarray", {**told, "shape": [], "chunks": []}, ("0", "0.new1"), ("1", "c", "00", "0.0")),
            ("zarr.json", {**plain, **named}, ("c.0.0", "c.1.1"), ("c.2.0", "0.0", "c/0/0", "c.0", "c")),
            ("zarr.json", plain, ("c/0/0", "c/1/1"), ("c/0/2", "c/2/0", "c.0.0", "0/0")),
        ):
            with self.subTest(members):
                own = tuple(it for it in own if not any(other.startswith(f"{it}/") for other in own))
                for name in (*ours, *own):
                    self.put(f"arrays/v/{name}", "x")
                self.put(f"arrays/v/{key}", json.dumps(members))
                self.assertEqual(sorted(self.here.remove("v", inputs=True)), sorted(f"v/{name}" for name in own))
                self.assertEqual([it for it in self.keys(self.here.folder) if it.startswith("v/")], sorted(f"v/{name}" for name in own))
                shutil.rmtree(os.path.join(self.here.folder, "v"))

    def test_an_array_that_is_not_read_stays(self) -> None:
        members = {**json.loads(self.text()), "codecs": [{"name": "zstd"}]}
        self.put("arrays/v/zarr.json", json.dumps(members))
        self.put("arrays/v/c/0", "compressed")
        before = self.keys(self.here.folder)
        with self.assertRaises(cengmoat.NotRemoved) as found:
            self.here.remove("v", inputs=True)
        self.assertIn("its chunks can't be told from other files", str(found.exception))
        self.assertEqual(self.keys(self.here.folder), before)

    def outside(self) -> str:
        """Return a folder of a user in which files are named as chunks and as a record."""
        for key in ("0", "c/0", "0/c/0", "y/0/c/0", "plan.json", "y/plan.json"):
            self.put(f"outside/{key}" if key != "0" else "outside/c/c/0", "dear")
        return os.path.join(self.folder, "outside")

    def test_a_link_that_comes_meanwhile_is_not_followed(self) -> None:
        outside = self.outside()
        before = self.keys(outside)
        for at, far in (("y/c", "c"), ("y", ""), ("_cubed/y/0/c", "c"), ("_cubed/y/0", ""), ("_cubed/y", ""), ("_cubed", "")):
            with self.subTest(at):
                (self.t + 1).store("y", keep=True)
                path, aside = os.path.join(self.here.folder, at), os.path.join(self.folder, "aside")

                def swap() -> None:
                    os.rename(path, aside)
                    os.symlink(os.path.join(outside, far), path)

                found = cengmoat._removing.Removal(self.here.folder, "y")
                swap()
                self.assertRaises(cengmoat.StoreFailed, found.remove)
                self.assertEqual(self.keys(outside), before)
                os.unlink(path)
                os.rename(aside, path)
                shutil.rmtree(os.path.join(self.here.folder, "y"), ignore_errors=True)
                shutil.rmtree(os.path.join(self.here.folder, "_cubed"))
        for at, far in (("_cubed/y/0/c", "c"), ("_cubed/y/0", ""), ("_cubed/y", ""), ("_cubed", "")):
            with self.subTest(at):
                (self.t + 1).store("y", keep=True)
                path, aside = os.path.join(self.here.folder, at), os.path.join(self.folder, "aside")
                under = cengmoat._removing._Under

                def listed(*words: Any) -> Any:
                    found = under(*words)
                    os.rename(path, aside)
                    os.symlink(os.path.join(outside, far), path)
                    return found

                with mock.patch("cengmoat._removing._Under", listed):
                    cengmoat._removing.remove_between(self.here.folder, "y")
                self.assertTrue(os.path.islink(path))
                self.assertEqual(self.keys(outside), before)
                shutil.rmtree(aside)
                os.unlink(path)
                shutil.rmtree(os.path.join(self.here.folder, "y"))
                shutil.rmtree(os.path.join(self.here.folder, "_cubed"), ignore_errors=True)

    def test_a_folder_of_plans_that_is_a_link_is_not_followed(self) -> None:
        """But for names of the package's own, under which the program has stored through the link."""
        plans, far = os.path.join(self.here.folder, "_cubed"), os.path.join(self.folder, "scratch")
        os.mkdir(far)
        os.symlink(far, plans)
        (self.t + 1).store("y")
        self.put("scratch/y/notes", "mine")
        before, result = self.keys(far), self.keys(self.here.folder)
        self.assertEqual(before, ["y/0/c/0", "y/notes", "y/plan.json"])
        with self.assertRaises(cengmoat.NotRemoved) as found:
            self.here.remove("y", inputs=True)
        self.assertIn("_cubed is a link, and nothing behind a link is removed", str(found.exception))
        self.same((self.t + 1).compute(), np.full(4, 7, "int32"))
        self.assertEqual((self.keys(far), self.keys(self.here.folder)), (before, result))
        self.assertEqual(os.listdir(far), ["y"])
        shutil.rmtree(os.path.join(far, "y"))
        self.here.remove("y", inputs=True)
        self.assertEqual(self.here.names(), ["t"])

    def test_what_a_killed_call_kept_beside_a_result_goes_with_it(self) -> None:
        name = "data-cengmoat-0123456789abcdef01"
        for inputs in (False, True):
            with cengmoat._locks.locked(self.here.folder, "y") as lock:
                lock.write([name])
            self.put(f"arrays/{name}/c/0", "x")
            self.put(f"arrays/{name}/zarr.json", self.text())
            self.here.save("y", np.arange(3)) if inputs else self.put("arrays/_cubed/y/plan.json", "{}")
            if inputs:
                # (a refused removal forgets nothing either)
                self.assertRaises(cengmoat.NotRemoved, self.here.remove, "y")
                self.assertIn("y", cengmoat._locks.temporaries(self.here.folder))
            self.here.remove("y", inputs=inputs)
            self.assertEqual([key for key in self.keys(self.here.folder) if not key.startswith("t/")], [])

    def test_an_input_goes_only_where_it_is_said(self) -> None:
        before = self.keys(self.here.folder)
        with self.assertRaises(cengmoat.NotRemoved) as found:
            self.here.remove("t")
        self.assertIn("inputs=True", str(found.exception))
        self.assertEqual((self.keys(self.here.folder), found.exception.name), (before, "t"))
        self.assertEqual(self.here.remove("t", inputs=True), [])
        self.assertEqual(self.keys(self.here.folder), [])
        self.assertFalse(os.path.exists(os.path.join(self.here.folder, "t")))
        self.assertRaises(cengmoat.NoArray, self.here.remove, "t", inputs=True)

    def test_plain_folders_are_no_arrays(self) -> None:
        self.put("arrays/years/2020", "x")
        self.assertRaises(cengmoat.NoArray, self.here.remove, "years", inputs=True)
        self.assertIn("years/2020", self.keys(self.here.folder))

    def test_all_is_tested_before_the_first_file_goes(self) -> None:
        (self.t + 1).store("y")
        before, asked = self.keys(self.here.folder), os.access

        def refuses(path: Any, mode: int, **options: Any) -> bool:
            return not str(path).endswith("_cubed/y") and asked(path, mode, **options)

        os.access = refuses  # type: ignore[assignment]
        try:
            with self.assertRaises(cengmoat.StoreFailed) as found:
                self.here.remove("y")
        finally:
            os.access = asked
        self.assertEqual((self.keys(self.here.folder), found.exception.key), (before, "_cubed/y"))

    def test_the_metadata_goes_first_and_the_record_last(self) -> None:
        (self.t + 1).store("y", keep=True)
        gone: list[str] = []
        unlink = os.unlink

        def seen(path: Any, dir_fd: int) -> None:
            gone.append(os.path.relpath(os.path.join(os.readlink(f"/proc/self/fd/{dir_fd}"), path), os.path.realpath(self.here.folder)))
            unlink(path, dir_fd=dir_fd)

        os.unlink = seen  # type: ignore[assignment]
        try:
            self.here.remove("y")
        finally:
            os.unlink = unlink
        self.assertEqual([key for key in gone if key.startswith(("y", "_cubed"))], ["y/zarr.json", "y/c/0", "_cubed/y/0/c/0", "_cubed/y/plan.json"])


class Reading(Case):
    """What lies in the place of metadata or of a chunk."""

    def setUp(self) -> None:
        super().setUp()
        self.here = self.store()
        self.t = self.here.save("t", np.arange(4, dtype="int32"), 2)

    def put(self, key: str, kind: str) -> None:
        """Put something else in the place of a file."""
        path = os.path.join(self.here.folder, key)
        os.unlink(path)
        if kind == "pipe":
            os.mkfifo(path)
        elif kind == "folder":
            os.mkdir(path)
        elif kind == "loop":
            os.symlink(os.path.basename(path), path)
        elif kind == "nowhere":
            os.symlink("nothing", path)
        elif kind == "device":
            os.symlink("/dev/zero", path)
        elif kind == "socket":
            # (a path of a socket is short)
            before = os.getcwd()
            os.chdir(os.path.dirname(path))
            with socket.socket(socket.AF_UNIX) as it:
                it.bind(os.path.basename(path))
            os.chdir(before)
        else:
            with open(path, "wb") as file:
                file.truncate(8 * 2**30)

    def test_chunks(self) -> None:
        for kind in ("pipe", "folder", "loop", "nowhere", "device", "socket", "sparse"):
            with self.subTest(kind):
                self.put("t/c/1", kind)
                wanted = cengmoat.BadChunk if kind == "sparse" else cengmoat.StoreFailed
                for call in (lambda: self.here.read("t"), self.t.compute):
                    with self.assertRaises(wanted) as found:
                        call()
                    self.assertEqual(found.exception.key, "t/c/1")
                    self.assertIn("t/c/1", str(found.exception))
                self.same(self.here.read("t", slice(0, 2)), np.arange(2, dtype="int32"))
                self.here.status()
                (os.rmdir if kind == "folder" else os.unlink)(os.path.join(self.here.folder, "t", "c", "1"))
                with open(os.path.join(self.here.folder, "t", "c", "1"), "wb"):
                    pass

    def test_metadata(self) -> None:
        for kind in ("pipe", "folder", "loop", "nowhere", "device", "socket", "sparse"):
            with self.subTest(kind):
                self.put("t/zarr.json", kind)
                wanted = cengmoat.BadMetadata if kind == "sparse" else cengmoat.StoreFailed
                for call in (lambda: self.here.read("t"), lambda: self.here["t"], self.t.compute):
                    with self.assertRaises(wanted) as found:
                        call()
                    self.assertIn("t", str(found.exception))
                    if kind == "sparse":
                        # (longer than 1 MiB, which is known without reading it)
                        self.assertEqual(found.exception.code, 10)
                self.assertEqual(self.here.status()["t"].dtype, None)
                (os.rmdir if kind == "folder" else os.unlink)(os.path.join(self.here.folder, "t", "zarr.json"))
                with open(os.path.join(self.here.folder, "t", "zarr.json"), "wb"):
                    pass

    def test_a_device_isn_t_even_opened(self) -> None:
        self.put("t/c/1", "device")
        opened: list[Any] = []
        before = os.open

        def seen(path: Any, *args: Any, **options: Any) -> int:
            opened.append(path)
            return before(path, *args, **options)

        os.open = seen
        try:
            self.assertRaises(cengmoat.StoreFailed, self.here.read, "t", slice(2, 4))
        finally:
            os.open = before
        self.assertEqual([path for path in opened if str(path).endswith("c/1")], [])

    def test_a_file_in_the_place_of_a_folder(self) -> None:
        for at in ("0", "1"):
            os.unlink(os.path.join(self.here.folder, "t", "c", at))
        os.rmdir(os.path.join(self.here.folder, "t", "c"))
        with open(os.path.join(self.here.folder, "t", "c"), "wb"):
            pass
        self.assertRaises(cengmoat.StoreFailed, self.here.read, "t")

    def test_links_that_lead_to_files_are_read(self) -> None:
        path = os.path.join(self.here.folder, "t", "c", "1")
        os.rename(path, os.path.join(self.folder, "elsewhere"))
        os.symlink(os.path.join(self.folder, "elsewhere"), path)
        self.same(self.here.read("t"), np.arange(4, dtype="int32"))

    def test_locks_are_regular_files(self) -> None:
        path = os.path.join(self.here.folder, ".locks", "u")
        os.mkfifo(path)
        with self.assertRaises(cengmoat.StoreFailed) as found:
            self.here.save("u", np.arange(3))
        self.assertEqual(found.exception.key, ".locks/u")
        self.here.status()
        os.unlink(path)
        os.symlink(os.path.join(self.folder, "victim"), path)
        self.assertRaises(cengmoat.StoreFailed, self.here.save, "u", np.arange(3))
        self.assertFalse(os.path.exists(os.path.join(self.folder, "victim")))

    def refused(self, key: str, why: str) -> None:
        """Expect that nothing is stored or removed under a name, for what lies in the place of its lock."""
        for call in (lambda: self.here.save("u", np.arange(3)), lambda: (self.t + 1).store("u"), lambda: self.here.remove("v", inputs=True)):
            with self.assertRaises(cengmoat.StoreFailed) as found:
                call()
            self.assertIn(why, str(found.exception))
            self.assertEqual(found.exception.key.replace("v", "u"), key)
        self.assertEqual(self.here.names(), ["t", "v"])

    def test_a_file_of_a_user_is_no_lock(self) -> None:
        self.here.save("v", np.arange(3))
        locks, far = os.path.join(self.here.folder, ".locks"), os.path.join(self.folder, "far")
        os.rename(locks, os.path.join(self.folder, "before"))
        os.mkdir(far)
        for name in "uv":
            with open(os.path.join(far, name), "w", encoding="utf-8") as file:
                file.write("dear")
        os.symlink(far, locks)
        self.refused(".locks", "it is a link, or no folder")
        self.here.status()
        os.unlink(locks)
        os.mkdir(locks)
        for name in "uv":
            os.link(os.path.join(far, name), os.path.join(locks, name))
        self.refused(".locks/u", "it has another name beside this")
        for name in "uv":
            os.unlink(os.path.join(locks, name))
            with open(os.path.join(far, name), encoding="utf-8") as file:
                self.assertEqual(file.read(), "dear")
        said = {"pid": 1, "host": "far", "since": "1999", "temporary": ["u"]}
        for text in ("dear", "{}", "[]", "[" * 100000, '{"temporary": ["u"]}', json.dumps({**said, "more": 1}), json.dumps({**said, "temporary": [1]})[:-1]):
            for name in "uv":
                with open(os.path.join(locks, name), "w", encoding="utf-8") as file:
                    file.write(text)
            self.refused(".locks/u", "its content isn't that of a lock")
            cengmoat._temporary.sweep(self.here.folder)
            for name in "uv":
                with open(os.path.join(locks, name), encoding="utf-8") as file:
                    self.assertEqual(file.read(), text)

    def test_a_full_disk_keeps_the_names_in_a_lock(self) -> None:
        with cengmoat._locks.locked(self.here.folder, "u") as lock:
            lock.write(["data-cengmoat-0123456789abcdef01"])
        path = os.path.join(self.here.folder, ".locks", "u")
        with open(path, encoding="utf-8") as file:
            before = file.read()
        write, left = os.pwrite, [10]

        def short(descriptor: int, data: bytes, at: int) -> int:
            return write(descriptor, data[:left.pop()] if left else data, at)

        with mock.patch("os.pwrite", short), self.assertRaises(cengmoat.StoreFailed), cengmoat._locks.locked(self.here.folder, "u"):
            pass
        with open(path, encoding="utf-8") as file:
            self.assertEqual(file.read(), before)
        # (a stop between writing and cutting off leaves the end of the old text behind the new one)
        with open(path, "a", encoding="utf-8") as file:
            file.write('ary": ["other"]}\n')
        with cengmoat._locks.locked(self.here.folder, "u") as lock:
            self.assertEqual(lock.left, ["data-cengmoat-0123456789abcdef01"])

    def test_who_holds_a_lock_is_said_on_one_line(self) -> None:
        with cengmoat._locks.locked(self.here.folder, "u") as lock:
            said = {"pid": 10**30, "host": "\x1b[31m\n" * 1000, "since": "\u202e" * 1000, "temporary": []}
            os.ftruncate(lock.descriptor, os.pwrite(lock.descriptor, json.dumps(said).encode(), 0))
            with self.assertRaises(cengmoat.Locked) as found:
                self.here.save("u", np.arange(3))
        told = str(found.exception)
        self.assertTrue(told.isprintable(), told)
        self.assertLess(len(told), 1000)

    def test_writing_follows_no_link(self) -> None:
        victim = os.path.join(self.folder, "victim")
        with open(victim, "w", encoding="utf-8") as file:
            file.write("dear")
        counter = next(cengmoat._opening._COUNTER)
        for more in range(1, 4):
            os.symlink(victim, os.path.join(self.here.folder, f"file.new{os.getpid()}{counter + more:06}"))
        cengmoat._files.write_file(self.here.folder, "file", b"new")
        with open(victim, encoding="utf-8") as file:
            self.assertEqual(file.read(), "dear")

    def test_what_the_system_refuses_is_an_answer(self) -> None:
        with open(os.path.join(self.folder, "plain"), "w", encoding="utf-8"):
            pass
        store = cengmoat.Store(os.path.join(self.folder, "plain"))
        self.assertRaises(cengmoat.StoreFailed, store.save, "a", np.arange(3))
        self.assertRaises(cengmoat.NoArray, store.__getitem__, "a")


class Rights(Case):
    """A reader that may not write. It is another user where the tests run as root."""

    def test_reading_needs_no_right_to_write(self) -> None:
        if os.geteuid() == 0 and not [it for it in pwd.getpwall() if it.pw_name == "nobody"]:
            self.skipTest("there is no user nobody")
        here = self.store(program=self.fake_program(STORES))
        t = here.save("t", np.arange(4, dtype="int32"))
        (t + 1).store("y")
        os.chmod(self.folder, 0o755)
        for at, folders, files in os.walk(here.folder):
            os.chmod(at, 0o555)
            for name in files:
                os.chmod(os.path.join(at, name), 0o444)
        code = textwrap.dedent(f"""
            import os
            if os.geteuid() == 0:
                import pwd
                os.setuid(pwd.getpwnam("nobody").pw_uid)
            import cengmoat
            store = cengmoat.Store({here.folder!r})
            print(store["y"].shape, store.read("t").tolist(), store["t"][...].compute().tolist(), store.status()["y"].state, store.names())
            try:
                (store["t"] + 1).store("z")
            except cengmoat.CengmoatError as error:
                print(type(error).__name__, error)
        """)
        said = subprocess.run([sys.executable, "-c", code], env={**os.environ, "PYTHONPATH": PYTHON, "PYTHONDONTWRITEBYTECODE": "1"},
                              capture_output=True, text=True, cwd="/")
        self.assertEqual(said.stdout.splitlines()[:1], ["(4,) [0, 1, 2, 3] [0, 1, 2, 3] finished ['t', 'y']"], said.stderr)
        self.assertIn(f"StoreFailed x.store('z') in {here.folder}: {here.folder} may only be read: Permission denied", said.stdout)
        self.assertIn('work="scratch/mine")', said.stdout)

    def test_reading_makes_nothing(self) -> None:
        folder = os.path.join(self.folder, "arrays")
        self.store().save("t", np.arange(4))
        os.unlink(os.path.join(folder, ".locks", "t"))
        os.rmdir(os.path.join(folder, ".locks"))
        store = cengmoat.Store(folder)
        store.read("t"), store["t"].compute(), store.status(), list(store.items())
        self.assertEqual(sorted(os.listdir(folder)), ["t", "zarr.json"])
        os.mkdir(os.path.join(folder, ".locks"))
        store.status(), store.read("t")
        self.assertEqual(os.listdir(os.path.join(folder, ".locks")), [])


class FullDisk(Case):
    """A small disk of its own, where one may be mounted."""

    def setUp(self) -> None:
        super().setUp()
        self.disk = os.path.join(self.folder, "disk")
        os.mkdir(self.disk)
        if subprocess.run(["mount", "-t", "tmpfs", "-o", "size=256k", "none", self.disk], capture_output=True).returncode:
            self.skipTest("no disk may be mounted")
        self.addCleanup(subprocess.run, ["umount", "-l", self.disk])

    def test_the_cause_and_what_is_left_are_said(self) -> None:
        fills = STORES.replace('put(f"{name}/c/0", bytes([7, 0, 0, 0] * 4))', textwrap.dedent("""
            put(f"{name}/c/0", bytes(40000))
                try:
                    put("filler", bytes(2**20))
                except OSError:
                    pass
                sys.stderr.write("error 10 op=0 task=1")
                sys.exit(10)
        """).strip())
        here = cengmoat.Store(self.disk, program=self.fake_program(fills))
        t = here.save("t", np.arange(20000, dtype="int32"), 10000)
        with self.assertRaises(cengmoat.TaskFailed) as found:
            (t + 1).store("y")
        for wanted in ("x.store('y') in", "y/c: No space left on device (0 B of 256.00 KiB are free)", "Left of y: 1 of 2 chunks (39.06 KiB)",
                       "1 files on the way to them (16 B)", "store.remove('y') removes it"):
            self.assertIn(wanted, str(found.exception))
        os.unlink(os.path.join(self.disk, "filler"))
        here.remove("y")
        with self.assertRaises(cengmoat.TaskFailed) as found:
            (t + 1).compute()
        self.assertIn("No space left on device", str(found.exception))
        self.assertIn("Nothing of it is left.", str(found.exception))
        self.assertEqual(here.names(), ["t"])

    def test_saving(self) -> None:
        here = cengmoat.Store(self.disk)
        with self.assertRaises(cengmoat.StoreFailed) as found:
            here.save("t", np.zeros(10**6, "int8"), 10**5)
        self.assertIn("No space left on device", str(found.exception))
        self.assertIn("Nothing of it is left.", str(found.exception))
        self.assertEqual((found.exception.key[:4], self.keys(self.disk)), ("t/c/", []))


class Replaced(Case):
    def test_another_layout_is_refused(self) -> None:
        here = self.store(program=self.fake_program(STORES))
        t = here.save("t", np.arange(4, dtype="int32"))
        later = t + 1
        self.same(later.compute(), np.full(4, 7, "int32"))
        for data, chunks in ((np.arange(6, dtype="int32"), 2), (np.arange(4, dtype="int64"), 2), (np.arange(4, dtype="int32"), 2)):
            here.remove("t", inputs=True)
            here.save("t", data, chunks)
            for call in (t.compute, later.compute, lambda: later.store("y"), later.plan, lambda: later.check("t"), lambda: np.asarray(t)):
                with self.assertRaises(cengmoat.Stale) as found:
                    call()
                self.assertEqual(found.exception.name, "t")
            self.same(here["t"].compute(), data)
        here.remove("t", inputs=True)
        self.assertRaises(cengmoat.NoArray, t.compute)
        here.save("t", np.array([5, 6, 7, 8], "int32"))
        self.same(t.compute(), np.array([5, 6, 7, 8], "int32"))

    def test_another_layout_is_refused_beside_the_new_one(self) -> None:
        here = self.store(program=self.fake_program(STORES))
        old = here.save("t", np.array([1, 2, 3, 4], "int16"))
        here.remove("t", inputs=True)
        new = here.save("t", np.array([40000, 1, 2, 3], "uint16"))
        for lazy in ((old > 0) & (new > 0), (new > 0) & (old > 0), xp.where(new > 0, old, 0)):
            for call in (lazy.plan, lazy.compute, lambda: lazy.store("y")):
                self.assertRaises(cengmoat.Stale, call)


class Masks(Case):
    def test_masked_arrays_are_refused(self) -> None:
        here = self.store()
        t = here.save("t", np.arange(3, dtype="int32"))
        masked = np.ma.masked_equal(np.arange(3, dtype="int32"), 1)

        class Source:
            shape, dtype = (3,), np.dtype("int32")

            def __getitem__(self, key: Any) -> Any:
                return masked[key]

        for call in (lambda: here.save("m", masked), lambda: here.save("m", Source()), lambda: t + masked, lambda: masked + t, lambda: t < masked,
                     lambda: masked == t, lambda: xp.asarray(masked), lambda: t - masked[1], lambda: masked * t, lambda: t @ masked,
                     lambda: np.ma.add(t, masked), lambda: xp.where(t > 1, t, masked)):
            with self.assertRaises(TypeError) as found:
                call()
            self.assertIn("numpy.ma.filled(x, value)", str(found.exception))
        self.assertEqual(here.names(), ["t"])
        self.same(here.save("m", np.ma.filled(masked, -1)).compute(), np.array([0, -1, 2], "int32"))


class Truths(WithProgram):
    def test_truth_values_that_are_stored_as_int8(self) -> None:
        here = self.store()
        folder = os.path.join(here.folder, "b")
        os.makedirs(folder)
        for name, text in ((".zarray", {"chunks": [2], "compressor": None, "dtype": "|i1", "fill_value": 0, "filters": None, "order": "C",
                                         "shape": [3], "zarr_format": 2}), (".zattrs", {"dtype": "bool", "_ARRAY_DIMENSIONS": ["x"], "why": "test"})):
            with open(os.path.join(folder, name), "w", encoding="utf-8") as file:
                json.dump(text, file)
        for at, data in (("0", b"\1\0"), ("1", b"\1\0")):
            with open(os.path.join(folder, at), "wb") as file:
                file.write(data)
        exact = np.array([True, False, True])
        self.same(here.read("b"), exact)
        self.assertEqual(here["b"].dtype, np.dtype("bool"))
        self.same(here["b"].compute(), exact)
        self.same((~here["b"]).compute(), ~exact)
        self.assertEqual(int(here["b"].any()), 1)


if __name__ == "__main__":
    unittest.main()
