"""Folders that may only be read, with a work folder beside them, and expressions over several folders."""
from __future__ import annotations

import importlib.util
import os
import pickle
import subprocess
import sys
import textwrap
import unittest
from typing import Any

from .support import PROGRAM, PYTHON, Case, WithProgram, cengmoat, np, xp


def seen(folder: str) -> dict[str, Any]:
    """Return all that lies below a folder, with the times at which it was changed."""
    paths = [os.path.join(at, name) for at, folders, files in os.walk(folder) for name in ("", *folders, *files)]
    return {path: os.lstat(path).st_mtime_ns for path in paths}


class Folders(Case):
    """What needs no program."""

    def setUp(self) -> None:
        super().setUp()
        self.data = np.arange(12, dtype="int16").reshape(3, 4)
        self.read, self.work = os.path.join(self.folder, "read"), os.path.join(self.folder, "mine", "work")
        cengmoat.Store(self.read).save("t", self.data, (2, 2))
        self.before = seen(self.read)
        self.addCleanup(lambda: self.assertEqual(seen(self.read), self.before))

    def test_what_is_saved_lies_in_the_work_folder(self) -> None:
        here = cengmoat.Store(self.read, work=self.work)
        self.assertEqual((here.names(), here.folder, here.work), (["t"], self.read, self.work))
        self.assertIn(f"work={self.work!r}", repr(here))
        here.save("u", self.data + 1)
        self.assertEqual((here.names(), os.listdir(self.work).count("u")), (["t", "u"], 1))
        self.same(here.read("u"), self.data + 1)
        self.same(here["t"].compute(), self.data)
        self.same(here.read("t", (0, slice(1, 3))), self.data[0, 1:3])
        self.assertEqual({it.name: it.state for it in here.status()}, {"t": "finished", "u": "finished"})
        with self.assertRaises(cengmoat.Exists) as found:
            here.save("t", self.data)
        self.assertIn("which is only read", str(found.exception))
        with self.assertRaises(cengmoat.NotRemoved):
            here.remove("t", inputs=True)
        here.remove("u", inputs=True)
        self.assertEqual(here.names(), ["t"])

    def test_folders_that_are_refused(self) -> None:
        for work in (self.read, os.path.join(self.read, "below"), os.path.join(self.read, "..", "read")):
            self.assertRaises(ValueError, cengmoat.Store, self.read, work=work)
        for address in ("s3://bucket/arrays", "https://host/x", "gs://a", "simplecache::s3://a/b"):
            with self.assertRaises(ValueError) as found:
                cengmoat.Store(address)
            self.assertIn("is no folder", str(found.exception))
            self.assertRaises(ValueError, cengmoat.Store, self.read, work=address)

    def test_arrays_of_two_folders_say_what_to_write(self) -> None:
        x, y = cengmoat.Store(self.read)["t"], cengmoat.Store(os.path.join(self.folder, "other")).save("y", self.data)
        for call in (lambda: x + y, lambda: xp.where(x > 3, x, y), lambda: x.store("z", y.node.store)):
            with self.assertRaises(ValueError) as found:
                call()
            self.assertRegex(str(found.exception), r'Write cengmoat.Store\(.*, work="scratch/mine"\)')

    def test_a_folder_that_may_only_be_read_says_what_to_write(self) -> None:
        if os.geteuid() != 0:
            self.skipTest("another user is needed")
        os.chmod(self.folder, 0o755)
        code = textwrap.dedent(f"""
            import os, sys
            sys.path.insert(0, {PYTHON!r})
            import numpy, cengmoat
            os.setgroups([]); os.setgid(65534); os.setuid(65534)
            store = cengmoat.Store({self.read!r}, program={sys.executable!r})
            print(store["t"].compute().sum())
            for call in ((store["t"] + 1).compute, lambda: store["t"].store("x"), lambda: store.save("u", numpy.arange(3))):
                try:
                    call()
                except cengmoat.StoreFailed as error:
                    print(error)
        """)
        ended = subprocess.run([sys.executable, "-c", code], capture_output=True, text=True, cwd="/")
        self.assertEqual(ended.returncode, 0, ended.stderr)
        self.assertEqual(ended.stdout.count(f'Write cengmoat.Store({self.read!r}, work="scratch/mine")'), 3, ended.stdout)
        self.assertNotIn(".locks", ended.stdout)


class Runs(WithProgram):
    def setUp(self) -> None:
        super().setUp()
        self.data = np.arange(12, dtype="int16").reshape(3, 4)
        self.read, self.other, self.work = (os.path.join(self.folder, name) for name in ("read", "other", "work"))
        cengmoat.Store(self.read).save("t", self.data, (2, 2), dims=("a", "b"))
        cengmoat.Store(self.other).save("t", self.data * 3, (2, 2))
        self.before = seen(self.read), seen(self.other)
        self.here = cengmoat.Store(self.read, work=self.work, program=PROGRAM)
        self.addCleanup(lambda: self.assertEqual((seen(self.read), seen(self.other)), self.before))

    def test_all_is_written_in_the_work_folder(self) -> None:
        t = self.here["t"]
        self.assertEqual(len((t + 1).plan()), 1)
        self.assertFalse(os.path.exists(self.work))
        self.same((t + 1).compute(), self.data + 1)
        self.assertEqual(os.readlink(os.path.join(self.work, "t")), os.path.join(self.read, "t"))
        y = (t * 2).store("y")
        assert self.here.report is not None
        self.assertEqual((self.here.report.failed, self.here.names(), y.dims), (0, ["t", "y"], ("a", "b")))
        self.same(self.here.read("y"), self.data * 2)
        self.assertEqual((t * 2).check("y"), 12)
        self.same((y + t).compute(), self.data * 3)
        self.same((t + np.ones((3, 4), "int16")).compute(), self.data + 1)
        self.same(pickle.loads(pickle.dumps(y - t)).compute(), self.data)
        self.assertEqual({it.name: it.state for it in self.here.status()}, {"t": "finished", "y": "finished"})
        with self.assertRaises(cengmoat.Exists):
            (t + 1).store("t")
        os.unlink(os.path.join(self.work, "y", "c", "1", "1"))
        self.assertRaises(cengmoat.Unfinished, lambda: self.here["y"])
        self.same((t * 2).store("y", resume=True).compute(), self.data * 2)
        self.here.remove("y")
        self.assertEqual([name for name in os.listdir(self.work) if name not in (".locks", "_cubed")], ["t"])

    def test_arrays_of_several_folders(self) -> None:
        t, far = self.here["t"], cengmoat.Store(self.other, program=PROGRAM)["t"]
        for lazy in (t + far, far + t):
            assert lazy.node.store is not None
            self.assertEqual(lazy.node.store.work, self.work)
            self.same(lazy.compute(), self.data * 4)
        self.assertNotEqual((t + 1).__dask_tokenize__(), (far + 1).__dask_tokenize__())
        self.same((far - t).store("z").compute(), self.data * 2)
        self.assertEqual((far - t).check("z"), 12)
        self.same((far + 1).compute(store=self.here), self.data * 3 + 1)
        [link] = [name for name in os.listdir(self.work) if name.startswith("t-")]
        self.assertEqual((os.readlink(os.path.join(self.work, link)), self.here.names()), (os.path.join(self.other, "t"), ["t", "z"]))
        # a later session makes the same links, and goes on
        os.unlink(os.path.join(self.work, "z", "c", "0", "1"))
        again = cengmoat.Store(self.other)["t"] - cengmoat.Store(self.read, work=self.work, program=PROGRAM)["t"]
        self.same(again.store("z", resume=True).compute(), self.data * 2)
        text = str((t + far).plan())
        self.assertIn("t + t", text)

    def test_links_lead_where_they_were_made_to(self) -> None:
        t = self.here["t"]
        (t + 1).compute()
        path = os.path.join(self.work, "t")
        os.unlink(path)
        os.symlink(os.path.join(self.other, "t"), path)
        for call in ((t + 1).compute, lambda: (t + 1).store("y"), lambda: (t + 1).check("y")):
            with self.assertRaises(cengmoat.CengmoatError):
                call()
        with self.assertRaises(cengmoat.StoreFailed) as found:
            (t + 1).compute()
        self.assertIn("isn't followed", str(found.exception))
        os.unlink(path)
        cengmoat.Store(self.work).save("t", self.data)
        with self.assertRaises(cengmoat.Exists) as taken:
            (t + 1).compute()
        self.assertIn("in the way of a link", str(taken.exception))
        # a folder of an array that is a link itself is no array of the folder
        os.symlink(os.path.join(self.other, "t"), os.path.join(self.read, "far"))
        self.before = seen(self.read), self.before[1]
        with self.assertRaises(cengmoat.StoreFailed):
            (self.here["far"] + 1).compute()
        # nothing is stored through a link
        link = os.path.join(self.work, "out")
        os.symlink(os.path.join(self.folder, "elsewhere"), link)
        with self.assertRaises(cengmoat.Exists):
            cengmoat.Store(self.read, work=self.work, program=PROGRAM).save("out", self.data)

    def test_no_result_goes_into_a_folder_that_is_read(self) -> None:
        """Also where the folders that are read lie in the work folder."""
        here = cengmoat.Store(self.read, work=self.folder, program=PROGRAM)
        far = cengmoat.Store(self.other, program=PROGRAM)["t"]
        for call in (lambda: (here["t"] + 1).store(os.path.basename(self.read)), lambda: here.save(os.path.basename(self.read), self.data),
                     lambda: (here["t"] + far).store(os.path.basename(self.other))):
            with self.assertRaises(cengmoat.Exists) as found:
                call()
            self.assertIn("nothing is stored there", str(found.exception))
        self.same((here["t"] + far).store("sum").compute(), self.data * 4)

    def test_datasets_over_a_work_folder(self) -> None:
        if importlib.util.find_spec("xarray") is None:
            self.skipTest("xarray isn't there")
        import cengmoat.xarray
        (self.here["t"] * 2).store("y")
        found = cengmoat.xarray.open_dataset(self.here)
        self.assertEqual((sorted(found.data_vars), found["y"].dims), (["t", "y"], ("a", "b")))
        self.same((found["y"] - found["t"]).data.compute(), self.data)
        found["y"].cengmoat.to_zarr(os.path.join(self.folder, "written"), zarr_format=3)
        self.same(cengmoat.Store(os.path.join(self.folder, "written"))["y"].compute(), self.data * 2)
        self.same((self.here["t"] + 1).store("y", overwrite=True).compute(), self.data + 1)
        self.assertRaises(ValueError, (self.here["y"] + 1).store, "y", overwrite=True)

    def test_a_replaced_array_is_told(self) -> None:
        t = self.here["t"]
        (t + 1).compute()
        cengmoat.Store(self.read).remove("t", inputs=True)
        cengmoat.Store(self.read).save("t", self.data[:2], (2, 2))
        self.before = seen(self.read), self.before[1]
        self.assertRaises(cengmoat.Stale, (t + 1).compute)
        self.assertRaises(cengmoat.Stale, t.compute)
        self.same((self.here["t"] + 1).compute(), self.data[:2] + 1)


if __name__ == "__main__":
    unittest.main()
