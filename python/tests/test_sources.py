"""Arrays of other libraries: their chunks, compressed ones, and what is refused with the line to write; and where files are synced."""
from __future__ import annotations

import importlib.util
import os
import unittest
from unittest import mock

from .support import Case, cengmoat, np

MOUNTS = """\
22 27 0:21 / /proc rw,relatime - proc proc rw
27 1 254:0 / / rw,relatime - ext4 /dev/vda rw
40 27 0:50 / /home rw,relatime shared:3 - nfs4 host:/home rw,vers=4.2
41 40 0:51 / /home/local\\040disk rw - xfs /dev/vdb rw
42 27 0:52 / /data rw - ext4 /dev/vdc rw
43 27 0:53 / /data rw - fuse.sshfs host:/ rw
not a line of mounts
"""
WRITES = """
if words[1] == "run":
    with open(os.path.join(os.path.dirname(words[0]), "words"), "w") as file:
        file.write(" ".join(words))
sys.exit(3)
"""


class Chunks(Case):
    def test_chunks_of_dask_and_xarray(self) -> None:
        for module in ("dask", "xarray"):
            if importlib.util.find_spec(module) is None:
                self.skipTest(f"{module} isn't there")
        import dask.array
        import xarray
        data, here = np.arange(60, dtype="int16").reshape(6, 10), self.store()
        lazy = dask.array.from_array(data, chunks=(2, 4))
        self.assertEqual(here.save("d", lazy).chunksize, (2, 4))
        self.assertEqual(here.save("uneven", lazy.rechunk(((1, 3, 2), (10,)))).chunksize, (3, 10))
        self.assertEqual(here.save("x", xarray.DataArray(lazy, dims=("a", "b"))).chunksize, (2, 4))
        self.assertEqual(here.save("given", lazy, (6, 1)).chunksize, (6, 1))
        self.assertEqual(here.save("plain", xarray.DataArray(data, dims=("a", "b"))).chunksize, (6, 10))
        for name in ("d", "uneven", "x", "given", "plain"):
            self.same(here.read(name), data)
        # chunks above the limits are chosen anew
        many = dask.array.zeros((65_537,), chunks=65_537, dtype="int8")
        with mock.patch.object(type(many), "chunks", ((1,) * 65_537,)):
            self.assertEqual(cengmoat._sources.own_chunks(many, (65_537,), np.dtype("int8")), None)

    def test_a_compressed_array_streams(self) -> None:
        if importlib.util.find_spec("zarr") is None:
            self.skipTest("zarr isn't there")
        import zarr
        data = np.arange(60, dtype="int16").reshape(6, 10)
        path = os.path.join(self.folder, "packed")
        group = zarr.open_group(path, mode="w")
        group.array("t", data, chunks=(2, 4))
        self.assertIsNotNone(group["t"].compressor)
        with self.assertRaises(cengmoat.BadMetadata) as found:
            cengmoat.Store(path)["t"]
        self.assertIn('store.save("t", zarr.open(..)["t"])', str(found.exception))
        read: list[str] = []

        class Counted(dict):  # type: ignore[type-arg]
            def __getitem__(self, key: str) -> bytes:
                read.append(key)
                return super().__getitem__(key)

        source = zarr.open(zarr.storage.KVStore(Counted({key: bytes(value) for key, value in group.store.items()})), mode="r")["t"]
        stored = self.store().save("t", source)
        self.assertEqual((stored.chunksize, stored.numblocks), ((2, 4), (3, 3)))
        self.same(stored.compute(), data)
        chunks = [key for key in read if key.rpartition("/")[2][0].isdigit()]
        self.assertEqual((len(chunks), len(set(chunks))), (9, 9))

    def test_lines_of_both_versions(self) -> None:
        for code in (8, 28):
            said = str(cengmoat.errors.error_of(7, f"error 7 name=rain code={code}"))
            self.assertIn('store.save("rain", zarr.open(..)["rain"])', said)


class Names(Case):
    def test_a_long_name_offers_a_short_one(self) -> None:
        here = self.store()
        for name, short in (("a" * 33, "a" * 15 + "-" + "a" * 16), ("monthly_anomaly_of_temperature_2020", "monthly_anomaly-temperature_2020"),
                            ("2 m temperature", "2_m_temperature"), ("-x", "x"), ("größe", "gr_e")):
            with self.assertRaises(ValueError) as found:
                here.save(name, np.arange(3))
            self.assertIn("1 to 32", str(found.exception))
            self.assertIn(f"as {short!r}", str(found.exception))
            self.assertEqual(here.save(short, np.arange(3)).shape, (3,))
        with self.assertRaises(ValueError) as long:
            here.save("a" * 33, np.arange(3))
        self.assertIn("of 33 letters isn't a name: a name has 1 to 32", str(long.exception))
        with self.assertRaises(ValueError) as none:
            here.save("--", np.arange(3))
        self.assertNotIn(", as ''", str(none.exception))


class Synced(Case):
    def test_kinds_of_mounts(self) -> None:
        for path, kind in (("/", "ext4"), ("/home", "nfs4"), ("/home/me/x", "nfs4"), ("/home/local disk/x", "xfs"), ("/homes", "ext4"), ("/data/x", "fuse.sshfs"),
                           ("/proc/1", "proc")):
            self.assertEqual(cengmoat._mounts.kind_of(path, MOUNTS), kind, path)
        self.assertEqual(cengmoat._mounts.kind_of("/x", ""), None)
        with mock.patch("cengmoat._mounts._mounts", return_value=MOUNTS):
            self.assertEqual([cengmoat._mounts.reports_late(it) for it in ("/home/me", "/home/local disk", "/data", "/tmp/x")], [True, False, True, False])
        with mock.patch("cengmoat._mounts._mounts", return_value=""):
            self.assertTrue(cengmoat._mounts.reports_late("/tmp"))

    def test_compute_syncs_where_errors_come_late(self) -> None:
        here = self.store(program=self.fake_program(WRITES))
        x = here.save("x", np.arange(4)) + np.arange(4)
        for late in (True, False):
            synced: list[bool] = []

            def written(folder: str, name: str, meta: object, data: object, sync: bool = True) -> None:
                synced.append(sync)

            with mock.patch("cengmoat._store.reports_late", return_value=late), mock.patch("cengmoat._temporary.reports_late", return_value=late), \
                    mock.patch("cengmoat._temporary.write_array", written):
                self.assertRaises(cengmoat.CengmoatError, x.compute)
            with open(os.path.join(self.folder, "words"), encoding="utf-8") as file:
                self.assertEqual("--sync 0" in file.read(), not late)
            self.assertEqual(synced, [late])


if __name__ == "__main__":
    unittest.main()
