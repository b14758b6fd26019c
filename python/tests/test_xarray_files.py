"""Folders as Datasets of xarray, and results that xarray opens."""
from __future__ import annotations

import importlib.util
import json
import os
import unittest
import warnings
from typing import Any
from unittest import mock

from .support import Case, WithProgram, cengmoat, np, xp

try:
    import xarray
except ImportError:
    xarray = None
else:
    import cengmoat.xarray

HAS_ZARR = importlib.util.find_spec("zarr") is not None
FILL = -32768
ABOUT = {"units": "K", "scale_factor": 0.01, "add_offset": 273.15}


class Listed(Case):
    """What of a folder can be read."""

    def setUp(self) -> None:
        super().setUp()
        self.here = self.store()
        self.here.save("a", np.arange(3))
        self.here.save("z", np.arange(4))
        self.put("b", "zarr.json", {**json.loads(cengmoat._metadata.Metadata(np.dtype("int8"), (1,), (1,)).text()), "data_type": "float32"})
        self.put("c", ".zarray", {"chunks": [2], "compressor": {"id": "zlib"}, "dtype": "<i2", "fill_value": 0, "filters": None, "order": "C", "shape": [2],
                                  "zarr_format": 2})
        self.put("d", "zarr.json", {"zarr_format": 3, "node_type": "group"})
        self.put("_cubed/e", "plan.json", {})
        self.put("e", "zarr.json", json.loads(cengmoat._metadata.Metadata(np.dtype("int8"), (1,), (1,)).text()))

    def put(self, name: str, key: str, members: dict[str, Any]) -> None:
        os.makedirs(os.path.join(self.here.folder, name))
        with open(os.path.join(self.here.folder, name, key), "w", encoding="utf-8") as file:
            json.dump(members, file)

    def test_items_pass_over_what_cannot_be_read(self) -> None:
        self.assertEqual([name for name, _ in self.here.items()], ["a", "z"])
        self.assertEqual([array.shape for array in self.here.values()], [(3,), (4,)])
        self.assertEqual((len(self.here.items()), len(self.here.values()), self.here.names()), (2, 2, ["a", "b", "c", "d", "e", "z"]))
        why = self.here.unread()
        self.assertEqual(sorted(why), ["b", "c", "d", "e"])
        for name, wanted in (("b", "another type"), ("c", "compressed"), ("d", "group"), ("e", "0 of 1 chunks")):
            self.assertIn(wanted, why[name])
            self.assertNotIn("\n", why[name])

    def test_a_saved_folder_is_a_group(self) -> None:
        path = os.path.join(self.here.folder, "zarr.json")
        with open(path, encoding="utf-8") as file:
            self.assertEqual(json.load(file), {"zarr_format": 3, "node_type": "group", "attributes": {}})
        for key in (".zgroup", ".zmetadata", "v/.zarray"):
            other = cengmoat.Store(os.path.join(self.folder, key.replace("/", "-")))
            os.makedirs(os.path.dirname(os.path.join(other.folder, key)))
            with open(os.path.join(other.folder, key), "w", encoding="utf-8") as file:
                file.write("{}")
            other.save("a", np.arange(3))
            self.assertEqual([key for key in os.listdir(other.folder) if key == "zarr.json"], [], key)
        with open(path, "w", encoding="utf-8") as file:
            file.write("mine")
        self.here.save("y", np.arange(3))
        with open(path, encoding="utf-8") as file:
            self.assertEqual(file.read(), "mine")


class Datasets(WithProgram):
    def setUp(self) -> None:
        if xarray is None:
            self.skipTest("xarray isn't there")
        super().setUp()
        times = np.datetime64("2001-01-30", "ns") + np.arange(5) * np.timedelta64(1, "D")
        self.data = np.array([[1, FILL, 300], [4, 5, -7], [0, 1, 2], [9, 8, 7], [FILL, 3, 2]], "int16")
        self.floats = np.where(self.data == FILL, np.nan, self.data * 0.01 + 273.15)
        self.exact = xarray.Dataset({"t2m": (("time", "place"), self.floats, {"units": "K", "long_name": "temperature"})},
                                    {"time": times, "place": ["north", "south", "west"], "height": ("place", [1.5, 2.5, np.nan], {"units": "m"}),
                                     "run": 7}, {"title": "a day's work"})
        self.exact.t2m.encoding = {"dtype": "int16", "_FillValue": FILL, "scale_factor": 0.01, "add_offset": 273.15}
        self.path = os.path.join(self.folder, "out.zarr")

    def written(self) -> str:
        """Return a folder of version 2 as xarray writes it, of which the coordinates are compressed."""
        if not HAS_ZARR:
            self.skipTest("zarr isn't there")
        path = os.path.join(self.folder, "weather.zarr")
        self.exact.to_zarr(path, encoding={"t2m": {**self.exact.t2m.encoding, "compressor": None, "chunks": (2, 3)}})
        return path

    def opened(self, path: str) -> Any:
        with warnings.catch_warnings():
            warnings.filterwarnings("error", ".*consolidated.*")
            return xarray.open_zarr(path, chunks=None).load()

    def open(self, path: str, **options: Any) -> Any:
        from cengmoat._store import Store
        return cengmoat.xarray.open_dataset(Store(path, program=self.store().program), **options)

    def left(self) -> list[str]:
        return sorted(name for name in os.listdir(self.folder) if name not in ("arrays", "weather.zarr"))

    def test_a_folder_of_xarray_as_lazy_arrays(self) -> None:
        ds = self.open(self.written())
        self.assertEqual((sorted(ds.variables), sorted(ds.coords)), (["height", "place", "run", "t2m", "time"], ["height", "place", "run", "time"]))
        self.assertIsInstance(ds.t2m.variable._data, cengmoat.Array)
        self.same(ds.t2m.data.compute(), self.data)
        self.assertEqual(ds.t2m.attrs, {**self.exact.t2m.attrs, "scale_factor": 0.01, "add_offset": 273.15, "_FillValue": FILL})
        for name in ("time", "place", "height", "run"):
            self.assertTrue(ds[name].variable.equals(self.exact[name].variable), name)
        self.assertEqual(ds.attrs, {"title": "a day's work"})
        self.same(ds.t2m.sel(time="2001-01-31", place="west").data.compute(), np.array(-7, "int16"))

    def test_both_versions_with_coordinates_and_packed_values(self) -> None:
        weather = self.written()
        ds = self.open(weather)
        for form in (2, 3):
            path = os.path.join(self.folder, f"out{form}")
            ds.isel(time=slice(1, None)).cengmoat.to_zarr(path, zarr_format=form)
            wanted = self.exact.isel(time=slice(1, None))
            if form == 2:
                self.assertTrue(self.opened(path).identical(self.opened(weather).isel(time=slice(1, None))), self.opened(path))
            again = self.open(path)
            self.same(again.t2m.data.compute(), self.data[1:])
            self.assertEqual(again.t2m.attrs, ds.t2m.attrs)
            for name in ("time", "place", "height", "run"):
                self.assertTrue(again[name].variable.equals(wanted[name].variable), (form, name))
            self.assertEqual((again.attrs, sorted(again.coords)), ({"title": "a day's work"}, ["height", "place", "run", "time"]))
        told = self.json("out3/t2m/zarr.json")
        self.assertEqual((told["fill_value"], told["attributes"]["_FillValue"], told["dimension_names"], told["codecs"]),
                         (FILL, FILL, ["time", "place"], [{"name": "bytes", "configuration": {"endian": "little"}}]))
        self.assertEqual((self.json("out3/zarr.json")["node_type"], self.json("out3/place/zarr.json")["data_type"]), ("group", "string"))

    def test_missing_values_of_an_array_of_xarray(self) -> None:
        ds = self.open(self.written())
        mask, filled = ds.t2m.cengmoat.is_missing(), ds.t2m.cengmoat.fill_missing(0)
        self.same(mask.data.compute(), self.data == FILL)
        self.same(filled.data.compute(), np.where(self.data == FILL, 0, self.data).astype("int16"))
        self.assertEqual((mask.attrs, sorted(mask.coords), filled.attrs), ({}, sorted(ds.coords), ds.t2m.attrs))

    def test_a_coordinate_that_cannot_be_read(self) -> None:
        weather = self.written()
        with open(os.path.join(weather, "height", ".zarray"), encoding="utf-8") as file:
            members = json.load(file)
        with open(os.path.join(weather, "height", ".zarray"), "w", encoding="utf-8") as file:
            json.dump({**members, "compressor": {"id": "unheard"}}, file)
        with self.assertWarnsRegex(UserWarning, "left out.*height"):
            ds = self.open(weather)
        self.assertEqual(sorted(ds.coords), ["place", "run", "time"])

    def json(self, key: str) -> dict[str, Any]:
        with open(os.path.join(self.folder, key), encoding="utf-8") as file:
            return json.load(file)

    def test_coordinates_of_other_forms_and_of_any_size(self) -> None:
        """None of them is read for long, and none is an error of Python's own."""
        here = self.store()
        here.save("t", np.arange(3), dims=("y",), attrs={"coordinates": "other"})
        whole = {"zarr_format": 3, "node_type": "array", "data_type": "float64", "shape": [3], "chunk_key_encoding":
                 {"name": "default", "configuration": {"separator": "/"}}, "chunk_grid": {"name": "regular", "configuration": {"chunk_shape": [3]}},
                 "codecs": [{"name": "bytes", "configuration": {"endian": "little"}}], "fill_value": 0.0, "dimension_names": ["y"], "attributes": {}}
        text = {"data_type": "string", "codecs": [{"name": "vlen-utf8"}], "fill_value": ""}
        path = os.path.join(here.folder, "other")
        os.makedirs(os.path.join(path, "c"))
        for changed in ({"data_type": "int7"}, {"fill_value": "nought"}, {"fill_value": None, "data_type": "int32"}, {"chunk_grid": {"name": "regular", "configuration": [3]}},
                        {"chunk_grid": {"name": "regular", "configuration": {"chunk_shape": ["a"]}}}, {"shape": [2**62]}, {"shape": [-3]},
                        {"shape": [2**40], "chunk_grid": {"name": "regular", "configuration": {"chunk_shape": [2**40]}}},
                        {**text, "chunk_grid": {"name": "regular", "configuration": {"chunk_shape": [2**50]}}}):
            with open(os.path.join(path, "zarr.json"), "w", encoding="utf-8") as file:
                json.dump({**whole, **changed}, file)
            with open(os.path.join(path, "c", "0"), "wb") as chunk:
                chunk.write(b"\x03\0\0\0" + bytes(20))
            with self.assertWarnsRegex(UserWarning, "a coordinate is left out: .*other"):
                ds = self.open(here.folder)
            self.assertEqual((sorted(ds.variables), "other" in ds.coords), (["t"], False), changed)
        with open(os.path.join(path, "zarr.json"), "w", encoding="utf-8") as file:
            json.dump(whole, file)
        self.same(self.open(here.folder)["other"].values, np.frombuffer(b"\x03\0\0\0" + bytes(20), "<f8"))

    def test_by_one_run_and_the_chunks_stay(self) -> None:
        ds = self.open(self.written())
        runs: list[list[str]] = []
        asked = cengmoat._running.call_program

        def called(words: Any, *args: Any, **options: Any) -> str:
            runs.append(list(words))
            return asked(words, *args, **options)

        before = self.keys(os.path.join(self.folder, "weather.zarr"))
        with mock.patch("cengmoat._running.call_program", called):
            ds.t2m.max("time").cengmoat.to_zarr(self.path, name="t2m")
            (ds.t2m > 3).cengmoat.to_zarr(self.path + "3", name="t2m", zarr_format=3)
        self.assertEqual([words[2] for words in runs], ["run", "run"])
        self.assertNotIn("--sync", runs[0])
        self.assertEqual(self.keys(os.path.join(self.folder, "weather.zarr")), before)
        found = self.opened(self.path)
        self.assertEqual((sorted(found.variables), found.t2m.units), (["height", "place", "run", "t2m"], "K"))
        self.assertTrue(np.allclose(found.t2m.values, self.data.max(axis=0) * 0.01 + 273.15))
        ds.t2m.drop_vars("run").min("time").cengmoat.to_zarr(self.path + "4")
        self.assertEqual(sorted(self.opened(self.path + "4").coords), ["height", "place"])
        with open(os.path.join(self.path + "3", "t2m", "c", "1", "0"), "rb") as file:
            self.assertEqual(file.read(), (self.data[2:4] > 3).tobytes())
        self.same(self.open(self.path + "3").t2m.data.compute(), self.data > 3)

    def test_times_floats_and_truth_values_beside(self) -> None:
        here = self.store()
        t = here.save("t", np.arange(6, dtype="uint8").reshape(2, 3), (1, 2))
        ds = xarray.Dataset({"t": (("y", "x"), t + 1), "truth": (("y", "x"), t > 2), "in_memory": ("x", [1.5, np.inf, np.nan]), "words": ("x", ["", "ä", "three"]),
                             "flags": ("y", [True, False]), "when": ("y", np.array(["2000-01-01T12", "NaT"], "datetime64[ns]")),
                             "lazy_zeros": (("x",), xp.zeros(3, dtype="int8"))})
        for form in (2, 3):
            path = os.path.join(self.folder, f"a{form}")
            ds.cengmoat.to_zarr(path, zarr_format=form)
            if form == 2 and HAS_ZARR:
                found = self.opened(path)
                for name, variable in ds.variables.items():
                    self.assertEqual(found[name].dims, variable.dims)
                    self.assertTrue(np.array_equal(found[name].values, np.asarray(variable.values), equal_nan=variable.dtype.kind in "fM"), name)
            again = self.open(path)
            self.same(again.t.data.compute(), np.arange(1, 7, dtype="uint8").reshape(2, 3))
            self.same(again.truth.data.compute(), np.arange(6).reshape(2, 3) > 2)
            if form == 3:
                for name in ("in_memory", "words", "when"):
                    values = cengmoat._zarr_plain.read_plain(path, name, cengmoat._zarr_plain.outline_of(path, name))
                    decoded = xarray.conventions.decode_cf_variable(name, xarray.Variable(ds[name].dims, values, self.json(f"a3/{name}/zarr.json")["attributes"]))
                    self.assertTrue(decoded.equals(ds[name].variable), name)

    def test_stored_arrays_as_they_are(self) -> None:
        """An absent chunk is written where it has another value than what is missing, and truth values of xarray stay such."""
        here = self.store()
        for name, dtype, members, attrs in (("a", "<i2", {"fill_value": 7, "shape": [4], "chunks": [2]}, {}),
                                            ("b", "|i1", {"fill_value": None, "shape": [2], "chunks": [2]}, {"_ARRAY_DIMENSIONS": ["x"], "dtype": "bool"})):
            os.makedirs(os.path.join(here.folder, name))
            for key, told in ((".zarray", {"compressor": None, "dtype": dtype, "filters": None, "order": "C", "zarr_format": 2, **members}), (".zattrs", attrs)):
                with open(os.path.join(here.folder, name, key), "w", encoding="utf-8") as file:
                    json.dump(told, file)
        for name, data in (("a", bytes([1, 0, 2, 0])), ("b", bytes([0, 1]))):
            with open(os.path.join(here.folder, name, "0"), "wb") as file:
                file.write(data)
        ds = xarray.Dataset({"a": ("x", here["a"]), "b": ("y", here["b"])})
        for form in (2, 3):
            path = os.path.join(self.folder, f"s{form}")
            ds.cengmoat.to_zarr(path, zarr_format=form)
            again = self.open(path)
            self.same(again.a.data.compute(), np.array([1, 2, 7, 7], "int16"))
            self.same(again.b.data.compute(), np.array([False, True]))
        if HAS_ZARR:
            found = self.opened(os.path.join(self.folder, "s2"))
            self.same(found.a.values, np.array([1, 2, 7, 7], "int16"))
            self.same(found.b.values, np.array([False, True]))

    def test_a_path_is_new_or_empty(self) -> None:
        t = xarray.DataArray(self.store().save("t", np.arange(6)), dims="x", name="t")
        os.mkdir(self.path)
        (t + 1).cengmoat.to_zarr(self.path)
        self.same(self.open(self.path)["t"].data.compute(), np.arange(1, 7))
        before = self.keys(self.folder)
        file = os.path.join(self.folder, "file")
        for path in (self.path, file, os.path.join(self.store().folder, "t"), self.store().folder):
            if path == file:
                os.symlink(self.folder + "/nowhere", file)
            with self.assertRaises(cengmoat.Exists) as found:
                (t + 1).cengmoat.to_zarr(path)
            self.assertIn(path, str(found.exception))
        os.unlink(file)
        self.assertEqual(self.keys(self.folder), before)
        inside = os.path.join(self.store().folder, "below", "out")
        (t + 2).cengmoat.to_zarr(inside, name="t")
        self.same(self.open(inside)["t"].data.compute(), np.arange(2, 8))

    def test_a_failed_call_leaves_nothing(self) -> None:
        here = self.store()
        t = xarray.DataArray(here.save("t", np.arange(6)), dims="x", name="t", coords={"x": np.arange(6)})
        failing = self.store(allowed_mem=100)
        over = xarray.DataArray(failing["t"] + 1, dims="x", name="t", coords=t.coords)
        before, deep = self.keys(self.folder), os.path.join(self.folder, "new", "deep", "out")
        self.assertRaises(cengmoat.OverMemory, over.cengmoat.to_zarr, deep)
        for bad, call in ((ValueError, lambda: t.cengmoat.to_zarr(deep, name="a/b")), (ValueError, lambda: t.cengmoat.to_zarr(deep, zarr_format=4)),
                          (ValueError, lambda: t.rename(None).cengmoat.to_zarr(deep)),
                          (TypeError, lambda: t.assign_coords(x=np.arange(6) * 1j).cengmoat.to_zarr(deep))):
            self.assertRaises(bad, call)
        os.unlink(os.path.join(here.folder, "t", "zarr.json"))
        self.assertRaises(cengmoat.NoArray, (t + 1).cengmoat.to_zarr, deep)
        self.assertEqual((self.keys(self.folder), self.left()), ([key for key in before if key != "arrays/t/zarr.json"], []))

    def test_which_arrays(self) -> None:
        here = self.store()
        t = here.save("t", np.arange(12).reshape(3, 4), dims=("y", "x"))
        here.save("y", np.array([5, 6, 7]), dims=("y",), attrs={"units": "days since 2000-01-01"})
        here.save("plain", np.arange(5))
        t[:2].store("part")
        with self.assertRaises(ValueError) as found:
            self.open(here.folder)
        self.assertIn("names=[", str(found.exception))
        ds = self.open(here.folder, names=["t", "plain"])
        self.assertEqual((ds.t.dims, ds.plain.dims, sorted(ds.coords)), (("y", "x"), ("plain_dim_0",), ["y"]))
        self.assertEqual(str(ds.y.values[0])[:10], "2000-01-06")
        self.assertRaises(cengmoat.NoArray, self.open, here.folder, names=["none"])
        self.assertRaises(TypeError, self.open, here.folder, names="t")
        here.remove("part")
        self.assertEqual(sorted(cengmoat.xarray.open_dataset(here.folder).variables), ["plain", "t", "y"])


if __name__ == "__main__":
    unittest.main()
