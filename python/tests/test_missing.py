"""Missing values stay missing, and a result says its unit and how it is packed where that is true of its numbers."""
from __future__ import annotations

import json
import os
import unittest
from typing import Any

from .support import PYTHON, Case, WithProgram, cengmoat, np, xp

try:
    import xarray
except ImportError:
    xarray = None

FILL = -32768
PACKED = {"units": "K", "long_name": "temperature", "scale_factor": 0.01, "add_offset": 273.15}


def put(folder: str, name: str, data: np.ndarray, attrs: dict[str, Any], **members: Any) -> None:
    """Write an array of version 2 in one chunk, as xarray does: what is missing is the fill value, and no attribute."""
    os.makedirs(os.path.join(folder, name))
    told = {"chunks": list(data.shape), "compressor": None, "dtype": data.dtype.str, "fill_value": FILL, "filters": None, "order": "C",
            "shape": list(data.shape), "zarr_format": 2, **members}
    for key, text in ((".zarray", told), (".zattrs", attrs)):
        with open(os.path.join(folder, name, key), "w", encoding="utf-8") as file:
            json.dump(text, file)
    with open(os.path.join(folder, name, ".".join("0" * data.ndim)), "wb") as file:
        file.write(data.tobytes())


class Read(Case):
    def test_the_fill_value_of_version_2(self) -> None:
        here, data = self.store(), np.zeros((2, 3), "int16")
        dims = {"_ARRAY_DIMENSIONS": ["y", "x"]}
        for name, attrs, members, wanted in (("a", {**dims, **PACKED}, {}, FILL), ("b", dims, {}, FILL), ("c", PACKED, {}, FILL),
                                             ("d", {**dims, **PACKED}, {"fill_value": None}, None), ("e", {}, {}, None), ("f", {"units": "K"}, {}, None)):
            put(here.folder, name, data, attrs, **members)
            self.assertEqual(here[name].attrs.get("_FillValue"), wanted, name)
        put(here.folder, "truth", np.zeros(2, "int8"), {"_ARRAY_DIMENSIONS": ["y"], "dtype": "bool"}, fill_value=0)
        self.assertEqual(here["truth"].attrs, {})

    def test_which_numbers_are_missing(self) -> None:
        missing = cengmoat._packing.missing_of
        for attrs, wanted in (({}, ()), ({"_FillValue": -1}, (-1,)), ({"_FillValue": -1.0, "missing_value": -1}, (-1,)),
                              ({"_FillValue": -1, "missing_value": 7}, (-1, 7)), ({"_FillValue": 300}, ()), ({"_FillValue": True}, ()),
                              ({"_FillValue": "AAAAAAAA+H8="}, ()), ({"missing_value": [1, 2]}, ()), ({"_FillValue": 0.5}, ())):
            self.assertEqual(missing(attrs, np.dtype("int8")), wanted, attrs)
        self.assertEqual(missing({"_FillValue": 0}, np.dtype("bool")), ())


class Attributes(Case):
    """What stays of the attributes, by a row for each in the page."""

    def setUp(self) -> None:
        super().setUp()
        self.here = self.store()
        self.about = {**PACKED, "_FillValue": FILL, "source": "a"}
        data = np.arange(12, dtype="int16").reshape(3, 4)
        self.x = self.here.save("x", data, dims=("time", "place"), attrs=self.about)
        self.y = self.here.save("y", data, dims=("time", "place"), attrs={**PACKED, "source": "b"})
        self.other = self.here.save("other", data, dims=("time", "place"), attrs={**self.about, "add_offset": 0})
        self.plain = self.here.save("plain", data)

    def test_elements_of_an_input_keep_all(self) -> None:
        x, row = self.x, np.arange(4, dtype="int16")
        for lazy in (x[1:], x[0], x.T, x.reshape(-1), xp.flip(x), xp.roll(x, 1), x.rechunk(1), +x, x.astype("int32"), x.max(), x.min(axis=0), x.clip(1, 5),
                     xp.maximum(x, 3), xp.minimum(3, x), xp.maximum(x, row), xp.where(x > 3, x, 0), xp.where(x > 3, 0, x), xp.where(x > row, x, row),
                     xp.concat([x, x]), xp.stack([x, x]), np.pad(x, 1), x.fill_missing(0), xp.where(x[0] > 3, x[0], 0)):
            self.assertEqual(lazy.attrs, self.about, lazy)
        both = {**PACKED, "_FillValue": FILL}
        for lazy in (xp.where(x > 3, x, self.y), xp.maximum(x, self.y), xp.concat([x, self.y]), xp.where(x > 3, x[0], 0)):
            self.assertEqual(lazy.attrs, both, lazy)

    def test_other_numbers_drop_units_and_packing(self) -> None:
        x = self.x
        for lazy in (x.sum(), x.prod(axis=0), x * 2, x // 500, x * x, x + 1, x + x, x - 1, 1 - x, -x, abs(x), x % 3, x << 1, ~x, x & 7, x @ x.T, x.cumsum(0),
                     x.astype("int8"), x.astype("uint16"), x - self.other, xp.where(x > 3, x, self.other), xp.maximum(x, self.other),
                     xp.concat([x, self.other]), cengmoat.groupby_sum(x, np.zeros(3, "int64"), 0, 1)):
            self.assertEqual(lazy.attrs, {"source": "a"}, lazy)
        for lazy in (xp.where(x > 3, x, self.plain), xp.stack([x, self.plain])):
            self.assertEqual(lazy.attrs, {"source": "a"}, lazy)
        for lazy in (x > 3, x.any(), x.argmax(axis=0), x.is_missing(), xp.where(x > 3, 1, 0)):
            self.assertEqual(lazy.attrs, {}, lazy)

    def test_a_difference_of_equal_packing_keeps_the_scale(self) -> None:
        wanted = {"units": "K", "long_name": "temperature", "scale_factor": 0.01}
        self.assertEqual((self.x - self.y).attrs, wanted)
        self.assertEqual((self.x - self.y[0]).attrs, {**wanted, "source": "a"})
        self.assertEqual((self.x - self.plain).attrs, {"source": "a"})

    def test_a_unit_alone(self) -> None:
        a = self.here.save("a", np.arange(3), attrs={"units": "m"})
        b = self.here.save("b", np.arange(3), attrs={"units": "km"})
        self.assertEqual([it.attrs for it in (a - a, a - b, a[1:], xp.concat([a, b]), a + a)], [{"units": "m"}, {}, {"units": "m"}, {}, {}])


class Missing(WithProgram):
    def setUp(self) -> None:
        super().setUp()
        self.here = self.store()
        self.data = np.array([[1, FILL, 300, 7], [FILL, -5, 20, FILL], [9, 10, 11, 12]], "int16")
        put(self.here.folder, "t", self.data, {**PACKED, "_ARRAY_DIMENSIONS": ["time", "place"]})
        self.t, self.gone = self.here["t"], self.data == FILL

    def test_they_stay(self) -> None:
        t, data, row = self.t, self.data, np.array([4, 5, 6, 7], "int16")
        for lazy, plain in ((t.clip(0, 10), data.clip(0, 10)), (t.clip(0, None), data.clip(0, None)), (xp.maximum(t, 5), np.maximum(data, 5)),
                            (xp.minimum(5, t), np.minimum(data, 5)), (np.maximum(t, row), np.maximum(data, row)), (xp.where(t > 5, t, 0), np.where(data > 5, data, 0)),
                            (np.where(t < 5, 0, t), np.where(data < 5, 0, data)), (xp.where(t[0] > 5, t, 0), np.where(data[0] > 5, data, 0))):
            self.computes(lazy, np.where(self.gone, FILL, plain).astype("int16"), lazy)
        both = np.where(self.gone | np.roll(self.gone, 1, 0), FILL, np.maximum(data, np.roll(data, 1, 0))).astype("int16")
        self.computes(xp.maximum(t, xp.roll(t, 1, axis=0)), both)
        twice = self.here.save("twice", data, attrs={"_FillValue": FILL, "missing_value": 300})
        self.computes(twice.clip(0, 10), np.where(self.gone, FILL, np.where(data == 300, 300, data.clip(0, 10))).astype("int16"))
        self.computes(self.here.save("plain", data).clip(0, 10), data.clip(0, 10))

    def test_the_mask(self) -> None:
        t, data = self.t, self.data
        self.computes(t.is_missing(), self.gone)
        self.computes(t.fill_missing(0), np.where(self.gone, 0, data).astype("int16"))
        self.computes(xp.where(t != FILL, t, 0), np.where(self.gone, 0, data).astype("int16"))
        self.computes(xp.where((t == FILL) | (t > 11), 3, t), np.where(self.gone | (data > 11), 3, data).astype("int16"))
        # (a condition of another array with the same number says nothing of what is missing)
        other = self.here.save("other", data)
        self.computes(xp.where(other == FILL, 3, t), data)
        self.computes(t.fill_missing(0).sum(axis=0) // (~t.is_missing()).sum(axis=0), np.array([5, 2, 110, 9]))
        self.computes(self.here.save("plain", data).is_missing(), np.zeros(data.shape, "bool"))
        # (a fold takes the stored numbers)
        self.computes(t.sum(), data.sum(dtype="int64"))
        self.assertRaises(ValueError, t.fill_missing, 70_000)

    def layout(self, name: str) -> dict[str, Any]:
        with open(os.path.join(self.here.folder, name, "zarr.json"), encoding="utf-8") as file:
            return json.load(file)

    def test_results_say_them(self) -> None:
        t = self.t
        for name, lazy in (("a", t[1:]), ("b", t.clip(0, 5)), ("c", xp.where(t > 5, t, t[0])), ("d", t.max(axis=0)), ("e", t.rechunk(1)), ("f", +t)):
            lazy.store(name)
            told = self.layout(name)
            self.assertEqual((told["fill_value"], told["attributes"]["_FillValue"]), (FILL, FILL), name)
            self.assertEqual(self.here[name].attrs, {**PACKED, "_FillValue": FILL})
            self.assertEqual(lazy.check(name), lazy.size)
        (t * 2).store("g")
        self.assertEqual((self.layout("g")["fill_value"], "attributes" in self.layout("g")), (0, False))
        self.same((self.here["b"] + 1).compute(), np.where(self.gone, FILL, self.data.clip(0, 5)).astype("int16") + np.int16(1))

    def test_a_labelled_result_that_lost_a_chunk(self) -> None:
        lazy = self.t.rechunk((1, 4)).clip(0, 10)
        wanted = lazy.store("y", keep=True).compute()
        os.unlink(os.path.join(self.here.folder, "y", "c", "1", "0"))
        lost = self.here.read("y", unfinished=True)
        self.same(lost[1], np.full(4, FILL, "int16"))
        before = self.layout("y")
        stored = lazy.store("y", resume=True)
        self.same(stored.compute(), wanted)
        self.assertEqual((self.layout("y"), stored.dims), (before, ("time", "place")))
        self.assertEqual(before["attributes"], {**PACKED, "_FillValue": FILL})


class Page(Case):
    def test_the_table_of_the_page(self) -> None:
        """Each row of the page's table of attributes is what a result has."""
        with open(os.path.join(PYTHON, "README.md"), encoding="utf-8") as file:
            text = file.read().partition("Which attributes a result has")[2].partition("\n## ")[0]
        rows = [line.split("|")[1:4] for line in text.splitlines() if line.startswith("| `")]
        self.assertGreater(len(rows), 8)
        here, about = self.store(), {**PACKED, "_FillValue": FILL, "source": "a"}
        x = here.save("x", np.arange(12, dtype="int16").reshape(3, 4), attrs=about)
        y = here.save("y", np.arange(12, dtype="int16").reshape(3, 4), attrs=about)
        names = {"x": x, "y": y, "xp": xp, "cengmoat": cengmoat, "labels": np.zeros(3, "int64")}
        for calls, packing, meaning in rows:
            for call in calls.split("`")[1::2]:
                found = eval(call, dict(names)).attrs
                kept = {"all": ("scale_factor", "add_offset", "_FillValue"), "`scale_factor`": ("scale_factor",), "none": ()}[packing.strip()]
                self.assertEqual([name for name in ("scale_factor", "add_offset", "_FillValue") if name in found], list(kept), call)
                self.assertEqual("units" in found, meaning.strip() == "stay", call)


if __name__ == "__main__":
    unittest.main()
