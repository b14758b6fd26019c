"""Stored arrays and lazy arrays, without the program: saving, reading, what is known beforehand, and bad input."""
from __future__ import annotations

import copy
import itertools
import json
import os
import pickle
import random
import unittest
from decimal import Decimal
from fractions import Fraction
from typing import Any
from unittest import mock

from .support import TOP, TYPES, Case, cengmoat, np, xp

TABLE = os.path.join(TOP, "crates", "test_cases", "data", "metadata.json")
TABLE_V2 = os.path.join(TOP, "crates", "test_cases", "data", "zarray.json")


class Saving(Case):
    def test_round_trip(self) -> None:
        pick = random.Random(1)
        store = self.store()
        for number in range(60):
            dtype = pick.choice(TYPES)
            shape = tuple(pick.choice([0, 1, 2, 3, 5, 8]) for _ in range(pick.randint(0, 4)))
            data = np.array([pick.randint(0, 1) if dtype == "bool" else pick.randint(0, 100) for _ in range(int(np.prod(shape)))])
            data = data.astype(dtype).reshape(shape)
            chunks = tuple(pick.randint(1, size + 2) for size in shape)
            lazy = store.save(f"a{number}", data, chunks)
            self.assertEqual((lazy.dtype, lazy.shape, lazy.chunksize), (data.dtype, shape, chunks))
            self.same(store.read(f"a{number}"), data)
            key = tuple(pick.choice([slice(None), slice(pick.randint(-9, 9), pick.randint(-9, 9), pick.choice([-3, -2, -1, 1, 2])),
                                     *([pick.randint(-size, size - 1)] if size else [])]) for size in shape)
            self.same(store.read(f"a{number}", key), data[key], (shape, chunks, key))
            self.same(store.read(f"a{number}", (..., None)), data[..., None])

    def test_every_slice(self) -> None:
        data = np.arange(5, dtype="int8")
        ends = (None, -6, -3, -1, 0, 2, 4, 6)
        for chunk in range(1, 7):
            store = self.store()
            store.save(f"a{chunk}", data, chunk)
            for start, stop, step in itertools.product(ends, ends, (None, -3, -2, -1, 1, 2, 3)):
                self.same(store.read(f"a{chunk}", slice(start, stop, step)), data[start:stop:step], (chunk, start, stop, step))

    def test_bytes_are_those_of_the_program(self) -> None:
        store = self.store()
        store.save("a", np.arange(6, dtype="int32"), 4)
        with open(os.path.join(store.folder, "a", "zarr.json"), encoding="utf-8") as file:
            self.assertEqual(file.read(), '{"chunk_grid":{"configuration":{"chunk_shape":[4]},"name":"regular"},"chunk_key_encoding":'
                             '{"configuration":{"separator":"/"},"name":"default"},"codecs":[{"configuration":{"endian":"little"},'
                             '"name":"bytes"}],"data_type":"int32","fill_value":0,"node_type":"array","shape":[6],"zarr_format":3}')
        with open(os.path.join(store.folder, "a", "c", "1"), "rb") as file:
            self.assertEqual(file.read(), bytes([4, 0, 0, 0, 5, 0, 0, 0, 0, 0, 0, 0, 0, 0, 0, 0]))
        self.assertEqual(self.keys(store.folder), ["a/c/0", "a/c/1", "a/zarr.json"])

    def test_big_endian_and_lists(self) -> None:
        store = self.store()
        self.same(store.save("a", np.array([1, 258], ">u2")).compute(), np.array([1, 258], "uint16"))
        self.same(store.save("b", [[1, 2], [3, 4]]).compute(), np.array([[1, 2], [3, 4]]))

    def test_counts_of_stored_chunks(self) -> None:
        """Each chunk that is stored counts, in each form of keys, and no other file does."""
        for encoding, separator in itertools.product(("default", "v2"), "./"):
            for shape, chunks in (((), ()), ((5,), (2,)), ((4, 6), (2, 4)), ((3, 4, 5), (1, 2, 2))):
                meta = cengmoat._metadata.Metadata(np.dtype("int8"), shape, chunks, 0, False, encoding, separator)
                name, path = f"{encoding}{'.-'[separator == '/']}{len(shape)}", ""
                for count, coordinate in enumerate(meta.coordinates(), 1):
                    path = os.path.join(self.folder, meta.chunk_key(name, coordinate))
                    os.makedirs(os.path.dirname(path), exist_ok=True)
                    for other in (path, f"{path}.new12", os.path.join(os.path.dirname(path), "99")):
                        with open(other, "w", encoding="utf-8"):
                            pass
                    self.assertEqual(cengmoat._files.stored_chunks(self.folder, name, meta), count, (encoding, separator, shape))

    def test_a_chunk_at_a_time(self) -> None:
        class Source:
            """An array of which single parts are read."""

            shape, dtype, most = (10, 4), np.dtype("int16"), 0

            def __getitem__(self, key: Any) -> np.ndarray:
                part = np.arange(40, dtype="int16").reshape(10, 4)[key]
                self.most = max(self.most, part.size)
                return part

        source = Source()
        self.same(self.store().save("a", source, (3, 2)).compute(), np.arange(40, dtype="int16").reshape(10, 4))
        self.assertEqual(source.most, 6)

    def test_whole_or_not_at_all(self) -> None:
        class Broken:
            shape, dtype = (4,), np.dtype("int8")

            def __getitem__(self, key: Any) -> np.ndarray:
                if key[0].start == 2:
                    raise KeyboardInterrupt
                return np.zeros(2, "int8")

        store = self.store()
        self.assertRaises(KeyboardInterrupt, store.save, "a", Broken(), 2)
        self.assertEqual(self.keys(store.folder), [])
        self.assertFalse(os.path.exists(os.path.join(store.folder, "a")))
        store.save("a", np.zeros(4, "int8"), 2)

    def test_a_stop_behind_the_last_file_leaves_no_array_of_zeros(self) -> None:
        store, replace = self.store(), os.replace

        def late(source: str, target: str) -> None:
            replace(source, target)
            if target.endswith("zarr.json"):
                raise KeyboardInterrupt

        with mock.patch("os.replace", late):
            self.assertRaises(KeyboardInterrupt, store.save, "a", np.arange(1, 5, dtype="int8"))
        self.assertEqual((self.keys(store.folder), store.names()), ([], []))

    def test_what_was_there_before_is_not_taken_back(self) -> None:
        store, far = self.store(), os.path.join(self.folder, "far")
        os.makedirs(os.path.join(far, "drafts"))
        os.makedirs(os.path.join(store.folder, "a", "c"))
        os.makedirs(os.path.join(store.folder, "a", "drafts"))
        os.symlink(far, os.path.join(store.folder, "link"))
        with open(os.path.join(store.folder, "a", "c", "0"), "w", encoding="utf-8") as file:
            file.write("dear")
        with mock.patch("os.fsync", side_effect=OSError(28, "No space left on device")):
            for name in ("a", "link"):
                self.assertRaises(cengmoat.StoreFailed, store.save, name, np.arange(4, dtype="int8"), 2)
        with open(os.path.join(store.folder, "a", "c", "0"), encoding="utf-8") as file:
            self.assertEqual(file.read(), "dear")
        self.assertEqual(sorted(os.listdir(os.path.join(store.folder, "a"))), ["c", "drafts"])
        self.assertEqual((self.keys(store.folder), os.listdir(far)), (["a/c/0"], ["drafts"]))

    def test_other_writers(self) -> None:
        folder = os.path.join(self.folder, "other")
        os.makedirs(os.path.join(folder, "v"))
        members = {"zarr_format": 3, "node_type": "array", "shape": [2, 3], "data_type": "int16", "fill_value": -7,
                   "chunk_grid": {"name": "regular", "configuration": {"chunk_shape": [1, 2]}}, "chunk_key_encoding": "v2",
                   "codecs": [{"name": "bytes", "configuration": {"endian": "big"}}], "attributes": {"units": "K"},
                   "dimension_names": ["y", None]}
        with open(os.path.join(folder, "v", "zarr.json"), "w", encoding="utf-8") as file:
            json.dump(members, file, indent=2)
        with open(os.path.join(folder, "v", "0.1"), "wb") as file:
            file.write(np.array([5, 99], ">i2").tobytes())
        self.same(cengmoat.Store(folder).read("v"), np.array([[-7, -7, 5], [-7, -7, -7]], "int16"))
        self.assertEqual(cengmoat.from_zarr(folder, "v").chunksize, (1, 2))
        self.assertEqual(cengmoat.Store(folder).status()["v"].stored, 1)

    def test_version_2_is_read_where_there_is_no_version_3(self) -> None:
        folder = os.path.join(self.folder, "older")
        os.makedirs(os.path.join(folder, "x"))
        with open(os.path.join(folder, "x", ".zarray"), "w", encoding="utf-8") as file:
            file.write('{"chunks":[2],"compressor":null,"dtype":">i2","fill_value":-1,"filters":null,"order":"C","shape":[4],"zarr_format":2}')
        with open(os.path.join(folder, "x", "0"), "wb") as file:
            file.write(bytes([1, 2, 255, 254]))
        store = cengmoat.Store(folder)
        self.same(store.read("x"), np.array([258, -2, -1, -1], "int16"))
        self.assertEqual((store.names(), store.status()["x"].stored), (["x"], 1))
        with self.assertRaises(cengmoat.Exists):
            store.save("x", np.zeros(4, "int8"))

    def test_metadata_as_the_program_reads_it(self) -> None:
        for path, read in ((TABLE, cengmoat._metadata.read_metadata), (TABLE_V2, cengmoat._metadata.read_zarray)):
            if not os.path.isfile(path):
                self.skipTest("the table of cases lies in the repository")
            with open(path, encoding="utf-8") as file:
                table = json.load(file)
            count = 0
            for case in table["cases"]:
                for row in case.get("rows", [case]):
                    count += self.read_case({**table.get("shared", {}), **case, **row}, table.get("texts", {}), read)
            self.assertGreater(count, 20)

    def read_case(self, case: Any, texts: Any, read: Any) -> int:
        text = case.get("text")
        if isinstance(text, dict) and "named" in text:
            text = texts.get(text["named"])
        if text is None or (isinstance(text, dict) and set(text) <= {"hex", "repeat", "join", "named"}):
            return 0
        data = text.encode() if isinstance(text, str) else json.dumps(text).encode()
        if "refused" not in case:
            read("a", data)
            return 1
        with self.assertRaises(cengmoat.BadMetadata, msg=data) as found:
            read("a", data)
        # (a number, and now and then the member's name)
        self.assertEqual(found.exception.code, int(str(case["refused"]).split()[0]), data)
        return 1


class BadInput(Case):
    """Each is refused at the call, and nothing is stored."""

    def setUp(self) -> None:
        super().setUp()
        self.here = self.store()
        self.x = self.here.save("x", np.arange(6, dtype="int32").reshape(2, 3), (1, 2))
        self.before = self.keys(self.here.folder)
        self.addCleanup(lambda: self.assertEqual(self.keys(self.here.folder), self.before))

    def test_saving(self) -> None:
        data, save = np.zeros(3, "int8"), self.here.save
        for bad in (np.zeros(3), np.zeros(3, "complex64"), np.array(["a"]), np.array([None]), np.zeros(3, "datetime64[s]"), [0.5]):
            self.assertRaises(TypeError, save, "bad", bad)
        for name in ("", "a/b", "..", "../x", ".y", "-y", "_a", "ä", "a" * 33, "a b", "a\n"):
            self.assertRaises(ValueError, save, name, data)
            self.assertRaises(ValueError, self.here.__getitem__, name)
            self.assertRaises(ValueError, self.x.store, name)
        for name in (None, 3, b"a"):
            self.assertRaises(TypeError, save, name, data)
        for chunks in (0, (-2,), (2, 2), (0,)):
            self.assertRaises(ValueError, save, "bad", data, chunks)
        for chunks in (1.5, "3", (1.5,), True):
            self.assertRaises(TypeError, save, "bad", data, chunks)
        self.assertRaises(ValueError, save, "bad", np.zeros((1,) * 7, "int8"))
        self.assertRaises(ValueError, save, "bad", np.zeros(70_000, "int8"), 1)
        self.assertRaises(TypeError, save, "bad", self.x)
        self.assertRaises(cengmoat.Exists, save, "x", data)
        self.assertRaises(cengmoat.NoArray, self.here.__getitem__, "nothing")
        self.assertRaises(KeyError, self.here.read, "nothing")

    def test_options(self) -> None:
        for options in ({"allowed_mem": "much"}, {"allowed_mem": -1}, {"workers": 0}, {"workers": 65}, {"retries": 9}, {"split_every": 1},
                        {"allowed_mem": 2**40 + 1}, {"reserved_mem": "1 parsec"}, {"fusion": 0}, {"fusion": 3}):
            self.assertRaises(ValueError, self.store, **options)
        for options in ({"allowed_mem": 1.5}, {"workers": True}, {"retries": "2"}, {"fusion": "2"}, {"fusion": True}):
            self.assertRaises(TypeError, self.store, **options)
        self.assertRaises(cengmoat.NoProgram, self.store, program="/no/such/program")
        for text, count in (("2GB", 2 * 10**9), ("64MiB", 64 * 2**20), ("1.5 kB", 1500), ("1_000", 1000), ("3k", 3000)):
            self.assertEqual(self.store(allowed_mem=text).allowed_mem, count)

    def test_expressions(self) -> None:
        x, truth = self.x, self.x > 2
        for call in (lambda: x.sum(axis=2), lambda: x.max(axis=-3), lambda: x[2], lambda: x[0, 0, 0], lambda: x[..., ...], lambda: x["a"],
                     lambda: x[0.5], lambda: xp.expand_dims(x, axis=4), lambda: xp.concat([x, x], axis=2), lambda: xp.flip(x, axis=5),
                     lambda: xp.stack([x, x], axis=-4), lambda: xp.permute_dims(x, (0, 2)), lambda: self.here.read("x", 7)):
            self.assertRaises(IndexError, call)
        for call in (lambda: x + self.x[:, :2], lambda: x.reshape(4), lambda: x.reshape(-1, -1), lambda: x[::0], lambda: x + 2**31,
                     lambda: x.sum(axis=(0, 0)), lambda: xp.squeeze(x, 0), lambda: x @ x, lambda: xp.arange(0, 5, 0), lambda: x.rechunk((1,)),
                     lambda: np.pad(x, -1), lambda: np.pad(x, ((0, 0), (1, -1))), lambda: np.expand_dims(x, (0, 0)), lambda: x.expand_dims((0, -4)),
                     lambda: x.rechunk(((2,), (2, 2))), lambda: x.rechunk(((-1,), 3)), lambda: x.rechunk(((1, 1), (3, 0, 0))),
                     lambda: xp.vecdot(x[0], xp.concat([x, x[:1]]), axis=0), lambda: xp.tensordot(x, x, axes=((0,), (0,), (0,))),
                     lambda: xp.asarray([1, 300], dtype="int8"), lambda: xp.asarray([[-1]], dtype="uint64"), lambda: xp.asarray((2**64,), dtype="uint64"),
                     lambda: xp.full(3, 300, dtype="int8"), lambda: xp.arange(300, dtype="uint8"), lambda: x[:, :0].max(),
                     lambda: xp.broadcast_to(x, (2, 2)), lambda: xp.concat([]), lambda: x[0].T, lambda: xp.tril(x[0]), lambda: x.rechunk(0),
                     lambda: xp.zeros((-1,), dtype="int8"), lambda: xp.permute_dims(x, (0,)), lambda: xp.arange(70_000, chunks=1),
                     lambda: xp.roll(x, (1, 2, 3), axis=(0, 1)), lambda: xp.stack([x, x[0]]), lambda: xp.zeros((1,) * 7, dtype="int8"),
                     lambda: bool(x), lambda: int(x), lambda: xp.ones(3, dtype="int8").store("made"), lambda: xp.squeeze(x, 1)):
            self.assertRaises(ValueError, call)
        for call in (lambda: x + 0.5, lambda: x + True, lambda: truth + truth, lambda: x & truth, lambda: xp.logical_and(x, x), lambda: x + "a",
                     lambda: x.astype("text"), lambda: x.astype(None), lambda: xp.where(x, x, x), lambda: x.sum(axis=0.5),
                     lambda: np.pad(x, 1.5), lambda: np.pad(x, "1"), lambda: np.pad(x, True),
                     lambda: x == [0, 1, 2], lambda: x != (0, 1, 2), lambda: [0, 1, 2] == x, lambda: x == range(3), lambda: x != Fraction(1, 2),
                     lambda: x == Decimal(1), lambda: [1, 2] < x, lambda: np.equal(x, [1]), lambda: xp.add(x, [1]),
                     lambda: x == float("nan"), lambda: x < float("inf"), lambda: x + 0.5, lambda: truth == 0.5, lambda: x == "a", lambda: x < None, lambda: x.sum(keepdims=1), lambda: xp.add(1, 2), lambda: x + [1, 2],
                     lambda: xp.sum([1, 2]), lambda: x.astype("uint64") + x, lambda: truth < truth, lambda: -truth, lambda: x.argmax(axis=(0,)),
                     lambda: hash(x), lambda: xp.sum(x, dtype="bool"), lambda: cengmoat.compute(3), lambda: cengmoat.to_zarr(3, "a"),
                     lambda: len(x.sum()), lambda: xp.arange(3, dtype="bool"), lambda: truth @ truth, lambda: range(x), lambda: list(x.sum())):
            self.assertRaises(TypeError, call)
        with self.assertRaises(TypeError):
            x[0] = 1  # type: ignore[index]

    def test_two_stores(self) -> None:
        other = cengmoat.Store(os.path.join(self.folder, "second"))
        y = other.save("y", np.arange(3))
        self.assertRaises(ValueError, lambda: self.x + y)
        self.assertRaises(ValueError, self.x.store, "z", other)


class Mappings(Case):
    def setUp(self) -> None:
        super().setUp()
        self.here = self.store()
        for name in ("temperature", "rain", "snow"):
            self.here.save(name, np.arange(3))

    def test_a_store_is_a_mapping(self) -> None:
        here = self.here
        self.assertEqual((len(here), list(here), list(here.keys())), (3, ["rain", "snow", "temperature"], ["rain", "snow", "temperature"]))
        self.assertEqual([(name, x.shape) for name, x in here.items()], [("rain", (3,)), ("snow", (3,)), ("temperature", (3,))])
        self.assertEqual((here.get("rain").shape, here.get("hail"), "rain" in here, "hail" in here), ((3,), None, True, False))
        self.assertEqual((here == here, here == self.store(), len({here, self.store()})), (True, False, 2))
        with self.store() as store:
            self.assertIsInstance(store, cengmoat.Store)

    def test_what_a_dict_does_and_a_store_doesn_t(self) -> None:
        with self.assertRaises(TypeError) as found:
            del self.here["rain"]
        self.assertIn("store.remove('rain')", str(found.exception))
        with self.assertRaises(TypeError) as found:
            self.here["new"] = np.arange(3)
        self.assertIn("store.save('new', x)", str(found.exception))
        with self.assertRaises(TypeError) as found:
            self.here["new"] = self.here["rain"] + 1
        self.assertIn("x.store('new')", str(found.exception))
        self.assertEqual(self.here.names(), ["rain", "snow", "temperature"])

    def test_a_link_that_leads_nowhere_hides_nothing(self) -> None:
        for name, to in (("loop", "loop"), ("nowhere", "missing")):
            os.symlink(to, os.path.join(self.here.folder, name))
        os.makedirs(os.path.join(self.here.folder, "_cubed"))
        os.symlink("snow", os.path.join(self.here.folder, "_cubed", "snow"))
        names = ["rain", "snow", "temperature"]
        self.assertEqual((self.here.names(), [it.name for it in self.here.status()], "rain" in self.here), (names, names, True))
        self.assertIn("3 arrays", repr(self.here))

    def test_near_names(self) -> None:
        for call in (self.here.__getitem__, self.here.read, self.here.remove):
            with self.assertRaises(KeyError) as found:
                call("temprature")
            self.assertEqual(str(found.exception).splitlines()[0].partition(": there is ")[2] or str(found.exception).partition("there is ")[2],
                             f"no array 'temprature' in {self.here.folder}. Near names: temperature.")
        with self.assertRaises(cengmoat.NoArray) as found:
            cengmoat.from_zarr(os.path.join(self.folder, "nowhere"), "t")
        self.assertIn("nowhere, which is no folder", str(found.exception))


class Known(Case):
    """What is known of a lazy array without running."""

    def test_attributes(self) -> None:
        x = self.store().save("t", np.zeros((5, 7), "int16"), (2, 3))
        y = x.astype("int64").sum(axis=0)
        self.assertEqual((x.shape, x.chunksize, x.numblocks, x.ndim, x.size, x.nbytes, len(x)), ((5, 7), (2, 3), (3, 3), 2, 35, 70, 5))
        self.assertEqual((y.shape, y.chunksize, y.numblocks, y.nbytes), ((7,), (3,), (3,), 56))
        self.assertEqual(repr(y), "cengmoat.Array<sum, shape=(7,), dtype=int64, chunksize=(3,), nbytes=56 B, operations=2>")
        self.assertEqual(repr(x), "cengmoat.Array<t, shape=(5, 7), dtype=int16, chunksize=(2, 3), nbytes=70 B, operations=0>")
        for said in ("70 B", "(5, 7)", "(2, 3)", "9 chunks", "int16", "0 operations"):
            self.assertIn(said, x._repr_html_())

    def test_lists_in_a_type(self) -> None:
        """Each number is in the type as it is, at its ends too."""
        for dtype in TYPES[1:]:
            ends = [int(np.iinfo(dtype).min), 1, int(np.iinfo(dtype).max)]
            found = xp.asarray([ends, [True, np.int8(2), 3]], dtype=dtype)
            self.assertEqual((found.dtype, found.compute().tolist()), (np.dtype(dtype), [ends, [1, 2, 3]]))
        self.assertEqual(xp.asarray([], dtype="int8").compute().tolist(), [])

    def test_chosen_chunks(self) -> None:
        for shape, dtype in (((4096, 4096), "int64"), ((10**6, 300), "int8"), ((3,), "int8"), ((0, 5), "int8"), ((2**20, 2**20), "int8")):
            x = xp.zeros(shape, dtype=dtype)
            chunk = int(np.prod(x.chunksize)) * x.itemsize
            self.assertLessEqual(chunk, 2**28)
            self.assertLessEqual(int(np.prod(x.numblocks)), 65_536)
            if x.nbytes <= 2**37:
                self.assertLessEqual(chunk, 16 * 2**20)
        self.assertEqual(xp.zeros((4, 6), dtype="int8", chunks=(-1, 2)).chunksize, (4, 2))

    def test_chunks_of_results(self) -> None:
        """What the guide says of the chunks of each kind of result."""
        x = self.store().save("x", np.zeros((4, 6), "int16"), (3, 4))
        row = self.store().save("row", np.zeros((1, 6), "int16"), (1, 5))
        for said, lazy, wanted in [
            ("reshape", x.reshape(2, 3, 4), (1, 3, 4)), ("reshape", x.reshape(-1), (12,)), ("reshape", x.reshape(12, 2), (6, 2)),
            ("reshape", x.reshape(2, 12), (1, 12)), ("a slice", x[::3, 1:], (2, 4)), ("a short slice", x[:2, :1], (2, 1)),
            ("an empty slice", x[2:2], (1, 4)), ("an integer", x[1], (4,)), ("new axes", x[None, :, None], (1, 3, 1, 4)),
            ("the first argument", x + row, (3, 4)), ("one that isn't stretched", row + x, (3, 5)), ("a number", 1 + row, (1, 5)),
            ("where", xp.where(row > 0, row, x), (3, 5)), ("permute_dims", x.T, (4, 3)), ("concat", xp.concat([x, row]), (3, 4)),
            ("stack", xp.stack([x, x], axis=1), (3, 1, 4)), ("expand_dims", xp.expand_dims(x, axis=2), (3, 4, 1)),
            ("squeeze", xp.squeeze(row, 0), (5,)), ("broadcast_to", xp.broadcast_to(row, (7, 6)), (7, 5)), ("flip", xp.flip(x), (3, 4)),
            ("broadcast_to", xp.broadcast_to(row, (2, 7, 6), chunks=(1, 2, 3)), (1, 2, 3)), ("sum", x.sum(axis=0), (4,)),
            ("sum kept", x.sum(axis=1, keepdims=True), (3, 1)), ("all axes", x.max(), ()), ("argmax", x.argmax(axis=1), (3,)),
            ("matmul", x @ x.T, (3, 3)), ("matmul of a row", x[0] @ x.T, (3,)), ("matmul by a column", x @ x[0], (3,)),
            ("matmul of many", x[None] @ xp.broadcast_to(x.T, (5, 6, 4), chunks=(2, 4, 3)), (2, 3, 3)),
            ("rechunk", x.rechunk((-1, 2)), (4, 2)), ("rechunk", x.rechunk({-1: 5}), (3, 5)), ("rechunk", x.rechunk(9), (9, 9)),
        ]:
            self.assertEqual(lazy.chunksize, wanted, said)

    def test_expressions_are_said(self) -> None:
        t, o = (self.store().save(name, np.ones((2, 3), "int8")) for name in "to")
        said = cengmoat._nodes.expression
        self.assertEqual(said(((t * 2 + o) > 3).node), "((t * 2) + o) > 3")
        self.assertEqual(said((-t)[1:, ::-1].sum(axis=0, keepdims=True).node), "sum((-t)[1:, ::-1], axis=0, keepdims=True)")
        self.assertEqual(said((-(t[1:])).node), "-t[1:]")
        self.assertEqual(said(xp.where(t > 0, t, 5).node), "where(t > 0, t, 5)")
        self.assertEqual(said(xp.concat([t, o]).node), "concat([t, o], axis=0)")
        long = t
        for _ in range(60):
            long = long + o
        self.assertLessEqual(len(said(long.node)), 72)

    def test_pickles(self) -> None:
        """Of the longest expression too, with what is in memory."""
        t = self.store().save("t", np.ones(3, "int8"), attrs={"units": "K"})
        lazy = xp.where(t > 0, t, 5) + np.array([1, 2, 3], "int8")
        while len(cengmoat._nodes.Graph(lazy.node).nodes) < 255:
            lazy = lazy + lazy
        for again in (pickle.loads(pickle.dumps(lazy)), copy.deepcopy(lazy), *(pickle.loads(pickle.dumps(lazy, it)) for it in range(2, 6))):
            graphs = [cengmoat._nodes.Graph(it.node) for it in (lazy, again)]
            self.assertEqual([node.op for node in graphs[0].nodes], [node.op for node in graphs[1].nodes])
            self.assertEqual((repr(again), again.attrs, again.node.store.folder), (repr(lazy), lazy.attrs, t.node.store.folder))
            self.assertEqual(cengmoat._temporary.memory_names(again.node, "y").popitem()[1], cengmoat._temporary.memory_names(lazy.node, "y").popitem()[1])

    def test_same_nodes_are_one(self) -> None:
        t = self.store().save("t", np.ones(3, "int8"))
        graph = cengmoat._nodes.Graph(((t + 1) * (t + 1) + (t + 1)).node)
        self.assertEqual([node.op for node in graph.nodes], ["input", "add", "multiply", "add"])
        deep = t
        for _ in range(255):
            deep = deep + deep
        self.assertEqual(len(cengmoat._nodes.Graph(deep.node).nodes), 256)

    def test_too_many_nodes_are_refused_when_they_are_written(self) -> None:
        t = self.store().save("t", np.ones(3, "int8"))
        one, chain = t, t
        for number in range(255):
            one, chain = one + one, chain + number % 100
        for last in (lambda: one + one, lambda: chain + 1, lambda: chain[1:], lambda: chain.sum(), lambda: one + chain):
            with self.assertRaises(cengmoat.BadExpression) as found:
                last()
            self.assertEqual((found.exception.status, found.exception.code), (3, 7))
            self.assertRegex(str(found.exception), r"has (257|512) different nodes, and 256 are allowed: y = x.store")
        # (what stands in both sides is counted once)
        self.assertEqual(len(cengmoat._nodes.Graph(((t + 1) * (t + 1)).node).nodes), 3)
        half = t
        for number in range(126):
            half = half + number % 100
        self.assertEqual((half * half * half + half).node.count, 130)
        import pickle
        self.assertEqual(pickle.loads(pickle.dumps(half)).node.count, 127)


if __name__ == "__main__":
    unittest.main()
