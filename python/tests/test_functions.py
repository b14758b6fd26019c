"""Each function of the namespace beside NumPy, over each type."""
from __future__ import annotations

import itertools
import unittest
import warnings
from typing import Any

from .support import INTEGERS, TYPES, WithProgram, np, xp

BINARY = {
    "add": np.add, "subtract": np.subtract, "multiply": np.multiply, "floor_divide": np.floor_divide, "remainder": np.remainder,
    "bitwise_and": np.bitwise_and, "bitwise_or": np.bitwise_or, "bitwise_xor": np.bitwise_xor,
    "bitwise_left_shift": np.left_shift, "bitwise_right_shift": np.right_shift, "equal": np.equal, "not_equal": np.not_equal,
    "less": np.less, "less_equal": np.less_equal, "greater": np.greater, "greater_equal": np.greater_equal,
}
BITS = {"bitwise_and", "bitwise_or", "bitwise_xor", "equal", "not_equal"}
LOGICAL = {"logical_and": np.logical_and, "logical_or": np.logical_or, "logical_xor": np.logical_xor}
UNARY = {"abs": np.abs, "negative": np.negative, "positive": np.positive, "square": np.square, "sign": np.sign,
         "bitwise_invert": np.invert, "ceil": np.positive, "floor": np.positive, "round": np.positive, "trunc": np.positive}
OPERATORS = {"add": "+", "subtract": "-", "multiply": "*", "floor_divide": "//", "remainder": "%", "bitwise_and": "&", "bitwise_or": "|",
             "bitwise_xor": "^", "bitwise_left_shift": "<<", "bitwise_right_shift": ">>", "equal": "==", "not_equal": "!=", "less": "<",
             "less_equal": "<=", "greater": ">", "greater_equal": ">="}


def sample(dtype: str, count: int = 24) -> np.ndarray:
    """Return numbers of a type: its ends, those around 0, the widths of types, and others between."""
    if dtype == "bool":
        return np.resize([True, False, False, True, True], count)
    info = np.iinfo(dtype)
    middle = [0, 1, 2, 3, 7, 8, 15, 16, 31, 32, 63, 64, 100]
    numbers = [info.max, info.min, info.max - 1, info.min + 1, -1, -2, -3, -7, -64, *middle, info.max // 3, info.min // 3 + 1]
    fitting = [number for number in numbers if info.min <= number <= info.max]
    return np.array([fitting[at % len(fitting)] for at in range(count)], dtype)


def total_dtype(dtype: np.dtype) -> str:
    return "uint64" if dtype.kind == "u" else "int64"


class EachType(WithProgram):
    """Functions over arrays of each type, in chunks that divide nothing evenly."""

    def pair(self, dtype: str) -> tuple[Any, Any, np.ndarray, np.ndarray]:
        left, right = sample(dtype).reshape(4, 6), sample(dtype)[::-1].reshape(4, 6)
        store = self.store()
        if f"{dtype}-x" not in store:
            store.save(f"{dtype}-x", left, (3, 4))
            store.save(f"{dtype}-y", right, (3, 4))
        return store[f"{dtype}-x"], store[f"{dtype}-y"], left, right

    def test_two_arguments(self) -> None:
        for dtype in TYPES:
            x, y, left, right = self.pair(dtype)
            functions = BINARY if dtype != "bool" else {**{name: BINARY[name] for name in BITS}, **LOGICAL}
            for name, exact in functions.items():
                with self.subTest(name, dtype=dtype), warnings.catch_warnings():
                    warnings.simplefilter("ignore")
                    wanted = exact(left, right)
                    self.computes(getattr(xp, name)(x, y), wanted, name)
                    if name in OPERATORS:
                        lazy = eval(f"x {OPERATORS[name]} y")
                        self.assertEqual(lazy.node.op, name)

    def test_one_argument(self) -> None:
        for dtype in TYPES:
            x, _, left, _ = self.pair(dtype)
            functions = UNARY if dtype != "bool" else {"bitwise_invert": np.invert, "logical_not": np.logical_not}
            for name, exact in functions.items():
                with self.subTest(name, dtype=dtype):
                    self.computes(getattr(xp, name)(x), exact(left), name)

    def test_operators_with_numbers(self) -> None:
        for dtype in INTEGERS:
            x, _, left, _ = self.pair(dtype)
            three = np.array(3, dtype)
            for name, sign in OPERATORS.items():
                with self.subTest(name, dtype=dtype), warnings.catch_warnings():
                    warnings.simplefilter("ignore")
                    right_way = eval(f"x {sign} 3")
                    self.assertEqual(right_way.node.op, name)
                    other_way = eval(f"three {sign} x", {"three": np.int8(3), "x": x})
                    if dtype in ("int8", "uint64", "int32"):
                        self.computes(right_way, BINARY[name](left, three), name)
                        self.computes(other_way, BINARY[name](three, left), f"reflected {name}")

    def test_reductions(self) -> None:
        for dtype in TYPES:
            x, _, left, _ = self.pair(dtype)
            for name, axis in itertools.product(("sum", "prod", "min", "max", "any", "all", "argmin", "argmax"), (None, 0, 1)):
                if dtype == "bool" and name not in ("any", "all", "sum", "prod"):
                    self.assertRaises(TypeError, getattr(xp, name), x)
                    continue
                with self.subTest(name, dtype=dtype, axis=axis):
                    how = {"dtype": total_dtype(left.dtype)} if name in ("sum", "prod") else {}
                    with warnings.catch_warnings():
                        warnings.simplefilter("ignore")
                        wanted = getattr(np, name)(left, axis=axis, **how)
                    self.computes(getattr(xp, name)(x, axis=axis), wanted, name)
                    kept = getattr(x, name)(axis=axis, keepdims=True)
                    self.assertEqual(kept.shape, tuple(1 if axis in (None, at) else size for at, size in enumerate(left.shape)))
            with self.subTest("keepdims, both axes", dtype=dtype):
                self.computes(x.any(axis=(0, -1), keepdims=True), left.any(axis=(0, 1), keepdims=True))

    def test_types_of_sums(self) -> None:
        for dtype, wanted in itertools.product(INTEGERS, ("int8", "uint16", "int64", "uint64")):
            x = self.store().save(f"{dtype}.{wanted}", sample(dtype), 7)
            with self.subTest(dtype, wanted=wanted), warnings.catch_warnings():
                warnings.simplefilter("ignore")
                self.computes(xp.sum(x, dtype=wanted), np.sum(sample(dtype).astype(wanted), dtype=wanted))
                self.assertEqual(xp.prod(x, dtype=wanted).dtype, np.dtype(wanted))

    def test_conversions(self) -> None:
        for dtype in TYPES:
            x, _, left, _ = self.pair(dtype)
            for other in TYPES:
                with self.subTest(dtype, other=other):
                    self.computes(xp.astype(x, other), left.astype(other))

    def test_choice(self) -> None:
        store = self.store()
        condition = np.resize([True, False, True], 24).reshape(4, 6)
        lazy = store.save("condition", condition, (2, 5))
        for dtype in TYPES:
            x, y, left, right = self.pair(dtype)
            with self.subTest(dtype):
                self.computes(xp.where(lazy, x, y), np.where(condition, left, right))
        x, _, left, _ = self.pair("int8")
        self.computes(xp.where(lazy, x, 5), np.where(condition, left, np.int8(5)))
        self.computes(xp.where(lazy, 1, 0), np.where(condition, 1, 0))

    def test_promotion(self) -> None:
        store = self.store()
        for one, other in itertools.product(INTEGERS, INTEGERS):
            if np.promote_types(one, other).kind == "f":
                self.assertRaises(TypeError, xp.result_type, xp.zeros(1, dtype=one), xp.zeros(1, dtype=other))
                continue
            with self.subTest(one, other=other):
                self.assertEqual(xp.result_type(one, other), np.promote_types(one, other))
        for one, other in (("int8", "uint8"), ("int16", "uint32"), ("uint8", "int64"), ("uint16", "uint64")):
            left, right = sample(one), sample(other)
            x, y = store.save(f"p{one}{other}", left, 5), store.save(f"q{one}{other}", right, 7)
            self.computes(x + y, left.astype(np.promote_types(one, other)) + right)

    def test_made_arrays(self) -> None:
        for dtype in TYPES:
            with self.subTest(dtype):
                self.computes(xp.zeros((2, 3), dtype=dtype), np.zeros((2, 3), dtype))
                self.computes(xp.ones(3, dtype=dtype, chunks=2), np.ones(3, dtype))
                self.computes(xp.eye(3, 4, k=-1, dtype=dtype, chunks=2), np.eye(3, 4, k=-1, dtype=dtype))
                value = True if dtype == "bool" else np.iinfo(dtype).max
                self.computes(xp.full((2, 2), value, dtype=dtype), np.full((2, 2), value, dtype))
                x = xp.full_like(xp.zeros((2, 3), dtype=dtype, chunks=(1, 2)), value)
                self.assertEqual(x.chunksize, (1, 2))
                self.computes(xp.ones_like(x), np.ones((2, 3), dtype))
                self.same(xp.zeros_like(x, dtype="int16").compute(), np.zeros((2, 3), "int16"))
                self.same(xp.empty_like(x).compute(), np.zeros((2, 3), dtype))
                self.same(xp.empty((1, 2), dtype=dtype).compute(), np.zeros((1, 2), dtype))
        for dtype in INTEGERS:
            self.computes(xp.arange(3, 100, 7, dtype=dtype, chunks=4), np.arange(3, 100, 7, dtype=dtype))
        self.computes(xp.arange(5), np.arange(5))
        self.computes(xp.arange(5, -5, -3, dtype="int8"), np.arange(5, -5, -3, dtype="int8"))
        self.computes(xp.arange(5, 5), np.arange(5, 5))
        self.computes(xp.full((), 3), np.full((), 3))

    def views_of(self, x: Any, left: np.ndarray) -> list[tuple[str, Any, np.ndarray]]:
        return [
            ("index", x[1:, ::-2], left[1:, ::-2]), ("integer", x[-1], left[-1]), ("new", x[..., None, 2], left[..., None, 2]),
            ("concat", xp.concat([x, x[:1]], axis=0), np.concatenate([left, left[:1]])),
            ("concat flat", xp.concat([x, x], axis=None), np.concatenate([left, left], axis=None)),
            ("stack", xp.stack([x, x], axis=-1), np.stack([left, left], axis=-1)),
            ("permute_dims", xp.permute_dims(x, (1, 0)), left.T), ("T", x.T, left.T), ("mT", x.mT, left.T),
            ("matrix_transpose", xp.matrix_transpose(x), left.T),
            ("reshape", xp.reshape(x, (3, -1)), left.reshape(3, -1)), ("reshape", x.reshape(2, 12), left.reshape(2, 12)),
            ("expand_dims", xp.expand_dims(x, axis=1), left[:, None]),
            ("squeeze", xp.squeeze(x[:1], 0), left[0]), ("flip", xp.flip(x), np.flip(left)),
            ("flip", xp.flip(x, axis=1), np.flip(left, 1)), ("roll", xp.roll(x, 5), np.roll(left, 5)),
            ("roll", xp.roll(x, (1, -2), axis=(0, 1)), np.roll(left, (1, -2), (0, 1))),
            ("roll", xp.roll(x, 3, axis=(0, 0)), np.roll(left, 3, (0, 0))),
            ("broadcast_to", xp.broadcast_to(x[:1], (3, 6)), np.broadcast_to(left[:1], (3, 6))),
            ("broadcast_arrays", xp.broadcast_arrays(x[:1], x)[0], np.broadcast_arrays(left[:1], left)[0]),
            ("tril", xp.tril(x), np.tril(left)), ("triu", xp.triu(x, k=-1), np.triu(left, -1)),
            ("rechunk", x.rechunk((1, 6)), left), ("rechunk", x.rechunk({0: -1}), left),
        ]

    def test_views(self) -> None:
        for dtype in TYPES:
            x, _, left, _ = self.pair(dtype)
            for said, lazy, wanted in self.views_of(x, left):
                if dtype in ("bool", "int16", "uint64"):
                    with self.subTest(said, dtype=dtype):
                        self.computes(lazy, wanted, said)
                else:
                    self.assertEqual((lazy.dtype, lazy.shape), (wanted.dtype, wanted.shape))

    def test_many_arrays(self) -> None:
        parts = [np.full((2, size), size, "int16") for size in range(1, 20)]
        lazy = [xp.full((2, size), size, dtype="int16", chunks=(1, 3)) for size in range(1, 20)]
        self.computes(xp.concat(lazy, axis=1), np.concatenate(parts, axis=1))
        self.computes(xp.stack([it[:, 0] for it in lazy], axis=1), np.stack([it[:, 0] for it in parts], axis=1))

    def test_joined_arrays_have_the_chunks_of_the_longest(self) -> None:
        data = np.arange(60, dtype="int16").reshape(30, 2)
        x = self.store().save("x", data, (7, 2))
        running = xp.concat([x[6:7], x[7:] - x[:-7]])
        self.assertEqual((running.chunksize, running.numblocks), ((7, 2), (4, 1)))
        self.computes(running, np.concatenate([data[6:7], data[7:] - data[:-7]]))
        short = xp.full((1, 2), 9, dtype="int16", chunks=(1, 1))
        for lazy, wanted, chunks in (
                (xp.concat([short, x]), np.concatenate([np.full((1, 2), 9, "int16"), data]), (7, 1)),
                (xp.concat([x, short]), np.concatenate([data, np.full((1, 2), 9, "int16")]), (7, 2)),
                (xp.concat([short] * 9 + [x]), np.concatenate([np.full((9, 2), 9, "int16"), data]), (7, 1)),
                (xp.concat([x[:0], x[:1], x]), np.concatenate([data[:1], data]), (7, 2))):
            self.assertEqual(lazy.chunksize, chunks)
            self.computes(lazy, wanted)
        wide = xp.full((1, 2**27), 0, dtype="int16", chunks=(1, 2**27))
        self.assertEqual(xp.concat([wide, xp.full((4, 2**27), 0, dtype="int16", chunks=(4, 2**20))]).chunksize, (1, 2**27))

    def test_products(self) -> None:
        for dtype in INTEGERS:
            x, y, left, right = self.pair(dtype)
            with self.subTest(dtype), warnings.catch_warnings():
                warnings.simplefilter("ignore")
                self.computes(x @ y.T, np.matmul(left, right.T))
                self.computes(xp.vecdot(x, y), (left * right).sum(axis=1, dtype=dtype))
        x, y, left, right = self.pair("int16")
        self.computes(xp.matmul(x[0], y.T), np.matmul(left[0], right.T))
        self.computes(x[0] @ y[0], np.matmul(left[0], right[0]))
        self.computes(np.int16([[1, 2, 3, 4]]) @ x, np.int16([[1, 2, 3, 4]]) @ left)
        self.computes(xp.tensordot(x, y.T, axes=1), np.tensordot(left, right.T, axes=1))
        self.computes(xp.tensordot(x, y), np.tensordot(left, right))
        self.computes(xp.tensordot(x, y, axes=((0,), (0,))), np.tensordot(left, right, axes=((0,), (0,))))

    def test_grids_and_tests(self) -> None:
        for indexing in ("xy", "ij"):
            lazy = xp.meshgrid(xp.arange(3), xp.arange(4, chunks=3), xp.arange(2), indexing=indexing)
            for one, wanted in zip(lazy, np.meshgrid(np.arange(3), np.arange(4), np.arange(2), indexing=indexing)):
                self.computes(one, wanted)
        x = xp.arange(3, dtype="int8")
        for name, value in (("isfinite", True), ("isinf", False), ("isnan", False)):
            self.computes(getattr(xp, name)(x), np.full(3, value))

    def test_arrays_in_memory(self) -> None:
        for dtype in TYPES:
            left = sample(dtype)
            with self.subTest(dtype):
                self.computes(xp.asarray(left, chunks=5)[::-1], left[::-1])
        x, _, left, _ = self.pair("int32")
        self.computes(x - left, np.zeros_like(left))
        self.computes(left - x, np.zeros_like(left))
        self.computes(xp.asarray([[1, 2], [3, 4]], dtype="int16"), np.array([[1, 2], [3, 4]], "int16"))
        self.computes(xp.asarray(True), np.array(True))
        self.computes(xp.asarray(np.uint8(7)) + x, left + np.uint8(7))
        self.assertEqual([name for name in self.store().names() if "-" in name and name[:4] in ("data", "tmp-")], [])


class Types(unittest.TestCase):
    """Functions on types, which run nothing."""

    def test_of_types(self) -> None:
        for dtype in TYPES:
            self.assertEqual(getattr(xp, dtype), np.dtype(dtype))
        for dtype in INTEGERS:
            found, wanted = xp.iinfo(dtype), np.iinfo(dtype)
            self.assertEqual((found.bits, found.min, found.max, found.dtype), (wanted.bits, wanted.min, wanted.max, wanted.dtype))
        self.assertRaises(TypeError, xp.iinfo, "bool")
        for one, other in itertools.product(INTEGERS, INTEGERS):
            self.assertIs(xp.can_cast(one, other), bool(np.can_cast(one, other)), (one, other))
        self.assertTrue(xp.isdtype(xp.int8, "signed integer") and xp.isdtype(xp.int8, ("bool", "integral")))
        self.assertFalse(xp.isdtype(xp.bool, "numeric") or xp.isdtype(xp.uint8, xp.int8))
        self.assertRaises(ValueError, xp.isdtype, xp.int8, "whole")
        self.assertRaises(ValueError, xp.result_type)
        self.assertEqual(xp.result_type(xp.zeros(1, dtype="int8"), "uint8", xp.int8), np.dtype("int16"))
        self.assertEqual((xp.pi, xp.e, xp.newaxis), (np.pi, np.e, None))
        self.assertTrue(xp.inf == float("inf") and xp.nan != xp.nan)
