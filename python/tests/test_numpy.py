"""NumPy's own functions of lazy arrays: each stays lazy and gives NumPy's numbers, or says what to write; none computes."""
from __future__ import annotations

import inspect
import os
import unittest
import warnings
from typing import Any

from .support import Case, WithProgram, cengmoat, np, xp

try:
    import dask.array as dask_array
except ImportError:
    dask_array = None

# As a user writes them, with x of [4, 6], y of [6] and t of truth values.
CALLS = """np.add(x, 1) ; np.add(1, x) ; np.subtract(x, y) ; np.multiply(y, x) ; np.floor_divide(x, 5) ; np.remainder(x, 5) ; np.negative(x) ; np.abs(x)
np.absolute(x) ; np.square(x) ; np.sign(x) ; np.greater(x, y) ; np.equal(x, 3) ; np.bitwise_and(x, 12) ; np.invert(x) ; np.left_shift(x, 2)
np.logical_and(t, x > y) ; np.logical_not(t) ; np.where(t, x, 0) ; np.where(x > y, x, y) ; np.where(x, 1, x) ; np.concatenate([x, x]) ; np.concatenate((x, x), axis=1)
np.stack([x, x + 1]) ; np.stack([x, x], axis=-1) ; np.vstack([x, y]) ; np.hstack([x, x]) ; np.diff(x) ; np.diff(x, axis=0) ; np.diff(x, n=2) ; np.diff(t)
np.maximum(x, y) ; np.minimum(x, 3) ; np.maximum(0, x) ; np.clip(x, -2, 9) ; np.clip(x, None, 3) ; x.clip(-1, 4) ; x.clip(min=0) ; np.clip(x, y, None)
np.sum(x) ; np.sum(x, axis=0) ; np.sum(t) ; np.sum(t, axis=1) ; np.prod(t, axis=0) ; np.max(x, axis=1) ; np.min(x) ; np.any(t, axis=0) ; np.all(t)
np.argmax(x, axis=1) ; np.argmin(x) ; np.count_nonzero(x) ; np.count_nonzero(t, axis=0) ; np.transpose(x) ; np.transpose(x, (1, 0)) ; np.swapaxes(x, 0, 1)
np.moveaxis(x, 0, -1) ; np.reshape(x, (3, 8)) ; np.ravel(x) ; x.ravel() ; x.flatten() ; np.expand_dims(x, 1) ; np.expand_dims(x, (0, 2)) ; np.squeeze(x[None])
np.flip(x) ; np.flip(x, 0) ; np.fliplr(x) ; np.roll(x, 2, axis=1) ; np.roll(x, 3) ; np.broadcast_to(y, (2, 6)) ; np.tril(x) ; np.triu(x, 1)
np.matmul(x, y) ; np.dot(x, y) ; np.dot(y, y) ; np.zeros_like(x) ; np.ones_like(x) ; np.full_like(x, 7) ; np.copy(x) ; np.add.reduce(x) ; np.add.reduce(x, axis=1)
np.maximum.reduce(x, axis=1) ; x.swapaxes(0, 1) ; x.squeeze() ; np.around(x) ; np.int16(3) + x ; y[0] * x ; np.tensordot(x, y, axes=1) ; np.isnan(x) ; np.isfinite(x)
np.einsum('ab,b->a', x, y) ; np.einsum('...b,...b->...', x, x) ; np.einsum('ab,bc->ac', x, x.T) ; np.einsum('ab->b', x) ; np.pad(x, 1)
np.pad(x, ((0, 0), (2, 1)), constant_values=-3) ; np.einsum('a,b->ba', y, y) ; divmod(x, 5)[0] ; divmod(x, 5)[1] ; divmod(7, x)[1] ; np.divmod(x, y)[0]
np.cumsum(x) ; np.cumsum(x, axis=1) ; x.cumsum() ; x.cumsum(axis=-2) ; np.cumsum(t, axis=0) ; y.cumsum(0, dtype='int32')
t.sum() ; t.sum(axis=0) ; (x > 3).sum(axis=1, keepdims=True) ; t.prod() ; t.sum(dtype='int32') ; np.arange(6, dtype='int32') - x ; np.arange(6, dtype='int32') == x"""
REFUSED = """np.mean(x) ; x.mean() ; x.mean(axis=0) ; np.std(x) ; x.std() ; np.var(x) ; x.var(ddof=1) ; np.median(x) ; x.median() ; np.take(x, [0, 1, 3]) ; x.take([1, 1])
np.cumprod(x) ; np.sort(x) ; x.sort() ; np.argsort(x) ; x.argsort() ; np.unique(x) ; np.nonzero(x) ; x.nonzero() ; np.where(t)
np.percentile(x, 5) ; np.quantile(x, 0.5) ; x.quantile(0.5) ; np.average(x) ; np.repeat(x, 2) ; x.repeat(2) ; np.searchsorted(x[0], 3) ; np.trace(x) ; x.diagonal()
np.sin(x) ; np.sqrt(x) ; np.true_divide(x, 2) ; np.power(x, 2) ; np.linalg.det(x) ; np.fft.fft(x) ; np.array_equal(x, x) ; np.add.accumulate(x) ; np.multiply.outer(x, x)
np.cov(x) ; np.histogram(x) ; np.bincount(x[0]) ; np.interp(x, y, y) ; np.pad(x, 1, mode='edge') ; np.tile(x, 2) ; np.around(x, -1) ; np.ptp(x) ; x.ptp()"""
WRONG = """np.add(x, 1, dtype='int8') ; np.add(x, 1, where=t) ; np.add(e, x, out=e) ; np.sum(x, initial=3) ; np.sum(x, where=t) ; np.multiply(x, 0.5) ; np.float64(2) * x
np.sum(x, out=e) ; np.logical_and(x, y) ; np.add(x, 'a') ; np.zeros_like(x, shape=(3,))"""


def calls(text: str) -> list[str]:
    return [call.strip() for line in text.splitlines() for call in line.split(" ; ")]


class Computed(BaseException):
    """Something was computed."""


class NumPy(Case):
    def setUp(self) -> None:
        super().setUp()
        store = self.store()
        self.exact = {"np": np, "x": np.arange(-12, 12, dtype="int32").reshape(4, 6), "y": np.array([1, -2, 3, 0, 5, 6], "int32"),
                      "t": np.resize([True, False, True], (4, 6)), "e": np.zeros((4, 6), "int32")}
        chunks = {"x": (2, 4), "y": 4, "t": (2, 4)}
        self.lazy = {**self.exact, **{name: store.save(name, self.exact[name], size) for name, size in chunks.items()}}

    def without_computing(self, work: Any) -> Any:
        """Return what a call gives, and fail where it computes."""
        before = cengmoat._running.compute_node

        def fail(*args: Any) -> Any:
            raise Computed

        cengmoat._running.compute_node = fail
        try:
            with warnings.catch_warnings():
                warnings.simplefilter("ignore")
                return work()
        finally:
            cengmoat._running.compute_node = before

    def test_lazy_calls_are_known_beforehand(self) -> None:
        for call in calls(CALLS):
            with self.subTest(call):
                found, wanted = self.without_computing(lambda: eval(call, dict(self.lazy))), eval(call, dict(self.exact))
                self.assertIsInstance(found, cengmoat.Array)
                self.assertEqual((found.shape, found.dtype), (np.shape(wanted), np.asarray(wanted).dtype), call)

    def test_other_calls_say_what_to_write(self) -> None:
        for call in calls(REFUSED):
            with self.subTest(call):
                with self.assertRaises(NotImplementedError) as found:
                    self.without_computing(lambda: eval(call, dict(self.lazy)))
                self.assertRegex(str(found.exception), r"Write .*(x|y|xp)\b", call)
        for call in calls(WRONG):
            with self.subTest(call):
                self.assertRaises(TypeError, self.without_computing, lambda: eval(call, dict(self.lazy)))

    def test_no_function_of_numpy_computes(self) -> None:
        """Over all functions that NumPy hands on. (A list of lazy arrays is handed on by few, and else converted as by numpy.asarray.)"""
        x, t = self.lazy["x"], self.lazy["t"]
        attempts = [(x,), (x, x), (x, 1), (x, 0, 1), (t, x)]
        functions = {name: it for module in (np, np.linalg, np.fft) for name, it in vars(module).items()
                     if isinstance(it, np.ufunc) or hasattr(it, "_implementation")}
        self.assertGreater(len(functions), 300)
        for name, function in functions.items():
            for args in [*attempts, *([(1, x)] if isinstance(function, np.ufunc) else [])]:
                try:
                    found = self.without_computing(lambda: function(*args))
                except Computed:
                    self.fail(f"{name} computes")
                except Exception:
                    continue
                self.assertFalse(isinstance(found, np.ndarray) and found.dtype == object, (name, args))

    def test_metadata_without_computing(self) -> None:
        x = self.lazy["x"]
        found = self.without_computing(lambda: (np.shape(x), np.ndim(x), np.size(x), np.result_type(x, np.int64), np.iscomplexobj(x)))
        self.assertEqual(found, ((4, 6), 2, 24, np.dtype("int64"), False))

    def test_an_array_in_memory_isn_t_changed(self) -> None:
        array = np.zeros((4, 6), "int32")
        with self.assertRaises(TypeError) as found:
            array += self.lazy["x"]
        self.assertIn("x.compute()", str(found.exception))

    def test_arrays_of_dask(self) -> None:
        if dask_array is None:
            self.skipTest("dask isn't there")
        x, other = self.lazy["x"], dask_array.from_array(self.exact["x"], chunks=2)
        for call in (lambda: x + other, lambda: other + x, lambda: np.add(x, other), lambda: np.add(other, x), lambda: other > x, lambda: x - other,
                     lambda: xp.add(x, other), lambda: xp.where(x > 1, x, other)):
            with self.assertRaises(TypeError) as found:
                self.without_computing(call)
            self.assertIn("convert one. store.save(", str(found.exception))

    def test_masked_arrays(self) -> None:
        masked = np.ma.masked_equal(self.exact["x"], 1)
        for call in (lambda: np.add(masked, self.lazy["x"]), lambda: np.maximum(self.lazy["x"], masked), lambda: np.where(self.lazy["t"], masked, 0)):
            with self.assertRaises(TypeError) as found:
                self.without_computing(call)
            self.assertIn("numpy.ma.filled(x, value)", str(found.exception))

    def test_methods_have_texts(self) -> None:
        for name in cengmoat._refused.METHODS:
            method = getattr(cengmoat.Array, name)
            self.assertEqual(method.__name__, name)
            self.assertTrue(inspect.getdoc(method))


class Numbers(WithProgram):
    def test_lazy_calls_give_numpy_s_numbers(self) -> None:
        store = self.store()
        exact = {"np": np, "x": np.arange(-12, 12, dtype="int32").reshape(4, 6), "y": np.array([1, -2, 3, 0, 5, 6], "int32"),
                 "t": np.resize([True, False, True], (4, 6)), "e": np.zeros((4, 6), "int32")}
        lazy = {**exact, **{name: store.save(name, exact[name], size) for name, size in {"x": (2, 4), "y": 4, "t": (2, 4)}.items()}}
        for call in calls(CALLS):
            with self.subTest(call):
                self.same(eval(call, dict(lazy)).compute(), eval(call, dict(exact)), call)


class Extremes(WithProgram):
    def test_within_bounds(self) -> None:
        store = self.store()
        data = np.arange(1, 7, dtype="int32")
        x, low = store.save("x", data, 4), store.save("low", np.array([3, 0, 0, 9, 9, 0], "int8"), 4)
        exact_low = np.array([3, 0, 0, 9, 9, 0], "int8")
        for lazy, exact in ((xp.clip(x, 2, 5), [2, 2, 3, 4, 5, 5]), (xp.clip(x, 5, 2), [2] * 6), (xp.clip(x), data), (xp.clip(x, 3), [3, 3, 3, 4, 5, 6]),
                            (xp.clip(x, None, 3), [1, 2, 3, 3, 3, 3]), (xp.clip(x, low, 8), np.clip(data, exact_low, 8)),
                            (xp.clip(x, max=low), np.minimum(data, exact_low)), (xp.maximum(x, low), np.maximum(data, exact_low)),
                            (xp.minimum(4, x), np.minimum(4, data)), (xp.maximum(low, x), np.maximum(data, exact_low))):
            self.computes(lazy, np.asarray(exact, "int32"), lazy)
        one, other = store.save("one", np.array([-128, 5], "int8")), store.save("other", np.array([200, 1], "uint8"))
        self.computes(xp.maximum(one, other), np.array([200, 5], "int16"))
        for call in (lambda: xp.clip(x, 0, 2**31), lambda: xp.maximum(x, 2**40)):
            self.assertRaises(ValueError, call)
        for call in (lambda: xp.clip(x > 3, 0, 1), lambda: xp.maximum(1, 2), lambda: xp.clip(x, 0.5), lambda: xp.minimum(x, x > 2)):
            self.assertRaises(TypeError, call)

    def test_functions_of_their_own_where_the_program_has_them(self) -> None:
        path = os.path.join(self.folder, "asked")
        knows = self.fake_program(f"""
import json
job = json.load(sys.stdin)
open({path!r}, "a").write(job["nodes"][-1]["op"] + chr(10))
sys.exit(8 if job["nodes"][-1]["op"] in ("maximum", "minimum", "clip") else 3)
""")
        x = cengmoat.Store(os.path.join(self.folder, "own"), program=knows).save("x", np.arange(4))
        self.assertEqual([lazy.node.op for lazy in (xp.maximum(x, 1), xp.minimum(x, x), xp.clip(x, 0, 2), xp.maximum(x, 3))],
                         ["maximum", "minimum", "clip", "maximum"])
        self.assertEqual((str(xp.clip(x, 0, 2).node.members), cengmoat._nodes.expression(xp.clip(x, 0, 2).node)), ("{'min': 0, 'max': 2}", "clip(x, min=0, max=2)"))
        with open(path, encoding="utf-8") as file:
            self.assertEqual(file.read().split(), ["maximum", "minimum", "clip"])
        lacks = cengmoat.Store(os.path.join(self.folder, "own"), program=self.fake_program("sys.exit(3)"))["x"]
        self.assertEqual([lazy.node.op for lazy in (xp.maximum(lacks, 1), xp.clip(lacks, 0, 2))], ["where", "where"])


if __name__ == "__main__":
    unittest.main()
