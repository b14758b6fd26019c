"""Random expressions beside NumPy: uneven chunks, sizes 0 and 1, broadcasting, chunks that don't fit each other, numbers."""
from __future__ import annotations

import os
import random
import unittest
import warnings
from typing import Any, Callable, NamedTuple

from .support import INTEGERS, TYPES, WithProgram, cengmoat, np, xp

CASES = int(os.environ.get("CENGMOAT_CASES", "420"))
MOST_ELEMENTS = 400


class Pair(NamedTuple):
    """A lazy array and what it must be."""

    lazy: cengmoat.Array
    exact: np.ndarray


class Draw:
    """Makes random arrays and expressions over them in one folder."""

    def __init__(self, seed: int, store: cengmoat.Store) -> None:
        self.pick, self.store, self.count = random.Random(seed), store, 0

    def size(self) -> int:
        return self.pick.choice([0, 1, 1, 2, 3, 4, 5, 7])

    def numbers(self, dtype: str, shape: tuple[int, ...]) -> np.ndarray:
        if dtype == "bool":
            return np.array([self.pick.random() < 0.5 for _ in range(int(np.prod(shape)))], bool).reshape(shape)
        info = np.iinfo(dtype)
        ends = [info.min, info.max, 0, 1, max(info.min, -1), 2, 3]
        count = int(np.prod(shape))
        drawn = [self.pick.choice(ends) if self.pick.random() < 0.4 else self.pick.randint(max(info.min, -9), 9) for _ in range(count)]
        return np.array(drawn, dtype).reshape(shape)

    def chunks(self, shape: tuple[int, ...]) -> tuple[int, ...]:
        return tuple(self.pick.randint(1, max(1, size + 1)) for size in shape)

    def array(self, shape: tuple[int, ...], dtype: str) -> Pair:
        """Return an array that is stored, or now and then one that is made or in memory."""
        exact = self.numbers(dtype, shape)
        kind = self.pick.random()
        if kind < 0.08:
            return Pair(xp.asarray(exact, chunks=self.chunks(shape)), exact)
        if kind < 0.16:
            value = exact.reshape(-1)[0] if exact.size else np.zeros(1, dtype)[0]
            return Pair(xp.full(shape, value, dtype=dtype, chunks=self.chunks(shape)), np.full(shape, value, dtype))
        self.count += 1
        return Pair(self.store.save(f"a{self.count}", exact, self.chunks(shape)), exact)

    def stretched(self, shape: tuple[int, ...]) -> tuple[int, ...]:
        """Return a shape that broadcasts with another."""
        found = [1 if self.pick.random() < 0.25 else size for size in shape]
        return tuple(found[self.pick.choice([0, 0, 0, 1]):])

    def partner(self, pair: Pair, dtypes: Any) -> Pair:
        return self.array(self.stretched(pair.exact.shape), self.pick.choice(list(dtypes)))

    def common(self, dtype: np.dtype) -> list[str]:
        """Return the types that have a common type with one."""
        if dtype == bool:
            return ["bool"]
        return [it for it in INTEGERS if np.promote_types(it, dtype).kind != "f"]


# Each step takes the draw and a pair, and returns another pair, or None where it doesn't fit.

def binary(draw: Draw, pair: Pair) -> Any:
    integers = {"add": np.add, "subtract": np.subtract, "multiply": np.multiply, "floor_divide": np.floor_divide,
                "remainder": np.remainder, "bitwise_left_shift": np.left_shift, "bitwise_right_shift": np.right_shift,
                "less": np.less, "greater_equal": np.greater_equal}
    both = {"bitwise_and": np.bitwise_and, "bitwise_or": np.bitwise_or, "bitwise_xor": np.bitwise_xor, "equal": np.equal,
            "not_equal": np.not_equal}
    name, exact = draw.pick.choice(list((both if pair.exact.dtype == bool else {**integers, **both}).items()))
    if draw.pick.random() < 0.3:
        value = draw.numbers(pair.exact.dtype.name, (1,))[0]
        args = [(pair.lazy, pair.exact), (value.item(), value)]
    else:
        other = draw.partner(pair, draw.common(pair.exact.dtype))
        args = [(pair.lazy, pair.exact), (other.lazy, other.exact)]
    if draw.pick.random() < 0.5:
        args.reverse()
    dtype = np.promote_types(*(np.asarray(arg[1]).dtype for arg in args))
    operands = [np.asarray(arg[1]).astype(dtype) for arg in args]
    return Pair(getattr(xp, name)(args[0][0], args[1][0]), np.asarray(exact(*operands)))


def unary(draw: Draw, pair: Pair) -> Any:
    if pair.exact.dtype == bool:
        return Pair(xp.logical_not(pair.lazy), np.asarray(~pair.exact))
    name, exact = draw.pick.choice([("negative", np.negative), ("abs", np.abs), ("square", np.square), ("sign", np.sign),
                                    ("bitwise_invert", np.invert)])
    return Pair(getattr(xp, name)(pair.lazy), np.asarray(exact(pair.exact)))


def convert(draw: Draw, pair: Pair) -> Any:
    dtype = draw.pick.choice(TYPES)
    return Pair(pair.lazy.astype(dtype), np.asarray(pair.exact.astype(dtype)))


def choose(draw: Draw, pair: Pair) -> Any:
    condition = draw.partner(pair, ["bool"])
    other = draw.partner(pair, draw.common(pair.exact.dtype))
    try:
        dtype = np.promote_types(pair.exact.dtype, other.exact.dtype)
        exact = np.where(condition.exact, pair.exact.astype(dtype), other.exact.astype(dtype))
    except ValueError:
        return None
    return Pair(xp.where(condition.lazy, pair.lazy, other.lazy), exact)


def take_index(draw: Draw, pair: Pair) -> Any:
    key: list[Any] = []
    for size in pair.exact.shape:
        kind = draw.pick.random()
        if kind < 0.25 and size:
            key.append(draw.pick.randint(-size, size - 1))
        elif kind < 0.8:
            ends = [draw.pick.choice([None, draw.pick.randint(-size - 2, size + 2)]) for _ in range(2)]
            key.append(slice(*ends, draw.pick.choice([None, 1, 2, 3, -1, -2])))
        else:
            key.append(slice(None))
    if draw.pick.random() < 0.3:
        key.insert(draw.pick.randint(0, len(key)), None)
    if draw.pick.random() < 0.3:
        key = key[:draw.pick.randint(0, len(key))] + [...]
    return Pair(pair.lazy[tuple(key)], np.asarray(pair.exact[tuple(key)]))


def order(draw: Draw, pair: Pair) -> Any:
    axes = list(range(pair.exact.ndim))
    draw.pick.shuffle(axes)
    kind = draw.pick.randint(0, 3)
    if kind == 0 or not axes:
        return Pair(xp.permute_dims(pair.lazy, tuple(axes)), np.transpose(pair.exact, axes))
    some = tuple(axes[:draw.pick.randint(1, len(axes))])
    if kind == 1:
        return Pair(xp.flip(pair.lazy, axis=some), np.flip(pair.exact, some))
    shifts = tuple(draw.pick.randint(-9, 9) for _ in some)
    return Pair(xp.roll(pair.lazy, shifts, axis=some), np.roll(pair.exact, shifts, some))


def shape(draw: Draw, pair: Pair) -> Any:
    if draw.pick.random() < 0.5:
        sizes = list(pair.exact.shape)
        draw.pick.shuffle(sizes)
        wanted = tuple(sizes) if draw.pick.random() < 0.5 or not pair.exact.size else (-1,)
        return Pair(pair.lazy.reshape(wanted), pair.exact.reshape(wanted))
    axis = draw.pick.randint(0, pair.exact.ndim)
    return Pair(xp.expand_dims(pair.lazy, axis=axis), np.expand_dims(pair.exact, axis)) if pair.exact.ndim < 5 else None


def join(draw: Draw, pair: Pair) -> Any:
    if not pair.exact.ndim or pair.exact.ndim > 4:
        return None
    axis = draw.pick.randrange(pair.exact.ndim)
    sizes = list(pair.exact.shape)
    if draw.pick.random() < 0.5:
        sizes[axis] = draw.size()
        other = draw.array(tuple(sizes), draw.pick.choice(draw.common(pair.exact.dtype)))
        dtype = np.promote_types(pair.exact.dtype, other.exact.dtype)
        return Pair(xp.concat([pair.lazy, other.lazy], axis=axis), np.concatenate([pair.exact.astype(dtype), other.exact.astype(dtype)], axis))
    other = draw.array(tuple(sizes), pair.exact.dtype.name)
    return Pair(xp.stack([other.lazy, pair.lazy], axis=axis), np.stack([other.exact, pair.exact], axis))


def stretch(draw: Draw, pair: Pair) -> Any:
    wanted = tuple(draw.size() if size == 1 else size for size in pair.exact.shape)
    wanted = (*([draw.size()] if pair.exact.ndim < 4 and draw.pick.random() < 0.5 else []), *wanted)
    chunks = draw.chunks(wanted) if draw.pick.random() < 0.5 else None
    return Pair(xp.broadcast_to(pair.lazy, wanted, chunks=chunks), np.broadcast_to(pair.exact, wanted).copy())


def other_chunks(draw: Draw, pair: Pair) -> Any:
    return Pair(pair.lazy.rechunk(draw.chunks(pair.exact.shape)), pair.exact)


def triangles(draw: Draw, pair: Pair) -> Any:
    if pair.exact.ndim < 2:
        return None
    name, k = draw.pick.choice(["tril", "triu"]), draw.pick.randint(-3, 3)
    return Pair(getattr(xp, name)(pair.lazy, k=k), getattr(np, name)(pair.exact, k))


def reduce(draw: Draw, pair: Pair) -> Any:
    names = ["any", "all"] if pair.exact.dtype == bool else ["sum", "prod", "min", "max", "any", "all"]
    name = draw.pick.choice(names)
    axes = tuple(at for at in range(pair.exact.ndim) if draw.pick.random() < 0.5)
    axis = draw.pick.choice([None, axes])
    over = range(pair.exact.ndim) if axis is None else axes
    if name in ("min", "max") and any(pair.exact.shape[at] == 0 for at in over):
        return None
    how = {"dtype": "uint64" if pair.exact.dtype.kind == "u" else "int64"} if name in ("sum", "prod") else {}
    keepdims = draw.pick.random() < 0.3
    exact = getattr(np, name)(pair.exact, axis=axis, keepdims=keepdims, **how)
    return Pair(getattr(xp, name)(pair.lazy, axis=axis, keepdims=keepdims), np.asarray(exact))


def places(draw: Draw, pair: Pair) -> Any:
    if pair.exact.dtype == bool or not pair.exact.size:
        return None
    axis = draw.pick.choice([None, *range(pair.exact.ndim)])
    name = draw.pick.choice(["argmin", "argmax"])
    return Pair(getattr(xp, name)(pair.lazy, axis=axis), np.asarray(getattr(np, name)(pair.exact, axis=axis)))


def sums_up_to_each(draw: Draw, pair: Pair) -> Any:
    if not pair.exact.ndim:
        return None
    axis = draw.pick.randrange(-pair.exact.ndim, pair.exact.ndim)
    dtype = "uint64" if pair.exact.dtype.kind == "u" else "int64"
    return Pair(pair.lazy.cumsum(axis), np.cumsum(pair.exact, axis=axis, dtype=dtype))


def groups(draw: Draw, pair: Pair) -> Any:
    if pair.exact.dtype == bool or not pair.exact.ndim:
        return None
    axis, count = draw.pick.randrange(-pair.exact.ndim, pair.exact.ndim), draw.pick.randint(1, 5)
    labels = draw.array((pair.exact.shape[axis],), draw.pick.choice(INTEGERS))
    name = draw.pick.choice(["sum", "min", "max", "count"])
    ends, total = np.iinfo(pair.exact.dtype), "uint64" if pair.exact.dtype.kind == "u" else "int64"
    ufunc, start, dtype = {"sum": (np.add, 0, total), "min": (np.minimum, ends.max, pair.exact.dtype), "max": (np.maximum, ends.min, pair.exact.dtype),
                           "count": (np.add, 0, "int64")}[name]
    known = np.flatnonzero((labels.exact >= 0) & (labels.exact < count))
    moved = np.moveaxis(np.ones_like(pair.exact) if name == "count" else pair.exact, axis, 0).astype(dtype)
    found = np.full((count, *moved.shape[1:]), start, dtype)
    ufunc.at(found, labels.exact[known].astype("int64"), moved[known])
    return Pair(getattr(cengmoat, f"groupby_{name}")(pair.lazy, labels.lazy, axis, count), np.moveaxis(found, 0, axis))


def product(draw: Draw, pair: Pair) -> Any:
    if pair.exact.dtype == bool or not 1 <= pair.exact.ndim <= 4:
        return None
    inner = pair.exact.shape[-1]
    heads = tuple(1 if draw.pick.random() < 0.5 else size for size in pair.exact.shape[:-2])
    shapes = [(inner,), (inner, draw.size()), (*heads, inner, draw.size())]
    other = draw.array(draw.pick.choice(shapes[:2] if pair.exact.ndim < 3 else shapes[:3]), draw.pick.choice(draw.common(pair.exact.dtype)))
    dtype = np.promote_types(pair.exact.dtype, other.exact.dtype)
    return Pair(pair.lazy @ other.lazy, np.asarray(np.matmul(pair.exact.astype(dtype), other.exact.astype(dtype))))


STEPS: list[Callable[[Draw, Pair], Any]] = [binary, binary, binary, unary, convert, choose, take_index, take_index, order, shape, join,
                                            stretch, other_chunks, triangles, reduce, places, product, sums_up_to_each, groups]


class Random(WithProgram):
    """Expressions of up to five steps."""

    def one(self, seed: int) -> None:
        store = self.store(allowed_mem=10**7, split_every=2 + seed % 3, fusion=1 if seed % 4 == 0 else 2)
        store.folder = f"{store.folder}-{seed}"
        draw = Draw(seed, store)
        pair = draw.array(tuple(draw.size() for _ in range(draw.pick.randint(0, 4))), draw.pick.choice(TYPES))
        for _ in range(draw.pick.randint(1, 5)):
            found = draw.pick.choice(STEPS)(draw, pair)
            if found is not None and found.exact.size <= MOST_ELEMENTS and found.exact.ndim <= 5:
                pair = found
        self.assertEqual((pair.lazy.dtype, pair.lazy.shape), (pair.exact.dtype, pair.exact.shape), f"seed {seed}: {pair.lazy}")
        if pair.lazy.node.store is None:
            self.same(pair.lazy.compute(store=store), pair.exact, f"seed {seed}: {pair.lazy}")
            return
        stored = pair.lazy.store("result")
        self.assertEqual((stored.dtype, stored.shape, stored.chunksize), (pair.lazy.dtype, pair.lazy.shape, pair.lazy.chunksize), f"seed {seed}")
        self.same(store.read("result"), pair.exact, f"seed {seed}: {pair.lazy}")

    def test_random_expressions(self) -> None:
        with warnings.catch_warnings():
            warnings.simplefilter("ignore")
            for seed in range(CASES):
                with self.subTest(seed=seed):
                    self.one(seed)


if __name__ == "__main__":
    unittest.main()
