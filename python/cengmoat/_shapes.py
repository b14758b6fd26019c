"""Shapes, axes and chunk shapes: their rules and limits."""
from __future__ import annotations

from typing import Any, Iterable, Mapping, Optional, Sequence, Union

from ._dtypes import DType, as_int

Shape = tuple[int, ...]
ChunksLike = Union[int, Sequence[int], Mapping[int, int], None]

MOST_AXES = 6
MOST_ELEMENTS = 2**40
MOST_CHUNK_BYTES = 2**28
MOST_CHUNKS = 65_536
# The bytes of a chunk that is chosen here.
CHOSEN_BYTES = 16 * 2**20


def product(sizes: Iterable[int]) -> int:
    """Return the product of sizes, 1 where there are none."""
    found = 1
    for size in sizes:
        found *= size
    return found


def numblocks(shape: Shape, chunks: Shape) -> Shape:
    """Return how many chunks each axis has; an axis of size 0 has none."""
    return tuple(-(-size // side) for size, side in zip(shape, chunks))


def as_shape(value: Any, what: str = "shape") -> Shape:
    """Return a shape that is given as a size or as a list of sizes.

    Raises
    ------
    TypeError
        Where it is neither.
    ValueError
        Where a size is negative.
    """
    if isinstance(value, (str, bytes)):
        raise TypeError(f"{what} is a size or a tuple of sizes, and not {value!r}")
    sizes = tuple(value) if isinstance(value, (tuple, list)) else (value,)
    shape = tuple(as_int(size, f"a size of {what}") for size in sizes)
    if any(size < 0 for size in shape):
        raise ValueError(f"{what} {shape} has a negative size")
    return shape


def one_axis(axis: Any, ndim: int, what: str = "axis") -> int:
    """Return an axis, counted from 0.

    Raises
    ------
    TypeError
        Where it isn't an integer.
    IndexError
        Where the array hasn't this axis.
    """
    at = as_int(axis, what)
    if not -ndim <= at < ndim:
        have = f"has axes from {-ndim} to {ndim - 1}" if ndim else "has no axis"
        raise IndexError(f"{what} {at}: the array {have}")
    return at % ndim


def some_axes(axis: Any, ndim: int, what: str = "axis") -> tuple[int, ...]:
    """Return distinct axes, counted from 0; None means all.

    Raises
    ------
    TypeError, IndexError
        As ``one_axis``.
    ValueError
        Where an axis stands twice.
    """
    if axis is None:
        return tuple(range(ndim))
    axes = tuple(one_axis(at, ndim, what) for at in (axis if isinstance(axis, (tuple, list)) else (axis,)))
    if len(set(axes)) != len(axes):
        raise ValueError(f"{what} {axis}: an axis stands twice")
    return axes


def broadcast(shapes: Sequence[Shape], what: str) -> Shape:
    """Return the shape to which shapes broadcast.

    Raises
    ------
    ValueError
        Where two sizes of an axis differ and neither is 1.
    """
    ndim = max((len(shape) for shape in shapes), default=0)
    found = [1] * ndim
    for shape in shapes:
        for at, size in enumerate(shape, ndim - len(shape)):
            if size == 1 or size == found[at]:
                continue
            if found[at] != 1:
                raise ValueError(f"{what}: the shapes {' and '.join(map(str, shapes))} don't broadcast: on axis {at - ndim}"
                                 f" the sizes {found[at]} and {size} differ and neither is 1")
            found[at] = size
    return tuple(found)


def broadcast_chunks(shape: Shape, arguments: Sequence[tuple[Shape, Shape]]) -> Shape:
    """Return the chunk shape of a broadcast result: on each axis that of the first argument that isn't stretched there."""
    found = []
    for at, size in enumerate(shape):
        for its_shape, its_chunks in arguments:
            place = at - len(shape) + len(its_shape)
            if place >= 0 and its_shape[place] == size:
                found.append(its_chunks[place])
                break
    return tuple(found)


def check_limits(shape: Shape, chunks: Shape, dtype: DType, what: str) -> None:
    """Refuse an array above the program's limits.

    Raises
    ------
    ValueError
        Above six axes, 2^40 elements, 2^28 bytes in a chunk or 65,536 chunks, an axis of size 0 counted as one.
    """
    if len(shape) > MOST_AXES:
        raise ValueError(f"{what}: {len(shape)} axes, and an array has at most {MOST_AXES}")
    elements = product(max(1, size) for size in shape)
    if elements > MOST_ELEMENTS:
        raise ValueError(f"{what}: shape {shape} has {elements} elements, and an array has at most 2^40")
    its_bytes = product(chunks) * dtype.itemsize
    if its_bytes > MOST_CHUNK_BYTES:
        raise ValueError(f"{what}: a chunk {chunks} of {dtype} has {its_bytes} bytes, and at most 2^28 are allowed: take smaller chunks")
    count = product(max(1, blocks) for blocks in numblocks(shape, chunks))
    if count > MOST_CHUNKS:
        raise ValueError(f"{what}: shape {shape} has {count} chunks {chunks}, and at most {MOST_CHUNKS} are allowed: take larger chunks")


def chosen_chunks(shape: Shape, dtype: DType, fixed: Sequence[Optional[int]] = ()) -> Shape:
    """Return chunks of at most about 16 MiB, more only where 65,536 of them wouldn't do.

    Parameters
    ----------
    shape : tuple of int
        The shape of the array.
    dtype : numpy.dtype
        Its type.
    fixed : sequence of int or None
        The chunk sizes that are given already, axis by axis.
    """
    given = list(fixed) or [None] * len(shape)
    sides = [max(1, size) if side is None else side for size, side in zip(shape, given)]
    free = [at for at, side in enumerate(given) if side is None]
    most = CHOSEN_BYTES
    while product(max(1, size) for size in shape) * dtype.itemsize > most * MOST_CHUNKS // 4 and most < MOST_CHUNK_BYTES:
        most *= 2
    while product(sides) * dtype.itemsize > most and any(sides[at] > 1 for at in free):
        at = max(free, key=lambda place: sides[place])
        sides[at] = -(-sides[at] // 2)
    return tuple(sides)


def _one_side(side: Any, whole: int) -> int:
    """Return the chunk size of an axis that is given as one, or as the sizes of all its chunks."""
    if not isinstance(side, (tuple, list)):
        return as_int(side, "a chunk size")
    sizes = [as_int(size, "a chunk size") for size in side] or [0]
    if sum(sizes) != whole or min(sizes) < 0:
        raise ValueError(f"chunks {tuple(sizes)}: an axis of {whole} elements is wanted in parts")
    if any(size != sizes[0] for size in sizes[:-1]) or sizes[-1] > sizes[0]:
        raise ValueError(f"chunks {tuple(sizes)}: an axis has one chunk size, which its last chunk alone may be below")
    return max(1, sizes[0])


def as_chunks(chunks: ChunksLike, shape: Shape, dtype: DType, current: Optional[Shape] = None) -> Shape:
    """Return a chunk shape that is given as a size for all axes, as a list, as sizes of some axes, or not at all.

    Parameters
    ----------
    chunks : int, sequence of int, mapping from axis to int, or None
        -1 means the whole axis. None means what the array has, or chunks of at most about 16 MiB.
    shape, dtype
        The shape and type of the array.
    current : tuple of int, optional
        The chunk shape that it has.

    Raises
    ------
    TypeError
        Where it is none of these.
    ValueError
        Where there isn't one size for each axis, or one isn't positive.
    IndexError
        Where an axis isn't one of the array.
    """
    if chunks is None:
        return chosen_chunks(shape, dtype) if current is None else current
    if isinstance(chunks, Mapping):
        start = current if current is not None else tuple(max(1, size) for size in shape)
        sides = list(start)
        for axis, side in chunks.items():
            sides[one_axis(axis, len(shape), "chunks: axis")] = side
    elif isinstance(chunks, (tuple, list)):
        sides = list(chunks)
        if len(sides) != len(shape):
            raise ValueError(f"chunks {tuple(chunks)}: one size for each of {len(shape)} axes is wanted")
    else:
        sides = [as_int(chunks, "chunks")] * len(shape)
    whole = [_one_side(side, size) for side, size in zip(sides, shape)]
    if any(side < 1 and side != -1 for side in whole):
        raise ValueError(f"chunks {chunks}: a chunk size is at least 1, or -1 for the whole axis")
    return tuple(max(1, size) if side == -1 else side for side, size in zip(whole, shape))
