"""Types, limits, broadcasting and chunk shapes, read anew from the public standards and this project's rules.

Nothing here comes from the program. compare/rules.py and compare/operators.py use it.
"""
import math

SIZES = {"bool": 1, "int8": 1, "int16": 2, "int32": 4, "int64": 8, "uint8": 1, "uint16": 2, "uint32": 4, "uint64": 8}
MOST_RANK, MOST_ELEMENTS, MOST_CHUNK_BYTES, MOST_CHUNKS = 6, 1 << 40, 1 << 28, 1 << 16


def limits(dtype):
    """Returns the least and the greatest value of a type."""
    if dtype == "bool":
        return 0, 1
    bits = 8 * SIZES[dtype]
    return (0, 2**bits - 1) if dtype.startswith("u") else (-(2 ** (bits - 1)), 2 ** (bits - 1) - 1)


def promoted(left, right):
    """Returns the type that two types share, or nothing."""
    if left == right:
        return left
    if "bool" in (left, right):
        return None
    if left.startswith("u") == right.startswith("u"):
        return max(left, right, key=SIZES.get)
    signed, unsigned = (right, left) if left.startswith("u") else (left, right)
    size = SIZES[signed] if SIZES[unsigned] < SIZES[signed] else 2 * SIZES[unsigned]
    return f"int{8 * size}" if size <= 8 else None


def wrapped(dtype, value):
    """Returns a whole number, wrapped to an integer type."""
    low = limits(dtype)[0]
    return (value - low) % 2 ** (8 * SIZES[dtype]) + low


def whole(low, high):
    return lambda value: type(value) is int and low <= value <= high


def size_of(shape):
    return math.prod(max(1, size) for size in shape)


def grid_of(shape, chunk):
    return [-(-size // side) for size, side in zip(shape, chunk)]


def limit_place(shape, chunk, size):
    """Returns which limit an array exceeds: 1 rank, 2 elements, 3 bytes of a chunk, 4 chunks, and 0 where it exceeds none."""
    if len(shape) > MOST_RANK:
        return 1
    if size_of(shape) > MOST_ELEMENTS:
        return 2
    if size * math.prod(chunk) > MOST_CHUNK_BYTES:
        return 3
    return 4 if size_of(grid_of(shape, chunk)) > MOST_CHUNKS else 0


def broadcast(shapes):
    """Returns the shape that all shapes have together, or nothing."""
    rank = max(map(len, shapes))
    sizes = []
    for column in zip(*[[1] * (rank - len(shape)) + list(shape) for shape in shapes]):
        wide = {size for size in column if size != 1}
        if len(wide) > 1:
            return None
        sizes.append(wide.pop() if wide else 1)
    return sizes


def chunk_for(shape, arrays):
    """Returns the chunk shape of an elementwise result: on each axis that of the first argument that isn't stretched there."""
    chunk = []
    for axis, size in enumerate(shape):
        for _, sizes, sides in arrays:
            at = axis - len(shape) + len(sizes)
            if at >= 0 and sizes[at] == size:
                chunk.append(sides[at])
                break
    return chunk


def aligned(shape, chunk, array):
    """Returns the aligned chunk shape of an argument of a result of this shape and chunk shape."""
    _, sizes, sides = array
    return [to if size == of else side
            for size, side, of, to in zip(sizes, sides, shape[len(shape) - len(sizes):], chunk[len(shape) - len(sizes):])]


def is_value(dtype, value):
    """Whether a literal is a value of a type."""
    return type(value) is bool if dtype == "bool" else whole(*limits(dtype))(value)
