"""How a stored array is copied to other chunks in little memory (after Rechunker, whose own rule may choose other sizes), read anew
from this project's rules: the regions that are read and written, the chunks between, and the operations.

Nothing here comes from the program. compare/rules.py uses it.
"""
import math

from limits import SIZES
from reductions import Room, Step, bytes_of


def max_mem(allowed, reserved):
    """Returns the most bytes that a region may have."""
    return max(0, allowed - reserved) // 2


def copy_need(info, chunk):
    """Returns the bytes that a copy of an array to other chunks needs beside those that are reserved."""
    return 2 * max(bytes_of(info[0], info[2]), bytes_of(info[0], chunk))


def consolidated(shape, chunk, limit, room):
    """Returns a chunk made larger from the last axis to the first, where at most `room` elements fit."""
    sides = list(chunk)
    for axis in reversed(range(len(shape))):
        if sides[axis] < shape[axis] and sides[axis] < limit[axis]:
            most = room // (math.prod(sides) // sides[axis])
            if limit[axis] >= shape[axis] and shape[axis] <= most:
                sides[axis] = shape[axis]
            else:
                sides[axis] *= min(shape[axis], limit[axis], most) // sides[axis]
    return sides


def stages(shape, source, target, size, most):
    """Returns the regions that are read, the chunks between, and the regions that are written, or nothing where a chunk has more than
    `most` bytes. An element has `size` bytes."""
    if size * max(math.prod(source), math.prod(target)) > most:
        return None
    source, target = [[min(side, max(1, all_)) for side, all_ in zip(chunk, shape)] for chunk in (source, target)]
    write = consolidated(shape, target, shape, most // size)
    read = consolidated(shape, source, [max(side, own) for side, own in zip(write, source)], most // size)
    read = [side // to * to if side < all_ and to < side else side for side, to, all_ in zip(read, write, shape)]
    return read, [min(pair) for pair in zip(read, write)], write


def copy_room(dtype, source, target, region):
    """Returns what a task of a copy needs: its region is counted once."""
    return Room([bytes_of(dtype, source), bytes_of(dtype, target)], bytes_of(dtype, region), 0)


def copy_steps(arg, info, chunk, most):
    """Returns the one or two operations that copy the array of a node to other chunks, or none where a chunk has more than `most`
    bytes: then its need is more than is allowed."""
    dtype, shape, source = info
    made = stages(shape, source, chunk, SIZES[dtype], most)
    if made is None:
        return []
    read, middle, write = made
    regions = [(write, chunk)] if read == write else [(read, middle), (write, chunk)]
    found = []
    for region, sides in regions:
        found.append(Step("copy", [(dtype, shape, list(sides))], copy_room(dtype, source, sides, region), region=region, source=source, arg=arg,
                          is_second=bool(found)))
        source = sides
    return found
