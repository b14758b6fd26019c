"""Operations, read anew from this project's rules: of each its kind, the arrays that it writes, the chunks that each task writes, and the
bytes that a task needs beside those that are reserved; and those by which reductions, searches for places, prefix sums, groups by labels
and products of matrices are computed in parts, with what part of the source each element is made of.

Nothing here comes from the program. compare/rules.py uses it, and compare/compare.py, which takes the elements from NumPy.
"""
import itertools
import math

from limits import SIZES, grid_of
from operators import axes_in, axis_in, batch_of, summed_axis

PLACES = ("argmin", "argmax")
FOLDS = ("sum", "prod", "min", "max", "any", "all")


class Room:
    """What a task needs beside the bytes that are reserved: the greatest of the chunks that it reads or writes, the regions of its inputs,
    those of its result, all in bytes, and 512 bytes for each instruction."""

    def __init__(self, chunks, inputs, result, instructions=0):
        self.scratch, self.inputs, self.result, self.instructions = max(chunks), inputs, result, instructions

    def __int__(self):
        return self.scratch + self.inputs + self.result + 512 * self.instructions


class Step:
    """One operation: its kind; the type, sizes and chunk sizes of the arrays that it writes; what a task needs; and whether it writes the
    node's own array. Of a reduction also the bounds of the parts along each axis that is reduced, by its number, and of what is carried
    into these parts the same bounds; of a copy the sizes of the regions, the chunk sizes of what it reads, the node whose array is copied, and whether it goes on from another copy."""

    def __init__(self, kind, arrays, needs, bounds=None, region=None, source=None, arg=None, is_second=False):
        self.kind, self.arrays, self.needs, self.is_last = kind, arrays, needs, False
        self.bounds = {axis: list(cuts) for axis, cuts in (bounds or {}).items()}
        self.region, self.source, self.arg, self.is_second = region, source, arg, is_second

    @property
    def room(self):
        """The bytes that a task needs beside those that are reserved."""
        return int(self.needs)

    def grid(self):
        """Returns how many tasks there are along each axis: one for each chunk of the last array, and of a copy one for each region."""
        return grid_of(self.arrays[-1][1], self.region or self.arrays[-1][2])

    def tasks(self):
        return math.prod(self.grid())

    def cells(self):
        return sum(math.prod(grid_of(*array[1:])) for array in self.arrays)

    def places(self):
        """Yields the place of each task."""
        return itertools.product(*map(range, self.grid()))

    def within(self, place, chunk):
        """Yields the places of the chunks, of this size, that meet the region of a task of a copy."""
        _, shape, _ = self.arrays[-1]
        bounds = [(i * side, min(size, (i + 1) * side)) for i, side, size in zip(place, self.region, shape)]
        return itertools.product(*[range(low // side, -(-high // side)) for (low, high), side in zip(bounds, chunk)])

    def written(self, place):
        """Yields the number of the array and the place of each chunk that a task writes."""
        if self.kind == "copy":
            return ((0, where) for where in self.within(place, self.arrays[0][2]))
        return ((which, place) for which in range(len(self.arrays)))


def bytes_of(dtype, chunk):
    return SIZES[dtype] * math.prod(chunk)


def parts_of(size, side):
    """Returns the bounds of the chunks of an axis; an axis of size 0 has one part."""
    return [*range(0, size, side), size] if size else [0, 0]


def kinds(first, later, stages):
    return [first] + [later] * (len(stages) - 1)


def merged(cuts, split_every):
    """Returns the bounds of groups of neighbouring parts."""
    return [*cuts[:-1][::split_every], cuts[-1]]


def rounds(bounds, split_every):
    """Returns the bounds after each round: the lowest axis that has several parts has groups of them merged."""
    bounds, found = dict(bounds), []
    for axis in sorted(bounds):
        while len(bounds[axis]) > 2:
            bounds[axis] = merged(bounds[axis], split_every)
            found.append(dict(bounds))
    return found


def partial(dtype, source, bounds):
    """Returns what is known of an array of partial results of a source."""
    _, shape, chunk = source
    sizes = [len(bounds[axis]) - 1 if axis in bounds else size for axis, size in enumerate(shape)]
    return dtype, sizes, [1 if axis in bounds else side for axis, side in enumerate(chunk)]


def merge_rooms(part, stages, split_every):
    """Returns what the merges behind the first stage need: `split_every` partial chunks, also where fewer are left."""
    return [Room([part], split_every * part, part)] * (len(stages) - 1)


def fold_steps(node, source, made, split_every):
    """Returns the operations of a reduction."""
    _, shape, chunk = source
    bounds = {axis: parts_of(shape[axis], chunk[axis]) for axis in axes_in(node.get("axes"), len(shape))}
    first = partial(made[0], source, bounds)
    whole, part = bytes_of(*source[::2]), bytes_of(*first[::2])
    stages = [bounds, *rounds(bounds, split_every)]
    rooms = [Room([whole, part], whole, part)] + merge_rooms(part, stages, split_every)
    arrays = [partial(made[0], source, cuts) for cuts in stages[:-1]] + [made]
    return [Step(kind, [array], room, cuts) for kind, array, cuts, room in zip(kinds("fold", "merge", stages), arrays, stages, rooms)]


def place_steps(node, source, made, split_every):
    """Returns the operations of a search for places. All but the last store the values before the places."""
    dtype, shape, chunk = source
    axis = node.get("axis")
    bounds = {at: parts_of(shape[at], chunk[at]) for at in axes_in(None if axis is None else [axis], len(shape))}
    _, _, sides = partial("int64", source, bounds)
    whole, values, places = bytes_of(dtype, chunk), bytes_of(dtype, sides), bytes_of("int64", sides)
    stages = [bounds, *rounds(bounds, split_every)]
    both = values + places
    rooms = [Room([whole, places], whole, both)] + [Room([places], split_every * both, both)] * (len(stages) - 1)
    pairs = [[partial(dtype, source, cuts), partial("int64", source, cuts)] for cuts in stages[:-1]] + [[made]]
    return [Step(kind, arrays, room, cuts) for kind, arrays, cuts, room in zip(kinds("pairfold", "pairmerge", stages), pairs, stages, rooms)]


def merged_to(cuts, split_every, most):
    """Returns the bounds of the parts and those after each merging, until there are at most so many parts."""
    found = [cuts]
    while len(found[-1]) > most + 1:
        found.append(merged(found[-1], split_every))
    return found


def sum_steps(node, source, made, split_every):
    """Returns the operations of a prefix sum: sums of the chunks and of groups of them, what is carried into each of these from the last
    sums to the first, and the sums up to each place."""
    dtype, shape, chunk = source
    axis = summed_axis(node, len(shape))
    whole, own = bytes_of(dtype, chunk), bytes_of(*made[::2])
    cuts = parts_of(shape[axis], chunk[axis])
    if len(cuts) <= 2:
        return [Step("scan", [made], Room([whole, own], whole, own))]
    stages = [{axis: found} for found in merged_to(cuts, split_every, split_every)]
    sums = [partial(made[0], source, stage) for stage in stages]
    part = bytes_of(*sums[0][::2])
    rooms = {"fold": Room([whole, part], whole, part), "merge": Room([part], split_every * part, part),
             "carry": Room([part], (split_every + 1) * part, part)}
    up = [Step(kind, [array], rooms[kind], stage) for kind, array, stage in zip(kinds("fold", "merge", stages), sums, stages)]
    down = [Step("carry", [array], rooms["carry"], stage) for array, stage in zip(sums[::-1], stages[::-1])]
    return [*up, *down, Step("scan", [made], Room([whole, part, own], whole + part, own))]


def aligned_labels(node, args):
    """Returns the chunk shapes of an array and of its labels, which go along an axis in the array's own chunks."""
    (_, shape, chunk), _ = args
    return list(chunk), [chunk[axis_in(node["axis"], len(shape))]]


def group_steps(node, made, args, split_every):
    """Returns the operations of groups by labels: the parts of the axis have the bounds under `labels`."""
    dtype, shape, chunk = made
    operands = [bytes_of(arg[0], sides) for arg, sides in zip(args, aligned_labels(node, args))]
    part, axis = bytes_of(dtype, chunk), axis_in(node["axis"], len(shape))
    stages = [{"labels": cuts} for cuts in merged_to(parts_of(args[0][1][axis], args[0][2][axis]), split_every, 1)]
    rooms = [Room([*operands, part], sum(operands), part)] + merge_rooms(part, stages, split_every)
    arrays = [(dtype, [*shape, len(stage["labels"]) - 1], [*chunk, 1]) for stage in stages[:-1]] + [made]
    return [Step(kind, [array], room, stage) for kind, array, stage, room in zip(kinds("groupfold", "merge", stages), arrays, stages, rooms)]


def aligned_operands(made, args):
    """Returns the aligned chunk shapes of the operands of a product of matrices."""
    (_, left, left_chunk), (_, right, right_chunk) = args
    outer = (len(left) > 1) + (len(right) > 1)
    leading, batch = [sides[:len(made[1]) - outer] for sides in made[1:]]
    inner = left_chunk[-1]
    own = batch_of(leading, batch, left, left_chunk) + [left_chunk[-2]] if len(left) > 1 else []
    other = batch_of(leading, batch, right, right_chunk) if len(right) > 1 else []
    return own + [inner], other + [inner] + ([right_chunk[-1]] if len(right) > 1 else [])


def product_steps(made, args, split_every):
    """Returns the operations of a product of matrices: its parts along the inner axis have the bounds under `inner`."""
    dtype, shape, chunk = made
    operands = [bytes_of(arg[0], sides) for arg, sides in zip(args, aligned_operands(made, args))]
    part = bytes_of(dtype, chunk)
    stages = [{"inner": cuts} for cuts in merged_to(parts_of(args[0][1][-1], args[0][2][-1]), split_every, 1)]
    rooms = [Room([*operands, part], sum(operands), part)] + merge_rooms(part, stages, split_every)
    arrays = [(dtype, [*shape, len(stage["inner"]) - 1], [*chunk, 1]) for stage in stages[:-1]] + [made]
    return [Step(kind, [array], room, stage) for kind, array, stage, room in zip(kinds("mul", "merge", stages), arrays, stages, rooms)]
