#!/usr/bin/env python3
"""Carries out plans of `--fusion 2` in Python, task by task, and compares them with NumPy. No program is called: it tries the rules.

  by_tasks.py [--cases N] [--seed N] [--first N] [--only run|views|reductions|copies|any|chains]

A case is a random expression over random arrays, as compare/compare.py has them, in memory in which all, some or none of what could be
left out of its plan is. Each task goes by its operation: it reads chunks of stored arrays, has those of inlined ones made in its own
memory, and writes its chunks. What each array holds must be what NumPy says of its part of the source, each chunk written once. A task
may hold no more bytes than its projection, which may be no more than is allowed. A chunk of an inlined array is made once in the whole
plan. And a plan of `--fusion 2` is refused where that of `--fusion 1` is, with the same words, and has no more operations, tasks and cells.
"""
import argparse
import collections
import random
import sys
import types

import numpy

import compare
import draws
import operators
import rules
import values
from draws import MIXES
from limits import grid_of
from reductions import FOLDS, bytes_of

MERGED_AS = {"matmul": "sum", "cumulative_sum": "sum", "groupby_sum": "sum", "groupby_min": "min", **{op: op for op in FOLDS}}


def clipped(array, place):
    """What a chunk covers of an array."""
    return compare.place_of(place, types.SimpleNamespace(shape=array.shape, chunk=array.chunk))


def with_axes(place, axes, rank):
    """Returns the place with a 0 for each axis that was taken out, or as it is where none was."""
    if len(place) == rank:
        return tuple(place)
    left = iter(place)
    return tuple(0 if axis in axes else next(left) for axis in range(rank))


def has_chunk(array, place):
    return all(at < count for at, count in zip(place, array.grid()))


class Run:
    """A plan that is carried out over arrays: what is stored of each, how often each inlined chunk was made, and the tasks."""

    def __init__(self, plan, inputs):
        self.plan, self.stored, self.written, self.made, self.tasks = plan, {}, {}, collections.Counter(), []
        self.inputs, self.origins = inputs, {}

    def carry_out(self):
        for operation in self.plan.closed:
            for array in operation.writes:
                self.stored[array], self.written[array] = numpy.empty(array.shape, array.dtype), set()
            for place in operation.step.places():
                self.tasks.append(Task(self, operation, place))
                self.tasks[-1].carry_out()

    def fetched(self, array, place):
        """Returns the elements of a stored chunk."""
        if array.maker is None:
            return numpy.asarray(self.inputs[array.name][clipped(array, place)])
        assert place in self.written[array], f"a chunk that isn't there yet is read at {place}"
        return numpy.asarray(self.stored[array][clipped(array, place)])

    def put(self, array, place, elements):
        assert place not in self.written[array], f"{place} is written twice"
        part = clipped(array, place)
        assert elements.shape == self.stored[array][part].shape and elements.dtype == array.dtype, (elements.shape, elements.dtype)
        self.stored[array][part] = elements
        self.written[array].add(place)

    def origin(self, operation):
        """Returns from where each element of a view comes, or the elements of an array that is made from nothing."""
        if operation not in self.origins:
            node = self.plan.expr["nodes"][operation.node]
            is_made = node["op"] in operators.CREATION
            self.origins[operation] = values.made(node) if is_made else values.origins(node, [array.shape for array in operation.args])
        return self.origins[operation]


class Task:
    """A task: what it reads of stored arrays, in order, and the bytes that it holds."""

    def __init__(self, run, operation, place):
        self.run, self.operation, self.place, self.reads = run, operation, place, []
        self.scratch = self.regions = self.instructions = 0

    def carry_out(self):
        operation = self.operation
        written = list(self.results(operation, self.place))
        if operation.kind != "copy":
            self.regions += sum(array.chunk_bytes() for array in operation.writes)
        for array, place, elements in written:
            self.run.put(array, place, elements)
        bytes_held = self.run.plan.reserved + self.scratch + self.regions + 512 * self.instructions
        assert bytes_held <= self.run.plan.projected(operation.step) <= self.run.plan.allowed, (operation.kind, bytes_held)

    def results(self, operation, place):
        """Yields the arrays that an operation writes, the places of the chunks, and their elements."""
        self.scratch = max([self.scratch, *[array.chunk_bytes() for array in [*operation.reads, *operation.writes]]])
        made = getattr(self, f"of_{operation.kind}")(operation, place)
        if operation.kind == "copy":
            yield from made
            return
        for array, elements in zip(operation.writes, made if len(operation.writes) > 1 else [made]):
            part = tuple(side.stop - side.start for side in clipped(array, place))
            yield array, place, numpy.asarray(elements, array.dtype).reshape(part)

    def chunk(self, operation, number, place):
        """Returns the elements of a chunk of an input, read or made here."""
        array = operation.reads[number]
        inner = operation.inside.get(number)
        if inner is None:
            self.reads.append((array, place))
            return self.run.fetched(array, place)
        self.run.made[array, place] += 1
        [(_, _, elements)] = self.results(inner, place)
        return elements

    def region(self, operation, number, place):
        """The same in a region of its own, and no elements where the array has no such chunk."""
        array = operation.reads[number]
        self.regions += array.chunk_bytes()
        if has_chunk(array, place):
            return self.chunk(operation, number, tuple(place))
        return numpy.empty([side.stop - side.start for side in clipped(array, place)], array.dtype)

    # The kinds of operations

    def of_map(self, operation, place):
        found = {}
        for number, array in enumerate(operation.reads):
            found[array] = self.region(operation, number, input_place(operation.result, array, place))
        self.instructions += len(found) + sum(self.run.plan.function_count(one.node) for one in operation.merged)
        return self.value(operation, operation, found)

    def value(self, operation, one, found):
        """Returns the elements of a map or of one that is merged into it, over those of the arrays that are loaded."""
        node, arrays = self.run.plan.expr["nodes"][one.node], iter(one.args)
        args = [next(arrays) if type(arg) is str else arg for arg in node["args"]]
        for array in one.args:
            if array not in found:
                assert array.maker in operation.merged
                found[array] = self.value(operation, array.maker, found)
        return values.value(node, [found[arg] if arg in one.args else arg for arg in args], numpy.dtype(one.result.dtype))

    def of_pull(self, operation, place):
        origin = self.run.origin(operation)[clipped(operation.result, place)]
        if not operation.args:
            return origin
        made, first = numpy.zeros(origin.shape, operation.result.dtype), 0
        for number, array in enumerate(operation.reads):
            count = int(numpy.prod(array.shape, dtype=int))
            is_own = (origin >= first) & (origin < first + count)
            self.gather(operation, number, made, is_own, numpy.unravel_index(origin[is_own] - first, array.shape) if array.shape else ())
            first += count
        return made

    def gather(self, operation, number, made, is_own, index):
        """Fills the elements of a view that come from one source, chunk by chunk."""
        array, source = operation.reads[number], numpy.empty(operation.reads[number].shape, operation.reads[number].dtype)
        if is_own.any():
            for place in sorted(set(zip(*[at // side for at, side in zip(index, array.chunk)]))) if array.shape else [()]:
                source[clipped(array, place)] = self.chunk(operation, number, tuple(map(int, place)))
            made[is_own] = source[index]

    def of_fold(self, operation, place):
        node, bounds = self.run.plan.expr["nodes"][operation.node], operation.step.bounds
        source = operation.reads[0]
        block = self.region(operation, 0, with_axes(place, bounds, len(source.shape)))
        return values.reduced({"op": MERGED_AS[node["op"]], "axes": list(bounds), "keepdims": True}, block, operation.result.dtype)

    def of_merge(self, operation, place):
        node, source = self.run.plan.expr["nodes"][operation.node], operation.reads[0]
        axis, parts = self.parts(operation, place)
        joined = numpy.concatenate([self.region(operation, 0, part) for part in parts], axis)
        self.regions += (self.run.plan.split_every - len(parts)) * source.chunk_bytes()
        return values.reduced({"op": MERGED_AS[node["op"]], "axes": [axis], "keepdims": True}, joined, operation.result.dtype)

    def parts(self, operation, place):
        """Returns the axis along which a merge goes, and the places of the partial results that one of its tasks merges."""
        step, before, source = operation.step, operation.reads[0].maker.step, operation.reads[0]
        rank, group = len(source.shape), self.run.plan.split_every
        moved = next(axis for axis in step.bounds if step.bounds[axis] != before.bounds[axis])
        axis = rank - 1 if moved in ("labels", "inner") else moved
        place = with_axes(place, [axis] if moved in ("labels", "inner") else step.bounds, rank)
        found = range(group * place[axis], min(group * (place[axis] + 1), grid_of(source.shape, source.chunk)[axis]))
        return axis, [(*place[:axis], at, *place[axis + 1:]) for at in found]

    def of_pairfold(self, operation, place):
        node, source, bounds = self.run.plan.expr["nodes"][operation.node], operation.reads[0], operation.step.bounds
        at = with_axes(place, bounds, len(source.shape))
        block = self.region(operation, 0, at)
        if len(operation.writes) == 1:
            self.regions += bytes_of(source.dtype, [1 if axis in bounds else side for axis, side in enumerate(source.chunk)])
        low = [i * side for i, side in zip(at, source.chunk)]
        found = numpy.empty([1 if axis in bounds else size for axis, size in enumerate(block.shape)], numpy.int64)
        least = numpy.empty(found.shape, block.dtype)
        for index in numpy.ndindex(*found.shape):
            line = block[tuple(slice(None) if axis in bounds else slice(i, i + 1) for axis, i in enumerate(index))]
            own = numpy.unravel_index(getattr(numpy, node["op"])(line), line.shape)
            least[index] = line[own]
            whole = [int(i) + first for i, first in zip(own, low)]
            axis = node.get("axis")
            found[index] = whole[axis] if axis is not None else int(numpy.ravel_multi_index(whole, source.shape)) if whole else 0
        return [least, found] if len(operation.writes) > 1 else found

    def of_pairmerge(self, operation, place):
        node = self.run.plan.expr["nodes"][operation.node]
        axis, parts = self.parts(operation, place)
        least, found = [numpy.concatenate([self.region(operation, number, part) for part in parts], axis) for number in range(2)]
        self.regions += (self.run.plan.split_every - len(parts)) * sum(array.chunk_bytes() for array in operation.reads)
        self.regions += operation.reads[0].chunk_bytes() if len(operation.writes) == 1 else 0
        best = (least.min if node["op"] == "argmin" else least.max)(axis=axis, keepdims=True)
        first = numpy.where(least == best, found, numpy.iinfo(numpy.int64).max).min(axis=axis, keepdims=True)
        return [best, first] if len(operation.writes) > 1 else first

    def of_mul(self, operation, place):
        left, right = operation.reads
        is_whole = len(self.run.plan.infos[operation.node][1]) == len(place)
        outer, inner = (place, 0) if is_whole else (place[:-1], place[-1])
        sizes = operation.result.shape if is_whole else operation.result.shape[:-1]
        leading = len(outer) - (len(left.shape) > 1) - (len(right.shape) > 1)
        rows = (*batch_place(left, outer[:leading], sizes[:leading]), outer[leading], inner) if len(left.shape) > 1 else (inner,)
        columns = (*batch_place(right, outer[:leading], sizes[:leading]), inner, outer[-1]) if len(right.shape) > 1 else (inner,)
        made = operation.result.dtype
        blocks = [self.region(operation, number, at).astype(made) for number, at in enumerate((rows, columns))]
        return numpy.matmul(*blocks)

    def of_scan(self, operation, place):
        source = operation.reads[0]
        axis = operators.summed_axis(self.run.plan.expr["nodes"][operation.node], len(source.shape))
        block = self.region(operation, 0, place)
        sums = numpy.cumsum(block, axis=axis, dtype=operation.result.dtype)
        return sums + self.region(operation, 1, place) if len(operation.reads) > 1 else sums

    def of_carry(self, operation, place):
        [axis] = operation.step.bounds
        group, j = self.run.plan.split_every, place[axis]
        first = j // group * group
        before = [self.region(operation, 0, (*place[:axis], at, *place[axis + 1:])) for at in range(first, j)]
        if len(operation.reads) > 1:
            before.append(self.region(operation, 1, (*place[:axis], j // group, *place[axis + 1:])))
        part = [side.stop - side.start for side in clipped(operation.result, place)]
        return sum(before, numpy.zeros(part, operation.result.dtype))

    def of_groupfold(self, operation, place):
        node, source = self.run.plan.expr["nodes"][operation.node], operation.reads[0]
        rank = len(source.shape)
        axis, number = node["axis"] % rank, place[rank] if len(place) > rank else 0
        block = self.region(operation, 0, (*place[:axis], number, *place[axis + 1:rank]))
        return values.grouped(node, block, self.region(operation, 1, (number,)), operation.result.dtype)

    def of_copy(self, operation, place):
        [source], target, step = operation.reads, operation.result, operation.step
        region = numpy.empty(source.shape, source.dtype)
        for where in step.within(place, source.chunk):
            region[clipped(source, where)] = self.chunk(operation, 0, where)
        self.regions += int(numpy.prod(step.region, dtype=object)) * region.itemsize
        for _, where in step.written(place):
            yield target, where, region[clipped(target, where)]


def input_place(result, array, place):
    """Returns the chunk of an input that a task of a map reads."""
    rest = len(result.shape) - len(array.shape)
    return tuple(place[rest + axis] if size == result.shape[rest + axis] else 0 for axis, size in enumerate(array.shape))


def batch_place(operand, leading, sizes):
    """Returns the chunk on an operand's leading axes."""
    rest = len(leading) - (len(operand.shape) - 2)
    return tuple(leading[rest + axis] if size == sizes[rest + axis] else 0 for axis, size in enumerate(operand.shape[:-2]))


# Trying the rules

class Input:
    """A random stored array."""

    def __init__(self, pick, name, array):
        self.name, self.array = name, array
        self.elements = draws.random_elements(pick, array.dtype, array.shape)


class Case:
    """A random expression, and the memory in which it is carried out."""

    def __init__(self, pick, mix):
        self.inputs = [Input(pick, name, array) for name, array in zip("abc", draws.arrays_for(pick, mix))]
        self.texts = {f"{entry.name}/zarr.json": rules.compact(entry.array.written()).encode() for entry in self.inputs}
        self.text = rules.compact(draws.random_expression(pick, self.inputs, mix.narrowed(pick))).encode()
        self.options = [compare.ALLOWED, pick.choice([0, 0, 0, 7, 4096]), pick.choice([rules.SPLIT_EVERY, rules.SPLIT_EVERY, 2, 3, 5, 64])]
        if pick.random() < 0.6:
            self.fit(pick)

    def fit(self, pick):
        """Allows about as much as an operation or a node needs."""
        try:
            plans = [rules.counted_plan(self.text, self.texts.get, *self.options, fusion) for fusion in (1, 2)]
        except rules.Refused:
            return
        least = max(plans[0].need(k) for k, live in enumerate(plans[0].live) if live)
        told = [plan.projected(step) for plan in plans for _, step in plan.operations()] + [least] * 3
        self.options[0] = max(0, pick.choice(told) + pick.choice([0, 0, 0, -1, 1, pick.randint(-64, 64), pick.randint(0, 2000)]))

    def plan(self, fusion):
        try:
            return rules.counted_plan(self.text, self.texts.get, *self.options, fusion)
        except rules.Refused as answer:
            return str(answer)


def look_at_stored(run, plan):
    """Each array that is stored must have NumPy's elements, and each chunk of an inlined one be made once."""
    elements = compare.numpy_values(plan, run.inputs)
    parts = {(k, at, which): info for k, at, which, info in plan.parts()}
    numbers = {operation.step: (operation.node, plan.steps[operation.node].index(operation.step)) for operation in plan.closed}
    for operation in plan.closed:
        for which, array in enumerate(operation.writes):
            part = (*numbers[operation.step], which)
            assert (run.stored[array] == compare.part_elements(plan, part, parts[part], elements)).all(), f"{operation.kind} of node {operation.node}"
            assert len(run.written[array]) == numpy.prod(array.grid(), dtype=object), "a chunk is missing"
        for inner in operation.within()[1:]:
            made = [count for (array, _), count in run.made.items() if array is inner.result]
            assert made == [1] * int(numpy.prod(inner.result.grid(), dtype=object)), f"{inner.kind} inlined into {operation.kind}: {made}"


def copies_of(plan):
    return sum(step.kind == "copy" for _, step in plan.operations())


def try_case(case, counts):
    before, plan = case.plan(1), case.plan(2)
    if isinstance(plan, str) or isinstance(before, str):
        assert before == plan, (before, plan)
        counts["refused"] += 1
        return
    pairs = [(plan.tasks(), before.tasks()), (plan.cells(), before.cells()), (len(plan.operations()), len(before.operations()))]
    assert all(now <= then for now, then in pairs) and plan.peak() <= plan.allowed, pairs
    run = Run(plan, {entry.name: entry.elements for entry in case.inputs})
    run.carry_out()
    look_at_stored(run, plan)
    counts["carried out"] += 1
    counts["copies joined"] += copies_of(before) - copies_of(plan)
    counts.update(f"{inner.kind} in {outer.kind}" for operation in plan.closed for outer in operation.within() for inner in outer.inside.values())


def main():
    words = argparse.ArgumentParser(description=__doc__, formatter_class=argparse.RawDescriptionHelpFormatter)
    words.add_argument("--cases", type=int, default=2000)
    words.add_argument("--seed", type=int, default=1)
    words.add_argument("--first", type=int, default=0)
    words.add_argument("--only", choices=[name for name in MIXES if name != "check"])
    given = words.parse_args()
    # (255 operations inside one another are a few calls each)
    sys.setrecursionlimit(5000)
    counts = collections.Counter()
    for number in range(given.first, given.cases):
        pick = random.Random(f"{given.seed} {number}")
        case = Case(pick, MIXES[given.only or pick.choice(["run", "reductions", "views", "copies", "any", "chains", "chains", "chains"])])
        try:
            try_case(case, counts)
        except Exception as wrong:
            print(f"case {number} of seed {given.seed}: {case.text.decode()} over {[vars(entry.array) for entry in case.inputs]} with {case.options}: {wrong!r}")
            raise
    print(f"{given.cases - given.first} cases agree: " + ", ".join(f"{count} {what}" for what, count in sorted(counts.items())))
    return 0


if __name__ == "__main__":
    sys.exit(main())
