"""The plan of `--fusion 2`, read anew from this project's rules: each map loads an array once, maps are merged, copies are made in one
pass, and an array that one task alone would read is made in this task's memory, by the operation that would have stored it.

Nothing here comes from the program. compare/rules.py uses it, and compare/by_tasks.py, which carries such a plan out.
"""
import collections
import math

from copies import consolidated, copy_room, max_mem
from limits import SIZES, grid_of
from reductions import Room, bytes_of

MOST_INPUTS, MOST_INSTRUCTIONS = 8, 32
# The kinds whose tasks write one chunk of one array, and those of which each task reads one chunk of the first array.
ONE_CHUNK = ("map", "pull", "fold", "merge", "mul", "scan", "groupfold")
OF_SOURCE = ("fold", "pairfold", "scan", "groupfold")


class PlanArray:
    """An array of a plan: its type, shape and chunk shape; the operation that makes it, or nothing, and the name of an input."""

    def __init__(self, info, maker=None, name=None):
        self.dtype, self.shape, self.chunk = info[0], list(info[1]), list(info[2])
        self.maker, self.name = maker, name

    def has_grid_of(self, other):
        return (self.shape, self.chunk) == (other.shape, other.chunk)

    def chunk_bytes(self):
        return bytes_of(self.dtype, self.chunk)

    def grid(self):
        return grid_of(self.shape, self.chunk)


class Operation:
    """An operation with the arrays that it reads, one for each of its inputs, and those that it writes. Of a map also the arrays of its
    node's arguments, how many of its instructions are no loads, and the maps that are merged into it, itself among them. `inside` has the
    operations that make its inlined inputs, by their places."""

    def __init__(self, node, step, reads, functions=0):
        self.node, self.step, self.reads, self.args, self.functions = node, step, list(reads), list(reads), functions
        self.writes = [PlanArray(array, self) for array in step.arrays]
        self.merged, self.inside = {self}, {}

    @property
    def kind(self):
        return self.step.kind

    @property
    def result(self):
        return self.writes[-1]

    def needs(self):
        """Returns what a task needs for this operation alone."""
        return map_room(self.reads, self.result, self.functions) if self.kind == "map" else self.step.needs

    def within(self):
        """Returns the operation and all that are inlined into it, one inside the other."""
        return [self, *(inner for maker in self.inside.values() for inner in maker.within())]

    def stored_reads(self):
        """Returns how many of the inputs of these operations are stored arrays."""
        return sum(len(operation.reads) - len(operation.inside) for operation in self.within())

    def room(self):
        """Returns what a task needs with all that is inlined: a chunk that it makes is the region of the input that reads it."""
        own, *others = [operation.needs() for operation in self.within()]
        return Room([own.scratch, *[other.scratch for other in others]], own.inputs + sum(other.inputs for other in others), own.result,
                    own.instructions + sum(other.instructions for other in others))

    def is_small(self, plan):
        room = self.room()
        return self.stored_reads() <= MOST_INPUTS and room.instructions <= MOST_INSTRUCTIONS and plan.reserved + int(room) <= plan.allowed


def map_room(reads, result, functions):
    """Returns what a task of a map needs that loads each of its inputs once."""
    chunks = [array.chunk_bytes() for array in reads]
    return Room([*chunks, result.chunk_bytes()], sum(chunks), result.chunk_bytes(), len(reads) + functions)


def distinct(arrays):
    """Returns each array once, at the place of the first."""
    return list(dict.fromkeys(arrays))


# The operations before any is left out

class Unfused:
    """The operations of a plan in order, with what each reads; and the array of each node."""

    def __init__(self, plan):
        self.plan, self.operations, self.arrays = plan, [], {}
        self.inputs = {name: PlanArray(meta.info(), name=name) for name, meta in plan.metas.items()}
        for k, node in enumerate(plan.expr["nodes"]):
            if node["op"] == "input":
                self.arrays[k] = self.inputs[node["name"]]
            if k in plan.steps:
                self.add_node(k)

    def add(self, k, step, reads, functions=0):
        self.operations.append(Operation(k, step, reads, functions))
        return self.operations[-1]

    def add_node(self, k):
        copies = [step for step in self.plan.steps[k] if step.kind == "copy"]
        found = []
        for step in copies:
            if step.is_second:
                found[-1] = self.add(k, step, [found[-1]]).result
            else:
                found.append(self.add(k, step, [self.arrays[step.arg]]).result)
        own = self.plan.steps[k][len(copies):]
        if own:
            self.add_own(k, own, self.operands(k, found))
        self.arrays[k] = self.operations[-1].result

    def operands(self, k, copies):
        """Returns the arrays of a node's arguments, of those in other chunks the copies."""
        copies, args = iter(copies), [self.arrays[arg] for arg in self.plan.arrays(k)]
        return [array if chunk == array.chunk else next(copies) for array, chunk in zip(args, self.plan.aligned_args(k))]

    def add_own(self, k, steps, operands):
        """Adds the operations of a node behind its copies."""
        before, sums, carried = [], [], []
        for step in steps:
            if step.kind in ("merge", "pairmerge"):
                reads = before
            elif step.kind == "carry":
                reads = [sums.pop(), *carried]
            elif step.kind == "scan":
                reads = [*operands, *carried]
            else:
                reads = operands
            made = self.add(k, step, reads, self.plan.function_count(k) if step.kind == "map" else 0)
            before, carried = made.writes, made.writes if step.kind == "carry" else []
            sums += made.writes if step.kind in ("fold", "merge") else []


# The four steps

class Closing:
    """Leaves operations out of a plan, in four steps."""

    def __init__(self, plan):
        unfused = Unfused(plan)
        self.plan, self.operations, self.out = plan, unfused.operations, unfused.arrays[plan.out]
        self.load_once()
        self.merge_maps()
        self.join_copies()
        self.inline()

    def count_reads(self):
        """Counts the inputs that read each array; inlining changes none of them."""
        self.reads = collections.Counter(array for operation in self.operations for array in operation.reads)

    def is_read_once(self, array):
        """Whether an array isn't the output and one input alone reads it, in the whole plan."""
        return array is not self.out and self.reads[array] == 1

    def load_once(self):
        for operation in self.operations:
            if operation.kind == "map":
                operation.reads = distinct(operation.reads)
        self.count_reads()

    def merge_maps(self):
        """Merges maps into the maps that read them: these are taken in order, and each one's arrays as they stand when it is taken."""
        for reader in [operation for operation in self.operations if operation.kind == "map"]:
            for array in list(reader.reads):
                maker = array.maker
                if maker and maker.kind == "map" and self.is_read_once(array) and array.has_grid_of(reader.result):
                    self.merge(maker, reader, array)

    def merge(self, maker, reader, array):
        """Merges a map into the one that reads it, where both together are small enough."""
        at, before = reader.reads.index(array), (reader.reads, reader.functions)
        reader.reads = distinct(reader.reads[:at] + maker.reads + reader.reads[at + 1:])
        reader.functions += maker.functions
        if reader.is_small(self.plan):
            reader.merged |= maker.merged
            self.operations.remove(maker)
            self.count_reads()
        else:
            reader.reads, reader.functions = before

    def join_copies(self):
        """Joins each copy with the one that made its source, where one pass over regions of whole chunks of both sides does."""
        for second in [operation for operation in self.operations if operation.kind == "copy"]:
            [between] = second.reads
            first = between.maker
            if first and first.kind == "copy" and self.is_read_once(between):
                region = self.joint_region(first, second)
                if region is not None and tasks_of(second, region) <= first.step.tasks() + second.step.tasks():
                    self.join(first, second, region)

    def joint_region(self, first, second):
        """Returns the regions of one pass, or nothing where the least of them doesn't fit."""
        [source], target = first.reads, second.result
        room = max_mem(self.plan.allowed, self.plan.reserved) // SIZES[target.dtype]
        least = [min(math.lcm(min(s, max(1, size)), min(t, max(1, size))), max(1, size))
                 for s, t, size in zip(source.chunk, target.chunk, target.shape)]
        return consolidated(target.shape, least, target.shape, room) if math.prod(least) <= room else None

    def join(self, first, second, region):
        source, target, step = first.reads[0], second.result, second.step
        second.reads = first.reads
        step.region, step.source, step.arg, step.is_second = region, source.chunk, first.step.arg, first.step.is_second
        step.needs = copy_room(target.dtype, source.chunk, target.chunk, region)
        self.operations.remove(first)
        self.count_reads()

    def inline(self):
        """Inlines arrays into the operations that read them: these are taken in order, and each one's inputs from first to last."""
        self.whole = list(self.operations)
        for reader in self.whole:
            for place, array in enumerate(reader.reads):
                maker = array.maker
                if maker and maker.kind in ONE_CHUNK and self.is_read_once(array) and reads_by_chunk(reader, place, array):
                    reader.inside[place] = maker
                    if reader.is_small(self.plan):
                        self.operations.remove(maker)
                    else:
                        del reader.inside[place]


def tasks_of(copy, region):
    return math.prod(grid_of(copy.result.shape, region))


def reads_by_chunk(reader, place, array):
    """Whether each task reads one chunk of this input, and each chunk is read by one task."""
    if reader.kind == "map":
        return array.has_grid_of(reader.result)
    return reader.kind in OF_SOURCE and place == 0
