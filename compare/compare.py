#!/usr/bin/env python3
"""Computes small random expressions with the program and with NumPy, and compares each byte of what is stored, and the lines of `plan`.

  compare.py [--program FILE] [--dir FOLDER] [--cases N] [--seed N] [--first N] [--only run|views|reductions|copies|any|chains|check]
             [--fusion 1|2] [--workers N,N..] [--version-2]

A case has up to three stored arrays of any type, up to four axes (of copies six), any chunk shape, either byte order, either encoding of
keys with either separator, members of the metadata in any order, any fill value, chunks that are absent, any bytes past the edge, and
any bytes for truth values; and an expression of up to ten nodes over them: every elementwise function, view and reduction, searches
for places, products of matrices and changes of chunks, literals, broadcast shapes, arguments in chunks that fit each other or don't,
nodes that are used twice, dead nodes, inputs that are themselves the result, any count of partial results that a task merges, and memory
with which all, some or none of the maps that could be are merged.
`--only` says which nodes a case has most of: functions, views, reductions, copies (of up to 2,500 elements, in memory around what
the plan needs), any, or nodes one behind the other. With `--fusion 2` the plans are those of that option, in memory in which all, some or
none of the arrays are inlined that could be. `plan` must print what compare/rules.py says, and store nothing; what `run` must store is computed by NumPy,
the arrays on the way too, and what it must answer is told by compare/rules.py. One case in four is damaged, in one or two of: the text,
an argument, metadata, a chunk, a key in the way, memory, counts. Some arrays are printed too, some loaded, and the output of one run
in five is checked by `check`. In one case of nine NumPy stores the output of an expression of every operator, now and then with one
element changed, and the program checks it. With `--workers` each expression is also run with each of these numbers of workers, every
time in a copy of the folder and with `--backups` 0 or 1: what is stored and printed must be the same bytes, but for the starts, of which
there may be up to two a task where slow tasks are run twice. With `--version-2` half of the arrays have metadata of Zarr version 2.
Prints how often each answer came, and ends with 1 at the first case that differs, whose folder is kept; `--first` goes on at that case.
"""
import argparse
import collections
import copy
import itertools
import json
import os
import random
import re
import shutil
import subprocess
import sys
import tempfile

import numpy

import draws
import operators
import reductions
import rules
import values
from draws import MIXES, TYPES, sides
from rules import FUNCTIONS, Array, compact

HERE = os.path.dirname(os.path.abspath(__file__))
PROGRAM = os.path.join(HERE, "..", "crates", "cu_bin", "out", "cu_bin")
ALLOWED = 1000000


# NumPy's meaning of an expression

def numpy_values(plan, arrays):
    """Returns the elements of each live node, of the inputs' by name."""
    found = {}
    for k, node in enumerate(plan.expr["nodes"]):
        if plan.live[k]:
            found[k] = arrays[node["name"]] if node["op"] == "input" else numpy_node(plan, k, node, found)
    return found


def numpy_node(plan, k, node, found):
    args = [found[plan.places[arg]] if type(arg) is str else arg for arg in node.get("args", [])]
    return values.value(node, args, numpy.dtype(plan.infos[k][0]))


def same_as_numpy(plan, inputs, found):
    """Compares elements, given as maps from indices, with NumPy's."""
    arrays = {}
    for name, elements in inputs.items():
        if name in plan.metas:
            array = plan.metas[name]
            arrays[name] = numpy.array([elements.get(index, 0) for index in rules.indices(array.shape)], array.dtype).reshape(array.shape)
    for k, elements in numpy_values(plan, arrays).items():
        assert [int(x) for x in elements.reshape(-1)] == [found[k][index] for index in rules.indices(plan.infos[k][1])], (plan.expr, k)


# Stored arrays

def chunks_of(array):
    return itertools.product(*map(range, rules.grid_of(array.shape, array.chunk)))


def place_of(index, array):
    """What a chunk covers of the array."""
    return tuple(slice(i * side, min((i + 1) * side, size)) for i, side, size in zip(index, array.chunk, array.shape))


def whole_chunk(array, elements, index, past=0):
    """Returns the elements of a chunk, with `past` behind the edge."""
    part = elements[place_of(index, array)]
    whole = numpy.full(array.chunk, past, array.dtype)
    whole[tuple(slice(0, size) for size in part.shape)] = part
    return whole


def bytes_of(array, whole):
    return whole.astype(whole.dtype.newbyteorder(">" if array.endian == "big" else "<")).tobytes()


def put(folder, key, data):
    path = os.path.join(folder, key)
    os.makedirs(os.path.dirname(path), exist_ok=True)
    with open(path, "wb") as file:
        file.write(data)


class Input:
    """A stored array: its elements, its members of metadata, and the keys of the chunks that are held."""

    def __init__(self, pick, folder, name, array, may_be_old=False):
        self.name, self.array, self.keys = name, array, []
        self.elements = draws.random_elements(pick, array.dtype, array.shape)
        self.is_old = may_be_old and pick.random() < 0.5
        if self.is_old:
            array.encoding = "v2"
        self.members = draws.zarray_of(pick, array) if self.is_old else draws.metadata_of(pick, array)
        put(folder, self.metadata_key(), json.dumps(self.members, indent=pick.choice([None, 1])).encode())
        for index in chunks_of(array):
            if pick.random() < 0.2:
                self.elements[place_of(index, array)] = array.fill
                continue
            whole = whole_chunk(array, self.elements, index, pick.randint(0, 1 if array.dtype == "bool" else 100))
            data = bytes_of(array, whole)
            if array.dtype == "bool" and pick.random() < 0.5:
                data = bytes(byte and pick.randint(1, 255) for byte in data)
            put(folder, array.key(name, index), data)
            self.keys.append(array.key(name, index))

    def metadata_key(self):
        return f"{self.name}/{'.zarray' if self.is_old else 'zarr.json'}"


class Case:
    """What the program is given: a folder, a text, and words."""

    def __init__(self, pick, folder, mix, may_be_old=False, fusion=1):
        self.pick, self.folder, self.fusion = pick, folder, fusion
        arrays = draws.arrays_for(pick, mix)
        self.inputs = [Input(pick, folder, name, array, may_be_old) for name, array in zip("abc", arrays)]
        self.text = draws.spelled(pick, draws.random_expression(pick, self.inputs, mix.narrowed(pick)))
        self.allowed, self.reserved = ALLOWED, pick.choice([0, 0, 0, 7, 4096])
        self.split_every = pick.choice([rules.SPLIT_EVERY, rules.SPLIT_EVERY, 2, 3, 5, 64])
        if mix.askew == 1 and mix is not MIXES["check"]:
            self.fit_memory()
        elif mix is not MIXES["check"] and pick.random() < 0.3:
            self.fit_maps()

    def fit_memory(self):
        """Allows about as much as the plan needs."""
        if self.is_typed():
            plan = self.typed_plan()
            most = max(plan.need(k) for k, live in enumerate(plan.live) if live)
            self.allowed = max(0, most + self.pick.choice([-1, 0, 0, 1, self.pick.randint(0, 64), self.pick.randint(0, most), self.pick.randint(0, most), 2 * most, ALLOWED]))

    def fit_maps(self):
        """Allows about as much as an operation of the plan needs, so that some maps are merged, and some arrays inlined, and some aren't."""
        if self.is_typed():
            plan = self.typed_plan()
            projected = self.pick.choice([plan.projected(step) for _, step in plan.operations()])
            self.allowed = max(0, projected + self.pick.choice([-1, 0, 0, -self.pick.randint(0, 2000)]))

    def is_typed(self):
        try:
            rules.typed_plan(self.text.encode(), self.held)
            return True
        except rules.Refused:
            return False

    def typed_plan(self):
        return rules.typed_plan(self.text.encode(), self.held, self.allowed, self.reserved, self.split_every, self.fusion)

    def held(self, key):
        path = os.path.join(self.folder, key)
        if not os.path.isfile(path):
            return None
        with open(path, "rb") as file:
            return file.read()

    def copied(self, folder):
        """Returns the same case in a copy of its folder."""
        shutil.copytree(self.folder, folder)
        case = copy.copy(self)
        case.folder = folder
        return case

    def plan(self):
        return rules.plan_of(self.text.encode(), self.held, self.allowed, self.reserved, self.split_every, self.fusion)

    def damage(self):
        """Spoils something. What comes of it is for the rules to say."""
        kind = self.pick.choice(["text", "text", "text", "argument", "argument", "metadata", "metadata", "metadata", "absent", "chunk",
                                 "chunk", "way", "way", "same", "memory", "memory", "counts", "counts"])
        try:
            getattr(self, f"damage_{kind}")()
        except (rules.Refused, OSError, ValueError, IndexError, TypeError, KeyError, AttributeError):
            pass  # What is damaged already may have no such part.

    def damage_text(self):
        self.text = draws.damaged_text(self.pick, self.text)

    def damage_argument(self):
        self.text = draws.damaged_argument(self.pick, self.text)

    def damage_metadata(self):
        entry = self.pick.choice(self.inputs)
        if not entry.is_old:
            put(self.folder, entry.metadata_key(), draws.damaged_metadata(self.pick, entry.members).encode())
            return
        text = draws.damaged_zarray(self.pick, entry.members).encode()
        told = rules.zarray_or_code(text)
        # Another layout that is accepted would give the array other elements.
        if type(told) is int or vars(told) == vars(entry.array):
            put(self.folder, entry.metadata_key(), text)

    def damage_absent(self):
        os.remove(os.path.join(self.folder, self.pick.choice(self.inputs).metadata_key()))

    def damage_chunk(self):
        entry = self.pick.choice(self.inputs)
        path = os.path.join(self.folder, self.pick.choice(entry.keys))
        # (of no chunk the right length, though it may have been spoiled before)
        size = rules.bytes_of(entry.array.dtype, entry.array.chunk)
        os.truncate(path, self.pick.choice([0, size - 1, size + 1, 2 * size]))

    def damage_way(self):
        key = self.pick.choice(self.plan().keys_in_the_way())
        put(self.folder, key, b"")

    def damage_same(self):
        self.text = json.dumps({**json.loads(self.text), "store_as": self.pick.choice(self.inputs).name})

    def damage_memory(self):
        plan = self.plan()
        need = plan.need(self.pick.choice([k for k, live in enumerate(plan.live) if live]))
        self.allowed = max(0, need - self.pick.choice([0, 1, 1, 2]))
        if self.pick.random() < 0.1:
            self.reserved = self.allowed + 1

    def damage_counts(self):
        """Large arrays of which no chunk is held. A record is in the way, so that none is computed."""
        count = self.pick.choice([16384, 21845, 21846, 32768, 32769, 43690, 52429, 65535, 65536])
        for entry in self.inputs:
            array = draws.random_layout(self.pick, entry.array.dtype, [count], [self.pick.choice([1, 1, 1, 2, 3])])
            put(self.folder, f"{entry.name}/zarr.json", compact(array.written()).encode())
        put(self.folder, "_cubed/y/plan.json", b"{}")

    def bad_chunk(self, plan, arg, where):
        """Returns the line for a chunk of another length of an input, or nothing."""
        if plan.expr["nodes"][arg]["op"] != "input":
            return None
        key = plan.key(arg, where)
        path = os.path.join(self.folder, key)
        dtype, _, chunk = plan.infos[arg]
        want = rules.SIZES[dtype] * int(numpy.prod(chunk, dtype=object))
        if os.path.isfile(path) and os.path.getsize(path) != want:
            return f"error 13 key={key} got={os.path.getsize(path)} want={want}\n"
        return None

    def bad_chunks(self, plan):
        """Returns the lines for chunks of another length that a task reads, and those for such that it may read: a reshape may
        read a chunk of which it needs no element."""
        read, perhaps = set(), set()
        for k in plan.lowered:
            read |= {self.bad_chunk(plan, arg, where) for arg, where in chunks_read(plan, k)}
            if plan.expr["nodes"][k]["op"] in ("reshape", "squeeze", "expand_dims"):
                perhaps |= {self.bad_chunk(plan, arg, where) for arg in plan.arrays(k) for where in plan.chunks(arg)}
        return read - {None}, perhaps - {None}

    def bad_inputs(self, plan):
        """Returns the lines for all chunks of another length of all inputs."""
        arrays = [k for k, node in enumerate(plan.expr["nodes"]) if node["op"] == "input"]
        return {self.bad_chunk(plan, k, where) for k in arrays for where in plan.chunks(k)} - {None}

    def words(self, program, command):
        options = [["--allowed-mem", str(self.allowed)], ["--reserved-mem", str(self.reserved)]]
        if self.split_every != rules.SPLIT_EVERY or self.pick.random() < 0.2:
            options.append(["--split-every", str(self.split_every)])
        if self.fusion != 1:
            options.append(["--fusion", str(self.fusion)])
        if command == "run" and self.pick.random() < 0.5:
            options.append(["--retries", str(self.pick.randint(0, 8))])
        self.pick.shuffle(options)
        return [program, self.folder, command, *itertools.chain(*options)]


# Comparing

def chunks_read(plan, k):
    """Returns the arguments and the chunks of them that the tasks of a node read."""
    node = plan.expr["nodes"][k]
    copied = {(arg, where) for arg, _, _ in plan.copied(k) for where in plan.chunks(arg)}
    if node["op"] in FUNCTIONS:
        straight = [chunk == list(plan.infos[arg][2]) for arg, chunk in zip(plan.arrays(k), plan.aligned_args(k))]
        return copied | {read for place in plan.chunks(k) for read, is_straight in zip(plan.task_inputs(k, place), straight) if is_straight}
    if node["op"] in ("input", "rechunk"):
        return copied
    if node["op"] not in operators.PULLS:
        straight = {arg for arg, chunk in zip(plan.arrays(k), plan.aligned_args(k)) if chunk == list(plan.infos[arg][2])}
        has_tasks = any(step.tasks() for step in plan.own_steps(k))
        return copied | ({(arg, where) for arg in straight for where in plan.chunks(arg)} if has_tasks else set())
    found, first = set(), 0
    places = values.origins(node, [plan.infos[arg][1] for arg in plan.arrays(k)])
    for arg in plan.arrays(k):
        _, shape, chunk = plan.infos[arg]
        count = int(numpy.prod(shape, dtype=int))
        own = numpy.unique(places[(places >= first) & (places < first + count)]) - first
        if shape:
            own = numpy.unique(numpy.stack(numpy.unravel_index(own, shape), -1) // numpy.array(chunk), axis=0) if own.size else []
            found |= {(arg, tuple(map(int, where))) for where in own}
        elif own.size:
            found.add((arg, ()))
        first += count
    return found


def files_in(folder):
    """Returns the keys of all files of a folder, with their sizes."""
    return {os.path.relpath(os.path.join(path, file), folder): os.path.getsize(os.path.join(path, file))
            for path, _, files in os.walk(folder) for file in files}


def must_be_stored(case, plan):
    """Returns what must be stored, by its keys: the record, the metadata of the output, and each chunk that is made."""
    name = plan.expr["store_as"]
    stored = {f"_cubed/{name}/plan.json": compact(plan.record()).encode(),
              f"{name}/zarr.json": compact(plan.array(plan.out).written()).encode()}
    elements = numpy_values(plan, {entry.name: entry.elements for entry in case.inputs})
    for k, at, which, info in plan.parts():
        array = Array(*info)
        part = part_elements(plan, (k, at, which), info, elements)
        for place in chunks_of(array):
            stored[plan.part_key(k, at, which, place)] = bytes_of(array, whole_chunk(array, part, place))
    return stored


def part_elements(plan, part, info, elements):
    """Returns the elements of an array that an operation of a node writes, each made by NumPy of its part of the source."""
    k, at, which = part
    step, node = plan.steps[k][at], plan.expr["nodes"][k]
    if step.kind == "copy":
        return elements[step.arg]
    if step.is_last:
        return elements[k]
    args = [elements[arg] for arg in plan.arrays(k)]
    dtype, shape, _ = info
    if step.kind == "carry":
        return carried(args[0], step.bounds, dtype)
    found = numpy.empty(shape, dtype)
    if node["op"] in operators.GROUPS:
        cuts, axis = step.bounds["labels"], node["axis"] % args[0].ndim
        for number, (low, high) in enumerate(zip(cuts, cuts[1:])):
            found[..., number] = values.grouped(node, args[0].take(range(low, high), axis), args[1][low:high], dtype)
        return found
    if node["op"] == "matmul":
        cuts = step.bounds["inner"]
        for number, (low, high) in enumerate(zip(cuts, cuts[1:])):
            right = args[1][low:high] if args[1].ndim == 1 else args[1][..., low:high, :]
            found[..., number] = numpy.matmul(args[0][..., low:high].astype(dtype), right.astype(dtype))
        return found
    for index in numpy.ndindex(*shape):
        place = [(step.bounds[axis][i], step.bounds[axis][i + 1]) if axis in step.bounds else (i, i + 1) for axis, i in enumerate(index)]
        found[index] = part_element(node, args[0], place, which == len(step.arrays) - 1, dtype)
    return found


def carried(source, bounds, dtype):
    """Returns what is carried into each part: the sum of all that stands before it on the axis."""
    [(axis, cuts)] = bounds.items()
    return numpy.stack([source.take(range(low), axis).sum(axis=axis, dtype=dtype) for low in cuts[:-1]], axis)


def part_element(node, source, place, is_last, dtype):
    """Returns what is made of one part of a source: for a search for places the place, or the value where `is_last` doesn't hold."""
    block = source[tuple(slice(low, high) for low, high in place)]
    if node["op"] not in reductions.PLACES:
        return values.reduced({"op": "sum" if node["op"] == "cumulative_sum" else node["op"]}, block, dtype)
    if not is_last:
        return block.min() if node["op"] == "argmin" else block.max()
    own = numpy.unravel_index(getattr(numpy, node["op"])(block), block.shape)
    index = [int(i) + low for i, (low, _) in zip(own, place)]
    axis = node.get("axis")
    return index[axis] if axis is not None else int(numpy.ravel_multi_index(index, source.shape)) if index else 0


def expected_plan(case):
    """Returns the status and the text that must come of `plan`."""
    try:
        return {(0, rules.counted_plan(case.text.encode(), case.held, case.allowed, case.reserved, case.split_every, case.fusion).lines())}
    except rules.Refused as answer:
        return {(int(str(answer).split()[0]), f"error {answer}\n")}


def expected(case):
    """Returns the statuses and lines of which one must come, and what must be stored."""
    try:
        plan = case.plan()
    except rules.Refused as answer:
        return {(int(str(answer).split()[0]), f"error {answer}\n")}, None
    read, perhaps = case.bad_chunks(plan)
    ends = {(13, line) for line in read | perhaps}
    if not read:
        ends.add((0, plan.report()))
    return ends, must_be_stored(case, plan)


def wrong_files(case, before, stored, is_whole):
    """Why the folder isn't what it must be, or nothing. A run that ended early may have stored a part."""
    after = files_in(case.folder)
    if {key: after.get(key) for key in before} != before:
        return "a file that was there is another"
    for key in set(after) - set(before):
        if key not in stored:
            return f"{key} is stored"
        if case.held(key) != stored[key]:
            return f"{key} is {case.held(key)}, not {stored[key]}"
    missing = set(stored) - set(after)
    return f"{missing} are missing" if is_whole and missing else None


def run_case(pick, program, folder, counts, given):
    """Runs one case, and tells why it is wrong, or nothing."""
    kinds = ["run", "run", "reductions", "views", "copies", "copies", "any", "any", "check"] + (["chains"] * 4 if given.fusion == 2 else [])
    kind = given.only or pick.choice(kinds)
    case = Case(pick, folder, MIXES[kind], given.version_2, given.fusion)
    if pick.random() < 0.1:
        wrong = next(filter(None, (printed_wrong(program, folder, entry) for entry in case.inputs)), None) or loaded_wrong(pick, program, folder)
        if wrong:
            return wrong
    if kind == "check":
        return checked_wrong(case, program, counts)
    if pick.random() < 0.25:
        for _ in range(pick.choice([1, 1, 1, 2])):
            case.damage()
    return planned_wrong(case, program, counts) or worked_wrong(case, program, counts, given.workers) or ran_wrong(case, program, counts)


def called(case, words, counts, how=""):
    """Calls the program with the case's text."""
    ended = subprocess.run(words, input=case.text.encode(), capture_output=True, check=False)
    counts[f"{words[2]}{how} {ended.returncode}"] += 1
    return ended


def planned_wrong(case, program, counts):
    """Tells why what `plan` prints or leaves is wrong, or nothing."""
    before = files_in(case.folder)
    ended = called(case, case.words(program, "plan"), counts)
    wrong = wrong_end(ended, expected_plan(case)) or wrong_files(case, before, {}, False)
    return f"{' '.join(ended.args)} <<< '{case.text}': {wrong}" if wrong else None


def ran_wrong(case, program, counts):
    """Tells why what `run` prints or leaves is wrong, or nothing; now and then `check` looks at it too."""
    ends, stored = expected(case)
    before = files_in(case.folder)
    ended = called(case, case.words(program, "run"), counts)
    wrong = wrong_end(ended, ends) or wrong_files(case, before, stored or {}, ended.returncode == 0)
    if not wrong and ended.returncode == 0 and case.pick.random() < 0.2:
        ended = called(case, [program, case.folder, "check"], counts)
        plan = rules.typed_plan(case.text.encode(), case.held)
        # An input of which no task reads a chunk that is damaged is read whole by `check`.
        count = int(numpy.prod(plan.infos[plan.out][1], dtype=int))
        wrong = wrong_end(ended, {(0, f"equal {count}\n")} | {(13, line) for line in case.bad_inputs(plan)})
    return f"{' '.join(ended.args)} <<< '{case.text}': {wrong}" if wrong else None


def worked_wrong(case, program, counts, workers):
    """Runs the case with each number of workers, each time in a copy of its folder, and tells why what is printed or stored is wrong or
    isn't what the first of them stored, or nothing."""
    ends, stored = expected(case) if workers else (None, None)
    before, first = files_in(case.folder), None
    for count in workers:
        backups = case.pick.randint(0, 1)
        other = case.copied(f"{case.folder}-{count}")
        words = [*other.words(program, "run"), "--workers", str(count), "--backups", str(backups)]
        ended = called(other, words, counts, f" with {count} workers")
        may_repeat = count > 1 and backups == 1
        wrong = wrong_end(ended, ends, may_repeat) or wrong_files(other, before, stored or {}, ended.returncode == 0)
        bytes_held = {key: other.held(key) for key in files_in(other.folder)}
        if ended.returncode == 0:
            first = first or bytes_held
            wrong = wrong or (bytes_held != first and "it stored other bytes than the first number of workers")
        if wrong:
            return f"{' '.join(words)} <<< '{case.text}': {wrong}"
        shutil.rmtree(other.folder)
    return None


def with_one_start_a_task(printed):
    """Returns a report with the starts that there are where no task is run twice, if it has at most two starts a task."""
    told = re.fullmatch(r"(ok ops=\d+ tasks=(\d+) starts=)(\d+)( failed=0 peak=\d+\n)", printed)
    if told and int(told[2]) <= int(told[3]) <= 2 * int(told[2]):
        return told[1] + told[2] + told[4]
    return printed


def wrong_end(ended, ends, may_repeat=False):
    """Why the program's end is none of these, or nothing. Tasks may have been run a second time if `may_repeat` holds."""
    printed, empty = (ended.stderr, ended.stdout) if ended.returncode else (ended.stdout, ended.stderr)
    line = with_one_start_a_task(printed.decode()) if may_repeat else printed.decode()
    if (ended.returncode, line) not in ends or empty:
        return f"it ended with {ended.returncode} {ended.stdout} {ended.stderr}, not {ends}"
    return None


# Outputs that NumPy stores

def output_of(case, plan, pick):
    """Stores the output of an expression in any layout, and returns its elements and its layout."""
    elements = numpy_values(plan, {entry.name: entry.elements for entry in case.inputs})[plan.out]
    dtype, shape, _ = plan.infos[plan.out]
    array = draws.random_layout(pick, dtype, list(shape), sides(pick, len(shape)))
    put(case.folder, "y/zarr.json", json.dumps(draws.metadata_of(pick, array)).encode())
    for place in chunks_of(array):
        whole = whole_chunk(array, elements, place)
        if pick.random() < 0.2 and (elements[place_of(place, array)] == array.fill).all():
            continue
        put(case.folder, array.key("y", place), bytes_of(array, whole))
    return elements, array


def spoil_element(case, pick, elements, array):
    """Stores another number at one index of the output, and returns the line that must come."""
    at = pick.randrange(elements.size)
    index = numpy.unravel_index(at, elements.shape) if elements.ndim else ()
    low, high = rules.limits(array.dtype)
    plain = int(elements[index])
    stored = plain + 1 if plain < high else plain - 1
    spoiled = numpy.array(elements)
    spoiled[index] = stored
    place = tuple(int(i) // side for i, side in zip(index, array.chunk))
    put(case.folder, array.key("y", place), bytes_of(array, whole_chunk(array, spoiled, place)))
    return 17, f"error 17 place={at} stored={stored} plain={plain}\n"


def checked_wrong(case, program, counts):
    """Stores the output of an expression as NumPy computes it, and tells why the program doesn't find it equal, or nothing."""
    pick = case.pick
    try:
        plan = rules.typed_plan(case.text.encode(), case.held)
    except rules.Refused as answer:
        return None if int(str(answer).split()[0]) == 4 else f"{case.text}: {answer}"
    elements, array = output_of(case, plan, pick)
    end = (0, f"equal {elements.size}\n")
    kind = pick.choice(["right", "right", "element", "element", "type", "shape", "absent", "chunk"])
    if kind == "element" and elements.size:
        end = spoil_element(case, pick, elements, array)
    elif kind in ("type", "shape"):
        other = draws.random_layout(pick, array.dtype, array.shape, array.chunk)
        if kind == "type":
            other.dtype = pick.choice([dtype for dtype in TYPES if dtype != array.dtype])
            other.fill, other.endian = 0, "little"
        else:
            other.shape, other.chunk = array.shape + [1], array.chunk + [1]
        if len(other.shape) <= 6:
            put(case.folder, "y/zarr.json", compact(other.written()).encode())
            end = (7, "error 7 name=y code=11\n")
    elif kind == "absent":
        os.remove(os.path.join(case.folder, "y/zarr.json"))
        end = (8, "error 8 name=y\n")
    elif kind == "chunk":
        end = spoil_length(case, pick, array) or end
    before = files_in(case.folder)
    ended = called(case, [program, case.folder, "check"], counts)
    wrong = wrong_end(ended, {end}) or wrong_files(case, before, {}, False)
    return f"{' '.join(ended.args)} <<< '{case.text}': {wrong}" if wrong else None


def spoil_length(case, pick, array):
    """Cuts a chunk of the output, and returns the end that must come, or nothing where none is stored."""
    keys = [array.key("y", place) for place in chunks_of(array)]
    held = [key for key in keys if case.held(key) is not None]
    if not held:
        return None
    key = pick.choice(held)
    path = os.path.join(case.folder, key)
    want = os.path.getsize(path)
    os.truncate(path, want - 1)
    return 13, f"error 13 key={key} got={want - 1} want={want}\n"


# The other commands

def text_of(elements, chunk):
    """What the program prints of an array."""
    def sizes(numbers):
        return ",".join(map(str, numbers))

    lines = [f"{elements.dtype.name} shape [{sizes(elements.shape)}] chunk [{sizes(chunk)}]"]
    if elements.size:
        row = elements.shape[-1] if elements.ndim else 1
        lines += [" ".join(str(x).lower() for x in line.tolist()) for line in elements.reshape(-1, row)]
    return "".join(line + "\n" for line in lines).encode()


def wrong_print(program, folder, name, elements, chunk):
    """Why the print of an array isn't its text, or nothing."""
    ended = subprocess.run([program, folder, "print", name], capture_output=True, check=False)
    if ended.returncode or ended.stderr or ended.stdout != text_of(elements, chunk):
        return f"print {name} gave {ended.returncode} {ended.stdout} {ended.stderr}"
    return None


def printed_wrong(program, folder, entry):
    return wrong_print(program, folder, entry.name, entry.elements, entry.array.chunk)


def loaded_wrong(pick, program, folder):
    """Loads a random array, and says why it isn't stored and printed so, or nothing."""
    shape = draws.random_shape(pick)
    array = Array(pick.choice(TYPES), shape, sides(pick, len(shape)))
    elements = draws.random_elements(pick, array.dtype, shape)
    members = [("name", "loaded"), ("data_type", array.dtype), ("shape", shape), ("chunk_shape", array.chunk),
               ("elements", elements.reshape(-1).tolist())]
    pick.shuffle(members)
    text = json.dumps(dict(members), indent=pick.choice([None, 1])).encode()
    ended = subprocess.run([program, folder, "load"], input=text, capture_output=True, check=False)
    places = list(chunks_of(array))
    if ended.stdout != f"ok elements={elements.size} chunks={len(places)}\n".encode():
        return f"load gave {ended.returncode} {ended.stdout} {ended.stderr}"
    must = {array.key("loaded", place): bytes_of(array, whole_chunk(array, elements, place)) for place in places}
    must["loaded/zarr.json"] = compact(array.written()).encode()
    for key, data in must.items():
        with open(os.path.join(folder, key), "rb") as file:
            if file.read() != data:
                return f"{key} isn't what was loaded"
    return wrong_print(program, folder, "loaded", elements, array.chunk)


def main():
    words = argparse.ArgumentParser(description=__doc__, formatter_class=argparse.RawDescriptionHelpFormatter)
    words.add_argument("--program", default=PROGRAM)
    words.add_argument("--dir", default="/dev/shm" if os.path.isdir("/dev/shm") else tempfile.gettempdir())
    words.add_argument("--cases", type=int, default=20000)
    words.add_argument("--seed", type=int, default=1)
    words.add_argument("--first", type=int, default=0)
    words.add_argument("--only", choices=list(MIXES))
    words.add_argument("--fusion", type=int, choices=[1, 2], default=1)
    words.add_argument("--workers", type=lambda told: [int(count) for count in told.split(",")], default=[])
    words.add_argument("--version-2", action="store_true")
    given = words.parse_args()
    counts = collections.Counter()
    for number in range(given.first, given.cases):
        folder = tempfile.mkdtemp(dir=given.dir, prefix="cubed-compare-")
        wrong = run_case(random.Random(f"{given.seed} {number}"), os.path.abspath(given.program), folder, counts, given)
        if wrong:
            print(f"case {number} of seed {given.seed} in {folder}: {wrong}")
            return 1
        shutil.rmtree(folder)
    print(f"{given.cases - given.first} cases agree: " + ", ".join(f"{count} of {status}" for status, count in sorted(counts.items())))
    return 0


if __name__ == "__main__":
    sys.exit(main())
