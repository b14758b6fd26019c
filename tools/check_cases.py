#!/usr/bin/env python3
"""Writes the table of cases of `check`: check.json in crates/test_cases/data.

usage: tools/check_cases.py      with NumPy 1.24

Elements come from NumPy, or, where NumPy has no value or another one (a division by 0, a shift past the width), from the worked examples
and rules of the specification, written by hand. Bytes, keys and counts of calls are written here anew. Nothing comes from the program.
"""
import itertools
import json
import os

import numpy as np

from said import usage_if_asked

TOP = os.path.dirname(os.path.dirname(os.path.realpath(__file__)))
BEFORE = "error 16 key="


def metadata(dtype, shape, chunk, endian="little", fill=0):
    codec = {"name": "bytes"} if np.dtype(dtype).itemsize == 1 else {"configuration": {"endian": endian}, "name": "bytes"}
    return {
        "chunk_grid": {"configuration": {"chunk_shape": list(chunk)}, "name": "regular"},
        "chunk_key_encoding": {"configuration": {"separator": "/"}, "name": "default"},
        "codecs": [codec],
        "data_type": dtype,
        "fill_value": bool(fill) if dtype == "bool" else fill,
        "node_type": "array",
        "shape": list(shape),
        "zarr_format": 3,
    }


class Array:
    """A stored array: its elements, how they are cut into chunks, and which chunks are absent."""

    def __init__(self, dtype, values, chunk, endian="little", fill=0, absent=()):
        self.values = np.array(values, dtype=dtype)
        self.dtype, self.shape, self.chunk = dtype, list(self.values.shape), list(chunk)
        self.endian, self.fill, self.absent = endian, fill, absent
        assert len(self.chunk) == len(self.shape)

    def places(self):
        return list(itertools.product(*(range(-(-n // c)) for n, c in zip(self.shape, self.chunk))))

    def key(self, name, place):
        return "/".join([name, "c", *map(str, place)])

    def bytes_at(self, place):
        whole = np.full(self.chunk, self.fill, dtype=self.dtype)
        here = tuple(slice(p * c, min((p + 1) * c, n)) for p, c, n in zip(place, self.chunk, self.shape))
        part = self.values[here]
        whole[tuple(slice(0, n) for n in part.shape)] = part
        data = whole.astype(whole.dtype.newbyteorder("<" if self.endian == "little" else ">")).tobytes()
        size = whole.dtype.itemsize
        return {"hex": " ".join(data[at:at + size].hex() for at in range(0, len(data), size))}

    def holds(self, name):
        pairs = [[f"{name}/zarr.json", metadata(self.dtype, self.shape, self.chunk, self.endian, self.fill)]]
        return pairs + [[self.key(name, p), self.bytes_at(p)] for p in self.places() if p not in self.absent]

    def with_element(self, place, value):
        other = Array(self.dtype, self.values.copy(), self.chunk, self.endian, self.fill, self.absent)
        other.values.reshape(-1)[place] = value
        return other


def node(ident, op, args=None, **members):
    return {"id": ident, "op": op, **({} if args is None else {"args": args}), **members}


def expression(inputs, nodes, out=None, store_as="y"):
    return {"nodes": [node(i, "input", name=i) for i in inputs] + nodes, "out": out or nodes[-1]["id"], "store_as": store_as}


def calls_of(inputs, output):
    return sum(1 + len(a.places()) for a in inputs.values()) + 1 + len(output.places())


def holds_of(inputs, output):
    return [pair for name, a in inputs.items() for pair in a.holds(name)] + output.holds("y")


def same(name, inputs, nodes, output, out=None):
    """A stored output that equals its expression, and the same with its last element changed."""
    count = output.values.size
    row = {
        "name": name,
        "input": expression(inputs, nodes, out),
        "calls": calls_of(inputs, output),
        "rows": [{"holds": holds_of(inputs, output), "output": f"equal {count}\n"}],
    }
    if count:
        plain = int(output.values.reshape(-1)[count - 1])
        stored = 1 - plain if output.dtype == "bool" else int(np.array([plain]).astype(object)[0]) - (1 if plain > 0 else -1)
        changed = output.with_element(count - 1, stored)
        row["rows"].append({"holds": holds_of(inputs, changed), "line": f"error 17 place={count - 1} stored={stored} plain={plain}"})
    return row


def row(inputs, nodes, output, out=None):
    """A row of a case: a stored output that equals its expression."""
    return {"input": expression(inputs, nodes, out), "holds": holds_of(inputs, output), "output": f"equal {output.values.size}\n"}


A = Array("int32", [1, 2, 3, 4, 5, 6], [4])
B = Array("int32", [10, 20, 30, 40, 50, 60], [4])
Y = Array("int32", A.values + B.values, [4])
AB = {"a": A, "b": B}
ADD = [node("s", "add", ["a", "b"])]
INPUT = expression(AB, ADD)
KEYS = ["a/zarr.json", "b/zarr.json", "y/zarr.json", "a/c/0", "a/c/1", "b/c/0", "b/c/1", "y/c/0", "y/c/1"]
assert calls_of(AB, Y) == len(KEYS)


def held(**changed):
    """What the addition's depot holds, with keys replaced; `None` takes one away."""
    keys = {k.replace("__", "/").replace("_json", ".json"): v for k, v in changed.items()}
    pairs = [[k, keys.pop(k, v)] for k, v in holds_of(AB, Y)]
    assert not keys, keys
    return [[k, v] for k, v in pairs if v is not None]


def addition():
    yield {"name": "a stored sum equals its expression, whichever call fails", "output": "equal 6\n", "calls": len(KEYS),
           "loops": {"ends": [[BEFORE + k, 0, ""] for k in KEYS], "once": {}, "sinks": True}}
    yield {"name": "the first place that differs is named with both numbers", "rows": [
        {"holds": held(y__c__1={"hex": "38000000 42000000 00000000 00000000"}), "line": "error 17 place=4 stored=56 plain=55"},
        {"holds": held(y__c__0={"hex": "0c000000 16000000 21000000 2c000000"}), "line": "error 17 place=0 stored=12 plain=11"},
        {"holds": held(y__c__0={"hex": "0b000000 17000000 21000000 2d000000"}, y__c__1={"hex": "38000000 42000000 00000000 00000000"}),
         "line": "error 17 place=1 stored=23 plain=22"},
        {"holds": held(y__c__1=None), "line": "error 17 place=4 stored=0 plain=55"},
        {"holds": held(y__c__1={"hex": "37000000 ffffff7f 00000000 00000000"}), "line": "error 17 place=5 stored=2147483647 plain=66"}]}
    yield {"name": "what stands past the edge is passed over", "output": "equal 6\n", "rows": [
        {"holds": held(y__c__1={"hex": "37000000 42000000 09000000 0a000000"})}]}
    yield {"name": "a chunk that is bad or absent", "rows": [
        {"holds": held(a__c__0={"hex": "01"}), "line": "error 13 key=a/c/0 got=1 want=16", "calls": 4},
        {"holds": held(a__c__1={"repeat": [{"hex": "07"}, 15]}), "line": "error 13 key=a/c/1 got=15 want=16", "calls": 5},
        {"holds": held(b__c__0="", a__c__1=None), "line": "error 13 key=b/c/0 got=0 want=16", "calls": 6},
        {"holds": held(y__c__0={"repeat": [{"hex": "0b"}, 17]}), "line": "error 13 key=y/c/0 got=17 want=16", "calls": 8},
        {"holds": held(y__c__1={"hex": "37000000 42000000"}), "line": "error 13 key=y/c/1 got=8 want=16", "calls": 9},
        {"holds": held(y__c__0={"hex": "0c000000 16000000 21000000 2c000000"}, y__c__1={"hex": "37"}), "line": "error 13 key=y/c/1 got=1 want=16"},
        {"holds": held(a__c__1={"hex": "05"}, b__c__0={"hex": "05"}), "line": "error 13 key=a/c/1 got=1 want=16"}]}
    other = metadata("int64", [6], [4])
    yield {"name": "metadata that is absent, refused or of another type or shape", "rows": [
        {"holds": held(a__zarr_json=None), "line": "error 8 name=a", "calls": 2},
        {"holds": held(b__zarr_json="{"), "line": "error 7 name=b code=1", "calls": 2},
        {"holds": held(y__zarr_json=None), "line": "error 8 name=y", "calls": 3},
        {"holds": held(y__zarr_json={"zarr_format": 2}), "line": "error 7 name=y code=2", "calls": 3},
        {"holds": held(a__zarr_json="[]", y__zarr_json=None), "line": "error 7 name=a code=1", "calls": 1},
        {"holds": held(y__zarr_json=other), "line": "error 7 name=y code=11", "calls": 3},
        {"holds": held(y__zarr_json=metadata("int32", [7], [4])), "line": "error 7 name=y code=11", "calls": 3},
        {"holds": held(y__zarr_json=metadata("int32", [], [])), "line": "error 7 name=y code=11", "calls": 3},
        {"holds": held(y__zarr_json=metadata("int32", [6, 1], [4, 1])), "line": "error 7 name=y code=11", "calls": 3}]}
    yield {"name": "an output in other chunks and another byte order", "output": "equal 6\n",
           "rows": [{"holds": A.holds("a") + B.holds("b") + Array("int32", Y.values, [5], "big").holds("y"), "calls": 9},
                    {"holds": A.holds("a") + B.holds("b") + Array("int32", Y.values, [6]).holds("y"), "calls": 8}]}
    yield {"name": "an expression that has no types, behind the output's metadata",
           "input": expression(AB, [node("s", "add", ["a", "b"]), node("t", "logical_not", ["s"])]),
           "rows": [{"line": "error 4 code=6 node=3", "calls": 3}, {"holds": held(y__zarr_json=None), "line": "error 8 name=y", "calls": 3},
                    {"holds": held(y__zarr_json=other), "line": "error 4 code=6 node=3", "calls": 3}]}
    yield {"name": "a text that is no expression", "calls": 0, "rows": [
        {"input": "{\"nodes\":[", "line": "error 3 code=1 node=0"}, {"input": {"nodes": []}, "line": "error 3 code=2 node=0"},
        {"input": expression({}, [node("s", "sort", ["a"])]), "line": "error 3 code=4 node=0"}]}
    yield {"name": "a source that fails", "source_fails_at": 0, "line": "error 11", "calls": 0}
    yield {"name": "a sink that fails", "sink_fails_at": 0, "line": "error 12"}
    yield {"name": "tries are as many as the words say", "rows": [
        {"faults": [{"call": "get", "key": "y/c/1", "times": 2}], "output": "equal 6\n"},
        {"faults": [{"call": "get", "key": "y/c/1", "times": 3}], "line": "error 16 key=y/c/1"},
        {"words": ["check", "--retries", "0"], "faults": [{"call": "get", "key": "b/c/0"}], "line": "error 16 key=b/c/0"},
        {"words": ["check", "--retries", "8"], "faults": [{"call": "get", "key": "y/zarr.json", "times": 8}], "output": "equal 6\n"}]}
    yield {"name": "other words are refused", "calls": 0, "line": "error 2 code=2", "rows": [
        {"words": ["check", "y"]}, {"words": ["check", "--retries"]}, {"words": ["check", "--retries", "9"]}, {"words": ["check", "--allowed-mem", "9"]}]}
    yield {"name": "an output that its own expression reads", "rows": [
        {"input": expression({"a": A}, [node("s", "positive", ["a"])], store_as="a"), "output": "equal 6\n", "calls": 6},
        {"input": expression({"a": A}, [node("s", "negative", ["a"])], store_as="a"), "line": "error 17 place=0 stored=1 plain=-1", "calls": 6}]}
    yield {"name": "an input that two nodes read is read for each of them", "output": "equal 6\n", "calls": 8,
           "input": {"nodes": [node("a", "input", name="a"), node("c", "input", name="a"), node("s", "add", ["a", "c"])], "out": "s", "store_as": "y"},
           "holds": A.holds("a") + Array("int32", A.values * 2, [4]).holds("y")}
    yield {"name": "dead nodes are read and counted", "input": expression(AB, [node("p", "positive", ["a"]), node("q", "add", ["a", "b"])], out="p"),
           "holds": A.holds("a") + B.holds("b") + A.holds("y"), "output": "equal 6\n", "calls": 9}


def too_many():
    full = lambda count: expression({}, [node("f", "full", shape=[count], dtype="int8", value=3, chunk=[4194304])])
    three = [node("f", "full", shape=[1024, 1024], dtype="int8", value=0, chunk=[1024, 1024]), node("e", "eye", rows=1024, cols=1024, k=0, dtype="int8", chunk=[1024, 1024]),
             node("g", "full", shape=[1024, 1024], dtype="int8", value=0, chunk=[1024, 1024]), node("s", "index", ["e"], index=[0])]
    def flat(shape, chunk, dtype="int8"):
        return [["y/zarr.json", metadata(dtype, shape, chunk)]]
    yield {"name": "too many elements", "rows": [
        {"input": expression(AB, [node("s", "add", ["a", "b"])]), "holds": [[f"{name}/zarr.json", metadata("int32", [2097152], [32768])] for name in "aby"],
         "line": "error 6 which=3 count=6291456", "calls": 3},
        {"input": full(4194305), "holds": flat([4194305], [4194304]), "line": "error 6 which=3 count=4194305", "calls": 1},
        {"input": expression({}, three + [node("z", "full", shape=[1048576], dtype="int8", value=0, chunk=[1048576])], out="s"), "holds": flat([1024], [1024]),
         "line": "error 6 which=3 count=4195328", "calls": 1},
        {"input": full(4194305), "holds": flat([4194306], [4194304]), "line": "error 7 name=y code=11", "calls": 1},
        {"input": expression({}, [node("f", "full", shape=[0, 1099511627776], dtype="int8", value=0, chunk=[1, 16777216])]), "holds": flat([0, 1099511627776], [1, 16777216]),
         "output": "equal 0\n", "calls": 1}]}


def families():
    i8, i32 = np.int8, np.int32
    a8 = Array("int8", [-7, -7, -128, 7, 7], [3])
    b8 = Array("int8", [2, 0, -1, -2, 2], [3])
    yield same("divisions round down, and by 0 they are 0", {"a": a8, "b": b8}, [node("s", "floor_divide", ["a", "b"])], Array("int8", [-4, 0, -128, -4, 3], [3]))
    yield same("remainders have the sign of the divisor", {"a": a8, "b": b8}, [node("s", "remainder", ["a", "b"])], Array("int8", [1, 0, 0, -1, 1], [3]))
    yield {"name": "sums are promoted and wrap", "rows": [
        row({"a": Array("int8", [127], [1])}, [node("s", "add", ["a", 1])], Array("int8", [-128], [1])),
        row({"a": Array("uint8", [255], [1]), "b": Array("int8", [-1], [1])}, [node("s", "add", ["a", "b"])], Array("int16", [254], [1])),
        row({"a": Array("int64", [-2**63], [1])}, [node("s", "negative", ["a"])], Array("int64", [-2**63], [1])),
        row({"a": Array("uint64", [2**64 - 1], [1])}, [node("s", "square", ["a"])], Array("uint64", [1], [1]))]}
    shifts = Array("int8", [1, -1, 64, -128, 1], [5])
    by = Array("int8", [7, 1, 2, 8, -1], [5])
    yield same("shifts past the width", {"a": shifts, "b": by}, [node("s", "bitwise_left_shift", ["a", "b"])], Array("int8", [-128, -2, 0, 0, 0], [5]))
    yield same("shifts to the right", {"a": shifts, "b": by}, [node("s", "bitwise_right_shift", ["a", "b"])], Array("int8", [0, -1, 16, -1, 0], [5]))
    m = Array("int16", [[3, -1, 4], [1, -5, 9]], [1, 2])
    r = Array("int16", [2, -1, 4], [2])
    yield same("rows are compared with one array", {"a": m, "b": r}, [node("s", "less", ["a", "b"])], Array("bool", m.values < r.values, [1, 2]))
    yield same("the third of three where the first isn't so", {"a": m, "b": r}, [node("c", "greater", ["a", "b"]), node("s", "where", ["c", "a", -7])],
               Array("int16", np.where(m.values > r.values, m.values, np.int16(-7)), [1, 2]))
    greatest = np.maximum(m.values, r.values) - np.minimum(m.values, np.int16(3))
    yield same("the greater and the lesser", {"a": m, "b": r},
               [node("g", "maximum", ["a", "b"]), node("l", "minimum", ["a", 3]), node("s", "subtract", ["g", "l"])],
               Array("int16", greatest, [1, 2]))
    yield same("numbers between two bounds", {"a": m}, [node("s", "clip", ["a"], min=-1, max=4)],
               Array("int16", np.clip(m.values, -1, 4), [1, 2]))
    yield same("numbers between exchanged bounds", {"a": m}, [node("s", "clip", ["a"], min=4, max=-1)],
               Array("int16", np.full([2, 3], -1), [1, 2]))
    yield same("numbers become truth values", {"a": m}, [node("s", "astype", ["a"], dtype="bool")], Array("bool", m.values != 0, [1, 2]))
    none = Array("int32", [], [4])
    yield same("nothing sums to 0", {"a": none}, [node("s", "sum", ["a"])], Array("int64", 0, []))
    yield same("nothing multiplies to 1", {"a": none}, [node("s", "prod", ["a"])], Array("int64", 1, []))
    yield same("all of nothing is true", {"a": none}, [node("s", "all", ["a"])], Array("bool", True, []))
    yield same("any of nothing is false", {"a": none}, [node("s", "any", ["a"])], Array("bool", False, []))
    yield same("a sum over an empty axis of no rows", {"a": Array("int32", np.zeros([0, 3]), [1, 3])}, [node("s", "sum", ["a"], axes=[1])], Array("int64", np.zeros([0]), [1]))
    big = Array("int64", [4611686018427387904, 4, 3], [1])
    yield same("a product wraps", {"a": big}, [node("s", "prod", ["a"])], Array("int64", 0, []))
    cube = Array("int8", np.array([[[100, 100, -3], [100, 27, 7]], [[-100, -100, -100], [0, 1, 2]]]), [1, 2, 2])
    yield same("a sum over two axes that stay", {"a": cube}, [node("s", "sum", ["a"], axes=[-1, 0], keepdims=True)],
               Array("int64", cube.values.sum(axis=(2, 0), keepdims=True, dtype="int64"), [1, 1, 1]))
    yield same("least and greatest", {"a": cube}, [node("l", "min", ["a"], axes=[1]), node("g", "max", ["a"], axes=[1]), node("s", "subtract", ["g", "l"])],
               Array("int8", cube.values.max(axis=1) - cube.values.min(axis=1), [1, 2]))
    five = Array("int32", [3, 1, 1, 1, 2], [2])
    yield same("the first least place", {"a": five}, [node("s", "argmin", ["a"])], Array("int64", 1, []))
    yield same("the first greatest place along an axis", {"a": cube}, [node("s", "argmax", ["a"], axis=2, keepdims=True)],
               Array("int64", cube.values.argmax(axis=2)[:, :, None], [1, 2, 1]))
    left, right = Array("int32", [[1, 2, 3], [4, 5, 6]], [2, 2]), Array("int32", [1, 1, 1], [2])
    yield same("a product of a matrix and a vector", {"a": left, "b": right}, [node("s", "matmul", ["a", "b"])], Array("int32", [6, 15], [2]))
    p, q = np.arange(12, dtype="int8").reshape(2, 3, 2) * 11, np.arange(8, dtype="uint8").reshape(1, 2, 4) * 31
    yield same("products of matrices wrap", {"a": Array("int8", p, [1, 3, 1]), "b": Array("uint8", q, [1, 2, 3])}, [node("s", "matmul", ["a", "b"])],
               Array("int16", (p.astype(object) @ q.astype(object)).astype("int64").astype("int16"), [1, 3, 3]))
    ones = Array("int32", [1, 2, 3, 4, 5], [1])
    yield same("sums up to each place", {"a": ones}, [node("s", "cumulative_sum", ["a"])], Array("int64", [1, 3, 6, 10, 15], [1]))
    steep = np.array([[2**63 - 1, 1, -2], [5, -(2**63), -1]], "int64")
    yield same("sums along an axis wrap", {"a": Array("int64", steep, [1, 2], "big")}, [node("s", "cumulative_sum", ["a"], axis=-1)],
               Array("int64", np.cumsum(steep, axis=1), [1, 2]))
    line, marks = Array("int32", [1, 2, 3, 4, 5], [2]), Array("int32", [0, 1, 0, 3, 1], [2])
    yield same("the sum of each label's elements", {"a": line, "b": marks}, [node("s", "groupby_sum", ["a", "b"], axis=0, groups=3)], Array("int64", [4, 7, 0], [3]))
    yield same("the least of each label's elements", {"a": line, "b": marks}, [node("s", "groupby_min", ["a", "b"], axis=0, groups=3)], Array("int32", [1, 2, 2**31 - 1], [3]))
    large = Array("uint64", [0, 2**63, 1, 2**64 - 1, 0], [3], absent=[(1,)])
    large.values[3:] = 0
    table = np.arange(15, dtype="int8").reshape(3, 5)
    yield same("groups along the last axis by labels that are in none, or absent", {"a": Array("int8", table, [2, 2]), "b": large}, [node("s", "groupby_sum", ["a", "b"], axis=-1, groups=2)],
               Array("int64", np.stack([table[:, [0, 3, 4]].sum(axis=1), table[:, 2]], axis=1), [2, 2]))
    count = Array("int32", [0, 1, 2, 3, 4], [2])
    yield same("a slice in reverse", {"a": count}, [node("s", "index", ["a"], index=[{"step": -2}])], Array("int32", count.values[::-2], [2]))
    grid = Array("int16", np.arange(24).reshape(2, 3, 4), [1, 2, 3])
    yield same("an index of several entries", {"a": grid}, [node("s", "index", ["a"], index=[-1, "...", "new", {"start": -1, "stop": None, "step": -2}])],
               Array("int16", grid.values[-1, ..., None, -1:None:-2], [2, 1, 2]))
    rows = Array("int32", [[1, 2, 3], [4, 5, 6]], [1, 2])
    yield same("another shape", {"a": rows}, [node("s", "reshape", ["a"], shape=[3, -1])], Array("int32", rows.values.reshape(3, 2), [1, 2]))
    yield same("axes in another order", {"a": grid}, [node("s", "permute_dims", ["a"], axes=[2, 0, 1])], Array("int16", grid.values.transpose(2, 0, 1), [3, 1, 2]))
    yield same("axes of size 1 put in and taken out", {"a": grid}, [node("e", "expand_dims", ["a"], axis=-2), node("f", "flip", ["e"], axes=[-1]), node("s", "squeeze", ["f"], axes=[2])],
               Array("int16", grid.values[:, :, ::-1], [1, 2, 3]))
    yield same("a flip of all axes", {"a": grid}, [node("s", "flip", ["a"])], Array("int16", np.flip(grid.values), [1, 2, 3]))
    yield same("a roll", {"a": grid}, [node("s", "roll", ["a"], shifts=[5, -1], axes=[1, -1])], Array("int16", np.roll(grid.values, (5, -1), (1, 2)), [1, 2, 3]))
    yield same("a broadcast", {"a": right}, [node("s", "broadcast_to", ["a"], shape=[2, 3], chunk=[2, 2])], Array("int32", np.broadcast_to(right.values, [2, 3]), [2, 2]))
    yield same("other chunks", {"a": grid}, [node("s", "rechunk", ["a"], chunk=[2, 1, 4])], Array("int16", grid.values, [2, 1, 4]))
    yield same("pieces one after the other", {"a": rows, "b": Array("int8", [[-1], [-2]], [1, 1])}, [node("s", "concat", ["b", "a", "b"], axis=-1)],
               Array("int32", np.concatenate([[[-1], [-2]], rows.values, [[-1], [-2]]], axis=1), [1, 1]))
    yield same("pieces on a new axis", {"a": rows, "b": Array("uint8", [[7, 8, 9], [1, 2, 3]], [2, 3])}, [node("s", "stack", ["a", "b"], axis=-1)],
               Array("int32", np.stack([rows.values, [[7, 8, 9], [1, 2, 3]]], axis=-1), [1, 2, 1]))
    yield same("triangles", {"a": rows}, [node("l", "tril", ["a"], k=0), node("u", "triu", ["a"], k=1), node("s", "multiply", ["u", -1]), node("t", "add", ["l", "s"])],
               Array("int32", np.tril(rows.values) - np.triu(rows.values, 1), [1, 2]))
    yield same("made arrays", {}, [node("r", "arange", start=10, stop=-3, step=-4, dtype="int16", chunk=[3]), node("e", "eye", rows=4, cols=4, k=-1, dtype="int8", chunk=[2, 3]),
                                   node("s", "multiply", ["e", "r"])],
               Array("int16", np.eye(4, k=-1, dtype="int16") * np.arange(10, -3, -4, dtype="int16"), [2, 3]))
    yield same("a truth byte other than 0 and 1 is true", {"a": Array("bool", [True, False], [2])}, [node("s", "logical_not", ["a"])], Array("bool", [False, True], [2]))
    bent = {"a": Array("int16", [258, -2, -1, -1], [2], "big", -1, [(1,)])}
    yield same("an input in the other byte order with a chunk that is absent", bent, [node("s", "negative", ["a"])], Array("int16", [-258, 2, 1, 1], [2]))


def table():
    return {
        "kind": "calls",
        "texts": {},
        "shared": {"words": ["check"], "input": INPUT, "holds": holds_of(AB, Y)},
        "cases": [*addition(), *too_many(), *families()],
    }


def main():
    said = table()
    for case in said["cases"]:
        if case["name"].startswith("a truth byte"):
            case["rows"][0]["holds"][1][1] = {"hex": "07 00"}
    lines = ["{", '"kind": "calls",', f'"texts": {json.dumps(said["texts"])},', f'"shared": {json.dumps(said["shared"])},', '"cases": [']
    lines += [",\n".join(json.dumps(case) for case in said["cases"]), "]", "}"]
    with open(f"{TOP}/crates/test_cases/data/check.json", "w") as out:
        out.write("\n".join(lines) + "\n")
    print(len(said["cases"]), "cases")


if __name__ == "__main__":
    usage_if_asked(__doc__)
    main()
