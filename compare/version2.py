#!/usr/bin/python3
"""Reads with the program what zarr-python 2, Dask and xarray write as Zarr version 2, and compares with NumPy.

  version2.py [--program FILE] [--dir FOLDER] [--adopt] [--files-only]

The three peers write arrays without a compressor: every type in both byte orders, both separators of keys, fill values and none, chunks
that don't divide the shape, chunks that aren't stored, rank 0 and an axis of size 0, in a group with attributes and consolidated
metadata. Over each the program computes, and its outputs are compared with NumPy's, read from the files by their own rules.

--adopt        first writes the zarr.json of each array by tools/zarr, for a program that doesn't read version 2 itself
--files-only   runs no program: reads the peers' files by the rules of version 2, and compares with what the peers were given
"""
import argparse
import itertools
import json
import os
import subprocess
import sys
import tempfile

import dask
import dask.array
import numpy
import xarray
import zarr

from compare import HERE, chunks_of, place_of
from rules import SIZES, Array

sys.path.append(os.path.join(HERE, "..", "bench"))
from stored import PROGRAM, see_that_it_is_built  # stored.py, in bench

TOP = os.path.dirname(os.path.dirname(os.path.realpath(__file__)))
SHAPES = [((7, 5), (3, 2)), ((11,), (4,)), ((), ()), ((2, 3, 4), (2, 1, 3)), ((3, 0), (2, 1))]


def elements_of(rng, dtype, shape, fill):
    """Random elements of the type, both ends among them, and the fill value alone on the first three places of the first axis."""
    if dtype == "bool":
        elements = rng.integers(0, 2, shape).astype(bool)
    else:
        range_of = numpy.iinfo(dtype)
        elements = rng.integers(range_of.min, range_of.max, shape, dtype, endpoint=True)
        if elements.size > 1:
            elements.flat[-2:] = range_of.min, range_of.max
    if elements.ndim and len(elements) > 3:
        elements[:3] = fill
    return elements


def by_zarr(folder, rng):
    """Writes arrays with zarr-python 2, and yields their names and elements."""
    zarr.open_group(folder, mode="w").attrs["title"] = "of zarr-python"
    forms = itertools.product(SIZES, "<>", SHAPES, "./", (0, 1, None))
    for number, (dtype, order, (shape, chunks), separator, fill) in enumerate(forms):
        elements = elements_of(rng, dtype, shape, fill or 0)
        name = f"z{number}"
        array = zarr.open_array(os.path.join(folder, name), mode="w", shape=shape, chunks=chunks, dtype=numpy.dtype(dtype).newbyteorder(order),
                                compressor=None, fill_value=fill, dimension_separator=separator, write_empty_chunks=fill is None)
        array[...] = elements
        array.attrs["number"] = number
        yield name, elements


def by_dask(folder, rng):
    """Writes arrays with Dask, and yields their names and elements."""
    for dtype, (shape, chunks) in itertools.product(SIZES, SHAPES[:2]):
        elements = elements_of(rng, dtype, shape, 0)
        name = f"d{dtype}{len(shape)}"
        dask.array.from_array(elements, chunks=chunks).to_zarr(os.path.join(folder, name), compressor=None)
        yield name, elements


def by_xarray(folder, rng):
    """Writes a data set with xarray, consolidated, and yields its names and elements."""
    # xarray stores truth values as int8, and keeps the type in an attribute.
    values = {f"x{dtype}": elements_of(rng, dtype, (7, 5), 0) for dtype in SIZES if dtype != "bool"}
    data = xarray.Dataset({name: (("row", "column"), elements, {"units": "m"}) for name, elements in values.items()},
                          coords={"row": numpy.arange(7), "column": numpy.arange(5)}, attrs={"title": "of xarray"})
    told = {name: {"compressor": None, "chunks": (3, 2)} for name in values}
    data.to_zarr(folder, mode="a", consolidated=True, encoding={**told, "row": {"compressor": None}, "column": {"compressor": None}})
    yield from values.items()
    yield "row", numpy.arange(7)


def layout_of(folder, name):
    """What a `.zarray` says, by the form of version 2."""
    with open(os.path.join(folder, name, ".zarray"), encoding="utf-8") as file:
        told = json.load(file)
    assert told["zarr_format"] == 2 and told["compressor"] is None and not told["filters"] and told["order"] == "C", told
    dtype = numpy.dtype(told["dtype"])
    endian = "big" if told["dtype"][0] == ">" and dtype.itemsize > 1 else "little"
    return Array(dtype.newbyteorder("=").name, told["shape"], told["chunks"], int(told["fill_value"] or 0), endian, "v2", told.get("dimension_separator", "."))


def read(folder, name, array):
    """The elements of a stored array, chunk by chunk; a chunk that isn't stored is the fill value."""
    elements = numpy.full(array.shape, array.fill, array.dtype)
    stored = numpy.dtype(array.dtype).newbyteorder(">" if array.endian == "big" else "<")
    for coordinate in chunks_of(array):
        path = os.path.join(folder, array.key(name, coordinate))
        if os.path.exists(path):
            place = place_of(coordinate, array)
            elements[place] = numpy.fromfile(path, stored).reshape(array.chunk)[tuple(map(slice, elements[place].shape))]
    return elements


def expressions(name, elements):
    """Yields an expression's operator with its members, and NumPy's elements."""
    with numpy.errstate(all="ignore"):
        if elements.dtype == bool:
            yield "logical_not", ["x"], {}, ~elements
            yield "any", ["x"], {}, elements.any()
        else:
            yield "add", ["x", "x"], {}, elements + elements
            yield "sum", ["x"], {}, elements.sum(dtype=numpy.uint64 if elements.dtype.kind == "u" else numpy.int64)


def call(program, folder, command, text):
    done = subprocess.run([program, folder, command], input=text, capture_output=True, text=True, check=False)
    assert done.returncode == 0, (folder, command, text, done.stdout, done.stderr)
    return done.stdout


def compute(program, folder, name, elements):
    """Computes over an array with the program, and compares."""
    for op, args, members, must in expressions(name, elements):
        output = f"y{op}{name}"[:32]
        nodes = [{"id": "x", "op": "input", "name": name}, {"id": "r", "op": op, "args": args, **members}]
        text = json.dumps({"nodes": nodes, "out": "r", "store_as": output})
        call(program, folder, "run", text)
        call(program, folder, "check", text)
        with open(os.path.join(folder, output, "zarr.json"), encoding="utf-8") as file:
            told = json.load(file)
        array = Array(told["data_type"], told["shape"], told["chunk_grid"]["configuration"]["chunk_shape"], int(told["fill_value"]))
        found = read(folder, output, array)
        assert found.dtype == must.dtype and (found == must).all(), (folder, name, op)


def main():
    words = argparse.ArgumentParser(description=__doc__, formatter_class=argparse.RawDescriptionHelpFormatter)
    words.add_argument("--program", default=PROGRAM)
    words.add_argument("--dir", default=tempfile.gettempdir())
    words.add_argument("--adopt", action="store_true")
    words.add_argument("--files-only", action="store_true")
    given = words.parse_args()
    program = os.path.abspath(given.program)
    if not given.files_only:
        see_that_it_is_built(program)
    print(f"zarr-python {zarr.__version__}, Dask {dask.__version__}, xarray {xarray.__version__}, NumPy {numpy.__version__}")
    for write in (by_zarr, by_dask, by_xarray):
        rng, count = numpy.random.default_rng(2), 0
        with tempfile.TemporaryDirectory(dir=given.dir, prefix="cubed-version2-") as folder:
            for name, elements in write(folder, rng):
                found = read(folder, name, layout_of(folder, name))
                assert found.dtype == elements.dtype and (found == elements).all(), (write.__name__, name)
                if given.adopt:
                    subprocess.run([os.path.join(TOP, "tools", "zarr"), folder, "adopt", name], check=True, stdout=subprocess.DEVNULL)
                if not given.files_only:
                    compute(program, folder, name, elements)
                count += 1
        print(f"{write.__name__}: {count} arrays agree")


if __name__ == "__main__":
    sys.exit(main())
