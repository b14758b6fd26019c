#!/usr/bin/env python3
"""Measures `load` and `print` beside NumPy, in one run.

  texts.py [--program FILE] [--dir FOLDER] [--runs N]

Prints a 1000 by 1000 int32 array in chunks of 250 by 250, and in one chunk, with the program and with NumPy over the same
files; and loads a text of 100,000 numbers with the program and with Python's json and NumPy. The texts and the stored
bytes are compared. For each the least of the runs stands; NumPy's time is without the start of Python and the import.
Then it prints arrays in tall, narrow chunks and in chunks of whole rows, with the program alone, in turns, and compares
both times: each row of the first meets many chunks. The ratio should be at most 2.
"""
import json
import os
import shutil
import subprocess
import sys
import tempfile
import time

import numpy

from measured import turns, words_of
from stored import metadata, put

# each shape with chunks of whole rows, and with narrow ones
NARROW = [((131400, 12), (10950, 12), [(131400, 1), (131400, 5), (10950, 1)]),
          ((360, 60, 60), (10, 60, 60), [(360, 1, 60), (360, 10, 10)])]


def store(folder, name, elements, side):
    """Stores a square array in square chunks."""
    put(os.path.join(folder, name, "zarr.json"), metadata("int32", list(elements.shape), [side, side]).encode())
    for i in range(0, elements.shape[0], side):
        for j in range(0, elements.shape[1], side):
            put(os.path.join(folder, name, "c", str(i // side), str(j // side)), elements[i:i + side, j:j + side].tobytes())


def printed_by_numpy(folder, name, size, side):
    """The text of such an array, from its files."""
    elements = numpy.empty((size, size), "<i4")
    for i in range(size // side):
        for j in range(size // side):
            part = numpy.fromfile(os.path.join(folder, name, "c", str(i), str(j)), "<i4").reshape(side, side)
            elements[i * side:(i + 1) * side, j * side:(j + 1) * side] = part
    lines = [f"int32 shape [{size},{size}] chunk [{side},{side}]"]
    lines += [" ".join(map(str, line)) for line in elements.tolist()]
    return "".join(line + "\n" for line in lines).encode()


def loaded_by_numpy(folder, text):
    """Stores the array of a load text of one axis."""
    told = json.loads(text)
    chunk = told["chunk_shape"][0]
    elements = numpy.array(told["elements"], "<i4")
    for number in range(-(-len(elements) // chunk)):
        whole = numpy.zeros(chunk, "<i4")
        part = elements[number * chunk:(number + 1) * chunk]
        whole[:len(part)] = part
        put(os.path.join(folder, "n", "c", str(number)), whole.tobytes())
    put(os.path.join(folder, "n", "zarr.json"), metadata("int32", told["shape"], told["chunk_shape"]).encode())


def timed(action):
    began = time.perf_counter()
    result = action()
    return time.perf_counter() - began, result


def program_output(words, text=b""):
    return subprocess.run(words, input=text, capture_output=True, check=True).stdout


def measure_print(program, folder, runs, side):
    name = f"a{side}"
    elements = numpy.random.default_rng(1).integers(-2 ** 31, 2 ** 31, size=(1000, 1000), dtype="<i4")
    store(folder, name, elements, side)
    ours = [timed(lambda: program_output([program, folder, "print", name])) for _ in range(runs)]
    peer = [timed(lambda: printed_by_numpy(folder, name, 1000, side)) for _ in range(runs)]
    if ours[0][1] != peer[0][1]:
        raise SystemExit("the texts differ")
    report(f"print, chunks of {side} by {side}", ours, peer)


def store_chunks(folder, name, elements, chunk):
    """Stores an array in chunks of any shape, with zeros past its edges."""
    put(os.path.join(folder, name, "zarr.json"), metadata("int32", list(elements.shape), list(chunk)).encode())
    counts = [-(-size // part) for size, part in zip(elements.shape, chunk)]
    for coord in numpy.ndindex(*counts):
        whole = numpy.zeros(chunk, "<i4")
        part = elements[tuple(slice(number * size, (number + 1) * size) for number, size in zip(coord, chunk))]
        whole[tuple(slice(size) for size in part.shape)] = part
        put(os.path.join(folder, name, "c", *map(str, coord)), whole.tobytes())


def measure_narrow(program, folder, runs, shape, wide, narrow):
    """Prints the same array in tall, narrow chunks and in wide ones, in turns."""
    elements = numpy.random.default_rng(1).integers(-2 ** 31, 2 ** 31, size=shape, dtype="<i4")
    times = {"narrow": [], "wide": []}
    for name, chunk in (("narrow", narrow), ("wide", wide)):
        shutil.rmtree(os.path.join(folder, name), ignore_errors=True)
        store_chunks(folder, name, elements, chunk)
    for name in turns(times, runs):
        times[name].append(timed(lambda: program_output([program, folder, "print", name])))
    if times["narrow"][0][1].partition(b"\n")[2] != times["wide"][0][1].partition(b"\n")[2]:
        raise SystemExit("the texts differ")
    report(f"print of {list(shape)}, chunks of {list(narrow)} beside {list(wide)}", times["narrow"], times["wide"], "narrow", "wide")


def measure_load(program, folder, runs):
    text = json.dumps({"name": "p", "data_type": "int32", "shape": [100000], "chunk_shape": [10000],
                       "elements": list(range(100000))}, separators=(",", ":")).encode()
    ours, peer = [], []
    for _ in range(runs):
        for name in "np":
            shutil.rmtree(os.path.join(folder, name), ignore_errors=True)
        ours.append(timed(lambda: program_output([program, folder, "load"], text)))
        peer.append(timed(lambda: loaded_by_numpy(folder, text)))
    for key in ["zarr.json"] + [f"c/{number}" for number in range(10)]:
        with open(os.path.join(folder, "n", key), "rb") as one, open(os.path.join(folder, "p", key), "rb") as other:
            if one.read() != other.read():
                raise SystemExit(f"{key} differs")
    report(f"load, {len(text)} bytes of text", ours, peer)


def report(what, ours, peer, name="cubed", other_name="NumPy"):
    least, other = min(ours)[0], min(peer)[0]
    print(f"{what}: {name} {least * 1000:.1f} ms, {other_name} {other * 1000:.1f} ms, ratio {least / other:.2f}")


def main():
    words = words_of(__doc__, runs=9, place=tempfile.gettempdir())
    given = words.parse_args()
    program = os.path.abspath(given.program)
    with tempfile.TemporaryDirectory(dir=given.dir) as folder:
        for side in (250, 1000):
            measure_print(program, folder, given.runs, side)
        measure_load(program, folder, given.runs)
        for shape, wide, narrows in NARROW:
            for narrow in narrows:
                measure_narrow(program, folder, given.runs, shape, wide, narrow)


if __name__ == "__main__":
    sys.exit(main())
