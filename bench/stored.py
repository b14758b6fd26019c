"""What the measures share: commands that are timed, arrays that are stored chunk by chunk, and outputs that are compared."""
from __future__ import annotations

import json
import os
import resource
import shutil
import subprocess
import sys
import tempfile
import time
from typing import Any, Callable, Iterable, Mapping, Optional, Sequence

HERE = os.path.dirname(os.path.abspath(__file__))
sys.path.append(os.path.join(HERE, "..", "tools"))
from zarr_store import Layout  # zarr_store.py, in tools

# As ./cubed has it: large buffers lie in huge pages where the system gives them on demand, as NumPy's do.
os.environ.setdefault("GLIBC_TUNABLES", "glibc.malloc.hugetlb=1")
GNU_TIME = "/usr/bin/time"
PROGRAM = os.path.join(HERE, "..", "crates", "cu_bin", "out", "cu_bin")
MIB = 1 << 20


def see_that_it_is_built(program: str) -> None:
    if not os.access(program, os.X_OK):
        raise SystemExit(f"{program} isn't built yet: run ./cubed at the top of the repository once")


def can_import(python: str, *names: str) -> bool:
    return subprocess.run([python, "-c", "import " + ", ".join(names)], stderr=subprocess.DEVNULL, check=False).returncode == 0


def has_numpy() -> bool:
    return can_import(sys.executable, "numpy")


def folders() -> list[str]:
    """Where is measured if nothing is said: in memory, where there is such a folder, and on the disk."""
    return [*filter(os.path.isdir, ["/dev/shm"]), tempfile.gettempdir()]


def timed(words: Sequence[str], text: str = "") -> tuple[float, str, list[str]]:
    """Runs a command: its seconds by the clock, what it printed, and what GNU time says of it: the seconds of the
    processor in it and in the system, and the greatest resident memory in KiB. (That of a child which this Python
    makes itself would never be less than Python's own.)"""
    with tempfile.NamedTemporaryFile("r") as told:
        measured = [GNU_TIME, "-f", "%U %S %M", "-o", told.name, *words] if os.access(GNU_TIME, os.X_OK) else words
        start = time.perf_counter()
        ran = subprocess.run(measured, input=text, stdout=subprocess.PIPE, text=True)
        taken = time.perf_counter() - start
        if ran.returncode:
            raise SystemExit(f"{words[0]} ended with status {ran.returncode}")
        return taken, ran.stdout.strip(), told.read().split()


def processor_seconds() -> float:
    """The seconds of the processor, in programs and in the system, of all commands that this Python has run."""
    spent = resource.getrusage(resource.RUSAGE_CHILDREN)
    return spent.ru_utime + spent.ru_stime


PEERS = {"numpy": "NumPy", "dask": "Dask"}


def tell(name: str, runs: Mapping[str, list[tuple[float, str, list[str]]]], aims: Optional[Mapping[str, float]] = None) -> list[str]:
    """Prints the least times of the program and of its peers, which tell their own without Python's start, and the program's resident memory.
    Returns which of these aims of the ratios were missed."""
    best, _, told = min(runs["cubed"])
    memory = f", resident {int(told[2]) / 1024:.1f} MiB" if told else ""
    line, missed = f"{name}: cubed {best:.3f} s{memory}", []
    for peer in [peer for peer in PEERS if peer in runs]:
        inside = min(float(said) for _, said, _ in runs[peer])
        ratio, aim = best / inside, (aims or {}).get(peer)
        line += f", {PEERS[peer]} {inside:.3f} s without its start, ratio {ratio:.2f}{f' (aim {aim})' if aim else ''}"
        missed += [f"{name} beside {PEERS[peer]}: {ratio:.2f} for {aim}"] if aim and ratio > aim else []
    print(line, flush=True)
    return missed


# Arrays of chunk files

def metadata(dtype: str, shape: Sequence[int], chunk: Sequence[int], separator: str = "/") -> str:
    """The text of an array's metadata of version 3: little-endian, uncompressed, 0 where a chunk is absent."""
    return Layout(dtype, shape, chunk, separator=separator).text()


def put(path: str, data: Any) -> None:
    os.makedirs(os.path.dirname(path), exist_ok=True)
    with open(path, "wb") as file:
        file.write(data)


def store(path: str, data: Any, sync: bool) -> None:
    """Puts a file in place by a new one that is renamed, as the program does."""
    with open(path + ".new", "wb") as file:
        file.write(data)
        if sync:
            file.flush()
            os.fdatasync(file.fileno())
    os.rename(path + ".new", path)


def places_in(folder: str, name: str) -> list[str]:
    """The places of an array's chunks as their keys of version 3 have them, as in 0/1."""
    top = os.path.join(folder, name, "c")
    return sorted(os.path.relpath(os.path.join(path, file), top) for path, _, files in os.walk(top) for file in files)


def link_as_version_2(folder: str, name: str, dtype: str, shape: Sequence[int], chunk: Sequence[int]) -> str:
    """Returns a folder of version 2 whose chunks are the very files of an array, for a zarr that doesn't read version 3."""
    top = os.path.join(folder, f"{name}_v2")
    if not os.path.isdir(top):
        told = {"zarr_format": 2, "shape": shape, "chunks": chunk, "dtype": dtype, "compressor": None, "fill_value": 0, "order": "C", "filters": None}
        put(os.path.join(top, ".zarray"), json.dumps(told).encode())
        for place in places_in(folder, name):
            os.link(os.path.join(folder, name, "c", place), os.path.join(top, place.replace("/", ".")))
    return top


def same_files(folder: str, name: str, other: str, place_in_other: Callable[[str], str]) -> bool:
    """Whether each chunk of an array is the same as the file of the other's that stands at its place there."""
    places = places_in(folder, name)
    for place in places:
        with open(os.path.join(folder, name, "c", place), "rb") as left, open(os.path.join(folder, other, place_in_other(place)), "rb") as right:
            if left.read() != right.read():
                return False
    return bool(places)


def same_as_version_2(folder: str, name: str, other: str) -> bool:
    """Whether an array of version 3 and a folder of version 2 have the same chunks."""
    return same_files(folder, name, other, lambda place: place.replace("/", "."))


def same_chunks(folder: str, name: str, other: str) -> bool:
    """Whether two arrays of version 3 have the same chunks."""
    return places_in(folder, name) == places_in(folder, other) and same_files(folder, name, other, lambda place: os.path.join("c", place))


# The peers of a day's work

def clear(folder: str, names: Iterable[str]) -> None:
    for name in names:
        shutil.rmtree(os.path.join(folder, name), ignore_errors=True)


def see_that_all_is_the_same(folder: str, name: str) -> None:
    """Compares what the others have stored so far with what the program has."""
    for made, peer, is_same in (("dask", "Dask", same_as_version_2), ("loops", "the plain loops", same_chunks)):
        if all(os.path.isdir(os.path.join(folder, one)) for one in ("y", made)) and not is_same(folder, "y", made):
            raise SystemExit(f"{name}: the chunks of {peer} and of the program differ")


def store_by_dask(folder: str, names: Iterable[str], function: Callable[..., Any], threads: int = 1) -> float:
    """The peer: zarr opens and stores the arrays, Dask goes over the chunks with so many threads. The seconds that this takes."""
    import dask
    import dask.array
    import zarr
    start = time.perf_counter()
    result = function(*(dask.array.from_zarr(zarr.open(os.path.join(folder, f"{name}_v2"), mode="r")) for name in names))
    target = zarr.open(os.path.join(folder, "dask"), mode="w", shape=result.shape, chunks=result.chunksize, dtype=result.dtype, compressor=None)
    with dask.config.set(scheduler="threads" if threads > 1 else "synchronous", num_workers=threads):
        dask.array.store(result, target, lock=False)
    return time.perf_counter() - start
