"""What the scripts beside the program know of a folder of arrays: names, metadata, chunk files, plans, and how chunks are copied.

It follows the forms of docs/GUIDE.md ("The files") and needs the standard library of Python 3.9 alone.
"""
from __future__ import annotations

import array
import contextlib
import itertools
import json
import math
import mmap
import os
import re
import stat
import sys
from typing import IO, TYPE_CHECKING, Any, Callable, Iterator, NamedTuple, Optional, Sequence

from said import Failed, shown
from stdin_text import NAME

if TYPE_CHECKING:
    from typing_extensions import TypeGuard

# Each type with its letter in the module array. Truth values are bytes.
TYPES = {"bool": "B", "int8": "b", "int16": "h", "int32": "i", "int64": "q",
         "uint8": "B", "uint16": "H", "uint32": "I", "uint64": "Q"}
# A number as the program writes it, a chunk in the key encoding in which it writes, and what a write that was stopped left behind a name.
NUMBER = re.compile(r"(0|[1-9][0-9]{0,18})\Z")
CHUNK = re.compile(r"c(/(0|[1-9][0-9]{0,4})){0,6}\Z")
STOPPED = re.compile(r"(.+)\.new[0-9]+\Z")
NO_METADATA = "it has no zarr.json"
GROUP = "it is a group, whose folder can be given as DIR"
METADATA = ("zarr.json", ".zarray", ".zattrs")
MEMBERS = {"zarr_format", "node_type", "shape", "data_type", "chunk_grid", "chunk_key_encoding", "fill_value", "codecs",
           "attributes", "dimension_names", "storage_transformers"}
MEMBERS_V2 = {"shape", "chunks", "dtype", "compressor", "fill_value", "order", "filters"}
# The limits of the program: axes, elements, chunks of an array, and bytes of a chunk and of metadata; and those of a record.
RANK, ELEMENTS, CHUNKS, CHUNK_BYTES, METADATA_BYTES, RECORD_BYTES = 6, 2**40, 65536, 2**28, 2**20, 2**22
# How much of a mapped file may stay in memory while it is copied.
MAPPED = 64 << 20


class Unread(Failed):
    """The metadata isn't one that the program reads."""


def opened(path: str) -> int:
    """The descriptor of a regular file, which may lie behind a link. Anything else, as a pipe or a device, isn't waited for."""
    descriptor = os.open(path, os.O_RDONLY | os.O_NONBLOCK | os.O_CLOEXEC | os.O_NOCTTY)
    if not stat.S_ISREG(os.fstat(descriptor).st_mode):
        os.close(descriptor)
        raise Failed(f"{shown(path, 400)} is no file")
    return descriptor


def bytes_in(path: str, most: int) -> bytes:
    """The bytes of a regular file, of which it has so many at most."""
    with open(opened(path), "rb") as file:
        data = file.read(most + 1)
    if len(data) > most:
        raise Failed(f"{shown(path, 400)} has more than {most} bytes")
    return data


def is_name(name: str) -> bool:
    """Whether this is the name of an array, or of what a write of one left when it was stopped."""
    return NAME.match(re.sub(r"\.new[0-9]+\Z", "", name)) is not None


def item_bytes(dtype: Any) -> int:
    return array.array(TYPES[dtype]).itemsize


def chunk_counts(shape: Sequence[int], chunk: Sequence[int]) -> list[int]:
    return [-(-size // side) for size, side in zip(shape, chunk)]


def sizes_text(sizes: Sequence[int]) -> str:
    return f"[{','.join(map(str, sizes))}]"


class Layout:
    """The layout of a stored array: its type, shape, chunk shape, fill value, byte order and key encoding."""

    def __init__(self, dtype: Any, shape: Sequence[int], chunk: Sequence[int], fill: int = 0, order: str = "little", encoding: str = "default", separator: str = "/") -> None:
        self.dtype, self.shape, self.chunk, self.fill = dtype, list(shape), list(chunk), int(fill)
        self.order, self.encoding, self.separator = order, encoding, separator
        if len(self.shape) > RANK:
            raise Unread(f"the array has {len(self.shape)} axes, and {RANK} are the most")
        if not is_sizes(self.shape) or not is_sizes(self.chunk):
            raise Unread(f"a size isn't a whole number from 0 to {ELEMENTS}")
        if len(self.shape) != len(self.chunk) or 0 in self.chunk:
            raise Unread("the chunk shape wants one size above 0 for each axis")
        if math.prod(max(size, 1) for size in self.shape) > ELEMENTS:
            raise Unread(f"the array has more than {ELEMENTS} elements")
        if self.chunk_bytes > CHUNK_BYTES:
            raise Unread(f"a chunk has {self.chunk_bytes} bytes, and {CHUNK_BYTES} are the most")
        if math.prod(max(count, 1) for count in chunk_counts(self.shape, self.chunk)) > CHUNKS:
            raise Unread(f"the array has more than {CHUNKS} chunks: choose larger ones")

    @property
    def chunk_bytes(self) -> int:
        return math.prod(self.chunk) * item_bytes(self.dtype)

    @property
    def chunk_count(self) -> int:
        return math.prod(chunk_counts(self.shape, self.chunk))

    def is_swapped(self) -> bool:
        """Whether its elements have another byte order than this machine."""
        return item_bytes(self.dtype) > 1 and self.order != sys.byteorder

    def coordinates(self) -> Iterator[tuple[int, ...]]:
        """The coordinates of all chunks, in row-major order."""
        return itertools.product(*map(range, chunk_counts(self.shape, self.chunk)))

    def key(self, coordinate: Sequence[int]) -> str:
        """The file of a chunk, below the array's folder."""
        parts = [str(at) for at in coordinate]
        parts = ["c", *parts] if self.encoding == "default" else parts or ["0"]
        return self.separator.join(parts)

    def coordinate(self, key: str) -> Optional[tuple[int, ...]]:
        """The coordinate of the chunk that has this key, or nothing where no chunk has it."""
        parts = key.split(self.separator)
        if self.encoding == "default":
            if parts[0] != "c":
                return None
            parts = parts[1:]
        elif not self.shape:
            return () if key == "0" else None
        if len(parts) != len(self.shape) or not all(map(NUMBER.match, parts)):
            return None
        found = tuple(map(int, parts))
        return found if all(at < count for at, count in zip(found, chunk_counts(self.shape, self.chunk))) else None

    def text(self) -> str:
        """The one text in which metadata is written: compact JSON, members in byte order."""
        codec: dict[str, Any] = {"name": "bytes"}
        if item_bytes(self.dtype) > 1:
            codec["configuration"] = {"endian": self.order}
        return compact({
            "zarr_format": 3, "node_type": "array", "data_type": self.dtype, "shape": self.shape,
            "chunk_grid": {"name": "regular", "configuration": {"chunk_shape": self.chunk}},
            "chunk_key_encoding": {"name": self.encoding, "configuration": {"separator": self.separator}},
            "codecs": [codec], "fill_value": bool(self.fill) if self.dtype == "bool" else self.fill})


def compact(value: Any) -> str:
    return json.dumps(value, sort_keys=True, separators=(",", ":"))


def part(value: Any, *allowed: str) -> tuple[str, dict[str, Any]]:
    """The name and the configuration of a part of the metadata."""
    if isinstance(value, str):
        return value, {}
    if not isinstance(value, dict) or not isinstance(value.get("name"), str):
        raise Unread("a part of its metadata has no name")
    told = value.get("configuration", {})
    if not isinstance(told, dict) or not set(told) <= set(allowed):
        raise Unread(f"the configuration of {shown(value['name'])} isn't read")
    return value["name"], told


def is_sizes(value: Any) -> TypeGuard[list[int]]:
    return isinstance(value, list) and all(isinstance(size, int) and not isinstance(size, bool) and 0 <= size <= ELEMENTS for size in value)


def is_of(dtype: Any, value: Any) -> bool:
    """Whether a fill value is one of the type's."""
    if dtype == "bool" or isinstance(value, bool):
        return dtype == "bool" and isinstance(value, bool)
    bits = 8 * item_bytes(dtype)
    low, high = (0, 2**bits) if dtype.startswith("u") else (-(2 ** (bits - 1)), 2 ** (bits - 1))
    return isinstance(value, int) and low <= value < high


def layout_of(told: Any) -> Layout:
    """The layout that metadata of version 3 says, where the program reads it."""
    if not isinstance(told, dict):
        raise Unread("its metadata isn't a JSON object")
    if told.get("node_type") == "group":
        raise Unread(GROUP)
    if told.get("zarr_format") != 3 or told.get("node_type") != "array":
        raise Unread("its metadata isn't that of an array of version 3")
    dtype, _ = part(told.get("data_type"))
    if dtype not in TYPES:
        raise Unread(f"its type is {shown(dtype)}, and integers and bool are read")
    grid, sides = part(told.get("chunk_grid"), "chunk_shape")
    if grid != "regular" or not is_sizes(told.get("shape")) or not is_sizes(sides.get("chunk_shape")):
        raise Unread("its shape or its chunk grid isn't read")
    encoding, said = part(told.get("chunk_key_encoding"), "separator")
    separator = said.get("separator", "." if encoding == "v2" else "/")
    if encoding not in ("default", "v2") or separator not in ("/", "."):
        raise Unread("its key encoding isn't read")
    if not is_of(dtype, told.get("fill_value")):
        raise Unread(f"its fill value isn't one of {dtype}")
    codecs = told.get("codecs")
    if not isinstance(codecs, list) or len(codecs) != 1 or part(codecs[0], "endian")[0] != "bytes":
        names = [it.get("name") if isinstance(it, dict) else it for it in codecs[:5]] if isinstance(codecs, list) else []
        raise Unread(f"it has the codecs {', '.join(map(shown, names)) or 'none'}, and only bytes alone is read")
    order = part(codecs[0], "endian")[1].get("endian", "little" if item_bytes(dtype) == 1 else None)
    if order not in ("little", "big"):
        raise Unread("its byte order isn't told")
    for name, value in told.items():
        if name not in MEMBERS and not (isinstance(value, dict) and value.get("must_understand") is False):
            raise Unread(f"its metadata has the unknown member {shown(name)}")
    return Layout(dtype, told["shape"], sides["chunk_shape"], told["fill_value"], order, encoding, separator)


def layout_of_v2(told: Any) -> Layout:
    """The layout that metadata of version 2 says, where the array's bytes can be read as they lie."""
    if not isinstance(told, dict) or told.get("zarr_format") != 2:
        raise Unread("its .zarray isn't that of version 2")
    if not MEMBERS_V2 <= set(told):
        raise Unread(f"its .zarray has no {', '.join(sorted(MEMBERS_V2 - set(told)))}")
    if told["compressor"] is not None or told["filters"] not in (None, []):
        raise Unread("it is compressed or filtered: write it with compressor=None")
    kinds = {"b1": "bool", **{f"{sign}{item_bytes(name)}": name for name in TYPES if name != "bool"
                              for sign in ("u" if name.startswith("u") else "i",)}}
    dtype = told.get("dtype")
    if not isinstance(dtype, str) or dtype[1:] not in kinds or dtype[:1] not in "<>|":
        raise Unread(f"its type is {shown(dtype)}, and integers and bool are read")
    shape, chunk = told.get("shape"), told.get("chunks")
    if not is_sizes(shape) or not is_sizes(chunk):
        raise Unread("its shape or its chunks aren't read")
    name, fill, separator = kinds[dtype[1:]], told.get("fill_value"), told.get("dimension_separator", ".")
    if dtype[0] == "|" and item_bytes(name) > 1:
        raise Unread("its byte order isn't told")
    if told.get("order") != "C":
        raise Unread("its chunks are in column-major order: write it with order='C'")
    fill = bool(fill) if name == "bool" and not isinstance(fill, float) and fill in (None, 0, 1) else 0 if fill is None else fill
    if not is_of(name, fill):
        raise Unread(f"its fill value isn't one of {name}")
    if separator not in (".", "/"):
        raise Unread("the separator of its keys isn't read")
    return Layout(name, shape, chunk, fill, "big" if dtype[0] == ">" and item_bytes(name) > 1 else "little", "v2", separator)


def json_of(path: str, constant: Optional[Callable[[str], Any]] = None) -> Any:
    data = bytes_in(path, METADATA_BYTES)
    try:
        return json.loads(data.decode("utf-8"), parse_constant=constant or no_constant)
    except (ValueError, RecursionError):
        raise Unread("its metadata isn't JSON") from None


def is_read(value: Any, levels: int) -> bool:
    """Whether the program reads a JSON value: numbers that a float holds, texts of UTF-8, and so many levels."""
    if isinstance(value, (list, dict)):
        parts = value if isinstance(value, list) else [*value, *value.values()]
        return levels > 0 and all(is_read(it, levels - 1) for it in parts)
    if isinstance(value, str):
        return not any("\ud800" <= letter <= "\udfff" for letter in value)
    return value is None or (math.isfinite(value) if isinstance(value, float) else abs(value) < 2**1023)


def no_constant(text: str) -> Any:
    raise ValueError(text)


class Stored:
    """An array's name in a folder, and what lies under it."""

    def __init__(self, folder: str, name: str) -> None:
        self.folder, self.name = folder, name
        self.path = os.path.join(folder, name)
        self.plan = os.path.join(folder, "_cubed", name)
        self.record = os.path.join(self.plan, "plan.json")

    def has_record(self) -> bool:
        return os.path.lexists(self.record)

    def layout(self) -> Layout:
        """Its layout, or why the program doesn't read it."""
        for metadata, read in (("zarr.json", layout_of), (".zarray", layout_of_v2)):
            try:
                return read(json_of(os.path.join(self.path, metadata)))
            except (FileNotFoundError, NotADirectoryError):
                continue
            except OSError as error:
                raise Unread(f"its {metadata} can't be read: {error.strerror}") from None
            except Failed as failed:
                raise Unread(str(failed).replace(shown(self.path, 400) + os.sep, "its ")) from None
        raise Unread(NO_METADATA)

    def chunk_path(self, layout: Layout, coordinate: Sequence[int]) -> str:
        return os.path.join(self.path, layout.key(coordinate))

    def state(self, layout: Layout) -> State:
        """The chunks of the array by what their files are."""
        found = State(0, [], {})
        for coordinate in layout.coordinates():
            key = layout.key(coordinate)
            try:
                told = os.stat(os.path.join(self.path, key))
            except (FileNotFoundError, NotADirectoryError):
                found.missing.append(key)
                continue
            except OSError as error:
                found.wrong[key] = f"can't be read: {error.strerror}"
                continue
            if not stat.S_ISREG(told.st_mode):
                found.wrong[key] = "is no file"
            elif told.st_size != layout.chunk_bytes:
                found.wrong[key] = f"has {told.st_size} bytes in place of {layout.chunk_bytes}"
        return found._replace(whole=layout.chunk_count - len(found.missing) - len(found.wrong))

    def is_unfinished(self, layout: Layout) -> bool:
        """Whether a run began to store it and hasn't stored all of it."""
        return self.has_record() and bool(self.state(layout).missing)


class State(NamedTuple):
    """How many chunks of an array are whole files, the keys that have no file, and what is wrong with the files of others."""

    whole: int
    missing: list[str]
    wrong: dict[str, str]


def files_under(path: str) -> tuple[list[str], list[str]]:
    """The files below a folder and the links to folders, which aren't followed; the paths are relative to it."""
    files, links = [], []
    for at, folders, names in os.walk(path) if not os.path.islink(path) else []:
        links += [os.path.relpath(os.path.join(at, name), path) for name in folders if os.path.islink(os.path.join(at, name))]
        start = os.path.relpath(at, path)
        files += names if start == "." else [f"{start}/{name}" for name in names]
    return sorted(files), sorted(links)


def names_in(folder: str) -> list[str]:
    """The names of arrays, of plans, and of what else could be an array, in their order."""
    found: set[str] = set()
    for at in (folder, os.path.join(folder, "_cubed")):
        with contextlib.suppress(OSError):
            found.update(entry.name for entry in os.scandir(at) if is_name(entry.name) and is_folder(entry))
    return sorted(found)


def is_folder(entry: os.DirEntry[str]) -> bool:
    """Whether an entry of a folder is one, or a link to one. A link that leads to itself is none."""
    try:
        return entry.is_dir()
    except OSError:
        return False


class Box:
    """A box of a larger array in row-major or column-major order, copied to and from a chunk by its longest runs."""

    def __init__(self, shape: Sequence[int], chunk: Sequence[int], is_fortran: bool = False) -> None:
        self.shape, self.chunk = shape, chunk
        self.steps = strides(shape[::-1])[::-1] if is_fortran else strides(shape)
        self.sides = strides(chunk)

    def runs(self, coordinate: Sequence[int]) -> Iterator[tuple[slice, slice]]:
        """The slices of the array and of the chunk that hold the same elements."""
        low = [at * side for at, side in zip(coordinate, self.chunk)]
        ends = [min(side, size - start) for side, size, start in zip(self.chunk, self.shape, low)]
        if 0 in ends:
            return
        start = sum(at * step for at, step in zip(low, self.steps))
        along = max(range(len(ends)), key=lambda axis: ends[axis] if self.steps[axis] != 1 else 4 * ends[axis], default=None)
        if along is None:
            yield slice(0, 1), slice(0, 1)
            return
        length, step, side = ends[along], self.steps[along], self.sides[along]
        for index in itertools.product(*(range(1 if axis == along else end) for axis, end in enumerate(ends))):
            outer = start + sum(at * stride for at, stride in zip(index, self.steps))
            inner = sum(at * stride for at, stride in zip(index, self.sides))
            yield slice(outer, outer + (length - 1) * step + 1, step), slice(inner, inner + (length - 1) * side + 1, side)


def strides(sizes: Sequence[int]) -> list[int]:
    """By how many elements two neighbours along each axis lie apart in row-major order."""
    found, step = [], 1
    for size in reversed(sizes):
        found.append(step)
        step *= max(size, 1)
    return found[::-1]


class Mapped:
    """A file as a list of elements from a place on, of which little stays in memory."""

    def __init__(self, file: IO[bytes], dtype: Any, start: int, count: int, writable: bool = False) -> None:
        self.bytes = item_bytes(dtype)
        access = mmap.ACCESS_WRITE if writable else mmap.ACCESS_READ
        self.map = mmap.mmap(file.fileno(), start + count * self.bytes, access=access) if count else None
        self.whole = memoryview(self.map or b"")
        # (of a file without elements nothing is mapped)
        self.elements = self.whole[start:].cast(TYPES[dtype]) if count else self.whole

    def forget(self) -> None:
        """Gives the memory of the file's pages back where they are many; the system keeps them as long as it likes."""
        if self.map is not None and len(self.map) > MAPPED and file_pages() * mmap.PAGESIZE > MAPPED:
            self.map.madvise(mmap.MADV_DONTNEED)

    def close(self) -> None:
        if self.map is not None:
            self.elements.release()
            self.whole.release()
            self.map.close()


def file_pages() -> int:
    """How many pages of files are in this process's memory; 0 where the system doesn't tell."""
    with contextlib.suppress(OSError, ValueError, IndexError), open("/proc/self/statm", encoding="ascii") as file:
        return int(file.read().split()[2])
    return 0


def swapped(data: bytes, dtype: Any) -> bytes:
    """The bytes of elements, each in the other byte order."""
    cells = array.array(TYPES[dtype])
    cells.frombytes(data)
    cells.byteswap()
    return cells.tobytes()
