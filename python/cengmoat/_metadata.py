"""Zarr metadata of both versions: what is read, and the one text of version 3 that is written."""
from __future__ import annotations

import json
import math
import re
from dataclasses import dataclass, field, replace
from typing import Any, Iterator, Mapping, Optional

import numpy as np

from ._dtypes import BOOL, NAMES, DType, greatest, least
from .errors import BadMetadata
from ._shapes import MOST_AXES, MOST_CHUNK_BYTES, MOST_CHUNKS, MOST_ELEMENTS, Shape, numblocks, product

MOST_TEXT = 1_048_576
# How deep the program reads JSON; the metadata and its attributes are the first two levels.
MOST_LEVELS = 127
# The coordinate of a chunk as it is written.
NUMBER = re.compile(r"(0|[1-9][0-9]{0,18})\Z")
REQUIRED = ("zarr_format", "node_type", "shape", "data_type", "chunk_grid", "chunk_key_encoding", "fill_value", "codecs")
OPTIONAL = ("attributes", "dimension_names", "storage_transformers")
# Of version 2.
DIMENSIONS_V2 = "_ARRAY_DIMENSIONS"
# Attributes of packed numbers.
SCALED = ("scale_factor", "add_offset")
REQUIRED_V2 = ("shape", "chunks", "dtype", "compressor", "fill_value", "order", "filters")
KINDS_V2 = {"b1": "bool", **{f"{sign[0]}{bits // 8}": f"{sign}{bits}" for sign in ("int", "uint") for bits in (8, 16, 32, 64)}}


@dataclass(frozen=True)
class Metadata:
    """The layout of a stored array.

    Attributes
    ----------
    dtype : numpy.dtype
        Its type, in the machine's byte order.
    shape, chunks : tuple of int
        Its shape, and the shape of its chunks.
    fill : int
        What an absent chunk has everywhere.
    is_big : bool
        Whether its chunks are big-endian.
    encoding, separator : str
        How the keys of its chunks are written.
    dimensions : tuple of str or None, or None
        The names of its axes, where it has any: `dimension_names`, of version 2 the attribute that xarray writes.
    attributes : mapping
        Its attributes. Neither these nor the names of axes count where two layouts are compared.
    is_truth : bool
        Whether its attributes say that its int8 numbers are truth values, as xarray stores them in version 2.
    """

    dtype: DType
    shape: Shape
    chunks: Shape
    fill: int = 0
    is_big: bool = False
    encoding: str = "default"
    separator: str = "/"
    dimensions: Optional[tuple[Optional[str], ...]] = field(default=None, compare=False)
    attributes: Mapping[str, Any] = field(default_factory=dict, compare=False)
    is_truth: bool = False

    @property
    def seen_dtype(self) -> DType:
        """The type as which its elements are seen."""
        return BOOL if self.is_truth else self.dtype

    @property
    def numblocks(self) -> Shape:
        """How many chunks each axis has."""
        return numblocks(self.shape, self.chunks)

    @property
    def nchunks(self) -> int:
        """How many chunks the array has."""
        return product(self.numblocks)

    @property
    def chunk_bytes(self) -> int:
        """The bytes of each chunk file."""
        return product(self.chunks) * self.dtype.itemsize

    @property
    def stored_dtype(self) -> DType:
        """The type in the byte order of the files."""
        return self.dtype.newbyteorder(">" if self.is_big else "<")

    def plain(self) -> Metadata:
        """Return the layout without names of axes and attributes, as a record of a run has it."""
        return replace(self, dimensions=None, attributes={})

    def coordinates(self) -> Iterator[Shape]:
        """Go over the coordinates of all chunks, row by row."""
        return iter(np.ndindex(*self.numblocks))

    def chunk_key(self, name: str, coordinate: Shape) -> str:
        """Return the key of a chunk of the array of this name."""
        parts = [str(at) for at in coordinate]
        parts = ["c", *parts] if self.encoding == "default" else parts or ["0"]
        return f"{name}/{self.separator.join(parts)}"

    def has_chunk(self, key: str) -> bool:
        """Return whether this is the key of one of the chunks, below the array's folder."""
        parts = key.split(self.separator)
        if self.encoding == "default":
            if parts.pop(0) != "c":
                return False
        elif not self.shape:
            return key == "0"
        return len(parts) == len(self.shape) and all(NUMBER.match(part) is not None and int(part) < count
                                                     for part, count in zip(parts, self.numblocks))

    def text(self) -> str:
        """Return the metadata as the program writes it: compact JSON, its members in byte order. Attributes that not each reader takes,
        as those of version 2 with NaN, are left out."""
        codec: dict[str, Any] = {"name": "bytes"}
        if self.dtype.itemsize > 1:
            codec["configuration"] = {"endian": "big" if self.is_big else "little"}
        members = {
            "zarr_format": 3, "node_type": "array", "data_type": self.dtype.name, "shape": list(self.shape),
            "chunk_grid": {"name": "regular", "configuration": {"chunk_shape": list(self.chunks)}},
            "chunk_key_encoding": {"name": self.encoding, "configuration": {"separator": self.separator}},
            "codecs": [codec], "fill_value": bool(self.fill) if self.dtype == BOOL else self.fill,
        }
        if self.dimensions is not None:
            members["dimension_names"] = [name if is_readable(name) else None for name in self.dimensions]
        attributes = {name: value for name, value in self.attributes.items() if is_readable({name: value}, MOST_LEVELS - 1)}
        if attributes:
            members["attributes"] = attributes
        return json.dumps(members, sort_keys=True, separators=(",", ":"))


def is_readable(value: Any, levels: int = MOST_LEVELS - 2) -> bool:
    """Return whether each reader takes a value in metadata: JSON has no NaN and no infinity, and the program reads numbers that a float
    holds, texts of UTF-8, and so many levels."""
    if isinstance(value, str):
        return not any("\ud800" <= it <= "\udfff" for it in value)
    if isinstance(value, (list, tuple)):
        return levels > 0 and all(is_readable(it, levels - 1) for it in value)
    if isinstance(value, dict):
        return levels > 0 and all(isinstance(name, str) and is_readable(name) and is_readable(it, levels - 1) for name, it in value.items())
    if isinstance(value, float):
        return math.isfinite(value)
    return value is None or isinstance(value, int) and abs(value) < 2**1023


def _number(text: str) -> int | float:
    """Read a number as the program does: `-0` is no integer."""
    return -0.0 if text == "-0" else int(text)


def _constant(text: str) -> Any:
    """Refuse NaN and Infinity, which Python's reader takes and JSON hasn't."""
    raise ValueError(text)


def _is_int(value: Any) -> bool:
    return isinstance(value, int) and not isinstance(value, bool)


class _Reader:
    """Reads the metadata of one array, and refuses it with the first fault."""

    def __init__(self, name: str) -> None:
        self.name = name

    def need(self, holds: bool, code: int) -> None:
        """Refuse with a code where something doesn't hold."""
        if not holds:
            raise BadMetadata(name=self.name, code=code)

    def members(self, text: bytes, too_long: int, code: int) -> dict[str, Any]:
        """Return the members of a text, refused with these codes."""
        self.need(len(text) <= MOST_TEXT, too_long)
        try:
            members = json.loads(text.decode("utf-8"), parse_constant=_constant, parse_int=_number)
        except (ValueError, RecursionError):
            raise BadMetadata(name=self.name, code=code) from None
        self.need(isinstance(members, dict), code)
        return members

    def part(self, value: Any, code: int) -> tuple[str, dict[str, Any]]:
        """Return the name and the configuration of a part."""
        if isinstance(value, str):
            return value, {}
        self.need(isinstance(value, dict) and isinstance(value.get("name"), str), code)
        self.need(set(value) <= {"name", "configuration", "must_understand"}, code)
        self.need(isinstance(value.get("must_understand", True), bool), code)
        configuration = value.get("configuration", {})
        self.need(isinstance(configuration, dict), code)
        return value["name"], configuration

    def sizes(self, value: Any, low: int, code: int) -> Shape:
        """Return a list of sizes from `low` on, at most one for each of six axes."""
        self.need(isinstance(value, list) and len(value) <= MOST_AXES, code)
        self.need(all(_is_int(size) and low <= size < 2**64 for size in value), code)
        return tuple(value)

    def need_limits(self, shape: Shape, chunks: Shape, dtype: DType, code: int) -> None:
        """Refuse a grid that exceeds a limit."""
        self.need(len(chunks) == len(shape), code)
        self.need(product(max(1, size) for size in shape) <= MOST_ELEMENTS, code)
        self.need(product(chunks) * dtype.itemsize <= MOST_CHUNK_BYTES, code)
        self.need(product(max(1, count) for count in numblocks(shape, chunks)) <= MOST_CHUNKS, code)

    def grid(self, members: dict[str, Any], dtype: DType) -> tuple[Shape, Shape]:
        """Return the shape and the chunk shape, within the limits."""
        shape = self.sizes(members["shape"], 0, 5)
        name, configuration = self.part(members["chunk_grid"], 5)
        self.need(name == "regular" and set(configuration) == {"chunk_shape"}, 5)
        chunks = self.sizes(configuration["chunk_shape"], 1, 5)
        self.need_limits(shape, chunks, dtype, 5)
        return shape, chunks

    def encoding(self, value: Any) -> tuple[str, str]:
        """Return how keys are written, and with which separator."""
        name, configuration = self.part(value, 6)
        self.need(name in ("default", "v2") and set(configuration) <= {"separator"}, 6)
        separator = configuration.get("separator", "/" if name == "default" else ".")
        self.need(separator in ("/", "."), 6)
        return name, separator

    def fill(self, value: Any, dtype: DType) -> int:
        """Return the fill value, a number of the type."""
        if dtype == BOOL:
            self.need(isinstance(value, bool), 7)
        else:
            self.need(_is_int(value) and least(dtype) <= value <= greatest(dtype), 7)
        return int(value)

    def is_big(self, value: Any, dtype: DType) -> bool:
        """Return whether the one codec is that of big-endian bytes."""
        self.need(isinstance(value, list) and len(value) == 1, 8)
        name, configuration = self.part(value[0], 8)
        self.need(name == "bytes" and set(configuration) <= {"endian"}, 8)
        self.need("endian" in configuration or dtype.itemsize == 1, 8)
        endian = configuration.get("endian", "little")
        self.need(endian in ("little", "big"), 8)
        return endian == "big" and dtype.itemsize > 1

    def others(self, members: dict[str, Any], ndim: int) -> Optional[tuple[Optional[str], ...]]:
        """Return the names of the axes, and refuse members that aren't known or are of a wrong kind."""
        names = members.get("dimension_names")
        self.need(isinstance(members.get("attributes", {}), dict), 3)
        if names is not None:
            self.need(isinstance(names, list) and len(names) == ndim and all(it is None or isinstance(it, str) for it in names), 3)
        self.need(members.get("storage_transformers", []) == [], 3)
        for member in set(members) - {*REQUIRED, *OPTIONAL}:
            value = members[member]
            self.need(isinstance(value, dict) and value.get("must_understand") is False, 9)
        return None if names is None else tuple(names)


def read_metadata(name: str, text: bytes) -> Metadata:
    """Return the layout that a metadata text says.

    Parameters
    ----------
    name : str
        The array's name, for the refusal.
    text : bytes
        The content of its `zarr.json`.

    Raises
    ------
    BadMetadata
        Where the text isn't metadata that the program accepts.
    """
    reader = _Reader(name)
    members = reader.members(text, 10, 1)
    reader.need(_is_int(members.get("zarr_format")) and members["zarr_format"] == 3 and members.get("node_type") == "array", 2)
    reader.need(all(member in members for member in REQUIRED), 3)
    kind, configuration = reader.part(members["data_type"], 4)
    reader.need(kind in NAMES and not configuration, 4)
    dtype = np.dtype(kind)
    shape, chunks = reader.grid(members, dtype)
    encoding, separator = reader.encoding(members["chunk_key_encoding"])
    fill = reader.fill(members["fill_value"], dtype)
    is_big = reader.is_big(members["codecs"], dtype)
    dimensions = reader.others(members, len(shape))
    attributes = members.get("attributes", {})
    return Metadata(dtype, shape, chunks, fill, is_big, encoding, separator, dimensions, attributes, _is_truth(dtype, attributes))


def _is_truth(dtype: DType, attributes: Mapping[str, Any]) -> bool:
    """Return whether attributes say that int8 numbers are truth values."""
    return dtype == np.dtype("int8") and attributes.get("dtype") == "bool"


def read_zattrs(text: Optional[bytes]) -> dict[str, Any]:
    """Return the attributes that a text of version 2 says; none where it can't be read, since the program doesn't read it."""
    if text is None or len(text) > MOST_TEXT:
        return {}
    try:
        found = json.loads(text.decode("utf-8"))
    except (ValueError, RecursionError):
        return {}
    return found if isinstance(found, dict) else {}


def read_zarray(name: str, text: bytes, attributes: Optional[dict[str, Any]] = None) -> Metadata:
    """Return the layout that a metadata text of version 2 says.

    Parameters
    ----------
    name : str
        The array's name, for the refusal.
    text : bytes
        The content of its `.zarray`.
    attributes : dict, optional
        Its attributes.

    Raises
    ------
    BadMetadata
        Where the text isn't metadata that the program accepts.
    """
    reader = _Reader(name)
    members = reader.members(text, 30, 21)
    reader.need(_is_int(members.get("zarr_format")) and members["zarr_format"] == 2, 22)
    reader.need(all(member in members for member in REQUIRED_V2), 23)
    said = members["dtype"]
    reader.need(isinstance(said, str) and len(said) == 3 and said[0] in "<>|" and said[1:] in KINDS_V2, 24)
    dtype = np.dtype(KINDS_V2[said[1:]])
    reader.need(said[0] != "|" or dtype.itemsize == 1, 24)
    shape, chunks = reader.sizes(members["shape"], 0, 25), reader.sizes(members["chunks"], 1, 25)
    reader.need_limits(shape, chunks, dtype, 25)
    reader.need(members["compressor"] is None and members["filters"] in (None, []), 28)
    reader.need(members["order"] == "C", 29)
    value = members["fill_value"]
    if dtype == BOOL:
        reader.need(value is None or isinstance(value, int) and value in (0, 1), 27)
    else:
        reader.need(value is None or _is_int(value) and least(dtype) <= value <= greatest(dtype), 27)
    separator = members.get("dimension_separator", ".")
    reader.need(separator in (".", "/"), 26)
    held = dict(attributes or {})
    named = held.pop(DIMENSIONS_V2, None)
    is_named = isinstance(named, list) and len(named) == len(shape) and all(isinstance(it, str) for it in named)
    is_truth = _is_truth(dtype, held)
    if value is not None and dtype != BOOL and not is_truth and (is_named or any(name in held for name in SCALED)):
        # (xarray keeps it there alone; of other arrays it is what is taken for an absent chunk)
        held.setdefault("_FillValue", value)
    return Metadata(dtype, shape, chunks, int(value or 0), said[0] == ">" and dtype.itemsize > 1, "v2", separator,
                    tuple(named) if named is not None and is_named else None, held, is_truth)
