"""Arrays in memory as Zarr, for what stands beside the program's arrays: coordinates of floats and texts too, uncompressed, in both versions.

The program reads none of this: its own arrays have `_metadata` and `_saving`.
"""
from __future__ import annotations

import base64
import json
import math
import os
import struct
from typing import Any, Mapping, Optional, Sequence

import numpy as np

from ._dtypes import DType, NDArray
from ._files import write_file
from ._metadata import DIMENSIONS_V2, MOST_LEVELS, MOST_TEXT, is_readable
from ._opening import at_most, read_regular
from ._shapes import Shape, numblocks, product

# The bytes of a chunk, about; the most that are read of one, and the most elements of an array that is read at once.
CHUNK_BYTES = 2**24
MOST_BYTES = 2**31
MOST_ELEMENTS = MOST_BYTES // 8
TEXT = "string"
FLOATS = ("float16", "float32", "float64")
KINDS = "biufU"


def plain_value(value: Any) -> Any:
    """Return an attribute as JSON has it."""
    return value.tolist() if isinstance(value, (np.generic, np.ndarray)) else value


def plain_attributes(attributes: Mapping[Any, Any]) -> dict[str, Any]:
    """Return those of some attributes that each reader takes."""
    found = {str(name): plain_value(value) for name, value in attributes.items()}
    return {name: value for name, value in found.items() if is_readable({name: value}, MOST_LEVELS - 1)}


def chunks_of(shape: Shape, itemsize: int) -> Shape:
    """Return a chunk shape of whole rows: all of an array that is no larger than a chunk."""
    row = max(1, product(shape[1:]) * itemsize)
    return tuple(max(1, size) for size in (max(1, CHUNK_BYTES // row), *shape[1:])) if product(shape) * itemsize > CHUNK_BYTES else \
        tuple(max(1, size) for size in shape)


def chunk_key(zarr_format: int, coordinate: Sequence[int]) -> str:
    """Return the key of a chunk, below the array's folder."""
    parts = [str(at) for at in coordinate]
    return "/".join(["c", *parts]) if zarr_format == 3 else ".".join(parts) or "0"


def _fill_text(value: Any, dtype: DType) -> Any:
    """Return a fill value as JSON has it."""
    if dtype.kind != "f":
        return plain_value(value)
    number = float(value)
    return number if math.isfinite(number) else "NaN" if math.isnan(number) else "Infinity" if number > 0 else "-Infinity"


def array_texts(zarr_format: int, dtype: DType, shape: Shape, chunks: Shape, dims: Sequence[str], attributes: Mapping[str, Any], fill: Any) -> dict[str, Any]:
    """Return the metadata of an array: the members of each of its files by name.

    Parameters
    ----------
    zarr_format : int
        2 or 3.
    dtype : numpy.dtype
        In the byte order of the chunks.
    fill : object
        What stands for a missing value, as xarray has it in `_FillValue`; None where there is nothing.
    """
    attributes = {name: value for name, value in plain_attributes(attributes).items() if name != "_FillValue"}
    if zarr_format == 2:
        told = {"chunks": list(chunks), "compressor": None, "dtype": dtype.str, "fill_value": None if fill is None else _fill_text(fill, dtype),
                "filters": None, "order": "C", "shape": list(shape), "zarr_format": 2}
        return {".zarray": told, ".zattrs": {DIMENSIONS_V2: list(dims), **attributes}}
    is_text, codec = dtype.kind == "U", {"name": "bytes"}
    if is_text:
        codec = {"name": "vlen-utf8"}
    elif dtype.itemsize > 1:
        codec["configuration"] = {"endian": "big" if dtype.str[0] == ">" else "little"}  # type: ignore[assignment]
    if fill is not None and not (dtype.kind == "f" and math.isnan(float(fill))):
        # (as xarray has it there)
        attributes["_FillValue"] = base64.standard_b64encode(struct.pack("<d", float(fill))).decode() if dtype.kind == "f" else plain_value(fill)
    zero: Any = "" if is_text else False if dtype.kind == "b" else 0
    return {"zarr.json": {
        "zarr_format": 3, "node_type": "array", "data_type": TEXT if is_text else dtype.name, "shape": list(shape),
        "chunk_grid": {"name": "regular", "configuration": {"chunk_shape": list(chunks)}},
        "chunk_key_encoding": {"name": "default", "configuration": {"separator": "/"}}, "codecs": [codec],
        "fill_value": zero if fill is None else _fill_text(fill, dtype), "dimension_names": list(dims), "attributes": attributes}}


def group_texts(zarr_format: int, attributes: Mapping[str, Any]) -> dict[str, Any]:
    """Return the metadata of a group: the members of each of its files by name."""
    attributes = plain_attributes(attributes)
    if zarr_format == 2:
        return {".zgroup": {"zarr_format": 2}, ".zattrs": attributes}
    return {"zarr.json": {"zarr_format": 3, "node_type": "group", "attributes": attributes}}


def as_text(members: Mapping[str, Any]) -> bytes:
    """Return metadata as it is written: compact JSON, its members in byte order."""
    return json.dumps(members, sort_keys=True, separators=(",", ":"), allow_nan=False).encode()


def write_texts(folder: str, texts: Mapping[str, Any]) -> None:
    """Write metadata into a folder, which is made where it isn't there."""
    for key, members in texts.items():
        write_file(folder, key, as_text(members))


def _vlen(part: NDArray) -> bytes:
    texts = [str(it).encode() for it in part.ravel()]
    return struct.pack("<I", len(texts)) + b"".join(struct.pack("<I", len(text)) + text for text in texts)


def write_plain(folder: str, zarr_format: int, data: NDArray, dims: Sequence[str], attributes: Mapping[str, Any]) -> dict[str, Any]:
    """Write an array in memory into a folder of its own, the metadata last, and return its metadata.

    Raises
    ------
    TypeError
        Where its elements are neither numbers nor texts.
    StoreFailed
        Where the system refuses.
    """
    if data.dtype.kind not in KINDS:
        raise TypeError(f"an array of {data.dtype} isn't written beside a result: numbers, texts and times are")
    dtype = data.dtype.newbyteorder("<")
    chunks, fill = chunks_of(data.shape, max(1, dtype.itemsize)), attributes.get("_FillValue")
    for coordinate in np.ndindex(*numblocks(data.shape, chunks)):
        part = data[tuple(slice(at * side, (at + 1) * side) for at, side in zip(coordinate, chunks))]
        whole = part
        if part.shape != chunks:
            whole = np.full(chunks, 0 if fill is None or dtype.kind == "U" else fill, dtype)
            whole[tuple(slice(0, size) for size in part.shape)] = part
        is_vlen = zarr_format == 3 and dtype.kind == "U"
        write_file(folder, chunk_key(zarr_format, coordinate), _vlen(whole) if is_vlen else np.ascontiguousarray(whole, dtype).tobytes())
    texts = array_texts(zarr_format, dtype, data.shape, chunks, dims, attributes, fill)
    write_texts(folder, texts)
    return texts


class Outline:
    """What the metadata of any array says, also of one that the program doesn't read: its version, shape, names of axes and attributes.

    `dims` is None where the axes have no names, and `attributes` has the fill value of version 2 as `_FillValue`, as xarray reads it.
    """

    def __init__(self, version: int, members: Mapping[str, Any], attributes: Mapping[str, Any]) -> None:
        self.version, self.members, self.attributes = version, members, dict(attributes)
        self.shape: Shape = tuple(int(size) for size in members["shape"])
        named = members.get("dimension_names") if version == 3 else self.attributes.pop(DIMENSIONS_V2, None)
        is_named = isinstance(named, list) and len(named) == len(self.shape) and all(isinstance(it, str) for it in named)
        self.dims: Optional[tuple[str, ...]] = tuple(named) if named is not None and is_named else None
        if version == 2 and members.get("fill_value") is not None:
            self.attributes.setdefault("_FillValue", members["fill_value"])


def read_json(folder: str, key: str) -> Optional[dict[str, Any]]:
    """Return what a text of metadata says, or None where there is none or it is no JSON object."""
    data = read_regular(os.path.join(folder, key), key, at_most(MOST_TEXT))
    if data is None or len(data) > MOST_TEXT:
        return None
    try:
        found = json.loads(data)
    except (ValueError, RecursionError):
        return None
    return found if isinstance(found, dict) else None


def outline_of(folder: str, name: str) -> Optional[Outline]:
    """Return what the metadata of an array says, or None where it isn't that of one."""
    try:
        members = read_json(folder, f"{name}/zarr.json")
        if members is not None:
            return Outline(3, members, members.get("attributes", {})) if members.get("node_type") == "array" else None
        members = read_json(folder, f"{name}/.zarray")
        return None if members is None else Outline(2, members, read_json(folder, f"{name}/.zattrs") or {})
    except (KeyError, TypeError, ValueError):
        return None


def read_plain(folder: str, name: str, outline: Outline) -> Optional[NDArray]:
    """Return an array of version 3 that is as `write_plain` writes it, or None where it is another one, as a compressed one.

    Raises
    ------
    StoreFailed
        Where something else than a regular file lies in a chunk's place, or the system refuses to read it.
    """
    try:
        return _read_plain(folder, name, outline)
    except (ArithmeticError, AttributeError, TypeError, ValueError):
        # (metadata of another form)
        return None


def _read_plain(folder: str, name: str, outline: Outline) -> Optional[NDArray]:
    its = outline.members
    kind, codecs, grid = its.get("data_type"), its.get("codecs"), its.get("chunk_grid")
    if outline.version != 3 or not (isinstance(codecs, list) and len(codecs) == 1 and isinstance(codecs[0], dict) and isinstance(grid, dict)):
        return None
    is_text = kind == TEXT and codecs[0].get("name") == "vlen-utf8"
    is_number = codecs[0].get("name") == "bytes" and isinstance(kind, str) and (kind in FLOATS or kind == "bool" or kind.startswith(("int", "uint")))
    sides = (grid.get("configuration") or {}).get("chunk_shape")
    if not (is_text or is_number) or grid.get("name") != "regular" or not isinstance(sides, list) or its.get("chunk_key_encoding") != {
            "name": "default", "configuration": {"separator": "/"}}:
        return None
    chunks = tuple(int(side) for side in sides)
    if len(chunks) != len(outline.shape) or any(side < 1 for side in chunks):
        return None
    is_big = (codecs[0].get("configuration") or {}).get("endian") == "big"
    dtype = np.dtype(object) if is_text else np.dtype(kind).newbyteorder(">" if is_big else "<")
    fill = its.get("fill_value")
    found = np.full(outline.shape, float(fill) if isinstance(fill, str) and not is_text else fill, dtype)
    for coordinate in np.ndindex(*numblocks(outline.shape, chunks)):
        key = f"{name}/{chunk_key(3, coordinate)}"
        data = read_regular(os.path.join(folder, key), key, at_most(MOST_BYTES))
        if data is None:
            continue
        part = _texts_in(data, product(chunks)) if is_text else np.frombuffer(data, dtype) if len(data) == product(chunks) * dtype.itemsize else None
        if part is None:
            return None
        where = tuple(slice(at * side, min((at + 1) * side, size)) for at, side, size in zip(coordinate, chunks, outline.shape))
        found[where] = part.reshape(chunks)[tuple(slice(0, it.stop - it.start) for it in where)]
    return found.astype(str) if is_text else found.astype(dtype.newbyteorder("="))


def _texts_in(data: bytes, count: int) -> Optional[NDArray]:
    """Return the texts of a chunk, or None where it hasn't so many."""
    if len(data) < 4 * (count + 1) or struct.unpack_from("<I", data)[0] != count:
        return None
    found, at = np.full(count, "", object), 4
    for place in range(count):
        if at + 4 > len(data):
            return None
        [size] = struct.unpack_from("<I", data, at)
        if at + 4 + size > len(data):
            return None
        found[place], at = data[at + 4:at + 4 + size].decode(errors="replace"), at + 4 + size
    return found


def fill_of(attributes: Mapping[str, Any], dtype: DType) -> dict[str, Any]:
    """Return attributes with the `_FillValue` of floats as a number: xarray writes its bytes in version 3."""
    value = attributes.get("_FillValue")
    if not isinstance(value, str) or dtype.kind != "f":
        return dict(attributes)
    try:
        [number] = struct.unpack("<d", base64.standard_b64decode(value)) if value not in ("NaN", "Infinity", "-Infinity") else [float(value)]
    except (ValueError, struct.error):
        return {name: its for name, its in attributes.items() if name != "_FillValue"}
    return {**attributes, "_FillValue": number}
