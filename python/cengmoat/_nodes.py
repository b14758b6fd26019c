"""Expressions as nodes: each with its operator, its arguments and what is known of its array without running."""
from __future__ import annotations

import json
from typing import TYPE_CHECKING, Any, Iterator, Mapping, Optional, Sequence, Union

from ._dtypes import DType, Literal, NDArray
from ._shapes import Shape, product
from .errors import BadExpression

if TYPE_CHECKING:
    from ._metadata import Metadata
    from ._store import Store

MOST_NODES = 256
INFIX = {
    "add": "+", "subtract": "-", "multiply": "*", "floor_divide": "//", "remainder": "%", "bitwise_and": "&", "bitwise_or": "|",
    "bitwise_xor": "^", "bitwise_left_shift": "<<", "bitwise_right_shift": ">>", "equal": "==", "not_equal": "!=", "less": "<",
    "less_equal": "<=", "greater": ">", "greater_equal": ">=", "matmul": "@",
}
PREFIX = {"negative": "-", "positive": "+", "bitwise_invert": "~"}
# The members that a node's Python expression shows, by the names that they have in Python.
SHOWN = {"axes": "axis", "axis": "axis", "keepdims": "keepdims", "dtype": "dtype", "shape": "shape", "chunk": "chunks", "k": "k",
         "shifts": "shift", "start": "start", "stop": "stop", "step": "step", "value": "fill_value", "rows": "n_rows", "cols": "n_cols",
         "min": "min", "max": "max", "groups": "groups"}


class Node:
    """A node of an expression. It is never changed.

    Attributes
    ----------
    op : str
        The operator; "data" is an array in memory that is stored before a run.
    args : tuple of Node, int or bool
        The arguments, written numbers among them.
    members : mapping
        The operator's other members, as the program reads them.
    dtype, shape, chunks
        The type, shape and chunk shape of its array.
    store : Store or None
        The store of the arrays on which it depends, where there are any.
    data : numpy.ndarray or None
        The array in memory, of "data" alone.
    takes_unfinished : bool
        Of an input, whether it is used also where the run that makes it hasn't finished.
    meta : Metadata or None
        Of an input, the layout that was read when it was made.
    folder : str or None
        Of an input, the folder in which it lies.
    count : int
        At most how many different nodes its expression has, itself included.

    Raises
    ------
    BadExpression
        Where its expression has more than 256 different nodes.
    """

    __slots__ = ("op", "args", "members", "dtype", "shape", "chunks", "store", "data", "takes_unfinished", "meta", "folder", "count")

    def __init__(self, op: str, args: Sequence[Union[Node, Literal]], members: Mapping[str, Any], dtype: DType, shape: Shape,
                 chunks: Shape) -> None:
        self.op, self.args, self.members = op, tuple(args), dict(members)
        self.dtype, self.shape, self.chunks = dtype, shape, chunks
        self.data: Optional[NDArray] = None
        self.takes_unfinished = False
        self.meta: Optional[Metadata] = None
        self.folder: Optional[str] = None
        self.store: Optional[Store] = None
        for arg in self.arrays:
            self.store = _joined(op, self.store, arg.store)
        # (each of the arguments' nodes may stand in several of them, so they are counted only where the sum is above the limit)
        self.count: int = 1 + sum(arg.count for arg in self.arrays)
        if self.count > MOST_NODES:
            self.count = len(Graph(self).nodes)
            check_count(self.count)

    @classmethod
    def stored(cls, store: Store, name: str, meta: Metadata, takes_unfinished: bool, folder: Optional[str] = None) -> Node:
        """Return the node of an array that is stored in a folder, which is the store's where none is given."""
        found = cls("input", (), {"name": name}, meta.dtype, meta.shape, meta.chunks)
        found.store, found.takes_unfinished, found.meta, found.folder = store, takes_unfinished, meta, folder or store.folder
        return found

    @classmethod
    def in_memory(cls, data: NDArray, chunks: Shape) -> Node:
        """Return the node of an array in memory, which isn't changed any more."""
        found = cls("data", (), {}, data.dtype, data.shape, chunks)
        found.data = data
        return found

    def __reduce__(self) -> tuple[Any, ...]:
        """Return what a pickle has: all nodes in one list, arguments first, since one within another would be too deep for it."""
        places: dict[int, int] = {}
        rows = []
        for node in in_order(self):
            args = [(True, places[id(arg)]) if isinstance(arg, Node) else (False, arg) for arg in node.args]
            rows.append((args, {name: getattr(node, name) for name in self.__slots__ if name != "args"}))
            places[id(node)] = len(places)
        return _restored, (rows,)

    @property
    def stored_as(self) -> Optional[Node]:
        """The input whose elements these are as they are stored; also of int8 numbers that stand for truth values."""
        if self.op == "input":
            return self
        first = self.arrays[0] if self.op == "astype" else None
        is_truth = first is not None and self.dtype.kind == "b" and first.meta is not None and first.meta.is_truth
        return first if is_truth else None

    @property
    def arrays(self) -> tuple[Node, ...]:
        """The arguments that are arrays."""
        return tuple(arg for arg in self.args if isinstance(arg, Node))

    @property
    def chunk_bytes(self) -> int:
        """The bytes of a chunk."""
        return product(self.chunks) * self.dtype.itemsize


def _joined(op: str, one: Optional[Store], other: Optional[Store]) -> Optional[Store]:
    """Return the store of an expression over arrays of two: the first that has a work folder, or that of the one folder of both.

    Raises
    ------
    ValueError
        Where they are of two folders and neither has a work folder.
    """
    if one is None or other is None:
        return other if one is None else one
    if one.work is not None or (other.work is None and one.folder == other.folder):
        return one
    if other.work is None:
        raise ValueError(f"{op} of arrays of two stores, {one.folder} and {other.folder}: an expression over several folders is run in one of yours."
                         f" Write cengmoat.Store({one.folder!r}, work=\"scratch/mine\") for the first")
    return other


def check_count(count: int) -> None:
    """Refuse an expression of more than 256 different nodes, by BadExpression."""
    if count > MOST_NODES:
        raise BadExpression(code=7, node=0, advice=f"This expression has {count} different nodes, and {MOST_NODES} are allowed:"
                            " y = x.store(\"part\") computes a part of it and gives it as a stored array, with which to go on.")


def _restored(rows: list[tuple[list[tuple[bool, Any]], dict[str, Any]]]) -> Node:
    """Return the last node of a pickle's list."""
    found: list[Node] = []
    for args, members in rows:
        node = Node.__new__(Node)
        node.args = tuple(found[value] if is_node else value for is_node, value in args)
        for name, value in members.items():
            setattr(node, name, value)
        found.append(node)
    return found[-1]


def in_order(node: Node) -> list[Node]:
    """Return a node and all on which it depends, each once, arguments first."""
    found: list[Node] = []
    seen: set[int] = set()
    waiting: list[tuple[Node, Iterator[Node]]] = [(node, iter(node.arrays))]
    while waiting:
        at, rest = waiting[-1]
        arg = next((arg for arg in rest if id(arg) not in seen), None)
        if arg is not None:
            seen.add(id(arg))
            waiting.append((arg, iter(arg.arrays)))
        else:
            waiting.pop()
            found.append(at)
    return found


def operations(node: Node) -> int:
    """Return how many nodes an expression has that aren't stored arrays."""
    return len(Graph(node).computed)


class Graph:
    """An expression with each node once, numbered as the program numbers them.

    Parameters
    ----------
    out : Node
        The node that is stored.
    data_names : mapping from int to str, optional
        The names under which arrays in memory are stored, and inputs lie in the folder of the run, by the identities of their nodes.

    Attributes
    ----------
    nodes : list of Node
        Each node once; `places` has the numbers of all, by their identities, and `out` that of the result.
    stored : list of Node
        The inputs as they were read: several of one name where arrays were stored under it one after another.
    """

    def __init__(self, out: Node, data_names: Optional[Mapping[int, str]] = None) -> None:
        self.nodes: list[Node] = []
        self.texts: list[dict[str, Any]] = []
        numbers: dict[str, int] = {}
        places: dict[int, int] = {}
        order = in_order(out)
        self.stored = list({(node.folder, node.members["name"], node.meta, node.takes_unfinished): node
                            for node in order if node.op == "input"}.values())
        for node in order:
            members = dict(node.members)
            if node.op == "data":
                members["name"] = (data_names or {}).get(id(node), f"memory-{id(node)}")
            if node.op == "input":
                members["name"] = (data_names or {}).get(id(node), members["name"])
            if node.op not in ("input", "data") and node.args:
                members["args"] = [f"n{places[id(arg)]}" if isinstance(arg, Node) else arg for arg in node.args]
            text: dict[str, Any] = {"op": "input" if node.op == "data" else node.op, **members}
            key = json.dumps([text, node.folder], sort_keys=True)
            if key not in numbers:
                numbers[key] = len(self.nodes)
                self.nodes.append(node)
                self.texts.append({"id": f"n{len(self.texts)}", **text})
            places[id(node)] = numbers[key]
        self.places, self.out = places, places[id(out)]

    @property
    def computed(self) -> list[Node]:
        """The nodes that aren't stored arrays."""
        return [node for node in self.nodes if node.op not in ("input", "data")]

    @property
    def inputs(self) -> list[str]:
        """The names of the stored arrays, each once."""
        return list(dict.fromkeys(text["name"] for node, text in zip(self.nodes, self.texts) if node.op == "input"))

    def text(self, name: str) -> str:
        """Return the text for the program that stores the result under a name."""
        return json.dumps({"nodes": self.texts, "out": f"n{self.out}", "store_as": name}, separators=(",", ":"))

    def expression(self, number: int) -> Optional[str]:
        """Return the Python expression of a node's number."""
        return expression(self.nodes[number]) if 0 <= number < len(self.nodes) else None


def _index_text(entries: Sequence[Any]) -> str:
    """Return an index as it is written in Python."""
    found = []
    for entry in entries:
        if isinstance(entry, dict):
            ends = [str(entry.get(name, "")) for name in ("start", "stop")]
            found.append(":".join([*ends, str(entry["step"])] if "step" in entry else ends))
        else:
            found.append({"new": "None", "...": "..."}.get(str(entry), str(entry)))
    while len(found) > 1 and found[-1] == "...":
        found.pop()
    return ", ".join(found)


def _member_text(op: str, name: str, value: Any) -> str:
    """Return a member as an argument in Python."""
    if isinstance(value, list):
        value = value[0] if name == "axes" and len(value) == 1 else tuple(value)
    return f"{name if op == 'permute_dims' else SHOWN[name]}={value}"


def _written(node: Node, depth: int) -> str:
    """Return a node's expression, with the arguments below a depth left out."""
    if node.op == "input":
        return str(node.members["name"])
    if node.op == "data":
        return f"asarray(<{'x'.join(map(str, node.shape)) or 'one'} {node.dtype}>)"
    if depth == 0:
        return ".."
    args = [_written(arg, depth - 1) if isinstance(arg, Node) else str(arg) for arg in node.args]
    # (an argument below the depth is `..`, which needs no brackets)
    inner = [f"({text})" if isinstance(arg, Node) and depth > 1 and (arg.op in INFIX or arg.op in PREFIX) else text
             for arg, text in zip(node.args, args)]
    if node.op in INFIX:
        return f"{inner[0]} {INFIX[node.op]} {inner[1]}"
    if node.op in PREFIX:
        return f"{PREFIX[node.op]}{inner[0]}"
    if node.op == "index":
        return f"{inner[0]}[{_index_text(node.members['index'])}]"
    members = [_member_text(node.op, name, value) for name, value in node.members.items()
               if name in SHOWN and value is not None and (name, value) != ("keepdims", False) and (name, value) != ("k", 0)]
    if node.op in ("concat", "stack"):
        args = [f"[{', '.join(args)}]"]
    return f"{node.op}({', '.join([*args, *members])})"


def expression(node: Node, most: int = 72) -> str:
    """Return the Python expression of a node, of at most about `most` characters: what is deeper is left out as `..`."""
    found = _written(node, 1)
    for depth in range(2, 12):
        text = _written(node, depth)
        if len(text) > most:
            break
        found = text
    return found if len(found) <= max(most, 24) else found[:most - 2] + ".."
