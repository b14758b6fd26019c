"""What a run would do, and what it did: operations with their tasks, memory and bytes, as tables."""
from __future__ import annotations

import itertools
import re
from dataclasses import dataclass
from html import escape
from typing import Iterator, NamedTuple, Optional

from ._dtypes import DType
from ._nodes import Graph, Node, expression
from ._shapes import Shape, numblocks, product
from ._show import table_html, table_text
from ._sizes import bytes_text
from ._stages import left_stages
from .errors import strange


# The most characters of a report.
MOST_REPORT = 1000


class Report(NamedTuple):
    """What a run did: its operations and tasks, how many tasks were started and failed, and the bytes that a task needed at most."""

    ops: int
    tasks: int
    starts: int
    failed: int
    peak: int


def read_report(line: str) -> Report:
    """Return the report of a run that the program printed, or refuse what is none, by Stopped."""
    # (a long text is looked at no further: it is no report)
    found = dict(re.findall(r"\b([a-z]+)=([0-9]{1,40})\b", line)) if line.startswith("ok ") and len(line) < MOST_REPORT else {}
    if not set(Report._fields) <= set(found):
        raise strange("a report", line)
    return Report(*(int(found[field]) for field in Report._fields))


@dataclass(frozen=True)
class Operation:
    """An operation of a plan.

    Attributes
    ----------
    number : int
        Its place, from 0.
    kind : str
        map, pull, copy, fold, merge, pairfold, pairmerge, mul, groupfold, carry or scan.
    expression : str
        The Python expression of the node for which it is done.
    dtype, shape, chunks
        The type, shape and chunk shape of that node's array.
    tasks, stored : int
        Its tasks, and the chunks that these store.
    memory : int
        The bytes that one of its tasks needs.
    nbytes : int
        The bytes of the chunks that it stores.
    reads : tuple of str
        What it reads: names of stored arrays, and results of earlier operations as `op 0`.
    """

    number: int
    kind: str
    expression: str
    dtype: DType
    shape: Shape
    chunks: Shape
    tasks: int
    stored: int
    memory: int
    nbytes: int
    reads: tuple[str, ...] = ()


class Plan:
    """The operations of a run, with their sums. It prints as a table in a terminal and in a notebook.

    Attributes
    ----------
    operations : tuple of Operation
        In the order in which they run.
    tasks, stored, nbytes : int
        The sums of their tasks, of the chunks that they store, and of the bytes of these.
    peak : int
        The bytes that a task needs at most.
    allowed : int
        The bytes that it may need.
    inlined : tuple of str
        The expressions that are computed within the tasks of others, and never stored.
    inputs : dict from str to int
        The stored arrays that are read, with the bytes of all their chunks.
    workers : int
        How many tasks run at once.
    memory : int
        The bytes that all tasks need at most which run at once; the program itself comes on top.
    """

    def __init__(self, operations: tuple[Operation, ...], peak: int, allowed: int, inlined: tuple[str, ...] = (),
                 inputs: Optional[dict[str, int]] = None, workers: int = 1) -> None:
        self.operations, self.peak, self.allowed = operations, peak, allowed
        self.inlined, self.inputs, self.workers = inlined, inputs or {}, workers
        self.memory = peak * min(workers, max((it.tasks for it in operations), default=0))
        self.tasks = sum(it.tasks for it in operations)
        self.stored = sum(it.stored for it in operations)
        self.nbytes = sum(it.nbytes for it in operations)

    def __len__(self) -> int:
        return len(self.operations)

    def __iter__(self) -> Iterator[Operation]:
        return iter(self.operations)

    def _table(self) -> tuple[list[str], list[list[object]], list[object]]:
        heads = ["op", "kind", "expression", "type", "shape", "chunks", "reads", "tasks", "memory", "bytes"]
        rows: list[list[object]] = [[it.number, it.kind, it.expression, str(it.dtype), str(it.shape), str(it.chunks), ", ".join(it.reads), it.tasks,
                                     bytes_text(it.memory), bytes_text(it.nbytes)] for it in self]
        last: list[object] = ["", "", f"peak {bytes_text(self.peak)} of {bytes_text(self.allowed)}", "", "", "", "", self.tasks,
                              bytes_text(self.peak), bytes_text(self.nbytes)]
        return heads, rows, last

    def _said(self) -> list[str]:
        """Return what stands below the table."""
        inputs = ", ".join(f"{name} ({bytes_text(count)})" for name, count in self.inputs.items())
        return [f"computed within the tasks of others: {', '.join(self.inlined) or 'nothing'}", f"read: {inputs or 'nothing'}",
                f"memory: at most {bytes_text(self.memory)} with {self.workers} worker{'s' if self.workers > 1 else ''}"]

    def __repr__(self) -> str:
        return "\n".join([table_text(*self._table()), *self._said()])

    def svg(self) -> str:
        """Return the operations as a graph, with the bytes that are read on its edges: a picture as a text of SVG."""
        from ._svg import plan_svg
        return plan_svg(self)

    def _repr_html_(self) -> str:
        return table_html(*self._table()) + "".join(f"<div>{escape(line)}</div>" for line in self._said())


def _chunk_bytes(kind: str, node: Node, tasks: int, cells: int) -> int:
    """Return the bytes that an operation stores for a node; partial results have the count of elements of the result's chunks."""
    if kind in ("pairfold", "pairmerge") and cells == 2 * tasks:
        # A task stores values of the argument's type beside their places.
        elements = node.chunk_bytes // node.dtype.itemsize
        return tasks * (node.chunk_bytes + elements * node.arrays[0].dtype.itemsize)
    if node.op == "cumulative_sum" and kind != "scan":
        # The sums of chunks, and what is carried into each, have one number for each chunk on the axis.
        return cells * (node.chunk_bytes // node.chunks[node.members["axis"]])
    return cells * node.chunk_bytes


class _Row(NamedTuple):
    """A line of a plan: an operation, its kind, its node, its tasks, the chunks that they store, and the bytes that a task needs."""

    number: int
    kind: str
    node: int
    tasks: int
    stored: int
    memory: int


class _Reads:
    """Tells what each operation reads, in the order in which they run, through all that is computed within its tasks.

    Parameters
    ----------
    graph : Graph
        The expression.
    most : int
        The bytes of a region of a copy.
    """

    def __init__(self, graph: Graph, most: int) -> None:
        self.graph, self.most = graph, most
        # The operation that stores the array of a node, by the node's number; the others that are left for a node; and those that copy
        # an argument of a node into other chunks, by the numbers of both.
        self.made: dict[int, int] = {}
        self.own: dict[int, list[int]] = {}
        self.copied: dict[tuple[int, int], list[int]] = {}
        self.known: dict[int, tuple[str, ...]] = {}

    def operations(self, rows: list[_Row]) -> Iterator[Operation]:
        """Go over the operations that are left for one node."""
        at = rows[0].node
        node, own = self.graph.nodes[at], self.own.setdefault(at, [])
        copies = [row for row in rows if row.kind == "copy"]
        for row, stage in zip(copies, left_stages(node, self.most, [row.stored for row in copies]) if copies else []):
            place = self.graph.places[id(stage.arg)]
            found = self.copied.setdefault((at, place), [])
            reads = self.source(stage.arg) if stage.is_first else (f"op {found.pop()}",)
            found.append(row.number)
            if stage.is_last and node.op == "rechunk":
                self.made[at] = row.number
            yield self.told(row, node, row.stored * product(stage.chunks) * stage.arg.dtype.itemsize, reads)
        sums = sum(row.kind in ("fold", "merge") for row in rows)
        for row in rows[len(copies):]:
            yield self.told(row, node, _chunk_bytes(row.kind, node, row.tasks, row.stored), self.reads(row.kind, at, sums))
            own.append(row.number)
        # (a task of the last one makes a chunk of the node's array; where it is left out, there are more partial results than such chunks)
        last = rows[-1]
        if last.kind not in ("copy", "carry") and last.tasks == product(numblocks(node.shape, node.chunks)):
            self.made[at] = last.number

    def told(self, row: _Row, node: Node, nbytes: int, reads: tuple[str, ...]) -> Operation:
        return Operation(row.number, row.kind, expression(node), node.dtype, node.shape, node.chunks, row.tasks, row.stored, row.memory, nbytes, reads)

    def reads(self, kind: str, at: int, sums: int) -> tuple[str, ...]:
        """Return what the next operation of a node reads. Of a prefix sum `sums` operations make sums of chunks and of groups of them."""
        own = self.own[at]
        if kind in ("merge", "pairmerge"):
            return (f"op {own[-1]}",)
        if kind == "carry":
            # From the last sums to the first: its sums, and what was carried before.
            count = len(own) - sums
            return tuple(f"op {it}" for it in (own[sums - 1 - count], *own[-1:][:count]))
        return (*self.inside(at), *(f"op {it}" for it in own[-1:] if kind == "scan"))

    def inside(self, at: int) -> tuple[str, ...]:
        """Return what is read for the arguments of a node."""
        found: list[str] = []
        for arg in self.graph.nodes[at].arrays:
            copies = self.copied.get((at, self.graph.places[id(arg)]))
            found += [f"op {it}" for it in copies] if copies else self.source(arg)
        return tuple(dict.fromkeys(found))

    def source(self, node: Node) -> tuple[str, ...]:
        """Return the stored arrays and results that are read for a node whose operations are all known."""
        at = self.graph.places[id(node)]
        if at not in self.known:
            own = tuple(f"op {it}" for it in self.own.get(at, [])[-1:])
            if node.op in ("input", "data"):
                self.known[at] = (expression(node),)
            elif at in self.made:
                self.known[at] = (f"op {self.made[at]}",)
            else:
                self.known[at] = (*self.inside(at), *own) if node.op == "cumulative_sum" or not own else own
        return self.known[at]


def read_plan(text: str, graph: Graph, allowed: int, reserved: int, workers: int = 1) -> Plan:
    """Return the plan that the program printed, or refuse what is none, by Stopped.

    Parameters
    ----------
    text : str
        What it printed.
    graph : Graph
        The expression.
    allowed, reserved : int
        The bytes that a task may need, and those that are set aside.
    workers : int
        How many tasks run at once.
    """
    peak = re.search(r"^plan .*\bpeak=([0-9]{1,40})$", text, re.M)
    if peak is None:
        raise strange("a plan", text)
    rows = [_Row(int(number), kind, *map(int, rest)) for number, kind, *rest in re.findall(
        r"^op (\d+) (\w+) node=(\d+) tasks=(\d+) cells=(\d+) projected=(\d+)$", text, re.M)]
    reads = _Reads(graph, max(0, allowed - reserved) // 2)
    found = [it for _, own in itertools.groupby(rows, lambda row: row.node) for it in reads.operations(list(own))]
    inlined = tuple(expression(node) for at, node in enumerate(graph.nodes) if node.op not in ("input", "data") and at not in reads.made)
    inputs = {expression(node): product(max(1, count) for count in numblocks(node.shape, node.chunks)) * node.chunk_bytes
              for node in graph.nodes if node.op in ("input", "data")}
    return Plan(tuple(found), int(peak[1]), allowed, inlined, inputs, workers)
