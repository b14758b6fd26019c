"""Runs of expressions: under a name, or under a temporary one that is removed afterwards."""
from __future__ import annotations

import contextlib
import json
import os
import re
import tempfile
from dataclasses import replace
from typing import TYPE_CHECKING, Any, Callable, Iterator, Mapping, Optional

from ._calls import reading
from ._dtypes import NDArray
from .errors import NoArray, NotRemoved, OtherPlan, OverMemory, Stale, Unfinished, strange
from ._files import read_index_of, write_file
from ._fit import fitting_chunks
from ._index import read_index
from ._labels import labels_of
from ._left import telling, with_cause
from ._links import check_unlinked, is_linked, link_inputs, link_names
from ._locks import Lock, locked
from ._metadata import MOST_TEXT, Metadata
from ._names import check_free_name, check_name, is_own, metadata_key, record_key
from ._nodes import Graph, Node, check_count, expression, in_order
from ._offers import offers_words
from ._opening import at_most, read_regular
from ._packing import missing_of
from ._parts import Engine, check_executor, read_steps
from ._plans import Plan, Report, read_plan, read_report
from ._program import call_program
from ._progress import Bar, is_wanted
from ._removing import Removal, remove_between
from ._status import check_finished, has_record, is_finished, metadata_of
from ._temporary import memory_names, memory_nodes, memory_stored, new_name, sweep, uninterrupted

if TYPE_CHECKING:
    from ._store import Store

# The bytes of a record: an expression of at most 1 MiB, and what stands around it.
MOST_RECORD = 2**22
# The `fusion` of each version of a plan that a record may have.
FUSIONS = {2: 1, 3: 2}
# The seconds between two looks at a run that shows no bar.
EACH_LOOK = 0.5
# The characters of an expression before a bar, about.
LABEL = 32


def store_of(node: Node, store: Optional[Store]) -> Store:
    """Return the store of an expression, as one whose folder is that in which it works.

    Raises
    ------
    ValueError
        Where none is given and no stored array is in it, or its arrays are in another one.
    """
    if store is None:
        if node.store is None:
            raise ValueError("no stored array is in this expression: say store=, where its result is to be stored")
        return node.store.working()
    far = next((it.folder for it in in_order(node) if it.op == "input" and it.folder != store.folder), None) if store.work is None else None
    if far is not None:
        raise ValueError(f"the expression is over arrays of {far}, and not of {store.folder} alone. Write cengmoat.Store({store.folder!r},"
                         " work=\"scratch/mine\"), which runs those over several folders")
    return store.working()


@contextlib.contextmanager
def _some_store(node: Node, store: Optional[Store]) -> Iterator[Store]:
    """Give the store of an expression, or one in a temporary folder where no stored array is in it."""
    if store is not None or node.store is not None:
        yield store_of(node, store)
        return
    from ._store import Store
    with tempfile.TemporaryDirectory(prefix="cengmoat-") as folder:
        yield Store(folder)


def _graph(node: Node, name: str, store: Optional[Store]) -> Graph:
    """Return the expression of a node that is stored under a name by a store, or by that of its arrays.

    Raises
    ------
    BadExpression
        Where it has more than 256 nodes.
    """
    found = node.store if store is None else store
    graph = Graph(node, {**memory_names(node, name), **({} if found is None else link_names(node, found.working()))})
    check_count(len(graph.nodes))
    return graph


def _layout(node: Node) -> Metadata:
    return Metadata(node.dtype, node.shape, node.chunks)


def check_fresh(store: Store, node: Node) -> None:
    """Refuse an input whose layout isn't the one that was read when the lazy array was made.

    Raises
    ------
    NoArray
        Where it isn't there any more.
    Stale
        Where another array was stored under its name.
    """
    name = node.members["name"]
    now = metadata_of(node.folder or store.folder, name)
    if now is None:
        raise NoArray(name=name)
    if now != node.meta:
        raise Stale(f"{name} was replaced after this lazy array was made: it was {said_of(node.meta)}, and is {said_of(now)}."
                    f" Begin again from store[{name!r}]", name=name)


def said_of(meta: Optional[Metadata]) -> str:
    """Return a layout in words."""
    if meta is None:
        return "unknown"
    order = ", big-endian" if meta.is_big else ""
    return (f"{meta.seen_dtype} of shape {meta.shape} in chunks {meta.chunks}, fill value {meta.fill},"
            f" keys {meta.encoding!r} {meta.separator!r}{order}")


def _check_fresh(store: Store, graph: Graph) -> None:
    for node in graph.stored:
        check_fresh(store, node)


def _check_inputs(store: Store, graph: Graph) -> None:
    """Refuse inputs that were replaced, or that a run has begun and not finished, unless they were asked for as they are; and link the others
    of a work folder."""
    _check_fresh(store, graph)
    for folder, name in dict.fromkeys((node.folder, node.members["name"]) for node in graph.stored if not node.takes_unfinished):
        check_finished(folder or store.folder, name)
    link_inputs(store, graph)


def read_node(its: Node, key: Any = ...) -> NDArray:
    """Return elements of a stored array, as `Store.read`, or refuse one that was replaced."""
    name, meta = its.members["name"], its.meta
    assert its.store is not None and its.folder is not None and meta is not None
    check_fresh(its.store, its)
    if not its.takes_unfinished:
        check_finished(its.folder, name)
    found = read_index_of(its.folder, name, meta, read_index(key, meta.shape))
    return found != 0 if meta.is_truth else found


def _ask_plan(store: Store, folder: str, graph: Graph, text: str, fusion: Optional[int] = None) -> Plan:
    said = call_program(store.words("plan", folder, fusion=fusion), text, expression_of=graph.expression)
    return read_plan(said, graph, store.allowed_mem, store.reserved_mem, store.workers)


@contextlib.contextmanager
def _advised(store: Store, graph: Graph, text: str) -> Iterator[None]:
    """Say with a refusal for memory which chunks would fit."""
    try:
        yield
    except OverMemory as error:
        found = fitting_chunks(text, _layouts(store, graph), lambda folder, job: call_program(store.words("plan", folder), job))
        advice = f"These would fit: {found}." if found else "No smaller chunks would fit: allow more memory."
        raise OverMemory(expression=error.expression, advice=advice, node=error.node, need=error.need, allowed=error.allowed) from None


def _layouts(store: Store, graph: Graph) -> dict[str, Metadata]:
    """Return the layouts of all inputs, of arrays in memory too."""
    found = {name: _layout(node) for name, node in memory_nodes(graph).items()}
    for node, text in zip(graph.nodes, graph.texts):
        meta = metadata_of(node.folder or store.folder, node.members["name"]) if node.op == "input" else None
        if meta is not None:
            found[text["name"]] = meta
    return found


def plan_node(node: Node, store: Optional[Store], fusion: Optional[int] = None) -> Plan:
    """Return the plan of an expression, with another `fusion` than the store's where one is given. Nothing is stored."""
    graph = _graph(node, "plan", store)
    text = graph.text("plan")
    with _some_store(node, store) as found, telling("x.plan()", found.folder, "plan", True), _advised(found, graph, text):
        _check_fresh(found, graph)
        if not any(it.op == "data" for it in graph.nodes) and not is_linked(found, graph):
            return _ask_plan(found, found.folder, graph, text, fusion)
        # Metadata suffices, so arrays in memory aren't stored for it, and no links are made.
        with tempfile.TemporaryDirectory(prefix="cengmoat-") as folder:
            for name, meta in _layouts(found, graph).items():
                write_file(folder, metadata_key(name), meta.text().encode(), sync=False)
            return _ask_plan(found, folder, graph, text, fusion)


def _watch(lock: Lock, folder: str, name: str, bar: Optional[Bar]) -> Optional[Callable[[], float]]:
    """Return what is called while a run works: others may share the lock once the run's record is there, and the bar is shown."""
    if not lock.shares:
        return None if bar is None else bar.watch

    def look() -> float:
        if has_record(folder, name):
            lock.share()
        return EACH_LOOK if bar is None else bar.watch()

    return look


def _run(store: Store, graph: Graph, name: str, lock: Lock, progress: Optional[bool], command: str = "run",
         fusion: Optional[int] = None, is_kept: bool = True) -> Report:
    """Run an expression whose arrays in memory are stored, and return the report. What isn't kept needn't be on the disk."""
    text = graph.text(name)
    bar, is_done = None, False
    most = max(node.chunk_bytes for node in graph.nodes)
    with _advised(store, graph, text), with_cause(store.folder, name, most, graph.inputs):
        if is_wanted(progress):
            label = expression(graph.nodes[graph.out], LABEL) if is_own(name) else name
            bar = Bar(store.folder, name, _ask_plan(store, store.folder, graph, text, fusion), label)
        try:
            said = call_program(store.words(command, is_temporary=not is_kept, fusion=fusion), text, expression_of=graph.expression,
                                locks=[lock.descriptor], watch=_watch(lock, store.folder, name, bar))
            is_done = True
        finally:
            if bar is not None:
                bar.close(is_done)
    store.report = store.owner.report = read_report(said)
    return store.report


def _run_parts(store: Store, graph: Graph, name: str, progress: Optional[bool], goes_on: bool, executor: Any, paths: Mapping[str, str],
               fusion: Optional[int], lock: Lock) -> None:
    """Begin a run, or go on with one, and hand its parts to an executor; what is missing then is for `resume`.

    Raises
    ------
    NotImplementedError
        Where the program has no parts.
    """
    if not offers_words(store.program, "begin"):
        raise NotImplementedError("the program has no parts of runs, so executor= isn't for it: store(..) without it runs on this machine")
    text = graph.text(name)
    with _advised(store, graph, text), with_cause(store.folder, name, max(node.chunk_bytes for node in graph.nodes), graph.inputs):
        said = call_program(store.words("plan" if goes_on else "begin", fusion=fusion), text, expression_of=graph.expression)
        lock.share()
        bar, is_done = None, False
        if is_wanted(progress):
            bar = Bar(store.folder, name, read_plan(re.sub(r" reads=[\d,]*$", "", said, flags=re.M), graph, store.allowed_mem, store.reserved_mem), name)
        try:
            Engine(store.words("part", fusion=fusion), graph, name, executor, paths,
                   (lambda tasks: None) if bar is None else bar.show_tasks).run(read_steps(said))
            is_done = True
        finally:
            if bar is not None:
                bar.close(is_done)


def _held_record(store: Store, name: str) -> Any:
    """Return what the record of a plan says, or None where there is none or it isn't JSON."""
    key = record_key(name)
    try:
        return json.loads(read_regular(os.path.join(store.folder, key), key, at_most(MOST_RECORD)) or b"")
    except (ValueError, RecursionError):
        return None


def _fusion_of(store: Store, name: str) -> int:
    """Return the `fusion` of a plan that is begun, by its record; that of the store where there is no record that says one."""
    held = _held_record(store, name)
    version = held.get("cubed") if isinstance(held, dict) else None
    return FUSIONS.get(version, store.fusion) if isinstance(version, int) else store.fusion


def _check_record(store: Store, graph: Graph, name: str, fusion: int) -> None:
    """Refuse the record of another plan, by OtherPlan."""
    held = _held_record(store, name)
    asked = {"allowed": store.allowed_mem, "cubed": fusion + 1, "expr": json.loads(graph.text(name)),
             "inputs": {its: json.loads(meta.plain().text()) for its, meta in _layouts(store, graph).items()},
             "reserved": store.reserved_mem, "split_every": store.split_every}
    texts = [json.dumps(it, sort_keys=True, separators=(",", ":")) for it in (held, asked)]
    if texts[0] != texts[1]:
        raise OtherPlan(place=len(os.path.commonprefix(texts)), advice=f"{name} was begun as another expression or with other options:"
                        f" store.remove({name!r}) removes it.")


def _make_room(store: Store, node: Node, name: str, fusion: int) -> None:
    """Remove the result that stands under a name, finished or not, once the plan of what takes its place is accepted.

    Raises
    ------
    NotRemoved
        Where something else lies there.
    CengmoatError
        Where the new plan isn't accepted: then nothing is removed.
    """
    old = Removal(store.folder, name)
    if old.is_nothing:
        return
    if old.is_link or old.has_array and not old.has_record:
        raise NotRemoved(f"{name} is {'a link' if old.is_link else 'an array that no run made'}, and overwrite=True removes results alone:"
                         f" store.remove({name!r}, inputs=True) removes it", name=name)
    old.check(inputs=False)
    plan_node(node, store.owner, fusion)
    with uninterrupted():
        old.remove()


def _check_overwrite(graph: Graph, name: str, overwrite: bool, resume: bool) -> None:
    """Refuse to overwrite what is read, or what is to be gone on with, by a ValueError."""
    if overwrite and resume:
        raise ValueError("resume=True goes on with a result and overwrite=True removes it: say one of both")
    if overwrite and name in graph.inputs:
        raise ValueError(f"x.store({name!r}, overwrite=True): the expression reads {name}, so it isn't removed: store it under another name")


def store_node(node: Node, name: str, store: Optional[Store], progress: Optional[bool], resume: bool, keep: bool,
               explain: bool = False, executor: Any = None, paths: Optional[Mapping[str, str]] = None, overwrite: bool = False) -> Node:
    """Store an expression under a name, and return the stored array's node."""
    check_free_name(name)
    found = store_of(node, store)
    check_unlinked(found, name, node)
    graph = _graph(node, name, store)
    if executor is not None:
        check_executor(executor)
    _check_overwrite(graph, name, overwrite, resume)
    fusion = _fusion_of(found, name) if resume else found.fusion
    if explain:
        print(plan_node(node, found.owner, fusion))
    # (arrays in memory are stored beside it and removed at the end, which is for one call alone)
    shares = not memory_nodes(graph)
    shared = shares and resume and has_record(found.folder, name)
    with telling(f"x.store({name!r})", found.folder, name), locked(found.folder, name, shared=shared, shares=shares) as lock:
        _check_inputs(found, graph)
        if overwrite:
            _make_room(found, node, name, fusion)
        goes_on = resume and has_record(found.folder, name)
        if goes_on:
            _check_record(found, graph, name, fusion)
        if not goes_on or not is_finished(found.folder, name):
            with memory_stored(found.folder, graph, lock):
                if executor is not None:
                    _run_parts(found, graph, name, progress, goes_on, executor, paths or {}, fusion, lock)
                    goes_on = True
                _run(found, graph, name, lock, progress, "resume" if goes_on else "run", fusion)
        _label(found.folder, name, node)
        # (another one that still computes it reads what lies in between, and removes it at its own end)
        if not keep and lock.be_alone():
            remove_between(found.folder, name)
    return found.owner.array(name).node


def _label(folder: str, name: str, node: Node) -> None:
    """Write the names of axes and the attributes of a result into its metadata, where it has any, and the number for what is missing."""
    meta = metadata_of(folder, name)
    names, attributes = labels_of(node)
    dimensions = names if any(names) else None
    if meta is None:
        return
    # (a chunk that is lost later on is missing, and no number)
    fill = next(iter(missing_of(attributes, meta.dtype)), meta.fill)
    if (meta.dimensions, dict(meta.attributes), meta.fill) == (dimensions, attributes, fill):
        return
    text = replace(meta, dimensions=dimensions, attributes=attributes, fill=fill).text().encode()
    if len(text) <= MOST_TEXT:
        write_file(folder, metadata_key(name), text)


def check_node(node: Node, name: str, store: Optional[Store]) -> int:
    """Compare a stored array with an expression, and return the count of its elements."""
    check_name(name)
    found = store_of(node, store)
    graph = _graph(node, name, store)
    with telling(f"x.check({name!r})", found.folder, name, True):
        _check_inputs(found, graph)
        check_finished(found.folder, name)
        if not memory_nodes(graph):
            return _checked(found, graph, name)
        with locked(found.folder, name) as lock, memory_stored(found.folder, graph, lock):
            return _checked(found, graph, name)


def _checked(store: Store, graph: Graph, name: str) -> int:
    said = call_program(store.words("check"), graph.text(name), expression_of=graph.expression)
    count = re.fullmatch(r"equal ([0-9]{1,40})\s*", said)
    if count is None:
        raise strange("how many elements are equal", said)
    return int(count[1])


def compute_node(node: Node, store: Optional[Store], progress: Optional[bool], explain: bool = False) -> NDArray:
    """Compute an expression under a temporary name, and return its elements; nothing of it is left in the folder."""
    if node.data is not None:
        return node.data.copy()
    with _some_store(node, store) as found:
        its = node.stored_as
        if its is not None:
            with reading("x.compute()", its.folder or found.folder):
                return read_node(its)
        if explain:
            print(plan_node(node, found.owner))
        name = new_name(found.folder)
        graph = _graph(node, name, found.owner)
        with telling("x.compute()", found.folder, name, True):
            return _computed(found, graph, name, progress)


def _computed(store: Store, graph: Graph, name: str, progress: Optional[bool]) -> NDArray:
    """Run an expression under a temporary name, and read its result."""
    with _ran(store, graph, name, progress, False) as found:
        return read_index_of(store.folder, name, found, read_index(..., found.shape), is_whole=True)


@contextlib.contextmanager
def _ran(store: Store, graph: Graph, name: str, progress: Optional[bool], is_kept: bool) -> Iterator[Metadata]:
    """Run an expression under a temporary name, and give the layout of its result, which is removed afterwards."""
    _check_inputs(store, graph)
    sweep(store.folder)
    node = graph.nodes[graph.out]
    with locked(store.folder, name, remove=True) as lock, memory_stored(store.folder, graph, lock, [name]):
        _run(store, graph, name, lock, progress, is_kept=is_kept)
        found = metadata_of(store.folder, name)
        if found != _layout(node):
            raise Unfinished(f"the run has ended, and its result is {said_of(found)}, and not {said_of(_layout(node))}:"
                             " another program removed or replaced its files")
        assert found is not None
        yield found


@contextlib.contextmanager
def result_of(node: Node, progress: Optional[bool], call: str) -> Iterator[tuple[str, str, Metadata, bool]]:
    """Give the folder, name and layout of the stored array of an expression, and whether its files are the package's own and may be moved.

    A stored array is given as it is. Any other is computed by one run, and what of it wasn't moved is removed afterwards.
    """
    with _some_store(node, None) as found:
        its = node.stored_as
        if its is not None:
            folder = its.folder or found.folder
            with telling(call, folder, its.members["name"], True):
                check_fresh(found, its)
                if not its.takes_unfinished:
                    check_finished(folder, its.members["name"])
                assert its.meta is not None
                yield folder, its.members["name"], its.meta, False
            return
        name = new_name(found.folder)
        graph = _graph(node, name, found.owner)
        with telling(call, found.folder, name, True), _ran(found, graph, name, progress, True) as meta:
            yield found.folder, name, meta, True
