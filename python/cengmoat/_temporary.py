"""What is stored for one call alone: results of `compute`, and arrays in memory. Its names are the package's own, and a record tells
them: the content of the lock's file. So nothing of a user's is ever taken for temporary."""
from __future__ import annotations

import contextlib
import hashlib
import json
import os
import secrets
import signal
import threading
from typing import Iterator, Sequence

from ._locks import Lock, locked, temporaries
from ._metadata import Metadata
from ._mounts import reports_late
from ._names import IN_MEMORY, TEMPORARY, is_own
from ._nodes import Graph, Node, in_order
from ._removing import Removal, remove_own
from ._saving import write_array
from .errors import CengmoatError, Exists


def new_name(folder: str) -> str:
    """Return a temporary name under which nothing lies."""
    while True:
        name = TEMPORARY + secrets.token_hex(5)
        if not os.path.lexists(os.path.join(folder, name)) and not os.path.lexists(os.path.join(folder, "_cubed", name)):
            return name


def memory_names(node: Node, result: str) -> dict[int, str]:
    """Return the names under which arrays in memory are stored: the same for the same content and result."""
    found: dict[int, str] = {}
    for it in in_order(node):
        if it.data is not None:
            if is_own(result):
                found[id(it)] = f"{result}-{len(found)}"
                continue
            said = json.dumps([result, it.dtype.name, it.shape, it.chunks]).encode()
            found[id(it)] = IN_MEMORY + hashlib.sha256(said + it.data.tobytes()).hexdigest()[:18]
    return found


def memory_nodes(graph: Graph) -> dict[str, Node]:
    """Return the arrays in memory by the names under which they are stored."""
    return {text["name"]: node for node, text in zip(graph.nodes, graph.texts) if node.op == "data"}


def remove_names(folder: str, names: Sequence[str]) -> None:
    """Remove what is stored under the package's own names."""
    with uninterrupted():
        for name in names:
            if is_own(name):
                remove_own(folder, name)


@contextlib.contextmanager
def memory_stored(folder: str, graph: Graph, lock: Lock, more: Sequence[str] = ()) -> Iterator[None]:
    """Keep arrays in memory stored for a while; `more` names what is temporary beside them, and is removed with them.

    Raises
    ------
    Exists
        Where something lies under one of the names that no run of this package left.
    """
    nodes = memory_nodes(graph)
    names = [*more, *nodes]
    if names or lock.left:
        remove_names(folder, lock.left)
        for name in names:
            if not Removal(folder, name).is_nothing:
                raise Exists(key=name)
        lock.write(names)
    is_synced = bool(nodes) and reports_late(folder)
    try:
        for name, node in nodes.items():
            assert node.data is not None
            write_array(folder, name, Metadata(node.dtype, node.shape, node.chunks), node.data, sync=is_synced)
        yield
    finally:
        if names:
            remove_names(folder, names)
            lock.write()


def sweep(folder: str) -> None:
    """Remove what a process left that was ended in the middle of a call. The names are those that it recorded, and nobody holds its lock."""
    for name in temporaries(folder):
        with contextlib.suppress(CengmoatError), locked(folder, name, remove=is_own(name), wait=0) as lock:
            remove_names(folder, lock.left)
            lock.write()


@contextlib.contextmanager
def uninterrupted() -> Iterator[None]:
    """Let Ctrl-C wait for the end of a short piece of work."""
    if threading.current_thread() is not threading.main_thread():
        yield
        return
    pressed: list[int] = []
    before = signal.signal(signal.SIGINT, lambda number, frame: pressed.append(number))
    try:
        yield
    finally:
        signal.signal(signal.SIGINT, signal.SIG_DFL if before is None else before)
        if pressed:
            signal.raise_signal(signal.SIGINT)
