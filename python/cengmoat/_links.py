"""Work folders: links to arrays of folders that may only be read. They are made here alone, and followed only where they were made to lead.

A link to an array of the store's own folder has the array's name. One to an array of another folder has a name that tells the folder too,
so that arrays of one name go together, and a later session makes the same.
"""
from __future__ import annotations

import contextlib
import hashlib
import os
import stat
from typing import TYPE_CHECKING, Optional

from ._names import metadata_key, record_key, zarray_key
from ._nodes import Graph, Node, in_order
from ._opening import refused, told
from .errors import Exists

if TYPE_CHECKING:
    from ._store import Store

# The letters of an array's name that its link keeps, and those by which its folder is told.
KEPT, TOLD = 21, 10


def _link_name(store: Store, node: Node) -> str:
    """Return the name under which an input lies in the folder in which a store works."""
    name: str = node.members["name"]
    if node.folder in (store.folder, store.source):
        return name
    return f"{name[:KEPT]}-{hashlib.sha256(str(node.folder).encode()).hexdigest()[:TOLD]}"


def link_names(node: Node, store: Store) -> dict[int, str]:
    """Return the names of all inputs of an expression that a store runs, by the identities of their nodes."""
    return {id(it): _link_name(store, it) for it in in_order(node) if it.op == "input"}


def is_linked(store: Store, graph: Graph) -> bool:
    """Return whether an input of an expression is reached by a link."""
    return any(node.op == "input" and node.folder != store.folder for node in graph.nodes)


def link_inputs(store: Store, graph: Graph) -> None:
    """Make the links to the inputs of an expression that lie in other folders, and check those that are there.

    Raises
    ------
    Exists
        Where something else than a link lies in the place of one.
    StoreFailed
        Where a link leads elsewhere, or to no folder, or the system refuses.
    """
    for node, text in zip(graph.nodes, graph.texts):
        if node.op == "input" and node.folder != store.folder:
            _link(store.folder, text["name"], os.path.join(str(node.folder), node.members["name"]))


def _link(folder: str, name: str, target: str) -> None:
    path = os.path.join(folder, name)
    try:
        os.makedirs(folder, exist_ok=True)
        with contextlib.suppress(FileExistsError):
            os.symlink(target, path)
        if not stat.S_ISLNK(os.lstat(path).st_mode):
            raise Exists(f"{path} is in the way of a link to {target}: another array was stored under this name. Move one of them,"
                         " or take another work folder", key=name)
        found = os.readlink(path)
        if found != target:
            raise refused(name, f"it is a link to {found}, and not to {target}, so it isn't followed: move it away")
        if not stat.S_ISDIR(os.lstat(target).st_mode):
            raise refused(name, f"{target} is no folder of an array itself, and no link is followed from there")
    except OSError as error:
        raise told(name, error) from None


def check_unlinked(store: Store, name: str, node: Optional[Node] = None) -> None:
    """Refuse a name under which a store with a work folder would store beside, through or into what it reads, by Exists.

    Parameters
    ----------
    store : Store
        The store over the folder in which it works.
    name : str
        The name.
    node : Node, optional
        The expression that is stored.
    """
    path = os.path.join(store.folder, name)
    if store.source is not None and has_array(store.source, name):
        raise Exists(f"there is an array {name} in {store.source}, which is only read: take another name", key=name)
    if store.source is not None and os.path.islink(path):
        raise Exists(f"{path} is a link, and nothing is stored through it: take another name", key=name)
    read = {it.folder for it in in_order(node) if it.op == "input"} if node is not None else set()
    for folder in sorted(str(it) for it in {*read, store.source} - {None, store.folder}):
        if is_below(folder, path):
            raise Exists(f"{folder}, which is only read, is {path} or lies in it, and nothing is stored there: take another name", key=name)


def has_array(folder: str, name: str) -> bool:
    """Return whether a folder has the metadata of an array, or the record of a plan that makes one."""
    return any(os.path.lexists(os.path.join(folder, key)) for key in (metadata_key(name), zarray_key(name), record_key(name)))


def is_below(path: str, folder: str) -> bool:
    """Return whether a path is a folder or lies in it, wherever links lead."""
    real, its = os.path.realpath(path), os.path.realpath(folder)
    return os.path.commonpath([real, its]) == its
