"""Lazy arrays of integers and truth values that are larger than memory, computed by the program `cubed` over Zarr v3 arrays.

An expression is built by NumPy's operators and by the functions of `cengmoat.array_api`, and is run by the program: what it
answers is right, or it is refused with a reason. This package proves nothing and decides nothing.

>>> store = cengmoat.Store("scratch")
>>> t = store.save("t", numpy.arange(6, dtype="int32"), chunks=4)
>>> (t * 2 + 1).compute()
array([ 1,  3,  5,  7,  9, 11], dtype=int32)
"""
from __future__ import annotations

import os
from typing import Any, Mapping, Optional, Union

from . import array_api
from ._array import Array
from ._dtypes import NDArray
from .errors import (
    BadChunk, BadExpression, BadLoad, BadMetadata, BadPart, BadType, BadWords, CengmoatError, Exists, Locked, NoArray, NoMemory, NoPlan,
    NoProgram, NotReady, NotRemoved, OtherPlan, OverLimit, OverMemory, ReadFault, Stale, Stopped, StoreFailed, TaskFailed, Unequal, Unfinished, WriteFault,
)
from ._groups import groupby_count, groupby_max, groupby_min, groupby_sum
from ._plans import Operation, Plan, Report
from ._running import compute_node
from ._status import ArrayStatus, Status
from ._store import Store

__version__ = "0.1.0"

__all__ = [
    "Array", "ArrayStatus", "BadChunk", "BadExpression", "BadLoad", "BadMetadata", "BadPart", "BadType", "BadWords", "CengmoatError", "Exists",
    "Locked", "NoArray", "NoMemory", "NoPlan", "NoProgram", "NotReady", "NotRemoved", "Operation", "OtherPlan", "OverLimit", "OverMemory", "Plan", "ReadFault",
    "Report", "Stale", "Status", "Stopped", "Store", "StoreFailed", "TaskFailed", "Unequal", "Unfinished", "WriteFault", "array_api", "compute",
    "from_zarr", "groupby_count", "groupby_max", "groupby_min", "groupby_sum", "to_zarr",
]


def from_zarr(folder: Union[str, os.PathLike[str]], name: str, *, unfinished: bool = False, **options: Any) -> Array:
    """Return a stored array of a folder as a lazy one.

    Parameters
    ----------
    folder : str or path
        The folder of the arrays.
    name : str
        The array's name.
    unfinished : bool
        Whether it is given also where it is the result of a run that hasn't finished.
    **options
        As of `Store`.

    Raises
    ------
    NoArray, BadMetadata, Unfinished
        As of `Store.array`.
    """
    return Store(folder, **options).array(name, unfinished=unfinished)


def to_zarr(x: Array, name: str, into: Optional[Store] = None, *, progress: Optional[bool] = None, resume: bool = False,
            keep: bool = False, explain: bool = False, executor: Any = None, paths: Optional[Mapping[str, str]] = None,
            overwrite: bool = False) -> Array:
    """Compute an array, store it under a name, and return it as a stored array.

    Parameters
    ----------
    x : Array
        The array.
    name : str
        The name of the result.
    into : Store, optional
        Where it is stored; must be given where no stored array is in the expression.
    progress : bool, optional
        Whether a bar is shown; else on a terminal.
    resume : bool
        Whether a run that stopped is gone on with; where none was begun, one begins.
    keep : bool
        Whether what was stored on the way to the result stays beside it. Else it is removed at the end, and the record stays.
    explain : bool
        Whether the plan is printed before: what is read, stored, and computed within the tasks of others, and the memory.
    executor : object, optional
        Has `submit(f, *args)`, whose futures have `result()`: a pool of `concurrent.futures`, a client of dask.distributed, and others.
        Parts of the run are handed to it, each some tasks of one operation.
    paths : mapping from str to str, optional
        Heads of the paths of the folder and of the program here, and what they are on the executor's machines.
    overwrite : bool
        Whether a result that stands under the name, finished or not, is removed once the plan of this one is accepted. What no run made
        is never removed.

    Raises
    ------
    CengmoatError
        The class of the program's answer, as OverMemory and Exists.
    Unfinished
        Where an input is the result of a run that hasn't finished.
    Stale
        Where an input was replaced after the lazy array was made.
    Locked
        Where another process stores this name now.
    NotRemoved
        Where something else than a result is to be overwritten.
    TypeError, ValueError
        Where the name isn't one, there is no store, the executor is none, or the expression reads what is to be overwritten.
    """
    if not isinstance(x, Array):
        raise TypeError(f"to_zarr takes a lazy array, and not {type(x).__name__}: store.save stores an array in memory")
    return x.store(name, into, progress=progress, resume=resume, keep=keep, explain=explain, executor=executor, paths=paths, overwrite=overwrite)


def compute(*arrays: Array, store: Optional[Store] = None, progress: Optional[bool] = None, explain: bool = False) -> tuple[NDArray, ...]:
    """Compute arrays and return them, each by a run of its own.

    A result is stored under a temporary name, read, and removed with all on the way to it, also after an error or Ctrl-C.

    Parameters
    ----------
    *arrays : Array
        The arrays.
    store : Store, optional
        Where they are computed; else in the folder of their stored arrays, or in a temporary one where there are none.
    progress : bool, optional
        Whether a bar is shown; else on a terminal.
    explain : bool
        Whether the plan of each is printed before.

    Raises
    ------
    CengmoatError
        As of `to_zarr`.
    """
    for x in arrays:
        if not isinstance(x, Array):
            raise TypeError(f"compute takes lazy arrays, and not {type(x).__name__}")
    done: dict[int, NDArray] = {}
    for x in arrays:
        if id(x.node) not in done:
            done[id(x.node)] = compute_node(x.node, store, progress, explain)
    return tuple(done[id(x.node)] for x in arrays)
