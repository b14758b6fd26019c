"""What an error says beside the program's answer: the call, the cause that the system gives, what is left, and how to go on."""
from __future__ import annotations

import contextlib
import os
from typing import Iterable, Iterator, Optional

from ._calls import files_of
from ._metadata import Metadata
from ._names import record_key
from ._opening import check_regular, new_file
from ._removing import Removal
from ._sizes import bytes_text
from ._status import metadata_of, status_of
from .errors import BadChunk, CengmoatError, NoMemory, StoreFailed, Stopped, TaskFailed, WriteFault

# The answers after which something of a run may be stored.
_BEGUN = (TaskFailed, BadChunk, StoreFailed, NoMemory, Stopped, WriteFault)
# The bytes that are asked of the system for a trial, at most.
MOST_TRIED = 2**26


def left_text(folder: str, name: str) -> str:
    """Return what is stored under a name, and how to go on."""
    with contextlib.suppress(CengmoatError):
        if not os.path.lexists(os.path.join(folder, record_key(name))):
            return f"Nothing of {name} is stored."
        found = status_of(folder, name)
        between = [key for key in Removal(folder, name).keys if key.startswith(f"_cubed/{name}/") and not key.endswith("plan.json")]
        sizes = 0
        for key in between:
            with contextlib.suppress(OSError):
                sizes += os.lstat(os.path.join(folder, key)).st_size
        parts = [f"{found.stored} of {found.nchunks} chunks ({bytes_text(found.nbytes)})" if found.dtype else "no chunk"]
        parts += [f"{len(between)} files on the way to them ({bytes_text(sizes)})"] if between else []
        return (f"Left of {name}: {', '.join(parts)}, and the record of the run. x.store({name!r}, resume=True) goes on from there;"
                f" store.remove({name!r}) removes it.")
    return f"What is left of {name} can't be read; store.status() shows it."


def _bad_input(folder: str, names: Iterable[str]) -> Optional[str]:
    """Return which chunk of an input isn't one that can be read, and why."""
    for name in names:
        try:
            meta: Optional[Metadata] = metadata_of(folder, name)
        except CengmoatError as error:
            return error.message
        for coordinate in meta.coordinates() if meta is not None else ():
            assert meta is not None
            key = meta.chunk_key(name, coordinate)
            path = os.path.join(folder, key)
            try:
                check_regular(key, os.stat(path).st_mode)
            except FileNotFoundError:
                continue
            except OSError as error:
                return f"{key}: {error.strerror}"
            except StoreFailed as refused:
                return refused.message
            if not os.access(path, os.R_OK):
                return f"{key}: Permission denied"
    return None


def _no_room(folder: str, name: str, nbytes: int) -> Optional[str]:
    """Return what the system says to a new file of so many bytes where the result is stored."""
    at = next((path for path in (os.path.join(folder, name, "c"), os.path.join(folder, name), folder) if os.path.isdir(path)), folder)
    new = None
    try:
        descriptor, new = new_file(os.path.join(at, "zarr.json"))
        try:
            os.posix_fallocate(descriptor, 0, max(1, min(nbytes, MOST_TRIED)))
        finally:
            os.close(descriptor)
    except OSError as error:
        room = os.statvfs(at)
        free, whole = room.f_bavail * room.f_frsize, room.f_blocks * room.f_frsize
        return f"{os.path.relpath(at, folder)}: {error.strerror} ({bytes_text(free)} of {bytes_text(whole)} are free)"
    finally:
        if new is not None:
            with contextlib.suppress(OSError):
                os.unlink(new)
    return None


def system_cause(folder: str, name: str, nbytes: int, inputs: Iterable[str]) -> str:
    """Return what the system says of what a task reads and writes, or nothing where it has no fault now."""
    said = _bad_input(folder, inputs) or _no_room(folder, name, nbytes)
    return f"The system says: {said}." if said else ""


@contextlib.contextmanager
def with_cause(folder: str, name: str, nbytes: int, inputs: Iterable[str]) -> Iterator[None]:
    """Say with an error of reading or writing what the system says, as long as all of the run lies there.

    Parameters
    ----------
    folder, name : str
        The folder, and the name under which a run stores.
    nbytes : int
        The bytes of a chunk that it stores.
    inputs : iterable of str
        The arrays that it reads.
    """
    try:
        yield
    except (TaskFailed, StoreFailed) as error:
        if not error.message:
            error.say(advice=system_cause(folder, name, nbytes, inputs))
        raise


@contextlib.contextmanager
def telling(call: str, folder: str, name: str, is_temporary: bool = False) -> Iterator[None]:
    """Say with an error and with Ctrl-C which call it was, what is left, and how to go on.

    Parameters
    ----------
    call, folder, name : str
        The call as it is written, the folder, and the name under which it stores.
    is_temporary : bool
        Whether what it stores is removed at its end.
    """
    def left() -> str:
        return "Nothing of it is left." if is_temporary else left_text(folder, name)

    try:
        with files_of(folder):
            yield
    except KeyboardInterrupt:
        raise KeyboardInterrupt(f"{call} in {folder} was stopped. {left()}") from None
    except CengmoatError as error:
        error.say(call=f"{call} in {folder}", left=left() if isinstance(error, _BEGUN) else "")
        raise
