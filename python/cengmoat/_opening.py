"""Files opened safely: regular files alone, their lengths first, no more read than is wanted, and new ones made where nothing is."""
from __future__ import annotations

import contextlib
import itertools
import os
import stat
from typing import Callable, Iterator, Optional

from .errors import StoreFailed

# How many names are tried for a new file.
MOST_NAMES = 1000
_COUNTER = itertools.count()
_KINDS = ((stat.S_ISDIR, "a folder"), (stat.S_ISFIFO, "a named pipe"), (stat.S_ISSOCK, "a socket"), (stat.S_ISCHR, "a device"),
          (stat.S_ISBLK, "a device"))


def refused(key: str, why: str) -> StoreFailed:
    """Return the error that names a file and says why it isn't read or written."""
    return StoreFailed(f"{key}: {why}", key=key)


def told(key: str, error: OSError) -> StoreFailed:
    """Return the error that names a file and says what the system said of it."""
    return refused(key, error.strerror or str(error))


def check_regular(key: str, mode: int) -> None:
    """Refuse what isn't a regular file, by StoreFailed."""
    if not stat.S_ISREG(mode):
        kind = next((said for holds, said in _KINDS if holds(mode)), "no file")
        raise refused(key, f"it is {kind}, and only regular files are opened")


def _opened(path: str, key: str) -> Optional[int]:
    """Return the descriptor of a regular file, or None where there is none. Links are followed, as the program follows them."""
    try:
        # (a device isn't opened, since that alone may do something)
        check_regular(key, os.stat(path).st_mode)
        descriptor = os.open(path, os.O_RDONLY | os.O_NONBLOCK | os.O_CLOEXEC | os.O_NOCTTY)
    except FileNotFoundError:
        if os.path.islink(path):
            raise refused(key, "it is a link that leads nowhere") from None
        return None
    except OSError as error:
        raise told(key, error) from None
    try:
        check_regular(key, os.fstat(descriptor).st_mode)
    except BaseException:
        os.close(descriptor)
        raise
    return descriptor


def read_regular(path: str, key: str, wanted: Callable[[int], int]) -> Optional[bytes]:
    """Return the first bytes of a regular file, or None where there is no file.

    Parameters
    ----------
    path, key : str
        Where it lies, and how an error names it.
    wanted : callable
        Gets the file's length, and returns how many bytes are read, or refuses the file.

    Raises
    ------
    StoreFailed
        Where something else than a regular file lies there, or the system refuses to read it.
    """
    descriptor = _opened(path, key)
    if descriptor is None:
        return None
    with open(descriptor, "rb", buffering=0) as file:
        count = wanted(os.fstat(descriptor).st_size)
        parts: list[bytes] = []
        try:
            while count > 0:
                part = file.read(count)
                if not part:
                    break
                parts.append(part)
                count -= len(part)
        except OSError as error:
            raise told(key, error) from None
    return parts[0] if len(parts) == 1 else b"".join(parts)


def at_most(most: int) -> Callable[[int], int]:
    """Return what reads so many bytes, and one more of a longer file, by which it is known to be longer."""
    return lambda length: min(length, most + 1)


def new_file(path: str) -> tuple[int, str]:
    """Return the descriptor of a new file beside a path, and its name: the program's own form, `.new` and a number.

    It is made where nothing is, so no link is followed and no file of another process is taken.

    Raises
    ------
    OSError
        What the system says.
    """
    for new in _new_names(path):
        with contextlib.suppress(FileExistsError):
            return os.open(new, os.O_WRONLY | os.O_CREAT | os.O_EXCL | os.O_NOFOLLOW | os.O_CLOEXEC, 0o666), new
    raise FileExistsError(17, "File exists", path)


def new_folder(path: str) -> str:
    """Return the path of a new folder beside a path, of a name as that of `new_file`; an OSError is what the system says."""
    for new in _new_names(path):
        with contextlib.suppress(FileExistsError):
            os.mkdir(new)
            return new
    raise FileExistsError(17, "File exists", path)


def _new_names(path: str) -> Iterator[str]:
    return (f"{path}.new{os.getpid()}{next(_COUNTER):06}" for _ in range(MOST_NAMES))
