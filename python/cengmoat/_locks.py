"""Locks for the names of results. A lock ends with the process that holds it, and with the program that it started.

The lock of a name is `flock` of the file `.locks/NAME` in the folder, which any process may take so. Those who compute an array
share it, as several may make one. Who stores one at once or removes one takes it alone, and so does a call that stores something
temporary beside the result. The script `cubed` has the same lock. Its content is one JSON object that says who took it last: `pid`,
`host`, `since`, and `temporary`, the names of what is stored for this run alone. Nothing else is ever written to: no file behind a
link, none that has a second name, and none that has another content.
"""
from __future__ import annotations

import contextlib
import errno
import fcntl
import json
import os
import socket
import time
from typing import Any, Iterator, Optional, Sequence

from ._opening import check_regular, refused, told
from .errors import Locked, StoreFailed

# Names of arrays have no dot in front, so no array is called so.
FOLDER = ".locks"
# The seconds for which a lock is waited for.
MOMENT = 0.25
MOST_CONTENT = 1_048_576
# The most characters of a file's text that an error says.
MOST_SAID = 80
# How often a lock's file is made anew where its folder is removed meanwhile, and how often its content is read before it is taken for
# another program's: one who shares it may just be writing.
TRIES, READS = 100, 3
FLAGS = os.O_CLOEXEC | os.O_NOFOLLOW | os.O_NONBLOCK | os.O_NOCTTY
MEMBERS = {"pid": int, "host": str, "since": str, "temporary": list}


def _key(name: str) -> str:
    return f"{FOLDER}/{name}"


def _place(folder: str) -> int:
    """Return the descriptor of the folder of the locks. A link to one is followed by nothing here: it is an OSError."""
    return os.open(os.path.join(folder, FOLDER), os.O_RDONLY | os.O_DIRECTORY | os.O_NOFOLLOW | os.O_CLOEXEC)


def _made_place(folder: str) -> int:
    """Return the descriptor of the folder of the locks, which is made where it isn't there."""
    os.makedirs(folder, exist_ok=True)
    path = os.path.join(folder, FOLDER)
    with contextlib.suppress(FileExistsError):
        os.mkdir(path)
    try:
        return _place(folder)
    except NotADirectoryError:
        raise refused(FOLDER, "it is a link, or no folder, and locks lie in a folder alone: move it away") from None


def _made(name: str, place: int, flags: int = os.O_CREAT) -> int:
    """Return the descriptor of a lock's file, which is made where it isn't there."""
    try:
        return os.open(name, os.O_RDWR | flags | FLAGS, 0o666, dir_fd=place)
    except OSError as error:
        if error.errno not in (errno.EACCES, errno.EPERM, errno.EROFS):
            raise
        # (the file of another user, or one where nothing may be written: a lock needs no right to write it)
        with contextlib.suppress(FileNotFoundError):
            return os.open(name, os.O_RDONLY | FLAGS, dir_fd=place)
        raise error from None


def _read(descriptor: int) -> Optional[dict[str, Any]]:
    """Return what a lock's file says, of an empty one nothing; None where the content isn't that of a lock."""
    try:
        data = os.pread(descriptor, MOST_CONTENT, 0)
        # (behind the first line may stand the end of what was there before, where a write of it was stopped)
        found = json.loads(data.partition(b"\n")[0]) if data else {}
    except (OSError, ValueError, RecursionError):
        return None
    if not data:
        return {}
    if not isinstance(found, dict) or set(found) != set(MEMBERS):
        return None
    return found if all(isinstance(found[member], kind) for member, kind in MEMBERS.items()) else None


def _is_strange(descriptor: int) -> bool:
    """Return whether a lock's file has another content than a lock's."""
    if _read(descriptor) is not None:
        return False
    time.sleep(0.002)
    return True


def _content(descriptor: int) -> dict[str, Any]:
    """Return what is written in a lock's file; nothing where it isn't such a content."""
    return _read(descriptor) or {}


class _File:
    """A lock's file, open, and the folder in which it lies, open too, so that each later step goes to the same one."""

    def __init__(self, folder: str, name: str) -> None:
        self.folder, self.name = folder, name
        self.place = _made_place(folder)
        try:
            self.descriptor = _made(name, self.place)
        except BaseException:
            os.close(self.place)
            raise

    def close(self) -> None:
        os.close(self.descriptor)
        os.close(self.place)

    def is_there(self) -> bool:
        """Return whether the file still lies at its path."""
        try:
            return (os.path.samestat(os.fstat(self.descriptor), os.stat(self.name, dir_fd=self.place, follow_symlinks=False))
                    and os.path.samestat(os.fstat(self.place), os.lstat(os.path.join(self.folder, FOLDER))))
        except FileNotFoundError:
            return False

    def check(self) -> None:
        """Refuse a file that another program may have made, by StoreFailed."""
        state = os.fstat(self.descriptor)
        check_regular(_key(self.name), state.st_mode)
        if state.st_nlink != 1:
            raise refused(_key(self.name), "it has another name beside this, so it isn't written to: move it away")
        if all(_is_strange(self.descriptor) for _ in range(READS)):
            raise refused(_key(self.name), "its content isn't that of a lock, so it isn't written to: move it away")

    def remove(self) -> None:
        """Remove the file, if it is still the one that is open."""
        with contextlib.suppress(OSError):
            if self.is_there():
                os.unlink(self.name, dir_fd=self.place)


def _opened(folder: str, name: str) -> _File:
    for left in reversed(range(TRIES)):
        try:
            file = _File(folder, name)
            break
        except OSError as error:
            if error.errno in (errno.EACCES, errno.EPERM, errno.EROFS):
                raise StoreFailed(f"{folder} may only be read: {error.strerror}. Write cengmoat.Store({folder!r}, work=\"scratch/mine\"),"
                                  " which computes and stores in the folder that work= names", key=_key(name)) from None
            # (another process may just have removed the folder of the locks)
            if not left or not isinstance(error, FileNotFoundError):
                raise told(_key(name), error) from None
    try:
        check_regular(_key(name), os.fstat(file.descriptor).st_mode)
    except BaseException:
        file.close()
        raise
    return file


def _taken(folder: str, name: str, shared: bool = False) -> Optional[_File]:
    """Return a lock's file that is locked, or None where another holds it."""
    while True:
        file = _opened(folder, name)
        try:
            fcntl.flock(file.descriptor, (fcntl.LOCK_SH if shared else fcntl.LOCK_EX) | fcntl.LOCK_NB)
            # (it may have been removed between the two calls)
            if file.is_there():
                file.check()
                return file
        except BlockingIOError:
            file.close()
            return None
        except BaseException as error:
            file.close()
            if isinstance(error, OSError):
                raise told(_key(name), error) from None
            raise
        file.close()


def _texts(value: Any) -> list[str]:
    return [it for it in value if isinstance(it, str)] if isinstance(value, list) else []


class Lock:
    """A lock that is held.

    Attributes
    ----------
    descriptor : int
        Its open file, which the program keeps too.
    left : list of str
        The temporary names of the run that held it before and left them.
    shares : bool
        Whether others may share it sooner or later.
    """

    def __init__(self, descriptor: int, shared: bool = False, shares: bool = False) -> None:
        self.descriptor, self._shared, self.shares = descriptor, shared, shares or shared
        self.left = _texts(_content(descriptor).get("temporary"))

    def share(self) -> None:
        """Let others share it from now on, if they may. Who begins a run holds it alone until its record is there, so that no other one
        of the name begins at the same time."""
        if self.shares and not self._shared:
            fcntl.flock(self.descriptor, fcntl.LOCK_SH)
            self._shared = True

    def be_alone(self) -> bool:
        """Return whether nobody shares it any more. Then nobody will either, until it ends; else it may have ended by this."""
        try:
            fcntl.flock(self.descriptor, fcntl.LOCK_EX | fcntl.LOCK_NB)
        except OSError:
            return False
        return True

    def write(self, temporary: Sequence[str] = ()) -> None:
        """Say who holds it, and which names are temporary. They are said before anything is stored under them.

        Raises
        ------
        StoreFailed
            Where names can't be said, as on a full disk.
        """
        said = {"pid": os.getpid(), "host": socket.gethostname(), "since": time.strftime("%Y-%m-%d %H:%M:%S"), "temporary": list(temporary)}
        data, before = json.dumps(said).encode() + b"\n", b""
        try:
            before = os.pread(self.descriptor, MOST_CONTENT, 0)
            # (the names that stand there are lost at no moment: they are written over, and what is longer is cut off afterwards; not by
            # one of several who share it, since another one's line may stand there by then)
            if os.pwrite(self.descriptor, data, 0) < len(data):
                raise OSError(errno.ENOSPC, os.strerror(errno.ENOSPC))
            self._cut(len(data))
        except OSError as error:
            with contextlib.suppress(OSError):
                self._cut(os.pwrite(self.descriptor, before, 0))
            if temporary:
                raise told(FOLDER, error) from None

    def _cut(self, length: int) -> None:
        if not self._shared:
            os.ftruncate(self.descriptor, length)


@contextlib.contextmanager
def _reading(folder: str, name: str) -> Iterator[int]:
    """Open a lock's file that is there, and write nothing; an OSError says why it isn't one."""
    place = _place(folder)
    try:
        descriptor = _made(name, place, 0)
    finally:
        os.close(place)
    try:
        yield descriptor
    finally:
        os.close(descriptor)


def _said(text: str) -> str:
    """Return a text of a file as an error may say it: short, and on one line."""
    text = text if len(text) <= MOST_SAID else f"{text[:MOST_SAID]}.."
    return "".join(it if it.isprintable() else ascii(it)[1:-1] for it in text)


def _holds(number: int, name: str, its: os.stat_result) -> Optional[bool]:
    """Return whether a process of this machine has a lock's file open and locked, or None where the system doesn't show it."""
    try:
        for at in os.listdir(f"/proc/{number}/fd"):
            with contextlib.suppress(FileNotFoundError):
                path = f"/proc/{number}/fd/{at}"
                if os.readlink(path).endswith(f"/{_key(name)}") and os.path.samestat(os.stat(path), its):
                    with open(f"/proc/{number}/fdinfo/{at}", encoding="ascii", errors="replace") as file:
                        if "FLOCK" in file.read(MOST_CONTENT):
                            return True
    except FileNotFoundError:
        return False
    except OSError:
        return None
    return False


def _takers(its: os.stat_result) -> list[int]:
    """Return the processes of this machine that took a lock and live, as far as the system tells: also those of other users."""
    found, place = [], f"{os.major(its.st_dev):02x}:{os.minor(its.st_dev):02x}:{its.st_ino}"
    with contextlib.suppress(OSError, ValueError), open("/proc/locks", encoding="ascii") as file:
        rows = [line.split() for line in file]
        found = [int(row[4]) for row in rows if row[1:2] == ["FLOCK"] and row[5:6] == [place]]
    return [process for process in found if os.path.exists(f"/proc/{process}")]


def _worker(descriptor: int, name: str, pid: int) -> int:
    """Return a process that holds a lock: the one that its file names; where that has ended, another one that took it or has the same open file."""
    its = os.fstat(descriptor)
    is_one = _holds(pid, name, its)
    if is_one or pid == os.getpid():
        return pid
    takers = _takers(its)
    if takers:
        return pid if pid in takers else takers[0]
    others = sorted(map(int, filter(str.isdigit, os.listdir("/proc")))) if is_one is False else []
    return next((number for number in others if number != os.getpid() and _holds(number, name, its)), pid)


def _refusal(folder: str, name: str) -> Locked:
    """Return the error that says who holds a lock; of those who share it one."""
    held: dict[str, Any] = {}
    here, worker = socket.gethostname(), 0
    with contextlib.suppress(OSError), _reading(folder, name) as descriptor:
        held = _content(descriptor)
        worker = _worker(descriptor, name, held["pid"]) if held and held["host"] == here else 0
    if not held:
        return Locked(f"{name} is being computed or stored by another process: wait until it has ended")
    pid, host, since = held["pid"], held["host"], held["since"]
    if worker and worker != pid:
        # (who took it last has ended)
        pid, since = worker, None
    far = "" if host == here else f" on {_said(host)}"
    where = "this process, in another thread" if pid == os.getpid() else _said(f"process {pid}") + far
    when = "" if since is None else f", since {_said(since)}"
    return Locked(f"{name} is being computed or stored by {where}{when}: wait until it has ended", pid=pid, host=host, since=since)


@contextlib.contextmanager
def locked(folder: str, name: str, *, shared: bool = False, shares: bool = False, remove: bool = False, wait: float = MOMENT) -> Iterator[Lock]:
    """Hold the lock of a name and give it.

    Parameters
    ----------
    folder, name : str
        The folder of the arrays, and the name.
    shared, shares : bool
        Whether others may share it, as those do who compute the same array: from the first, or once `Lock.share` is called.
    remove : bool
        Whether its file is removed at the end, unless it still names what is temporary.
    wait : float
        The seconds in which it is tried again: who asks whether a lock is held, holds it for a moment.

    Raises
    ------
    Locked
        Where another process holds it, or another thread.
    StoreFailed
        Where the system refuses the lock's file, as in a folder that may only be read, or another program's file lies there.
    """
    end = time.monotonic() + wait
    file, process = _taken(folder, name, shared), os.getpid()
    while file is None:
        if time.monotonic() >= end:
            raise _refusal(folder, name)
        time.sleep(0.01)
        file = _taken(folder, name, shared)
    try:
        lock = Lock(file.descriptor, shared, shares)
        lock.write(lock.left)
        yield lock
    finally:
        if os.getpid() == process:
            # (names that a killed call left are told by this file alone)
            if remove and not _texts(_content(file.descriptor).get("temporary")):
                file.remove()
            # (a process that was forked meanwhile, as a worker of a pool, has the same open file, and would hold the lock as long as it lives)
            with contextlib.suppress(OSError):
                fcntl.flock(file.descriptor, fcntl.LOCK_UN)
        file.close()


def is_locked(folder: str, name: str) -> bool:
    """Return whether a name's lock is held, alone or by those who share it. Nothing is made or written, so the right to read suffices."""
    try:
        with _reading(folder, name) as descriptor:
            fcntl.flock(descriptor, fcntl.LOCK_EX | fcntl.LOCK_NB)
    except BlockingIOError:
        return True
    except OSError:
        return False
    return False


def temporaries(folder: str) -> list[str]:
    """Return the names of locks whose files name something temporary."""
    found = []
    try:
        place = _place(folder)
    except OSError:
        return []
    try:
        names = os.listdir(place)
    finally:
        os.close(place)
    for name in names:
        with contextlib.suppress(OSError), _reading(folder, name) as descriptor:
            if _texts(_content(descriptor).get("temporary")):
                found.append(name)
    return found
