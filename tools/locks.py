"""The lock of an array's name. It is the package's of python/, by the same file, so that each keeps
the other out.

The lock of a name is `flock` of the file `.locks/NAME` in the folder. Those who compute an array
share it, as several processes may make one: `run`, `resume`, `begin` and `part`. Who stores an array
at once or removes one takes it alone: `load`, `drop` and `remove`. Nobody waits for it. Its content
says who took it last, and perhaps the temporary names that a call of the package left: these stay
there for it. A lock ends with the process that holds it, and with the program to which it is handed
on: what a stop leaves of its file holds nobody up. Nothing else is ever written to: no file behind a
link, none that has a second name, and none that has another content.
"""
from __future__ import annotations

import contextlib
import errno
import fcntl
import json
import os
import stat
import time

from said import Failed, shown

TYPE_CHECKING = False
if TYPE_CHECKING:  # (a part takes the lock at each call, and `typing` would take a third of that time)
    from typing import Any, Iterator, Optional

# Names of arrays have no dot in front, so no array is called so.
FOLDER = ".locks"
# The seconds for which a lock is asked for: who asks whether it is held, holds it for a moment.
MOMENT = 0.25
MOST_CONTENT = 1048576
# How often a content is read before it is taken for another program's.
READS = 3
FLAGS = os.O_CLOEXEC | os.O_NOFOLLOW | os.O_NONBLOCK | os.O_NOCTTY
PLACE = os.O_RDONLY | os.O_DIRECTORY | os.O_NOFOLLOW | os.O_CLOEXEC
MEMBERS = {"pid": int, "host": str, "since": str, "temporary": list}
# What the system says where a folder takes no locks at all, as one that can only be read.
NO_LOCKS = (errno.EROFS, errno.EACCES, errno.EPERM, errno.ENOLCK, errno.ENOSYS, errno.EOPNOTSUPP)
# A lock's descriptor is none of the standard streams, even where one of these is closed.
LEAST_DESCRIPTOR = 3


def path_of(folder: str, name: str) -> str:
    return os.path.join(folder, FOLDER, name)


def place_of(folder: str) -> int:
    """The descriptor of the folder of the locks, which is made where it isn't there. A link to one
    isn't followed.
    """
    path = os.path.join(folder, FOLDER)
    with contextlib.suppress(FileExistsError):
        os.mkdir(path)
    try:
        return os.open(path, PLACE)
    except NotADirectoryError:
        raise Failed(f"{shown(path, 400)} is a link, or no folder, and locks lie in a folder "
                     "alone: move it away, and call again") from None


def opened(name: str, place: int, flags: int) -> int:
    """The descriptor of a lock's file. It may be another user's, or lie where nothing may be
    written: that may be locked too.
    """
    try:
        found = os.open(name, os.O_RDWR | flags | FLAGS, 0o666, dir_fd=place)
    except OSError as error:
        if error.errno not in (errno.EACCES, errno.EPERM, errno.EROFS):
            raise
        found = os.open(name, os.O_RDONLY | FLAGS, dir_fd=place)
    if found >= LEAST_DESCRIPTOR:
        return found
    try:
        return fcntl.fcntl(found, fcntl.F_DUPFD_CLOEXEC, LEAST_DESCRIPTOR)
    finally:
        os.close(found)


class File:
    """A lock's file, open, and the folder in which it lies, open too, so that each later step goes
    to the same one.
    """

    def __init__(self, folder: str, name: str) -> None:
        self.folder, self.name = folder, name
        self.place = place_of(folder)
        try:
            self.descriptor = opened(name, self.place, os.O_CREAT)
        except BaseException:
            os.close(self.place)
            raise

    def close(self) -> None:
        os.close(self.descriptor)
        os.close(self.place)

    def is_there(self) -> bool:
        """Whether the file still lies at its path."""
        place = os.lstat(os.path.join(self.folder, FOLDER))
        at = os.stat(self.name, dir_fd=self.place, follow_symlinks=False)
        return (os.path.samestat(os.fstat(self.descriptor), at)
                and os.path.samestat(os.fstat(self.place), place))

    def check(self) -> None:
        """Refuses a file that another program may have made: it isn't written to."""
        state = os.fstat(self.descriptor)
        path = shown(path_of(self.folder, self.name), 400)
        if not stat.S_ISREG(state.st_mode):
            raise Failed(f"{path} is no file")
        if state.st_nlink != 1:
            raise Failed(f"{path} has another name beside this, so it isn't written to: move it "
                         "away, and call again")
        if not any(self.is_read() for _ in range(READS)):
            raise Failed(f"{path} has a content that isn't a lock's, so it isn't written to: move "
                         "it away, and call again")

    def is_read(self) -> bool:
        """Whether its content is a lock's. One who shares it may just be writing."""
        if read(self.descriptor) is not None:
            return True
        time.sleep(0.002)
        return False

    def remove(self) -> None:
        """Removes the file, if it is still the one that is open and nobody shares it."""
        with contextlib.suppress(OSError):
            fcntl.flock(self.descriptor, fcntl.LOCK_EX | fcntl.LOCK_NB)
            if self.is_there() and not left_names(self.descriptor):
                os.unlink(self.name, dir_fd=self.place)


def taken(folder: str, name: str, alone: bool) -> Optional[File]:
    """The file of a lock, or nothing where another holds it or the file has just been removed."""
    file = File(folder, name)
    try:
        fcntl.flock(file.descriptor, (fcntl.LOCK_EX if alone else fcntl.LOCK_SH) | fcntl.LOCK_NB)
        # The file may have been removed between the two calls.
        if file.is_there():
            file.check()
            return file
    except (BlockingIOError, FileNotFoundError):
        pass
    except BaseException:
        file.close()
        raise
    file.close()
    return None


def read(descriptor: int) -> Optional[dict[str, Any]]:
    """What a lock's file says, of an empty one nothing; None where the content isn't a lock's.
    Behind the first line may stand the end of an earlier content.
    """
    try:
        data = os.pread(descriptor, MOST_CONTENT, 0)
        found = json.loads(data.partition(b"\n")[0]) if data else {}
    except (OSError, ValueError, RecursionError):
        return None
    if not data:
        return {}
    if not isinstance(found, dict) or set(found) != set(MEMBERS):
        return None
    is_one = all(isinstance(found[member], kind) for member, kind in MEMBERS.items())
    return found if is_one else None


def content(descriptor: int) -> dict[str, Any]:
    """What a lock's file says, or nothing where it isn't such a content."""
    return read(descriptor) or {}


def say_who(descriptor: int, alone: bool) -> None:
    """Writes who holds a lock, as the package does, and keeps the temporary names in it. What was
    there stays where there is no room for it. One of several who share it cuts nothing off: each
    writes its line over that of the one before by one call.
    """
    said = {"pid": os.getpid(), "host": os.uname().nodename,
            "since": time.strftime("%Y-%m-%d %H:%M:%S"), "temporary": left_names(descriptor)}
    data = json.dumps(said).encode() + b"\n"
    with contextlib.suppress(OSError):
        before = os.pread(descriptor, MOST_CONTENT, 0)
        length = 0
        with contextlib.suppress(OSError):
            length = os.pwrite(descriptor, data, 0)
        if length < len(data):
            length = os.pwrite(descriptor, before, 0)
        if alone:
            os.ftruncate(descriptor, length)


def left_names(descriptor: int) -> list[Any]:
    names: list[Any] = content(descriptor).get("temporary", [])
    return names


@contextlib.contextmanager
def reading(folder: str, name: str) -> Iterator[int]:
    """Opens a lock's file that is there. Nothing is written."""
    place = os.open(os.path.join(folder, FOLDER), PLACE)
    try:
        descriptor = opened(name, place, 0)
    finally:
        os.close(place)
    try:
        yield descriptor
    finally:
        os.close(descriptor)


def holders(descriptor: int) -> list[int]:
    """The processes of this machine that took the lock and live, as far as the system tells."""
    found, state = [], os.fstat(descriptor)
    at = f"{os.major(state.st_dev):02x}:{os.minor(state.st_dev):02x}:{state.st_ino}"
    with contextlib.suppress(OSError, ValueError), open("/proc/locks", encoding="ascii") as file:
        rows = [line.split() for line in file]
        found = [int(row[4]) for row in rows if row[1:2] == ["FLOCK"] and row[5:6] == [at]]
    return [process for process in found if os.path.exists(f"/proc/{process}")]


def who_holds(folder: str, name: str) -> str:
    """Who holds a lock, as far as its file and the system say. Of those who share it one is said."""
    with contextlib.suppress(OSError), reading(folder, name) as descriptor:
        said, living = content(descriptor), holders(descriptor)
        if said and (said["host"] != os.uname().nodename or said["pid"] in living or not living):
            where = "" if said["host"] == os.uname().nodename else f" on {said['host']}"
            return shown(f"process {said['pid']}{where}, since {said['since']}", 200)
        if living:
            return f"process {living[0]}"
    return "another process"


def hold(folder: str, name: str, alone: bool = True) -> Optional[File]:
    """Takes the lock of a name, alone or with others who share it, and returns its file, or nothing
    where the folder takes no lock, as one that can only be read, or is no folder. Any other fault of
    the system is said.
    """
    end = time.monotonic() + MOMENT
    try:
        os.makedirs(folder, exist_ok=True)
    except (FileExistsError, NotADirectoryError):
        return None
    except OSError as error:
        refuse_fault(folder, error)
        return None
    while True:
        file: Optional[File] = None
        fault: Optional[OSError] = None
        try:
            file = taken(folder, name, alone)
        except FileNotFoundError as error:
            # The folder of the locks may just have been removed.
            fault = error
        except OSError as error:
            refuse_fault(path_of(folder, name), error)
            return None
        if file is not None:
            say_who(file.descriptor, alone)
            return file
        if time.monotonic() >= end:
            if fault:
                refuse_fault(path_of(folder, name), fault)
                return None
            raise Failed(f"{name} is being computed or stored by {who_holds(folder, name)}: "
                         "wait until it has ended, and call again")
        time.sleep(0.01)


def refuse_fault(path: str, error: OSError) -> None:
    """Says what the system says, unless it is that a folder takes no locks."""
    if error.errno in NO_LOCKS:
        return
    raise Failed(f"{shown(path, 400)} can't be locked: {error.strerror}") from None


@contextlib.contextmanager
def held(folder: str, name: str, alone: bool = True) -> Iterator[Optional[int]]:
    """Holds the lock of a name and gives its descriptor, if the folder takes locks. Its file is
    removed at the end, unless others share it or it says what a call of the package left.
    """
    file = hold(folder, name, alone)
    try:
        yield file.descriptor if file is not None else None
    finally:
        if file is not None:
            file.remove()
            file.close()


def is_held(folder: str, name: str) -> bool:
    """Whether the lock of a name is held, alone or by those who share it."""
    try:
        with reading(folder, name) as descriptor:
            fcntl.flock(descriptor, fcntl.LOCK_EX | fcntl.LOCK_NB)
    except BlockingIOError:
        return True
    except OSError:
        return False
    return False
