"""Removing an array with its plan: our files alone, links without what they lead to, and all is tested before the first file goes."""
from __future__ import annotations

import contextlib
import json
import os
import re
from typing import Optional

from ._metadata import Metadata
from ._names import is_own, record_key
from ._opening import at_most, read_regular, refused, told
from ._status import metadata_of
from .errors import CengmoatError, NotRemoved

METADATA = ("zarr.json", ".zarray", ".zattrs")
# A chunk as the program writes it, for where the grid isn't known; chunks in between; and what a write that was stopped left beside a file.
CHUNK = re.compile(r"c(/(0|[1-9][0-9]{0,4})){0,6}\Z")
BETWEEN = re.compile(r"(0|[1-9][0-9]{0,5})/c(/(0|[1-9][0-9]{0,4})){0,6}(\.new[0-9]+)?\Z")
RECORD = re.compile(r"plan\.json(\.new[0-9]+)?\Z")
STOPPED = re.compile(r"(.+)\.new[0-9]+\Z")
PLANS = "_cubed"
# A group's metadata is short, and no more of a text is looked at.
MOST_TEXT = 1_048_576


class _Folders:
    """The folders below one, opened one at a time. No link on the way to them is followed, whenever it was put there.

    Where the name is the package's own, the folder of the plans may be a link: the program stored through it, under that name.
    """

    def __init__(self, folder: str, name: str) -> None:
        self.folder, self.name = folder, name
        self.at, self.here = "", -1

    def __enter__(self) -> _Folders:
        return self

    def __exit__(self, *_: object) -> None:
        self._close()

    def _close(self) -> None:
        if self.here >= 0:
            os.close(self.here)
        self.here = -1

    def open(self, key: str) -> int:
        """Return the descriptor of a folder, which is open until another is asked for. An OSError says why it can't be opened."""
        if self.here >= 0 and key == self.at:
            return self.here
        self._close()
        kind = os.O_RDONLY | os.O_DIRECTORY | os.O_CLOEXEC
        found = os.open(self.folder, kind)
        for part in filter(None, key.split("/")):
            is_followed = part == key.split("/")[0] == PLANS and is_own(self.name)
            try:
                below = os.open(part, kind if is_followed else kind | os.O_NOFOLLOW, dir_fd=found)
            finally:
                os.close(found)
            found = below
        self.at, self.here = key, found
        return found

    def unlink(self, key: str) -> None:
        """Remove a file or a link."""
        head, _, last = key.rpartition("/")
        os.unlink(last, dir_fd=self.open(head))

    def remove_empty(self, keys: list[str]) -> None:
        """Remove folders, which are given outer ones first, where they are empty."""
        for key in reversed(keys):
            head, _, last = key.rpartition("/")
            with contextlib.suppress(OSError):
                os.rmdir(last, dir_fd=self.open(head))


class _Under:
    """What lies below a folder, listed once: its files, the links to folders, which aren't followed, and the folders, outer ones first.

    The paths are relative to the folder, but for those of the folders. An OSError says where a folder can't be read.
    """

    def __init__(self, folders: _Folders, key: str) -> None:
        self.files: list[str] = []
        self.links: list[str] = []
        self.folders: list[str] = []
        waiting = [key]
        while waiting:
            at = waiting.pop()
            self.folders.append(at)
            with os.scandir(folders.open(at)) as entries:
                for entry in entries:
                    its = f"{at}/{entry.name}"
                    if entry.is_dir(follow_symlinks=False):
                        waiting.append(its)
                    else:
                        is_far = entry.is_symlink() and _leads_to_folder(entry)
                        (self.links if is_far else self.files).append(its[len(key) + 1:])
        self.files.sort()
        self.links.sort()


def _leads_to_folder(entry: os.DirEntry[str]) -> bool:
    try:
        return entry.is_dir()
    except OSError:
        return False


class Removal:
    """What goes and what stays if an array is removed.

    Parameters
    ----------
    folder, name : str
        The folder of the arrays, and the name.

    Attributes
    ----------
    keys : list of str
        The files and links that go, in this order: the metadata first, so that no reader takes the rest for an array, and the record last.
    kept : list of str
        The files below the array's folder that stay, since they are no part of it.
    """

    def __init__(self, folder: str, name: str) -> None:
        self.folder, self.name = folder, name
        self.path, self.between = os.path.join(folder, name), os.path.join(folder, PLANS, name)
        self.keys: list[str] = []
        self.kept: list[str] = []
        self.folders: list[str] = []
        self.is_link = os.path.islink(self.path)
        self.has_record = os.path.lexists(os.path.join(folder, record_key(name)))
        # (what lies behind a link may be of anyone; the package's own names are of nobody else)
        self.is_far = not is_own(name) and os.path.islink(os.path.join(folder, PLANS)) and os.path.lexists(self.between)
        self.meta: Optional[Metadata] = None
        self.unread = ""
        try:
            with _Folders(folder, name) as folders:
                self._find_array(folders)
                self.has_array = bool(self.keys)
                if not self.is_far:
                    self._find_between(folders)
        except OSError as error:
            raise told(name, error) from None

    @property
    def is_nothing(self) -> bool:
        """Whether no metadata, no link, and nothing of a plan lies under the name: then it is no array."""
        heads = (self.name, *(f"{self.name}/{key}" for key in METADATA[:2]))
        return not self.is_far and not any(key in heads or key.startswith(f"{PLANS}/") for key in self.keys) and not self._is_group()

    def _find_array(self, folders: _Folders) -> None:
        if self.is_link:
            self.keys.append(self.name)
        elif os.path.isdir(self.path):
            under = _Under(folders, self.name)
            self.folders += under.folders
            # What a run makes has metadata of version 3 alone.
            metadata = [key for key in (METADATA[:1] if self.has_record else METADATA) if key in under.files]
            self._read_metadata(metadata)
            ours = [key for key in under.files if self._is_chunk(key) or self._is_stopped(key)]
            self.keys += [f"{self.name}/{key}" for key in [*metadata, *ours]]
            known = {*metadata, *ours}
            self.kept += [f"{self.name}/{key}" for key in [*under.files, *under.links] if key not in known]

    def _read_metadata(self, metadata: list[str]) -> None:
        if any(key in METADATA[:2] for key in metadata):
            try:
                self.meta = metadata_of(self.folder, self.name)
            except CengmoatError as error:
                self.unread = str(error).partition("\n")[0].rstrip(".")

    def _is_chunk(self, key: str) -> bool:
        """Return whether a file of the array's folder has the name of one of its chunks, or of one that the program writes."""
        return CHUNK.match(key) is not None if self.meta is None else self.meta.has_chunk(key)

    def _is_stopped(self, key: str) -> bool:
        left = STOPPED.match(key)
        return left is not None and (left[1] in METADATA or self._is_chunk(left[1]))

    def _find_between(self, folders: _Folders) -> None:
        head = f"{PLANS}/{self.name}"
        if os.path.islink(self.between):
            self.keys.append(head)
        elif os.path.isdir(self.between):
            under = _Under(folders, head)
            files, links = under.files, under.links
            self.folders += under.folders
            self.keys += [f"{head}/{key}" for key in files if BETWEEN.match(key)]
            # (what a stopped write of it left goes before the record itself)
            self.keys += [f"{head}/{key}" for key in sorted(files, reverse=True) if RECORD.match(key)]
            self.kept += [f"{head}/{key}" for key in [*files, *links] if key in links or not BETWEEN.match(key) and not RECORD.match(key)]

    def _is_group(self) -> bool:
        if self.is_link or not os.path.isdir(self.path):
            return False
        # (arrays below it make it one too, whether or not its metadata says so)
        if any(key == f"{self.name}/.zgroup" or key.count("/") > 1 and key.rpartition("/")[2] in (".zgroup", "zarr.json", ".zarray")
               for key in self.kept if key.startswith(f"{self.name}/")):
            return True
        with contextlib.suppress(CengmoatError, ValueError, RecursionError):
            text = read_regular(os.path.join(self.path, "zarr.json"), f"{self.name}/zarr.json", at_most(MOST_TEXT))
            told_of = json.loads(text or b"{}")
            return isinstance(told_of, dict) and told_of.get("node_type") == "group"
        return False

    def check(self, inputs: bool) -> None:
        """Test whether all of it may go and can go.

        Parameters
        ----------
        inputs : bool
            Whether an array may go that no run made.

        Raises
        ------
        NotRemoved
            Where it is a group, an array that no run made and `inputs` isn't set, or one of which it isn't known which files are its own.
        StoreFailed
            Where a folder doesn't let its files be removed.
        """
        if self.is_far:
            raise NotRemoved(f"{self.name} isn't removed: {PLANS} is a link, and nothing behind a link is removed. Remove {self.between} first"
                             " by another program", name=self.name)
        if self._is_group():
            raise NotRemoved(f"{self.name} is a group of arrays, and isn't removed: a store over its folder,"
                             f" cengmoat.Store({self.path!r}), removes the arrays in it", name=self.name)
        if self.has_array and not self.has_record and not inputs:
            raise NotRemoved(f"{self.name} has no record of a run, so no run made it, and perhaps nothing else has its numbers:"
                             f" store.remove({self.name!r}, inputs=True) removes it all the same", name=self.name)
        if self.unread and not self.has_record:
            raise NotRemoved(f"{self.name} isn't removed, since its chunks can't be told from other files: {self.unread}."
                             " Its folder may be removed by another program", name=self.name)
        for head in sorted({os.path.dirname(key) for key in self.keys}):
            if not os.access(os.path.join(self.folder, head), os.W_OK | os.X_OK):
                raise refused(head or ".", "files in this folder can't be removed: no permission; nothing was removed")

    def remove(self) -> None:
        """Remove the files and then the folders that are empty.

        Raises
        ------
        StoreFailed
            Where the system refuses; what comes later in `keys` is left.
        """
        with _Folders(self.folder, self.name) as folders:
            for key in self.keys:
                try:
                    folders.unlink(key)
                except FileNotFoundError:
                    continue
                except OSError as error:
                    raise told(key, error) from None
            folders.remove_empty(self.folders)


def remove_between(folder: str, name: str) -> int:
    """Remove what lies in between of a plan whose result is whole, and return its bytes; the record stays, and all behind links."""
    head, count = f"{PLANS}/{name}", 0
    with contextlib.suppress(OSError), _Folders(folder, name) as folders:
        under = _Under(folders, head)
        for key in under.files:
            if BETWEEN.match(key):
                at, _, last = f"{head}/{key}".rpartition("/")
                count += os.stat(last, dir_fd=folders.open(at), follow_symlinks=False).st_size
                folders.unlink(f"{head}/{key}")
        folders.remove_empty(under.folders[1:])
    return count


def remove_own(folder: str, name: str) -> None:
    """Remove what the package stored under a name of its own, as far as it got."""
    found = Removal(folder, name)
    found.check(inputs=True)
    found.remove()
