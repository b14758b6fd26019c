"""A bar that shows how far a run is, from the chunks that appear in the folder."""
from __future__ import annotations

import os
import sys
import time
from typing import Any, Optional, TextIO

from ._plans import Plan
from ._sizes import bytes_text

# The part of the time that may go into counting, and the seconds between two counts at least.
MOST_PART = 0.01
LEAST_WAIT = 0.2
WIDTH = 30


def is_wanted(progress: Optional[bool]) -> bool:
    """Return whether a bar is shown: as asked, or on a terminal where nothing is said."""
    return sys.stderr.isatty() if progress is None else bool(progress)


def _count(folder: str) -> int:
    """Return how many chunks lie below a folder; metadata, records and files that aren't whole yet aren't chunks."""
    found = 0
    for _, _, files in os.walk(folder):
        found += sum(not name.endswith(".json") and ".new" not in name for name in files)
    return found


class Bar:
    """Shows the tasks that are done of all of an expression, the bytes that are stored of all, and the bytes each second.

    Parameters
    ----------
    folder, name : str
        The folder, and the name of the result.
    plan : Plan
        The plan of the run.
    label : str
        What stands before the bar.
    stream : text stream, optional
        Where the bar is shown; standard error where it isn't given.
    """

    def __init__(self, folder: str, name: str, plan: Plan, label: str, stream: Optional[TextIO] = None) -> None:
        self.folders = [os.path.join(folder, "_cubed", name), os.path.join(folder, name)]
        self.label, self.plan, self.stream = label, plan, stream or sys.stderr
        self.began = time.monotonic()
        self.bar = self._of_tqdm()

    def _of_tqdm(self) -> Any:
        """Return a bar of tqdm, where it is there."""
        try:
            from tqdm import tqdm
        except ImportError:
            return None
        return tqdm(total=self.plan.tasks, desc=self.label, unit="task", file=self.stream, leave=True)

    def stored(self) -> int:
        """Return how many chunks of the run are stored."""
        return sum(_count(folder) for folder in self.folders)

    def watch(self) -> float:
        """Show how far the run is, and return the seconds until the next time."""
        began = time.monotonic()
        self.show(self.stored())
        return max(LEAST_WAIT, (time.monotonic() - began) / MOST_PART)

    def show(self, stored: int) -> None:
        """Show the bar for a count of stored chunks."""
        self._show(*self._done(stored))

    def show_tasks(self, tasks: int) -> None:
        """Show the bar for a count of tasks that are done, of whichever operations."""
        self._show(tasks, self.plan.nbytes * tasks // max(1, self.plan.tasks))

    def _show(self, tasks: int, nbytes: int) -> None:
        rate = nbytes / max(1e-9, time.monotonic() - self.began)
        said = f"{bytes_text(nbytes)} of {bytes_text(self.plan.nbytes)}, {bytes_text(int(rate))}/s"
        if self.bar is not None:
            self.bar.set_postfix_str(said, refresh=False)
            self.bar.update(tasks - self.bar.n)
            return
        full = WIDTH * tasks // max(1, self.plan.tasks)
        self.stream.write(f"\r{self.label}: [{'#' * full}{'.' * (WIDTH - full)}] {tasks}/{self.plan.tasks} tasks, {said}")
        self.stream.flush()

    def _done(self, stored: int) -> tuple[int, int]:
        """Return the tasks and bytes that so many chunks are, since operations run in order."""
        tasks = nbytes = 0
        for operation in self.plan:
            part = min(stored, operation.stored)
            stored -= part
            tasks += operation.tasks * part // max(1, operation.stored)
            nbytes += operation.nbytes * part // max(1, operation.stored)
        return tasks, nbytes

    def close(self, is_done: bool) -> None:
        """Show the end of the run."""
        if is_done:
            self.show(self.plan.stored)
        if self.bar is not None:
            self.bar.close()
        else:
            self.stream.write("\n")
            self.stream.flush()
