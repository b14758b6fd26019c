#!/usr/bin/env python3
"""Calls the program as the script cubed does on a terminal, and says what it finds: on standard
error, behind the program's own line.

usage: tools/call.py PROGRAM DIR COMMAND WORDS..

- `run --progress 1` and `resume --progress 1` show on a terminal how many tasks are done, by the
  chunks that are there.
- A call that stores an array holds the lock of its name, which python/ uses too.
- After Ctrl-C it says what is stored and how one goes on; after 10 and 16 the space, files and
  rights that it finds; after 2, 3 and 4 what is wrong with the words or with the text.

The exit status is the program's, and a signal that ends the program ends this too.
"""
from __future__ import annotations

import contextlib
import ctypes
import os
import resource
import signal
import stat
import subprocess
import sys
import threading
import time
from typing import Any, Optional, Sequence, Union

import fresh
import locks
import stdin_text
from options import plan_numbers
from said import Failed, shown, usage_if_asked
from words import Wrong, read, told_of, without_progress
from stdin_text import NAME
from zarr_store import Stored

MOST_LINE = 1 << 16
ENDING = (signal.SIGINT, signal.SIGTERM, signal.SIGHUP)
# The seconds between two looks at the folder, and the part of the time that these may take.
LEAST_WAIT, MOST_PART = 0.25, 0.02
# The seconds for which the end of standard error is waited for, which another process may keep
# open.
LAST_WAIT = 1
# What takes a line of a terminal away.
NO_LINE = b"\r\x1b[K"
FEW_BYTES, FEW_FILES = 64 << 20, 1000


class Call:
    """A call of the program: its words, what its options say, the text that it reads, and the name
    of the array that it makes.
    """

    def __init__(self, program: str, words: list[str]) -> None:
        self.folder, self.command = words[0], words[1] if len(words) > 1 else ""
        self.words = [program, *words[:2], *without_progress(words[2:])]
        self.options: dict[str, int] = {}
        self.wrong: Optional[Wrong] = None
        try:
            self.options, _ = read(*words)
        except Wrong as wrong:
            self.wrong = wrong
        takes_text = self.command in stdin_text.TAKES_TEXT and not self.wrong
        self.text = stdin_text.taken() if takes_text else None

    def locks(self) -> list[tuple[str, bool]]:
        """The names whose locks it holds, and whether it holds each alone."""
        if self.wrong:
            return []
        if os.path.isdir(self.folder):
            return stdin_text.locks_of(self.command, self.text)
        return fresh.locks_of(self.words[1:], self.text)

    @property
    def name(self) -> Optional[str]:
        """The name of the array that the call makes, or nothing where it makes none."""
        found = stdin_text.name_of_text(self.text) if self.text else None
        name = "demo_y" if self.command == "demo" else found
        return name if isinstance(name, str) and NAME.match(name) else None

    def tasks(self) -> Any:
        """The tasks of the plan of the text, or nothing."""
        import tasks
        found = plan_numbers(self.options)
        return tasks.of_text(self.folder, self.text, *found) if self.text else None


class Line:
    """What the program writes on standard error, which is passed on as it comes."""

    def __init__(self) -> None:
        self.before = b""
        self.read_end, self.write_end = os.pipe()
        self.told, self.thread = b"", threading.Thread(target=self.follow, daemon=True)

    def begin(self) -> None:
        os.close(self.write_end)
        self.thread.start()

    def follow(self) -> None:
        while block := os.read(self.read_end, MOST_LINE):
            self.told = (self.told + block)[:MOST_LINE]
            sys.stderr.buffer.write(self.before + block)
            sys.stderr.flush()


def as_without_python(mask: set[Union[int, signal.Signals]]) -> None:
    """Gives the program what a shell gives it: the end of this script ends it too, the signals of a mask wait, a closed pipe is the
    system's, and a file that is too large is a fault of a write."""
    with contextlib.suppress(OSError, AttributeError):
        ctypes.CDLL(None).prctl(1, signal.SIGKILL)
    signal.signal(signal.SIGPIPE, signal.SIG_DFL)
    signal.signal(signal.SIGXFSZ, signal.SIG_IGN)
    signal.pthread_sigmask(signal.SIG_SETMASK, mask)


class Progress:
    """A line on the terminal with the tasks that are done of all."""

    def __init__(self, tasks: Any) -> None:
        self.tasks, self.wait = tasks, LEAST_WAIT

    def show(self) -> None:
        began = time.monotonic()
        done = self.tasks.done()
        at = next((it for it, count in zip(self.tasks.operations, done) if count < it.tasks),
                  self.tasks.operations[-1])
        self.line(f"cubed: {sum(done)} of {self.tasks.count} tasks done, operation {at.number + 1} of {len(done)} ({at.kind})")
        self.wait = max(LEAST_WAIT, (time.monotonic() - began) / MOST_PART)

    @staticmethod
    def line(text: str) -> None:
        sys.stderr.write(NO_LINE.decode() + text)
        sys.stderr.flush()


def run(call: Call, held: Sequence[int] = ()) -> tuple[int, str]:
    """Runs the program to its end, passes its signals on, and returns its status and its line on
    standard error.
    """
    progress, said = None, Line()
    child: Optional[subprocess.Popen[bytes]] = None
    if call.options.get("progress") and sys.stderr.isatty():
        tasks = call.tasks()
        progress = Progress(tasks) if tasks and tasks.count else None
        said.before = NO_LINE if progress else b""
    for lock in held:
        os.set_inheritable(lock, True)

    def pass_on(number: int, _: object) -> None:
        if child is not None:
            child.send_signal(number)

    # A signal that comes while the program is started waits until it can be passed on.
    before = signal.pthread_sigmask(signal.SIG_BLOCK, ENDING)
    try:
        for number in ENDING:
            # What is ignored stays so for the program too, as under nohup.
            if signal.getsignal(number) is not signal.SIG_IGN:
                signal.signal(number, pass_on)
        child = subprocess.Popen(call.words, stderr=said.write_end, close_fds=False,
                                 preexec_fn=lambda: as_without_python(before))
    finally:
        signal.pthread_sigmask(signal.SIG_SETMASK, before)
    said.begin()
    wait_for(child, progress, said)
    return child.returncode, said.told.decode("utf-8", "replace")


def wait_for(child: subprocess.Popen[bytes], progress: Optional[Progress], said: Line) -> None:
    """Waits for the end of the program and of what it says, and shows meanwhile how far it is."""
    while True:
        try:
            child.wait(progress.wait if progress else None)
            break
        except subprocess.TimeoutExpired:
            assert progress is not None
            progress.show()
    if progress and child.returncode == 0:
        progress.show()
        sys.stderr.write("\n")
    elif progress:
        progress.line("")
    said.thread.join(LAST_WAIT)


# What is found

def tell(text: object) -> None:
    print(f"cubed: {text}", file=sys.stderr)


def tell_stopped(call: Call) -> None:
    """What a call that was broken off has stored, and how one goes on."""
    import tasks
    name = call.name
    stored = Stored(call.folder, name) if name else None
    if call.command in ("plan", "check", "print") or stored is None:
        return tell("broken off; nothing is stored by this command"
                    if call.command in ("plan", "check", "print") else "broken off")
    if call.command == "load":
        is_there = os.path.lexists(os.path.join(stored.path, "zarr.json"))
        return tell(f"broken off; {name} is stored" if is_there
                    else f"broken off; {name} isn't stored whole: load it again")
    if call.command == "drop":
        left = stored.has_record()
        return tell(f"broken off; not all of {name} is removed: the same command goes on" if left
                    else f"broken off; nothing of {name} is left")
    if not stored.has_record():
        again = "run begins anew"
        if call.command == "demo":
            again = "remove demo_a and demo_b with --input, if they are there, and begin anew"
        return tell(f"broken off before the record of {name} was stored: {again}")
    found = tasks.of_record(stored)
    done = f"a part of {name} is stored"
    if found:
        done = f"{sum(found.done())} of {found.count} tasks of {name} are done"
    how = "resume with the same text and options goes on"
    if call.command == "demo":
        how = "remove it, and begin anew"
    return tell(f"broken off; {done}: {how}")


def rights_text(path: str) -> str:
    """Who may do what with a file or a folder."""
    found = os.stat(path)
    return f"it belongs to user {found.st_uid} and group {found.st_gid}, with the rights {stat.filemode(found.st_mode)}, and this is user {os.geteuid()}"


def find_folder(path: str) -> str:
    """The nearest thing on the way to a path that is there, and what hinders one on the way, if
    anything.
    """
    while not os.path.lexists(path) and os.path.dirname(path) not in ("", path):
        path = os.path.dirname(path)
    return path or "."


def tell_found(path: str) -> None:
    """What is found where a file can't be read or written: the kind, the rights, the space and the
    files that are left.
    """
    at = find_folder(path)
    try:
        mode = os.stat(at).st_mode
    except OSError as error:
        return tell(f"{shown(at, 400)} can't be looked at: {error.strerror}")
    if at != path and not stat.S_ISDIR(mode):
        tell(f"{shown(at, 400)} is no folder, and one is wanted on the way to {shown(os.path.basename(path))}")
    elif at == path and not stat.S_ISREG(mode):
        tell(f"{shown(at, 400)} is {'a folder' if stat.S_ISDIR(mode) else 'no file'}, and a file is wanted")
    elif at == path and not os.access(at, os.R_OK):
        tell(f"{shown(at, 400)} can't be read: {rights_text(at)}")
    home = at if stat.S_ISDIR(mode) else os.path.dirname(at) or "."
    if not os.access(home, os.W_OK | os.X_OK):
        tell(f"{shown(home, 400)} can't be written: {rights_text(home)}")
    tell_space(home)


def tell_space(home: str) -> None:
    """The space and the count of files that are left, and a limit on the size of files."""
    with contextlib.suppress(OSError):
        found = os.statvfs(home)
        if found.f_flag & os.ST_RDONLY:
            tell(f"the file system of {shown(home, 400)} can only be read")
        space, files = found.f_bavail * found.f_frsize, found.f_favail
        few = " (few)" if space < FEW_BYTES else ""
        told = f" and {files} files{' (few)' if files < FEW_FILES else ''}" if found.f_files else ""
        tell(f"{shown(home, 400)} has {space} bytes{few}{told} left")
    limit = resource.getrlimit(resource.RLIMIT_FSIZE)[0]
    if limit != resource.RLIM_INFINITY:
        tell(f"a file may have {limit} bytes at most (ulimit -f)")


def path_of_fault(call: Call, fields: dict[str, str]) -> str:
    """The path that an answer names: its key, or the folder in which its task stores."""
    if "key" in fields:
        return os.path.join(call.folder, fields["key"])
    found, number = call.tasks(), fields.get("op", "")
    if found and number.isdigit() and int(number) < len(found.operations):
        return os.path.join(found.operations[int(number)].folders[-1], "c")
    return os.path.join(call.folder, call.name or "")


def tell_more(call: Call, status: int, line: str) -> None:
    """What is found after a status, on a terminal."""
    if status == 2:
        wrong = told_of(call.words[1:])
        if wrong:
            tell(wrong.told)
    elif status in (3, 4, 5) and call.text:
        import explain
        fields = explain.fields_of(line)
        if fields.get("node", "").isdigit():
            for told in explain.told(status, fields, call.text, call.folder):
                tell(told.strip())
    elif status in (10, 16):
        tell_found(path_of_fault(call, dict(word.partition("=")[::2] for word in line.split())))


def main(program: str, *words: str) -> int:
    call = Call(program, list(words))
    if call.wrong and "progress" in call.wrong.told:
        print(f"error 2 code={call.wrong.code}\ncubed: {call.wrong.told}", file=sys.stderr)
        return 2
    try:
        with contextlib.ExitStack() as stack:
            held = [stack.enter_context(locks.held(call.folder, name, alone)) for name, alone in call.locks()]
            status, line = run(call, [it for it in held if it is not None])
    except Failed as failed:
        tell(failed)
        return 1
    # What is told beside is help: no fault of it may hide the answer.
    with contextlib.suppress(Exception):
        if -status in ENDING:
            tell_stopped(call)
        elif sys.stderr.isatty():
            tell_more(call, status, line)
    return status


if __name__ == "__main__":
    usage_if_asked(__doc__, 1)
    try:
        ended = main(*sys.argv[1:])
    except KeyboardInterrupt:
        tell("broken off before anything was begun")
        ended = -signal.SIGINT
    if ended < 0:
        sys.stderr.flush()
        if -ended not in (signal.SIGKILL, signal.SIGSTOP):
            signal.signal(-ended, signal.SIG_DFL)
        os.kill(os.getpid(), -ended)
    sys.exit(ended)
