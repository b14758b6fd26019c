#!/usr/bin/env python3
"""Proves and builds the program and the crates that it stands on, side by side, and shows how far it is.

`rt ci` proves those crates, in a copy without their refused edits, for which nobody who only wants the program need wait. Some
toolchains keep on a machine what `rt ci` proved: there a run that was broken off goes on where it was, and the merge gate takes it
over. It gives a crate one processor, so the last crate, which waits for all others, is proved by itself, with all processors, and
isn't kept. Where all others are kept, `rt ci` proves this one too. Then the program itself is proved and compiled, for a processor of this machine's kind. What is
said is in crates/cu_bin/out/build.log.
While it works, a terminal and the file crates/cu_bin/out/progress show how many crates are proved, how long that took, and a guess of
the minutes that are left.
usage: tools/prove.py [--jobs N] [--times] [--cpu NAME] [--to FILE]
  --jobs N     on N processors; where it isn't given, on all that there are and that the memory suffices for
  --times      prints after how many seconds each crate was proved
  --cpu NAME   for this kind of processor, x86-64-v2 (SSE4.2) or x86-64-v3 (AVX2); where it isn't given, this machine's
  --to FILE    where the program goes; where it isn't given, crates/cu_bin/out/cu_bin
"""
from __future__ import annotations

import argparse
import contextlib
import os
import re
import shutil
import signal
import subprocess
import sys
import tempfile
import threading
import time
from typing import Any, Callable, Optional

sys.dont_write_bytecode = True
import processor  # processor.py, in this folder

TOP = os.path.dirname(os.path.dirname(os.path.realpath(__file__)))
PROGRAM = "cu_bin"
OUT = f"{TOP}/crates/{PROGRAM}/out"
# How far it is, in one line, and the seconds after which that is written anew.
PROGRESS, EVERY = f"{OUT}/progress", 5
# What a copy of a crate leaves out.
LEFT_OUT = shutil.ignore_patterns("out", "must-fail", "more-edits")
PROVED = re.compile(r"rt: (\w+) (?:proved|is kept: .*)")
# The memory that the proof of a crate takes at most, in bytes, as far as it was seen.
EACH = 3_000_000_000
# The longest chain of crates that stand on one another ends with this one, which takes minutes: nothing else is left to be proved then.
TAIL = ["cu_top"]


def free_memory() -> int:
    with open("/proc/meminfo", encoding="utf-8") as file:
        for line in file:
            if line.startswith("MemAvailable:"):
                return int(line.split()[1]) * 1024
    return EACH


def lines_of_crates() -> dict[str, str]:
    """Returns the lines of crates.txt of the program and the crates that it stands on, by their names."""
    lines = {}
    with open(f"{TOP}/crates.txt", encoding="utf-8") as file:
        for line in file:
            said = line.partition("#")[0].partition(":")[0].split()
            if said:
                lines[said[0]] = line
    found, waiting = {}, [PROGRAM]
    while waiting:
        name = waiting.pop()
        if name in lines and name not in found:
            found[name] = lines[name]
            waiting += lines[name].partition("#")[0].partition(":")[2].split()
    return found


class Room:
    """A folder in which `rt ci` proves crates, one beside it for those that it is not to prove, and where what is made of each lies."""

    def __init__(self, folder: str, lines: dict[str, str]) -> None:
        self.folder = f"{folder}/room"
        self.apart = f"{folder}/apart"
        self.lines = lines
        self.kit = os.path.dirname(subprocess.run(["rt", "doc"], stdout=subprocess.PIPE, text=True, check=True).stdout.strip())
        self.made = {name: f"{self.folder}/crates/{name}/out/rlib" for name in lines}
        os.makedirs(self.folder)
        shutil.copy(f"{TOP}/HANDLES", f"{self.folder}/HANDLES")
        for name in TAIL:
            shutil.copytree(f"{TOP}/crates/{name}", f"{self.apart}/{name}", ignore=LEFT_OUT)

    def list_crates(self, names: list[str]) -> None:
        """Has `rt ci` prove these crates."""
        for name in names:
            if not os.path.isdir(f"{self.folder}/crates/{name}"):
                shutil.copytree(f"{TOP}/crates/{name}", f"{self.folder}/crates/{name}", ignore=LEFT_OUT)
        with open(f"{self.folder}/crates.txt", "w", encoding="utf-8") as file:
            file.writelines(self.lines[name] for name in names)

    def below(self, line: str) -> list[str]:
        """Returns the names of the libraries that a line of crates.txt has behind its crate's name."""
        return line.partition("#")[0].partition(":")[2].split()

    def build(self, name: str, line: str, root: str) -> list[str]:
        """Returns the words that prove and build a crate over those that are made."""
        words = [f"{self.kit}/bin/rattle", "build", "--crate-name", name, root,
                 "--antt-project", f"{self.kit}/rattle/logic/antt-project.json", "--logic-built", f"{self.kit}/logic_built",
                 "--extern", f"std={self.kit}/rlibs/std.rlib", "-L", f"dependency={self.kit}/rlibs"]
        for folder in self.made.values():
            words += ["-L", f"dependency={folder}"]
        for each in self.below(line):
            words += ["--extern", f"{each}={self.made.get(each, f'{self.kit}/rlibs')}/{each}.rlib"]
        return words


def bytes_of(name: str) -> int:
    """The bytes of a crate's sources and proofs."""
    found = 0
    for at, folders, names in os.walk(f"{TOP}/crates/{name}"):
        folders[:] = [it for it in folders if it not in ("out", "must-fail", "more-edits")]
        found += sum(os.stat(f"{at}/{it}").st_size for it in names if it.endswith((".rt", ".antt")))
    return found


def minutes(seconds: float) -> str:
    return f"{max(1, round(seconds))} s" if seconds < 90 else f"{round(seconds / 60)} min"


class Tail:
    """The proofs of the last crates, one after another, with several processors each."""

    def __init__(self, room: Room, jobs: int, when_proved: Callable[[str], None]) -> None:
        self.room = room
        self.jobs = jobs
        self.when_proved = when_proved
        self.is_done = False
        self.is_stopped = False
        self.process: Optional[subprocess.Popen[bytes]] = None
        self.thread = threading.Thread(target=self.run)
        self.thread.start()

    def run(self) -> None:
        for name in TAIL:
            to = f"{self.room.apart}/{name}/out/rlib"
            os.makedirs(to)
            words = self.room.build(name, self.room.lines[name], "src/lib.rt")
            words += ["--links", f"{name}=", "--jobs", str(self.jobs), "--statements", "-o", f"{to}/{name}.rlib"]
            with open(f"{OUT}/build.log", "a", encoding="utf-8") as log:
                process = self.process = subprocess.Popen(words, cwd=f"{self.room.apart}/{name}", stdin=subprocess.DEVNULL, stdout=log,
                                                stderr=subprocess.STDOUT, start_new_session=True)
                if process.wait() or self.is_stopped:
                    return
            self.room.made[name] = to
            self.when_proved(name)
        self.is_done = True

    def stop(self) -> None:
        """Ends it, so that nothing more is begun."""
        self.is_stopped = True
        if self.process:
            end_group(self.process)
        self.thread.join()


def end_group(process: subprocess.Popen[Any]) -> None:
    """Ends a process and all that it began."""
    try:
        os.killpg(process.pid, signal.SIGTERM)
    except ProcessLookupError:
        pass
    process.wait()


class Work:
    """The crates that are being proved, and when each of them was."""

    def __init__(self, room: Room, jobs: int) -> None:
        self.room = room
        self.jobs = jobs
        self.seconds: dict[str, float] = {}
        self.kept: set[str] = set()
        self.size = {name: bytes_of(name) for name in room.lines}
        self.is_new = False
        self.tail: Optional[Tail] = None
        self.process: Optional[subprocess.Popen[str]] = None
        self.began = time.monotonic()

    def prove(self) -> int:
        """Proves all, and returns the exit status."""
        open(f"{OUT}/build.log", "w", encoding="utf-8").close()
        if self.jobs > 1:
            status = self.follow([name for name in self.room.lines if name not in TAIL])
            if self.tail and status:
                self.tail.stop()
            elif self.tail:
                self.tail.thread.join()
                status = 0 if self.tail.is_done else 1
            if self.tail or status:
                return status
        return self.follow(list(self.room.lines))

    def follow(self, names: list[str]) -> int:
        """Has `rt ci` prove crates, writes down what it says, and returns its exit status."""
        self.room.list_crates(names)
        self.show()
        # With no number rt leaves processors idle while it waits for more memory than the proofs then take.
        process = self.process = subprocess.Popen(["rt", "ci"], cwd=self.room.folder, env={**os.environ, "RT_JOBS": str(self.jobs)},
                                        stdin=subprocess.DEVNULL, stdout=subprocess.PIPE, stderr=subprocess.STDOUT, text=True,
                                        errors="replace", start_new_session=True)
        assert process.stdout is not None
        for line in process.stdout:
            with open(f"{OUT}/build.log", "a", encoding="utf-8") as log:
                log.write(line)
            proved = PROVED.match(line)
            if proved and proved[1] in self.room.lines:
                if " is kept" in line:
                    self.kept.add(proved[1])
                self.is_new = self.is_new or proved[1] not in self.kept
                self.note(proved[1])
                self.look_ahead()
        status = process.wait()
        for name in names if status == 0 else []:
            self.note(name)
        return status

    def look_ahead(self) -> None:
        """Begins the proofs of the last crates as soon as they may begin, unless all that was seen so far is kept."""
        first = self.room.below(self.room.lines[TAIL[0]])
        if self.jobs > 1 and self.is_new and not self.tail and all(name in self.seconds for name in first if name in self.room.lines):
            self.tail = Tail(self.room, self.jobs, self.note)

    def note(self, name: str) -> None:
        """Notes that a crate is proved, and shows on a terminal how far it is."""
        self.seconds.setdefault(name, time.monotonic() - self.began)
        self.show()

    def left(self) -> Optional[float]:
        """A guess of the seconds that are left, or nothing. What was proved anew tells the seconds for a byte of a crate."""
        done = sum(size for name, size in self.size.items() if name in self.seconds and name not in self.kept)
        left = sum(size for name, size in self.size.items() if name not in self.seconds)
        return (time.monotonic() - self.began) * left / done if done else None

    def told(self) -> str:
        """How far it is, in one line."""
        parts = [f"{len(self.seconds)} of {len(self.room.lines)} crates are proved", f"{minutes(time.monotonic() - self.began)} gone"]
        left = self.left()
        if left is not None:
            parts.append(f"about {minutes(left)} left" if left else "the program itself is proved and compiled")
        return ", ".join(parts)

    def show(self) -> None:
        """Shows how far it is on a terminal, and in a file."""
        told = self.told()
        with contextlib.suppress(OSError):
            with open(f"{PROGRESS}.new", "w", encoding="utf-8") as file:
                file.write(f"{told}\n")
            os.replace(f"{PROGRESS}.new", PROGRESS)
        if sys.stderr.isatty():
            sys.stderr.write(f"\r\x1b[Kcubed: {told}")
            sys.stderr.flush()

    def keep_showing(self) -> None:
        """Shows it again and again, until it is told to end."""
        while not self.is_ended.wait(EVERY):
            self.show()

    def __enter__(self) -> Work:
        self.is_ended = threading.Event()
        self.shower = threading.Thread(target=self.keep_showing, daemon=True)
        self.shower.start()
        return self

    def __exit__(self, *_: object) -> None:
        self.is_ended.set()
        self.shower.join()
        if sys.stderr.isatty():
            sys.stderr.write("\r\x1b[K")

    def stop(self) -> None:
        """Ends what was begun."""
        if self.tail:
            self.tail.stop()
        if self.process:
            end_group(self.process)


def compiled(line: str, room: Room, jobs: int, cpu: str) -> tuple[int, str]:
    """Proves and compiles the program over the crates of a room, which are proved, and returns the exit status and its path."""
    toolchain, made = ["--toolchain", f"{room.kit}/toolchain"], f"{room.apart}/{PROGRAM}"
    words = room.build(PROGRAM, line, "src/main.rt")
    words += ["--backend", "llvm", f"--cpu={cpu}", "--jobs", str(jobs), *toolchain, "-o", f"{made}.o"]
    link = [f"{room.kit}/bin/rattle-link", "--target", "x86_64-unknown-linux-gnu", *toolchain, "-o", made, f"{made}.o",
            f"{room.kit}/c/libos_c.a", f"{room.kit}/c/liblibc_c.a"]
    with open(f"{OUT}/build.log", "a", encoding="utf-8") as log:
        for command in (words, link):
            ran = subprocess.run(command, cwd=f"{TOP}/crates/{PROGRAM}", stdin=subprocess.DEVNULL, stdout=log, stderr=subprocess.STDOUT)
            if ran.returncode:
                return ran.returncode, ""
    return 0, made


def prove(folder: str, jobs: int, wanted: dict[str, str]) -> tuple[int, Work]:
    """Proves all in a folder, builds the program for each kind of processor that is wanted, to its file, and returns the exit status and
    the work."""
    lines = lines_of_crates()
    line = lines.pop(PROGRAM)
    room = Room(folder, lines)
    with Work(room, jobs) as work:
        try:
            status = work.prove()
            for cpu, to in wanted.items() if status == 0 else ():
                status, program = compiled(line, room, jobs, cpu)
                if status:
                    break
                shutil.copy(program, f"{to}.new")
                os.replace(f"{to}.new", to)
        except KeyboardInterrupt:
            work.stop()
            sys.stderr.write(f"\ncubed: broken off; {len(work.seconds)} of {len(lines)} crates were proved\n")
            return 130, work
    return status, work


def proved(jobs: int, wanted: dict[str, str]) -> tuple[int, Work]:
    """Proves all, builds the program for each kind of processor, says what went wrong, and returns the exit status and the work."""
    os.makedirs(OUT, exist_ok=True)
    # A repository's copy may not lie in a repository.
    with tempfile.TemporaryDirectory(prefix="cubed-build-") as folder:
        status, work = prove(folder, jobs, wanted)
    if status not in (0, 130):
        with open(f"{OUT}/build.log", encoding="utf-8") as log:
            sys.stderr.write(log.read())
        sys.stderr.write("cubed: not all of the crates were proved and built\n")
    return status, work


def usual_jobs() -> int:
    """How many crates are proved at once where nothing is said."""
    return max(1, min(len(os.sched_getaffinity(0)), free_memory() // EACH))


def main() -> int:
    parser = argparse.ArgumentParser(usage="tools/prove.py [--jobs N] [--times] [--cpu NAME] [--to FILE]")
    parser.add_argument("--jobs", type=int, default=usual_jobs())
    parser.add_argument("--times", action="store_true")
    parser.add_argument("--cpu", default=processor.best(), choices=processor.KINDS)
    parser.add_argument("--to", default=f"{OUT}/{PROGRAM}")
    words = parser.parse_args()
    status, work = proved(words.jobs, {words.cpu: words.to})
    if words.times:
        for name, seconds in work.seconds.items():
            print(f"{name:16} {seconds:7.1f}")
        print(f"{'all':16} {time.monotonic() - work.began:7.1f}")
    return status


if __name__ == "__main__":
    signal.signal(signal.SIGTERM, lambda *_: (_ for _ in ()).throw(KeyboardInterrupt()))
    sys.exit(main())
