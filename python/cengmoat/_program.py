"""The program: where it is, and calls of it."""
from __future__ import annotations

import logging
import os
import shlex
import shutil
import subprocess
import time
from typing import Callable, Optional, Sequence

from ._dying import dies_with_parent
from ._finding import SCRIPT, built_program, is_program
from ._opening import at_most, read_regular
from .errors import NoProgram, StoreFailed, error_of

VARIABLE = "CENGMOAT_CUBED"
LOG = logging.getLogger("cengmoat")
HERE = os.path.dirname(os.path.abspath(__file__))
# The repository in which the package lies, where it isn't installed elsewhere.
TOP = os.path.dirname(os.path.dirname(HERE))
# The bytes of a script in which it is told whose it is.
MOST_HEAD = 1024
# The seconds after which a run is looked at for the first time.
FIRST_WAIT = 0.2


def program_of(top: str) -> Optional[str]:
    """Return the program of a repository or of an archive, or None where the folder is neither.

    Raises
    ------
    NoProgram
        Where it isn't built, or is older than its sources.
    """
    try:
        return built_program(top)
    except LookupError as error:
        raise NoProgram(str(error)) from None


def _is_command(path: str) -> bool:
    """Return whether a file is the package's own command `cubed`, as pip installs it, which itself looks for the program."""
    try:
        head = read_regular(path, path, at_most(MOST_HEAD)) or b""
    except StoreFailed:
        return False
    return head.startswith(b"#!") and b"from cengmoat" in head


def _on_path() -> Optional[str]:
    """Return the first program on the path that isn't the package's own command."""
    found = (shutil.which(SCRIPT, path=folder) for folder in os.get_exec_path())
    return next((path for path in found if path is not None and not _is_command(path)), None)


def _behind(path: str) -> str:
    """Return the program that the script of a repository runs, so that a call never begins to build it; else the path."""
    if _is_command(path):
        raise NoProgram(f"{path} is the package's own command, which looks for the program itself: name the program")
    real = os.path.realpath(path)
    found = program_of(os.path.dirname(real)) if os.path.basename(real) == SCRIPT else None
    return found or os.path.abspath(path)


def find_program(given: Optional[str] = None) -> str:
    """Return the path of the program: as given, as the environment says, beside the package, or on the path.

    Raises
    ------
    NoProgram
        Where there is none, it isn't built, or it is older than its sources.
    """
    for path, said in ((given, "program="), (os.environ.get(VARIABLE), VARIABLE)):
        if path:
            found = shutil.which(os.path.expanduser(path))
            if found is None:
                raise NoProgram(f"{said} says {path}, which is no program")
            return _behind(found)
    beside = os.path.join(HERE, SCRIPT)
    found = beside if is_program(beside) else program_of(TOP) or _on_path()
    if found is None:
        raise NoProgram("the program isn't here: the package was installed without it. There are two ways out. Either ./cubed at the top of a"
                        " clone proves and builds it, and `pip install ./python` there puts it into the package. Or a program that is"
                        f" built already is named: Store(.., program=\"path/to/cubed\"), or the environment variable {VARIABLE}")
    return _behind(found)


def environment() -> dict[str, str]:
    """Return the environment of the program: large buffers lie in huge pages where the system gives them on demand."""
    return {"GLIBC_TUNABLES": "glibc.malloc.hugetlb=1", **os.environ}


def call_program(words: Sequence[str], text: str, *, expression_of: Callable[[int], Optional[str]] = lambda node: None,
                 locks: Sequence[int] = (), watch: Optional[Callable[[], float]] = None) -> str:
    """Call the program and return what it printed. It ends where this process does.

    Parameters
    ----------
    words : sequence of str
        The path of the program and its words.
    text : str
        What it reads from standard input.
    expression_of : callable
        Returns the Python expression of a node's number, for errors.
    locks : sequence of int
        Descriptors that it keeps open as long as it runs.
    watch : callable, optional
        Is called while it runs, and returns the seconds until it is called again.

    Raises
    ------
    CengmoatError
        The class of the answer, where it isn't Ok.
    """
    began = time.monotonic()
    try:
        process = subprocess.Popen(list(words), stdin=subprocess.PIPE, stdout=subprocess.PIPE, stderr=subprocess.PIPE,
                                   env=environment(), pass_fds=list(locks), preexec_fn=dies_with_parent())
    except (OSError, subprocess.SubprocessError) as error:
        raise NoProgram(f"{words[0]} doesn't start: {getattr(error, 'strerror', None) or error}") from None
    try:
        said = _communicate(process, text.encode(), watch)
    except BaseException:
        # (Ctrl-C reaches the program too where both are in one terminal)
        process.kill()
        process.wait()
        LOG.info("%s: stopped after %.3f s", shlex.join(words), time.monotonic() - began)
        for stream in (process.stdin, process.stdout, process.stderr):
            if stream is not None:
                stream.close()
        raise
    LOG.info("%s: status %d in %.3f s", shlex.join(words), process.returncode, time.monotonic() - began)
    if process.returncode:
        raise error_of(process.returncode, said[1].decode(errors="replace"), expression_of)
    return said[0].decode(errors="replace")


def _communicate(process: subprocess.Popen[bytes], text: bytes, watch: Optional[Callable[[], float]]) -> tuple[bytes, bytes]:
    """Hand the program its text and wait for its end."""
    wait = None if watch is None else FIRST_WAIT
    data: Optional[bytes] = text
    while True:
        try:
            return process.communicate(data, timeout=wait)
        except subprocess.TimeoutExpired:
            data = None
            if watch is not None:
                wait = watch()
