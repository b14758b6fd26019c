"""The command `cubed` of the package, which is also `python -m cengmoat`: the program's commands, and those that go by files alone."""
from __future__ import annotations

import os
import signal
import sys
from typing import Optional, Sequence

from . import __version__
from ._program import environment, find_program
from ._removing import Removal
from ._names import check_name
from ._store import Store
from ._texts import text_of
from .errors import CengmoatError, NoProgram

USAGE = """\
cubed DIR COMMAND [OPTIONS]     (or: python -m cengmoat DIR COMMAND [OPTIONS])
computes arrays of integers and truth values that are larger than memory. DIR is the folder of the arrays, as uncompressed Zarr.

  cubed DIR status [NAME]                           lists the arrays with their stored chunks, and which a run hasn't finished
  cubed DIR remove NAME [--input] [--dry-run]       removes a result with all of its plan, or with --input any other array
  cubed DIR plan [OPTIONS] < EXPRESSION.json        prints the operations by which run would compute an expression, and stores nothing
  cubed DIR run|resume|drop|check [OPTIONS] < EXPRESSION.json
  cubed DIR begin|part [OPTIONS] < EXPRESSION.json  runs in parts, by several processes or machines over one folder
  cubed DIR load [OPTIONS] < ARRAY.json
  cubed DIR print NAME
  cubed DIR demo SIZE [OPTIONS]
  cubed explain N [code=C]                          what the answer N means, and what to do
  cubed --version                                   the version of the package, and the path of the program
  cubed --help                                      these words

In Python: cengmoat.Store(DIR) takes the same folder, and x.store(name) writes such texts itself.
The exit status is 0, or the number of the answer."""
# The commands that the program has; its own answer to a wrong option of one is printed as it is.
PROGRAM = ("run", "resume", "drop", "plan", "print", "check", "begin", "part", "load", "demo")
WRONG = 2


def _wrong(why: str) -> int:
    print(f"cubed: {why}; cubed --help lists the commands", file=sys.stderr)
    return WRONG


def _status(folder: str, words: Sequence[str]) -> int:
    if len(words) > 1:
        return _wrong("status takes one name at most")
    found = Store(folder).status()
    if not words:
        print(found)
        return 0
    names = [it.name for it in found]
    if words[0] not in names:
        print(f"cubed: there is no array {words[0]!r} in {folder}{': it has ' + ', '.join(names[:10]) if names else ''}", file=sys.stderr)
        return 8
    print(type(found)([found[names.index(words[0])]]))
    return 0


def _remove(folder: str, words: Sequence[str]) -> int:
    options, names = [it for it in words if it.startswith("--")], [it for it in words if not it.startswith("--")]
    if len(names) != 1 or not set(options) <= {"--input", "--dry-run"}:
        return _wrong("remove takes a name, and the options --input and --dry-run")
    if "--dry-run" in options:
        removal = Removal(os.path.abspath(folder), check_name(names[0]))
        removal.check("--input" in options)
        print("\n".join([*(f"would remove {key}" for key in removal.keys), *(f"would keep {key}" for key in removal.kept)]))
        return 0
    for key in Store(folder).remove(names[0], inputs="--input" in options):
        print(f"kept {key}")
    return 0


def _explain(words: Sequence[str]) -> int:
    values = dict(it.partition("=")[::2] for it in words[1:] if "=" in it)
    if not words or not words[0].isdecimal() or not all(it.isdecimal() for it in values.values()):
        return _wrong("explain takes the number of an answer, and its code, as in explain 9 and explain 7 code=8")
    why, what = text_of(int(words[0]), {name: int(value) for name, value in values.items()})
    print(f"{why}.\nWhat to do: {what}.")
    return 0


def _version() -> int:
    try:
        found: str = find_program()
    except NoProgram:
        found = "isn't here"
    print(f"cengmoat {__version__}\nprogram: {found}")
    return 0


def _call(words: Sequence[str]) -> int:
    """Become the program, so that signals, streams and the exit status are its own."""
    program = find_program()
    # (Python ignores this signal, and a program would inherit that)
    signal.signal(signal.SIGPIPE, signal.SIG_DFL)
    os.execve(program, [program, *words], environment())


def _asks_help(words: Sequence[str]) -> bool:
    """Return whether one of some words asks for help; those behind `--` are the program's."""
    return any(it in ("-h", "--help") for it in words[:words.index("--") if "--" in words else None])


def main(words: Optional[Sequence[str]] = None) -> int:
    """Run a command, and return its exit status.

    Parameters
    ----------
    words : sequence of str, optional
        Its words; else those of the process.
    """
    given = list(sys.argv[1:] if words is None else words)
    if not given:
        print(USAGE, file=sys.stderr)
        return WRONG
    if given[0] == "help" or _asks_help(given):
        print(USAGE)
        return 0
    if given[0] == "--version":
        return _version()
    if given[0] == "explain":
        return _explain(given[1:])
    if len(given) < 2:
        return _wrong(f"a command is wanted behind the folder {given[0]}")
    try:
        if given[1] == "status":
            return _status(given[0], given[2:])
        if given[1] == "remove":
            return _remove(given[0], given[2:])
        return _call(given) if given[1] in PROGRAM else _wrong(f"{given[1]!r} is no command")
    except (CengmoatError, ValueError) as error:
        print(f"cubed: {error}", file=sys.stderr)
        return getattr(error, "status", None) or 1


if __name__ == "__main__":
    sys.exit(main())
