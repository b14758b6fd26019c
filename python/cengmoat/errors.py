"""One class for each answer of the program that isn't Ok, and for what the package refuses itself."""
from __future__ import annotations

import re
from typing import Any, Callable, Optional

from ._texts import text_of


class CengmoatError(Exception):
    """An answer of the program that isn't Ok, or a refusal of the package.

    Attributes
    ----------
    status : int or None
        The number of the answer; None where the package refuses and the program wasn't asked.
    expression : str or None
        The Python expression of the node that the answer names, where it names one.
    call : str
        The call that was refused, with its folder, where it is known.
    left : str
        What is stored after it, and how to go on, where it is known.
    """

    status: Optional[int] = None
    fields: tuple[str, ...] = ()

    def __init__(self, message: str = "", *, expression: Optional[str] = None, advice: str = "", call: str = "", left: str = "",
                 **values: Any) -> None:
        self.message, self.expression, self.advice, self.call, self.left = message, expression, advice, call, left
        for field in self.fields:
            setattr(self, field, values.get(field))
        super().__init__(self._text())

    def _text(self) -> str:
        head = f"{self.call}: " if self.call else ""
        if self.message or self.status is None:
            return "\n".join(part for part in (head + self.message, self.left, self.advice) if part)
        values = {field: getattr(self, field) for field in self.fields}
        if self.expression is not None:
            # The expression stands in place of the node's number.
            values["node"] = f"`{self.expression}`"
        cause, what = text_of(self.status, values)
        return "\n".join(part for part in (f"{head}{cause}.", f"What to do: {what}.", self.left, self.advice) if part)

    def say(self, *, call: str = "", left: str = "", advice: str = "") -> None:
        """Say more: the call, what is left, or advice."""
        self.call, self.left, self.advice = call or self.call, left or self.left, advice or self.advice
        self.args = (self._text(),)

    def __reduce__(self) -> tuple[Callable[..., CengmoatError], tuple[Any, ...]]:
        values = {field: getattr(self, field) for field in self.fields}
        told = {"expression": self.expression, "advice": self.advice, "call": self.call, "left": self.left}
        return _rebuild, (type(self), self.message, {**told, **values})


def _rebuild(kind: Callable[..., CengmoatError], message: str, values: dict[str, Any]) -> CengmoatError:
    return kind(message, **values)


class BadWords(CengmoatError):
    """2: the words of a command aren't as they must be. Fields: code."""

    status, fields = 2, ("code",)
    code: int


class BadExpression(CengmoatError):
    """3: the text isn't an expression. Fields: code, node."""

    status, fields = 3, ("code", "node")
    code: int
    node: int


class BadType(CengmoatError, TypeError):
    """4: a node has no type or no shape. Fields: code, node."""

    status, fields = 4, ("code", "node")
    code: int
    node: int


class OverMemory(CengmoatError):
    """5: a node needs more memory than is allowed, in bytes. Fields: node, need, allowed."""

    status, fields = 5, ("node", "need", "allowed")
    node: int
    need: int
    allowed: int


class OverLimit(CengmoatError):
    """6: a plan has too many tasks (which 1) or chunks (2), or `check` too many elements (3). Fields: which, count."""

    status, fields = 6, ("which", "count")
    which: int
    count: int


class BadMetadata(CengmoatError):
    """7: the metadata of an array isn't accepted. Fields: name, code."""

    status, fields = 7, ("name", "code")
    name: str
    code: int


class NoArray(CengmoatError, KeyError):
    """8: the folder has no array of this name. Fields: name."""

    status, fields = 8, ("name",)
    name: str

    def __str__(self) -> str:
        return str(self.args[0])


class Exists(CengmoatError):
    """9: a file of the result is there already. Fields: key."""

    status, fields = 9, ("key",)
    key: str


class TaskFailed(CengmoatError):
    """10: a task failed in each of its tries. Fields: op, task."""

    status, fields = 10, ("op", "task")
    op: int
    task: int


class ReadFault(CengmoatError):
    """11: standard input can't be read."""

    status = 11


class WriteFault(CengmoatError):
    """12: the report can't be written; what was to be stored is stored."""

    status = 12


class BadChunk(CengmoatError):
    """13: a chunk file has another count of bytes. Fields: key, got, want."""

    status, fields = 13, ("key", "got", "want")
    key: str
    got: int
    want: int


class OtherPlan(CengmoatError):
    """14: the record of the result is that of another plan; it differs first at this byte. Fields: place."""

    status, fields = 14, ("place",)
    place: int


class NoPlan(CengmoatError):
    """15: there is no record of a plan for this result."""

    status = 15


class StoreFailed(CengmoatError):
    """16: the system refused to read or write a file. Fields: key."""

    status, fields = 16, ("key",)
    key: str


class Unequal(CengmoatError):
    """17: a stored element isn't what the expression means. Fields: place, stored, plain."""

    status, fields = 17, ("place", "stored", "plain")
    place: int
    stored: int
    plain: int


class BadLoad(CengmoatError):
    """18: the text isn't one that gives an array. Fields: code."""

    status, fields = 18, ("code",)
    code: int


class BadPart(CengmoatError):
    """20: a part isn't one of the operation. Fields: op, tasks."""

    status, fields = 20, ("op", "tasks")
    op: int
    tasks: int


class NotReady(CengmoatError):
    """21: a task of a part lacks a chunk that it reads. Fields: op, task."""

    status, fields = 21, ("op", "task")
    op: int
    task: int


class NoMemory(CengmoatError, MemoryError):
    """70: the system had no memory to give."""

    status = 70


class Stopped(CengmoatError):
    """The program was stopped by a signal, or ended with a status that it hasn't."""


class NoProgram(CengmoatError):
    """The program isn't found, or is older than its sources."""


class Unfinished(CengmoatError):
    """An array is the result of a run that stopped: some of its chunks are missing, and would be read as fill values."""


class Stale(CengmoatError):
    """A stored array was replaced after the lazy array was made, and has another layout now. Fields: name."""

    fields = ("name",)
    name: str


class NotRemoved(CengmoatError):
    """An array isn't removed, since no run made it, or what lies there is no array; nothing is removed then. Fields: name."""

    fields = ("name",)
    name: str


class Locked(CengmoatError):
    """Another process computes or stores an array of this name now. Fields: pid, host, since, where they are known."""

    fields = ("pid", "host", "since")
    pid: Optional[int]
    host: Optional[str]
    since: Optional[str]


BY_STATUS: dict[int, type[CengmoatError]] = {
    kind.status: kind for kind in (BadWords, BadExpression, BadType, OverMemory, OverLimit, BadMetadata, NoArray, Exists, TaskFailed,
                                   ReadFault, WriteFault, BadChunk, OtherPlan, NoPlan, StoreFailed, Unequal, BadLoad, BadPart, NotReady, NoMemory)
    if kind.status is not None}
# Fields that are texts; the others are numbers.
TEXTS = ("name", "key")
# The most characters of what a program wrote that an error says.
MOST_SAID = 2000
# The codes of a text that isn't an expression as a whole.
WHOLE = (1, 2, 7)


def _said(output: str) -> str:
    """Return what a program wrote, as an error may say it: not more than a page."""
    said = output.strip()
    return said if len(said) <= MOST_SAID else f"{said[:MOST_SAID]}.. ({len(said)} characters)"


def strange(what: str, output: str) -> Stopped:
    """Return the error of a call that ended with 0, and printed something else than what belongs to it."""
    return Stopped(f"the program ended with status 0, and didn't print {what}, but {_said(output) or 'nothing'}."
                   " It is perhaps of another version than the package: see Store.program")


def error_of(status: int, output: str, expression_of: Callable[[int], Optional[str]] = lambda node: None) -> CengmoatError:
    """Return the error of a call of the program that ended with a status and wrote an output.

    Parameters
    ----------
    status : int
        The exit status; negative where a signal stopped the program.
    output : str
        What it wrote on standard error.
    expression_of : callable
        Returns the Python expression of a node's number.
    """
    kind = BY_STATUS.get(status)
    lines = [line for line in output.splitlines() if re.fullmatch(rf"error {status}( (({'|'.join(TEXTS)})=\S+|[a-z]+=-?[0-9]{{1,40}}))*", line)]
    found = dict(re.findall(r"(\w+)=(\S*)", lines[-1])) if lines else {}
    if kind is None or not lines or not set(found) <= set(kind.fields):
        how = f"was stopped by signal {-status}" if status < 0 else f"ended with status {status}"
        said = f": {_said(output)}" if output.strip() else ""
        return Stopped(f"the program {how}{said}")
    values: dict[str, Any] = {field: text if field in TEXTS else int(text) for field, text in found.items()}
    # (an answer on the whole text names the node 0)
    is_whole = status == 3 and values.get("code") in WHOLE
    expression = expression_of(values["node"]) if "node" in values and not is_whole else None
    return kind(expression=expression, **values)
