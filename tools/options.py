"""The commands and the options of the script cubed and of the program: the one table from which come
the help, the completion of shells and the page for `man` (manual.py), the reader of words (words.py)
and the cases of the command line (word_cases.py).
"""
from __future__ import annotations

from typing import NamedTuple, Optional

PLANS = ("plan", "run", "begin", "part", "resume", "drop", "demo")


class Command(NamedTuple):
    """A command: the words behind it, what it does in one line, the group in which it is shown, and
    what it reads from standard input, if anything.
    """

    words: str
    does: str
    group: str
    text: str = ""


class Option(NamedTuple):
    """An option: the least and the most number, the number where it isn't given (None: it must be
    given), the commands that take it, what it means, and the letter that stands for the number.
    """

    least: int
    most: int
    default: Optional[int]
    takers: tuple[str, ...]
    means: str
    letter: str = "N"


TRY = "Try it without data"
OWN = "With arrays and expressions of your own"
MANY = 'With several processes or machines over one folder (docs/GUIDE.md, "More than one machine")'
FOLDER = "What lies in a folder, and what an answer means"
EXPRESSION, ARRAY = "EXPRESSION.json", "ARRAY.json"

# The program's commands.
COMMANDS = {
    "demo": Command("SIZE", "stores two arrays of SIZE by SIZE numbers, 1 to 2048, and a result of them", TRY),
    "load": Command("", "stores the array that a JSON text gives, and prints its counts", OWN, ARRAY),
    "run": Command("", "computes an expression, stores the array that it makes, and prints a report", OWN,
                   EXPRESSION),
    "resume": Command("", "goes on with a run that was stopped, with its text and options", OWN, EXPRESSION),
    "drop": Command("", "removes all that a run of this text and these options stored", OWN, EXPRESSION),
    "plan": Command("", "prints the operations by which run would do so, and stores nothing", OWN, EXPRESSION),
    "print": Command("NAME", "prints a stored array", OWN),
    "check": Command("", "compares a stored array with what an expression means, element by element", OWN,
                     EXPRESSION),
    "begin": Command("", "does all that run does up to its first task, and prints the operations with what they read",
                     MANY, EXPRESSION),
    "part": Command("", "runs the tasks A to B-1 of operation O that aren't done", MANY, EXPRESSION),
}
# Those of the script alone.
OTHERS = {
    "status": Command("[NAME]", "lists the arrays with their stored chunks, and which a run hasn't finished",
                      FOLDER),
    "remove": Command("NAME [--input] [--dry-run]",
                      "removes a result with all of its plan, or with --input any other array", FOLDER),
    "explain": Command("LINE", "what the line of an answer means for a text, with the types and shapes of its nodes",
                       FOLDER, EXPRESSION),
}
OPTIONS = {
    "allowed-mem": Option(0, 2**40, 200_000_000, PLANS, "the bytes that a task may need"),
    "reserved-mem": Option(0, 2**40, 0, PLANS, "how many of these are set aside"),
    "split-every": Option(2, 64, 4, PLANS, "how many partial results a task merges"),
    "fusion": Option(1, 2, 1, PLANS, "2 to store less of what lies in between"),
    "workers": Option(1, 64, 1, ("run", "resume", "demo"), "how many threads run tasks"),
    "retries": Option(0, 8, 2, ("run", "begin", "part", "resume", "drop", "load", "check", "print", "demo"),
                      "how often a call or a task is tried again"),
    "backups": Option(0, 1, 0, ("run", "resume", "demo"), "1 to run a second copy of a task that runs"),
    "sync": Option(0, 1, 1, ("run", "begin", "part", "resume", "load", "demo"), "0 to leave stored files to the system"),
    "op": Option(0, 2**64 - 1, None, ("part",), "the operation of a part", "O"),
    "from": Option(0, 2**64 - 1, None, ("part",), "the first task of a part", "A"),
    "to": Option(0, 2**64 - 1, None, ("part",), "the task behind its last one", "B"),
    "progress": Option(0, 1, 0, ("run", "resume"), "1 to show on a terminal how far a run is"),
}
# Those that the script takes, and the program doesn't get.
OF_SCRIPT = ("progress",)
# The words of the script's own commands that take no number.
FLAGS = {"remove": {"--input": "removes an array that no run made too",
                    "--dry-run": "says what would go, and removes nothing"}}


def options_of(command: str) -> dict[str, Option]:
    """The options that a command takes, in the table's order."""
    return {name: option for name, option in OPTIONS.items() if command in option.takers}


def plan_numbers(given: dict[str, int]) -> list[int]:
    """The numbers by which a plan is made: --allowed-mem, --reserved-mem, --split-every and --fusion."""
    return [given.get(name, OPTIONS[name].default or 0) for name in ("allowed-mem", "reserved-mem", "split-every", "fusion")]


def form_of(command: str) -> str:
    """How a command is called, with the options that it must have."""
    it = COMMANDS.get(command) or OTHERS[command]
    own = options_of(command)
    parts = ["cubed DIR", command, it.words]
    parts += [f"--{name} {option.letter}" for name, option in own.items() if option.default is None]
    if any(option.default is not None for option in own.values()):
        parts.append("[OPTIONS]")
    return " ".join(filter(None, parts)) + (f" < {it.text}" if it.text else "")
