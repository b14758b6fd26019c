#!/usr/bin/env python3
"""Runs the merge gate and prints the processor minutes of each crate: its proof with what is built of it, its tests, its refused edits.

usage: tools/gate_times.py [--write]

--write puts the table into bench/GATE.md, with the day, the processors and the version of the toolchain.

It looks four times a second at the prover's processes and adds up what each has used, so that what ends sooner is missed; the last line
has the time of all that the gate began, as the system counts it. What earlier runs on this machine kept isn't done again and isn't
in the table: from nothing means on a machine, or over a folder of kept work, that has nothing. Edits that another command tries at
the same time are counted too, so it is to run alone.
"""
from __future__ import annotations

import collections
import datetime
import os
import re
import subprocess
import sys
import time
from typing import Any
from said import usage_if_asked

TOP = os.path.dirname(os.path.dirname(os.path.realpath(__file__)))
PAGE = f"{TOP}/bench/GATE.md"
KINDS = ("proof", "tests", "edits")
TICKS = os.sysconf("SC_CLK_TCK")


def text_of(path: str) -> str:
    with open(path, encoding="utf-8", errors="replace") as file:
        return file.read()


def seen(pid: str) -> Any:
    """Returns of a process of the prover when it began, the seconds that it used, its crate and the kind of its work; nothing of another."""
    stat = text_of(f"/proc/{pid}/stat")
    fields = stat[stat.rindex(")") + 2:].split()
    words = text_of(f"/proc/{pid}/cmdline").split("\0")
    if os.path.basename(words[0]) != "rattle" or "--crate-name" not in words:
        return None
    folder = os.readlink(f"/proc/{pid}/cwd")
    crate = words[words.index("--crate-name") + 1]
    if re.search(r"/rt-edit-", folder):
        kind = "edits"
    elif folder.startswith(TOP + "/"):
        kind = "tests" if "--test" in words else "proof"
    else:
        return None
    return (pid, fields[19]), (int(fields[11]) + int(fields[12])) / TICKS, crate, kind


def look(used: dict[Any, Any]) -> None:
    """Notes what each process of the prover has used by now."""
    for pid in filter(str.isdigit, os.listdir("/proc")):
        try:
            found = seen(pid)
        except (OSError, ValueError, IndexError):
            # It has ended in the meantime.
            continue
        if found:
            name, seconds, crate, kind = found
            used[name] = (seconds, crate, kind)


def table_of(used: dict[Any, Any]) -> list[str]:
    """The lines of the table: a row for each crate, the dearest first, and one of all."""
    sums: dict[str, collections.Counter[str]] = collections.defaultdict(collections.Counter)
    for seconds, crate, kind in used.values():
        sums[crate][kind] += seconds / 60
        sums["all"][kind] += seconds / 60
    rows = sorted(sums, key=lambda name: (name == "all", -sum(sums[name].values())))
    return ["| crate | proof | tests | edits |", "|---|---|---|---|",
            *(f"| {crate} | " + " | ".join(f"{sums[crate][kind]:.1f}" for kind in KINDS) + " |" for crate in rows)]


def write(lines: list[str], last: str) -> None:
    """Puts the table into its page, behind what is said there of any measure."""
    version = subprocess.run(["rt", "version"], stdout=subprocess.PIPE, text=True, check=False).stdout.split("\n")[0]
    said = f"Measured on {datetime.date.today()} on {os.cpu_count()} processors, with `{version}`: {last}."
    with open(PAGE, encoding="utf-8") as page:
        head = page.read().partition("\n## ")[0].rstrip()
    with open(PAGE, "w", encoding="utf-8") as page:
        page.write("\n".join([head, "", "## By crate", "", said, "", *lines, ""]))


def main() -> int:
    words = sys.argv[1:]
    if words not in ([], ["--write"]):
        print(__doc__, file=sys.stderr)
        return 2
    used: dict[Any, Any] = {}
    began = time.monotonic()
    gate = subprocess.Popen([f"{TOP}/.ci/run"])
    while gate.poll() is None:
        look(used)
        time.sleep(0.25)
    lines, whole = table_of(used), os.times()
    last = f"{(whole.children_user + whole.children_system) / 60:.1f} processor minutes in {(time.monotonic() - began) / 60:.1f}"
    print("\n".join(lines))
    print(last)
    if words and gate.returncode == 0:
        write(lines, last)
    return gate.returncode


if __name__ == "__main__":
    usage_if_asked(__doc__)
    sys.exit(main())
