#!/usr/bin/env python3
"""Runs the tables of cases once more with several workers: every run is given `--workers N`, and what comes must be the same.

usage: tools/tables_by_workers.py PROGRAM [N..]     PROGRAM is the built test_cases; N is 2 and 4 if it isn't given

Left out of a row are the count and the order of its calls and what is tried call by call, since these are those of one worker. A row
whose store fails by a script, or whose run ends amid its tasks, is left out whole, and with a step the steps that go on from it. The
program compares each answer, each output and each chunk with the table's.
"""
import json
import os
import subprocess
import sys
import tempfile
from said import usage_if_asked

TOP = os.path.dirname(os.path.dirname(os.path.realpath(__file__)))
CRATE = f"{TOP}/crates/test_cases"
OF_ONE = ("calls", "loops", "ends", "once", "late", "sinks", "fronts")
SCRIPTED = ("faults", "stop_after", "fail_from")
# How a run ends amid its tasks, of which another worker may have stored one more.
ENDED_AMID = ("error 10 ", "error 13 ")


def is_run(words):
    return bool(words) and words[0] == "run" and not any(word.startswith("--workers") for word in words)


def by_workers(row, count):
    """The row with so many workers, or None if its store fails by a script."""
    if any(name in row for name in SCRIPTED) or is_run(row.get("words")) and row.get("line", "").startswith(ENDED_AMID):
        return None
    told = {name: value for name, value in row.items() if name not in OF_ONE}
    if is_run(told.get("words")):
        told["words"] = ["run", "--workers", str(count), *told["words"][1:]]
    if "rows" in told:
        told["rows"] = [one for one in (by_workers(row, count) for row in told["rows"]) if one is not None]
    if "steps" in told:
        told["steps"] = [by_workers(step, count) for step in told["steps"]]
    has_none = told.get("rows") == [] or None in told.get("steps", [])
    return None if has_none else told


def write_tables(folder, count):
    """The tables of calls with so many workers. Returns their names, and how many runs they ask for."""
    names, runs = [], 0
    with open(f"{CRATE}/args", encoding="utf-8") as args:
        files = args.read().split()
    for file in files:
        with open(f"{CRATE}/data/{file}", encoding="utf-8") as text:
            table = json.load(text)
        if table["kind"] not in ("calls", "folder"):
            continue
        shared = by_workers(table.get("shared", {}), count)
        cases = [one for one in (by_workers(case, count) for case in table["cases"]) if one is not None]
        if shared is None or not cases:
            continue
        text = json.dumps({**table, "shared": shared, "cases": cases})
        if '"--workers"' not in text:
            continue
        with open(f"{folder}/{file}", "w", encoding="utf-8") as written:
            written.write(text)
        names.append(file)
        runs += text.count('"--workers"')
    return names, runs


def main():
    if len(sys.argv) < 2:
        raise SystemExit(__doc__)
    program, counts = os.path.abspath(sys.argv[1]), [int(word) for word in sys.argv[2:]] or [2, 4]
    failed = False
    for count in counts:
        with tempfile.TemporaryDirectory(prefix="cubed-tables-") as folder:
            names, runs = write_tables(folder, count)
            ended = subprocess.run([program, *names], cwd=folder, stdout=subprocess.PIPE, stderr=subprocess.STDOUT, text=True, check=False)
        last = ended.stdout.splitlines()[-1] if ended.stdout else ""
        print(f"{count} workers: {len(names)} tables, {runs} rows or tables that run, status {ended.returncode}: {last}", flush=True)
        if ended.returncode:
            print("\n".join(line for line in ended.stdout.splitlines() if not line.startswith("  ") or "not" in line))
            failed = True
    raise SystemExit(failed)


if __name__ == "__main__":
    usage_if_asked(__doc__)
    main()
