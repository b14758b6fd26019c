#!/usr/bin/env python3
"""Prints what test_cases must print, computed from its tables alone: a line for each case with the count of its calls.

usage: tools/case_lines.py > crates/test_cases/stdout
"""
import json
import os
from said import usage_if_asked

FOLDER = f"{os.path.dirname(os.path.dirname(os.path.realpath(__file__)))}/crates/test_cases"


def loop_calls(said, loops):
    """Returns how many calls of the program the loops of a case make."""
    count = sum(2 * (2 if len(end) > 2 else 1) for end in loops.get("ends", []))
    if "once" in loops:
        # Each call of the depot, and each put as often as it lands late.
        count += said("calls") + len(said("leaves") or []) * loops.get("late", 0)
    return count + (len(said("output")) if loops.get("sinks") else 0)


def program_calls(case, shared):
    """Returns how many calls of the program a case makes."""
    count = 0
    for row in case.get("rows", [{}]):
        def said(name, row=row):
            return row.get(name, case.get(name, shared.get(name)))

        count += len(said("steps") or [0])
        count += loop_calls(said, said("loops") or {})
    return count


def calls(kind, case, shared):
    if kind == "calls":
        return program_calls(case, shared)
    for name in ("steps", "calls", "rows", "turns"):
        if name in case:
            return len(case[name])
    return 1


def main():
    with open(f"{FOLDER}/args", encoding="utf-8") as args:
        files = args.read().split()
    for file in files:
        with open(f"{FOLDER}/data/{file}", encoding="utf-8") as text:
            table = json.load(text)
        print(file)
        counts = [calls(table["kind"], case, table.get("shared", {})) for case in table["cases"]]
        for case, count in zip(table["cases"], counts):
            print(f"  {case['name']}: {count}")
        print(f"{file}: {sum(counts)}")


if __name__ == "__main__":
    usage_if_asked(__doc__)
    main()
