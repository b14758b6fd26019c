#!/usr/bin/env python3
"""Runs all stops, failing calls and late puts over a folder, of which the gate runs some: see `tools/stop_cases.py` and `tools/late_cases.py`.

usage: tools/tables_by_stops.py PROGRAM [PART..]     PROGRAM is the built test_cases; a case is run if its name has one of these parts

Each case is run by itself in a folder of its own. What isn't as the table says is printed, and the script ends with 1.
"""
import json
import os
import subprocess
import sys
import tempfile

sys.path.insert(0, os.path.dirname(os.path.realpath(__file__)))
import late_cases  # noqa: E402
import stop_cases  # noqa: E402
from said import usage_if_asked


def run_table(program, folder, file, parts):
    """Runs the cases of a table. Returns how many steps were made, and how many cases weren't as they must be."""
    with open(f"{folder}/{file}", encoding="ascii") as text:
        table = json.load(text)
    steps = failed = 0
    for case in table["cases"]:
        if parts and not any(part in case["name"] for part in parts):
            continue
        with open(f"{folder}/case.json", "w", encoding="ascii") as written:
            json.dump({**table, "cases": [case]}, written)
        ended = subprocess.run([program, "case.json"], cwd=folder, stdout=subprocess.PIPE, stderr=subprocess.STDOUT, text=True, check=False)
        steps += len(case["steps"])
        if ended.returncode:
            failed += 1
            print(ended.stdout, flush=True)
    print(f"{file}: {steps} calls, {failed} cases aren't as they must be", flush=True)
    return failed


def main():
    if len(sys.argv) < 2:
        raise SystemExit(__doc__)
    program, parts = os.path.abspath(sys.argv[1]), sys.argv[2:]
    with tempfile.TemporaryDirectory(prefix="cubed-stops-") as folder:
        sys.argv = [sys.argv[0], folder]
        stop_cases.main()
        late_cases.main()
        failed = [run_table(program, folder, file, parts) for file in ("resume_stops.json", "failing_calls.json", "late_puts.json")]
    raise SystemExit(any(failed))


if __name__ == "__main__":
    usage_if_asked(__doc__)
    main()
