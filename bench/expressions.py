#!/usr/bin/env python3
"""Measures the reader of expressions beside Python's json with a check of the same rules.

usage: bench/expressions.py [--program FILE]     FILE is the built program of the tables of cases, crates/test_cases/out/test_cases

The program reads one text many times and few times over; the difference is the time of a text. It copies the text each time,
which is counted. Two texts: 256 nodes, and a small one with a megabyte of white space.
"""
import argparse
import json
import os
import re
import subprocess
import tempfile
import time

TOP = os.path.dirname(os.path.dirname(os.path.realpath(__file__)))
NAME = re.compile(r"[A-Za-z0-9][A-Za-z0-9_.-]{0,31}\Z")
MOST_BYTES = 1_048_576


def texts():
    """Returns the texts by what they are, each with how often it is read."""
    nodes = [{"id": "n0", "op": "input", "name": "a"}]
    nodes += [{"id": f"n{k}", "op": "add", "args": [f"n{k - 1}", f"n{max(0, k - 2)}"]} for k in range(1, 256)]
    small = '{"nodes":[{"id":"a","op":"input","name":"a"}],"out":"a","store_as":"y"'
    return [("256 nodes", json.dumps({"nodes": nodes, "out": "n255", "store_as": "y"}), 400),
            ("a megabyte of white space", small + " " * 1_000_000 + "}", 40)]


def node_code(node, ids):
    """Returns the code of a node's first fault, and 0 where it has none."""
    if not isinstance(node, dict) or not isinstance(node.get("id"), str) or not isinstance(node.get("op"), str):
        return 3
    if node["op"] == "input":
        if set(node) != {"id", "op", "name"} or not NAME.match(node["name"]):
            return 3
    elif node["op"] == "add":
        if set(node) != {"id", "op", "args"} or not isinstance(node["args"], list):
            return 3
        if len(node["args"]) != 2:
            return 5
    else:
        return 4
    if not NAME.match(node["id"]) or node["id"] in ids:
        return 6
    return 6 if any(isinstance(arg, str) and arg not in ids for arg in node.get("args", [])) else 0


def code_of(text):
    """Returns the code of a text's first fault, and 0 where it is an expression of inputs and additions."""
    if len(text) > MOST_BYTES:
        return 7
    whole = json.loads(text)
    if set(whole) != {"nodes", "out", "store_as"} or not isinstance(whole["nodes"], list):
        return 2
    if len(whole["nodes"]) > 256:
        return 7
    ids = set()
    for node in whole["nodes"]:
        code = node_code(node, ids)
        if code:
            return code
        ids.add(node["id"])
    return 0 if whole["out"] in ids and NAME.match(whole["store_as"]) else 2


def least(times, run):
    """Returns the least time of so many runs, in seconds."""
    best = float("inf")
    for _ in range(times):
        began = time.perf_counter()
        run()
        best = min(best, time.perf_counter() - began)
    return best


def program_time(program, folder, text, count):
    """Returns the seconds that the program takes for reading the text so often."""
    path = os.path.join(folder, "table.json")
    case = {"name": "read", "rows": [[{"named": "text"}, "ok"]] * count}
    with open(path, "w", encoding="utf-8") as file:
        json.dump({"kind": "expressions", "texts": {"text": text}, "cases": [case]}, file)

    def run():
        subprocess.run([program, path], check=True, stdout=subprocess.DEVNULL)

    return least(7, run)


def main():
    parser = argparse.ArgumentParser()
    parser.add_argument("--program", default=f"{TOP}/crates/test_cases/out/test_cases")
    program = parser.parse_args().program
    with tempfile.TemporaryDirectory() as folder:
        for what, text, count in texts():
            whole = program_time(program, folder, text, count + 1)
            mine = (whole - program_time(program, folder, text, 1)) / count
            assert code_of(text) == 0
            python = least(50, lambda: code_of(text))
            print(f"{what}, {len(text)} bytes: {mine * 1e6:.0f} us, Python {python * 1e6:.0f} us, ratio {mine / python:.2f}")


if __name__ == "__main__":
    main()
