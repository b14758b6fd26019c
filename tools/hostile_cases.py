#!/usr/bin/env python3
"""Writes hostile.json and json_edges.json in crates/test_cases/data: the call of the source, of the sink and of the store in memory of each
number fails, under each command; and edges of JSON.

usage: tools/hostile_cases.py

Keys, records and counts come from compare/rules.py, bytes from NumPy and tools/demo_cases.py. The answers to the edges of JSON are by hand,
and compared with compare/rules.py. Nothing comes from the program.
"""
import json
import os
import sys

TOP = os.path.dirname(os.path.dirname(os.path.realpath(__file__)))
sys.path.insert(0, f"{TOP}/tools")
import demo_cases  # noqa: E402
import elementwise_cases as tables  # noqa: E402
import rules  # noqa: E402
from stop_cases import addition, members  # noqa: E402
from said import usage_if_asked

LOADED = {"name": "c", "data_type": "int32", "shape": [6], "chunk_shape": [4], "elements": [1, 2, 3, 4, 5, 6]}
PRINTED = "int32 shape [6] chunk [4]\n11 22 33 44 55 66\n"


class Command:
    """A call that ends with 0: its words, what it is given, and what comes of it."""

    def __init__(self, words, output, holds, leaves=(), told=None):
        self.words, self.output, self.holds, self.leaves, self.told = words, output, holds, list(leaves), told

    def row(self, **other):
        said = {"words": self.words, "holds": self.holds, "output": self.output, "leaves": self.leaves, **other}
        return {**said, "input": self.told} if self.told is not None else said

    def refused(self, line, **other):
        return self.row(line=line, output="", **{"leaves": [], **other})


def commands(job):
    """Each command but that of a run that goes on, over the arrays of an addition."""
    text = {"named": job.label}
    inputs, whole = job.inputs, [[key, job.value[key]] for key in job.keys]
    held = dict((key, value) for key, value in inputs)
    loaded = [["c/c/0", held["a/c/0"]], ["c/c/1", held["a/c/1"]], ["c/zarr.json", held["a/zarr.json"]]]
    gone = [[key, None] for key in (job.metadata, *job.chunks, job.record)]
    demo = demo_cases.small()
    by_four = ["--workers", "4"]
    return {
        "load": Command(["load"], "ok elements=6 chunks=2\n", [], loaded, LOADED),
        "run": Command(["run", *job.words], job.report(2), inputs, whole, text),
        "run by four": Command(["run", *by_four, *job.words], job.report(2), inputs, whole, text),
        "plan": Command(["plan", *job.words], job.plan.lines(), inputs, (), text),
        "check": Command(["check"], "equal 6\n", inputs + whole, (), text),
        "drop": Command(["drop", *job.words], f"ok keys={len(whole)}\n", inputs + whole, gone, text),
        "print": Command(["print", "y"], PRINTED, whole),
        "demo": Command(["demo", "4"], demo["output"], [], demo["leaves"]),
        "demo by four": Command(["demo", "4", *by_four], demo["output"], [], demo["leaves"]),
    }


def source_rows(told):
    """The first read takes the text, the second finds its end, and a third isn't made."""
    rows = []
    for command in told.values():
        if command.told is None:
            rows.append(command.row(source_fails_at=0))
        else:
            rows += [command.refused("error 11", source_fails_at=at, calls=0) for at in (0, 1)] + [command.row(source_fails_at=2)]
    return rows


def sink_rows(told):
    """The first write fails: nothing is printed, and all else is done. In how many writes a text is printed is free."""
    rows = []
    for command in told.values():
        rows.append(command.row(line="error 12", output="", sink_fails_at=0))
        rows += [command.row(or_lines=["error 12"], front=True, sink_fails_at=at) for at in (1, 2, 3)]
    return rows


def dropped(command, job):
    """The removal of a plan, stopped before each call, each call failing for good and once, and each smaller sink."""
    asked = [*job.names, job.record]
    removed = [key for key, _ in command.leaves]
    ends = [[f"error 16 key={key}", 0, ""] for key in asked] + [[f"error 16 key={key}", at, ""] for at, key in enumerate(removed)]
    return {"name": "a plan is dropped, whichever call fails", **command.row(calls=len(ends), loops={"ends": ends, "once": {}, "sinks": True})}


def asked_rows(command, calls):
    """A call by four workers that is stopped at each of its calls before the tasks, of which each fails for good, and once."""
    rows, stored = [], 0
    for at, (kind, key) in enumerate(calls):
        skip = sum(other == (kind, key) for other in calls[:at])
        fault = {"call": kind, "key": key, "skip": skip}
        ended = command.refused(f"error 16 key={key}", leaves=command.leaves[:stored])
        rows += [{**ended, "stop_after": at}, {**ended, "faults": [{**fault, "times": 3}]}, command.row(faults=[{**fault, "times": 2}]), command.row(faults=[{**fault, "times": 1}])]
        stored += kind == "put"
    return rows


def by_four_rows(told, job):
    run = [("get", key) for key in job.names] + [("has", key) for key in job.way] + [("put", key) for key in (job.record, job.metadata)]
    demo = told["demo"]
    keys = [key for key, _ in demo.leaves]
    asked = [key for name in ("demo_a", "demo_b", "demo_y") for key in (f"_cubed/{name}/plan.json", f"{name}/zarr.json", f"{name}/.zarray")] + keys[6:]
    calls = [("has", key) for key in asked] + [("put", key) for key in keys[:6]]
    return asked_rows(told["run by four"], run), asked_rows(told["demo by four"], calls)


def hostile():
    job = addition()
    told = commands(job)
    run, demo = by_four_rows(told, job)
    cases = [{"name": "a source that fails at each read", "rows": source_rows(told)}, {"name": "a sink that fails at each write", "rows": sink_rows(told)},
             dropped(told["drop"], job), {"name": "a run by four, each call before its tasks failing", "rows": run},
             {"name": "a demonstration by four, each call before its tasks failing", "rows": demo}]
    with open(f"{TOP}/crates/test_cases/data/hostile.json", "w", encoding="ascii") as out:
        out.write(f'{{\n"kind": "calls",\n"texts": {members(job.texts)},\n"cases": {tables.joined(map(tables.case_text, cases), "")}\n}}\n')


# Edges of JSON

INPUT = '{"id":"a","op":"input","name":"x"}'


def over(nodes, out="a", end=""):
    return f'{{"nodes":[{nodes}],"out":"{out}","store_as":"r"{end}}}'


def added(number):
    return over(INPUT + ',{"id":"n","op":"add","args":["a",' + number + "]}", "n")


def valued(number):
    return over(INPUT + ',{"id":"n","op":"full","shape":[1],"dtype":"uint64","value":' + number + ',"chunk":[1]}', "n")


def nested(levels):
    """A member whose lists make so many levels with the whole, the nodes and the node around them."""
    count = levels - 3
    return over('{"id":"a","op":"input","name":"x","more":' + "[" * count + "]" * count + "}")


def edges():
    twenty = "18446744073709551615"
    numbers = [(added(twenty), "ok"), (added("9223372036854775808"), "ok"), (added("-9223372036854775808"), "ok"), (added("0"), "ok"),
               *[(added(text), "5 1") for text in ("18446744073709551616", "99999999999999999999", "-9223372036854775809", "-18446744073709551615", "100000000000000000000", "1e0", "1E2",
                                                   "1.0", "-0", "0e0", "1e-1", "1.5")],
               *[(added(text), "1 0") for text in ("01", "+1", "1.", ".5", "0x1", "1e", "--1", "1_0", "- 1", "NaN", "Infinity", "-", "\u0661")],
               (valued(twenty), "ok"), (valued("18446744073709551616"), "3 1"), (valued("1e3"), "3 1"), (valued('"1"'), "3 1"), (valued("0x1"), "1 0")]
    def named(text):
        return over('{"id":"' + text + '","op":"input","name":"x"}')

    spelled = over('{"\\u0069d":"\\u0061","op":"inp\\u0075t","name":"\\u0078"}')
    texts = [(spelled, "ok"), (spelled.replace("nodes", "\\u006eodes"), "ok"), (named("\\ud83d\\ude00"), "6 0"), (named("\u00e9"), "6 0"), (named("\\u0000"), "6 0"), (named("a\\n"), "6 0"),
             (named("\\/"), "6 0"), (named("\\ud800"), "1 0"), (named("\\udc00"), "1 0"), (named("\\ude00\\ud83d"), "1 0"), (named("\\ud83d\\u0061"), "1 0"), (named("\\ud83d"), "1 0"),
             (named("\\u12"), "1 0"), (named("\\x61"), "1 0"), (named("\\U00000061"), "1 0"), (named("a\x01"), "1 0"), (named("a\n"), "1 0"), (named("a\x7f"), "6 0")]
    node = '{"id":"a","op":"input","name":"x"'
    twice = [(over(node + ',"name":"y"}'), "ok"), (over(node + ',"name":1}'), "3 0"), (over('{"name":1,' + node[1:] + "}"), "ok"), (over(node + ',"op":"sort"}'), "4 0"),
             (over('{"op":"sort",' + node[1:] + "}"), "ok"), (over(node + ',"op":"\\u0069nput"}'), "ok"), (over(INPUT, end=',"out":"b"'), "2 0"), (over(INPUT, "b", ',"out":"a"'), "ok"),
             (over(INPUT, end=',"nodes":[]'), "2 0"), ('{"nodes":0,' + over(INPUT)[1:], "ok"), (over(INPUT, end=',"nodes":{}'), "2 0"), (over(INPUT, end=',"store_as":"-"'), "2 0")]
    # The whole, its nodes and the node are three levels.
    deep = [(nested(127), "3 0"), (nested(128), "1 0"), (nested(64), "3 0"), ("[" * 127 + "]" * 127, "2 0"), ("[" * 128 + "]" * 128, "1 0"), ("[" * 128, "1 0"),
            ('{"a":' * 127 + "1" + "}" * 127, "2 0"), ('{"a":' * 128 + "1" + "}" * 128, "1 0")]
    whole = over(INPUT)
    around = [(f" \t\r\n{whole}\n ", "ok"), (f"\ufeff{whole}", "1 0"), (f"{whole}\x00", "1 0"), (f"{whole}\u00a0", "1 0"), (f"{whole},", "1 0"), (f"{whole}{whole}", "1 0"), (f"\x0c{whole}", "1 0"),
              (whole.replace('"x"}', '"x",}'), "1 0"), (whole.replace("}]", "},]"), "1 0"), (whole.replace('"', "'"), "1 0"), (f"/**/{whole}", "1 0"), (whole.replace(":", "=", 1), "1 0"),
              (whole[:-1], "1 0"), ("", "1 0"), ("null", "2 0"), ("true", "2 0"), ("0", "2 0"), ('""', "2 0"), ("[]", "2 0"), ("{}", "2 0")]
    return {"numbers of many digits": numbers, "escapes and surrogates in texts": texts, "members that stand twice": twice, "nested values": deep, "what stands around and between": around}


def answer_of(text):
    """What the rules answer, as a table writes it."""
    try:
        rules.read(text.encode("utf-8", "surrogatepass"))
        return "ok"
    except rules.Refused as refused:
        told = dict(part.split("=") for part in str(refused).split()[1:])
        return f"{told['code']} {told['node']}"


def json_edges():
    cases = []
    for name, rows in edges().items():
        for text, answer in rows:
            if answer_of(text) != answer:
                print(f"{name}: {text[:90]!r}: by hand {answer}, by the rules {answer_of(text)}", file=sys.stderr)
        cases.append({"name": f"edges of JSON: {name}", "rows": [list(row) for row in rows]})
    with open(f"{TOP}/crates/test_cases/data/json_edges.json", "w", encoding="ascii") as out:
        lines = [f'{{"name": {json.dumps(case["name"])},\n "rows": {tables.joined(map(json.dumps, case["rows"]), "  ")}}}' for case in cases]
        out.write(f'{{\n"kind": "expressions",\n"cases": {tables.joined(lines, "")}\n}}\n')


if __name__ == "__main__":
    usage_if_asked(__doc__)
    hostile()
    json_edges()
