#!/usr/bin/env python3
"""What a refusal means in the text that was refused: the member, the names that it is near to, and
what is allowed there.

usage: tools/explain.py FOLDER WORDS..        the words of an answer, as error 3 code=3 node=2, with the expression on standard input
       tools/explain.py FOLDER error 2 code=2 DIR COMMAND WORDS..
       tools/explain.py --near OPERATOR       the operators whose names are near

FOLDER is that of the arrays, and '' where none is given: then the types and shapes of inputs aren't
known. The rules are those of compare/rules.py. Nothing is printed where nothing more is known than
the guide's table says.
"""
from __future__ import annotations

import json
import os
import re
import select
import stat
import sys
from typing import Any, Callable, Optional

sys.path.append(os.path.join(os.path.dirname(os.path.realpath(__file__)), "..", "compare"))
import limits  # limits.py and rules.py, in compare
import rules
from words import near, told_of
from said import Failed, shown, usage_if_asked
from zarr_store import METADATA_BYTES, bytes_in, sizes_text

MOST_TEXT = rules.MOST_TEXT
# The seconds for which a text is waited for that comes through a pipe.
LONGEST_WAIT = 2
INT64, UINT64 = "an integer from -2^63 to 2^63-1", "an integer from -2^63 to 2^64-1"
KINDS = {
    "name": "the name of an array (1 to 32 letters, digits, _, - and ., the first a letter or a digit)",
    "dtype": f"one of {', '.join(limits.SIZES)}", "args": "a list of arguments",
         "shape": "a list of sizes from 0 to 2^40",
    "chunk": "a list of sizes from 1 to 2^40", "rows": "a size from 0 to 2^40",
         "cols": "a size from 0 to 2^40",
    "axis": INT64, "k": INT64, "start": INT64, "stop": INT64, "step": INT64,
         "axes": f"a list, each entry {INT64}",
    "shifts": f"a list, each entry {INT64}", "keepdims": "true or false",
         "value": f"{UINT64}, true or false",
    "index": 'a list of integers, objects of start, stop and step, "new" and "..."', "min": UINT64,
         "max": UINT64,
    "groups": "an integer from 1 to 65536"}


def text_of(value: Any) -> str:
    """A JSON value as it may be printed."""
    try:
        return shown(json.dumps(value, ensure_ascii=False, separators=(",", ":")), 60)
    except (ValueError, RecursionError):
        return "a value that can't be printed"


def kind_of(op: Any, name: str, kind: Any) -> Optional[str]:
    """What a member takes, in words."""
    told = KINDS.get(name, "another kind of value")
    if op == "reshape" and name == "shape":
        told += ", of which one may be -1"
    return f"{told}, or null" if kind(None) else told


def members_of(op: Any) -> Any:
    """The members that a node of an operator must have, and those that it may have."""
    count, members, optional = rules.ROWS[op]
    return ["id", "op", *(["args"] if count else []), *members], list(optional)


def members_text(op: Any) -> str:
    wanted, optional = members_of(op)
    return f"{op} has {', '.join(wanted)}" + (f", and may have {', '.join(optional)}" if optional
                                              else "")


# What is wrong with a text: error 3

def member_fault(node: Any) -> Optional[str]:
    """What is wrong with the members of a node, or nothing."""
    if type(node) is not dict:
        return f"it is {text_of(node)}, and an object is wanted, with id, op and the members of its operator"
    for name in ("id", "op"):
        if type(node.get(name)) is not str:
            return f"its member {name} is {text_of(node[name])}, and a text is wanted" if name in node else f"it has no member {name}"
    op = node["op"]
    if op not in rules.ROWS:
        return None
    wanted, optional = members_of(op)
    for name in node:
        if name not in wanted + optional:
            free = [it for it in wanted + optional if it not in node]
            return f"{op} has no member {text_of(name)}{near(name, free)}; {members_text(op)}"
    for name in wanted:
        if name not in node:
            return f"its member {name} is missing; {members_text(op)}"
    return value_fault(node)


def value_fault(node: Any) -> Optional[str]:
    """What is wrong with the value of a member, or nothing."""
    op = node["op"]
    _, members, optional = rules.ROWS[op]
    kinds: dict[str, Any] = {"args": lambda value: type(value) is list, **members, **optional}
    for name, kind in kinds.items():
        if name not in node or kind(node[name]):
            continue
        value, place = node[name], ""
        if type(value) is list:
            wrong = [at for at, entry in enumerate(value) if not kind([entry])]
            place = f" (entry {wrong[0]}, {text_of(value[wrong[0]])})" if wrong else ""
        told = near(value, limits.SIZES) if name == "dtype" and type(value) is str else ""
        return f"its member {name} is {text_of(value)}{place}{told}; it takes {kind_of(op, name, kind)}"
    return None


def argument_fault(node: Any) -> Optional[str]:
    """What is wrong with the arguments of a node."""
    op, args = node["op"], node["args"]
    least, most = rules.ROWS[op][0]
    count = str(least) if least == most else f"{least} to {most}"
    if not least <= len(args) <= most:
        return f"it has {len(args)} argument{'' if len(args) == 1 else 's'}, and {op} takes {count}"
    for at, arg in enumerate(args):
        if type(arg) is list:
            return f"argument {at} is a list: the arguments of {op} stand in one list, as \"args\":[\"t\",\"o\"]"
        if type(arg) is not str and not rules.is_literal(arg):
            return f"argument {at} is {text_of(arg)}, and the id of a node, {UINT64}, true or false is wanted"
    written = [at for at, arg in enumerate(args) if type(arg) is not str]
    if op == "where":
        return "its first argument is an array, and so is one of the others"
    if op in rules.FUNCTIONS:
        return f"all arguments are written; at least one argument of {op} is an array"
    return f"argument {written[0]} is written, {text_of(args[written[0]])}, and {op} takes arrays alone"


def id_fault(nodes: Any, number: int) -> Optional[str]:
    """What is wrong with the id of a node, or with those that its arguments name."""
    node, ids = nodes[number], [it["id"] for it in nodes[:number]]
    if not rules.is_name(node["id"]):
        return f"its id {text_of(node['id'])} isn't one: 1 to 32 letters, digits, _, - and ., the first a letter or a digit"
    if node["id"] in ids:
        return f"its id {node['id']} is that of node {ids.index(node['id'])} too"
    later = [it.get("id") if type(it) is dict else None for it in nodes[number:]]
    for arg in node.get("args", []):
        if type(arg) is str and arg not in ids:
            if arg in later:
                return f"its argument {arg} is node {number + later.index(arg)}, which doesn't come before it"
            return f"its argument {text_of(arg)} is the id of no node{near(arg, ids)}"
    return "an id is wrong"


def top_fault(value: Any) -> Optional[str]:
    """What is wrong with the whole."""
    names = ("nodes", "out", "store_as")
    if type(value) is not dict:
        return f"the text is {text_of(value)}, and an object of nodes, out and store_as is wanted"
    for name in value:
        if name not in names:
            return f"the object has the member {text_of(name)}{near(name, [it for it in names if it not in value])}; it has nodes, out and store_as"
    for name in names:
        if name not in value:
            return f"the object has no member {name}"
    if type(value["nodes"]) is not list:
        return f"nodes is {text_of(value['nodes'])}, and a list of nodes is wanted"
    for name in ("out", "store_as"):
        if type(value[name]) is not str:
            return f"{name} is {text_of(value[name])}, and a text is wanted"
    ids: list[str] = [node["id"] for node in value["nodes"] if type(node) is dict
           and type(node.get("id")) is str]
    if value["out"] not in ids:
        return f"out is {text_of(value['out'])}, which is the id of no node{near(value['out'], ids)}"
    return f"store_as is {text_of(value['store_as'])}, and {KINDS['name']} is wanted"


def json_fault(data: Any) -> Optional[str]:
    """Where a text isn't JSON."""
    if not data.strip():
        return "the text is empty"
    try:
        text = data.decode("utf-8")
    except UnicodeDecodeError as error:
        return f"byte {error.start}, counted from 0, isn't UTF-8"
    try:
        json.loads(text, parse_constant=rules.no_constant)
    except json.JSONDecodeError as error:
        return f"line {error.lineno}, character {error.colno}: {error.msg}"
    except (ValueError, RecursionError):
        pass
    return "it is nested in more than 127 levels" if rules.nesting(text) > 127 else "a number or a text in it isn't one of JSON"


def fields_of(line: str) -> dict[str, str]:
    return {name: value for name, _, value in (word.partition("=") for word in line.split())
            if value}


def form_fault(data: Any, fields: Any) -> Any:
    """What is wrong with a text that was refused with 3."""
    if fields["code"] == "1":
        return json_fault(data)
    if fields["code"] == "7":
        return f"the text has {len(data)} bytes, and {MOST_TEXT} are the most" if len(data) > MOST_TEXT else "it has more than 256 nodes"
    value, number = rules.json_of(data), int(fields["node"])
    if fields["code"] == "2":
        return top_fault(value)
    node = value["nodes"][number]
    if fields["code"] == "4":
        return f"there is no operator {text_of(node['op'])}{near(node['op'], rules.ROWS)}"
    if fields["code"] == "6":
        return id_fault(value["nodes"], number)
    return member_fault(node) if fields["code"] == "3" else argument_fault(node)


# What is wrong with types and shapes: error 4

def array_text(info: Any) -> str:
    dtype, shape, chunk = info
    return f"{dtype}, shape {sizes_text(shape)}, chunk {sizes_text(chunk)}"


def literal_fault(node: Any, infos: Any) -> Optional[str]:
    """Which written argument isn't of the type that it meets."""
    if node["op"] == "full":
        return f"value is {text_of(node['value'])}, and {range_text(node['dtype'])}"
    if node["op"] == "arange":
        return f"the numbers go from {node['start']} by {node['step']} to below {node['stop']}, and {range_text(node['dtype'])}"
    args = node["args"][1:] if node["op"] == "where" else node["args"]
    dtype = next(infos[arg][0] for arg in args if type(arg) is str)
    wrong = [arg for arg in args if type(arg) is not str and not limits.is_value(dtype, arg)]
    wrong += [node[name] for name in ("min", "max") if name in node
              and not limits.is_value(dtype, node[name])]
    return f"{text_of(wrong[0])} is written, and {range_text(dtype)}" if wrong else ""


def range_text(dtype: str) -> str:
    if dtype == "bool":
        return "bool has true and false"
    least, most = limits.limits(dtype)
    return f"{dtype} has the numbers from {least} to {most}"


def shape_fault(node: Any, arrays: Any) -> Optional[str]:
    """Which sizes don't fit."""
    shapes = [info[1] for info in arrays] + ([node["shape"]] if node["op"] == "broadcast_to"
                                             else [])
    if node["op"] in rules.FUNCTIONS or node["op"] == "broadcast_to":
        for back in range(1, max(map(len, shapes)) + 1):
            wide = sorted({shape[-back] for shape in shapes if len(shape) >= back
                           and shape[-back] != 1})
            if len(wide) > 1:
                return f"counted from the last axis, axis {back} has the sizes {' and '.join(map(str, wide))}, and neither is 1"
    if node["op"] == "matmul" and arrays[0][1] and arrays[1][1]:
        left, right = arrays[0][1][-1], arrays[1][1][-2:][0]
        return f"the inner sizes are {left} and {right}" if left != right else "the axes before the matrices don't broadcast"
    if node["op"] in rules.GROUPS:
        axis = node["axis"] % len(arrays[0][1])
        return f"the labels have the shape {sizes_text(arrays[1][1])}, and [{arrays[0][1][axis]}] is wanted: one for each place of axis {axis}"
    if node["op"] in ("concat", "stack"):
        return f"the shapes {' and '.join(sizes_text(shape) for shape in shapes)} differ" + (" off the axis" if node["op"] == "concat" else "")
    return f"chunk has {len(node['chunk'])} sizes" if "chunk" in node else ""


def axis_fault(node: Any, arrays: Any) -> Optional[str]:
    """Which axes there are."""
    rank = len(arrays[0][1])
    if node["op"] in ("stack", "expand_dims"):
        return f"axis is {node['axis']}, and a new axis is from {-rank - 1} to {rank}"
    if node["op"] in ("tril", "triu"):
        return f"{node['op']} takes two axes or more, and the argument has {rank}"
    if node["op"] == "cumulative_sum" and node.get("axis") is None and rank:
        return f"the argument has {rank} axes, and with more than one, axis is named"
    said = {name: text_of(node[name]) for name in ("axis", "axes", "shifts") if name in node}
    allowed = "the argument has no axis"
    if rank:
        allowed = f"the argument of shape {sizes_text(arrays[0][1])} has the axes {-rank} to {rank - 1}"
    given = "".join(f"{name} is {value}; " for name, value in said.items())
    return f"{given}{allowed}, and each stands once"


def type_fault(node: Any, code: int, arrays: Any, infos: Any) -> Optional[str]:
    """What is wrong with a node whose arguments have these types, shapes and chunks."""
    types = " and ".join(dict.fromkeys(info[0] for info in arrays))
    shape = sizes_text(arrays[0][1]) if arrays else ""
    told: dict[int, Any] = {
        1: lambda: f"{types} have no common type",
        2: lambda: shape_fault(node, arrays), 3: lambda: axis_fault(node, arrays),
        4: lambda: f"the argument has the shape {shape}, and of no elements there is no least or greatest",
        5: lambda: literal_fault(node, infos),
        6: lambda: f"{node['op']} of {types or node.get('dtype')}: cubed explain {node['op']} shows what it accepts",
        8: lambda: f"{shape} has {rules.math.prod(arrays[0][1])} elements, and shape is {sizes_text(node['shape'])}",
        9: lambda: f"the argument has the shape {shape}, and index is {text_of(node['index'])}"
            if "index" in node else "step is 0"}
    return told[code]() if code in told else ""


def held_in(folder: Any) -> Callable[[str], Optional[bytes]]:
    """The bytes of a key of a folder, or nothing."""
    def held(key: str) -> Optional[bytes]:
        try:
            return bytes_in(os.path.join(folder, key), METADATA_BYTES)
        except (OSError, Failed):
            return None
    return held


def node_lines(expr: Any, number: int, folder: Any) -> Any:
    """A node with what is known of its arguments, and what is wrong with it."""
    node = expr["nodes"][number]
    lines = [f"node {number} is {text_of(node)}"]
    names = {it["name"] for it in expr["nodes"][:number + 1] if it["op"] == "input"}
    if not folder and names:
        return lines + ["with the folder before the word explain, as cubed DIR explain .., it tells the types and shapes"]
    metas = {name: rules.meta_of(name, held_in(folder)) for name in names}
    before = {"nodes": expr["nodes"][:number]}
    infos = dict(zip((it["id"] for it in before["nodes"]), rules.typed(before, metas)))
    lines += [f"  {arg}: {array_text(infos[arg])}"
              for arg in dict.fromkeys(it for it in node.get("args", []) if type(it) is str)]
    arrays = [infos[arg] for arg in node.get("args", []) if type(arg) is str]
    args = [infos[arg] if type(arg) is str else arg for arg in node.get("args", [])]
    if node["op"] == "input":
        return lines + [f"  it is {array_text(metas[node['name']].info())}"]
    info = (rules.elementwise if node["op"] in rules.FUNCTIONS else rules.other)(node, args)
    if type(info) is not int:
        return lines + [f"  it is {array_text(info)}"]
    return lines + [it for it in [type_fault(node, info, arrays, infos)] if it]


def lines_of(number: int, fields: Any, data: Any, folder: Any) -> Any:
    """What is to be told of an answer over this text."""
    try:
        expr = rules.read(data)
    except rules.Refused as refused:
        found = fields_of(str(refused))
        place = f"node {found['node']}: " if found["code"] in "3456" else ""
        said = {"code": fields.get("code", found["code"]),
                "node": fields.get("node", found["node"])}
        other = ""
        if number != 3 or said != found:
            other = f"this text is refused with error 3 code={found['code']} node={found['node']}: "
        return [f"{other}{place}{form_fault(data, found)}"]
    if number == 3:
        return ["this text is an expression"]
    if int(fields["node"]) >= len(expr["nodes"]):
        return [f"this text has {len(expr['nodes'])} nodes"]
    return node_lines(expr, int(fields["node"]), folder)


def told(number: int, fields: Any, data: Any, folder: Any) -> list[str]:
    """The lines that tell more of an answer than the guide does. Nothing is told that can't be
    found out.
    """
    try:
        return lines_of(number, fields, data, folder)
    except rules.Refused as refused:
        return [f"the folder answers error {refused} first"]
    except (ValueError, KeyError, TypeError, IndexError, AttributeError, StopIteration,
            RecursionError):
        return []


def waiting_text() -> bytes:
    """The text on standard input, where one is there: none is waited for on a terminal, and for
    long nowhere.
    """
    try:
        mode = os.fstat(0).st_mode
        if stat.S_ISREG(mode) or (stat.S_ISFIFO(mode)
                                  or stat.S_ISSOCK(mode)) and select.select([0], [], [],
                                                                            LONGEST_WAIT)[0]:
            return sys.stdin.buffer.read(MOST_TEXT + 1)
    except (OSError, AttributeError):
        pass
    return b""


def answer_of(words: list[str]) -> Any:
    """The number and the fields of an answer, and the words of a call behind it."""
    number, fields, rest = None, {}, list(words)
    while rest:
        if rest[0].isdigit() and number is None:
            number = int(rest[0][:6])
        elif re.match(r"[a-z]+=\w+\Z", rest[0], re.ASCII) and number is not None:
            fields.update(fields_of(rest[0]))
        elif rest[0] not in ("error", "status"):
            break
        rest.pop(0)
    return number, fields, rest


def main(words: list[str]) -> int:
    if words[:1] == ["--near"]:
        print(near(words[1], rules.ROWS).strip())
        return 0
    folder, *line = words
    number, fields, call = answer_of([word for it in line
                                      for word in (it.split() if it is line[0] else [it])])
    lines = []
    if number == 2 and call:
        wrong = told_of(call)
        lines = [wrong.told if wrong else "these words are accepted"]
    elif number in (3, 4, 5) and fields.get("node", "").isdigit():
        data = waiting_text()
        lines = told(number, fields, data, folder) if data.strip() or number == 3 and data else []
    if lines:
        print("\n".join(f"  here: {line}" if not line.startswith("  ") else f"      {line}"
                        for line in lines))
    return 0


if __name__ == "__main__":
    usage_if_asked(__doc__)
    sys.exit(main(sys.argv[1:]))
