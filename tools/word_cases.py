#!/usr/bin/env python3
"""Writes the tables of cases of the command line, with answers that this script works out from the table of options alone.

usage: tools/word_cases.py > crates/test_cases/data/words.json
       tools/word_cases.py resume > crates/test_cases/data/resume_words.json

The words of `resume` and of `part` are tried over a folder: a depot in memory tells its contents, and a table can't say that a plan left them.
Words that are accepted are shown by the next thing that the command finds wrong: an empty text, or an array that isn't there.
"""
import json
import re
import sys

import options
from said import usage_if_asked

# Those of the program.
OPTIONS = {name: option for name, option in options.OPTIONS.items() if name not in options.OF_SCRIPT}
ACCEPTED = {
    "run": "error 3 code=1 node=0",
    "begin": "error 3 code=1 node=0",
    "part": "error 3 code=1 node=0",
    "resume": "error 3 code=1 node=0",
    "drop": "error 3 code=1 node=0",
    "plan": "error 3 code=1 node=0",
    "load": "error 18 code=1",
    "check": "error 3 code=1 node=0",
}
NAME = re.compile(r"[A-Za-z0-9][A-Za-z0-9_.-]{0,31}\Z")
NUMBER = re.compile(r"\+?[0-9]+\Z")


def parts(words):
    """Returns the pairs of an option and its value, and the positionals; None where the words have no such parts."""
    behind = []
    if "--" in words:
        at = words.index("--")
        words, behind = words[:at], words[at + 1 :]
    given, positionals = [], []
    words = iter(words)
    for word in words:
        if word == "-" or not word.startswith("-"):
            positionals.append(word)
        elif not word.startswith("--"):
            return None
        elif "=" in word:
            given.append(tuple(word[2:].split("=", 1)))
        else:
            given.append((word[2:], next(words, None)))
    return given, positionals + behind


def is_accepted(command, given):
    names = [name for name, value in given]
    for name, value in given:
        if name not in OPTIONS or command not in OPTIONS[name].takers or names.count(name) > 1:
            return False
        least, most = OPTIONS[name].least, OPTIONS[name].most
        if value is None or not NUMBER.match(value) or not least <= int(value) <= most:
            return False
    return all(name in names for name, option in OPTIONS.items() if option.default is None and command in option.takers)


def required(command, but=()):
    """Returns the options that a command must have, but for these."""
    return [f"--{name}=1" for name, option in OPTIONS.items() if option.default is None and command in option.takers and name not in but]


def answer(words):
    """Returns the line of the answer to these words."""
    if not words or words[0] not in (*ACCEPTED, "print", "demo"):
        return "error 2 code=1"
    found = parts(words[1:])
    if found is None or not is_accepted(words[0], found[0]):
        return "error 2 code=2"
    if len(found[1]) != (words[0] in ("print", "demo")):
        return "error 2 code=2"
    if words[0] == "demo":
        return demo_answer(found)
    if words[0] != "print":
        return ACCEPTED[words[0]]
    return f"error 8 name={found[1][0]}" if NAME.match(found[1][0]) else "error 2 code=3"


def demo_answer(found):
    """The answer of a demonstration, of which more is set aside than is allowed."""
    given, (size,) = found
    if not NUMBER.match(size) or not 1 <= int(size) <= 2048:
        return "error 2 code=2"
    told = {name: int(value) for name, value in given}
    allowed, reserved = (told.get(name, OPTIONS[name].default) for name in ("allowed-mem", "reserved-mem"))
    assert reserved > allowed, "this case would run"
    return f"error 5 node=0 need={reserved} allowed={allowed}"


def both(name, value):
    """Both forms of an option."""
    return [[f"--{name}", value], [f"--{name}={value}"]]


def commands():
    yield "no command, and words that are none", [
        [], [""], ["fly"], ["Run"], ["run "], ["--"], ["-"], ["--retries", "2", "run"], ["demos", "4"],
        ["help"], ["--help"], ["-h"], ["--version"], ["ru"], ["run\n"], ["läuft"]]
    yield "commands alone, and with help and version", [
        [command, *more] for command in (*ACCEPTED, "print")
        for more in ([], ["--help"], ["-h"], ["help"], ["--version"], ["-V"])]


def ends():
    """Each option of each command at the ends of its range, and beyond them; and the options that a command doesn't take."""
    for name, (least, most, _, takers, *_) in OPTIONS.items():
        rows = []
        for command in (*ACCEPTED, "print"):
            front = [command, "y"] if command == "print" else [command, *required(command, (name,))]
            values = [least, most, most + 1, *([least - 1] if least else [])] if command in takers else [least]
            rows += [front + form for value in values for form in both(name, str(value))]
        yield f"the ends of {name}", rows


def numbers():
    yield "numbers as u64::from_str reads them", [
        ["run", *form] for value in (
            "", "+", "-", "+7", "007", "++7", "-0", "-1", " 7", "7 ", "7.0", "1e3", "0x10", "1_000", "٣", "7\n", "=7", "7=", "--",
            "18446744073709551615", "18446744073709551616", "340282366920938463463374607431768211456", "+0", "00000000000000000000009")
        for form in both("allowed-mem", value)]
    yield "small numbers with a plus and with zeros", [
        ["run", *form] for name, value in (("workers", "+1"), ("workers", "01"), ("backups", "+0"), ("backups", "00"), ("sync", "+1"), ("sync", "00"), ("sync", ""), ("sync", "-0"), ("retries", "+8"),
            ("retries", "08"), ("split-every", "+64"), ("split-every", "002"), ("fusion", "+2"), ("fusion", "02"), ("fusion", ""), ("workers", ""), ("backups", ""), ("backups", "-0"))
        for form in both(name, value)]


def forms():
    every = ["--allowed-mem", "9", "--reserved-mem=8", "--split-every", "7", "--workers=1", "--retries", "6", "--backups=0", "--sync", "0"]
    yield "all options, in any order", [["run", *every], ["run", *every[3:], *every[:3]], ["run", *every[2:3], *every[:2], *every[3:]],
        ["plan", *every[:5]], ["plan", *every[:6]], ["plan", *every], ["resume", *every], ["drop", *every[:5]], ["drop", *every[:5], *every[6:8]], ["drop", *every]]
    yield "a part of which not all is said, or something twice", [
        ["part", *more] for more in (["--op", "0", "--from", "0"], ["--op", "0", "--to", "0"], ["--from", "0", "--to", "0"], ["--op=0"], ["--from=0"], ["--to=0"],
            ["--to=2", "--from=1", "--op=0"], ["--to=1", "--from=2", "--op=3"], ["--op", "0", "--from", "0", "--to"], ["--op=0", "--from=0", "--to="],
            ["--op=0", "--from=0", "--to=1", "--op=0"], ["--op=0", "--from=0", "--to=1", "--to=1"], ["--op=+1", "--from=00", "--to=01"], ["--op=-1", "--from=0", "--to=1"],
            ["--op=0", "--from=0", "--to=1", "--retries=8", "--split-every=64"], ["--op=0", "--from=0", "--to=1", "--retries=9"],
            ["--op=0", "--from=0", "--to=1", "--workers=1"], ["--op=0", "--from=0", "--to=1", "--backups=0"], ["--op=0", "--from=0", "--to=1", "y"])]
    yield "options that are given twice", [
        [command, *first, *second]
        for command, name, value in (("run", "allowed-mem", "1"), ("run", "workers", "1"), ("plan", "split-every", "4"), ("plan", "fusion", "2"), ("load", "retries", "2"), ("check", "retries", "0"))
        for first in both(name, value) for second in both(name, value)]
    yield "options without a value", [
        ["run", "--allowed-mem"], ["run", "--retries", "2", "--allowed-mem"], ["run", "--allowed-mem", "--retries", "2"],
        ["run", "--allowed-mem", "--retries=2"], ["run", "--allowed-mem", "--", "2"], ["run", "--allowed-mem", "--"], ["run", "--allowed-mem="],
        ["run", "--allowed-mem=", "2"], ["load", "--retries"], ["load", "--retries="], ["print", "y", "--retries"], ["print", "--retries", "y"],
        ["print", "--retries", "--", "y"], ["check", "--retries", "-1"], ["run", "--workers"], ["run", "--backups"], ["run", "--backups", "--workers", "1"]]
    yield "names that are cut, longer, or in another case", [
        ["run", *form] for name in ("allowed", "allowed-me", "allowed-memo", "a", "Allowed-mem", "ALLOWED-MEM", "allowed_mem", "retrie", "retries2", "worker",
            "w", "backup", "split", "", " retries", "retries ", "-retries")
        for form in both(name, "2")]
    yield "short forms, and words that begin with one dash", [
        ["run", *more] for more in (["-r", "2"], ["-r2"], ["-r=2"], ["-2"], ["-retries", "2"], ["-retries=2"], ["-", "2"], ["-"], ["-a"], ["-ab"], ["-é"],
            ["-="], ["--retries", "2", "-x"], ["-x", "--retries", "2"])]


def positionals():
    yield "positionals where there are none", [
        [command, *more] for command in ACCEPTED for more in (["y"], ["--", "y"], ["--"], ["--", "--"], ["y", "--"], ["--", "--retries", "2"], ["", ""])]
    yield "names to print", [
        ["print", name] for name in ("y", "a.b-c_d", "0", "_y", ".y", "-y", "--y", "-", "", "y z", "y/z", "ä", "y" * 32, "y" * 33, "run", "y\n", "y=", "=")]
    yield "names to print behind the end of the options", [
        ["print", "--", name] for name in ("y", "-y", "--y", "--", "-", "", "--retries", "--retries=2", "_y")]
    yield "a name before and behind options and their end", [
        ["print", *words] for words in (["y", "--retries", "3"], ["--retries", "3", "y"], ["--retries=3", "y"], ["y", "--retries=3"], ["--retries", "3", "--", "y"],
            ["--retries=3", "--", "y"], ["y", "--"], ["y", "--", "z"], ["--", "y", "z"], ["y", "z"], ["y", "--retries", "9"], ["_y", "--retries", "9"], ["--retries=9", "_y"],
            ["_y", "--retries", "8"], ["-", "--retries", "8"], ["--", "y", "--retries", "3"], ["y", "--retries", "3", "z"], ["--", "--", "y"], ["--retries", "3", "--", "--"],
            ["y", "--allowed-mem", "2"], ["y", "--retries", "2", "--retries=2"], ["--retries", "2", "--retries", "y"], [])]


def demonstrations():
    much = "--reserved-mem=1099511627776"
    yield "sizes of a demonstration", [
        ["demo", size, much] for size in ("1", "2", "4", "64", "65", "2047", "2048", "+4", "004", "0", "2049", "-1", "", " 4", "4.0", "0x4", "18446744073709551616", "-", "x")]
    yield "a size before and behind options and their end", [
        ["demo", *words] for words in ([much, "4"], ["4", much], [much, "--", "4"], ["4", much, "--"], [much], ["4", "4", much], ["--", "4", much], ["4", much, "--", "4"], ["4", much, much])]
    yield "the options of a demonstration", [
        ["demo", "4", *([] if name == "reserved-mem" else [much]), *form]
        for name, (least, most, _, takers, *_) in OPTIONS.items() if "demo" in takers
        for value in dict.fromkeys((*([] if name == "reserved-mem" else [least]), *([] if name == "allowed-mem" else [most]), most + 1))
        for form in both(name, str(value))]


def main(over_folder):
    cases = [*commands(), *ends(), *numbers(), *forms(), *positionals(), *demonstrations()]
    members = "steps" if over_folder else "rows"
    lines = []
    for name, rows in cases:
        told = [json.dumps({"words": words, "line": answer(words)}, ensure_ascii=False) for words in rows if (words[:1] in (["resume"], ["part"])) == over_folder]
        if told and over_folder:
            # The folder of a case is there once something is stored.
            told.insert(0, json.dumps({"words": ["load"], "input": {"name": "a", "data_type": "int8", "shape": [1], "chunk_shape": [1], "elements": [1]}, "output": "ok elements=1 chunks=1\n"}))
        if told:
            lines.append('{"name": %s,\n "%s": [\n  %s]}' % (json.dumps(name), members, ",\n  ".join(told)))
    front = '"kind": "folder",' if over_folder else '"kind": "calls",\n"shared": {\n  "holds": []\n},'
    print('{\n%s\n"cases": [\n%s]\n}' % (front, ",\n".join(lines)))


if __name__ == "__main__":
    usage_if_asked(__doc__)
    main(sys.argv[1:] == ["resume"])
