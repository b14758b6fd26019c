#!/usr/bin/env python3
"""Damages words, texts, metadata, chunks, records and folders at random, calls every command over them, and looks at what comes.

  damage.py [--program FILE] [--dir FOLDER] [--cases N] [--seed N] [--first N] [--only COMMAND] [--longest SECONDS]

A case has a folder of random arrays and an expression over them, as compare/compare.py has them; mostly with a result that an earlier run
stored, whole or in part. Up to three things are damaged: the text, a file (cut, longer, other bytes, gone, or a folder, a pipe, a link or
a huge sparse file in its place), metadata of either version, the record, a key in the way. Files that a killed write left and names that
differ in case only are put beside. Then one to three commands are called, their words damaged too, now and then with a standard input that
can't be read or a standard output that is full. Which commands and options the program has is asked of it first.

Of each call these things are looked at:

- it ends by itself, in time, with a status that its command may answer;
- its line has one of the forms that docs/ANSWERS.md has for this status ("Each answer"), and nothing else is printed;
- the files that the command may not touch are the same, byte by byte, also beside the folder: all of them after a refusal and under
  `plan`, `print` and `check`, and otherwise all but those of the array and the plan that the text names;
- `run` changes no file that was there, `resume` no record and no metadata, and `drop` makes none;
- neither `resume` nor `drop` goes on where the record is another than the run wrote, and than a run by the same words writes.

There is no other oracle. Prints how often each answer came. It ends with 1 at the first case that is wrong, whose folder is kept. A case
comes again by its seed and its number: `--first` goes on there.
"""
import argparse
import collections
import json
import os
import random
import re
import shutil
import stat
import subprocess
import sys
import tempfile

sys.dont_write_bytecode = True
import compare
import draws
import rules
from draws import MIXES

ANSWERS = os.path.join(compare.HERE, "..", "docs", "ANSWERS.md")
# The statuses of each command beside 2 and 70.
STATUSES = {
    "plan": {0, 3, 4, 5, 6, 7, 8, 11, 12, 16}, "run": {0, 3, 4, 5, 6, 7, 8, 9, 10, 11, 12, 13, 16},
    "resume": {0, 3, 4, 5, 6, 7, 8, 10, 11, 12, 13, 14, 15, 16}, "drop": {0, 3, 4, 5, 6, 7, 8, 11, 12, 14, 15, 16},
    "load": {0, 9, 11, 12, 16, 18}, "print": {0, 7, 8, 12, 13, 16}, "check": {0, 3, 4, 6, 7, 8, 11, 12, 13, 16, 17},
    "demo": {0, 5, 6, 9, 10, 12, 16}}
OF_TEXT = {"plan", "run", "resume", "drop", "check", "load"}
# After these a command may have stored or removed something.
STARTED = {0, 10, 12, 13, 16, 70}
REPORT = r"ok ops=\d+ tasks=\d+ starts=\d+ failed=\d+ peak=\d+\n"
PRINTED = {
    "plan": r"(op \d+ [a-z]+ node=\d+ tasks=\d+ cells=\d+ projected=\d+\n)*plan ops=\d+ tasks=\d+ cells=\d+ peak=\d+\n",
    "run": REPORT, "resume": REPORT, "drop": r"ok keys=\d+\n", "load": r"ok elements=\d+ chunks=\d+\n", "check": r"equal \d+\n",
    "print": r"\w+ shape \[[\d,]*\] chunk \[[\d,]*\]\n([-\da-z]+( [-\da-z]+)*\n)*", "demo": r"demo \d+ result=\d+\n" + REPORT}
NAME = r"[A-Za-z0-9][A-Za-z0-9_.\-]{0,31}"
VALUES = {"name": NAME, "stored": r"-?\d+", "plain": r"-?\d+",
          "key": rf"(_cubed/{NAME}/(plan\.json|\d+/c(/\d+)*)|{NAME}/(zarr\.json|\.zarray|c([./]\d+)*|\d+([./]\d+)*))"}
NUMBERS = ["", "0", "1", "2", "4", "8", "9", "64", "65", "-1", "+1", "01", "1.0", "1e3", "0x10", " 1", "1 ", "1_0", "\u0661", "true",
           str(2**40), str(2**40 + 1), str(2**64 - 1), str(2**64), "9" * 30]
ODD_WORDS = ["--", "-", "---", "-r", "-h", "--help", "--version", "--retries", "--retry", "--allowed-memory", "--allowed-mem", "--workers=",
             "--workers=2", "--=", "=", "a", "y", "", " ", "_cubed", "../a", "a/b", "x" * 33, "w" * 20000, b"\xff\xfe", b"--\xc3", "\u00e4",
             "run", "help", "demo", "Run", "--no-such=1", "\n", "*"]
ODD_BYTES = [b"", b"\0", b"\xff", b"\xed\xa0\x80", b"\xef\xbb\xbf", b"{", b"]", b'"', b",", b":", b"\\ud800", b"\\u0000", b"-0", b"1e1", b"1.0",
             b"null", b"true", b"9" * 20, b"18446744073709551615", b"18446744073709551616", b"-9223372036854775809", b'{"a":' * 130]


class Wrong(Exception):
    """The program did what it may not do."""


def forms_of_answers():
    """Returns the forms of the lines in the table of answers, by the status."""
    with open(ANSWERS, encoding="utf-8") as text:
        table = text.read().partition("\n## Each answer\n")[2].partition("\n## ")[0]
    found = collections.defaultdict(list)
    for words in re.findall(r"^\| `(error \d+[^`]*)`", table, re.M):
        def form(word):
            name, _, value = word.partition("=")
            return f"{name}=({VALUES.get(name, chr(92) + 'd+')})" if re.fullmatch(r"[A-Z]", value) else re.escape(word)

        found[int(words.split()[1])].append(" ".join(map(form, words.split())) + "\n")
    return found


# Files

def entries_of(top):
    """Returns what lies below a folder, but for folders: of each its kind, and its bytes or what stands for them."""
    found = {}
    for at, folders, files in os.walk(top):
        for name in files + [name for name in folders if os.path.islink(os.path.join(at, name))]:
            path = os.path.join(at, name)
            told = os.lstat(path)
            if stat.S_ISLNK(told.st_mode):
                content = os.readlink(path)
                if not os.path.exists(path):
                    continue  # A link that leads nowhere stands for no file.
            elif stat.S_ISREG(told.st_mode) and told.st_size <= 1 << 24:
                with open(path, "rb") as file:
                    content = file.read()
            else:
                content = told.st_size
            found[os.path.relpath(path, top)] = (stat.S_IFMT(told.st_mode), content)
    return found


def clear(path):
    """Removes what lies at a path, whatever it is."""
    if os.path.isdir(path) and not os.path.islink(path):
        shutil.rmtree(path)
    elif os.path.lexists(path):
        os.remove(path)


def odd_bytes(pick, data):
    """Returns bytes with a fault somewhere."""
    at, to = sorted(pick.randint(0, len(data)) for _ in range(2))
    return pick.choice([data[:at], data[:at] + pick.choice(ODD_BYTES) + data[at:], data[:at] + data[to:], data[:to] + data[at:],
                        data[:at] + bytes([pick.randrange(256)]) + data[at + 1:], data[:at] + data[at:to] * 3 + data[to:], data + b" ", b"",
                        data + pick.choice(ODD_BYTES)])


class Case:
    """A folder in a room of its own, a text, and what was done to both."""

    def __init__(self, pick, room, given):
        self.pick, self.room, self.given = pick, room, given
        self.folder = os.path.join(room, "arrays")
        os.mkdir(self.folder)
        compare.put(room, "beside/file", b"of another")
        own = compare.Case(pick, self.folder, MIXES[pick.choice(["run", "views", "reductions", "copies", "any"])])
        self.inputs = own.inputs
        self.options = {"allowed-mem": own.allowed, "reserved-mem": own.reserved, "split-every": own.split_every}
        if "fusion" in given.options["run"]:
            self.options["fusion"] = pick.choice([1, 2])
        self.text, self.record = own.text.encode(), None
        if pick.random() < 0.7:
            self.earlier_run()

    def earlier_run(self):
        """Runs the expression before anything is damaged, and mostly takes some of its files away again."""
        words = [self.given.program, self.folder, "run", *[f"--{name}={number}" for name, number in self.options.items()]]
        subprocess.run(words, input=self.text, capture_output=True, check=False, timeout=self.given.longest)
        self.record = self.held("_cubed/y/plan.json")
        made = [key for key in entries_of(self.folder) if key.startswith(("y/", "_cubed/")) and not key.endswith("plan.json")]
        if made and self.pick.random() < 0.7:
            for key in self.pick.sample(made, self.pick.randint(0, len(made))):
                os.remove(os.path.join(self.folder, key))

    def held(self, key):
        path = os.path.join(self.folder, key)
        if not os.path.isfile(path) or os.path.getsize(path) > 1 << 24:
            return None
        with open(path, "rb") as file:
            return file.read()

    def put(self, key, data):
        """Stores a file in the place of whatever lies there: to open a pipe would wait."""
        if os.path.lexists(os.path.join(self.folder, key)) and not os.path.isfile(os.path.join(self.folder, key)):
            clear(os.path.join(self.folder, key))
        compare.put(self.folder, key, data)

    # Damage

    def damage(self):
        kind = self.pick.choice(["text", "text", "expression", "file", "file", "metadata", "metadata", "version_2", "record", "record", "way", "beside"])
        try:
            getattr(self, f"damage_{kind}")()
        except (OSError, ValueError, IndexError, TypeError, KeyError, AttributeError):
            pass  # What is damaged already may have no such part.

    def damage_text(self):
        self.text = odd_bytes(self.pick, self.text)
        if self.pick.random() < 0.05:
            self.text += b" " * pick_size(self.pick)

    def damage_expression(self):
        spoil = self.pick.choice([draws.damaged_text, draws.damaged_argument])
        self.text = spoil(self.pick, self.text.decode()).encode()

    def damage_file(self, keys=None):
        """Spoils a file, or puts something else in its place."""
        key = self.pick.choice(sorted(keys or entries_of(self.folder)))
        path = os.path.join(self.folder, key)
        kind = self.pick.choice(["bytes", "bytes", "bytes", "size", "size", "gone", "folder", "pipe", "link", "sparse"])
        data = self.held(key) or b""
        clear(path)
        if kind == "bytes":
            self.put(key, odd_bytes(self.pick, data))
        elif kind == "size":
            self.put(key, self.pick.choice([data[:-1], data + b"\0", data * 2, data[:len(data) // 2]]))
        elif kind == "folder":
            self.put(f"{key}/inside", data)
        elif kind == "pipe":
            os.mkfifo(path)
        elif kind == "link":
            # What a run stores goes through links to folders, so none stands where a result is stored.
            far = [f"{self.room}/beside"] if key.startswith(("a/", "b/", "c/")) else []
            os.symlink(self.pick.choice([f"{self.room}/beside/file", "nowhere", os.path.basename(path), *far]), path)
        elif kind == "sparse":
            self.put(key, b"")
            os.truncate(path, 1 << 33)

    def damage_metadata(self):
        """Spoils metadata; but not so that an array is said to be a large one, which takes long to print."""
        entry = self.pick.choice(self.inputs)
        key = f"{self.pick.choice([entry.name, entry.name, 'y'])}/zarr.json"
        data = self.pick.choice([lambda: odd_bytes(self.pick, self.held(key)), lambda: draws.damaged_metadata(self.pick, entry.members).encode()])()
        if self.pick.random() < 0.03:
            data += b" " * pick_size(self.pick)
        told = rules.meta_or_code(data)
        if type(told) is int or rules.size_of(told.shape) <= 10**6:
            self.put(key, data)

    def damage_version_2(self):
        """Puts metadata of version 2 beside that of version 3 or in its place, now and then spoilt."""
        entry = self.pick.choice(self.inputs)
        array = entry.array
        kind = {"bool": "b", "int": "i", "uint": "u"}[array.dtype.rstrip("0123456789")] + str(rules.SIZES[array.dtype])
        members = {"zarr_format": 2, "shape": array.shape, "chunks": array.chunk, "fill_value": self.pick.choice([array.fill, None]),
                   "dtype": ("|" if rules.SIZES[array.dtype] == 1 else ">" if array.endian == "big" else "<") + kind,
                   "compressor": self.pick.choice([None, None, {"id": "blosc"}]), "filters": None, "order": self.pick.choice("CCCF")}
        if self.pick.random() < 0.5:
            members["dimension_separator"] = self.pick.choice(["/", "/", ".", "-", None])
        if self.pick.random() < 0.3:
            spoil_version_2(self.pick, members)
        data = json.dumps(members).encode()
        told = rules.zarray_or_code(data) if hasattr(rules, "zarray_or_code") else None
        if told is not None and type(told) is not int and rules.size_of(told.shape) > 10**6:
            return  # A large array takes long to print.
        self.put(f"{self.pick.choice([entry.name, entry.name, 'y'])}/.zarray", odd_bytes(self.pick, data) if self.pick.random() < 0.3 else data)
        if self.pick.random() < 0.6:
            os.remove(os.path.join(self.folder, entry.name, "zarr.json"))

    def damage_record(self):
        data = self.held("_cubed/y/plan.json")
        if self.pick.random() < 0.4 and data:
            record = json.loads(data)
            member = self.pick.choice(sorted(record))
            record[member] = self.pick.choice([None, 0, 1, {}, record["allowed"] + 1, record["expr"]])
            self.put("_cubed/y/plan.json", rules.compact(record).encode())
        elif data:
            self.damage_file(["_cubed/y/plan.json"])
        else:
            self.put("_cubed/y/plan.json", self.pick.choice([b"", b"{}", b"[" * 200]))

    def damage_way(self):
        """Puts a file where the plan wants a folder or a file of its own."""
        key = self.pick.choice(["y", "y/c", "_cubed", "_cubed/y", "_cubed/y/0", "y/zarr.json", "y/c/0", "y/c/0/0", "_cubed/y/0/c/0", "a/c", "demo_a/zarr.json",
                                "_cubed/demo_y/plan.json", "demo_y/c/0", "demo_y", "demo_b/zarr.json", "demo_y/zarr.json", "demo_a/.zarray", "demo_b/.zarray",
                                "demo_y/.zarray", "y/.zarray", "_cubed/demo_y/0", "demo_a/c/0/0", "demo_b/c"])
        if not os.path.lexists(os.path.join(self.folder, key)) or self.pick.random() < 0.3:
            clear(os.path.join(self.folder, key))
            self.put(key, b"in the way")

    def damage_beside(self):
        """Puts what no command may touch beside the arrays."""
        key = self.pick.choice(["y/c/0.new17", "_cubed/y/plan.json.new3", "y/note.txt", "A/zarr.json", "Y/c/0", "_cubed/Y/plan.json", "yy/zarr.json", "y/d/0",
                                "_cubed/note.txt", "a/.zattrs", ".zgroup", "zarr.json", "_cubed/y/0/zarr.json", "_cubed/y/note"])
        self.put(key, self.pick.choice([b"", b"{}", b"left"]))

    # Calls

    def words(self, command):
        """Returns the words of a command, now and then odd ones."""
        takes = self.given.options[command]
        options = {name: number for name, number in self.options.items() if name in takes}
        if self.pick.random() < 0.2 and options:
            options[self.pick.choice(sorted(options))] = self.pick.choice([0, 2, 64, 1000, 200000000])
        for name, numbers in (("workers", [1, 2, 4, 64]), ("backups", [0, 1]), ("retries", [0, 1, 8])):
            if name in takes and self.pick.random() < 0.4:
                options[name] = self.pick.choice(numbers)
        words = [word for name, number in options.items() for word in ([f"--{name}", str(number)] if self.pick.random() < 0.5 else [f"--{name}={number}"])]
        positional = {"print": [self.pick.choice(["a", "y", "y", "loaded", "z", "A", "demo_y"])], "demo": [str(self.pick.choice([1, 2, 4, 65, 100, 0, 2049]))]}
        words = [command, *words, *positional.get(command, [])]
        while self.pick.random() < 0.12:
            at = self.pick.randrange(len(words))
            words = self.pick.choice([words[:at] + words[at + 1:], words[:at] + [self.pick.choice(ODD_WORDS)] + words[at:], words[:at + 1] + words[at:],
                                      words[:at] + [self.pick.choice(ODD_WORDS + NUMBERS)] + words[at + 1:], words[:at] + [self.pick.choice(NUMBERS)] + words[at + 1:]]) \
                or [command]
        return words

    def loaded_text(self):
        """Returns a text for `load`, mostly a right one."""
        shape = draws.random_shape(self.pick)
        dtype = self.pick.choice(draws.TYPES)
        elements = draws.random_elements(self.pick, dtype, shape).reshape(-1).tolist()
        told = {"name": self.pick.choice(["loaded", "loaded", "a", "y", "../x", ""]), "data_type": dtype, "shape": shape,
                "chunk_shape": draws.sides(self.pick, len(shape)), "elements": elements}
        if self.pick.random() < 0.2:
            told[self.pick.choice(sorted(told))] = self.pick.choice([None, [], [1, 2], -1, 2**64, 1.5, True, "a", "int32", {}, [0], [1] * 7])
        text = json.dumps(told).encode()
        return odd_bytes(self.pick, text) if self.pick.random() < 0.3 else text

    def call(self, command, counts):
        """Calls a command, and looks at what comes."""
        words = self.words(command)
        text = self.loaded_text() if command == "load" else self.text
        folder = self.pick.choice([self.folder] * 30 + [f"{self.folder}/", f"{self.folder}/.", f"{self.room}/missing", f"{self.room}/beside/file", "x" * 5000])
        stream = self.pick.choice(["", "", "", "", "", "", "", "", "", "", "", "unread", "full"])
        before = entries_of(self.room)
        told = f"{' '.join(map(repr, [folder, *words]))} with {stream or 'both streams'} over {text!r}"
        try:
            status, out, err = self.ended([self.given.program, folder, *words], text, stream)
        except subprocess.TimeoutExpired:
            raise Wrong(f"{told}: it didn't end in {self.given.longest} seconds") from None
        command = words[0] if words and words[0] in self.given.options else None
        counts[f"{command or 'no command'} {status}"] += 1
        wrong = self.wrong_end(command, status, out, err) or self.wrong_files(words, status, text, folder, before, entries_of(self.room))
        if wrong:
            raise Wrong(f"{told}: {wrong}")
        if "arrays/_cubed/y/plan.json" not in before:
            self.record = self.held("_cubed/y/plan.json") or self.record

    def ended(self, words, text, stream):
        """Returns the status and both outputs of a call."""
        with tempfile.TemporaryFile() as source, open("/dev/full", "wb") as full:
            source.write(text)
            source.seek(0)
            unread = os.open(self.room, os.O_RDONLY) if stream == "unread" else None
            try:
                ended = subprocess.run(words, stdin=source if unread is None else unread, stdout=full if stream == "full" else subprocess.PIPE,
                                       stderr=subprocess.PIPE, check=False, timeout=self.given.longest, cwd=self.room)
            finally:
                if unread is not None:
                    os.close(unread)
        return ended.returncode, (ended.stdout or b"").decode(), ended.stderr.decode()

    def wrong_end(self, command, status, out, err):
        """Why a status or what is printed isn't one of the command's, or nothing."""
        if status not in (STATUSES[command] | {2} if command else {2}):
            return f"the status is {status}, printed are {out!r} and {err!r}"
        if status == 0:
            is_right = not err and re.fullmatch(PRINTED[command], out)
        else:
            is_right = any(re.fullmatch(form, err) for form in self.given.forms[status])
            is_right = is_right and (not out or command == "print" and re.match(r"\w+ shape \[[\d,]*\] chunk \[[\d,]*\]\n[-\da-z \n]*\Z", out))
        return None if is_right else f"the status is {status}, and printed are {out!r} and {err!r}"

    def wrong_files(self, words, status, text, folder, before, after):
        """Why a file is another that may not be, or nothing."""
        command = words[0] if words and words[0] in self.given.options else None
        top = os.path.relpath(os.path.normpath(os.path.join(self.room, folder)), self.room)
        name = stored_name(command, text) if status in STARTED else None
        for key in sorted(set(before) | set(after)):
            if before.get(key) == after.get(key):
                continue
            own = os.path.relpath(key, top)
            if not name or not may_change(command, name, own, before.get(key), after.get(key)):
                return f"the status is {status}, and {key} was {short(before.get(key))} and is {short(after.get(key))}"
        if command in ("resume", "drop") and status in (0, 10, 12, 13) and self.record:
            found = before.get(f"{top}/_cubed/y/plan.json", ("", b""))[1]
            if found not in (self.record, self.record_of(words, text)):
                return f"the status is {status}, and the record was another than the run wrote"
        return None

    def record_of(self, words, text):
        """The record that a run by these words writes over the same metadata, or nothing. Damaged words may ask for what a damaged
        record says."""
        with tempfile.TemporaryDirectory(dir=self.given.dir, prefix="cubed-damage-") as other:
            for name in (one.name for one in self.inputs):
                for part in ("zarr.json", ".zarray"):
                    if os.path.isfile(os.path.join(self.folder, name, part)):
                        os.makedirs(os.path.join(other, name), exist_ok=True)
                        shutil.copy(os.path.join(self.folder, name, part), os.path.join(other, name, part))
            subprocess.run([self.given.program, other, "run", *words[1:]], input=text, capture_output=True, check=False, timeout=self.given.longest)
            path = os.path.join(other, "_cubed", "y", "plan.json")
            if not os.path.isfile(path):
                return None
            with open(path, "rb") as file:
                return file.read()


def spoil_version_2(pick, members):
    """Spoils a member of metadata of version 2, takes one away, or adds one."""
    spoilt = {"zarr_format": [3, "2", None, 2.0], "shape": [[], [-1], [1] * 7, "3", [2**41], [1.5]], "chunks": [[], [0], [1] * 7, None, [2**29], [True]],
              "dtype": ["<f4", "i4", "=i4", "|i4", ">b1", "|b1", "<i16", [["a", "<i4"]], 4, "<U4", "|u1"], "fill_value": ["0", 1.5, 2**64, -(2**63) - 1, True, [], "NaN"],
              "compressor": [{"id": "zstd"}, {}, [], False], "filters": [[], [{"id": "delta"}], {}], "order": ["F", "c", None, 0], "dimension_separator": ["", "//", 1, ["/"]]}
    member = pick.choice(sorted(spoilt))
    kind = pick.choice(["other", "other", "other", "lost", "more"])
    if kind == "lost":
        members.pop(member, None)
    elif kind == "more":
        members["more"] = {"must_understand": True}
    else:
        members[member] = pick.choice(spoilt[member])


def pick_size(pick):
    return pick.choice([1 << 16, rules.MOST_TEXT - 1, rules.MOST_TEXT, rules.MOST_TEXT + 1])


def short(entry):
    return f"{str(entry)[:80]}.." if entry else "absent"


def stored_name(command, text):
    """Returns the name of the array that a command stores or removes, or nothing."""
    if command == "demo":
        return "demo_y"
    try:
        name = rules.json_of(text)["name" if command == "load" else "store_as"] if command in ("run", "resume", "drop", "load") else None
    except (ValueError, RecursionError, KeyError, TypeError):
        return None
    return name if rules.is_name(name) else None


def may_change(command, name, key, before, after):
    """Whether a command that stores or removes an array may change this key so."""
    chunk, metadata = re.fullmatch(rf"{re.escape(name)}/c(/\d+)*", key), key == f"{name}/zarr.json"
    between = re.fullmatch(rf"_cubed/{re.escape(name)}/\d+/c(/\d+)*", key)
    record = key == f"_cubed/{name}/plan.json"
    if command == "load":
        return bool(chunk) or metadata and before is None
    if command == "drop":
        return after is None and bool(chunk or metadata or between or record)
    if command == "resume":
        return after is not None and bool(chunk or between or metadata and before is None)
    if command == "demo" and re.fullmatch(r"demo_[ab]/(zarr\.json|c/\d+/\d+)", key):
        return before is None or not key.endswith("zarr.json")
    return before is None and bool(chunk or metadata or between or record)


# What the program has

def options_of(program):
    """Returns the commands that the program has, each with its options."""
    found = {}
    with tempfile.TemporaryDirectory(prefix="cubed-damage-") as folder:
        def answer(*words):
            ended = subprocess.run([program, folder, *words], input=b"", capture_output=True, check=False)
            return ended.stderr.decode().strip()

        for command in STATUSES:
            if answer(command, "--no-such") == "error 2 code=1":
                continue
            positional = {"print": ["z"], "demo": ["0"]}.get(command, [])
            trials = {"allowed-mem": "1", "reserved-mem": "1", "split-every": "3", "fusion": "2", "workers": "2", "retries": "1", "backups": "1"}
            found[command] = [name for name, number in trials.items() if is_option(answer, command, name, number, positional)]
    return found


def is_option(answer, command, name, number, positional):
    """Whether a command takes an option with this number."""
    if command == "demo":  # It would store something. Its options are those of `run`.
        return is_option(answer, "run", name, number, [])
    return answer(command, f"--{name}", number, *positional) != "error 2 code=2"


def main():
    words = argparse.ArgumentParser(description=__doc__, formatter_class=argparse.RawDescriptionHelpFormatter)
    words.add_argument("--program", type=os.path.abspath, default=compare.PROGRAM)
    words.add_argument("--dir", default="/dev/shm" if os.path.isdir("/dev/shm") else tempfile.gettempdir())
    words.add_argument("--cases", type=int, default=10000)
    words.add_argument("--seed", type=int, default=1)
    words.add_argument("--first", type=int, default=0)
    words.add_argument("--only", choices=list(STATUSES))
    words.add_argument("--longest", type=float, default=60)
    given = words.parse_args()
    given.forms, given.options = forms_of_answers(), options_of(given.program)
    print("the program has " + ", ".join(given.options), flush=True)
    counts = collections.Counter()
    for number in range(given.first, given.cases):
        pick = random.Random(f"{given.seed} {number}")
        room = tempfile.mkdtemp(dir=given.dir, prefix="cubed-damage-")
        try:
            case = Case(pick, room, given)
            for _ in range(pick.choice([0, 1, 1, 2, 3])):
                case.damage()
            for _ in range(pick.choice([1, 1, 2, 3])):
                case.call(given.only or pick.choice(list(given.options)), counts)
        except Wrong as wrong:
            print(f"case {number} of seed {given.seed} in {room}: {wrong}")
            return 1
        shutil.rmtree(room)
        if number % 1000 == 999:
            print(f"{number + 1} cases", flush=True)
    print(f"{given.cases - given.first} cases of seed {given.seed}: " + ", ".join(f"{count} of {answer}" for answer, count in sorted(counts.items())))
    return 0


if __name__ == "__main__":
    sys.exit(main())
