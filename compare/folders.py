#!/usr/bin/env python3
"""Tries each fault of docs/FOLDERS.md on a real folder: the answer, what changed in the folder, and that nothing beside it was touched.

  folders.py [--program FILE] [--only WORD] [--show]

Each row has a new folder with the arrays `a` and `b` of the guide (`m` for the copies). Something is done to it, a command is called, and
the files are compared before and after. The folder beside is watched meanwhile (inotify): no file there may be opened, made or changed,
unless a link leads there. Rows in which a run is at work stop it (signal 19), change something, and let it go on. What wants the rights
of root (another user, a small or read-only file system) is left out without them. `--show` prints each row. It ends with 1 if a row is
wrong.
"""
import argparse
import contextlib
import ctypes
import json
import os
import shutil
import signal
import struct
import subprocess
import sys
import tempfile
import time

sys.dont_write_bytecode = True
TOP = os.path.join(os.path.dirname(os.path.abspath(__file__)), "..")
PROGRAM = os.path.join(TOP, "crates", "cu_bin", "out", "cu_bin")
NOBODY = 65534
SPARSE, MANY = 1 << 33, 4000
ADDITION = {"nodes": [{"id": "a", "op": "input", "name": "a"}, {"id": "b", "op": "input", "name": "b"},
                      {"id": "s", "op": "add", "args": ["a", "b"]}], "out": "s", "store_as": "y"}
TWO = {**ADDITION, "nodes": ADDITION["nodes"] + [{"id": "d", "op": "multiply", "args": ["s", 2]}], "out": "d"}
RECORD = "_cubed/y/plan.json"
TEXTS, FIRST = {RECORD, "y/zarr.json"}, {RECORD, "y/zarr.json", "y/c/0"}
ALL = FIRST | {"y/c/1"}
OK = "ok ops=1 tasks=2 starts=2 failed=0 peak=1600"
LOADED = {"c/zarr.json", "c/c/0", "c/c/1"}
CLOSED, FOLDER_IN, FULL = "closed", "folder", "full"


class Room:
    """A folder of arrays in a room of its own, beside another folder that isn't to be touched."""

    def __init__(self, room, program):
        self.room, self.program = room, program
        self.dir, self.beside = os.path.join(room, "arrays"), os.path.join(room, "beside")
        for name in "ab":
            shutil.copytree(os.path.join(TOP, "examples", "addition", name), os.path.join(self.dir, name))
        self.put("../beside/chunk", bytes([5, 0, 0, 0, 6, 0, 0, 0] + [0] * 8))
        self.put("../beside/far/zarr.json", b"{}")

    def path(self, key):
        return os.path.join(self.dir, key)

    def put(self, key, data=b"in the way"):
        os.makedirs(os.path.dirname(self.path(key)), exist_ok=True)
        with open(self.path(key), "wb") as file:
            file.write(data)

    def remove(self, key):
        path = self.path(key)
        shutil.rmtree(path) if os.path.isdir(path) and not os.path.islink(path) else os.remove(path)

    def cut(self, key, size):
        os.truncate(self.path(key), size)

    def edit(self, key, old, new):
        with open(self.path(key), "rb") as file:
            data = file.read()
        if old not in data:
            raise SystemExit(f"{key} doesn't have {old}")
        self.put(key, data.replace(old, new))

    def in_place(self, key, make):
        """Puts something else in the place of what lies there."""
        if os.path.lexists(self.path(key)):
            self.remove(key)
        os.makedirs(os.path.dirname(self.path(key)), exist_ok=True)
        make(self.path(key))

    def folder(self, key):
        """A folder that isn't empty."""
        self.in_place(key, lambda path: os.makedirs(os.path.join(path, "inside")))

    def empty(self, key):
        self.in_place(key, os.mkdir)

    def pipe(self, key):
        self.in_place(key, os.mkfifo)

    def link(self, key, to):
        self.in_place(key, lambda path: os.symlink(to, path))

    def sparse(self, key):
        self.in_place(key, lambda path: open(path, "wb").close())
        self.cut(key, SPARSE)

    def load(self, file):
        with open(os.path.join(TOP, "examples", file), "rb") as text:
            subprocess.run([self.program, self.dir, "load"], stdin=text, check=True, capture_output=True)

    def state(self):
        """Returns what lies in the folder, but for folders."""
        found = {}
        for at, folders, files in os.walk(self.dir):
            for name in files + [name for name in folders if os.path.islink(os.path.join(at, name))]:
                path = os.path.join(at, name)
                told = os.lstat(path)
                content = os.readlink(path) if os.path.islink(path) else None
                if content is None and os.path.isfile(path) and told.st_size < SPARSE:
                    with open(path, "rb") as file:
                        content = file.read()
                found[os.path.relpath(path, self.dir)] = (told.st_mode, told.st_size, content)
        return found


# Watching

class Watch:
    """Tells which files of a folder and of those below it were opened, made, changed or removed."""

    WHAT = 0x20 | 0x2 | 0x4 | 0x40 | 0x80 | 0x100 | 0x200  # opened, written, attributes, moved from and to, made, removed

    def __init__(self, top):
        self.libc = ctypes.CDLL(None, use_errno=True)
        self.events = self.libc.inotify_init1(os.O_NONBLOCK)
        self.names = {}
        for at, _, _ in os.walk(top):
            self.names[self.libc.inotify_add_watch(self.events, os.fsencode(at), self.WHAT)] = at

    def seen(self):
        found = set()
        with contextlib.suppress(BlockingIOError):
            while True:
                data, at = os.read(self.events, 1 << 16), 0
                while at < len(data):
                    number, mask, _, length = struct.unpack_from("iIII", data, at)
                    name = data[at + 16:at + 16 + length].rstrip(b"\0").decode()
                    if name and not mask & 0x40000000:
                        found.add(os.path.join(self.names.get(number, "?"), name))
                    at += 16 + length
        os.close(self.events)
        return found


# Rows

class Row:
    """What is done, the command, how it must end, and which files are other ones afterwards."""

    def __init__(self, what, prepare, status=0, line=OK, changed=None, words=("run",), text=None, streams=(), user=None, beside=False, during=None):
        self.what, self.prepare, self.status, self.line, self.words, self.text = what, prepare, status, line, list(words), text or ADDITION
        self.changed = (ALL if status == 0 and changed is None else changed or set())
        self.streams, self.user, self.beside, self.during = streams, user, beside, during

    def call(self, room, folder=None):
        """Returns the status and what was printed."""
        words = [room.program, folder or room.dir, *self.words]
        with tempfile.TemporaryFile() as text, open("/dev/full", "wb") as full:
            text.write(json.dumps(self.text).encode() if type(self.text) is dict else self.text)
            text.seek(0)
            source = os.open(room.room, os.O_RDONLY) if FOLDER_IN in self.streams else text
            started = subprocess.Popen(words, stdin=source, stdout=full if FULL in self.streams else subprocess.PIPE, stderr=subprocess.PIPE,
                                       user=self.user, group=self.user, extra_groups=[] if self.user else None,
                                       preexec_fn=(lambda: os.close(0)) if CLOSED in self.streams else None)
            if self.during:
                self.during(room, started)
            try:
                out, err = started.communicate(timeout=60)
            except subprocess.TimeoutExpired:
                started.kill()
                started.communicate()
                return "no end in 60 seconds", ""
            if source is not text:
                os.close(source)
        return started.returncode, (err if started.returncode else out or b"").decode().rstrip("\n")

    def wrong(self, room):
        """Why the row is wrong, or nothing."""
        named = self.prepare(room)
        folder = named if type(named) is str else None
        before, watch = room.state(), Watch(room.beside)
        status, line = self.call(room, folder)
        after, touched = room.state(), watch.seen()
        changed = {key for key in set(before) | set(after) if before.get(key) != after.get(key)}
        if status != self.status or self.line is not None and line != self.line:
            return f"it ended with {status}: {line}"
        if changed != self.changed and not getattr(self, "any_change", False):
            return f"other files are {sorted(changed)}"
        return None if self.beside or not touched else f"beside it {sorted(touched)} were touched"


def runs(what, prepare, *args, **others):
    return Row(what, prepare, *args, **others)


def does(name, *args):
    return lambda room: getattr(room, name)(*args)


def several(*steps):
    def prepare(room):
        for step in steps:
            step(room)

    return prepare


def mode(key, bits):
    return lambda room: os.chmod(room.path(key), bits)


def instead(path):
    """The folder that is named in place of the one with the arrays."""
    return lambda room: os.path.join(room.room, path)


def error(number, **fields):
    return number, " ".join([f"error {number}"] + [f"{name}={value}" for name, value in fields.items()])


def of_run():
    short, task = error(13, key="a/c/1", got=15, want=16), error(10, op=0, task=1)
    yield runs("nothing", lambda room: None)
    yield runs("DIR is missing", instead("missing"), *error(8, name="a"))
    yield runs("DIR is a file", instead("beside/chunk"), *error(8, name="a"), beside=True)
    yield runs("`b` is missing", does("remove", "b"), *error(8, name="b"))
    yield runs("a file lies at `_cubed`", does("put", "_cubed"), *error(16, key=RECORD))
    yield runs("a file lies at `_cubed/y`", does("put", "_cubed/y"), *error(16, key=RECORD))
    yield runs("a file lies at `y`", does("put", "y"), *error(16, key="y/zarr.json"), {RECORD})
    yield runs("a file lies at `y/c`", does("put", "y/c"), *error(10, op=0, task=0), TEXTS)
    yield runs("a file lies at `a/c`", several(does("remove", "a/c"), does("put", "a/c")))
    yield runs("a folder lies at `a/zarr.json`", does("folder", "a/zarr.json"), *error(8, name="a"))
    yield runs("a folder lies at `a/c/1`", does("folder", "a/c/1"))
    yield runs("a file lies at `y/c/1`", does("put", "y/c/1"), *error(9, key="y/c/1"))
    yield runs("a folder lies at `y/c/1`", does("folder", "y/c/1"), *task, FIRST)
    for key in sorted(ALL):
        yield runs(f"an empty folder lies at `{key}`", does("empty", key))
    yield runs("`a/c/1` is one byte short", does("cut", "a/c/1", 15), *short, FIRST)
    yield runs("`b/c/0` is one byte too long", does("cut", "b/c/0", 17), *error(13, key="b/c/0", got=17, want=16), TEXTS)
    yield runs("`a/c/1` is missing", does("remove", "a/c/1"))
    yield runs("`store_as` is `a`", lambda room: None, *error(9, key="a/zarr.json"), text={**ADDITION, "store_as": "a"})
    for name in ("../x", "..", "a/b", "/etc", ".y", "-y", "\u00e4", "", "x" * 33):
        yield runs(f"`store_as` is {name!r}", lambda room: None, *error(3, code=2, node=0), text={**ADDITION, "store_as": name})
    yield runs("two functions, and a file lies at `_cubed/y/0`", does("put", "_cubed/y/0"), *error(10, op=0, task=0), TEXTS, text=TWO, words=("run", "--allowed-mem", "1600"))
    yield runs("the same, and a file lies at `_cubed/y/0/c/1`", does("put", "_cubed/y/0/c/1"), *error(9, key="_cubed/y/0/c/1"), text=TWO, words=("run", "--allowed-mem", "1600"))
    yield runs("the same, and `a/c/1` is one byte short", does("cut", "a/c/1", 15), *short, FIRST | {"_cubed/y/0/c/0"}, text=TWO, words=("run", "--allowed-mem", "1600"))
    yield runs("a named pipe lies at `a/zarr.json`", does("pipe", "a/zarr.json"), *error(16, key="a/zarr.json"))
    yield runs("a named pipe lies at `a/c/0`", does("pipe", "a/c/0"), *error(10, op=0, task=0), TEXTS)
    yield runs("standard output is full", lambda room: None, *error(12), ALL, streams=(FULL,))
    yield runs("standard input is a folder", lambda room: None, *error(11), streams=(FOLDER_IN,))
    yield runs("standard input is closed", lambda room: None, *error(11), streams=(CLOSED,))


def of_links():
    chunk = lambda room: os.path.join(room.beside, "chunk")
    yield runs("a link at `a/c/1` leads to a chunk elsewhere", lambda room: room.link("a/c/1", chunk(room)), beside=True)
    yield runs("a link at `a/c/1` leads nowhere", does("link", "a/c/1", "nowhere"))
    yield runs("a link at `a/c/1` leads to itself", does("link", "a/c/1", "1"), *error(10, op=0, task=1), FIRST)
    yield runs("a link at `y/c/0` leads to a file elsewhere", lambda room: room.link("y/c/0", chunk(room)), *error(9, key="y/c/0"))
    yield runs("a link at `y/c/0` leads nowhere", does("link", "y/c/0", "nowhere"))
    yield runs("a link at `y` leads to a folder elsewhere", lambda room: room.link("y", os.path.join(room.beside, "far")), *error(9, key="y/zarr.json"), beside=True)
    yield runs("a link at `y/c` leads to a folder elsewhere", several(does("put", "y/note"), lambda room: room.link("y/c", os.path.join(room.beside, "far"))),
               changed=TEXTS, beside=True)
    yield runs("8 GiB without blocks lie at `a/c/0`", does("sparse", "a/c/0"), *error(13, key="a/c/0", got=SPARSE, want=16), TEXTS)
    yield runs("8 GiB without blocks lie at `a/zarr.json`", does("sparse", "a/zarr.json"), *error(7, name="a", code=10))
    yield runs("`Y/zarr.json`, `Y/c/0` and `_cubed/Y/plan.json` are there", several(*[does("put", key) for key in ("Y/zarr.json", "Y/c/0", "_cubed/Y/plan.json")]))
    yield runs("files of killed writes lie at `y/c/0.new17` and `_cubed/y/plan.json.new3`", several(does("put", "y/c/0.new17"), does("put", "_cubed/y/plan.json.new3")))


def of_load():
    with open(os.path.join(TOP, "examples", "addition", "a.json"), "rb") as text:
        c = {**json.load(text), "name": "c"}

    def load(what, prepare, status=0, line="ok elements=6 chunks=2", changed=None, **others):
        return Row(what, prepare, status, line, LOADED if status == 0 and changed is None else changed, ("load",), c, **others)

    yield load("load", lambda room: None)
    yield load("load, and DIR is missing", instead("missing"), changed=set())
    yield load("load, and DIR is a file", instead("beside/chunk"), *error(16, key="c/c/0"), beside=True)
    yield load("load, and a file lies at `c`", does("put", "c"), *error(16, key="c/c/0"))
    yield load("load, and a file lies at `c/c`", does("put", "c/c"), *error(16, key="c/c/0"))
    yield load("load, and a folder lies at `c/c/1`", does("folder", "c/c/1"), *error(16, key="c/c/1"), {"c/c/0"})
    yield load("load, and an empty folder lies at `c/c/1`", does("empty", "c/c/1"))
    yield load("load, and a file lies at `_cubed/c/plan.json`", does("put", "_cubed/c/plan.json"), *error(9, key="_cubed/c/plan.json"))
    yield load("load, and a file lies at `c/c/0`", does("put", "c/c/0"))
    yield load("load, and a link at `c/c/0` leads to a file elsewhere", lambda room: room.link("c/c/0", os.path.join(room.beside, "chunk")))
    yield load("load, and standard output is full", lambda room: None, *error(12), LOADED, streams=(FULL,))
    yield load("load, and standard input is a folder", lambda room: None, *error(11), streams=(FOLDER_IN,))


def of_others():
    head = "int32 shape [6] chunk [4]"
    lines = "op 0 map node=2 tasks=2 cells=2 projected=1600\nplan ops=1 tasks=2 cells=2 peak=1600"
    yield Row("plan", lambda room: None, 0, lines, set(), ("plan",))
    yield Row("plan, and DIR is missing", instead("missing"), *error(8, name="a"), words=("plan",))
    yield Row("plan, and DIR is a file", instead("beside/chunk"), *error(8, name="a"), words=("plan",), beside=True)
    yield Row("plan, and 1599 bytes are allowed", lambda room: None, *error(5, node=2, need=1600, allowed=1599), words=("plan", "--allowed-mem", "1599"))
    yield Row("plan, and standard output is full", lambda room: None, *error(12), words=("plan",), streams=(FULL,))
    yield Row("print", lambda room: None, 0, f"{head}\n1 2 3 4 5 6", set(), ("print", "a"))
    yield Row("print, and `a/c/0` is missing", does("remove", "a/c/0"), 0, f"{head}\n0 0 0 0 5 6", set(), ("print", "a"))
    yield Row("print, and `a/c/1` is one byte short", does("cut", "a/c/1", 15), *error(13, key="a/c/1", got=15, want=16), words=("print", "a"))
    yield Row("print, and `a/c/1` is a folder", does("folder", "a/c/1"), 0, f"{head}\n1 2 3 4 0 0", set(), ("print", "a"))
    yield Row("print, and `a/c/1` is 8 GiB without blocks", does("sparse", "a/c/1"), *error(13, key="a/c/1", got=SPARSE, want=16), words=("print", "a"))
    yield Row("print, and `a/zarr.json` isn't JSON", does("put", "a/zarr.json", b"{"), *error(7, name="a", code=1), words=("print", "a"))
    for name, line in (("z", error(8, name="z")), ("_a", error(2, code=3)), ("-a", error(2, code=2))):
        yield Row(f"print {name}", lambda room: None, *line, words=("print", name))
    copied = {"_cubed/y/plan.json", "y/zarr.json", *[f"y/c/{i}/0" for i in range(4)], *[f"_cubed/y/0/c/{i}/{j}" for i in range(2) for j in range(2)]}
    with open(os.path.join(TOP, "examples", "rechunk", "rows.json"), "rb") as text:
        rows = {**json.load(text), "store_as": "y"}

    def copy(what, prepare, status=0, line="ok ops=2 tasks=4 starts=4 failed=0 peak=48", changed=None):
        return Row(f"copies: {what}", several(does("load", "rechunk/m.json"), prepare), status, line, copied if status == 0 else changed,
                   ("run", "--allowed-mem", "64"), rows)

    yield copy("nothing", lambda room: None)
    yield copy("a file lies at `_cubed/y/0`", does("put", "_cubed/y/0"), *error(10, op=0, task=0), TEXTS)
    yield copy("a file lies at `_cubed/y/0/c/1/1`", does("put", "_cubed/y/0/c/1/1"), *error(9, key="_cubed/y/0/c/1/1"))
    yield copy("an empty folder lies at `y/c/2/0`", does("empty", "y/c/2/0"))
    yield copy("`m/c/0/3` is one byte short", does("cut", "m/c/0/3", 7), *error(13, key="m/c/0/3", got=7, want=8), TEXTS)
    yield copy("`m/c/0/3` is missing", does("remove", "m/c/0/3"))


BETWEEN = "_cubed/y/0/c"
WHOLE = {*ALL, f"{BETWEEN}/0", f"{BETWEEN}/1"}


def ran(*steps):
    """A whole run of two functions, and then these steps."""
    def prepare(room):
        words = [room.program, room.dir, "run", "--allowed-mem", "1600"]
        subprocess.run(words, input=json.dumps(TWO).encode(), check=True, capture_output=True)
        for step in steps:
            step(room)

    return prepare


def after(what, prepare, status, line, changed=None, command="resume", allowed="1600", **others):
    words = (command, "--allowed-mem", allowed)
    return Row(f"{command}: {what}", prepare, status, line, changed or set(), words, TWO, **others)


def report(starts):
    return 0, f"ok ops=2 tasks=4 starts={starts} failed=0 peak=1600"


def without(*keys):
    """What a run left but for these keys."""
    return ran(*[does("remove", key) for key in keys])


def of_resume():
    """Rows of `resume` and `drop`, behind a whole run of two functions, of which some files were taken away."""
    between, whole = BETWEEN, WHOLE
    yield after("there is no record", lambda room: None, *error(15))
    yield after("nothing is missing", ran(), *report(0))
    yield after("`y/c/1` is missing", ran(does("remove", "y/c/1")), *report(1), {"y/c/1"})
    yield after("`y/zarr.json` and a chunk in between are missing", ran(does("remove", "y/zarr.json"), does("remove", f"{between}/1")), *report(1), {"y/zarr.json", f"{between}/1"})
    yield after("all but the record is missing", ran(does("remove", "y"), does("remove", "_cubed/y/0")), *report(4), whole - {RECORD})
    yield after("the record is one byte short", ran(lambda room: room.cut(RECORD, os.path.getsize(room.path(RECORD)) - 1)), 14, None)
    yield after("the record is empty", ran(does("put", RECORD, b"")), *error(14, place=0))
    yield after("the record is a folder", ran(does("folder", RECORD)), *error(15))
    yield after("another memory is allowed", ran(), *error(14, place=14), allowed="1601")
    yield after("`y/c/1` is missing, and the chunk in between one byte short", ran(does("remove", "y/c/1"), does("cut", f"{between}/1", 15)), *error(13, key=f"{between}/1", got=15, want=16))
    yield after("`y/c/1` is missing, and the chunk in between has other bytes", ran(does("remove", "y/c/1"), does("put", f"{between}/1", bytes(16))), *report(1), {"y/c/1"})
    yield after("`y/c/1` is missing, and `a/c/1` too", ran(does("remove", "y/c/1"), does("remove", "a/c/1")), *report(1), {"y/c/1"})
    yield after("a folder lies at `y/c/1`", ran(does("folder", "y/c/1")), *error(10, op=1, task=1))
    yield after("an empty folder lies at `y/c/1`", ran(does("empty", "y/c/1")), *report(1), {"y/c/1"})
    yield after("everything is there", ran(), 0, "ok keys=6", whole, "drop")
    yield after("everything, and a file of a killed write", ran(does("put", "y/c/1.new7")), 0, "ok keys=6", whole, "drop")
    yield after("the record alone is there", ran(does("remove", "y"), does("remove", "_cubed/y/0")), 0, "ok keys=6", {RECORD}, "drop")
    yield after("there is no record", lambda room: None, *error(15), command="drop")
    yield after("another memory is allowed", ran(), *error(14, place=14), command="drop", allowed="1601")
    yield after("a folder lies at `y/c/1`", ran(does("folder", "y/c/1")), 0, "ok keys=6", whole - {"y/c/1"}, "drop")


def of_resume_over_others():
    """Rows of `resume` behind such a run, over what a run doesn't leave: other kinds of files, links, names alike, files of killed writes."""
    last, made = "y/c/1", f"{BETWEEN}/1"
    in_beside = lambda room: os.path.join(room.beside, "chunk")
    yield after("DIR is missing", instead("missing"), *error(8, name="a"))
    yield after("DIR is a file", instead("beside/chunk"), *error(8, name="a"), beside=True)
    yield after("`b` is missing", without("b"), *error(8, name="b"))
    yield after("`a` has another fill value", ran(does("edit", "a/zarr.json", b'"fill_value":0', b'"fill_value":9')), 14, None)
    yield after("a named pipe lies at `y/c/1`", ran(does("pipe", last)), *error(16, key=last))
    yield after("a named pipe lies at the chunk in between", ran(does("remove", last), does("pipe", made)), *error(16, key=made))
    yield after("a named pipe lies at the record", ran(does("pipe", RECORD)), *error(16, key=RECORD))
    yield after("a link at `y/c/1` leads nowhere", ran(does("link", last, "nowhere")), *report(1), {last})
    yield after("a link at `y/c/1` leads to a file elsewhere", ran(lambda room: room.link(last, in_beside(room))), *report(0))
    yield after("a link at `y/c/1` leads to itself", ran(does("link", last, "1")), *error(16, key=last))
    yield after("a link at the record leads to a file elsewhere", ran(lambda room: room.link(RECORD, in_beside(room))), *error(14, place=0), beside=True)
    yield after("8 GiB without blocks lie at `y/c/1`", ran(does("sparse", last)), *report(0))
    yield after("`y/c/1` is missing, and 8 GiB without blocks lie in between", ran(does("remove", last), does("sparse", made)), *error(13, key=made, got=SPARSE, want=16))
    yield after("8 GiB without blocks lie at the record", ran(does("sparse", RECORD)), 14, None)
    yield after("`y/c/1` and the chunk in between are missing, and `a/c/1` is one byte short", ran(does("remove", last), does("remove", made), does("cut", "a/c/1", 15)), *error(13, key="a/c/1", got=15, want=16))
    yield after("`y/c/1` is missing, and the chunk in between is empty", ran(does("remove", last), does("put", made, b"")), *error(13, key=made, got=0, want=16))
    yield after("`y/c/1` is missing, and killed writes left files", ran(does("remove", last), does("put", "y/c/1.new17"), does("put", f"{RECORD}.new3"), does("put", "y/zarr.json.new0")), *report(1), {last})
    yield after("`Y/c/1`, `Y/zarr.json` and `_cubed/Y/plan.json` are there, and `y/c/1` is missing", ran(does("remove", last), *[does("put", key) for key in ("Y/c/1", "Y/zarr.json", "_cubed/Y/plan.json")]), *report(1), {last})
    yield after("a file lies at `y/c`", ran(does("remove", "y/c"), does("put", "y/c")), *error(10, op=1, task=0))
    yield after("a file lies at `_cubed/y/0`", ran(does("remove", "_cubed/y/0"), does("put", "_cubed/y/0")), *error(10, op=0, task=0))
    yield after("`y/zarr.json` has other bytes", ran(does("put", "y/zarr.json", b"{}")), *report(0))
    yield after("`y/c/1` is missing, and standard output is full", without(last), *error(12), {last}, streams=(FULL,))
    yield after("standard input is a folder", without(last), *error(11), streams=(FOLDER_IN,))
    yield after("standard input is closed", without(last), *error(11), streams=(CLOSED,))


def of_drop_over_others():
    """Rows of `drop` behind such a run."""
    last = "y/c/1"
    in_beside = lambda room: os.path.join(room.beside, "chunk")

    def drops(what, prepare, status=0, line="ok keys=6", changed=None, **others):
        return after(what, prepare, status, line, WHOLE if status == 0 and changed is None else changed, "drop", **others)

    yield drops("DIR is missing", instead("missing"), *error(8, name="a"))
    yield drops("`b` is missing", without("b"), *error(8, name="b"))
    yield drops("a named pipe lies at `y/c/1`", ran(does("pipe", last)))
    yield drops("a link at `y/c/1` leads to a file elsewhere", ran(lambda room: room.link(last, in_beside(room))))
    yield drops("a link at `y/c/1` leads nowhere", ran(does("link", last, "nowhere")))
    yield drops("a link at `y/c` leads to a folder elsewhere", ran(lambda room: room.link("y/c", os.path.join(room.beside, "far"))),
                changed=WHOLE - {"y/c/0", last}, beside=True)
    yield drops("8 GiB without blocks lie at `y/c/1`", ran(does("sparse", last)))
    yield drops("the record is one byte short", ran(lambda room: room.cut(RECORD, os.path.getsize(room.path(RECORD)) - 1)), 14, None)
    yield drops("the record is a named pipe", ran(does("pipe", RECORD)), *error(16, key=RECORD))
    yield drops("a file lies at `y/c`", ran(does("remove", "y/c"), does("put", "y/c")), changed=WHOLE - {"y/c/0", last})
    yield drops("`Y/c/1` and `_cubed/Y/plan.json` are there", ran(does("put", "Y/c/1"), does("put", "_cubed/Y/plan.json")))
    yield drops("files that aren't of the plan lie beside", ran(*[does("put", key) for key in ("y/c/2", "y/note", "_cubed/y/1/c/0", "_cubed/y/0/c/2", "_cubed/y/note")]))
    yield drops("standard output is full", ran(), *error(12), WHOLE, streams=(FULL,))
    yield drops("standard input is a folder", ran(), *error(11), streams=(FOLDER_IN,))
    yield drops("`y/zarr.json` is a folder", ran(does("folder", "y/zarr.json")), changed=WHOLE - {"y/zarr.json"})


DEMO_RECORD = "_cubed/demo_y/plan.json"
DEMO = {DEMO_RECORD, "demo_y/zarr.json", "demo_y/c", *[f"demo_{name}/{key}" for name in "ab" for key in ("zarr.json", "c/0/0")],
        "_cubed/demo_y/0/c/0/0", "_cubed/demo_y/1/c/0/0", "_cubed/demo_y/2/c/0"}


def of_demo():
    """Rows of `demo 4`, which makes two inputs of one chunk and four operations."""

    def demo(what, prepare, status=0, line="demo 4 result=3\nok ops=4 tasks=4 starts=4 failed=0 peak=3904", changed=None, words=("demo", "4"), **others):
        return Row(f"demo: {what}", prepare, status, line, DEMO if status == 0 and changed is None else changed or set(), words, **others)

    yield demo("nothing", lambda room: None)
    yield demo("DIR is missing", instead("missing"), changed=set())
    yield demo("DIR is a file", instead("beside/chunk"), *error(16, key="demo_a/c/0/0"), beside=True)
    for key in ("_cubed/demo_a/plan.json", "demo_a/zarr.json", "demo_a/.zarray", "_cubed/demo_b/plan.json", "demo_b/zarr.json", "demo_b/.zarray",
                DEMO_RECORD, "demo_y/zarr.json", "demo_y/.zarray", "_cubed/demo_y/0/c/0/0", "demo_y/c"):
        yield demo(f"a file lies at `{key}`", does("put", key), *error(9, key=key))
    yield demo("files lie at `demo_a/c/0/0` and `demo_b/c/0/0`", several(does("put", "demo_a/c/0/0"), does("put", "demo_b/c/0/0")))
    yield demo("a file lies at `demo_a`", does("put", "demo_a"), *error(16, key="demo_a/c/0/0"))
    yield demo("a file lies at `demo_a/c`", does("put", "demo_a/c"), *error(16, key="demo_a/c/0/0"))
    # A key below a file is absent, and a put of it is a fault.
    inputs = {key for key in DEMO if key.startswith(("demo_a/", "demo_b/"))}
    yield demo("a file lies at `_cubed`", does("put", "_cubed"), *error(16, key=DEMO_RECORD), inputs)
    yield demo("a file lies at `_cubed/demo_y/1`", does("put", "_cubed/demo_y/1"), *error(10, op=1, task=0),
               inputs | {DEMO_RECORD, "demo_y/zarr.json", "_cubed/demo_y/0/c/0/0"})
    yield demo("a folder lies at `demo_y/c`", does("folder", "demo_y/c"), *error(10, op=3, task=0), DEMO - {"demo_y/c"})
    yield demo("an empty folder lies at `demo_y/c`", does("empty", "demo_y/c"))
    yield demo("a named pipe lies at `demo_b/c/0/0`", does("pipe", "demo_b/c/0/0"))
    yield demo("a link at `demo_b/c/0/0` leads to a file elsewhere", lambda room: room.link("demo_b/c/0/0", os.path.join(room.beside, "chunk")))
    yield demo("standard output is full", lambda room: None, *error(12), DEMO, streams=(FULL,))
    yield demo("standard input is closed", lambda room: None, streams=(CLOSED,))
    yield demo("100 bytes are allowed", lambda room: None, 5, None, words=("demo", "4", "--allowed-mem", "100"))
    yield demo("killed writes left files", several(does("put", "demo_a/zarr.json.new1"), does("put", f"{DEMO_RECORD}.new2")))


ZARRAY = b'{"chunks":[4],"compressor":null,"dtype":"<i4","fill_value":0,"filters":null,"order":"C","shape":[6],"zarr_format":2}'


def of_version_2():
    """Rows of `run` and `print` of the addition, of which `b` is of version 2."""
    def older(*steps):
        def prepare(room):
            for number in "01":
                os.rename(room.path(f"b/c/{number}"), room.path(f"b/{number}"))
            room.remove("b/zarr.json")
            room.put("b/.zarray", ZARRAY)
            for step in steps:
                step(room)

        return prepare

    def reads(what, prepare, *args, **others):
        return Row(f"version 2: {what}", prepare, *args, **others)

    yield reads("nothing", older())
    yield reads("`b/.zarray` is missing", older(does("remove", "b/.zarray")), *error(8, name="b"))
    yield reads("`b/.zarray` is a folder", older(does("folder", "b/.zarray")), *error(8, name="b"))
    yield reads("a named pipe lies at `b/.zarray`", older(does("pipe", "b/.zarray")), *error(16, key="b/.zarray"))
    yield reads("8 GiB without blocks lie at `b/.zarray`", older(does("sparse", "b/.zarray")), 7, None)
    yield reads("a link at `b/.zarray` leads nowhere", older(does("link", "b/.zarray", "nowhere")), *error(8, name="b"))
    yield reads("`b/.zarray` isn't JSON", older(does("put", "b/.zarray", b"{")), 7, None)
    yield reads("a compressor is named", older(does("edit", "b/.zarray", b'"compressor":null', b'"compressor":{"id":"blosc"}')), *error(7, name="b", code=28))
    yield reads("the order is that of columns", older(does("edit", "b/.zarray", b'"order":"C"', b'"order":"F"')), *error(7, name="b", code=29))
    yield reads("`b/zarr.json` is there too, and isn't JSON", older(does("put", "b/zarr.json", b"{")), *error(7, name="b", code=1))
    yield reads("`b/zarr.json` is a folder", older(does("folder", "b/zarr.json")))
    yield reads("`b/0` is one byte short", older(does("cut", "b/0", 15)), *error(13, key="b/0", got=15, want=16), TEXTS)
    yield reads("`b/1` is missing", older(does("remove", "b/1")))
    yield reads("8 GiB without blocks lie at `b/1`", older(does("sparse", "b/1")), *error(13, key="b/1", got=SPARSE, want=16), FIRST)
    yield reads("a named pipe lies at `b/1`", older(does("pipe", "b/1")), *error(10, op=0, task=1), FIRST)
    yield reads("a file lies at `y/.zarray`", older(does("put", "y/.zarray")), *error(9, key="y/.zarray"))
    yield reads("a folder lies at `y/.zarray`", older(does("folder", "y/.zarray")))
    yield reads("print", older(), 0, "int32 shape [6] chunk [4]\n10 20 30 40 50 60", set(), ("print", "b"))
    yield reads("print, and `b/0` is missing", older(does("remove", "b/0")), 0, "int32 shape [6] chunk [4]\n0 0 0 0 50 60", set(), ("print", "b"))
    yield reads("load, and a file lies at `c/.zarray`", does("put", "c/.zarray"), *error(9, key="c/.zarray"), words=("load",),
                text={"name": "c", "data_type": "int32", "shape": [1], "chunk_shape": [1], "elements": [1]})


def has_command(program, command, *positional):
    """Whether the program has this command."""
    ended = subprocess.run([program, "nowhere", command, *positional, "--no-such"], capture_output=True, stdin=subprocess.DEVNULL, check=False)
    return ended.stderr != b"error 2 code=1\n"


def reads_version_2(program):
    """Whether the program reads metadata of version 2."""
    with tempfile.TemporaryDirectory(prefix="cubed-folders-") as folder:
        os.mkdir(os.path.join(folder, "z"))
        with open(os.path.join(folder, "z", ".zarray"), "wb") as file:
            file.write(ZARRAY)
        return subprocess.run([program, folder, "print", "z"], capture_output=True, check=False).returncode == 0


def of_users():
    """Rows that want root: another user's rights."""
    def owned(*steps):
        def prepare(room):
            for at, _, files in os.walk(room.room):
                for name in [".", *files]:
                    os.chown(os.path.join(at, name), NOBODY, NOBODY)
            for step in steps:
                step(room)

        return prepare

    def foreign(key, bits):
        return lambda room: (os.chown(room.path(key), 0, 0), os.chmod(room.path(key), bits))

    yield runs("another user, who owns the folder", owned(), user=NOBODY)
    yield runs("the user may read but not write", owned(foreign(".", 0o755)), *error(16, key=RECORD), user=NOBODY)
    yield runs("the user may not read `a/zarr.json`", owned(foreign("a/zarr.json", 0o600)), *error(16, key="a/zarr.json"), user=NOBODY)
    yield runs("the user may not enter DIR", owned(foreign(".", 0o700)), *error(16, key="a/zarr.json"), user=NOBODY)
    yield runs("the user may not read `b/c/1`", owned(foreign("b/c/1", 0o600)), *error(10, op=0, task=1), FIRST, user=NOBODY)

    def ran_owned(*steps):
        return several(ran(), owned(*steps))

    def locked(*keys):
        return [foreign(key, 0o755) for key in keys]

    places = (".", "y", "y/c", "_cubed", "_cubed/y", "_cubed/y/0", BETWEEN)
    yield after("the user may read but not write, and nothing is missing", ran_owned(*locked(*places)), *report(0), user=NOBODY)
    yield after("the user may read but not write, and `y/c/1` is missing", ran_owned(does("remove", "y/c/1"), *locked(*places)), *error(10, op=1, task=1), user=NOBODY)
    yield after("the user may read but not write, and `y/zarr.json` is missing", ran_owned(does("remove", "y/zarr.json"), *locked(*places)), *error(16, key="y/zarr.json"), user=NOBODY)
    yield after("the user may not read the record", ran_owned(foreign(RECORD, 0o600)), *error(16, key=RECORD), user=NOBODY)
    yield after("the user may read but not write", ran_owned(*locked(*places)), *error(16, key="y/zarr.json"), command="drop", user=NOBODY)
    yield after("the user may not write in `y/c`", ran_owned(*locked("y/c")), *error(16, key="y/c/0"), {"y/zarr.json", f"{BETWEEN}/0", f"{BETWEEN}/1"}, "drop", user=NOBODY)
    yield Row("demo: the user may read but not write", owned(foreign(".", 0o755)), *error(16, key="demo_a/c/0/0"), words=("demo", "4"), user=NOBODY)


@contextlib.contextmanager
def mounted(folder, pages):
    """A file system in memory of so many pages at a folder."""
    subprocess.run(["mount", "-t", "tmpfs", "-o", f"size={4 * pages}k,huge=never", "tmpfs", folder], check=True)
    try:
        yield
    finally:
        subprocess.run(["umount", folder], check=True)


def of_disks():
    """Rows on a small file system, by the pages that it has: six lie in the arrays."""
    def full(pages, status, line, changed=None):
        row = runs(f"a disk with {pages - 6} blocks left", lambda room: None, status, line, changed)
        row.pages = pages
        return row

    yield full(6, *error(16, key=RECORD))
    yield full(7, *error(16, key="y/zarr.json"), {RECORD})
    yield full(8, *error(10, op=0, task=0), TEXTS)
    yield full(9, *error(10, op=0, task=1), FIRST)
    yield full(10, 0, OK)

    def filled(*steps):
        """A whole run, some steps, and then a file that takes all that is left of the disk."""
        def fill(room):
            with contextlib.suppress(OSError), open(room.path("filler"), "wb", buffering=0) as file:
                while file.write(bytes(4096)):
                    pass

        return ran(*steps, fill)

    def on_small(what, command, prepare, status, line, changed=None):
        row = after(f"{what}, and no block of the disk is left", prepare, status, line, changed, command)
        row.pages = 64
        return row

    yield on_small("nothing is missing", "resume", filled(), *report(0))
    yield on_small("`y/c/1` is missing", "resume", filled(does("remove", "y/c/1")), *error(10, op=1, task=1))
    yield on_small("`y/zarr.json` is missing", "resume", filled(does("remove", "y/zarr.json")), *error(16, key="y/zarr.json"))
    yield on_small("everything is there", "drop", filled(), 0, "ok keys=6", WHOLE)
    demo = Row("demo: a disk with four blocks left", lambda room: None, 16, None, None, ("demo", "4"))
    demo.pages, demo.any_change = 10, True
    yield demo


def stopped(act, after=3):
    """Stops a run once it has stored so many chunks, does something, and lets it go on."""
    def during(room, started):
        for _ in range(20000):
            with contextlib.suppress(FileNotFoundError):
                if len(os.listdir(room.path("y/c"))) >= after or started.poll() is not None:
                    break
            time.sleep(0.0002)
        started.send_signal(signal.SIGSTOP)
        act(room)
        started.send_signal(signal.SIGCONT)

    return during


def left_by_a_run(room):
    """What a run of `large` has left: of two chunks whether they have their numbers, and whether the record and the metadata are there."""
    def content(key):
        with contextlib.suppress(OSError), open(room.path(key), "rb") as file:
            return file.read()
        return None

    chunks = [content("y/c/0"), content(f"y/c/{MANY - 1}")]
    return (*[None if data is None else data == b"\xff" * 16 for data in chunks], *[content(key) is not None or None for key in (RECORD, "y/zarr.json")])


def large(room):
    """Makes `a` an array of so many chunks that a run is long enough to be stopped."""
    room.remove("a/c")
    with open(room.path("a/zarr.json"), "rb") as file:
        told = json.load(file)
    told["shape"], told["chunk_grid"]["configuration"]["chunk_shape"] = [4 * MANY], [4]
    room.put("a/zarr.json", json.dumps(told).encode())
    for number in range(MANY):
        room.put(f"a/c/{number}", bytes([1, 0, 0, 0]) * 4)


def of_runs(commands=False):
    """Rows in which something happens while a run is at work: how it ends, and whether the first and the last chunk of the result are there
    with their numbers (True), with zeros (False), or not at all (None); and the record and the metadata."""
    text = {"nodes": [ADDITION["nodes"][0], {"id": "s", "op": "negative", "args": ["a"]}], "out": "s", "store_as": "y"}
    count = f"ok ops=1 tasks={MANY} starts={MANY} failed=0 peak=1072"
    last = f"a/c/{MANY - 1}"

    def at_work(what, act, status=0, line=count, first=True, end=True, record=True, metadata=True):
        row = Row(f"during a run {what}", large, status, line, set(), text=text, during=stopped(act))
        row.left = first, end, record, metadata
        return row

    def begun(room):
        """A run that was stopped after its first chunks."""
        large(room)
        started = subprocess.Popen([room.program, room.dir, "run"], stdin=subprocess.PIPE, stdout=subprocess.PIPE, stderr=subprocess.PIPE)
        started.stdin.write(json.dumps(text).encode())
        started.stdin.close()
        stopped(lambda room: started.kill())(room, started)
        started.wait()

    def gone_on(what, act, status=0, line=None, first=True, end=True, record=True, metadata=True):
        row = Row(f"during a resume {what}", begun, status, line, set(), ("resume",), text, during=stopped(act, MANY // 8))
        row.left = first, end, record, metadata
        return row

    yield at_work("nothing happens", lambda room: None)
    yield at_work("the last chunk of the input is removed", does("remove", last), end=False)
    yield at_work("the last chunk of the input is cut", does("cut", last, 15), *error(13, key=last, got=15, want=16), end=None)
    yield at_work("the input's metadata is removed", does("remove", "a/zarr.json"))
    yield at_work("the record is removed", does("remove", RECORD), record=None)
    yield at_work("the result is removed", does("remove", "y"), line=None, first=None, metadata=None)
    yield at_work("DIR is removed", lambda room: shutil.rmtree(room.dir), line=None, first=None, end=False, record=None, metadata=None)
    yield at_work("a file is put in the place of DIR", several(lambda room: shutil.rmtree(room.dir), lambda room: open(room.dir, "wb").close()), 10, None, None, None, None, None)
    if commands:
        yield gone_on("nothing happens", lambda room: None)
        yield gone_on("the last chunk of the input is cut", does("cut", last, 15), *error(13, key=last, got=15, want=16), end=None)
        yield gone_on("the record is removed", does("remove", RECORD), record=None)
        yield gone_on("DIR is removed", lambda room: shutil.rmtree(room.dir), first=None, end=False, record=None, metadata=None)
        yield gone_on("the result is removed", does("remove", "y"), first=None, metadata=None)


def try_row(row, given):
    """Tries a row in a new room, and returns why it is wrong, or nothing."""
    with tempfile.TemporaryDirectory(prefix="cubed-folders-", dir=given.dir) as place:
        os.chmod(place, 0o755)
        program = shutil.copy(given.program, os.path.join(place, "cubed"))
        os.chmod(program, 0o755)
        room = os.path.join(place, "room")
        os.mkdir(room)
        if hasattr(row, "pages"):
            os.mkdir(os.path.join(room, "arrays"))
            with mounted(os.path.join(room, "arrays"), row.pages):
                for name in "ab":
                    shutil.copytree(os.path.join(TOP, "examples", "addition", name), os.path.join(room, "arrays", name))
                return row.wrong(there(room, program))
        here = Room(room, program)
        if hasattr(row, "left"):
            row.prepare(here)
            ended, left = row.call(here), left_by_a_run(here)
            is_right = ended[0] == row.status and row.line in (None, ended[1]) and left == row.left
            return None if is_right else f"it ended with {ended[0]}: {ended[1]}, and left {left}"
        return row.wrong(here)


def there(room, program):
    """A room whose arrays lie there already."""
    found = Room.__new__(Room)
    found.room, found.program, found.dir, found.beside = room, program, os.path.join(room, "arrays"), os.path.join(room, "beside")
    os.makedirs(found.beside)
    return found


def main():
    words = argparse.ArgumentParser(description=__doc__, formatter_class=argparse.RawDescriptionHelpFormatter)
    words.add_argument("--program", type=os.path.abspath, default=PROGRAM)
    words.add_argument("--dir", default="/dev/shm" if os.path.isdir("/dev/shm") else tempfile.gettempdir())
    words.add_argument("--only", default="")
    words.add_argument("--show", action="store_true")
    given = words.parse_args()
    commands = {command for command, positional in (("resume", []), ("drop", []), ("demo", ["4"])) if has_command(given.program, command, *positional)}
    groups = [of_run, of_links, of_load, of_others, lambda: of_runs("resume" in commands)] + ([of_users, of_disks] if os.geteuid() == 0 else [])
    groups += [of_resume, of_resume_over_others, of_drop_over_others] if {"resume", "drop"} <= commands else []
    groups += [of_demo] if "demo" in commands else []
    groups += [of_version_2] if reads_version_2(given.program) else []
    rows = [row for group in groups for row in group() if given.only in row.what]
    wanted = {"resume": {"resume"}, "drop": {"resume", "drop"}, "demo": {"demo"}}
    rows = [row for row in rows if wanted.get(row.words[0], set()) <= commands]
    wrong = 0
    for row in rows:
        found = try_row(row, given)
        wrong += bool(found)
        if found or given.show:
            print(f"{row.what}: {found or 'as it must be'}", flush=True)
    print(f"{len(rows)} rows, {wrong} wrong" + ("" if os.geteuid() == 0 else "; what wants root was left out"))
    return 1 if wrong else 0


if __name__ == "__main__":
    sys.exit(main())
