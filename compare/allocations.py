#!/usr/bin/env python3
"""Has each allocation of each command fail in turn, with one worker and with four, and looks at the answer and at what stands after it.

  allocations.py [--program FILE] [--dir FOLDER] [--workers N,N..] [--only WORD] [--most N] [--from-on]

A small library in C, which is compiled here (`cc`), comes between the program and the C library: of the allocations that the program's own
code asks for, the one with the number that is given finds no memory. `--from-on` has all later ones fail too. Each number has a folder of
its own, and it goes on until the program ends before that number is reached.

The answer must be 70, or, if what failed wasn't needed, the right end. After a refusal every file must be as it was, or absent, or what the
whole command stores there; the record must be there if any other file of the plan is; a removal must keep the record to the last. Then the
command is called again without a fault, `resume` if a record stands, and must end as it must. A status of another kind, a signal and a call
that doesn't end in time are wrong. Prints for each row how many allocations there are, and ends with 1 at a row that is wrong.
"""
import argparse
import json
import os
import shutil
import subprocess
import sys
import tempfile

sys.dont_write_bytecode = True
TOP = os.path.join(os.path.dirname(os.path.abspath(__file__)), "..")
PROGRAM = os.path.join(TOP, "crates", "cu_bin", "out", "cu_bin")
LONGEST = 60
RECORD, DEMO_RECORD = "_cubed/y/plan.json", "_cubed/demo_y/plan.json"

# The library. It counts only what code of the program itself asks for, so that the C library's own needs, as those of a new thread, are met.
SHIM = r"""
#define _GNU_SOURCE
#include <errno.h>
#include <fcntl.h>
#include <link.h>
#include <stdatomic.h>
#include <stddef.h>
#include <stdint.h>
#include <stdlib.h>
#include <sys/mman.h>

extern void *__libc_malloc(size_t);
extern void *__libc_calloc(size_t, size_t);
extern void *__libc_realloc(void *, size_t);
extern void *__libc_memalign(size_t, size_t);

static atomic_long own_calls, *calls = &own_calls;
static long fail_at = -1, from_on;
static uintptr_t low, high;

static int first_object(struct dl_phdr_info *info, size_t size, void *data) {
    (void)size, (void)data;
    for (int i = 0; i < info->dlpi_phnum; i++)
        if (info->dlpi_phdr[i].p_type == PT_LOAD && (info->dlpi_phdr[i].p_flags & PF_X)) {
            low = info->dlpi_addr + info->dlpi_phdr[i].p_vaddr;
            high = low + info->dlpi_phdr[i].p_memsz;
        }
    return 1;
}

__attribute__((constructor)) static void begin(void) {
    dl_iterate_phdr(first_object, NULL);
    const char *at = getenv("FAIL_ALLOC"), *on = getenv("FAIL_FROM_ON"), *count = getenv("COUNT_FILE");
    /* The count lies in a file, so that it is told however the program ends. */
    int file = count ? open(count, O_RDWR) : -1;
    void *told = file < 0 ? MAP_FAILED : mmap(NULL, sizeof *calls, PROT_READ | PROT_WRITE, MAP_SHARED, file, 0);
    if (told != MAP_FAILED) calls = told;
    from_on = on && *on == '1';
    fail_at = at ? atol(at) : -1;
}

static int fails(void *caller) {
    uintptr_t at = (uintptr_t)caller;
    if (fail_at < 0 || at < low || at >= high) return 0;
    long n = atomic_fetch_add(calls, 1) + 1;
    if (n == fail_at || (from_on && n > fail_at && fail_at > 0)) { errno = ENOMEM; return 1; }
    return 0;
}

#define CALLER __builtin_return_address(0)
void *malloc(size_t n) { return fails(CALLER) ? NULL : __libc_malloc(n); }
void *calloc(size_t k, size_t n) { return fails(CALLER) ? NULL : __libc_calloc(k, n); }
void *realloc(void *p, size_t n) { return fails(CALLER) ? NULL : __libc_realloc(p, n); }
void *memalign(size_t a, size_t n) { return fails(CALLER) ? NULL : __libc_memalign(a, n); }
void *aligned_alloc(size_t a, size_t n) { return fails(CALLER) ? NULL : __libc_memalign(a, n); }
int posix_memalign(void **p, size_t a, size_t n) {
    if (fails(CALLER)) return ENOMEM;
    void *found = __libc_memalign(a, n);
    if (!found) return ENOMEM;
    *p = found;
    return 0;
}
"""

ADDITION = {"nodes": [{"id": "a", "op": "input", "name": "a"}, {"id": "b", "op": "input", "name": "b"},
                      {"id": "s", "op": "add", "args": ["a", "b"]}], "out": "s", "store_as": "y"}
SEVERAL = {**ADDITION, "nodes": ADDITION["nodes"] + [
    {"id": "d", "op": "multiply", "args": ["s", 2]}, {"id": "r", "op": "rechunk", "args": ["d"], "chunk": [3]},
    {"id": "m", "op": "argmax", "args": ["r"]}, {"id": "v", "op": "flip", "args": ["r"]}, {"id": "t", "op": "subtract", "args": ["v", "m"]}], "out": "t"}
ARRAY = {"name": "c", "data_type": "int32", "shape": [2, 6], "chunk_shape": [1, 4], "elements": list(range(12))}


def files_of(folder):
    """Returns the bytes of each file of a folder, by its key."""
    found = {}
    for at, _, files in os.walk(folder):
        for name in files:
            with open(os.path.join(at, name), "rb") as file:
                found[os.path.relpath(os.path.join(at, name), folder)] = file.read()
    return found


class Row:
    """A command over a folder: its words and text, what was done before, and by which call the folder is made whole afterwards."""

    def __init__(self, name, words, text=None, before=(), record=None, again=None):
        self.name, self.words, self.before, self.record = name, words, before, record
        self.text = json.dumps(text).encode() if text else b""
        self.again = again

    def allowed(self, key, at_first, whole, now):
        """Whether a file may hold this after a refusal: what it held, or what the whole command leaves there. `whole` lacks what is removed."""
        return now == at_first.get(key) or now == whole.get(key) or now is None and key not in at_first


def rows(counts):
    options = ["--allowed-mem", "2000"]
    ran = [(["run", *options], SEVERAL)]
    fused = ["--fusion", "2"]
    yield Row("plan", ["plan", *options], SEVERAL)
    yield Row("plan with inlined arrays", ["plan", *options, *fused], SEVERAL)
    yield Row("load", ["load"], ARRAY)
    yield Row("print", ["print", "a"])
    yield Row("check", ["check"], SEVERAL, ran)
    yield Row("drop", ["drop", *options], SEVERAL, ran, RECORD)
    yield Row("print of version 2", ["print", "z"])
    for count in counts:
        more = [*options, "--workers", str(count), "--backups", str(int(count > 1))]
        yield Row(f"run by {count}", ["run", *more], SEVERAL, (), RECORD, ["resume", *more])
        yield Row(f"run of one addition by {count}", ["run", "--workers", str(count)], ADDITION, (), RECORD, ["resume", "--workers", str(count)])
        yield Row(f"resume by {count}", ["resume", *more], SEVERAL, [*ran, "some removed"], RECORD)
        yield Row(f"resume of a whole run by {count}", ["resume", *more], SEVERAL, ran, RECORD)
        yield Row(f"demo by {count}", ["demo", "64", "--workers", str(count)], None, (), DEMO_RECORD)
        yield Row(f"run with inlined arrays by {count}", ["run", *more, *fused], SEVERAL, (), RECORD, ["resume", *more, *fused])
        yield Row(f"demo with inlined arrays by {count}", ["demo", "64", "--workers", str(count), *fused], None, (), DEMO_RECORD)


def made(folder, row, given):
    """Makes the folder of a row."""
    for name in "ab":
        shutil.copytree(os.path.join(TOP, "examples", "addition", name), os.path.join(folder, name))
    os.makedirs(os.path.join(folder, "z"))
    with open(os.path.join(folder, "z", ".zarray"), "w", encoding="utf-8") as file:
        json.dump({"zarr_format": 2, "shape": [3], "chunks": [2], "dtype": "<i2", "fill_value": 7, "compressor": None, "filters": None, "order": "C"}, file)
    with open(os.path.join(folder, "z", "0"), "wb") as file:
        file.write(bytes([1, 0, 2, 0]))
    for step in row.before:
        if step == "some removed":
            held = sorted(key for key in files_of(folder) if "/c/" in key and key.startswith(("y/", "_cubed/")))
            for key in [*held[::2], "y/zarr.json"]:
                os.remove(os.path.join(folder, key))
        else:
            words, text = step
            subprocess.run([given.program, folder, *words], input=json.dumps(text).encode(), check=True, capture_output=True)


def call(given, folder, words, text, number=None):
    """Returns the status and what is printed of a call of which this allocation fails."""
    env = dict(os.environ)
    if number is not None:
        with open(given.count, "wb") as file:
            file.write(bytes(8))
        env.update(LD_PRELOAD=given.shim, FAIL_ALLOC=str(number), FAIL_FROM_ON=str(int(given.from_on)), COUNT_FILE=given.count)
    try:
        ended = subprocess.run([given.program, folder, *words], input=text, capture_output=True, check=False, timeout=LONGEST, env=env)
    except subprocess.TimeoutExpired:
        return "no end", "", ""
    return ended.returncode, ended.stdout.decode(), ended.stderr.decode()


def wrong_left(row, at_first, whole, now):
    """Why what stands after a refusal is wrong, or nothing."""
    for key in sorted(set(at_first) | set(now) | set(whole)):
        if not row.allowed(key, at_first, whole, now.get(key)):
            return f"{key} is neither as it was nor as it must be"
    if row.record:
        kept = {key for key in whole if key not in at_first} if row.words[0] != "drop" else {key for key in at_first if key not in whole}
        name = row.record.split("/")[1]
        plan = {key for key in kept if key.startswith((f"{name}/", f"_cubed/{name}/")) and key != row.record}
        if row.record not in now and plan & set(now):
            return f"the record isn't there, and {sorted(plan & set(now))} are"
    if row.words[0] == "load" and "c/zarr.json" in now:
        return "the metadata was stored"
    return None


def wrong_again(row, given, folder, whole, right):
    """Why the command's repeat is wrong, or nothing."""
    if row.words[0] == "demo":
        return None  # Its inputs may be there, and then it is refused.
    has_record = row.record and os.path.exists(os.path.join(folder, row.record))
    if row.words[0] == "drop" and not has_record:
        ended = call(given, folder, row.words, row.text)
        return None if ended == (15, "", "error 15\n") else f"called again it ended with {ended}"
    words = row.again if row.again and has_record else row.words
    ended = call(given, folder, words, row.text)
    if ended[0] != 0 or files_of(folder) != whole or ended[1] != right[1] and row.words[0] not in ("run", "resume"):
        return f"called again as {words} it ended with {ended}, and left {sorted(set(files_of(folder)) ^ set(whole)) or 'all files'}"
    return None


def is_right_end(row, ended, right):
    """Whether an end is that of the whole command; with second copies of tasks there may be more starts."""
    def told(end):
        return end[0], [word for word in end[1].split() if not word.startswith("starts=")], end[2]

    return told(ended) == told(right)


def try_row(row, given, room):
    """Has each allocation of a row fail. Returns how many there are and how many calls answered 70, or why it is wrong."""
    first_folder, whole_folder = os.path.join(room, "first"), os.path.join(room, "whole")
    os.mkdir(first_folder)
    made(first_folder, row, given)
    first = files_of(first_folder)
    shutil.copytree(first_folder, whole_folder)
    right = call(given, whole_folder, row.words, row.text)
    whole = files_of(whole_folder)
    if right[0] == 2 or right[2] == "error 8 name=z\n":
        return None  # The program has no such command, or doesn't read version 2.
    if right[0] != 0:
        return f"with no fault it ended with {right}"
    refused = 0
    for number in range(1, given.most + 1):
        folder = os.path.join(room, str(number))
        shutil.copytree(first_folder, folder)
        ended = call(given, folder, row.words, row.text, number)
        now = files_of(folder)
        with open(given.count, "rb") as file:
            count = int.from_bytes(file.read(8), "little")
        if count == 0:
            return "no allocation was counted: is the C library's allocator linked into the program?"
        if ended[0] == 70:
            is_front = row.words[0] == "print" and right[1].startswith(ended[1])
            wrong = None if ended[2] == "error 70\n" and (ended[1] == "" or is_front) else f"it printed {ended[1:]}"
            wrong = wrong or wrong_left(row, first, whole, now) or wrong_again(row, given, folder, whole, right)
            refused += 1
        else:
            wrong = None if is_right_end(row, ended, right) and now == whole else f"it ended with {ended}"
        if wrong:
            return f"allocation {number} of {count}: {wrong} ({folder})"
        shutil.rmtree(folder)
        if count < number:
            return number - 1, refused
    return given.most, refused


def main():
    words = argparse.ArgumentParser(description=__doc__, formatter_class=argparse.RawDescriptionHelpFormatter)
    words.add_argument("--program", type=os.path.abspath, default=PROGRAM)
    words.add_argument("--dir", default="/dev/shm" if os.path.isdir("/dev/shm") else tempfile.gettempdir())
    words.add_argument("--workers", type=lambda told: [int(count) for count in told.split(",")], default=[1, 4])
    words.add_argument("--only", default="")
    words.add_argument("--most", type=int, default=100000)
    words.add_argument("--from-on", action="store_true")
    given = words.parse_args()
    place = tempfile.mkdtemp(prefix="cubed-allocations-", dir=given.dir)
    source, given.shim, given.count = (os.path.join(place, name) for name in ("shim.c", "shim.so", "count"))
    with open(source, "w", encoding="utf-8") as file:
        file.write(SHIM)
    subprocess.run(["cc", "-shared", "-fPIC", "-O1", "-fno-builtin", "-o", given.shim, source], check=True)
    wrong = 0
    for number, row in enumerate(row for row in rows(given.workers) if given.only in row.name):
        room = os.path.join(place, str(number))
        os.mkdir(room)
        found = try_row(row, given, room)
        if type(found) is str:
            wrong += 1
            print(f"{row.name}: {found}", flush=True)
            continue
        shutil.rmtree(room)
        if found is None:
            print(f"{row.name}: not in this program", flush=True)
            continue
        print(f"{row.name}: {found[0]} allocations, {found[1]} calls answered 70", flush=True)
    if not wrong:
        shutil.rmtree(place)
    return 1 if wrong else 0


if __name__ == "__main__":
    sys.exit(main())
