#!/usr/bin/env python3
"""Kills runs of random expressions at random moments, goes on with `resume`, and compares all that is stored with NumPy byte by byte.

  kills.py [--program FILE] [--dir FOLDER] [--kills N] [--workers N,N..] [--seed N] [--first N] [--only run|views|reductions|copies|any|chains]
           [--fusion 1|2]

A job is a random expression of several tasks over a folder of random arrays, as compare/compare.py has them. It is run once in a copy of
its folder, which tells how long it takes. In the folder itself it is killed (signal 9) up to eight times, at a random moment each time,
and called again: `resume` if the record is there, else `run`. Each call takes one of the numbers of workers and `--backups` 0 or 1 at
random. After each kill every file of the plan must be whole and right, the record must be there if any other is, and nothing else may
have changed but files that end in `.new` and a number. Now and then a call that must be refused comes between: a `run` over a record
(9), a `resume` without one (15), with other memory or with the other `--fusion` (14).

The call that ends by itself must end with 0, and must have started each task of which a chunk was missing, and no other. Then `print`
and `check` look at the result. Some results are removed by `drop`, killed too, and made whole again.

It goes on until so many kills have met a running program. It prints in which state they left the folder, and ends with 1 at the first
job that is wrong, whose folder is kept; `--first` goes on at that job. When a kill comes is left to the system, so that a job doesn't
come again exactly.
"""
import argparse
import collections
import os
import random
import re
import shutil
import subprocess
import sys
import tempfile
import time

sys.dont_write_bytecode = True
import compare
import rules
from draws import MIXES

FEWEST_TASKS, MOST_TASKS = 4, 300
MOST_KILLS = 8
LONGEST = 120
LEFT_BY_A_KILL = re.compile(r"(.*)\.new\d+\Z")


class Wrong(Exception):
    """The program did what it may not do."""


class Job:
    """A case with its plan, what must be stored, and the files that were there before."""

    def __init__(self, case, program, workers):
        self.case, self.program, self.workers, self.pick = case, program, workers, case.pick
        self.plan = case.plan()
        self.stored = compare.must_be_stored(case, self.plan)
        self.keys = [key for key in self.plan.keys_in_the_way() if not key.endswith("/.zarray")]
        self.before = {key: case.held(key) for key in compare.files_in(case.folder)}
        self.tasks = [[self.plan.part_key(k, at, which, where) for which, where in step.written(place)]
                      for k, steps in self.plan.steps.items() for at, step in enumerate(steps) for place in step.places()]

    def held_now(self):
        return {key: self.case.held(key) for key in compare.files_in(self.case.folder)}

    def undone(self):
        """Returns how many tasks have a chunk that isn't there."""
        held = compare.files_in(self.case.folder)
        return sum(any(key not in held for key in cells) for cells in self.tasks)

    def words(self, command, allowed=None, fusion=None):
        case = self.case
        words = [self.program, case.folder, command, "--allowed-mem", str(case.allowed if allowed is None else allowed),
                 "--reserved-mem", str(case.reserved), "--split-every", str(case.split_every)]
        words += ["--fusion", str(fusion or case.fusion)] if fusion or case.fusion != 1 else []
        if command != "drop":
            self.count, self.backups = self.pick.choice(self.workers), self.pick.randint(0, 1)
            words += ["--workers", str(self.count), "--backups", str(self.backups)]
        return words

    def call(self, words, after=None):
        """Calls the program, and kills it after so many seconds."""
        with tempfile.TemporaryFile() as text:
            text.write(self.case.text.encode())
            text.seek(0)
            started = subprocess.Popen(words, stdin=text, stdout=subprocess.PIPE, stderr=subprocess.PIPE)
        if after is not None:
            time.sleep(after)
            started.kill()
        try:
            out, err = started.communicate(timeout=LONGEST)
        except subprocess.TimeoutExpired:
            started.kill()
            started.communicate()
            raise Wrong(f"{' '.join(words)} didn't end in {LONGEST} seconds") from None
        return started.returncode, out.decode(), err.decode()

    def must_end(self, words, status, line):
        """Calls the program, which must end with this status and line."""
        ended = self.call(words)
        told = (status, "", line) if status else (status, line, "")
        if ended != told:
            raise Wrong(f"{' '.join(words)} <<< '{self.case.text}' ended with {ended}, not {told}")

    def look_at_files(self, is_complete=False):
        """Each file must be as it was, or a whole and right one of the plan, or one that a killed write left."""
        held = self.held_now()
        for key, data in held.items():
            left = LEFT_BY_A_KILL.match(key)
            if key in self.before:
                right = data == self.before[key]
            else:
                right = data == self.stored[key] if key in self.stored else bool(left) and left[1] in self.stored
            if not right:
                raise Wrong(f"{key} is {data}, and must be {self.before.get(key, self.stored.get(key))}")
        missing = [key for key in self.before if key not in held]
        if missing or is_complete and not set(self.stored) <= set(held):
            raise Wrong(f"{missing or sorted(set(self.stored) - set(held))} are missing")
        if self.keys[0] not in held and set(self.stored) & set(held):
            raise Wrong(f"the record isn't there, and {sorted(set(self.stored) & set(held))} are")

    def state(self):
        held = set(self.stored) & set(compare.files_in(self.case.folder))
        if self.keys[0] not in held:
            return "before the record"
        if not self.undone():
            return "with all chunks stored"
        return "amid the tasks" if len(held) > 2 else "with no chunk stored"

    def is_begun(self):
        return self.case.held(self.keys[0]) is not None

    def refuse_something(self):
        """Makes a call that must be refused and change nothing."""
        before = self.held_now()
        if not self.is_begun():
            self.must_end(self.words("resume"), 15, "error 15\n")
        elif self.pick.random() < 0.5:
            self.must_end(self.words("run"), 9, f"error 9 key={self.keys[0]}\n")
        else:
            command = self.pick.choice(["resume", "drop"])
            words, other = self.words(command, self.case.allowed + 1), {"allowed": self.case.allowed + 1}
            if self.pick.random() < 0.5:
                words, other = self.words(command, fusion=3 - self.case.fusion), {"cubed": 4 - self.case.fusion}
            place = len(os.path.commonprefix([rules.compact({**self.plan.record(), **changed}) for changed in ({}, other)]))
            self.must_end(words, 14, f"error 14 place={place}\n")
        if self.held_now() != before:
            raise Wrong("a call that was refused changed the folder")

    def go_on(self, after=None):
        """Begins the run or goes on with it, killed after so many seconds. Returns whether it was killed."""
        undone = self.undone()
        words = self.words("resume" if self.is_begun() else "run")
        status, out, err = self.call(words, after)
        if status == -9:
            self.look_at_files()
            return True
        may_repeat = self.count > 1 and self.backups == 1
        ops, peak = len(self.plan.operations()), self.plan.peak()
        told = re.fullmatch(rf"ok ops={ops} tasks={len(self.tasks)} starts=(\d+) failed=0 peak={peak}\n", out)
        if status or err or not told or not undone <= int(told[1]) <= (2 * undone if may_repeat else undone):
            raise Wrong(f"{' '.join(words)} <<< '{self.case.text}' ended with {status} {out} {err}, where {undone} tasks weren't done")
        self.look_at_files(is_complete=True)
        return False

    def look_at_result(self):
        elements = compare.numpy_values(self.plan, {entry.name: entry.elements for entry in self.case.inputs})[self.plan.out]
        wrong = compare.wrong_print(self.program, self.case.folder, self.keys[1].split("/")[0], elements, self.plan.infos[self.plan.out][2])
        if wrong:
            raise Wrong(wrong)
        self.must_end([self.program, self.case.folder, "check"], 0, f"equal {elements.size}\n")

    def drop(self, after=None):
        """Removes the plan, killed after so many seconds. Returns whether it was killed."""
        words = self.words("drop")
        ended = self.call(words, after)
        if ended[0] == -9:
            self.look_at_files()
            return True
        if ended != (0, f"ok keys={len(self.stored)}\n", ""):
            raise Wrong(f"{' '.join(words)} ended with {ended}")
        if set(self.stored) & set(compare.files_in(self.case.folder)):
            raise Wrong("drop left a file of the plan")
        self.look_at_files()
        return False


def new_job(pick, folder, given):
    """Returns a job of several tasks in this folder, which is emptied before each try."""
    while True:
        shutil.rmtree(folder, ignore_errors=True)
        os.mkdir(folder)
        kinds = ["run", "views", "reductions", "copies", "any", "any"] + (["chains"] * 4 if given.fusion == 2 else [])
        case = compare.Case(pick, folder, MIXES[given.only or pick.choice(kinds)], fusion=given.fusion)
        try:
            tasks = case.plan().tasks()
        except rules.Refused:
            continue
        if FEWEST_TASKS <= tasks <= MOST_TASKS:
            return Job(case, given.program, given.workers)


def undisturbed(job):
    """Runs a job in a copy of its folder. Returns the seconds of a call that stores nothing, and of the run."""
    own, job.case = job.case, job.case.copied(f"{job.case.folder}-whole")
    start = time.perf_counter()
    job.must_end(job.words("resume"), 15, "error 15\n")
    middle = time.perf_counter()
    job.go_on()
    end = time.perf_counter()
    shutil.rmtree(job.case.folder)
    job.case = own
    return middle - start, end - middle


def run_job(job, counts):
    """Kills and goes on, and counts the kills that met a running program by what they left."""
    idle, whole = undisturbed(job)

    def moment():
        return job.pick.uniform(0.8 * idle, max(idle, 1.05 * whole))

    for _ in range(job.pick.randint(1, MOST_KILLS)):
        if job.pick.random() < 0.15:
            job.refuse_something()
        if not job.undone() or not job.go_on(moment()):
            break
        counts[job.state()] += 1
    job.go_on()
    job.look_at_result()
    if job.pick.random() < 0.4 and job.drop(moment()):
        counts["amid a removal" if job.is_begun() else "with the plan removed"] += 1
        job.go_on()
        job.look_at_result()
        job.drop()


def main():
    words = argparse.ArgumentParser(description=__doc__, formatter_class=argparse.RawDescriptionHelpFormatter)
    words.add_argument("--program", type=os.path.abspath, default=compare.PROGRAM)
    words.add_argument("--dir", default=tempfile.gettempdir())
    words.add_argument("--kills", type=int, default=500)
    words.add_argument("--workers", type=lambda told: [int(count) for count in told.split(",")], default=[1, 4])
    words.add_argument("--seed", type=int, default=1)
    words.add_argument("--first", type=int, default=0)
    words.add_argument("--only", choices=[name for name in MIXES if name != "check"])
    words.add_argument("--fusion", type=int, choices=[1, 2], default=1)
    given = words.parse_args()
    counts, number = collections.Counter(), given.first
    while sum(counts.values()) < given.kills:
        folder = tempfile.mkdtemp(dir=given.dir, prefix="cubed-kills-")
        try:
            run_job(new_job(random.Random(f"{given.seed} {number}"), os.path.join(folder, "arrays"), given), counts)
        except Wrong as wrong:
            print(f"job {number} of seed {given.seed} in {folder}: {wrong}")
            return 1
        shutil.rmtree(folder)
        number += 1
        if number % 10 == 0:
            print(f"{sum(counts.values())} kills of {number - given.first} jobs", flush=True)
    print(f"{sum(counts.values())} kills of {number - given.first} jobs, and each job came to its right end: "
          + ", ".join(f"{count} {state}" for state, count in sorted(counts.items())))
    return 0


if __name__ == "__main__":
    sys.exit(main())
