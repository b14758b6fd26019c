"""What the tests of the scripts share: folders, calls of the scripts, and a place in which
`./cubed` finds another program.
"""
import contextlib
import os
import pty
import signal
import subprocess
import sys
import tempfile
import time
import unittest

TOP = os.path.dirname(os.path.dirname(os.path.realpath(__file__)))
sys.dont_write_bytecode = True
sys.path[:0] = [f"{TOP}/tools", f"{TOP}/compare", f"{TOP}/python"]
# The scripts run by this Python.
os.environ["PATH"] = f"{os.path.dirname(sys.executable)}:{os.environ['PATH']}"
import rules  # noqa: E402

# Names another program, for who works on the scripts. The gate doesn't set it, and runs the proved
# one.
OTHER = "CENGMOAT_TEST_PROGRAM"
# The seconds in which a call of a script must have ended.
LONGEST = 60
ADDITION = {"nodes": [{"id": "a", "op": "input", "name": "a"},
                      {"id": "b", "op": "input", "name": "b"},
                      {"id": "s", "op": "add", "args": ["a", "b"]}], "out": "s", "store_as": "y"}


def proved_program():
    """The program that the gate built, or the one that is named; nothing where there is none, or it
    is older than its sources, as ./cubed sees it.
    """
    if os.environ.get(OTHER):
        return os.path.abspath(os.environ[OTHER])
    program = f"{TOP}/crates/cu_bin/out/cu_bin"
    if not os.access(program, os.X_OK):
        return None
    built = os.stat(program).st_mtime_ns
    for at, folders, names in os.walk(f"{TOP}/crates"):
        folders[:] = [name for name in folders if name not in ("out", "must-fail", "more-edits")]
        for name in names:
            if name.endswith((".rt", ".antt")) and os.stat(f"{at}/{name}").st_mtime_ns > built:
                return None
    return program if os.stat(f"{TOP}/crates.txt").st_mtime_ns <= built else None


PROGRAM = proved_program()


def run(*words, text=b"", seconds=LONGEST, **options):
    return subprocess.run(words, input=text, stdout=subprocess.PIPE, stderr=subprocess.PIPE,
                          check=False, timeout=seconds, **options)


def put(path, data=b""):
    os.makedirs(os.path.dirname(path), exist_ok=True)
    with open(path, "wb") as file:
        file.write(data)


def files_in(top):
    return sorted(os.path.relpath(os.path.join(at, name), top) for at, _, names in os.walk(top)
                  for name in names)


def text_of(expression):
    return rules.compact(expression).encode()


class InFolder(unittest.TestCase):
    """A test with a folder of arrays of its own."""

    def setUp(self):
        room = tempfile.TemporaryDirectory()
        self.addCleanup(room.cleanup)
        self.room, self.top = room.name, f"{room.name}/arrays"
        os.mkdir(self.top)
        self.script = f"{TOP}/cubed"

    def zarr(self, *words, status=0, text=b""):
        ended = run(f"{TOP}/tools/zarr", self.top, *words, text=text)
        self.assertEqual(ended.returncode, status, ended.stderr.decode())
        self.assertNotIn(b"Traceback", ended.stderr)
        self.assertLessEqual(ended.stderr.count(b"\n"), 1)
        return ended.stdout

    def cubed(self, *words, status=0, text=b""):
        ended = run(self.script, self.top, *words, text=text)
        self.assertEqual(ended.returncode, status, ended.stderr.decode())
        self.assertNotIn(b"Traceback", ended.stderr)
        return ended.stdout.decode()

    def put_array(self, name, values, chunk, dtype="int32", chunks=None):
        """Stores an array of one axis, of which so many chunks have a file."""
        array = rules.Array(dtype, [len(values)], [chunk])
        put(f"{self.top}/{name}/zarr.json", text_of(array.written()))
        elements = {(at,): value for at, value in enumerate(values)}
        for at in range(-(-len(values) // chunk) if chunks is None else chunks):
            put(f"{self.top}/{array.key(name, (at,))}", rules.chunk_bytes(array, elements, (at,)))
        return array

    def put_record(self, expression, metas, fusion=1):
        """Stores the record of the plan of an expression over inputs of these layouts, and returns
        the plan.
        """
        held = {f"{name}/zarr.json": text_of(array.written()) for name, array in metas.items()}
        plan = rules.counted_plan(text_of(expression), held.get, rules.DEFAULT, 0, fusion=fusion)
        put(f"{self.top}/_cubed/{expression['store_as']}/plan.json", text_of(plan.record()))
        return plan


class WithProgram(InFolder):
    """A test in which `./cubed` stands as in an archive, beside a program that the test writes, or
    the proved one.
    """

    def setUp(self):
        super().setUp()
        self.archive = f"{self.room}/archive"
        os.makedirs(f"{self.archive}/program")
        for name in ("tools", "docs", "compare"):
            os.symlink(f"{TOP}/{name}", f"{self.archive}/{name}")
        with open(f"{TOP}/cubed", "rb") as script:
            put(f"{self.archive}/cubed", script.read())
        os.chmod(f"{self.archive}/cubed", 0o755)
        self.script = f"{self.archive}/cubed"

    def program(self, text):
        """The program is this shell script; its words are `$@`, and the folder of the arrays is
        `$1`.
        """
        put(f"{self.archive}/program/cubed", f"#!/bin/sh\n{text}\n".encode())
        os.chmod(f"{self.archive}/program/cubed", 0o755)

    def proved(self):
        """The program is the proved one."""
        if PROGRAM is None:
            self.skipTest("the proved program isn't built")
        os.symlink(PROGRAM, f"{self.archive}/program/cubed")

    def on_terminal(self, *words, text=b"", until=None, send=None):
        """The status of a call whose standard error is a terminal, what it wrote there, and what it printed. Where a signal is given,
        it is sent once `until` holds."""
        master, slave = pty.openpty()
        put(f"{self.room}/text", text)
        with open(f"{self.room}/text", "rb") as given:
            process = subprocess.Popen([self.script, self.top, *words], stdin=given,
                                       stdout=subprocess.PIPE, stderr=slave)
        os.close(slave)
        if send is not None:
            self.assertTrue(wait_until(until), "what was waited for didn't come")
            process.send_signal(send)
        try:
            printed, _ = process.communicate(timeout=LONGEST)
        except subprocess.TimeoutExpired:
            process.kill()
            raise
        told = b""
        with contextlib.suppress(OSError):
            while block := os.read(master, 1 << 16):
                told += block
        os.close(master)
        self.assertNotIn(b"Traceback", told)
        return process.returncode, told.decode().replace("\r\n", "\n"), printed.decode()


def wait_until(holds, seconds=120):
    """Whether something comes to hold in time."""
    end = time.monotonic() + seconds
    while time.monotonic() < end:
        if holds():
            return True
        time.sleep(0.02)
    return False


__all__ = ["ADDITION", "LONGEST", "PROGRAM", "TOP", "InFolder", "WithProgram", "files_in", "put",
           "rules", "run", "signal", "text_of", "wait_until"]
