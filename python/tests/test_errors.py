"""Each class of error once, from the program where it is there, and else from a program that says its line."""
from __future__ import annotations

import json
import os
import pickle
import re
import shutil
import unittest

from .support import TOP, Case, WithProgram, cengmoat, np, xp

PAGE = os.path.join(TOP, "docs", "ANSWERS.md")
# The line of each answer with the values of its fields.
LINES = {
    2: ("error 2 code=2", {"code": 2}), 3: ("error 3 code=4 node=1", {"code": 4, "node": 1}),
    4: ("error 4 code=2 node=1", {"code": 2, "node": 1}), 5: ("error 5 node=1 need=1600 allowed=1599", {"node": 1, "need": 1600, "allowed": 1599}),
    6: ("error 6 which=1 count=70000", {"which": 1, "count": 70000}), 7: ("error 7 name=t code=8", {"name": "t", "code": 8}),
    8: ("error 8 name=t", {"name": "t"}), 9: ("error 9 key=y/c/1", {"key": "y/c/1"}), 10: ("error 10 op=2 task=7", {"op": 2, "task": 7}),
    11: ("error 11", {}), 12: ("error 12", {}), 13: ("error 13 key=a/c/1 got=15 want=16", {"key": "a/c/1", "got": 15, "want": 16}),
    14: ("error 14 place=12", {"place": 12}), 15: ("error 15", {}), 16: ("error 16 key=y/zarr.json", {"key": "y/zarr.json"}),
    17: ("error 17 place=4 stored=56 plain=55", {"place": 4, "stored": 56, "plain": 55}), 18: ("error 18 code=5", {"code": 5}),
    20: ("error 20 op=2 tasks=7", {"op": 2, "tasks": 7}), 21: ("error 21 op=1 task=3", {"op": 1, "task": 3}), 70: ("error 70", {}),
}


class Lines(Case):
    def test_each_class(self) -> None:
        self.assertEqual(set(LINES), set(cengmoat.errors.BY_STATUS))
        for status, (line, fields) in LINES.items():
            store = self.store(program=self.fake_program(f"sys.stderr.write({line + chr(10)!r})\nsys.exit({status})"))
            if "t" not in store:
                store.save("t", np.arange(4))
            with self.assertRaises(cengmoat.errors.BY_STATUS[status]) as found:
                (store["t"] + 1).compute()
            error = found.exception
            self.assertIsInstance(error, cengmoat.CengmoatError)
            self.assertEqual(error.status, status)
            self.assertEqual({field: getattr(error, field) for field in error.fields}, fields, line)
            if "node" in fields:
                self.assertEqual(error.expression, "t + 1")
                self.assertIn("`t + 1`", str(error))
                self.assertNotIn("node=1", str(error))
            again = pickle.loads(pickle.dumps(error))
            self.assertEqual((type(again), str(again), again.status), (type(error), str(error), status))

    def test_texts(self) -> None:
        said = str(cengmoat.errors.error_of(5, LINES[5][0] + "\n", lambda node: "a + b"))
        self.assertIn("a task of `a + b` needs 1600 bytes, and 1599 are allowed", said)
        self.assertIn("allowed_mem=1600", said)
        self.assertIn("the chunk file a/c/1 has 15 bytes in place of 16", str(cengmoat.errors.error_of(13, LINES[13][0])))
        self.assertIn("t is compressed or sharded", str(cengmoat.errors.error_of(7, LINES[7][0])))
        whole = cengmoat.errors.error_of(3, "error 3 code=7 node=0", lambda node: "a + b")
        self.assertEqual((whole.expression, "a + b" in str(whole), whole.node), (None, False, 0))
        self.assertIn("resume=True", str(cengmoat.errors.error_of(9, LINES[9][0])))
        self.assertIn("signal 9", str(cengmoat.errors.error_of(-9, "")))
        self.assertIn("status 1: cubed: broken", str(cengmoat.errors.error_of(1, "cubed: broken\n")))

    def test_each_answer_of_the_page_has_a_text(self) -> None:
        if not os.path.isfile(PAGE):
            self.skipTest("the page lies in the repository")
        with open(PAGE, encoding="utf-8") as file:
            lines = re.findall(r"^\| `error (\d+)([^`]*)`", file.read().partition("## Each answer")[2], re.M)
        wanted = {(int(status), int(code[1]) if (code := re.search(r"(?:code|which)=(\d+)", rest)) else None) for status, rest in lines}
        self.assertGreater(len(wanted), 50)
        # (nothing is given to the program as a text, so answer 18 never comes)
        self.assertEqual({it for it in wanted if it[0] != 18} - set(cengmoat._texts.TEXTS), set())

    def test_texts_have_no_word_of_a_command(self) -> None:
        """Each message is one of Python: no option, no command, no status line, and no field that isn't filled in."""
        for (status, code), texts in cengmoat._texts.TEXTS.items():
            if status not in cengmoat.errors.BY_STATUS:
                continue
            fields = {field: 3 for field in cengmoat.errors.BY_STATUS[status].fields} | {"code": code, "which": code}
            said = str(cengmoat.errors.BY_STATUS[status](**fields, expression="a + b"))
            for word in ("--", "cubed ", "DIR", "`run`", "`resume`", "`drop`", "`plan`", "`check`", "`print`", "`load`", "error ", "{", "standard input"):
                self.assertNotIn(word, said)
            self.assertTrue(all(texts), (status, code))

    def test_the_call_and_the_folder_are_said(self) -> None:
        store = self.store(program=self.fake_program("sys.stderr.write('error 70')\nsys.exit(70)"))
        t = store.save("t", np.arange(4))
        for call, wanted in (((t + 1).compute, "x.compute()"), (lambda: (t + 1).store("y"), "x.store('y')"), ((t + 1).plan, "x.plan()"),
                             (lambda: (t + 1).check("t"), "x.check('t')")):
            with self.assertRaises(cengmoat.NoMemory) as found:
                call()
            self.assertTrue(str(found.exception).startswith(f"{wanted} in {store.folder}: the system had no memory"), str(found.exception))

    def test_programs_that_are_none(self) -> None:
        store = self.store(program=self.fake_program("sys.exit(0)"))
        os.unlink(store.program)
        store.save("t", np.arange(4))
        with self.assertRaises(cengmoat.NoProgram):
            (store["t"] + 1).compute()
        store = self.store(program=self.fake_program("os.kill(os.getpid(), 9)"))
        with self.assertRaises(cengmoat.Stopped):
            (store["t"] + 1).compute()
        self.assertEqual(store.names(), ["t"])


    def test_programs_that_print_something_else(self) -> None:
        store = self.store()
        store.save("t", np.arange(4))
        ends = ("", "print('hello')", "sys.stdout.buffer.write(bytes([255, 254]))", "print('ok ops=1 tasks=2')", "print('ok ops=' + '9' * 5000)",
                "sys.stderr.write('error 5 node=x need=1 allowed=2')\nsys.exit(5)", "sys.stderr.write('error 9 message=3')\nsys.exit(9)",
                "sys.stderr.write('error 5 node=' + '9' * 5000)\nsys.exit(5)", "sys.stderr.buffer.write(bytes([255]))\nsys.exit(5)",
                "sys.stderr.write('x' * 5000000)\nsys.exit(1)", "print('y' * 5000000)")
        for end in ends:
            t = self.store(program=self.fake_program(end))["t"]
            for call in ((t + 1).compute, (t + 1).plan, lambda: (t + 1).check("t"), lambda: (t + 1).store("y")):
                with self.assertRaises(cengmoat.Stopped, msg=end) as found:
                    call()
                self.assertLess(len(str(found.exception)), 4000, end)
            self.assertEqual(self.store().names(), ["t"])


class Answers(WithProgram):
    """Answers of the program itself."""

    def setUp(self) -> None:
        super().setUp()
        self.here = self.store()
        self.t = self.here.save("t", np.arange(6, dtype="int32"), 4)

    def call(self, command: str, text: str) -> None:
        cengmoat._program.call_program([self.here.program, self.here.folder, *command.split()], text)

    def expression(self, op: str) -> str:
        nodes = [{"id": "t", "op": "input", "name": "t"}, {"id": "y", "op": op, "args": ["t", "t"]}]
        return json.dumps({"nodes": nodes, "out": "y", "store_as": "y"})

    def test_words_and_texts(self) -> None:
        self.assertRaises(cengmoat.BadWords, self.call, "frobnicate", "")
        self.assertRaises(cengmoat.BadExpression, self.call, "plan", "{")
        self.assertRaises(cengmoat.BadType, self.call, "plan", self.expression("logical_and"))
        self.assertRaises(cengmoat.BadLoad, self.call, "load", "{}")

    def test_memory(self) -> None:
        store = self.store(allowed_mem=1599)
        with self.assertRaises(cengmoat.OverMemory) as found:
            (store["t"] * store["t"]).sum().compute()
        error = found.exception
        self.assertEqual((error.need, error.allowed, error.expression), (1600, 1599, "t * t"))
        self.assertIn("These would fit: t in chunks (2,).", str(error))
        other = store.save("other", np.arange(6, dtype="int32"), 2)
        self.same((other * other).compute(), np.arange(6, dtype="int32")**2)
        with self.assertRaises(cengmoat.OverMemory) as found:
            (store["t"] + 1 + xp.ones(6, dtype="int32", chunks=6)).plan()
        self.assertIn("These would fit: ", str(found.exception))
        with self.assertRaises(cengmoat.OverMemory) as found:
            (self.store(allowed_mem=100)["t"] + 1).plan()
        self.assertIn("No smaller chunks would fit", str(found.exception))

    def test_limits(self) -> None:
        with self.assertRaises(cengmoat.OverLimit) as found:
            (xp.arange(40_000, chunks=1) + 1).plan(store=self.here)
        self.assertEqual((found.exception.which, found.exception.count), (1, 80_000))

    def test_arrays(self) -> None:
        folder = self.here.folder
        y = self.here.save("y", np.arange(6, dtype="int32"), 4)
        both = self.t + y
        with open(os.path.join(folder, "y", "c", "1"), "ab") as file:
            file.write(b"x")
        with self.assertRaises(cengmoat.BadChunk) as found:
            both.compute()
        self.assertEqual((found.exception.key, found.exception.got, found.exception.want), ("y/c/1", 17, 16))
        os.unlink(os.path.join(folder, "y", "c", "1"))
        # A folder is no value: the chunk is absent.
        os.mkdir(os.path.join(folder, "y", "c", "1"))
        self.assertEqual((both - self.t).compute()[4:].tolist(), [0, 0])
        os.rmdir(os.path.join(folder, "y", "c", "1"))
        os.mkfifo(os.path.join(folder, "y", "c", "1"))
        with self.assertRaises(cengmoat.TaskFailed) as found:
            both.compute()
        self.assertEqual((found.exception.op, found.exception.task), (0, 1))
        with open(os.path.join(folder, "y", "zarr.json"), "w", encoding="utf-8") as file:
            file.write("{}")
        with self.assertRaises(cengmoat.BadMetadata) as meta:
            both.compute()
        self.assertEqual((meta.exception.name, meta.exception.code), ("y", 2))
        # (which files are chunks isn't known without it)
        self.assertRaises(cengmoat.NotRemoved, self.here.remove, "y", inputs=True)
        shutil.rmtree(os.path.join(folder, "y"))
        self.assertRaises(cengmoat.NoArray, both.compute)
        self.assertEqual(self.here.names(), ["t"])

    def test_what_is_in_the_way(self) -> None:
        self.assertRaises(cengmoat.Exists, (self.t + 1).store, "t")
        z = (self.t + 1).store("z")
        with self.assertRaises(cengmoat.Exists) as found:
            (self.t + 1).store("z")
        self.assertEqual(found.exception.key, "_cubed/z/plan.json")
        self.assertRaises(cengmoat.Exists, self.here.save, "z", np.arange(3))
        self.here.remove("z")
        self.assertRaises(cengmoat.NoArray, z.compute)
        self.same((self.t + 1).store("z").compute(), np.arange(1, 7, dtype="int32"))
        with open(os.path.join(self.here.folder, "w"), "w", encoding="utf-8"):
            pass
        self.assertRaises(cengmoat.StoreFailed, (self.t + 1).store, "w")

    def test_checks(self) -> None:
        doubled = self.t * 2
        doubled.store("d")
        self.assertEqual(doubled.check("d"), 6)
        self.assertEqual(((self.t + self.t)).check("d"), 6)
        with self.assertRaises(cengmoat.Unequal) as found:
            (self.t * self.t).check("d")
        self.assertEqual((found.exception.place, found.exception.stored, found.exception.plain), (1, 2, 1))
        self.assertEqual((xp.asarray(np.arange(6, dtype="int32")) + self.t).check("d"), 6)
        self.assertRaises(cengmoat.NoArray, doubled.check, "nothing")


if __name__ == "__main__":
    unittest.main()
