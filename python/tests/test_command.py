"""What is at hand: the command, the log of calls, and the picture of a plan."""
from __future__ import annotations

import contextlib
import io
import json
import logging
import os
import re
import subprocess
import sys
import unittest
import xml.etree.ElementTree as ET
from unittest import mock

from cengmoat.__main__ import USAGE, main

from .support import PROGRAM, PYTHON, TOP, Case, WithProgram, cengmoat, np

SVG = "{http://www.w3.org/2000/svg}"


def ran(*words: str) -> tuple[int, str, str]:
    """Return the status and the texts of a command that runs in this process."""
    with contextlib.redirect_stdout(io.StringIO()) as out, contextlib.redirect_stderr(io.StringIO()) as errors:
        status = main(words)
    return status, out.getvalue(), errors.getvalue()


class Command(Case):
    def test_status_and_remove(self) -> None:
        here = self.store()
        here.save("t", np.arange(6, dtype="int16"), 4)
        here.save("u", np.arange(3))
        self.assertEqual(ran(here.folder, "status"), (0, f"{here.status()}\n", ""))
        status, said, _ = ran(here.folder, "status", "t")
        self.assertEqual((status, said.splitlines()[2].split()[:2], "u" in said.split()), (0, ["t", "int16"], False))
        status, _, errors = ran(here.folder, "status", "v")
        self.assertEqual((status, "it has t, u" in errors), (8, True))
        status, _, errors = ran(here.folder, "remove", "t")
        self.assertEqual((status, "no record of a run" in errors, here.names()), (1, True, ["t", "u"]))
        status, said, _ = ran(here.folder, "remove", "t", "--input", "--dry-run")
        self.assertEqual((status, said.splitlines(), here.names()), (0, ["would remove t/zarr.json", "would remove t/c/0", "would remove t/c/1"], ["t", "u"]))
        self.assertEqual((ran(here.folder, "remove", "t", "--input"), here.names()), ((0, "", ""), ["u"]))

    def test_other_words(self) -> None:
        status, said, _ = ran("--version")
        self.assertEqual((status, said.splitlines()[0]), (0, f"cengmoat {cengmoat.__version__}"))
        self.assertEqual(ran("--help")[0], 0)
        self.assertIn("uncompressed", ran("explain", "7", "code=8")[1])
        self.assertIn("the system had no memory", ran("explain", "70")[1])
        for words in ((), ("DIR",), ("DIR", "stauts"), ("explain",), ("explain", "x"), ("DIR", "status", "a", "b"), ("DIR", "remove")):
            status, said, errors = ran(*words)
            self.assertEqual((status, said), (2, ""), words)
            self.assertTrue(errors, words)

    def test_help(self) -> None:
        """It is asked for as of the script, and names the same commands."""
        with open(os.path.join(TOP, "tools", "manual", "help"), encoding="utf-8") as file:
            script = set(re.findall(r"^  cubed DIR ([a-z]+)", file.read(), re.M)) - {"explain"}
        told = {it for said in re.findall(r"^  cubed DIR ([a-z|]+)", USAGE, re.M) for it in said.split("|")}
        self.assertEqual(told, script)
        for words in (("help",), ("help", "run"), ("-h",), ("DIR", "--help"), ("run", "--help"), ("DIR", "run", "--workers", "2", "-h"), ("DIR", "status", "-h")):
            self.assertEqual(ran(*words), (0, f"{USAGE}\n", ""), words)
        self.assertEqual(ran(self.folder, "status", "--", "-h")[0], 2)

    def test_the_program_gets_words_and_streams(self) -> None:
        program = self.fake_program("print(words, sys.stdin.read()); sys.stderr.write('said'); sys.exit(14)")
        ended = subprocess.run([sys.executable, "-m", "cengmoat", "DIR", "plan", "--workers", "2"], input="text", capture_output=True, text=True,
                               env={**os.environ, "PYTHONPATH": PYTHON, "CENGMOAT_CUBED": program})
        self.assertEqual((ended.returncode, ended.stdout, ended.stderr), (14, "['DIR', 'plan', '--workers', '2'] text\n", "said"))

    def test_the_command_on_the_path_is_passed_over(self) -> None:
        own, other = (os.path.join(self.folder, name) for name in ("own", "other"))
        for folder, text in ((own, "#!/usr/bin/python3\nimport sys\nfrom cengmoat.__main__ import main\n"), (other, "#!/bin/sh\nexit 3\n")):
            os.mkdir(folder)
            path = os.path.join(folder, "cubed")
            with open(path, "w", encoding="utf-8") as file:
                file.write(text)
            os.chmod(path, 0o755)
        with mock.patch.dict(os.environ, {"PATH": f"{own}{os.pathsep}{other}"}):
            self.assertEqual(cengmoat._program._on_path(), os.path.join(other, "cubed"))
        with mock.patch.dict(os.environ, {"PATH": own}):
            self.assertIsNone(cengmoat._program._on_path())
        self.assertRaises(cengmoat.NoProgram, cengmoat.Store, self.folder, program=os.path.join(own, "cubed"))


class Log(Case):
    def test_each_call_is_told(self) -> None:
        here = self.store(program=self.fake_program("sys.exit(3)"))
        x = here.save("x", np.arange(3)) + 1
        with self.assertLogs("cengmoat", logging.INFO) as found:
            self.assertRaises(cengmoat.Stopped, x.plan)
        [line] = found.output
        self.assertRegex(line, rf"^INFO:cengmoat:{here.program} {here.folder} plan .*: status 3 in [0-9.]+ s$")
        with self.assertNoLogs("cengmoat", logging.INFO) if hasattr(self, "assertNoLogs") else contextlib.nullcontext():
            self.same(here["x"].compute(), np.arange(3))


class Picture(WithProgram):
    def test_a_plan_as_a_graph(self) -> None:
        here = self.store(split_every=2)
        x = here.save("x", np.arange(4096, dtype="int16").reshape(64, 64), (8, 64))
        y = here.save("y", np.arange(64, dtype="int16"))
        lazy = (x * y > 3).astype("int8").sum(axis=0)
        plan = lazy.plan()
        self.assertGreater(len(plan), 1)
        top = ET.fromstring(plan.svg())
        heads = [it.text for it in top.iter(f"{SVG}text") if it.get("class") == "head"]
        self.assertEqual(heads, ["x", "y", *(f"op {it.number} {it.kind}" for it in plan), "result"])
        labels = sorted(it.text or "" for it in top.iter(f"{SVG}text") if it.get("class") == "bytes")
        sizes = {"x": "8.00 KiB", "y": "128 B", **{f"op {it.number}": cengmoat._sizes.bytes_text(it.nbytes) for it in plan}}
        wanted = [sizes[name] for it in plan for name in it.reads] + [sizes[f"op {plan.operations[-1].number}"]]
        self.assertEqual(labels, sorted(wanted))
        titles = [it.text or "" for it in top.iter(f"{SVG}title")]
        self.assertTrue(any("(x * y) > 3" in it for it in titles), titles)
        # what stands in a later column is read from earlier ones alone
        corners = [(float(it.get("x") or 0), float(it.get("y") or 0)) for it in top.iter(f"{SVG}rect")]
        self.assertEqual(len(corners), len(set(corners)))
        self.assertEqual(max(x for x, _ in corners), corners[-1][0])

    def test_the_program_by_the_module(self) -> None:
        here = self.store()
        here.save("x", np.arange(3, dtype="int16"))
        text = json.dumps({"nodes": [{"id": "a", "op": "input", "name": "x"}, {"id": "b", "op": "negative", "args": ["a"]}], "out": "b", "store_as": "z"})
        ended = subprocess.run([sys.executable, "-m", "cengmoat", here.folder, "run"], input=text, capture_output=True, text=True,
                               env={**os.environ, "PYTHONPATH": PYTHON, "CENGMOAT_CUBED": str(PROGRAM)})
        self.assertEqual((ended.returncode, ended.stdout[:3]), (0, "ok "), ended.stderr)
        self.same(here.read("z"), np.array([0, -1, -2], "int16"))


if __name__ == "__main__":
    unittest.main()
