"""Tests the command line of the script cubed as a person meets it: its version, its help, the completion
of shells, the page for `man`, that no script takes `--help` for a file's name, and the time of a call.

tools/test_scripts.py runs all.
"""
from __future__ import annotations

import glob
import os
import re
import resource
import shutil
import subprocess
import sys
import unittest

import manual
import options
from test_base import TOP, WithProgram, put, run

# The milliseconds of the processor that a call of the script may take beside the program. The least of several calls counts.
MOST_MS, CALLS = 30, 30


class Manual(WithProgram):
    def test_the_files_are_those_of_the_table(self):
        self.assertEqual(manual.held(), manual.files())

    def test_no_words_and_help_say_what_there_is(self):
        self.program("echo the program; exit 7")
        for words in (["-h"], ["--help"], ["help"], [self.top, "--help"], [self.top, "-h"]):
            ended = run(self.script, *words)
            self.assertEqual((ended.returncode, ended.stderr), (0, b""), words)
            for name in (*options.COMMANDS, *options.OTHERS):
                self.assertIn(f"cubed DIR {name}", ended.stdout.decode())
        ended = run(self.script)
        self.assertEqual((ended.returncode, ended.stdout), (2, b""))
        self.assertIn(b"cubed DIR status", ended.stderr)
        # Where the command is left out the answer is the program's.
        ended = run(self.script, self.top)
        self.assertEqual((ended.returncode, ended.stdout, ended.stderr.split(b"\n")[0]), (2, b"", b"error 2 code=1"))
        self.assertIn(b"cubed DIR status", ended.stderr)

    def test_each_command_has_its_own_help(self):
        self.program("echo the program; exit 7")
        for name in (*options.COMMANDS, *options.OTHERS):
            texts = {run(self.script, *words).stdout for words in
                     ([self.top, name, "--help"], [self.top, name, "-h"], [name, "--help"], ["help", name],
                      [self.top, name, "--retries", "2", "--help"])}
            self.assertEqual(len(texts), 1, name)
            told = texts.pop().decode()
            self.assertTrue(told.startswith(f"usage: cubed DIR {name}"), told)
            own = set(re.findall(r"^  --([a-z-]+)", told, re.M))
            self.assertEqual(own, {*options.options_of(name), *(it[2:] for it in options.FLAGS.get(name, ()))})

    def test_behind_the_end_of_the_options_a_word_is_the_programs(self):
        self.program('echo "$*"')
        for words in (["print", "--", "--help"], ["print", "y", "--", "-h"]):
            self.assertEqual(run(self.script, self.top, *words).stdout.decode(), f"{self.top} {' '.join(words)}\n")

    def test_the_version_says_which_program_is_run(self):
        self.program("exit 7")
        put(f"{self.archive}/PROVED.txt", b"cubed 1.2.3 for a kind\n")
        self.assertEqual(run(self.script, "--version").stdout, b"cubed 1.2.3 for a kind\n")
        told = run(f"{TOP}/cubed", "--version")
        self.assertEqual((told.returncode, told.stderr), (0, b""))
        self.assertRegex(told.stdout.decode(), r"^cubed \d+\.\d+\.\d+, commit \w+( with changes)?\nthe program: ")

    @unittest.skipIf(shutil.which("bash") is None, "there is no bash")
    def test_bash_completes(self):
        for name in ("here", "there"):
            os.makedirs(f"{self.top}/{name}")
        os.makedirs(f"{self.top}/_cubed")
        for line, wanted in ((["cubed", "he"], ["help", "here"]), (["cubed", "d", "pri"], ["print"]),
                             (["cubed", "d", "part", "--f"], ["--fusion", "--from"]),
                             (["cubed", "d", "remove", "--"], ["--input", "--dry-run", "--help"]),
                             (["cubed", "d", "print", "--w"], []), (["cubed", "--version", ""], []),
                             (["cubed", "help", "sta"], ["status"]),
                             (["cubed", ".", "print", ""], ["here", "there"])):
            words = " ".join(f"'{word}'" for word in line)
            code = (f"source '{TOP}/tools/manual/cubed.bash'; COMP_WORDS=({words}); COMP_CWORD={len(line) - 1}; "
                    "_cubed; printf '%s\\n' \"${COMPREPLY[@]}\"")
            ended = run("bash", "-c", code, cwd=self.top)
            self.assertEqual(sorted(ended.stdout.decode().split()), sorted(wanted), line)
            self.assertEqual(ended.stderr, b"", line)

    @unittest.skipIf(shutil.which("zsh") is None, "there is no zsh")
    def test_zsh_completes(self):
        code = ("compadd() { shift; print -l -- $@ }; _files() { print files }; "
                f"words=(cubed d part --f); CURRENT=4; source '{TOP}/tools/manual/_cubed'")
        ended = run("zsh", "-c", code)
        self.assertEqual(ended.stderr, b"")
        self.assertLessEqual({"--fusion", "--from", "--help"}, set(ended.stdout.decode().split()))
        self.assertNotIn("--workers", ended.stdout.decode())

    @unittest.skipIf(shutil.which("man") is None, "there is no man")
    def test_man_shows_the_page(self):
        ended = run("man", "--warnings", "-l", f"{TOP}/tools/manual/cubed.1", env={**os.environ, "MANWIDTH": "200"})
        self.assertEqual((ended.returncode, ended.stderr), (0, b""))
        for part in ("cubed DIR part --op O --from A --to B", "--allowed-mem N", "--dry-run"):
            self.assertIn(part, re.sub(r".\x08", "", ended.stdout.decode()).replace("\u2010", "-"))

    def test_no_script_takes_help_for_a_files_name(self):
        count, here = 0, f"{self.room}/here"
        os.mkdir(here)
        for path in sorted(it for place in ("tools", "bench", "compare", "python", "examples", "examples/*")
                           for it in glob.glob(f"{TOP}/{place}/*") if os.path.isfile(it)):
            words = call_of(path)
            if words is None:
                continue
            ended = run(*words, "--help", cwd=here, stdin=None)
            self.assertEqual((ended.returncode, ended.stderr), (0, b""), path)
            self.assertIn(b"usage", ended.stdout, path)
            self.assertEqual(os.listdir(here), [], path)
            count += 1
        self.assertGreater(count, 70)

    def test_a_call_takes_little_time(self):
        """Of a program that ends at once, as it is and by the script with a lock. The file of a text is read twice."""
        self.program("exit 0")
        put(f"{self.room}/text", b'{"nodes":[],"out":"s","store_as":"y"}')

        def spent():
            told = resource.getrusage(resource.RUSAGE_CHILDREN)
            return told.ru_utime + told.ru_stime

        def least(*words):
            found = []
            for _ in range(CALLS):
                with open(f"{self.room}/text", "rb") as text:
                    began = spent()
                    subprocess.run([*words, self.top, "part"], stdin=text, check=True)
                    found.append(spent() - began)
            return min(found) * 1000

        self.assertLess(least(self.script) - least(f"{self.archive}/program/cubed"), MOST_MS)


def call_of(path):
    """The words that call a script, or nothing where a file is none or needs what isn't there."""
    with open(path, encoding="utf-8", errors="replace") as file:
        text = file.read()
    if not text.startswith("#!") and '\nif __name__ == "__main__":' not in text:
        return None
    for module in ("numpy",):
        if re.search(rf"^import {module}\b", text, re.M) and not has(module):
            return None
    return [path] if os.access(path, os.X_OK) else [sys.executable if path.endswith(".py") else "sh", path]


def has(module):
    import importlib.util
    return importlib.util.find_spec(module) is not None


__all__ = ["Manual"]
