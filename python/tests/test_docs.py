"""The blocks of the package's page, one after another, each with the text that it prints; and the install without the network."""
from __future__ import annotations

import contextlib
import importlib.util
import io
import os
import re
import shutil
import subprocess
import sys
import textwrap
import unittest

from .support import PROGRAM, PYTHON, TOP, Case, WithProgram, cengmoat

PAGE = os.path.join(PYTHON, "README.md")


class Blocks(WithProgram):
    maxDiff = None

    def test_blocks_of_the_page(self) -> None:
        with open(PAGE, encoding="utf-8") as file:
            blocks = re.findall(r"^```(\w*)\n(.*?)^```$", file.read(), re.M | re.S)
        self.assertGreater(len(blocks), 20)
        here = os.getcwd()
        os.chdir(self.folder)
        try:
            self.run_blocks(blocks)
        finally:
            os.chdir(here)

    def run_blocks(self, blocks: list[tuple[str, str]]) -> None:
        names: dict[str, object] = {}
        printed = ""
        for kind, text in blocks:
            if kind == "text":
                self.assertEqual(text, printed)
            elif kind == "python":
                if "import xarray" in text:
                    if importlib.util.find_spec("xarray") is None:
                        return
                with contextlib.redirect_stdout(io.StringIO()) as out:
                    exec(compile(text, PAGE, "exec"), names)
                printed = "\n".join(line.rstrip() for line in out.getvalue().splitlines()) + "\n"


class OtherPages(WithProgram):
    def test_blocks_of_the_guide_and_of_the_first_page(self) -> None:
        """Each block that begins with the import of the package runs, and prints what stands behind its calls of print."""
        for page in ("README.md", "docs/GUIDE.md"):
            path = os.path.join(TOP, page)
            if not os.path.isfile(path):
                self.skipTest("the pages lie in the repository")
            with open(path, encoding="utf-8") as file:
                blocks = re.findall(r"^```python\n(import cengmoat.*?)^```$", file.read(), re.M | re.S)
            for block in blocks:
                self.run_block(block, page)

    def run_block(self, block: str, page: str) -> None:
        code = block.replace('"scratch/python"', f'{os.path.join(self.folder, page.replace("/", "-"))!r}, program={PROGRAM!r}')
        with contextlib.redirect_stdout(io.StringIO()) as out:
            exec(compile(code, page, "exec"), {})
        for wanted in re.findall(r"^print\(.*\) +# (\[.*\])$", block, re.M):
            self.assertIn(wanted, out.getvalue(), page)


class Install(Case):
    """`pip install ./python` without the network, setuptools or wheel."""

    def setUp(self) -> None:
        super().setUp()
        if subprocess.run([sys.executable, "-m", "pip", "--version"], capture_output=True).returncode:
            self.skipTest("pip isn't there")
        self.clone = os.path.join(self.folder, "clone")
        shutil.copytree(PYTHON, os.path.join(self.clone, "python"), ignore=shutil.ignore_patterns("tests", "build", "*.egg-info", "__pycache__"))

    def installed(self, *words: str) -> str:
        """Install the package into a folder, and return the folder."""
        target = os.path.join(self.folder, "target")
        command = [sys.executable, "-m", "pip", "install", "--no-index", "--no-deps", "--quiet", "--target", target, *words]
        # (pip's own environment for a build sees no installed packages, so neither setuptools nor wheel)
        ended = subprocess.run([*command, os.path.join(self.clone, "python")], capture_output=True, text=True)
        self.assertEqual(ended.returncode, 0, ended.stderr)
        return target

    def said(self, target: str, code: str) -> str:
        environment = {name: value for name, value in os.environ.items() if name != "CENGMOAT_CUBED"}
        environment |= {"PYTHONPATH": target, "PATH": "/usr/bin:/bin"}
        ended = subprocess.run([sys.executable, "-c", code], env=environment, cwd=self.folder, capture_output=True, text=True)
        self.assertEqual(ended.returncode, 0, ended.stderr)
        return ended.stdout.strip()

    def test_without_a_program(self) -> None:
        target = self.installed()
        code = "import cengmoat; print(cengmoat.__file__, len(cengmoat._texts.TEXTS) > 30)"
        self.assertEqual(self.said(target, code), f"{os.path.join(target, 'cengmoat', '__init__.py')} True")
        self.assertTrue(os.path.isfile(os.path.join(target, "cengmoat", "py.typed")))
        said = self.said(target, textwrap.dedent("""
            import cengmoat, numpy
            t = cengmoat.Store("arrays").save("t", numpy.arange(3))
            try:
                (t + 1).compute()
            except cengmoat.NoProgram as error:
                print(error)
        """))
        for wanted in ("There are two ways out", "pip install ./python", "CENGMOAT_CUBED", "program="):
            self.assertIn(wanted, said)

    def test_with_the_program_of_a_clone(self) -> None:
        built = os.path.join(self.clone, "crates", "cu_bin", "out", "cu_bin")
        os.makedirs(os.path.dirname(built))
        with open(os.path.join(self.clone, "crates.txt"), "w", encoding="utf-8"):
            pass
        shutil.copy(PROGRAM or self.fake_program(""), built)
        target = self.installed()
        shutil.rmtree(self.clone)
        self.assertEqual(self.said(target, "import cengmoat; print(cengmoat.Store('x').program)"), os.path.join(target, "cengmoat", "cubed"))
        [info] = [name for name in os.listdir(target) if name.endswith(".dist-info")]
        with open(os.path.join(target, info, "WHEEL"), encoding="utf-8") as file:
            self.assertIn("Root-Is-Purelib: false\nTag: py3-none-linux", file.read())
        if PROGRAM is not None:
            code = "import cengmoat, numpy; print((cengmoat.Store('b').save('t', numpy.arange(3)) + 1).compute())"
            self.assertEqual(self.said(target, code), "[1 2 3]")

    def test_the_command(self) -> None:
        """pip installs `cubed`, which finds the program of the package, and never takes itself for it."""
        target = self.installed()
        command = os.path.join(target, "bin", "cubed")
        environment = {"PYTHONPATH": target, "PATH": f"{os.path.dirname(command)}:/usr/bin:/bin"}

        def said(*words: str) -> subprocess.CompletedProcess[str]:
            return subprocess.run([command, *words], env=environment, cwd=self.folder, capture_output=True, text=True, timeout=60)

        self.assertEqual(said("--version").stdout.splitlines(), [f"cengmoat {cengmoat.__version__}", "program: isn't here"])
        missing = said("arrays", "plan")
        self.assertEqual((missing.returncode, "the program isn't here" in missing.stderr), (1, True))
        for named in (command, "cubed"):
            environment["CENGMOAT_CUBED"] = named
            self.assertIn("is the package's own command", said("arrays", "plan").stderr)
        environment["CENGMOAT_CUBED"] = self.fake_program("print(words); sys.exit(9)")
        ended = said("arrays", "plan", "--workers", "3")
        self.assertEqual((ended.stdout.strip(), ended.returncode), ("['arrays', 'plan', '--workers', '3']", 9))

    def test_in_an_environment(self) -> None:
        """As the page says: `python3 -m venv`, then pip of it; and again as an editable one."""
        venv = os.path.join(self.folder, "venv")
        python = "/usr/bin/python3" if os.path.exists("/usr/bin/python3") else sys.executable
        if subprocess.run([python, "-m", "venv", "--system-site-packages", venv], capture_output=True).returncode:
            self.skipTest("venv isn't there")
        for words in ([], ["--editable"]):
            pip = [os.path.join(venv, "bin", "pip"), "install", "--no-index", "--quiet", "--force-reinstall", "--no-deps", *words]
            ended = subprocess.run([*pip, os.path.join(self.clone, "python")], capture_output=True, text=True)
            self.assertEqual(ended.returncode, 0, ended.stderr)
            said = subprocess.run([os.path.join(venv, "bin", "python"), "-c", "import cengmoat; print(cengmoat.__version__)"], cwd=self.folder,
                                  capture_output=True, text=True)
            self.assertEqual(said.stdout.strip(), cengmoat.__version__, said.stderr)


if __name__ == "__main__":
    unittest.main()
