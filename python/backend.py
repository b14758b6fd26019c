"""The build of the package: a wheel without setuptools, `wheel` or the network.

In a clone whose program is built, the program goes into the wheel, which then is one of this platform. Elsewhere the wheel is pure,
its version ends with `+without.program`, which pip says at its end, and the package says at the first run how to get the program.
"""
from __future__ import annotations

import base64
import hashlib
import io
import os
import re
import runpy
import stat
import sys
import sysconfig
import tarfile
import zipfile
from typing import Any, Iterator, Optional

HERE = os.path.dirname(os.path.abspath(__file__))
PACKAGE = "cengmoat"
# The program as the package looks for it, beside its modules.
BESIDE = f"{PACKAGE}/cubed"
# What the version says behind its number where the program isn't in the wheel: pip shows nothing else of a build.
WITHOUT = "+without.program"
# (a zip file knows no time before)
EPOCH = (1980, 1, 1, 0, 0, 0)
EXECUTABLE, PLAIN = 0o755, 0o644


def _settings() -> dict[str, str]:
    """Return the texts of pyproject.toml's project, read line by line, since Python 3.9 has no reader of TOML."""
    with open(os.path.join(HERE, "pyproject.toml"), encoding="utf-8") as file:
        table = file.read().partition("[project]")[2].partition("\n[")[0]
    return dict(re.findall(r'^([\w-]+) = "(.*)"$', table, re.M))


def _scripts() -> str:
    """Return the commands that pip installs, as a wheel says them."""
    with open(os.path.join(HERE, "pyproject.toml"), encoding="utf-8") as file:
        table = file.read().partition("[project.scripts]")[2].partition("\n[")[0]
    found = re.findall(r'^([\w-]+) = "(.*)"$', table, re.M)
    return "\n".join(["[console_scripts]", *(f"{name} = {call}" for name, call in found), ""])


def _lists(name: str, table: str = "project") -> list[str]:
    with open(os.path.join(HERE, "pyproject.toml"), encoding="utf-8") as file:
        text = file.read().partition(f"[{table}]")[2].partition("\n[")[0]
    found = re.search(rf"^{name} = \[(.*?)\]", text, re.M | re.S)
    return re.findall(r'"(.*?)"', found[1]) if found else []


def _sources() -> Iterator[str]:
    """Go over the files of the package, relative to this folder."""
    for at, folders, files in os.walk(os.path.join(HERE, PACKAGE)):
        folders[:] = sorted(name for name in folders if name != "__pycache__")
        for name in sorted(files):
            if name.endswith((".py", ".md", ".typed")):
                yield os.path.relpath(os.path.join(at, name), HERE)


def _program() -> Optional[str]:
    """Return the path of the program that is built in the clone, and not older than its sources."""
    # (by its path: the package itself needs NumPy, which isn't here)
    finding = runpy.run_path(os.path.join(HERE, PACKAGE, "_finding.py"))
    try:
        found: Optional[str] = finding["built_program"](os.path.dirname(HERE))
        return found
    except LookupError as missing:
        print(f"cengmoat: {missing}; the package is installed without the program", file=sys.stderr, flush=True)
        return None


def _metadata(settings: dict[str, str]) -> str:
    lines = ["Metadata-Version: 2.1", f"Name: {settings['name']}", f"Version: {settings['version']}", f"Summary: {settings['description']}",
             f"Requires-Python: {settings['requires-python']}", *(f"Classifier: {it}" for it in _lists("classifiers")),
             *(f"Requires-Dist: {it}" for it in _lists("dependencies"))]
    for extra in ("progress",):
        lines += [f"Provides-Extra: {extra}",
                  *(f"Requires-Dist: {it}; extra == '{extra}'" for it in _lists(extra, "project.optional-dependencies"))]
    with open(os.path.join(HERE, "README.md"), encoding="utf-8") as file:
        return "\n".join([*lines, "Description-Content-Type: text/markdown", "", file.read()])


class _Wheel:
    """A wheel that is being written: its files, and the list of them that stands at its end."""

    def __init__(self, folder: str, platform: str = "any", build: str = "", more: str = "") -> None:
        self.settings = _settings()
        self.settings["version"] += more
        self.tag, self.build = f"py3-none-{platform}", build
        self.head = f"{self.settings['name']}-{self.settings['version']}"
        self.name = "-".join(filter(None, (self.head, build, self.tag))) + ".whl"
        self.is_pure = platform == "any"
        self.rows: list[str] = []
        self.file = zipfile.ZipFile(os.path.join(folder, self.name), "w", zipfile.ZIP_DEFLATED)

    def put(self, name: str, data: bytes, mode: int = PLAIN) -> None:
        info = zipfile.ZipInfo(name, EPOCH)
        info.external_attr, info.compress_type = (stat.S_IFREG | mode) << 16, zipfile.ZIP_DEFLATED
        self.file.writestr(info, data)
        digest = base64.urlsafe_b64encode(hashlib.sha256(data).digest()).rstrip(b"=").decode()
        self.rows.append(f"{name},sha256={digest},{len(data)}")

    def close(self) -> str:
        """Write what describes the wheel, and return its name."""
        info = f"{self.head}.dist-info"
        self.put(f"{info}/METADATA", _metadata(self.settings).encode())
        pure = "true" if self.is_pure else "false"
        self.put(f"{info}/WHEEL", (f"Wheel-Version: 1.0\nGenerator: cengmoat\nRoot-Is-Purelib: {pure}\nTag: {self.tag}\n"
                 + (f"Build: {self.build}\n" if self.build else "")).encode())
        self.put(f"{info}/entry_points.txt", _scripts().encode())
        self.rows.append(f"{info}/RECORD,,")
        self.file.writestr(zipfile.ZipInfo(f"{info}/RECORD", EPOCH), "\n".join(self.rows) + "\n")
        self.file.close()
        return self.name


def _read(path: str) -> bytes:
    with open(path, "rb") as file:
        return file.read()


def _closed(wheel: _Wheel, program: Optional[bytes], said: str = "") -> str:
    """Write a wheel's files, with the program where there is one and what is said of it, and return its name."""
    for name in _sources():
        wheel.put(name, _read(os.path.join(HERE, name)))
    if program is not None:
        wheel.put(BESIDE, program, EXECUTABLE)
    if said:
        wheel.put(f"{PACKAGE}/PROVED.txt", said.encode())
    return wheel.close()


def wheel_with(folder: str, program: bytes, platform: str, build: str, said: str) -> str:
    """Build a wheel with a program for a platform, with a number of its build and what is said of the program, and return its name."""
    return _closed(_Wheel(folder, platform, build), program, said)


def build_wheel(wheel_directory: str, config_settings: Optional[dict[str, Any]] = None, metadata_directory: Optional[str] = None) -> str:
    """Build a wheel, with the program where it is built, and return its name."""
    program = _program()
    if program is None:
        return _closed(_Wheel(wheel_directory, more=WITHOUT), None)
    return _closed(_Wheel(wheel_directory, re.sub(r"[-.]", "_", sysconfig.get_platform())), _read(program))


def build_editable(wheel_directory: str, config_settings: Optional[dict[str, Any]] = None, metadata_directory: Optional[str] = None) -> str:
    """Build a wheel that leads here, and return its name."""
    wheel = _Wheel(wheel_directory)
    wheel.put(f"__editable__.{PACKAGE}.pth", f"{HERE}\n".encode())
    return wheel.close()


def build_sdist(sdist_directory: str, config_settings: Optional[dict[str, Any]] = None) -> str:
    """Build an archive of the sources, and return its name."""
    settings = _settings()
    head = f"{settings['name']}-{settings['version']}"
    with tarfile.open(os.path.join(sdist_directory, f"{head}.tar.gz"), "w:gz") as archive:
        for name in ("pyproject.toml", "backend.py", "README.md", *_sources()):
            archive.add(os.path.join(HERE, name), f"{head}/{name}")
        info = tarfile.TarInfo(f"{head}/PKG-INFO")
        data = _metadata(settings).encode()
        info.size = len(data)
        archive.addfile(info, io.BytesIO(data))
    return f"{head}.tar.gz"
