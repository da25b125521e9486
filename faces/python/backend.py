"""Builds the package (PEP 517) with the standard library alone. Where lembicsov/libkp.so is there, it is in the wheel, and so is
_native.c, as it is built where there is a C compiler (CC, gcc or clang) and Python's headers."""

from __future__ import annotations

import base64
import hashlib
import io
import os
import platform
import re
import shlex
import shutil
import subprocess
import sys
import sysconfig
import tarfile
import tempfile
import zipfile
from pathlib import Path
from typing import Any

FOLDER = Path(__file__).parent
PROJECT = (FOLDER / "pyproject.toml").read_text(encoding="utf-8")
NAME, VERSION, SUMMARY, PYTHON = (
    re.findall(f'^{key} = "(.*)"$', PROJECT, re.M)[0] for key in ("name", "version", "description", "requires-python")
)
STEM = f"{NAME}-{VERSION}"
NATIVE = "_native.abi3.so"  # By the limited API it serves each Python 3 from 3.9 on.
METADATA = f"""Metadata-Version: 2.1
Name: {NAME}
Version: {VERSION}
Summary: {SUMMARY}
Requires-Python: {PYTHON}
Description-Content-Type: text/markdown

{(FOLDER / "README.md").read_text(encoding="utf-8")}"""


def package() -> list[Path]:
    """The files of the package."""
    return [path for path in sorted((FOLDER / NAME).iterdir()) if path.suffix in (".py", ".typed", ".so")]


def build_native(library: Path) -> bool:
    """Builds _native.c, as this library: whether that is done. Where it is not, the package is slower."""
    headers = sysconfig.get_path("include")
    compiler = os.environ.get("CC") or shutil.which("gcc") or shutil.which("clang")
    lacking = "C compiler" if compiler is None else None if Path(headers, "Python.h").exists() else "header Python.h"
    if compiler is None or lacking:
        print(f"{NAME}: _native.c is left out, since there is no {lacking}", file=sys.stderr)
        return False
    flags = ["-std=c11", "-O2", "-Werror=implicit-function-declaration", *shlex.split(os.environ.get("CFLAGS", ""))]
    flags += ["-fPIC", "-shared", f"-I{headers}"]
    return subprocess.run([*shlex.split(compiler), *flags, "-o", library, FOLDER / "_native.c"]).returncode == 0


def platform_of(libraries: list[bytes]) -> str:
    """That of the oldest C library which has all that these want; installers know these from version 2.17 on."""
    found = re.findall(rb"GLIBC_(\d+)\.(\d+)", b"".join(libraries))
    major, minor = max([(2, 17), *((int(major), int(minor)) for major, minor in found)])
    return f"manylinux_{major}_{minor}_{platform.machine()}"


def build_wheel(folder: str, settings: dict[str, Any] | None = None, metadata: str | None = None) -> str:
    files = {f"{NAME}/{path.name}": path.read_bytes() for path in package()}
    with tempfile.TemporaryDirectory() as room:
        native = Path(room, NATIVE)
        if build_native(native):
            files[f"{NAME}/{NATIVE}"] = native.read_bytes()
    libraries = [held for name, held in files.items() if name.endswith(".so")]
    tag = f"py3-none-{platform_of(libraries) if libraries else 'any'}"
    about = f"Wheel-Version: 1.0\nGenerator: {NAME}\nRoot-Is-Purelib: {str(not libraries).lower()}\nTag: {tag}\n"
    files.update({f"{STEM}.dist-info/METADATA": METADATA.encode(), f"{STEM}.dist-info/WHEEL": about.encode()})
    record = f"{STEM}.dist-info/RECORD"
    rows = [f"{record},,\n"]
    for path, held in files.items():
        digest = base64.urlsafe_b64encode(hashlib.sha256(held).digest()).rstrip(b"=").decode()
        rows.append(f"{path},sha256={digest},{len(held)}\n")
    files[record] = "".join(rows).encode()
    with zipfile.ZipFile(Path(folder) / f"{STEM}-{tag}.whl", "w", zipfile.ZIP_DEFLATED) as wheel:
        for path, held in files.items():
            wheel.writestr(path, held)
    return f"{STEM}-{tag}.whl"


def build_sdist(folder: str, settings: dict[str, Any] | None = None) -> str:
    with tarfile.open(Path(folder) / f"{STEM}.tar.gz", "w:gz") as archive:
        entry = tarfile.TarInfo(f"{STEM}/PKG-INFO")
        entry.size = len(METADATA.encode())
        archive.addfile(entry, io.BytesIO(METADATA.encode()))
        for path in [*(FOLDER / name for name in ("pyproject.toml", "backend.py", "README.md", "_native.c")), *package()]:
            archive.add(path, f"{STEM}/{path.relative_to(FOLDER)}")
    return f"{STEM}.tar.gz"
