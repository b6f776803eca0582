"""Reads what a program needs from the system that runs it."""
from __future__ import annotations

import os
import pathlib
import re
import subprocess
from collections.abc import Iterable

NEEDED = re.compile(r"\(NEEDED\) .*\[(.*)\]")
SONAME = re.compile(r"\(SONAME\) .*\[(.*)\]")
VERSIONED = re.compile(r"Name: GLIBC_(\d+)\.(\d+)(?:\.\d+)? ")


def told(path: pathlib.Path, *options: str) -> str:
    """Returns the output of readelf for a program or library."""
    words = ["readelf", "--wide", *options, str(path)]
    done = subprocess.run(words, capture_output=True, check=True, env={**os.environ, "LC_ALL": "C"})
    return done.stdout.decode()


def libraries(path: pathlib.Path) -> list[str]:
    """Returns the names of the shared libraries that are loaded with a program."""
    return NEEDED.findall(told(path, "--dynamic"))


def soname(path: pathlib.Path) -> str:
    """Returns the name with which programs refer to a shared library."""
    return "".join(SONAME.findall(told(path, "--dynamic")))


def glibc(paths: Iterable[pathlib.Path]) -> tuple[int, int]:
    """Returns the oldest version of glibc that has all symbols which these programs need."""
    printed = "".join(told(path, "--version-info") for path in paths)
    return max((int(major), int(minor)) for major, minor in VERSIONED.findall(printed))
