"""Packs a wheel: an archive that pip installs, with the programs and the Python modules."""
from __future__ import annotations

import base64
import hashlib
import io
import time
import zipfile

from aigprove.release import Release
from dist import NAME, SUMMARY
from dist.files import File, Tree
from dist.layout import DOCUMENTS

METADATA = """Metadata-Version: 2.1
Name: {name}
Version: {version}
Summary: {summary}
Maintainer: {maintainer}
License: {licence}
Requires-Python: >=3.10
Classifier: Operating System :: POSIX :: Linux
"""
WHEEL = """Wheel-Version: 1.0
Generator: {name}-dist ({version})
Root-Is-Purelib: false
Tag: {tag}
"""
COMMANDS = "[console_scripts]\naigprove = aigprove.command:main\n"
# A Python script, into whose first line pip writes the interpreter.
ANY, OWN = b"#!/usr/bin/env python3\n", b"#!python\n"


def tag(glibc: tuple[int, int]) -> str:
    """Returns the tag of systems that have this version of glibc or a later one."""
    return "py3-none-manylinux_{}_{}_x86_64".format(*glibc)


def placed(path: str, scripts: str, info: str) -> str | None:
    """Returns the path of a file of a prefix in the wheel, or None if the wheel doesn't contain it.
    """
    first, _, rest = path.partition("/")
    if first == "bin":
        return None if rest == "aigprove" else f"{scripts}/{rest}"
    if path.startswith(f"{DOCUMENTS}/"):
        return f"{info}/{path.removeprefix(f'{DOCUMENTS}/')}"
    for place in ["lib/aigprove/", "lib/python/"]:
        if path.startswith(place):
            return path.removeprefix("lib/").removeprefix("python/")
    return "aig/libaig.so" if path.startswith("lib/libaig.so.") else None


def files(tree: Tree, known: Release, maintainer: str, licence: str, systems: str) -> Tree:
    """Returns the files of the wheel, except the list of their sums."""
    stem = f"{NAME}-{known.version}"
    info, scripts = f"{stem}.dist-info", f"{stem}.data/scripts"
    found: dict[str, File] = {}
    for path, it in tree.items():
        place = placed(path, scripts, info)
        if place and isinstance(it, File):
            own = it.data.replace(ANY, OWN, 1) if path.startswith("bin/") else it.data
            found[place] = File(own, it.is_program)
    words = {"name": NAME, "version": known.version, "summary": SUMMARY, "tag": systems,
             "maintainer": maintainer, "licence": licence}
    for name, text in {"METADATA": METADATA, "WHEEL": WHEEL}.items():
        found[f"{info}/{name}"] = File(text.format(**words).encode())
    return {**found, f"{info}/entry_points.txt": File(COMMANDS.encode())}


def record(found: Tree) -> str:
    """Returns the list of the sums of files, in the format of pip."""
    rows = []
    for path, it in sorted(found.items()):
        if isinstance(it, File):
            sum_ = base64.urlsafe_b64encode(hashlib.sha256(it.data).digest()).decode().rstrip("=")
            rows.append(f"{path},sha256={sum_},{len(it.data)}\n")
    return "".join(rows)


def archive(found: Tree, known: Release, seconds: int) -> bytes:
    """Returns the wheel with these files, which all get the same time."""
    path = f"{NAME}-{known.version}.dist-info/RECORD"
    whole: Tree = {**found, path: File((record(found) + f"{path},,\n").encode())}
    made, moment = io.BytesIO(), time.gmtime(max(seconds, 315532800))[:6]
    with zipfile.ZipFile(made, "w", zipfile.ZIP_DEFLATED, compresslevel=9) as file:
        # The files that describe the others come last.
        for name, it in sorted(whole.items(), key=lambda it: (".dist-info/" in it[0], it[0])):
            if isinstance(it, File):
                member = zipfile.ZipInfo(name, moment)
                member.compress_type, member.create_system = zipfile.ZIP_DEFLATED, 3
                member.external_attr = (0o100000 | it.mode) << 16
                file.writestr(member, it.data)
    return made.getvalue()
