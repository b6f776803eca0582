"""Builds a Debian package, by running dpkg-deb on a folder."""
from __future__ import annotations

import os
import pathlib
import subprocess
import tempfile

from aigprove.release import Release
from dist import NAME, SUMMARY
from dist.files import File, Tree, packed, write
from dist.layout import DOCUMENTS, pkg_config

ARCHITECTURE, TRIPLE = "amd64", "x86_64-linux-gnu"
# The folders below a prefix that have other paths in Debian. They need no path to the libraries
# there.
PLACES = {
    "lib/lib": f"usr/lib/{TRIPLE}/lib",
    "lib/pkgconfig/": f"usr/lib/{TRIPLE}/pkgconfig/",
    "lib/python/": "usr/lib/python3/dist-packages/",
    "share/zsh/site-functions/": "usr/share/zsh/vendor-completions/",
    f"{DOCUMENTS}/LICENSE": f"usr/{DOCUMENTS}/copyright",
    f"{DOCUMENTS}/CHANGELOG.md": f"usr/{DOCUMENTS}/changelog",
}
# The files that are compressed by gzip in Debian.
PACKED = ("usr/share/man/", f"usr/{DOCUMENTS}/changelog")
# The folders with Python modules, which are compiled when the package is installed.
COMPILED = "/usr/lib/aigprove"
SCRIPTS = {
    "postinst": f"""#!/bin/sh
set -e
if [ "$1" = configure ] && command -v py3compile > /dev/null; then
  py3compile -p {NAME} {COMPILED}
  py3compile -p {NAME}
fi
ldconfig
""",
    "prerm": f"""#!/bin/sh
set -e
if command -v py3clean > /dev/null; then
  py3clean -p {NAME}
fi
find {COMPILED} -name __pycache__ -prune -exec rm -r {{}} +
""",
    "postrm": "#!/bin/sh\nset -e\nldconfig\n",
}
CONTROL = """Package: {name}
Version: {version}
Architecture: {architecture}
Maintainer: {maintainer}
Installed-Size: {kilobytes}
Depends: python3 (>= 3.10), libc6 (>= {glibc})
Recommends: yosys, cadical, berkeley-abc
Section: electronics
Priority: optional
Description: {summary}
 aigprove asks SAT solvers and ABC whether a design in Verilog, or a circuit
 in the AIGER format, can reach a bad state. Each answer is checked by
 aigcheck, which is proved correct. aigedit and aigtool change and convert
 files. The library does the same from C, C++ and Python.
 .
 The programs need a processor of the level x86-64-v2.
"""


def placed(path: str) -> str:
    """Returns where a file of a prefix lies in Debian."""
    for place, other in PLACES.items():
        if path.startswith(place):
            return other + path.removeprefix(place)
    return f"usr/{path}"


def data(tree: Tree, time: int) -> Tree:
    """Returns the files of the package."""
    found = {placed(path): it for path, it in tree.items()}
    found[placed("lib/pkgconfig/aig.pc")] = pkg_config("/usr", f"lib/{TRIPLE}", "")
    return {f"{path}.gz" if path.startswith(PACKED) else path:
            File(packed(it.data, time)) if path.startswith(PACKED) and isinstance(it, File) else it
            for path, it in found.items()}


def control(found: Tree, known: Release, maintainer: str, glibc: tuple[int, int]) -> Tree:
    """Returns the control files of the package, and the scripts that dpkg runs."""
    size = sum(len(it.data) for it in found.values() if isinstance(it, File))
    text = CONTROL.format(
        name=NAME, version=known.version, architecture=ARCHITECTURE, maintainer=maintainer,
        kilobytes=-(-size // 1024), glibc="{}.{}".format(*glibc), summary=SUMMARY)
    return {"DEBIAN/control": File(text.encode()),
            **{f"DEBIAN/{name}": File(script.encode(), True) for name, script in SCRIPTS.items()}}


def package(found: Tree, head: Tree, time: int) -> bytes:
    """Returns the package of these files."""
    with tempfile.TemporaryDirectory() as name:
        folder, made = pathlib.Path(name, "package"), pathlib.Path(name, "package.deb")
        folder.mkdir(mode=0o755)
        write({**found, **head}, folder)
        for path in [folder, *folder.rglob("*")]:
            if path.is_dir():
                path.chmod(0o755)
            os.utime(path, (time, time), follow_symlinks=False)
        words = ["dpkg-deb", "--root-owner-group", "-Zxz", "--build", str(folder), str(made)]
        environment = {**os.environ, "SOURCE_DATE_EPOCH": str(time)}
        subprocess.run(words, check=True, stdout=subprocess.DEVNULL, env=environment)
        return made.read_bytes()
