"""Source packages of Debian, from where this machine gets its packages."""
from __future__ import annotations

import pathlib
import re

import harness

# The folder of the machine's own lists of package sources, and the word in a line of theirs, of
# either style, that stands for built packages.
LISTS, BUILT = pathlib.Path("/etc/apt"), re.compile(r"^(Types:\s*)?deb(?![\w-])", re.MULTILINE)


def list_sources(folder: pathlib.Path) -> None:
    """Writes the machine's lists of package sources into a folder, with source packages in the
    place of built ones."""
    folder.mkdir()
    parts = LISTS / "sources.list.d"
    for path in [LISTS / "sources.list", *parts.glob("*.list"), *parts.glob("*.sources")]:
        if path.is_file():
            (folder / path.name).write_text(BUILT.sub(r"\1deb-src", path.read_text()))


def sources(package: str, folder: pathlib.Path) -> pathlib.Path | None:
    """The archive of the source package in Debian, which is put into a folder, or None where it
    can't be had."""
    list_sources(folder / "parts")
    (folder / "lists" / "partial").mkdir(parents=True)
    options = {
        "Dir::Etc::sourcelist": "/dev/null",
        "Dir::Etc::sourceparts": folder / "parts",
        "Dir::State::lists": folder / "lists",
    }
    apt = ["apt-get", *(f"-o{name}={value}" for name, value in options.items())]
    for words in [["update"], ["source", "--download-only", package]]:
        if harness.run([*apt, *words], cwd=folder, timeout=300)[0] != 0:
            return None
    return next(folder.glob("*.orig.tar.gz"))
