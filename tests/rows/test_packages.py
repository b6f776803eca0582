"""Installs each package into a fresh root, asks about a design, and removes the package.

The root has no network, no toolchain and no repository. A design with a bug and one without have
to get their answers there, and nothing may be left when the package is removed. Each test prints
how long these steps take."""
from __future__ import annotations

import hashlib
import json
import os
import pathlib
import shutil
import site
import subprocess
import sys
from collections.abc import Iterator
from typing import NamedTuple

import fresh_root
import harness
import pytest
from dist.files import Link
from dist.layout import environment
from fresh_root import PATH
from harness import TOP, Checks

# What is printed of the design with a bug, and of the one without.
ANSWERS = """a bad state at step 3: b0
status 10
no bad state at any step
status 20
"""
# Marks a moment of a script.
MARK = """mark() { echo "$1 $(date +%s.%N)" >> given/times; }
"""
# Asks about both designs by the program $1, and marks when each answer came.
ASK = """asked() {
  program=$1; shift
  "$program" -q "$@" given/credits.v > printed && status=0 || status=$?
  head -n 1 printed
  echo "status $status"
}
asked aigprove --engine steps
mark bug
asked aigprove --engine steps,windows --parameter GUARDED=1
mark proof
"""
# What dpkg and its triggers write of any package.
BOOKS = ("./var/lib/dpkg/", "./var/log/dpkg.log", "./var/cache/man/", "./var/cache/ldconfig/",
         "./etc/ld.so.cache", "./var/log/alternatives.log")
# A registry of crates in a folder, in the place of the one in the network.
REGISTRY = """[source.crates-io]
replace-with = "folder"
[source.folder]
local-registry = "../given/registry"
"""
MANIFEST = """[package]
name = "offline"
version = "0.0.0"
edition = "2021"
[dependencies]
aig = "=VERSION"
"""


class Packages(NamedTuple):
    """A folder with all packages, and the version that they are of."""

    folder: pathlib.Path
    version: str

    def path(self, pattern: str) -> pathlib.Path:
        """Returns the only package whose name fits."""
        found, = self.folder.glob(pattern)
        return found


class Root(NamedTuple):
    """What is given to a fresh root, and the checks of what is done there."""

    given: pathlib.Path
    checks: Checks

    def run(self, what: str, script: str, wanted: str, path: str = PATH) -> list[str]:
        """Runs a script, which has to print what is wanted, and prints how long its parts took;
        returns the paths of what is left."""
        found = fresh_root.enter(MARK + "mark start\n" + script, self.given, path)
        self.checks.wants(what, (0, wanted, ""), (found[0], found[1].decode(), found[2].decode()))
        moments = [line.split() for line in (self.given / "times").read_text().splitlines()]
        spans = zip(moments, moments[1:])
        times = [f"{name} {float(end) - float(start):.1f} s" for (_, start), (name, end) in spans]
        print(f"{what}: {', '.join(times)}")
        left = (self.given / "left").read_text(encoding="utf-8").splitlines()
        return [path for path in left if not path.startswith(BOOKS)]


@pytest.fixture(scope="module")
def packages() -> Iterator[Packages]:
    """All packages, as ./dist makes them of what was built."""
    with harness.new_folder() as folder:
        subprocess.run([TOP / "dist", folder], check=True, stdout=subprocess.DEVNULL)
        listed, = folder.glob("*.spdx.json")
        yield Packages(folder, listed.name.split("-")[1].removesuffix(".spdx.json"))


@pytest.fixture
def root(checks: Checks, folder: pathlib.Path) -> Root:
    """A fresh root with the design."""
    if why := fresh_root.why_not():
        pytest.skip(why)
    shutil.copy(TOP / "examples" / "credits.v", folder)
    return Root(folder, checks)


def given(root: Root, package: pathlib.Path) -> str:
    """Puts a package into a root, and returns its path there."""
    shutil.copy(package, root.given)
    return f"given/{package.name}"


# Lists an environment of Python's.
LISTED = "find made ! -path '*/__pycache__/*' | sort"
# A call of the library from Python, and what it prints.
PYTHON = r"""import aig
print(aig.text(b"aag 1 1 0 1 0\n2\n3\n"))
"""
PRINTED = r"b'aag 1 1 0 1 0\n2\n3\n'" + "\n"


def calling(python: str) -> str:
    """Returns the part of a script that calls the library by this Python."""
    return f"cat > calling.py <<'end'\n{PYTHON}end\n{python} calling.py\nmark library\n"


def test_python_links(monkeypatch: pytest.MonkeyPatch, checks: Checks) -> None:
    """An installation is found by a Python that looks below its prefix, without a variable."""
    version = "python{}.{}".format(*sys.version_info[:2])
    sites = [f"/usr/local/lib/{version}/dist-packages", "/usr/lib/python3/dist-packages"]
    monkeypatch.setattr(site, "getsitepackages", lambda: sites)
    own = {f"lib/{version}/site-packages/aig": Link("../../python/aig")}
    other = {f"lib/{version}/dist-packages/aig": Link("../../python/aig")}
    wanted = {"/usr/local": own | other, "/opt/aig": own}
    for prefix, links in wanted.items():
        checks.wants(f"links below {prefix}", links, environment(pathlib.Path(prefix)))


@pytest.mark.root
@pytest.mark.yosys
@pytest.mark.cadical
def test_tarball(packages: Packages, root: Root) -> None:
    """A folder that is unpacked anywhere, and removed by rm."""
    name = given(root, packages.path("*.tar.gz"))
    script = f"tar -xzf {name}\nPATH=$HOME/aig-{packages.version}/bin:$PATH\nmark installed\n{ASK}"
    script += calling(f"PYTHONPATH=$HOME/aig-{packages.version}/lib/python python3")
    script += f"rm -r aig-{packages.version}\nmark removed\n"
    left = root.run("tarball", script, ANSWERS + PRINTED)
    root.checks.wants("what is left", [], left)


@pytest.mark.root
@pytest.mark.debian
@pytest.mark.yosys
@pytest.mark.cadical
def test_debian(packages: Packages, root: Root) -> None:
    """A package that dpkg installs and removes."""
    name = given(root, packages.path("*.deb"))
    script = f"dpkg -i {name} > /dev/null 2>&1\nmark installed\n{ASK}{calling('/usr/bin/python3')}"
    script += "dpkg --purge aig > /dev/null 2>&1\nmark removed\ntest ! -e /usr/bin/aigprove\n"
    left = root.run("Debian package", script, ANSWERS + PRINTED)
    root.checks.wants("what is left", [], left)


@pytest.mark.root
@pytest.mark.pip
@pytest.mark.yosys
@pytest.mark.cadical
def test_wheel(packages: Packages, root: Root) -> None:
    """A wheel that pip installs into an environment, and removes."""
    try:
        import ensurepip  # noqa: F401
    except ImportError:
        pytest.skip("not installed: pip and environments of Python (python3-venv)")
    name, python = given(root, packages.path("*.whl")), os.path.realpath(sys.executable)
    script = f"{python} -m venv made\n{LISTED} > before\nmark environment\n"
    script += f"made/bin/pip --quiet --disable-pip-version-check install --no-index {name}\n"
    script += f"PATH=$HOME/made/bin:$PATH\nmark installed\n{ASK}{calling('made/bin/python')}"
    script += "made/bin/pip --quiet uninstall --yes aig\nmark removed\n"
    script += f"{LISTED} | diff before -\n"
    left = root.run("wheel", script, ANSWERS + PRINTED)
    root.checks.wants("what is left", [], left)


@pytest.mark.root
@pytest.mark.cargo
@pytest.mark.rust
def test_crate(packages: Packages, root: Root) -> None:
    """A crate that cargo takes from a folder, and builds a program with."""
    crate = packages.path("*.crate")
    registry, project = root.given / "registry", root.given / "offline"
    (registry / "index" / "3" / "a").mkdir(parents=True)
    shutil.copy(crate, registry)
    row = {"name": "aig", "vers": packages.version, "deps": [], "features": {}, "yanked": False,
           "cksum": hashlib.sha256(crate.read_bytes()).hexdigest(), "links": "aig"}
    (registry / "index" / "3" / "a" / "aig").write_text(json.dumps(row))
    for path, text in {"Cargo.toml": MANIFEST.replace("VERSION", packages.version),
                       ".cargo/config.toml": REGISTRY,
                       "src/main.rs": (harness.TESTS / "clients/offline.rs").read_text()}.items():
        (project / path).parent.mkdir(parents=True, exist_ok=True)
        (project / path).write_text(text, encoding="utf-8")
    tools = harness.output(["rustc", "--print", "sysroot"]).strip()
    script = "cp -r given/offline .\ncd offline\nexport CARGO_HOME=$HOME/cargo\n"
    script += "cargo build --offline --quiet\ncd\nmark built\n"
    script += "offline/target/debug/offline\nmark answered\nrm -r offline cargo\nmark removed\n"
    wanted = "b0 is reached at step 1\n" \
        "a proof about the other machine: Status(46): proof step does not follow\n" \
        "no bad state is ever reached\n"
    left = root.run("crate", script, wanted, f"{tools}/bin:/usr/bin:/bin")
    root.checks.wants("what is left", [], left)
