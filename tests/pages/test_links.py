"""Compares the links, the paths and the Rust code in README.md and docs/*.md with the repository.

Each relative link has to lead to a file or folder of the repository, and its anchor to a heading of
that page, by the rule of GitHub. If a link leads to a file of code or definitions, the file has to
contain the names in the text of the link. If a word of a code span is a path relative to the
repository, to crates/, or to specs/, src/ or proofs/ of a crate, it has to lead to a file or
folder. If it is only the name of a file of code, the file has to exist in a crate that the line
names. A part of a path in capitals, or with a star, stands for any name, and the parts after it
aren't checked. If a code span looks like the name of a crate, a function or a type, it has to be
the name of a crate or occur in a file of code. A file of crates/ or examples/ has to contain each
block with the language `rust`. No file of the repository may contain the name of a host, except
that of the AIGER report and that of XML namespaces.
"""
import collections
import re

import harness
import pytest
from harness import TOP

BLOCK = re.compile(r"^```(\w*)[^\n]*\n(.*?)^```$", re.DOTALL | re.MULTILINE)
SPAN = re.compile(r"`([^`]+)`")
FILE = re.compile(r"[\w-]+\.(rt|antt|py|sh|md|tsv|steps)")
ANY = re.compile(r"[A-Z][A-Z_]+(?:\.\w+)?|.*\*.*")
NAME = re.compile(r"[A-Za-z]\w*(?:::\w+)*")
IN_PARTS = re.compile(r"[a-z]+_[a-z\d_]+|AIG_\w+|[A-Z][a-z]+[A-Z]\w*")
OF_CRATES = ("specs", "src", "proofs", "must-fail")
LINK = re.compile(r"\[([^\]]*)\]\(([^)\s]*)\)")
CODE = (".rt", ".antt")
# The kinds of files in which names of code spans may occur.
SOURCES = (".rt", ".antt", ".py", ".h", ".v", ".tsv")
# Files that a reader creates while following a page.
EXAMPLES = ("check.sh",)
# A host in an address, and the hosts that files may name.
HOST, HOSTS = re.compile(r"\w+://([\w.-]+\.[a-z]+)"), ("fmv.jku.at", "www.w3.org")


def anchors(text):
    """Returns the anchors of a page: its headings in lower case, with hyphens instead of spaces and
    without other punctuation."""
    found, times = set(), {}
    for heading in re.findall(r"^#+ +(.*?) *$", BLOCK.sub("", text), re.MULTILINE):
        name = re.sub(r"[^\w\- ]", "", LINK.sub(r"\1", heading).lower()).replace(" ", "-")
        count = times[name] = times.get(name, -1) + 1
        found.add(f"{name}-{count}" if count else name)
    return found


def link_faults(page, text):
    """Yields an error for each link of a page that leads nowhere."""
    for shown, target in LINK.findall(BLOCK.sub("", text)):
        if "://" in target:
            continue
        path, _, anchor = target.partition("#")
        file = (page.parent / path).resolve() if path else page
        if not file.exists() or not file.is_relative_to(TOP):
            yield f"leads nowhere: {target}"
        elif anchor and (file.suffix != ".md" or anchor not in anchors(file.read_text())):
            yield f"no such heading: {target}"
        elif file.suffix in CODE:
            for name in re.findall(r"`(?:\w+::)?([^`\s]+)`", shown):
                if not re.search(rf"(?<!\w){re.escape(name)}(?!\w)", file.read_text()):
                    yield f"{name} doesn't stand in {target}"


class Files:
    """The files and folders of the repository that code spans may name."""

    def __init__(self):
        self.crates = {path.name: path for path in TOP.glob("crates/*") if path.is_dir()}
        self.top = {path.name for path in TOP.iterdir() if path.is_dir() and path.name != ".git"}
        self.named, self.words = collections.defaultdict(list), set(self.crates)
        for folder in ["crates", "tests", "docs", "bench", "examples", "lib", "include"]:
            for path in (TOP / folder).rglob("*"):
                self.named[path.name].append(path)
                if path.suffix in SOURCES and "out" not in path.parts:
                    self.words |= set(re.findall(r"\w+", path.read_text()))

    def leads(self, parts, crates):
        """Returns whether a path leads to a file or folder. A path within a crate has to exist in
        one of the given crates, or in any crate if none is given."""
        if parts[0] in self.top:
            return (TOP / "/".join(parts)).exists()
        if parts[0] in self.crates:
            return (TOP / "crates" / "/".join(parts)).exists()
        return any((crate / "/".join(parts)).exists() for crate in crates or self.crates.values())

    def is_there(self, name, crates):
        """Returns whether a file with this name exists. If it is a file of code and crates are
        given, it has to be in one of these crates."""
        is_code = FILE.fullmatch(name)[1] in ("rt", "antt")
        places = self.named.get(name, ())
        return any(
            not is_code or not crates or any(place.is_relative_to(crate) for crate in crates)
            for place in places
        )

    def name_faults(self, text):
        """Yields an error for each name in a code span that neither is a crate nor occurs in a
        source file."""
        for span in filter(NAME.fullmatch, SPAN.findall(BLOCK.sub("", text))):
            for name in filter(IN_PARTS.fullmatch, span.split("::")):
                if name not in self.words:
                    yield f"no source has this name: {span}"

    def faults(self, text):
        """Yields an error for each path or file name in a code span that doesn't exist."""
        for line in BLOCK.sub("", text).split("\n"):
            crates = []
            for word in (word.strip("/,") for span in SPAN.findall(line) for word in span.split()):
                parts = word.split("/")
                crates += [self.crates[parts[0]]] if parts[0] in self.crates else []
                parts = parts[
                    : next((at for at, part in enumerate(parts) if ANY.fullmatch(part)), len(parts))
                ]
                if len(parts) > 1 and (
                    parts[0] in (*self.top, *self.crates, *OF_CRATES) or parts[0].startswith("aig_")
                ):
                    yield from [f"no such file: {word}"] * (not self.leads(parts, crates))
                elif FILE.fullmatch(word) and word not in EXAMPLES:
                    yield from [f"no such file: {word}"] * (not self.is_there(word, crates))


def rust_faults(text, sources):
    """Yields an error for each block of Rust that no source file contains."""
    for kind, block in BLOCK.findall(text):
        if kind == "rust" and not any(block in source for source in sources):
            yield f"stands in no file of crates/ or examples/: {block.splitlines()[0]}"


def host_faults():
    """Yields an error for each host that a file of the repository names, but must not name.

    Licences of other projects, which are in prebuilt/, are left out."""
    words = ["git", "grep", "-I", "-E", r"[a-z]+://[a-z]", "--", ".", ":!prebuilt/licences"]
    listed = harness.output(words, cwd=TOP)
    for path, text in (line.split(":", 1) for line in listed.splitlines()):
        yield from (
            f"{path}: names the host {host}" for host in HOST.findall(text) if host not in HOSTS
        )


PAGES = [TOP / "README.md", *sorted((TOP / "docs").rglob("*.md"))]


@pytest.fixture(scope="module")
def files():
    """The files and folders of the repository that code spans may name."""
    return Files()


@pytest.fixture(scope="module")
def sources():
    """Returns the texts of the source files that may contain blocks of Rust."""
    return [
        path.read_text()
        for pattern in ["crates/*/src/**/*.rt", "examples/*/*.rt.txt", "examples/*.rs"]
        for path in TOP.glob(pattern)
    ]


@pytest.mark.parametrize("page", PAGES, ids=[str(page.relative_to(TOP)) for page in PAGES])
def test_page(checks, files, sources, page):
    """The links, paths, names and blocks of Rust in a page exist in the repository."""
    text = page.read_text()
    faults = [
        *link_faults(page, text), *files.faults(text), *files.name_faults(text),
        *rust_faults(text, sources),
    ]
    assert not faults, "\n".join(faults)
    checks.passed += 1 + len(LINK.findall(text))


def test_hosts():
    """No file contains the name of a host that isn't allowed."""
    faults = list(host_faults())
    assert not faults, "\n".join(faults)
