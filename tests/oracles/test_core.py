"""Asks bin/aigprove about a RISC-V core of 2,000 registers, beside ABC's pdr.

The core is picorv32, with the assertions that its author gave it, as Debian's source package
nextpnr has it. apt-get fetches that from where this machine gets its packages. If it can't be had,
the test is skipped. Its assertions hold, as pdr says too, and it is equal to what ABC makes of it.
With one that is wrong, by hand, which says that an instruction is never fetched for a read, the run
has to end where yosys sees that assertion fail, in the first step in which the core fetches: it is
in reset at step 0, asks for its first instruction at step 1, and has its request out at step 2 at
the earliest.
"""
import re
import subprocess
import tarfile

import harness
import pytest
from harness import PROVE
from sources import sources

NAME, PLACE = "picorv32.v", "ice40/benchmark/picorv32.v"
TRUE = "assert (mem_wstrb == 0);"
FALSE = "assert (mem_wstrb != 0);"
ANSWER = "no bad state at any step"
WORDS = ["-D", "FORMAL", "--top", "picorv32"]


def fetched(folder):
    """The text of the core, or None where it can't be had."""
    path = sources("nextpnr", folder)
    if path is None:
        return None
    with tarfile.open(path) as archive:
        member = next(it for it in archive.getmembers() if it.name.endswith(PLACE))
        return archive.extractfile(member).read().decode()


def ended(status, printed):
    """A status, the last line but one, and whether the last says that the assumptions can be
    met."""
    *_, answer, last = ["", "", *printed.splitlines()]
    return status, answer, last.startswith("the assumptions can be met up to step ")


def asked(*words):
    """The status of aigprove, and what it prints on both streams."""
    done = subprocess.run(
        [PROVE, *words], stdout=subprocess.PIPE, stderr=subprocess.STDOUT, encoding="utf-8"
    )
    return done.returncode, done.stdout


@pytest.fixture(scope="module")
def core(tmp_path_factory):
    """A folder with the core, what aigprove keeps of it, and its answer."""
    folder = tmp_path_factory.mktemp("core")
    text = fetched(folder)
    if text is None:
        pytest.skip("the core can't be had")
    (folder / NAME).write_text(text)
    return folder, asked("--keep", folder / "kept", *WORDS, folder / NAME)


pytestmark = [pytest.mark.yosys, pytest.mark.cadical, pytest.mark.abc, pytest.mark.network]


def test_core(core, checks):
    """The assertions of the core hold."""
    folder, (status, printed) = core
    checks.wants("the core", (20, ANSWER, True), ended(status, printed))
    checks.check("picorv32: 23 assertions, 2 assumptions" in printed, printed)
    checks.check(harness.shown_again(folder / "kept") is not None, "what is kept isn't shown again")


@pytest.mark.parametrize("words", [[], ["--engine", "pdr"]], ids=["all engines", "pdr"])
def test_file(core, words):
    """So do those of its file."""
    folder, _ = core
    assert ended(*asked(*words, folder / "kept" / "file.aig")) == (20, ANSWER, True)


def test_rewritten(core):
    """The core is equal to what ABC makes of it."""
    folder, _ = core
    plain, made = folder / "plain.aig", folder / "made.aig"
    words = (
        f"read_aiger {folder}/kept/file.aig; logic; undc; strash; zero; write_aiger {plain}; dc2;"
        f" rewrite; write_aiger {made}"
    )
    harness.output(["berkeley-abc", "-q", words])
    assert asked("-q", "--engine", "registers", "--equal", made, plain) == (
        20, "equal at every step\n",
    )


def test_wrong_assertion(core, folder, checks):
    """One that is wrong fails where yosys sees it fail."""
    text = (core[0] / NAME).read_text()
    line = text[:text.index(TRUE)].count("\n") + 1
    (folder / NAME).write_text(text.replace(TRUE, FALSE, 1))
    status, printed = asked(*WORDS, folder / NAME)
    steps = re.findall("a bad state at step ([0-9]+)", printed)
    checks.check(status == 10 and len(steps) == 1 and int(steps[0]) >= 2, printed)
    checks.check(
        re.search(
            rf"assertion picorv32\S* \(\S*{NAME}:[0-9.]+-{line}\.[0-9]+\) fails, as yosys runs it",
            printed,
        ),
        printed,
    )
