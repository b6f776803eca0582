"""Asks bin/aigprove --each about files with many properties, and a simulator or a search about
each.

The designs are those of each/table.txt. Icarus runs the twin for each property by itself, through
all states that its runs come to: that says the first step that reaches it, or that there is none,
as in twins.py. The table of --each --shortest, which ends without a time limit, has to say the
same, the fields in JSON and the cases in JUnit's form too, and check.sh has to show it again.
Beside a property that nobody decides, which has some seconds, no answer may be another one: a run
may be longer, and on a busy machine an answer missing. Then tasks are spread by GNU parallel over
two machines, each of which is a folder here, where a shell takes the place of ssh, and what they
kept is gathered: the table has to be the same, and wrong lines and wrong proofs, which are put
there, have to be refused. Of random files with justice properties the table has to have what
tests/support/lasso_search.py finds by a search over lassos, and over the states that are reached.
The tools are yosys, cadical, ABC, Icarus Verilog (iverilog, vvp) and GNU parallel.
"""
import dataclasses
import json
import os
import re
import shlex
import shutil
import xml.etree.ElementTree as xml

import harness
import lasso_search
import pytest
from harness import PROVE, TESTS
from hypothesis import given
from machines import live_machine
from many_properties import designs
from strategies import cases, made
from trials import fresh

from aigprove.circuits.witness import Witness
from aigprove.output import gather
from aigprove.output.report import PropertyAnswer

TYPES = {
    "version": str,
    "file": str,
    "answer": str,
    "seconds": float,
    "assumptions": dict,
    "properties": list,
}
FIELDS = {
    "property": str,
    "number": int,
    "kind": str,
    "name": str,
    "place": (str, type(None)),
    "answer": str,
    "is_empty": bool,
    "step": (int, type(None)),
    "engine": (str, type(None)),
    "seconds": (float, type(None)),
    "evidence": list,
}
ANSWERS = {
    "assertion": {"holds", "fails", "undecided"},
    "justice": {"met", "unmet", "undecided"},
    "cover": {"covered", "impossible", "undecided"},
}
# How many seconds a design has, all of which its hard property takes.
SECONDS = "20"
# An answer with a run.
AT_STEP = re.compile("(fails|covered) at step ([0-9]+)")


def rows(printed):
    """The answer of each row of a printed table, by the name."""
    lines = printed.splitlines()
    begin = next((i for i, line in enumerate(lines) if line.startswith("property ")), len(lines))
    cells = [re.split("  +", line) for line in lines[begin + 1:] if re.match("[bcj][0-9]+ ", line)]
    return {name: answer for _, name, _, answer, *_ in cells}


def is_no_other(wanted, given):
    """Whether an answer is the wanted one, or one with a longer run, or none yet."""
    found = [AT_STEP.fullmatch(answer) for answer in (wanted, given)]
    is_later = all(found) and found[0][1] == found[1][1] and int(found[0][2]) < int(found[1][2])
    return wanted == given or is_later or given.startswith("undecided")


def lasso(count):
    """How a fair lasso of so many steps is told of."""
    return f"fair run of {count} step{'s' * (count > 1)}"


def schema_faults(text, printed):
    """What is wrong of a table in JSON, beside the one that was printed."""
    made, shown = json.loads(text), rows(printed)
    yield from (
        f"{name} is {made.get(name)!r}"
        for name, kind in TYPES.items()
        if not isinstance(made.get(name), kind)
    )
    yield from [f"fields {set(made)}"] * (set(made) != set(TYPES))
    yield from [f"assumptions {made['assumptions']}"] * (
        set(made["assumptions"]) != {"count", "met_up_to", "unmet_from"}
    )
    for it in made["properties"]:
        yield from [f"fields {set(it)}"] * (set(it) != set(FIELDS))
        yield from (
            f"{name} is {it[name]!r}"
            for name, kind in FIELDS.items()
            if not isinstance(it.get(name), kind)
        )
        yield from [f"{it}"] * (it["answer"] not in ANSWERS[it["kind"]])
        spelled = {
            "holds": "holds",
            "impossible": "can't be covered",
            "unmet": "no fair run",
            "met": lasso((it["step"] or 0) + 1),
            "fails": f"fails at step {it['step']}",
            "covered": f"covered at step {it['step']}",
            "undecided": "undecided" + f" up to step {it['step']}" * (it["step"] is not None),
        }
        said = spelled[it["answer"]] + " (empty)" * it["is_empty"]
        yield from [f"{it} is {shown.get(it['name'])} in the table"] * (
            said != shown.get(it["name"])
        )


def junit_faults(text, printed):
    """What is wrong of a table in JUnit's form."""
    root, shown = xml.fromstring(text), rows(printed)
    suites = root.findall("testsuite")
    cases = [case for suite in suites for case in suite.findall("testcase")]
    failed = [case for case in cases if case.find("failure") is not None]
    skipped = [case for case in cases if case.find("skipped") is not None]
    counts = {"tests": len(cases), "failures": len(failed), "skipped": len(skipped), "errors": 0}
    yield from [f"{root.tag} with {len(suites)} suites"] * (
        root.tag != "testsuites" or len(suites) != 1
    )
    yield from (
        f"{name} is {suites[0].get(name)}"
        for name, count in counts.items()
        if suites[0].get(name) != str(count)
    )
    for case in cases:
        said = shown[case.get("name").split(" ")[1]]
        kind = (
            "failure"
            if said.startswith(("fails", "fair"))
            else "skipped"
            if re.search("undecided|can't|empty", said)
            else None
        )
        given = next((child.tag for child in case), None)
        yield from [f"{case.get('name')} has {given}, and is {said}"] * (kind != given)
        yield from [f"{case.attrib}"] * (not {"name", "classname", "time"} <= set(case.attrib))


def judged(design, folder):
    """What is wrong of the table of a design, and of that with the property that nobody decides,
    which has so many seconds."""
    wanted, faults = design.wanted(folder), []
    status, given, more = asked(
        design, design.text(is_hard=False), folder / "table.all", ["--shortest"]
    )
    faults += [
        f"{name}: Icarus: {wanted.get(name)}; aigprove: {given.get(name)}"
        for name in {**wanted, **given}
        if wanted.get(name) != given.get(name)
    ]
    fails = any(answer.startswith("fails") for answer in wanted.values())
    faults += [f"status {status}"] * (status != (10 if fails else 0)) + more
    status, given, more = asked(
        design, design.text(), folder / "table.hard", ["--timeout", SECONDS]
    )
    hard = given.pop(f"{design.name}.hard", "none")
    faults += [f"hard: {hard}"] * (
        not hard.startswith("holds (empty)" if design.of("unmet") else "undecided")
    )
    faults += [
        f"{name}: Icarus: {answer}; aigprove: {given.get(name)}"
        for name, answer in wanted.items()
        if not is_no_other(answer, given.get(name, ""))
    ]
    fails = any(answer.startswith("fails") for answer in given.values())
    return faults + [f"status {status}"] * (status != (10 if fails else 0)) + more


def asked(design, text, folder, words):
    """The status and the rows of a table of a design, and what is wrong of what goes with it."""
    folder.mkdir()
    (folder / "design.v").write_text(text)
    outs = ["--keep", "kept", "--json", "out.json", "--junit", "out.xml", "--vcd", "runs"]
    words = [PROVE, "--each", *outs, *words, "design.v"]
    status, printed, said = harness.run(words, cwd=folder, timeout=600)
    printed = printed.decode()
    again = rows(harness.shown_again(folder / "kept") or "")
    if not (folder / "out.json").exists():
        return status, {}, [f"status {status}: {printed} {said.decode()}"]
    given, line, unmet = rows(printed), printed.splitlines()[-1], design.of("unmet")
    says = (
        f"can't be met from step {unmet[0]} on: the answer is empty"
        if unmet
        else "can be met up to step "
    )
    is_told = line.startswith(f"the assumptions {says}") or not any(
        answer.startswith("holds") for answer in given.values()
    )
    faults = [f"{line!r} about assumptions"] * bool(design.of("assume") and not is_told)
    faults += [f"JSON: {why}" for why in schema_faults((folder / "out.json").read_text(), printed)]
    faults += [f"JUnit: {why}" for why in junit_faults((folder / "out.xml").read_text(), printed)]
    runs = {name for name in given if re.match("fails|covered", given[name])}
    faults += [f"{len(os.listdir(folder / 'runs'))} dumps of {len(runs)} runs"] * (
        len(os.listdir(folder / "runs")) != len(runs)
    )
    return (
        status,
        given,
        faults
        + [f"check.sh shows {again}, and the table has {given}"] * (again != given),
    )


# A machine: what takes the place of ssh goes to the folder of its name, and has a shell run the
# words behind that there, as ssh does.
REMOTE = """#!/bin/sh
while :; do
  case $1 in here-*) break ;; esac
  shift
done
cd "$MACHINES/$1" || exit 1
shift
[ "$1" = -- ] && shift
SHELL=/bin/sh exec sh -c "$*"
"""


# Designs whose assertions hold, with an assumption that can't be met from step 3 on, and one that
# can.
HELD = """module held(input clk, input d);
  reg [2:0] t = 0;
  always @(posedge clk) if (t != 4) t <= t + 1;
  always @* begin assume ({}); one: assert (t != 5); two: assert (t < 6); end
endmodule
"""
STATUSES = [
    ("t < 3", 0, "holds (empty)", "can't be met from step 3 on: the answer is empty"),
    ("t < 5 || d", 20, "holds", "can be met up to step "),
]


@pytest.mark.yosys
@pytest.mark.cadical
@pytest.mark.abc
@pytest.mark.parametrize("assumed, wanted, answer, said", STATUSES)
def test_status(folder, checks, assumed, wanted, answer, said):
    """The status of a table in which all assertions hold, and of both at once; what is kept says
    whether that is vacuous."""
    (folder / "held.v").write_text(HELD.format(assumed))
    for words, found in [(["--each"], {"held.one": answer, "held.two": answer}), ([], {})]:
        kept = folder / f"kept{len(words)}"
        status, printed, _ = harness.run([PROVE, *words, "--keep", kept, "held.v"], cwd=folder)
        line = printed.decode().splitlines()[-1]
        checks.wants(
            (assumed, words), (wanted, found), (status, rows(printed.decode()) if words else {})
        )
        checks.check(line.startswith(f"the assumptions {said}"), f"{assumed}: {printed}")
        evidence = json.loads((kept / "evidence.json").read_text())
        checks.wants((words, "evidence"), None if wanted else line, evidence["vacuous"])
        checks.wants(
            (words, "shown again"),
            wanted == 0 or bool(words),
            (harness.shown_again(kept) or "").endswith(f"{line}\n"),
        )


# Lines about a property, or about the whole file (`all: ..`), that aigcheck printed, and what
# follows of property 0. Of a window nothing does: that none is reached at any step is for aigcheck
# to say.
FOLLOWS = [
    (["b0: no bad state at step 0", "b0: no bad state at step 1"], "undecided up to step 1"),
    (["b0: no bad state at step 1"], "undecided"),
    (["b0: no bad state up to step 3", "b0: no bad state at step 5"], "undecided up to step 3"),
    (["b0: no bad state up to step 3", "all: no bad state at step 4"], "undecided up to step 4"),
    (["b0: no bad state at any step, if none up to step 0"], "undecided"),
    (
        ["b0: no bad state up to step 1", "b0: no bad state at any step, if none up to step 2"],
        "undecided up to step 1",
    ),
    (
        [
            "b0: no bad state at any step, if none up to step 2",
            "b0: no bad state at step 2",
            "b0: no bad state up to step 1",
        ],
        "undecided up to step 2",
    ),
    (["b1: no bad state up to step 3", "no fair lasso of j0 of at most 4 steps"], "undecided"),
    (["b0: no bad state at any step"], "holds"),
    (["b1: no bad state at any step"], "undecided"),
    (["all: no bad state at any step"], "holds"),
    (["b0 at step 4"], "fails at step 4"),
    (["all: b0 at step 4"], "fails at step 4"),
    (["all: b1 at step 4"], "undecided"),
    (["equal at step 0"], "undecided"),
]
# The same of justice property 0, about which no line about bad states says anything.
FOLLOWS_FAIR = [
    (["no fair run of j0"], "no fair run"),
    (["no fair run of j1"], "undecided"),
    (["no bad state at any step"], "undecided"),
    (["no bad state up to step 1"], "undecided"),
    (["no fair lasso of j0 of at most 2 steps"], "undecided up to step 1"),
    (
        [
            "no fair lasso of j0 of 1 steps",
            "no fair lasso of j0 of 2 steps",
            "no fair lasso of j1 of 3 steps",
        ],
        "undecided up to step 1",
    ),
    (["no fair run of j0, if no fair lasso of at most 1 steps"], "undecided"),
    (["j0 in a loop from step 1 to 4"], "fair run of 5 steps"),
    (["j1 in a loop from step 1 to 4"], "undecided"),
    (["b0 at step 4"], "undecided"),
]


@pytest.mark.parametrize(
    "letter, lines, wanted",
    [
        *(("b", *row) for row in FOLLOWS),
        *(("j", *row) for row in FOLLOWS_FAIR),
    ],
)
def test_what_follows(letter, lines, wanted):
    """What follows of a property by lines of aigcheck."""
    answer, trace = PropertyAnswer(letter, 0), Witness(0, "", [""] * 5)
    known = [
        gather.Line("part", line.removeprefix("all: "), engine="pdr", seconds=1.0) for line in lines
    ]
    found = [
        gather.Found(None, None if line.startswith("all: ") else 0, it, trace)
        for line, it in zip(lines, known)
    ]
    gather.conclude(answer, found)
    assert answer.text() == wanted


# Words that have no meaning beside one another.
REFUSED = [
    "--shortest",
    "--each --property 0",
    "--each --equal states.sv",
    "--each --aiger",
    "--tasks",
    "--json out",
]
REFUSED += ["--gather run --keep kept"]


class Spread:
    """Tasks that two machines run, and what is gathered of them."""

    def __init__(self, folder):
        self.folder, self.machines = folder, [
            folder / "machines" / name for name in ["here-1", "here-2"]
        ]
        for machine in self.machines:
            machine.mkdir(parents=True)
        (folder / "remote").write_text(REMOTE)
        (folder / "remote").chmod(0o755)
        shutil.copy(TESTS / "verilog" / "states.sv", folder)
        path = os.pathsep.join([str(harness.TOP / "bin"), os.environ["PATH"]])
        self.environment = {
            **os.environ,
            "PATH": path,
            "MACHINES": str(folder / "machines"),
            "PARALLEL_HOME": str(folder),
        }

    def run(self, words, **how):
        status, printed, said = harness.run(
            words, cwd=self.folder, env=self.environment, timeout=600, **how
        )
        return status, printed.decode(), said.decode()

    def gathered(self):
        """What is said where the folder is gathered: the status, the rows, and standard error."""
        status, printed, said = self.run([PROVE, "--gather", "run", "states.sv"])
        return status, rows(printed), said

    def spread(self):
        """Runs the tasks on both machines, and copies what they kept."""
        _, lines, _ = self.run(
            [
                PROVE,
                "--tasks",
                "--timeout",
                "30",
                "--engine",
                "pdr,bmc3",
                "--keep",
                "run",
                "states.sv",
            ]
        )
        for machine in self.machines:
            shutil.copytree(self.folder / "run", machine / "run")
        words = [
            "parallel",
            "--will-cite",
            "--ssh",
            str(self.folder / "remote"),
            "-S",
            "2/here-1,2/here-2",
        ]
        done = self.run(words, input=lines.encode())
        for machine in self.machines:
            shutil.copytree(machine / "run", self.folder / "run", dirs_exist_ok=True)
        return lines, done

    def plant(self, part, change):
        """Puts what is kept in a folder into a new one, with a change."""
        made = self.folder / "run" / f"planted-{part}"
        shutil.copytree(self.folder / "run" / part, made, symlinks=True)
        change(made)
        return made


def swap(old, new):
    """A change of what shows a line."""

    def change(folder):
        text = (folder / "evidence.json").read_text()
        kept = json.loads(text)
        assert old in json.dumps(kept), (old, text)
        (folder / "evidence.json").write_text(json.dumps(kept).replace(old, new))

    return change


def emptied(name):
    """A change of a proof: it has no step any more."""
    return lambda folder: (folder / name).write_text("")


# What is gathered of the tasks: two safe properties, and a run to the third.
SPREAD = {"states.legal": "holds", "states.rom_ok": "holds", "states.seven": "fails at step 16"}
# Wrong lines and wrong proofs, by the parts in which they are planted.
PLANTS = [
    ("property-2-pdr", swap('"b2 at step 16"', '"b2 at step 3"')),
    (
        "property-2-bmc3",
        swap('"b2 at step 16", "by": ["run"', '"b2: no bad state at any step", "by": ["run"'),
    ),
    ("property-2-pdr", swap('"b2 at step 16"', '"b1 at step 16"')),
    ("property-0-pdr", emptied("step")),
    ("property-1-pdr", swap('"certified", "file.aig"', '"certified", "other.aig"')),
    ("property-1-pdr", swap('"b1: no bad state at any step"', '"b2: no bad state at any step"')),
    ("property-1-pdr", swap('"--property", "1"', '"--property", "9"')),
    ("property-1-pdr", swap('"--property", "1"', '"--limit", "9"')),
    ("property-1-pdr", swap('"--property", "1"', '"--property", "1", "--justice", "0"')),
]


def check_spread(checks, made):
    """Tasks on two machines, and what is gathered of them."""
    for words in REFUSED:
        status, printed, _ = made.run([PROVE, *words.split(), "states.sv"])
        checks.wants(words, (2, ""), (status, printed))
    lines, (status, _, said) = made.spread()
    # Two safe properties, and a run by each engine to the third, have no status 0.
    checks.wants("tasks", (6, 4), (len(lines.splitlines()), status))
    checks.check(
        all(list((machine / "run").glob("property-*")) for machine in made.machines),
        f"one machine did nothing: {said}",
    )
    checks.wants("gathered", (10, SPREAD, ""), made.gathered())
    for _ in range(2):
        status, printed, said = made.run([PROVE, "--each", "--keep", "run", "states.sv"])
        checks.wants("gone on", (10, SPREAD, ""), (status, rows(printed), said))
        checks.wants("shown again", SPREAD, rows(harness.shown_again(made.folder / "run") or ""))


def check_plants(checks, made):
    """Of what doesn't show its line none is taken, and each is told of."""
    for part, change in PLANTS:
        planted = made.plant(part, change)
        status, given, said = made.gathered()
        checks.wants(
            f"{part} planted",
            (10, SPREAD, True),
            (status, given, f"{planted.relative_to(made.folder)}: not shown: " in said),
        )
        shutil.rmtree(planted)
    planted = made.plant("property-0-pdr", swap('"steps"', '"stairs"'))
    status, given, said = made.gathered()
    checks.wants(
        "another form",
        (10, SPREAD, True),
        (status, given, f"{planted.name}: evidence.json has another form" in said),
    )
    shutil.rmtree(planted)


def check_moved(checks, made):
    """What is kept of another property, and of another file."""
    run = made.folder / "run"
    for part in ["property-0-pdr", "property-0-bmc3"]:
        shutil.rmtree(run / part)
    shutil.copytree(run / "property-1-pdr", run / "property-0-pdr")
    swap('"--property", "1"', '"--property", "0"')(run / "property-0-pdr")
    swap('"b1: ', '"b0: ')(run / "property-0-pdr")
    status, given, said = made.gathered()
    # The invariant of one property may be one of another: then it is shown, and else refused.
    wanted = "undecided" if "not shown" in said else "holds"
    checks.wants(f"another's certificate, of which is said {said!r}", wanted, given["states.legal"])
    (run / "property-1-pdr" / "file.aig").write_bytes((TESTS / "designs" / "gray.aig").read_bytes())
    status, given, said = made.gathered()
    told = "is another file than what is asked about" in said
    checks.wants(
        "another file",
        (10, "undecided", True),
        (status, given["states.rom_ok"].partition(" ")[0], told),
    )


def fair_machine(rng):
    """A random machine with justice properties, whose properties have names."""
    machine = live_machine(rng)
    places = [
        f"{letter}{i}"
        for letter, own in [("b", machine.bads), ("j", machine.justice)]
        for i in range(len(own))
    ]
    machine.names = {place: f"is_{place}" for place in places}
    return machine


def fair_wanted(machine):
    """Of each property, by its name, whether a run reaches it, or is fair."""
    bads = (
        (f"is_b{i}", dataclasses.replace(machine, bads=[bad]).first_bad() is not None)
        for i, bad in enumerate(machine.bads)
    )
    fair = (
        (f"is_j{j}", lasso_search.has_lasso(machine, asked + machine.fairness))
        for j, asked in enumerate(machine.justice)
    )
    return {**dict(bads), **dict(fair)}


def fair_answers(given):
    """The same, as rows of a table say it."""
    said = {"fails": True, "fair": True, "holds": False, "no": False}
    return {name: said.get(answer.split(" ")[0]) for name, answer in given.items()}


def are_lassos(machine, given, folder):
    """Whether the witnesses of fair runs are lassos, as long as the rows say."""
    for j, asked in enumerate(machine.justice):
        if given[f"is_j{j}"].startswith("fair"):
            text = (folder / f"j{j}.witness").read_text()
            if given[f"is_j{j}"] != lasso(len(text.split("\n")) - 5) or not lasso_search.is_lasso(
                machine, asked + machine.fairness, text, j
            ):
                return False
    return True


def judge_fair(checks, machine, folder):
    """The table of a random file with justice properties; and what is gathered of tasks."""
    (folder / "file").write_text(machine.text())

    def run(*words):
        return harness.run([PROVE, *words], cwd=folder)

    outs = ["--keep", "kept", "--witness", "runs", "--json", "out.json", "--junit", "out.xml"]
    status, printed, said = run("--each", *outs, "file")
    given, wanted, text = rows(printed.decode()), fair_wanted(machine), machine.text()
    is_empty = b"the answer is empty" in printed
    checks.wants(
        f"{text}{printed} {said}",
        (wanted, 10 if any(wanted.values()) else 0 if is_empty else 20),
        (fair_answers(given), status),
    )
    checks.check(are_lassos(machine, given, folder / "runs"), f"a lasso of {text}")
    checks.wants(
        f"JSON of {text}", [], [*schema_faults((folder / "out.json").read_text(), printed.decode())]
    )
    checks.wants(
        f"JUnit's form of {text}",
        [],
        [*junit_faults((folder / "out.xml").read_text(), printed.decode())],
    )
    checks.wants(f"shown again of {text}", given, rows(harness.shown_again(folder / "kept") or ""))
    for line in (
        run("--tasks", "--keep", "run", "--engine", "bmc3,pdr", "file")[1].decode().splitlines()
    ):
        run(*shlex.split(line)[1:])
    status, printed, said = run("--gather", "run", "file")
    checks.wants(f"gathered of {text}", (wanted, b""), (fair_answers(rows(printed.decode())), said))


@pytest.mark.yosys
@pytest.mark.cadical
@pytest.mark.abc
@pytest.mark.iverilog
@pytest.mark.parametrize("design", designs(), ids=lambda it: it.name)
def test_table(folder, checks, design):
    """The table of a design is what Icarus says of each of its properties."""
    checks.wants(design.name, [], judged(design, folder))


@pytest.mark.yosys
@pytest.mark.cadical
@pytest.mark.abc
@pytest.mark.parallel
def test_spread(folder, checks):
    """Tasks on two machines are gathered, and what is planted there isn't taken."""
    made = Spread(folder)
    check_spread(checks, made)
    check_plants(checks, made)
    check_moved(checks, made)


@pytest.mark.cadical
@pytest.mark.abc
@cases(12)
@given(machine=made(fair_machine))
def test_justice(folder, checks, machine):
    """The table of a random file with justice properties is what a search says."""
    judge_fair(checks, machine, fresh(folder))
