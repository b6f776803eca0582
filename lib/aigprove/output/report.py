"""The answer to each property, as a table, JSON and JUnit XML."""
from __future__ import annotations

import dataclasses
import json
from typing import TYPE_CHECKING, Any

from aigprove import VERSION
from aigprove.circuits.witness import Witness
from aigprove.output.messages import escaped
from aigprove.output.signals import word
from aigprove.processes.files import write

if TYPE_CHECKING:
    import xml.etree.ElementTree as xml

# The kinds of properties by letter, and the words for their answers: unreachable, reachable, and
# undecided.
KINDS = {"b": "assertion", "j": "justice", "c": "cover"}
SPELLED = {
    "b": {"holds": "holds", "reached": "fails at step {step}", "open": "undecided"},
    "j": {"holds": "no fair run", "reached": "fair run of {steps}", "open": "undecided"},
    "c": {"holds": "can't be covered", "reached": "covered at step {step}", "open": "undecided"},
}
TITLES = ["property", "name", "place", "answer", "step", "engine", "seconds"]
# The words for answers in JSON.
WRITTEN = {
    "b": {"holds": "holds", "reached": "fails", "open": "undecided"},
    "j": {"holds": "unmet", "reached": "met", "open": "undecided"},
    "c": {"holds": "impossible", "reached": "covered", "open": "undecided"},
}
# JUnit's element for a test case that didn't pass.
CASES = {
    **dict.fromkeys([("b", "reached"), ("j", "reached")], "failure"),
    **dict.fromkeys([("b", "open"), ("j", "open"), ("c", "open"), ("c", "holds")], "skipped"),
}


@dataclasses.dataclass
class PropertyAnswer:
    """A property and its answer.

    The property has a letter for its kind, a number and, in some files, a name and a source
    location. `steps` is the number of steps, from 0 on, at which it isn't reached. If `is_safe`, no
    step reaches it; `trace` is the witness of a trace that does. `engine` and `seconds` say which
    engine answered and when, and `parts` are the folders with evidence."""

    letter: str
    number: int
    name: str = ""
    place: str = ""
    steps: int = 0
    is_safe: bool = False
    trace: Witness | None = None
    engine: str = ""
    seconds: float | None = None
    parts: list[str] = dataclasses.field(default_factory=list)

    @property
    def is_answered(self) -> bool:
        """Whether it is decided."""
        return self.is_safe or self.trace is not None

    @property
    def state(self) -> str:
        """The key of its answer in SPELLED."""
        return "reached" if self.trace else "holds" if self.is_safe else "open"

    @property
    def step(self) -> int | None:
        """The step at which it is reached, or the last one up to which it isn't, or None."""
        if self.trace:
            return len(self.trace.steps) - 1
        return None if self.is_safe or not self.steps else self.steps - 1

    def take(self, trace: Witness | None, engine: str, seconds: float | None) -> None:
        """Records an answer: a trace, or None if the property is never reached.

        It counts if there was none yet, or if the trace is shorter."""
        is_shorter = trace and self.trace and len(trace.steps) < len(self.trace.steps)
        if not self.is_answered or is_shorter:
            self.is_safe, self.trace = trace is None, trace
            self.engine, self.seconds = engine, seconds

    def text(self) -> str:
        """Returns the answer in words."""
        count = len(self.trace.steps) if self.trace else 0
        steps = f"{count} step{'s' * (count != 1)}"
        spelled = SPELLED[self.letter][self.state].format(step=self.step, steps=steps)
        is_partial = self.state == "open" and self.step is not None
        return f"{spelled} up to step {self.step}" if is_partial else spelled

    def cells(self, is_empty: bool) -> list[str]:
        """Returns the cells of its row. `is_empty` says that no run meets the assumptions."""
        step = "-" if self.step is None else str(self.step)
        seconds = "-" if self.seconds is None else f"{self.seconds:.1f}"
        said = self.text() + " (empty)" * (is_empty and self.state == "holds")
        name = word(self.name) if self.name else ""
        shown = [f"{self.letter}{self.number}", name, escaped(self.place), said]
        return [*(cell or "-" for cell in shown), step, self.engine or "-", seconds]

    def fields(self, is_empty: bool) -> dict[str, object]:
        """Returns its fields in JSON. `is_empty` says that no run meets the assumptions."""
        return {
            "property": f"{self.letter}{self.number}",
            "number": self.number,
            "kind": KINDS[self.letter],
            "name": self.name or None,
            "place": self.place or None,
            "answer": WRITTEN[self.letter][self.state],
            "is_empty": is_empty and self.state == "holds",
            "step": self.step,
            "engine": self.engine or None,
            "seconds": None if self.seconds is None else round(self.seconds, 3),
            "evidence": self.parts,
        }


@dataclasses.dataclass
class Report:
    """All answers about a file, and what is known about its assumptions.

    `constraints` is their number, `met` the last step up to which they are known to be met, `unmet`
    the first from which they can't be met, and `line` the printed line about that."""

    path: str
    answers: list[PropertyAnswer]
    constraints: int = 0
    met: int | None = None
    unmet: int | None = None
    seconds: float = 0
    line: str = ""

    @property
    def is_empty(self) -> bool:
        """Whether no run meets the assumptions."""
        return self.unmet is not None

    def status(self) -> str:
        """Returns "fails" if an assertion fails or a justice property has a fair run, "holds" if
        all are proved, and otherwise "undecided"."""
        states = {answer.state for answer in self.answers if answer.letter != "c"}
        if "reached" in states:
            return "fails"
        return "holds" if states == {"holds"} and not self.is_empty else "undecided"

    def table(self) -> list[str]:
        """Returns the lines of the table."""
        rows = [TITLES, *(answer.cells(self.is_empty) for answer in self.answers)]
        widths = [max(map(len, column)) for column in zip(*rows)]
        return ["  ".join(cell.ljust(width) for cell, width in zip(row, widths)).rstrip()
                for row in rows]

    def json(self) -> str:
        """Returns the report in JSON."""
        assumptions = {"count": self.constraints, "met_up_to": self.met, "unmet_from": self.unmet}
        made: dict[str, Any] = {
            "version": VERSION,
            "file": self.path,
            "answer": self.status(),
            "seconds": round(self.seconds, 3),
            "assumptions": assumptions,
            "properties": [answer.fields(self.is_empty) for answer in self.answers],
        }
        return json.dumps(made, indent=1) + "\n"

    def junit(self) -> str:
        """Returns the report as JUnit XML. Undecided and vacuous properties are skipped cases."""
        import xml.etree.ElementTree as xml

        suite = xml.Element("testsuite", name=escaped(self.path), time=f"{self.seconds:.3f}",
                            errors="0")
        kinds = [self.put_case(suite, answer) for answer in self.answers]
        suite.set("tests", str(len(self.answers)))
        if not self.answers:
            case = xml.SubElement(suite, "testcase", classname=escaped(self.path), name="reading",
                                  time=f"{self.seconds:.3f}")
            xml.SubElement(case, "error", message=escaped(self.line))
            suite.attrib |= {"tests": "1", "errors": "1"}
        suite.set("failures", str(kinds.count("failure")))
        suite.set("skipped", str(kinds.count("skipped")))
        every = xml.Element("testsuites")
        every.append(suite)
        xml.indent(every)
        return str(xml.tostring(every, "unicode", xml_declaration=False)) + "\n"

    def write(self, json_path: str | None, junit_path: str | None) -> None:
        """Writes the report into the files whose paths aren't None."""
        for path, text in [(json_path, self.json), (junit_path, self.junit)]:
            if path:
                write(path, [text().encode()])

    def put_case(self, suite: xml.Element, answer: PropertyAnswer) -> str | None:
        """Adds a property's test case to the suite, and returns the name of the element that says
        why it didn't pass, or None."""
        import xml.etree.ElementTree as xml

        name = escaped(" ".join(filter(None, [f"{answer.letter}{answer.number}", answer.name])))
        case = xml.SubElement(suite, "testcase", classname=escaped(self.path), name=name,
                              time=f"{answer.seconds or 0:.3f}")
        is_empty = self.is_empty and answer.state == "holds"
        kind = "skipped" if is_empty else CASES.get((answer.letter, answer.state))
        if kind:
            unmet = f" (the assumptions can't be met from step {self.unmet} on)"
            message = answer.text() + unmet * is_empty
            xml.SubElement(case, kind, message=message).text = escaped(answer.place) or None
        return kind
