"""Checks that the answers of properties that are checked one by one agree with their evidence, also
if the time is over while threads still have answers."""
from __future__ import annotations

import json
import pathlib
import threading
import types
from typing import Any

import pytest
from harness import Checks

from aigprove.engines.job import StepShown
from aigprove.engines.separate import PropertyPortfolio, SeparateProperties
from aigprove.output import evidence
from aigprove.output.evidence import EvidenceFolder
from aigprove.output.report import PropertyAnswer
from aigprove.questions.checker import Claim

CLAIM = Claim("b0: no bad state at step 0", ("refuted", "../file.aag", "0", "proof"), {}, "")


@pytest.fixture
def owner(tmp_path: pathlib.Path, monkeypatch: pytest.MonkeyPatch) -> SeparateProperties:
    """Properties without engines, with an evidence folder."""
    monkeypatch.setattr(evidence, "version", lambda task, path: "1.0.0")
    checker: Any = types.SimpleNamespace(aigcheck=["aigcheck"], aigedit=["aigedit"], task=None)
    made = SeparateProperties.__new__(SeparateProperties)
    made.options, made.checker = types.SimpleNamespace(limit=None), checker  # type: ignore
    made.folder = EvidenceFolder(str(tmp_path / "kept"), checker)
    made.lock, made.portfolios, made.is_closed = threading.RLock(), set(), False
    return made


def portfolio_of(owner: SeparateProperties) -> PropertyPortfolio:
    """A portfolio for one property, whose engines don't run."""
    made = PropertyPortfolio.__new__(PropertyPortfolio)
    made.owner, made.answers, made.evidence = owner, [PropertyAnswer("b", 0)], None
    made.lock, made.is_closed = threading.Lock(), False
    source = types.SimpleNamespace(stem="b0", keep=lambda folder: None)
    made.problem, made.board = (
        types.SimpleNamespace(source=source), types.SimpleNamespace(steps=0),  # type: ignore
    )
    owner.add(made)
    return made


def parts(owner: SeparateProperties) -> dict[str, list[str]]:
    """The lines of each subfolder that the evidence names."""
    assert owner.folder
    found = {}
    for name in owner.folder.kept["parts"]:
        kept = json.loads(pathlib.Path(owner.folder.path(name), "evidence.json").read_text())
        found[name] = [step["shows"] for step in kept["steps"]]
    return found


def test_late_answers(checks: Checks, owner: SeparateProperties) -> None:
    """An answer that comes after the evidence is complete is neither recorded nor kept."""
    early, late = portfolio_of(owner), portfolio_of(owner)
    early.take("steps", StepShown(0, CLAIM))
    owner.close()
    checks.wants("evidence", {"b0": [CLAIM.line]}, parts(owner))
    new = portfolio_of(owner)
    for portfolio in [early, late, new]:
        checks.wants("no status", None, portfolio.take("steps", StepShown(1, CLAIM)))
    checks.wants("evidence afterwards", {"b0": [CLAIM.line]}, parts(owner))
    checks.wants("steps", [1, 0, 0], [it.answers[0].steps for it in [early, late, new]])


def test_closed_portfolio(checks: Checks, owner: SeparateProperties) -> None:
    """A portfolio whose time is over records nothing, while others still do."""
    over, other = portfolio_of(owner), portfolio_of(owner)
    over.close()
    over.take("steps", StepShown(0, CLAIM))
    other.take("steps", StepShown(0, CLAIM))
    other.close()
    checks.wants("evidence", {"b0": [CLAIM.line]}, parts(owner))
    checks.wants("steps", [0, 1], [it.answers[0].steps for it in [over, other]])
    checks.wants("left", set(), owner.portfolios)
