"""Asks bin/aigprove about designs in Verilog, and a simulator about a twin of each.

In the twin of a design all that the design leaves open is a first state or a free value of each
step. Icarus runs the twin in all states that its runs come to, with all free values, which says
what the first bad step is, or that there is none, and from which step on no run meets what is
assumed, if there is one. aigprove has to say the same of the design, by engines that find the first
step, and the run that it prints has to be one of the twin's, as far as the names of its values are
the twin's too. The designs are those of twins/table.txt, whose twins were written by hand, and
random ones, each written with its twin from one tree. The tools are yosys, cadical, ABC and Icarus
Verilog (iverilog, vvp).
"""
import pytest
from hypothesis import given
from random_designs import random_design
from strategies import cases, choices
from twins import Design, table
from trials import fresh

# How many of the random designs are taken, by their first bad step: most random claims fail at
# once.
TAKEN = {"step 0": 0.1, "step 1": 0.3, "never": 0.7}
MOST_BITS = 14


def drawn(rng, folder):
    """A random design that isn't too large, and whose answer is taken."""
    while True:
        text, parts = random_design(rng)
        design = Design(text, text, parts)
        if design.bits("state") + design.bits("free") <= MOST_BITS and rng.random() < TAKEN.get(
            design.first_bad(folder), 1
        ):
            return design


@pytest.mark.yosys
@pytest.mark.cadical
@pytest.mark.abc
@pytest.mark.iverilog
@pytest.mark.parametrize("design", table(), ids=lambda it: it.name)
def test_table(folder, checks, design):
    """aigprove says of a design what Icarus says of its twin."""
    checks.wants(design.name, [], design.faults(folder))


@pytest.mark.yosys
@pytest.mark.cadical
@pytest.mark.abc
@pytest.mark.iverilog
@cases(100, 300)
@given(rng=choices())
def test_random_design(folder, checks, rng):
    """aigprove says of a random design what Icarus says of its twin."""
    here = fresh(folder)
    design = drawn(rng, here)
    checks.wants(design.text, [], design.faults(here))
