"""Checks the generated parts of the pages: the drawing of the crates, and the table of wrong
bodies."""
import harness
import wrong_bodies
from harness import TOP


def test_drawing():
    """The file docs/house.svg is the same as the drawing of docs/house.py."""
    status, printed, said = harness.run([TOP / "docs" / "house.py", "--check"])
    assert status == 0, (printed + said).decode()


def test_wrong_bodies():
    """The table of wrong bodies in docs/PROOFS.md has the current counts. `wrong_bodies.py --write`
    writes the table."""
    _, shown, _ = wrong_bodies.parts(wrong_bodies.PAGE)
    assert shown == wrong_bodies.table()
