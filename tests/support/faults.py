"""Whether aigprove's modules refuse something, and by which words."""
from __future__ import annotations

from collections.abc import Callable

# Which finds the package of aigprove.
import harness  # noqa: F401

from aigprove.circuits.aiger import Fault


def is_refused(call: Callable[..., object], *given: object) -> str | None:
    """Returns why a call refuses what it is given, or None if it doesn't."""
    try:
        call(*given)
    except Fault as why:
        return str(why)
    return None
