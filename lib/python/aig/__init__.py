"""The proved circuit library: functions from the bytes of AIGER files to answers, and circuits that
stay in memory.

What each call promises is proved, of the calls of `aig.h` that stand under it; this package is
not. It loads the `libaig.so` that the environment's LIBAIG names, the one in its own folder or in
the folder `lib` that it is installed below, in the repository the one that was built last, or else
the system's `libaig.so.1`. Calls can be made from several threads: other threads run meanwhile.

    >>> import aig
    >>> aig.text(b"aag 1 1 0 1 0\\n2\\n3\\n")
    b'aag 1 1 0 1 0\\n2\\n3\\n'
    >>> aig.text(b"aag 1 1 0 1 0\\n2\\n4\\n")
    Traceback (most recent call last):
    aig.Refused: bad literal in outputs
"""
from __future__ import annotations

from aig import _calls, _circuits
from aig._calls import *  # noqa: F401, F403
from aig._circuits import *  # noqa: F401, F403
from aig._library import Clauses, Lasso, Refused, Shown, query_numbers

__all__ = ["Clauses", "Lasso", "Refused", "Shown", "query_numbers"]
__all__ += _calls.__all__
__all__ += _circuits.__all__

# Names from the other modules appear as names of this module.
for _name in __all__:
    if hasattr(globals()[_name], "__module__"):
        globals()[_name].__module__ = __name__
