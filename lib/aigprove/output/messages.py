"""Prints messages on standard error, without control characters."""
import contextlib
import re
import signal
import sys
from collections.abc import Iterable

from aigprove.circuits.aiger import Fault
from aigprove.data import message

# A byte that isn't printable ASCII or a line feed.
UNPLAIN = re.compile(rb"[^\n -~]")


def ending(status: int) -> str:
    """Returns how a program ended: its exit status, or the signal that killed it."""
    names = {int(number): number.name for number in signal.Signals}
    if status >= 0:
        return f"ended with status {status}"
    return f"was ended by {names.get(-status, f'signal {-status}')}"


def plain(said: bytes) -> str:
    """Returns bytes as ASCII text. Bytes that aren't printable become escapes such as `\\x1b`."""
    return UNPLAIN.sub(lambda found: b"\\x%02x" % ord(found[0]), said).decode("ascii")


def unnamed(said: str, files: Iterable[object]) -> str:
    """Returns a message without the path of one of these files, and without the line in it."""
    for file in files:
        said = re.sub(f": {re.escape(str(file))}: ((line|byte) [0-9]+: )?", ": ", said, count=1)
    return said


def escaped(text: str) -> str:
    """Returns a text as one line. Characters that aren't printable become escapes."""
    return "".join(sign if sign.isprintable() else ascii(sign)[1:-1] for sign in text)


def tell(text: str, end: str = "\n") -> None:
    """Writes a text to standard error, and ignores errors."""
    with contextlib.suppress(OSError):
        print(text, end=end, file=sys.stderr, flush=True)


def say(what: object) -> None:
    """Prints a line on standard error, behind the program's name."""
    tell(f"aigprove: {escaped(str(what))}")


def show_progress(text: str = "") -> None:
    """Replaces the line of progress, if standard error is a terminal."""
    if sys.stderr.isatty():
        tell(f"\r\x1b[K{text}", end="")


def reason(error: BaseException) -> str:
    """Returns the text of an error."""
    if isinstance(error, OSError) and error.strerror:
        parts = [error.filename, error.strerror]
        return ": ".join(str(part) for part in parts if part is not None)
    is_memory = isinstance(error, MemoryError)
    return str(error) or ("out of memory" if is_memory else type(error).__name__)


def is_fault(error: BaseException) -> bool:
    """Returns whether an error comes from the system or another program, and isn't a defect of
    aigprove.

    Python raises RuntimeError if a thread can't be started."""
    is_thread = isinstance(error, RuntimeError) and str(error) == "can't start new thread"
    return is_thread or isinstance(error, (Fault, OSError, MemoryError, UnicodeError))


def report(error: BaseException, is_verbose: bool, engine: str = "") -> None:
    """Prints an error, behind the engine's name if there is one.

    A defect of aigprove is called an internal error; its traceback is printed if `is_verbose`."""
    if is_fault(error):
        why = reason(error)
        say(message("engine", engine=engine, why=why) if engine else why)
        return
    say(message("internal_error", type=type(error).__name__, why=error))
    if is_verbose:
        # Importing this module takes a while.
        import traceback

        tell("".join(traceback.format_exception(error)), end="")
