"""The main function of aigprove."""
import os
import signal
import sys
from collections.abc import Sequence
from typing import IO, NoReturn

from aigprove.options.parser import parse
from aigprove.output.messages import report

# The exit status after an error.
FAILED = 1


def open_streams() -> None:
    """Opens those of the three standard streams that are closed, so that no other file gets their
    descriptors.

    Writing to a closed standard output then fails."""
    while (opened := os.open(os.devnull, os.O_RDONLY)) < 3:
        pass
    os.close(opened)
    sys.stdout = sys.stdout or open(1, "w", encoding="ascii")
    sys.stderr = sys.stderr or open(os.devnull, "w", encoding="ascii", errors="backslashreplace")


def end(number: int, _: object) -> NoReturn:
    """Handles a signal: exits, after removing temporary files."""
    sys.exit(128 + number)


def discard_rest(stream: IO[str], number: int) -> None:
    """Discards what couldn't be written to a stream, so that Python doesn't try again at the
    end."""
    try:
        stream.flush()
    except OSError:
        os.dup2(os.open(os.devnull, os.O_WRONLY), number)


def ended(line: Sequence[str]) -> int:
    """Answers a command line, flushes standard output, and returns the exit status."""
    try:
        options = parse(line)
        # Importing this takes longer than refusing a command line.
        from aigprove.asking import answer

        return answer(options)
    except SystemExit as early:
        return early.code if isinstance(early.code, int) else 0
    finally:
        sys.stdout.flush()


def main() -> NoReturn:
    """Answers the command line of this process, and exits."""
    open_streams()
    for number in [signal.SIGTERM, signal.SIGHUP]:
        signal.signal(number, end)
    try:
        status = ended(sys.argv[1:])
    except KeyboardInterrupt:
        status = 128 + signal.SIGINT
    except BrokenPipeError:
        status = 128 + signal.SIGPIPE
    except Exception as error:
        report(error, not {"-v", "--verbose"}.isdisjoint(sys.argv))
        status = FAILED
    discard_rest(sys.stdout, 1)
    discard_rest(sys.stderr, 2)
    # Threads that still run aren't awaited.
    os._exit(status)
