"""Runs a module of this folder as a program, so that its computations don't block the threads of
aigprove."""
import importlib
import os
import sys


def words_of(name: str, *words: str) -> list[str]:
    """Returns the command that runs a module with these arguments."""
    return [sys.executable, "-IS", os.path.realpath(__file__), name, *words]


def main(name: str, *words: str) -> int:
    """Runs a module, and returns its status. Prints a Fault on standard error."""
    from aigprove.circuits.aiger import Fault

    try:
        status: int = importlib.import_module(f"aigprove.equality.{name}").main(*words)
    except Fault as why:
        print(why, file=sys.stderr)
        return 1
    return status


if __name__ == "__main__":
    sys.path.insert(0, os.path.abspath(os.path.join(os.path.realpath(__file__), "../../..")))
    sys.exit(main(*sys.argv[1:]))
