#!/bin/sh
"exec" "python3" "-IS" "--" "$0" "$@"
# Checks again what aigprove printed. It runs the commands in evidence.json, and in that of the
# subfolders, by aigcheck and aigedit: those that AIGCHECK and AIGEDIT name, or those in PATH. This
# script has the same bytes in each folder. What is in evidence.json is only passed to these
# programs, as arguments.
import hashlib
import json
import os
import shutil
import subprocess
import sys
from typing import Any, NoReturn

# The lines that aigcheck printed, in order, followed by those of a table, or by the line that says
# that the answer is vacuous: these follow from the others.
Lines = list[str]


def plain(text: str) -> str:
    """Returns a text as one line. Characters that aren't printable become escapes."""
    return "".join(sign if sign.isprintable() else ascii(sign)[1:-1] for sign in text)


def fail(what: str) -> NoReturn:
    """Prints what couldn't be checked, and exits with status 1."""
    print(f"not shown: {plain(what)}", file=sys.stderr)
    sys.exit(1)


def program(name: str) -> str:
    """Returns the path of a program. An environment variable may give it, relative to the present
    folder."""
    given = os.environ.get(name.upper()) or name
    return os.path.abspath(shutil.which(given) or fail(f"{given} is not there"))


def check_files(folder: str, sums: dict[str, str]) -> None:
    """Exits with status 1 if a file has another checksum than in evidence.json."""
    for name, wanted in sums.items():
        given = hashlib.sha256()
        with open(os.path.join(folder, name), "rb") as file:
            while block := file.read(1 << 20):
                given.update(block)
        if given.hexdigest() != wanted:
            fail(f"{name} is another file")


def shown(folder: str, limit: list[str], step: dict[str, Any]) -> Lines:
    """Runs the command of a step, and returns the line that it checks.

    Exits with status 1 if the command prints something else. `limit` is the option --limit."""
    words = [program("aigcheck" if "shows" in step else "aigedit"), *limit, *step["by"]]
    done = subprocess.run(words, cwd=folder, stdin=subprocess.DEVNULL, stdout=subprocess.PIPE)
    if "shows" in step:
        if done.returncode or done.stdout != os.fsencode(f"{step['shows']}\n"):
            fail(step["shows"])
        return [step["shows"]]
    with open(os.path.join(folder, step["makes"]), "rb") as file:
        if done.returncode or done.stdout != file.read():
            fail(step["makes"])
    return []


def check(folder: str) -> Lines:
    """Returns the lines that are checked in a folder and its subfolders."""
    with open(os.path.join(folder, "evidence.json"), encoding="utf-8") as file:
        kept = json.load(file)
    limit = [] if kept["limit"] is None else ["--limit", str(kept["limit"])]
    check_files(folder, kept["files"])
    lines = [line for step in kept["steps"] for line in shown(folder, limit, step)]
    for part in kept["parts"]:
        if part in ("", ".", "..") or "/" in part:
            fail(f"{part} is no folder in this one")
        lines += check(os.path.join(folder, part))
    vacuous = kept.get("vacuous")
    return lines + list(kept["table"] or [vacuous] * bool(vacuous))


def main() -> None:
    """Prints the lines that are checked in this script's folder."""
    try:
        lines = check(os.path.dirname(os.path.abspath(__file__)))
    except (OSError, ValueError, LookupError, TypeError, AttributeError) as why:
        fail(str(why))
    for line in lines:
        sys.stdout.buffer.write(os.fsencode(f"{plain(line)}\n"))


if __name__ == "__main__":
    main()
