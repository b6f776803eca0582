#!/usr/bin/env python3
"""Writes the tables of docs/reference about the options and messages of aigprove: generate.py [--check]

They are made of the texts in lib/aigprove/options, as the help text and the man page are, and of lib/aigprove/messages.txt, as the
messages are. Each stands between a line that names it and the line `<!-- end -->`. With --check nothing is written, and the exit status is 1 if a table isn't what would be written."""
import argparse
import itertools
import os
import pathlib
import re
import sys
from collections.abc import Iterable, Iterator

TOP = pathlib.Path(os.path.realpath(__file__)).parent.parent
sys.path.insert(0, str(TOP / "lib"))
sys.dont_write_bytecode = True

from aigprove.data import Message, messages
from aigprove.options import parser, tables

PLACE = re.compile(r"(<!-- (\w+): made by docs/generate.py -->\n).*?(<!-- end -->)", re.DOTALL)
# A word that is an option, a name of a file or a placeholder in what an option does.
NAMES = "FILE|FOLDER|OTHER|OUT|LIST|NAME|SIGNAL|WITNESS|CERT"
CODE = re.compile(rf"(?<![\w`$-])(--?[a-z][\w-]*|\$(?:stop|fatal)|\.(?:v|sv|il|ys|blif)\b|(?:{NAMES})\b)")


def cell(text: str) -> str:
    """Returns a text in the format of a table cell."""
    return CODE.sub(r"`\1`", text).replace("|", "\\|")


def table(titles: Iterable[str], rows: Iterable[Iterable[str]]) -> Iterator[str]:
    """Yields the lines of a table."""
    heads = list(titles)
    for row in [heads, ["---"] * len(heads), *rows]:
        yield f"| {' | '.join(row)} |\n".replace("  |", " |")


def flags_of(option: tables.Option) -> str:
    """Returns how an option is spelled: the files, an option with its value or choices, or several flags of one."""
    if option.flags == ("files",):
        return "`FILE ..`"
    choices = parser.made_by().get(option.flags[-1], {}).get("choices") or [option.value]
    spelled = [f"{flag} {value}".strip() for flag in option.flags for value in choices]
    return ", ".join(f"`{words}`" for words in spelled)


def options() -> Iterator[str]:
    """Yields the options by need, a table for each."""
    for section in tables.sections():
        yield f"\n### {section.title}\n\n"
        rows = [[flags_of(option), cell(option.does), cell(option.default)] for option in section.options]
        yield from table(["Option", "What it does", "Default"], rows)
    yield "\n"


def engines() -> Iterator[str]:
    """Yields the table of the engines."""
    yield "\n"
    rows = [[f"`{it.name}`", cell(it.does), it.needs, it.finds, it.proves] for it in tables.engines()]
    yield from table(["Engine", "What it does", "Needs", "Finds bugs", "Proves safety"], rows)
    yield "\n"


def statuses() -> Iterator[str]:
    """Yields the table of the exit statuses."""
    yield "\n"
    yield from table(["Status", "Meaning"], [[it.number, cell(it.when)] for it in tables.statuses()])
    yield "\n"


def spelled(message: Message) -> str:
    """Returns the text of a message as code, in which `..` stands for fields."""
    text = re.sub(r"(\{\w+\})+", "..", message.text).strip("; ").replace("|", "\\|")
    return f"`` {text} ``" if "`" in text else f"`{text}`"


def all_messages() -> Iterator[str]:
    """Yields the messages by section: a table of those that are explained, and a list of the others."""
    for section, group in itertools.groupby(messages().values(), lambda it: it.section):
        yield f"\n### {section}\n\n"
        # Those of fields alone pass on what another program says.
        own = [it for it in group if re.search(r"\w", re.sub(r"\{\w+\}", "", it.text))]
        explained = [it for it in own if it.meaning or it.remedy]
        heads = ["Message", "Meaning", "What to do"]
        rows = [[spelled(it), it.meaning.replace("|", "\\|"), it.remedy.replace("|", "\\|")] for it in explained]
        width = 3 if any(it.remedy for it in explained) else 2
        yield from table(heads[:width], [row[:width] for row in rows]) if rows else []
        others = [it for it in own if it not in explained]
        if others:
            yield "\nOther messages of this kind:\n\n" if rows else ""
            yield from (f"- {spelled(it)}\n".replace("\\|", "|") for it in others)
    yield "\n"


MADE = {"options": options, "engines": engines, "statuses": statuses, "messages": all_messages}


def written(text: str) -> str:
    """Returns a page with its tables as they have to be."""
    return PLACE.sub(lambda found: found[1] + "".join(MADE[found[2]]()) + found[3], text)


def main() -> None:
    words = argparse.ArgumentParser(description=__doc__, formatter_class=argparse.RawDescriptionHelpFormatter)
    words.add_argument("--check", action="store_true", help="only compare")
    is_check, stale = words.parse_args().check, []
    for page in sorted((TOP / "docs" / "reference").glob("*.md")):
        text = page.read_text(encoding="utf-8")
        if (made := written(text)) != text:
            stale.append(str(page.relative_to(TOP)))
            if not is_check:
                page.write_text(made, encoding="utf-8")
    if is_check and stale:
        sys.exit(f"docs/generate.py would write {', '.join(stale)} anew")


if __name__ == "__main__":
    main()
