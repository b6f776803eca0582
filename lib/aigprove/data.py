"""The texts that are files of this package, and the messages in one of them.

`messages.txt` has each message for the user once: errors, warnings and notes. Its sections begin
with a line `# TITLE`. Each other line has the name of a message, its text, in which `{FIELD}`
stands for what varies, what it means, and what the user can do, with tabs between. The reference
prints the same rows."""
import functools
import os
from typing import NamedTuple

FOLDER = os.path.dirname(os.path.realpath(__file__))


class Message(NamedTuple):
    """A message: its section, its text, what it means, and what the user can do."""

    section: str
    text: str
    meaning: str = ""
    remedy: str = ""


def text(path: str) -> str:
    """Returns the text of a file, by its path in this package."""
    with open(os.path.join(FOLDER, path), encoding="utf-8") as file:
        return file.read()


@functools.cache
def messages() -> dict[str, Message]:
    """Returns all messages, by their names."""
    found, section = {}, ""
    for line in filter(None, text("messages.txt").split("\n")):
        name, *cells = line.split("\t")
        if cells:
            found[name] = Message(section, *cells)
        else:
            section = name.removeprefix("# ")
    return found


def message(name: str, /, **fields: object) -> str:
    """Returns the text of the message of this name, in which these fields are filled in.

    Raises KeyError if there is no such message, or if a field is missing."""
    return messages()[name].text.format(**fields)
