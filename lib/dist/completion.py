"""Completion of the programs' command lines, for the shells bash, zsh and fish.

The words of a program are read from its usage line, and those of aigprove from its parser."""
from __future__ import annotations

import argparse
import pathlib
import re
import subprocess
from collections.abc import Iterable, Iterator
from typing import NamedTuple

from aigprove.options.parser import make_parser
from dist.files import File, Tree

# Stands for a value that is the path of a file or folder.
PATHS = {"FILE", "LIST", "FOLDER", "OTHER", "CERT", "OUT", "WITNESS", "PROGRAM"}
OPTION = re.compile(r"(--[a-z-]+)(?: ([A-Z]+|[a-z]+(?:\|[a-z]+)+))?")
ALIKE = re.compile(r"(\S+) and (\S+) as (\S+)")


class Option(NamedTuple):
    """An option: its flags, the kind of its value, the possible values, and its help text."""

    flags: tuple[str, ...]
    value: str = ""
    choices: tuple[str, ...] = ()
    help: str = ""


class Words(NamedTuple):
    """The words that a program accepts: options, and commands with the words that may follow each
    command."""

    name: str
    options: list[Option]
    commands: dict[str, list[str]]


def of_usage(name: str, usage: str) -> Words:
    """Returns the words that a program with this usage line accepts."""
    found = {flag: Option((flag,), value, tuple(value.split("|")) if "|" in value else ())
             for flag, value in OPTION.findall(usage)}
    commands: dict[str, list[str]] = {}
    for part in usage.strip().removeprefix(f"usage: {name} ").split(", "):
        if alike := ALIKE.fullmatch(part):
            commands |= {other: commands[alike[3]] for other in alike.groups()[:2]}
            continue
        while part.startswith("["):
            part = part.partition("] ")[2] if "[" not in part[1:part.index("]")] \
                else part.partition("]] ")[2]
        command, *behind = part.split()
        words = {word.strip("[]") for word in behind} - {"|", ".."}
        known = commands.setdefault(command, [])
        known += sorted(word for word in words if word.islower() and word not in known)
    return Words(name, list(found.values()), commands)


def of_program(path: pathlib.Path) -> Words:
    """Runs a program with --help, and returns the words that it accepts."""
    said = subprocess.run([path], stdin=subprocess.DEVNULL, capture_output=True).stderr.decode()
    words = of_usage(path.name, said)
    for flag in ["--help", "--version"]:
        if subprocess.run([path, flag], capture_output=True).returncode == 0:
            words.options.append(Option((flag,)))
    return words


def of_parser() -> Words:
    """Returns the words that aigprove accepts."""
    actions = [it for it in make_parser()._actions
               if it.option_strings and it.help != argparse.SUPPRESS]
    options = [Option(tuple(it.option_strings), str(it.metavar or "") if it.nargs != 0 else "",
                      tuple(it.choices or ()), it.help or "") for it in actions]
    return Words("aigprove", options, {})


# ---- bash

def in_bash(words: Words) -> Iterator[str]:
    """Yields the lines of a function that completes the command line of a program in bash."""
    flags = " ".join(flag for option in words.options for flag in option.flags)
    yield f"_{words.name}() {{"
    yield '  local word=${COMP_WORDS[COMP_CWORD]} command= i'
    yield "  COMPREPLY=()"
    yield "  case ${COMP_WORDS[COMP_CWORD - 1]} in"
    yield from (f"    {'|'.join(it.flags)}) _aig_words {' '.join(it.choices)}; return ;;"
                for it in words.options if it.choices)
    if valued := [flag for it in words.options if it.value and not it.choices for flag in it.flags]:
        yield f"    {'|'.join(valued)}) return ;;"
    yield "  esac"
    yield '  if [[ $word == -* ]]; then'
    yield f"    _aig_words {flags}"
    yield "    return"
    yield "  fi"
    if words.commands:
        yield from bash_commands(words.commands)
    yield "}"
    yield f"complete -o filenames -o default -F _{words.name} {words.name}"


def bash_commands(commands: dict[str, list[str]]) -> Iterator[str]:
    """Yields the lines that complete a command, or the words after it, in bash."""
    names = " ".join(commands)
    yield "  for ((i = 1; i < COMP_CWORD && ${#command} == 0; i++)); do"
    yield f'    [[ " {names} " != *" ${{COMP_WORDS[i]}} "* ]] || command=${{COMP_WORDS[i]}}'
    yield "  done"
    yield "  case $command in"
    yield f'    "") _aig_words {names} ;;'
    for command, behind in commands.items():
        if behind:
            yield f"    {command}) _aig_words {' '.join(behind)}; _aig_paths ;;"
    yield "  esac"


BASH_SHARED = """_aig_words() {
  local word=${COMP_WORDS[COMP_CWORD]} it
  for it in "$@"; do
    [[ $it != "$word"* ]] || COMPREPLY+=("$it")
  done
}
_aig_paths() {
  local path
  while IFS= read -r path; do
    COMPREPLY+=("$path")
  done < <(compgen -f -- "${COMP_WORDS[COMP_CWORD]}")
}
"""


# ---- zsh

def quoted(text: str, special: str) -> str:
    """Returns a text with a backslash before these characters, in single quotes of a shell."""
    return re.sub(f"([{re.escape(special)}])", r"\\\1", text).replace("'", "'\\''")


def zsh_option(option: Option) -> str:
    """Returns the description of an option for zsh."""
    value = ""
    if option.value or option.choices:
        behind = f"({' '.join(option.choices)})" if option.choices \
            else "_files" if option.value in PATHS else " "
        value = f":{option.value or 'which'}:{behind}"
    shown = f"[{quoted(option.help, '[]:')}]" if option.help else ""
    excluded = f"({' '.join(option.flags)})" if option.flags[1:] else ""
    flags = f"'{{{','.join(option.flags)}}}'" if option.flags[1:] else option.flags[0]
    return f"  '{excluded}{flags}{shown}{value}'"


def in_zsh(words: Words) -> Iterator[str]:
    """Yields the lines of a file that completes the command line of a program in zsh."""
    yield f"#compdef {words.name}"
    yield "local state"
    operands = ["1:command:(" + " ".join(words.commands) + ")", "*: :->operands"] \
        if words.commands else ["*:FILE:_files"]
    specs = [*map(zsh_option, words.options), *(f"  '{it}'" for it in operands)]
    yield "_arguments -s \\"
    yield " \\\n".join(specs) + " && return"
    if words.commands:
        yield "case ${words[(r)(" + "|".join(words.commands) + ")]} in"
        for command, behind in words.commands.items():
            if behind:
                words_of = f"'words:word:({' '.join(behind)})'"
                yield f"  {command}) _alternative {words_of} 'files:file:_files' ;;"
        yield "  *) _files ;;"
        yield "esac"


# ---- fish

def fish_option(name: str, option: Option) -> str:
    """Returns the description of an option for fish."""
    made = f"complete -c {name}"
    for flag in option.flags:
        made += f" -l {flag[2:]}" if flag.startswith("--") else f" -s {flag[1:]}"
    if option.choices:
        made += f" -x -a '{' '.join(option.choices)}'"
    elif option.value:
        made += " -r -F" if option.value in PATHS else " -x"
    return made + (f" -d '{fish_text(option.help)}'" if option.help else "")


def fish_text(text: str) -> str:
    """Returns a text, escaped for single quotes of fish."""
    return text.replace("\\", "\\\\").replace("'", "\\'")


def in_fish(words: Words) -> Iterator[str]:
    """Yields the lines of a file that completes the command line of a program in fish."""
    yield from (fish_option(words.name, option) for option in words.options)
    names = " ".join(words.commands)
    if names:
        unseen = f"not __fish_seen_subcommand_from {names}"
        yield f"complete -c {words.name} -f -n '{unseen}' -a '{names}'"
    for command, behind in words.commands.items():
        if behind:
            seen = f"__fish_seen_subcommand_from {command}"
            yield f"complete -c {words.name} -n '{seen}' -a '{' '.join(behind)}'"


# ---- files

# The names of the files of each shell below a prefix.
PLACES = {"bash": "share/bash-completion/completions/{}", "zsh": "share/zsh/site-functions/_{}",
          "fish": "share/fish/vendor_completions.d/{}.fish"}


def texts(words: Words) -> dict[str, str]:
    """Returns the text of a program's file for each shell."""
    lines = {"bash": [BASH_SHARED.rstrip(), *in_bash(words)], "zsh": in_zsh(words),
             "fish": in_fish(words)}
    return {shell: "\n".join(it) + "\n" for shell, it in lines.items()}


def completions(programs: Iterable[pathlib.Path]) -> Tree:
    """Returns the files, below a prefix, with which shells complete the command lines of all
    programs."""
    return {PLACES[shell].format(words.name): File(text.encode())
            for words in [*map(of_program, programs), of_parser()]
            for shell, text in texts(words).items()}
