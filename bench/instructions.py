#!/usr/bin/env python3
"""Fails if `aigtool` takes more instructions than before: run instructions TOOL [--write]

TOOL is the built program, crates/aigtool/out/aigtool after `rt run` in crates/aigtool. callgrind counts the instructions of six commands
on a file of 100,000 random gates. Each count is compared with that in the file instructions.tsv in this folder. The script fails if a
count has increased by a twentieth or more. `--write` writes the counts into the file instead. A count hardly depends on other load, but
it depends on the compiler and the machine's C library. If one of these changes, write the counts again.
"""
import subprocess
import sys

from measuring import HERE, heads, instructions, make, new_folder, row

KEPT = HERE / "instructions.tsv"
COMMANDS = ["text TEXT", "binary BINARY OUT", "strash BINARY", "cnf BINARY 0", "cnf BINARY 0 raw", "query TEXT 0"]


def count_all(tool, folder):
    paths = {name: str(folder / name.lower()) for name in ["TEXT", "BINARY", "OUT"]}
    make("random", 100_000, paths["TEXT"])
    add_bad(folder / "text")
    subprocess.run([tool, "binary", paths["TEXT"], paths["BINARY"]], check=True)
    return {command: instructions([tool, *(paths.get(word, word) for word in command.split())]) for command in COMMANDS}


def add_bad(file):
    """Makes the first output also a bad state property, so that the file has a query."""
    lines = file.read_text().splitlines(keepends=True)
    inputs, latches, outputs = map(int, lines[0].split()[2:5])
    first = 1 + inputs + latches
    lines[0] = lines[0].rstrip() + " 1\n"
    lines.insert(first + outputs, lines[first])
    file.write_text("".join(lines))


def main():
    with new_folder() as folder:
        counts = count_all(sys.argv[1], folder)
    if sys.argv[2:] == ["--write"]:
        KEPT.write_text("".join(f"{command}\t{count}\n" for command, count in counts.items()))
        return
    kept = {command: int(count) for command, count in (line.split("\t") for line in KEPT.read_text().splitlines())}
    heads("command", "instructions", "kept", "ratio")
    for command, count in counts.items():
        row(command, count, kept[command], f"{count / kept[command]:.3f}")
    risen = [command for command, count in counts.items() if count >= 1.05 * kept[command]]
    if risen:
        sys.exit(f"more instructions than before: {', '.join(risen)}")


main()
