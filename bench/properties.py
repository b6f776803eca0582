#!/usr/bin/env python3
"""Measures bin/aigprove --each on designs with 32 properties: run properties [COUNT]

The script measures COUNT designs (by default all). Each contains instances of four designs of tests/each, without the properties that no
engine decides. A row has the wall-clock and processor seconds of --each, of --property N for one property after the other, and of ABC's
`pdr -a`, which doesn't check its answers. It also has the numbers of failing and of all properties. The goal is that --each takes at most
half the processor time of one property after the other, and at most 1.2 times the wall-clock time of `pdr -a`, plus 2 s."""
import re
import time

from measuring import PROVE, heads, new_folder, numbers, row, run

import many_properties

# The number of properties of a design.
COUNT = 32


def parts():
    """Yields groups of four designs without assumptions. Each group begins one design later than the one before."""
    made = [design for design in many_properties.designs() if not design.of("assume")]
    return [(made + made)[i:i + 4] for i in range(len(made))]


def text(designs):
    """Returns a design with an instance of each given design, with the first properties of each."""
    left, modules, ports, lines = COUNT, [], ["input clk"], []
    for i, design in enumerate(designs):
        asserted = design.of("assert")[:left]
        left -= len(asserted)
        own = many_properties.Many(design.name, [])
        own.parts = {**design.parts, "assert": asserted, "cover": []}
        names = " ".join(design.of("input")).split()
        modules.append(own.text(is_hard=False))
        ports += [f"input {name}_{i}" for name in names]
        lines.append(f"{design.name} part_{i}(.clk(clk){''.join(f', .{name}({name}_{i})' for name in names)});")
    return "\n".join([*modules, f"module many({', '.join(ports)});", *lines, "endmodule", ""])


def timed(words, out):
    """Returns the wall-clock and processor seconds of a program."""
    begun = time.monotonic()
    _, used, _ = run(words, out)
    return time.monotonic() - begun, used


def main():
    heads("design", "--each", "one after the other", "pdr -a", "fail")
    made = parts()
    for designs in made[: numbers(len(made))[0]]:
        with new_folder() as folder:
            (folder / "many.v").write_text(text(designs))
            run([PROVE, "--tasks", "--keep", folder / "kept", folder / "many.v"])
            file = folder / "kept" / "file.aig"
            with open(folder / "out", "w+") as out:
                at_once = timed([PROVE, "--each", file], out)
                fails = len(re.findall("fails", (folder / "out").read_text()))
                by_one = [timed([PROVE, "-q", "--property", i, file], out) for i in range(COUNT)]
                abc = timed(["berkeley-abc", "-q", f"read_aiger {file}; logic; undc; strash; zero; pdr -a"], out)
            sums = [tuple(map(sum, zip(*by_one))), abc]
            shown = [f"{clock:.2f} ({used:.2f})" for clock, used in [at_once, *sums]]
            row("+".join(design.name for design in designs), *shown, f"{fails} of {COUNT}")


if __name__ == "__main__":
    main()
