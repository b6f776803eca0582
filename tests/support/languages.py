"""Programs in C++ and Rust over the library for C, as its users build them."""
from __future__ import annotations

import pathlib
import shutil
from collections.abc import Iterator

import harness

CLIENTS = harness.TESTS / "clients"
INCLUDE = harness.TOP / "include"
WARNINGS = ["-std=c++17", "-O1", "-Wall", "-Wextra", "-Wpedantic", "-Wshadow", "-Werror"]
VARIANTS: list[list[str]] = [[], ["-fno-exceptions", "-fno-rtti"]]


def cpp_programs(folder: pathlib.Path, name: str) -> Iterator[tuple[str, str]]:
    """Compiles a file of tests/clients by each compiler for C++, with exceptions and without, and
    yields how that was done and the program."""
    for compiler in filter(shutil.which, ("g++", "clang++")):
        for flags in VARIANTS:
            program = str(folder / f"{name}_{compiler}{len(flags)}")
            words = [compiler, *WARNINGS, *flags, f"-I{INCLUDE}", str(CLIENTS / f"{name}.cpp")]
            harness.build([*words, str(folder / "libaig.a"), "-o", program])
            yield " ".join([compiler, *flags]), program


def rust_program(folder: pathlib.Path, path: pathlib.Path, *flags: str) -> str:
    """Compiles a program in Rust over lib/rust, with all warnings refused."""
    rlib, program = folder / "libaig_rust.rlib", str(folder / f"{path.stem}_rust")
    words = ["rustc", "--edition", "2021", "-O", "-D", "warnings"]
    source = str(harness.TOP / "lib" / "rust" / "src" / "lib.rs")
    crate = ["--crate-type", "rlib", "--crate-name", "aig", source, "-o", str(rlib)]
    harness.build([*words, *crate])
    linked = ["--extern", f"aig={rlib}", "-L", f"native={folder}", "-l", "static=aig"]
    harness.build([*words, *linked, *flags, str(path), "-o", program])
    return program
