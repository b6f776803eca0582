#!/usr/bin/env python3
"""Changes the trusted modules of aigprove's package, one place after the other, and runs their unit
tests: mutants.py [--only MODULE] [--jobs N]

Trusted is what stands between a design and the file that is checked, and between aigcheck's answer
and the printed line. Each comparison, number, truth value and text there becomes another one, each
condition its inverse, `and` and `or` change places, and a condition of a comprehension is left out.
A changed module has to fail a unit test, but for those that stand in mutants.tsv: the module, what
is changed into what, and why no test can tell, or needn't. Prints each that stays and isn't listed,
and each that is listed and doesn't stay; ends with status 1 if there are such. It is no part of
tests/run.
"""
import ast
import collections
import concurrent.futures
import contextlib
import copy
import importlib
import importlib.abc
import importlib.util
import os
import resource
import signal
import sys

import harness
import pytest

PACKAGE = harness.TOP / "lib" / "aigprove"
LISTED = harness.TESTS / "mutants.tsv"
# By the module: its unit tests, as functions of test modules, or as all tests of one.
NETLISTS = [("test_netlist_units", "")]
REWRITING = [("test_rewriting_units", "test_texts")]


def of_designs(names):
    """Unit tests of designs, by the words behind `test_`."""
    return [("test_design_units", f"test_{name}") for name in names.split()]


NAMES = of_designs("""
    trees nodes nets_of_trees shapes module_units driven hierarchies signals odd_paths
    is_declared interfaces declared declared_unused not_declared declared_several unknown
    checked not_as_declared declared_again
""")
YOSYS = of_designs("""
    copies links many files_of told runs late_runs full reads reads_late front_ends
""")
READING = of_designs("""
    one_reading reading_options reading_files refusals late_reading rewriting rewritten_again
    not_rewritten opening tops tops_by_options better_top asked_below parameters features freed
    resets resets_of_clocks looking_up looking_up_faults looking_up_bound looking_up_misread
""")
DESIGNS = of_designs("""
    made_files ordered_files made_with_reset made_kinds maps free_values sizes failing
    bad_designs no_clock odd_tops loops without_abc replays replays_of_clocks spelled
""")
CHECKER = [("test_checker_units", "")]
UNITS = {
    "designs/rtlil.py": [
        ("test_rtlil", "test_line"),
        ("test_rtlil", "test_signals"),
        ("test_rtlil", "test_spelled"),
        ("test_rtlil", "test_constant"),
        ("test_rtlil", "test_refused"),
        ("test_rtlil", "test_process"),
        *NETLISTS,
    ],
    "designs/modules.py": [
        *NETLISTS,
        ("test_rewriting_units", "test_generated"),
        ("test_rewriting_units", "test_alike"),
    ],
    "designs/netlist.py": NETLISTS,
    "designs/registers.py": NETLISTS,
    "designs/ordering.py": NETLISTS,
    "designs/statements.py": [("test_rewriting_units", "test_statements"), *REWRITING],
    "designs/properties.py": [("test_rewriting_units", "test_written_properties"), *REWRITING],
    "designs/rewriting.py": REWRITING,
    "designs/sensitivity.py": [
        ("test_rewriting_units", "test_lists"),
        ("test_rewriting_units", "test_lists_of_modules"),
    ],
    "designs/labels.py": [("test_rewriting_units", "test_generated")],
    "designs/texts.py": [*NETLISTS, *REWRITING],
    "designs/names.py": NAMES,
    "designs/yosys.py": YOSYS,
    "designs/reading.py": READING,
    "designs/verilog.py": DESIGNS,
    "designs/front_ends.py": [*YOSYS, *READING],
    "designs/scripts.py": [*READING, *DESIGNS],
    "questions/checker.py": CHECKER,
    "output/check.py": CHECKER,
    "equality/program.py": CHECKER,
}
# How many seconds, and of processor time, the unit tests have with a change.
SECONDS, USED = 60, 6
OTHERS = {
    ast.Eq: ast.NotEq,
    ast.NotEq: ast.Eq,
    ast.Lt: ast.LtE,
    ast.LtE: ast.Lt,
    ast.Gt: ast.GtE,
    ast.GtE: ast.Gt,
    ast.In: ast.NotIn,
    ast.NotIn: ast.In,
    ast.Is: ast.IsNot,
    ast.IsNot: ast.Is,
}


def changes(node):
    """Yields calls that change a copy of a node in one way each."""
    if isinstance(node, ast.Compare):
        for i, it in enumerate(node.ops):
            yield lambda own, i=i, it=it: own.ops.__setitem__(i, OTHERS[type(it)]())
    if isinstance(node, ast.BoolOp):
        yield lambda own: setattr(own, "op", ast.Or() if isinstance(own.op, ast.And) else ast.And())
    if isinstance(node, (ast.If, ast.While, ast.IfExp)):
        yield lambda own: setattr(own, "test", ast.UnaryOp(ast.Not(), own.test))
    if isinstance(node, ast.comprehension):
        for i in range(len(node.ifs)):
            yield lambda own, i=i: own.ifs.pop(i)
    if isinstance(node, ast.Constant) and isinstance(node.value, (bool, int, str, bytes)):
        other = (
            not node.value
            if isinstance(node.value, bool)
            else node.value + {int: 1, str: "?", bytes: b"?"}[type(node.value)]
        )
        yield lambda own: setattr(own, "value", other)


def passed(tree):
    """The nodes that aren't changed: docstrings, annotations, imports, and texts of faults, which
    other tests hold."""
    found = set()
    for node in ast.walk(tree):
        if isinstance(node, ast.Expr) and isinstance(node.value, ast.Constant):
            found.add(node.value)
        parts = [getattr(node, name, None) for name in ("annotation", "returns")]
        if isinstance(node, ast.Raise):
            parts.append(node.exc)
        if isinstance(node, ast.Assign) and getattr(node.targets[0], "id", "") in ("__slots__",):
            parts.append(node.value)
        found.update(own for part in parts if part is not None for own in ast.walk(part))
    return found


def mutants(text):
    """Yields the line, what is changed into what, and the changed module."""
    tree = ast.parse(text)
    nodes, skipped, times = list(ast.walk(tree)), passed(tree), collections.Counter()
    above = {child: node for node in nodes for child in ast.iter_child_nodes(node)}
    for place, node in enumerate(nodes):
        if node in skipped:
            continue
        for number, _ in enumerate(changes(node)):
            made = copy.deepcopy(tree)
            own = list(ast.walk(made))[place]
            list(changes(own))[number](own)
            top = node
            while (
                not isinstance(top, (ast.stmt, ast.comprehension))
                and top in above
                and not isinstance(above[top], ast.stmt)
            ):
                top = above[top]
            shown = [
                ast.unparse(list(ast.walk(it))[nodes.index(top)] if it is made else top).split(
                    "\n"
                )[0]
                for it in (tree, made)
            ]
            what = " => ".join(shown)
            times[what] += 1
            yield getattr(node, "lineno", 0), (
                f"{what} #{times[what]}" if times[what] > 1 else what
            ), made


class Finder(importlib.abc.MetaPathFinder, importlib.abc.Loader):
    """Finds a changed module in the place of that of the package."""

    def __init__(self, name, code):
        self.name, self.code = name, code

    def find_spec(self, name, path, target=None):
        return importlib.util.spec_from_loader(name, self) if name == self.name else None

    def exec_module(self, module):
        module.__file__ = str(
            PACKAGE / f"{self.name.removeprefix('aigprove.').replace('.', '/')}.py"
        )
        exec(self.code, module.__dict__)


def run_units(units):
    """Whether all unit tests pass, which pytest runs in this process."""
    paths = [
        f"{harness.TESTS}/unit/{module}.py" + (f"::{function}" if function else "")
        for module, function in units
    ]
    return pytest.main(["-q", "-x", "-p", "no:cacheprovider", "-p", "no:xdist", *paths]) == 0


def stays(name, made, units):
    """Whether a changed module passes its unit tests, in a process of its own."""
    child = os.fork()
    if child == 0:
        status = 1
        with contextlib.suppress(BaseException):
            os.setsid()
            signal.alarm(SECONDS)
            resource.setrlimit(resource.RLIMIT_CPU, (USED, USED))
            for stream in 1, 2:
                os.dup2(os.open(os.devnull, os.O_WRONLY), stream)
            code = compile(ast.fix_missing_locations(made), name, "exec")
            sys.meta_path.insert(0, Finder(name, code))
            status = 0 if run_units(units) else 1
        os._exit(status)
    return os.waitpid(child, 0)[1] == 0


def judge(module, share, shares):
    """The mutants of a module that stay, of every so many one, and how many there are."""
    path, found, count = PACKAGE / module, [], 0
    name = "aigprove." + module[:-3].replace("/", ".")
    text = path.read_text(encoding="utf-8")
    if not stays(name, ast.parse(text), UNITS[module]):
        raise AssertionError(f"the unit tests of {module} fail without a change")
    for i, (line, what, made) in enumerate(mutants(text)):
        if i % shares == share:
            count += 1
            if stays(name, made, UNITS[module]):
                found.append((module, what, line))
    return found, count


def main():
    words = harness.parser(__doc__)
    words.add_argument("--only", metavar="MODULE", help="this module alone, as designs/netlist.py")
    words.add_argument("--jobs", type=int, default=len(os.sched_getaffinity(0)))
    given = words.parse_args()
    modules = [given.only] if given.only else list(UNITS)
    listed = {(module, what): why for module, what, why in harness.rows(LISTED)}
    found, count = [], collections.Counter()
    with concurrent.futures.ProcessPoolExecutor(given.jobs) as pool:
        tasks = [
            (module, pool.submit(judge, module, share, given.jobs))
            for module in modules
            for share in range(given.jobs)
        ]
        for module, task in tasks:
            own, number = task.result()
            found += own
            count[module] += number
    kept = {(module, what) for module, what, _ in found}
    faults = [
        f"{module}:{line}: stays: {what}"
        for module, what, line in sorted(found)
        if (module, what) not in listed
    ]
    faults += [
        f"{module}: is killed, but listed: {what}"
        for module, what in listed
        if module in modules and (module, what) not in kept
    ]
    print("\n".join(faults))
    for module in modules:
        stayed = sum(it[0] == module for it in found)
        print(
            f"{module}: {count[module]} mutants, {count[module] - stayed} killed, {stayed} stay,"
            f" {len(faults)} of all aren't listed"
        )
    return 1 if faults else 0


if __name__ == "__main__":
    sys.exit(main())
