"""Checks what stands between a design and its file without yosys.

A fault there could make a file in which less can happen than in the design. Small texts in yosys's
language, netlists in JSON and texts in Verilog were written by hand, with what has to become of
them: each x a free wire of its own, but in initial values and comparisons; a name that two things
have, several drivers, several clocks and z refused; names that rest on no number of yosys's."""
from __future__ import annotations

from collections.abc import Callable
from typing import Any

import pytest
from faults import is_refused
from harness import Checks

from aigprove.designs import modules, netlist
from aigprove.designs.internal import without_internal
from aigprove.designs.modules import free_unknowns
from aigprove.designs.ordering import Assertion, order_of, ordered
from aigprove.designs.registers import widened
from aigprove.designs.rtlil import Statement, modules_of, parse, write
from aigprove.designs.texts import Text, bound, expanded, moved

MULTICLOCK = (
    "--multiclock takes any, and a step is then a moment in which inputs and clocks may change"
)
HEAD = '\nattribute \\src "t.v:1.1-9.10"\nmodule \\top\n  wire width 2 \\y\n'
# A part of a module, and what stands there once each x is free: wires of so many bits, and the
# part.
FREED = [
    ("  connect \\y 2'1x\n", [1], "  connect \\y { 1'1 $free$1 }\n"),
    (
        "  connect \\y 2'xx\n  connect \\z 4'x01x\n",
        [2, 1, 1],
        "  connect \\y $free$1\n  connect \\z { $free$2 2'01 $free$3 }\n",
    ),
    ("  connect \\y 4'x\n", [4], "  connect \\y $free$1\n"),
    ("  connect \\y 2'10\n", [], "  connect \\y 2'10\n"),
    (
        "  process $p\n    switch 1'x\n    end\n    sync always\n      update \\y 2'0x\n  end\n",
        [1, 1],
        (
            "  process $p\n    switch $free$1\n    end\n    sync always\n      update \\y { 1'0"
            " $free$2 }\n  end\n"
        ),
    ),
    (
        "  cell $add $1\n    connect \\A 2'0x\n  end\n",
        [1],
        "  cell $add $1\n    connect \\A { 1'0 $free$1 }\n  end\n",
    ),
    (
        "  cell $eqx $1\n    connect \\A 2'0x\n  end\n",
        [],
        "  cell $eqx $1\n    connect \\A 2'0x\n  end\n",
    ),
    (
        "  process $p\n    sync init\n      update \\y 2'0x\n  end\n",
        [],
        "  process $p\n    sync init\n      update \\y 2'0x\n  end\n",
    ),
    (
        "  process $p\n    assign $0\\y[1:0] 2'xx\n    sync always\n  end\n",
        [2],
        "  process $p\n    assign $0\\y[1:0] $free$1\n    sync always\n  end\n",
    ),
]
# A process, and what is there where nets that have x at each edge, and that nothing else names,
# have no driver.
EDGES = """  process $p
    assign $1\\v \\v
    sync posedge \\clk
      update \\q $0\\q
      update \\v 4'x
    sync {1}
      update \\q $0\\q
      update \\v {0}
  end
"""
WITHOUT = """  process $p
    assign $1\\v \\v
    sync posedge \\clk
      update \\q $0\\q
    sync posedge \\rst
      update \\q $0\\q
  end
"""
DROPPED = [
    ("  wire width 4 \\v\n" + EDGES.format("4'x", "posedge \\rst"), True),
    (
        "  attribute \\init 4'0000\n  wire width 4 \\v\n" + EDGES.format("4'x", "posedge \\rst"),
        False,
    ),
    ("  wire width 4 \\v\n" + EDGES.format("4'x", "posedge \\rst") + "  connect \\y \\v\n", False),
    ("  wire width 4 \\v\n" + EDGES.format("$0\\v", "posedge \\rst"), False),
    ("  wire width 4 \\v\n" + EDGES.format("4'00xx", "posedge \\rst"), False),
    *(
        ("  wire width 4 \\v\n" + EDGES.format("4'x", untimed), False)
        for untimed in ["always", "init", "global"]
    ),
    (
        "  wire width 8 \\v\n"
        + EDGES.format("4'x", "posedge \\rst").replace("update \\v", "update \\v [3:0]"),
        False,
    ),
    (
        "  wire width 4 \\v\n"
        + EDGES.format("4'x", "posedge \\rst")
        + EDGES.format("4'x", "posedge \\rst").replace("$p", "$q"),
        False,
    ),
]
# Cells of one bit, whose ports are nets of the same names, and what they become: a type, and lines
# of parameters and ports.
WIDENED = [
    ("$_FF_", "D Q", "$ff", "", "D=D Q=Q"),
    ("$_DFF_N_", "C D Q", "$dff", "CLK_POLARITY=0", "CLK=C D=D Q=Q"),
    ("$_DFFE_PN_", "C D E Q", "$dffe", "CLK_POLARITY=1 EN_POLARITY=0", "CLK=C D=D EN=E Q=Q"),
    (
        "$_DFF_NP1_",
        "C D R Q",
        "$adff",
        "CLK_POLARITY=0 ARST_POLARITY=1 ARST_VALUE=1",
        "CLK=C D=D ARST=R Q=Q",
    ),
    (
        "$_DFFE_PN0N_",
        "C D E R Q",
        "$adffe",
        "CLK_POLARITY=1 ARST_POLARITY=0 ARST_VALUE=0 EN_POLARITY=0",
        "CLK=C D=D EN=E ARST=R Q=Q",
    ),
    (
        "$_ALDFF_PN_",
        "C D L AD Q",
        "$aldff",
        "CLK_POLARITY=1 ALOAD_POLARITY=0",
        "CLK=C D=D ALOAD=L AD=AD Q=Q",
    ),
    (
        "$_DFFSRE_PNPN_",
        "C S R E D Q",
        "$dffsre",
        "CLK_POLARITY=1 SET_POLARITY=0 CLR_POLARITY=1 EN_POLARITY=0",
        "CLK=C SET=S CLR=R EN=E D=D Q=Q",
    ),
    (
        "$_SDFFCE_PP1N_",
        "C D E R Q",
        "$sdffce",
        "CLK_POLARITY=1 SRST_POLARITY=1 SRST_VALUE=1 EN_POLARITY=0",
        "CLK=C D=D EN=E SRST=R Q=Q",
    ),
    ("$_DLATCH_N_", "E D Q", "$dlatch", "EN_POLARITY=0", "EN=E D=D Q=Q"),
    (
        "$_DLATCH_PN1_",
        "E R D Q",
        "$adlatch",
        "EN_POLARITY=1 ARST_POLARITY=0 ARST_VALUE=1",
        "EN=E ARST=R D=D Q=Q",
    ),
    (
        "$_ALDFFE_NPN_",
        "C D L AD E Q",
        "$aldffe",
        "CLK_POLARITY=0 ALOAD_POLARITY=1 EN_POLARITY=0",
        "CLK=C D=D ALOAD=L AD=AD EN=E Q=Q",
    ),
    (
        "$_DFFSR_NPN_",
        "C S R D Q",
        "$dffsr",
        "CLK_POLARITY=0 SET_POLARITY=1 CLR_POLARITY=0",
        "CLK=C SET=S CLR=R D=D Q=Q",
    ),
    (
        "$_SDFF_NP0_",
        "C D R Q",
        "$sdff",
        "CLK_POLARITY=0 SRST_POLARITY=1 SRST_VALUE=0",
        "CLK=C D=D SRST=R Q=Q",
    ),
    (
        "$_SDFFE_PN1P_",
        "C D E R Q",
        "$sdffe",
        "CLK_POLARITY=1 SRST_POLARITY=0 SRST_VALUE=1 EN_POLARITY=1",
        "CLK=C D=D EN=E SRST=R Q=Q",
    ),
    (
        "$_DLATCHSR_NPN_",
        "E S R D Q",
        "$dlatchsr",
        "EN_POLARITY=0 SET_POLARITY=1 CLR_POLARITY=0",
        "EN=E SET=S CLR=R D=D Q=Q",
    ),
    ("$_SR_PN_", "S R Q", "$sr", "SET_POLARITY=1 CLR_POLARITY=0", "SET=S CLR=R Q=Q"),
]
# Names as yosys makes them of what is in functions, and what they become.
NAMED = [
    ("  wire \\f$func$t.v:3$7.i\n", "  wire \\f.i\n"),
    (
        "  wire \\f$func$t.v:3$7.i\n  wire \\f$func$t.v:4$9.i\n",
        "  wire \\f[0].i\n  wire \\f[1].i\n",
    ),
    ("  wire \\f$func$t.v:3$7.i\n  wire \\f.i\n", "  wire \\f$func$t.v:3$7.i\n  wire \\f.i\n"),
    ("  wire \\g.$unnamed_block$3.i\n", "  wire \\g.unnamed_block.i\n"),
    ("  wire $unnamed_block$3.i\n", "  wire \\unnamed_block.i\n"),
    ("  wire \\f$func$t.v:3$7\n", "  wire \\f$func$t.v:3$7\n"),
    (
        "  wire $unnamed_block$3\n  wire $unnamed_block$4[i\n",
        "  wire $unnamed_block$3\n  wire $unnamed_block$4[i\n",
    ),
]
# What has to stay as it is though it has an x.
STAYS = [
    "  cell $nex $1\n    connect \\A 2'0x\n  end\n",
    "  cell $mem_v2 $1\n    connect \\A 2'0x\n  end\n",
    "  cell $add $1\n    parameter \\A 2'0x\n  end\n",
    "  connect \\y 2'zx\n",
    "  process $p\n    switch \\s\n      case 1'x\n    end\n  end\n",
    "  process $p\n    sync always\n      memwr \\m \\a 2'0x \\e 1'0\n  end\n",
]
# Parts of a module, and whether its nets have one constant each.
CONSTANTS = [
    ("  connect \\y 2'10\n  connect \\z \\y\n", True),
    (
        (
            "  connect { } { }\n  connect \\y 2'10\n  process $p\n    assign { } { }\n    sync"
            " always\n      update { } { }\n    sync init\n  end\n"
        ),
        True,
    ),
    ("  connect \\y 2'10\n  connect \\y 2'10\n  connect \\z \\y\n", True),
    ("  connect \\y 2'10\n  connect \\y 2'11\n  connect \\z \\y\n", False),
    ("  connect \\y 2'10\n  connect \\y \\a\n  connect \\z \\y\n", True),
    ("  connect \\y [0] 1'1\n  connect \\y [1] 1'0\n  connect \\z \\y\n", True),
    ("  connect \\y [1] 1'1\n  connect \\y [1] 1'0\n  connect \\z \\y\n", False),
    ("  connect \\y 2'10\n  connect \\y 2'11\n", True),
]
# Statements of a process, and what stands there where what isn't enabled has the value 0, and each
# other x is free.
CHECKED, ENABLED = "$0$formal$t.v:1$2_CHECK[0:0]$3", "$0$formal$t.v:1$2_EN[0:0]$4"
ADDRESS, DATA, WRITTEN = (f"$1$memwr$\\m$t.v:1$2_{name}$3" for name in ["ADDR", "DATA", "EN"])
SETTLED = [
    ([f"{CHECKED} 1'x", f"{ENABLED} 1'0"], [f"{CHECKED} 1'0", f"{ENABLED} 1'0"]),
    ([f"{CHECKED} 1'x", f"{ENABLED} 1'1"], [f"{CHECKED} $free$1", f"{ENABLED} 1'1"]),
    ([f"{CHECKED} 1'1", f"{ENABLED} 1'0"], [f"{CHECKED} 1'1", f"{ENABLED} 1'0"]),
    ([f"{CHECKED} 2'1x", f"{ENABLED} 1'0"], [f"{CHECKED} {{ 1'1 $free$1 }}", f"{ENABLED} 1'0"]),
    ([f"{ENABLED} 1'0", f"{CHECKED} 1'x"], [f"{ENABLED} 1'0", f"{CHECKED} $free$1"]),
    (["\\y 1'x", f"{ENABLED} 1'0"], ["\\y $free$1", f"{ENABLED} 1'0"]),
    (
        [f"{CHECKED} 1'x", "{ } { }", f"{ENABLED} 1'0"],
        [f"{CHECKED} 1'0", "{ } { }", f"{ENABLED} 1'0"],
    ),
    ([f"{CHECKED} 1'x", "{ } 1'0"], [f"{CHECKED} $free$1", "{ } 1'0"]),
    ([f"{CHECKED} {{ }}", f"{ENABLED} 1'0"], [f"{CHECKED} {{ }}", f"{ENABLED} 1'0"]),
    ([f"{CHECKED} 1'x", "\\y 1'0"], [f"{CHECKED} $free$1", "\\y 1'0"]),
    ([f"{CHECKED} 1'x", f"{ENABLED} \\e"], [f"{CHECKED} $free$1", f"{ENABLED} \\e"]),
    (
        [f"{ADDRESS} 2'x", f"{DATA} 4'x", f"{WRITTEN} 4'0000"],
        [f"{ADDRESS} 2'00", f"{DATA} 4'0000", f"{WRITTEN} 4'0000"],
    ),
    (
        [f"{ADDRESS} 2'x", f"{DATA} 4'x", f"{WRITTEN} 4'0001"],
        [f"{ADDRESS} $free$1", f"{DATA} $free$2", f"{WRITTEN} 4'0001"],
    ),
    (
        [f"{ADDRESS} 2'x", "\\y 1'1", "\\y 1'1", f"{WRITTEN} 4'0"],
        [f"{ADDRESS} $free$1", "\\y 1'1", "\\y 1'1", f"{WRITTEN} 4'0"],
    ),
]
# What nets are given in processes, by statements of these, and whether that is one constant each.
ONCE = """  process $p{0}
    assign $0\\a {1}
    sync always
      update \\a $0\\a
    sync init
  end
"""
GIVEN_ONCE = [
    (ONCE.format(1, "2'10") + ONCE.format(2, "2'10") + "  connect \\y \\a\n", None),
    (
        ONCE.format(1, "2'10") + ONCE.format(2, "2'11") + "  connect \\y \\a\n",
        "top: a has several drivers, or several initial values",
    ),
    (ONCE.format(1, "2'10") + ONCE.format(2, "2'11"), None),
    (
        ONCE.format(1, "2'10") + "  connect \\a 2'00\n  connect \\y \\a\n",
        "top: a has several drivers, or several initial values",
    ),
    (
        ONCE.format(1, "2'10").replace("always", "global")
        + "  connect \\a 2'00\n  connect \\y \\a\n",
        None,
    ),
    (
        ONCE.format(1, "2'10").replace("init", "always")
        + "  connect \\a 2'00\n  connect \\y \\a\n",
        None,
    ),
    (
        "  connect { \\a [1] \\b } 2'10\n  connect \\b 1'1\n  connect \\y \\b\n",
        "top: b has several drivers, or several initial values",
    ),
    (
        (
            "  connect { \\a [1] \\b } 2'10\n  connect \\b 1'0\n  connect \\a [0] 1'1\n  connect"
            " \\y { \\a \\b }\n"
        ),
        None,
    ),
    (
        "  connect { \\a [0] \\b } { 1'1 1'0 }\n  connect \\b 1'1\n  connect \\y \\b\n",
        "top: b has several drivers, or several initial values",
    ),
    ("  connect { \\a [0] \\b } { 1'1 \\c }\n  connect \\b 1'1\n  connect \\y \\b\n", None),
    ("  connect \\a { 1'1 \\c }\n  connect \\a 2'01\n  connect \\y \\a\n", None),
    ("  connect \\u 2'10\n  connect \\u 2'00\n  connect \\y { \\u \\u \\u }\n", None),
    ("  connect \\a 2'1x\n  connect \\a 2'00\n  connect \\y \\a\n", None),
    (
        "".join(
            ONCE.format(i, text).replace("$0\\a 3", "{ $0\\a \\b } 3")
            for i, text in [(1, "3'101"), (2, "3'111")]
        )
        + "  connect \\y \\a\n",
        None,
    ),
    (
        "".join(
            ONCE.format(i, text).replace(
                "    sync always", "    switch \\s\n    end\n    sync always"
            )
            for i, text in [(1, "2'10"), (2, "2'11")]
        )
        + "  connect \\y \\a\n",
        None,
    ),
    (
        ONCE.format(1, "2'10").replace("update \\a $0\\a", "update \\a { \\c \\d }")
        + ONCE.format(2, "2'10").replace("update \\a $0\\a", "update \\a { \\c \\d }")
        + "  connect \\y \\a\n",
        None,
    ),
    (
        "  connect \\a [1:0] 2'10\n  connect \\a [1] 1'0\n  connect \\y \\a\n",
        "top: a has several drivers, or several initial values",
    ),
]
# Texts in Verilog, and the line of what yosys reads otherwise, if there is such.
MISREAD = [
    ("module top;\n  initial begin #1 a = 1; end\nendmodule\n", 2),
    ("module top;\n  initial a = 1;\n  always @(posedge c) #1 a = 2;\nendmodule\n", None),
    ("module top;\n\n  always a = 1;\nendmodule\n", 3),
    (
        (
            'module top;\n  // always a = 1; initial #1\n  /* initial #1 */ wire w = "initial'
            ' #1";\nendmodule\n'
        ),
        None,
    ),
    ("module top;\n  typedef logic [1:0] t;\n  t [3:0] v;\nendmodule\n", 3),
    ("module other;\n  always a = 1;\nendmodule\nmodule top;\nendmodule\n", None),
]


DELAY = "a delay in an initial block isn't read, nor when what is behind it happens"
ENDLESS = "yosys reads always without an event as a combinational block: let a clock be an input"
DIMENSIONS = (
    "yosys drops the dimensions of a variable whose type has a name: let the type have them"
)
BINDING = (
    "bind is read where it names a module of the files, and one instance: write the instance into"
    " the module"
)
# Texts in a module, which begins in line 1, and what is said of them.
FAULTS = [
    ("\ninitial begin #1 a = 1; end", f"t.v:2: {DELAY}"),
    ("\ninitial #1 a = 1;", f"t.v:2: {DELAY}"),
    ("initial a = 1; wire #1 w;", None),
    ("initial begin a = 1; end\nalways @(posedge c) begin #1 b = 2; end", None),
    ("initial begin begin a = 1; end #1 b = 1; end", f"t.v:1: {DELAY}"),
    ("initial begin begin begin a = 1; end end end always @* #1 b = 1;", None),
    ("initial begin begin a = 1; end end always @* begin #1 b = 1; end", None),
    ("initial if (a) b = 1; else #1 c = 1;", f"t.v:1: {DELAY}"),
    ("initial if (a) begin b = 1; end else #1 c = 1;", f"t.v:1: {DELAY}"),
    ("initial if (a) begin : n b = 1; end : n else #1 c = 1;", f"t.v:1: {DELAY}"),
    ("initial if (a) b = 1; wire elsewhere; wire #1 w;", None),
    ("initial begin a = 1; b = 2; c = 3; #1 d = 4; end", f"t.v:1: {DELAY}"),
    ("initial begin if (a) b = 1; else b = 2; #1 c = 3; end", f"t.v:1: {DELAY}"),
    ("always @(posedge c) begin initia #1 = 1; end", None),
    ("typede t; t [3:0] v;", None),
    ("wire w = a / b;", None),
    ("typedef logic word_t;\nword_t [3:0] v;", f"t.v:2: {DIMENSIONS}"),
    ("initial a = 1", None),
    ("initial begin a = 1", None),
    ("wire my_initial; always @* my_initial #1 = 1;", None),
    ("wire initial_a, a_initial; wire #1 w;", None),
    ("\n\nalways a = 1;", f"t.v:3: {ENDLESS}"),
    ("always\n@(posedge c) a = 1;", None),
    ("always_comb a = 1;", None),
    ("wire always_a, a_always; wire x = 1;", None),
    ("typedef logic [1:0] t;\nt [3:0] v;", f"t.v:2: {DIMENSIONS}"),
    ("typedef logic t;\nt v [3:0];", None),
    ("typedef logic t;\nt v; wire w = t [0] or x;", None),
    (
        "typedef struct packed { struct packed { logic b; } a; logic c; } t;\nt [1:0] [2:0] v;",
        f"t.v:2: {DIMENSIONS}",
    ),
    ("typedef enum { A, B } t;\nwire a; t v; wire [1:0] w;", None),
    ("typedef struct packed { logic b; } t; wire [1:0] c;\nt [1:0] \\v+ ;", f"t.v:2: {DIMENSIONS}"),
    ("typedef logic t; typedef logic u;\nu [1:0] v;", f"t.v:2: {DIMENSIONS}"),
    ("wire my_typedef; wire t; wire u = t [0]; ", None),
    ('wire w = "/* initial #1"; // /* always\n', None),
    ('wire w = "\\"always \\\\";', None),
    ("/* synopsys translate_off */ initial #1 a = 1; /* synopsys translate_on */", None),
    ("/* synthesis  translate_off*/ always a = 1; /*synthesis translate_on */", None),
    ("/* other translate_off */ always a = 1; /* other translate_on */", f"t.v:1: {ENDLESS}"),
    ("/* a\n */ always a = 1;", f"t.v:2: {ENDLESS}"),
]


@pytest.mark.parametrize("text, wanted", FAULTS)
def test_verilog(checks: Checks, text: str, wanted: str | None) -> None:
    """What a module's text in Verilog may not have."""
    made = Text(f'`file_push "t.v"\nmodule top; {text}\nendmodule\n'.encode())
    checks.wants(text, wanted, is_refused(made.check, {"top"}))


def test_other_texts(checks: Checks) -> None:
    """A comment without an end, and what isn't in a module."""
    checks.wants(
        "a comment",
        "t.v:2: a comment isn't ended",
        is_refused(Text(b'`file_push "t.v"\nmodule top;\n /* no end').check, {"top"}),
    )
    outside = b'`file_push "t.v"\nalways a = 1;\nmodule top; endmodule\n'
    checks.wants("outside of all", f"t.v:1: {ENDLESS}", is_refused(Text(outside).check, {"top"}))
    behind = b'`file_push "t.v"\nmodule other; endmodule always a = 1;\nmodule top; endmodule\n'
    checks.wants("behind one", f"t.v:1: {ENDLESS}", is_refused(Text(behind).check, {"top"}))


def test_places(checks: Checks) -> None:
    """The file and the line of a place."""
    nested = (
        b'`file_push "t.v"\n\n`file_push "u.v"\n\n\nX\n`file_pop\n\nY\n`file_pop\nZ\n`file_pop\nW'
    )
    text = Text(nested)
    checks.wants(
        "places",
        ["u.v:3", "t.v:3", ":0", ":1"],
        [text.place(nested.index(sign)) for sign in (b"X", b"Y", b"Z", b"W")],
    )
    checks.wants("no file", [":0", ":1"], [Text(b"a\nb").place(place) for place in (0, 2)])


def test_modules(checks: Checks) -> None:
    """Where modules are in a text."""
    spans = (
        b"module a; endmodule\n`default_nettype none\nmodule automatic b;"
        b" endmodule\n`default_nettype  wire\nmacromodule \\c+ ; `define x\nendmodule module `x"
        b" static d; endmodule endmodule_x"
    )
    wanted = [
        ("a", 0, spans.index(b"endmodule"), True),
        ("b", spans.index(b"module auto"), spans.index(b"endmodule\n`default_nettype  w"), False),
        ("c+", spans.index(b"macro"), spans.index(b"endmodule m"), True),
        ("d", spans.index(b"module `x"), spans.index(b"endmodule endmodule_x"), True),
    ]
    checks.wants("modules", wanted, list(Text(spans).spans()))
    checks.wants("an escaped name", "?a", next(Text(b"module \\?a ; endmodule").spans())[0])
    checks.wants("no module", [], list(Text(b"endmodule a; b endmodule").spans()))
    checks.wants(
        "at a place",
        ["a", None, "b"],
        [Text(spans).module(place) for place in (0, spans.index(b"endmodule"), spans.index(b"b;"))],
    )


def test_changed_texts(checks: Checks) -> None:
    """A text with other lines, and without comments and strings."""
    checks.wants(
        "lines",
        b"module a; x endmodule module b; endmodule z",
        Text(b"module a; endmodule module b; endmodule z").with_lines({"a": b"x "}),
    )
    checks.wants(
        "words", b"a     \n   b " + b" " * 6, Text(b'a /* c\n*/ b "\\"d" '[:-1] + b" ").words
    )


@pytest.mark.parametrize(
    "given, wanted",
    [
        ({"a.v": b"module m; endmodule bind m.x s t(.a(b));"}, f":0: {BINDING}"),
        ({"a.v": b"bind m s t(.a(b));"}, f"m: {BINDING}"),
        ({"a.v": b"bind m s t;\n", "b.v": b"module m; endmodule bind m u v;"}, None),
        ({"a.v": b"wire a_bind, bind_a;"}, None),
        ({"a.v": b"wire bin ;"}, None),
        ({"a.v": b"module m; endmodule bind m #(1) s t;"}, f":0: {BINDING}"),
    ],
)
def test_binding(checks: Checks, given: dict[str, bytes], wanted: str | None) -> None:
    """What is bound to a module in a way that isn't read."""
    checks.wants(given, wanted, is_refused(bound, given))


def test_bound_twice(checks: Checks) -> None:
    """Two bound instances are put into their module."""
    twice = {"a.v": b"bind m s t;\n", "b.v": b"module m; endmodule bind m\nu  v;"}
    checks.wants(
        "bound twice",
        {"a.v": b"           \n", "b.v": b"module m; s t; u v; endmodule       \n     "},
        bound(twice),
    )


def test_dumps(checks: Checks) -> None:
    """What yosys prints of texts, and their folders."""
    dump = (
        b"-- Verilog code after preprocessor --\na\n-- END OF DUMP --\nsaid\n-- Verilog code after"
        b" preprocessor --\n-- END OF DUMP --\n"
    )
    checks.wants("dumps", [b"a\n", b""], expanded(dump))
    checks.wants(
        "a dump without an end",
        "the design has a line -- END OF DUMP --, which yosys prints too",
        is_refused(expanded, b"-- Verilog code after preprocessor --\n"),
    )
    checks.wants(
        "other folders",
        b'`file_push "/proc/self/fd/a"\n`file_push "/proc/self/fd/5"',
        moved(b'`file_push "/proc/self/fd/a"\n`file_push "/proc/self/fd/5"', [3], [8]),
    )


def changed(change: Callable[..., Any], text: str) -> str:
    """A design once something was done to it."""
    design = parse(text)
    change(design)
    return write(design)


def renamed(design: Statement) -> None:
    for module in design.of("module"):
        modules.renamed(module)


def found(text: str) -> dict[str, Statement]:
    """The modules of a design."""
    return modules_of(parse(text))


MANY = """attribute \\src "t.v:1.1-2.2"
module \\low
  attribute \\src "t.v:2.1-2.9"
  cell $assert \\here
  end
end
attribute \\src "t.v:3.1-4.4"
module \\top
  cell \\low \\l
  end
  attribute \\src "t.v:4.1-4.9"
  cell $cover $cover$t.v:4$1
  end
end
attribute \\src "t.v:5.1-6.6"
module \\alone
end
"""


def test_hierarchy(checks: Checks) -> None:
    """Which modules and cells a design has."""
    design = parse(MANY)
    cells = list(modules.cells_of(design))
    wanted = [
        ("\\low", None, "\\low", "t.v:1.1-2.2"),
        ("\\low", "$assert", "\\here", "t.v:2.1-2.9"),
        ("\\top", None, "\\top", "t.v:3.1-4.4"),
        ("\\top", "\\low", "\\l", ""),
        ("\\top", "$cover", "$cover$t.v:4$1", "t.v:4.1-4.9"),
        ("\\alone", None, "\\alone", "t.v:5.1-6.6"),
    ]
    checks.wants("cells", wanted, list(map(tuple, cells)))
    checks.wants("labels", ["low.here", "top.l", "top"], [it.label for it in cells if it.type])
    checks.wants("types", {"$assert", "\\low", "$cover"}, modules.types_of(design))
    checks.wants("roots", ["top", "alone"], modules.roots_of(cells))
    checks.wants(
        "reached",
        [{"top", "low"}, {"alone"}],
        [modules.reached(cells, name) for name in ["top", "alone"]],
    )


def test_paths(checks: Checks) -> None:
    """Paths of a design's nets."""
    nets = {
        "a.b": {"attributes": {"hdlname": "a b"}},
        "c": {"attributes": {}},
        "d": {"attributes": {"hdlname": "d"}},
        "f$func$t.v:3$7.i": {"attributes": {"hdlname": "f$func$t.v:3$7 i"}},
        "e": {"attributes": {"hdlname": "a \\e b"}},
    }
    # Of what is in a task the name alone is another: its path above is longer.
    nets |= {
        "u.f$func$t.v:3$8.j": {"attributes": {"hdlname": "u f$func$t.v:3$8.j"}},
        "k.l.m": {"attributes": {"hdlname": "k l m"}},
        "k.l.g$func$t.v:3$9.n": {"attributes": {"hdlname": "k l g$func$t.v:3$9.n"}},
    }
    given = modules.paths_of(nets)
    checks.wants(
        "paths",
        ["a b", "u f.j", "k l m", "k l g.n"],
        [given[name] for name in ["a.b", "u.f.j", "k.l.m", "k.l.g.n"]],
    )
    checks.wants("no paths", set(), {"c", "d", "e"} & given.keys())


def test_widths(checks: Checks) -> None:
    """How many bits a wire has."""
    widths = [
        modules.width_of(Statement("wire", text))
        for text in ["\\a", "width 3 \\a", "input 1 \\width", "width 3 offset 2 input 1 \\a"]
    ]
    checks.wants("widths", [1, 3, 1, 3], widths)


@pytest.mark.parametrize("part, widths, wanted", FREED)
def test_free_unknowns(checks: Checks, part: str, widths: list[int], wanted: str) -> None:
    """What isn't driven, or is x, becomes a wire of its own, which may have any value."""
    wires = "".join(f"  wire width {width} $free${i}\n" for i, width in enumerate(widths, 1))
    head = HEAD.lstrip().replace("module \\top\n", f"module \\top\n{wires}")
    checks.wants(part, f"{head}{wanted}end\n", changed(free_unknowns, f"{HEAD}{part}end\n"))


@pytest.mark.parametrize("part", STAYS)
def test_free_unknowns_stays(checks: Checks, part: str) -> None:
    """What stays as it is."""
    checks.wants(part, f"{HEAD.lstrip()}{part}end\n", changed(free_unknowns, f"{HEAD}{part}end\n"))


@pytest.mark.parametrize("part, is_dropped", DROPPED)
def test_dropped_updates(checks: Checks, part: str, is_dropped: bool) -> None:
    """Updates to x at edges of a process that are dropped."""
    kept = changed(
        lambda design: [modules.drop_unknown_updates(it) for it in design.of("module")],
        f"{HEAD}{part}end\n",
    )
    wanted = part.replace(EDGES.format("4'x", "posedge \\rst"), WITHOUT) if is_dropped else part
    checks.wants(part, f"{HEAD.lstrip()}{wanted}end\n", kept)


@pytest.mark.parametrize("kind, ports, wide, parameters, made", WIDENED)
def test_widened(
    checks: Checks, kind: str, ports: str, wide: str, parameters: str, made: str
) -> None:
    """A register of one bit becomes one with a width."""
    fine = "".join(f"    connect \\{port} \\n{port}\n" for port in ports.split())
    pairs = [line.split("=") for line in ["WIDTH=1", *parameters.split()]]
    lines = "".join(
        f"    parameter \\{name} {value if name == 'WIDTH' else f'1{chr(39)}{value}'}\n"
        for name, value in pairs
    )
    lines += "".join("    connect \\{} \\n{}\n".format(*port.split("=")) for port in made.split())
    checks.wants(
        kind,
        f"{HEAD.lstrip()}  cell {wide} \\c\n{lines}  end\nend\n",
        changed(widened, f"{HEAD}  cell {kind} \\c\n{fine}  end\nend\n"),
    )


@pytest.mark.parametrize("kind", ["$_AND_", "$_DFF_PPPP_", "$dff", "\\$_DFF_P_", "$_DFF_P_x"])
def test_widened_stays(checks: Checks, kind: str) -> None:
    """What is no register of one bit stays as it is."""
    text = f"{HEAD.lstrip()}  cell {kind} \\c\n    connect \\C \\n\n  end\nend\n"
    checks.wants(kind, text, changed(widened, text))


@pytest.mark.parametrize("part, wanted", NAMED)
def test_renamed(checks: Checks, part: str, wanted: str) -> None:
    """Names that are given to what has none."""
    checks.wants(part, f"{HEAD.lstrip()}{wanted}end\n", changed(renamed, f"{HEAD}{part}end\n"))


@pytest.mark.parametrize("part, is_one", CONSTANTS)
def test_constants(checks: Checks, part: str, is_one: bool) -> None:
    """A constant beside another driver, or another initial value, is refused."""
    given = is_refused(modules.check_constants, found(f"{HEAD}{part}end\n"))
    why = "top: y has several drivers, or several initial values"
    checks.wants(part, None if is_one else why, given)


@pytest.mark.parametrize(
    "switch, behind", [("", ""), ("    switch \\s\n      case 1'1\n", "    end\n")]
)
@pytest.mark.parametrize("lines, wanted", SETTLED)
def test_settled(
    checks: Checks, lines: list[str], wanted: list[str], switch: str, behind: str
) -> None:
    """What is assigned last counts, in a process and in a case of it."""
    indent = "        " if switch else "    "
    text, made = (
        "".join(f"{indent}assign {line}\n" for line in given) for given in (lines, wanted)
    )
    whole = f"module \\top\n  process $p\n{switch}{text}{behind}  end\nend\n"
    again = changed(free_unknowns, whole)
    checks.wants(
        lines,
        f"  process $p\n{switch}{made}{behind}  end\nend\n",
        again[again.index("  process"):],
    )


def test_parallel_case(checks: Checks) -> None:
    """A case keeps no attribute that says that it is parallel."""
    case = (
        "  process $p\n    attribute \\parallel_case 1\n    attribute \\full_case 1\n"
        "    switch \\s\n    end\n  end\n"
    )
    wanted = f"{HEAD.lstrip()}{case}end\n".replace("    attribute \\parallel_case 1\n", "")
    checks.wants("a case that is parallel", wanted, changed(free_unknowns, f"{HEAD}{case}end\n"))


@pytest.mark.parametrize("part, wanted", GIVEN_ONCE)
def test_given_once(checks: Checks, part: str, wanted: str | None) -> None:
    """Bits that are driven more than once by constants are refused."""
    wires = "".join(
        f"  wire width {width} \\{name}\n" for name, width in [("a", 2), ("b", 1), ("y", 2)]
    )
    given = is_refused(modules.check_constants, found(f"module \\top\n{wires}{part}end\n"))
    checks.wants(part, wanted, given)


@pytest.mark.parametrize("net, is_taken", [("\\s.i", False), ("\\s.j", True), ("\\r.i", True)])
def test_net_of_an_instance(checks: Checks, net: str, is_taken: bool) -> None:
    """A net with the path of one in an instance is refused."""
    inner = "\nmodule \\sub\n  wire \\i\nend\n"
    text = f"{HEAD}  wire {net}\n  cell \\sub \\s\n  end\nend\n{inner}"
    checks.wants(net, is_taken, is_refused(modules.check_names, found(text)) is None)


# A module with a net, a memory and a cell.
INNER = "\nmodule \\sub\n  wire \\i.k\n  memory \\m\n  cell $add \\c\n  end\nend\n"


@pytest.mark.parametrize(
    "line, attribute, is_taken",
    [
        ("wire \\s.m", "\\a", False),
        ("wire \\s.c", "\\a", False),
        ("wire \\s.i", "\\a", False),
        ("memory \\s.m", "\\a", False),
        ("wire \\sxi.k", "\\a", True),
        ("wire $1\\s.m", "\\a", True),
        ("wire \\s.m", "\\hierconn", True),
        ("wire \\s.q", "\\a", True),
    ],
)
def test_joined_names(checks: Checks, line: str, attribute: str, is_taken: bool) -> None:
    """Names that yosys would join to what is in an instance are refused."""
    text = f"{HEAD}  attribute {attribute} 1\n  {line}\n  cell \\sub \\s\n  end\nend\n{INNER}"
    given = is_refused(modules.check_names, found(text), modules.JOINED)
    checks.wants((line, attribute), is_taken, given is None)


def test_names_of_an_interface(checks: Checks) -> None:
    """Names of what is in an interface are taken."""
    text = f"{HEAD}  wire \\s.m\n  cell \\sub \\s\n  end\nend\n"
    of_interface = found(f"{text}\nattribute \\is_interface 1{INNER}")
    checks.wants("an interface", None, is_refused(modules.check_names, of_interface))


@pytest.mark.parametrize(
    "item, wanted",
    [
        ("2'0x", "t.v:3.4-5.6"),
        ("2'0z", "t.v:3.4-5.6"),
        ("2'01", None),
        ("2'0-", None),
        ("2'00 , 2'1x", "t.v:3.4-5.6"),
    ],
)
def test_item_of_x(checks: Checks, item: str, wanted: str | None) -> None:
    """An item of a case that is x or z, and its place."""
    text = (
        f'{HEAD}  process $p\n    attribute \\src "t.v:3.4-5.6"\n    switch \\s\n'
        f"      case {item}\n    end\n  end\nend\n"
    )
    checks.wants(item, wanted, modules.item_of_x(parse(text)))


def test_names_of_modules(checks: Checks) -> None:
    """The names that modules with parameters and interfaces have in the text."""
    checks.wants(
        "names of modules",
        ["m", "m"],
        [modules.base_of("$paramod\\m\\W=1"), modules.source_of("$paramod\\m$interfaces$i\\W=1")],
    )


@pytest.mark.parametrize("text, line", MISREAD)
def test_misread(checks: Checks, text: str, line: int | None) -> None:
    """Verilog that yosys reads otherwise is refused, with its line."""
    given = is_refused(Text(f'`file_push "t.v"\n{text}'.encode()).check, {"top"})
    wanted = None if line is None else f"t.v:{line}"
    checks.wants(text, wanted, given and given.partition(": ")[0])


def test_made_texts(checks: Checks) -> None:
    """What is made of texts in Verilog: binds, dumps, and folders."""
    texts = {"a.v": b"module m;\nendmodule\n", "b.v": b"bind m sub s(.a(b));\n"}
    checks.wants(
        "bind",
        {"a.v": b"module m;\nsub s(.a(b)); endmodule\n", "b.v": b"                    \n"},
        bound(texts),
    )
    dump = b"-- Verilog code after preprocessor --\nmodule m;\n-- END OF DUMP --\n"
    checks.wants(
        "a dump",
        ([b"module m;\n"], True),
        (expanded(b"said\n" + dump), bool(is_refused(expanded, dump + b"-- END OF DUMP --\n"))),
    )
    checks.wants(
        "folders",
        b'`file_push "/proc/self/fd/9/a.v"\n',
        moved(b'`file_push "/proc/self/fd/4/a.v"\n', [3, 4], [8, 9]),
    )


def net(*bits: int | str, hidden: int = 0) -> dict[str, Any]:
    return {"bits": list(bits), "hide_name": hidden, "attributes": {}}


def cell(kind: str, **ports: list[int | str]) -> dict[str, Any]:
    """A cell with bits by its ports, of which Y and Q are outputs."""
    directions = {port: "output" if port in "YQ" else "input" for port in ports}
    return {
        "type": kind,
        "hide_name": 1,
        "attributes": {},
        "parameters": {"CLK_POLARITY": "1"},
        "port_directions": directions,
        "connections": ports,
    }


def module(
    nets: dict[str, Any], cells: list[dict[str, Any]], inputs: list[str] | tuple[Any, ...] = ()
) -> dict[str, Any]:
    ports = {name: {"direction": "input", "bits": nets[name]["bits"]} for name in inputs}
    return {"netnames": nets, "cells": {f"$c{i}": it for i, it in enumerate(cells)}, "ports": ports}


def test_names(checks: Checks) -> None:
    """Names of nets and bits."""
    nets = {
        "d": net(2, 3),
        "e": net(3),
        "$1": net(2, hidden=1),
        "c": net("0", 4),
        "f": net(5),
        "$2": net(6, hidden=1),
        "p": net(5),
    }
    made = module(nets, [cell("$anyconst", Y=[5, 3]), cell("$not", A=[2], Y=[4])], ["p"])
    checks.wants(
        "identifiers", ["\\d", "$1"], [netlist.identifier(made, name) for name in ["d", "$1"]]
    )
    checks.wants(
        "names", {2: "d", 3: "e", 4: "c", 5: "p", 6: "$2", "0": "c"}, netlist.names_of(made)
    )
    checks.wants(
        "bits",
        [(2, "d[0]"), (3, "d[1]"), (3, "e"), (4, "c[1]"), (5, "f"), (5, "p")],
        list(netlist.bits_of(made)),
    )
    shared = {
        "d[0]": ["d[0]"],
        "d[1]": ["d[1]", "e"],
        "e": ["d[1]", "e"],
        "c[1]": ["c[1]"],
        "f": ["f", "p"],
        "p": ["f", "p"],
    }
    checks.wants("aliases", shared, netlist.aliases(made))
    checks.wants("types", {"$anyconst", "$not"}, netlist.types(made))
    checks.wants("cells", [cell("$not", A=[2], Y=[4])], netlist.cells_like(made, "$not"))
    checks.wants("constants", {"p", "e"}, netlist.constants(made))
    checks.wants("outputs", [4], netlist.outputs(cell("$not", A=[2], Y=[4])))


# A choice of what a register holds or its reset, nets, and cells with the names of what is stored.
RESET = cell("$mux", A=[7], B=["0"], S=[2], Y=[8])
STORING = {"$7": net(7, hidden=1), "q": net(8), "r": net(2)}
SETS = cell("$or", A=[7], B=[4], Y=[9])
CLEARS = cell("$and", A=[9], B=[5], Y=[8])
STORED = [
    (
        "a set and a reset",
        STORING,
        [cell("$ff", D=[3], Q=[7]), SETS, CLEARS],
        [("$7", "q.stored")],
    ),
    ("a set alone", STORING, [cell("$ff", D=[3], Q=[7]), SETS], []),
    ("a register", STORING, [cell("$ff", D=[3], Q=[7]), RESET], [("$7", "q.stored")]),
    (
        "the other side",
        STORING,
        [
            cell("$ff", D=[3], Q=[7]),
            {**RESET, "connections": {"A": ["0"], "B": [7], "S": [2], "Y": [8]}},
        ],
        [("$7", "q.stored")],
    ),
    ("no register", STORING, [cell("$not", A=[3], Y=[7]), RESET], []),
    ("no choice", STORING, [cell("$ff", D=[3], Q=[7]), {**RESET, "type": "$and"}], []),
    ("a name", {**STORING, "s": net(7)}, [cell("$ff", D=[3], Q=[7]), RESET], []),
    ("another one", {**STORING, "q.stored": net(9)}, [cell("$ff", D=[3], Q=[7]), RESET], []),
    (
        "a bit",
        {"$7": net(7, hidden=1), "w": net(9, 8)},
        [cell("$ff", D=[3], Q=[7]), RESET],
        [("$7", "w.stored[1]")],
    ),
    (
        "a hidden name",
        {"$7": net(7, hidden=1), "$8": net(8, hidden=1)},
        [cell("$ff", D=[3], Q=[7]), RESET],
        [],
    ),
    ("two", STORING, [cell("$ff", D=[3], Q=[7]), RESET, RESET], [("$7", "q.stored")]),
    (
        "the outermost",
        {**STORING, "u.q": net(8), "v": net(7, hidden=1)},
        [cell("$ff", D=[3], Q=[7]), RESET],
        [("v", "q.stored")],
    ),
]


@pytest.mark.parametrize("what, nets, cells, wanted", STORED)
def test_stored(
    checks: Checks,
    what: str,
    nets: dict[str, Any],
    cells: list[dict[str, Any]],
    wanted: list[tuple[str, str]],
) -> None:
    """What registers with an asynchronous reset hold, whose names have their values with the
    reset."""
    checks.wants(what, wanted, list(netlist.stored(module(nets, cells))))


# How yosys calls what an expression in line 2 of a file computes, in an instance.
PLACED = "$flatten\\u.$and$/f/d.v:2$3_Y"


def test_internal(checks: Checks) -> None:
    """Names that yosys makes are left out of what it says; those of the design, and of system
    tasks, stay."""
    for said, wanted in [
        (f"{PLACED} is odd", "what /f/d.v:2 computes is odd"),
        ("`$add$d.v:12$4_Y [3:0]'", "`what d.v:12 computes [3:0]'"),
        (f"`{PLACED}'", "`what /f/d.v:2 computes'"),
        ("value for signal `$0\\q[3:0]'.", "value for signal `q[3:0]'."),
        ("\\u.$procdff$12.Q", "\\u.what yosys made"),
        (
            "between cell $auto$ff.cc:337:slice$45.Y and \\r [0]",
            "between cell what yosys made and \\r [0]",
        ),
        ("`$memory\\m$wrmux[0][0][0]$y$12' and `\\a$b$c'", "`what yosys made' and `\\a$b$c'"),
        ("top.$assert$/f/d.v:1$7 (/f/d.v:1.72-1.85)", "top.assert (/f/d.v:1.72-1.85)"),
        ("module `$paramod\\m\\W=s32'00000000000000000000000000000011'", "module `m'"),
        (f"port $paramod${'0a' * 20}\\m.sub.a", "port m.sub.a"),
        ("Can't resolve task name `\\$foo'.", "Can't resolve task name `\\$foo'."),
        ("task $dumpvars, name $1 = 2", "task $dumpvars, name $1 = 2"),
        ("\\cost$5 and \\$x", "\\cost$5 and \\$x"),
    ]:
        checks.wants(said, wanted, without_internal(said))


# The nets of the modules below.
NETS = {
    "a": net(2),
    "b": net(3),
    "y": net(4),
    "clk": net(5),
    "q": net(6),
    PLACED: net(7, hidden=1),
    "$procmux$1_Y": net(8, hidden=1),
}
READ = cell("$assert", A=[4])
# Cells, and why a module with them is refused.
DRIVERS = [
    ([cell("$not", A=[2], Y=[4]), READ], None),
    (
        [cell("$not", A=[2], Y=[4]), cell("$not", A=[3], Y=[4]), READ],
        "top: y has several drivers",
    ),
    ([cell("$not", A=[2], Y=["0"])], "top: a constant has several drivers"),
    ([cell("$not", A=["z"], Y=[4])], "top: y can be z; tri-state nets are not supported"),
    ([cell("$not", A=[3], Y=[2]), cell("$not", A=[2], Y=[4])], "top: a has several drivers"),
    ([cell("$eqx", A=["z"], B=[3], Y=[4]), READ], None),
    ([cell("$nex", A=["z"], B=[3], Y=[4]), READ], None),
    (
        [
            cell("$eqx", A=[2], Y=[4]),
            cell("$eqx", A=[3], Y=[4]),
            cell("$nex", A=[3], Y=[4]),
            READ,
        ],
        None,
    ),
    (
        [{**cell("$assert", A=["z"]), "port_directions": {"A": "input"}}],
        "top: a constant can be z; tri-state nets are not supported",
    ),
    # Names that yosys made: one with a place, one on which y depends, and one on which nothing
    # does that the design names.
    (
        [cell("$not", A=[2], Y=[7]), cell("$not", A=[3], Y=[7]), cell("$assert", A=[7])],
        f"top: {PLACED} has several drivers",
    ),
    (
        [
            cell("$not", A=[2], Y=[8]),
            cell("$not", A=[3], Y=[8]),
            cell("$not", A=[8], Y=[7]),
            cell("$not", A=[7], Y=[4]),
            READ,
        ],
        "top: what y depends on has several drivers",
    ),
    (
        [
            cell("$not", A=[2], Y=[8]),
            cell("$not", A=[3], Y=[8]),
            cell("$not", A=[8], Y=[7]),
            cell("$assert", A=[7]),
        ],
        "top: a net without a name has several drivers",
    ),
    # What nothing reads but the cell that drives it may be the variable of loops.
    ([cell("$not", A=[2], Y=[4]), cell("$not", A=[3], Y=[4])], None),
    (
        [cell("$not", A=[2], Y=[4]), cell("$not", A=[4], Y=[7]), cell("$not", A=[3], Y=[4])],
        None,
    ),
    (
        [
            cell("$not", A=[2], Y=[4]),
            cell("$not", A=[4], Y=[7]),
            cell("$not", A=[3], Y=[4]),
            cell("$assert", A=[7]),
        ],
        "top: y has several drivers",
    ),
    # Two registers that nothing reads but what they take next, as the variable of loops in TWO
    # blocks; and one of them read.
    (
        [
            cell("$mux", A=[4], S=[2], Y=[7]),
            cell("$dff", D=[7], Q=[4]),
            cell("$mux", A=[4], S=[3], Y=[8]),
            cell("$dff", D=[8], Q=[4]),
        ],
        None,
    ),
    (
        [
            cell("$mux", A=[4], S=[2], Y=[7]),
            cell("$dff", D=[7], Q=[4]),
            cell("$dff", D=[3], Q=[4]),
            cell("$dff", D=[7], Q=[9]),
            cell("$assert", A=[9]),
        ],
        "top: y has several drivers",
    ),
]


@pytest.mark.parametrize("cells, wanted", DRIVERS)
def test_drivers(checks: Checks, cells: list[dict[str, Any]], wanted: str | None) -> None:
    """A net has one driver, which isn't z."""
    checks.wants(
        cells, wanted, is_refused(netlist.check_drivers, "top", module(NETS, cells, ["a", "b"]))
    )


def test_needed(checks: Checks) -> None:
    """What assertions depend on."""
    checks.wants(
        "what is needed",
        {2, 4, 7, 9},
        netlist.needed(
            module(
                NETS,
                [
                    cell("$mux", A=[4], S=[2], Y=[7]),
                    cell("$dff", D=[7], Q=[4]),
                    cell("$assert", A=[7], EN=[9]),
                    cell("$not", A=[3], Y=[8]),
                ],
            )
        ),
    )


def test_drivers_of_outputs(checks: Checks) -> None:
    """A net of a module's own, and an output, have one driver, too."""
    z = {**NETS, "t": net(8, "z")}
    checks.wants(
        "a net",
        "top: t can be z; tri-state nets are not supported",
        is_refused(netlist.check_drivers, "top", module(z, [], ["a"])),
    )
    output = {
        **module(NETS, [cell("$not", A=[2], Y=[4]), cell("$not", A=[3], Y=[4])]),
        "ports": {"y": {"direction": "output", "bits": [4]}},
    }
    checks.wants(
        "an output", "top: y has several drivers", is_refused(netlist.check_drivers, "top", output)
    )
    output["cells"] = {"$c": cell("$not", A=[2], Y=[4])}
    checks.wants("an output with one", None, is_refused(netlist.check_drivers, "top", output))
    output["cells"] = {}
    checks.wants(
        "an output without a driver", None, is_refused(netlist.check_drivers, "top", output)
    )


TWO = [cell("$and", A=[2], B=[4], Y=[6]), cell("$or", A=[3], B=[6], Y=[4])]
# Cells, and the nets of a loop of theirs.
LOOPS = [
    ([], []),
    (TWO, ["q", "y"]),
    (TWO[:1], []),
    ([cell("$not", A=[4], Y=[4])], ["y"]),
    ([cell("$not", A=[9], Y=[9])], []),
    ([TWO[0], cell("$mux", A=[2], S=[3], B=[6], Y=[6])], ["q"]),
    ([cell("$not", A=[2], Y=[4]), cell("$not", A=[4], Y=[6])], []),
]
LOOPS += [
    ([TWO[0], cell(kind, D=[6], Q=[4])], [])
    for kind in ["$dff", "$adffe", "$ff", "$_DFF_P_", "$dlatch", "$sr", "$_SR_PP_", "$anyinit"]
]
LOOPS += [([TWO[0], {**cell("$mem_v2", RD_ADDR=[6], Y=[4])}], [])]


@pytest.mark.parametrize("cells, wanted", LOOPS)
def test_loops(checks: Checks, cells: list[dict[str, Any]], wanted: list[str]) -> None:
    """A loop is found unless a register or a memory is in it."""
    own = module({**NETS, "$9": net(9, hidden=1)}, cells, ["a", "b"])
    checks.wants(cells, wanted, netlist.loop_in(own))


REGISTER = cell("$dff", CLK=[5], D=[2], Q=[6])
FALLING = {**REGISTER, "parameters": {"CLK_POLARITY": "0"}}
# Cells, and the clock that they have, or a part of why it isn't taken.
CLOCKS: list[tuple[list[dict[str, Any]], Any]] = [
    ([], None),
    ([REGISTER], ("clk", True)),
    ([FALLING], ("clk", False)),
    ([REGISTER, FALLING], "several clocks"),
    ([REGISTER, cell("$not", A=[5], Y=[4])], "reads its clock clk"),
    (
        [cell("$dff", CLK=[4], D=[2], Q=[6])],
        f"top generates its clock itself; the clock has to be an input: y ({MULTICLOCK})",
    ),
    ([cell("$dff", CLK=[7], D=[2], Q=[6])], f"has to be an input: {PLACED} ("),
    ([cell("$dff", CLK=[8], D=[2], Q=[6])], "has to be an input: what q depends on ("),
    (
        [cell("$dff", CLK=[7], D=[2], Q=[6]), REGISTER],
        f"top has several clocks, and one is taken: {PLACED} (rising) and clk (rising)",
    ),
    ([REGISTER, cell("$dff", CLK=[5], D=[6], Q=[5])], ("clk", True)),
]
BOTH_EDGES = (
    "top has several clocks, and one is taken: clk (falling) and clk (rising) (--multiclock"
    " takes any, and a step is then a moment in which inputs and clocks may change)"
)


@pytest.mark.parametrize("cells, wanted", CLOCKS)
def test_clock(checks: Checks, cells: list[dict[str, Any]], wanted: Any) -> None:
    """All registers have one clock, which is an input and which nothing else reads."""
    own = module(NETS, cells, ["clk"])
    given = is_refused(netlist.clock_of, "top", own)
    is_same = wanted in given if given else netlist.clock_of("top", own) == wanted
    checks.check(is_same, f"the clock of {cells} is {wanted}, and {given}")


@pytest.mark.parametrize("port", ["RD_CLK", "WR_CLK"])
def test_clock_of_memory(checks: Checks, port: str) -> None:
    """The clock of a memory's port, which rises where nothing else is said."""
    memory = {
        **cell("$mem_v2", **{port: [5]}),
        "port_directions": {port: "input"},
        "parameters": {f"{port}_POLARITY": "0001"},
    }
    checks.wants(port, ("clk", True), netlist.clock_of("top", module(NETS, [memory], ["clk"])))
    memory["parameters"] = {}
    checks.wants(
        f"{port} by default",
        ("clk", True),
        netlist.clock_of("top", module(NETS, [memory], ["clk"])),
    )


def test_refused_clocks(checks: Checks) -> None:
    """Both edges of a clock, a constant, and a name that yosys can't read."""
    checks.wants(
        "both edges",
        BOTH_EDGES,
        is_refused(netlist.clock_of, "top", module(NETS, [REGISTER, FALLING], ["clk"])),
    )
    checks.wants(
        "a constant",
        "top generates its clock itself; the clock has to be an input: a constant",
        str(
            is_refused(
                netlist.clock_of,
                "top",
                module(
                    NETS, [{**REGISTER, "connections": {"CLK": ["0"], "D": [2], "Q": [6]}}], ["clk"]
                ),
            )
        ).partition(" (")[0],
    )
    odd = {"a;": net(5), "a": net(2), "q": net(6)}
    checks.wants(
        "an odd name",
        "top has the clock a;, and in a script of yosys a name can't end so",
        is_refused(netlist.clock_of, "top", module(odd, [REGISTER], ["a;"])),
    )


def test_free_names(checks: Checks) -> None:
    """Names of free values are the design's."""
    free = {
        "d": net(8, 9),
        "d$[2:0]": net(8, 9),
        "e$[4:3]": net(10),
        "e[3]": net(11),
        "$1": net(12, hidden=1),
        "x0": net(13),
        "$2": net(14, hidden=1),
        "g$[2:0": net(15),
    }
    given = dict(netlist.free_names(module(free, [], ["d$[2:0]", "e$[4:3]", "$1", "$2", "g$[2:0"])))
    checks.wants("free values", {"d$[2:0]": "d[1:0]", "$1": "x1", "$2": "x2"}, given)
    given = dict(
        netlist.free_names(
            module({"$1": net(1, hidden=1), "d$[2:0]e": net(2)}, [], ["$1", "d$[2:0]e"])
        )
    )
    checks.wants("the first", {"$1": "x0"}, given)


def test_stored_names(checks: Checks) -> None:
    """Names of what a register with an asynchronous reset stores."""
    checks.wants(
        "what is stored", ["q.stored", "q.stored[3]"], list(map(netlist.stored_name, ["q", "q[3]"]))
    )
    known = {"q[3]": ["q[3]", "u.q[3]"]}
    checks.wants(
        "all names", ["q.stored[3]", "u.q.stored[3]"], netlist.all_names("q.stored[3]", known)
    )
    checks.wants(
        "names of a bit",
        (["d"], ["q.stored"], ["r[3]"]),
        (
            netlist.all_names("d", {}),
            netlist.all_names("q.stored", {}),
            netlist.all_names("r[3]", {"q": ["r"]}),
        ),
    )
    checks.wants("a pattern", "u\\.q\\[3\\]", netlist.pattern_of("u.q[3]"))


@pytest.mark.parametrize(
    "name, is_named, path",
    [
        ("$flatten\\u.\\v.$assert$t.v:1$2", False, "u.v"),
        ("$flatten\\g[0].\\odd.l.$live$t.v:1$2", False, "g[0].odd.l"),
        ("l", True, "l"),
        ("$assert$t.v:1$2", False, ""),
        ("$flatten\\?u.$assert$t.v:1$2", False, "?u"),
        ("$flatten\\u.$assert$t.v:1$2", True, "$flatten\\u.$assert$t.v:1$2"),
    ],
)
def test_paths_of_assertions(checks: Checks, name: str, is_named: bool, path: str) -> None:
    """Names of assertions without a label."""
    checks.wants(name, path, Assertion(name, "", is_named).path)


def test_orders(checks: Checks) -> None:
    """The order of properties."""
    given = [
        ("b", "b.v:1.1-1.2"),
        ("g[10]", "a.v:9.3-9.4"),
        ("g[9]", "a.v:9.3-9.4"),
        ("c", "a.v:10.1-10.2"),
        ("d", "a.v:9.12-9.13"),
        ("e", ""),
        ("f", "a.v:2.9-2.10"),
        ("h", "other.v:1.1-1.2"),
        ("i", "a.v:12.1-12.2"),
        ("i0", "a.v:12.1-12.2"),
    ]
    order = order_of([Assertion(name, place, True) for name, place in given], ["a.v", "b.v"])
    checks.wants(
        "an order",
        ["f", "g[9]", "g[10]", "d", "c", "i", "i0", "b", "h", "e"],
        [given[i][0] for i in order],
    )


def test_ordered(checks: Checks) -> None:
    """A file whose properties are put in an order."""
    # A latch and an output, then three bad states and a constraint, or two justice properties and a
    # fairness constraint, and a gate.
    bads = b"aig 3 1 1 1 1 3 1\n4 1\n2\n4\n5\n6\n7\n\x02\x02i0 a\nc\n4\n"
    checks.wants(
        "bad states",
        bads.replace(b"\n4\n5\n6\n7", b"\n6\n4\n5\n7"),
        ordered(bads, [2, 0, 1], False),
    )
    old = b"aig 1 1 0 1 0\n2\ni0 a\n"
    checks.wants("none", old, ordered(old, [], False))
    lives = b"aig 3 1 1 1 1 0 1 2 1\n4 1\n2\n7\n2\n1\n4\n5\n6\n2\n\x02\x02c\n9\n"
    checks.wants(
        "justice",
        b"aig 3 1 1 1 1 0 1 2 1\n4 1\n2\n7\n1\n2\n6\n4\n5\n2\n\x02\x02c\n9\n",
        ordered(lives, [1, 0], True),
    )
    checks.wants("as they are", lives, ordered(lives, [0, 1], True))
