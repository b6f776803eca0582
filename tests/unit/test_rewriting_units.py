"""Checks how texts that yosys doesn't read are written otherwise, without yosys.

Texts in Verilog were written by hand, with what has to stand in the place of each construct, by the
meaning that the standard gives it (IEEE 1800-2017, 16): for properties with a clock, which edge
each expression is looked at; for actions of assertions and system tasks, what has no effect on a
design; and each text that isn't known is refused, by its line. What such designs mean is shown with
a simulator by test_twins.py."""
from __future__ import annotations

import pytest
from faults import is_refused as refused
from harness import Checks

from aigprove.designs.labels import Generated, marked, named
from aigprove.designs.modules import are_alike
from aigprove.designs.properties import Block, Item, parsed
from aigprove.designs.rewriting import rewritten
from aigprove.designs.rtlil import parse
from aigprove.designs.sensitivity import lacking
from aigprove.designs.statements import Blocks, blocks, closing
from aigprove.designs.texts import Text, read_again, unread

# Texts, and what is run in them.
RUN = [
    (b"module m; always @(posedge c) a <= b; wire w;", [b"always @(posedge c) a <= b;"]),
    (
        b"always @* if (a) b = 1; else b = 2; assign c = d;",
        [b"always @* if (a) b = 1; else b = 2;"],
    ),
    (
        b"initial begin a = 1; begin : k b = 2; end end wire w;",
        [b"initial begin a = 1; begin : k b = 2; end end"],
    ),
    (
        b"always @* if (a) begin : k b = 1; end : k else ; wire w;",
        [b"always @* if (a) begin : k b = 1; end : k else ;"],
    ),
    (
        b"if (P) always @* begin if (a) b = 1; end else always @* b = 2;",
        [b"always @* begin if (a) b = 1; end", b"always @* b = 2;"],
    ),
    (
        b"if (P) always @* if (a) b = 1; else if (c) b = 3; else b = 4; else assign b = 2;",
        [b"always @* if (a) b = 1; else if (c) b = 3; else b = 4;"],
    ),
    (b"if (P) always @* assert (a); else wire w;", [b"always @* assert (a);"]),
    (
        b"always @* if (a) assert (b) else $error; else c = 1; wire w;",
        [b"always @* if (a) assert (b) else $error; else c = 1;"],
    ),
    (
        b"always_comb case (a) 1: b = 1; default: b = 2; endcase wire w;",
        [b"always_comb case (a) 1: b = 1; default: b = 2; endcase"],
    ),
    (
        b"initial for (i = 0; i < 2; i = i + 1) a[i] = 1; wire w;",
        [b"initial for (i = 0; i < 2; i = i + 1) a[i] = 1;"],
    ),
    (
        b"function f; input a; f = a; endfunction task t; begin end endtask",
        [b"function f; input a; f = a; endfunction", b"task t; begin end endtask"],
    ),
    (b"import x; function f; endfunction", [b"function f; endfunction"]),
    (b"import x function int f(int a); wire w; initial a = 1;", [b"initial a = 1;"]),
    *(
        (b"extern %s function int f(int a); initial a = 1;" % word, [b"initial a = 1;"])
        for word in [b"pure", b"context", b"export", b"import"]
    ),
    *(
        (b"%s function int f(int a); initial a = 1;" % word, [b"initial a = 1;"])
        for word in [b"pure", b"context", b"export", b"extern"]
    ),
    *(
        (
            b"always @* %s (a) 1: b = 1; 2: b = 2; endcase wire w;" % word,
            [b"always @* %s (a) 1: b = 1; 2: b = 2; endcase" % word],
        )
        for word in [b"casex", b"casez"]
    ),
    *(
        (b"initial fork a = 1; b = 2; %s wire w;" % word, [b"initial fork a = 1; b = 2; %s" % word])
        for word in [b"join_any", b"join_none"]
    ),
    (
        b"always_ff @(posedge c) fork a = 1; join always_latch b = 1; final a = 2;",
        [b"always_ff @(posedge c) fork a = 1; join", b"always_latch b = 1;", b"final a = 2;"],
    ),
    (b"wire always_1, \\always , \\initial ; wire w;", []),
    (b"always @* begin a = 1;", []),
]
# Texts of properties, and what is looked at: the edge, the condition without which it isn't asked
# about, expressions with the edges behind an attempt's begin and whether they are wanted, and
# whether the last one is wanted then or later.
PARSED = [
    (b"@(posedge clk) a", (b"posedge clk", b"", [(0, b"a", True)], False)),
    (
        b" @ ( negedge u.clk )\n disable  iff (!r || (s)) a",
        (b"negedge u.clk", b"!r || (s)", [(0, b"a", True)], False),
    ),
    (b"@(posedge clk) a |-> b", (b"posedge clk", b"", [(0, b"a", False), (0, b"b", True)], False)),
    (b"@(posedge clk) a |=> b", (b"posedge clk", b"", [(0, b"a", False), (1, b"b", True)], False)),
    (
        b"@(posedge clk) a ##1 b |-> c ##2 d",
        (
            b"posedge clk",
            b"",
            [(0, b"a", False), (1, b"b", False), (1, b"c", True), (3, b"d", True)],
            False,
        ),
    ),
    (
        b"@(posedge clk) a ##1 b |=> ##3 c",
        (b"posedge clk", b"", [(0, b"a", False), (1, b"b", False), (5, b"c", True)], False),
    ),
    (b"@(posedge clk) ##2 a", (b"posedge clk", b"", [(2, b"a", True)], False)),
    (b"@(posedge clk) a ##0 b", (b"posedge clk", b"", [(0, b"a", True), (0, b"b", True)], False)),
    (
        b"@(posedge clk) (a |-> b)",
        (b"posedge clk", b"", [(0, b"a", False), (0, b"b", True)], False),
    ),
    (
        b"@(posedge clk) ((a ##1 b)) |-> (c\n##1 (d && e))",
        (
            b"posedge clk",
            b"",
            [(0, b"a", False), (1, b"b", False), (1, b"c", True), (2, b"(d && e)", True)],
            False,
        ),
    ),
    (
        b"@(posedge clk) (a || b) && (c)",
        (b"posedge clk", b"", [(0, b"(a || b) && (c)", True)], False),
    ),
    (
        b"@(posedge clk) {a, b} == v[1:0] |-> f(a, b)",
        (b"posedge clk", b"", [(0, b"{a, b} == v[1:0]", False), (0, b"f(a, b)", True)], False),
    ),
    (b"@(posedge clk) s_eventually a", (b"posedge clk", b"", [(0, b"a", True)], True)),
    (
        b"@(posedge clk) a |=> s_eventually (b)",
        (b"posedge clk", b"", [(0, b"a", False), (1, b"(b)", True)], True),
    ),
    (
        b"@(posedge \\c[0] ) $past(a) != a",
        (b"posedge \\c[0]", b"", [(0, b"$past(a) != a", True)], False),
    ),
]
UNREAD = (
    "{} isn't read in a property: write it with |->, |=>, ##N and expressions, or as registers and"
    " an assertion in a block"
)
CLOCKLESS = "a property has to begin with one edge of one clock, as @(posedge clk)"
REFUSED = [
    (b"a |-> b", CLOCKLESS),
    (b"@(clk) a", CLOCKLESS),
    (b"@clk a", CLOCKLESS),
    (b"@(posedge a or posedge b) c", CLOCKLESS),
    (b"@(posedge a[0]) c", CLOCKLESS),
    (b"@(posedge clk) @(posedge c) a", UNREAD.format("@")),
    (b"@(posedge clk) disable iff r a", UNREAD.format("disable")),
    (b"@(posedge clk) a |-> b |-> c", "a property has one |-> or |=>: write several properties"),
    (b"@(posedge clk) a ##[1:2] b", UNREAD.format("## with anything but a number")),
    (b"@(posedge clk) a ##N b", UNREAD.format("## with anything but a number")),
    (b"@(posedge clk) a[*3] |-> b", UNREAD.format("[*")),
    (b"@(posedge clk) a [->1] ##1 b", UNREAD.format("[->")),
    (b"@(posedge clk) a [=1]", UNREAD.format("[=")),
    (b"@(posedge clk) (a ##1 b) && c", UNREAD.format("##")),
    (b"@(posedge clk) (a |-> b) and c", UNREAD.format("|->")),
    (b"@(posedge clk) a ##1 (b |-> c)", UNREAD.format("|->")),
    *(
        (b"@(posedge clk) a %s b" % word, UNREAD.format(word.decode()))
        for word in [
            b"throughout",
            b"within",
            b"intersect",
            b"and",
            b"or",
            b"iff",
            b"implies",
            b"until",
            b"s_until",
            b"until_with",
            b"s_until_with",
            b"#-#",
            b"#=#",
        ]
    ),
    *(
        (b"@(posedge clk) %s (b)" % word, UNREAD.format(word.decode()))
        for word in [
            b"not",
            b"nexttime",
            b"s_nexttime",
            b"always",
            b"s_always",
            b"eventually",
            b"strong",
            b"weak",
            b"first_match",
            b"accept_on",
            b"reject_on",
            b"sync_accept_on",
            b"sync_reject_on",
            b"if",
            b"case",
            b"disable",
        ]
    ),
    (b"@(posedge clk) a |-> b ##1 s_eventually c", UNREAD.format("s_eventually")),
    (b"@(posedge clk) s_eventually a |-> b", UNREAD.format("s_eventually")),
    (b"@(posedge clk) ", "an expression of a property is missing"),
    (b"@(posedge clk) a |-> ", "an expression of a property is missing"),
    (b"@(posedge clk) a ##1 ##1 b", "an expression of a property is missing"),
    (b"@(posedge clk) ##4096 a |=> b", "a property goes on for at most 4096 edges"),
    (b"@(posedge clk) ##4096 a", None),
]
# Texts in a module, and what stands in their place; for some with $stop and $fatal as assertions.
IMPLIES = b"always @(posedge c) assert (1'b1 && (!(1'b1 && (a)) || 1'b1 && (b)));"
WRITTEN = [
    (b"assert property (@(posedge c) a |-> b);", IMPLIES),
    (
        b"l: assert property (@(posedge c) disable iff (r) a);",
        b"always @(posedge c) if (!(r)) l: assert (1'b1 && (!(1'b1) || 1'b1 && (a)));",
    ),
    (
        b'assert property (@(posedge c)\n  a\n  |-> b) else\n $error("no; ) a");\nwire w;',
        IMPLIES + b"\n\n\n\nwire w;",
    ),
    (
        b"l: assume property (@(posedge c) a |=> b);",
        (
            b"reg [0:0] l_attempts = 0; reg [1:0] l_now; always @(posedge c) begin l_now = {1'b1 &&"
            b" (b), 1'b1 && (a)}; l_attempts <= 0 ? 0 : {1'b1 && l_now[0]}; l: assume (1'b1 &&"
            b" (!(1'b1 && l_attempts[0]) || 1'b1 && l_now[1])); end"
        ),
    ),
    (
        b"wire l_now; l: cover property (@(posedge c) disable iff (r) a ##2 b);",
        (
            b"wire l_now; reg [1:0] l__attempts = 0; reg [2:0] l__now; always @(posedge c) begin"
            b" l__now = {1'b1 && (r), 1'b1 && (b), 1'b1 && (a)}; l__attempts <= l__now[2] ? 0 :"
            b" {1'b1 && l__attempts[0], 1'b1 && l__now[0]}; if (!l__now[2]) l: cover (1'b1 &&"
            b" l__attempts[1] && l__now[1]); end"
        ),
    ),
    (
        b"if (P) assert property (@(posedge c) ##1 a);",
        (
            b"if (P) begin reg [0:0] property_1_attempts = 0; reg [0:0] property_1_now; always"
            b" @(posedge c) begin property_1_now = {1'b1 && (a)}; property_1_attempts <= 0 ? 0 :"
            b" {1'b1}; assert (1'b1 && (!(1'b1 && property_1_attempts[0]) || 1'b1 &&"
            b" property_1_now[0])); end end"
        ),
    ),
    (b"if (P) ; else assert property (@(posedge c) a |-> b);", b"if (P) ; else " + IMPLIES),
    (
        b"assert property (@(posedge c) disable iff (r) a |-> s_eventually b);",
        (
            b"always @(posedge c) if (!(r)) if (1'b1 && (a)) assert property (s_eventually (b) ||"
            b" (r));"
        ),
    ),
    (
        b"assert property (@(posedge c) a |-> s_eventually b);",
        b"always @(posedge c) if (1'b1 && (a)) assert property (s_eventually (b));",
    ),
    (b"assert (a) else $error;assert (b) else $error;", b"assert (a);assert (b);"),
    (b"assert property (a |-b);", None),
    (
        b"wire l_attempts; l: assert property (@(posedge c) ##1 a);",
        (
            b"wire l_attempts; reg [0:0] l__attempts = 0; reg [0:0] l__now; always @(posedge c)"
            b" begin l__now = {1'b1 && (a)}; l__attempts <= 0 ? 0 : {1'b1}; l: assert (1'b1 &&"
            b" (!(1'b1 && l__attempts[0]) || 1'b1 && l__now[0])); end"
        ),
    ),
    (
        b"restrict property (@(posedge c) a);",
        b"always @(posedge c) restrict (1'b1 && (!(1'b1) || 1'b1 && (a)));",
    ),
    (b"assert property (a); wire w;", None),
    (b"cover property (s_eventually a);", None),
    (b"assert (a); if (b) assert (c); else d = 1;", None),
    (b"wire assert_1, x$assert; // assert (a) else $error;\n", None),
    (b'assert (a) else $error("x", f(a));', b"assert (a);"),
    (b'assert property (a) $display("y"); else $fatal;', b"assert property (a);"),
    (b'assume (a) $display("y");', b"assume (a);"),
    (b'assert (a) else begin $error("x"); $display; end wire w;', b"assert (a); wire w;"),
    (b"assert #0 (a) else $error;", None),
    (b'assert (a) else $error ("x") ;', b"assert (a);"),
    (b"assert (a) ;", None),
    (b"assert (a) else begin end", b"assert (a);"),
    (b"assert (a) else ;", b"assert (a);"),
    (b'if (a) l: assert (b) else $warning("x"); else c = 1;', b"if (a) l: assert (b); else c = 1;"),
    (
        (
            b'initial begin $finish; $stop(1); if (a) $fatal(1, "x"); else $error("("); $info("x");'
            b' $warning; $display("kept"); end'
        ),
        b'initial begin ; ; if (a) ; else ; ; ; $display("kept"); end',
    ),
    (b"always @* if (a) $finish(0);\nwire w;", b"always @* if (a) ;\nwire w;"),
    # Beside blocks they are about the elaboration.
    (b'if (W > 3) $error("x"); if (W > 4) $fatal(1, "x");', None),
    (b"task t; $finish; endtask", b"task t; ; endtask"),
    (b"wire \\$finish ; initial a = $stop_1;", None),
]
STOPS = [
    (
        b'always @(posedge c) if (a) $stop; else $fatal(1, "x");',
        b"always @(posedge c) if (a) assert (0); else assert (0);",
    ),
    (b'always @(posedge c) begin $finish; $error("x"); end', b"always @(posedge c) begin ; ; end"),
    (b"assert (a) else $fatal;", b"assert (a);"),
]
ACTION = (
    "what an assertion does when it passes or fails isn't read, unless it is a system task that"
    " tells something: leave it out"
)
IN_BLOCK = "a property with a clock stands beside blocks, and not in one"
COVERED = "cover property takes a sequence: write a ##1 b in place of a |=> b"
FAULTS = [
    (b"\nassert (a) else b = 1;", f"t.v:2: {ACTION}"),
    (b"assert (a) b = 1;", f"t.v:1: {ACTION}"),
    (b"assert (a) else begin $error; b = 1; end", f"t.v:1: {ACTION}"),
    (b'assert (a) $display("x"); else f(a);', f"t.v:1: {ACTION}"),
    (b'assert (a) else $error("x")', f"t.v:1: {ACTION}"),
    (b"\n\nalways @(posedge c) assert property (@(posedge c) a);", f"t.v:3: {IN_BLOCK}"),
    (b"initial assume property (a |-> b);", f"t.v:1: {IN_BLOCK}"),
    (b"\nl:\nassert property (a |-> b);", f"t.v:3: {CLOCKLESS}"),
    (b"cover property (@(posedge c) a |=> b);", f"t.v:1: {COVERED}"),
    (b"cover property (@(posedge c) s_eventually b);", f"t.v:1: {COVERED}"),
    (b"assert property (@(posedge c) not a);", f"t.v:1: {UNREAD.format('not')}"),
]
PUSHED = b'`file_push "t.v"\n'
# Texts in a module with assertions in generated blocks, and what stands in their place.
MARKED = [
    (
        b"for (i = 0; i < 2; i = i + 1) begin : g always @* l: assert (a[i]); end",
        (
            b"for (i = 0; i < 2; i = i + 1) begin : g wire aigprove_at_1_l = 1'b0; always @* assert"
            b" ( (a[i]) || aigprove_at_1_l); end"
        ),
    ),
    (
        b"begin : g l: assert property (s_eventually a); assume (b); end",
        (
            b"begin : g wire aigprove_at_1_l = 1'b0; assert property (s_eventually ( a) ||"
            b" aigprove_at_1_l); wire aigprove_at_2_ = 1'b0; assume ( (b) || aigprove_at_2_); end"
        ),
    ),
    (
        b"if (P) always @(posedge c) begin cover (a); m: restrict (b); end else n: assert (c);",
        (
            b"if (P) begin wire aigprove_at_1_ = 1'b0; wire aigprove_at_2_m = 1'b0; always"
            b" @(posedge c) begin cover ( (a) || aigprove_at_1_); restrict ( (b) ||"
            b" aigprove_at_2_m); end end else begin wire aigprove_at_3_n = 1'b0; assert ( (c) ||"
            b" aigprove_at_3_n); end"
        ),
    ),
    (
        b"begin : g case (P) 0: assert (a); endcase assert (b); end",
        (
            b"begin : g case (P) 0: assert (a); endcase wire aigprove_at_1_ = 1'b0; assert ( (b) ||"
            b" aigprove_at_1_); end"
        ),
    ),
    (
        b"begin : g end if (P) assert (c);",
        (
            b"begin : g end if (P) begin wire aigprove_at_1_ = 1'b0; assert ( (c) ||"
            b" aigprove_at_1_); end"
        ),
    ),
    (
        b"module n; endmodule module o; if (P) assert (c);",
        (
            b"module n; endmodule module o; if (P) begin wire aigprove_at_1_ = 1'b0; assert ( (c)"
            b" || aigprove_at_1_); end"
        ),
    ),
    (
        b"begin : g begin : h assert (a); end end",
        b"begin : g begin : h wire aigprove_at_1_ = 1'b0; assert ( (a) || aigprove_at_1_); end end",
    ),
    (b"begin : g (* keep *) assert (a); (* keep *) always @* assert (a); end", None),
    (b"begin : g assert #0 (a); end", None),
    (b"l: assert (a); always @* begin : b m: assert (b); end begin end assert (c);", None),
    (b"module n; begin endmodule module o; assert (a);", None),
]
# A module with assertions that read nets of blocks, and the names that these have then.
READING = """module \\top
  wire \\g[0].aigprove_at_1_l
  wire \\g[0].h.aigprove_at_2_
  wire \\g[1].aigprove_at_1_l
  wire \\g[1].l
  wire $formal$t.v:3$1_CHECK
  wire $formal$t.v:3$2_CHECK
  cell $logic_or $o1
    connect \\A \\a
    connect \\B \\g[0].aigprove_at_1_l
    connect \\Y $y1
  end
  cell $logic_or $o2
    connect \\A \\a
    connect \\B \\g[0].h.aigprove_at_2_
    connect \\Y $y2
  end
  cell $logic_or $o3
    connect \\A \\a
    connect \\B \\g[1].aigprove_at_1_l
    connect \\Y $y3
  end
  cell $logic_or $o4
    connect \\A \\a
    connect \\B \\b
    connect \\Y $y4
  end
  cell $not $n1
    connect \\A $y1
  end
  cell $assert $a1
    connect \\EN 1'1
    connect \\A $y1
  end
  cell $logic_or $o6
    connect \\A \\a
    connect \\B \\g[2].aigprove_at_1_l
    connect \\Y $y6
  end
  cell $logic_or $o7
    connect \\A \\a
    connect \\B \\g[3].aigprove_at_1_l
    connect \\Y $y7
  end
  cell $assert $a6
    connect \\A $y6
  end
  cell $assert $a7
    connect \\A $y7
  end
  cell $buf \\g[2].l
    connect \\A \\a
  end
  memory \\g[3].l
  cell $cover $a2
    connect \\A $formal$t.v:3$1_CHECK
  end
  cell $live $a3
    connect \\A $formal$t.v:3$2_CHECK
  end
  cell $assume $a4
    connect \\A $y3
  end
  cell $assert $a5
    connect \\A $y4
  end
  process $p
    assign $0$formal$t.v:3$1_CHECK[0:0]$7 $y2
    assign $0\\b $y1
    assign { $0$formal$t.v:3$4_CHECK[0:0]$7 $c } $y1
    switch \\a
      case 1'1
        assign $1$formal$t.v:3$2_CHECK[0:0]$8 $y2
    end
  end
end
"""
AT = {
    "$n1": "$n1",
    "$a1": "\\g[0].l",
    "$a6": "$a6",
    "$a7": "$a7",
    "\\g[2].l": "\\g[2].l",
    "$a2": "\\g[0].h.unnamed[0]",
    "$a3": "\\g[0].h.unnamed[1]",
    "$a4": "$a4",
    "$a5": "$a5",
}


def test_statements(checks: Checks) -> None:
    """What is run in a text, and parentheses."""
    for text, wanted in RUN:
        checks.wants(text, wanted, [text[start:end] for start, end in blocks(text)])
    made = Blocks(b" initial a; wire w; always b;")
    checks.wants(
        "at a place",
        [None, (1, 11), (1, 11), None, None, (20, 29), None],
        [made.at(place) for place in [0, 1, 10, 11, 19, 20, 29]],
    )
    for text, start, end in [(b"a(b(c)d)e)", 1, 8), (b"(a", 0, 2), (b"()()", 0, 2)]:
        checks.wants(text, end, closing(text, start))


def test_written_properties(checks: Checks) -> None:
    """Properties, and what they look at."""
    for text, (clock, disable, items, is_later) in PARSED:
        given = parsed(text)
        checks.wants(
            text,
            (clock, disable, [Item(*it) for it in items], is_later),
            (given.clock, given.disable, list(given.items), given.is_later),
        )
    for text, why in REFUSED:
        checks.wants(text, why, refused(parsed, text))
    # A condition without which nothing is asked about is looked at at each edge of an attempt, also
    # where s_eventually is wanted.
    text = Block(
        b"assert", b"l: ", b"l", parsed(b"@(posedge c) disable iff (r) a |=> s_eventually b")
    ).text()
    checks.wants(
        "later",
        (
            b"if (!l_now[2]) if (1'b1 && l_attempts[0]) l: assert property (s_eventually l_now[1]"
            b" || l_now[2]); end"
        ),
        text[text.index(b"if (!l_now"):],
    )


def test_texts(checks: Checks) -> None:
    """Texts that are written otherwise."""
    for are_stops_failing, rows in [(False, WRITTEN), (True, STOPS)]:
        for text, wanted in rows:
            checks.wants(
                text, PUSHED + (wanted or text), rewritten(PUSHED + text, are_stops_failing)
            )
    for text, why in FAULTS:
        checks.wants(text, why, refused(rewritten, PUSHED + text, False))
    for text, _ in WRITTEN:
        lines = [given.count(b"\n") for given in [text, rewritten(text, False)]]
        checks.check(lines[0] == lines[1], f"lines of {text} move")
    whole = (
        b"module m; // synthesis translate_off\n/* translate_on */ wire translate_only; endmodule\n"
    )
    checks.wants("what isn't read", whole, read_again(unread(whole)))
    checks.check(
        b"translate_on" not in unread(whole) and Text(unread(whole)).words != Text(whole).words,
        "a comment goes on",
    )
    off = b"/* synthesis translate_off */"
    checks.wants("another word", off + b"translate_it", unread(b"translate_it"))
    checks.wants("its own comment", b"translate-it" + off, read_again(off + b"translate-it" + off))


def test_generated(checks: Checks) -> None:
    """Assertions in generated blocks, and their names."""
    for text, wanted in MARKED:
        checks.wants(text, PUSHED + (wanted or text), marked(PUSHED + text))
    checks.wants("at the begin", (False, False), Generated(b" begin", Blocks(b"")).at(0))
    design = parse(READING)
    named(design)
    (module,) = design.of("module")
    again = {
        old: cell.name
        for old, cell in zip(AT, [cell for cell in module.of("cell") if cell.type != "$logic_or"])
    }
    checks.wants("names", AT, again)


@pytest.mark.parametrize("kind", ["$assert", "$assume", "$cover", "$live", "$fair"])
@pytest.mark.parametrize(
    "cells, wanted",
    [("$a1 $a1", True), ("$a1", False), ("$a1 \\l", False), ("\\l \\m", False)],
)
def test_alike(checks: Checks, kind: str, cells: str, wanted: bool) -> None:
    """Whether several assertions of a module have one place, and no names."""
    names = [f"{cell}{i}" if cell[0] == "$" else cell for i, cell in enumerate(cells.split())]
    text = "".join(
        f'  attribute \\src "t.v:1.1-2.2"\n  cell {kind} {name}\n  end\n' for name in names
    )
    other = text if len(cells) < 6 else ""
    design = parse(f"module \\top\n{text}end\nmodule \\other\n{other}end\n")
    checks.wants(cells, wanted, are_alike(design))


# The nets of modules, and blocks with what they read and don't wait for.
READ_NETS = {"m": {"a", "b", "y", "q", "clk"}, "n": {"a", "c"}}
LISTS = [
    ("always @(a) y = a & b;", "b"),
    ("always @(a or b) y = a & b;", None),
    ("always @(a, b[1:0]) y = a & b;", None),
    ("always @* y = a & b;", None),
    ("always @(*) y = a & b;", None),
    ("always @(posedge clk) y = a & b;", None),
    ("always @(negedge clk or posedge a) y = b;", None),
    ("always @(a) begin q = a; y = q; end", None),
    ("always @(a) if (a <= b) y = 1; else y[0] <= q;", "b, q"),
    ("always @(a) begin : k if (a == b) y = 1; end", "b"),
    ("always @( a\n or q ) case (a) b: y = P; default: y = f(q); endcase", "b"),
    ("always @(a) y = m.b + `b + 2'b0 + \\b + a.b;", None),
    ("wire w; // always @(a) y = b;\n", None),
    ("always @(a) y = c;", None),
    ("always @(a) y = a ? 1 : b == 1;", "b"),
    ("always @(aq) y = 1;", None),
]


@pytest.mark.parametrize("text, names", LISTS)
def test_lists(checks: Checks, text: str, names: str | None) -> None:
    """Blocks that don't wait for all that they read."""
    whole = (
        f"module o; endmodule\nmodule m(input a); {text} endmodule\nmodule n; always @(a) c ="
        " b; endmodule\n"
    )
    given = list(lacking(Text(whole.encode()), READ_NETS))
    listed = " ".join(text.partition("(")[2].partition(")")[0].split())
    said = (
        f"always @({listed}) doesn't wait for {names}, which the block reads: yosys takes it"
        " for always @*"
    )
    checks.wants(
        text, [(whole.index("always", whole.index("module m")), said)] if names else [], given
    )


def test_lists_of_modules(checks: Checks) -> None:
    """Blocks in modules of one name, and in none."""
    inner = (
        b"module n; endmodule module m; always @(a) y = 1; endmodule module n; always @(a) q = c;"
        b" endmodule always @(a) q = c;"
    )
    checks.wants(
        "modules",
        [inner.index(b"always", inner.rindex(b"module n"))],
        [place for place, _ in lacking(Text(inner), READ_NETS)],
    )
