"""Random designs in Verilog, each written with its twin from one tree: see test_twins.py. What the
design leaves open has a name in the twin, and so have in the tree the x of one bit (o1), those of
two (p1), and the nets that nobody drives (u1)."""
import collections
import re

# What stands for an expression of one bit (B) or of two (W), of which X and Y are x, U is a net
# that nobody drives, D a digit, and N a signal: an x in a loop would be another one each time.
FORMS = {
    "B": [
        "(!B)", "(B & B)", "(B | B)", "(B ^ B)", "(B ? B : B)", "(W == W)", "(W < W)", "(^W)",
        "(B ? B : X)", "(B ? X : B)",
    ],
    "W": ["{B, B}", "(W + W)", "(W - W)", "(~W)", "(W & W)", "(B ? W : W)", "(B ? W : Y)", "2'dD"],
}
# Nets (#): the expressions in them, their widths, and how they are written in the design and in the
# twin.
NETS = [
    ("B", 1, "wire # = {};", "wire # = {};"),
    ("W", 2, "wire [1:0] # = {};", "wire [1:0] # = {};"),
    ("U", 1, "wire # = {};", "wire # = {};"),
    ("BU", 1, "wire # = {} ^ {};", "wire # = {} ^ {};"),
    ("BX", 2, "wire [1:0] #; assign #[0] = {};", "wire [1:0] # = {{{1}, {0}}};"),
    ("BX", 2, "reg [1:0] #; always @* #[1] = {};", "wire [1:0] # = {{{0}, {1}}};"),
    ("BX", 1, "wire #; differ #_part(.a({}), .y(#));", "wire # = {} ^ {};"),
    ("BX", 1, "wire #; both #_part(.a({}), .b(), .y(#));", "wire # = {} & {};"),
    (
        "BX", 1, "wire #; if (1) begin : #_in wire y = {} ^ {}; end assign # = #_in.y;",
        "wire # = {} ^ {};",
    ),
    (
        "NN", 2,
        (
            "wire [1:0] #; for (g = 0; g < 2; g = g + 1) begin : #_at wire y = {} & g[0] | {}; end"
            " assign # = {{#_at[1].y, #_at[0].y}};"
        ),
        "wire [1:0] # = {{{0} | {1}, {1}}};",
    ),
    (
        "WBBX", 1,
        "reg #; always @* case ({}) 2'd0: # = {}; 2'd1: # = {}; default: # = {}; endcase",
        "wire # = {0} == 2'd0 ? {1} : {0} == 2'd1 ? {2} : {3};",
    ),
    (
        "BWWY", 2,
        (
            "reg [1:0] #; always @* begin # = {3}; if ({0}) # = {1}; else if ({2} != 2'd0) # ="
            " 2'd1; end"
        ),
        "wire [1:0] # = {0} ? {1} : {2} != 2'd0 ? 2'd1 : {3};",
    ),
]
# Shifts, sums and products that are cut, and bits that are chosen: both write them alike.
CUT = [
    ("WW", 1, "wire # = {} >> {};"),
    ("BWW", 1, "wire # = {{{}, {}}} >> {};"),
    ("WWWWW", 1, "wire # = {} >> {{{}, {}, {}, {}}};"),
    ("WW", 1, "wire # = $signed({}) >> {};"),
    ("WW", 1, "wire # = $signed({}) >>> {};"),
    ("WWW", 1, "wire [3:0] #_all = {{{}, {}}}; wire # = #_all[{}];"),
    ("WW", 1, "wire # = {} - {};"),
    ("WW", 1, "wire # = {} * {};"),
    ("WW", 2, "wire [1:0] # = {} >> {};"),
    ("WW", 2, "wire [1:0] # = {} << {};"),
]
NETS += [(letters, width, text, text) for letters, width, text in CUT]
READ = ("B", 1, "wire # = m[{}];", "wire # = m[{}];")
# Modules that stand in a design where it has instances of them.
PARTS = {
    "differ": "module differ(input a, input b, output y); assign y = a ^ b; endmodule\n",
    "both": "module both(input a, input b, output y); assign y = a & b; endmodule\n",
}
# What initial values say of the first state, by the width of a register, and for a memory.
INITIAL = {
    1: {"": "1", " = 1'b0": "!#", " = 1'b1": "#", " = 1'bx": "1"},
    2: {
        "": "1",
        " = 2'b00": "# == 0",
        " = 2'b01": "# == 1",
        " = 2'b0x": "!#[1]",
        " = 2'bx1": "#[0]",
    },
    "m": {"": "1", "initial m[0] = 0;": "!m[0]", "initial begin m[0] = 1; m[1] = 0; end": "m == 1"},
}
# What an edge does to a register, where V is an expression of its width.
NEXT = [
    "# <= V;", "if (B) # <= V;", "if (B) # <= 0; else # <= V;",
    "case (W) 2'd1: # <= V; 2'd2: # <= V; endcase",
]
# The same in a block with an asynchronous reset, by a function or a task, by the width of the
# register, and in the twin.
CALLED = {
    1: [("# <= inverted_bit(V);", "# <= !(V);"), ("invert_bit(V, #);", "# <= !(V);")],
    2: [("# <= inverted(V);", "# <= ~(V);"), ("invert(V, #);", "# <= ~(V);")],
}
ROUTINES = [
    "integer i; genvar g;",
    "function inverted_bit(input a); inverted_bit = !a; endfunction",
    "function [1:0] inverted(input [1:0] a); inverted = ~a; endfunction",
    "task invert_bit(input a, output b); b = !a; endtask",
    "task invert(input [1:0] a, output [1:0] b); integer k;",
    "  for (k = 0; k < 2; k = k + 1) b[k] = !a[k]; endtask",
]
# What writes a register of two bits by a loop or an index.
INDEXED = [
    "#[B] <= B;", "for (i = 0; i < 2; i = i + 1) #[i] <= N;",
    "if (B) for (i = 0; i < 2; i = i + 1) #[i] <= !N;",
]
# Where an assertion may be: a block that is generated has a label.
PLACES = [
    "if (1) begin : {} {} end", "for (g = 0; g < 1; g = g + 1) begin : {} {} end",
    "case (0) 0: begin : {} {} end endcase",
]
# What an assertion may do, and system tasks at an edge.
ACTIONS = ["", " else $error(\"no\")", " $display(\"yes\"); else begin $fatal(1, \"no\"); end"]
CALLS = ["if (B) $finish;", "if (B) begin $stop; end else $error(\"B\");"]
CLAIMS = ["B", "(B | B)", "((!B) | (!B) | B)", "(W != W)", "(B | W != 2'dD)", "(W != 2'dD)"]
JOINED = {
    "state": " ",
    "free": " ",
    "first": " && ",
    "ok": " && ",
    "bad": " || ",
    "next": "\n    ",
    "also": "\n  ",
}


class Maker:
    """Writes a design and its twin side by side."""

    def __init__(self, rng):
        self.rng, self.count, self.lines = rng, 0, []
        self.names, self.parts = {"B": [], "W": []}, collections.defaultdict(list)
        inputs = [
            self.signal("free", self.new("i"), rng.choice([1, 1, 2]))
            for _ in range(rng.randint(0, 2))
        ]
        # What is true in an asynchronous reset, if there is one.
        self.reset = rng.choice(["rst", "!rst"]) if rng.random() < 0.3 else ""
        if self.reset:
            inputs.append(self.signal("free", "rst", 1))
        self.lines.append(
            f"module top({', '.join(['input clk', *(f'input {it}' for it in inputs)])});"
        )
        registers = {self.new("q"): rng.randint(1, 2) for _ in range(rng.randint(1, 3))}
        self.lines += ROUTINES
        self.parts["also"].append("integer i;")
        held = {
            name: f"{name}_held" if self.reset and rng.random() < 0.6 else name
            for name in registers
        }
        for name, width in registers.items():
            self.start(width, name, f"reg {self.register(name, held[name], width)}", held[name])
        self.nets(rng.random() < 0.4)
        for name, width in registers.items():
            form = rng.choice(INDEXED if width == 2 and rng.random() < 0.3 else NEXT)
            if held[name] == name:
                self.edge(form.replace("V", "BW"[width - 1]).replace("#", name))
            else:
                self.reset_edge(form, name, width)
        self.assumptions()
        if rng.random() < 0.2:
            self.lines.append(f"always @(posedge clk) {self.filled(rng.choice(CALLS), 1)}")
        for _ in range(rng.randint(1, 2)):
            if rng.random() < 0.4:
                self.clocked("assert")
            else:
                self.assertion(self.filled(rng.choice(CLAIMS), 1))

    def new(self, letter):
        """A new name."""
        self.count += 1
        return f"{letter}{self.count}"

    def signal(self, part, name, width):
        """Adds a register or free value that expressions may read, and gives its declaration in the
        design."""
        self.parts[part].append(f"{name}[{width - 1}:0]")
        self.read(name, width)
        return f"[{width - 1}:0] {name}" if width > 1 else name

    def register(self, name, held, width):
        """Adds a register, which holds this in the twin, and gives its declaration in the
        design."""
        if held == name:
            return self.signal("state", name, width)
        bits = f"[{width - 1}:0] " * (width > 1)
        self.parts["state"].append(f"{held}[{width - 1}:0]")
        value = f"{self.reset} ? {self.first(name)} : {held}"
        self.parts["also"].append(f"wire {bits}{name} = {value};")
        self.read(name, width)
        return bits + name

    def first(self, name):
        """What the asynchronous reset gives a register."""
        return len(name) + ord(name[-1]) & 1

    def read(self, name, width):
        """Has expressions read a signal, as bits and as a word."""
        self.names["B"] += [name] if width == 1 else [f"{name}[0]", f"{name}[1]"]
        self.names["W"] += [name] * (width == 2)

    def filled(self, form, depth):
        """A form with an expression for each of its letters."""
        return re.sub("[BWXYUDN]", lambda found: self.expression(found[0], depth), form)

    def expression(self, letter, depth):
        if letter == "D":
            return str(self.rng.randrange(4))
        if letter == "N":
            return self.rng.choice(self.names["B"])
        if letter in "XYU":
            name = self.new({"X": "o", "Y": "p", "U": "u"}[letter])
            self.parts["free"].append(f"{name}[{int(letter == 'Y')}:0]")
            self.lines += [f"wire {name};"] * (letter == "U")
            return name
        if depth == 0 or self.rng.random() < 0.2:
            return self.rng.choice(self.names[letter] or [self.filled("{B, B}", 0)])
        return self.filled(self.rng.choice(FORMS[letter]), depth - 1)

    def start(self, kind, name, line, held):
        """Adds a register or a memory, perhaps with initial values, and what holds them in the
        twin."""
        given, first = self.rng.choice([*INITIAL[kind].items()])
        self.lines.append(f"{line}; {given}" if kind == "m" else f"{line}{given};")
        self.parts["first"].append(f"({first})".replace("#", held))

    def nets(self, has_memory):
        """Adds nets, and perhaps a memory that one of them reads."""
        chosen = [self.rng.choice(NETS) for _ in range(self.rng.randint(1, 3))]
        if has_memory:
            self.parts["state"].append("m[1:0]")
            self.start("m", "m", "reg m [0:1]", "m")
            self.edge("if (B) m[B] <= B;")
            chosen.append(READ)
        for letters, width, design, twin in chosen:
            name, inner = self.new("n"), [self.expression(letter, 2) for letter in letters]
            self.lines.append(design.replace("#", name).format(*inner))
            self.parts["also"].append(twin.replace("#", name).format(*inner))
            self.read(name, width)

    def edge(self, form):
        """Adds what an edge of the clock does."""
        self.parts["next"].append(self.filled(form, 2))
        self.lines.append(f"always @(posedge clk) {self.parts['next'][-1]}")

    def reset_edge(self, form, name, width):
        """Adds what an edge does to a register with an asynchronous reset, perhaps by a function or
        a task."""
        letter, head, tail, both = "BW"[width - 1], form, "", ["", ""]
        if "# <= V;" in form and self.rng.random() < 0.6:
            head, _, tail = form.partition("# <= V;")
            inner = self.filled(letter, 1)
            both = [text.replace("V", inner) for text in self.rng.choice(CALLED[width])]
        # Both have the same names of what is open.
        head, tail = (self.filled(part.replace("V", letter), 2) for part in (head, tail))
        design, made = (f"{head}{own}{tail}" for own in both)
        edge, first = "negedge" if "!" in self.reset else "posedge", self.first(name)
        self.lines.append(
            f"always @(posedge clk or {edge} rst) if ({self.reset}) {name} <= {first}; else"
            f" {design.replace('#', name)}"
        )
        self.parts["next"].append(
            f"if ({self.reset}) {name}_held <= {first}; else {made.replace('#', name + '_held')}"
        )

    def clocked(self, kind):
        """Adds a property with a clock: in the twin each expression has its last values, and what
        is wanted at an edge is looked at there."""
        rng, items, text, edge = self.rng, [], "", 0
        counts = [rng.choice([0, 1, 1, 2]), rng.choice([1, 1, 2])]
        for is_wanted, count in enumerate(counts):
            for i in range(count):
                delay = rng.choice([0, 1, 1, 2]) if i else 0
                items.append((edge := edge + delay, self.filled("(B)", 1), bool(is_wanted)))
                text += f" ##{delay} " * bool(i) + items[-1][1]
            if count and not is_wanted:
                arrow = rng.choice(["|->", "|=>"])
                text, edge = f"{text} {arrow} ", edge + (arrow == "|=>")
        off = self.filled("(B & B)", 1) if rng.random() < 0.3 else ""
        action = rng.choice(ACTIONS) if kind == "assert" else ""
        disable = f"disable iff {off} " * bool(off)
        self.lines.append(
            self.placed(
                f"{kind} property (@(posedge clk)"
                f" {disable}{text}){action}{';' * (not action.endswith('end'))}"
            )
        )
        failed = self.new("f")
        self.flag(failed, f"!{failed}", " || ".join(self.failing(items, off)))
        self.parts["bad" if kind == "assert" else "ok"].append(
            failed if kind == "assert" else f"!{failed}"
        )

    def failing(self, items, off):
        """Yields when a property fails, by its items: the edge at which each is looked at, its
        text, and whether it is wanted; it isn't asked about where it is off at an edge of the
        attempt."""
        past = {}

        def before(text, edges, first):
            """What this was so many edges ago; of edges that weren't there the first value."""
            for n in range(edges):
                if (text, n) not in past:
                    past[text, n] = self.new("h")
                    self.flag(
                        past[text, n], past[text, n] if first else "!" + past[text, n],
                        past[text, n - 1] if n else text,
                    )
            return past[text, edges - 1] if edges else text

        for last in sorted({edge for edge, _, is_wanted in items if is_wanted}):
            wanted = [text for edge, text, is_wanted in items if is_wanted and edge == last]
            others = [
                before(text, last - edge, False)
                for edge, text, is_wanted in items
                if edge < last or edge == last and not is_wanted
            ]
            others += [f"!{before(off, n, True)}" for n in range(last + 1)] if off else []
            yield " && ".join([before("1", last, False), *others, f"!({' && '.join(wanted)})"])

    def assumptions(self):
        if self.rng.random() < 0.25:
            held = self.filled("(B | B)", 1)
            self.lines.append(f"always @* assume ({held});")
            self.parts["ok"].append(f"({held})")
        if self.rng.random() < 0.15:
            self.clocked("assume")
        if self.rng.random() < 0.15:
            held = self.filled("B", 1)
            self.lines.append(f"initial assume ({held});")
            self.flag("on", "!on", "1")
            self.parts["ok"].append(f"(on || {held})")

    def placed(self, line):
        """Returns a line with an assertion, perhaps in a block that is generated."""
        is_placed = self.rng.random() < 0.3
        return self.rng.choice(PLACES).format(self.new("g"), line) if is_placed else line

    def assertion(self, claim):
        """Adds an assertion of each step, or of each edge."""
        if self.rng.random() < 0.7:
            self.lines.append(self.placed(f"always @* assert ({claim});"))
            self.parts["bad"].append(f"!({claim})")
            return
        self.lines.append(self.placed(f"always @(posedge clk) assert ({claim});"))
        failed = self.new("f")
        self.flag(failed, f"!{failed}", f"!({claim})")
        self.parts["bad"].append(failed)

    def flag(self, name, first, following):
        """Adds a register of the twin alone."""
        self.parts["state"].append(name)
        self.parts["first"].append(first)
        self.parts["next"].append(f"{name} <= {following};")


def random_design(rng):
    """A random design, and the parts of its twin."""
    made = Maker(rng)
    text = "\n  ".join(made.lines) + "\nendmodule\n"
    text = re.sub(r"\bp\d+\b", "2'bxx", re.sub(r"\bo\d+\b", "1'bx", text))
    used = "".join(part for name, part in PARTS.items() if f" {name} " in text)
    return used + text, {part: JOINED[part].join(lines) for part, lines in made.parts.items()}
