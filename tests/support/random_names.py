"""Random designs whose properties look into instances by names: see test_names.py. Modules are
drawn, each of which may have instances of those before it; then properties and right sides that
read paths down from their module."""
import collections

# How many bits the registers of a design have at most.
MOST_STATE = 7
# Expressions of one bit (B) and of several (W), in which N is a name that is read, S one with an
# index, and D a digit.
BITS = [
    "!B", "B & B", "B | B", "B ^ B", "N != D", "N == N", "N < N", "N > W", "&N", "^N", "S",
    "W == D", "!N",
]
WORDS = [
    "N", "N", "N + N", "N - 1", "~N", "{N, B}", "N ^ N", "B ? N : N", "N >>> 1", "N << 1", "-N",
    "N * D", "{2{N}}", "$signed(N)",
]
LEAVES = {"B": ["N != D", "S", "^N"], "W": ["N"]}
# What an edge makes of a register (#).
NEXT = [
    "# + d", "# + 1", "{#, d}", "d ? # + 1 : #", "~#", "# ^ {d, d}", "# - d", "d ? 0 : # + 1", "N",
    "# + N", "N + d",
]
NETS = ["# + 1", "# ^ {d, d}", "# - d", "~#", "{d, #}"]
# Forms of instances (#) of a module (M): what is declared, and the names there.
FORMS = [
    ("M #(clk, d, );", ["#"]),
    ("M #(clk, !d, );", ["#"]),
    ("M #[1:0](clk, {d, !d}, );", ["#[0]", "#[1]"]),
    ("if (1) begin : b# M #(.clk(clk), .d(!d), .o()); end", ["b#.#"]),
    (
        (
            "genvar i#; generate for (i# = 0; i# < 2; i# = i# + 1) begin : g# M #(clk, d ^ i#[0],"
            " ); end endgenerate"
        ),
        ["g#[0].#", "g#[1].#"],
    ),
    (
        (
            "genvar i#; for (i# = 0; i# < 3; i# = i# + 2) begin : g# if (i# == 2) begin : c# M"
            " #(clk, d, ); end end"
        ),
        ["g#[2].c#.#"],
    ),
]


class Signal(collections.namedtuple("Signal", "name width low is_state")):
    """A net or register of a module, with its width, which may be W, and its least index, if it has
    a range."""


class Instance(collections.namedtuple("Instance", "names module value")):
    """The names of instances, their module, and the value of its parameter, which may be W."""


class Module:
    """A module: its lines, its signals, and its instances, which are of modules before it."""

    def __init__(self, rng, name, others):
        self.rng, self.name, self.lines, self.instances = rng, name, [], []
        self.signals = [Signal("d", 1, None, False)]
        self.has_parameter = name != "top" and rng.random() < 0.5
        for i in range(rng.choice([1, 1, 2]) if others else 0):
            self.instance(f"u{i}", rng.choice(others))
        for i in range(rng.choice([0, 1]) if others else rng.choice([1, 1, 2])):
            self.register(f"s{i}")
        self.lines.append(f"assign o = {self.filled('^N', 0)};")
        self.signals.append(Signal("o", 1, None, False))

    def instance(self, name, module):
        """Adds an instance, or several."""
        values = [1, 2, 2] + ["W"] * self.has_parameter
        value = self.rng.choice(values) if module.has_parameter else 1
        form, names = self.rng.choice(FORMS)
        own = module.name + (f" #(.W({value}))" if module.has_parameter else "")
        self.lines.append(form.replace("#", name).replace("M", own))
        self.instances.append(Instance([it.replace("#", name) for it in names], module, value))

    def declared(self, kind, name, width):
        """The declaration of a new signal, with a random sign and range of this width."""
        low = self.rng.choice([0, 0, 0, 1, 3])
        ends = [f"{width}+{low}-1", str(low)]
        left, right = reversed(ends) if self.rng.random() < 0.2 else ends
        self.signals.append(Signal(name, width, low, kind == "reg"))
        return f"{kind} {'signed ' * (self.rng.random() < 0.3)}[{left}:{right}] {name}"

    def register(self, name):
        """Adds a register, and perhaps a net that it drives."""
        width = (
            "W"
            if self.has_parameter and self.rng.random() < 0.7
            else self.rng.choice([1, 1, 2, 2, 3])
        )
        following = self.filled(self.rng.choice(NEXT).replace("#", name), 0)
        self.lines.append(
            f"{self.declared('reg', name, width)}{self.rng.choice([' = 0', ' = 0', ' = 1', ''])};"
        )
        self.lines.append(f"always @(posedge clk) {name} <= {following};")
        if self.rng.random() < 0.5:
            net = self.declared("wire", f"n{name}", self.rng.choice([width, 2, 3]))
            self.lines.append(f"{net} = {self.rng.choice(NETS).replace('#', name)};")

    def paths(self, value):
        """All signals from here down, by their paths, where the parameter has this value."""
        for signal in self.signals:
            yield signal._replace(width=value if signal.width == "W" else signal.width)
        for instance in self.instances:
            for signal in instance.module.paths(value if instance.value == "W" else instance.value):
                yield from (
                    signal._replace(name=f"{name}.{signal.name}") for name in instance.names
                )

    def filled(self, form, depth):
        """A form with something for each of its letters; of names most are paths into instances."""
        paths = list(self.paths(1))
        chosen = [it for it in paths if "." in it.name] if self.rng.random() < 0.8 else paths
        return "".join(
            self.piece(letter, chosen or paths, depth) if letter in "BWNSD" else letter
            for letter in form
        )

    def piece(self, letter, paths, depth):
        signal = self.rng.choice(paths)
        if letter == "D":
            return str(self.rng.randrange(4))
        if letter == "N":
            return signal.name
        if letter == "S":
            return signal.name if signal.low is None else f"{signal.name}[{signal.low}]"
        forms = {"B": BITS, "W": WORDS} if depth else LEAVES
        return f"({self.filled(self.rng.choice(forms[letter]), depth - 1)})"

    def properties(self):
        """Lines of properties."""
        for _ in range(
            self.rng.randint(1, 3) if self.name == "top" else self.rng.choice([0, 0, 1])
        ):
            kind = self.rng.choice(["assert", "assert", "assert", "cover", "assume"])
            edge = "@*" if self.rng.random() < 0.7 else "@(posedge clk)"
            form = {"assert": "B | B | B", "cover": "B & B", "assume": "B | B | B"}[kind]
            yield f"always {edge} {kind} ({self.filled(form, 2)});"

    def below(self):
        """This module and those below it, each after those that it has instances of."""
        found = {}
        for instance in self.instances:
            found.update(dict.fromkeys(instance.module.below()))
        return [*found, self]

    def text(self):
        parameter = " #(parameter W = 1)" if self.has_parameter else ""
        lines = [
            f"module {self.name}{parameter}(input clk, input d, output o);", *self.lines,
            *self.properties(),
        ]
        return "\n  ".join(lines) + "\nendmodule\n"


def random_names(rng):
    """A random design, and its registers and inputs."""
    while True:
        modules = []
        for i in range(rng.randint(1, 3)):
            modules.append(Module(rng, f"m{i}", modules))
        top = Module(rng, "top", modules)
        state = [(it.name, it.width) for it in top.paths(1) if it.is_state]
        text = "".join(module.text() for module in top.below())
        if (
            0 < sum(width for _, width in state) <= MOST_STATE
            and ("assert" in text or "cover" in text)
            and "." in text
        ):
            return text, {
                "state": " ".join(f"{path}[{width - 1}:0]" for path, width in state),
                "free": "d",
            }
