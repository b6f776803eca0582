"""The scripts by which yosys translates a design into an AIGER file.

Longer ones are files in `templates`, which `str.format` fills in."""
from aigprove.data import text
from aigprove.designs.front_ends import ASSERT, COVER, LIVE

TEMPLATES = "designs/templates"
# LOOK also writes JSON, because RTLIL has `x` in the place of `z`. The next run can begin once
# below.il is there.
LOOK = text(f"{TEMPLATES}/look.ys")
READ = LOOK + text(f"{TEMPLATES}/read.ys")
# FREE makes inputs of all `x` and undriven nets. No pass before `setundef` may fold constants,
# apart from sums, because each `x` has to stay an unknown. Hierarchy, memories and asynchronous
# resets become flat registers of one clock. Equal cells are merged first, because `proc` generates
# the comparisons with case items anew for each bit. Folding whole cells before their bits takes
# half the time in large designs. Of several names of a net, the one with most attributes stays.
# Properties are kept: otherwise only one of several equal assertions would stay.
FREE = text(f"{TEMPLATES}/free.ys")
# The commands that flatten the design. FLAT_FIRST is for nets that are connected with those of
# instances, which may have no initial values before.
FLAT = "proc -noopt -norom\nflatten"
FLAT_FIRST = "flatten\nselect -assert-none a:hierconn\nproc -noopt -norom"
# PARTIAL are cells whose result is `x` for some operands, such as a bit select with an index out of
# range. TOTAL makes them total, and MEMORIES maps memories. Both are left out if there are no such
# cells.
PARTIAL = {f"${name}" for name in "shiftx div mod divfloor modfloor eqx nex".split()}
TOTAL = text(f"{TEMPLATES}/total.ys")
MEMORY = "$mem"
MEMORIES = text(f"{TEMPLATES}/memories.ys")
MAPS = ["free", "gates"]
# The commands that remove the properties that a query isn't about. Covers become assertions that
# fail. A file for liveness has no outputs, so that it has only what the assertions depend on: a
# lasso then has fewer signals whose values must recur.
CHOSEN = {
    ASSERT: "chformal -cover -live -fair -remove",
    COVER: "chformal -assert -live -fair -remove\ntechmap -map aigprove_cover.v t:$cover",
    LIVE: "chformal -assert -cover -remove\ndelete -output",
}
COVERED = text(f"{TEMPLATES}/covered.v")
# Replaces registers of any clock by registers that are updated in each step, and that compare each
# clock with its last value.
EDGES = "{reset}clk2fflogic\nchtype -set $eq t:$eqx"
# While yosys looks for gates, an uninitialised register is a cell that no pass looks into.
WRITE = text(f"{TEMPLATES}/write.ys")
# SIMPLE are cells that become gates without a map, and MAPPED those that aigprove's own map knows;
# FURTHER adds yosys's map for all others. Of sums and products only bits that are read become
# gates, because Verilog computes with at least 32 bits.
SIMPLE = {f"${name}" for name in "not pos and or xor xnor reduce_and reduce_or reduce_xor "
          "reduce_xnor reduce_bool logic_not logic_and logic_or eq ne mux dff ff anyconst assert "
          "assume live fair".split()}
MAPPED = {f"${name}" for name in
          "shr shl sshr sshl shift pmux alu fa lcu add sub neg mul lt le gt ge".split()}
BY_MAPS = text(f"{TEMPLATES}/by_maps.ys")
FURTHER = " -map +/techmap.v"
# RESET holds the reset in the first steps, and disables assertions meanwhile. An assertion at a
# clock edge is about the step before or, with several clocks, about the last edge: in that case the
# input of its register is changed.
RESET = text(f"{TEMPLATES}/reset.ys")
LATE, AT_EDGES = "@late", "@late %ci1:+[EN] w:$* %i %ci1:+[Q] t:$dff %i"
COUNTING = text(f"{TEMPLATES}/counting.v")
SAMPLING = text(f"{TEMPLATES}/sampling.v")
# REPLAY keeps all names of a net, and the hierarchy of the design.
REPLAY = text(f"{TEMPLATES}/replay.ys")
SIMULATE = text(f"{TEMPLATES}/simulate.ys")
SPARE = "aigprove_clock"
