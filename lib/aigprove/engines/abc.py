"""The engines that call ABC. Its counterexamples become witnesses, and its invariants certificates.

ABC is called on a file, on several of its properties at once, and on circuits that count rounds of
a justice property."""
from __future__ import annotations

from collections.abc import Iterable, Sequence
from typing import TYPE_CHECKING, cast

from aigprove.circuits.aiger import Circuit, Fault
from aigprove.circuits.gates import cone
from aigprove.circuits.normalised import NormalisedModel, parted
from aigprove.circuits.simulation import reached
from aigprove.circuits.witness import Witness
from aigprove.data import message
from aigprove.engines.certificate import Certificate
from aigprove.engines.job import Answer, Job, Missing, Problem, Safe
from aigprove.options.options import Options
from aigprove.output.messages import ending
from aigprove.processes.files import Folder, Sealed, path_of
from aigprove.processes.groups import Words
from aigprove.processes.scheduler import Task

if TYPE_CHECKING:
    from aigprove.questions.justice import Justice

ABCS = ["berkeley-abc", "yosys-abc", "abc"]
# PDR is asked about all properties, for EACH milliseconds each. BMC looks for the shortest traces
# to properties, of a number of steps.
PDR = "pdr -a -x -d -I inv.pla -H {each}"
BMC = "bmc3 -a -x -F {steps} -T {seconds}"
# The initial state and the inputs of each step, by the position of a property.
Runs = dict[int, tuple[str, list[str]]]
# The numbers of rounds that are tried, one after the other.
COUNTS = [1, 2, 4, 8, 16]


def path_of_abc(given: str | None) -> str:
    """Returns the path of ABC: the given one, or the first that is found. Raises Missing if there
    is none."""
    for name in [given] if given else ABCS:
        if program := path_of(name):
            return program
    raise Missing.of("no_abc", names=", ".join(ABCS))


def run_abc(program: str, task: Task, folder: Folder, script: Iterable[str]) -> None:
    """Runs commands of ABC in a folder. Raises Fault unless ABC ends with status 0."""
    words: Words = [program, "-q", "; ".join(script)]
    if status := folder.run(task, words):
        raise Fault.of("abc_ended", ending=ending(status))


def ask_abc(program: str, task: Task, above: str, model: NormalisedModel,
            command: str) -> tuple[str, str]:
    """Returns the counterexamples and the invariant that a command finds for a model; either may be
    empty."""
    with Folder(above) as folder:
        with folder.make("machine.aig") as out:
            out.write(model.binary())
        run_abc(program, task, folder, ["read_aiger machine.aig", command, "write_cex -n run"])
        return folder.text_if_there("run"), folder.text_if_there("inv.pla")


class Abc:
    """An engine that runs a command of ABC on the normalised model. The command begins with the
    engine's name."""

    command: str

    def __init__(self, job: Job) -> None:
        self.job, self.program = job, path_of_abc(job.options.abc)

    def run(self) -> None:
        """Runs the command, and hands in its answer. Raises Fault if the answer is wrong."""
        job = self.job
        job.progress(self.command.partition(" ")[0])
        model, bound = job.problem.normalised, job.bound
        command = self.command.format(steps=0 if bound is None else bound + 1)
        found, invariant = ask_abc(self.program, job.task, job.above, model, command)
        if found:
            trace = job.reached(*model.run(found))
            if trace is None:
                raise Fault.of("false_counterexample")
            job.hand_in_run(trace.text().encode())
        elif invariant:
            with job.answering():
                made = model.certificate(invariant)
                if made is None:
                    raise Fault.of("false_invariant")
                Certificate(job, job.solver(), Sealed(made)).run()


class Bmc3(Abc):
    """Bounded model checking. A bound of 0 steps means no bound."""

    command = "bmc3 -F {steps}"


class Pdr(Abc):
    """Property directed reachability. Its invariant becomes a certificate."""

    command = "pdr -d -I inv.pla"


class MultiProperty:
    """Asks ABC about several properties of a circuit at once."""

    def __init__(self, options: Options, task: Task, above: str) -> None:
        self.program, self.task, self.above = path_of_abc(options.abc), task, above

    def ask(self, circuit: Circuit, command: str) -> tuple[Runs, Sealed | None]:
        """Returns the traces and the certificate that a command finds.

        The traces reach properties, given by their positions. The certificate, if there is one, is
        for all others."""
        model = NormalisedModel(circuit, is_apart=True)
        found, invariant = ask_abc(self.program, self.task, self.above, model, command)
        made = model.certificate(invariant) if invariant else None
        runs = {place: model.run(text) for place, text in parted(found)}
        return runs, Sealed(made) if made else None


class Cones:
    """Circuits with only some of a circuit's bad state properties, without the gates and next
    values that these don't depend on."""

    def __init__(self, circuit: Circuit) -> None:
        self.circuit = circuit
        self.below = {gate: operands for gate, *operands in circuit.gates}
        self.below.update((latch, [next]) for latch, next in zip(circuit.latches, circuit.nexts))

    def of(self, numbers: Iterable[int]) -> Circuit:
        """Returns the circuit with the properties of these numbers."""
        circuit = self.circuit
        bads = [circuit.bads[number] for number in numbers]
        seen = cone([*bads, *circuit.constraints], self.below)
        nexts = [next if latch in seen else 0
                 for latch, next in zip(circuit.latches, circuit.nexts)]
        gates = [gate for gate in circuit.gates if gate[0] in seen]
        return circuit.with_lists(bads=bads, nexts=nexts, gates=gates)


class Counting(Job):
    """A job for pdr on a circuit that counts rounds.

    A trace only means that this number of rounds can end, which says nothing about the property."""

    def __init__(self, job: Job, count: int) -> None:
        source = cast("Justice", job.source).counting(count)
        super().__init__(Problem(job.options, source, job.checker, job.above), job.task, job.board)
        self.count, self.is_reached, self.bound = count, False, None

    def reached(self, start: str, steps: Sequence[str]) -> Witness | None:
        """Returns the witness of the first bad state of a trace, found by simulation: aigcheck
        isn't needed for it."""
        return reached(self.problem.circuit, start, steps)

    def progress(self, what: str, count: int | None = None) -> None:
        """Records which number of rounds is tried."""
        super().progress("rounds", self.count)

    def hand_in_run(self, data: bytes) -> None:
        """Records that this number of rounds can end."""
        self.is_reached = True

    def hand_in(self, answer: Answer) -> None:
        """Hands in that the rounds can't end, without a certificate."""
        assert isinstance(answer, Safe)
        super().hand_in(answer._replace(certificate=message("about_rounds")))


class Rounds:
    """Asks pdr whether 1, 2, 4 and so on rounds can end, up to the first number that can't
    (k-liveness).

    Raises Missing if the query isn't about a justice property."""

    def __init__(self, job: Job) -> None:
        if not job.source.counts:
            raise Missing.of("only_justice")
        job.solver()
        Pdr(job)
        self.job = job

    def run(self) -> None:
        """Asks about one number of rounds after the other."""
        for count in COUNTS:
            counting = Counting(self.job, count)
            Pdr(counting).run()
            if not counting.is_reached:
                return
