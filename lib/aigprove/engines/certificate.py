"""Checks certificates and invariants, and the witnesses and counterexamples that the command line
gives."""
from collections.abc import Callable, Iterator, Mapping

from aigprove.circuits import simulation
from aigprove.circuits.aiger import Circuit, Fault
from aigprove.circuits.normalised import PLA, of_abc
from aigprove.data import message
from aigprove.engines.job import Job, Safe
from aigprove.output.signals import Signals
from aigprove.processes.files import Sealed
from aigprove.processes.groups import BackgroundCall
from aigprove.questions import conditions
from aigprove.questions.checker import Query, Subject
from aigprove.questions.solver import Solver, true_of

# The greatest number of values of a state that are printed.
SHOWN = 20
Proofs = dict[str, Sealed]


class Certificate:
    """A certificate, or an invariant that ABC wrote for the file.

    `form` are options of the clauses for its proofs."""

    def __init__(self, job: Job, solver: Solver, certificate: Sealed, *form: str) -> None:
        self.job, self.solver, self.checker, self.source = job, solver, job.checker, job.source
        self.certificate, self.form = certificate, form

    def run(self) -> None:
        """Has the certificate checked, and hands in the answer. Raises Fault if it isn't one."""
        text = self.certificate.data().decode("utf-8", "surrogateescape")
        if PLA.search(text):
            self.certificate = self.of_invariant(text)
        with self.job.answering():
            joint = self.joint()
            proofs = self.joined(joint) if joint else self.simulated()
            claim = self.source.certified(self.certificate, proofs, *self.form)
            self.checker.check(claim)
        self.job.hand_in(Safe([claim], self.certificate))

    def joint(self) -> Sealed | None:
        """Returns the product of the file and the certificate.

        It is None if the certificate doesn't begin with the file's inputs and latches, or has
        initial values that are functions: it may still simulate the file."""
        if self.source.can_be_simulated and conditions.is_named(self.certificate):
            return None
        is_needed = not self.source.can_be_simulated
        return self.checker.joint(self.job.problem.machine, self.certificate, is_needed)

    def asked(self, questions: Mapping[str, Query], subject: Subject) -> tuple[Proofs, Proofs]:
        """Returns the proofs of queries, by their names, and the solutions of those that have some.

        The solver is asked all of them in parallel."""
        asked = {name: BackgroundCall(self.solver.ask, question, subject)
                 for name, question in questions.items()}
        for call in asked.values():
            call.join()
        given = {name: call.result() for name, call in asked.items()}
        proofs, solutions = ({name: it for name, (has, it) in given.items() if has == wanted}
                             for wanted in (False, True))
        return proofs, solutions

    def joined(self, joint: Sealed) -> Proofs:
        """Returns the proofs about the product. Raises Fault if the certificate isn't inductive."""
        proofs, solutions = self.asked(conditions.questions(*self.form), Subject(joint))
        for name, solution in solutions.items():
            circuit = self.checker.circuit(joint, "the joint file")
            raise Fault("; ".join([broken(circuit, name, solution), *self.unmet()]))
        return proofs

    def unmet(self) -> list[str]:
        """Returns the message about conditions that the certificate doesn't meet as a witness
        circuit.

        Only a certificate from the command line may be one."""
        is_given = self.certificate is self.job.options.certificate
        if not (self.source.can_be_simulated and is_given):
            return []
        questions = conditions.of_both(self.certificate)
        return conditions.line_of_unmet(self.asked(questions, self.source.subject)[1])

    def simulated(self) -> Proofs:
        """Returns the proofs of the conditions of a witness circuit. Raises Fault if it breaks
        one."""
        questions = conditions.of_both(self.certificate)
        proofs, solutions = self.asked(questions, self.source.subject)
        if solutions:
            raise Fault(
                "; ".join([*self.breaking(solutions), *conditions.line_of_unmet(solutions)]))
        return proofs

    def breaking(self, solutions: Proofs) -> Iterator[str]:
        """Yields a description of what breaks the first condition about the certificate's own
        steps."""
        for name in [name for name in conditions.questions() if name in solutions][:1]:
            given = self.checker.circuit(self.certificate, "the certificate")
            conditions.with_free_resets(given, name == "base")
            text = self.checker.text(Sealed(given.text()))
            circuit = self.checker.circuit(text, "the certificate")
            # The names refer to the literals of the file as it is given.
            file = self.checker.circuit(self.job.problem.machine, "FILE")
            conditions.name_shared(circuit, file, self.source.circuit())
            _, solution = self.solver.ask(conditions.questions()[name], Subject(text))
            yield broken(circuit, name, solution)

    def of_invariant(self, text: str) -> Sealed:
        """Returns the certificate for an invariant of the file. Raises Fault if it is about other
        latches."""
        model = self.job.problem.normalised
        made = model.certificate(text, model.of_abc())
        if made is None:
            raise Fault.of("other_latches")
        return Sealed(made)


class GivenCertificate(Certificate):
    """The certificate of `--certificate`."""

    def __init__(self, job: Job) -> None:
        assert job.options.certificate
        super().__init__(job, job.solver(), job.options.certificate)


class GivenRun:
    """The trace of `--run`: a witness, or a counterexample of ABC."""

    def __init__(self, job: Job) -> None:
        self.job = job

    def run(self) -> None:
        """Has the trace checked, and hands it in. Raises Fault if it doesn't reach a bad state."""
        assert self.job.options.run
        data = self.job.options.run.data()
        if data.startswith((b"1\nb", b"c")):
            self.job.hand_in_run(data)
            return
        run = of_abc(data.decode("utf-8", "replace"), self.job.problem.circuit)
        trace = self.job.reached(*run) if run else None
        if trace is None:
            raise Fault.of("no_counterexample")
        self.job.hand_in_run(trace.text().encode())


def broken(joint: Circuit, name: str, solution: Sealed) -> str:
    """Returns a description of what breaks a certificate, given a solution of its query `name`,
    which is base or step."""
    signals, values = Signals(joint), solved(solution)
    state, inputs = ([values(literal) for literal in literals]
                     for literals in (joint.latches, joint.inputs))
    before, given = listed(signals.values("l", state)), listed(signals.values("i", inputs))
    if name == "base":
        return message("no_base", state=before, inputs=given)
    *_, last = simulation.run(joint, state, [inputs, "x" * len(inputs)])
    after = [last[literal] for literal in joint.latches]
    moved = {i for i, (old, new) in enumerate(zip(state, after)) if old != new}
    now = listed(signals.values("l", after, moved))
    return message("no_induction", before=before, inputs=given, after=now)


def solved(solution: Sealed) -> Callable[[int], str]:
    """Returns a function from the literals of a file in text format to their values at step 0.

    `solution` is a solver's solution of a query about the file."""
    true = true_of(solution)
    return lambda literal: "1" if literal // 2 + 1 in true else "0"


def listed(words: list[str]) -> str:
    """Returns the words, separated by spaces; of many only the first."""
    more = [f"and {len(words) - SHOWN} more"] * (len(words) > SHOWN)
    return " ".join(words[:SHOWN] + more) or "none"
