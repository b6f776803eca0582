#!/usr/bin/env python3
"""Tries wrong bodies, which the prover has to refuse: edits.py [--all] [--write] [--selftest]
[--jobs N] [--told FOLDER] [NAME ..]

The wrong bodies of a crate are the edits in tests/edits/NAME, and in crates/NAME/must-fail, which
the gate tries too. All that touch different functions are put into a copy of the crate, of which a
check proves those functions and what they call, over what is proved already; what is left takes
further rounds, and what isn't refused so a check of the whole crate. The function of each has to be
refused at the goals that the lines `refused:` of its file name: of a clause, an invariant or a law.
It fails if it no longer applies, doesn't compile, is proved, or is refused elsewhere. One is
refused for a name alone if a proof names what the body lacks and no goal speaks: it fails too,
unless tests/edits/lemmas.tsv names the lemma that rejects what such a body gives.

With no words this tries the crates that aren't those of which tests/edits/tried.tsv has a hash: of
texts without comments, edits and crates below. --all tries all. A crate that has no row there is
named and passed over. --write writes the lines `refused:` and the hash of each crate whose edits
are all refused. --selftest tries those of tests/unfit, which have to fail as their lines `fails:`
say.
"""
import concurrent.futures
import hashlib
import os
import pathlib
import re
import shutil
import subprocess
import sys

import harness
import kit
import refusals
from harness import TESTS, TOP, new_folder

EDITS, UNFIT = TESTS / "edits", TESTS / "unfit"
TRIED, LEMMAS = EDITS / "tried.tsv", EDITS / "lemmas.tsv"
HEAD = (
    "# The hash of the texts and the edits of each crate at which tests/support/edits.py had all"
    " its edits refused.\n"
)
PAIR = re.compile(r"^(file|old|new): ?(.*)$", re.MULTILINE)
REFUSED = re.compile(r"^refused: (\S+) ?(.*)\n", re.MULTILINE)
NOT_APPLIED, NOT_COMPILED = "a text that it changes isn't there just once", "it doesn't compile"
COMMENTS = ("//", "--")
PROVED, BY_NAME, ELSEWHERE = (
    "its function is proved", "no goal refuses it, only a name does", "it is refused elsewhere: ",
)
HIDDEN, UNKNOWN = (
    "the check doesn't tell, for what it calls isn't proved", "the check names no such function",
)


class Counts:
    """How many edits were refused as they say, and how many weren't, which are printed."""

    def __init__(self):
        self.passed = self.failed = 0

    def check(self, holds, what):
        """Counts whether something holds."""
        self.passed += bool(holds)
        self.failed += not holds
        if not holds:
            print(f"FAILED: {what}")

    def end(self):
        """Prints the counts, and gives the exit status."""
        print(f"{self.passed} passed, {self.failed} failed")
        return 0 if self.passed and not self.failed else 1


class Edit:
    """A wrong body of a crate: its pairs of texts, the functions that they are in, and the goals
    that refuse it, as its file says."""

    def __init__(self, path, folder):
        self.path, self.name, self.folder = path, f"{folder.name}/{path.stem}", folder
        self.text = path.read_text(encoding="utf-8")
        self.pairs = list(pairs(self.text))
        self.refused = {
            function: set(goals.split()) for function, goals in REFUSED.findall(self.text)
        }
        self.places = {
            self.place_of(file, old)
            for file, old, _ in self.pairs
            if not file.startswith("proofs/")
        }

    def place_of(self, file, old):
        """The function that a text is in; None where it isn't in one."""
        text = (self.folder / file).read_text(encoding="utf-8")
        return refusals.place_at(file, text, text.index(old)) if old in text else None

    def asked(self):
        """What a check is asked for to judge it: the functions that it is in by their names in its
        file, or else their modules. Where it touches anything else, all that its file names; with
        none the whole crate."""
        if None in self.places:
            return set(self.refused)
        named = {place: refusals.at_place(place, self.refused) for place in self.places}
        return {
            name
            for (module, function), names in named.items()
            for name in names or [module or function]
        }

    def applied(self, texts):
        """The texts of files with this edit, from those that other edits changed; None where a text
        isn't there just once."""
        texts = dict(texts)
        for file, old, new in self.pairs:
            text = texts.get(file) or (self.folder / file).read_text(encoding="utf-8")
            if text.count(old) != 1:
                return None
            texts[file] = text.replace(old, new)
        return texts

    def write(self, found):
        """Writes what refuses it into its file."""
        lines = [f"refused: {it}\n" for it in shown(found)]
        self.path.write_text(
            REFUSED.sub("", self.text).rstrip("\n") + "\n" + "".join(lines), encoding="utf-8"
        )


def pairs(text):
    """The files of an edit, with their old and new texts."""
    file = old = None
    for word, given in PAIR.findall(text):
        if word == "file":
            file = given
        elif word == "old":
            old = given
        else:
            yield file, old, given


def shown(found):
    """Functions with the goals at which they are refused, a line each."""
    return [" ".join([function, *sorted(goals)]) for function, goals in sorted(found.items())]


def edits_of(name):
    """The edits of a crate."""
    folder = TOP / "crates" / name
    paths = [*(EDITS / name).glob("*.edit"), *folder.glob("must-fail/*.edit")]
    return [Edit(path, folder) for path in sorted(paths, key=lambda path: path.stem)]


def together(edits):
    """The edits of one round: the first, and those that touch functions that no earlier one does.
    With them the texts that they make. One that touches anything else than functions is alone."""
    chosen, texts, taken = [], {}, set()
    for edit in edits:
        fits = not chosen or not ((edit.places | chosen[0].places) & {None} or edit.places & taken)
        made = edit.applied(texts) if fits else None
        if made is not None:
            chosen, texts, taken = [*chosen, edit], made, taken | edit.places
    return chosen, texts


def judged(edit, states):
    """At which goals the functions of an edit are refused, and what is wrong, if anything is."""
    at = (
        [states]
        if None in edit.places
        else [refusals.at_place(place, states) for place in edit.places]
    )
    own = {name: states[name] for names in at for name in names}
    refused = {name: state.goals for name, state in own.items() if state.goals}
    if refused:
        return refused, ""
    if named := {name: set() for name, state in own.items() if state.by_name}:
        return named, BY_NAME
    return {}, (
        HIDDEN
        if any(state.status != "proved" for state in own.values())
        else PROVED if own else UNKNOWN
    )


class Batch:
    """The edits of a crate, which are tried in rounds over what checks of it kept in a folder."""

    def __init__(self, crate, kept, told):
        self.crate, self.folder, self.kept, self.told, self.rounds = (
            crate, pathlib.Path(crate.folder), kept, told, 0,
        )
        if (self.folder / "out" / "incremental").is_dir():
            shutil.copytree(self.folder / "out" / "incremental", kept)

    def check(self, texts, asked):
        """What a check says of a copy of the crate with these texts: of the functions that it is
        asked for, or else of all."""
        with new_folder() as room:
            for part in kit.TEXTS:
                if (self.folder / part).is_dir():
                    shutil.copytree(self.folder / part, room / part)
            harness.write_files(room, {path: text.encode() for path, text in texts.items()})
            jobs = ["--jobs", "1" if self.kept.exists() else "2"]
            # What is read for tests alone is checked with these.
            words = self.crate.words(jobs, tests=self.crate.has_tests(), keeps=False)
            words += ["--incremental", self.kept, *(f"--only={it}" for it in sorted(asked))]
            how = {
                "cwd": room,
                "stdin": subprocess.DEVNULL,
                "stderr": subprocess.STDOUT,
                "timeout": None,
            }
            status, said, _ = harness.run([kit.rtlib().RATTLE, "check", *words], **how)
        self.rounds += 1
        if self.told:
            (self.told / f"{self.crate.name}.{self.rounds}").write_bytes(said)
        if status < 0:
            raise MemoryError(f"{self.crate.name}: a check was killed, most likely for memory")
        return said.decode("utf-8", "replace")

    def in_one(self, edits, whole):
        """What refuses each edit of one round. Where it doesn't compile, its halves are tried; what
        another hides is left out."""
        chosen, texts = together(edits)
        asked = set() if whole else set().union(*(edit.asked() for edit in chosen))
        states = refusals.states(self.check(texts, asked))
        if states:
            found = {edit: judged(edit, states) for edit in chosen}
            return {edit: it for edit, it in found.items() if it[1] != HIDDEN or len(chosen) == 1}
        half = len(chosen) // 2
        return (
            {**self.tried(chosen[:half], whole), **self.tried(chosen[half:], whole)}
            if half
            else {chosen[0]: ({}, NOT_COMPILED)}
        )

    def tried(self, edits, whole=False):
        """What refuses each edit, by checks of the functions that they touch, or of the whole
        crate."""
        results = {}
        while left := [edit for edit in edits if edit not in results]:
            found = self.in_one(left, whole)
            results |= found or self.in_one(left[:1], whole)
        return results


def libraries(crate):
    """Whether the libraries below a crate are proved as they are: as they lie there, if all come
    from one run, or else built now."""
    below = crate.below()
    stamped = {pathlib.Path(it.rlib).with_name("stamp").exists() for it in below}
    if not kit.stale(crate) and len(stamped) < 2:
        return True
    held = kit.rtlib().lock(below)
    built = not any(it.build_rlib(["--jobs", "2"], anew=False) for it in below)
    for it in held:
        os.close(it)
    return built


def without_comments(file):
    """The lines of a file but for comments, which no check reads."""
    return [
        line
        for line in file.read_text(encoding="utf-8").splitlines()
        if not line.lstrip().startswith(COMMENTS)
    ]


def hash_of(crate):
    """A hash of the logic, the texts of a crate and of those that it stands on, and its edits with
    the lemmas that stand for some."""
    made, lines = hashlib.sha256(kit.logic().encode()), harness.crates()
    for it in [*crate.below(), crate]:
        files = [
            file
            for part in kit.TEXTS
            for file in sorted(pathlib.Path(it.folder, part).rglob("*"))
            if file.is_file()
        ]
        made.update(
            repr(
                (
                    lines[it.name],
                    [(str(file.relative_to(it.folder)), without_comments(file)) for file in files],
                )
            ).encode()
        )
    edits = [(edit.name, edit.text) for edit in edits_of(crate.name)]
    made.update(
        repr((edits, [row for row in harness.rows(LEMMAS) if row[0] == crate.name])).encode()
    )
    return made.hexdigest()


def lemmas():
    """The lemmas that stand for edits, by the edits' names."""
    return {f"{crate}/{edit}": lemma for crate, edit, lemma in harness.rows(LEMMAS)}


def stands(lemma):
    """Whether there is a lemma, named as CRATE.MODULE.NAME, in the proofs of a crate."""
    crate, module, name = lemma.split(".")
    file = TOP / "crates" / crate / "proofs" / f"{module}.antt"
    return file.is_file() and bool(
        re.search(
            rf"^(?:pub )?{re.escape(name)}(?!\S)", file.read_text(encoding="utf-8"), re.MULTILINE
        )
    )


def try_all(crate, edits, told):
    """At which goals each edit of a crate is refused, and what is wrong, if anything is."""
    applied = [edit for edit in edits if edit.applied({}) is not None]
    with new_folder() as room:
        batch = Batch(crate, room / "kept", told)
        results = batch.tried(applied)
        results |= batch.tried(
            [edit for edit, (found, _) in results.items() if not found], whole=True
        )
    return {edit: results.get(edit, ({}, NOT_APPLIED)) for edit in edits}


def wrong_with(edit, found, why, stand):
    """What is wrong with an edit beside what its check tells: a lemma can stand for one, and it may
    be refused elsewhere."""
    if why == BY_NAME and stands(stand.get(edit.name, "..")):
        why = ""
    return why or ("" if found == edit.refused else ELSEWHERE + "; ".join(shown(found)))


def report(crate, results, writes, counts):
    """Counts and shows what refuses each edit of a crate, and writes it down if asked to; whether
    all are refused as they say."""
    failed, stand = counts.failed, lemmas()
    for edit, (found, why) in results.items():
        wrong = wrong_with(edit, found, why, stand)
        if writes and wrong.startswith(ELSEWHERE):
            edit.write(found)
            wrong = ""
        print(f"{edit.name}: {'; '.join(shown(found))}", flush=True)
        counts.check(not wrong, f"{edit.name}: {wrong}")
    if writes and counts.failed == failed:
        kept = {**dict(harness.rows(TRIED)), crate.name: hash_of(crate)}
        TRIED.write_text(
            HEAD + "".join(f"{name}\t{it}\n" for name, it in sorted(kept.items())), encoding="utf-8"
        )


def try_these(crates, given):
    """Tries the edits of crates, some at once; the exit status."""
    counts = Counts()
    with concurrent.futures.ThreadPoolExecutor(given.jobs) as pool:
        runs = {
            pool.submit(try_all, crate, edits_of(crate.name), given.told): crate for crate in crates
        }
        for run in concurrent.futures.as_completed(runs):
            if run.exception():
                counts.check(False, repr(run.exception()))
            else:
                report(runs[run], run.result(), given.write, counts)
    return counts.end()


def try_unfit(known, told):
    """Tries edits that are no wrong bodies, or aren't refused for what they give: each has to fail
    as it says; the exit status."""
    counts = Counts()
    for folder in UNFIT.iterdir():
        crate = kit.crate(TOP / "crates" / folder.name, TOP, known)
        edits = [Edit(path, TOP / "crates" / folder.name) for path in sorted(folder.glob("*.edit"))]
        counts.check(libraries(crate), f"{folder.name}: a library below it isn't proved")
        for edit, (found, why) in try_all(crate, edits, told).items():
            wanted = re.search(r"^fails: (.*)$", edit.text, re.MULTILINE)[1]
            counts.check(
                wrong_with(edit, found, why, {}).startswith(wanted),
                f"{edit.name}: {why}, and not: {wanted}",
            )
    return counts.end()


def changed(crates):
    """Those of some crates whose hash isn't that at which all their edits were refused. Crates that
    have none are named."""
    tried = dict(harness.rows(TRIED))
    if unknown := [crate.name for crate in crates if crate.name not in tried]:
        print(f"without a row in {TRIED.name}, so no edit is tried: {', '.join(unknown)}")
    return [
        crate for crate in crates if crate.name in tried and tried[crate.name] != hash_of(crate)
    ]


def main():
    parser = harness.parser(__doc__)
    parser.add_argument("names", nargs="*", metavar="NAME", help="the crates whose edits are tried")
    parser.add_argument("--all", action="store_true", help="those of all crates")
    parser.add_argument("--write", action="store_true", help="writes down what refuses them")
    parser.add_argument("--selftest", action="store_true", help="tries edits that have to fail")
    parser.add_argument("--jobs", type=int, default=2, help="so many crates at once")
    parser.add_argument(
        "--told", type=pathlib.Path, metavar="FOLDER", help="keeps there what the checks say"
    )
    given, known = parser.parse_args(), {}
    if given.selftest:
        return try_unfit(known, given.told)
    crates = [
        kit.crate(TOP / "crates" / name, TOP, known)
        for name in given.names or [name for name in harness.crates() if edits_of(name)]
    ]
    if not (given.all or given.names):
        crates = changed(crates)
    if unproved := [crate.name for crate in crates if not libraries(crate)]:
        sys.exit(f"a library isn't proved below {unproved[0]}")
    if not crates:
        print("all edits were tried with these texts")
    return try_these(crates, given) if crates else 0


if __name__ == "__main__":
    sys.exit(main())
