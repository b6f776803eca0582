"""Which function of a crate a line of its text belongs to, and where a check of the crate says that
one isn't proved.

A check names a function by its crate, its module, its type or impl, and its name. What it says of
one stands before its line `fn ..`; errors in the files of its proof stand above all of these. Where
such a file names what the body doesn't have, a goal that has no answer may just have another name.
Of that function those goals count alone whose answer is there and wrong, and those for which values
are known that make them false; with none the function is refused for a name alone.
"""
import collections
import dataclasses
import re

# A goal's name, unlike that of a lemma beside an answer.
GOAL = re.compile(r"returns$|.*-")
FUNCTION = re.compile(r"fn (\S+): (.*)")
NOTE = re.compile(r"note: \S+:\d+:\d+: .*?\(`([^`]+)`\)(.*)")
FALSE = "allow values at which this goal is false"
SEARCHED = re.compile(r"`search` did not prove ((?:`[^`]+`(?:, )?)+)")
ANSWER = re.compile(
    r"(?:\./)?proofs/(\S+)/(?:Answers|Given|Invariants|Proof)\.antt:\d+:\d+: error: (?:`([^`]+)`:"
    r" )?(.*)"
)
NAME = re.compile(r"has no field|is not in scope|has no `|was not admitted")
# A lemma that no longer holds, as one that computes a table of the code, and what rests on it.
LEMMA = re.compile(r"(?:\./)?proofs/\S+\.antt:\d+:\d+: error: (?:`([^`]+)`: )?(.*)")
RESTS = re.compile(r"that depends? on `([^`]+)`, which was \D+, w\w+ not checked: (.*)")
# An error in src is a law of an impl that doesn't hold, if it has the law's name, and else, as in
# specs, a text that can't be read.
LAW = re.compile(r"(?:\./)?(?:src|specs)/(\S+)\.\w+:\d+:\d+: error(?:: `([^`]+)`)?(.*)")
# What a check with several jobs tells on the way comes again behind.
AHEAD = "so far: "
# An error's line goes on in the next.
WRAPPED = re.compile(r"(: error[^\n]*)\n  ")
HEAD = re.compile(r"( *)(?:pub(?:\([a-z]+\))? )?(?:const )?(?:unsafe )?(?:extern \"C\" )?fn (\w+)")


@dataclasses.dataclass
class State:
    """What a check says of a function: its status, the goals that aren't proved, those that are
    surely wrong, and whether names are."""

    status: str = ""
    unproved: set = dataclasses.field(default_factory=set)
    wrong: set = dataclasses.field(default_factory=set)
    by_name: bool = False

    @property
    def goals(self):
        """The goals at which it is refused."""
        return self.wrong if self.by_name else self.wrong | self.unproved


def take_notes(state, notes, line):
    """Takes what a check says of a function: the notes before its line, and that line."""
    searched = [names.strip("`").split("`, `") for names in SEARCHED.findall(line)]
    state.status = FUNCTION.match(line)[2]
    state.unproved |= {goal for goal, _ in notes}.union(*searched)
    state.wrong |= {goal for goal, rest in notes if FALSE in rest}


def refused(name, why, broken):
    """The names that an error in a proof refuses for what they say: its own, or those that rest on
    a lemma that is broken."""
    if rests := RESTS.search(why):
        return set(rests[2].split(", ")) if rests[1] in broken else set()
    return {name} if name and not NAME.search(why) else set()


def states(said):
    """What a check said of each function, by its name; None where it didn't come to that."""
    found, notes, broken = collections.defaultdict(State), [], set()
    lines = [line for line in said.splitlines() if not line.startswith(AHEAD)]
    for line in WRAPPED.sub(r"\1 ", "\n".join(lines)).splitlines():
        notes += NOTE.findall(line)
        if answer := ANSWER.match(line):
            state, names, rests = (
                found[answer[1].replace("/", "::")], refused(answer[2], answer[3], broken),
                RESTS.search(answer[3]),
            )
            state.by_name |= not names and not (rests and rests[1] in state.wrong)
            state.wrong |= set(filter(GOAL.match, names))
        elif lemma := LEMMA.match(line):
            broken |= refused(lemma[1], lemma[2], broken)
        elif law := LAW.match(line):
            if not law[2] or NAME.search(law[3]):
                return None
            found[law[1].replace("/", "::")].wrong.add(law[2])
        elif function := FUNCTION.match(line):
            take_notes(found[function[1].partition("::")[2]], notes, line)
            notes = []
    return found if any(state.status for state in found.values()) else None


def place_at(path, text, at):
    """The module and the name of the function in whose lines a place of a file of src is, or
    None."""
    lines = text.split("\n")[: text.count("\n", 0, at) + 1]
    begin = next((line for line in reversed(range(len(lines))) if HEAD.match(lines[line])), None)
    if begin is None or not path.startswith("src/"):
        return None
    indent, name = HEAD.match(lines[begin]).groups()
    module = [part for part in path[4:-3].split("/") if part not in ("lib", "main", "mod")]
    return None if f"{indent}}}" in lines[begin:] else ("::".join(module), name)


def module_of(function):
    """A function's module: what stands before its name, and before that of its type or impl."""
    module = function.rpartition("::")[0]
    return module.rpartition("::")[0] if module.rpartition("::")[2][:1].isupper() else module


def at_place(place, functions):
    """The functions with a place's name in its module; where there is none, the methods of that
    name, whose module is their type's."""
    module, name = place
    named = [it for it in functions if it.rpartition("::")[2] == name]
    return [it for it in named if module_of(it) == module] or [
        it for it in named if module_of(it) != it.rpartition("::")[0]
    ]
