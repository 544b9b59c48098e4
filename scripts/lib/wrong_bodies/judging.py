"""Judges what `rt check` prints of a group: of each edit whether it is rejected at the goal that it names.

A goal is merely disturbed where its proof names what the edit took away, or where the body makes a value before it that its type
forbids: that is no rejection. A group fails as a whole where a function that no edit of it affects has an open goal, or where
it doesn't compile.
"""

import re
from dataclasses import dataclass, replace

from lib.wrong_bodies.edits import Edit
from lib.wrong_bodies.groups import Group

VERDICT = re.compile(r"^(?:logic=(?:proved |not-proved)|only=\d+ )", re.M)
UNCOMPILED = re.compile(r"^(?:\./)?src/\S+: error\[.*", re.M)
ERROR = re.compile(r"(?:\./)?proofs/(\S+)\.antt:\d+:\d+: error: `([^`]+)`: (.*)")
OPEN = re.compile(r"note: src/\S+: (?:it is not proved that .*|`search` found no proof) ?\(`([^`]+)`\)(?:; )?(.*)")
UNPROVED = re.compile(r"fn \w+::(\S+): (?:not proved|no proof)(.*)")
STATED = re.compile(r"note: `([^`]+)` of proofs/(\S+)/Answers\.antt must prove: (.*)")
# A search that was written as an answer, and the goal that it doesn't prove.
SEARCHED = re.compile(r"`search`: no proof of `([^`]+)`.*")
# Errors that don't concern the contract: a proof names what the edit took away.
GONE = re.compile(r"has no field|\(nearest: |is not in scope|has no `|was not admitted|declarations? that depends? on")


@dataclass(frozen=True)
class OpenGoal:
    """A goal that is open, of a function or of a file of lemmas; what the prover prints of it; and whether its proof names what
    is gone."""

    function: str
    name: str
    said: str
    names_what_is_gone: bool = False

    @property
    def is_of_a_step(self) -> bool:
        """Whether it says that a value made by a step of the body is one that its type allows. Later goals assume that."""
        return re.match(r"invariant_of-(?!result|self)", self.name) is not None


@dataclass(frozen=True)
class Verdict:
    """Whether an edit is as it has to be, a line that says so, and whether another edit may have disturbed it."""

    name: str
    is_well: bool
    said: str
    is_disturbed: bool = False


def open_goals(output: str) -> list[OpenGoal]:
    """The goals that a check left open, each with its function."""
    found, waiting, stated = [], [], {}
    # the prover wraps a long line, and indents what follows
    for line in re.sub(r"\n  +", " ", output).splitlines():
        if error := ERROR.match(line):
            function = re.sub(r"/(?:Answers|Invariants|Proof)$", "", error[1]).replace("/", "::")
            found.append(OpenGoal(function, error[2], SEARCHED.sub(r"\1", error[3]), bool(GONE.search(error[3]))))
        elif note := OPEN.match(line):
            waiting.append((note[1], note[2]))
        elif line.startswith("fn "):
            if function := UNPROVED.match(line):
                searched = function[2].partition("did not prove ")[2].partition(";")[0]
                waiting += [(name, "") for name in re.findall(r"`([^`]+)`", searched) if name not in dict(waiting)]
                found += [OpenGoal(function[1], *goal) for goal in waiting]
            waiting = []
        elif goal := STATED.match(line):
            stated[goal[2].replace("/", "::"), goal[1]] = goal[3].partition(" names you can use")[0]
    return [replace(goal, said=stated.get((goal.function, goal.name), goal.said)) for goal in found]


def judged(edit: Edit, own: list[OpenGoal]) -> Verdict:
    """The verdict on an edit, by the open goals of what it affects."""
    is_disturbed = any(goal.names_what_is_gone for goal in own)
    if edit.kind == "neutral":
        said = f"rejected, and neutral: {own[0].name}" if own else "neutral, and not rejected"
        return Verdict(edit.name, not own, said, is_disturbed)
    named = [goal for goal in own if (goal.function, goal.name) == (edit.function, edit.goal)]
    if not named:
        goals = ", ".join(f"{goal.function} {goal.name}" for goal in own[:6])
        return Verdict(edit.name, False, f"rejected at a goal it doesn't name: {goals}" if own else "NOT REJECTED", is_disturbed)
    is_after_a_step = any(goal.is_of_a_step and goal.function == edit.function for goal in own if goal not in named)
    kind = "disturbed" if is_after_a_step or all(goal.names_what_is_gone for goal in named) else "refused"
    line = f"{kind}: {edit.function} {edit.goal}: {named[0].said[:160]}"
    if kind == edit.kind:
        return Verdict(edit.name, True, line)
    return Verdict(edit.name, False, f"IS TO BE {edit.kind.upper()}, is {line}", is_disturbed or is_after_a_step)


def judge(group: Group, output: str) -> tuple[list[Verdict], list[str]]:
    """The verdicts on the edits of a checked group, and what else is wrong, a line each."""
    place = f"the group of {next(iter(group)).name}"
    if not VERDICT.search(output):
        said = UNCOMPILED.findall(output) or output.splitlines()[-3:]
        return [Verdict(edit.name, False, "no verdict") for edit in group], [f"{place}: {' '.join(said)[:600]}"]
    found, verdicts, affected = open_goals(output), [], []
    for edit, effect in group.items():
        # (all where it isn't known what the edit affects)
        own = [goal for goal in found if effect is None or any(part.may_open(goal.function, goal.name) for part in effect)]
        verdicts.append(judged(edit, own))
        affected += own
    others = [goal for goal in found if goal not in affected]
    return verdicts, [f"{place}: open, and affected by no edit: {goal.function} {goal.name}" for goal in others]
