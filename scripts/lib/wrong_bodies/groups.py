"""Groups of a crate's edits, each of which one check tries: no two edits of a group affect one function, one arm of the match in
which a body ends, or one file of lemmas.

A function is checked against contracts alone, so the edit of a body affects that function, or one arm of it; that of a
constant, or of what a law with a body says, affects what names these too. One that affects contracts, or changes no function's
body, is alone. Groups of several have neutral and disturbed edits as controls.
"""

import re
from collections.abc import Iterable, Iterator
from dataclasses import dataclass
from os.path import commonprefix

from lib.sources import Item, items
from lib.wrong_bodies.edits import Edit, Unreadable

COMMENT_OR_IMPORT = re.compile(r"^ *(?://.*$|(?:pub )?use [^;]*;)", re.M)
PROOF = re.compile(r"proofs/(.+?)(?:/(?:Answers|Invariants|Proof))?\.antt")


@dataclass(frozen=True)
class Part:
    """What an edit affects: a function with a body, or a law; one arm of the match in which a body ends; or a file of proofs, by
    the name that the prover has for it."""

    of: Item | str
    arm: str = ""

    def is_named_by(self, path: str) -> bool:
        return self.of == path if isinstance(self.of, str) else self.of.is_named_by(path)

    def has(self, path: str, goal: str) -> bool:
        """Whether a goal of a function, as the prover names them, is one of its own: of an arm, that names it."""
        return self.is_named_by(path) and (not self.arm or re.search(rf"-in-{self.arm}(?!\w)", goal) is not None)

    def may_open(self, path: str, goal: str) -> bool:
        """Whether an edit of it may open a goal: one of its own or, since not all of an arm name it, one of no return."""
        return self.has(path, goal) or not goal.startswith("returns") and self.is_named_by(path)

    def meets(self, other: "Part") -> bool:
        """Whether the two share a goal of their own."""
        for one, another in ((self, other), (other, self)):
            if isinstance(one.of, str):
                return another.is_named_by(one.of)
        return self.of == other.of and (not self.arm or not other.arm or self.arm == other.arm)


# The parts that an edit affects, or nothing where that isn't known.
Effect = frozenset[Part] | None
# The edits that one check tries, controls among them, each with what it affects.
Group = dict[Edit, Effect]


def parts_of(group: Group, disturbed: Iterable[Edit]) -> list[Group]:
    """Smaller groups, to try again: the disturbed wrong bodies without the others or, where all are disturbed or a control is, a
    half of them each. A single one has no parts."""
    bodies = [edit for edit in group if not edit.is_control]
    left = [body for body in bodies if body in disturbed] or bodies
    half = len(left) if len(left) < len(bodies) else (len(left) + 1) // 2
    halves = [left[:half], left[half:]] if len(bodies) > 1 else []
    return [{edit: group[edit] for edit in group if edit in part or edit.is_control} for part in halves if part]


def groups_of(edits: list[Edit], texts: dict[str, str], only: Iterable[str] = ()) -> list[Group]:
    """The groups of a crate's edits or, where some are named, of these without controls: two that affect one part of a function
    are in two groups."""
    if unknown := set(only) - {edit.name for edit in edits}:
        raise Unreadable(f"no wrong body {', '.join(sorted(unknown))}")
    left = [edit for edit in edits if edit.name in only] if only else [edit for edit in edits if not edit.is_control]
    controls = [] if only else [edit for edit in edits if edit.is_control]
    effects = {edit: effect_of(edit, texts) for edit in [*left, *controls]}
    alone = [edit for edit in left if effects[edit] is None]
    left, groups = [edit for edit in left if edit not in alone], []
    while left:
        # half of the controls for each of the first two groups, and then one, each time the next, since a group with a
        # control can't have the edits of its function
        number = len(groups)
        taken = controls[number::2] if number < 2 or not controls else [controls[number % len(controls)]]
        group = list(taken)
        for edit in left:
            affected = [part for other in group for part in effects[other]]
            if not any(part.meets(other) for part in effects[edit] for other in affected):
                group.append(edit)
        # one alone can't be disturbed
        if len(group) < len(taken) + 2:
            group = group[len(taken) :] or left[:1]
        left = [edit for edit in left if edit not in group]
        groups.append({edit: effects[edit] for edit in group})
    return groups + [{edit: None} for edit in alone]


def effect_of(edit: Edit, texts: dict[str, str]) -> Effect:
    """What an edit affects; nothing where it changes no function's body, or affects a contract or a constant."""
    edit.changes(texts)
    if not (item := edit.target(texts)):
        return None
    if item.is_constant:
        name = re.compile(rf"\b{item.name}\b")
        cited = re.compile(rf"\.TheConstants\.(?:\{{[^}}]*)?\b{item.name}\b")
    elif item.code < item.end and any(old in texts[item.file][item.start : item.code] for old, _ in edit.pairs):
        # (what a law with a body says)
        name, cited = re.compile(rf"\blaws::{item.name}\b"), re.compile(rf"\blaws\.{item.name}\b")
    else:
        text = texts[item.file]
        places = [text.find(old, item.start) + len(commonprefix((old, new))) for old, new in edit.pairs]
        return widened(parts_at(item, text, places), edit)
    sources = [(file, text) for file, text in texts.items() if file.startswith("src/")]
    naming = {item for file, text in sources for item in items_that_name(name, file, text)} - {item}
    is_cited = any(cited.search(text) for file, text in texts.items() if file.startswith("specs/"))
    if is_cited or any(user is None or user.is_constant for user in naming):
        return None
    parts = frozenset() if item.is_constant else frozenset([Part(item)])
    for user in naming:
        places = [found.start() for found in name.finditer(texts[user.file], user.start, user.end)]
        parts |= parts_at(user, texts[user.file], places)
    return widened(parts, edit) | {Part(file) for file in files_that_cite(cited, texts)}


def widened(parts: frozenset[Part], edit: Edit) -> frozenset[Part]:
    """The parts, or the whole functions where the goal that the edit names is in none."""
    is_inside = any(part.has(edit.function, edit.goal) for part in parts)
    return parts if is_inside else frozenset(Part(part.of) for part in parts)


def parts_at(function: Item, text: str, places: Iterable[int]) -> frozenset[Part]:
    """The parts of a function that have some places of its source: the whole where one is in no arm."""
    arms = list(last_arms(function, text))
    found = {next((name for name, start, end in arms if start <= place < end), "") for place in places}
    return frozenset(Part(function, arm) for arm in ([""] if "" in found else found))


def last_arms(function: Item, text: str) -> Iterator[tuple[str, int, int]]:
    """The arms of the match in which a function's body ends: the name of each, as the prover has it, and where the text
    after its pattern begins and ends."""
    lines = text[function.code : function.end].split("\n")
    indent = re.match(" *", lines[-1])[0] + 4 * " "
    begins = [at for at, line in enumerate(lines) if line.startswith(f"{indent}match ") and line.endswith("{")]
    if not begins or lines[-2] != indent + "}" or indent + "}" in lines[begins[-1] : -2]:
        return
    head = re.compile(rf"{indent}    (?:\w+::)*(\w+).* => ?")
    starts = [function.code + len("\n".join(lines[:at])) + 1 for at in range(len(lines))]
    found = [(at, arm) for at in range(begins[-1] + 1, len(lines) - 2) if (arm := head.match(lines[at]))]
    for (at, arm), end in zip(found, [*(start for start, _ in found[1:]), len(lines) - 2]):
        yield arm[1], starts[at] + arm.end(), starts[end]


def items_that_name(name: re.Pattern, file: str, text: str) -> Iterator[Item | None]:
    """The functions and constants of a source that name something, and nothing for a contract that does."""
    inside = items(file, text)
    yield from (item for item in inside if name.search(text[item.start : item.end]))
    outside = text
    for item in reversed(inside):
        outside = outside[: item.start] + outside[item.end :]
    if name.search(COMMENT_OR_IMPORT.sub("", outside)):
        yield None


def files_that_cite(cited: re.Pattern, texts: dict[str, str]) -> set[str]:
    """The files of proofs that cite something, and those that import them, directly or not."""
    proofs = {PROOF.fullmatch(file)[1].replace("/", "::"): text for file, text in texts.items() if PROOF.fullmatch(file)}
    found, new = set(), {file for file, text in proofs.items() if cited.search(text)}
    while new:
        found |= new
        of_new = re.compile(r"\.proofs\.(?:{})\b".format("|".join(re.escape(file.replace("::", ".")) for file in new)))
        new = {file for file, text in proofs.items() if of_new.search(text)} - found
    return found
