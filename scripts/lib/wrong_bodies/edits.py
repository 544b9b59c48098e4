"""Wrong bodies, and the controls beside them: reads their blocks, and applies them to the texts of a crate."""

import itertools
import re
from collections import Counter
from collections.abc import Iterable, Iterator
from dataclasses import dataclass

from lib.sources import TOP, Item, items

# A control is neutral, and no goal of its function is open, or disturbed, and its goal is open for another reason.
BLOCK = re.compile(
    r"(?P<name>\w+__\w+)\n"
    r"(?:(?P<kind>refused|neutral|disturbed): (?P<function>\S+)(?: (?P<goal>\S+))?\n)?"
    r"(?:elsewhere: (?P<elsewhere>.+)\n)?(?P<pairs>(?:old: .+\nnew:.*\n)+)"
)
PAIR = re.compile(r"old: (.+)\nnew: ?(.*)\n")
WITHOUT = re.compile(r"without (\w+(?:,\s+\w+)*): (.+)")


class Unreadable(Exception):
    """What is wrong with an edit, in words for whoever wrote it."""


@dataclass(frozen=True)
class Edit:
    """A block: its name, the source that it changes, its text and kind, the function and the goal that must reject it, why that
    goal is no clause, and pairs of an old and a new text."""

    name: str
    file: str
    text: str
    kind: str
    function: str
    goal: str
    elsewhere: str
    pairs: tuple[tuple[str, str], ...]

    @property
    def is_control(self) -> bool:
        return self.kind != "refused"

    def target(self, texts: dict[str, str]) -> Item | None:
        """What it changes: the function that it names, or the only one or constant that has its first old text."""
        text, old = texts[self.file], self.pairs[0][0]
        inside = [item for item in items(self.file, text) if old in text[item.start : item.end]]
        named = [item for item in inside if item.is_named_by(self.function)]
        item = named[0] if named else inside[0] if len(inside) == 1 else None
        if item and not item.is_constant and self.function and not named:
            raise Unreadable(f"{self.name} names {self.function}, and changes {item.name} of {item.file}")
        return item

    def changes(self, texts: dict[str, str]) -> list[tuple[int, int, str]]:
        """Where each old text begins and ends, once in its target or, where it has none, in the file; and the new one."""
        text, found, target = texts[self.file], [], self.target(texts)
        start, end = (target.start, target.end) if target else (0, len(text))
        for old, new in self.pairs:
            if (count := text.count(old, start, end)) != 1:
                raise Unreadable(f"{self.name}: an old text is {count} times in {target.name if target else self.file}: {old}")
            at = text.index(old, start, end)
            found.append((at, at + len(old), new))
        return found


def has_edits(crate: str) -> bool:
    return (TOP / "crates" / crate / "wrong-bodies").is_dir()


def blocks_of(crate: str) -> Iterator[tuple[str, str]]:
    """The blocks in a crate's files, each with its source, whose path is in a line above it."""
    for path in sorted((TOP / "crates" / crate / "wrong-bodies").glob("*.edits")):
        file = ""
        for block in path.read_text(encoding="utf-8").removesuffix("\n").split("\n\n"):
            if not block.startswith("src/"):
                yield file, block
            elif not (TOP / "crates" / crate / (file := block)).is_file():
                raise Unreadable(f"{path.relative_to(TOP)}: no source {file}")


def without_of(crate: str) -> dict[tuple[str, str], str]:
    """The items of a crate that have no edit, by their sources and names, and why."""
    listed = [(file, read) for file, block in blocks_of(crate) if (read := WITHOUT.fullmatch(block))]
    return {(file, name): read[2] for file, read in listed for name in re.split(r",\s+", read[1])}


def edits_of(crate: str) -> list[Edit]:
    """The edits of a crate, by the order of their files and of the blocks in each."""
    found = []
    for file, block in blocks_of(crate):
        if WITHOUT.fullmatch(block):
            continue
        if not file or not (read := BLOCK.fullmatch(f"{block}\n")):
            raise Unreadable(f"{file or 'below no path'}: no block of an edit: {block.partition(chr(10))[0]}")
        said = [read[field] or "" for field in ("function", "goal", "elsewhere")]
        pairs = tuple(PAIR.findall(read["pairs"]))
        found.append(Edit(read["name"], file, f"{block}\n", read["kind"] or "refused", *said, pairs))
    if twice := [name for name, count in Counter(edit.name for edit in found).items() if count > 1]:
        raise Unreadable(f"the names of two: {', '.join(twice)}")
    return found


def applied(edits: Iterable[Edit], texts: dict[str, str]) -> dict[str, str]:
    """The texts of a crate, by file, with some edits, of which no two change the same place."""
    changed = dict(texts)
    for file, of_file in itertools.groupby(sorted(edits, key=lambda edit: edit.file), lambda edit: edit.file):
        pieces, at = [], 0
        for start, end, new in sorted(change for edit in of_file for change in edit.changes(texts)):
            if start < at:
                raise Unreadable(f"{file}: two edits change one place: {new}")
            pieces, at = [*pieces, texts[file][at:start], new], end
        changed[file] = "".join([*pieces, texts[file][at:]])
    return changed
