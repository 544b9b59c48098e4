#!/usr/bin/env -S python3 -B
"""Reads pages of Markdown: their fences, prose, anchors and links. As a command, `pages.py PAGE KIND [NUMBER]`, it prints the
text of a fence of a kind, the first or that of a number, and fails where a page has none."""

import re
import sys
from dataclasses import dataclass
from pathlib import Path


@dataclass(frozen=True)
class Fence:
    """The text between two lines of backticks: the word after the first, the heading above it, and the number of lines
    of the page's prose above it."""

    kind: str
    heading: str
    above: int
    text: str


class Page:
    """A page: the targets of its links, its fences in their order, and its prose, the lines outside fences."""

    def __init__(self, path: Path) -> None:
        self.path = path
        text = path.read_text(encoding="utf-8")
        self.links = re.findall(r"\]\(\s*([^)\s]+)", text)
        self.fences, self.prose, self.anchors = [], [], set()
        heading, kind, inside = "", None, []
        for line in text.splitlines():
            if kind is None and line.startswith("```"):
                kind, inside = line[3:], []
            elif line.startswith("```"):
                self.fences.append(Fence(kind, heading, len(self.prose), "".join(f"{line}\n" for line in inside)))
                kind = None
            elif kind is not None:
                inside.append(line)
            else:
                self.prose.append(line)
                if line.startswith("## "):
                    heading = line[3:]
                if match := re.match(r"#+ +(.*)", line):
                    self.anchors.add(self.new_anchor(match[1]))

    def new_anchor(self, heading: str) -> str:
        """The anchor of a heading: its small letters, digits, hyphens and underscores, and a hyphen for each space; with a number
        after one that is already there."""
        words = re.sub(r"\]\([^)]*\)", "", heading).lower()
        anchor = re.sub(r"[^a-z0-9 _-]", "", words).replace(" ", "-")
        # (a third heading of a name gets the number 2)
        numbered = (f"{anchor}-{number}" for number in range(1, len(self.anchors) + 1))
        return next(name for name in (anchor, *numbered) if name not in self.anchors)

    def fence(self, kind: str, number: int = 1, heading: str | None = None) -> str:
        """The text of the fence of a kind and a number, of all or of those below a heading; empty where there is none."""
        found = [fence.text for fence in self.fences if fence.kind == kind and heading in (None, fence.heading)]
        return found[number - 1] if number <= len(found) else ""


if __name__ == "__main__":
    page, kind, *number = sys.argv[1:]
    text = Page(Path(page)).fence(kind, *map(int, number))
    sys.stdout.write(text)
    sys.exit(not text)
