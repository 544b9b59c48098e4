"""Reads crates.txt, the texts of a crate, the items of a source that a wrong body can change, and what a source, a definition
or a proof declares. It prints nothing."""

import functools
import re
from collections.abc import Iterator
from dataclasses import dataclass
from pathlib import Path

from lib import rattle
from lib.rattle import items_of, line_start

TOP = Path(__file__).resolve().parents[2]
CRATES = TOP / "crates"
# The libraries that have a CALLING.md, from the lowest up.
LIBRARIES = ("tinystr_words", "tinystr", "subtags", "tinystr_packed", "tinystr_hashed")
LAWS = "src/laws.rt"
ARM = re.compile(r" +(?:\| )?(?:Width|Question|Case|Command|TextCall|Self)::\w+.*=>")


@dataclass(frozen=True)
class Item:
    """A function with a body, a law or a constant: its file, the head of its impl or trait, its name, where its body (or,
    of a law, its head, clauses and body) begins and ends, and where its code begins, which is the end of one without."""

    file: str
    block: str
    name: str
    is_constant: bool
    start: int
    end: int
    code: int

    def is_named_by(self, path: str) -> bool:
        """Whether the prover's path, as `padded::words::ask` or `code_unit::U8CodeUnit::code`, is that of this function."""
        *before, name = path.split("::")
        if self.is_constant or name != self.name:
            return False
        if not self.block:
            module = re.sub(r"(^|/)(lib|main)\.rt$|\.rt$", "", self.file.removeprefix("src/"))
            return before == [part for part in module.split("/") if part]
        head = re.sub(r"^(?:pub )?(?:impl|trait)\b", "", self.block)
        while (bare := re.sub(r"<[^<>]*>", "", head)) != head:
            head = bare
        trait, _, owner = re.sub(r"\bwhere\b.*|\{$|&(?:'\w+ )?|: .*", "", head).rpartition(" for ")
        trait, owner = (re.split(r"::", path.strip())[-1].lower() for path in (trait, owner))
        # a method's module is that of its type, wherever the impl is
        of = before[-1].lower() if before else ""
        return of.startswith(owner + trait) if trait else of.partition("+")[0] == owner


# (cached, since it is called for each edit of a source)
@functools.cache
def items(file: str, text: str) -> tuple[Item, ...]:
    """The functions with a body, the laws, and the constants, of a source."""
    return tuple(items_among(items_of(text), file, ""))


def items_among(found: list[rattle.Item], file: str, block: str) -> Iterator[Item]:
    """Those among some items of a source, and in these; `block` is the head of the impl or trait that has them."""
    for item in found:
        start, end = line_start(item.source, item.start), item.end
        if item.kind in ("impl", "trait", "mod"):
            yield from items_among(item.inner, file, "" if item.kind == "mod" else item.head)
        elif item.kind in ("const", "static"):
            yield Item(file, block, item.name, True, start, end, start)
        elif item.kind == "fn" and item.has_code:
            code = line_start(item.source, item.body[0])
            yield Item(file, block, item.name, False, start if file == LAWS else code, end, code)
        elif item.kind == "fn" and file == LAWS:
            yield Item(file, block, item.name, False, start, end, end)


def texts_of(crate: str, crates: Path = CRATES) -> dict[str, str]:
    """The texts of a crate that a check reads, by their paths in its folder."""
    folder = crates / crate
    files = [path for part in ("src", "specs", "proofs") for path in sorted((folder / part).rglob("*")) if path.is_file()]
    return {str(path.relative_to(folder)): path.read_text(encoding="utf-8") for path in files}


def function_named(path: str, texts: dict[str, str]) -> Item | None:
    """The function of a crate that the prover names so."""
    found = [items(file, text) for file, text in texts.items() if file.startswith("src/")]
    return next((item for inside in found for item in inside if item.is_named_by(path)), None)


def libraries() -> dict[str, list[str]]:
    """The libraries of the repository that each crate uses, by its name, from the lowest crate up."""
    found = {}
    for line in (TOP / "crates.txt").read_text(encoding="utf-8").splitlines():
        head, colon, uses = line.partition("#")[0].partition(":")
        if colon:
            found[head.split()[0]] = [library for library in uses.split() if library in found]
    return found


def below(crate: str) -> list[str]:
    """The libraries of the repository that a crate depends on, each after those that it uses."""
    uses, found = libraries(), []
    for used in uses[crate]:
        found += [lower for lower in [*below(used), used] if lower not in found]
    return found


def arms(texts: dict[str, str]) -> list[tuple[str, int, tuple[int, int], str]]:
    """The arms of each match on a width, a question or a case: file, line, where the arm begins and ends, and its first line."""
    found = []
    for file, text in texts.items():
        at = 0
        lines = text.split("\n") if file.startswith("src/") else []
        for number, line in enumerate(lines):
            if ARM.match(line):
                last = number
                if line.endswith("{"):
                    closing = re.match(" *", line)[0] + "}"
                    last = next(end for end in range(number, len(lines)) if lines[end].rstrip(",") == closing)
                found.append((file, number + 1, (at, at + len("\n".join(lines[number : last + 1]))), line.strip()))
            at += len(line) + 1
    return found


def text_of(path: Path) -> str:
    return path.read_text(encoding="utf-8")


def source_files(library: str) -> list[Path]:
    return sorted((CRATES / library / "src").rglob("*.rt"))


def can_be_named(item: rattle.Item) -> bool:
    """Whether callers can name an item of a public module."""
    is_of_kind = item.kind in ("struct", "enum", "trait", "type", "fn")
    return item.kind in ("impl", "macro_rules") or is_of_kind and item.is_public


def public_declarations(library: str) -> Iterator[tuple[Path, rattle.Item]]:
    """The items that callers can name, each with its file: of a public module and the modules in it, or reexported by name."""
    folder = CRATES / library / "src"
    root = [item for item in items_of(text_of(folder / "lib.rt")) if "#[doc(hidden)]" not in item.lines_above]
    uses = [match for item in root if (match := re.match(r"pub use (\w+)::\{?(.*?)\}?;", item.head))]
    reexported = {match[1]: match[2].split(", ") for match in uses}
    for module in [item for item in root if item.kind == "mod" and not item.body]:
        file = folder / f"{module.name}.rt"
        if module.is_public:
            yield from ((file, item) for item in items_of(text_of(file)) if can_be_named(item))
            for submodule in sorted((folder / module.name).glob("*.rt")):
                is_public = f"pub mod {submodule.stem};" in text_of(file).splitlines()
                found = [
                    item for item in items_of(text_of(submodule)) if (can_be_named(item) if is_public else item.kind == "impl")
                ]
                yield from ((submodule, item) for item in found)
        elif module.name in reexported:
            yield from ((file, item) for item in items_of(text_of(file)) if item.name in reexported[module.name])


def code_lines(path: Path) -> Iterator[tuple[int, str]]:
    """The lines of a file that aren't comments, with their numbers."""
    comment = "--" if path.suffix == ".antt" else "//"
    for number, line in enumerate(text_of(path).splitlines(), 1):
        if not line.lstrip().startswith(comment):
            yield number, line
