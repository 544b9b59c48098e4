"""Leaves out ghost items and tactics, which are for the prover alone, and turns contracts into comments.

A function's clauses end its comment, and what it requires is checked or documented.
"""

import re

from eraser import Stopped
from eraser.requires import REPLACEMENTS, Panics, Unsafe
from lib.rattle import Tokens, clause_at, end_of_tactic, line_of

# The first is before and after a clause, and the second between its kind, its label and its condition.
EDGE, PART = "\0", "\1"
# An import of a module of definitions under a name. A clause for Rust has the definitions alone, without this name.
NAMED_MODULE = re.compile(r"^ *ghost use [\w.]+ as (\w+);", re.M)
CLAUSES = re.compile(f"(?:{EDGE}[^{EDGE}]*{EDGE})+")
HEAD = re.compile(r"^( *)(pub(?:\(crate\))? )?(?:const )?(?:extern \"C\" )?fn \w+", re.M)
CLOSURE = re.compile(r"\|[^|\n]*\|(?: -> [\w&\[\]<>]+)?\Z")
ABOVE = re.compile(r"(?:^ *(?://|#\[)[^\n]*\n)*\Z", re.M)
# The clauses in a comment of documentation that rustdoc shows.
SHOWN = re.compile(r"^( *///) # Contract\n\1\n(\1 ```text\n(?:\1 (?!```).*\n)+\1 ```\n)(?!(?: *#\[.*\n)* *pub\(crate\))", re.M)
# The sentence on how contracts see a type, and the rest of the type's comment.
VIEW = re.compile(r" A contract(?: |\n/// )(sees it as.*?)(?:\n///)?( .*\.)\n((?:///.*\n)*)")
HEADING = "# [Contract](crate::definitions)"


def without_ghosts(text: str) -> str:
    """Leaves out `ghost` items and `#[tactic]`, with their lines, and makes marks of `requires` and `ensures`."""
    tokens, kept, at = Tokens(text), [], 0
    modules = NAMED_MODULE.findall(text)
    while at < len(tokens):
        if tokens.is_word(at, "ghost"):
            # a field ends at its comma, and what isn't one at its semicolon
            at = drop_line(tokens, kept, tokens.next_mark(at, ";,") + 1)
        elif end := end_of_tactic(tokens, at):
            at = drop_line(tokens, kept, end)
        elif tokens.is_word(at, "requires") or tokens.is_word(at, "ensures"):
            clause, at = clause_at(tokens, at)
            while kept and kept[-1].isspace():
                kept.pop()
            condition = " ".join(clause.condition.split())
            for module in modules:
                condition = re.sub(rf"(?<![\w.]){module}\.", "", condition)
            kept.append(EDGE + PART.join((clause.kind, clause.label, condition)) + EDGE)
        else:
            kept.append(tokens.texts[at])
            at += 1
    return "".join(kept)


def drop_line(tokens: Tokens, kept: list[str], end: int) -> int:
    """Takes off the indentation before an item that is left out, and the end of its line after it."""
    if kept and kept[-1].isspace():
        space = kept.pop()
        kept.append(space[: space.rfind("\n") + 1])
    if end < len(tokens) and tokens.texts[end].startswith("\n"):
        tokens.texts[end] = tokens.texts[end][1:]
    return end


class Contracts:
    """Places the contracts of the files, and keeps which entries of the table were used."""

    def __init__(self) -> None:
        self.used = set()

    def place(self, text: str, file: str, is_private: bool) -> str:
        """Moves the clauses of each function of a file into its comment. In a private module no function is public."""
        for found in reversed(list(CLAUSES.finditer(text))):
            if CLOSURE.search(text[: found.start()]):
                # a closure has no comment: that of its function says what both return
                text = text[: found.start()] + re.sub(r"\A\s*\{", " {", text[found.end() :])
                continue
            heads = [head for head in HEAD.finditer(text, 0, found.start()) if is_open(text[head.end() : found.start()])]
            if not heads:
                raise Stopped(f"{file}:{line_of(text, found.start())}: a contract of no function")
            text = self.place_one(text, found, heads[-1], file, is_private)
        return text

    def place_one(self, text: str, found: re.Match, head: re.Match, file: str, is_private: bool) -> str:
        clauses = [clause.split(PART) for clause in found.group().strip(EDGE).split(EDGE * 2)]
        is_public = head[2] == "pub " and not is_private
        required = [condition for kind, _, condition in clauses if kind == "requires" and is_public]
        replacements = [self.replacement(file, condition) for condition in required]
        indent = head[1]
        start = ABOVE.search(text, 0, head.start()).start()
        above = text[start : head.start()].splitlines()
        comments = [line for line in above if line.strip().startswith("//")]
        attributes = [line for line in above if not line.strip().startswith("//")]
        is_doc = is_public or any(comment.strip().startswith("///") for comment in comments)
        comments += [f"{indent}{line}".rstrip() for line in as_comment(clauses, replacements, is_doc)]
        panics = [replacement for replacement in replacements if isinstance(replacement, Panics)]
        checks = [f'\n{indent}    assert!({it.check}, "{it.message or it.when}");' for it in panics]
        signature = text[head.start() : found.start()]
        if len(panics) < len(replacements):
            signature = re.sub(r"\bfn ", "unsafe fn ", signature, count=1)
        after = re.sub(r"\A\s*\{", " {" + "".join(checks), text[found.end() :])
        return text[:start] + "\n".join([*comments, *attributes, signature]) + after

    def replacement(self, file: str, condition: str) -> Panics | Unsafe:
        """What replaces a condition of a public function."""
        if condition not in REPLACEMENTS:
            raise Stopped(f"{file}: nothing replaces what a public function requires: {condition}")
        self.used.add(condition)
        return REPLACEMENTS[condition]

    def finish(self) -> None:
        for condition in REPLACEMENTS.keys() - self.used:
            raise Stopped(f"no public function requires {condition}")


def is_open(between: str) -> bool:
    """Whether a function's head isn't over between its name and a place: no body and no item has begun since."""
    return not re.search(r"[;{}]", re.sub(r"\[[^\]]*\]|\{\w+\}", "", between))


def with_folds(text: str) -> str:
    """The text where rustdoc folds the clauses of each comment, and a type's comment ends with how contracts see it."""
    text = SHOWN.sub(r"\1 <details><summary>Contract</summary>\n\1\n\1 [Notation](crate::definitions):\n\2\1 </details>\n", text)
    return VIEW.sub(rf"\n\3///\n/// {HEADING}\n///\n/// A contract \1\2\n", text)


def as_comment(clauses: list[list[str]], replacements: list[Panics | Unsafe], is_doc: bool) -> list[str]:
    """The lines of a comment on when a public function panics or is safe to call, and of its contract."""
    lines = [f"{kind} {label + ' ' if label else ''}{{ {condition} }}" for kind, label, condition in clauses]
    if not is_doc:
        return ["// Proved:", *(f"//     {line}" for line in lines)]
    doc = [""]
    for replacement in replacements:
        if isinstance(replacement, Unsafe):
            doc += ["# Safety", "", replacement.condition, ""]
    panics = [replacement.when for replacement in replacements if isinstance(replacement, Panics)]
    if panics:
        doc += ["# Panics", "", f"Where {' or '.join(panics)}.", ""]
    return [f"/// {line}" for line in [*doc, "# Contract", "", "```text", *lines, "```"]]
