"""Reads a source of Rattle: its tokens, and the tree of its items. It prints nothing.

An item has its doc comment and attributes, its head, its body, and the items in it.
"""

import re
from collections.abc import Callable, Iterator
from dataclasses import dataclass, field

TOKEN = re.compile(
    r"""
    (?P<comment>//[^\n]*)
  | (?P<string>b?r\#"(?:.|\n)*?"\#|b?"(?:\\(?:.|\n)|[^"\\])*"|b?'(?:\\(?:x..|u\{.*?\}|.)|[^'\\])')
  | (?P<word>'?[\w◌]+)
  | (?P<space>\s+)
  | (?P<mark>.)
    """,
    re.X,
)
# Words that may be before the one that names the kind of an item.
QUALIFIERS = ("pub", "const", "unsafe", "extern")
# Items that end with a semicolon, whatever braces are in them, and those that have items in them.
STATEMENTS = ("use", "const", "static", "type", "ghost")
GROUPS = ("impl", "trait", "mod")
CLAUSES = ("requires", "ensures", "decreases", "invariant")


class Tokens:
    """The tokens of a text, each with its kind and where it begins."""

    def __init__(self, text: str):
        found = list(TOKEN.finditer(text))
        self.texts = [token.group() for token in found]
        self.kinds = [token.lastgroup for token in found]
        self.starts = [token.start() for token in found] + [len(text)]

    def __len__(self) -> int:
        return len(self.texts)

    def is_word(self, at: int, word: str) -> bool:
        return at < len(self) and self.kinds[at] == "word" and self.texts[at] == word

    def after_space(self, at: int) -> int:
        """The next place from `at` on that isn't space."""
        while self.kinds[at] == "space":
            at += 1
        return at

    def after_bracket(self, at: int) -> int:
        """The place after the bracket that closes the one at `at`."""
        depth = 0
        while True:
            if self.kinds[at] == "mark":
                depth += (self.texts[at] in "([{") - (self.texts[at] in ")]}")
            at += 1
            if depth == 0:
                return at

    def next_mark(self, at: int, marks: str) -> int:
        """The next place of one of some marks, outside of brackets."""
        while not (self.kinds[at] == "mark" and self.texts[at] in marks):
            at = self.after_bracket(at) if self.texts[at] in "([{" else at + 1
        return at

    def joined(self, start: int, end: int) -> str:
        return "".join(self.texts[start:end])


@dataclass(frozen=True)
class Clause:
    """A clause of a function: `requires` or the like, its label, which may be empty, and its condition as it is written."""

    kind: str
    label: str
    condition: str


@dataclass
class Item:
    """An item of a source: its kind, as `fn`; where the lines of its doc comment and attributes begin, its head, its braces
    where it has some, and its end; and the items in it."""

    source: str = field(repr=False)
    kind: str
    above: int
    start: int
    body: tuple[int, int] | None
    end: int
    inner: list["Item"]

    @property
    def head(self) -> str:
        """Its first line."""
        return self.lines[0]

    @property
    def lines(self) -> list[str]:
        """Its lines, but for those above its head."""
        return self.source[line_start(self.source, self.start) : self.end].splitlines()

    @property
    def lines_above(self) -> list[str]:
        """The lines of its doc comment and its attributes."""
        return self.source[line_start(self.source, self.above) : line_start(self.source, self.start)].splitlines()

    @property
    def contract(self) -> list[str]:
        """Its lines down to its body."""
        end = self.body[0] if self.body else self.end
        return self.source[line_start(self.source, self.start) : end].rstrip().splitlines()

    @property
    def is_public(self) -> bool:
        return self.head.lstrip().startswith("pub ")

    @property
    def has_code(self) -> bool:
        """Whether it has a body that isn't empty."""
        return self.body is not None and self.body[1] - self.body[0] > len("{}")

    @property
    def name(self) -> str:
        """That of a type, a trait, a function or a constant, or of the type of an `impl`, with no parameters."""
        before = r"\s*(?:pub(?:\(\w+\))? )?(?:const (?=fn))?(?:extern \"C\" )?"
        named = re.match(rf"{before}(?:impl(?:<.*?>)? (?:.* for )?|macro_rules! |\w+ )(\w*)", self.head)
        return named[1] if named else ""


def items_of(text: str) -> list[Item]:
    """The items of a source, in their order."""
    tokens = Tokens(text)
    return list(items_between(text, tokens, 0, len(tokens)))


def items_between(text: str, tokens: Tokens, at: int, end: int) -> Iterator[Item]:
    """The items between two tokens, with the items in them."""
    above = None
    while at < end:
        token, kind = tokens.texts[at], tokens.kinds[at]
        if kind == "space" or kind == "comment" or token == "#":
            # a doc comment and attributes are above an item where neither an empty line nor another comment is between
            is_above = token.startswith("///") or token == "#" and tokens.texts[at + 1] != "!"
            if is_above and above is None:
                above = tokens.starts[at]
            elif not is_above and (kind != "space" or token.count("\n") > 1):
                above = None
            at = tokens.after_bracket(tokens.next_mark(at, "[")) if token == "#" else at + 1
        else:
            item, at = item_at(text, tokens, at, above)
            yield item
            above = None


def item_at(text: str, tokens: Tokens, at: int, above: int | None) -> tuple[Item, int]:
    """The item that begins at a token, and the token after it."""
    start, word = tokens.starts[at], kind_at(tokens, at)
    kind, body, inner = tokens.texts[word], None, []
    if kind in STATEMENTS:
        end = tokens.next_mark(word, ";") + 1
    else:
        end = word
        while tokens.texts[end] not in ("{", ";"):
            if tokens.kinds[end] == "word" and tokens.texts[end] in CLAUSES:
                _, end = clause_at(tokens, end)
            else:
                end = tokens.after_bracket(end) if tokens.texts[end] in ("(", "[") else end + 1
        if tokens.texts[end] == "{":
            opened, end = end, tokens.after_bracket(end)
            body = tokens.starts[opened], tokens.starts[end]
            inner = list(items_between(text, tokens, opened + 1, end - 1)) if kind in GROUPS else []
        else:
            end += 1
    return Item(text, kind, start if above is None else above, start, body, tokens.starts[end], inner), end


def clause_at(tokens: Tokens, at: int) -> tuple[Clause, int]:
    """The clause that begins at a token, and the token after it."""
    opened = tokens.next_mark(at, "{")
    end = tokens.after_bracket(opened)
    label, condition = tokens.joined(at + 1, opened), tokens.joined(opened + 1, end - 1)
    return Clause(tokens.texts[at], label.strip(), condition.strip()), end


def kind_at(tokens: Tokens, at: int) -> int:
    """The place of the word that names the kind of the item at a token, as `fn` in `pub const fn`."""
    while tokens.texts[at] in QUALIFIERS:
        after = tokens.after_space(at + 1)
        if tokens.texts[at] == "pub" and tokens.texts[after] == "(":
            after = tokens.after_space(tokens.after_bracket(after))
        if tokens.texts[at] == "extern":
            after = tokens.after_space(after + 1)
        if tokens.texts[at] == "const" and not tokens.is_word(after, "fn"):
            return at
        at = after
    return at


def end_of_tactic(tokens: Tokens, at: int) -> int | None:
    """The token after `#[tactic(..)]` or `#![tactic(..)]`, if one begins at a token."""
    if tokens.texts[at] != "#":
        return None
    bracket = at + 2 if tokens.texts[at + 1] == "!" else at + 1
    return tokens.after_bracket(bracket) if tokens.is_word(bracket + 1, "tactic") else None


def unmatched_bracket(text: str) -> int | None:
    """The line of the first bracket of the code that has no partner, if one hasn't."""
    open_at = []
    for token in TOKEN.finditer(text):
        mark = token.group()
        if token.lastgroup == "mark" and mark in "([{":
            open_at.append((mark, token.start()))
        elif token.lastgroup == "mark" and mark in ")]}":
            if not open_at or open_at.pop()[0] + mark not in ("()", "[]", "{}"):
                return line_of(text, token.start())
    return line_of(text, open_at[-1][1]) if open_at else None


def pieces(text: str) -> Iterator[tuple[str, str]]:
    """The text cut into comments, strings and the code between these, each with its kind."""
    code = []
    for token in TOKEN.finditer(text):
        if token.lastgroup in ("comment", "string"):
            yield "code", "".join(code)
            yield token.lastgroup, token.group()
            code = []
        else:
            code.append(token.group())
    yield "code", "".join(code)


def with_code(text: str, change: Callable[[str], str]) -> str:
    """The text with each piece of code changed, and its comments and strings kept."""
    return "".join(change(piece) if kind == "code" else piece for kind, piece in pieces(text))


def code_of(text: str) -> str:
    """The text with its comments and strings blanked, each line as long as it was."""
    return "".join(piece if kind == "code" else re.sub(r"[^\n]", " ", piece) for kind, piece in pieces(text))


def line_of(text: str, at: int) -> int:
    """The number of the line at a place, from 1."""
    return text.count("\n", 0, at) + 1


def line_start(text: str, at: int) -> int:
    """Where the line at a place begins."""
    return text.rfind("\n", 0, at) + 1
