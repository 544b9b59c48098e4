"""Which proved functions run in place of others of the same name: those of tinystr_const, each with the contract of the other.

A `const fn` calls no trait and no vector, so the other can't be one.
"""

import re

from eraser import Stopped, substituted
from lib.rattle import Item, items_of

CRATE = "tinystr_const/"
# The public functions of each file, and where the others are.
STAND_INS = {
    "tinystr_const/bytewise.rt": {"ask": "tinystr_words/padded.rt"},
    "tinystr_const/in_words.rt": {"is_padded": "tinystr_words/padded.rt", "len": "tinystr_words/padded.rt"},
    "tinystr_const/loading.rt": {"load": "tinystr_words/word.rt"},
}
# A function for one type stands in for a trait's: the contract of this, at that type.
AT_TYPES = {
    "tinystr_const/loading.rt": [
        (r"<U: CodeUnit>", ""),
        (r"\[U\]", "[u16]"),
        (r"\bU\.number ", ""),
        (r"\bSelf\b", "u128"),
        (r"\bnumber (?=result)", ""),
        (r"\bLEN\b", "16"),
    ]
}
GHOST_USE = re.compile(r"^ghost use ([\w.]+)\.\{(.*)\};", re.M)


def check(sources: dict[str, str]) -> None:
    """Stops unless each public function of the crate has the contract of the one that it stands in for."""
    for file in sorted(file for file in sources if file.startswith(CRATE)):
        public = [item.name for item in items_of(sources[file]) if item.kind == "fn" and item.is_public]
        others = STAND_INS.get(file, {})
        if sorted(public) != sorted(others):
            raise Stopped(f"{file}: its public functions aren't those that stand in for others: {', '.join(public)}")
        for name, other in others.items():
            compare(name, file, sources[file], other, sources[other])


def compare(name: str, file: str, text: str, other: str, other_text: str) -> None:
    """Stops unless a function has the same signature and clauses in two files, of the same definitions."""
    one, two = contract_of(name, file, text), substituted(contract_of(name, other, other_text), AT_TYPES.get(file, []))
    if one != two:
        raise Stopped(f"{file}: the contract of `{name}` isn't that in {other}:\n    {one}\n    {two}")
    here, there = definitions_of(text), definitions_of(other_text)
    for word in here.keys() & there.keys() & set(re.findall(r"\w+", one)):
        if here[word] != there[word]:
            raise Stopped(f"{file}: `{word}`, which the contract of `{name}` cites, isn't that of {other}")


def contract_of(name: str, file: str, text: str) -> str:
    """A function's signature and clauses, with one space between words. In an `impl` of a trait it has no clauses."""
    found = [" ".join(" ".join(item.contract).split()) for item in functions_of(items_of(text)) if item.name == name]
    found = [contract for contract in found if " ensures " in contract]
    if len(found) != 1:
        raise Stopped(f"{file}: `{name}` has a contract {len(found)} times, and not once")
    return re.sub(r"^pub(?:\(crate\))? |;$", "", found[0])


def functions_of(items: list[Item]) -> list[Item]:
    return [it for item in items for it in ([item] if item.kind == "fn" else functions_of(item.inner))]


def definitions_of(text: str) -> dict[str, str]:
    """The modules of the definitions that a file's contracts cite, by the names of these."""
    return {name.strip(): module for module, names in GHOST_USE.findall(text) for name in names.split(",")}
