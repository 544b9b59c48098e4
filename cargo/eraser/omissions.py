"""What Rust has no use for: items, derives, and the errors of allocations, since a failed one aborts a Rust program."""

import re

from eraser import Stopped
from lib.rattle import Tokens

# Items that are left out, by file.
LEFT_OUT = {
    # want of memory ends a program in Rust, and is no error
    "tinystr_hashed/packing.rt": ["impl<const N: usize> From<AllocError> for PackHashedError"],
    # `strings.rs` has the hash of the `str`
    "tinystr/ascii.rt": ["impl<const N: usize> Hash for TinyAsciiStr"],
    # `in_constants.rs` has it for each code unit
    "tinystr/ascii/readers.rt": ["fn read_lossy"],
    # JSON is left out, with `forms/json.rt`: feature `serde` has its place
    "tinystr/forms.rt": ["enum JsonReadError"],
}
ABOVE = r"((?:^ *(?://|#\[)[^\n]*\n)*)"
# The kit's traits: a type's view for the prover, and the names of generic views. `strings.rs` has Rust's forms of these.
KIT_IMPL = r"^impl\b[^{]*?\b(?:Model|AsStr|AsSlice)(?:<\w+>)? for "

FALLIBLE = re.compile(r" -> Result<(.*), AllocError>")
# Calls of such functions, and of the kit's vectors and maps, in functions that fail for other reasons too.
ALLOCATING = "with_capacity|extend_from_slice|collect|pack_by_pilots|pack_in_order|repeated"
CALL = re.compile(rf"(\b(?:{ALLOCATING})\(.*\))\?")


def without_items(text: str, file: str, heads: list[str]) -> str:
    """Leaves out the items that begin so, each of which has to be there once, with their comments."""
    for head in heads:
        text, count = without_all(text, rf"^ *(?:pub(?:\(crate\))? )?{re.escape(head)}\b")
        if count != 1:
            raise Stopped(f"{file}: `{head}` is there {count} times, and not once")
    return text


def without_all(text: str, head: str) -> tuple[str, int]:
    """Leaves out each item that a pattern fits, and returns their number."""
    count = 0
    while found := re.search(ABOVE + head, text, re.M):
        tokens = Tokens(text[found.end() :])
        body = tokens.next_mark(0, "{")
        rest = tokens.joined(tokens.after_bracket(body), len(tokens))
        text = text[: found.start()] + rest.lstrip("\n")
        count += 1
    return text, count


def without_kit_traits(text: str) -> str:
    """Leaves out the implementations of the kit's traits, the derives that Rust doesn't have, and the texts of `thiserror`'s."""
    text = re.sub(r" *#\[error\(.*\)\]\n", "", without_all(text, KIT_IMPL)[0])
    return re.sub(r"#\[derive\(([^)]*)\)\]\n", rust_derives, text)


def rust_derives(found: re.Match) -> str:
    """The derives that Rust has too: there is no `Drop` to derive, and `errors.rs` has `Error`."""
    left = [derived for derived in found[1].split(", ") if derived not in ("Drop", "Error")]
    return f"#[derive({', '.join(left)})]\n" if left else ""


def without_allocation_errors(text: str) -> str:
    """Functions that fail only if an allocation fails, with the value itself as their result."""
    for found in reversed(list(FALLIBLE.finditer(text))):
        tokens = Tokens(text[found.end() :])
        start = tokens.next_mark(0, "{")
        end = tokens.after_bracket(start)
        front = f"{text[: found.start()]} -> {found[1]}{tokens.joined(0, start)}"
        text = front + without_results(tokens, start, end) + tokens.joined(end, len(tokens))
    return CALL.sub(r"\1", text)


def without_results(tokens: Tokens, at: int, end: int) -> str:
    """A body without `?`, and with what its `Ok(..)` hold in their place."""
    kept = []
    while at < end:
        if tokens.is_word(at, "Ok"):
            after = tokens.after_bracket(at + 1)
            kept.append(without_results(tokens, at + 2, after - 1))
            at = after
        else:
            kept.append("" if tokens.texts[at] == "?" else tokens.texts[at])
            at += 1
    return "".join(kept)
