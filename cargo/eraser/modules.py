"""The modules of the crates in the one that is made, and the heads of its functions."""

import re

from eraser import Stopped, substituted
from lib.rattle import with_code

# The module of each crate, in order. That of the type is the root, and `in_constants.rs` has what is used of tinystr_const.
MODULES = {
    "tinystr_words": "words",
    "tinystr_const": "words",
    "tinystr": "",
    "subtags": "subtags",
    "tinystr_packed": "packed",
    "tinystr_hashed": "hashed",
}

# Crates whose module is private: only the proved functions call theirs, and meet what these require.
PRIVATE = {"tinystr_words", "tinystr_const"}
# A file of such a crate whose types callers have, and so the functions of these.
EXPORTED = "tinystr_words/question.rt"
# A private file of another crate, for the same reason: exported, its calls that make texts would have to be `unsafe`.
PRIVATE_FILE = "tinystr/short_input.rt"

# Files whose functions are written in what a `const fn` can do.
AS_CONST = {"tinystr_words/padded/copying.rt", "tinystr_hashed/hashing.rt", "tinystr_hashed/table.rt"}

OF_TABLES = ["len(", "is_empty(", "iter("]
OF_MAPS = [*OF_TABLES, "keys(", "values("]
OF_HASHES = "start_of hash_of hash_on number short_number folded scaled slot_of slot_factor slot_by".split()
# Functions whose bodies Rust can run at compile time, by file: how each begins after its `fn`. An empty beginning is all. Each is
# public or, if it is private, of no type.
CONST = {
    **{f"tinystr/ascii/{name}.rt": [""] for name in ("questions", "views")},
    **dict.fromkeys(["tinystr_words/padded/copying.rt", "tinystr_words/question.rt"], [""]),
    "tinystr/ascii.rt": ["default() -> Self", "from_padded("],
    "tinystr/ascii/concat.rt": ["concat<"],
    "tinystr/ascii/readers.rt": ["try_from_", "from_utf"],
    "tinystr/ascii/slicing.rt": ["resize<"],
    "tinystr/forms.rt": ["to_bytes(&self) -> [u8; N]"],
    "tinystr/ule.rt": ["niche_bit_pattern("],
    "tinystr/unvalidated.rt": ["default() -> Self", "from_utf8_unchecked(", "to_unvalidated("],
    "subtags/lang_id.rt": ["to_text("],
    "subtags/subtag.rt": ["from_canonical(", "to_text("],
    "tinystr_packed/map.rt": OF_MAPS,
    "tinystr_packed/sorted.rt": [*OF_TABLES, "table("],
    "tinystr_packed/table.rt": [*OF_TABLES, "records("],
    "tinystr_packed/text_map.rt": [*OF_MAPS, "new(keys: &Table"],
    "tinystr_hashed/map.rt": OF_MAPS,
    "tinystr_hashed/table.rt": [*OF_TABLES, "table(", "of("],
    "tinystr_hashed/text_map.rt": OF_MAPS,
    "tinystr_hashed/hashing.rt": OF_HASHES,
    "tinystr_words/padded.rt": ["width_of("],
}

# A function whose result isn't a `Result`, which is `#[must_use]` already. An array's type has a semicolon.
SIGNATURE = r"(?:[^{};\[]|\[[^\]]*\])"
FUNCTION = re.compile(rf"^( *)pub (?:const )?(?:unsafe )?fn \w+{SIGNATURE}*? -> (?!\[?Result<){SIGNATURE}*? \{{", re.M)


def with_paths(text: str, crate: str) -> str:
    """The text whose code has `crate::` and the other crates' names as modules of the one crate."""
    pairs = [(r"\bcrate::", path_of(crate)), *((rf"(?<![\w:]){other}::", path_of(other)) for other in MODULES)]
    return with_code(text, lambda code: substituted(code, pairs))


def path_of(crate: str) -> str:
    return f"crate::{MODULES[crate]}::" if MODULES[crate] else "crate::"


def with_signatures(text: str, file: str, is_private: bool) -> str:
    """Functions as Rust's callers have them: `const` where they can be, and `#[must_use]`."""
    for function in CONST.get(file, []):
        text, count = re.subn(rf"(pub(?:\(crate\))? |^)((?:unsafe )?fn {re.escape(function)})", r"\1const \2", text, flags=re.M)
        if not count:
            raise Stopped(f"{file}: there is no `fn {function}`")
    return text if is_private else FUNCTION.sub(r"\1#[must_use]\n\g<0>", text)
