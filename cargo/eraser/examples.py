"""The examples of doc comments as doc tests, and those of private modules, whose functions no doc test can call, as text."""

import re

from eraser import substituted

EXAMPLE = re.compile(r"^( *)/// ```rust\n((?: *///(?! ```).*\n)+) */// ```\n", re.M)

# The modules of the names that examples use.
NAMES = {
    "tinystr": "ParseError TinyAsciiStr TinyStr4 TinyStr8 TinyStr16 UnvalidatedTinyAsciiStr Question Case tinystr",
    "tinystr::forms": "BytesReadError FormWriteError",
    "tinystr::ule": "UleError",
    "tinystr::subtags": "LangId LangIdError Language Region Script",
    "tinystr::subtags::language": "LanguageKind",
    "tinystr::subtags::region": "RegionKind",
    "tinystr::subtags::script": "ScriptKind",
    "tinystr::subtags::subtag": "Subtag SubtagKind",
    "tinystr::packed": "MapError NotRising PackedMap SortedError SortedTable Table TextEntries TextMap TextMapError"
    " count_texts in_place pack pack_map pack_sorted pack_text_map unpack",
    "tinystr::hashed": "HashedError HashedMap HashedMapError HashedTable HashedTextMap HashedTextMapError PackHashedError"
    " PackIntoError in_place most_bytes pack_hashed pack_hashed_into pack_hashed_map pack_hashed_text_map scratch_bytes",
    "std::collections": "BTreeMap",
}

# What shows that an example needs a name, where that isn't the name alone: a call that needs a trait's name besides, and
# what a module has of those that share a name.
SHOWN_BY = {
    ("tinystr::subtags::subtag", "SubtagKind"): r"Kind::read\(",
    ("tinystr::packed", "in_place"): r"\bin_place::(?:search|with_prefix)",
    ("tinystr::hashed", "in_place"): r"\bin_place::position",
}

# What an example writes otherwise in Rust: macros take no handle of the host, and nothing is passed an allocator.
IN_RUST = [
    (r"\b(assert(?:_eq|_ne)?!)\(rt; ", r"\1("),
    (r"\bformat!\(in rt\.alloc\(\); (.*)\)\?", r"format!(\1)"),
    (r"\bBTreeMap::new\(rt\.alloc\(\)\)", "BTreeMap::new()"),
    (r"(\b(?:places|currencies)\.insert\(.*\))\?;", r"\1;"),
    (r"\b(pack_hashed\w*)\(rt\.alloc\(\), ", r"\1("),
    (r"\b(pack\w*|unpack|count_texts)\(rt\.alloc\(\), (.*?)\)\?(?=[;.])", r"\1(\2)"),
]


def uses(body: str) -> list[str]:
    """The lines that an example needs for its names."""
    lines = []
    for module, names in NAMES.items():
        wanted = ((name, SHOWN_BY.get((module, name), rf"(?<![\w:.]){name}\b")) for name in names.split())
        found = sorted(name for name, pattern in wanted if re.search(pattern, body))
        if found:
            lines.append(f"use {module}::{found[0]};" if len(found) == 1 else f"use {module}::{{{', '.join(found)}}};")
    return lines


def with_examples(text: str, is_private: bool) -> str:
    """The text with each example as a doc test, which begins with the names that it uses, or as text."""

    def example(found: re.Match) -> str:
        indent, body = found[1], substituted(found[2], IN_RUST)
        if is_private:
            return f"{indent}/// ```text\n{body}{indent}/// ```\n"
        front = "".join(f"{indent}/// {line}\n" for line in uses(body))
        end = f"{indent}/// # Ok::<(), Box<dyn std::error::Error>>(())\n" if "?" in re.sub(r'"[^"]*"|b\'\?\'', "", body) else ""
        return f"{indent}/// ```\n{front}{indent}///\n{body}{end}{indent}/// ```\n"

    return EXAMPLE.sub(example, text)
