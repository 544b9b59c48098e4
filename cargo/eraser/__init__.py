"""Generates plain Rust from the proved sources.

A source goes through the modules here in the order of `package.py`: what is ghost goes, contracts become comments, and
what Rattle writes otherwise is changed by tables, in which each entry has its reason. `Stopped` ends it where a table has no
entry for a condition, or an entry that fits nothing. A form of Rattle that no entry fits is left, and rustc rejects it.
"""

import re


class Stopped(Exception):
    """What no rule fits, or which rule fits nothing, in words for whoever changed a source."""


def substituted(text: str, pairs: list[tuple[str, str]]) -> str:
    """The text with the matches of each pattern replaced, one pattern after the other."""
    for old, new in pairs:
        text = re.sub(old, new, text)
    return text
