"""Copies crates to another folder, so that a check runs in parallel with `rt ci`: what `rt` reads of them, with their lines of
crates.txt, and HANDLES. It reads the crates of the checkout, and prints nothing."""

import os
import re
import shutil
from pathlib import Path

from lib.sources import TOP

READ_BY_RT = ("src", "specs", "proofs")


def copy_all(folder: Path) -> None:
    """Copies what `rt` reads of all crates, and gives them the proved libraries."""
    shutil.copy(TOP / "HANDLES", folder / "HANDLES")
    shutil.copy(TOP / "crates.txt", folder / "crates.txt")
    for part in (TOP / "crates").glob("*/*"):
        if part.name in READ_BY_RT:
            to = folder / part.relative_to(TOP)
            shutil.copytree(part, to, symlinks=True, copy_function=shutil.copy, dirs_exist_ok=True)
    give_libraries(folder)


def give_libraries(folder: Path) -> None:
    """Links the libraries that the gate proved (proved.py) into a folder's crates. `rt` takes those of the same sources."""
    for mark in map(Path, os.environ.get("PROVED_LIBRARIES", "").splitlines()):
        if (folder / mark.relative_to(TOP).parents[2]).is_dir():
            linked(mark.parent, folder / mark.parent.relative_to(TOP))


def lists_of(names: set[str]) -> dict[str, str]:
    """HANDLES, and crates.txt with the lines of some crates alone."""
    lines = (TOP / "crates.txt").read_text(encoding="utf-8").splitlines(keepends=True)
    kept = "".join(line for line in lines if re.match(r"\w*", line)[0] in names)
    return {"HANDLES": (TOP / "HANDLES").read_text(encoding="utf-8"), "crates.txt": kept}


def linked(folder: Path, to: Path) -> None:
    """Copies a folder: what was proved, which a check replaces and never writes into, by links."""

    def copy(one: str, other: str) -> None:
        (os.link if one.endswith((".oantt", ".a")) else shutil.copy2)(one, other)

    shutil.copytree(folder, to, symlinks=True, copy_function=copy)
