"""Generates `src/proved/` of tinystr-c: what its sources go through, and how its exports take slices as C passes them."""

import re
from pathlib import Path

from eraser import Stopped
from eraser.contracts import Contracts, without_ghosts
from eraser.modules import PRIVATE, path_of
from eraser.package import finished, sources
from eraser.rules import Rule, Rules
from lib.sources import LIBRARIES

CRATE = "tinystr_c"
# The file of the exports, whose functions are public.
EXPORTS = f"{CRATE}/lib.rt"
OF_CRATES = "the crates are modules of the package that this one depends on, which has the words' names at its root"
OPEN = "another package has to expect more faults of `ParseError`, so `_` matches its last one"
IN_FILE = {f"{CRATE}/answer.rt": [Rule("ParseError::NonAscii =>", "_ =>", OPEN, 2)]}
EXPORT = re.compile(r'pub extern "C" fn (\w+)\(([^()]*)\) -> (\w+)\s*\{\n')
# A slice in C: its pointer, and the function of `slices.rs` that makes the slice of that and a length.
SLICES = {
    "&[u8]": ("*const u8", "slice"),
    "&mut [u8]": ("*mut u8", "slice_mut"),
    "&mut [TinystrResult]": ("*mut TinystrResult", "slice_mut"),
}
SAFETY = """///
/// # Safety
///
/// The caller must meet the conditions that `tinystr.h` documents.
"""


def files_of_c_library(top: Path) -> dict[str, str]:
    """The generated files, by their paths in `src/proved/`."""
    paths = {crate: "proved::" if crate in PRIVATE else path_of(crate).replace("crate", "proved") for crate in LIBRARIES}
    rules = Rules(IN_FILE, [Rule(rf"(?<![\w:]){crate}::", path, OF_CRATES) for crate, path in paths.items()])
    made = {}
    for file, text in sources(top / "crates" / CRATE):
        text = rules.apply(Contracts().place(without_ghosts(text), file, file != EXPORTS), file)
        text = with_exports(text) if file == EXPORTS else text
        made[file.removeprefix(f"{CRATE}/").replace(".rt", ".rs")] = finished(text, file)
    rules.finish()
    return made


def with_exports(text: str) -> str:
    """Each export with a pointer and a length for each slice, of which its body begins by making the slice."""
    text, count = EXPORT.subn(export, text)
    if text.count("no_mangle") != count:
        raise Stopped(f"{EXPORTS}: {text.count('no_mangle')} exports, and {count} of a form that is known")
    return text.replace("#[unsafe(no_mangle)]\npub unsafe", SAFETY + "#[unsafe(no_mangle)]\npub unsafe")


def export(found: re.Match) -> str:
    name, parameters, result = found.groups()
    taken, made = [], ""
    for parameter, kind in re.findall(r"(\w+): ([^,]+)", parameters):
        if kind in SLICES:
            pointer, function = SLICES[kind]
            taken += [f"{parameter}: {pointer}", f"{parameter}_len: usize"]
            made += "    // SAFETY: the caller meets the conditions that `tinystr.h` documents.\n"
            made += f"    let {parameter} = unsafe {{ slices::{function}({parameter}, {parameter}_len) }};\n"
        elif kind in ("u32", "usize"):
            taken.append(f"{parameter}: {kind}")
        else:
            raise Stopped(f"{EXPORTS}: {name}: no form in C for `{kind}`")
    if not made:
        return f'pub extern "C" fn {name}({", ".join(taken)}) -> {result} {{\n'
    lines = "".join(f"    {it},\n" for it in taken)
    return f'pub unsafe extern "C" fn {name}(\n{lines}) -> {result} {{\n{made}'
