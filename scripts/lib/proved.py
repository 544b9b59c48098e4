#!/usr/bin/env -S python3 -B
"""Marks the libraries that `rt ci` proved and built, so that other commands of `rt` take them and prove them no second time, and
prints the marks. A mark is the sum of a library's sources. `rt ci` writes none, since a library fits only those that it was
built over: so none is written beside a library of another command, and all are to be removed before a source changes."""

import importlib
import shutil
import sys
from pathlib import Path

TOP = Path(__file__).resolve().parents[2]
sys.path.append(str(Path(shutil.which("rt")).resolve().parent))
rtlib = importlib.import_module("rtlib")
built = {folder / "stamp": folder.parents[1] for folder in TOP.glob("crates/*/out/rlib")}
if not any(mark.exists() for mark in built):
    for mark, crate in built.items():
        mark.write_text(rtlib.Crate(str(crate), str(TOP), {}).stamp())
        print(mark)
