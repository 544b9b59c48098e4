"""What the commands share: their options, the head of their results, the load of the machine, and their output."""

import os
import platform
import re
import shutil
import subprocess
import time
from argparse import ArgumentParser, Namespace, RawDescriptionHelpFormatter
from collections.abc import Callable
from datetime import date
from pathlib import Path
from tempfile import TemporaryDirectory

from measurements.results import Results, all_tables

BENCH = Path(__file__).resolve().parent.parent


def parser_of(name: str, document: str, runs: int, runs_help: str = "the number of runs") -> ArgumentParser:
    """A parser of options that prints a command's document, and accepts --runs and --csv."""
    parser = ArgumentParser(f"bench/{name}", description=document, formatter_class=RawDescriptionHelpFormatter)
    parser.add_argument("--runs", metavar="N", type=int, default=runs, help=runs_help)
    parser.add_argument("--csv", metavar="FILE", help="write the medians and ranges to a file")
    return parser


def output_of(*words: object) -> str:
    """What a command prints. A command that fails raises an error."""
    return subprocess.run(list(map(str, words)), stdout=subprocess.PIPE, text=True, check=True).stdout


def commit_of(checkout: Path) -> str:
    return output_of("git", "-C", checkout, "rev-parse", "HEAD").strip()


def new_results(*notes: str) -> Results:
    """Results without times. Their head names the machine and the tools, and has notes; changes in docs aren't changes of what is
    timed."""
    processors = re.findall(r"^model name\s*: (.*)", Path("/proc/cpuinfo").read_text(), re.M)
    clang = Path(shutil.which("rt")).resolve().parent / "../toolchain/bin/clang"
    rustc = output_of("rustc", "--version", "--verbose")
    changed = output_of("git", "-C", BENCH, "status", "--porcelain", "--", ":/", ":(top,exclude)docs")
    head = [
        f"date: {date.today()}",
        f"processor: {processors[0]}, {len(processors)} of them",
        f"kernel: {platform.system()} {platform.release()}",
        f"kit: {output_of('rt', 'version').strip()}",
        f"LLVM of the kit: {re.search('version (.*)', output_of(clang, '--version'))[1]}",
        f"rustc: {rustc.splitlines()[0]}",
        f"LLVM of rustc: {re.search('LLVM version: (.*)', rustc)[1]}",
        f"commit: {commit_of(BENCH)}{', and changes' * bool(changed)}",
    ]
    return Results([*head, *notes])


def clocks() -> tuple[float, float]:
    """The time, and the seconds of all processors that were used since the machine started, but for those of this program and of
    the programs that it started and that have ended."""
    words = Path("/proc/stat").read_text().split("\n", 1)[0].split()[1:]
    user, nice, system, _idle, _waiting, interrupt, soft_interrupt = map(int, words[:7])
    used = (user + nice + system + interrupt + soft_interrupt) / os.sysconf("SC_CLK_TCK")
    return time.monotonic(), used - sum(os.times()[:4])


def keep(results: Results, start: tuple[float, float], csv: str | None) -> None:
    """Adds to the head how many other programs ran since the start, on average, and writes the CSV file, if one is requested."""
    wall, others = (now - before for now, before in zip(clocks(), start))
    results.head.append(f"other programs: {max(others / wall, 0):.2f} on average")
    if csv:
        results.write_csv(csv)


def take(options: Namespace, lines_of: Callable[[], str], *notes: str) -> None:
    """Keeps the results that have the lines of each run, and prints their head, with notes, and their tables."""
    results, start = new_results(*notes), clocks()
    for run in range(1, options.runs + 1):
        results.add_lines(run, lines_of().splitlines())
    keep(results, start, options.csv)
    print("\n".join(results.head) + "\n\n" + all_tables(results))


def time_calls(name: str, document: str) -> None:
    """The whole of bench/calls and bench/cargo. A time is the least of several positions of the code."""
    parser = parser_of(name, document, runs=1)
    parser.add_argument("original", metavar="FOLDER", help="a checkout of the Rust crate, or a folder with its libtinystr.rlib")
    parser.add_argument("call", metavar="CALL", nargs="?", default="", help="time the calls with CALL in their names")
    options = parser.parse_args()
    notes = [f"built for: {os.environ.get('PROCESSOR', 'x86-64')}"] if name == "cargo" else []
    # how many bytes after the start of a cache line the functions of a program begin
    positions = [0, 16, 32, 48]
    with TemporaryDirectory() as made:
        output_of(BENCH / "drivers/build", name, options.original, made, *positions)
        programs = [f"{made}/{position}/program" for position in positions]
        take(options, lambda: "".join(output_of(program, options.call) for program in programs), *notes)
