"""Tries groups of edits: copies of a crate are checked, each with the edits of a group, on top of what a check of the unchanged
crate proved. A group in which an edit isn't as it has to be is tried again in parts, down to a single wrong body. Each group has
a line with the sum of all that its check and the verdict on it read, so that a later run tries only what changed."""

import functools
import hashlib
import itertools
import os
import re
import shutil
import subprocess
import threading
from argparse import Namespace
from collections.abc import Callable, Sequence
from concurrent.futures import Future, ThreadPoolExecutor
from functools import partial
from pathlib import Path
from queue import PriorityQueue

from lib.copies import READ_BY_RT, linked, lists_of
from lib.sources import TOP, below, function_named, texts_of
from lib.wrong_bodies.edits import Unreadable, applied, edits_of
from lib.wrong_bodies.groups import Group, groups_of, parts_of
from lib.wrong_bodies.judging import VERDICT, Verdict, judge, open_goals
from lib.wrong_bodies.searches import Search, is_for, searches_of, with_searches

# The lines of the groups that passed: in the repository, and on this machine.
RECORD = TOP / "scripts/wrong_bodies.passed"
KEPT = Path(os.environ.get("XDG_CACHE_HOME") or Path.home() / ".cache") / RECORD.name
# The verdicts on the edits of a group, and what else is wrong, a line each.
Judged = tuple[list[Verdict], list[str]]


class Longest:
    """Runs calls on a pool, of those that wait the longest first, so that none is still running when the others have ended."""

    def __init__(self, jobs: int) -> None:
        self.pool, self.waiting, self.number = ThreadPoolExecutor(jobs), PriorityQueue(), itertools.count()

    def __enter__(self) -> "Longest":
        return self

    def __exit__(self, *_: object) -> None:
        self.pool.shutdown(cancel_futures=True)

    def submit(self, length: int, call: Callable[[], Judged]) -> Future[Judged]:
        done = Future()
        self.waiting.put((-length, next(self.number), call, done))
        self.pool.submit(self.run_one)
        return done

    def run_one(self) -> None:
        *_, call, done = self.waiting.get()
        try:
            done.set_result(call())
        except BaseException as why:
            done.set_exception(why)


class Crate:
    """A crate, whose groups, or those of the named edits, are checked in copies below a folder, where all crates are copied to
    base; its texts, and the groups by their lines."""

    def __init__(self, name: str, only: list[str], folder: Path, given: Namespace) -> None:
        self.name, self.folder, self.given = name, folder, given
        self.lock, self.tried, self.seconds, self.searches, self.unproved = threading.Lock(), 0, 0.0, set(), set()
        self.lists, self.edits = lists_of({*below(name), name}), edits_of(name)
        crates = {crate: texts_of(crate, folder / "base/crates") for crate in [*below(name), name]}
        self.texts = crates[name]
        self.wanted = searches_of(self.edits, self.texts)
        self.read = repr((judges(), self.lists, crates))
        self.groups = {self.line(group): group for group in groups_of(self.edits, self.texts, only)}

    def line(self, group: Group) -> str:
        """The crate, the number of a group's edits, and the sum of all that its check and the verdict on it read."""
        searches = sorted(repr(search) for search in self.wanted if is_for(search, group))
        read = self.read + repr(([(edit.file, edit.text) for edit in group], searches))
        return f"{self.name} {len(group)} {hashlib.sha256(read.encode()).hexdigest()}"

    def trials(self, pool: Longest, before: set[str]) -> list[Future[Judged]]:
        """The running checks of the groups whose lines aren't among those of groups tried before."""
        left = [group for line, group in self.groups.items() if line not in before]
        if left:
            self.begin()
        # (beside a wrong callee a goal is tried by its short search alone, so a group of several needs these)
        if any(len(group) > 1 for group in left) and not self.given.whole:
            self.searches = self.proved(self.wanted)
            self.unproved = self.wanted - self.searches
        return [pool.submit(len(group), partial(self.judged, group, str(number))) for number, group in enumerate(left)]

    def check(self, top: Path, first: Sequence[str] = (), last: Sequence[str] = ()) -> str:
        """Checks the crate below a folder, by a command with some first and last words, and returns its output."""
        how = {"cwd": top / "crates" / self.name, "stdin": subprocess.DEVNULL, "stderr": subprocess.STDOUT}
        with open(top / "said", "w+", encoding="utf-8", errors="replace") as said:
            ran = subprocess.Popen([*first, "rt", "check", "--jobs", "1", *last], stdout=said, **how)
            used = os.wait4(ran.pid, 0)[2]
            said.seek(0)
            output = said.read()
        with self.lock:
            self.tried, self.seconds = self.tried + 1, self.seconds + used.ru_utime + used.ru_stime
        return output

    def begin(self) -> None:
        """Checks the unchanged crate, and keeps what the groups begin with."""
        output = self.check(self.folder / "base")
        if not re.search(r"^logic=proved ", output, re.M):
            raise Unreadable("\n".join([*output.splitlines()[-20:], "not proved without edits"]))
        linked(self.folder / "base/crates" / self.name / "out/incremental", self.folder / "seeds" / self.name)

    def proved(self, searches: set[Search]) -> set[Search]:
        """Those of some searches that prove their goals in the unchanged crate."""
        output = self.check_texts("searches", with_searches(self.name, searches, self.texts))
        if not VERDICT.search(output):
            return set()
        is_open = {(goal.function, goal.name) for goal in open_goals(output)}
        # (an error that names no goal may keep a file from being read)
        unread = re.findall(r"^(?:\./)?(proofs/\S+/Answers\.antt):\d+:\d+: error: (?!`)", output, re.M)
        return {search for search in searches if (search.function, search.goal) not in is_open and search.file not in unread}

    def check_texts(self, number: str, texts: dict[str, str], first: Sequence[str] = (), last: Sequence[str] = ()) -> str:
        """Checks a copy of the crate with these texts."""
        top = self.folder / f"{self.name}-{number}"
        top.mkdir()
        for file, text in self.lists.items():
            (top / file).write_text(text, encoding="utf-8")
        parts = [f"crates/{lower}/{part}" for lower in below(self.name) for part in (*READ_BY_RT, "out/rlib")]
        for part in [part for part in parts if (self.folder / "base" / part).is_dir()]:
            linked(self.folder / "base" / part, top / part)
        for file, text in texts.items():
            path = top / "crates" / self.name / file
            path.parent.mkdir(parents=True, exist_ok=True)
            path.write_text(text, encoding="utf-8")
        linked(self.folder / "seeds" / self.name, top / "crates" / self.name / "out/incremental")
        output = self.check(top, first, last)
        shutil.rmtree(top)
        return output

    def judged(self, group: Group, number: str) -> Judged:
        """The verdicts on a group: those of its check, with a low priority, and of its parts where it is disturbed. The line of a
        group that passes is kept."""
        named = [search for search in self.searches if is_for(search, group)]
        # (of one edit alone, the function that it names)
        only = [f"--only={edit.function}" for edit in group if len(group) == 1 and function_named(edit.function, self.texts)]
        output = self.check_texts(number, with_searches(self.name, named, applied(group, self.texts)), ["nice"], only)
        if self.given.output:
            Path(self.given.output, f"{self.name}-{number}.txt").write_text(output, encoding="utf-8")
        verdicts, wrong = judge(group, output)
        # (a goal isn't searched where it waits for the proof of a callee that is wrong too)
        disturbed = {verdict.name for verdict in verdicts if wrong or verdict.is_disturbed or not verdict.is_well}
        if disturbed and (parts := parts_of(group, [edit for edit in group if edit.name in disturbed])):
            tried = [self.judged(part, f"{number}-{at}") for at, part in enumerate(parts)]
            again = [verdict for judged, _ in tried for verdict in judged]
            # of an edit in two parts, as a control, the verdict that isn't well
            last = {verdict.name: verdict for verdict in sorted(again, key=lambda verdict: not verdict.is_well)}
            verdicts = [last.get(verdict.name, verdict) for verdict in verdicts]
            wrong = [line for _, lines in tried for line in lines]
        if all(verdict.is_well for verdict in verdicts) and not wrong:
            KEPT.parent.mkdir(parents=True, exist_ok=True)
            with KEPT.open("a", encoding="utf-8") as kept:
                kept.write(f"{self.line(group)}\n")
        return verdicts, wrong


@functools.cache
def judges() -> list[str]:
    """What verdicts of any crate depend on: scripts, and the kit's logic. No kit with the same number proves what is false."""
    files = [TOP / f"scripts/lib/{name}.py" for name in ("copies", "rattle", "sources")]
    texts = [path.read_text(encoding="utf-8") for path in [*files, *sorted(Path(__file__).parent.glob("*.py"))]]
    return [*texts, re.search(r"\blogic (\w+)", subprocess.check_output(["rt", "version"], text=True))[1]]


def lines_of(file: Path) -> set[str]:
    """The lines of a file, or none where it isn't there."""
    return set(file.read_text(encoding="utf-8").splitlines()) if file.is_file() else set()
