"""Short searches for the goals that wrong bodies break. Where no file of proofs answers a goal, the prover tries four ways to
prove it, each longer than the one before. In the copies of a crate such a goal gets an answer that tries the first two."""

import re
from collections.abc import Iterable
from dataclasses import dataclass

from lib.sources import Item, function_named
from lib.wrong_bodies.edits import Edit
from lib.wrong_bodies.groups import Group

# Imports for each search, and those by which the prover prints a goal with its operators.
WORDS = ["use Rattle.std.proofs.Common as common", "use Rattle.std.proofs.lemmas.Grind as grinding"]
OPERATORS = "use Rattle.std.proofs.Common.{◌≡◌, ◌+◌, ◌-◌, ◌*◌, ◌/◌, ◌%◌, ◌<◌, ◌≤◌, ◌++◌, length, take, drop, IsTrue}"
# The lines of comments and attributes above a function, and the lemmas that one names for its goals.
ABOVE = re.compile(r"(?: *(?://|#\[).*\n)*\Z")
USING = re.compile(r"#\[tactic\(auto, using\(([^)]*)\)")
# The parameters of a function or an impl, of which one is no lifetime; a trait has `Self`.
GENERIC = re.compile(r"(?:pub )?trait\b|(?:impl|fn \w+)<(?:'\w+, )*[^'>]")


@dataclass(frozen=True)
class Search:
    """A goal of a function, whether that, or its impl or trait, has parameters of types or constants, and the lemmas that it
    names for its goals."""

    function: str
    goal: str
    is_generic: bool
    lemmas: tuple[str, ...]

    @property
    def file(self) -> str:
        """The file with the answers of the function's goals."""
        return f"proofs/{self.function.replace('::', '/')}/Answers.antt"

    def added(self, crate: str, answers: str) -> str:
        """What is in its file, if that is there, with the search as one more answer."""
        modules = list(dict.fromkeys(module_of(lemma, crate) for lemma in self.lemmas))
        uses = [*WORDS, *(f"use {module} as lemmas_{at}" for at, module in enumerate(modules))]
        uses += [f"use Rattle.{crate}.proofs.{self.function.replace('::', '.')}.Goals as goal"]
        uses += [] if answers else [OPERATORS]
        head = "".join(f"{line}\n" for line in uses if f"{line}\n" not in answers)
        places = [(modules.index(module_of(lemma, crate)), lemma.rpartition("::")[2]) for lemma in self.lemmas]
        lemmas = "".join(f", lemmas_{at}.{name}" for at, name in places)
        tried = f"search (common.rules{lemmas}), grind (common.arith, grinding.common_steps{lemmas}) steps 2000000"
        given = "g c" if self.is_generic else "c"
        return f"{head}{answers}\npub {self.goal} : goal.{self.goal}\n{self.goal} {given} = first_of ({tried})\n"


def module_of(lemma: str, crate: str) -> str:
    """The module of a lemma, as its path in an attribute names it."""
    library, *inside, _ = lemma.split("::")
    return ".".join(["Rattle", crate if library == "crate" else library, *inside])


def is_for(search: Search, group: Group) -> bool:
    """Whether a search is of a goal that a wrong body of a group names, or of a function with a neutral body in it."""
    of_function = [edit for edit in group if edit.function == search.function]
    return any(edit.kind == "neutral" or edit.goal == search.goal and not edit.is_control for edit in of_function)


def searches_of(edits: list[Edit], texts: dict[str, str]) -> set[Search]:
    """A search for each goal that wrong bodies name and no file of proofs answers; none for those of files of lemmas."""
    found = set()
    for edit in (edit for edit in edits if not edit.is_control):
        function = function_named(edit.function, texts)
        search = search_of(edit, function, texts[function.file]) if function else None
        if search and not re.search(rf"^pub {re.escape(edit.goal)} :", texts.get(search.file, ""), re.M):
            found.add(search)
    return found


def search_of(edit: Edit, function: Item, text: str) -> Search:
    """The search for the goal that an edit names, of a function of a source with this text."""
    at = text.rfind(f"fn {function.name}", 0, text.index("\n", function.code))
    using = USING.search(ABOVE.search(text[: text.rfind("\n", 0, at) + 1])[0])
    is_generic = any(map(GENERIC.match, (function.block, text[at:])))
    return Search(edit.function, edit.goal, is_generic, tuple(using[1].split(", ")) if using else ())


def with_searches(crate: str, searches: Iterable[Search], texts: dict[str, str]) -> dict[str, str]:
    """The texts of a crate, by file, with some searches."""
    changed = dict(texts)
    for search in sorted(searches, key=lambda search: (search.function, search.goal)):
        changed[search.file] = search.added(crate, changed.get(search.file, ""))
    return changed
