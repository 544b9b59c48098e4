"""Counts the results of a check, prints each fault, and closes with the line 'N passed, M failed', and ', K skipped' where some
were. says.sh does so for checks in bash."""

import sys
from collections.abc import Iterator
from contextlib import contextmanager
from typing import NoReturn

from lib.commands import parser_of


class Tally:
    """The numbers of results that passed, that failed and that were skipped."""

    def __init__(self) -> None:
        self.passed = self.failed = self.skipped = 0

    def count(self, is_so: object) -> None:
        """Counts whether something is so."""
        self.passed, self.failed = self.passed + bool(is_so), self.failed + (not is_so)

    def says(self, complaint: object, is_so: object) -> None:
        """Counts whether something is so, and complains where it isn't."""
        self.count(is_so)
        if not is_so:
            print(complaint)

    def close(self) -> NoReturn:
        """Ends the check: it fails where a result failed, and where there is no result."""
        print(f"{self.passed} passed, {self.failed} failed" + (f", {self.skipped} skipped" if self.skipped else ""))
        sys.exit(self.failed > 0 or not self.passed)


@contextmanager
def checking(document: str) -> Iterator[Tally]:
    """The results of a check that takes no arguments; the check ends with them."""
    parser_of(document).parse_args()
    tally = Tally()
    yield tally
    tally.close()


def stop(complaint: object) -> NoReturn:
    """Ends a check that can't continue."""
    tally = Tally()
    tally.says(complaint, False)
    tally.close()
