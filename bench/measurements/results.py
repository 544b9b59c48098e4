"""Times of all runs, as a command takes them, or their median, least and largest, as a CSV file has them; and tables of them."""

import csv
from collections import defaultdict
from collections.abc import Iterable
from math import exp, log
from pathlib import Path
from statistics import mean, median

# Whose times they are: this crate's, the Rust crate's or those of a program over it, and this crate's of an older commit.
HERE, THERE, START = "here", "there", "start"

SECOND = 1e9

# The title of the table of bench/build_cost, whose columns are what its numbers are.
COSTS = "What it costs to build"

# A table, a call and a column.
Cell = tuple[str, str, str]
COLUMNS = ["table", "call", "column", "whose", "median", "least", "largest"]


class Results:
    """By cell and by crate the time of each run, or of a file the median, the least and the largest, whose median is the same."""

    def __init__(self, head: Iterable[str] = ()) -> None:
        self.head = list(head)
        self.times = defaultdict(lambda: defaultdict(dict))

    def add(self, run: int | str, cell: Cell, whose: str, time: float | str) -> None:
        """Keeps the least time of a run."""
        of_runs = self.times[cell][whose]
        of_runs[run] = min(of_runs.get(run, float("inf")), float(time))

    def add_lines(self, run: int, lines: Iterable[str]) -> None:
        """Adds lines TABLE|CALL|COLUMN|WHOSE|NANOSECONDS, and lines note|TEXT to the head."""
        for line in lines:
            match line.split("|"):
                case ["note", note]:
                    self.head += [note] * (note not in self.head)
                case [*cell, whose, time]:
                    self.add(run, tuple(cell), whose, time)

    @staticmethod
    def of_csv(path: Path) -> "Results":
        lines = path.read_text().splitlines()
        results = Results(line[2:] for line in lines if line.startswith("# "))
        for row in csv.DictReader(line for line in lines if not line.startswith("#")):
            for name in COLUMNS[-3:]:
                results.add(name, (row["table"], row["call"], row["column"]), row["whose"], row[name])
        return results

    def write_csv(self, path: str) -> None:
        with open(path, "w", newline="") as file:
            file.writelines(f"# {line}\n" for line in self.head)
            out = csv.writer(file, lineterminator="\n")
            out.writerow(COLUMNS)
            for cell, of_crates in self.times.items():
                for whose in of_crates:
                    least, middle, largest = self.range(cell, whose)
                    out.writerow([*cell, whose, *(f"{time:.4f}" for time in (middle, least, largest))])

    def tables(self) -> defaultdict[str, list[Cell]]:
        """The cells of each table, by its title."""
        found = defaultdict(list)
        for cell in self.times:
            found[cell[0]].append(cell)
        return found

    def range(self, cell: Cell, whose: str) -> tuple[float, float, float]:
        """The least time of the runs, their median, and the largest."""
        runs = self.times[cell][whose].values()
        return min(runs), median(runs), max(runs)

    def time(self, cell: Cell, whose: str) -> float:
        """The median of the runs."""
        return self.range(cell, whose)[1]

    def ratio(self, cell: Cell, rival: str = THERE, whose: str = HERE) -> float:
        """The ratio of the medians of one time, this crate's, and another."""
        return self.time(cell, whose) / self.time(cell, rival)


def grid(title: str, rows: dict[str, dict[str, str]]) -> str:
    """The rows by their names, which are aligned on the left, with their texts by column, which are aligned on the right."""
    columns = list(dict.fromkeys(column for row in rows.values() for column in row))
    lines = [[title, *columns], *([name, *(row.get(column, "") for column in columns)] for name, row in rows.items())]
    first, *others = [max(map(len, column)) for column in zip(*lines)]
    texts = ([line[0].ljust(first), *map(str.rjust, line[1:], others)] for line in lines)
    return "\n".join("  ".join(line).rstrip() for line in texts)


def geometric(ratios: Iterable[float]) -> float:
    return exp(mean(log(ratio) for ratio in ratios))


def range_text(results: Results, cells: Iterable[Cell], rival: str, whose: str = HERE) -> str:
    """The least and the largest ratio of some cells."""
    ratios = [results.ratio(cell, rival, whose) for cell in cells]
    return f"{min(ratios):.2f} to {max(ratios):.2f}"


def crate_table(results: Results, cells: list[Cell]) -> str:
    """A row for each cell, and a column for each crate: its time, and the ratio of this crate's time to it. The times of jobs, a
    millisecond or more, are seconds, and others nanoseconds."""
    are_jobs = all(results.time(cell, whose) >= SECOND / 1000 for cell in cells for whose in results.times[cell])
    names = {HERE: "this crate", THERE: "the Rust program" if are_jobs else "tinystr 0.8.5"}

    rows = defaultdict(dict)
    for cell in cells:
        for whose in results.times[cell]:
            text = f"{results.time(cell, whose) / (SECOND if are_jobs else 1):.2f}"
            if whose != HERE and HERE in results.times[cell]:
                text += f", {results.ratio(cell, whose):.2f}"
            rows[", ".join(filter(None, cell[1:]))][names.get(whose, whose)] = text
    return grid("seconds, ratio" if are_jobs else "nanoseconds, ratio", rows)


def ratio_table(results: Results, cells: list[Cell]) -> str:
    """A row for each call, a column for each capacity, and the means of the ratios to the Rust crate."""
    rows, ratios = {}, {}
    for cell in cells:
        _, call, capacity = cell
        rows.setdefault(call, {})[capacity] = f"{results.time(cell, HERE):.2f}, {results.ratio(cell):.2f}"
        ratios.setdefault(capacity, []).append(results.ratio(cell))
    rows["geometric mean"] = {capacity: f"{geometric(of_capacity):.2f}" for capacity, of_capacity in ratios.items()}
    return grid("nanoseconds, ratio", rows)


def cost_table(results: Results, cells: list[Cell]) -> str:
    """A row for each cost: this crate's, the Rust crate's, and their ratio. Seconds have fractions."""
    rows = {}
    for cell in cells:
        digits = 2 if cell[2] == "seconds" else 0
        here, there = (f"{results.time(cell, whose):,.{digits}f}" for whose in (HERE, THERE))
        rows[", ".join(cell[1:])] = {"this crate": here, "tinystr 0.8.5": there, "ratio": f"{results.ratio(cell):.2f}"}
    return grid("cost", rows)


def all_tables(results: Results, beginning: str = "") -> str:
    """The tables whose titles begin with `beginning`: with a column for each capacity where all rivals are the Rust crate."""
    made = []
    for title, cells in results.tables().items():
        if title.startswith(beginning):
            is_by_capacity = all(cell[2] and results.times[cell].keys() == {HERE, THERE} for cell in cells)
            table = cost_table if title == COSTS else ratio_table if is_by_capacity else crate_table
            made.append(f"{title}\n\n{table(results, cells)}")
    return "\n\n".join(made)
