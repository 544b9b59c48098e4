"""The tables of pages: of the ratios of bench/calls and bench/cargo to the Rust crate, and of the look-ups of bench/tables."""

from itertools import chain, product

from measurements.results import HERE, Cell, Results, geometric, grid

FULL, MIXED, ONCE, FAILING = "full", "mixed", "mixed, each read once", "failing"

# The tables with all capacities, each with the kind of its texts.
KINDS = {
    "Full texts": FULL,
    "Mixed texts": MIXED,
    "Other calls, full texts": FULL,
    "Other calls, mixed texts and empty ones": MIXED,
    "Questions, full texts that pass": FULL,
    "Questions, mixed texts that pass": MIXED,
    "Questions, full texts that fail at their first byte": FAILING,
    "Mixed lists, each read once in a round": ONCE,
}
SLOWEST_FAILING = "question failing at byte 1, slowest"

# The ends of the titles of tables, and of calls: of lists, and of one value at a time.
SUFFIXES = {"": "calls over a list", ", one at a time": "one value at a time"}

# Ratios by capacity; and those by call and kind of texts.
Row = dict[str, float]
Rows = dict[str, dict[str, Row]]


def all_rows(results: Results, suffix: str = "") -> Rows:
    rows = {}
    for table, kind in KINDS.items():
        for cell in results.tables()[table + suffix]:
            rows.setdefault(cell[1], {}).setdefault(kind, {}).setdefault(cell[2], results.ratio(cell))
    return rows


def rows_of(results: Results, suffix: str = "") -> Rows:
    """The calls on full and on mixed texts. The questions that fail are a row of full texts, with the slowest of them."""
    rows = all_rows(results, suffix)
    found = {call: {kind: row[kind] for kind in (FULL, MIXED)} for call, row in rows.items() if FULL in row and MIXED in row}
    failing = [row[FAILING] for row in rows.values() if FAILING in row]
    if failing:
        found[SLOWEST_FAILING] = {FULL: {capacity: max(row[capacity] for row in failing) for capacity in failing[0]}}
    return found


def means(results: Results, suffix: str = "") -> list[float]:
    """Those of full and of mixed texts, without the questions that fail."""
    both = [row for row in rows_of(results, suffix).values() if MIXED in row]
    return [geometric([ratio for row in both for ratio in row[kind].values()]) for kind in (FULL, MIXED)]


def slowest_rows(*builds: Results) -> dict[str, Row]:
    """The largest ratio of some builds, and of full and mixed texts, by call and capacity. Questions that pass are one call."""
    found = {}
    for results, suffix in product(builds, SUFFIXES):
        for call, row in rows_of(results, suffix).items():
            name = "question passing, slowest" if call.startswith("is_ascii_") else call
            slowest = found.setdefault(name + suffix, {})
            for capacity, ratio in chain(*(of_kind.items() for of_kind in row.values())):
                slowest[capacity] = max(ratio, slowest.get(capacity, 0))
    return found


def by_capacity(rows: dict[str, Row], least: float = 0) -> str:
    """The calls that have a ratio from `least` on, and those ratios, with a column for each capacity."""
    texts = {call: {n: f"{ratio:.2f}" if ratio >= least else "" for n, ratio in row.items()} for call, row in rows.items()}
    return grid("ratio at capacity", {call: row for call, row in texts.items() if any(row.values())})


def slower_table(*builds: Results) -> str:
    """The calls that take 1.05 times as long as the Rust crate's, or longer, the slowest first."""
    rows = slowest_rows(*builds)
    return by_capacity({call: rows[call] for call in sorted(rows, key=lambda call: -max(rows[call].values()))}, 1.05)


def once_table(results: Results) -> str:
    """Readers of lists that no branch predictor learns."""
    return by_capacity({f"{call}, each text once": row[ONCE] for call, row in all_rows(results).items() if ONCE in row})


def means_table(x86_64: Results, v2: Results) -> str:
    """The means of calls over lists and of one value, on both kinds of texts."""
    rows = {}
    for suffix, what in SUFFIXES.items():
        for kind, of_x86_64, of_v2 in zip((FULL, MIXED), means(x86_64, suffix), means(v2, suffix)):
            rows[f"{what}, {kind} texts"] = {"x86-64": f"{of_x86_64:.2f}", "x86-64-v2": f"{of_v2:.2f}"}
    return grid("geometric mean", rows)


# The look-ups in many keys. A cell is a table, as '8 bytes, 1000 records', a call or an order of the keys, and the number of
# records.
ONE_BY_ONE, HASHED = "one by one", "hashed"
RANDOM = "random, there"
RIVALS = ["slice::binary_search", "HashSet", "BTreeSet"]
SIP_SET = "HashSet with SipHash"
# The number of records of the tables of a page.
MANY = "1000000"

# The names of searches, and whose times they have.
SEARCHES = {"binary_search": ONE_BY_ONE, "binary_search_each": HERE, "HashedTable::position": HASHED}
SEARCHES |= {rival: rival for rival in [*RIVALS, SIP_SET]}

# What is measured besides look-ups: the call, what its numbers are, and whose they are.
SIZES = [
    ("bytes a record", "bytes", [HERE, HASHED, *RIVALS[1:]]),
    ("open, a record", "ns to open", [HERE, HASHED]),
    ("build, a record", "ns to build", [HASHED, RIVALS[1], SIP_SET]),
]


def widths(results: Results) -> list[str]:
    """The bytes of records, each once."""
    return list(dict.fromkeys(title.split()[0] for title in results.tables()))


def counts(results: Results) -> list[str]:
    return sorted({cell[2] for cell in results.times}, key=int)


def cell_of(width: str, count: str, call: str) -> Cell:
    return f"{width} bytes, {count} records", call, count


def table(results: Results, title: str, rows: list[tuple[str, str, str]], rival: str = "") -> str:
    """A column for each number of bytes. A row has a name, a call and whose times it has, with their ratios to a rival's."""
    texts = {name: {} for name, _, _ in rows}
    for (name, call, whose), width in product(rows, widths(results)):
        cell = cell_of(width, MANY, call)
        ratio = f", {results.ratio(cell, rival, whose):.2f}" if rival else ""
        texts[name][f"{width} bytes"] = f"{results.time(cell, whose):.1f}{ratio}"
    return grid(f"{title}, {int(MANY):,} records", texts)


def searches(results: Results) -> str:
    """Random keys, there and not there."""
    titles = {RANDOM: "ns a key that is there", "random, not there": "ns a key that isn't there"}
    made = (table(results, title, [(name, call, whose) for name, whose in SEARCHES.items()]) for call, title in titles.items())
    return "\n\n".join(made)


def orders(results: Results) -> str:
    """Keys in bulk, and their ratios to those one by one, in each order."""
    found = [call for (_, call, count), times in results.times.items() if count == MANY and {HERE, ONE_BY_ONE} <= times.keys()]
    return table(results, "ns a key in bulk, ratio", [(call, call, HERE) for call in dict.fromkeys(found)], ONE_BY_ONE)


def sizes(results: Results) -> str:
    """The bytes that a record takes, and the nanoseconds to open and to build a table, for each of its records."""
    names = {HERE: "SortedTable", HASHED: "HashedTable"}
    rows = [(f"{what}: {names.get(whose, whose)}", call, whose) for call, what, of_all in SIZES for whose in of_all]
    return table(results, "for a record", rows)
