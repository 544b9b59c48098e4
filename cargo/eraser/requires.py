"""What replaces each `requires` of a public function, since nothing proves it at a call in Rust."""

from dataclasses import dataclass


@dataclass(frozen=True)
class Panics:
    """The call panics `when` the condition doesn't hold, which `check` tests, and with a message, or else the same words."""

    check: str
    when: str
    message: str = ""


@dataclass(frozen=True)
class Unsafe:
    """The function is an `unsafe fn`, whose caller must ensure the condition."""

    condition: str


CHARACTER = "matches!({}, 1..=127)"
# the original's words
NO_CHARACTER = "{} must be a non-null ASCII byte (1..=127)"

# The keys are clauses, in any file: a check that names something else than the function has doesn't compile.
REPLACEMENTS = {
    "0 < N": Panics("N > 0", "`N` is 0", "a record has at least one byte"),
    "0 < M": Panics("M > 0", "`M` is 0", "a value has at least one byte"),
    # no array is longer, so that nothing of these is left when it is built
    "N < 2 ^ 63": Panics("N <= isize::MAX as usize", "`N` is above `isize::MAX`", "no array is so long"),
    "M < 2 ^ 63": Panics("M <= isize::MAX as usize", "`M` is above `isize::MAX`", "no array is so long"),
    "K < 2 ^ 63": Panics("K <= isize::MAX as usize", "`K` is above `isize::MAX`", "no array is so long"),
    **{
        f"IsTextByte {name}": Panics(CHARACTER.format(name), f"the {name} isn't from 1 to 127", NO_CHARACTER.format(name))
        for name in ("replacement", "separator")
    },
    "IsPaddedText code_units N": Unsafe("The array has to be bytes from 1 to 127 and then NULs: `as_str` trusts it."),
    "N ≤ length out.old": Panics("N <= out.len()", "the slice has fewer than `N` bytes"),
    "index < length self.now": Panics("index < self.len()", "the index isn't below the number of texts"),
    "range.start ≤ range.end": Panics("range.start <= range.end", "the range begins after its end"),
    "range.end ≤ length self.now": Panics("range.end <= self.len()", "the range ends after the last text"),
    "length values.now ≡ length keys.now": Panics(
        "values.len() == keys.len()", "there isn't one text for each key", "there is one text for each key"
    ),
}
