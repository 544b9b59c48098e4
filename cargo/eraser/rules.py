"""What Rattle writes and Rust writes otherwise: the old text, the new one, and why.

A rule of `EVERYWHERE` is a pattern, and must fit somewhere. One of a file is the text itself, and must be there as often as it
says.
"""

import re
from dataclasses import dataclass

from eraser import Stopped, substituted
from lib.rattle import with_code


@dataclass(frozen=True)
class Rule:
    old: str
    new: str
    why: str
    times: int = 1


OF_ALLOCATOR = "Rust's vectors and maps name no allocator"
WANT_OF_MEMORY = "want of memory ends a program in Rust, and is no error"
# Modules that are left out, and those whose functions constants call in `in_constants.rs`.
GONE = "laws|macros|json|code_units|concatenation"

EVERYWHERE = [
    Rule(
        r"fn fmt<W: ((?:fmt::)?)Write>\(&self, f: &mut (?:fmt::)?Formatter<W>\)",
        r"fn fmt(&self, f: &mut \1Formatter<'_>)",
        "the kit's formatter is generic over what it writes to",
    ),
    Rule(r"(use std::fmt::\{.*), Write\};", r"\1};", "and so it is not named"),
    Rule(r"use std::marker::\{Model, PhantomData\};", "use std::marker::PhantomData;", "`Model` is for the prover"),
    Rule(r"use std::(?:marker::Model|convert::\{AsSlice, AsStr\});\n", "", "the kit's traits of views: `strings.rs` has Rust's"),
    Rule(r"use thiserror::Error;\n", "", "`errors.rs` has its texts"),
    Rule(r"\bstd::simd::(?:prelude::)?", "crate::simd::", "vectors of stable Rust"),
    Rule(r"Copy \+ Drop\b", "Copy", "what is `Copy` has no `Drop`"),
    Rule(r"^ *(?:\w+::)*laws::\w+\([\w., &]*\);\n", "", "a law's call brings a fact into a proof, and does nothing"),
    Rule(rf"^(?:pub )?(?:mod |use (?:crate::(?:\w+::)?)?)(?:{GONE})\b.*;\n", "", "modules that are left out"),
    Rule(r"^use std::alloc::(?:\{AllocError, )?Global\}?;\n", "use alloc::vec::Vec;\n", OF_ALLOCATOR),
    Rule(r"^use std::collections::", "use alloc::collections::", OF_ALLOCATOR),
    Rule(r"^    alloc: Global,\n", "", OF_ALLOCATOR),
    Rule(r"\(alloc(?:: Global)?(?:, |(?=\)))", "(", OF_ALLOCATOR),
    Rule(r"vec!\[in alloc; ", "vec![", OF_ALLOCATOR),
    Rule(r" It fails only if an allocation fails\.| or an allocation fails(?=\.)", "", WANT_OF_MEMORY),
    Rule(r'(tinystr!\(\d+, "[^"]*"\))(?:\?|\.unwrap\(\))', r"\1", "`tinystr!` returns the text, or fails at compile time"),
    Rule(r"\bstd::", "core::", "the crate is `no_std`"),
]

IN_CONSTANTS = "a `const fn` calls no trait, so it has neither an index by a range nor `min`"
OF_CONSTANTS = "`in_constants.rs` calls it"
WITHOUT_VECTORS = "a `const fn` calls no vector"
OF_CONST_CALLS = "the same function as constants can call it"
OF_WIDTHS = "in `in_constants.rs` each width has its own functions"
TWIN_MAKES = "`constants.rs` or `identifiers.rs` makes one at compile time"
# A constant is a pattern only if its type derives `PartialEq`.
DERIVES = "#[derive(Clone, Copy, PartialEq, Eq, PartialOrd, Ord, Hash)]\n"
UNUSED = '#[cfg_attr(not(feature = "alloc"), allow(dead_code))]\n'
OF_KINDS = "Rust's derives for a subtag require these traits of its kind"
HINTED = "the compiler is given a hint that the text is no error and not `None`, which share its bytes"
BELOW_128 = "a type whose bytes are each below 128 has another value for `None`"
CHECKED = """        debug_assert!(AsciiBytes::are_padded(&bytes), "the bytes aren't a text and then NULs");
        // SAFETY: a text and then NULs, so each byte is below 128. This is proved at each call.
        TinyAsciiStr { bytes: unsafe { AsciiBytes::new(bytes) } }
"""
OF_BYTES = "the derived equality of a text is that of its bytes, and the proved one is theirs"
NOT_PROVED = "in Rust nothing proves a condition at a call"
UNCHECKED = r'TinyAsciiStr::from_utf8_unchecked(*b"GB\0")'
DOCUMENTED_FIRST = "the page of a text begins with constructors and views"
NAMED_AS_STR = "`Deref` to `str` has this name, and the original's callers use that"


def of_feature(name: str) -> str:
    return f'#[cfg(feature = "{name}")]\n'


IDENTIFIERS = of_feature("identifiers")


def at_root(*modules: str) -> list[Rule]:
    return [Rule(f"pub use {module}::", f"#[doc(inline)]\npub use {module}::", "documented at the root") for module in modules]


def of_alloc(*modules: str) -> list[Rule]:
    heads = [head for module in modules for head in (f"mod {module};", f"pub use {module}::")]
    return [Rule(head, f"{of_feature('alloc')}{head}", "what allocates is feature `alloc`") for head in heads]


IN_FILE = {
    "tinystr/lib.rt": [
        *at_root("ascii", "error", "unvalidated"),
        Rule(
            "pub mod short_input;",
            f"// private, and `is_empty` is called by no function here\n#[allow(dead_code)]\n{IDENTIFIERS}mod short_input;",
            "its texts have conditions",
        ),
        Rule("pub use short_input::", f"{IDENTIFIERS}pub(crate) use short_input::", "its texts have conditions"),
        Rule(
            "pub mod unvalidated;\n",
            "pub mod unvalidated;\n\n"
            f"{of_feature('hashed')}pub mod hashed;\n{of_feature('packed')}pub mod packed;\n"
            f"{IDENTIFIERS}pub mod subtags;\n"
            "// private, and some of it is called by no function here\n#[allow(dead_code, unused_imports)]\nmod words;\n",
            "the other crates are modules",
        ),
    ],
    "tinystr_words/lib.rt": [Rule("pub mod int_ops;\n", "pub mod in_constants;\npub mod int_ops;\n", OF_CONST_CALLS)],
    "tinystr/error.rt": [Rule("pub enum ParseError", "#[non_exhaustive]\npub enum ParseError", "as in the original")],
    "tinystr/ascii.rt": [
        *(Rule(f"mod {it};\n", "", DOCUMENTED_FIRST) for it in ("readers", "views")),
        Rule("mod concat;\n", "mod readers;\nmod views;\n\nmod concat;\n", DOCUMENTED_FIRST),
        Rule(
            "#[derive(Clone, Copy)]\npub struct TinyAsciiStr",
            "#[derive(Clone, Copy, PartialEq, Eq)]\n#[repr(transparent)]\npub struct TinyAsciiStr",
            "as in the original, so that constants are patterns",
        ),
        Rule("        TinyAsciiStr { bytes }\n", CHECKED, BELOW_128),
        Rule("    bytes: [u8; N],\n", "    bytes: AsciiBytes<N>,\n", BELOW_128),
        Rule("use crate::error::", "use crate::ascii_bytes::AsciiBytes;\nuse crate::error::", BELOW_128),
        Rule("use std::hash::{Hash, Hasher};\n", "", "`strings.rs` has the hash of the `str`"),
    ],
    "tinystr/ascii/order.rt": [
        Rule("TinyAsciiStr;\n", "TinyAsciiStr;\nuse crate::ascii_bytes::AsciiBytes;\n", OF_BYTES),
        Rule(" PartialEq for TinyAsciiStr<N> {", " PartialEq for AsciiBytes<N> {", OF_BYTES),
        Rule(" Eq for TinyAsciiStr<N> {", " Eq for AsciiBytes<N> {", OF_BYTES),
        Rule("padded::equals(&self.bytes, &other.bytes)", "padded::equals(self.as_array(), other.as_array())", OF_BYTES),
    ],
    "tinystr/ascii/readers.rt": [
        Rule(
            "use crate::words::int_ops::{Aligned8, Aligned16};\n"
            "use crate::words::padded::{self, Width, resize_at_once, width_of};\n"
            "use crate::words::{CodeUnit, are_characters};\n",
            "use crate::words::{in_constants, padded};\n",
            OF_CONST_CALLS,
        ),
        Rule("    read::<u8, N>(code_units)", "    in_constants::bytes::read::<N>(code_units)", OF_CONST_CALLS),
        Rule("    read_padded(raw)", "    in_constants::read_padded(raw)", OF_CONST_CALLS),
        Rule("    read::<u16, N>(code_units)", "    in_constants::numbers::read::<N>(code_units)", OF_CONST_CALLS),
        Rule("from_padded(padded::low_bytes(units))", "from_padded(padded::low_bytes(units)).hinted_in_result()", HINTED),
        Rule("from_padded(bytes)", "from_padded(bytes).hinted_in_result()", HINTED),
        *(
            Rule(
                f"Self::read_lossy::<{unit}>(code_units, replacement)",
                f"TinyAsciiStr::from_padded(in_constants::{units}::lossy(code_units, replacement))",
                OF_CONST_CALLS,
            )
            for unit, units in (("u8", "bytes"), ("u16", "numbers"))
        ),
        Rule(UNCHECKED, f"unsafe {{ {UNCHECKED} }}", NOT_PROVED),
        Rule("it runs: the condition is\n    /// proved at the call.", "it\n    /// runs.", NOT_PROVED),
    ],
    "tinystr/ascii/concat.rt": [
        Rule("words::padded;", "words::in_constants;", OF_CONST_CALLS),
        Rule("padded::", "in_constants::", OF_CONST_CALLS),
    ],
    "tinystr/forms.rt": [
        Rule(
            "//! Texts as JSON values and as `N` bytes, and back: the errors, and the form in bytes. `json` has the JSON form.",
            "//! Texts as `N` bytes, and back.",
            "JSON is left out",
        ),
        Rule("use std::alloc::AllocError;\n", "", WANT_OF_MEMORY),
        Rule("    /// The allocation of the JSON string failed.\n    Memory(AllocError),\n", "", WANT_OF_MEMORY),
        Rule(" It is never `Memory`.", "", WANT_OF_MEMORY),
        Rule("bytes.to_json(rt.alloc())", "bytes.to_bytes()", "an example of the error without JSON"),
    ],
    "tinystr/ascii/questions.rt": [
        Rule("padded}", "in_constants}", OF_CONST_CALLS),
        Rule("padded::", "in_constants::", OF_CONST_CALLS, 2),
    ],
    "tinystr/ascii/views.rt": [
        Rule("get(", "get_byte(", NAMED_AS_STR, 3),
        Rule("use crate::words::padded;", "use crate::words::in_constants;", OF_CONST_CALLS),
        Rule("padded::len(", "in_constants::len(", OF_CONST_CALLS),
        Rule(
            "        &bytes[..self.len()]",
            "        // SAFETY: a text in `N` bytes has at most `N`\n        unsafe { bytes.split_at_unchecked(self.len()) }.0",
            IN_CONSTANTS,
        ),
        Rule("// proved: these bytes", "// SAFETY: proved: these bytes", "Rust's word for why a block is sound"),
    ],
    "tinystr_packed/sorted.rt": [Rule("usize> {\n    table:", "usize> {\n    pub(crate) table:", TWIN_MAKES)],
    "tinystr_packed/table.rt": [
        Rule("usize> {\n    records:", "usize> {\n    pub(crate) records:", TWIN_MAKES),
        Rule(
            "        Some(TinyAsciiStr::from_utf8_unchecked(*raw))",
            "        // SAFETY: each record was read as a text and then NULs. This is proved.\n"
            "        Some(unsafe { TinyAsciiStr::from_utf8_unchecked(*raw) }.hinted())",
            HINTED,
        ),
    ],
    "tinystr/ascii/splitting.rt": [
        Rule("before.resize(), after.resize()", "before.resize().hinted(), after.resize().hinted()", HINTED),
        Rule("self.take(at), self.suffix(at + 1)", "self.take(at).hinted(), self.suffix(at + 1).hinted()", HINTED),
        Rule("find(", "find_byte(", NAMED_AS_STR, 5),
        Rule("split(", "split_byte(", NAMED_AS_STR, 3),
        Rule("split_once(", "split_once_byte(", NAMED_AS_STR, 3),
        Rule("text.get(0)", "text.get_byte(0)", NAMED_AS_STR),
    ],
    "subtags/lib.rt": at_root("error", "lang_id", "language", "region", "script"),
    "subtags/places.rt": [
        Rule(".find(b'-')", ".find_byte(b'-')", NAMED_AS_STR),
        Rule("text.get(place)", "text.get_byte(place)", NAMED_AS_STR),
    ],
    "subtags/lang_id.rt": [Rule("LangId {\n    text:", "LangId {\n    pub(crate) text:", TWIN_MAKES)],
    **{
        f"subtags/{kind.lower()}.rt": [Rule(f"pub struct {kind}Kind;", f"{DERIVES}pub struct {kind}Kind;", OF_KINDS)]
        for kind in ("Language", "Script", "Region")
    },
    "subtags/subtag.rt": [
        Rule(DERIVES.replace("derive", "derive_where"), DERIVES, OF_KINDS),
        Rule(
            "pub trait SubtagKind<const N: usize> {",
            "pub trait SubtagKind<const N: usize>: crate::sealed::Sealed {",
            "what a kind gives is proved of the three that there are, so no caller adds one",
        ),
    ],
    "tinystr_packed/lib.rt": of_alloc("packing"),
    "tinystr_hashed/lib.rt": [
        Rule("mod hashing;", "pub(crate) mod hashing;", OF_CONSTANTS),
        *of_alloc("packing", "packing_maps"),
        *(Rule(f"mod {it};", f"{UNUSED}mod {it};", "what allocates calls more of it") for it in ("building", "placing")),
    ],
    "tinystr_hashed/hashing.rt": [
        Rule("use crate::words::word::Word;", "use crate::words::in_constants::bytes::Load;", OF_CONST_CALLS),
        *(Rule(f"Word::<{width // 8}>::load(", f"Load::<u{width}>::load(", OF_CONST_CALLS) for width in (32, 64)),
    ],
    "tinystr_hashed/packing.rt": [
        Rule("use std::alloc::{AllocError, Global};\n", "use alloc::vec;\nuse alloc::vec::Vec;\n", OF_ALLOCATOR),
        Rule("    /// An allocation failed.\n    Memory,\n", "", WANT_OF_MEMORY),
    ],
    "tinystr_words/decimal.rt": [Rule("for i in 0..4u32", "for _ in 0..4u32", "the proof alone names the counter")],
    "tinystr_words/word.rt": [
        Rule("const HALF:", "pub(crate) const HALF:", OF_CONSTANTS),
        *(Rule(f"fn {name}(", f"pub(crate) const fn {name}(", OF_CONSTANTS) for name in ("halves", "joined", "whole")),
        Rule("u128::from(low) | u128::from(high) << 64", "low as u128 | (high as u128) << 64", IN_CONSTANTS),
    ],
    "tinystr_words/in_constants.rt": [
        Rule("<T: Word<LEN>, const LEN: usize>", "", OF_WIDTHS, 9),
        # words as a type
        Rule("-> [u8; LEN] {\n        self.to_b", "-> [u8; size_of::<Self>()] {\n        self.to_b", OF_WIDTHS, 2),
        Rule("2 * self.word + 1", "2 * self.word.0 + 1", OF_WIDTHS),
        Rule("word: front + (back << (8 * len))", "word: Word(front.0 + (back.0 << (8 * len)))", OF_WIDTHS),
        Rule("Self::splat(0x80)", "Self::splat(0x80).0", OF_WIDTHS, 3),
        # operators of vectors
        *(
            Rule(f"halves(self.0) {sign} halves(other.0)", f"halves(self.0).{name}(halves(other.0))", IN_CONSTANTS)
            for sign, name in (("+", "add"), ("&", "bitand"), ("|", "bitor"), ("^", "bitxor"))
        ),
        Rule("!halves(self.0)", "halves(self.0).not()", IN_CONSTANTS),
        Rule(
            "(halves(self.0) & halves(Self::splat(0x80).0)) >> u64x2::splat(2)",
            "halves(self.0).bitand(halves(Self::splat(0x80).0)).shr(u64x2::splat(2))",
            IN_CONSTANTS,
        ),
        # words of bytes
        *(
            Rule(f"&Word::to_bytes_in_registers({half})", f"&Word({half}).to_bytes_in_registers()", OF_WIDTHS)
            for half in ("low", "high")
        ),
        Rule(
            "let (word, rest) = bytes.split_first_chunk::<16>()?;",
            "let Some((word, rest)) = bytes.split_first_chunk::<16>() else {\n            return None;\n        };",
            IN_CONSTANTS,
        ),
        Rule(
            "Aligned16::from_padded(bytes.split_at(start).1)",
            "Aligned { word: Word(bytes::Load::<u128>::load(bytes.split_at(start).1)) }",
            "inlined first, so that the bytes need no copy in memory",
        ),
        Rule("impl Late {\n        #[inline(always)]", "impl Late {\n        #[inline]", "as its comment says"),
        Rule("to_bytes(&self) -> [u8; LEN] {", "to_bytes(self) -> [u8; LEN] {", "in Rust what is `Copy` is taken by value"),
        # past sixteen bytes
        Rule(
            "        let mut all = true;\n",
            "        // else a loop over texts may become one over a byte of each, several times as slow\n"
            "        core::hint::black_box(());\n"
            "        let mut all = true;\n",
            "LLVM makes vectors of the innermost loop that is left, so the caller's has to have what no vector does",
        ),
        Rule("passes(*byte, question)", "passes(byte, question)", IN_CONSTANTS),
        Rule("ask_bytes(bytes.as_slice(), ", "ask_bytes(bytes, ", "the same, and faster"),
        Rule(
            "            _ => padded::ask(bytes, question),\n",
            "            Width::Four => Aligned4::from_ascii_bytes(bytes).ask(question),\n"
            "            Width::Eight => Aligned8::from_ascii_bytes(bytes).ask(question),\n"
            "            Width::Sixteen | Width::Many => words::ask(bytes, question),\n",
            "the arms of `padded::ask`, whose call takes up to twice as long",
        ),
        # past eight bytes, and 16-bit numbers
        Rule("Some(bytes) if N <= 8 =>", "Some(bytes) if N <= 16 =>", WITHOUT_VECTORS),
        Rule(
            "            if N >= 8 && as_bytes(units).is_none() {\n"
            "                put_low_bytes(&mut bytes, units);\n"
            "                return bytes;\n"
            "            }\n",
            "",
            "numbers are read in pieces",
        ),
        Rule("if units.len() == N {", "if as_bytes(units).is_some() && units.len() == N {", "the same"),
        Rule("fit_vectors(first_part.len(), second_part.len())", "N <= 16 && M <= 16", WITHOUT_VECTORS),
        Rule("concat_in_vectors(first_part, second_part)", "crate::in_words::concat(first, len(first), second)", WITHOUT_VECTORS),
        # readers
        Rule("pub const fn find_fault", "#[inline]\n    pub const fn find_fault", "not generic, so callers inline it only so"),
        Rule("try_from_text(units: &[U]) -> Option<Self>", "try_from_text(units: &[U]) -> Option<Aligned<T, LEN>>", OF_WIDTHS),
        Rule("word: T::load(units)", "word: Word(Load::<Number>::load(units))", OF_WIDTHS),
        *(
            Rule(f"Aligned{width}::try_from_text(", f"{name}::try_from_text(", OF_WIDTHS)
            for width, name in ((8, "eight"), (16, "sixteen"))
        ),
        *(Rule(f"padded::{name}(", f"{name}(", OF_CONST_CALLS) for name in ("low_bytes", "read_all")),
        Rule(
            "find_fault(units).unwrap_or(ParseError::ContainsNull)",
            "match find_fault(units) {\n"
            "            Some(fault) => fault,\n            None => ParseError::ContainsNull,\n        }",
            IN_CONSTANTS,
        ),
    ],
    "tinystr_words/padded.rt": [
        Rule("mod copying;", "pub mod copying;", OF_CONSTANTS),
        Rule("mod words;\n", "", OF_CONST_CALLS),
    ],
}

# Where a text is made and its field is read, in the files that the field is private to.
FILES_OF_FIELD = re.compile(r"tinystr/ascii(?:/.+)?\.rt")
OF_FIELD = [
    (r"\bTinyAsciiStr \{\s*(?:bytes: )?([^{}]*?),?\s*\}", r"TinyAsciiStr::from_padded(\1)"),
    (r"&(\w+)\.bytes\b(?![\[.(])", r"\1.bytes.as_array()"),
    (r"\b(\w+)\.bytes\b(?=\[|\.(?!as_array\(\)))", r"\1.bytes.as_array()"),
    (r"\b(\w+)\.bytes\b(?![.(])", r"*\1.bytes.as_array()"),
]


def with_fields(text: str, file: str) -> str:
    """The text of a file, in which one function makes all texts, and the bytes are read by a call."""
    return with_code(text, lambda code: substituted(code, OF_FIELD)) if FILES_OF_FIELD.fullmatch(file) else text


class Rules:
    """Applies the rules, and keeps which fitted."""

    def __init__(self, in_file: dict[str, list[Rule]], everywhere: list[Rule]) -> None:
        self.in_file = in_file
        self.everywhere = everywhere
        self.used = set()

    def apply(self, text: str, file: str) -> str:
        """The text of a file by its own rules, and then by those of all files."""
        for rule in self.in_file.get(file, []):
            count = text.count(rule.old)
            if count != rule.times:
                raise Stopped(f"{file}: a rule's text is there {count} times, and not {rule.times}: {rule.old!r}")
            text = text.replace(rule.old, rule.new)
        self.used.add(file)
        for rule in self.everywhere:
            text, count = re.subn(rule.old, rule.new, text, flags=re.M)
            if count:
                self.used.add(rule.old)
        return text

    def finish(self) -> None:
        for name in [*self.in_file, *(rule.old for rule in self.everywhere)]:
            if name not in self.used:
                raise Stopped(f"a rule fits nothing: {name}")
