"""Functions that constants call: proved ones once more, in a hand-written frame that names them.

A line '//= FILE: `NAMES`' of the frame is replaced by the functions and constants of these names in a made file, and
'//= FILE, ITEM: `NAMES`' by those of one item: with `free` before the names if they are no methods here, and with `held` if they
are those of a word that holds the number. A function becomes a `pub const fn` without its comment, in what a `const fn` can do.
"""

import re

from eraser import Stopped, substituted
from eraser.omissions import without_items
from lib.rattle import Tokens

# The calls that have a twin for constants, by file: how each begins. What a twin calls has a twin too.
TWINS = {
    **dict.fromkeys(["tinystr_packed/sorted.rt", "tinystr_hashed/table.rt"], "from_bytes"),
    **{f"tinystr_{kind}/{map}.rt": "new(keys: &'a [u8]" for kind in ("packed", "hashed") for map in ("map", "text_map")},
}
CALL = re.compile(r"\b((?:Table|SortedTable|HashedTable)::(?:new|from_bytes))\(")
# The module by hand with what twins of hashed tables call.
HASHED = "crate::constants::tables::hashed"
# The frame, and the name by which its rules are listed.
FRAME = "cargo/eraser/in_constants.rs"
NAME = "tinystr_words/in_constants.rt"
# What only constants' forms are left of: files, and items of files.
MOVED = {
    "ascii/readers.rs": ["fn read", "fn read_padded", "fn read_pieces", "fn find_fault", "fn fault"],
    "words/code_unit.rs": ["impl CodeUnit for u16"],
    "words/padded.rs": ["fn len", "fn ask", "fn put_in_case", "fn concat"],
    **{
        f"words/{name}.rs": []
        for name in ("bytewise", "in_words", "loading", "padded/code_units", "padded/concatenation", "padded/words")
    },
}
MARK = re.compile(r"^( *)//= (?P<file>\S+\.rs)(?:, (?P<item>.*?))?: (?P<how>free |held )?`(?P<names>[\w ]+)`\n", re.M)
HEAD = r"( *)(?:pub(?:\(crate\))? )?(?:const )?fn "
# An item, and a function that has a body, with its attributes: each ends at the first brace as far in as its head.
ITEM = r"^()%s \{\n(?:.*\n)*?\}\n"
CONSTANT = r"^()const %s: .*;\n"
FUNCTION = rf"(?:^ *#\[.*\]\n)*^{HEAD}%s(?!\w).*[^;]\n(?:.*\n)*?\1\}}\n"
# The frame names the code unit by a type `U`, and its trait's functions are free.
OF_UNITS = [
    (r"<U: CodeUnit>", ""),
    (r"<U: CodeUnit, |(?<=::)<U, ", "<"),
    (r"\bU::(?=\w)", ""),
    (r"([\w\[\]]+)\.(code|is_character|low_byte)\(\)", r"\2(\1)"),
    (r"<(u\d+) as Word<\d+>>::load\(", r"Load::<\1>::load("),
]


def with_functions(frame: str, made: dict[str, str]) -> str:
    """The frame with the functions of the made files that its lines name."""

    def functions(mark: re.Match) -> str:
        file = mark["file"]
        text = only(ITEM, mark["item"], made[file], file) if mark["item"] else made[file]
        found = (only(CONSTANT if name.isupper() else FUNCTION, name, text, file) for name in mark["names"].split())
        change = {"free ": without_self, "held ": of_word, None: str}[mark["how"]]
        return "\n".join(placed(change(it), mark[1]) for it in found)

    return MARK.sub(functions, frame)


def without_moved(made: dict[str, str]) -> dict[str, str]:
    """The made files without what the frame has in their place."""
    left = {file: text for file, text in made.items() if MOVED.get(file) != []}
    return left | {file: without_items(left[file], file, names) for file, names in MOVED.items() if names}


def with_twin(text: str, file: str) -> str:
    """The text with the twin of a call that a constant can't call, after that."""
    if file not in TWINS:
        return text
    call = only(FUNCTION, TWINS[file], text, file)
    name = re.search(r"fn (\w+)", call)[1]
    panics = re.findall(r"(?m)^ *///\n */// # Panics\n(?:.*\n){2}", text[: text.index(call)])[-1]
    head = f"    /// `{name}` at compile time. At run time `{name}` is faster.\n"
    twin = call.replace(f"pub fn {name}", f"pub const fn {name}_const").replace("first_out_of", f"{HASHED}::first_out_of")
    twin = CALL.sub(r"\1_const(", twin)
    return text.replace(call, f"{call}\n{head}{panics}{twin}")


def only(pattern: str, name: str, text: str, file: str) -> str:
    """The one item or function of a name in a file."""
    found = list(re.finditer(pattern % re.escape(name), text, re.M))
    if len(found) != 1:
        raise Stopped(f"{file}: `{name}` is there {len(found)} times for constants, and not once")
    return found[0][0]


def without_self(method: str) -> str:
    """A method of a code unit as a function of one."""
    return re.sub(r"\bself\b", "unit", re.sub(r"(fn \w+)\(self\)", r"\1(unit: U)", method))


def of_word(method: str) -> str:
    """A method of a number as one of the word that holds it, which is what it takes and returns."""
    head, body = method.split("{\n", 1)
    head, body = re.sub(r"(?<=: |> )u\d+\b", "Self", head), re.sub(r"\b(self|other)\b", r"\1.0", body)
    return head + "{\n" + (re.sub(r"\A( *)(.*)", r"\1Word(\2)", body) if head.endswith("-> Self ") else body)


def placed(function: str, indent: str) -> str:
    """A function as a constant can call it, where the line is that names it."""
    own = re.match(" *", function)[0]
    function = as_const(substituted(function, OF_UNITS))
    text = re.sub(f"^{HEAD}", r"\1pub const fn ", function, count=1, flags=re.M)
    return re.sub(f"^{own}(?=.)", indent, text, flags=re.M)


PART = re.compile(r"(?P<lent>&mut |&)?\b(?P<of>\w+)\[(?P<start>[^\[\]]*?)\.\.(?P<end>[^\[\]]*)\]")
FROM = re.compile(r"\b(?P<type>u\d+)::from\(")
LEAST = re.compile(r"(\b\w[\w.]*(?:\(\))?)\.min\(([\w.]+(?:\(\))?)\)")
OVER_RANGE = re.compile(r"^( *)for (\w+) in (\w+)\.\.(.+) \{\n((?:.*\n)*?)\1\}\n", re.M)
OVER_SLICE = re.compile(r"^( *)for (\w+) in (\w+) \{\n", re.M)


def as_const(text: str) -> str:
    """The text without what a `const fn` can't call: traits, so an index by a range, `for`, `min` and `from`."""
    text = OVER_RANGE.sub(r"\1let mut \2 = \3;\n\1while \2 < \4 {\n\5\1    \2 += 1;\n\1}\n", text)
    text = OVER_SLICE.sub(r"\1let mut left = \3;\n\1while let &[\2, ref after @ ..] = left {\n\1    left = after;\n", text)
    text = LEAST.sub(r"crate::in_words::least(\1, \2)", text)
    return without_from(PART.sub(part, text))


def part(found: re.Match) -> str:
    """A part of a slice or an array, whose ends were an index by a range. The whole was that of an array."""
    if not found["start"] + found["end"]:
        return f"&mut {found['of']}" if found["lent"] == "&mut " else f"{found['of']}.as_slice()"
    split = "split_at" if found["lent"] == "&" else "split_at_mut"
    end = f".{split}({found['end']}).0" if found["end"] else ""
    start = f".{split}({found['start']}).1" if found["start"] else ""
    return found["of"] + end + start


def without_from(text: str) -> str:
    """The text with `as` for `from` of numbers."""
    while found := FROM.search(text):
        rest = Tokens(text[found.end() - 1 :])
        end = rest.after_bracket(0)
        number, after = rest.joined(1, end - 1), rest.joined(end, len(rest))
        # what has no operator takes no brackets
        cast = f"{number if ' ' not in number else f'({number})'} as {found['type']}"
        # a method is called on the number, and before a `<` the type would seem to have parameters
        cast = f"({cast})" if after.startswith((".", " <")) else cast
        text = text[: found.start()] + cast + after
    return text
