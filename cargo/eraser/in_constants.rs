//! What constants call of the proved functions of `word`, `kernel`, `code_unit`, `int_ops`, `padded` and `ascii::readers`. A
//! `const fn` calls no trait, so they are here once more, with those of the traits `Word` and `CodeUnit` as functions of a type:
//! for each width, and for each code unit. Each has the contract that the function of its name has there.

use crate::ascii::TinyAsciiStr;
use crate::error::ParseError;
use crate::simd::u64x2;
use crate::words::code_unit::CHARACTERS;
use crate::words::kernel::{DIGIT, LOWER, NOT_NUL, Range, UPPER};
use crate::words::padded::copying::{append, put};
use crate::words::padded::{Width, resize, resize_at_once, width_of};
use crate::words::question::{Case, Question};
use crate::words::word::{HALF, halves, joined, whole};

/// A number as a word of byte lanes.
#[derive(Clone, Copy)]
pub struct Word<T>(T);

/// A text and then NULs, in one word of `LEN` bytes.
#[derive(Clone, Copy)]
pub struct Aligned<T, const LEN: usize> {
    word: T,
}

/// Writes functions out for each width: `T` is the word, `Number` what it holds, and `LEN` the number of its bytes.
macro_rules! for_each_width {
    (in $width:ident, $number:ty, $len:literal: $($functions:tt)*) => {
        pub mod $width {
            use super::*;
            type T = Word<Number>;
            type Number = $number;
            const LEN: usize = $len;
            $($functions)*
        }
    };
    ($($functions:tt)*) => {
        for_each_width! { in four, u32, 4: $($functions)* }
        for_each_width! { in eight, u64, 8: $($functions)* }
        for_each_width! { in sixteen, u128, 16: $($functions)* }
    };
}

for_each_width! {
    //= words/kernel.rs: `present marks unpadded outside inside case_bits with_case_bits no_character_marked no_lane_marked`

    impl T {
        //= words/word.rs, pub trait Word<const LEN: usize>: Copy: `first_then splat`
    }

    impl Aligned<T, LEN> {
        //= words/int_ops.rs: `from_ascii_bytes from_padded try_from_padded to_bytes`

        //= words/int_ops.rs: `ask each_in none_in each_letter each_letter_or_digit in_case`
    }
}

impl Word<u32> {
    //= words/word.rs, impl Word<4> for u32: held `from_le_bytes to_bytes_in_registers plus and or xor not`

    //= words/word.rs, impl Word<4> for u32: held `text_len high_bits_as_case_bits next_lanes equals`

    //= words/word.rs, pub trait Word<const LEN: usize>: Copy: `to_bytes_in_memory`

    #[inline(always)]
    pub const fn load(src: &[u8]) -> Self {
        Word(bytes::Load::<u32>::load(src))
    }
}

impl Word<u64> {
    //= words/word.rs, impl Word<8> for u64: held `from_le_bytes to_bytes_in_registers plus and or xor not`

    //= words/word.rs, impl Word<8> for u64: held `high_bits_as_case_bits next_lanes equals`

    //= words/word.rs, pub trait Word<const LEN: usize>: Copy: `to_bytes_in_memory`

    #[inline(always)]
    pub const fn load(src: &[u8]) -> Self {
        Word(bytes::Load::<u64>::load(src))
    }
}

impl Word<u128> {
    //= words/word.rs, impl Word<16> for u128: held `from_le_bytes to_bytes_in_registers to_bytes_in_memory`

    //= words/word.rs, impl Word<16> for u128: held `plus and or xor not high_bits_as_case_bits next_lanes equals`

    #[inline(always)]
    pub const fn load(src: &[u8]) -> Self {
        Word(bytes::Late::load(src))
    }
}

/// Past sixteen bytes, word by word.
mod words {
    use super::*;

    //= words/padded/words.rs: `split_word ask put_in_case`
}

/// Past sixteen bytes, byte by byte.
mod bytewise {
    use super::*;

    //= words/bytewise.rs: `ask ask_bytes ask_apart ask_each all_pass passes`
}

/// Bytes in words of eight.
mod in_words {
    use super::bytes::Load;
    use super::*;

    //= words/in_words.rs: `LOW_BITS HIGH_BITS ONES word_of`

    //= words/in_words.rs: `is_padded are_padded characters_of faults_of`

    //= words/in_words.rs: `len len_of_two len_of_many len_of_part ones_of`
}

pub use bytewise::ask;
pub use in_words::{is_padded, len};

type Aligned4 = Aligned<Word<u32>, 4>;
pub type Aligned8 = Aligned<Word<u64>, 8>;
type Aligned16 = Aligned<Word<u128>, 16>;

impl Aligned4 {
    //= words/int_ops.rs: `len`
}

impl Aligned8 {
    //= words/int_ops.rs, impl Aligned<u64, 8>: `len_by_top concat`
}

//= words/padded.rs: `put_in_case concat`

//= words/padded/concatenation.rs: `concat_in_word concat_in_memory put_both`

/// What `ascii::readers::read_padded` returns.
#[inline(always)]
pub const fn read_padded<const N: usize>(raw: [u8; N]) -> Result<TinyAsciiStr<N>, ParseError> {
    if is_padded(&raw) {
        Ok(TinyAsciiStr::from_padded(raw))
    } else if N <= 8 {
        Err(bytes::fault::<N>(&raw))
    } else {
        Err(fault_by_value(raw))
    }
}

/// The fault of an array. It is passed by value, since a reference would store it even if it has none.
#[cold]
#[inline(never)]
const fn fault_by_value<const N: usize>(raw: [u8; N]) -> ParseError {
    bytes::fault::<N>(&raw)
}

/// Writes functions out for a code unit `U`, whose own stand beside them.
macro_rules! readers {
    () => {
        //= words/code_unit.rs: `are_characters is_text_by_ends is_text`

        /// The lowest bytes of code units, as a number.
        pub struct Load<T>(T);

        impl Load<u32> {
            //= words/word.rs, impl Word<4> for u32: `load`
        }

        impl Load<u64> {
            //= words/word.rs, impl Word<8> for u64: `load`
        }

        for_each_width! {
            //= words/int_ops.rs: `try_from_text`
        }

        //= words/padded/code_units.rs: `byte_or read_piece read_pair read_many read_all low_bytes lossy_chunk lossy`

        //= ascii/readers.rs: `read read_pieces find_fault fault`
    };
}

/// The readers of bytes.
pub mod bytes {
    use super::*;
    use crate::in_words::lossy_word;
    type U = u8;

    //= words/code_unit.rs, impl CodeUnit for u8: free `code is_character low_byte as_bytes word_of_four`

    readers! {}

    impl Load<u128> {
        //= words/word.rs, impl Word<16> for u128: `load`
    }

    /// That of 16 bytes for questions, which take an instruction more if it is inlined first.
    pub struct Late;

    impl Late {
        //= words/word.rs, impl Word<16> for u128: `load`
    }
}

/// The readers of 16-bit numbers.
pub mod numbers {
    use super::*;
    use super::in_words::word_of;
    use crate::in_words::{lossy_word, word_of_four};
    type U = u16;

    //= words/code_unit.rs, impl CodeUnit for u16: free `code is_character low_byte as_bytes`

    readers! {}

    impl Load<u128> {
        //= words/loading.rs: `load`
    }

    //= words/loading.rs: `word_of_eight`
}
