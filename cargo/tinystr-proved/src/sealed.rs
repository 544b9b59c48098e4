//! What keeps callers from adding kinds of subtags. Nor can they call the functions on words, whose preconditions aren't checked:
//!
//! ```compile_fail,E0603
//! use tinystr::words::CodeUnit;
//! ```

use crate::subtags::language::LanguageKind;
use crate::subtags::region::RegionKind;
use crate::subtags::script::ScriptKind;
use core::hash::Hash;

/// A kind of a caller's own doesn't compile:
///
/// ```compile_fail,E0277
/// use tinystr::TinyAsciiStr;
/// use tinystr::subtags::LangIdError;
/// use tinystr::subtags::subtag::SubtagKind;
///
/// #[derive(Clone, Copy, PartialEq, Eq, PartialOrd, Ord, Hash)]
/// struct Own;
///
/// impl SubtagKind<2> for Own {
///     fn read(code_units: &[u8]) -> Option<TinyAsciiStr<2>> {
///         TinyAsciiStr::try_from_utf8(code_units).ok()
///     }
///
///     fn refusal() -> LangIdError {
///         LangIdError::InvalidSubtag
///     }
/// }
/// ```
pub trait Sealed: Copy + Ord + Hash {}

impl Sealed for LanguageKind {}
impl Sealed for RegionKind {}
impl Sealed for ScriptKind {}
