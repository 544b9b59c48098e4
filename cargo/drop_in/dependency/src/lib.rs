//! A crate written for the original.

use tinystr::TinyAsciiStr;

pub struct Currency(pub TinyAsciiStr<3>);

impl Currency {
    /// Equality with `String` is feature `alloc`.
    pub fn is_named(&self, name: String) -> bool {
        self.0 == name
    }
}
