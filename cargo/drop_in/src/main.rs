//! Passes its text to the dependency: both have the same type.

use dependency::Currency;
use tinystr::tinystr;

fn main() {
    assert!(Currency(tinystr!(3, "EUR")).is_named("EUR".into()));
}
