//! A table of currencies, searched by codes in any case: `cargo run --bin currency_table -- eur jpy xyz`.

use std::collections::BTreeMap;
use tinystr::{TinyAsciiStr, tinystr};

type Code = TinyAsciiStr<3>;

/// Each currency, and how many decimal places an amount has.
const CURRENCIES: [(Code, &str, u8); 4] = [
    (tinystr!(3, "CHF"), "Swiss franc", 2),
    (tinystr!(3, "EUR"), "Euro", 2),
    (tinystr!(3, "JPY"), "Yen", 0),
    (tinystr!(3, "KWD"), "Kuwaiti dinar", 3),
];

fn answer(table: &BTreeMap<Code, (&str, u8)>, word: &str) -> String {
    let code: Code = match word.parse() {
        Ok(code) => code,
        Err(fault) => return format!("{word}: {fault}"),
    };
    let code = code.to_ascii_uppercase();
    match table.get(&code) {
        Some((name, places)) => format!("{code}: {name}, {places} decimal places"),
        None => format!("{code}: not in the table"),
    }
}

fn main() {
    let table = CURRENCIES.into_iter().map(|(code, name, places)| (code, (name, places))).collect();
    let mut words: Vec<String> = std::env::args().skip(1).collect();
    if words.is_empty() {
        words = ["eur", "Jpy", "xyz", "euros"].map(String::from).to_vec();
    }
    for it in words {
        println!("{}", answer(&table, &it));
    }
}
