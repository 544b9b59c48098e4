//! A packed table, written to a file and opened from it: `cargo run --bin packed_table -- zurich`.
//!
//! Its bytes are checked once, and then searched where they are.

use std::error::Error;
use std::{env, fs};
use tinystr::TinyAsciiStr;
use tinystr::packed::{SortedTable, pack_sorted};

fn main() -> Result<(), Box<dyn Error>> {
    let names = ["zurich", "bern", "basel", "lausanne", "winterthur", "bern"].map(TinyAsciiStr::try_from_str);
    let names = names.into_iter().collect::<Result<Vec<TinyAsciiStr<12>>, _>>()?;
    let path = env::temp_dir().join(format!("cities-{}.packed", std::process::id()));
    fs::write(&path, pack_sorted(&names))?;
    let bytes = fs::read(&path)?;
    fs::remove_file(&path)?;
    let cities = SortedTable::<12>::from_bytes(&bytes)?;
    println!("{} cities in {} bytes", cities.len(), bytes.len());
    for city in env::args().skip(1).chain(["zurich".into(), "geneva".into()]) {
        match cities.binary_search(&city.parse()?) {
            Ok(index) => println!("{city} is number {index}"),
            Err(index) => println!("{city} isn't there, and would be number {index}"),
        }
    }
    let in_b: Vec<String> = cities.with_prefix(&"b".parse()?).iter().map(|city| city.to_string()).collect();
    println!("with b: {}", in_b.join(", "));
    Ok(())
}
