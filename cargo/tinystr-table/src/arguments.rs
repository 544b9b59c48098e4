//! The command line.

use crate::files;
use crate::tables::{self, Kind};
use crate::values::ValueType;
use std::ffi::OsString;
use std::path::{Path, PathBuf};

pub const USAGE: &str = "\
tinystr-table pack  KIND -n N CODES TABLE    makes a table of the codes in a text file, one on each line
tinystr-table check KIND -n N TABLE          whether a file is such a table, and of how many codes
tinystr-table show  KIND -n N TABLE          prints the codes, in the order of the table
tinystr-table get   KIND -n N TABLE CODE..   prints each code, a tab and its index

KIND        --sorted (in ascending order, for searches by prefix too) or --hashed (in the order of a hash)
-n N        the most bytes of a code: 1 to 16, or 32; for the C library 2, 3, 4, 8 or 16
--map TYPE  a map, in two files: KEYS VALUES instead of TABLE. A line of CODES is a code, a tab and a value. So is a
            line that `show` or `get` prints. TYPE is u8, u16, u32 or u64, which are stored little-endian, or
            textM: texts of at most M bytes, where M is as N.
-           standard input or output, in place of a file
--          what follows is no option

`pack` replaces its files only if it succeeds: it writes new ones beside them, and renames these.

A table file holds neither KIND, N nor TYPE: give those with which it was made. `check` rejects most other files, but
a sorted table without its last code is a table too.

Status: 0; 1 if a file is faulty, can't be read or can't be written, or a code isn't found; 2 if the command line is wrong.
";

pub struct Call {
    pub command: Command,
    pub kind: Kind,
    pub capacity: usize,
    /// The table, or the keys of a map.
    pub table: PathBuf,
    /// The type of a map's values, and their file.
    pub values: Option<(ValueType, PathBuf)>,
}

pub enum Command {
    Pack { input: PathBuf },
    Check,
    Show,
    Get { codes: Vec<OsString> },
}

/// The call, or none if help is asked for.
pub fn parse(mut given: impl Iterator<Item = OsString>) -> Result<Option<Call>, String> {
    let (mut kind, mut capacity, mut map, mut rest) = (None, None, None, Vec::new());
    while let Some(argument) = given.next() {
        match argument.to_str() {
            Some("-h" | "--help") => return Ok(None),
            Some("--sorted") => set(&mut kind, Kind::Sorted, "KIND")?,
            Some("--hashed") => set(&mut kind, Kind::Hashed, "KIND")?,
            Some("-n") => set(&mut capacity, option("-n", given.next(), tables::capacity)?, "-n")?,
            Some("--map") => set(&mut map, option("--map", given.next(), ValueType::named)?, "--map")?,
            Some("--") => rest.extend(given.by_ref()),
            Some(it) if it.starts_with('-') && it != "-" => return Err(format!("there is no option {it}")),
            _ => rest.push(argument),
        }
    }
    let mut rest = rest.into_iter();
    let mut next = |what: &str| rest.next().ok_or_else(|| format!("{what} is missing"));
    let command = next("the command")?;
    let command = match command.to_str() {
        Some("pack") => Command::Pack { input: next("CODES")?.into() },
        Some("check") => Command::Check,
        Some("show") => Command::Show,
        Some("get") => Command::Get { codes: Vec::new() },
        _ => return Err(format!("there is no command {}", command.display())),
    };
    let table = next(if map.is_some() { "KEYS" } else { "TABLE" })?.into();
    let values = map.map(|kind| Ok::<_, String>((kind, next("VALUES")?.into()))).transpose()?;
    let left: Vec<OsString> = rest.collect();
    let command = match command {
        Command::Get { .. } if left.is_empty() => return Err("CODE is missing".into()),
        Command::Get { .. } => Command::Get { codes: left },
        _ if !left.is_empty() => return Err(format!("{} is one argument too many", left[0].display())),
        other => other,
    };
    let kind = kind.ok_or("--sorted or --hashed is missing")?;
    let capacity = capacity.ok_or("-n is missing")?;
    let call = Call { command, kind, capacity, table, values };
    call.check_paths()?;
    Ok(Some(call))
}

impl Call {
    /// Standard input is read once. `pack` writes to different files, and to none that it reads.
    fn check_paths(&self) -> Result<(), String> {
        let others = [Some(&self.table), self.values.as_ref().map(|(_, path)| path)].into_iter().flatten();
        let paths: Vec<&Path> = match &self.command {
            Command::Pack { input } => {
                let targets = others.map(|it| files::path_of(it, "/dev/stdout"));
                [files::path_of(input, "/dev/stdin")].into_iter().chain(targets).collect()
            }
            _ => others.map(PathBuf::as_path).filter(|it| files::is_stream(it)).collect(),
        };
        for (index, path) in paths.iter().enumerate() {
            if let Some(earlier) = paths[..index].iter().find(|it| files::are_one(it, path)) {
                return Err(format!("{} and {} are the same file", earlier.display(), path.display()));
            }
        }
        Ok(())
    }
}

/// Sets what the command line may say only once.
fn set<T>(place: &mut Option<T>, given: T, name: &str) -> Result<(), String> {
    place.replace(given).map_or(Ok(()), |_| Err(format!("{name} is given twice")))
}

fn option<T>(name: &str, given: Option<OsString>, read: impl Fn(&str) -> Option<T>) -> Result<T, String> {
    let given = given.ok_or_else(|| format!("{name} has no value"))?;
    given.to_str().and_then(read).ok_or_else(|| format!("{name} can't be {}", given.display()))
}
