//! Makes packed tables and maps of ASCII codes, and shows, checks and searches them. `tinystr-table --help` is the manual.

mod arguments;
mod files;
mod packing;
mod progress;
mod tables;
mod values;

use arguments::{Call, Command, USAGE};
use std::env;
use std::error::Error;
use std::ffi::OsStr;
use std::fmt::Display;
use std::io::{self, BufWriter, ErrorKind, Write};
use std::process::ExitCode;
use tables::{Checked, at_capacity};
use tinystr::TinyAsciiStr;
use tinystr::packed::Table;
use values::Values;

type Result<T> = std::result::Result<T, Box<dyn Error>>;

fn main() -> ExitCode {
    let call = match arguments::parse(env::args_os().skip(1)) {
        Ok(Some(call)) => call,
        Ok(None) => return ended(io::stdout().write_all(USAGE.as_bytes()).map(|()| true).map_err(Box::from), ExitCode::SUCCESS),
        Err(fault) => {
            say(format!("{fault}; see tinystr-table --help"));
            return ExitCode::from(2);
        }
    };
    // a table that nobody reads to its end is lost
    let at_closed_pipe = if matches!(call.command, Command::Pack { .. }) { ExitCode::FAILURE } else { ExitCode::SUCCESS };
    ended(at_capacity!(call.capacity, run(&call)), at_closed_pipe)
}

/// The status of a call's result. An error of `io` is one of standard output, since others name their file.
fn ended(result: Result<bool>, at_closed_pipe: ExitCode) -> ExitCode {
    match result {
        Ok(true) => return ExitCode::SUCCESS,
        Ok(false) => {}
        Err(fault) => match fault.downcast_ref::<io::Error>() {
            Some(it) if it.kind() == ErrorKind::BrokenPipe => return at_closed_pipe,
            Some(it) => say(format!("standard output: {it}")),
            None => say(fault),
        },
    }
    ExitCode::FAILURE
}

/// Prints a message, if standard error takes it.
fn say(message: impl Display) {
    let _ = writeln!(io::stderr(), "tinystr-table: {message}");
}

/// Runs a call: whether all codes that it asks for are found.
fn run<const N: usize>(call: &Call) -> Result<bool> {
    if let Command::Pack { input } = &call.command {
        let (table, values) = files::named(input, packing::packed::<N>(call, input))?;
        let mut targets = vec![(call.table.as_path(), table)];
        targets.extend(call.values.as_ref().map(|(_, path)| (path.as_path(), values)));
        files::replace(&targets)?;
        return Ok(true);
    }
    let bytes = files::read(&call.table)?;
    let what = format!("checking {} bytes", bytes.len());
    let checked = progress::shown(&what, || Checked::<N>::of(call.kind, &bytes));
    let checked = files::named(&call.table, checked)?;
    let table = checked.table();
    let values = match &call.values {
        Some((kind, path)) => Some(files::named(path, Values::of(*kind, files::read(path)?, table.len()))?),
        None => None,
    };
    let mut out = BufWriter::new(io::stdout().lock());
    let mut are_found = true;
    match &call.command {
        Command::Get { codes } => {
            for code in codes {
                are_found &= get(&mut out, &checked, values.as_ref(), code)?;
            }
        }
        Command::Show => show(&mut out, table, values.as_ref())?,
        _ => writeln!(out, "{}: {} codes", files::name(&call.table), table.len())?,
    }
    out.flush()?;
    Ok(are_found)
}

/// Prints the codes, with their values.
fn show<const N: usize>(out: &mut impl Write, table: &Table<N>, values: Option<&Values>) -> Result<()> {
    for (index, code) in table.iter().enumerate() {
        print(out, &code, values.map(|it| it.written(index)))?;
    }
    Ok(())
}

/// Prints the value or the index of a code: whether it is found.
fn get<const N: usize>(out: &mut impl Write, table: &Checked<N>, values: Option<&Values>, code: &OsStr) -> Result<bool> {
    let name = code.display();
    let text = TinyAsciiStr::try_from_utf8(code.as_encoded_bytes()).map_err(|fault| format!("{name}: {fault}"))?;
    match table.position(&text) {
        Some(index) => print(out, &text, Some(values.map_or_else(|| index.to_string(), |it| it.written(index))))?,
        None => {
            say(format!("{name} isn't found"));
            return Ok(false);
        }
    }
    Ok(true)
}

/// Prints a line that `pack` reads as this code and value. Of some tables that it didn't make there is none.
fn print<const N: usize>(out: &mut impl Write, code: &TinyAsciiStr<N>, value: Option<String>) -> Result<()> {
    let ends_line = |text: &str| text.contains(['\n', '\r']);
    if code.is_empty() || ends_line(code) || value.as_ref().is_some_and(|it| code.contains('\t') || ends_line(it)) {
        return Err(format!("no line has the code {:?} and its value", code.as_str()).into());
    }
    match value {
        Some(value) => writeln!(out, "{code}\t{value}")?,
        None => writeln!(out, "{code}")?,
    }
    Ok(())
}
