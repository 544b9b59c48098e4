//! Tables and maps of the lines of a text file.

use crate::arguments::Call;
use crate::tables::{Checked, Kind};
use crate::values::ValueType;
use crate::{Result, files, progress};
use std::io::BufRead;
use std::path::Path;
use tinystr::TinyAsciiStr;
use tinystr::hashed::pack_hashed;
use tinystr::packed::pack_sorted;

/// The bytes of the table, and those of the values, which are none without `--map`. An error names its line.
pub fn packed<const N: usize>(call: &Call, input: &Path) -> Result<(Vec<u8>, Vec<u8>)> {
    let map = call.values.as_ref().map(|(kind, _)| *kind);
    let what = format!("reading {}", files::name(input));
    let (codes, values) = progress::shown(&what, || entries::<N>(map, files::open(input)?))?;
    let what = format!("packing {} codes", codes.len());
    progress::shown(&what, || {
        let table = match call.kind {
            Kind::Sorted => Some(pack_sorted(&codes)).filter(|it| it.len() == N * codes.len()),
            Kind::Hashed => pack_hashed(&codes).ok(),
        };
        let table = table.ok_or_else(|| repeated(&codes))?;
        let values = in_order(map, &Checked::of(call.kind, &table)?, &codes, values);
        Ok((table, values))
    })
}

/// The codes and the values of all lines.
fn entries<const N: usize>(map: Option<ValueType>, mut input: impl BufRead) -> Result<(Vec<TinyAsciiStr<N>>, Vec<u8>)> {
    let (mut codes, mut values, mut line) = (Vec::new(), Vec::new(), Vec::new());
    while input.read_until(b'\n', &mut line)? > 0 {
        let code = entry(map, &line, &mut values).map_err(|fault| format!("line {}: {fault}", codes.len() + 1))?;
        codes.push(code);
        line.clear();
    }
    Ok((codes, values))
}

/// The code of a line, whose value is added to the values.
fn entry<const N: usize>(map: Option<ValueType>, line: &[u8], values: &mut Vec<u8>) -> Result<TinyAsciiStr<N>> {
    let mut code = without_end(line)?;
    if let Some(kind) = map {
        let tab = code.iter().position(|byte| *byte == b'\t').ok_or("there is no tab")?;
        values.extend(kind.bytes_of(&code[tab + 1..])?);
        code = &code[..tab];
    }
    if code.is_empty() {
        return Err("there is no code".into());
    }
    Ok(TinyAsciiStr::try_from_utf8(code)?)
}

/// A line without `\n` or `\r\n`.
fn without_end(line: &[u8]) -> Result<&[u8]> {
    let text = line.strip_suffix(b"\r\n").or(line.strip_suffix(b"\n")).unwrap_or(line);
    let byte_order_marks: [&[u8]; 3] = [b"\xef\xbb\xbf", b"\xff\xfe", b"\xfe\xff"];
    if byte_order_marks.iter().any(|it| text.starts_with(it)) {
        return Err("there is a byte order mark, which is no ASCII".into());
    }
    if text.contains(&b'\r') {
        return Err("there is a CR without LF after it: lines end in LF or CR LF".into());
    }
    Ok(text)
}

/// The values in the order of the table, which has each code once.
fn in_order<const N: usize>(map: Option<ValueType>, table: &Checked<N>, codes: &[TinyAsciiStr<N>], values: Vec<u8>) -> Vec<u8> {
    let Some(kind) = map else { return values };
    let mut ordered = vec![0; values.len()];
    for (code, value) in codes.iter().zip(values.chunks_exact(kind.size())) {
        let place = table.position(code).expect("the table has each code") * kind.size();
        ordered[place..place + kind.size()].copy_from_slice(value);
    }
    ordered
}

/// Names the first line that has the code of an earlier one.
fn repeated<const N: usize>(codes: &[TinyAsciiStr<N>]) -> String {
    let mut lines: Vec<_> = codes.iter().copied().zip(1_usize..).collect();
    lines.sort_unstable();
    let pairs = lines.windows(2).filter(|pair| pair[0].0 == pair[1].0).map(|pair| (pair[1].1, pair[0]));
    let (again, (code, first)) = pairs.min().expect("a code occurs twice");
    format!("line {again}: {code} is on line {first} too")
}
