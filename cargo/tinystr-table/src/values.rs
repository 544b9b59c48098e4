//! The values of a map: one after another in the order of the keys, all of one size.

use crate::Result;
use crate::tables::{at_capacity, capacity};
use tinystr::TinyAsciiStr;
use tinystr::packed::Table;

#[derive(Clone, Copy)]
pub enum ValueType {
    /// An unsigned number of so many bytes, little-endian.
    Number(usize),
    /// A text, padded with NULs to so many bytes.
    Text(usize),
}

impl ValueType {
    /// The type of a name, such as `u16` or `text3`.
    pub fn named(name: &str) -> Option<Self> {
        match name {
            "u8" => Some(ValueType::Number(1)),
            "u16" => Some(ValueType::Number(2)),
            "u32" => Some(ValueType::Number(4)),
            "u64" => Some(ValueType::Number(8)),
            _ => name.strip_prefix("text").and_then(capacity).map(ValueType::Text),
        }
    }

    /// The number of bytes of a value.
    pub fn size(self) -> usize {
        let (ValueType::Number(size) | ValueType::Text(size)) = self;
        size
    }

    /// The bytes of a value that a line has.
    pub fn bytes_of(self, written: &[u8]) -> Result<Vec<u8>> {
        match self {
            ValueType::Number(size) => {
                let mut bytes = number_of(written)?.to_le_bytes().to_vec();
                if bytes.drain(size..).any(|byte| byte != 0) {
                    return Err(format!("the number has more than {} bits", 8 * size).into());
                }
                Ok(bytes)
            }
            ValueType::Text(n) => at_capacity!(n, bytes_of_text(written)),
        }
    }
}

/// The values of a map, in bytes that were checked.
pub struct Values {
    kind: ValueType,
    bytes: Vec<u8>,
}

impl Values {
    /// The values of so many keys.
    pub fn of(kind: ValueType, bytes: Vec<u8>, keys: usize) -> Result<Self> {
        if keys.checked_mul(kind.size()) != Some(bytes.len()) {
            return Err(format!("{} bytes aren't a value for each of {keys} keys", bytes.len()).into());
        }
        if let ValueType::Text(n) = kind {
            at_capacity!(n, check_texts(&bytes))?;
        }
        Ok(Values { kind, bytes })
    }

    /// The value at an index, as a line has it.
    pub fn written(&self, index: usize) -> String {
        let size = self.kind.size();
        let value = &self.bytes[index * size..][..size];
        match self.kind {
            ValueType::Number(_) => value.iter().rev().fold(0, |number, byte| number << 8 | u64::from(*byte)).to_string(),
            ValueType::Text(_) => String::from_utf8_lossy(value).trim_end_matches('\0').into(),
        }
    }
}

/// The number that digits are, which `u64` reads with a sign too.
fn number_of(written: &[u8]) -> Result<u64> {
    if written.is_empty() || !written.iter().all(u8::is_ascii_digit) {
        return Err(format!("a number has digits alone, unlike \"{}\"", written.escape_ascii()).into());
    }
    Ok(str::from_utf8(written)?.parse()?)
}

fn bytes_of_text<const N: usize>(written: &[u8]) -> Result<Vec<u8>> {
    Ok(TinyAsciiStr::<N>::try_from_utf8(written)?.all_bytes().to_vec())
}

fn check_texts<const N: usize>(bytes: &[u8]) -> Result<()> {
    Table::<N>::new(bytes)?;
    Ok(())
}
