//! A list of language identifiers, over unic-langid.

use crate::cells::Cells;
use crate::digest::Digest;
use crate::random::{push_word, Random, LOWERCASE};
use std::collections::{BTreeMap, HashMap};
use std::fmt::Write;
use unic_langid_impl::parser::ParserError;
use unic_langid_impl::subtags::Language;
use unic_langid_impl::{LanguageIdentifier, LanguageIdentifierError};

const COUNT: usize = 100_000;

const COMMON: [&str; 40] = [
    "en-US", "en-US", "en-US", "en-US", "en-US", "en-US", "en-US", "en-US", "en", "en", "en-GB", "en-GB", "de", "de",
    "de-DE", "de-AT", "fr", "fr-FR", "fr-CA", "es", "es-ES", "es-419", "es-MX", "pt-BR", "pt-PT", "zh-CN", "zh-TW",
    "zh-Hant-TW", "zh-Hans-CN", "ja", "ja-JP", "ko-KR", "ru-RU", "it", "nl", "pl", "tr", "sv", "ar-EG", "sr-Latn-RS",
];

const LANGUAGES: [&str; 24] = [
    "af", "az", "bg", "bn", "ca", "cs", "cy", "da", "el", "fa", "fil", "ga", "gsw", "he", "hi", "hsb", "kk", "lv", "mn",
    "pa", "sr", "uz", "vi", "yue",
];

const SCRIPTS: [&str; 12] =
    ["Arab", "Beng", "Cyrl", "Deva", "Guru", "Hans", "Hant", "Hebr", "Latn", "Mong", "Taml", "Thai"];

const REGIONS: [&str; 24] = [
    "001", "150", "419", "AU", "BD", "CA", "CH", "CN", "CZ", "DK", "FI", "GB", "IL", "IN", "IR", "KZ", "MN", "MX", "NO",
    "PK", "RS", "TW", "UZ", "ZA",
];

/// What follows an identifier that isn't one.
const TAILS: [&str; 8] = ["-u-co-phonebk", "-posix", "-x-private", "-1996", ";q=0.8", "-", "-valencia", " "];

pub fn run(random: &mut Random, digest: &mut Digest) {
    let list = make_list(random);
    let mut ids = read_all(&list, digest);
    let counts = count(&ids);
    take_apart(&ids, digest);
    ids.sort_unstable_by_key(text_key);
    print(&ids, &counts, digest);
}

fn make_list(random: &mut Random) -> Cells {
    let mut list = Cells::default();
    for _ in 0..COUNT {
        push_line(&mut list.bytes, random);
        list.end();
    }
    list
}

fn push_line(line: &mut Vec<u8>, random: &mut Random) {
    match random.below(100) {
        0..70 => line.extend_from_slice(random.one_of(&COMMON).as_bytes()),
        70..82 => push_rare(line, random, b'-'),
        82..91 => {
            let start = line.len();
            push_rare(line, random, b'_');
            swap_case(&mut line[start..], random.bits());
        }
        91..97 => {
            push_rare(line, random, b'-');
            line.extend_from_slice(random.one_of(&TAILS).as_bytes());
        }
        _ => {
            let len = random.below(9);
            push_word(line, random, LOWERCASE, len);
        }
    }
}

fn push_rare(line: &mut Vec<u8>, random: &mut Random, separator: u8) {
    line.extend_from_slice(random.one_of(&LANGUAGES).as_bytes());
    let parts = random.below(4);
    if parts % 2 == 1 {
        line.push(separator);
        line.extend_from_slice(random.one_of(&SCRIPTS).as_bytes());
    }
    if parts >= 2 {
        line.push(separator);
        line.extend_from_slice(random.one_of(&REGIONS).as_bytes());
    }
}

/// Some letters in the other case.
fn swap_case(line: &mut [u8], bits: u64) {
    for (i, byte) in line.iter_mut().enumerate() {
        if byte.is_ascii_alphabetic() && bits >> i & 1 == 1 {
            *byte ^= 0x20;
        }
    }
}

/// An identifier without variants. unic-langid reads variants too; here they are an error.
pub fn read(line: &[u8]) -> Result<LanguageIdentifier, ParserError> {
    match LanguageIdentifier::from_bytes(line) {
        Ok(id) if id.variants().len() == 0 => Ok(id),
        Err(LanguageIdentifierError::ParserError(error)) => Err(error),
        _ => Err(ParserError::InvalidSubtag),
    }
}

fn read_all(list: &Cells, digest: &mut Digest) -> Vec<LanguageIdentifier> {
    let mut ids = vec![];
    for line in list.iter() {
        match read(line) {
            Ok(id) => ids.push(id),
            Err(error) => digest.add(error as u64),
        }
    }
    ids
}

fn count(ids: &[LanguageIdentifier]) -> HashMap<LanguageIdentifier, u32> {
    let mut counts = HashMap::new();
    for id in ids {
        *counts.entry(id.clone()).or_insert(0) += 1;
    }
    counts
}

fn take_apart(ids: &[LanguageIdentifier], digest: &mut Digest) {
    let mut languages: BTreeMap<Language, u32> = BTreeMap::new();
    for id in ids {
        *languages.entry(id.language).or_insert(0) += 1;
        if let Some(script) = id.script {
            digest.add(u64::from(u32::from(script)));
        }
        if let Some(region) = id.region {
            digest.add(u64::from(u32::from(region)));
        }
    }
    for (language, count) in &languages {
        digest.add_bytes(language.as_str().as_bytes());
        digest.add(u64::from(*count));
    }
}

/// A key that orders identifiers by their texts. unic-langid's own order compares scripts before regions.
fn text_key(id: &LanguageIdentifier) -> (Language, u32, u32) {
    let region = id.region.map_or(0, |region| u32::from(region).to_be());
    match id.script {
        Some(script) => (id.language, u32::from(script).to_be(), region),
        None => (id.language, region, 0),
    }
}

fn print(ids: &[LanguageIdentifier], counts: &HashMap<LanguageIdentifier, u32>, digest: &mut Digest) {
    let mut report = String::new();
    for id in ids {
        writeln!(report, "{id}").unwrap();
    }
    digest.add_bytes(report.as_bytes());
    for alike in ids.chunk_by(|a, b| a == b) {
        digest.add(u64::from(counts[&alike[0]]));
    }
}
