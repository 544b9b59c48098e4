//! Language identifiers and subtags: the proved readers return what those of constants do.
#![cfg(feature = "identifiers")]

use tinystr::subtags::{LangId, LangIdError, Language, Region, Script};
use tinystr::{lang_id, language, region, script};

/// The readers of identifiers return what that of constants does, which takes one subtag after another.
fn assert_read(input: &[u8]) {
    assert_eq!(LangId::try_from_utf8(input), LangId::try_from_utf8_const(input), "{input:?}");
    assert_eq!(LangId::from_prefix(input), prefix(input), "{input:?}");
}

/// The longest prefix of whole subtags that is an identifier, and the rest.
fn prefix(input: &[u8]) -> Result<(LangId, &[u8]), LangIdError> {
    let ends = (0..=input.len()).rev().filter(|end| matches!(input.get(*end), None | Some(b'-' | b'_')));
    let mut fronts = ends.map(|end| input.split_at(end));
    let read = fronts.find_map(|(front, rest)| LangId::try_from_utf8_const(front).ok().map(|id| (id, rest)));
    read.ok_or(LangIdError::InvalidLanguage)
}

/// All lists of at most two bytes, and of longer ones each that has one of six kinds of bytes at each place.
#[test]
fn short_inputs_are_read_as_for_constants() {
    let short = (0..=255).flat_map(|a| (0..=255).map(move |b| vec![a, b]));
    let mixed = (0..=7u32).flat_map(|len| {
        (0..6usize.pow(len)).map(move |kinds| (0..len).map(|at| b"aZ5-_\x80"[kinds / 6usize.pow(at) % 6]).collect::<Vec<u8>>())
    });
    for input in short.chain(mixed) {
        assert_read(&input);
        assert_eq!(Language::try_from_utf8(&input), Language::try_from_utf8_const(&input), "{input:?}");
        assert_eq!(Script::try_from_utf8(&input), Script::try_from_utf8_const(&input), "{input:?}");
        assert_eq!(Region::try_from_utf8(&input), Region::try_from_utf8_const(&input), "{input:?}");
    }
}

/// Identifiers of each form with each byte at each place, cut at each, and with more bytes. The longest form has 17 bytes.
#[test]
fn inputs_near_the_grammar_are_read_subtag_by_subtag() {
    let forms = ["en", "ast", "abcdefgh", "en-us", "es_419", "zh-hant", "zh-hant-tw", "abcdefgh-hant-tw", "abcdefgh_hant_419"];
    for form in forms {
        for place in 0..form.len() {
            assert_read(&form.as_bytes()[..place]);
            for byte in 0..=255 {
                let mut input = form.as_bytes().to_vec();
                input[place] = byte;
                assert_read(&input);
            }
        }
        for more in ["", "-", "a", "4", "-a", "-latn", "-us", "-419", "\0", "-us-posix", "-a-very-long-list-of-subtags"] {
            assert_read(&[form.as_bytes(), more.as_bytes()].concat());
        }
    }
    assert_read(&[b'a'; 300]);
}

const TAIWAN: LangId = lang_id!("ZH_hant-tw");
const PARTS: (Language, Script, Region) = (language!("ZH"), script!("hANT"), region!("tw"));

#[test]
fn constants_are_patterns() {
    assert_eq!(LangId::from_parts(PARTS.0, Some(PARTS.1), Some(PARTS.2)), TAIWAN);
    assert!(matches!(LangId::try_from_str("zh-hant-tw"), Ok(TAIWAN)) && !matches!(LangId::try_from_str("zh-tw"), Ok(TAIWAN)));
    assert!(matches!(("zh".parse().unwrap(), "Hant".parse().unwrap(), "TW".parse().unwrap()), PARTS));
    assert_eq!((LangId::default(), Language::default()), (LangId::UND, Language::UND));
    assert_eq!((LangId::from(Language::UND), LangId::UND.as_str()), (LangId::UND, "und"));
    assert_eq!((Script::try_from_str("hant"), Region::try_from_str("tw1")), (Ok(PARTS.1), Err(LangIdError::InvalidSubtag)));
}
