//! Calls of `str` by `Deref`, as programs for the original have them. None of the type's own calls hides one.

use tinystr::{TinyAsciiStr, tinystr};

const TAG: TinyAsciiStr<16> = tinystr!(16, "zh-Hant-TW");

#[test]
fn parts_of_a_text() {
    assert_eq!(TAG.split('-').count() + TAG.split(char::is_alphabetic).count() + TAG.split("-Hant-").count(), 3 + 9 + 2);
    assert_eq!([TAG.rsplit('-').count(), TAG.splitn(2, '-').count(), TAG.rsplitn(2, '-').count()], [3, 2, 2]);
    assert_eq!([TAG.split_inclusive('-').count(), TAG.split_terminator("TW").count(), TAG.rsplit_terminator('W').count()], [3, 1, 1]);
    assert_eq!([TAG.lines().count(), TAG.split_whitespace().count(), TAG.split_ascii_whitespace().count()], [1; 3]);
    assert_eq!((TAG.split_once('-'), TAG.rsplit_once('-')), (Some(("zh", "Hant-TW")), Some(("zh-Hant", "TW"))));
    assert_eq!((TAG.split_at(2), TAG.split_at_checked(11)), (("zh", "-Hant-TW"), None));
    assert_eq!((TAG.strip_prefix("zh-"), TAG.strip_suffix("-TW")), (Some("Hant-TW"), Some("zh-Hant")));
    assert_eq!([TAG.trim_end_matches("TW"), TAG.trim_start_matches("zh"), TAG.trim_matches(char::is_alphabetic)], ["zh-Hant-", "-Hant-TW", "-Hant-"]);
    assert_eq!([TAG.trim(), TAG.trim_start(), TAG.trim_end()], ["zh-Hant-TW"; 3]);
    assert_eq!([TAG.trim_ascii(), TAG.trim_ascii_start(), TAG.trim_ascii_end()], ["zh-Hant-TW"; 3]);
}

#[test]
fn places_in_a_text() {
    assert_eq!([TAG.find('-'), TAG.find("TW"), TAG.find(['H', 'T']), TAG.find(char::is_uppercase)], [Some(2), Some(8), Some(3), Some(3)]);
    assert_eq!((TAG.rfind('-'), TAG.get(8..), TAG.get(8..11), &TAG[3..7]), (Some(7), Some("TW"), None, "Hant"));
    assert_eq!([TAG.matches('-').count(), TAG.rmatches('-').count(), TAG.match_indices('-').count(), TAG.rmatch_indices('-').count()], [2; 4]);
    assert!(TAG.is_char_boundary(2) && TAG.contains("Hant") && TAG.starts_with("zh") && TAG.ends_with('W'));
}

#[test]
fn bytes_and_strings() {
    assert_eq!((TAG.as_bytes(), TAG.as_ptr()), (b"zh-Hant-TW".as_slice(), TAG.as_str().as_ptr()));
    assert_eq!([TAG.bytes().count(), TAG.chars().count(), TAG.char_indices().count(), TAG.encode_utf16().count()], [10; 4]);
    assert_eq!((TAG.is_ascii(), TAG.eq_ignore_ascii_case("ZH-HANT-TW")), (true, true));
    assert_eq!([TAG.escape_debug().count(), TAG.escape_default().count(), TAG.escape_unicode().count()], [10, 10, 60]);
    assert_eq!([TAG.replace('-', "_"), TAG.replacen('-', "_", 1), TAG.repeat(1)], ["zh_Hant_TW", "zh_Hant-TW", "zh-Hant-TW"]);
    assert_eq!([TAG.to_lowercase(), TAG.to_uppercase(), TAG.to_string()], ["zh-hant-tw", "ZH-HANT-TW", "zh-Hant-TW"]);
    assert_eq!((tinystr!(3, "419").parse(), TAG.to_owned()), (Ok(419), TAG));
    let path: &std::path::Path = TAG.as_ref();
    assert_eq!(path, "zh-Hant-TW");
}
