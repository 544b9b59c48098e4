//! Texts by serde: a string where the format is human-readable, and else `N` bytes. Expected are the original's rules, and of
//! identifiers those of icu_locale_core.
#![cfg(test)]

use serde::de::value::{Error, SeqDeserializer};
use serde::de::{Deserializer, Visitor};
use serde::forward_to_deserialize_any;
use serde::ser::{Impossible, SerializeTuple, Serializer};
use serde::{Deserialize, Serialize};
use tinystr::subtags::{LangId, Language, Region, Script};
use tinystr::{TinyAsciiStr, UnvalidatedTinyAsciiStr, language, region, script, tinystr};

type Unvalidated<const N: usize> = UnvalidatedTinyAsciiStr<N>;

const NULL: &str = "TinyAsciiStr cannot contain null bytes";
const NON_ASCII: &str = "TinyAsciiStr cannot contain non-ascii bytes";

fn of_json<'a, T: Deserialize<'a>>(json: &'a str) -> Result<T, String> {
    serde_json::from_str(json).map_err(|fault| fault.to_string().split(" at line").next().unwrap().to_string())
}

#[test]
fn json_has_the_text() {
    assert_eq!(serde_json::to_string(&tinystr!(8, "en-US")).unwrap(), r#""en-US""#);
    assert_eq!(serde_json::to_string(&TinyAsciiStr::<8>::EMPTY).unwrap(), r#""""#);
    assert_eq!(serde_json::to_string(&tinystr!(3, "\"\\\n")).unwrap(), r#""\"\\\n""#);
    assert_eq!(of_json(r#""en-US""#), Ok(tinystr!(8, "en-US")));
    assert_eq!(of_json(r#""\u0065n-US""#), Ok(tinystr!(5, "en-US")));
    assert_eq!(of_json(r#""""#), Ok(TinyAsciiStr::<0>::EMPTY));
}

#[test]
fn json_of_no_text_is_rejected() {
    for json in [r#""euros""#, r#""a\u0000""#, r#""é""#] {
        assert_eq!(of_json::<TinyAsciiStr<3>>(json), Err("invalid str".into()), "{json}");
        assert_eq!(of_json::<Unvalidated<3>>(json), Err("invalid str".into()), "{json}");
    }
    assert_eq!(of_json::<TinyAsciiStr<3>>("5"), Err("invalid type: integer `5`, expected a TinyAsciiStr<3>".into()));
    assert_eq!(of_json::<TinyAsciiStr<3>>("[69,85,82]"), Err("invalid type: sequence, expected a TinyAsciiStr<3>".into()));
}

#[test]
fn bincode_has_all_bytes() {
    assert_eq!(bincode::serialize(&tinystr!(4, "GB")).unwrap(), b"GB\0\0");
    assert_eq!(bincode::serialize(&TinyAsciiStr::<0>::EMPTY).unwrap(), b"");
    let long = tinystr!(40, "of more bytes than the original's 32");
    let written = bincode::serialize(&long).unwrap();
    assert_eq!(written, long.all_bytes());
    assert_eq!(bincode::deserialize::<TinyAsciiStr<40>>(&written).unwrap(), long);
    assert_eq!(bincode::deserialize::<Unvalidated<40>>(&written).unwrap(), long.to_unvalidated());
    assert!(bincode::deserialize::<TinyAsciiStr<4>>(b"GB\0").is_err());
}

/// The bytes of a format that isn't human-readable, which ends where they do.
struct Bytes<'a>(&'a [u8]);

impl<'de> Deserializer<'de> for Bytes<'_> {
    type Error = Error;

    fn deserialize_any<V: Visitor<'de>>(self, visitor: V) -> Result<V::Value, Error> {
        visitor.visit_seq(SeqDeserializer::new(self.0.iter().copied()))
    }

    /// Each of at most `len` bytes has to be read.
    fn deserialize_tuple<V: Visitor<'de>>(self, len: usize, visitor: V) -> Result<V::Value, Error> {
        let mut elements = SeqDeserializer::new(self.0.iter().copied().take(len));
        let read = visitor.visit_seq(&mut elements)?;
        elements.end().map(|()| read)
    }

    fn is_human_readable(&self) -> bool {
        false
    }

    forward_to_deserialize_any! {
        bool i8 i16 i32 i64 i128 u8 u16 u32 u64 u128 f32 f64 char str string bytes byte_buf option unit unit_struct
        newtype_struct seq tuple_struct map struct enum identifier ignored_any
    }
}

/// What the original says of bytes: their faults in order, and then that there are too few.
fn expected(bytes: &[u8], capacity: usize) -> Result<Vec<u8>, String> {
    for at in 0..bytes.len().min(capacity) {
        if bytes[at] != 0 && bytes[..at].contains(&0) {
            return Err(NULL.into());
        }
        if !bytes[at].is_ascii() {
            return Err(NON_ASCII.into());
        }
    }
    if bytes.len() < capacity {
        return Err(format!("invalid length {capacity}, expected a TinyAsciiStr<{capacity}>"));
    }
    Ok(bytes[..capacity].to_vec())
}

fn read_alike<const N: usize>(bytes: &[u8]) {
    let read = TinyAsciiStr::<N>::deserialize(Bytes(bytes)).map(|text| text.all_bytes().to_vec());
    assert_eq!(read.map_err(|fault| fault.to_string()), expected(bytes, N), "{bytes:?} at {N}");
    assert_eq!(Unvalidated::<N>::deserialize(Bytes(bytes)).is_ok(), bytes.len() >= N, "{bytes:?} at {N}");
}

/// All lists of up to four bytes, each one of five.
#[test]
fn bytes_are_read_or_rejected_in_order() {
    let kinds = [0, 1, b'a', 127, 128];
    for len in 0..=4u32 {
        for number in 0..kinds.len().pow(len) {
            let bytes: Vec<u8> = (0..len).map(|at| kinds[number / kinds.len().pow(at) % kinds.len()]).collect();
            read_alike::<0>(&bytes);
            read_alike::<2>(&bytes);
            read_alike::<3>(&bytes);
            read_alike::<4>(&bytes);
        }
    }
}

/// A format that isn't human-readable and writes tuples of bytes alone: the announced length, and the bytes.
#[derive(Default)]
struct Tuple(usize, Vec<u8>);

macro_rules! never {
    ($($call:ident $(<$type:ident>)? ($($argument:ty),*) $made:ident;)*) => {$(
        fn $call $(<$type: Serialize + ?Sized>)? (self $(, _: $argument)*) -> Result<Self::$made, Error> {
            unreachable!()
        }
    )*};
}

type Name = &'static str;
type Never = Impossible<Tuple, Error>;

impl Serializer for Tuple {
    type Ok = Tuple;
    type Error = Error;
    type SerializeSeq = Never;
    type SerializeTuple = Tuple;
    type SerializeTupleStruct = Never;
    type SerializeTupleVariant = Never;
    type SerializeMap = Never;
    type SerializeStruct = Never;
    type SerializeStructVariant = Never;

    fn is_human_readable(&self) -> bool {
        false
    }

    fn serialize_tuple(self, len: usize) -> Result<Tuple, Error> {
        Ok(Tuple(len, Vec::new()))
    }

    never! {
        serialize_bool(bool) Ok; serialize_i8(i8) Ok; serialize_i16(i16) Ok; serialize_i32(i32) Ok; serialize_i64(i64) Ok;
        serialize_u8(u8) Ok; serialize_u16(u16) Ok; serialize_u32(u32) Ok; serialize_u64(u64) Ok; serialize_f32(f32) Ok;
        serialize_f64(f64) Ok; serialize_char(char) Ok; serialize_str(&str) Ok; serialize_bytes(&[u8]) Ok; serialize_none() Ok;
        serialize_some<T>(&T) Ok; serialize_unit() Ok; serialize_unit_struct(Name) Ok; serialize_unit_variant(Name, u32, Name) Ok;
        serialize_newtype_struct<T>(Name, &T) Ok; serialize_newtype_variant<T>(Name, u32, Name, &T) Ok;
        serialize_seq(Option<usize>) SerializeSeq; serialize_tuple_struct(Name, usize) SerializeTupleStruct;
        serialize_tuple_variant(Name, u32, Name, usize) SerializeTupleVariant; serialize_map(Option<usize>) SerializeMap;
        serialize_struct(Name, usize) SerializeStruct; serialize_struct_variant(Name, u32, Name, usize) SerializeStructVariant;
    }
}

impl SerializeTuple for Tuple {
    type Ok = Tuple;
    type Error = Error;

    fn serialize_element<T: Serialize + ?Sized>(&mut self, element: &T) -> Result<(), Error> {
        self.1.extend(bincode::serialize(element).unwrap());
        Ok(())
    }

    fn end(self) -> Result<Tuple, Error> {
        Ok(self)
    }
}

#[test]
fn a_tuple_is_announced_with_its_length() {
    let Tuple(announced, bytes) = tinystr!(4, "GB").serialize(Tuple::default()).unwrap();
    assert_eq!((announced, bytes.as_slice()), (4, b"GB\0\0".as_slice()));
}

#[test]
fn bytes_that_are_no_text_are_read_unvalidated_and_not_written() {
    let bytes: Unvalidated<3> = bincode::deserialize(b"\0G\xff").unwrap();
    assert_eq!(bytes, Unvalidated::from_utf8_unchecked(*b"\0G\xff"));
    assert_eq!(serde_json::to_string(&bytes).unwrap_err().to_string(), "invalid ascii in UnvalidatedTinyAsciiStr");
    assert_eq!(bincode::serialize(&bytes).unwrap_err().to_string(), "invalid ascii in UnvalidatedTinyAsciiStr");
    let text = tinystr!(3, "GB").to_unvalidated();
    assert_eq!(serde_json::to_string(&text).unwrap(), r#""GB""#);
    assert_eq!(of_json(r#""GB""#), Ok(text));
}

type Subtags = (Language, Script, Region);

const SUBTAGS: Subtags = (language!("zh"), script!("Hant"), region!("TW"));

#[test]
fn identifiers_are_strings_in_each_format() {
    let id: LangId = "zh-Hant-TW".parse().unwrap();
    assert_eq!(serde_json::to_string(&id).unwrap(), r#""zh-Hant-TW""#);
    assert_eq!(of_json(r#""ZH_hant-tw""#), Ok(id));
    assert_eq!(bincode::serialize(&id).unwrap(), bincode::serialize("zh-Hant-TW").unwrap());
    assert_eq!(bincode::deserialize::<LangId>(&bincode::serialize("ZH_hant-tw").unwrap()).unwrap(), id);
    assert_eq!(of_json::<LangId>(r#""e""#), Err("invalid language".into()));
    assert_eq!(of_json::<LangId>(r#""en-Latin""#), Err("invalid subtag".into()));
    assert_eq!(of_json::<LangId>("5"), Err("invalid type: integer `5`, expected a language identifier".into()));
    assert!(bincode::deserialize::<LangId>(&bincode::serialize("e").unwrap()).is_err());
}

#[test]
fn subtags_are_strings_or_bytes() {
    assert_eq!(serde_json::to_string(&SUBTAGS).unwrap(), r#"["zh","Hant","TW"]"#);
    assert_eq!(of_json(r#"["ZH","hant","tw"]"#), Ok(SUBTAGS));
    assert_eq!(bincode::serialize(&SUBTAGS).unwrap(), b"zh\0\0\0\0\0\0HantTW\0");
    assert_eq!(bincode::deserialize::<Subtags>(b"zh\0\0\0\0\0\0HantTW\0").unwrap(), SUBTAGS);
    assert_eq!(of_json::<Language>(r#""e""#), Err("invalid language".into()));
    assert_eq!(of_json::<Region>(r#""Latn""#), Err("invalid subtag".into()));
    assert_eq!(of_json::<Script>("[76]"), Err("invalid type: sequence, expected a subtag".into()));
}

/// Without a string, what isn't canonical is rejected, and what is too long for the bytes of a text.
#[test]
fn bytes_of_no_canonical_subtag_are_rejected() {
    let region = |bytes: &[u8]| Region::deserialize(Bytes(bytes)).map_err(|fault| fault.to_string());
    assert_eq!(region(b"TW\0"), Ok(SUBTAGS.2));
    for bytes in [b"tw\0", b"T\0\0", b"1W\0", b"TWN"] {
        assert_eq!(region(bytes), Err("invalid subtag".into()));
    }
    let language = Language::deserialize(Bytes(b"EN\0\0\0\0\0\0")).map_err(|fault| fault.to_string());
    assert_eq!(language, Err("invalid language".into()));
    assert_eq!(region(b"T\0W"), Err(NULL.into()));
    assert_eq!(region(b"TW"), Err("invalid length 3, expected a TinyAsciiStr<3>".into()));
}
