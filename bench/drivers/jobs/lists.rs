//! Lists in one text, over the original crate and `str`.

use crate::digest::Digest;
use crate::random::{Random, LOWERCASE, UPPERCASE};
use tinystr::TinyAsciiStr;

const COUNT: usize = 100_000;

pub fn run(random: &mut Random, digest: &mut Digest) {
    let lists: Vec<TinyAsciiStr<48>> = (0..COUNT).map(|_| make_list(random)).collect();
    let mut fields: Vec<TinyAsciiStr<8>> = vec![];
    let mut joined = String::new();
    for list in &lists {
        fields.clear();
        fields.extend(list.split(';').map(|part| TinyAsciiStr::try_from_str(part).unwrap().to_ascii_titlecase()));
        joined.clear();
        for (i, field) in fields.iter().enumerate() {
            if i > 0 {
                joined.push(',');
            }
            joined.push_str(field);
        }
        digest.add_text(&TinyAsciiStr::<48>::try_from_str(&joined).unwrap());
        add_keys(&fields, digest);
    }
}

/// Fields of no to seven letters.
fn make_list(random: &mut Random) -> TinyAsciiStr<48> {
    let mut raw = [0; 56];
    let mut len = 0;
    for _ in 0..1 + random.below(6) {
        let bits = random.bits();
        let letters = if bits >> 63 == 1 { UPPERCASE } else { LOWERCASE };
        let from = (bits % 56) as usize;
        raw[len..len + 8].copy_from_slice(&letters[from..from + 8]);
        len += (bits >> 56) as usize % 8;
        raw[len] = b';';
        len += 1;
    }
    TinyAsciiStr::try_from_utf8(&raw[..len - 1]).unwrap()
}

/// Of each field and the next a key, and where both are short enough a shorter one.
fn add_keys(fields: &[TinyAsciiStr<8>], digest: &mut Digest) {
    for pair in fields.windows(2) {
        digest.add_text(&pair[0].concat::<8, 16>(pair[1]));
        if pair[0].len() + pair[1].len() <= 12 {
            digest.add_text(&pair[0].concat::<8, 12>(pair[1]));
        } else {
            digest.add(1);
        }
    }
}
