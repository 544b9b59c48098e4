//! Batches of texts, the inputs of the calls.

use crate::inputs::Random;
use theirs::original::COUNT;
use theirs::original::questions::Question;

/// Texts of lowercase letters at a capacity.
#[derive(Default)]
pub struct Batch {
    pub capacity: usize,
    pub texts: Vec<u8>,
    pub others: Vec<u8>,
    pub raw_starts: Vec<u32>,
    pub units: Vec<u8>,
    pub wide: Vec<u16>,
    pub starts: Vec<u32>,
    pub numbers: Vec<u32>,
}

impl Batch {
    /// Each text fills its array.
    pub fn full(random: &mut Random, capacity: usize) -> Batch {
        let made = Batch::of_lengths(random, capacity, capacity);
        Batch { numbers: (0..COUNT).map(|_| random.next() as u32 | 1 << 31).collect(), ..made }
    }

    /// Each text has any of the lengths from `least` on.
    pub fn mixed(random: &mut Random, capacity: usize, least: usize) -> Batch {
        let made = Batch::of_lengths(random, capacity, least);
        Batch { numbers: (0..COUNT).map(|_| (random.next() as u32) >> random.below(32)).collect(), ..made }
    }

    /// Every other pair is equal, and the others differ at one place.
    fn of_lengths(random: &mut Random, capacity: usize, least: usize) -> Batch {
        let raw_starts = (0..=COUNT).map(|i| (i * capacity) as u32).collect();
        let mut made = Batch { capacity, raw_starts, starts: vec![0], ..Batch::default() };
        for _ in 0..COUNT {
            let len = least + random.below(capacity - least + 1);
            let mut text: Vec<u8> = (0..len).map(|_| b'a' + random.below(26) as u8).collect();
            made.units.extend(&text);
            made.starts.push(made.units.len() as u32);
            text.resize(capacity, 0);
            made.texts.extend(&text);
            if len > 0 && random.below(2) == 0 {
                let place = random.below(len);
                text[place] = b'a' + random.below(26) as u8;
            }
            made.others.extend(&text);
        }
        made.wide = made.units.iter().map(|&unit| unit.into()).collect();
        made
    }
}

/// A batch of padded texts that pass a question, or that fail it at their first byte.
pub fn texts(question: &Question, passes: bool, random: &mut Random, capacity: usize, least: usize) -> Vec<u8> {
    let mut texts = vec![0; COUNT * capacity];
    for padded in texts.chunks_exact_mut(capacity) {
        let len = least + random.below(capacity - least + 1);
        padded[..len].fill_with(|| random.of(question.later));
        padded[0] = if passes { random.of(question.first) } else { question.failing };
    }
    texts
}
