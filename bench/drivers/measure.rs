//! A row of a table: calls of several crates, whose results are compared and which are timed alternately.

use std::time::Instant;
use theirs::original::COUNT;

const TURNS: usize = 25;

/// The results of a call for a batch.
#[derive(PartialEq)]
pub struct Answers {
    pub texts: Vec<u8>,
    pub codes: Vec<u32>,
    pub marks: Vec<u8>,
}

impl Answers {
    fn new() -> Answers {
        Answers { texts: vec![0; COUNT * 128], codes: vec![0; COUNT], marks: vec![0; COUNT] }
    }
}

pub const HERE: &str = "here";
pub const THERE: &str = "there";

/// Whose call it is, and the call with a batch, in a number of rounds; it returns false where there is no such call.
pub type Contender<'a> = (&'static str, &'a dyn Fn(usize, &mut Answers) -> bool);

/// The place of the measurements, the number of values in a round, and the number of rounds that are timed together.
pub struct Row<'a> {
    pub table: &'a str,
    pub call: &'a str,
    pub column: String,
    pub values: usize,
    pub rounds: usize,
}

impl Row<'_> {
    /// Ends the program where the contenders' results differ.
    pub fn compare(&self, contenders: &[Contender]) {
        let mut answers: Vec<Answers> = contenders.iter().map(|_| Answers::new()).collect();
        let are_known = contenders.iter().zip(&mut answers).all(|((_, call), answers)| call(1, answers));
        let are_alike = are_known && answers.iter().all(|other| *other == answers[0]);
        assert!(are_alike, "{}, {} at {}: the answers differ", self.table, self.call, self.column);
    }

    /// Prints a line for each contender: the nanoseconds for a value in the least of many turns, less the time of a call with no
    /// round.
    pub fn take(&self, contenders: &[Contender]) {
        self.compare(contenders);
        let mut answers = Answers::new();
        let mut least = vec![[f64::MAX; 2]; contenders.len()];
        for _ in 0..TURNS {
            for (i, rounds) in [0, self.rounds].into_iter().enumerate() {
                for ((_, call), least) in contenders.iter().zip(&mut least) {
                    let start = Instant::now();
                    call(rounds, &mut answers);
                    least[i] = least[i].min(start.elapsed().as_nanos() as f64);
                }
            }
        }
        for ((whose, _), [idle, busy]) in contenders.iter().zip(least) {
            let nanos = (busy - idle).max(1.0) / (self.rounds * self.values) as f64;
            println!("{}|{}|{}|{whose}|{nanos:.4}", self.table, self.call, self.column);
        }
    }
}
