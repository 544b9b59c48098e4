//! The jobs of crates/workloads as a Rust user writes them: `jobs JOB SEED ROUNDS` does one of them ROUNDS times, on the same
//! input, and prints the same digest of all results. `all` does each.

mod awkward;
mod cells;
mod codes;
mod columns;
mod digest;
mod identifiers;
mod lines;
mod lists;
mod random;
mod tables;

use digest::Digest;
use random::Random;

type Job = fn(&mut Random, &mut Digest);

const JOBS: [(&str, Job); 6] = [
    ("identifiers", identifiers::run),
    ("tables", tables::run),
    ("columns", columns::run),
    ("lists", lists::run),
    ("lines", lines::run),
    ("awkward", awkward::run),
];

fn main() {
    let words: Vec<String> = std::env::args().collect();
    let [_, wanted, seed, rounds] = &words[..] else {
        eprintln!("usage: jobs JOB SEED ROUNDS");
        std::process::exit(2);
    };
    let (seed, rounds) = (seed.parse().unwrap(), rounds.parse::<u32>().unwrap());
    for (name, job) in JOBS {
        if wanted == "all" || wanted == name {
            let (mut random, mut digest) = (Random::new(seed), Digest::new());
            for _ in 0..rounds {
                job(&mut random, &mut digest);
            }
            println!("{name} {:016x}", digest.value());
        }
    }
}
