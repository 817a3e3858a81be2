//! The witness: an independent program that checks the archive of Soroluzko against document 01, sharing neither code nor tables
//! nor method with it.
//!
//! `witness [SEED]` runs everything, a part of it with a fresh seed or the one given; `witness small [SEED]` runs a small part of
//! everything without guards, for valgrind.

mod calls;
mod chance;
mod damage;
mod exhaustive;
mod ledger;
mod policy;
mod random;
mod rules;
mod text;
mod world;

use ledger::Ledger;
use std::process::ExitCode;
use std::time::{SystemTime, UNIX_EPOCH};

const SEED: u64 = 0x5040_1d2e_0a7b_0001;
const GUARD: usize = 32;

type Part = Box<dyn FnOnce(&mut Ledger) + Send>;

fn whole() -> Vec<Part> {
    vec![
        Box::new(|ledger| exhaustive::run(ledger, 3)),
        Box::new(|ledger| random::run(ledger, 200_000)),
        Box::new(|ledger| damage::matrices(ledger, 0..=64, &[1, 3, 6, 8])),
        Box::new(|ledger| damage::matrices(ledger, 0..=64, &[2, 4, 5, 7])),
        Box::new(|ledger| damage::policies(ledger, damage::policy_sizes(64))),
        Box::new(damage::headers),
    ]
}

fn small() -> Vec<Part> {
    vec![
        Box::new(|ledger| exhaustive::run(ledger, 2)),
        Box::new(|ledger| random::run(ledger, 4_000)),
        Box::new(|ledger| damage::matrices(ledger, 0..=4, &[1, 8])),
        Box::new(|ledger| damage::policies(ledger, damage::policy_sizes(8))),
    ]
}

fn main() -> ExitCode {
    let mut arguments: Vec<_> = std::env::args().skip(1).collect();
    let is_small = arguments.first().is_some_and(|first| first == "small");
    if is_small {
        arguments.remove(0);
    }
    let fresh = match arguments.first() {
        Some(seed) => u64::from_str_radix(seed.trim_start_matches("0x"), 16).expect("a seed in hexadecimal"),
        None => SystemTime::now().duration_since(UNIX_EPOCH).map_or(0, |past| past.as_nanos() as u64),
    };
    println!("witness: seed {SEED:#x}, and {fresh:#x} for a part");

    let (parts, times, guard) = if is_small { (small(), 1_000, 0) } else { (whole(), 50_000, GUARD) };
    let mut total = Ledger::new(SEED, guard);
    std::thread::scope(|scope| {
        let again: Part = Box::new(move |ledger| random::run(ledger, times));
        let seeded = parts.into_iter().zip(SEED..).chain([(again, fresh)]);
        let start = |(part, seed): (Part, u64)| {
            scope.spawn(move || {
                let mut ledger = Ledger::new(seed, guard);
                part(&mut ledger);
                ledger
            })
        };
        let threads: Vec<_> = seeded.map(start).collect();
        threads.into_iter().for_each(|thread| total.add(&thread.join().expect("a part that ends")));
    });
    ExitCode::from(u8::from(!total.close()))
}
