//! Times soroluzko_build, soroluzko_alike, soroluzko_judge and, in files.rs, the calls on files against plain.rs, which makes the same tests: the same
//! bytes, turn about in short rounds, both optimised. Prints the medians of microseconds a call and of the rounds' ratios. First the
//! answers and all bytes of the buffers are compared, and a difference ends the program.
//!
//!     calls [ROUNDS]
mod files;
mod plain;

use plain::{Judged, Refusal};
use std::hint::black_box;
use std::time::Instant;

extern "C" {
    fn soroluzko_build(n: usize, k: usize, m: *const u8, ml: usize, s: *mut u8, sl: usize, t: *mut u8, tl: usize) -> u64;
    fn soroluzko_alike(n: usize, k: usize, u: usize, v: usize, m: *const u8, ml: usize) -> u64;
    fn soroluzko_judge(n: usize, k: usize, d: usize, m: *const u8, ml: usize, s: *const u8, sl: usize, t: *const u8, tl: usize) -> u64;
}

const N: usize = 64;
const K: usize = 8;

fn proved_build(matrix: &[u8], assignment: &mut [u8], table: &mut [u8]) -> u64 {
    let (s, t) = (assignment.len(), table.len());
    // safe: each pointer is with its slice's length, and the borrows do not overlap
    unsafe { soroluzko_build(N, K, matrix.as_ptr(), matrix.len(), assignment.as_mut_ptr(), s, table.as_mut_ptr(), t) }
}

fn proved_alike(u: usize, v: usize, matrix: &[u8]) -> u64 {
    // safe: the pointer is with its slice's length
    unsafe { soroluzko_alike(N, K, u, v, matrix.as_ptr(), matrix.len()) }
}

fn proved_judge(d: usize, matrix: &[u8], assignment: &[u8], table: &[u8]) -> u64 {
    let (s, t) = (assignment.len(), table.len());
    // safe: each pointer is with its slice's length
    unsafe { soroluzko_judge(N, K, d, matrix.as_ptr(), matrix.len(), assignment.as_ptr(), s, table.as_ptr(), t) }
}

fn refused(Refusal(number, place): Refusal) -> u64 {
    number | (place as u64) << 8
}

fn plain_build(matrix: &[u8], assignment: &mut [u8], table: &mut [u8]) -> u64 {
    match plain::build(N, K, matrix, assignment, table) {
        Ok(d) => (d as u64) << 8,
        Err(r) => refused(r),
    }
}

fn plain_alike(u: usize, v: usize, matrix: &[u8]) -> u64 {
    match plain::compare(N, K, u, v, matrix) {
        Ok(yes) => (yes as u64) << 8,
        Err(r) => refused(r),
    }
}

fn plain_judge(d: usize, matrix: &[u8], assignment: &[u8], table: &[u8]) -> u64 {
    match plain::judge(N, K, d, matrix, assignment, table) {
        Ok(Judged::Enforces(d)) => (d as u64) << 16,
        Ok(Judged::Conflict { cell, logged }) => 1 << 8 | (cell as u64) << 16 | (logged as u64) << 32,
        Err(r) => refused(r),
    }
}

// ---- inputs

struct Rng(u64);

impl Rng {
    fn below(&mut self, n: usize) -> usize {
        self.0 ^= self.0 << 13;
        self.0 ^= self.0 >> 7;
        self.0 ^= self.0 << 17;
        (self.0.wrapping_mul(0x2545_f491_4f6c_dd1d) >> 33) as usize % n
    }
}

fn matrix_of(mut cell: impl FnMut(usize, usize, usize) -> u8) -> Vec<u8> {
    let mut m = Vec::with_capacity(N * K * N);
    for u in 0..N {
        for a in 0..K {
            for v in 0..N {
                m.push(cell(u, a, v));
            }
        }
    }
    m
}

/// The matrix of so many classes, their members spread, and a random table.
fn planted(classes: usize, rng: &mut Rng) -> Vec<u8> {
    let table: Vec<u8> = (0..classes * K * classes).map(|_| rng.below(2) as u8).collect();
    let of: Vec<usize> = (0..N).map(|u| if u < classes { u } else { rng.below(classes) }).collect();
    matrix_of(|u, a, v| table[(of[u] * K + a) * classes + of[v]])
}

fn matrices(rng: &mut Rng) -> Vec<(&'static str, Vec<u8>)> {
    let bit = |x: usize, i: usize| (i < 6 && x >> i & 1 == 1) as u8;
    vec![
        ("all alike", matrix_of(|_, _, _| 1)),
        ("all different, first right", matrix_of(|u, a, v| (a == 0 && u == v) as u8)),
        ("all different, last right", matrix_of(|u, a, v| (a == K - 1 && u == v) as u8)),
        // six last cells tell the entities apart by the bits of their numbers
        ("different in the last cells sent", matrix_of(|u, a, v| if a == K - 1 { bit(u, N - 1 - v) } else { 0 })),
        ("different in the last cells received", matrix_of(|u, a, v| if a == K - 1 { bit(v, N - 1 - u) } else { 0 })),
        ("random", matrix_of(|_, _, _| rng.below(2) as u8)),
        ("8 classes", planted(8, rng)),
        ("32 classes", planted(32, rng)),
        ("rows equal, columns not", matrix_of(|_, a, v| bit(v, a))),
        ("columns equal, rows not", matrix_of(|u, a, _| bit(u, a))),
    ]
}

// ---- the clock

fn median(mut times: Vec<f64>) -> f64 {
    times.sort_by(f64::total_cmp);
    times[times.len() / 2]
}

fn micros(calls: usize, f: &mut dyn FnMut() -> u64) -> f64 {
    let start = Instant::now();
    for _ in 0..calls {
        black_box(f());
    }
    start.elapsed().as_secs_f64() * 1e6 / calls as f64
}

/// The medians of both and of the ratios: rounds of about 100 microseconds each, who comes first by turns.
fn medians(rounds: usize, proved: &mut dyn FnMut() -> u64, plain: &mut dyn FnMut() -> u64) -> (f64, f64, f64) {
    let once = micros(20, proved).max(micros(20, plain));
    let calls = (100.0 / once).clamp(1.0, 1000.0) as usize;
    let (mut ours, mut theirs, mut ratios) = (Vec::new(), Vec::new(), Vec::new());
    for round in 0..rounds {
        let (x, y);
        if round % 2 == 0 {
            x = micros(calls, proved);
            y = micros(calls, plain);
        } else {
            y = micros(calls, plain);
            x = micros(calls, proved);
        }
        ours.push(x);
        theirs.push(y);
        ratios.push(x / y);
    }
    (median(ours), median(theirs), median(ratios))
}

fn row(rounds: usize, call: &str, label: &str, says: String, proved: &mut dyn FnMut() -> u64, plain: &mut dyn FnMut() -> u64) {
    let (ours, theirs, ratio) = medians(rounds, proved, plain);
    println!("{call:6} {label:54} {says:15} {ours:8.2} {theirs:8.2} {ratio:6.2}");
}

fn says(word: u64, judged: bool) -> String {
    match (word & 0xff, judged, word >> 8 & 1) {
        (0, false, _) => format!("d {}", word >> 8),
        (0, true, 0) => format!("enforces, d {}", word >> 16),
        (0, true, _) => format!("conflict {}", word >> 16 & 0xffff),
        (number, _, _) => format!("refused {number}"),
    }
}

fn time_build(rounds: usize, label: &str, m: &[u8]) {
    let (mut s, mut t) = (vec![9u8; N], vec![9u8; N * K * N]);
    let (mut ps, mut pt) = (s.clone(), t.clone());
    let (word, plain) = (proved_build(m, &mut s, &mut t), plain_build(m, &mut ps, &mut pt));
    assert!((word, &s, &t) == (plain, &ps, &pt), "build, {label}: {word:#x} and {plain:#x}, or other bytes");
    let proved = &mut || proved_build(black_box(m), &mut s, &mut t);
    row(rounds, "build", label, says(word, false), proved, &mut || plain_build(black_box(m), &mut ps, &mut pt));
}

/// The first and the last entity.
fn time_alike(rounds: usize, label: &str, m: &[u8]) {
    let (word, plain) = (proved_alike(0, N - 1, m), plain_alike(0, N - 1, m));
    assert!(word == plain, "alike, {label}: {word:#x} and {plain:#x}");
    let told = if word == 256 { "yes" } else { "no" };
    row(rounds, "alike", label, told.to_string(), &mut || proved_alike(0, N - 1, black_box(m)), &mut || plain_alike(0, N - 1, black_box(m)));
}

fn time_judge(rounds: usize, label: &str, m: &[u8], (d, s, t): &(usize, Vec<u8>, Vec<u8>)) {
    let (word, plain) = (proved_judge(*d, m, s, t), plain_judge(*d, m, s, t));
    assert!(word == plain, "judge, {label}: {word:#x} and {plain:#x}");
    let proved = &mut || proved_judge(*d, black_box(m), s, t);
    row(rounds, "judge", label, says(word, true), proved, &mut || plain_judge(*d, black_box(m), s, t));
}

fn built(m: &[u8]) -> (usize, Vec<u8>, Vec<u8>) {
    let (mut s, mut t) = (vec![0; N], vec![0; N * K * N]);
    let d = (plain_build(m, &mut s, &mut t) >> 8) as usize;
    t.truncate(d * K * d);
    (d, s, t)
}

fn main() {
    let rounds = std::env::args().nth(1).map_or(301, |word| word.parse().expect("a number of rounds"));
    let rng = &mut Rng(20261115);
    println!("{:77} {:>8} {:>8} {:>6}", format!("microseconds a call, n {N}, k {K}"), "proved", "plain", "ratio");
    let all = matrices(rng);
    for (label, m) in &all {
        time_build(rounds, label, m);
    }
    let named = |label: &str| &all.iter().find(|(name, _)| *name == label).expect("a matrix of that name").1;
    let last = N * K * N - 1;
    let with = |place: usize, value: u8, bytes: &[u8]| {
        let mut changed = bytes.to_vec();
        changed[place] = value;
        changed
    };
    time_build(rounds, "random, the last cell unlogged", &with(last, 2, named("random")));

    for (label, m) in &all {
        time_alike(rounds, label, m);
    }
    for (label, m) in &all {
        time_judge(rounds, &format!("{label}: as built"), m, &built(m));
    }
    // a domain for each entity, and the matrix as the table
    for label in ["8 classes", "random"] {
        let m = named(label);
        let own = (N, (0..N as u8).collect(), m.clone());
        time_judge(rounds, &format!("{label}: a domain for each"), m, &own);
        time_judge(rounds, &format!("{label}: a domain for each, the last cell not so"), &with(last, m[last] ^ 1, m), &own);
        time_judge(rounds, &format!("{label}: a domain for each, the table's last cell 2"), m, &(N, own.1.clone(), with(last, 2, m)));
        let gaps: Vec<u8> = m.iter().map(|&cell| if rng.below(2) == 0 { 2 } else { cell }).collect();
        time_judge(rounds, &format!("{label}: as built, half of the cells unlogged"), &gaps, &built(m));
    }
    files::time(rounds, rng);
}
