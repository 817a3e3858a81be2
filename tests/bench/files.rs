//! The calls on files, at the longest files. Prints the medians of megabytes of file a second and of the ratios of the times.
use crate::{medians, plain, refused, Rng, K, N};
use std::hint::black_box;

extern "C" {
    fn soroluzko_read_matrix(f: *const u8, fl: usize, m: *mut u8, ml: usize) -> u64;
    fn soroluzko_read_policy(f: *const u8, fl: usize, s: *mut u8, sl: usize, t: *mut u8, tl: usize) -> u64;
    fn soroluzko_write_matrix(n: usize, k: usize, m: *const u8, ml: usize, f: *mut u8, fl: usize) -> u64;
    fn soroluzko_write_policy(n: usize, k: usize, d: usize, s: *const u8, sl: usize, t: *const u8, tl: usize, f: *mut u8, l: usize) -> u64;
}

const D: usize = 64;

/// Bytes that a call fills, or takes: the assignment, which a matrix does not have, and the cells.
#[derive(Clone, PartialEq)]
struct Held(Vec<u8>, Vec<u8>);

type Reader = fn(&[u8], &mut Held) -> u64;
type Writer = fn(&Held, &mut [u8]) -> u64;

// safe, all four: each pointer is with its slice's length, and the borrows do not overlap
fn proved_read_matrix(file: &[u8], Held(_, m): &mut Held) -> u64 {
    unsafe { soroluzko_read_matrix(file.as_ptr(), file.len(), m.as_mut_ptr(), m.len()) }
}

fn proved_read_policy(file: &[u8], Held(s, t): &mut Held) -> u64 {
    unsafe { soroluzko_read_policy(file.as_ptr(), file.len(), s.as_mut_ptr(), s.len(), t.as_mut_ptr(), t.len()) }
}

fn proved_write_matrix(Held(_, m): &Held, file: &mut [u8]) -> u64 {
    unsafe { soroluzko_write_matrix(N, K, m.as_ptr(), m.len(), file.as_mut_ptr(), file.len()) }
}

fn proved_write_policy(Held(s, t): &Held, file: &mut [u8]) -> u64 {
    unsafe { soroluzko_write_policy(N, K, D, s.as_ptr(), s.len(), t.as_ptr(), t.len(), file.as_mut_ptr(), file.len()) }
}

fn plain_read_matrix(file: &[u8], Held(_, m): &mut Held) -> u64 {
    plain::read_matrix(file, m).map_or_else(refused, |(n, k)| (n as u64) << 8 | (k as u64) << 16)
}

fn plain_read_policy(file: &[u8], Held(s, t): &mut Held) -> u64 {
    plain::read_policy(file, s, t).map_or_else(refused, |(n, k, d)| (n as u64) << 8 | (k as u64) << 16 | (d as u64) << 24)
}

fn plain_write_matrix(Held(_, m): &Held, file: &mut [u8]) -> u64 {
    plain::write_matrix(N, K, m, file).map_or_else(refused, |length| (length as u64) << 8)
}

fn plain_write_policy(Held(s, t): &Held, file: &mut [u8]) -> u64 {
    plain::write_policy(N, K, D, s, t, file).map_or_else(refused, |length| (length as u64) << 8)
}

fn row(rounds: usize, label: &str, bytes: usize, proved: &mut dyn FnMut() -> u64, plain: &mut dyn FnMut() -> u64) {
    let (ours, theirs, ratio) = medians(rounds, proved, plain);
    let (ours, theirs) = (bytes as f64 / ours, bytes as f64 / theirs); // bytes a microsecond are megabytes a second
    println!("{label:61} {bytes:9} bytes {ours:8.0} {theirs:8.0} {ratio:6.2}");
}

/// Both write the same file, and read the same from it and from what is left of it, or damaged; then the clock.
fn time_kind(rounds: usize, kind: &str, held: &Held, length: usize, readers: [Reader; 2], writers: [Writer; 2]) {
    let [mut file, mut other] = [vec![9; length], vec![9; length]];
    let words = [writers[0](held, &mut file), writers[1](held, &mut other)];
    assert!(words == [(length as u64) << 8; 2] && file == other, "write {kind}: {words:#x?}, or other bytes");
    let [mut ours, mut theirs] = [Held(vec![9; N], vec![9; N * K * N]), Held(vec![9; N], vec![9; N * K * N])];
    let mut same = |file: &[u8], what: &str| {
        let words = [readers[0](file, &mut ours), readers[1](file, &mut theirs)];
        assert!(words[0] == words[1] && ours == theirs, "read {kind}, {what}: {words:#x?}, or other bytes");
        words[0]
    };
    for i in (0..length).filter(|i| *i < 200 || i % 97 == 0 || i + 9 > length) {
        other[i] ^= 1 << (i % 7);
        same(&other, "a byte changed");
        other[i] = file[i];
        same(&file[..i], "cut");
    }
    other.push(b'\n');
    same(&other, "a byte behind");
    assert!(same(&file, "whole") & 0xff == 0 && ours.1 == held.1, "read {kind}: other cells than were written");

    let proved = &mut || readers[0](black_box(&file), &mut ours);
    row(rounds, &format!("read {kind}"), length, proved, &mut || readers[1](black_box(&file), &mut theirs));
    other[length - 1] = b'Z';
    let proved = &mut || readers[0](black_box(&other), &mut ours);
    row(rounds, &format!("read {kind}, refused at the last byte"), length, proved, &mut || readers[1](black_box(&other), &mut theirs));
    let proved = &mut || writers[0](black_box(held), &mut file);
    row(rounds, &format!("write {kind}"), length, proved, &mut || writers[1](black_box(held), &mut other));
}

pub fn time(rounds: usize, rng: &mut Rng) {
    let heading = format!("megabytes of file a second, n {N}, k {K}, d {D}");
    println!("\n{heading:77} {:>8} {:>8} {:>6}", "proved", "plain", "ratio");
    let mut random = |count: usize, below: usize| (0..count).map(|_| rng.below(below) as u8).collect::<Vec<u8>>();
    let matrix = Held(vec![9; N], random(N * K * N, 3));
    let policy = Held(random(N, D), random(D * K * D, 2));
    time_kind(rounds, "a matrix", &matrix, 33097, [proved_read_matrix, plain_read_matrix], [proved_write_matrix, plain_write_matrix]);
    time_kind(rounds, "a policy", &policy, 33230, [proved_read_policy, plain_read_policy], [proved_write_policy, plain_write_policy]);
}
