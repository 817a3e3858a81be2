//! Files of every size, whole, cut at every length and damaged at every byte.

use crate::calls::{Call, Case, Question};
use crate::chance::Chance;
use crate::ledger::Ledger;
use crate::rules::{Answer, LONGEST_POLICY};
use crate::text::{has, File, Set};
use crate::world::{policy, World};

/// A file up to this length has every other byte at every position; a longer one has some of them.
const SHORT: usize = 300;
/// A file up to this length has at every position a byte that may stand there and any byte; a longer one at a third of them.
const MIDDLE: usize = 4000;

/// A matrix file of every n for some numbers of rights.
pub fn matrices(ledger: &mut Ledger, sizes: impl Iterator<Item = usize>, rights: &[usize]) {
    for n in sizes {
        for &k in rights {
            let mut world = World::of(n, k, n.clamp(1, 6), &mut ledger.chance);
            weave(ledger, &world.matrix.file());
            if ledger.chance.one_in(2) {
                world.forget(&mut ledger.chance);
            }
            round_trip(ledger, Question::new(Call::WriteMatrix, &[n, k], &[&world.matrix.cells]), Call::ReadMatrix);
            sweep(ledger, Call::ReadMatrix, &world.matrix.file());
        }
    }
}

/// Sizes of policies with every d up to `most`: n takes every value too, as 23 and 65 have no factor in common, and so does k.
pub fn policy_sizes(most: usize) -> impl Iterator<Item = [usize; 3]> {
    let every = (0..=most).map(|d| [23 * d % 65, 1 + d % 8, d]);
    let nobody = [1, 10, 11].map(|d| [0, 1 + d % 8, d]);
    every.chain(nobody).chain([[most, 8, most]])
}

pub fn policies(ledger: &mut Ledger, sizes: impl Iterator<Item = [usize; 3]>) {
    for [n, k, d] in sizes {
        let policy = policy(n, k, d, &mut ledger.chance);
        let question = Question::new(Call::WritePolicy, &[n, k, d], &[&policy.assignment, &policy.table]);
        round_trip(ledger, question, Call::ReadPolicy);
        sweep(ledger, Call::ReadPolicy, &policy.file());
    }
}

/// Every header that is made of digits, in range or not.
pub fn headers(ledger: &mut Ledger) {
    let sizes = (0..100).flat_map(|n| (0..10).map(move |k| (n, k)));
    for (n, k) in sizes {
        header(ledger, Call::ReadMatrix, format!("MX{n:02}{k}\n"));
        (0..100).for_each(|d| header(ledger, Call::ReadPolicy, format!("PD{n:02}{k}{d:02}\n")));
    }
}

fn header(ledger: &mut Ledger, call: Call, text: String) {
    let question = Question::new(call, &[], &[text.as_bytes()]);
    let mut case = ledger.case(&question, &[9, 9][..call.buffers()]);
    ledger.check(&mut case, &question.answer());
}

/// Writes, reads what was written, and writes what was read.
fn round_trip(ledger: &mut Ledger, write: Question, read: Call) {
    let written = write.answer();
    let length = written.written[0].len();
    let mut writing = ledger.case(&write, &[length + 9]);
    ledger.check(&mut writing, &written);

    let rooms: Vec<_> = write.given.iter().map(Vec::len).collect();
    let mut reading = ledger.case(&Question::new(read, &[], &[&writing.lent[0].bytes()[..length]]), &rooms);
    // n, k and d, a byte each
    let word = write.numbers.iter().rev().fold(0, |word, &number| word << 8 | number as u64) << 8;
    ledger.check(&mut reading, &Answer { word, written: write.given });

    let given: Vec<_> = reading.lent.iter().map(|lent| lent.bytes()).collect();
    let mut writing = ledger.case(&Question::new(write.call, &write.numbers, &given), &[length]);
    ledger.check(&mut writing, &written);
}

fn malformed(place: usize) -> Answer {
    Answer { word: 12 | (place as u64) << 8, written: vec![] }
}

/// Every cut and every damaged byte of one file, to its reader.
fn sweep(ledger: &mut Ledger, call: Call, file: &[u8]) {
    let kind = if call == Call::ReadMatrix { File::Matrix } else { File::Policy };
    let question = Question::new(call, &[], &[file]);
    let mut whole = question.answer();
    let rooms: Vec<_> = whole.written.iter().map(|bytes| bytes.len() + ledger.chance.below(9)).collect();
    let mut case = ledger.case(&question, &rooms);
    read(ledger, &mut case, &whole);
    cuts(ledger, &mut case, file, &rooms);
    let mut cell = 0;
    for at in 0..file.len() {
        let admitted = kind.admits(&file[..at]);
        // the records hold cells and what is fixed
        let is_cell = at >= kind.records(file) && admitted.count_ones() > 1;
        for byte in others(file, at, admitted, &mut ledger.chance) {
            case.given[0].set(at, &[byte]);
            if !has(admitted, byte) {
                ledger.check(&mut case, &malformed(at));
            } else if is_cell {
                changed_cell(ledger, &mut case, &mut whole, cell, byte);
            } else {
                changed_number(ledger, &mut case, &rooms);
            }
        }
        case.given[0].set(at, &[file[at]]);
        cell += usize::from(is_cell);
    }
    append(ledger, call, file);
}

/// Every cut: what is cut off still stands behind the slice, and, of a short file, does not.
fn cuts(ledger: &mut Ledger, case: &mut Case, file: &[u8], rooms: &[usize]) {
    for length in 0..file.len() {
        case.given[0].cut(length);
        ledger.check(case, &malformed(length));
        if file.len() <= SHORT {
            let mut alone = ledger.case(&Question::new(case.call, &[], &[&file[..length]]), rooms);
            ledger.check(&mut alone, &malformed(length));
        }
    }
    case.given[0].cut(file.len());
}

/// Bytes to put in the place of one: all others, or one that may not stand there, one that may, and any.
fn others(file: &[u8], at: usize, admitted: Set, chance: &mut Chance) -> Vec<u8> {
    if file.len() <= SHORT {
        return (0..=255).filter(|&other| other != file[at]).collect();
    }
    let tempting = b"0123456789*/:+ \0\n\rMXRWPDASTBZ";
    let wrong = tempting.iter().copied().cycle().skip(chance.below(tempting.len())).find(|&other| !has(admitted, other));
    let mut others: Vec<_> = wrong.into_iter().collect();
    if file.len() <= MIDDLE || chance.one_in(3) {
        let right: Vec<_> = b"0123456789*".iter().copied().filter(|&other| other != file[at] && has(admitted, other)).collect();
        others.extend((!right.is_empty()).then(|| chance.of(&right)));
        others.push(file[at] ^ chance.between(1, 255) as u8);
    }
    others
}

/// A read, after which the buffers are poisoned anew: by one byte that is no cell and no domain.
fn read(ledger: &mut Ledger, case: &mut Case, answer: &Answer) {
    ledger.check(case, answer);
    for lent in &mut case.lent {
        lent.poison(ledger.chance.between(65, 255) as u8);
    }
}

/// One cell is another: the file is as well formed as before, and the rest of what is read the same.
fn changed_cell(ledger: &mut Ledger, case: &mut Case, whole: &mut Answer, cell: usize, byte: u8) {
    let cells = whole.written.len() - 1;
    let value = if byte == b'*' { 2 } else { byte - b'0' };
    let old = std::mem::replace(&mut whole.written[cells][cell], value);
    read(ledger, case, whole);
    whole.written[cells][cell] = old;
}

/// One digit of a number is another, so that what may follow changes too.
fn changed_number(ledger: &mut Ledger, case: &mut Case, rooms: &[usize]) {
    let question = Question::new(case.call, &[], &[case.given[0].bytes()]);
    read(ledger, case, &question.answer().with_rooms(case.call, rooms));
}

/// Bytes behind the last line.
fn append(ledger: &mut Ledger, call: Call, file: &[u8]) {
    for behind in [&[0], &b"\n"[..], b"ZZ\n", b"RW", file] {
        let question = Question::new(call, &[], &[&[file, behind].concat()]);
        let mut case = ledger.case(&question, &[LONGEST_POLICY, LONGEST_POLICY][..call.buffers()]);
        ledger.check(&mut case, &malformed(file.len()));
    }
}

/// A file woven whole, cut, damaged, and with bytes behind, past all that a weave looks at.
fn weave(ledger: &mut Ledger, file: &[u8]) {
    let chance = &mut ledger.chance;
    let mut inputs = vec![file.to_vec()];
    for behind in [1, 2, chance.below(1000), chance.below(100_000)] {
        inputs.push([file, &chance.bytes(behind)].concat());
    }
    let all = file.len() <= SHORT;
    let places: Vec<_> = if all { (0..file.len()).collect() } else { (0..6).map(|_| chance.below(file.len())).collect() };
    for at in places {
        inputs.push(file[..at].to_vec());
        let others = others(file, at, File::Matrix.admits(&file[..at]), chance);
        let byte = chance.of(&others);
        inputs.push([&file[..at], &[byte], &file[at + 1..]].concat());
    }
    for input in inputs {
        let room = LONGEST_POLICY + ledger.chance.of(&[0, 0, 1, 70]) - usize::from(ledger.chance.one_in(20));
        let question = Question::new(Call::Weave, &[], &[&input]);
        let mut case = ledger.case(&question, &[room]);
        ledger.check(&mut case, &question.answer().with_rooms(Call::Weave, &[room]));
    }
}
