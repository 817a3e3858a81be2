//! Random questions to each call, whole and with any of the faults that the call can have.

use crate::calls::{Call, Question};
use crate::chance::Chance;
use crate::ledger::Ledger;
use crate::rules::{Answer, LONGEST_POLICY};
use crate::world::World;

pub fn run(ledger: &mut Ledger, times: usize) {
    for call in Call::ALL {
        for _ in 0..times {
            let question = question(call, &mut ledger.chance);
            let answer = question.answer();
            let rooms = rooms(call, &answer, &mut ledger.chance);
            let mut case = ledger.case(&question, &rooms);
            ledger.check(&mut case, &answer.with_rooms(call, &rooms));
        }
    }
}

/// Lengths of the buffers: long enough, exactly so, or too short.
fn rooms(call: Call, answer: &Answer, chance: &mut Chance) -> Vec<usize> {
    let mut room = |i: usize| match answer.written.get(i) {
        Some(_) if call == Call::Weave => match chance.below(20) {
            0 => LONGEST_POLICY - 1,
            1 => chance.below(LONGEST_POLICY),
            2..=9 => LONGEST_POLICY,
            _ => LONGEST_POLICY + chance.below(200),
        },
        Some(bytes) => match chance.below(20) {
            0 => bytes.len().saturating_sub(1),
            1 => chance.below(bytes.len() + 1),
            2..=10 => bytes.len(),
            _ => bytes.len() + chance.below(70),
        },
        None if chance.one_in(100) => LONGEST_POLICY,
        None => chance.of(&[0, 1, 9, 64, 300, 600]),
    };
    (0..call.buffers()).map(&mut room).collect()
}

fn question(call: Call, chance: &mut Chance) -> Question {
    let mut world = World::draw(chance);
    let partial = match call {
        Call::Judge | Call::ReadMatrix | Call::WriteMatrix => chance.one_in(2),
        _ => chance.one_in(8),
    };
    if partial {
        world.forget(chance);
    }
    let (matrix, mut policy) = (world.matrix, world.policy);
    if call == Call::Judge && !partial && chance.one_in(4) {
        policy = matrix.build();
    }
    let (n, k, d) = (policy.n, policy.k, policy.d);
    let any = [chance.below(n.max(1)), chance.below(n.max(1))];
    let [u, v] = if chance.one_in(2) { world.pair } else { any };
    let (numbers, given) = match call {
        Call::Ask => (vec![n, k, d, u, chance.below(k.max(1)), v], vec![policy.assignment, policy.table]),
        Call::Alike => (vec![n, k, u, v], vec![matrix.cells]),
        Call::Build | Call::WriteMatrix => (vec![n, k], vec![matrix.cells]),
        Call::Judge => (vec![n, k, d], vec![matrix.cells, policy.assignment, policy.table]),
        Call::WritePolicy => (vec![n, k, d], vec![policy.assignment, policy.table]),
        Call::ReadMatrix | Call::Weave => (vec![], vec![matrix.file()]),
        Call::ReadPolicy => (vec![], vec![policy.file()]),
    };
    let mut question = Question { call, numbers, given };
    match call {
        Call::ReadMatrix | Call::ReadPolicy | Call::Weave => spoil_file(&mut question.given[0], chance),
        _ => spoil(&mut question, chance),
    }
    question
}

/// Any of the faults in numbers and slices, in half of the questions: none, one or several.
fn spoil(question: &mut Question, chance: &mut Chance) {
    if chance.one_in(2) {
        return;
    }
    // about one and a half faults on average
    let odds = (question.numbers.len() + 2 * question.given.len()) * 2 / 3;
    for number in &mut question.numbers {
        if chance.one_in(odds) {
            let near = [*number + 1, number.saturating_sub(1)];
            let far = [0, 1, 2, 8, 9, 63, 64, 65, 255, 256, 257, 1 << 32, 1 << 63, usize::MAX];
            *number = if chance.one_in(3) { chance.of(&near) } else { chance.of(&far) };
        }
    }
    for bytes in &mut question.given {
        if chance.one_in(odds) {
            let lengths = [bytes.len() + 1, bytes.len().saturating_sub(1), 0, chance.below(bytes.len() + 1), 2 * bytes.len()];
            bytes.resize(chance.of(&lengths), 0);
        }
        if chance.one_in(odds) && !bytes.is_empty() {
            for _ in 0..chance.between(1, 3) {
                let at = chance.below(bytes.len());
                let stray = [2, 3, 4, 5, 64, 128, 255, chance.byte()];
                bytes[at] = chance.of(&stray);
            }
        }
    }
}

/// One or two damages to a file, in half of the questions.
fn spoil_file(file: &mut Vec<u8>, chance: &mut Chance) {
    if chance.one_in(2) {
        return;
    }
    for _ in 0..chance.between(1, 2) {
        let at = chance.below(file.len() + 1);
        let byte = if chance.one_in(3) { chance.byte() } else { chance.of(b"0000111123456789*\nMXRWPDASTBZ") };
        match chance.below(15) {
            0..=2 => file.truncate(at),
            3 => file.insert(at, byte),
            4 if at < file.len() => drop(file.remove(at)),
            // the header: other sizes, in range or not
            5..=8 if file.len() > 7 => file[chance.between(2, 6)] = b'0' + chance.below(10) as u8,
            9 => *file = move_line(file, chance),
            10 => file.push(byte),
            11 => file.extend_from_within(..),
            12 => {
                let length = if chance.one_in(20) { chance.below(100_000) } else { chance.of(&[1, 2, 40, 1000]) };
                file.extend(chance.bytes(length));
            }
            13 if chance.one_in(20) => chance.fill(file),
            _ if at < file.len() => file[at] = byte,
            _ => {}
        }
    }
}

/// The file with one line in another's place.
fn move_line(file: &[u8], chance: &mut Chance) -> Vec<u8> {
    let mut lines: Vec<_> = file.split_inclusive(|&byte| byte == b'\n').collect();
    if !lines.is_empty() {
        let line = lines.remove(chance.below(lines.len()));
        lines.insert(chance.below(lines.len() + 1), line);
    }
    lines.concat()
}
