//! The ledger: runs a case, compares the word and every byte, counts what was answered, and prints faults.

use crate::calls::{Call, Case, Lent, Question};
use crate::chance::Chance;
use crate::rules::Answer;

/// So many faults of a thread are printed whole; all are counted.
const PRINTED: u64 = 3;

/// What a call can answer: the refusals by number (1 and 9 by place too), then the rest.
fn kinds(call: Call) -> &'static [&'static str] {
    match call {
        Call::Ask => &["1n", "1k", "1d", "5", "7", "9u", "9a", "9v", "6", "8", "deny", "grant"],
        Call::Alike => &["1n", "1k", "2", "3", "4", "9u", "9v", "no", "yes"],
        Call::Build => &["1n", "1k", "2", "3", "4", "10", "11", "built"],
        Call::Judge => &["1n", "1k", "1d", "2", "3", "5", "6", "7", "8", "enforces", "conflict 0", "conflict 1"],
        Call::ReadMatrix => &["12", "11", "read"],
        Call::ReadPolicy => &["12", "10", "11", "read"],
        Call::WriteMatrix => &["1n", "1k", "2", "3", "11", "written"],
        Call::WritePolicy => &["1n", "1k", "1d", "5", "6", "7", "8", "11", "written"],
        Call::Weave => &["11", "NO12", "NO04", "woven"],
    }
}

fn kind(call: Call, answer: &Answer) -> &'static str {
    let (number, rest) = (answer.word as usize & 0xff, answer.word >> 8);
    match (number, call) {
        (0, Call::Ask) => ["deny", "grant"][rest as usize],
        (0, Call::Alike) => ["no", "yes"][rest as usize],
        (0, Call::Build) => "built",
        (0, Call::Judge) if rest & 1 == 0 => "enforces",
        (0, Call::Judge) => ["conflict 0", "conflict 1"][(rest >> 24) as usize],
        (0, Call::ReadMatrix | Call::ReadPolicy) => "read",
        (0, Call::WriteMatrix | Call::WritePolicy) => "written",
        (0, Call::Weave) => match &answer.written[0][..4] {
            b"NO12" => "NO12",
            b"NO04" => "NO04",
            _ => "woven",
        },
        (1, _) => ["1n", "1k", "1d"][rest as usize],
        (9, Call::Alike) => ["9u", "9v"][rest as usize],
        (9, _) => ["9u", "9a", "9v"][rest as usize],
        _ => ["", "", "2", "3", "4", "5", "6", "7", "8", "", "10", "11", "12"][number],
    }
}

#[derive(Clone, Copy, Default)]
struct Count {
    cases: u64,
    faults: u64,
    kinds: [u64; 12],
}

pub struct Ledger {
    pub chance: Chance,
    guard: usize,
    counts: [Count; 9],
    printed: u64,
}

impl Ledger {
    pub fn new(seed: u64, guard: usize) -> Ledger {
        Ledger { chance: Chance::new(seed), guard, counts: [Count::default(); 9], printed: 0 }
    }

    pub fn lend(&mut self, bytes: &[u8]) -> Lent {
        Lent::new(bytes, self.guard, &mut self.chance)
    }

    /// The question with buffers of these lengths, poisoned.
    pub fn case(&mut self, question: &Question, rooms: &[usize]) -> Case {
        let given = question.given.iter().map(|bytes| self.lend(bytes)).collect();
        let poisoned: Vec<_> = rooms.iter().map(|&room| self.chance.bytes(room)).collect();
        let lent = poisoned.iter().map(|bytes| self.lend(bytes)).collect();
        Case { call: question.call, numbers: question.numbers.clone(), given, lent }
    }

    /// Runs a case once, against the answer that it must give.
    pub fn check(&mut self, case: &mut Case, answer: &Answer) {
        for (lent, bytes) in case.lent.iter_mut().zip(&answer.written) {
            lent.expect(bytes);
        }
        let word = case.run();
        let met = kind(case.call, answer);
        let count = &mut self.counts[case.call as usize];
        count.cases += 1;
        count.kinds[kinds(case.call).iter().position(|&kind| kind == met).expect("a kind that the call can answer")] += 1;
        if word != answer.word || !case.given.iter().chain(&case.lent).all(Lent::intact) {
            self.fault(case.call, || describe(case, answer.word, word));
            case.given.iter_mut().chain(&mut case.lent).for_each(Lent::restore);
        }
    }

    /// A statement about a call's answers, beyond one case.
    pub fn claim(&mut self, call: Call, holds: bool, what: impl Fn() -> String) {
        if !holds {
            self.fault(call, || format!("{}: {}", call.name(), what()));
        }
    }

    fn fault(&mut self, call: Call, what: impl Fn() -> String) {
        self.counts[call as usize].faults += 1;
        self.printed += 1;
        if self.printed <= PRINTED {
            println!("witness: FAULT, {}", what());
        }
    }

    pub fn add(&mut self, other: &Ledger) {
        for (mine, theirs) in self.counts.iter_mut().zip(&other.counts) {
            mine.cases += theirs.cases;
            mine.faults += theirs.faults;
            mine.kinds.iter_mut().zip(theirs.kinds).for_each(|(mine, theirs)| *mine += theirs);
        }
    }

    /// Prints all counts; true if nothing failed and every kind of answer was met.
    pub fn close(&self) -> bool {
        let (mut cases, mut faults, mut unmet) = (0, 0, 0);
        for call in Call::ALL {
            let count = self.counts[call as usize];
            let met = kinds(call).iter().zip(count.kinds).map(|(kind, times)| format!("{kind}: {}", thousands(times)));
            let met = met.collect::<Vec<_>>().join(", ");
            println!("{}: {} cases, {} faults ({met})", call.name(), thousands(count.cases), thousands(count.faults));
            cases += count.cases;
            faults += count.faults;
            unmet += count.kinds[..kinds(call).len()].iter().filter(|&&times| times == 0).count();
        }
        if unmet > 0 {
            println!("witness: {unmet} kinds of answer were never met");
        }
        println!("witness: {} cases, {} faults", thousands(cases), thousands(faults));
        faults == 0 && unmet == 0
    }
}

fn thousands(number: u64) -> String {
    if number < 1000 {
        number.to_string()
    } else {
        format!("{},{:03}", thousands(number / 1000), number % 1000)
    }
}

/// Bytes in hexadecimal, a run of equal ones as `byte*times`.
fn runs(bytes: &[u8]) -> String {
    let run = |run: &[u8]| if run.len() == 1 { format!(" {:02x}", run[0]) } else { format!(" {:02x}*{}", run[0], run.len()) };
    bytes.chunk_by(|a, b| a == b).map(run).collect()
}

fn describe(case: &Case, expected: u64, found: u64) -> String {
    let mut text = format!("{}: answers {found:#x}, must answer {expected:#x}\n ", case.call.name());
    case.call.numbers().chars().zip(&case.numbers).for_each(|(name, number)| text += &format!(" {name} {number}"));
    for (name, slices) in [("given", &case.given), ("lent", &case.lent)] {
        for (i, slice) in slices.iter().enumerate() {
            text += &format!("\n  {name} {i}, {} bytes, must hold{}", slice.bytes().len(), runs(slice.bytes()));
            if slice.found() != slice.bytes() {
                text += &format!("\n  {name} {i} holds{}", runs(slice.found()));
            } else if !slice.intact() {
                text += &format!("\n  {name} {i}: bytes outside it were written");
            }
        }
    }
    text
}
