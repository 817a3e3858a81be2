//! The rules of document 01: for each call its refusals in order, and what it answers and writes where none applies.

use crate::calls::{Call, Question};
use crate::policy::{Matrix, Policy, UNLOGGED};
use crate::text::File;

/// A call's word, and the first bytes of each of its buffers, none where it is refused.
pub struct Answer {
    pub word: u64,
    pub written: Vec<Vec<u8>>,
}

/// A refusal's number and place.
type Refusal = (u64, u128);
type Fault = Option<Refusal>;

/// The longest policy file, and the room that a weave needs.
pub const LONGEST_POLICY: usize = 33_230;

fn when(applies: bool, number: u64, place: u128) -> Fault {
    applies.then_some((number, place))
}

fn lowest(number: u64, bytes: &[u8], wrong: impl Fn(u8) -> bool) -> Fault {
    bytes.iter().position(|&byte| wrong(byte)).map(|place| (number, place as u128))
}

fn refusal((number, place): Refusal) -> Answer {
    word(number | (place as u64) << 8)
}

fn refuse(fault: Fault) -> Result<(), Refusal> {
    fault.map_or(Ok(()), Err)
}

fn length(bytes: &[u8]) -> u128 {
    bytes.len() as u128
}

/// A fault of the sizes; a call without domains has d = 0.
fn sizes(n: u128, k: u128, d: u128) -> Fault {
    when(n > 64, 1, 0).or_else(|| when(k == 0 || k > 8, 1, 1)).or_else(|| when(d > 64, 1, 2))
}

fn matrix_faults(n: u128, k: u128, cells: &[u8]) -> Fault {
    when(length(cells) != n * k * n, 2, 0).or_else(|| lowest(3, cells, |cell| cell > 2))
}

fn policy_faults(n: u128, k: u128, d: u128, assignment: &[u8], table: &[u8]) -> Fault {
    when(length(assignment) != n, 5, 0)
        .or_else(|| lowest(6, assignment, |domain| u128::from(domain) >= d))
        .or_else(|| when(length(table) != d * k * d, 7, 0))
        .or_else(|| lowest(8, table, |cell| cell > 1))
}

fn matrix(n: u128, k: u128, cells: &[u8]) -> Matrix {
    Matrix { n: n as usize, k: k as usize, cells: cells.to_vec() }
}

fn policy(n: u128, k: u128, d: u128, assignment: &[u8], table: &[u8]) -> Policy {
    Policy { n: n as usize, k: k as usize, d: d as usize, assignment: assignment.to_vec(), table: table.to_vec() }
}

fn word(word: u64) -> Answer {
    Answer { word, written: Vec::new() }
}

fn written(text: Vec<u8>) -> Answer {
    Answer { word: (text.len() as u64) << 8, written: vec![text] }
}

impl Question {
    /// The numbers, as wide as the lengths that they are compared with and the products that they enter.
    fn wide<const N: usize>(&self) -> [u128; N] {
        std::array::from_fn(|i| self.numbers[i] as u128)
    }

    /// What the call answers where its buffers are long enough. Each call below has its refusals in the order of document 01;
    /// those of the buffers come last, by `with_rooms`.
    pub fn answer(&self) -> Answer {
        let answer = match self.call {
            Call::Ask => self.ask(),
            Call::Alike => self.alike(),
            Call::Build => self.build(),
            Call::Judge => self.judge(),
            Call::ReadMatrix => self.read_matrix(),
            Call::ReadPolicy => self.read_policy(),
            Call::WriteMatrix => self.write_matrix(),
            Call::WritePolicy => self.write_policy(),
            Call::Weave => Ok(self.weave()),
        };
        answer.unwrap_or_else(refusal)
    }

    /// 1, 5, 7, 9, then 6 for u, 6 for v, then 8 for the one cell.
    fn ask(&self) -> Result<Answer, Refusal> {
        let [n, k, d, u, a, v] = self.wide();
        let (assignment, table) = (&self.given[0], &self.given[1]);
        let domain = |x: u128| u128::from(assignment[x as usize]);
        let cell = || (domain(u) * k + a) * d + domain(v);
        let fault = sizes(n, k, d)
            .or_else(|| when(length(assignment) != n, 5, 0))
            .or_else(|| when(length(table) != d * k * d, 7, 0))
            .or_else(|| when(u >= n, 9, 0))
            .or_else(|| when(a >= k, 9, 1))
            .or_else(|| when(v >= n, 9, 2))
            .or_else(|| when(domain(u) >= d, 6, u))
            .or_else(|| when(domain(v) >= d, 6, v))
            .or_else(|| when(table[cell() as usize] > 1, 8, cell()));
        refuse(fault)?;
        Ok(word(u64::from(table[cell() as usize]) << 8))
    }

    /// 1, 2, 3, 4, 9.
    fn alike(&self) -> Result<Answer, Refusal> {
        let [n, k, u, v] = self.wide();
        let cells = &self.given[0];
        let fault = sizes(n, k, 0)
            .or_else(|| matrix_faults(n, k, cells))
            .or_else(|| lowest(4, cells, |cell| cell == UNLOGGED))
            .or_else(|| when(u >= n, 9, 0))
            .or_else(|| when(v >= n, 9, 1));
        refuse(fault)?;
        Ok(word(u64::from(matrix(n, k, cells).alike(u as usize, v as usize)) << 8))
    }

    /// 1, 2, 3, 4, then 10 and 11.
    fn build(&self) -> Result<Answer, Refusal> {
        let [n, k] = self.wide();
        let cells = &self.given[0];
        let fault = sizes(n, k, 0).or_else(|| matrix_faults(n, k, cells)).or_else(|| lowest(4, cells, |cell| cell == UNLOGGED));
        refuse(fault)?;
        let built = matrix(n, k, cells).build();
        Ok(Answer { word: (built.d as u64) << 8, written: vec![built.assignment, built.table] })
    }

    /// 1, 2, 3, 5, 6, 7, 8.
    fn judge(&self) -> Result<Answer, Refusal> {
        let [n, k, d] = self.wide();
        let [cells, assignment, table] = [0, 1, 2].map(|i| &self.given[i]);
        let fault = sizes(n, k, d).or_else(|| matrix_faults(n, k, cells)).or_else(|| policy_faults(n, k, d, assignment, table));
        refuse(fault)?;
        let conflict = matrix(n, k, cells).conflict(&policy(n, k, d, assignment, table));
        Ok(judged(d as u64, conflict.map(|cell| (cell, cells[cell]))))
    }

    /// 12, then 11.
    fn read_matrix(&self) -> Result<Answer, Refusal> {
        let file = &self.given[0];
        refuse(File::Matrix.place(file).map(|place| (12, place as u128)))?;
        let read = Matrix::of_file(file);
        Ok(Answer { word: (read.n as u64) << 8 | (read.k as u64) << 16, written: vec![read.cells] })
    }

    /// 12, then 10 and 11.
    fn read_policy(&self) -> Result<Answer, Refusal> {
        let file = &self.given[0];
        refuse(File::Policy.place(file).map(|place| (12, place as u128)))?;
        let read = Policy::of_file(file);
        let word = (read.n as u64) << 8 | (read.k as u64) << 16 | (read.d as u64) << 24;
        Ok(Answer { word, written: vec![read.assignment, read.table] })
    }

    /// 1, 2, 3, then 11.
    fn write_matrix(&self) -> Result<Answer, Refusal> {
        let [n, k] = self.wide();
        let fault = sizes(n, k, 0).or_else(|| matrix_faults(n, k, &self.given[0]));
        refuse(fault)?;
        Ok(written(matrix(n, k, &self.given[0]).file()))
    }

    /// 1, 5, 6, 7, 8, then 11.
    fn write_policy(&self) -> Result<Answer, Refusal> {
        let [n, k, d] = self.wide();
        let (assignment, table) = (&self.given[0], &self.given[1]);
        let fault = sizes(n, k, d).or_else(|| policy_faults(n, k, d, assignment, table));
        refuse(fault)?;
        Ok(written(policy(n, k, d, assignment, table).file()))
    }

    /// Only 11; a malformed file and an unlogged cell are told in the output.
    fn weave(&self) -> Answer {
        let input = &self.given[0];
        if let Some(place) = File::Matrix.place(input) {
            return written(format!("NO12{place:05}\n").into_bytes());
        }
        let read = Matrix::of_file(input);
        match read.cells.iter().position(|&cell| cell == UNLOGGED) {
            Some(cell) => written(format!("NO04{cell:05}\n").into_bytes()),
            None => written(read.build().file()),
        }
    }
}

/// The answer of a judge: the first conflict's cell and what is logged there, or none.
pub fn judged(d: u64, conflict: Option<(usize, u8)>) -> Answer {
    word(conflict.map_or(d << 16, |(cell, logged)| 1 << 8 | (cell as u64) << 16 | u64::from(logged) << 32))
}

impl Answer {
    /// The answer to a call whose buffers have these lengths. That one is too short is the last refusal of every call, by 10 for
    /// an assignment and by 11 for the rest; a weave needs room for the longest policy file.
    pub fn with_rooms(self, call: Call, rooms: &[usize]) -> Answer {
        for (i, bytes) in self.written.iter().enumerate() {
            let needed = if call == Call::Weave { LONGEST_POLICY } else { bytes.len() };
            if rooms[i] < needed {
                return refusal((if i + 1 < rooms.len() { 10 } else { 11 }, needed as u128));
            }
        }
        self
    }
}
