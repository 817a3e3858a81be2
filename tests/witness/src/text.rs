//! The two files. What may stand at a position follows from the position and the bytes before it, by arithmetic on n, k and d;
//! so the place of a fault is the first position whose byte may not stand there.

use crate::policy::{Matrix, Policy};

/// A set of ASCII bytes: bit b stands for byte b.
pub type Set = u128;

pub fn has(set: Set, byte: u8) -> bool {
    byte < 128 && set >> byte & 1 == 1
}

fn only(byte: u8) -> Set {
    1 << byte
}

fn any(bytes: &[u8]) -> Set {
    bytes.iter().fold(0, |set, &byte| set | only(byte))
}

/// The digits at one column, 0 or 1, of the two-digit numbers from `least` to `most` whose digits so far are as in `head`.
fn digit(least: usize, most: usize, column: usize, head: &[u8]) -> Set {
    if column == 0 {
        return (least / 10..=most / 10).fold(0, |set, tens| set | only(b'0' + tens as u8));
    }
    let tens = 10 * value(head[head.len() - 1]);
    (0..10).filter(|units| (least..=most).contains(&(tens + units))).fold(0, |set, units| set | only(b'0' + units as u8))
}

fn value(digit: u8) -> usize {
    usize::from(digit - b'0')
}

fn number(two: &[u8]) -> usize {
    10 * value(two[0]) + value(two[1])
}

#[derive(Clone, Copy, PartialEq)]
pub enum File {
    Matrix,
    Policy,
}

impl File {
    pub fn cells(self) -> &'static [u8] {
        if self == File::Matrix {
            b"01*"
        } else {
            b"01"
        }
    }

    /// The position behind the last number that is not fixed, where the records begin.
    pub fn records(self, file: &[u8]) -> usize {
        if self == File::Matrix {
            6
        } else {
            11 + 2 * number(&file[2..])
        }
    }

    /// The bytes that may follow `head`, the leading bytes of some well-formed file; none where it is whole.
    pub fn admits(self, head: &[u8]) -> Set {
        let at = head.len();
        match (self, at) {
            (File::Matrix, 0..=1) => only(b"MX"[at]),
            (File::Policy, 0..=1) => only(b"PD"[at]),
            (_, 2..=3) => digit(0, 64, at - 2, head),
            (_, 4) => any(b"12345678"),
            (File::Matrix, 5) | (File::Policy, 7) => only(b'\n'),
            (File::Policy, 5..=6) => digit(number(&head[2..]).min(1), 64, at - 5, head),
            (File::Matrix, _) => {
                let (n, k) = (number(&head[2..]), value(head[4]));
                self.admits_record(b"RW", n, k * n, at - 6, head)
            }
            (File::Policy, _) => {
                let (n, k, d) = (number(&head[2..]), value(head[4]), number(&head[5..]));
                match at - 8 {
                    column @ 0..=1 => only(b"AS"[column]),
                    column if column < 2 + 2 * n => digit(0, d - 1, column % 2, head),
                    column if column == 2 + 2 * n => only(b'\n'),
                    column => self.admits_record(b"TB", d, k * d, column - 3 - 2 * n, head),
                }
            }
        }
    }

    /// The bytes that may stand `at` bytes behind the start of the first of `count` records of `width` cells each.
    fn admits_record(self, mark: &[u8; 2], count: usize, width: usize, at: usize, head: &[u8]) -> Set {
        let (record, column) = (at / (width + 5), at % (width + 5));
        if record >= count {
            return b"ZZ\n".get(at - count * (width + 5)).map_or(0, |&byte| only(byte));
        }
        match column {
            0..=1 => only(mark[column]),
            2..=3 => digit(record, record, column - 2, head),
            _ if column == width + 4 => only(b'\n'),
            _ => any(self.cells()),
        }
    }

    /// The number of leading bytes shared with some well-formed file, at the most; `None` where the input is one.
    pub fn place(self, input: &[u8]) -> Option<usize> {
        let shared = (0..input.len()).find(|&at| !has(self.admits(&input[..at]), input[at])).unwrap_or(input.len());
        let whole = shared == input.len() && self.admits(input) == 0;
        (!whole).then_some(shared)
    }

    /// The cells of the records in well-formed text.
    fn values(self, records: &[u8], count: usize, width: usize) -> Vec<u8> {
        let cells = records.chunks(width + 5).take(count).flat_map(|record| &record[4..4 + width]);
        cells.map(|&cell| if cell == b'*' { 2 } else { cell - b'0' }).collect()
    }

    fn characters(self, cells: &[u8]) -> String {
        cells.iter().map(|&cell| char::from(self.cells()[usize::from(cell)])).collect()
    }
}

impl Matrix {
    pub fn file(&self) -> Vec<u8> {
        let mut text = format!("MX{:02}{}\n", self.n, self.k);
        for (u, row) in self.cells.chunks((self.k * self.n).max(1)).enumerate() {
            text += &format!("RW{u:02}{}\n", File::Matrix.characters(row));
        }
        (text + "ZZ\n").into_bytes()
    }

    /// The matrix of a well-formed file.
    pub fn of_file(file: &[u8]) -> Matrix {
        let (n, k) = (number(&file[2..]), value(file[4]));
        Matrix { n, k, cells: File::Matrix.values(&file[6..], n, k * n) }
    }
}

impl Policy {
    pub fn file(&self) -> Vec<u8> {
        let mut text = format!("PD{:02}{}{:02}\nAS", self.n, self.k, self.d);
        self.assignment.iter().for_each(|domain| text += &format!("{domain:02}"));
        for (p, record) in self.table.chunks((self.k * self.d).max(1)).enumerate() {
            text += &format!("\nTB{p:02}{}", File::Policy.characters(record));
        }
        (text + "\nZZ\n").into_bytes()
    }

    /// The policy of a well-formed file.
    pub fn of_file(file: &[u8]) -> Policy {
        let (n, k, d) = (number(&file[2..]), value(file[4]), number(&file[5..]));
        let assignment = file[10..10 + 2 * n].chunks(2).map(|two| number(two) as u8).collect();
        Policy { n, k, d, assignment, table: File::Policy.values(&file[11 + 2 * n..], d, k * d) }
    }
}
