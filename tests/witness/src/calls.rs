//! The nine calls of the archive, as include/soroluzko.h declares them, on slices that stand between guards.

use crate::chance::Chance;

// laid out as in the header
#[rustfmt::skip]
extern "C" {
    fn soroluzko_ask(n: usize, k: usize, d: usize, u: usize, a: usize, v: usize,
                     assignment: *const u8, assignment_length: usize, table: *const u8, table_length: usize) -> u64;
    fn soroluzko_alike(n: usize, k: usize, u: usize, v: usize, matrix: *const u8, matrix_length: usize) -> u64;
    fn soroluzko_build(n: usize, k: usize, matrix: *const u8, matrix_length: usize,
                       assignment: *mut u8, assignment_length: usize, table: *mut u8, table_length: usize) -> u64;
    fn soroluzko_judge(n: usize, k: usize, d: usize, matrix: *const u8, matrix_length: usize,
                       assignment: *const u8, assignment_length: usize, table: *const u8, table_length: usize) -> u64;
    fn soroluzko_read_matrix(file: *const u8, file_length: usize, matrix: *mut u8, matrix_length: usize) -> u64;
    fn soroluzko_read_policy(file: *const u8, file_length: usize,
                             assignment: *mut u8, assignment_length: usize, table: *mut u8, table_length: usize) -> u64;
    fn soroluzko_write_matrix(n: usize, k: usize, matrix: *const u8, matrix_length: usize,
                              file: *mut u8, file_length: usize) -> u64;
    fn soroluzko_write_policy(n: usize, k: usize, d: usize, assignment: *const u8, assignment_length: usize,
                              table: *const u8, table_length: usize, file: *mut u8, file_length: usize) -> u64;
    fn soroluzko_weave(input: *const u8, input_length: usize, output: *mut u8, output_length: usize) -> u64;
}

#[derive(Clone, Copy, PartialEq)]
pub enum Call {
    Ask,
    Alike,
    Build,
    Judge,
    ReadMatrix,
    ReadPolicy,
    WriteMatrix,
    WritePolicy,
    Weave,
}

impl Call {
    pub const ALL: [Call; 9] = [
        Call::Ask,
        Call::Alike,
        Call::Build,
        Call::Judge,
        Call::ReadMatrix,
        Call::ReadPolicy,
        Call::WriteMatrix,
        Call::WritePolicy,
        Call::Weave,
    ];

    /// The call's name, the names of its numbers, and the number of buffers that it may write.
    fn form(self) -> (&'static str, &'static str, usize) {
        match self {
            Call::Ask => ("ask", "nkduav", 0),
            Call::Alike => ("alike", "nkuv", 0),
            Call::Build => ("build", "nk", 2),
            Call::Judge => ("judge", "nkd", 0),
            Call::ReadMatrix => ("read_matrix", "", 1),
            Call::ReadPolicy => ("read_policy", "", 2),
            Call::WriteMatrix => ("write_matrix", "nk", 1),
            Call::WritePolicy => ("write_policy", "nkd", 1),
            Call::Weave => ("weave", "", 1),
        }
    }

    pub fn name(self) -> &'static str {
        self.form().0
    }

    pub fn numbers(self) -> &'static str {
        self.form().1
    }

    pub fn buffers(self) -> usize {
        self.form().2
    }
}

/// What a call is asked: its numbers in their order, and the slices that it only reads.
pub struct Question {
    pub call: Call,
    pub numbers: Vec<usize>,
    pub given: Vec<Vec<u8>>,
}

impl Question {
    pub fn new(call: Call, numbers: &[usize], given: &[&[u8]]) -> Question {
        Question { call, numbers: numbers.to_vec(), given: given.iter().map(|bytes| bytes.to_vec()).collect() }
    }
}

/// A slice lent to a call, between guards, and the image that the memory must have after the call.
pub struct Lent {
    memory: Box<[u8]>,
    image: Box<[u8]>,
    start: usize,
    length: usize,
    null: bool,
}

impl Lent {
    /// Without guards the slice has an allocation of its own, so that valgrind sees each step outside it.
    pub fn new(bytes: &[u8], guard: usize, chance: &mut Chance) -> Lent {
        let start = if guard == 0 { 0 } else { guard + chance.below(16) };
        let mut memory = vec![0; start + bytes.len() + guard].into_boxed_slice();
        chance.fill(&mut memory[..start]);
        memory[start..start + bytes.len()].copy_from_slice(bytes);
        chance.fill(&mut memory[start + bytes.len()..]);
        Lent { image: memory.clone(), memory, start, length: bytes.len(), null: bytes.is_empty() && chance.one_in(2) }
    }

    pub fn bytes(&self) -> &[u8] {
        &self.image[self.start..self.start + self.length]
    }

    pub fn found(&self) -> &[u8] {
        &self.memory[self.start..self.start + self.length]
    }

    /// Puts bytes into the slice before a call.
    pub fn set(&mut self, at: usize, bytes: &[u8]) {
        let range = self.start + at..self.start + at + bytes.len();
        self.memory[range.clone()].copy_from_slice(bytes);
        self.image[range].copy_from_slice(bytes);
    }

    pub fn poison(&mut self, byte: u8) {
        let range = self.start..self.start + self.length;
        self.memory[range.clone()].fill(byte);
        self.image[range].fill(byte);
    }

    /// Lends fewer bytes of the same memory; what follows them is guard.
    pub fn cut(&mut self, length: usize) {
        self.length = length;
    }

    /// Says which bytes a call must write, at the slice's start.
    pub fn expect(&mut self, first: &[u8]) {
        self.image[self.start..self.start + first.len()].copy_from_slice(first);
    }

    pub fn intact(&self) -> bool {
        self.memory == self.image
    }

    pub fn restore(&mut self) {
        self.memory.copy_from_slice(&self.image);
    }

    fn pointer(&mut self) -> *mut u8 {
        if self.null {
            std::ptr::null_mut()
        } else {
            self.memory.as_mut_ptr().wrapping_add(self.start)
        }
    }
}

/// A question and its buffers, all lent.
pub struct Case {
    pub call: Call,
    pub numbers: Vec<usize>,
    pub given: Vec<Lent>,
    pub lent: Vec<Lent>,
}

impl Case {
    pub fn run(&mut self) -> u64 {
        let all = self.given.iter_mut().chain(&mut self.lent);
        let mut slices = [(std::ptr::null_mut(), 0); 3];
        all.zip(&mut slices).for_each(|(lent, slice)| *slice = (lent.pointer(), lent.length));
        let [(p, p_length), (q, q_length), (r, r_length)] = slices;
        let number = |i: usize| self.numbers[i];
        // Sound as far as the archive keeps to its header: each pointer has its length of bytes, and no two slices overlap.
        unsafe {
            match self.call {
                Call::Ask => {
                    soroluzko_ask(number(0), number(1), number(2), number(3), number(4), number(5), p, p_length, q, q_length)
                }
                Call::Alike => soroluzko_alike(number(0), number(1), number(2), number(3), p, p_length),
                Call::Build => soroluzko_build(number(0), number(1), p, p_length, q, q_length, r, r_length),
                Call::Judge => soroluzko_judge(number(0), number(1), number(2), p, p_length, q, q_length, r, r_length),
                Call::ReadMatrix => soroluzko_read_matrix(p, p_length, q, q_length),
                Call::ReadPolicy => soroluzko_read_policy(p, p_length, q, q_length, r, r_length),
                Call::WriteMatrix => soroluzko_write_matrix(number(0), number(1), p, p_length, q, q_length),
                Call::WritePolicy => {
                    soroluzko_write_policy(number(0), number(1), number(2), p, p_length, q, q_length, r, r_length)
                }
                Call::Weave => soroluzko_weave(p, p_length, q, q_length),
            }
        }
    }
}
