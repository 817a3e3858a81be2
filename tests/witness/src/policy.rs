//! Matrices and policies by whole signatures: two entities are alike exactly when all that they may send and all that may be
//! sent to them is the same, since the pair's own four cells stand in both rows and both columns.

use std::collections::HashMap;

#[derive(Clone)]
pub struct Matrix {
    pub n: usize,
    pub k: usize,
    pub cells: Vec<u8>,
}

#[derive(Clone)]
pub struct Policy {
    pub n: usize,
    pub k: usize,
    pub d: usize,
    pub assignment: Vec<u8>,
    pub table: Vec<u8>,
}

pub const UNLOGGED: u8 = 2;

impl Matrix {
    /// The number of the cell (u, a, v).
    pub fn number(&self, u: usize, a: usize, v: usize) -> usize {
        (u * self.k + a) * self.n + v
    }

    pub fn cell(&self, u: usize, a: usize, v: usize) -> u8 {
        self.cells[self.number(u, a, v)]
    }

    /// All that an entity may send, then all that may be sent to it.
    fn signature(&self, u: usize) -> Vec<u8> {
        let width = self.k * self.n;
        let row = &self.cells[u * width..(u + 1) * width];
        let column = self.cells.iter().skip(u).step_by(self.n);
        row.iter().chain(column).copied().collect()
    }

    pub fn alike(&self, u: usize, v: usize) -> bool {
        self.signature(u) == self.signature(v)
    }

    /// The policy with one domain for each signature, numbered as they first appear.
    pub fn build(&self) -> Policy {
        let mut domains = HashMap::new();
        let mut smallest = Vec::new();
        let mut assignment = Vec::new();
        for u in 0..self.n {
            let domain = *domains.entry(self.signature(u)).or_insert(smallest.len());
            if domain == smallest.len() {
                smallest.push(u);
            }
            assignment.push(domain as u8);
        }
        let rights = |p: usize| (0..self.k).map(move |a| (p, a));
        let requests = smallest.iter().flat_map(|&p| rights(p)).flat_map(|(p, a)| smallest.iter().map(move |&q| (p, a, q)));
        let table = requests.map(|(p, a, q)| self.cell(p, a, q)).collect();
        Policy { n: self.n, k: self.k, d: smallest.len(), assignment, table }
    }

    /// The lowest cell that a policy contradicts.
    pub fn conflict(&self, policy: &Policy) -> Option<usize> {
        let granted = policy.grants().cells;
        self.cells.iter().zip(granted).position(|(&logged, granted)| logged != UNLOGGED && logged != granted)
    }
}

impl Policy {
    /// The full matrix of all that the policy grants.
    pub fn grants(&self) -> Matrix {
        let mut cells = Vec::with_capacity(self.n * self.k * self.n);
        for &p in &self.assignment {
            let records = &self.table[usize::from(p) * self.k * self.d..][..self.k * self.d];
            for record in records.chunks(self.d) {
                cells.extend(self.assignment.iter().map(|&q| record[usize::from(q)]));
            }
        }
        Matrix { n: self.n, k: self.k, cells }
    }

    /// The number of domains that have a member.
    pub fn inhabited(&self) -> usize {
        (0..self.d).filter(|&p| self.assignment.contains(&(p as u8))).count()
    }
}
