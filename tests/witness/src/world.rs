//! Random matrices and policies: entities planted in a few domains, so that many are alike, and then small differences.

use crate::chance::Chance;
use crate::policy::{Matrix, Policy, UNLOGGED};

/// A policy, a matrix that it enforces or nearly so, and two entities that are alike or nearly so.
pub struct World {
    pub policy: Policy,
    pub matrix: Matrix,
    pub pair: [usize; 2],
}

/// Mostly small; at times any size, the largest, or one beyond it.
fn sizes(chance: &mut Chance) -> (usize, usize) {
    match chance.below(1000) {
        0..=1 => (64, 8),
        2..=4 => (chance.between(0, 64), chance.between(1, 8)),
        5..=9 => chance.of(&[(65, 1), (3, 9), (64, 9), (65, 8), (2, 0), (0, 0), (0, 9)]),
        10..=100 => (chance.between(9, 20), chance.between(1, 8)),
        101..=300 => (chance.between(0, 3), chance.between(1, 8)),
        _ => (chance.between(0, 8), chance.between(1, 3)),
    }
}

/// Mostly few; at times more than entities, and often many where there are many entities.
fn domains(n: usize, chance: &mut Chance) -> usize {
    match chance.below(200) {
        0 => 65,
        1..=5 => chance.between(1, 64),
        6..=20 => chance.between(n.min(1), 12),
        21..=60 if n > 20 => 64,
        61..=100 if n > 20 => chance.between(1, 64),
        _ => chance.between(n.min(1), n.min(5)),
    }
}

pub fn policy(n: usize, k: usize, d: usize, chance: &mut Chance) -> Policy {
    let assignment = (0..n).map(|_| chance.below(d) as u8).collect();
    let grants = chance.of(&[1, 4, 8, 8, 12, 15]);
    let table = (0..d * k * d).map(|_| u8::from(chance.below(16) < grants)).collect();
    Policy { n, k, d, assignment, table }
}

impl World {
    pub fn draw(chance: &mut Chance) -> World {
        let (n, k) = sizes(chance);
        let d = domains(n, chance);
        World::of(n, k, d, chance)
    }

    pub fn of(n: usize, k: usize, d: usize, chance: &mut Chance) -> World {
        let policy = policy(n, k, d, chance);
        let matrix = policy.grants();
        let u = chance.below(n.max(1));
        let partners: Vec<_> = (0..n).filter(|&v| v != u && policy.assignment[v] == policy.assignment[u]).collect();
        let v = if partners.is_empty() { chance.below(n.max(1)) } else { chance.of(&partners) };
        let mut world = World { policy, matrix, pair: [u, v] };
        if n > 0 && k > 0 {
            world.alter(chance);
        }
        world
    }

    /// Makes the difference by which a builder that looks at too little would go wrong.
    fn alter(&mut self, chance: &mut Chance) {
        let (n, k, [u, v]) = (self.matrix.n, self.matrix.k, self.pair);
        let (a, x, y) = (chance.below(k), chance.below(n), chance.below(n));
        match chance.below(16) {
            // the pair's own four cells, by one right
            0..=2 => [(u, u), (u, v), (v, u), (v, v)].into_iter().for_each(|(s, r)| self.put(s, a, r, chance.byte() & 1)),
            // what may be sent to one of the pair
            3..=4 => self.flip(x, a, u),
            // what one of the pair may send
            5 => self.flip(u, a, x),
            // the last right only
            6 => self.flip(chance.of(&[u, x]), k - 1, chance.of(&[v, y])),
            // some cells
            7..=8 => (0..chance.between(1, 4)).for_each(|_| self.flip(chance.below(n), chance.below(k), chance.below(n))),
            // all cells
            9 => self.matrix.cells.iter_mut().for_each(|cell| *cell = chance.byte() & 1),
            _ => {}
        }
    }

    fn put(&mut self, u: usize, a: usize, v: usize, value: u8) {
        let cell = self.matrix.number(u, a, v);
        self.matrix.cells[cell] = value;
    }

    fn flip(&mut self, u: usize, a: usize, v: usize) {
        self.put(u, a, v, 1 - self.matrix.cell(u, a, v));
    }

    /// Takes some cells from the log: few, many or all.
    pub fn forget(&mut self, chance: &mut Chance) {
        let cells = &mut self.matrix.cells;
        let count = cells.len();
        match chance.below(8) {
            _ if count == 0 => {}
            0..=3 => (0..chance.between(1, 3)).for_each(|_| cells[chance.below(count)] = UNLOGGED),
            4 => cells.fill(UNLOGGED),
            _ => {
                let kept = chance.between(1, 15);
                cells.iter_mut().filter(|_| chance.below(16) >= kept).for_each(|cell| *cell = UNLOGGED);
            }
        }
    }
}
