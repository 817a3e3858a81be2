//! All full matrices of few entities and one right against all policies with no more domains: what the built policy promises, by
//! brute force over everything that enforces.

use crate::calls::{Call, Question};
use crate::ledger::Ledger;
use crate::policy::{Matrix, Policy};
use crate::rules::{judged, Answer};

pub fn run(ledger: &mut Ledger, most: usize) {
    for n in 0..=most {
        let policies: Vec<_> = (0..=n).flat_map(|d| policies(n, d)).map(|policy| (policy.grants().cells, policy)).collect();
        for cells in words(n * n, 2) {
            let matrix = Matrix { n, k: 1, cells };
            judge_all(ledger, &matrix, &policies);
            let enforcing: Vec<_> = policies.iter().filter(|(granted, _)| *granted == matrix.cells).map(|(_, p)| p).collect();
            build(ledger, &matrix, &enforcing);
        }
    }
}

/// All sequences of `length` numbers below `base`.
fn words(length: usize, base: usize) -> impl Iterator<Item = Vec<u8>> {
    let digit = move |word: usize, place: usize| (word / base.pow(place as u32) % base) as u8;
    (0..base.pow(length as u32)).map(move |word| (0..length).map(|place| digit(word, place)).collect())
}

/// All policies of n entities and d domains, with one right.
fn policies(n: usize, d: usize) -> impl Iterator<Item = Policy> {
    let with = move |assignment: Vec<u8>| move |table| Policy { n, k: 1, d, assignment: assignment.clone(), table };
    words(n, d).flat_map(move |assignment| words(d * d, 2).map(with(assignment)))
}

/// Every policy judged. A full matrix is enforced by a policy exactly when it is the matrix of what the policy grants.
fn judge_all(ledger: &mut Ledger, matrix: &Matrix, policies: &[(Vec<u8>, Policy)]) {
    for same_d in policies.chunk_by(|(_, p), (_, q)| p.d == q.d) {
        let first = &same_d[0].1;
        let given: [&[u8]; 3] = [&matrix.cells, &first.assignment, &first.table];
        let mut case = ledger.case(&Question::new(Call::Judge, &[matrix.n, 1, first.d], &given), &[]);
        for (granted, policy) in same_d {
            case.given[1].set(0, &policy.assignment);
            case.given[2].set(0, &policy.table);
            let conflict = (0..granted.len()).find(|&cell| granted[cell] != matrix.cells[cell]);
            ledger.check(&mut case, &judged(policy.d as u64, conflict.map(|cell| (cell, matrix.cells[cell]))));
        }
    }
}

/// The built policy: it enforces; two entities share a domain exactly when some policy that enforces puts them together; and no
/// policy that enforces has fewer domains with a member.
fn build(ledger: &mut Ledger, matrix: &Matrix, enforcing: &[&Policy]) {
    let n = matrix.n;
    let built = matrix.build();
    let mut case = ledger.case(&Question::new(Call::Build, &[n, 1], &[&matrix.cells]), &[n, built.d * built.d]);
    let written = vec![built.assignment.clone(), built.table.clone()];
    ledger.check(&mut case, &Answer { word: (built.d as u64) << 8, written });

    ledger.claim(Call::Build, built.grants().cells == matrix.cells, || format!("{:?} is not enforced", matrix.cells));
    let fewest = enforcing.iter().map(|policy| policy.inhabited()).min();
    ledger.claim(Call::Build, fewest == Some(built.d), || format!("{:?} has a policy of {fewest:?} domains", matrix.cells));
    for (u, v) in (0..n).flat_map(|u| (0..n).map(move |v| (u, v))) {
        let together = |policy: &Policy| policy.assignment[u] == policy.assignment[v];
        let some = enforcing.iter().any(|policy| together(policy));
        let what = || format!("{u} and {v} of {:?}: {some} by brute force", matrix.cells);
        ledger.claim(Call::Build, together(&built) == some, what);
        ledger.claim(Call::Alike, defined_alike(matrix, u, v) == some, what);
        alike(ledger, matrix, u, v, some);
        ask(ledger, matrix, &built, u, v);
    }
}

/// Definition 2.11, word for word.
fn defined_alike(matrix: &Matrix, u: usize, v: usize) -> bool {
    (0..matrix.k).all(|a| {
        let own = [matrix.cell(u, a, u), matrix.cell(u, a, v), matrix.cell(v, a, u), matrix.cell(v, a, v)];
        let mut others = (0..matrix.n).filter(|&x| x != u && x != v);
        own.iter().all(|&cell| cell == own[0])
            && others.all(|x| matrix.cell(u, a, x) == matrix.cell(v, a, x) && matrix.cell(x, a, u) == matrix.cell(x, a, v))
    })
}

fn alike(ledger: &mut Ledger, matrix: &Matrix, u: usize, v: usize, yes: bool) {
    let mut case = ledger.case(&Question::new(Call::Alike, &[matrix.n, 1, u, v], &[&matrix.cells]), &[]);
    ledger.check(&mut case, &Answer { word: u64::from(yes) << 8, written: vec![] });
}

/// The built policy answers each request as the matrix does.
fn ask(ledger: &mut Ledger, matrix: &Matrix, built: &Policy, u: usize, v: usize) {
    let question = Question::new(Call::Ask, &[matrix.n, 1, built.d, u, 0, v], &[&built.assignment, &built.table]);
    let mut case = ledger.case(&question, &[]);
    ledger.check(&mut case, &Answer { word: u64::from(matrix.cell(u, 0, v)) << 8, written: vec![] });
}
