//! Build, alike, judge and the files as a good programmer writes them in an hour: document 01's refusals in its order, a list of
//! representatives, slices compared where they stand, one pass over a file. No unsafe code and no trick.

/// The number and the place.
pub struct Refusal(pub u64, pub usize);

pub enum Judged {
    Enforces(usize),
    Conflict { cell: usize, logged: u8 },
}

fn sizes(n: usize, k: usize, d: usize) -> Result<(), Refusal> {
    if n > 64 {
        return Err(Refusal(1, 0));
    }
    if k == 0 || k > 8 {
        return Err(Refusal(1, 1));
    }
    if d > 64 {
        return Err(Refusal(1, 2));
    }
    Ok(())
}

/// Refusal `number` at the lowest place of a byte that is `bad`.
fn none(bytes: &[u8], number: u64, bad: impl Fn(u8) -> bool) -> Result<(), Refusal> {
    match bytes.iter().position(|&byte| bad(byte)) {
        Some(place) => Err(Refusal(number, place)),
        None => Ok(()),
    }
}

fn alike(n: usize, k: usize, matrix: &[u8], u: usize, v: usize) -> bool {
    let row = k * n;
    if matrix[u * row..(u + 1) * row] != matrix[v * row..(v + 1) * row] {
        return false;
    }
    for cells in matrix.chunks_exact(n) {
        if cells[u] != cells[v] {
            return false;
        }
    }
    true
}

fn full(n: usize, k: usize, matrix: &[u8]) -> Result<(), Refusal> {
    sizes(n, k, 0)?;
    if matrix.len() != n * k * n {
        return Err(Refusal(2, 0));
    }
    none(matrix, 3, |cell| cell > 2)?;
    none(matrix, 4, |cell| cell == 2)
}

#[inline(never)]
pub fn compare(n: usize, k: usize, u: usize, v: usize, matrix: &[u8]) -> Result<bool, Refusal> {
    full(n, k, matrix)?;
    if u >= n {
        return Err(Refusal(9, 0));
    }
    if v >= n {
        return Err(Refusal(9, 1));
    }
    Ok(alike(n, k, matrix, u, v))
}

#[inline(never)]
pub fn build(n: usize, k: usize, matrix: &[u8], assignment: &mut [u8], table: &mut [u8]) -> Result<usize, Refusal> {
    full(n, k, matrix)?;
    if assignment.len() < n {
        return Err(Refusal(10, n));
    }
    let mut smallest: Vec<usize> = Vec::new();
    let mut domains: Vec<u8> = Vec::with_capacity(n);
    for u in 0..n {
        match smallest.iter().position(|&s| alike(n, k, matrix, s, u)) {
            Some(p) => domains.push(p as u8),
            None => {
                domains.push(smallest.len() as u8);
                smallest.push(u);
            }
        }
    }
    let d = smallest.len();
    if table.len() < d * k * d {
        return Err(Refusal(11, d * k * d));
    }
    assignment[..n].copy_from_slice(&domains);
    for p in 0..d {
        for a in 0..k {
            for q in 0..d {
                table[(p * k + a) * d + q] = matrix[(smallest[p] * k + a) * n + smallest[q]];
            }
        }
    }
    Ok(d)
}

fn valid(n: usize, k: usize, d: usize, assignment: &[u8], table: &[u8]) -> Result<(), Refusal> {
    if assignment.len() != n {
        return Err(Refusal(5, 0));
    }
    none(assignment, 6, |domain| domain as usize >= d)?;
    if table.len() != d * k * d {
        return Err(Refusal(7, 0));
    }
    none(table, 8, |cell| cell > 1)
}

#[inline(never)]
pub fn judge(n: usize, k: usize, d: usize, matrix: &[u8], assignment: &[u8], table: &[u8]) -> Result<Judged, Refusal> {
    sizes(n, k, d)?;
    if matrix.len() != n * k * n {
        return Err(Refusal(2, 0));
    }
    none(matrix, 3, |cell| cell > 2)?;
    valid(n, k, d, assignment, table)?;
    for u in 0..n {
        let p = assignment[u] as usize;
        for a in 0..k {
            let start = (u * k + a) * n;
            let cells = &matrix[start..start + n];
            let granted = &table[(p * k + a) * d..(p * k + a) * d + d];
            for v in 0..n {
                let logged = cells[v];
                if logged != 2 && granted[assignment[v] as usize] != logged {
                    return Ok(Judged::Conflict { cell: start + v, logged });
                }
            }
        }
    }
    Ok(Judged::Enforces(d))
}

// ---- files

/// A file and how far it is read. What does not fit is refused there.
struct Reader<'a> {
    file: &'a [u8],
    at: usize,
}

impl Reader<'_> {
    fn refused(&self) -> Refusal {
        Refusal(12, self.at)
    }

    fn text(&mut self, text: &[u8]) -> Result<(), Refusal> {
        for &byte in text {
            if self.file.get(self.at) != Some(&byte) {
                return Err(self.refused());
            }
            self.at += 1;
        }
        Ok(())
    }

    /// A digit whose value is `good`.
    fn digit(&mut self, good: impl Fn(usize) -> bool) -> Result<usize, Refusal> {
        match self.file.get(self.at) {
            Some(&byte) if byte.is_ascii_digit() && good((byte - b'0') as usize) => {
                self.at += 1;
                Ok((byte - b'0') as usize)
            }
            _ => Err(self.refused()),
        }
    }

    /// A number of two digits, from least to most.
    fn number(&mut self, least: usize, most: usize) -> Result<usize, Refusal> {
        let ten = 10 * self.digit(|ten| 10 * ten <= most && 10 * ten + 9 >= least)?;
        Ok(ten + self.digit(|unit| (least..=most).contains(&(ten + unit)))?)
    }

    /// So many records of so many cells, and the last line. Only a matrix has gaps.
    fn records(&mut self, mark: &[u8], count: usize, width: usize, gaps: bool) -> Result<Vec<u8>, Refusal> {
        let mut cells = Vec::with_capacity(count * width);
        for u in 0..count {
            self.text(mark)?;
            self.number(u, u)?;
            let end = self.file.len().min(self.at + width);
            let row = &self.file[self.at..end];
            let good = |byte: u8| byte == b'0' || byte == b'1' || byte == b'*' && gaps;
            self.at += row.iter().position(|&byte| !good(byte)).unwrap_or(row.len());
            if self.at < end || row.len() < width {
                return Err(self.refused());
            }
            cells.extend(row.iter().map(|&byte| if byte == b'*' { 2 } else { byte - b'0' }));
            self.text(b"\n")?;
        }
        self.text(b"ZZ\n")?;
        if self.at < self.file.len() {
            return Err(self.refused());
        }
        Ok(cells)
    }
}

#[inline(never)]
pub fn read_matrix(file: &[u8], matrix: &mut [u8]) -> Result<(usize, usize), Refusal> {
    let mut reader = Reader { file, at: 0 };
    reader.text(b"MX")?;
    let n = reader.number(0, 64)?;
    let k = reader.digit(|k| (1..=8).contains(&k))?;
    reader.text(b"\n")?;
    let cells = reader.records(b"RW", n, k * n, true)?;
    if matrix.len() < cells.len() {
        return Err(Refusal(11, cells.len()));
    }
    matrix[..cells.len()].copy_from_slice(&cells);
    Ok((n, k))
}

#[inline(never)]
pub fn read_policy(file: &[u8], assignment: &mut [u8], table: &mut [u8]) -> Result<(usize, usize, usize), Refusal> {
    let mut reader = Reader { file, at: 0 };
    reader.text(b"PD")?;
    let n = reader.number(0, 64)?;
    let k = reader.digit(|k| (1..=8).contains(&k))?;
    let d = reader.number((n > 0) as usize, 64)?;
    reader.text(b"\nAS")?;
    let mut domains = Vec::with_capacity(n);
    for _ in 0..n {
        domains.push(reader.number(0, d - 1)? as u8);
    }
    reader.text(b"\n")?;
    let cells = reader.records(b"TB", d, k * d, false)?;
    if assignment.len() < n {
        return Err(Refusal(10, n));
    }
    if table.len() < cells.len() {
        return Err(Refusal(11, cells.len()));
    }
    assignment[..n].copy_from_slice(&domains);
    table[..cells.len()].copy_from_slice(&cells);
    Ok((n, k, d))
}

fn put_number(text: &mut Vec<u8>, x: usize) {
    text.extend([b'0' + (x / 10) as u8, b'0' + (x % 10) as u8]);
}

fn put_records(text: &mut Vec<u8>, mark: &[u8], count: usize, width: usize, cells: &[u8]) {
    for u in 0..count {
        text.extend(mark);
        put_number(text, u);
        text.extend(cells[u * width..(u + 1) * width].iter().map(|&cell| if cell == 2 { b'*' } else { b'0' + cell }));
        text.push(b'\n');
    }
    text.extend(b"ZZ\n");
}

fn hand_over(text: Vec<u8>, file: &mut [u8]) -> Result<usize, Refusal> {
    if file.len() < text.len() {
        return Err(Refusal(11, text.len()));
    }
    file[..text.len()].copy_from_slice(&text);
    Ok(text.len())
}

#[inline(never)]
pub fn write_matrix(n: usize, k: usize, matrix: &[u8], file: &mut [u8]) -> Result<usize, Refusal> {
    sizes(n, k, 0)?;
    if matrix.len() != n * k * n {
        return Err(Refusal(2, 0));
    }
    none(matrix, 3, |cell| cell > 2)?;
    let mut text = Vec::with_capacity(9 + n * (k * n + 5));
    text.extend(b"MX");
    put_number(&mut text, n);
    text.extend([b'0' + k as u8, b'\n']);
    put_records(&mut text, b"RW", n, k * n, matrix);
    hand_over(text, file)
}

#[inline(never)]
pub fn write_policy(n: usize, k: usize, d: usize, assignment: &[u8], table: &[u8], file: &mut [u8]) -> Result<usize, Refusal> {
    sizes(n, k, d)?;
    valid(n, k, d, assignment, table)?;
    let mut text = Vec::with_capacity(14 + 2 * n + d * (k * d + 5));
    text.extend(b"PD");
    put_number(&mut text, n);
    text.push(b'0' + k as u8);
    put_number(&mut text, d);
    text.extend(b"\nAS");
    for &domain in assignment {
        put_number(&mut text, domain as usize);
    }
    text.push(b'\n');
    put_records(&mut text, b"TB", d, k * d, table);
    hand_over(text, file)
}
