//! The two files, read front to back, field by field.

/// The sizes of document 01: of m and n, of an order, of a shift either way, of the coefficients in one entry.
pub const ROWS: usize = 4;
pub const ORDER: usize = 16;
pub const SHIFT: i64 = 1000;
pub const LENGTH: usize = 17;

pub struct Problem {
    pub p: u64,
    pub m: usize,
    pub n: usize,
    /// order of each column
    pub d: Vec<usize>,
    /// shift of each row of F, that is of each column of P
    pub s: Vec<i64>,
    /// f[i][j] has exactly d[j] coefficients, zeros anywhere
    pub f: Vec<Vec<Vec<u64>>>,
    /// first byte and end of each FC record
    pub columns: Vec<(usize, usize)>,
}

pub struct Answer {
    /// entries without zeros at the end
    pub basis: Vec<Vec<Vec<u64>>>,
    /// empty where the answer is to end after the last PE
    pub evidence: Vec<Vec<u64>>,
    /// first byte and end of the CE record
    pub last: (usize, usize),
}

#[derive(Debug, Clone, PartialEq)]
pub struct Refusal {
    pub code: u32,
    pub file: u32,
    pub record: u32,
    pub at: usize,
    /// first byte of the record named
    pub start: usize,
}

struct Reading<'a> {
    bytes: &'a [u8],
    file: u32,
    record: u32,
    start: usize,
    place: usize,
    begun: u32,
}

impl<'a> Reading<'a> {
    fn of(bytes: &'a [u8], file: u32) -> Self {
        Reading { bytes, file, record: 0, start: 0, place: 0, begun: 0 }
    }

    fn refuse<T>(&self, code: u32, at: usize) -> Result<T, Refusal> {
        Err(Refusal { code, file: self.file, record: self.record, at, start: self.start })
    }

    /// The next field of `size` bytes: its offset and its number, low byte first.
    fn field(&mut self, size: usize) -> Result<(usize, u64), Refusal> {
        let at = self.place;
        if self.bytes.len() - at < size {
            return self.refuse(1, at);
        }
        let mut value = 0u64;
        for k in (0..size).rev() {
            value = value * 256 + self.bytes[at + k] as u64;
        }
        self.place += size;
        Ok((at, value))
    }

    /// Begins a record: its mark is its first field.
    fn begin(&mut self, mark: &str) -> Result<(), Refusal> {
        self.record = self.begun;
        self.begun += 1;
        self.start = self.place;
        let (at, value) = self.field(2)?;
        let due = mark.as_bytes()[0] as u64 + 256 * mark.as_bytes()[1] as u64;
        if value != due {
            return self.refuse(2, at);
        }
        Ok(())
    }

    fn number(&mut self, due: u64) -> Result<(), Refusal> {
        let (at, value) = self.field(1)?;
        if value != due {
            return self.refuse(5, at);
        }
        Ok(())
    }

    fn coefficient(&mut self, p: u64) -> Result<(usize, u64), Refusal> {
        let (at, value) = self.field(4)?;
        if value >= p {
            return self.refuse(6, at);
        }
        Ok((at, value))
    }

    fn between(&mut self, low: u64, high: u64) -> Result<u64, Refusal> {
        let (at, value) = self.field(1)?;
        if value < low || value > high {
            return self.refuse(3, at);
        }
        Ok(value)
    }

    fn end(&mut self) -> Result<(), Refusal> {
        if self.place < self.bytes.len() {
            self.record = self.begun;
            self.start = self.place;
            return self.refuse(8, self.place);
        }
        Ok(())
    }
}

pub fn problem(bytes: &[u8]) -> Result<Problem, Refusal> {
    let mut r = Reading::of(bytes, 0);
    r.begin("PR")?;
    let (at, p) = r.field(4)?;
    if !crate::field::allowed(p) {
        return r.refuse(4, at);
    }
    let m = r.between(1, ROWS as u64)? as usize;
    let n = r.between(1, ROWS as u64)? as usize;
    r.begin("OR")?;
    let mut d = Vec::new();
    for _ in 0..n {
        d.push(r.between(1, ORDER as u64)? as usize);
    }
    r.begin("SH")?;
    let mut s = Vec::new();
    for _ in 0..m {
        let (at, raw) = r.field(2)?;
        let shift = if raw >= 32768 { raw as i64 - 65536 } else { raw as i64 };
        if !(-SHIFT..=SHIFT).contains(&shift) {
            return r.refuse(3, at);
        }
        s.push(shift);
    }
    let mut f = vec![vec![Vec::new(); n]; m];
    let mut columns = Vec::new();
    for j in 0..n {
        r.begin("FC")?;
        r.number(j as u64)?;
        for row in f.iter_mut() {
            for _ in 0..d[j] {
                row[j].push(r.coefficient(p)?.1);
            }
        }
        columns.push((r.start, r.place));
    }
    r.end()?;
    Ok(Problem { p, m, n, d, s, f, columns })
}

pub fn answer(bytes: &[u8], problem: &Problem, with_evidence: bool) -> Result<Answer, Refusal> {
    let mut r = Reading::of(bytes, 1);
    let m = problem.m;
    let mut basis = vec![vec![Vec::new(); m]; m];
    for i in 0..m {
        for j in 0..m {
            r.begin("PE")?;
            r.number(i as u64)?;
            r.number(j as u64)?;
            let length = r.between(0, LENGTH as u64)?;
            for k in 0..length {
                let (at, value) = r.coefficient(problem.p)?;
                if k + 1 == length && value == 0 {
                    return r.refuse(7, at);
                }
                basis[i][j].push(value);
            }
        }
    }
    let mut evidence = Vec::new();
    let mut last = (r.place, r.place);
    if with_evidence {
        r.begin("CE")?;
        for _ in 0..m {
            let mut row = Vec::new();
            for _ in 0..problem.n {
                row.push(r.coefficient(problem.p)?.1);
            }
            evidence.push(row);
        }
        last = (r.start, r.place);
    }
    r.end()?;
    Ok(Answer { basis, evidence, last })
}
