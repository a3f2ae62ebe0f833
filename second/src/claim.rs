//! Claims as numbers, their files with a table of fields, and honest bases by
//! the plain iteration of source document 004.

use crate::field;
use crate::poly::{self, Matrix, Poly};
use crate::random::Random;
use crate::read::Problem;
use crate::verdict;

#[derive(Clone)]
pub struct Claim {
    pub p: u64,
    pub m: usize,
    pub n: usize,
    pub d: Vec<usize>,
    pub s: Vec<i64>,
    /// f[i][j], exactly d[j] coefficients
    pub f: Vec<Vec<Vec<u64>>>,
    pub basis: Matrix,
    pub evidence: Vec<Vec<u64>>,
}

#[derive(Clone, Copy, PartialEq, Debug)]
pub enum Kind {
    Mark,
    Prime,
    Rows,
    Columns,
    Order,
    Shift,
    Number,
    Length,
    Coefficient,
    LastCoefficient,
}

#[derive(Clone, Copy, Debug)]
pub struct Field {
    pub kind: Kind,
    pub record: usize,
    pub at: usize,
    pub size: usize,
}

#[derive(Clone, Default)]
pub struct File {
    pub bytes: Vec<u8>,
    pub fields: Vec<Field>,
    records: usize,
}

impl File {
    fn put(&mut self, kind: Kind, size: usize, value: u64) {
        self.fields.push(Field { kind, record: self.records - 1, at: self.bytes.len(), size });
        self.bytes.extend(&value.to_le_bytes()[..size]);
    }

    fn record(&mut self, mark: &[u8; 2]) {
        self.records += 1;
        self.put(Kind::Mark, 2, mark[0] as u64 + 256 * mark[1] as u64);
    }
}

impl Claim {
    pub fn problem(&self) -> File {
        let mut r = File::default();
        r.record(b"PR");
        r.put(Kind::Prime, 4, self.p);
        r.put(Kind::Rows, 1, self.m as u64);
        r.put(Kind::Columns, 1, self.n as u64);
        r.record(b"OR");
        for d in &self.d {
            r.put(Kind::Order, 1, *d as u64);
        }
        r.record(b"SH");
        for s in &self.s {
            r.put(Kind::Shift, 2, *s as i16 as u16 as u64);
        }
        for j in 0..self.n {
            r.record(b"FC");
            r.put(Kind::Number, 1, j as u64);
            for i in 0..self.m {
                for c in &self.f[i][j] {
                    r.put(Kind::Coefficient, 4, *c);
                }
            }
        }
        r
    }

    pub fn answer(&self, with_evidence: bool) -> File {
        let mut r = File::default();
        for i in 0..self.m {
            for j in 0..self.m {
                r.record(b"PE");
                r.put(Kind::Number, 1, i as u64);
                r.put(Kind::Number, 1, j as u64);
                let e = &self.basis[i][j];
                r.put(Kind::Length, 1, e.len() as u64);
                for (k, c) in e.iter().enumerate() {
                    let kind = if k + 1 == e.len() { Kind::LastCoefficient } else { Kind::Coefficient };
                    r.put(kind, 4, *c);
                }
            }
        }
        if with_evidence {
            r.record(b"CE");
            for row in &self.evidence {
                for c in row {
                    r.put(Kind::Coefficient, 4, *c);
                }
            }
        }
        r
    }

    pub fn as_problem(&self) -> Problem {
        Problem {
            p: self.p,
            m: self.m,
            n: self.n,
            d: self.d.clone(),
            s: self.s.clone(),
            f: self.f.clone(),
            columns: Vec::new(),
        }
    }

    /// The coefficient of (PF) at (i, j) and power k, for any rows.
    fn residue(&self, row: &[Poly], j: usize, k: usize) -> u64 {
        let mut sum = 0;
        for l in 0..self.m {
            for (t, c) in self.f[l][j].iter().enumerate() {
                if t <= k {
                    sum = (sum + c * poly::coefficient(&row[l], k - t)) % self.p;
                }
            }
        }
        sum
    }

    /// Sets F to zero.
    pub fn clear_series(&mut self) {
        for e in self.f.iter_mut().flatten() {
            e.fill(0);
        }
    }

    /// Sets the evidence to what it has to be.
    pub fn attest(&mut self) {
        self.evidence = self
            .basis
            .iter()
            .map(|row| (0..self.n).map(|j| self.residue(row, j, self.d[j])).collect())
            .collect();
    }

    /// The degree of each row for the shift; a row of zeros has none.
    pub fn degrees(&self) -> Vec<Option<i64>> {
        self.basis.iter().map(|row| verdict::row_degree(row, &self.s)).collect()
    }

    /// Row `to` plus c X^e times row `from`.
    pub fn add_row(&mut self, to: usize, from: usize, c: u64, e: usize) {
        for j in 0..self.m {
            let t = poly::scaled(&self.basis[from][j], c, e, self.p);
            self.basis[to][j] = poly::add(&self.basis[to][j], &t, self.p);
        }
    }

    pub fn times_row(&mut self, row: usize, by: &Poly) {
        for j in 0..self.m {
            self.basis[row][j] = poly::mul(&self.basis[row][j], by, self.p);
        }
    }

    pub fn identity(&mut self, power: usize) {
        let one = poly::scaled(&vec![1], 1, power, self.p);
        self.basis = (0..self.m)
            .map(|i| (0..self.m).map(|j| if i == j { one.clone() } else { Vec::new() }).collect())
            .collect();
    }

    /// Algorithms M-Basis and Basis: from the identity, one step for each
    /// power k. A step takes the coefficients at k of the columns of order
    /// above k (or one column at a time, if `apart`), goes through the rows by
    /// increasing shifted degree, keeps the rows whose residues do not depend
    /// on those before (they are multiplied by X) and clears each other row by
    /// them. With `sorted` the rows stay in the order so found.
    pub fn iterate(&mut self, apart: bool, sorted: bool, random: &mut Random) {
        self.identity(0);
        let mut u = self.s.clone();
        let largest = *self.d.iter().max().unwrap();
        let mut steps: Vec<(usize, Vec<usize>)> = Vec::new();
        if apart {
            for j in random.order(self.n) {
                for k in 0..self.d[j] {
                    steps.push((k, vec![j]));
                }
            }
        } else {
            for k in 0..largest {
                steps.push((k, (0..self.n).filter(|j| self.d[*j] > k).collect()));
            }
        }
        for (k, columns) in steps {
            let mut places = random.order(self.m);
            places.sort_by_key(|i| u[*i]);
            // kept rows: residues with the pivot's place, and the cleared row
            let mut kept: Vec<(Vec<u64>, usize, Vec<Poly>)> = Vec::new();
            let mut next = self.basis.clone();
            let mut grown = vec![0i64; self.m];
            let mut row_order = (Vec::new(), Vec::new());
            for &i in &places {
                let mut residues: Vec<u64> = columns.iter().map(|j| self.residue(&self.basis[i], *j, k)).collect();
                let mut row = self.basis[i].clone();
                for (other, place, by) in &kept {
                    if residues[*place] != 0 {
                        let q = field::mul(residues[*place], field::inverse(other[*place], self.p), self.p);
                        for (x, y) in residues.iter_mut().zip(other) {
                            *x = field::sub(*x, field::mul(q, *y, self.p), self.p);
                        }
                        for (x, y) in row.iter_mut().zip(by) {
                            *x = poly::sub(x, &poly::scaled(y, q, 0, self.p), self.p);
                        }
                    }
                }
                match residues.iter().position(|c| *c != 0) {
                    Some(place) => {
                        next[i] = self.basis[i].iter().map(|e| poly::scaled(e, 1, 1, self.p)).collect();
                        grown[i] = 1;
                        kept.push((residues, place, row));
                        row_order.0.push(i);
                    }
                    None => {
                        next[i] = row;
                        row_order.1.push(i);
                    }
                }
            }
            for i in 0..self.m {
                u[i] += grown[i];
            }
            if sorted {
                let all: Vec<usize> = row_order.0.into_iter().chain(row_order.1).collect();
                self.basis = all.iter().map(|i| next[*i].clone()).collect();
                u = all.iter().map(|i| u[*i]).collect();
            } else {
                self.basis = next;
            }
        }
        let grown_to: Vec<Option<i64>> = u.into_iter().map(Some).collect();
        assert!(grown_to == self.degrees(), "row degrees of the iteration");
        self.attest();
    }

    /// Rows put into another order and scaled: zero entries stay zero.
    pub fn turn(&mut self, random: &mut Random) {
        self.basis = random.order(self.m).into_iter().map(|i| self.basis[i].clone()).collect();
        for i in 0..self.m {
            let c = 1 + random.next() % (self.p - 1).max(1);
            self.times_row(i, &vec![c]);
        }
        self.attest();
    }

    /// Changes that keep a reduced basis: rows permuted and scaled, and
    /// multiples of a row added to another whose degree they don't exceed, no
    /// entry growing beyond the degree `cap`.
    pub fn mix(&mut self, turns: usize, cap: usize, random: &mut Random) {
        for _ in 0..turns {
            let i = random.below(self.m);
            let k = random.below(self.m);
            let degrees = self.degrees();
            // by how much row i is above row k, where both have a degree
            let above = degrees[i].zip(degrees[k]).map(|(a, b)| a - b);
            if i == k {
                let c = 1 + random.next() % (self.p - 1).max(1);
                self.times_row(i, &vec![c]);
            } else if random.chance(15) {
                self.basis.swap(i, k);
            } else if let Some(above) = above.filter(|a| *a >= 0) {
                let longest = self.basis[k].iter().map(|e| e.len()).max().unwrap().max(1) - 1;
                if longest > cap {
                    continue;
                }
                let room = (above as usize).min(cap - longest);
                let e = if random.chance(50) { room } else { random.below(room + 1) };
                let c = 1 + random.next() % (self.p - 1).max(1);
                self.add_row(i, k, c, e);
            }
        }
        self.attest();
    }
}
