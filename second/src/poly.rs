//! Polynomials over the whole numbers modulo p: coefficients lowest power
//! first, no zero at the end; the zero polynomial is the empty list.

use crate::field;

pub type Poly = Vec<u64>;
pub type Matrix = Vec<Vec<Poly>>;

pub fn trim(a: &mut Poly) {
    while a.last() == Some(&0) {
        a.pop();
    }
}

pub fn coefficient(a: &Poly, k: usize) -> u64 {
    a.get(k).copied().unwrap_or(0)
}

pub fn add(a: &Poly, b: &Poly, p: u64) -> Poly {
    let mut r: Poly = (0..a.len().max(b.len()))
        .map(|k| field::add(coefficient(a, k), coefficient(b, k), p))
        .collect();
    trim(&mut r);
    r
}

pub fn sub(a: &Poly, b: &Poly, p: u64) -> Poly {
    let mut r: Poly = (0..a.len().max(b.len()))
        .map(|k| field::sub(coefficient(a, k), coefficient(b, k), p))
        .collect();
    trim(&mut r);
    r
}

pub fn mul(a: &Poly, b: &Poly, p: u64) -> Poly {
    if a.is_empty() || b.is_empty() {
        return Vec::new();
    }
    let mut r = vec![0u64; a.len() + b.len() - 1];
    for (i, x) in a.iter().enumerate() {
        if *x != 0 {
            for (j, y) in b.iter().enumerate() {
                r[i + j] = (r[i + j] + x * y) % p;
            }
        }
    }
    trim(&mut r);
    r
}

/// c X^e times a.
pub fn scaled(a: &Poly, c: u64, e: usize, p: u64) -> Poly {
    if a.is_empty() || c % p == 0 {
        return Vec::new();
    }
    let mut r = vec![0u64; e];
    r.extend(a.iter().map(|x| field::mul(*x, c % p, p)));
    trim(&mut r);
    r
}

/// Quotient and remainder; b is not zero.
pub fn divide(a: &Poly, b: &Poly, p: u64) -> (Poly, Poly) {
    let lead = field::inverse(*b.last().expect("division by zero"), p);
    let mut r = a.clone();
    if a.len() < b.len() {
        return (Vec::new(), r);
    }
    let mut q = vec![0u64; a.len() - b.len() + 1];
    for k in (0..q.len()).rev() {
        let c = field::mul(r[k + b.len() - 1], lead, p);
        q[k] = c;
        if c != 0 {
            for (i, y) in b.iter().enumerate() {
                r[k + i] = field::sub(r[k + i], field::mul(c, *y, p), p);
            }
        }
    }
    trim(&mut q);
    trim(&mut r);
    (q, r)
}

/// Determinant by fraction-free elimination (Bareiss). Every division is
/// exact, which is asserted.
pub fn determinant_bareiss(matrix: &Matrix, p: u64) -> Poly {
    let size = matrix.len();
    let mut a = matrix.clone();
    let mut before: Poly = vec![1];
    let mut minus = false;
    for k in 0..size {
        let pivot = (k..size)
            .filter(|&i| !a[i][k].is_empty())
            .min_by_key(|&i| a[i][k].len());
        let Some(i) = pivot else {
            return Vec::new();
        };
        if i != k {
            a.swap(i, k);
            minus = !minus;
        }
        for i in k + 1..size {
            for j in k + 1..size {
                let t = sub(
                    &mul(&a[k][k], &a[i][j], p),
                    &mul(&a[i][k], &a[k][j], p),
                    p,
                );
                let (q, r) = divide(&t, &before, p);
                assert!(r.is_empty(), "Bareiss division left a remainder");
                a[i][j] = q;
            }
        }
        before = a[k][k].clone();
    }
    if minus {
        sub(&Vec::new(), &before, p)
    } else {
        before
    }
}

/// Determinant over the column subsets: the entry for a subset S of k columns
/// is the determinant of the first k rows with the columns of S, expanded
/// along its last row.
pub fn determinant_subsets(matrix: &Matrix, p: u64) -> Poly {
    let size = matrix.len();
    let mut table: Vec<Poly> = vec![Vec::new(); 1 << size];
    table[0] = vec![1];
    for set in 1usize..1 << size {
        let row = set.count_ones() as usize - 1;
        let mut sum: Poly = Vec::new();
        let mut place = 0;
        for j in 0..size {
            if set >> j & 1 == 1 {
                let t = mul(&matrix[row][j], &table[set & !(1 << j)], p);
                sum = if (place + row) % 2 == 0 {
                    add(&sum, &t, p)
                } else {
                    sub(&sum, &t, p)
                };
                place += 1;
            }
        }
        table[set] = sum;
    }
    table[(1 << size) - 1].clone()
}

/// Determinant of a square of constants as the signed sum over permutations.
pub fn determinant_permutations(a: &[Vec<u64>], p: u64) -> u64 {
    fn walk(a: &[Vec<u64>], p: u64, row: usize, used: &mut Vec<usize>, product: u64, sum: &mut u64) {
        if row == a.len() {
            let mut turns = 0;
            for x in 0..used.len() {
                for y in x + 1..used.len() {
                    if used[x] > used[y] {
                        turns += 1;
                    }
                }
            }
            *sum = if turns % 2 == 0 {
                field::add(*sum, product, p)
            } else {
                field::sub(*sum, product, p)
            };
            return;
        }
        for j in 0..a.len() {
            if !used.contains(&j) && a[row][j] != 0 {
                used.push(j);
                walk(a, p, row + 1, used, field::mul(product, a[row][j], p), sum);
                used.pop();
            }
        }
    }
    let mut sum = 0;
    walk(a, p, 0, &mut Vec::new(), 1 % p, &mut sum);
    sum
}
