//! The verdict by the four conditions, each decided by a route of its own,
//! and what the test program has to print.

use crate::field;
use crate::plain;
use crate::poly::{self, Matrix, Poly};
use crate::read::{self, Problem};

#[derive(Debug, Clone, PartialEq)]
pub struct Verdict {
    pub code: u32,
    pub file: u32,
    pub record: u32,
    pub at: u64,
    /// file, first byte and end of the part pointed at
    pub part: (usize, usize, usize),
}

/// The degree of a row for the shift: the largest, over its entries other than
/// zero, of degree plus that column's shift. A zero entry has no degree and
/// takes no part; so a row of zeros has none.
pub fn row_degree(row: &[Poly], s: &[i64]) -> Option<i64> {
    row.iter()
        .zip(s)
        .filter(|(e, _)| !e.is_empty())
        .map(|(e, s)| e.len() as i64 - 1 + s)
        .max()
}

/// The degrees of the rows, where each row has one.
pub fn row_degrees(basis: &Matrix, s: &[i64]) -> Option<Vec<i64>> {
    basis.iter().map(|row| row_degree(row, s)).collect()
}

/// The coefficient at a power that may be negative, where there is none.
fn at_power(e: &Poly, power: i64) -> u64 {
    usize::try_from(power).map_or(0, |k| poly::coefficient(e, k))
}

/// The leading matrix, entry by entry, where each row has a degree.
pub fn leading(basis: &Matrix, s: &[i64]) -> Option<Vec<Vec<u64>>> {
    let leading_row = |row: &Vec<Poly>, u: &i64| row.iter().zip(s).map(|(e, s)| at_power(e, u - s)).collect();
    let u = row_degrees(basis, s)?;
    Some(basis.iter().zip(&u).map(|(row, u)| leading_row(row, u)).collect())
}

/// Coefficients 0 to d_j of each entry of PF. P is taken as a polynomial whose
/// coefficients are matrices, and the product is built by Horner's rule from
/// its highest power down: times X, then plus that coefficient times F.
pub fn product(problem: &Problem, basis: &Matrix) -> Vec<Vec<Vec<u64>>> {
    let p = problem.p;
    let mut r: Vec<Vec<Vec<u64>>> = (0..problem.m)
        .map(|_| problem.d.iter().map(|d| vec![0u64; d + 1]).collect())
        .collect();
    let longest = basis.iter().flatten().map(|e| e.len()).max().unwrap_or(0);
    for k in (0..longest).rev() {
        for i in 0..problem.m {
            for j in 0..problem.n {
                r[i][j].rotate_right(1);
                r[i][j][0] = 0;
                for l in 0..problem.m {
                    let c = poly::coefficient(&basis[i][l], k);
                    if c != 0 {
                        for t in 0..problem.d[j] {
                            r[i][j][t] = (r[i][j][t] + c * problem.f[l][j][t]) % p;
                        }
                    }
                }
            }
        }
    }
    r
}

/// Full row rank by minors: the rank of m rows is m exactly if some choice of
/// m columns has a determinant other than 0.
pub fn full_rank_by_minors(rows: &[Vec<u64>], p: u64) -> bool {
    let m = rows.len();
    let width = rows[0].len();
    (0usize..1 << width).filter(|s| s.count_ones() as usize == m).any(|set| {
        let square: Vec<Vec<u64>> = rows
            .iter()
            .map(|r| (0..width).filter(|j| set >> j & 1 == 1).map(|j| r[j]).collect())
            .collect();
        poly::determinant_permutations(&square, p) != 0
    })
}

/// Rank by elimination, columns from the last to the first, pivot the lowest
/// row that has one.
pub fn rank_from_behind(rows: &[Vec<u64>], p: u64) -> usize {
    let mut a: Vec<Vec<u64>> = rows.to_vec();
    let width = a.first().map(|r| r.len()).unwrap_or(0);
    let mut left = a.len();
    for j in (0..width).rev() {
        let Some(i) = (0..left).rev().find(|&i| a[i][j] != 0) else {
            continue;
        };
        left -= 1;
        a.swap(i, left);
        let inverse = field::inverse(a[left][j], p);
        let (above, pivot) = a.split_at_mut(left);
        for row in above.iter_mut() {
            if row[j] != 0 {
                let c = p - field::mul(row[j], inverse, p);
                for t in 0..=j {
                    row[t] = (row[t] + c * pivot[0][t]) % p;
                }
            }
        }
        if left == 0 {
            break;
        }
    }
    rows.len() - left
}

/// Code, file, record and at by the conditions 9 to 13, or 0 and the degree sum.
///
/// Reduced: a row of zeros has no degree, so there is no degree sum and the
/// code is 9. Otherwise let u_i be the row degrees and D = sum u - sum s. det P
/// is the signed sum, over the ways to match rows i with columns j, of products
/// of entries. An entry (i, j) other than zero has no power above u_i - s_j,
/// which is then not negative, and the powers u_i - s_j of a match add up to
/// D. So the coefficient of det P at D is the same signed sum of the leading
/// matrix' entries, its determinant, and det P has no power above D. With a
/// zero entry a match adds nothing to either. If D is negative, every match has
/// a negative u_i - s_j and hence a zero entry: det P is 0, and so is the
/// leading determinant. Hence P is reduced exactly if det P has a coefficient
/// other than 0 at D, and the leading matrix need not be built. It is built all
/// the same and the two numbers are compared.
///
/// Determinant: fraction-free elimination; compared with the determinant over
/// the column subsets.
///
/// Rank: by minors; compared with an elimination from behind.
pub fn four(problem: &Problem, basis: &Matrix, evidence: &[Vec<u64>]) -> Result<(u32, u32, u32, u64), String> {
    let p = problem.p;
    let det = poly::determinant_bareiss(basis, p);
    if det != poly::determinant_subsets(basis, p) {
        return Err("the two determinants differ".into());
    }
    let Some(degrees) = row_degrees(basis, &problem.s) else {
        if !det.is_empty() {
            return Err("a row of zeros and a determinant other than 0".into());
        }
        return Ok((9, 0, 0, 0));
    };
    let sum = degrees.iter().sum::<i64>() - problem.s.iter().sum::<i64>();
    if !det.is_empty() && det.len() as i64 - 1 > sum {
        return Err("the determinant has a power above the degree sum".into());
    }
    let top = at_power(&det, sum);
    if Some(top) != leading(basis, &problem.s).map(|l| poly::determinant_permutations(&l, p)) {
        return Err("top coefficient and leading determinant differ".into());
    }
    if top == 0 {
        return Ok((9, 0, 0, 0));
    }
    if det.iter().filter(|c| **c != 0).count() != 1 {
        return Ok((10, 0, 0, 0));
    }
    let r = product(problem, basis);
    for i in 0..problem.m {
        for j in 0..problem.n {
            if r[i][j][..problem.d[j]].iter().any(|c| *c != 0) {
                return Ok((11, 2, i as u32, j as u64));
            }
        }
    }
    for i in 0..problem.m {
        for j in 0..problem.n {
            if r[i][j][problem.d[j]] != evidence[i][j] {
                return Ok((12, 2, i as u32, j as u64));
            }
        }
    }
    let rows: Vec<Vec<u64>> = (0..problem.m)
        .map(|i| {
            let mut row: Vec<u64> = basis[i].iter().map(|e| poly::coefficient(e, 0)).collect();
            row.extend(&evidence[i]);
            row
        })
        .collect();
    let full = full_rank_by_minors(&rows, p);
    if full != (rank_from_behind(&rows, p) == problem.m) {
        return Err("the two ranks differ".into());
    }
    if !full {
        return Ok((13, 0, 0, 0));
    }
    Ok((0, 0, 0, sum as u64))
}

fn refused(r: read::Refusal, size: usize) -> Verdict {
    Verdict {
        code: r.code,
        file: r.file,
        record: r.record,
        at: r.at as u64,
        part: (r.file as usize, r.start, size),
    }
}

/// The verdict of `judge` with the part it points at. Wherever both files can
/// be read, the plain meaning is checked as well: an error says that it
/// disagrees with the four conditions.
pub fn judge(problem_file: &[u8], answer_file: &[u8]) -> Result<Verdict, String> {
    let problem = match read::problem(problem_file) {
        Ok(x) => x,
        Err(r) => return Ok(refused(r, problem_file.len())),
    };
    let answer = match read::answer(answer_file, &problem, true) {
        Ok(x) => x,
        Err(r) => return Ok(refused(r, answer_file.len())),
    };
    let (code, file, record, at) = four(&problem, &answer.basis, &answer.evidence)?;
    plain::compare(&problem, &answer.basis, &answer.evidence, code, at)?;
    let part = match code {
        11 => {
            let (a, b) = problem.columns[at as usize];
            (0, a, b)
        }
        12 => (1, answer.last.0, answer.last.1),
        _ => (1, 0, 0),
    };
    Ok(Verdict { code, file, record, at, part })
}

/// The verdict of `make_evidence`; the buffer is changed on success only.
pub fn make_evidence(problem_file: &[u8], answer_file: &[u8], lent: &mut [u8]) -> Verdict {
    let problem = match read::problem(problem_file) {
        Ok(x) => x,
        Err(r) => return refused(r, problem_file.len()),
    };
    let answer = match read::answer(answer_file, &problem, false) {
        Ok(x) => x,
        Err(r) => return refused(r, answer_file.len()),
    };
    let need = 2 + 4 * problem.m * problem.n;
    let code = if lent.len() < need { 14 } else { 0 };
    if code == 0 {
        let r = product(&problem, &answer.basis);
        let mut record = b"CE".to_vec();
        for row in &r {
            for (j, entry) in row.iter().enumerate() {
                record.extend((entry[problem.d[j]] as u32).to_le_bytes());
            }
        }
        lent[..need].copy_from_slice(&record);
    }
    Verdict { code, file: 0, record: 0, at: need as u64, part: (1, 0, 0) }
}

pub fn hex(bytes: &[u8], line: &mut String) {
    const DIGITS: &[u8; 16] = b"0123456789abcdef";
    line.reserve(2 * bytes.len());
    for b in bytes {
        line.push(DIGITS[(b >> 4) as usize] as char);
        line.push(DIGITS[(b & 15) as usize] as char);
    }
}

/// What the shifts and the zero entries of a claim are like.
pub struct Shape {
    /// two shifts differ by more than the degree of any entry
    pub apart: bool,
    /// some row is zero
    pub zero_row: bool,
    /// some zero entry is asked for a negative power: the shift of its column
    /// is above the degree of its row
    pub negative: bool,
}

/// The shape of a claim whose files can be read.
fn shape(problem_file: &[u8], answer_file: &[u8]) -> Option<Shape> {
    let problem = read::problem(problem_file).ok()?;
    let basis = read::answer(answer_file, &problem, true).ok()?.basis;
    let s = &problem.s;
    let above = |row: &Vec<Poly>| row_degree(row, s).is_some_and(|u| s.iter().any(|s| *s > u));
    Some(Shape {
        apart: s.iter().max().unwrap() - s.iter().min().unwrap() >= read::LENGTH as i64,
        zero_row: row_degrees(&basis, s).is_none(),
        negative: basis.iter().any(above),
    })
}

pub struct Said {
    pub lines: [String; 3],
    pub judged: Verdict,
    pub made: u32,
    /// m and n, where the problem can be read
    pub size: (usize, usize),
    /// where both files can be read
    pub shape: Option<Shape>,
}

pub fn judge_line(v: &Verdict) -> String {
    if v.code == 0 {
        format!("pass {}", v.at)
    } else {
        format!("refuse {} {} {} {}", v.code, v.file, v.record, v.at)
    }
}

/// The three lines of a case.
pub fn say(problem: &[u8], answer: &[u8], lent: usize) -> Result<Said, String> {
    let v = judge(problem, answer)?;
    let first = judge_line(&v);
    let (file, from, to) = v.part;
    let part = if file == 0 { &problem[from..to] } else { &answer[from..to] };
    let mut second = format!("part {}", part.len());
    if !part.is_empty() {
        second.push(' ');
        hex(part, &mut second);
    }
    let mut buffer = vec![170u8; lent];
    let e = make_evidence(problem, answer, &mut buffer);
    let mut third = format!("evidence {} {} {} {}", e.code, e.file, e.record, e.at);
    if lent > 0 {
        third.push(' ');
        hex(&buffer, &mut third);
    }
    let size = if (v.code == 0 || v.code > 8) || v.file == 1 { (problem[6] as usize, problem[7] as usize) } else { (0, 0) };
    let shape = shape(problem, answer);
    Ok(Said { lines: [first, second, third], judged: v, made: e.code, size, shape })
}
