//! Bases made by the plain iteration of source document 004, as document 02
//! asks for them under L7, and what there is to be said of each.
//!
//! Every step starts from P alone: the product with F is formed anew and whole,
//! the row degrees are read off the entries, and whether a row's residual
//! depends on those of the earlier pivots is asked of determinants (Cramer's
//! rule), not of an elimination.
//!
//! What is made after b steps, b at least 1, is then held against
//!
//! (a) this program's own judge, by the four conditions and by the plain
//!     meaning, for the problem cut to b;
//! (b) the leading monomials, which linear algebra gives without any iteration.
//!     Put the monomials X^k e_i in order, by k + s_i, ties by i. A row taken
//!     before row i has a degree that is not above that of row i and, where
//!     the two are equal, a smaller number. So subtracting it leaves the largest
//!     monomial of row i, with its coefficient: it is X^k e_i with the
//!     coefficient 1 for some k, in the identity as after each step. The rows
//!     are a basis of the relations, so these k are the least ones: X^k e_i is
//!     the largest monomial of some relation exactly if its row in the table of
//!     the coefficients of X^k F_i below the orders depends on those of the
//!     smaller monomials.

use crate::claim::Claim;
use crate::field;
use crate::plain;
use crate::poly::{self, Matrix};
use crate::random::Random;
use crate::read::{self, Problem, ORDER, SHIFT};
use crate::verdict;

/// Code, file, record and at.
pub type Numbers = [u64; 4];

pub struct Made {
    pub basis: Matrix,
    pub evidence: Vec<Vec<u64>>,
    pub done: usize,
}

/// The rows in the order in which a step takes them: by current degree, lowest
/// first, ties by row number.
fn taken(basis: &Matrix, s: &[i64]) -> Vec<usize> {
    let degree = |i: usize| verdict::row_degree(&basis[i], s).expect("a row of a basis has a degree");
    let mut rows: Vec<usize> = (0..basis.len()).collect();
    rows.sort_by_key(|i| (degree(*i), *i));
    rows
}

/// For each row the coefficients at power k of its product with the columns of
/// order above k. The product is formed whole.
fn residuals(problem: &Problem, basis: &Matrix, k: usize) -> Vec<Vec<u64>> {
    let active: Vec<usize> = (0..problem.n).filter(|j| problem.d[*j] > k).collect();
    let product = |row: &Vec<poly::Poly>| plain::times_f(problem, row);
    basis.iter().map(product).map(|vf| active.iter().map(|j| poly::coefficient(&vf[*j], k)).collect()).collect()
}

/// The combination of the rows by u.
fn combined(rows: &[&Vec<u64>], u: &[u64], width: usize, p: u64) -> Vec<u64> {
    (0..width).map(|j| rows.iter().zip(u).fold(0, |t, (r, c)| field::add(t, field::mul(r[j], *c, p), p))).collect()
}

/// Every u that combines the rows to a, by trying; nothing where there are too
/// many to try.
fn tried(rows: &[&Vec<u64>], a: &[u64], p: u64) -> Option<Vec<Vec<u64>>> {
    let many = p.checked_pow(rows.len() as u32).filter(|n| *n <= 700)?;
    let digits = |code: u64| (0..rows.len() as u32).map(|k| code / p.pow(k) % p).collect::<Vec<u64>>();
    Some((0..many).map(digits).filter(|u| combined(rows, u, a.len(), p) == a).collect())
}

/// The one u that combines the rows, which are independent, to a, if there is
/// one. Some choice of as many columns as there are rows has a determinant
/// other than 0; on these Cramer's rule gives u, and then u has to do for the
/// other columns too.
fn combination(rows: &[&Vec<u64>], a: &Vec<u64>, p: u64) -> Result<Option<Vec<u64>>, String> {
    let columns = |set: usize| (0..a.len()).filter(move |j| set >> j & 1 == 1);
    let determinant = |rows: &[&Vec<u64>], set: usize| {
        let square: Vec<Vec<u64>> = rows.iter().map(|r| columns(set).map(|j| r[j]).collect()).collect();
        poly::determinant_permutations(&square, p)
    };
    let sets = (0usize..1 << a.len()).filter(|set| set.count_ones() as usize == rows.len());
    let Some((set, whole)) = sets.map(|set| (set, determinant(rows, set))).find(|(_, d)| *d != 0) else {
        return Err("the residuals of the pivots depend on each other".into());
    };
    let by = field::inverse(whole, p);
    let replaced = |q: usize| rows.iter().enumerate().map(|(r, row)| if r == q { a } else { *row }).collect::<Vec<_>>();
    let u: Vec<u64> = (0..rows.len()).map(|q| field::mul(determinant(&replaced(q), set), by, p)).collect();
    let found = (combined(rows, &u, a.len(), p) == *a).then_some(u);
    match tried(rows, a, p) {
        Some(all) if all != found.iter().cloned().collect::<Vec<_>>() => Err("constants by trying and by Cramer's rule differ".into()),
        _ => Ok(found),
    }
}

/// One order step.
fn step(problem: &Problem, basis: &Matrix, k: usize) -> Result<Matrix, String> {
    let p = problem.p;
    let residual = residuals(problem, basis, k);
    let mut next = basis.clone();
    let mut pivots: Vec<usize> = Vec::new();
    for i in taken(basis, &problem.s) {
        let rows: Vec<&Vec<u64>> = pivots.iter().map(|q| &residual[*q]).collect();
        match combination(&rows, &residual[i], p)? {
            None => pivots.push(i),
            Some(u) => {
                for (q, c) in pivots.iter().zip(u) {
                    for (e, by) in next[i].iter_mut().zip(&basis[*q]) {
                        *e = poly::sub(e, &poly::scaled(by, c, 0, p), p);
                    }
                }
            }
        }
    }
    for i in pivots {
        for e in next[i].iter_mut() {
            *e = poly::scaled(e, 1, 1, p);
        }
    }
    Ok(next)
}

/// The same problem with each order the smaller of it and b, and F cut to match.
pub fn cut(problem: &Problem, b: usize) -> Claim {
    let d: Vec<usize> = problem.d.iter().map(|d| b.min(*d)).collect();
    let f = problem.f.iter().map(|row| row.iter().zip(&d).map(|(e, d)| e[..*d].to_vec()).collect()).collect();
    Claim { p: problem.p, m: problem.m, n: problem.n, d, s: problem.s.clone(), f, basis: Vec::new(), evidence: Vec::new() }
}

/// The coefficients at the orders: of the cut problem, so that there are none
/// after 0 steps.
fn evidence(problem: &Problem, basis: &Matrix) -> Vec<Vec<u64>> {
    let at_order = |row: Vec<Vec<u64>>| row.iter().zip(&problem.d).map(|(e, d)| e[*d]).collect();
    verdict::product(problem, basis).into_iter().map(at_order).collect()
}

/// P, C and the steps done.
pub fn made(problem: &Problem, steps: u32) -> Result<Made, String> {
    let done = (steps as usize).min(*problem.d.iter().max().unwrap());
    let mut claim = cut(problem, done);
    claim.identity(0);
    let mut basis = claim.basis;
    for k in 0..done {
        basis = step(problem, &basis, k)?;
    }
    let evidence = evidence(&cut(problem, done).as_problem(), &basis);
    Ok(Made { basis, evidence, done })
}

/// The file of what was made.
pub fn file(problem: &Problem, made: &Made) -> Vec<u8> {
    let mut claim = cut(problem, made.done);
    claim.basis = made.basis.clone();
    claim.evidence = made.evidence.clone();
    claim.answer(true).bytes
}

/// For each i the least k for which X^k e_i is the largest monomial of a
/// relation.
pub fn least(problem: &Problem) -> Vec<usize> {
    let largest = *problem.d.iter().max().unwrap();
    let mut monomials: Vec<(i64, usize, usize)> =
        (0..problem.m).flat_map(|i| (0..largest).map(move |k| (problem.s[i] + k as i64, i, k))).collect();
    monomials.sort();
    let table = plain::table(problem);
    let mut rows: Vec<Vec<u64>> = Vec::new();
    let mut r = vec![largest; problem.m];
    for (_, i, k) in monomials {
        rows.push(table[i * largest + k].clone());
        if verdict::rank_from_behind(&rows, problem.p) < rows.len() {
            rows.pop();
            r[i] = r[i].min(k);
        }
    }
    r
}

/// What was made against (a) and (b); nothing is claimed of 0 steps.
fn checked(problem: &Problem, made: &Made) -> Result<(), String> {
    if made.done == 0 {
        return Ok(());
    }
    let claim = cut(problem, made.done);
    let v = verdict::judge(&claim.problem().bytes, &file(problem, made))?;
    if v.code != 0 {
        return Err(format!("what is made gets {}", verdict::judge_line(&v)));
    }
    for (i, k) in least(&claim.as_problem()).into_iter().enumerate() {
        let above = |j: usize| made.basis[i][j].len() as i64 + claim.s[j] - 1 - (k as i64 + claim.s[i]);
        if made.basis[i][i].len() != k + 1 || made.basis[i][i][k] != 1 {
            return Err(format!("row {i} has not X^{k} at its own place"));
        }
        if (0..claim.m).any(|j| !made.basis[i][j].is_empty() && (above(j), j) > (0, i)) {
            return Err(format!("row {i} has a larger monomial"));
        }
    }
    Ok(())
}

/// The four numbers; the buffer is changed on success only.
pub fn make_basis(problem_file: &[u8], steps: u32, lent: &mut [u8]) -> Result<Numbers, String> {
    let problem = match read::problem(problem_file) {
        Ok(x) => x,
        Err(r) => return Ok([r.code as u64, r.file as u64, r.record as u64, r.at as u64]),
    };
    let made = made(&problem, steps)?;
    checked(&problem, &made)?;
    let file = file(&problem, &made);
    if lent.len() < file.len() {
        return Ok([14, 0, 0, file.len() as u64]);
    }
    lent[..file.len()].copy_from_slice(&file);
    Ok([0, 0, made.done as u64, file.len() as u64])
}

/// A case worked by hand: p = 7 and one column.
struct Worked {
    s: &'static [i64],
    f: &'static [&'static [u64]],
    steps: u32,
    basis: &'static [&'static [&'static [u64]]],
    evidence: &'static [u64],
    done: usize,
}

const WORKED: &[Worked] = &[
    // document 01's problem: no step, one, all, one more than there are
    Worked { s: &[0, 0], f: &[&[1, 0], &[1, 1]], steps: 0, basis: &[&[&[1], &[]], &[&[], &[1]]], evidence: &[0, 0], done: 0 },
    Worked { s: &[0, 0], f: &[&[1, 0], &[1, 1]], steps: 1, basis: &[&[&[0, 1], &[]], &[&[6], &[1]]], evidence: &[1, 0], done: 1 },
    Worked { s: &[0, 0], f: &[&[1, 0], &[1, 1]], steps: 2, basis: &[&[&[1, 1], &[6]], &[&[0, 6], &[0, 1]]], evidence: &[0, 1], done: 2 },
    Worked { s: &[0, 0], f: &[&[1, 0], &[1, 1]], steps: 3, basis: &[&[&[1, 1], &[6]], &[&[0, 6], &[0, 1]]], evidence: &[0, 1], done: 2 },
    // the second row is lower, by any distance
    Worked { s: &[1, 0], f: &[&[1], &[1]], steps: 1, basis: &[&[&[1], &[6]], &[&[], &[0, 1]]], evidence: &[0, 1], done: 1 },
    Worked { s: &[SHIFT, -SHIFT], f: &[&[2], &[3]], steps: u32::MAX, basis: &[&[&[1], &[4]], &[&[], &[0, 1]]], evidence: &[0, 3], done: 1 },
    // a row without a residual is no pivot, whatever its place
    Worked { s: &[0, 0], f: &[&[0], &[3]], steps: 1, basis: &[&[&[1], &[]], &[&[], &[0, 1]]], evidence: &[0, 3], done: 1 },
    // C without the coefficient of F at the power of the cut
    Worked { s: &[0], f: &[&[0, 1]], steps: 1, basis: &[&[&[1]]], evidence: &[0], done: 1 },
    Worked { s: &[0], f: &[&[0, 1]], steps: 2, basis: &[&[&[0, 1]]], evidence: &[1], done: 2 },
    // equal shifts and three rows: another pivot in each step
    Worked {
        s: &[5, 5, 5],
        f: &[&[1, 0, 0], &[0, 1, 0], &[0, 0, 1]],
        steps: 3,
        basis: &[&[&[0, 1], &[6], &[]], &[&[], &[0, 1], &[6]], &[&[], &[], &[0, 1]]],
        evidence: &[0, 0, 1],
        done: 3,
    },
];

fn right(w: &Worked) -> bool {
    let m = w.s.len();
    let f = w.f.iter().map(|e| vec![e.to_vec()]).collect();
    let d = vec![w.f[0].len()];
    let problem = Problem { p: 7, m, n: 1, d, s: w.s.to_vec(), f, columns: Vec::new() };
    let basis: Matrix = w.basis.iter().map(|row| row.iter().map(|e| e.to_vec()).collect()).collect();
    let evidence: Vec<Vec<u64>> = w.evidence.iter().map(|c| vec![*c]).collect();
    made(&problem, w.steps).is_ok_and(|made| {
        let same = (&made.basis, &made.evidence, made.done) == (&basis, &evidence, w.done);
        if !same {
            println!("got {:?} {:?} {}", made.basis, made.evidence, made.done);
        }
        same && checked(&problem, &made).is_ok()
    })
}

/// Every relation of degree up to the largest order, by trying every vector: is
/// its largest monomial a multiple of that of a row?
fn none_lower(problem: &Problem, made: &Made) -> bool {
    let largest = *problem.d.iter().max().unwrap();
    let places: Vec<(usize, usize)> = (0..problem.m).flat_map(|i| (0..=largest).map(move |k| (i, k))).collect();
    (1..problem.p.pow(places.len() as u32)).all(|code| {
        let digit = |place: usize| code / problem.p.pow(place as u32) % problem.p;
        let mut v: Vec<poly::Poly> = (0..problem.m).map(|i| (0..=largest).map(|k| digit(i * (largest + 1) + k)).collect()).collect();
        v.iter_mut().for_each(poly::trim);
        let vf = plain::times_f(problem, &v);
        let relation = vf.iter().zip(&problem.d).all(|(e, d)| e.iter().take(*d).all(|c| *c == 0));
        let (_, i) = (0..problem.m).filter(|i| !v[*i].is_empty()).map(|i| (v[i].len() as i64 + problem.s[i], i)).max().unwrap();
        !relation || v[i].len() >= made.basis[i][i].len()
    })
}

/// Every problem of a few tiny sizes, with every number of steps.
fn tiny(p: u64, m: usize, d: &[usize], shifts: &[&[i64]]) -> bool {
    let numbers: usize = m * d.iter().sum::<usize>();
    (0..p.pow(numbers as u32)).all(|code| {
        let mut rest = code;
        let mut digit = || {
            let c = rest % p;
            rest /= p;
            c
        };
        let f: Vec<Vec<Vec<u64>>> = (0..m).map(|_| d.iter().map(|d| (0..*d).map(|_| digit()).collect()).collect()).collect();
        shifts.iter().all(|s| {
            let problem = Problem { p, m, n: d.len(), d: d.to_vec(), s: s.to_vec(), f: f.clone(), columns: Vec::new() };
            (1..=*d.iter().max().unwrap()).all(|steps| {
                let made = made(&problem, steps as u32).unwrap();
                let said = checked(&problem, &made);
                said.is_ok() && none_lower(&cut(&problem, steps).as_problem(), &made)
            })
        })
    })
}

/// What this part has to say of itself: what was checked, and whether it holds.
pub fn checks(random: &mut Random) -> Vec<(String, bool)> {
    let mut all: Vec<(String, bool)> = WORKED.iter().enumerate().map(|(k, w)| (format!("made, case {k}"), right(w))).collect();
    let two: &[&[i64]] = &[&[0, 0], &[0, 1], &[1, 0], &[-SHIFT, SHIFT]];
    all.push(("made, all of p = 2, m = 1".into(), tiny(2, 1, &[3, 1], &[&[0], &[-1]])));
    all.push(("made, all of p = 2, m = 2".into(), tiny(2, 2, &[2], two)));
    all.push(("made, all of p = 2, m = 2, n = 2".into(), tiny(2, 2, &[2, 1], two)));
    all.push(("made, all of p = 3, m = 2".into(), tiny(3, 2, &[1, 1], two)));
    all.push(("made, all of p = 2, m = 3".into(), tiny(2, 3, &[1], &[&[0, 0, 0], &[2, 1, 0], &[0, 1, 0]])));
    // a buffer is written from its front alone, and only if the file has room in it
    let problem = crate::make::worked()[9].0.problem().bytes;
    for (steps, needed, done) in [(0, 38, 0), (1, 46, 1), (2, 58, 2), (u32::MAX, 58, 2)] {
        for lent in [0, needed - 1, needed, needed + 1 + random.below(ORDER)] {
            let mut buffer = vec![170u8; lent];
            let room = lent >= needed;
            let due = if room { [0, 0, done, needed as u64] } else { [14, 0, 0, needed as u64] };
            let numbers = make_basis(&problem, steps, &mut buffer) == Ok(due);
            let kept = buffer.iter().skip(if room { needed } else { 0 }).all(|b| *b == 170);
            let written = !room || buffer.starts_with(b"PE\0\0") && buffer[needed - 10..].starts_with(b"CE");
            all.push((format!("made in {lent} bytes, {steps} steps"), numbers && kept && written));
        }
    }
    all
}
