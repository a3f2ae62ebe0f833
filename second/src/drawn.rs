//! The answer by drawn numbers, a row u and a point: by the whole product of P
//! and F. And claims with numbers drawn for them, some with every point.

use crate::claim::Claim;
use crate::field;
use crate::make::{self, Maker};
use crate::poly::{self, Poly};
use crate::random::Random;
use crate::read::{self, Answer, Problem, Refusal, ORDER, ROWS};

#[derive(Clone, PartialEq)]
pub struct Drawing {
    pub problem: Vec<u8>,
    pub answer: Vec<u8>,
    /// as many numbers as m may be at most
    pub u: [u32; ROWS],
    pub point: u32,
}

/// Code, file, record and at.
pub type Numbers = [u64; 4];

pub const MAY_PASS: Numbers = [0, 0, 0, 0];
const TURNED_AWAY: Numbers = [255, 0, 0, 0];

/// The entry of PF in row i and column j, whole.
fn product(problem: &Problem, answer: &Answer, i: usize, j: usize) -> Poly {
    (0..problem.m).fold(Vec::new(), |sum, l| {
        let mut f = problem.f[l][j].clone();
        poly::trim(&mut f);
        poly::add(&sum, &poly::mul(&answer.basis[i][l], &f, problem.p), problem.p)
    })
}

/// It up to the column's order, less C's number at the order.
fn cut(problem: &Problem, answer: &Answer, i: usize, j: usize) -> Poly {
    let mut e = product(problem, answer, i, j);
    e.truncate(problem.d[j] + 1);
    let c = poly::scaled(&vec![1], answer.evidence[i][j], problem.d[j], problem.p);
    poly::sub(&e, &c, problem.p)
}

/// The rows of the cut product, combined by u, in column j.
fn combined(problem: &Problem, answer: &Answer, u: &[u32; ROWS], j: usize) -> Poly {
    (0..problem.m).fold(Vec::new(), |sum, i| {
        let row = poly::scaled(&cut(problem, answer, i, j), u[i] as u64, 0, problem.p);
        poly::add(&sum, &row, problem.p)
    })
}

fn value(f: &Poly, point: u64, p: u64) -> u64 {
    let (mut sum, mut power) = (0, 1 % p);
    for c in f {
        sum = field::add(sum, field::mul(*c, power, p), p);
        power = field::mul(power, point, p);
    }
    sum
}

fn both(problem: &[u8], answer: &[u8]) -> Result<(Problem, Answer), Refusal> {
    let problem = read::problem(problem)?;
    let answer = read::answer(answer, &problem, true)?;
    Ok((problem, answer))
}

/// The place of the first number read that is p or more: u from 0, the point m.
fn too_large(problem: &Problem, d: &Drawing) -> Option<usize> {
    let read = d.u[..problem.m].iter().chain([&d.point]);
    read.enumerate().find(|(_, x)| **x as u64 >= problem.p).map(|(place, _)| place)
}

/// What is to be answered. Each entry is evaluated by itself, and the values
/// are combined; where a row is combined first, that has to say the same.
pub fn say(d: &Drawing) -> Result<Numbers, String> {
    let (problem, answer) = match both(&d.problem, &d.answer) {
        Ok(x) => x,
        Err(r) => return Ok([r.code as u64, r.file as u64, r.record as u64, r.at as u64]),
    };
    if let Some(place) = too_large(&problem, d) {
        return Ok([16, 2, 0, place as u64]);
    }
    let (p, point) = (problem.p, d.point as u64);
    let mut zero = true;
    for j in 0..problem.n {
        let sum = (0..problem.m).fold(0, |sum, i| {
            let x = value(&cut(&problem, &answer, i, j), point, p);
            field::add(sum, field::mul(d.u[i] as u64, x, p), p)
        });
        if sum != value(&combined(&problem, &answer, &d.u, j), point, p) {
            return Err("combined before and after the value".into());
        }
        zero &= sum == 0;
    }
    Ok(if zero { MAY_PASS } else { TURNED_AWAY })
}

/// How many points may give "may pass" at most, by the combined row: as many
/// as the lowest order of a column in which it is not zero; all, if it is zero
/// everywhere. Nothing, where no such number is drawn.
pub fn most_points(d: &Drawing) -> Option<(u64, u64)> {
    let (problem, answer) = both(&d.problem, &d.answer).ok()?;
    too_large(&problem, &Drawing { point: 0, ..d.clone() }).is_none().then_some(())?;
    let most = (0..problem.n).filter(|j| !combined(&problem, &answer, &d.u, *j).is_empty()).map(|j| problem.d[j] as u64).min();
    Some((problem.p, most.unwrap_or(problem.p)))
}

fn some_drawn(p: u64, random: &mut Random) -> u32 {
    match random.below(12) {
        0 => 0,
        1 => 1,
        2 => p as u32 - 1,
        _ => (random.next() % p) as u32,
    }
}

/// A number that is too large now and then, and often so where it isn't read.
fn large(p: u64, random: &mut Random) -> u32 {
    let any = random.next() as u32;
    random.pick(&[p as u32, p as u32 + 1, u32::MAX, any])
}

fn draw(problem: &[u8], random: &mut Random) -> ([u32; ROWS], u32) {
    let (p, m) = read::problem(problem).map_or((7, ROWS), |b| (b.p, b.m));
    let kind = random.below(12);
    let mut u = [0; ROWS];
    for (i, x) in u.iter_mut().enumerate() {
        *x = match kind {
            0 => 0,
            _ if i >= m && random.chance(80) => large(p, random),
            1 if random.chance(30) => large(p, random),
            _ => some_drawn(p, random),
        };
    }
    let point = match random.below(10) {
        0 => 0,
        1 => 1,
        2 => p as u32 - 1,
        3 => p as u32,
        4 if random.chance(30) => large(p, random),
        _ => (random.next() % p) as u32,
    };
    (u, point)
}

/// One row and one column of order 16, P = 1 and F, C so that exactly the first
/// `roots` of the points, or all of few, give 0.
fn with_roots(p: u64, roots: usize, random: &mut Random) -> Claim {
    let points = random.order(p as usize);
    let mut f: Poly = points[..roots].iter().fold(vec![1], |f, a| poly::mul(&f, &vec![(p - *a as u64) % p, 1], p));
    let lead = poly::coefficient(&f, ORDER);
    f.resize(ORDER, 0);
    f.truncate(ORDER);
    let evidence = vec![vec![(p - lead) % p]];
    Claim { p, m: 1, n: 1, d: vec![ORDER], s: vec![0], f: vec![vec![f]], basis: vec![vec![vec![1]]], evidence }
}

fn files(claim: &Claim) -> (Vec<u8>, Vec<u8>) {
    (claim.problem().bytes, claim.answer(true).bytes)
}

/// A claim of a small p, spoilt most often.
fn small_claim(random: &mut Random) -> Claim {
    let p = random.pick(&[17, 19, 23, 29, 31, 61, 251]);
    if random.chance(30) {
        let roots = random.pick(&[1, 2, 15, 16, 16]);
        return with_roots(p, roots, random);
    }
    let mut claim = make::honest(random, true);
    if random.chance(90) {
        let way = random.below(make::WAYS);
        make::spoil(&mut claim, way, random);
    }
    claim
}

pub struct Drawer {
    maker: Maker,
    random: Random,
    waiting: Vec<Drawing>,
}

impl Drawer {
    pub fn new(seed: u64) -> Drawer {
        Drawer { maker: Maker::new(seed), random: Random(seed ^ 0x5eed), waiting: Vec::new() }
    }

    /// Every point of a small p, for one u.
    fn sweep(&mut self) {
        let (problem, answer) = files(&small_claim(&mut self.random));
        let Ok(b) = read::problem(&problem) else {
            return;
        };
        let mut u = [0; ROWS];
        u.fill_with(|| (self.random.next() % b.p) as u32);
        self.waiting = (0..b.p as u32).rev().map(|point| Drawing { problem: problem.clone(), answer: answer.clone(), u, point }).collect();
    }

    pub fn next(&mut self) -> Drawing {
        if self.waiting.is_empty() && self.random.chance(2) {
            self.sweep();
        }
        self.waiting.pop().unwrap_or_else(|| {
            let case = self.maker.next();
            let (u, point) = draw(&case.problem, &mut self.random);
            Drawing { problem: case.problem, answer: case.answer, u, point }
        })
    }
}
