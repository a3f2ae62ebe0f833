//! Makes claims: honest ones, spoilt ones, spoilt files.

use crate::claim::{Claim, File, Kind};
use crate::field;
use crate::poly::{self, Poly};
use crate::random::Random;
use crate::read::{LENGTH, ORDER, ROWS, SHIFT};

pub struct Case {
    pub problem: Vec<u8>,
    pub answer: Vec<u8>,
    pub lent: usize,
}

/// p that are no allowed prime: small, even, powers, Carmichael numbers,
/// strong pseudoprimes, products of two primes near the root of 2^31, and
/// primes that are too large.
pub fn wrong_primes() -> Vec<u64> {
    let mut r = vec![
        0, 1, 4, 6, 8, 9, 10, 15, 21, 25, 27, 35, 49, 91, 121, 169, 255, 256, 341, 65535, 65536,
        65537 * 3, 16_777_216, 1 << 30, 2_147_483_645, 2_147_483_646, 1 << 31, (1 << 31) + 1,
        // Carmichael numbers
        561, 1105, 1729, 2465, 2821, 6601, 8911, 10585, 15841, 29341, 41041, 46657, 52633, 62745,
        63973, 75361, 101_101, 115_921, 126_217, 162_401, 172_081, 188_461, 252_601, 278_545,
        294_409, 825_265, 321_197_185,
        // strong pseudoprimes to small bases
        2047, 3277, 4033, 4681, 8321, 1_373_653, 25_326_001, 3_215_031_751,
        // primes, but too large
        2_147_483_659, 2_147_483_693, 4_294_967_279, 4_294_967_291,
        4_294_967_295, 4_294_967_294,
    ];
    let near: Vec<u64> = (46_200u64..46_341).filter(|n| field::is_prime(*n)).collect();
    for w in near.windows(2) {
        r.push(w[0] * w[0]);
        r.push(w[0] * w[1]);
    }
    let last = *near.last().unwrap();
    r.push(last * last);
    for q in [2u64, 3, 5, 7, 251] {
        let mut top = (1u64 << 31) / q;
        while !field::is_prime(top) {
            top -= 1;
        }
        r.push(q * top);
    }
    assert!(r.iter().all(|n| !field::allowed(*n)));
    r
}

pub fn right_primes() -> Vec<u64> {
    let r = vec![
        2, 3, 5, 7, 11, 13, 17, 19, 23, 29, 31, 37, 97, 127, 211, 241, 251, 257, 509, 521, 8191, 46_327, 46_337,
        46_349, 65_521, 65_537, 131_071, 524_287, 1_000_003, 16_777_213, 16_777_259,
        998_244_353, 1_073_741_789, 1_073_741_827, 2_147_483_549, 2_147_483_563, 2_147_483_579,
        2_147_483_587, 2_147_483_629, 2_147_483_647,
    ];
    assert!(r.iter().all(|n| field::allowed(*n)));
    r
}

pub fn some_prime(random: &mut Random) -> u64 {
    match random.below(20) {
        0..=3 => 2,
        4..=5 => 3,
        6 => 5,
        7..=8 => 7,
        9..=10 => 251,
        11..=12 => 65_521,
        13..=14 => 2_147_483_647,
        15 => random.pick(&right_primes()),
        _ => {
            let bits = random.between(2, 31);
            let mut n = random.next() % (1u64 << bits);
            while !field::allowed(n) {
                n = random.next() % (1u64 << bits);
            }
            n
        }
    }
}

fn some_number(p: u64, random: &mut Random) -> u64 {
    match random.below(8) {
        0 => 0,
        1 => 1 % p,
        2 => p - 1,
        _ => random.next() % p,
    }
}

/// An entry of that length.
fn some_entry(length: usize, p: u64, random: &mut Random) -> Poly {
    let mut e: Poly = (0..length).map(|_| some_number(p, random)).collect();
    if let Some(last) = e.last_mut() {
        *last = 1 + random.next() % (p - 1).max(1);
    }
    e
}

fn some_orders(n: usize, random: &mut Random) -> Vec<usize> {
    let kind = random.below(8);
    let same = 1 + random.below(ORDER);
    (0..n)
        .map(|_| match kind {
            0 => 1,
            1 => same,
            2 | 3 => 1 + random.below(4),
            4 => 1 + random.below(ORDER),
            5 => random.pick(&[1, 2, ORDER - 1, ORDER]),
            6 => 1 + random.below(8),
            _ => 1 + random.below(2),
        })
        .collect()
}

/// Shifts on two levels that are about 16 apart, which is as far as the degree
/// of an entry reaches, or more; and some between them.
fn far_shifts(m: usize, random: &mut Random) -> Vec<i64> {
    let (low, high) = random.pick(&[
        (-SHIFT, SHIFT), (-SHIFT, SHIFT), (-SHIFT, 17 - SHIFT), (SHIFT - 17, SHIFT), (-SHIFT, 0), (0, SHIFT),
        (-40, -3), (-900, -300), (0, 16), (0, 17), (0, 18), (-9, 100), (300, 900),
    ]);
    let about = random.pick(&[0, 0, 1, 3]);
    random
        .order(m)
        .into_iter()
        .map(|place| {
            let between = random.between(low, high);
            let level = [low, high, random.pick(&[low, high, between])][place.min(2)];
            (level + random.between(-about, about)).clamp(-SHIFT, SHIFT)
        })
        .collect()
}

pub fn some_shifts(m: usize, random: &mut Random) -> Vec<i64> {
    if random.chance(35) {
        return far_shifts(m, random);
    }
    let kind = random.below(14);
    let base = random.pick(&[-SHIFT, 1 - SHIFT, -500, -16, -1, 0, 1, 7, 500, 983, SHIFT - 1, SHIFT]);
    let step = random.between(-20, 20);
    (0..m)
        .map(|i| match kind {
            0..=2 => 0,
            3 => base,
            4..=6 => (base + random.between(-1, 1)).clamp(-SHIFT, SHIFT),
            7 => (base + random.between(-3, 3)).clamp(-SHIFT, SHIFT),
            8 => (base + random.between(0, 8)).clamp(-SHIFT, SHIFT),
            9 => (base + random.between(-9, 9)).clamp(-SHIFT, SHIFT),
            10 => random.pick(&[-SHIFT, SHIFT]),
            11 => random.between(-SHIFT, SHIFT),
            12 => i as i64 * step,
            _ => random.between(-2, 2),
        })
        .collect()
}

fn some_series(claim: &mut Claim, random: &mut Random) {
    let p = claim.p;
    let kind = random.below(10);
    let thin = random.below(100);
    for i in 0..claim.m {
        for j in 0..claim.n {
            let low = random.below(4);
            claim.f[i][j] = (0..claim.d[j])
                .map(|k| match kind {
                    0..=3 => random.next() % p,
                    4 => if random.chance(thin) { 0 } else { random.next() % p },
                    5 => if k == 0 { random.next() % p } else { 0 },
                    6 => random.pick(&[0, 1 % p, p - 1]),
                    7 => if k < low { 0 } else { random.next() % p },
                    8 => some_number(p, random),
                    _ => 0,
                })
                .collect();
        }
    }
    // columns or rows that depend on each other
    if claim.n > 1 && random.chance(10) {
        let (a, b) = (random.below(claim.n), random.below(claim.n));
        for i in 0..claim.m {
            for k in 0..claim.d[a].min(claim.d[b]) {
                claim.f[i][a][k] = claim.f[i][b][k];
            }
        }
    }
    if claim.m > 1 && random.chance(10) {
        let (a, b) = (random.below(claim.m), random.below(claim.m));
        let c = random.next() % p;
        for j in 0..claim.n {
            claim.f[a][j] = claim.f[b][j].iter().map(|x| field::mul(*x, c, p)).collect();
        }
    }
}

/// A problem with the identity as its answer.
pub fn some_problem(random: &mut Random, small: bool) -> Claim {
    let (mut p, mut m, mut n) = (some_prime(random), 1 + random.below(ROWS), 1 + random.below(ROWS));
    let mut d = some_orders(n, random);
    let mut s = some_shifts(m, random);
    if small {
        p = random.pick(&[2, 2, 2, 3, 3, 5, 7]);
        m = random.pick(&[1, 2, 2, 2, 3]);
        n = random.pick(&[1, 1, 2, 3]);
        d = (0..n).map(|_| 1 + random.below(if m < 3 { 4 } else { 3 })).collect();
        let spread = random.pick(&[0, 0, 1, 2, 5]);
        s = (0..m).map(|_| random.between(-spread, spread)).collect();
        if random.chance(45) {
            s = far_shifts(m, random);
        }
    }
    let mut claim = Claim {
        p,
        m,
        n,
        f: (0..m).map(|_| d.iter().map(|d| vec![0; *d]).collect()).collect(),
        d,
        s,
        basis: Vec::new(),
        evidence: Vec::new(),
    };
    some_series(&mut claim, random);
    claim.identity(0);
    claim.attest();
    claim
}

pub fn honest(random: &mut Random, small: bool) -> Claim {
    let mut claim = some_problem(random, small);
    let (apart, sorted) = (random.chance(40), random.chance(50));
    claim.iterate(apart, sorted, random);
    match random.below(10) {
        0..=3 => {}
        4..=8 => claim.mix(12, LENGTH - 1, random),
        _ => claim.mix(12, 20, random),
    }
    claim
}

/// The identity with entries below it, in the order of the shifts, that leave
/// it reduced: X^0 stands at the degree of its row. F is zero, so that it is a
/// basis.
fn triangle(claim: &mut Claim, random: &mut Random) {
    let p = claim.p;
    claim.clear_series();
    claim.identity(0);
    let filled = random.below(101);
    for i in 0..claim.m {
        for k in 0..claim.m {
            let room = claim.s[i] - claim.s[k];
            if (room > 0 || room == 0 && k < i) && random.chance(filled) {
                let length = random.below((room as usize).min(LENGTH - 1) + 2);
                claim.basis[i][k] = some_entry(length, p, random);
            }
        }
    }
}

/// Powers of X on the diagonal, for a problem that has them as its basis: at
/// most n rows have a power above 0, each with a column of its own whose
/// coefficient at the order it meets.
fn diagonal(claim: &mut Claim, random: &mut Random) {
    let p = claim.p;
    claim.clear_series();
    claim.identity(0);
    let columns = random.order(claim.n);
    for (i, own) in random.order(claim.m).into_iter().zip(columns) {
        let power = random.below(claim.d[own] + 1);
        if power == 0 {
            continue;
        }
        claim.basis[i][i] = poly::scaled(&vec![1], 1, power, p);
        for j in 0..claim.n {
            for k in (claim.d[j] + 1).saturating_sub(power)..claim.d[j] {
                claim.f[i][j][k] = some_number(p, random);
            }
        }
        claim.f[i][own][claim.d[own] - power] = 1 + random.next() % (p - 1).max(1);
    }
}

/// A problem whose F is mostly zero: rows that are zero, or that meet few
/// columns or powers; and its basis by the iteration.
fn thin(claim: &mut Claim, random: &mut Random) {
    let p = claim.p;
    claim.clear_series();
    for i in 0..claim.m {
        for j in 0..claim.n {
            match random.below(6) {
                0 | 1 => {
                    let k = random.below(claim.d[j]);
                    claim.f[i][j][k] = some_number(p, random);
                }
                2 => claim.f[i][j].fill_with(|| random.next() % p),
                _ => {}
            }
        }
    }
    claim.iterate(random.chance(40), random.chance(50), random);
}

/// A true basis with many zero entries: an identity, a triangle, a diagonal or
/// what the iteration gives for a thin F, its rows in any order, mostly under
/// shifts that are far apart.
pub fn sparse(random: &mut Random, small: bool) -> Claim {
    let mut claim = some_problem(random, small);
    while claim.m == 1 {
        claim = some_problem(random, small);
    }
    if random.chance(75) {
        claim.s = far_shifts(claim.m, random);
    }
    match random.below(8) {
        0 => {
            claim.clear_series();
            claim.identity(0);
        }
        1 | 2 => triangle(&mut claim, random),
        3 | 4 => diagonal(&mut claim, random),
        _ => thin(&mut claim, random),
    }
    if random.chance(70) {
        claim.turn(random);
    }
    claim.attest();
    claim
}

/// A multiple of one row added to another that lifts it above its degree: the
/// same rows are generated, but no longer by a reduced basis. False where the
/// two rows drawn don't allow it and nothing is changed.
pub fn lift(claim: &mut Claim, random: &mut Random) -> bool {
    let degrees = claim.degrees();
    let (to, from) = (random.below(claim.m), random.below(claim.m));
    let Some((high, low)) = degrees[to].zip(degrees[from]) else {
        return false;
    };
    let e = (high - low + 1).max(0) as usize + random.pick(&[0, 0, 1]);
    if to == from || e >= LENGTH {
        return false;
    }
    let c = 1 + random.next() % (claim.p - 1).max(1);
    claim.add_row(to, from, c, e);
    claim.attest();
    true
}

/// One way to spoil a claim; some of them keep a basis. Evidence is made
/// anew in most cases, so that later conditions come to be asked.
pub fn spoil(claim: &mut Claim, way: usize, random: &mut Random) {
    let p = claim.p;
    let (m, n) = (claim.m, claim.n);
    let i = random.below(m);
    let k = random.below(m);
    let j = random.below(n);
    let c = 1 + random.next() % (p - 1).max(1);
    let mut renew = random.chance(75);
    match way {
        0 => claim.times_row(i, &vec![0, 1]),
        1 => claim.times_row(i, &vec![p - 1, 1]),
        2 => claim.times_row(i, &vec![random.next() % p, 1]),
        3 => claim.add_row(i, k, c, random.below(4)),
        4 => {
            let e: &mut Poly = &mut claim.basis[i][k];
            if e.is_empty() {
                e.push(0);
            }
            let t = random.below(e.len());
            e[t] = some_number(p, random);
            poly::trim(e);
        }
        5 => {
            let t = random.below(claim.d[j]);
            claim.f[i][j][t] = some_number(p, random);
            renew = random.chance(40);
        }
        6 => {
            claim.evidence[i][j] = some_number(p, random);
            renew = false;
        }
        7 => {
            claim.basis.swap(i, k);
            renew = random.chance(30);
        }
        8 => {
            let power = random.pick(&[LENGTH - 2, LENGTH - 1, LENGTH - 1, LENGTH - 1, LENGTH, LENGTH, LENGTH + 1, 30]);
            let t = poly::scaled(&vec![1], c, power, p);
            claim.basis[i][k] = poly::add(&claim.basis[i][k], &t, p);
        }
        9 => {
            for l in 0..m {
                claim.basis[i][l] = if i == k { Vec::new() } else { poly::scaled(&claim.basis[k][l], c, random_power(random), p) };
            }
        }
        10 => claim.basis[i] = vec![Vec::new(); m],
        11 => claim.identity(0),
        12 => claim.identity(*claim.d.iter().max().unwrap()),
        13 => claim.times_row(i, &vec![c]),
        14 => {
            for row in claim.evidence.iter_mut() {
                row.fill(0);
            }
            renew = false;
        }
        15 => {
            claim.s[i] = (claim.s[i] + random.pick(&[-17, -16, -3, -2, -1, 1, 2, 3, 16, 17])).clamp(-SHIFT, SHIFT);
        }
        16 => {
            for row in claim.basis.iter_mut() {
                row.swap(i, k);
            }
        }
        17 => {
            if claim.d[j] > 1 {
                claim.d[j] -= 1;
                for row in claim.f.iter_mut() {
                    row[j].pop();
                }
            }
        }
        18 => {
            if claim.d[j] < ORDER {
                claim.d[j] += 1;
                for row in claim.f.iter_mut() {
                    row[j].push(some_number(p, random));
                }
            }
        }
        19 => claim.basis[i][k] = Vec::new(),
        20 => {
            claim.basis = (0..m).map(|a| (0..m).map(|b| claim.basis[b][a].clone()).collect()).collect();
        }
        21 => {
            if claim.basis[i].iter().all(|e| poly::coefficient(e, 0) == 0) {
                for e in claim.basis[i].iter_mut() {
                    if !e.is_empty() {
                        e.remove(0);
                    }
                }
            }
        }
        22 => {
            // a row times X behind a change of the rows that keeps it reduced
            claim.mix(6, 15, random);
            claim.times_row(i, &vec![0, 1]);
            claim.mix(6, LENGTH - 1, random);
        }
        23 => {
            for row in claim.evidence.iter_mut() {
                for x in row.iter_mut() {
                    *x = random.next() % p;
                }
            }
            renew = false;
        }
        24 => {
            // unimodular with higher degrees: a basis still, but hardly reduced
            for _ in 0..3 {
                let (a, b) = (random.below(m), random.below(m));
                if a != b {
                    claim.add_row(a, b, c, random.below(3));
                }
            }
        }
        25 => {
            for l in 0..n {
                for x in claim.f[i][l].iter_mut() {
                    *x = random.next() % p;
                }
            }
        }
        26 => {
            if n > 1 {
                let l = random.below(n);
                for row in claim.evidence.iter_mut() {
                    row.swap(j, l);
                }
            }
            renew = false;
        }
        27 => {
            // a fault at the order in an early place, one below it in a later
            claim.evidence[0][0] = some_number(p, random);
            let t = random.below(claim.d[n - 1]);
            claim.f[m - 1][n - 1][t] = some_number(p, random);
            renew = false;
        }
        28 => claim.identity(random.below(3)),
        29 => {
            // an entry where none was, most often in the column of the largest shift
            let largest = (0..m).max_by_key(|l| claim.s[*l]).unwrap();
            let l = if random.chance(60) { largest } else { k };
            if let Some(row) = (0..m).find(|row| claim.basis[*row][l].is_empty()) {
                let length = 1 + random.below(3);
                claim.basis[row][l] = some_entry(length, p, random);
            }
        }
        30 => claim.s = random.order(m).into_iter().map(|l| claim.s[l]).collect(),
        31 => claim.s[i] = random.pick(&[-SHIFT, SHIFT]),
        32 => {
            // nothing but one entry in a row
            let kept = std::mem::take(&mut claim.basis[i][k]);
            claim.basis[i].fill(Vec::new());
            claim.basis[i][k] = kept;
        }
        _ => {
            for row in claim.s.iter_mut() {
                *row = (*row + random.between(-1, 1)).clamp(-SHIFT, SHIFT);
            }
        }
    }
    if renew {
        claim.attest();
    }
}

pub const WAYS: usize = 34;

fn random_power(random: &mut Random) -> usize {
    random.pick(&[0, 0, 1, 2])
}

/// A basis of chance: small entries, F often zero or high.
fn chance_claim(random: &mut Random) -> Claim {
    let small = random.chance(70);
    let mut claim = some_problem(random, small);
    let p = claim.p;
    if random.chance(50) {
        for row in claim.f.iter_mut() {
            for e in row.iter_mut() {
                for (k, x) in e.iter_mut().enumerate() {
                    if k == 0 || k % 3 != 2 {
                        *x = 0;
                    }
                }
            }
        }
    }
    let longest = random.pick(&[1, 1, 2, 2, 3, 4, LENGTH]);
    let shape = random.below(5);
    for i in 0..claim.m {
        for k in 0..claim.m {
            let length = random.below(longest + 1);
            let mut e: Poly = (0..length).map(|_| random.next() % p).collect();
            match shape {
                0 if i != k => e.clear(),
                1 if i < k => e.clear(),
                2 if i == k => e = poly::scaled(&vec![1], 1, random.below(3), p),
                3 => {
                    e = vec![0; length];
                    if length > 0 {
                        e[length - 1] = 1;
                    }
                }
                _ => {}
            }
            poly::trim(&mut e);
            claim.basis[i][k] = e;
        }
    }
    claim.attest();
    if random.chance(15) {
        let (i, j) = (random.below(claim.m), random.below(claim.n));
        claim.evidence[i][j] = random.next() % p;
    }
    claim
}

/// An honest basis for shifts that are even or far apart, or a diagonal one,
/// with faults of the product at places of chance: one or two at the order,
/// below it, or both.
fn placed(random: &mut Random) -> Claim {
    let mut claim = some_problem(random, false);
    let (p, m, n) = (claim.p, claim.m, claim.n);
    claim.s = vec![random.pick(&[-SHIFT, -1, 0, 1, SHIFT]); m];
    if random.chance(40) {
        claim.s = far_shifts(m, random);
    }
    let largest = *claim.d.iter().max().unwrap();
    if random.chance(50) {
        claim.iterate(random.chance(50), random.chance(50), random);
        claim.mix(10, LENGTH - 1, random);
    } else {
        claim.identity(0);
        let several = random.chance(30);
        let faulty = random.below(m);
        for i in 0..m {
            let power = largest + random.below(LENGTH - largest);
            let low = i == faulty || several && random.chance(50);
            let power = if low { random.below(largest) } else { power };
            claim.basis[i][i] = poly::scaled(&vec![1], 1, power, p);
            if power < largest {
                // below the order from some column on only
                let from = (random.below(n + 2)).min(n - 1);
                for j in 0..n {
                    for k in 0..claim.d[j] {
                        if k + power < claim.d[j] && j < from {
                            claim.f[i][j][k] = 0;
                        }
                    }
                }
            }
        }
        let turn = random.below(m);
        claim.basis.rotate_left(turn);
        if random.chance(50) {
            claim.basis.reverse();
        }
        claim.attest();
    }
    for _ in 0..random.below(3) {
        let (i, j) = (random.below(m), random.below(n));
        claim.evidence[i][j] = random.next() % p;
    }
    claim
}

/// The longest files: 1,060 and 1,234 bytes.
fn longest(random: &mut Random) -> Claim {
    let mut claim = some_problem(random, false);
    (claim.m, claim.n) = (ROWS, ROWS);
    claim.d = vec![ORDER; ROWS];
    claim.s = some_shifts(ROWS, random);
    claim.f = vec![vec![vec![0; ORDER]; ROWS]; ROWS];
    some_series(&mut claim, random);
    claim.identity(0);
    let p = claim.p;
    for row in claim.basis.iter_mut() {
        for e in row.iter_mut() {
            *e = (0..LENGTH).map(|_| random.next() % p).collect();
            e[LENGTH - 1] = 1 + random.next() % (p - 1).max(1);
        }
    }
    claim.attest();
    claim
}

/// Wrong and right values for a field.
fn values(kind: Kind, old: u64, p: u64, random: &mut Random) -> Vec<u64> {
    match kind {
        Kind::Mark => {
            let (a, b) = (old & 255, old >> 8);
            let other = random.pick(&[b"PR", b"OR", b"SH", b"FC", b"PE", b"CE"]);
            let turned = 1 << random.below(16);
            vec![a * 256 + b, old ^ 0x2020, old ^ turned, random.pick(&[0, 0xffff]), other[0] as u64 + 256 * other[1] as u64]
        }
        Kind::Prime => {
            let mut r = vec![0, 1, 2, 3, 4, 561, 2_147_117_569, 2_147_483_647, 1 << 31, 4_294_967_291, 4_294_967_295];
            r.push(random.pick(&wrong_primes()));
            r.push(random.pick(&right_primes()));
            r
        }
        Kind::Rows | Kind::Columns => vec![0, 1, 2, 3, 4, 5, 128, 255],
        Kind::Order => vec![0, 1, 16, 17, 32, 255, old + 1, old.saturating_sub(1)],
        Kind::Shift => [1001i64, -1001, 1000, -1000, -32768, 32767, -1, 0, 1]
            .iter()
            .map(|s| *s as u64 & 0xffff)
            .collect(),
        Kind::Number => vec![0, 1, 2, 3, 4, 255, old + 1],
        Kind::Length => vec![0, 1, 16, 17, 18, 19, 128, 255, old + 1, old.saturating_sub(1)],
        Kind::Coefficient | Kind::LastCoefficient => {
            vec![0, 1, p - 1, p, p + 1, 1 << 31, 4_294_967_295, old ^ 1, random.next() & 0xffff_ffff]
        }
    }
}

fn patched(file: &File, which: usize, value: u64) -> Vec<u8> {
    let f = file.fields[which];
    let mut r = file.bytes.clone();
    r[f.at..f.at + f.size].copy_from_slice(&value.to_le_bytes()[..f.size]);
    r
}

fn old_value(file: &File, which: usize) -> u64 {
    let f = file.fields[which];
    let mut bytes = [0u8; 8];
    bytes[..f.size].copy_from_slice(&file.bytes[f.at..f.at + f.size]);
    u64::from_le_bytes(bytes)
}

pub struct Maker {
    random: Random,
    /// cases of the kinds that every bundle begins with
    pub fixed: usize,
    queue: std::collections::VecDeque<Case>,
}

impl Maker {
    pub fn new(seed: u64) -> Maker {
        let mut r = Maker { random: Random(seed), fixed: 0, queue: Default::default() };
        r.first();
        r.fixed = r.queue.len();
        r
    }

    pub fn next(&mut self) -> Case {
        while self.queue.is_empty() {
            self.refill();
        }
        self.queue.pop_front().unwrap()
    }

    fn put(&mut self, problem: Vec<u8>, answer: Vec<u8>, lent: usize) {
        self.queue.push_back(Case { problem, answer, lent });
    }

    /// Bytes lent, often about the number needed.
    fn lent(&mut self, m: usize, n: usize) -> usize {
        let need = 2 + 4 * m * n;
        let r = &mut self.random;
        match r.below(100) {
            0..=44 => need + r.below(5),
            45..=59 => need - 1 - r.below(need.min(6)),
            60..=69 => 0,
            70..=74 => 1 + r.below(3),
            75..=94 => r.below(80),
            95..=97 => r.below(400),
            98 => r.below(4097),
            _ => 4096,
        }
    }

    fn claim(&mut self, claim: &Claim) {
        let problem = claim.problem().bytes;
        let way = self.random.below(20);
        if way != 0 && way != 1 && way != 2 && way != 3 {
            let lent = self.lent(claim.m, claim.n);
            self.put(problem.clone(), claim.answer(true).bytes, lent);
        }
        if way < 7 {
            let lent = self.lent(claim.m, claim.n);
            self.put(problem, claim.answer(false).bytes, lent);
        }
    }

    fn both(&mut self, claim: &Claim) {
        let need = 2 + 4 * claim.m * claim.n;
        self.put(claim.problem().bytes, claim.answer(true).bytes, need);
        self.put(claim.problem().bytes, claim.answer(false).bytes, need);
    }

    /// Both files cut at every byte, or at that share of them.
    fn cuts(&mut self, claim: &Claim, with_evidence: bool, percent: usize) {
        let problem = claim.problem().bytes;
        let answer = claim.answer(with_evidence).bytes;
        for k in 0..problem.len() {
            if !self.random.chance(percent) {
                continue;
            }
            let lent = self.random.below(12);
            self.put(problem[..k].to_vec(), answer.clone(), lent);
        }
        for k in 0..answer.len() {
            if !self.random.chance(percent) {
                continue;
            }
            let lent = self.random.below(2 * (2 + 4 * claim.m * claim.n));
            self.put(problem.clone(), answer[..k].to_vec(), lent);
        }
    }

    /// Every field of both files set to each of its values.
    fn all_fields(&mut self, claim: &Claim, with_evidence: bool) {
        let problem = claim.problem();
        let answer = claim.answer(with_evidence);
        let lent = 2 + 4 * claim.m * claim.n;
        for k in 0..problem.fields.len() {
            for value in values(problem.fields[k].kind, old_value(&problem, k), claim.p, &mut self.random) {
                self.put(patched(&problem, k, value), answer.bytes.clone(), lent);
            }
        }
        for k in 0..answer.fields.len() {
            for value in values(answer.fields[k].kind, old_value(&answer, k), claim.p, &mut self.random) {
                self.put(problem.bytes.clone(), patched(&answer, k, value), lent);
            }
        }
    }

    fn spoilt_files(&mut self, claim: &Claim) {
        let mut problem = claim.problem();
        let mut answer = claim.answer(self.random.chance(65));
        let times = self.random.pick(&[1, 1, 1, 2, 3]);
        for _ in 0..times {
            let file = if self.random.chance(45) { &mut problem } else { &mut answer };
            if file.fields.is_empty() {
                continue;
            }
            let k = self.random.below(file.fields.len());
            let choice = values(file.fields[k].kind, old_value(file, k), claim.p, &mut self.random);
            let value = self.random.pick(&choice);
            file.bytes = patched(file, k, value);
        }
        let (mut a, mut b) = (problem.bytes, answer.bytes);
        for file in [&mut a, &mut b] {
            match self.random.below(30) {
                0 => file.push(self.random.next() as u8),
                1 => {
                    let t = self.random.below(file.len() + 1);
                    file.truncate(t);
                }
                2 => {
                    let t = self.random.below(file.len());
                    file.remove(t);
                }
                3 => {
                    let t = self.random.below(file.len() + 1);
                    file.insert(t, self.random.next() as u8);
                }
                _ => {}
            }
        }
        let lent = self.lent(claim.m, claim.n);
        self.put(a, b, lent);
    }

    fn some_bytes(&mut self, count: usize) -> Vec<u8> {
        (0..count).map(|_| self.random.next() as u8).collect()
    }

    fn odd_files(&mut self, claim: &Claim) {
        let problem = claim.problem().bytes;
        let with_evidence = self.random.chance(60);
        let answer = claim.answer(with_evidence).bytes;
        let lent = self.lent(claim.m, claim.n);
        let few = self.random.below(60);
        let noise = self.some_bytes(few);
        match self.random.below(14) {
            0 => self.put(answer, problem, lent),
            1 => self.put(Vec::new(), answer, lent),
            2 => self.put(problem, Vec::new(), lent),
            3 => self.put(Vec::new(), Vec::new(), lent),
            4 => self.put(noise, answer, lent),
            5 => self.put(problem, noise, lent),
            6 => self.put(problem.clone(), problem, lent),
            7 => self.put([problem, noise].concat(), answer, lent),
            8 => self.put(problem, [answer, noise].concat(), lent),
            9 => {
                let t = self.random.below(problem.len());
                self.put([&problem[..t], &noise[..]].concat(), answer, lent)
            }
            10 => {
                let t = self.random.below(answer.len());
                self.put(problem, [&answer[..t], &noise[..]].concat(), lent)
            }
            11 => self.put(problem, [answer.clone(), answer].concat(), lent),
            12 => {
                // one bit turned over
                let (mut a, mut b) = (problem, answer);
                let file = if self.random.chance(50) { &mut a } else { &mut b };
                let t = self.random.below(file.len());
                file[t] ^= 1 << self.random.below(8);
                self.put(a, b, lent)
            }
            _ => {
                let mut a = b"PR".to_vec();
                a.extend((some_prime(&mut self.random) as u32).to_le_bytes());
                a.extend([1 + self.random.below(4) as u8, 1 + self.random.below(4) as u8]);
                a.extend(b"OR");
                a.extend(noise);
                self.put(a, answer, lent)
            }
        }
    }

    fn long_files(&mut self, claim: &Claim) {
        let length = self.random.pick(&[16_383, 16_384, 16_385, 20_000, 65_535, 65_536]);
        let (mut a, mut b) = (claim.problem().bytes, claim.answer(self.random.chance(50)).bytes);
        let file = if self.random.chance(60) { &mut a } else { &mut b };
        let more = length - file.len();
        let zeros = self.random.chance(30);
        let noise = if zeros { vec![0; more] } else { self.some_bytes(more) };
        file.extend(noise);
        let lent = self.lent(claim.m, claim.n);
        self.put(a, b, lent);
    }

    fn all_lent(&mut self, claim: &Claim) {
        let need = 2 + 4 * claim.m * claim.n;
        for lent in (0..need + 8).chain([need * 2, 255, 256, 257, 1000, 4095, 4096]) {
            let with_evidence = self.random.chance(10);
            self.put(claim.problem().bytes, claim.answer(with_evidence).bytes, lent);
        }
    }

    /// p as it is, whatever it is, in a small problem.
    fn prime_claim(&mut self, p: u64) {
        let mut claim = some_problem(&mut self.random, true);
        claim.p = p;
        let q = p.clamp(1, 1 << 31);
        for row in claim.f.iter_mut() {
            for x in row.iter_mut().flatten() {
                *x = self.random.next() % q;
            }
        }
        if field::allowed(p) {
            claim.iterate(false, false, &mut self.random);
        }
        let need = 2 + 4 * claim.m * claim.n;
        let with_evidence = self.random.chance(70);
        self.put(claim.problem().bytes, claim.answer(with_evidence).bytes, need);
    }

    /// What every bundle begins with, whatever its seed.
    fn first(&mut self) {
        for (claim, _) in worked().into_iter().chain(zero_entries()) {
            self.both(&claim);
        }
        let disk = worked().into_iter().find(|(c, _)| c.m == 2).unwrap().0;
        self.cuts(&disk, true, 100);
        for more in [1usize, 2, 4, 100] {
            for with_evidence in [true, false] {
                let (a, b) = (disk.problem().bytes, disk.answer(with_evidence).bytes);
                self.put([a.clone(), vec![0; more]].concat(), b.clone(), 10);
                self.put(a, [b, vec![67; more]].concat(), 10);
            }
        }
        self.all_fields(&disk, true);
        self.all_fields(&disk, false);
        self.all_lent(&disk);
        for p in wrong_primes().into_iter().chain(right_primes()) {
            self.prime_claim(p);
        }
        // every m and n
        for m in 1..=ROWS {
            for n in 1..=ROWS {
                for kind in 0..6 {
                    let mut claim = some_problem(&mut self.random, false);
                    (claim.m, claim.n) = (m, n);
                    claim.d = (0..n).map(|_| [1, 2, ORDER, 1 + self.random.below(ORDER), 3, 4][kind]).collect();
                    // even shifts, then such as are far apart, falling or rising
                    claim.s = (0..m as i64)
                        .map(|i| [0, -SHIFT, SHIFT, 3, SHIFT - i * 600, 17 * i - SHIFT][kind])
                        .collect();
                    claim.f = (0..m).map(|_| claim.d.iter().map(|d| vec![0; *d]).collect()).collect();
                    let p = claim.p;
                    for x in claim.f.iter_mut().flatten().flatten() {
                        *x = self.random.next() % p;
                    }
                    claim.iterate(kind % 2 == 0, kind < 2, &mut self.random);
                    if kind < 4 {
                        claim.mix(8, LENGTH - 1, &mut self.random);
                    }
                    self.both(&claim);
                    self.put(claim.problem().bytes, claim.answer(false).bytes, 1 + 4 * m * n);
                    self.put(claim.problem().bytes, claim.answer(false).bytes, 3 + 4 * m * n);
                }
            }
        }
        for _ in 0..4 {
            let claim = longest(&mut self.random);
            assert!(claim.problem().bytes.len() == 1060 && claim.answer(true).bytes.len() == 1234);
            self.both(&claim);
        }
        for claim in every_place() {
            self.put(claim.problem().bytes, claim.answer(true).bytes, 66);
        }
    }

    /// A true basis, that share of them with many zero entries.
    fn basis(&mut self, percent: usize, small: bool) -> Claim {
        if self.random.chance(percent) {
            sparse(&mut self.random, small)
        } else {
            honest(&mut self.random, small)
        }
    }

    fn refill(&mut self) {
        let small = self.random.chance(35);
        let with_evidence = self.random.chance(70);
        match self.random.below(10_000) {
            0..=2099 => {
                let claim = self.basis(25, small);
                self.claim(&claim);
            }
            2100..=2699 => {
                let mut claim = self.basis(50, small);
                for _ in 0..3 {
                    lift(&mut claim, &mut self.random);
                }
                self.claim(&claim);
            }
            2700..=6399 => {
                let mut claim = self.basis(30, small);
                let times = self.random.pick(&[1, 1, 1, 2, 2, 3]);
                for _ in 0..times {
                    let way = self.random.below(WAYS);
                    spoil(&mut claim, way, &mut self.random);
                }
                self.claim(&claim);
            }
            6400..=7699 => {
                let claim = chance_claim(&mut self.random);
                self.claim(&claim);
            }
            7700..=8299 => {
                let claim = placed(&mut self.random);
                self.claim(&claim);
            }
            8300..=9099 => {
                let claim = honest(&mut self.random, small);
                self.spoilt_files(&claim);
            }
            9100..=9599 => {
                let claim = honest(&mut self.random, small);
                self.odd_files(&claim);
            }
            9600..=9609 => {
                let claim = honest(&mut self.random, true);
                self.cuts(&claim, with_evidence, 100);
            }
            9610..=9614 => {
                let claim = honest(&mut self.random, false);
                self.cuts(&claim, with_evidence, 20);
            }
            9615..=9619 => {
                let mut claim = honest(&mut self.random, true);
                if self.random.chance(50) {
                    spoil(&mut claim, 5, &mut self.random);
                }
                self.all_fields(&claim, with_evidence);
            }
            9620..=9634 => {
                let claim = honest(&mut self.random, small);
                self.all_lent(&claim);
            }
            9635..=9664 => {
                let claim = honest(&mut self.random, small);
                self.long_files(&claim);
            }
            9665..=9799 => {
                let claim = longest(&mut self.random);
                self.claim(&claim);
            }
            _ => {
                let p = if self.random.chance(50) {
                    self.random.pick(&wrong_primes())
                } else {
                    self.random.next() & 0x7fff_ffff | 1
                };
                self.prime_claim(p);
            }
        }
    }
}

/// The cases worked by hand in document 01: the claim and the line of `judge`.
pub fn worked() -> Vec<(Claim, &'static str)> {
    fn one(basis: &[u64], f: u64, c: u64) -> Claim {
        Claim {
            p: 5,
            m: 1,
            n: 1,
            d: vec![1],
            s: vec![0],
            f: vec![vec![vec![f]]],
            basis: vec![vec![basis.to_vec()]],
            evidence: vec![vec![c]],
        }
    }
    fn two(s: [i64; 2], c: [u64; 2]) -> Claim {
        Claim {
            p: 7,
            m: 2,
            n: 1,
            d: vec![2],
            s: s.to_vec(),
            f: vec![vec![vec![1, 0]], vec![vec![1, 1]]],
            basis: vec![vec![vec![6, 6], vec![1]], vec![vec![0, 6], vec![0, 1]]],
            evidence: vec![vec![c[0]], vec![c[1]]],
        }
    }
    vec![
        (one(&[0, 1], 1, 1), "pass 1"),
        (one(&[0, 1], 1, 0), "refuse 12 2 0 0"),
        (one(&[1], 1, 0), "refuse 11 2 0 0"),
        (one(&[0, 1], 0, 0), "refuse 13 0 0 0"),
        (one(&[0, 0, 1], 1, 0), "refuse 13 0 0 0"),
        (one(&[4, 1], 0, 0), "refuse 10 0 0 0"),
        (one(&[4, 1], 1, 0), "refuse 10 0 0 0"),
        (one(&[], 0, 0), "refuse 9 0 0 0"),
        (one(&[1], 0, 0), "pass 0"),
        (two([0, 0], [0, 1]), "pass 2"),
        (two([0, 1], [0, 1]), "pass 2"),
        (two([-1, 0], [0, 1]), "pass 2"),
        (two([0, 2], [0, 1]), "refuse 9 0 0 0"),
        (two([0, 0], [0, 0]), "refuse 12 2 1 0"),
    ]
}

/// The identity of the largest size with one fault at each place of the
/// product, below the order or at it; and the largest powers on the diagonal,
/// which have the largest degree sum. Each for even shifts and for shifts that
/// are far apart.
fn every_place() -> Vec<Claim> {
    let mut all = Vec::new();
    for s in [[0; ROWS], [-SHIFT, SHIFT, 0, 5]] {
        let mut claim = Claim {
            p: 11,
            m: ROWS,
            n: ROWS,
            d: vec![ORDER; ROWS],
            s: s.to_vec(),
            f: vec![vec![vec![0; ORDER]; ROWS]; ROWS],
            basis: Vec::new(),
            evidence: Vec::new(),
        };
        claim.identity(0);
        claim.attest();
        for (i, j) in (0..ROWS).flat_map(|i| (0..ROWS).map(move |j| (i, j))) {
            let mut below = claim.clone();
            below.f[i][j][ORDER - 1] = 1;
            let mut at = claim.clone();
            at.evidence[i][j] = 10;
            all.extend([below, at]);
        }
        claim.identity(ORDER);
        for i in 0..ROWS {
            claim.f[i][i][0] = 1;
        }
        claim.attest();
        all.push(claim);
    }
    all
}

/// The rule about zero entries, worked by hand: the lab's claim first, then what
/// lies about it. p = 7, one column of order 1, F and C zero where nothing else
/// is said.
pub fn zero_entries() -> Vec<(Claim, &'static str)> {
    fn of(s: &[i64], basis: &[&[&[u64]]]) -> Claim {
        let m = s.len();
        Claim {
            p: 7,
            m,
            n: 1,
            d: vec![1],
            s: s.to_vec(),
            f: vec![vec![vec![0]]; m],
            basis: basis.iter().map(|row| row.iter().map(|e| e.to_vec()).collect()).collect(),
            evidence: vec![vec![0]; m],
        }
    }
    fn with(mut claim: Claim, f: &[u64], c: &[u64]) -> Claim {
        for i in 0..claim.m {
            claim.f[i][0][0] = f[i];
            claim.evidence[i][0] = c[i];
        }
        claim
    }
    const NO: &[u64] = &[];
    const ONE: &[u64] = &[1];
    const X: &[u64] = &[0, 1];
    const X5: &[u64] = &[2, 0, 0, 0, 0, 1];
    const X6: &[u64] = &[0, 0, 0, 0, 0, 0, 1];
    const X16: &[u64] = &[3, 0, 0, 0, 0, 0, 0, 0, 0, 0, 0, 0, 0, 0, 0, 0, 1];
    let identity: &[&[&[u64]]] = &[&[ONE, NO], &[NO, ONE]];
    let turned: &[&[&[u64]]] = &[&[NO, ONE], &[ONE, NO]];
    let three: &[&[&[u64]]] = &[&[ONE, NO, NO], &[NO, ONE, NO], &[NO, NO, ONE]];
    let three_turned: &[&[&[u64]]] = &[&[NO, NO, ONE], &[ONE, NO, NO], &[NO, ONE, NO]];
    let four: &[&[&[u64]]] = &[&[ONE, NO, NO, NO], &[NO, ONE, NO, NO], &[NO, NO, ONE, NO], &[NO, NO, NO, ONE]];
    vec![
        (of(&[0, 5], identity), "pass 0"),
        (of(&[5, 0], identity), "pass 0"),
        (of(&[0, 1], identity), "pass 0"),
        (of(&[0, 17], identity), "pass 0"),
        (of(&[-1000, 1000], identity), "pass 0"),
        (of(&[1000, -1000], identity), "pass 0"),
        (of(&[-5, -3], identity), "pass 0"),
        (of(&[-1000, -1000], identity), "pass 0"),
        (of(&[-999, -1000], identity), "pass 0"),
        (of(&[0, 5], turned), "pass 0"),
        (of(&[1000, -1000], turned), "pass 0"),
        (of(&[0, 5, -1000], three), "pass 0"),
        (of(&[-1000, 0, 1000], three_turned), "pass 0"),
        (of(&[-1000, 1000, 0, 5], four), "pass 0"),
        (of(&[1000, 999, -999, -1000], four), "pass 0"),
        // entries that stay at or below the degree of their row, and such as drown the 1
        (of(&[0, 5], &[&[ONE, NO], &[X5, ONE]]), "pass 0"),
        (of(&[0, 5], &[&[ONE, NO], &[X6, ONE]]), "refuse 9 0 0 0"),
        (of(&[5, 0], &[&[ONE, ONE], &[NO, ONE]]), "pass 0"),
        (of(&[0, 5], &[&[ONE, ONE], &[NO, ONE]]), "refuse 9 0 0 0"),
        (of(&[-1000, 1000], &[&[ONE, NO], &[X16, ONE]]), "pass 0"),
        (of(&[1000, -1000], &[&[ONE, NO], &[X16, ONE]]), "refuse 9 0 0 0"),
        // rows of zeros: alone, beside a good row, in the middle, all of them
        (of(&[0], &[&[NO]]), "refuse 9 0 0 0"),
        (of(&[-1000], &[&[NO]]), "refuse 9 0 0 0"),
        (of(&[1000], &[&[NO]]), "refuse 9 0 0 0"),
        (of(&[0, 5], &[&[ONE, NO], &[NO, NO]]), "refuse 9 0 0 0"),
        (of(&[0, 5], &[&[NO, NO], &[NO, ONE]]), "refuse 9 0 0 0"),
        (of(&[-1000, 1000], &[&[NO, NO], &[ONE, NO]]), "refuse 9 0 0 0"),
        (of(&[0, 5], &[&[NO, NO], &[NO, NO]]), "refuse 9 0 0 0"),
        (of(&[5, 0, -5], &[&[ONE, NO, NO], &[NO, NO, NO], &[NO, NO, ONE]]), "refuse 9 0 0 0"),
        // degree sums below 0
        (of(&[5, 0], &[&[NO, ONE], &[NO, ONE]]), "refuse 9 0 0 0"),
        (of(&[1000, -1000], &[&[NO, X], &[NO, ONE]]), "refuse 9 0 0 0"),
        // the other verdicts
        (with(of(&[0, 1000], &[&[X, NO], &[NO, ONE]]), &[3, 0], &[3, 0]), "pass 1"),
        (with(of(&[0, 1000], &[&[NO, ONE], &[X, NO]]), &[3, 0], &[0, 3]), "pass 1"),
        (with(of(&[1000, -1000], &[&[ONE, NO], &[NO, X]]), &[0, 3], &[0, 3]), "pass 1"),
        (of(&[0, 5], &[&[ONE, NO], &[NO, &[6, 1]]]), "refuse 10 0 0 0"),
        (with(of(&[0, 5], identity), &[0, 1], &[0, 0]), "refuse 11 2 1 0"),
        (with(of(&[0, 5], identity), &[0, 0], &[0, 3]), "refuse 12 2 1 0"),
        (of(&[0, 5], &[&[ONE, NO], &[NO, X]]), "refuse 13 0 0 0"),
        (of(&[-1000, 1000], &[&[X, NO], &[NO, ONE]]), "refuse 13 0 0 0"),
    ]
}
