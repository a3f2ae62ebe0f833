//! What this program has to say of itself.

use crate::claim::{Claim, Kind};
use crate::field;
use crate::make;
use crate::maker;
use crate::plain;
use crate::poly::{self, Matrix, Poly};
use crate::random::Random;
use crate::read::{LENGTH, ROWS};
use crate::verdict;

#[derive(Default)]
struct Tally {
    passed: u64,
    failed: u64,
}

impl Tally {
    fn is(&mut self, what: &str, right: bool) {
        if right {
            self.passed += 1;
        } else {
            self.failed += 1;
            println!("failed: {what}");
        }
    }

    fn line(&mut self, what: &str, problem: &[u8], answer: &[u8], due: &str) {
        let got = match verdict::judge(problem, answer) {
            Ok(v) => verdict::judge_line(&v),
            Err(e) => e,
        };
        if got != due {
            println!("{what}: due {due}, got {got}");
        }
        self.is(what, got == due);
    }

    fn says(&mut self, what: &str, problem: &[u8], answer: &[u8], lent: usize, due: [&str; 3]) {
        let right = match verdict::say(problem, answer, lent) {
            Ok(s) => {
                if s.lines != due {
                    println!("{what}: got {:?}", s.lines);
                }
                s.lines == due
            }
            Err(e) => {
                println!("{what}: {e}");
                false
            }
        };
        self.is(what, right);
    }
}

fn bytes(hex: &str) -> Vec<u8> {
    hex.split_whitespace().map(|h| u8::from_str_radix(h, 16).unwrap()).collect()
}

fn patch(file: &[u8], at: usize, with: &[u8]) -> Vec<u8> {
    let mut r = file.to_vec();
    r[at..at + with.len()].copy_from_slice(with);
    r
}

/// Document 01, worked by hand.
fn worked(t: &mut Tally) {
    for (k, (claim, due)) in make::worked().into_iter().enumerate() {
        t.line(&format!("worked case {k}"), &claim.problem().bytes, &claim.answer(true).bytes, due);
    }
    for (k, (claim, due)) in make::zero_entries().into_iter().enumerate() {
        t.line(&format!("zero entries, case {k}"), &claim.problem().bytes, &claim.answer(true).bytes, due);
    }
    let problem = bytes(
        "50 52 07 00 00 00 02 01 4F 52 02 53 48 00 00 00 00 46 43 00 01 00 00 00 00 00 00 00 01 00 00 00 01 00 00 00",
    );
    let answer = bytes(
        "50 45 00 00 02 06 00 00 00 06 00 00 00 50 45 00 01 01 01 00 00 00 \
         50 45 01 00 02 00 00 00 00 06 00 00 00 50 45 01 01 02 00 00 00 00 01 00 00 00 \
         43 45 00 00 00 00 01 00 00 00",
    );
    let claim = make::worked()[9].0.clone();
    t.is("problem on disk", claim.problem().bytes == problem && problem.len() == 36);
    t.is("answer on disk", claim.answer(true).bytes == answer && answer.len() == 58);
    t.line("disk", &problem, &answer, "pass 2");
    t.line("less its last byte", &problem, &answer[..57], "refuse 1 1 4 54");
    t.line("one byte more", &problem, &[&answer[..], &[0]].concat(), "refuse 8 1 5 58");
    t.line("first coefficient 7", &problem, &patch(&answer, 5, &[7]), "refuse 6 1 0 5");
    let alone = claim.answer(false).bytes;
    t.says(
        "evidence made",
        &problem,
        &alone,
        12,
        ["refuse 1 1 4 48", "part 0", "evidence 0 0 0 10 43450000000001000000aaaa"],
    );
    t.says(
        "evidence of a whole answer",
        &problem,
        &answer,
        10,
        ["pass 2", "part 0", "evidence 8 1 4 48 aaaaaaaaaaaaaaaaaaaa"],
    );
    t.says(
        "nine bytes lent",
        &problem,
        &alone,
        9,
        ["refuse 1 1 4 48", "part 0", "evidence 14 0 0 10 aaaaaaaaaaaaaaaaaa"],
    );
    t.says("none lent", &problem, &alone, 0, ["refuse 1 1 4 48", "part 0", "evidence 14 0 0 10"]);
    t.says(
        "part of 12",
        &problem,
        &patch(&answer, 54, &[0]),
        0,
        ["refuse 12 2 1 0", "part 10 43450000000000000000", "evidence 8 1 4 48"],
    );
    t.says(
        "part of 11",
        &patch(&problem, 32, &[2]),
        &answer,
        0,
        ["refuse 11 2 0 0", "part 19 46430001000000000000000100000002000000", "evidence 8 1 4 48"],
    );
    t.says("both empty", &[], &[], 1, ["refuse 1 0 0 0", "part 0", "evidence 1 0 0 0 aa"]);
    t.says("answer empty", &problem, &[], 0, ["refuse 1 1 0 0", "part 0", "evidence 1 1 0 0"]);
    t.says("one byte", &[0x50], &[], 0, ["refuse 1 0 0 0", "part 1 50", "evidence 1 0 0 0"]);
    t.says(
        "more in the problem",
        &[&problem[..], &[1, 2]].concat(),
        &[],
        0,
        ["refuse 8 0 4 36", "part 2 0102", "evidence 8 0 4 36"],
    );

    // edges, in a problem of m = n = 1
    let edge = |p: u64, d: usize, s: i64| Claim {
        p,
        m: 1,
        n: 1,
        d: vec![d],
        s: vec![s],
        f: vec![vec![(0..d).map(|k| if k == 0 { 1 % p.max(1) } else { 0 }).collect()]],
        basis: vec![vec![poly::scaled(&vec![1], 1, d.min(16), 7)]],
        evidence: vec![vec![1]],
    };
    for (what, p, d, s, due) in [
        ("p = 2", 2, 1, 0, "pass 1"),
        ("p = 1", 1, 1, 0, "refuse 4 0 0 2"),
        ("p = 2147483647", 2_147_483_647, 1, 0, "pass 1"),
        ("p = 2147483648", 2_147_483_648, 1, 0, "refuse 4 0 0 2"),
        ("p = 4294967291, a prime", 4_294_967_291, 1, 0, "refuse 4 0 0 2"),
        ("order 16", 5, 16, 0, "pass 16"),
        ("order 0", 5, 0, 0, "refuse 3 0 1 10"),
        ("order 17", 5, 17, 0, "refuse 3 0 1 10"),
        ("shift -1000", 5, 1, -1000, "pass 1"),
        ("shift 1000", 5, 1, 1000, "pass 1"),
        ("shift -1001", 5, 1, -1001, "refuse 3 0 2 13"),
        ("shift 1001", 5, 1, 1001, "refuse 3 0 2 13"),
        ("shift -32768", 5, 1, -32768, "refuse 3 0 2 13"),
    ] {
        let claim = edge(p, d, s);
        t.line(what, &claim.problem().bytes, &claim.answer(true).bytes, due);
    }
}

fn primes(t: &mut Tally) {
    let limit = 300_000usize;
    let mut composite = vec![false; limit];
    for n in 2..limit {
        if !composite[n] {
            for k in (2 * n..limit).step_by(n) {
                composite[k] = true;
            }
        }
    }
    t.is("primes by the sieve", (0..limit).all(|n| field::is_prime(n as u64) == (n >= 2 && !composite[n])));
    let small: Vec<u64> = (2..46_400).filter(|n| !composite[*n]).map(|n| n as u64).collect();
    let by_division = |n: u64| small.iter().take_while(|q| *q * *q <= n).all(|q| n % q != 0);
    t.is("primes by division", (2_147_483_000u64..2_147_483_648).all(|n| field::is_prime(n) == by_division(n)));
    t.is("right primes", make::right_primes().iter().all(|n| by_division(*n) && field::allowed(*n)));
    t.is("wrong primes", make::wrong_primes().iter().all(|n| !field::allowed(*n)));
}

/// Files cut and fields spoilt: the writer's table of fields says what is due,
/// and the reader has to agree.
fn files(t: &mut Tally, random: &mut Random) {
    for round in 0..120 {
        let claim = make::honest(random, round % 2 == 0);
        if claim.basis.iter().flatten().any(|e| e.len() > LENGTH) {
            continue;
        }
        let two = [claim.problem(), claim.answer(true)];
        let mut right = true;
        for file in 0..2 {
            let (bytes, fields) = (&two[file].bytes, &two[file].fields);
            let ask = |changed: Vec<u8>, due: (u32, usize, usize)| {
                let other = &two[1 - file].bytes;
                let size = changed.len();
                let v = if file == 0 { verdict::judge(&changed, other) } else { verdict::judge(other, &changed) };
                let start = fields.iter().find(|f| f.record == due.1).map(|f| f.at).unwrap_or(bytes.len());
                let right = match &v {
                    Ok(v) => {
                        (v.code, v.file, v.record, v.at) == (due.0, file as u32, due.1 as u32, due.2 as u64)
                            && v.part == (file, start.min(size), size)
                    }
                    Err(_) => false,
                };
                if !right {
                    println!("due {due:?} in file {file}, got {v:?}");
                }
                right
            };
            for k in 0..bytes.len() {
                let f = fields.iter().find(|f| f.at + f.size > k).unwrap();
                right &= ask(bytes[..k].to_vec(), (1, f.record, f.at));
            }
            let records = fields.last().unwrap().record + 1;
            right &= ask([&bytes[..], &[80]].concat(), (8, records, bytes.len()));
            for f in fields {
                let p = claim.p;
                let wrong: Vec<(u32, u64)> = match f.kind {
                    Kind::Mark => vec![(2, 0), (2, 0x4343), (2, 0xffff)],
                    Kind::Prime => make::wrong_primes().into_iter().map(|n| (4, n)).collect(),
                    Kind::Rows | Kind::Columns => vec![(3, 0), (3, 5), (3, 255)],
                    Kind::Order => vec![(3, 0), (3, 17), (3, 255)],
                    Kind::Shift => vec![(3, 1001), (3, 64535), (3, 32768), (3, 32767)],
                    Kind::Number => vec![(5, 4), (5, 255)],
                    Kind::Length => vec![(3, 18), (3, 255)],
                    Kind::Coefficient => vec![(6, p), (6, p + 1), (6, 4_294_967_295)],
                    Kind::LastCoefficient => vec![(6, p), (6, 4_294_967_295), (7, 0)],
                };
                for (code, value) in wrong {
                    right &= ask(patch(bytes, f.at, &value.to_le_bytes()[..f.size]), (code, f.record, f.at));
                }
            }
        }
        t.is("files cut and spoilt", right);
    }
}

/// The rule that document 01 had at first, where a zero entry counts as degree
/// 0. It stands here alone, to be compared with: what was reduced stays so.
mod before {
    use crate::poly::{self, Matrix};

    pub fn row_degrees(basis: &Matrix, s: &[i64]) -> Vec<i64> {
        basis.iter().map(|row| row.iter().zip(s).map(|(e, s)| (e.len() as i64 - 1).max(0) + s).max().unwrap()).collect()
    }

    pub fn reduced(basis: &Matrix, s: &[i64], p: u64) -> bool {
        let u = row_degrees(basis, s);
        let leading: Vec<Vec<u64>> = basis
            .iter()
            .zip(u)
            .map(|(row, u)| row.iter().zip(s).map(|(e, s)| poly::coefficient(e, (u - s) as usize)).collect())
            .collect();
        poly::determinant_permutations(&leading, p) != 0
    }
}

/// Row degrees and leading matrices worked by hand.
fn degrees(t: &mut Tally) {
    let no: Poly = vec![];
    let one: Poly = vec![1];
    let cubic: Poly = vec![0, 0, 0, 2];
    for (row, s, due) in [
        (vec![&one, &no], vec![0, 5], Some(0)),
        (vec![&no, &one], vec![0, 5], Some(5)),
        (vec![&one, &no], vec![-1000, 1000], Some(-1000)),
        (vec![&no, &one], vec![1000, -1000], Some(-1000)),
        (vec![&cubic, &no], vec![-1000, 1000], Some(-997)),
        (vec![&cubic, &one], vec![0, 3], Some(3)),
        (vec![&cubic, &one], vec![0, 5], Some(5)),
        (vec![&no, &cubic, &no], vec![-3, -2, -1], Some(1)),
        (vec![&no, &no], vec![0, 5], None),
        (vec![&no], vec![-1000], None),
    ] {
        let row: Vec<Poly> = row.into_iter().cloned().collect();
        t.is(&format!("degree of {row:?} for {s:?}"), verdict::row_degree(&row, &s) == due);
    }
    let square = |entries: [&Poly; 4]| vec![vec![entries[0].clone(), entries[1].clone()], vec![entries[2].clone(), entries[3].clone()]];
    for (basis, s, due) in [
        // the power asked for at the first row's zero entry is -5
        (square([&one, &no, &no, &one]), [0, 5], Some(vec![vec![1, 0], vec![0, 1]])),
        (square([&one, &no, &cubic, &one]), [0, 3], Some(vec![vec![1, 0], vec![2, 1]])),
        (square([&one, &no, &cubic, &one]), [0, 2], Some(vec![vec![1, 0], vec![2, 0]])),
        (square([&cubic, &no, &no, &one]), [-1000, 1000], Some(vec![vec![2, 0], vec![0, 1]])),
        (square([&one, &no, &no, &no]), [0, 5], None),
        (square([&no, &no, &no, &one]), [0, 5], None),
    ] {
        t.is(&format!("leading matrix of {basis:?} for {s:?}"), verdict::leading(&basis, &s) == due);
    }
}

/// A matrix of chance with zero entries, often with several entries at the
/// degree of their row.
fn some_matrix(m: usize, s: &[i64], p: u64, random: &mut Random) -> Matrix {
    let zeros = random.below(90);
    let aligned = random.chance(50);
    (0..m)
        .map(|_| {
            let level = random.pick(s) + random.between(0, 3);
            s.iter()
                .map(|s| {
                    let room = (level - s).clamp(-1, LENGTH as i64 - 1) + 1;
                    let length = if aligned { room as usize } else { random.below(4) };
                    let mut e: Poly = (0..length).map(|_| random.next() % p).collect();
                    poly::trim(&mut e);
                    if random.chance(zeros) { Vec::new() } else { e }
                })
                .collect()
        })
        .collect()
}

/// What was reduced by the rule before is reduced with the same row degrees,
/// and there are bases that are reduced only now.
fn against_before(t: &mut Tally, random: &mut Random) {
    let (mut still, mut now, mut never, mut wrong) = (0, 0, 0, 0);
    for round in 0..40_000 {
        let p = random.pick(&[2, 2, 3, 5, 7, 251, 2_147_483_647]);
        let m = 1 + round % ROWS;
        let s = make::some_shifts(m, random);
        let basis = some_matrix(m, &s, p, random);
        let reduced = verdict::leading(&basis, &s).is_some_and(|l| poly::determinant_permutations(&l, p) != 0);
        let same = verdict::row_degrees(&basis, &s) == Some(before::row_degrees(&basis, &s));
        match (before::reduced(&basis, &s, p), reduced, same) {
            (true, true, true) => still += 1,
            (false, true, false) => now += 1,
            (false, false, _) => never += 1,
            _ => wrong += 1,
        }
    }
    println!("reduced before and now: {still}, only now: {now}, neither: {never}");
    t.is("what was reduced stays so with its degrees; what is reduced only now has others", wrong == 0);
    t.is("enough of each", still > 1000 && now > 1000 && never > 1000);
}

fn judged(claim: &Claim) -> Result<u32, String> {
    let problem = claim.as_problem();
    let (code, _, _, at) = verdict::four(&problem, &claim.basis, &claim.evidence)?;
    plain::compare(&problem, &claim.basis, &claim.evidence, code, at)?;
    Ok(code)
}

/// True bases pass under every shift, of any degree; times X they get 13, times
/// X - 1 they get 10, lifted they get 9, with other evidence they get 12.
fn true_bases(t: &mut Tally, what: &str, make: fn(&mut Random, bool) -> Claim, random: &mut Random) {
    let (mut large, mut apart, mut refused_before, mut lifted) = (0, 0, 0, 0);
    for round in 0..1500 {
        let claim = make(random, round % 2 == 0);
        let (p, s) = (claim.p, &claim.s);
        large += claim.basis.iter().flatten().any(|e| e.len() > LENGTH) as u32;
        apart += (s.iter().max().unwrap() - s.iter().min().unwrap() > 16) as u32;
        refused_before += !before::reduced(&claim.basis, s, p) as u32;
        let code = judged(&claim);
        t.is(&format!("{what} {round}: {code:?}"), code == Ok(0));
        for (by, due) in [(vec![0, 1], 13), (vec![p - 1, 1], 10)] {
            let mut spoilt = claim.clone();
            spoilt.times_row(random.below(claim.m), &by);
            spoilt.attest();
            let code = judged(&spoilt);
            t.is(&format!("{what} {round}, spoilt: {code:?}"), code == Ok(due));
        }
        let mut spoilt = claim.clone();
        if make::lift(&mut spoilt, random) {
            lifted += 1;
            let code = judged(&spoilt);
            t.is(&format!("{what} {round}, lifted: {code:?}"), code == Ok(9));
        }
        let mut spoilt = claim.clone();
        let (i, j) = (random.below(claim.m), random.below(claim.n));
        spoilt.evidence[i][j] = (spoilt.evidence[i][j] + 1) % p;
        let problem = spoilt.as_problem();
        let got = verdict::four(&problem, &spoilt.basis, &spoilt.evidence);
        t.is("evidence spoilt", got == Ok((12, 2, i as u32, j as u64)));
    }
    println!("{what}: {apart} of 1500 with shifts far apart, {refused_before} refused before, {lifted} lifted, {large} too large");
    t.is("enough of each", apart > 400 && refused_before > 400 && lifted > 300);
}

/// Every bundle has enough claims of each code under shifts that are far apart,
/// and with zero entries that are asked for a negative power; and some of each
/// among the kinds that it begins with.
fn bundles(t: &mut Tally) {
    const CODES: [usize; 6] = [0, 9, 10, 11, 12, 13];
    for seed in 1..=3 {
        let mut maker = make::Maker::new(seed);
        let (mut apart, mut negative, mut first, mut zero_rows) = ([0; 15], [0; 15], [0; 15], 0);
        for number in 0..8000 {
            let case = maker.next();
            let said = verdict::say(&case.problem, &case.answer, case.lent).unwrap();
            let (code, Some(shape)) = (said.judged.code as usize, said.shape) else {
                continue;
            };
            apart[code] += shape.apart as u32;
            negative[code] += shape.negative as u32;
            first[code] += (number < maker.fixed && shape.negative) as u32;
            zero_rows += shape.zero_row as u32;
        }
        let enough = CODES.iter().all(|k| apart[*k] >= 30 && negative[*k] >= 30 && first[*k] >= 1) && zero_rows >= 100;
        t.is(&format!("kinds of claims of seed {seed}: {apart:?} {negative:?} {first:?} {zero_rows}"), enough);
    }
}

/// Every claim of a few tiny sizes: the four conditions against the plain meaning.
fn tiny(t: &mut Tally) {
    let sizes: [(u64, usize, usize, Vec<usize>, usize, Vec<Vec<i64>>); 8] = [
        (2, 1, 1, vec![1], 4, vec![vec![0]]),
        (2, 1, 1, vec![3], 4, vec![vec![-1]]),
        (3, 1, 1, vec![2], 3, vec![vec![5]]),
        (2, 1, 2, vec![1, 2], 3, vec![vec![0]]),
        (2, 2, 1, vec![1], 2, vec![vec![0, 0], vec![0, 1], vec![-1, 0], vec![0, 2], vec![0, 5], vec![5, 0], vec![-1000, 1000]]),
        (2, 2, 1, vec![2], 2, vec![vec![0, 0], vec![1, 0], vec![1000, -1000]]),
        (2, 2, 2, vec![1, 1], 2, vec![vec![7, 7], vec![-9, -3]]),
        (3, 2, 1, vec![1], 1, vec![vec![0, 0], vec![0, 1], vec![-17, 0]]),
    ];
    for (p, m, n, d, longest, shifts) in sizes {
        let entries = m * m * longest;
        let series: usize = m * d.iter().sum::<usize>();
        let numbers = m * n;
        let total = p.pow((entries + series + numbers) as u32);
        let mut codes = [0u64; 14];
        let mut wrong = 0;
        for s in &shifts {
            for code in 0..total {
                let mut rest = code;
                let mut digit = || {
                    let c = rest % p;
                    rest /= p;
                    c
                };
                let mut claim = Claim {
                    p,
                    m,
                    n,
                    d: d.clone(),
                    s: s.clone(),
                    f: Vec::new(),
                    basis: Vec::new(),
                    evidence: Vec::new(),
                };
                for _ in 0..m {
                    claim.f.push(d.iter().map(|d| (0..*d).map(|_| digit()).collect()).collect());
                    claim.evidence.push((0..n).map(|_| digit()).collect());
                    claim.basis.push(
                        (0..m)
                            .map(|_| {
                                let mut e: Vec<u64> = (0..longest).map(|_| digit()).collect();
                                poly::trim(&mut e);
                                e
                            })
                            .collect(),
                    );
                }
                match judged(&claim) {
                    Ok(code) => codes[code as usize] += 1,
                    Err(e) => {
                        wrong += 1;
                        println!("tiny: {e}");
                    }
                }
            }
        }
        t.is(&format!("tiny p = {p}, m = {m}, n = {n}"), wrong == 0 && codes[0] > 0);
        println!("all claims for p = {p}, m = {m}, n = {n}, orders {d:?}: codes 0 and 9 to 13: {:?} {:?}", codes[0], &codes[9..]);
    }
}

pub fn run() -> bool {
    let mut t = Tally::default();
    let mut random = Random(20);
    worked(&mut t);
    primes(&mut t);
    files(&mut t, &mut random);
    degrees(&mut t);
    against_before(&mut t, &mut random);
    true_bases(&mut t, "honest", make::honest, &mut random);
    true_bases(&mut t, "sparse", make::sparse, &mut random);
    tiny(&mut t);
    bundles(&mut t);
    for (what, right) in maker::checks(&mut random) {
        t.is(&what, right);
    }
    println!("{} passed, {} failed", t.passed, t.failed);
    t.failed == 0
}
