//! Bases asked for: problems, good and broken, each with a number of steps and a
//! number of bytes lent; what is due for each; and an output compared with it.
//!
//! In the file: how many, then for each one the problem's length, the steps and
//! the bytes lent in four bytes each, and the problem.

use crate::claim::{Claim, Kind};
use crate::field;
use crate::make::{self, Maker};
use crate::maker::{self, Numbers};
use crate::random::Random;
use crate::read::{self, ORDER, ROWS, SHIFT};
use crate::{options, Options};
use std::collections::VecDeque;
use std::io::{BufWriter, Write};

const USAGE: &str = "usage:
  second maker ask --seed S --count N --out ASKED
  second maker expect ASKED
  second maker check ASKED OUTPUT
  second maker counts ASKED";

const LENT: u8 = 170;
const MOST_LENT: usize = 4096;

struct Asked {
    problem: Vec<u8>,
    steps: u32,
    lent: usize,
}

struct Said {
    numbers: Numbers,
    line: String,
}

fn say(asked: &Asked) -> Result<Said, String> {
    let mut buffer = vec![LENT; asked.lent];
    let numbers = maker::make_basis(&asked.problem, asked.steps, &mut buffer)?;
    let mut line = numbers.iter().fold(String::from("made"), |t, n| format!("{t} {n}"));
    if asked.lent > 0 {
        line.push(' ');
        crate::verdict::hex(&buffer, &mut line);
    }
    Ok(Said { numbers, line })
}

/// A problem whose F has a low rank up to some power, A B + X^e R, so that its
/// bases have entries of every length. Some are of the largest sizes.
fn low_rank(random: &mut Random) -> Claim {
    let mut claim = make::some_problem(random, false);
    if random.chance(15) {
        (claim.m, claim.n, claim.d) = (ROWS, ROWS, vec![ORDER; ROWS]);
        claim.s = make::some_shifts(ROWS, random);
        claim.f = vec![vec![vec![0; ORDER]; ROWS]; ROWS];
    }
    let p = claim.p;
    let rank = random.below(claim.m.min(claim.n) + 1);
    let e = random.below(ORDER + 1);
    let mut some = |rows: usize, columns: usize| -> Vec<Vec<Vec<u64>>> {
        let mut entry = || (0..ORDER).map(|_| random.next() % p).collect();
        (0..rows).map(|_| (0..columns).map(|_| entry()).collect()).collect()
    };
    let (a, b, r) = (some(claim.m, rank), some(rank, claim.n), some(claim.m, claim.n));
    for i in 0..claim.m {
        for j in 0..claim.n {
            for k in 0..claim.d[j] {
                let low = (0..rank).flat_map(|t| (0..=k).map(move |l| (t, l)));
                let start = if k < e { 0 } else { r[i][j][k] };
                claim.f[i][j][k] = low.fold(start, |sum, (t, l)| field::add(sum, field::mul(a[i][t][l], b[t][j][k - l], p), p));
            }
        }
    }
    claim
}

fn largest_order(problem: &[u8]) -> usize {
    read::problem(problem).map_or(1, |b| *b.d.iter().max().unwrap())
}

fn some_steps(problem: &[u8], random: &mut Random) -> u32 {
    let most = largest_order(problem) as u32;
    match random.below(16) {
        0 => 0,
        1 | 2 => 1,
        3 => most - 1,
        4..=7 => most,
        8 => most + 1,
        9..=12 => random.below(most as usize + 1) as u32,
        13 => random.pick(&[16, 17, 18, 32, 255, 256, 257, 272]),
        14 => random.pick(&[65_535, 65_536, 65_537, 1 << 24, 1 << 31, u32::MAX - 1, u32::MAX]),
        _ => random.next() as u32,
    }
}

/// The bytes of what is made; of a broken problem some number.
fn needed(problem: &[u8], steps: u32) -> usize {
    let Ok(b) = read::problem(problem) else {
        return 40;
    };
    maker::made(&b, steps).map_or(40, |made| maker::file(&b, &made).len())
}

fn some_lent(needed: usize, random: &mut Random) -> usize {
    match random.below(20) {
        0..=7 => needed,
        8..=9 => needed + 1,
        10..=11 => needed - 1,
        12 => 0,
        13 => random.below(needed),
        14..=16 => needed + random.below(64),
        17 => needed - 1 - random.below(needed.min(8)),
        18 => random.pick(&[1, 2, 1233, 1234, 1235, 1300]),
        _ => random.below(MOST_LENT + 1),
    }
}

struct Asker {
    random: Random,
    maker: Maker,
    queue: VecDeque<Asked>,
    fixed: usize,
}

impl Asker {
    fn new(seed: u64) -> Asker {
        let mut r = Asker { random: Random(seed ^ 0xba5e), maker: Maker::new(seed), queue: VecDeque::new(), fixed: 0 };
        r.first();
        r.fixed = r.queue.len();
        r
    }

    fn put(&mut self, problem: &[u8], steps: u32, lent: usize) {
        self.queue.push_back(Asked { problem: problem.to_vec(), steps, lent });
    }

    /// Just enough bytes, one less and one more.
    fn about(&mut self, problem: &[u8], steps: u32) {
        let needed = needed(problem, steps);
        for lent in [needed, needed - 1, needed + 1] {
            self.put(problem, steps, lent);
        }
    }

    /// Every number of steps up to one more than there are to do.
    fn all_steps(&mut self, problem: &[u8]) {
        for steps in 0..=largest_order(problem) as u32 + 1 {
            let lent = needed(problem, steps) + self.random.below(3);
            self.put(problem, steps, lent);
        }
    }

    /// The file cut at every byte, and with bytes more.
    fn cuts(&mut self, problem: &[u8]) {
        for k in 0..problem.len() {
            let steps = some_steps(problem, &mut self.random);
            self.put(&problem[..k], steps, 64);
        }
        for more in [1, 2, 100, 20_000] {
            self.put(&[problem, &vec![0; more]].concat(), 2, 64);
        }
    }

    /// Every field with wrong values, and with right ones.
    fn fields(&mut self, claim: &Claim) {
        let file = claim.problem();
        for f in &file.fields {
            let values: Vec<u64> = match f.kind {
                Kind::Mark => vec![0, 0x4343, 0xffff, 0x4550],
                Kind::Prime => vec![0, 1, 2, 4, 561, 2_147_483_646, 2_147_483_647, 1 << 31, 4_294_967_291],
                Kind::Rows | Kind::Columns => vec![0, 1, 4, 5, 255],
                Kind::Order => vec![0, 1, 16, 17, 255],
                Kind::Shift => [SHIFT, -SHIFT, SHIFT + 1, -SHIFT - 1, 32767, -32768].iter().map(|s| *s as u64 & 0xffff).collect(),
                Kind::Coefficient => vec![0, claim.p - 1, claim.p, claim.p + 1, 4_294_967_295],
                _ => vec![0, 1, 4, 255],
            };
            for value in values {
                let mut bytes = file.bytes.clone();
                bytes[f.at..f.at + f.size].copy_from_slice(&value.to_le_bytes()[..f.size]);
                let steps = some_steps(&bytes, &mut self.random);
                let lent = needed(&bytes, steps);
                self.put(&bytes, steps, lent);
            }
        }
    }

    /// One problem of every m and n, for orders and shifts of each kind.
    fn sizes(&mut self, m: usize, n: usize) {
        for kind in 0..6 {
            let mut claim = low_rank(&mut self.random);
            let p = claim.p;
            (claim.m, claim.n) = (m, n);
            claim.d = (0..n).map(|_| [1, 2, ORDER, 1 + self.random.below(ORDER), 3, 5][kind]).collect();
            claim.s = (0..m as i64).map(|i| [0, -SHIFT, SHIFT, 3 - i % 2, SHIFT - i * 600, 17 * i - SHIFT][kind]).collect();
            claim.f = (0..m).map(|_| claim.d.iter().map(|d| (0..*d).map(|_| self.random.next() % p).collect()).collect()).collect();
            let problem = claim.problem().bytes;
            let steps = some_steps(&problem, &mut self.random);
            self.about(&problem, steps);
            self.about(&problem, ORDER as u32);
        }
    }

    /// What every file begins with, whatever its seed.
    fn first(&mut self) {
        let sample = make::worked().into_iter().find(|(c, _)| c.m == 2).unwrap().0;
        let problem = sample.problem().bytes;
        for steps in [0, 1, 2, 3, 16, 17, 256, 65_536, u32::MAX] {
            for lent in (0..64).chain([1234, MOST_LENT]) {
                self.put(&problem, steps, lent);
            }
        }
        self.cuts(&problem);
        self.fields(&sample);
        for p in make::wrong_primes().into_iter().chain(make::right_primes()) {
            let mut claim = make::some_problem(&mut self.random, true);
            claim.p = p;
            let q = p.clamp(1, 1 << 31);
            claim.f.iter_mut().flatten().flatten().for_each(|x| *x = self.random.next() % q);
            let problem = claim.problem().bytes;
            let lent = needed(&problem, ORDER as u32);
            self.put(&problem, ORDER as u32, lent);
        }
        for m in 1..=ROWS {
            for n in 1..=ROWS {
                self.sizes(m, n);
            }
        }
    }

    fn some(&mut self) {
        let small = self.random.chance(35);
        let problem = match self.random.below(20) {
            0..=7 => low_rank(&mut self.random).problem().bytes,
            8..=12 => make::some_problem(&mut self.random, small).problem().bytes,
            13..=15 => make::sparse(&mut self.random, small).problem().bytes,
            _ => self.maker.next().problem,
        };
        if self.random.chance(2) {
            self.all_steps(&problem);
        }
        let steps = some_steps(&problem, &mut self.random);
        let lent = some_lent(needed(&problem, steps), &mut self.random);
        self.put(&problem, steps, lent);
    }

    fn next(&mut self) -> Asked {
        while self.queue.is_empty() {
            self.some();
        }
        self.queue.pop_front().unwrap()
    }
}

fn ask(arguments: &[String]) -> Result<(), String> {
    let Options { seed, count, out, .. } = options(arguments)?;
    let mut asker = Asker::new(seed);
    let mut bytes = count.to_le_bytes().to_vec();
    for _ in 0..count {
        let asked = asker.next();
        for n in [asked.problem.len() as u32, asked.steps, asked.lent as u32] {
            bytes.extend(n.to_le_bytes());
        }
        bytes.extend(&asked.problem);
    }
    println!("{count} bases asked of seed {seed} ({} of the fixed kinds), {} bytes", asker.fixed.min(count as usize), bytes.len());
    std::fs::write(&out, bytes).map_err(|e| format!("{out}: {e}"))
}

fn parsed(bytes: &[u8]) -> Option<Vec<Asked>> {
    let number = |at: usize| Some(u32::from_le_bytes(bytes.get(at..at + 4)?.try_into().unwrap()));
    let mut place = 4;
    (0..number(0)?)
        .map(|_| {
            let (length, steps, lent) = (number(place)? as usize, number(place + 4)?, number(place + 8)? as usize);
            let problem = bytes.get(place + 12..place + 12 + length)?.to_vec();
            place += 12 + length;
            Some(Asked { problem, steps, lent })
        })
        .collect()
}

/// Calls `each` for every basis asked for, with what is due.
fn walk(name: &str, mut each: impl FnMut(usize, &Asked, Said) -> Result<(), String>) -> Result<(), String> {
    let bytes = std::fs::read(name).map_err(|e| format!("{name}: {e}"))?;
    for (number, asked) in parsed(&bytes).ok_or(format!("{name}: cut"))?.iter().enumerate() {
        let said = say(asked).map_err(|e| format!("asked {number}: the second program disagrees with itself: {e}"))?;
        each(number, asked, said)?;
    }
    Ok(())
}

fn expect(name: &str) -> Result<(), String> {
    let mut out = BufWriter::new(std::io::stdout().lock());
    walk(name, |_, _, said| writeln!(out, "{}", said.line).map_err(|e| e.to_string()))?;
    out.flush().map_err(|e| e.to_string())
}

/// Compares an output line by line; true where nothing differs.
fn check(name: &str, output: &str) -> Result<bool, String> {
    let text = std::fs::read_to_string(output).map_err(|e| format!("{output}: {e}"))?;
    let mut lines = text.lines();
    let (mut passed, mut failed) = (0u64, 0u64);
    walk(name, |number, asked, said| {
        let got = lines.next();
        if got == Some(said.line.as_str()) {
            passed += 1;
            return Ok(());
        }
        failed += 1;
        if failed <= 10 {
            let cut = |s: &str| s.chars().take(160).collect::<String>();
            println!("asked {number}, {} steps in {} bytes: due {}", asked.steps, asked.lent, cut(&said.line));
            println!("asked {number}: got {}", got.map_or("(no line)".into(), cut));
        }
        Ok(())
    })?;
    let more = lines.count() as u64;
    if more > 0 {
        println!("{more} lines more than were asked for");
    }
    failed += more;
    println!("{passed} passed, {failed} failed");
    Ok(failed == 0)
}

fn counts(name: &str) -> Result<(), String> {
    let (mut codes, mut done, mut sizes, mut lengths) = ([0u64; 15], [0u64; ORDER + 1], [[0u64; ROWS]; ROWS], [0u64; ORDER + 2]);
    let (mut stopped, mut reached, mut above, mut longest) = (0u64, 0u64, 0u64, 0u64);
    walk(name, |_, asked, said| {
        let [code, _, steps, at] = said.numbers;
        codes[code as usize] += 1;
        if code == 0 {
            let b = read::problem(&asked.problem).unwrap();
            let most = largest_order(&asked.problem) as u64;
            done[steps as usize] += 1;
            sizes[b.m - 1][b.n - 1] += 1;
            longest = longest.max(at);
            stopped += (steps < most) as u64;
            reached += (steps == most) as u64;
            above += (asked.steps as u64 > most) as u64;
            maker::made(&b, asked.steps)?.basis.iter().flatten().for_each(|e| lengths[e.len()] += 1);
        }
        Ok(())
    })?;
    println!("made, by code: {codes:?}");
    println!("made, by steps done: {done:?}; stopped before the largest order {stopped}, at it {reached}, of these allowed more {above}");
    println!("made, by m (down) and n: {sizes:?}; entries by length: {lengths:?}; longest file {longest}");
    Ok(())
}

/// The part of the command line behind `second maker`.
pub fn run(arguments: &[String]) -> Result<bool, String> {
    let names: Vec<&str> = arguments.iter().map(|s| s.as_str()).collect();
    match names.as_slice() {
        ["ask", ..] => ask(&arguments[1..]).map(|_| true),
        ["expect", asked] => expect(asked).map(|_| true),
        ["check", asked, output] => check(asked, output),
        ["counts", asked] => counts(asked).map(|_| true),
        _ => Err(USAGE.into()),
    }
}
