//! A second judge of claimed bases, written from the rules alone, and a maker
//! of cases for the test program `cases`.

mod asking;
mod claim;
mod drawn;
mod field;
mod make;
mod maker;
mod plain;
mod poly;
mod random;
mod read;
mod selftest;
mod verdict;

use crate::read::ROWS;
use std::io::{BufWriter, Write};
use std::process::ExitCode;
use std::sync::atomic::Ordering;

const USAGE: &str = "usage:
  second make --seed S --count N --out BUNDLE [--cut B]
  second maker ask|expect|check|counts ...
  second expect BUNDLE
  second check BUNDLE OUTPUT
  second counts BUNDLE
  second draw --seed S --count N --out DRAWINGS
  second drawn DRAWINGS
  second check-drawn DRAWINGS OUTPUT
  second selftest";

/// A bundle, case by case.
struct Bundle {
    bytes: Vec<u8>,
    place: usize,
    left: u32,
}

enum Next<'a> {
    Case(&'a [u8], &'a [u8], usize),
    End,
    Bad,
}

impl Bundle {
    fn open(name: &str) -> Result<Bundle, String> {
        let bytes = std::fs::read(name).map_err(|e| format!("{name}: {e}"))?;
        Ok(Bundle { bytes, place: 0, left: 0 })
    }

    fn number(&mut self) -> Option<u32> {
        let b = self.bytes.get(self.place..self.place + 4)?;
        self.place += 4;
        Some(u32::from_le_bytes(b.try_into().unwrap()))
    }

    /// The count; false where the bundle is too short for one.
    fn start(&mut self) -> bool {
        match self.number() {
            Some(n) => {
                self.left = n;
                true
            }
            None => false,
        }
    }

    fn next(&mut self) -> Next<'_> {
        if self.left == 0 {
            return Next::End;
        }
        self.left -= 1;
        let (Some(a), Some(b), Some(lent)) = (self.number(), self.number(), self.number()) else {
            return Next::Bad;
        };
        let (a, b, lent) = (a as usize, b as usize, lent as usize);
        let from = self.place;
        if a > 65_536 || b > 65_536 || lent > 4_096 || self.bytes.len() - from < a + b {
            return Next::Bad;
        }
        self.place += a + b;
        Next::Case(&self.bytes[from..from + a], &self.bytes[from + a..from + a + b], lent)
    }
}

/// Calls `each` for every case; returns whether the bundle was bad.
fn walk(name: &str, mut each: impl FnMut(usize, Result<verdict::Said, String>) -> Result<(), String>) -> Result<bool, String> {
    let mut bundle = Bundle::open(name)?;
    if !bundle.start() {
        return Ok(true);
    }
    let mut number = 0;
    loop {
        match bundle.next() {
            Next::End => return Ok(false),
            Next::Bad => return Ok(true),
            Next::Case(problem, answer, lent) => {
                let said = verdict::say(problem, answer, lent)
                    .map_err(|e| format!("case {number}: the second program disagrees with itself: {e}"));
                each(number, said)?;
                number += 1;
            }
        }
    }
}

struct Options {
    seed: u64,
    count: u32,
    cut: usize,
    out: String,
}

fn options(arguments: &[String]) -> Result<Options, String> {
    let mut r = Options { seed: 1, count: 20_000, cut: 0, out: String::new() };
    let mut k = 0;
    while k + 1 < arguments.len() {
        let value = &arguments[k + 1];
        let bad = |e: std::num::ParseIntError| format!("{value}: {e}");
        match arguments[k].as_str() {
            "--seed" => r.seed = value.parse().map_err(bad)?,
            "--count" => r.count = value.parse().map_err(bad)?,
            "--cut" => r.cut = value.parse().map_err(bad)?,
            "--out" => r.out = value.clone(),
            _ => return Err(USAGE.into()),
        }
        k += 2;
    }
    if r.out.is_empty() {
        return Err(USAGE.into());
    }
    Ok(r)
}

fn make(arguments: &[String]) -> Result<(), String> {
    let Options { seed, count, cut, out } = options(arguments)?;
    let mut bytes = count.to_le_bytes().to_vec();
    let file = std::fs::File::create(&out).map_err(|e| format!("{out}: {e}"))?;
    let mut file = BufWriter::new(file);
    let mut maker = make::Maker::new(seed);
    let mut written = 0usize;
    let mut longest = 0usize;
    for left in (0..count).rev() {
        let case = maker.next();
        for n in [case.problem.len(), case.answer.len(), case.lent] {
            bytes.extend((n as u32).to_le_bytes());
        }
        bytes.extend(&case.problem);
        bytes.extend(&case.answer);
        longest = longest.max(case.problem.len()).max(case.answer.len());
        if left == 0 {
            // the last bytes left out, for a bundle that is cut
            bytes.truncate(bytes.len().saturating_sub(cut));
        }
        written += bytes.len();
        file.write_all(&bytes).map_err(|e| e.to_string())?;
        bytes.clear();
    }
    file.write_all(&bytes).and_then(|_| file.flush()).map_err(|e| e.to_string())?;
    written += bytes.len();
    println!(
        "{count} cases of seed {seed} ({} of the fixed kinds), {written} bytes, longest file {longest}",
        maker.fixed.min(count as usize)
    );
    Ok(())
}

fn expect(name: &str) -> Result<(), String> {
    let mut out = BufWriter::new(std::io::stdout().lock());
    let bad = walk(name, |_, said| {
        for line in said?.lines {
            writeln!(out, "{line}").map_err(|e| e.to_string())?;
        }
        Ok(())
    })?;
    if bad {
        writeln!(out, "bad bundle").map_err(|e| e.to_string())?;
    }
    out.flush().map_err(|e| e.to_string())
}

fn shown(line: Option<&[u8]>) -> String {
    match line {
        None => "(no line)".into(),
        Some(l) => {
            let mut s = String::from_utf8_lossy(&l[..l.len().min(160)]).into_owned();
            if l.len() > 160 {
                s.push_str("...");
            }
            s
        }
    }
}

/// Compares an output with what it has to be; true where nothing differs.
fn check(name: &str, output: &str) -> Result<bool, String> {
    let text = std::fs::read(output).map_err(|e| format!("{output}: {e}"))?;
    let whole = text.is_empty() || text.ends_with(b"\n");
    let mut lines = text.split(|b| *b == b'\n');
    let (mut passed, mut failed, mut shown_so_far) = (0u64, 0u64, 0);
    let bad = walk(name, |number, said| {
        let said = match said {
            Ok(x) => x,
            Err(e) => {
                println!("{e}");
                for _ in 0..3 {
                    lines.next();
                }
                failed += 1;
                return Ok(());
            }
        };
        let mut right = true;
        for due in &said.lines {
            let got = lines.next();
            if got != Some(due.as_bytes()) {
                right = false;
                if shown_so_far < 10 {
                    shown_so_far += 1;
                    println!("case {number}: due {}", shown(Some(due.as_bytes())));
                    println!("case {number}: got {}", shown(got));
                }
            }
        }
        if right {
            passed += 1;
        } else {
            failed += 1;
        }
        Ok(())
    })?;
    if bad && lines.next() != Some(b"bad bundle") {
        println!("the line `bad bundle` is missing");
        failed += 1;
    }
    let rest: Vec<&[u8]> = lines.collect();
    if !whole || rest.iter().any(|l| !l.is_empty()) || rest.len() > 1 {
        println!("the output ends otherwise: {}", shown(rest.first().copied()));
        failed += 1;
    }
    println!("{passed} passed, {failed} failed");
    Ok(failed == 0)
}

fn counts(name: &str) -> Result<(), String> {
    let (mut judged, mut made, mut both) = ([0u64; 15], [0u64; 15], 0u64);
    let (mut apart, mut negative, mut zero_rows) = ([0u64; 15], [0u64; 15], 0u64);
    let (mut passes, mut below, mut at, mut degree) = ([[0u64; ROWS]; ROWS], [[0u64; ROWS]; ROWS], [[0u64; ROWS]; ROWS], 0);
    let bad = walk(name, |_, said| {
        let said = said?;
        let v = &said.judged;
        judged[v.code as usize] += 1;
        match v.code {
            0 => {
                passes[said.size.0 - 1][said.size.1 - 1] += 1;
                degree = degree.max(v.at);
            }
            11 => below[v.record as usize][v.at as usize] += 1,
            12 => at[v.record as usize][v.at as usize] += 1,
            _ => {}
        }
        if let Some(shape) = &said.shape {
            apart[v.code as usize] += shape.apart as u64;
            negative[v.code as usize] += shape.negative as u64;
            zero_rows += shape.zero_row as u64;
        }
        made[said.made as usize] += 1;
        both += 1;
        Ok(())
    })?;
    println!("code     judge     apart  negative  evidence");
    for k in 0..15 {
        println!("{k:>4} {:>9} {:>9} {:>9} {:>9}", judged[k], apart[k], negative[k], made[k]);
    }
    println!("apart: two shifts differ by more than 16; negative: a zero entry is asked for a negative power; rows of zeros in {zero_rows}");
    println!("passes by m (down) and n: {passes:?}, largest degree sum {degree}");
    println!("places of 11 by row and column: {below:?}");
    println!("places of 12 by row and column: {at:?}");
    println!(
        "{both} cases; plain meaning by counting {}, by generators too {}, by trying all vectors too {}",
        plain::COUNTED.load(Ordering::Relaxed),
        plain::REDUCED.load(Ordering::Relaxed),
        plain::TRIED.load(Ordering::Relaxed)
    );
    if bad {
        println!("bad bundle");
    }
    Ok(())
}

/// Claims with numbers drawn for them: the two lengths, u and the point, then
/// the two files.
fn draw(arguments: &[String]) -> Result<(), String> {
    let Options { seed, count, out, .. } = options(arguments)?;
    let mut drawer = drawn::Drawer::new(seed);
    let mut bytes = count.to_le_bytes().to_vec();
    for _ in 0..count {
        let d = drawer.next();
        let lengths = [d.problem.len() as u32, d.answer.len() as u32];
        for n in lengths.iter().chain(&d.u).chain([&d.point]) {
            bytes.extend(n.to_le_bytes());
        }
        bytes.extend(&d.problem);
        bytes.extend(&d.answer);
    }
    println!("{count} drawings of seed {seed}, {} bytes", bytes.len());
    std::fs::write(&out, bytes).map_err(|e| format!("{out}: {e}"))
}

/// The next of them; nothing where the bytes end before it does.
fn next_drawing(bundle: &mut Bundle) -> Option<drawn::Drawing> {
    let (a, b) = (bundle.number()? as usize, bundle.number()? as usize);
    let mut u = [0; ROWS];
    for x in u.iter_mut() {
        *x = bundle.number()?;
    }
    let point = bundle.number()?;
    let from = bundle.place;
    bundle.place += a + b;
    let files = bundle.bytes.get(from..bundle.place)?;
    Some(drawn::Drawing { problem: files[..a].to_vec(), answer: files[a..].to_vec(), u, point })
}

fn drawings(name: &str) -> Result<Vec<drawn::Drawing>, String> {
    let mut bundle = Bundle::open(name)?;
    let whole = bundle.start();
    let all: Option<Vec<_>> = (0..bundle.left).map(|_| next_drawing(&mut bundle)).collect();
    all.filter(|_| whole).ok_or(format!("{name}: cut"))
}

fn drawn_line(d: &drawn::Drawing) -> Result<String, String> {
    let [code, file, record, at] = drawn::say(d)?;
    Ok(format!("drawn {code} {file} {record} {at}"))
}

fn expect_drawn(name: &str) -> Result<(), String> {
    let mut out = BufWriter::new(std::io::stdout().lock());
    for d in drawings(name)? {
        writeln!(out, "{}", drawn_line(&d)?).map_err(|e| e.to_string())?;
    }
    out.flush().map_err(|e| e.to_string())
}

/// Compares an output line by line; and wherever every point was drawn for a
/// claim and a u, counts in the output the points that gave "may pass" and
/// compares that with the most there may be.
fn check_drawn(name: &str, output: &str) -> Result<bool, String> {
    let text = std::fs::read_to_string(output).map_err(|e| format!("{output}: {e}"))?;
    let lines: Vec<&str> = text.lines().collect();
    let all = drawings(name)?;
    let (mut passed, mut failed, mut sweeps, mut spoilt, mut most) = (0u64, (lines.len() != all.len()) as u64, 0, 0, 0);
    let [code, file, record, at] = drawn::MAY_PASS;
    let may_pass = format!("drawn {code} {file} {record} {at}");
    let mut begun = 0;
    for (k, d) in all.iter().enumerate() {
        let due = drawn_line(d)?;
        if lines.get(k) == Some(&due.as_str()) {
            passed += 1;
        } else {
            failed += 1;
            println!("drawing {k}: due {due}, got {:?}", lines.get(k));
        }
        let first = &all[begun];
        let same = (&d.problem, &d.answer, d.u) == (&first.problem, &first.answer, first.u);
        if !same || d.point as usize != k - begun {
            begun = k;
        }
        let Some((p, bound)) = drawn::most_points(d).filter(|(p, _)| d.point as u64 + 1 == *p && k - begun + 1 == *p as usize) else {
            continue;
        };
        let through = (begun..=k).filter(|k| lines.get(*k) == Some(&may_pass.as_str())).count() as u64;
        sweeps += 1;
        if bound < p {
            spoilt += 1;
            most = most.max(through);
        }
        if through <= bound {
            passed += 1;
        } else {
            failed += 1;
            println!("drawings {begun} to {k}: {through} points of {p} may pass, and there may be {bound}");
        }
    }
    println!("{sweeps} times every point; of a row that is not zero, {spoilt} times, at most {most} may pass");
    println!("{passed} passed, {failed} failed");
    Ok(failed == 0 && spoilt > 0)
}

fn main() -> ExitCode {
    let arguments: Vec<String> = std::env::args().skip(1).collect();
    let names: Vec<&str> = arguments.iter().map(|s| s.as_str()).collect();
    let done = match names.as_slice() {
        ["make", ..] => make(&arguments[1..]).map(|_| true),
        ["maker", ..] => asking::run(&arguments[1..]),
        ["expect", bundle] => expect(bundle).map(|_| true),
        ["check", bundle, output] => check(bundle, output),
        ["counts", bundle] => counts(bundle).map(|_| true),
        ["draw", ..] => draw(&arguments[1..]).map(|_| true),
        ["drawn", drawings] => expect_drawn(drawings).map(|_| true),
        ["check-drawn", drawings, output] => check_drawn(drawings, output),
        ["selftest"] => Ok(selftest::run()),
        _ => Err(USAGE.into()),
    };
    match done {
        Ok(true) => ExitCode::SUCCESS,
        Ok(false) => ExitCode::FAILURE,
        Err(e) => {
            eprintln!("{e}");
            ExitCode::from(2)
        }
    }
}
