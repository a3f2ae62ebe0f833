"""Wrong judges and wrong makers: the second program with one place changed
each. Says for each in how many cases of a bundle, or of the bases asked for, its
output differs from the right one; fails if some wrong one differs in none. And
judges and makers that say the same in other words, which have to differ in
none. Wrong answers by drawn numbers too. Run from the top of the project:

    python3 second/wrong.py [SEED [COUNT [WORD ...]]]

WORDs choose them by name; the names of makers begin with `made`. Ten to fifteen
minutes for all of them.
"""
import os, shutil, subprocess, sys, tempfile

SOURCE = os.path.join(os.path.dirname(os.path.abspath(__file__)), 'src')
BUILD = ['rustc', '-C', 'opt-level=1', '--edition', '2021', '--crate-name', 'second', '-Awarnings']
# the checks of the program against itself are left out of the wrong judges
BASE = [('verdict.rs','    plain::compare(&problem, &answer.basis, &answer.evidence, code, at)?;\n','')]
# places in row_degree and in four
FILTER = '        .filter(|(e, _)| !e.is_empty())\n'
SHIFTED = '        .map(|(e, s)| e.len() as i64 - 1 + s)\n'
LARGEST = '        .max()\n}'
ZERO_ROW = '        return Ok((9, 0, 0, 0));\n    };'
WRONG = [
('no det',[('verdict.rs','count() != 1 {','count() != 1 && false {')]),
('rank P0 alone',[('verdict.rs','            row.extend(&evidence[i]);','            if evidence.len()>9 {row.push(1);}')]),
('no 12',[('verdict.rs','if r[i][j][problem.d[j]] != evidence[i][j] {','if false && r[i][j][problem.d[j]] != evidence[i][j] {')]),
('11 one short',[('verdict.rs','r[i][j][..problem.d[j]].iter()','r[i][j][..problem.d[j]-1].iter()')]),
('11 one far',[('verdict.rs','r[i][j][..problem.d[j]].iter()','r[i][j][..problem.d[j]+1].iter()')]),
('column before row 11',[('verdict.rs','''    for i in 0..problem.m {
        for j in 0..problem.n {
            if r[i][j][..''','''    for j in 0..problem.n {
        for i in 0..problem.m {
            if r[i][j][..''')]),
('column before row 12',[('verdict.rs','''    for i in 0..problem.m {
        for j in 0..problem.n {
            if r[i][j][problem''','''    for j in 0..problem.n {
        for i in 0..problem.m {
            if r[i][j][problem''')]),
('12 with 11',[('verdict.rs','''                return Ok((11, 2, i as u32, j as u64));
            }''','''                return Ok((11, 2, i as u32, j as u64));
            }
            if r[i][j][problem.d[j]] != evidence[i][j] { return Ok((12, 2, i as u32, j as u64)); }''')]),
('zero entry of degree 0',[('verdict.rs',FILTER+SHIFTED,'        .map(|(e, s)| (e.len() as i64 - 1).max(0) + s)\n')]),
('zero entry of degree -1',[('verdict.rs',FILTER,'')]),
('zero entry of degree -1000',[('verdict.rs',FILTER+SHIFTED,'        .map(|(e, s)| if e.is_empty() { s - 1000 } else { e.len() as i64 - 1 + s })\n')]),
('zero entry 0 without shift',[('verdict.rs',FILTER+SHIFTED,'        .map(|(e, s)| if e.is_empty() { 0 } else { e.len() as i64 - 1 + s })\n')]),
('zero first entry of degree 0',[('verdict.rs',FILTER+SHIFTED,'        .filter(|(e, t)| !e.is_empty() || std::ptr::eq(*t, &s[0]))\n        .map(|(e, s)| (e.len() as i64 - 1).max(0) + s)\n')]),
('zero last entry of degree 0',[('verdict.rs',FILTER+SHIFTED,'        .filter(|(e, t)| !e.is_empty() || std::ptr::eq(*t, &s[s.len() - 1]))\n        .map(|(e, s)| (e.len() as i64 - 1).max(0) + s)\n')]),
('row with a zero entry has none',[('verdict.rs',FILTER,'        .filter(|_| row.iter().all(|e| !e.is_empty()))\n')]),
('row degree at least 0',[('verdict.rs',LARGEST,'        .max()\n        .map(|u| u.max(0))\n}')]),
('row degree at least -999',[('verdict.rs',LARGEST,'        .max()\n        .map(|u| u.max(-999))\n}')]),
('row degree without the shift',[('verdict.rs','e.len() as i64 - 1 + s)','e.len() as i64 - 1 + 0 * s)')]),
('shift of the longest entry',[('verdict.rs',SHIFTED+LARGEST,'        .max_by_key(|(e, _)| e.len())\n        .map(|(e, s)| e.len() as i64 - 1 + s)\n}')]),
('shift ignored',[('verdict.rs','e.len() as i64 - 1 + s)','e.len() as i64 - 1 + 0 * s)'),('verdict.rs','- problem.s.iter().sum::<i64>();','- 0 * problem.s.iter().sum::<i64>();')]),
('zero row goes on to 10',[('verdict.rs',ZERO_ROW,'        return Ok((10, 0, 0, 0));\n    };')]),
('shifts 17 apart refused',[('verdict.rs','    let top =','    if problem.s.iter().any(|a| problem.s.iter().any(|b| a - b > 16)) { return Ok((9, 0, 0, 0)); }\n    let top =')]),
('Delta with zero entries',[('verdict.rs','Ok((0, 0, 0, sum as u64))','Ok((0, 0, 0, (basis.iter().map(|row| row.iter().zip(&problem.s).map(|(e, s)| (e.len() as i64 - 1).max(0) + s).max().unwrap()).sum::<i64>() - problem.s.iter().sum::<i64>()) as u64))')]),
('evidence refuses a zero row',[('verdict.rs','    let code = if lent','    if row_degrees(&answer.basis, &problem.s).is_none() { return Verdict { code: 9, file: 0, record: 0, at: 0, part: (1, 0, 0) }; }\n    let code = if lent')]),
('det capped 63',[('verdict.rs','let top = at_power(&det, sum);','let top = if sum > 63 { 0 } else { at_power(&det, sum) };')]),
('10 before 9',[('verdict.rs','    if top == 0 {','    if det.iter().filter(|c| **c != 0).count() != 1 {return Ok((10, 0, 0, 0));}\n    if top == 0 {')]),
('rank before product',[('verdict.rs','    let r = product(problem, basis);\n    for i','''    let rows: Vec<Vec<u64>> = (0..problem.m).map(|i| { let mut row: Vec<u64> = basis[i].iter().map(|e| poly::coefficient(e, 0)).collect(); row.extend(&evidence[i]); row }).collect();
    if !full_rank_by_minors(&rows, p) { return Ok((13,0,0,0)); }
    let r = product(problem, basis);\n    for i''')]),
('rank without last column',[('verdict.rs','            row.extend(&evidence[i]);','            row.extend(&evidence[i][..evidence[i].len()-1]);')]),
('shift unsigned',[('read.rs','if raw >= 32768 { raw as i64 - 65536 } else { raw as i64 }','raw as i64')]),
('shift limit 999',[('read.rs','(-SHIFT..=SHIFT)','(1 - SHIFT..=SHIFT)')]),
('shift limit 1001',[('read.rs','(-SHIFT..=SHIFT)','(-SHIFT..=SHIFT + 1)')]),
('evidence writes before 14',[('verdict.rs','    if code == 0 {\n','    if lent.len() >= 2 && code != 0 { lent[0]=67; lent[1]=69; }\n    if code == 0 {\n')]),
('evidence zeroes after',[('verdict.rs','        lent[..need].copy_from_slice(&record);','        lent.fill(0); lent[..need].copy_from_slice(&record);')]),
('evidence at d-1',[('verdict.rs','entry[problem.d[j]] as u32','entry[problem.d[j]-1] as u32')]),
('evidence 14 off by one',[('verdict.rs','if lent.len() < need','if lent.len() <= need')]),
('evidence takes CE',[('verdict.rs','answer(answer_file, &problem, false)','answer(answer_file, &problem, true)')]),
('part 11 in the answer',[('verdict.rs','            (0, a, b)','            (1, a.min(answer_file.len()), b.min(answer_file.len()))')]),
('part 11 always column 0',[('verdict.rs','problem.columns[at as usize]','problem.columns[0]')]),
('part from field',[('verdict.rs','part: (r.file as usize, r.start, size)','part: (r.file as usize, r.at, size)')]),
('p up to 2^32',[('field.rs','n <= 2_147_483_647 && is_prime(n)','n<3_215_031_751 && is_prime(n)')]),
('fermat',[('field.rs','n <= 2_147_483_647 && is_prime(n)','n <= 2_147_483_647 && n>1 && (n<4 || power(2,n-1,n)==1)')]),
('division to 46336',[('field.rs','n <= 2_147_483_647 && is_prime(n)','n <= 2_147_483_647 && n>1 && (2..=46336).take_while(|q| q*q<=n).all(|q| n%q!=0)')]),
('2^31-1 refused',[('field.rs','n <= 2_147_483_647 &&','n < 2_147_483_647 &&')]),
('L 16',[('read.rs','r.between(0, LENGTH as u64)','r.between(0, LENGTH as u64 - 1)')]),
('L 18',[('read.rs','r.between(0, LENGTH as u64)','r.between(0, LENGTH as u64 + 1)')]),
('order 17',[('read.rs','r.between(1, ORDER as u64)','r.between(1, ORDER as u64 + 1)')]),
('order 15',[('read.rs','r.between(1, ORDER as u64)','r.between(1, ORDER as u64 - 1)')]),
('coefficient p',[('read.rs','if value >= p {','if value == p { return Ok((at,0)); } if value > p {')]),
('no 7',[('read.rs','k + 1 == length && value == 0','k + 1 == length && value == 0 && false'),('read.rs','                basis[i][j].push(value);\n            }','                basis[i][j].push(value);\n            }\n            crate::poly::trim(&mut basis[i][j]);')]),
('8 record',[('read.rs','            self.record = self.begun;\n            self.start','            self.record = self.begun-1;\n            self.start')]),
('row and column number swapped',[('read.rs','r.number(i as u64)?;\n            r.number(j as u64)?;','r.number(j as u64)?;\n            r.number(i as u64)?;')]),
('mark by bytes',[('read.rs','        let (at, value) = self.field(2)?;\n','        if self.bytes.len()-self.place==1 && self.bytes[self.place]!=mark.as_bytes()[0] {return self.refuse(2,self.place);}\n        let (at, value) = self.field(2)?;\n')]),
('p tested after m',[('read.rs','''    if !crate::field::allowed(p) {
        return r.refuse(4, at);
    }
    let m = r.between(1, ROWS as u64)? as usize;''','''    let m = r.between(1, ROWS as u64)? as usize;
    if !crate::field::allowed(p) {
        return r.refuse(4, at);
    }''')]),
('record whole before fields',[('read.rs','            let length = r.between(0, LENGTH as u64)?;','            let length = r.between(0, LENGTH as u64)?; if r.bytes.len()-r.place<4*length as usize {let n=r.place+(r.bytes.len()-r.place)/4*4; return r.refuse(1,n);}')]),
('sum Delta without shifts',[('verdict.rs','Ok((0, 0, 0, sum as u64))','Ok((0, 0, 0, (sum + problem.s.iter().sum::<i64>()) as u64))')]),
('cut at 16384',[('verdict.rs','    let v = judge(problem, answer)?;','    let problem=&problem[..problem.len().min(16384)]; let answer=&answer[..answer.len().min(16384)];\n    let v = judge(problem, answer)?;')]),
]
# other words for the same rule, which no verdict can tell from it (README.md says why); they decide by the leading matrix itself
LEADING = ('verdict.rs','let top = at_power(&det, sum);','let top = leading(basis, &problem.s).map_or(0, |l| poly::determinant_permutations(&l, p));')
AT_POWER = 'usize::try_from(power).map_or(0, |k| poly::coefficient(e, k))'
SAME = [
('the leading matrix',[LEADING]),
('zero row of degree 0',[LEADING,('verdict.rs',LARGEST,'        .max()\n        .or(Some(0))\n}')]),
('zero row of degree -1000',[LEADING,('verdict.rs',LARGEST,'        .max()\n        .or(Some(-1000))\n}')]),
('zero entry as -1000',[LEADING,('verdict.rs',FILTER+SHIFTED,'        .map(|(e, s)| if e.is_empty() { -1000 } else { e.len() as i64 - 1 + s })\n')]),
('negative power read as 0',[LEADING,('verdict.rs',AT_POWER,'poly::coefficient(e, power.max(0) as usize)')]),
('negative power without its sign',[LEADING,('verdict.rs',AT_POWER,'poly::coefficient(e, power.unsigned_abs() as usize)')]),
]
# wrong answers by drawn numbers
DRAWN_CUT = 'e.truncate(problem.d[j] + 1);'
DRAWN_READ = 'd.u[..problem.m].iter().chain([&d.point])'
DRAWN_COLUMNS = 'for j in 0..problem.n {'
DRAWN = [
('drawn: C left out',[('drawn.rs','poly::sub(&e, &c, problem.p)','poly::sub(&e, &poly::scaled(&c, 0, 0, problem.p), problem.p)')]),
('drawn: C added',[('drawn.rs','poly::sub(&e, &c, problem.p)','poly::add(&e, &c, problem.p)')]),
('drawn: order left out',[('drawn.rs',DRAWN_CUT,'e.truncate(problem.d[j]);')]),
('drawn: one power far',[('drawn.rs',DRAWN_CUT,'e.truncate(problem.d[j] + 2);')]),
('drawn: never cut',[('drawn.rs',DRAWN_CUT,'')]),
('drawn: number before reading',[('drawn.rs','    let (problem, answer) = match both(&d.problem, &d.answer) {','    if d.point == u32::MAX { return Ok([16, 2, 0, 0]); }\n    let (problem, answer) = match both(&d.problem, &d.answer) {')]),
('drawn: number m of u tested',[('drawn.rs',DRAWN_READ,'d.u[..(problem.m + 1).min(ROWS)].iter().chain([&d.point])')]),
('drawn: point not tested',[('drawn.rs',DRAWN_READ,'d.u[..problem.m].iter()')]),
('drawn: p taken',[('drawn.rs','**x as u64 >= problem.p','**x as u64 > problem.p')]),
('drawn: point before u',[('drawn.rs',DRAWN_READ,'[&d.point].into_iter().chain(&d.u[..problem.m])')]),
('drawn: first column alone',[('drawn.rs',DRAWN_COLUMNS,'for j in 0..1 {')]),
('drawn: last column alone',[('drawn.rs',DRAWN_COLUMNS,'for j in problem.n - 1..problem.n {')]),
('drawn: last row left out',[('drawn.rs','(0..problem.m).fold(0, |sum, i| {','(0..problem.m - 1).fold(0, |sum, i| {'),('drawn.rs','(0..problem.m).fold(Vec::new(), |sum, i| {','(0..problem.m - 1).fold(Vec::new(), |sum, i| {')]),
('drawn: one power of the point more',[('drawn.rs','(0, 1 % p);','(0, point % p);')]),
]
# the checks of what is made are left out of the wrong makers, and that pivots are independent and rows other than 0
BASE_MAKER = [
    ('maker.rs','    checked(&problem, &made)?;\n',''),
    ('maker.rs','.filter(|n| *n <= 700)?;','.filter(|n| *n == 0)?;'),
    ('maker.rs','return Err("the residuals of the pivots depend on each other".into());','return Ok(None);'),
    ('maker.rs','.expect("a row of a basis has a degree")','.unwrap_or(0)'),
]
BY_DEGREE = 'rows.sort_by_key(|i| (degree(*i), *i));'
ACTIVE = '(0..problem.n).filter(|j| problem.d[*j] > k).collect()'
CUT = 'evidence(&cut(problem, done).as_problem(), &basis)'
DONE = '(steps as usize).min(*problem.d.iter().max().unwrap())'
SUBTRACTED = '''                for (q, c) in pivots.iter().zip(u) {
                    for (e, by) in next[i].iter_mut().zip(&basis[*q]) {'''
PIVOT = '            None => pivots.push(i),'
CLEARED = '''            None => {
                if let Some(&q) = pivots.first() {
                    let j = residual[q].iter().position(|x| *x != 0).unwrap();
                    let c = field::mul(residual[i][j], field::inverse(residual[q][j], p), p);
                    for (e, by) in next[i].iter_mut().zip(&basis[q]) {
                        *e = poly::sub(e, &poly::scaled(by, c, 0, p), p);
                    }
                }
                pivots.push(i)
            }'''
RAISED = '            *e = poly::scaled(e, 1, 1, p);'
NO_ROOM = '        return Ok([14, 0, 0, file.len() as u64]);'
WRITTEN = '    lent[..file.len()].copy_from_slice(&file);'
WRONG_MAKERS = [
('made: ties by larger row number',[('maker.rs',BY_DEGREE,'rows.sort_by_key(|i| (degree(*i), basis.len() - i));')]),
('made: ties to the row of the smallest shift',[('maker.rs',BY_DEGREE,'rows.sort_by_key(|i| (degree(*i), s[*i], *i));')]),
('made: highest degree first',[('maker.rs',BY_DEGREE,'rows.sort_by_key(|i| (-degree(*i), *i));')]),
('made: by row number alone',[('maker.rs',BY_DEGREE,'rows.sort_by_key(|i| (0 * degree(*i), *i));')]),
('made: by the shifts alone',[('maker.rs',BY_DEGREE,'rows.sort_by_key(|i| (0 * degree(*i) + s[*i], *i));')]),
('made: degrees without the shift',[('maker.rs','verdict::row_degree(&basis[i], s)','verdict::row_degree(&basis[i], &vec![0; s.len()])')]),
('made: zero entry of degree 0',[('maker.rs','verdict::row_degree(&basis[i], s)','basis[i].iter().zip(s).map(|(e, s)| (e.len() as i64 - 1).max(0) + s).max()')]),
('made: C of the uncut F',[('maker.rs',CUT,'{ let power = cut(problem, done).d; basis.iter().map(|row| plain::times_f(problem, row)).map(|vf| vf.iter().zip(&power).map(|(e, d)| poly::coefficient(e, *d)).collect()).collect() }')]),
('made: C at the orders as they were',[('maker.rs',CUT,'evidence(problem, &basis)')]),
('made: C zero',[('maker.rs',CUT,'vec![vec![0; problem.n]; problem.m]')]),
('made: one step too many',[('maker.rs','    for k in 0..done {','    for k in 0..done + 1 {')]),
('made: one step too few',[('maker.rs','    for k in 0..done {','    for k in 0..done.max(1) - 1 {')]),
('made: steps from 1',[('maker.rs','step(problem, &basis, k)?','step(problem, &basis, k + 1)?')]),
('made: steps modulo 256',[('maker.rs','steps as usize','steps as u8 as usize')]),
('made: steps signed',[('maker.rs','(steps as usize)','((steps as i32).max(0) as usize)')]),
('made: up to the smallest order',[('maker.rs',DONE,DONE.replace('max()','min()'))]),
('made: as many steps as allowed',[('maker.rs','Ok([0, 0, made.done as u64,','Ok([0, 0, steps as u64 & 65_535,')]),
('made: finished columns still eliminated',[('maker.rs',ACTIVE,'(0..problem.n).collect()')]),
('made: first column alone',[('maker.rs',ACTIVE,'(0..1).filter(|j| problem.d[*j] > k).collect()')]),
('made: only a zero residual depends',[('maker.rs','        match combination(&rows, &residual[i], p)? {','        match combination(&rows, &residual[i], p)?.filter(|_| residual[i].iter().all(|x| *x == 0)) {')]),
('made: added, not subtracted',[('maker.rs','*e = poly::sub(e, &poly::scaled(by, c, 0, p), p);','*e = poly::add(e, &poly::scaled(by, c, 0, p), p);')]),
('made: pivots raised before they are subtracted',[('maker.rs','poly::scaled(by, c, 0, p)','poly::scaled(by, c, 1, p)')]),
('made: last pivot alone subtracted',[('maker.rs',SUBTRACTED,SUBTRACTED.replace('pivots.iter().zip(u)','pivots.iter().zip(u).rev().take(1)'))]),
('made: pivots cleared by the first',[('maker.rs',PIVOT,CLEARED)]),
('made: pivots scaled to residual 1',[('maker.rs',RAISED,'            let c = field::inverse(*residual[i].iter().find(|x| **x != 0).unwrap(), p); *e = poly::scaled(e, c, 1, p);')]),
('made: pivots first',[('maker.rs','    for i in pivots {','    let front: Vec<usize> = pivots.iter().copied().chain((0..next.len()).filter(|i| !pivots.contains(i))).collect();\n    for i in pivots {'),('maker.rs','    Ok(next)\n','    Ok(front.into_iter().map(|i| next[i].clone()).collect())\n')]),
('made: no 14',[('maker.rs',NO_ROOM,'        return Ok([0, 0, made.done as u64, file.len() as u64]);')]),
('made: 14 off by one',[('maker.rs','if lent.len() < file.len()','if lent.len() <= file.len()')]),
('made: 14 with the steps done',[('maker.rs','[14, 0, 0, file','[14, 0, made.done as u64, file')]),
('made: writes before 14',[('maker.rs',NO_ROOM,'        let n = lent.len(); lent.copy_from_slice(&file[..n]);\n'+NO_ROOM)]),
('made: zeroes behind',[('maker.rs',WRITTEN,'    lent.fill(0);\n'+WRITTEN)]),
('made: the longest file needed',[('maker.rs','if lent.len() < file.len()','if lent.len() < 1234')]),
('made: 14 before 1 to 8',[('maker.rs','    let problem = match read::problem(problem_file) {','    if lent.len() < 17 { return Ok([14, 0, 0, 17]); }\n    let problem = match read::problem(problem_file) {')]),
('made: no evidence',[('maker.rs','claim.answer(true).bytes','claim.answer(false).bytes')]),
]
# the same basis: a combination is subtracted from a row, or its opposite added; the whole F, or F cut from the start
SAME_MAKERS = [
('made: the opposite added',[('maker.rs','*e = poly::sub(e, &poly::scaled(by, c, 0, p), p);','*e = poly::add(e, &poly::scaled(by, (p - c) % p, 0, p), p);')]),
('made: F cut from the start',[('maker.rs','basis = step(problem, &basis, k)?','basis = step(&cut(problem, done).as_problem(), &basis, k)?')]),
('made: at most 16 steps',[('maker.rs','(steps as usize)','(steps.min(16) as usize)')]),
]
QUIET = ['top coefficient and leading determinant differ', 'the two ranks differ',
         'the determinant has a power above the degree sum', 'a row of zeros and a determinant other than 0']


def build(edits, place):
    src = os.path.join(place, 'src')
    shutil.rmtree(src, ignore_errors=True)
    shutil.copytree(SOURCE, src)
    for name, old, new in edits:
        path = os.path.join(src, name)
        text = open(path).read()
        if old not in text:
            sys.exit('edit does not apply: ' + old)
        open(path, 'w').write(text.replace(old, new, 1))
    if edits:
        path = os.path.join(src, 'verdict.rs')
        text = open(path).read()
        for message in QUIET:
            text = text.replace('return Err("%s".into());' % message, '{}')
        open(path, 'w').write(text)
    subprocess.run(BUILD + ['--out-dir', place, os.path.join(src, 'main.rs')], check=True)
    return os.path.join(place, 'second')


def said(program, command):
    run = subprocess.run([program] + command, capture_output=True, text=True)
    if run.returncode:
        sys.exit('one of them stops: ' + run.stderr)
    return run.stdout.split('\n')[:-1]


def main():
    seed = sys.argv[1] if len(sys.argv) > 1 else '1'
    count = sys.argv[2] if len(sys.argv) > 2 else '20000'
    words = sys.argv[3:]
    unseen = told_apart = 0
    with tempfile.TemporaryDirectory() as place:
        bundle, drawings, asked = (os.path.join(place, name) for name in ('bundle', 'drawings', 'asked'))
        right = build([], place)
        subprocess.run([right, 'make', '--seed', seed, '--count', count, '--out', bundle], check=True)
        subprocess.run([right, 'draw', '--seed', seed, '--count', str(2 * int(count)), '--out', drawings], check=True)
        subprocess.run([right, 'maker', 'ask', '--seed', seed, '--count', count, '--out', asked], check=True)
        # what a case takes: its lines, the command that says them, what is compared, and what the wrong ones leave out
        judged, made = (3, ['expect', bundle], BASE), (1, ['maker', 'expect', asked], BASE_MAKER)
        drawn = (1, ['drawn', drawings], [])
        kinds = [(judged, WRONG, SAME), (drawn, DRAWN, []), (made, WRONG_MAKERS, SAME_MAKERS)]
        due = {}
        for (lines, command, base), wrong, same_words in kinds:
            for name, edits in wrong + same_words:
                if words and not any(w in name for w in words):
                    continue
                if command[0] not in due:
                    due[command[0]] = said(build([], place), command)
                all_due, got = due[command[0]], said(build(base + edits, place), command)
                differ = sum(all_due[k:k + lines] != got[k:k + lines] for k in range(0, len(all_due), lines))
                same = (name, edits) in same_words
                unseen += not same and differ == 0
                told_apart += same and differ != 0
                print('%-32s %d cases differ%s' % (name, differ, ', as they should' if same and differ == 0 else ''), flush=True)
    print('%d wrong ones not seen, %d told apart that say the same' % (unseen, told_apart))
    sys.exit(1 if unseen or told_apart else 0)


main()
