// The benchmark of crates/bench again, in plain Rust with nothing proved: the same questions, elimination and
// verification, and so the same output. `bench/compare` builds and runs both.
use std::time::Instant;

const QUESTIONS: u32 = 4000;
const MOST_ROWS: usize = 128;

#[derive(Clone, Copy)]
struct Row {
    coefs: [i32; 16],
    bound: i32,
}

#[derive(Clone, Copy)]
struct Derived {
    coefs: [i32; 16],
    bound: i32,
    times: [u32; 25],
}

fn gcd(mut x: u64, mut y: u64) -> u64 {
    while y != 0 {
        (x, y) = (y, x % y);
    }
    x
}

fn narrow(z: i64) -> Option<i32> {
    (z.abs() <= 4_000_000).then_some(z as i32)
}

fn combined(q: usize, p: &Derived, m: &Derived) -> Option<Derived> {
    let a = -i64::from(m.coefs[q]);
    let b = i64::from(p.coefs[q]);
    let blend = |x: i64, y: i64| a * x + b * y;
    let mut wide = [0u64; 25];
    for i in 0..25 {
        wide[i] = blend(p.times[i].into(), m.times[i].into()) as u64;
    }
    let g = wide.iter().fold(0, |g, x| gcd(g, *x)).max(1);
    let mut coefs = [0; 16];
    for j in 0..16 {
        coefs[j] = narrow(blend(p.coefs[j].into(), m.coefs[j].into()) / g as i64)?;
    }
    let bound = narrow(blend(p.bound.into(), m.bound.into()) / g as i64)?;
    let mut times = [0; 25];
    for i in 0..25 {
        let n = wide[i] / g;
        if n > 1_000_000 {
            return None;
        }
        times[i] = n as u32;
    }
    Some(Derived { coefs, bound, times })
}

fn eliminate(q: usize, rows: &[Derived]) -> Option<Vec<Derived>> {
    let mut next: Vec<Derived> = Vec::with_capacity(MOST_ROWS);
    next.extend(rows.iter().filter(|r| r.coefs[q] == 0));
    for p in rows.iter().filter(|r| r.coefs[q] > 0) {
        for m in rows.iter().filter(|r| r.coefs[q] < 0) {
            let row = combined(q, p, m)?;
            if next.len() == MOST_ROWS {
                return None;
            }
            next.push(row);
        }
    }
    Some(next)
}

fn original(i: usize, row: &Row) -> Derived {
    let mut times = [0; 25];
    times[i] = 1;
    Derived { coefs: row.coefs, bound: row.bound, times }
}

fn propose(facts: &[Row], goal: &Row) -> Option<Vec<u32>> {
    let mut rows: Vec<Derived> = facts.iter().enumerate().map(|(i, r)| original(i, r)).collect();
    let negated = Row { coefs: goal.coefs.map(|c| -c), bound: narrow(-i64::from(goal.bound) - 1)? };
    rows.push(original(facts.len(), &negated));
    for q in 0..16 {
        rows = eliminate(q, &rows)?;
    }
    let row = rows.iter().find(|r| r.bound < 0)?;
    Some(row.times[..=facts.len()].to_vec())
}

fn verify(facts: &[Row], goal: &Row, certificate: &[u32]) -> bool {
    let total = |entry: &dyn Fn(&Row) -> i64, last: i64| {
        let weighted = facts.iter().zip(certificate).map(|(r, m)| i64::from(*m) * entry(r)).sum::<i64>();
        weighted + i64::from(certificate[facts.len()]) * last
    };
    certificate.len() == facts.len() + 1
        && certificate.iter().all(|m| *m <= 1_000_000)
        && (0..16).all(|j| total(&|r| r.coefs[j].into(), -i64::from(goal.coefs[j])) == 0)
        && total(&|r| r.bound.into(), -i64::from(goal.bound) - 1) < 0
}

struct Sample {
    state: u32,
}

impl Sample {
    fn below(&mut self, n: u32) -> u32 {
        self.state = self.state.wrapping_mul(1_664_525).wrapping_add(1_013_904_223);
        (self.state >> 16) % n
    }

    fn row(&mut self, quantities: u32) -> Row {
        let up = self.below(quantities) as usize;
        let down = self.below(quantities) as usize;
        let mut coefs = [0; 16];
        coefs[up] = self.below(3) as i32 + 1;
        coefs[down] = -(self.below(3) as i32) - 1;
        Row { coefs, bound: self.below(16) as i32 - 4 }
    }
}

fn measure(facts: usize, quantities: u32) {
    let start = Instant::now();
    let mut sample = Sample { state: 1 };
    let (mut proposed, mut good, mut sum) = (0, 0, 0u64);
    for _ in 0..QUESTIONS {
        let rows: Vec<Row> = (0..facts).map(|_| sample.row(quantities)).collect();
        let goal = sample.row(quantities);
        let Some(certificate) = propose(&rows, &goal) else { continue };
        proposed += 1;
        sum += certificate.iter().map(|m| u64::from(*m)).sum::<u64>();
        good += u32::from(verify(&rows, &goal, &certificate));
    }
    let each = start.elapsed().as_nanos() / u128::from(QUESTIONS);
    println!("{facts} facts, {quantities} quantities: {QUESTIONS} asked, {proposed} proposed, {good} good, sum {sum}");
    eprintln!("{facts} facts, {quantities} quantities: {each} ns each, {} a second", 1_000_000_000 / each.max(1));
}

fn main() {
    measure(4, 2);
    measure(12, 3);
    measure(16, 8);
    measure(24, 16);
}
