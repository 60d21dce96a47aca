//! Rounds, minima and their spread.

use std::fmt::Debug;
use std::hint::black_box;
use std::time::Instant;

pub struct Race {
    pub rounds: usize,
    /// Only the rows whose name has this word.
    pub only: Option<String>,
    lowest: f64,
    rows: usize,
}

/// How long one round lasts at least on each side: shorter work is repeated.
const SHORTEST: f64 = 400e-6;

impl Race {
    pub fn new() -> Self {
        println!("| Row | What | Rust ns | ours ns | ratio | rounds' ratios |");
        println!("|---|---|---:|---:|---:|---|");
        Self { rounds: 25, only: None, lowest: f64::INFINITY, rows: 0 }
    }

    /// Times a row: `count` is what a time is divided by.
    pub fn row<A: PartialEq + Debug>(
        &mut self,
        name: &str,
        what: &str,
        count: usize,
        mut theirs: impl FnMut() -> A,
        mut ours: impl FnMut() -> A,
    ) {
        if self.only.as_ref().is_some_and(|word| !format!("{name} {what}").contains(word.as_str())) {
            return;
        }
        assert_eq!(theirs(), ours(), "{name}, {what}: the two sides differ");
        let repeats = repeats(&mut theirs).max(repeats(&mut ours));
        let mut times = Vec::with_capacity(self.rounds);
        for round in 0..self.rounds {
            times.push(if round % 2 == 0 {
                let rust = time(&mut theirs, repeats);
                (rust, time(&mut ours, repeats))
            } else {
                let proved = time(&mut ours, repeats);
                (time(&mut theirs, repeats), proved)
            });
        }
        let each = 1e9 / (repeats * count) as f64;
        let rust = times.iter().map(|pair| pair.0).fold(f64::INFINITY, f64::min) * each;
        let proved = times.iter().map(|pair| pair.1).fold(f64::INFINITY, f64::min) * each;
        let mut ratios: Vec<f64> = times.iter().map(|pair| pair.0 / pair.1).collect();
        ratios.sort_by(f64::total_cmp);
        let at = |part: usize| ratios[(ratios.len() - 1) * part / 10];
        let ratio = rust / proved;
        self.lowest = self.lowest.min(ratio);
        self.rows += 1;
        println!(
            "| {name} | {what} | {rust:.2} | {proved:.2} | **{ratio:.2}** | {:.2} {:.2} {:.2} |",
            at(1),
            at(5),
            at(9)
        );
    }

    pub fn close(&self) {
        println!();
        println!("{} rows, {} rounds each; the lowest ratio is {:.2}.", self.rows, self.rounds, self.lowest);
    }
}

fn time<A>(work: &mut impl FnMut() -> A, repeats: usize) -> f64 {
    let start = Instant::now();
    for _ in 0..repeats {
        black_box(work());
    }
    start.elapsed().as_secs_f64()
}

fn repeats<A>(work: &mut impl FnMut() -> A) -> usize {
    let mut count = 1;
    loop {
        let took = time(work, count);
        if took >= SHORTEST {
            return count;
        }
        count = (count * 2).max((count as f64 * SHORTEST / took.max(1e-9)) as usize).min(count * 10);
    }
}
