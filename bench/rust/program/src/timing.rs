//! Times several ways to do the same work, in turns, and prints what each took.

use crate::clock::worked;
use std::hint::black_box;

/// A way to do the work: its name, and the work, which returns a value to check. A way of ours has a name that says so.
pub type Way<'a> = (&'static str, Box<dyn Fn() -> u64 + 'a>);

/// How the names of our ways begin.
const OURS: &str = "ours, ";

/// How long one way is timed in a round, at least, in seconds.
const LEAST: f64 = 0.01;

/// Seconds of so many runs. Every run has to return the expected value.
fn seconds(work: &dyn Fn() -> u64, runs: u32, expected: u64) -> f64 {
    let start = worked();
    for _ in 0..runs {
        assert_eq!(black_box(work()), expected, "an answer changed");
    }
    worked() - start
}

/// What a way took: its name, and the nanoseconds of a run in each round.
pub struct Took {
    name: &'static str,
    times: Vec<f64>,
}

/// From the least to the most.
fn sorted(times: impl Iterator<Item = f64>) -> Vec<f64> {
    let mut times: Vec<f64> = times.collect();
    times.sort_by(f64::total_cmp);
    times
}

fn median(times: impl Iterator<Item = f64>) -> f64 {
    let times = sorted(times);
    times[times.len() / 2]
}

impl Took {
    fn least(&self) -> f64 {
        sorted(self.times.iter().copied())[0]
    }

    fn most(&self) -> f64 {
        sorted(self.times.iter().copied())[self.times.len() - 1]
    }

    fn median(&self) -> f64 {
        median(self.times.iter().copied())
    }

    /// The median of what this way took by what another took in the same round: other work on the machine meets both.
    fn ratio(&self, other: &Took) -> f64 {
        let pairs = self.times.iter().zip(&other.times);
        median(pairs.map(|(own, other)| own / other))
    }
}

/// Times the ways in turns.
fn measure(rounds: usize, expected: u64, ways: &[Way]) -> Vec<Took> {
    let runs: Vec<u32> = ways
        .iter()
        .map(|(_, work)| {
            let mut runs = 1;
            while seconds(work, runs, expected) < LEAST {
                runs *= 2;
            }
            runs
        })
        .collect();
    let mut took: Vec<Took> = ways
        .iter()
        .map(|&(name, _)| Took {
            name,
            times: Vec::new(),
        })
        .collect();
    for round in 0..rounds {
        for turn in 0..ways.len() {
            let way = (round + turn) % ways.len();
            let each = seconds(&ways[way].1, runs[way], expected) / f64::from(runs[way]);
            took[way].times.push(each * 1e9);
        }
    }
    took
}

/// What one way took by what another took, in a line.
fn ratio_line(input: &str, one: &Took, other: &Took) -> String {
    format!(
        "{input:<40}{:<24}{:>7.2} of {:<26}{:>7.2}",
        one.name,
        one.ratio(other),
        other.name,
        one.least() / other.least(),
    )
}

/// What the program prints, and the lines that are kept for its end.
pub struct Report {
    rounds: usize,
    ratios: Vec<String>,
    growth: Vec<String>,
}

impl Report {
    pub fn new(rounds: usize) -> Report {
        Report {
            rounds,
            ratios: Vec::new(),
            growth: Vec::new(),
        }
    }

    /// Prints, for each way, nanoseconds per unit and millions of units a second.
    pub fn compare(&mut self, input: &str, unit: &str, units: usize, expected: u64, ways: &[Way]) {
        let took = measure(self.rounds, expected, ways);
        println!("{input}, {unit}:");
        for took in &took {
            let each = |time: f64| time / units as f64;
            println!(
                "  {:<28}{:>9.3} ns  {:>9.3} to {:<9.3}{:>10.1} M/s",
                took.name,
                each(took.median()),
                each(took.least()),
                each(took.most()),
                1e3 / each(took.median()),
            );
        }
        self.keep(input, &took);
    }

    /// Prints, for each way, nanoseconds per run, runs a second and nanoseconds per element. Each run returns 1.
    pub fn compare_whole(
        &mut self,
        input: &str,
        unit: &str,
        elements: u64,
        ways: &[Way],
    ) -> Vec<Took> {
        let took = measure(self.rounds, 1, ways);
        println!("{input}, {unit}:");
        for took in &took {
            println!(
                "  {:<28}{:>9.0} ns  {:>9.0} to {:<9.0}{:>10.0} /s{:>10.2} ns an element",
                took.name,
                took.median(),
                took.least(),
                took.most(),
                1e9 / took.median(),
                took.median() / elements as f64,
            );
        }
        self.keep(input, &took);
        took
    }

    /// Prints, for each way, nanoseconds per question and questions a second. Each run asks them all and returns how
    /// many there are.
    pub fn compare_questions(&mut self, input: &str, unit: &str, questions: usize, ways: &[Way]) {
        let took = measure(self.rounds, questions as u64, ways);
        println!("{input}, {unit}:");
        for took in &took {
            let each = |time: f64| time / questions as f64;
            println!(
                "  {:<28}{:>9.0} ns  {:>9.0} to {:<9.0}{:>10.0} /s",
                took.name,
                each(took.median()),
                each(took.least()),
                each(took.most()),
                1e9 / each(took.median()),
            );
        }
        self.keep(input, &took);
    }

    /// Prints, for each way, nanoseconds per question and questions a second. Each run asks one and returns 1. All ways
    /// are ours, and the ratios are those to the first.
    pub fn compare_ours(&mut self, input: &str, unit: &str, ways: &[Way]) -> Vec<Took> {
        let took = measure(self.rounds, 1, ways);
        println!("{input}, {unit}:");
        for took in &took {
            println!(
                "  {:<28}{:>9.1} ns  {:>9.1} to {:<9.1}{:>10.0} /s",
                took.name,
                took.median(),
                took.least(),
                took.most(),
                1e9 / took.median(),
            );
        }
        for other in &took[1..] {
            self.ratios.push(ratio_line(input, other, &took[0]));
        }
        took
    }

    /// Keeps the ratios: each way of ours by each other.
    fn keep(&mut self, input: &str, took: &[Took]) {
        let (ours, others): (Vec<&Took>, Vec<&Took>) =
            took.iter().partition(|took| took.name.starts_with(OURS));
        for other in others {
            for ours in &ours {
                self.ratios.push(ratio_line(input, ours, other));
            }
        }
    }

    /// Keeps what each way takes for an element, or for a header, from size to size.
    pub fn grow(&mut self, input: &str, sizes: &[usize], took: &[Vec<Took>]) {
        for (way, first) in took[0].iter().enumerate() {
            let mut line = format!("{input:<24}{:<26}", first.name);
            for (took, &size) in took.iter().zip(sizes) {
                let each = |time: f64| time / size as f64;
                let took = &took[way];
                let (median, least) = (each(took.median()), each(took.least()));
                line += &format!("{size:>8}: {median:>5.1} ({least:.1})");
            }
            self.growth.push(line);
        }
    }

    /// Prints the lines that were kept.
    pub fn end(&self) {
        println!("Growth: nanoseconds for an element, or for a header looked at, by the median, and by the least.");
        for line in &self.growth {
            println!("  growth {line}");
        }
        println!("Ratios: our time by the other's in the same round, the median, and our least by its least.");
        println!("Of an address all ways are ours: whose_byte and owner_chain by owner.");
        for line in &self.ratios {
            println!("  ratio {line}");
        }
    }
}
