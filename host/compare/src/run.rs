//! A run over many inputs, on all cores, and its tallies.

use crate::check::{Verdict, SPECIAL};
use crate::input::{Input, CALCULATIONS};
use crate::random::Random;
use std::fmt;
use std::ops::Range;
use std::panic::{catch_unwind, AssertUnwindSafe};
use std::thread;

/// How many disagreements are written out; the others are counted.
const SHOWN: usize = 3;

/// The refusals' numbers.
const REFUSALS: Range<usize> = 1..17;

/// How many calculations are tallied.
const KINDS: usize = CALCULATIONS.len();

/// How an answer is judged.
pub type Check<'a> = &'a (dyn Fn(&Input) -> Verdict + Sync);

/// What is asked and how an answer is judged.
pub struct Run<'a> {
    pub seed: u64,
    pub make: fn(&mut Random) -> Input,
    pub check: Check<'a>,
}

/// What came of a run.
#[derive(Default)]
pub struct Tally {
    asked: [u64; KINDS],
    accepted: [u64; KINDS],
    special: [u64; KINDS],
    refused: [u64; REFUSALS.end],
    disagreed: u64,
    /// Index and words of the first disagreements.
    shown: Vec<(u64, String)>,
}

impl Run<'_> {
    /// Asks the inputs of these indices.
    pub fn over(&self, indices: Range<u64>) -> Tally {
        let workers = thread::available_parallelism().map_or(1, |count| count.get());
        thread::scope(|scope| {
            let started: Vec<_> = (0..workers)
                .map(|worker| {
                    let own = indices.clone().skip(worker).step_by(workers);
                    scope.spawn(move || self.one_after_another(own))
                })
                .collect();
            let mut tally = Tally::default();
            for worker in started {
                tally.join(worker.join().expect("a worker catches what panics"));
            }
            tally
        })
    }

    fn one_after_another(&self, indices: impl Iterator<Item = u64>) -> Tally {
        let mut tally = Tally::default();
        for index in indices {
            let input = (self.make)(&mut Random::new(self.seed, index));
            let verdict = catch_unwind(AssertUnwindSafe(|| (self.check)(&input)));
            let verdict = verdict.unwrap_or_else(|_| Verdict {
                refused: None,
                special: false,
                held: Err("should be: an answer, not a panic".to_string()),
            });
            tally.count(&input, &verdict);
            if let Err(why) = verdict.held {
                tally.disagree(
                    index,
                    format!("seed {}, index {index}\n{input}\n{why}\n", self.seed),
                );
            }
        }
        tally
    }
}

impl Tally {
    fn count(&mut self, input: &Input, verdict: &Verdict) {
        let calculation = input.calculation();
        self.asked[calculation] += 1;
        self.special[calculation] += u64::from(verdict.special);
        match verdict.refused {
            None => self.accepted[calculation] += 1,
            Some(number) => self.refused[usize::from(number)] += 1,
        }
    }

    fn disagree(&mut self, index: u64, words: String) {
        self.disagreed += 1;
        if self.shown.len() < SHOWN {
            self.shown.push((index, words));
        }
    }

    /// Takes in another tally.
    pub fn join(&mut self, other: Tally) {
        fn add<const N: usize>(sums: &mut [u64; N], more: [u64; N]) {
            sums.iter_mut()
                .zip(more)
                .for_each(|(sum, more)| *sum += more);
        }
        add(&mut self.asked, other.asked);
        add(&mut self.accepted, other.accepted);
        add(&mut self.special, other.special);
        add(&mut self.refused, other.refused);
        self.disagreed += other.disagreed;
        self.shown.extend(other.shown);
        self.shown.sort();
        self.shown.truncate(SHOWN);
    }

    /// Whether all answers agreed.
    pub fn agreed(&self) -> bool {
        self.disagreed == 0
    }

    /// Those of these refusals, and of the special results of what was asked, that never came.
    pub fn missing(&self, numbers: &[usize]) -> Vec<String> {
        let refusals = numbers
            .iter()
            .filter(|&&number| self.refused[number] == 0)
            .map(|number| format!("refusal {number}"));
        let special = (0..SPECIAL.len())
            .filter(|&i| self.asked[i] > 0 && self.special[i] == 0)
            .map(|i| format!("{} with {}", CALCULATIONS[i], SPECIAL[i]));
        refusals.chain(special).collect()
    }
}

impl fmt::Display for Tally {
    fn fmt(&self, f: &mut fmt::Formatter<'_>) -> fmt::Result {
        for (i, name) in CALCULATIONS.iter().enumerate() {
            let (asked, accepted, special) = (self.asked[i], self.accepted[i], self.special[i]);
            if asked > 0 {
                let refused = asked - accepted;
                write!(
                    f,
                    "{name:16} {asked:9} asked, {accepted:9} accepted, {refused:9} refused"
                )?;
                writeln!(f, ", {special:7} with {}", SPECIAL[i])?;
            }
        }
        write!(f, "refusals by number:")?;
        for number in REFUSALS {
            match self.refused[number] {
                0 => {}
                times => write!(f, " {number}: {times};")?,
            }
        }
        writeln!(f)?;
        for (_, words) in &self.shown {
            write!(f, "\nDISAGREEMENT\n{words}")?;
        }
        let asked: u64 = self.asked.iter().sum();
        write!(f, "{asked} inputs, {} disagreements", self.disagreed)
    }
}
