//! Times this program on the cases of bench/cases.txt, read from standard input
//! without their comments, for bench/run. A line for each: name, microseconds, and
//! the exact value in millionths: share and rise; the largest heating sum T of a factor;
//! the share G of a current. A trench is a rise with neighbours.

use second::{current, factor, long_sheet, rise, share, sheet, Cable, Refusal};
use std::hint::black_box;
use std::io::Read;
use std::time::Instant;

/// As in bench/bench.h: the best of so many runs, each at least so long.
const RUNS: usize = 5;
const RUN_SECONDS: f64 = 0.25;

fn run(work: &dyn Fn() -> f64, count: u64) -> f64 {
    let from = Instant::now();
    for _ in 0..count {
        black_box(work());
    }
    from.elapsed().as_secs_f64()
}

/// Microseconds a call.
fn microseconds(work: &dyn Fn() -> f64) -> f64 {
    let mut count = 1;
    let mut best = run(work, count);
    while best < RUN_SECONDS {
        count *= 2;
        best = run(work, count);
    }
    for _ in 1..RUNS {
        best = best.min(run(work, count));
    }
    1e6 * best / count as f64
}

/// The words of a case, one after another.
struct Words<'a>(std::str::SplitWhitespace<'a>);

impl Words<'_> {
    fn number(&mut self) -> u32 {
        let word = self.0.next().expect("a case cut short");
        word.parse().expect("a whole number")
    }

    fn small(&mut self) -> u16 {
        self.number() as u16
    }

    fn cable(&mut self) -> Cable {
        let [d, l, s, k, w, fast, slow, rated] = std::array::from_fn(|_| self.number());
        Cable {
            d,
            l,
            s,
            k,
            w,
            fast,
            slow,
            rated,
        }
    }

    /// An offset in two's complement: it may have a minus sign.
    fn offset(&mut self) -> u16 {
        let word = self.0.next().expect("a case cut short");
        word.parse::<i16>().expect("a whole number") as u16
    }

    /// The records of a rise's sheet, in the order of its chain.
    fn records(&mut self) -> Vec<(u16, u16, u16)> {
        let steps = self.small();
        let next = |i| if i < steps { i + 1 } else { 0 };
        (1..=steps)
            .map(|i| (self.small(), self.small(), next(i)))
            .collect()
    }

    /// The records of neighbours, which stand behind so many steps.
    fn neighbours(&mut self, steps: u16) -> Vec<(u16, u16, u16)> {
        let last = steps + self.small();
        let next = |i| if i < last { i + 1 } else { 0 };
        (steps + 1..=last)
            .map(|i| (self.offset(), self.small(), next(i)))
            .collect()
    }

    /// The sheet of a rise, with neighbours or without.
    fn sheet(&mut self, c: &Cable, trench: bool) -> Vec<u8> {
        let start = self.small();
        let mut records = self.records();
        let steps = records.len() as u16;
        let first = u16::from(steps > 0);
        if !trench {
            return sheet(c, start, first, &records);
        }
        records.extend(self.neighbours(steps));
        let second = if records.len() as u16 > steps {
            steps + 1
        } else {
            0
        };
        long_sheet(c, start, first, second, &records)
    }
}

/// Its inputs are taken through black_box, so that no call is worked out beforehand.
fn work_of(question: &str, words: &mut Words) -> Box<dyn Fn() -> f64> {
    fn met<T>(answer: Result<T, Refusal>) -> T {
        answer.expect("no refusal")
    }
    let c = words.cable();
    match question {
        "share" => {
            let minutes = words.number();
            Box::new(move || met(share(black_box(&c), black_box(minutes))))
        }
        "rise" | "trench" => {
            let bytes = words.sheet(&c, question == "trench");
            Box::new(move || met(rise(black_box(&bytes))).exact_millionths)
        }
        "factor" => {
            let hours: [u16; 24] = std::array::from_fn(|_| words.small());
            Box::new(move || met(factor(black_box(&c), black_box(&hours))).sum_millionths)
        }
        "current" => {
            let [h, r, minutes] = std::array::from_fn(|_| words.number());
            Box::new(move || {
                let answer = met(current(
                    black_box(&c),
                    black_box(h),
                    black_box(r),
                    black_box(minutes),
                ));
                black_box(answer.exact_amperes);
                answer.share_millionths
            })
        }
        other => panic!("unknown question {other}"),
    }
}

fn main() {
    let mut text = String::new();
    std::io::stdin()
        .read_to_string(&mut text)
        .expect("readable cases");
    let mut words = Words(text.split_whitespace());
    while let Some(name) = words.0.next() {
        let question = words.0.next().expect("a question");
        let work = work_of(question, &mut words);
        // The README's error of a rise is 6e-6; it says to leave 1e-4.
        println!("{name} {:.4} {:.6} 0.0001", microseconds(&*work), work());
    }
}
