//! Answers one question per line of standard input, for compare.py. A line is a
//! word, a sheet's bytes in hexadecimal, and whole numbers:
//! share: minutes; factor: 24 hours; current: h, r, minutes; rise: none.
//! Of a factor it tells the largest heating sum T and the hour of it.

use second::{current_in_sheet, factor_in_sheet, rise, share_in_sheet, Refusal};
use std::io::BufRead;

/// The bytes that hexadecimal digits stand for.
fn bytes(digits: &str) -> Vec<u8> {
    let byte = |at: usize| u8::from_str_radix(&digits[at..at + 2], 16).expect("hexadecimal");
    (0..digits.len()).step_by(2).map(byte).collect()
}

fn answer(question: &str, sheet: &[u8], v: &[u32]) -> Result<String, Refusal> {
    match question {
        "share" => share_in_sheet(sheet, v[0]).map(|g| format!("{g:e}")),
        "factor" => factor_in_sheet(sheet, &std::array::from_fn(|i| v[i] as u16))
            .map(|f| format!("{:e} {}", f.sum_millionths, f.reference_hour)),
        "current" => current_in_sheet(sheet, v[0], v[1], v[2])
            .map(|a| format!("{:e} {:e}", a.exact_amperes, a.share_millionths)),
        "rise" => rise(sheet).map(|r| {
            format!(
                "{:e} {} {} {} {}",
                r.exact_millionths, r.changes, r.rated, r.steps, r.neighbours
            )
        }),
        other => panic!("unknown question {other}"),
    }
}

fn main() {
    for line in std::io::stdin().lock().lines() {
        let line = line.expect("readable line");
        let mut words = line.split_whitespace();
        let question = words.next().unwrap_or("");
        let sheet = bytes(words.next().unwrap_or(""));
        let v: Vec<u32> = words.map(|w| w.parse().expect("whole number")).collect();
        match answer(question, &sheet, &v) {
            Ok(text) => println!("{text}"),
            Err(refusal) => println!("refused {} {:?}", refusal.number, refusal.place),
        }
    }
}
