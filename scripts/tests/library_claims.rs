//! The same as library_claims.cpp by the crate mte-tool.
use mte_tool::{check_claim, check_fit_claim, CheckAnswer, Claim, Counts, Error};
use std::io::Read;

fn text_of(digits: &str) -> Result<Vec<u8>, std::num::ParseIntError> {
    let digits = digits.trim_end_matches('.');
    (0..digits.len()).step_by(2).map(|at| u8::from_str_radix(&digits[at..at + 2], 16)).collect()
}

fn numbers_of(claim: &Claim) -> Vec<u64> {
    let mut numbers = vec![0, claim.cost, claim.limit, claim.step, claim.forced.unwrap_or(0), 0, 0, 0, 0, 0, 0];
    match claim.counted {
        Counts::Profile { sizes, requests, bytes, large, .. } => {
            numbers[0] = 1;
            numbers[5..9].copy_from_slice(&[sizes, requests, bytes, large]);
        }
        Counts::History(snapshots) => (numbers[0], numbers[9]) = (2, snapshots),
        Counts::Timeline(events) => (numbers[0], numbers[10]) = (3, events),
        _ => {}
    }
    numbers
}

fn line_of(checked: Result<CheckAnswer, Error>) -> String {
    match checked {
        Ok(CheckAnswer::Optimal(claim)) => {
            let numbers: String = numbers_of(&claim).iter().map(|number| format!("{number} ")).collect();
            format!("{numbers}|{claim}")
        }
        Ok(CheckAnswer::Refused(code)) => format!("refused {}", code.number()),
        Err(error) => {
            let line = if error.line > 0 { format!(" {}", error.line) } else { String::new() };
            format!("error {}{line}", error.code.map_or(0, mte_tool::Code::number))
        }
    }
}

fn main() -> Result<(), Box<dyn std::error::Error>> {
    let mut text = String::new();
    std::io::stdin().read_to_string(&mut text)?;
    for line in text.lines() {
        let words: Vec<&str> = line.split(' ').collect();
        let check = if words[0] == "check" { check_claim } else { check_fit_claim };
        println!("{}", line_of(check(&text_of(words[1])?, &text_of(words[2])?)));
    }
    Ok(())
}
