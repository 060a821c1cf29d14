//! The same as library_trips.c by the crate mte-tool.
use mte_tool::{check_fit_history, check_fit_timeline, check_profile, fit_history, fit_timeline, tune_profile};
use mte_tool::{Error, History, Options, Profile, Table, Timeline, Verdict};
use std::fmt::Display;
use std::io::Read;

fn listed(numbers: &[impl Display]) -> String {
    numbers.iter().map(|number| format!(" {number}")).collect()
}

fn trip(tuned: Result<Table, Error>, check: impl Fn(&Table) -> Result<Verdict, Error>) -> Result<String, Error> {
    let mut table = tuned?;
    let (end, bytes, bound) = (u8::from(!table.is_least), table.bytes, table.bound);
    let mut line = format!("{end} {bytes} {bound} classes{}", listed(&table.classes));
    if table.is_least {
        line += &format!(" rows{} moments{} checks", listed(&table.rows), listed(&table.moments));
        for _ in 0..2 {
            line += &match check(&table)? {
                Verdict::Optimal => " 0 0".to_string(),
                Verdict::Refused(code) => format!(" 1 {}", code.number()),
            };
            table.bytes += 1;
        }
    }
    Ok(line)
}

fn main() -> Result<(), Box<dyn std::error::Error>> {
    let mut text = String::new();
    std::io::stdin().read_to_string(&mut text)?;
    for line in text.lines() {
        let numbers = line.split(' ').map(str::parse).collect::<Result<Vec<u32>, _>>()?;
        let (head, rest) = numbers.split_at(6);
        let options = Options::new(head[1].into()).step(head[2].into()).largest_class(head[3] == 1);
        let (sizes, counts) = rest.split_at(head[5] as usize);
        let frees = counts.iter().map(|count| u8::from(*count > 0)).collect::<Vec<u8>>();
        let profile = Profile { sizes, counts };
        let history = History { sizes, counts, snapshots: head[4] as usize };
        let timeline = Timeline { sizes, frees: &frees };
        let said = match head[0] {
            0 => trip(tune_profile(profile, &options), |table| check_profile(table, profile, &options)),
            1 => trip(fit_history(history, &options), |table| check_fit_history(table, history, &options)),
            _ => trip(fit_timeline(timeline, &options), |table| check_fit_timeline(table, timeline, &options)),
        };
        println!("{}", said?);
    }
    Ok(())
}
