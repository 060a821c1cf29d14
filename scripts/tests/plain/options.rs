//! The options of the command line: `--NAME N` or `--NAME=N` for each, in any order.

use crate::faults::{Fault, BAD_OPTION};
use crate::formats::{options_of, Number, NUMBERS};
use crate::heap::Settings;
use std::iter::Peekable;

/// The option of `events`.
const SEED_OF_EVENTS: Number = Number {
    name: "--seed",
    least: 1,
    most: u64::MAX,
    default: Some(1),
};

/// The option that may stand without its number.
const CLAIM: &str = "--claim";

pub struct Options {
    numbers: Vec<&'static Number>,
    given: Vec<(&'static str, u64)>,
}

/// Whether a word asks for help.
pub fn is_help(word: &str) -> bool {
    word == "--help" || word.starts_with("-h")
}

impl Options {
    /// The words after a command, or nothing where they ask for help before one is refused.
    pub fn new(
        command: &str,
        words: impl Iterator<Item = String>,
    ) -> Result<Option<Options>, Fault> {
        let mut words = words.peekable();
        let names = options_of(command);
        let of_command = NUMBERS.iter().filter(|it| names.contains(&it.name));
        let mut options = Options {
            numbers: match command {
                "events" => vec![&SEED_OF_EVENTS],
                _ => of_command.collect(),
            },
            given: Vec::new(),
        };
        while let Some(word) = words.next() {
            if is_help(&word) {
                return Ok(None);
            }
            if word == "--" {
                return words
                    .next()
                    .map_or(Ok(Some(options)), |word| no_place(&word));
            }
            let (name, value) = match word.split_once('=') {
                Some((name, value)) => (name, Some(value.to_string())),
                None => (word.as_str(), None),
            };
            let number = match options.numbers.iter().find(|it| it.name == name) {
                Some(number) => *number,
                None => return no_place(name),
            };
            if options.given(name).is_some() {
                return Err(Fault::Words(format!("{name} is there twice")));
            }
            let value = value.or_else(|| next_value(number, &mut words));
            let value = value.unwrap_or_default().parse().ok();
            options.given.push((number.name, in_range(number, value)?));
        }
        Ok(Some(options))
    }

    /// The most classes of a table.
    pub fn limit(&self) -> Result<usize, Fault> {
        Ok(self.number_of("--limit")? as usize)
    }

    /// What each class is a multiple of, in granules.
    pub fn step(&self) -> Result<u32, Fault> {
        let step = self.number_of("--step")?;
        if step.is_power_of_two() {
            Ok(step as u32)
        } else {
            Err(BAD_OPTION)
        }
    }

    /// Whether the table must have class 1024.
    pub fn largest_class(&self) -> Result<bool, Fault> {
        Ok(self.number_of("--largest-class")? == 1)
    }

    /// Whether `check` and `check-fit` say what they showed.
    pub fn claim(&self) -> Result<bool, Fault> {
        Ok(self.number_of(CLAIM)? == 1)
    }

    /// How many lines the first of two texts has, or 0 where its form says it.
    pub fn first_lines(&self) -> Result<usize, Fault> {
        Ok(self.number_of("--first-lines")? as usize)
    }

    /// The seed of the events.
    pub fn seed(&self) -> Result<u64, Fault> {
        self.number_of("--seed")
    }

    /// What the heap is made with.
    pub fn heap(&self) -> Result<Settings, Fault> {
        Ok(Settings {
            granules: self.number_of("--granules")? as u32,
            seed: self.number_of("--seed")? as u16,
            quarantine: self.number_of("--quarantine")?,
        })
    }

    /// The number of the command's option of this name.
    pub fn number_of(&self, name: &str) -> Result<u64, Fault> {
        let it = self.numbers.iter().find(|it| it.name == name);
        let it = it.expect("the command has this option");
        in_range(it, self.given(name).or(it.default))
    }

    fn given(&self, name: &str) -> Option<u64> {
        let found = self.given.iter().find(|(other, _)| *other == name);
        found.map(|(_, number)| *number)
    }
}

// the word after an option; `--claim` may stand alone
fn next_value(
    number: &Number,
    words: &mut Peekable<impl Iterator<Item = String>>,
) -> Option<String> {
    if number.name == CLAIM && words.peek().map_or(true, |word| word.starts_with('-')) {
        return Some("1".to_string());
    }
    words.next()
}

fn no_place<T>(word: &str) -> Result<T, Fault> {
    Err(Fault::Words(format!("there is no argument {word:?} here")))
}

// the number of an option, where there is one in its range
fn in_range(it: &Number, number: Option<u64>) -> Result<u64, Fault> {
    number
        .filter(|n| (it.least..=it.most).contains(n))
        .ok_or_else(|| {
            let (name, least, most) = (it.name, it.least, it.most);
            Fault::Words(format!("{name} wants a number from {least} to {most}"))
        })
}
