//! The options of the commands. Written by scripts/tests/formats from scripts/mte_scripts/formats.py.

/// An option: its name, its range, and its number where it is left out.
pub struct Number {
    pub name: &'static str,
    pub least: u64,
    pub most: u64,
    pub default: Option<u64>,
}

pub const NUMBERS: [Number; 8] = [
    Number {
        name: "--granules",
        least: 64,
        most: 262_144,
        default: Some(65_536),
    },
    Number {
        name: "--quarantine",
        least: 0,
        most: 4_194_304,
        default: Some(65_536),
    },
    Number {
        name: "--seed",
        least: 1,
        most: 65_535,
        default: Some(1),
    },
    Number {
        name: "--limit",
        least: 1,
        most: 32,
        default: None,
    },
    Number {
        name: "--step",
        least: 1,
        most: 8,
        default: Some(1),
    },
    Number {
        name: "--largest-class",
        least: 0,
        most: 1,
        default: Some(0),
    },
    Number {
        name: "--claim",
        least: 0,
        most: 1,
        default: Some(0),
    },
    Number {
        name: "--first-lines",
        least: 0,
        most: 64,
        default: Some(0),
    },
];

/// The names of the options of a command.
pub fn options_of(command: &str) -> &'static [&'static str] {
    match command {
        "score" | "footprint" | "peaks" => &["--first-lines"],
        "tune" | "fit" => &["--limit", "--step", "--largest-class"],
        "check" | "check-fit" => &["--claim", "--first-lines"],
        "profile" => &[],
        "replay" => &["--granules", "--quarantine", "--seed"],
        "run" => &["--limit", "--step", "--granules", "--quarantine", "--seed"],
        _ => &[],
    }
}
