//! Faults: their codes and texts, and where an input is faulty.
//!
//! The readers of the other files say only that a text is faulty. It is then read here once more,
//! line by line, for the first faulty line and its code.

use crate::history::MOST_SNAPSHOTS;
use crate::profile::{GREATEST_COUNT, LARGEST};
use crate::sheet::{MOST_IN_ROW, MOST_ROWS};
use crate::timeline::TIMELINE;
use std::fmt::{Display, Formatter, Result as Written};

pub enum Fault {
    /// Refused words of the command line.
    Words(String),
    Plain(u8, &'static str),
    /// With the number of the faulty line.
    InLine(u8, &'static str, usize),
}

pub const OUT_OF_MEMORY: Fault = Fault::Plain(1, "OutOfMemory");
pub const INPUT_TOO_LONG: Fault = Fault::Plain(80, "InputTooLong");
pub const READ_FAULT: Fault = Fault::Plain(81, "ReadFault");
pub const WRITE_FAULT: Fault = Fault::Plain(82, "WriteFault");
pub const BAD_OPTION: Fault = Fault::Plain(83, "BadOption");

impl Fault {
    pub fn status(&self) -> u8 {
        match self {
            Fault::Plain(1 | 81..=82, _) => 3,
            _ => 2,
        }
    }
}

impl Display for Fault {
    fn fmt(&self, out: &mut Formatter) -> Written {
        match self {
            Fault::Words(text) => write!(out, "error: {text}; --help says what there is"),
            Fault::Plain(code, name) => write!(out, "error {code} {name}"),
            Fault::InLine(code, name, line) => write!(out, "error {code} {name} line {line}"),
        }
    }
}

pub const BAD_CLASS_LINE: Fault = Fault::InLine(23, "BadLine", 1);

/// The first fault of a class line, which is so many lines, or one where they are 0, and the profile
/// after it.
pub fn in_scored(text: &[u8], first_lines: usize) -> Fault {
    after_class_line(text, first_lines, in_counts)
}

/// The same with a history or timeline.
pub fn in_footprint(text: &[u8], first_lines: usize) -> Fault {
    after_class_line(text, first_lines, in_moments)
}

/// The same with a timeline.
pub fn in_peaks(text: &[u8], first_lines: usize) -> Fault {
    after_class_line(text, first_lines, in_events)
}

fn after_class_line(text: &[u8], first_lines: usize, after: impl FnOnce(Lines) -> Fault) -> Fault {
    let mut lines = Lines::new(text);
    match in_class_line(lines.next()) {
        Some(fault) => fault,
        None if first_lines > 1 => BAD_CLASS_LINE,
        None => after(lines),
    }
}

/// The first fault of a profile.
pub fn in_profile(text: &[u8]) -> Fault {
    in_counts(Lines::new(text))
}

/// The first fault of a history or a timeline.
pub fn in_history(text: &[u8]) -> Fault {
    in_moments(Lines::new(text))
}

/// The first fault of a sheet, which is so many lines, or those of its form where they are 0, and
/// the profile after it.
pub fn in_checked(text: &[u8], first_lines: usize) -> Fault {
    let mut lines = Lines::of_two(text, first_lines);
    match pass_sheet(&mut lines, b"waste").and_then(|()| lines.end_first()) {
        Some(()) => in_counts(lines),
        None => lines.fault(48, "BadSheet"),
    }
}

/// The first fault of such a fit and the history, or the moments and the timeline, after it.
pub fn in_checked_fit(text: &[u8], first_lines: usize) -> Fault {
    let mut lines = Lines::of_two(text, first_lines);
    let is_fit = pass_sheet(&mut lines, b"footprint").is_some();
    let has_moments = is_fit && lines.are_at(b"moments");
    let are_whole = is_fit && (!has_moments || lines.next().map_or(false, are_moments));
    if !are_whole || lines.end_first().is_none() {
        return lines.fault(36, "BadFit");
    }
    if has_moments {
        in_events(lines)
    } else {
        in_snapshots(lines)
    }
}

/// The fault of a line of a trace, which begins after so many other lines.
pub fn in_trace(line: &[u8], number: usize, before: usize) -> Fault {
    let fault = |code, name| Fault::InLine(code, name, number);
    if line.len() > 80 {
        return fault(73, "LineTooLong");
    }
    if number - before > 1_000_000 {
        return fault(74, "TooManyEvents");
    }
    let words: Vec<&[u8]> = line.split(|byte| *byte == b' ').collect();
    let mut forms = FORMS.iter().filter(|(name, _)| name.as_bytes() == words[0]);
    let form = match forms.next() {
        Some((_, form)) if form.len() == words.len() - 1 => form,
        _ => return fault(70, "BadWord"),
    };
    if words.iter().any(|word| word.is_empty()) {
        return fault(70, "BadWord");
    }
    let mut pairs = words[1..].iter().zip(*form);
    let faulty = pairs.find_map(|(word, kind)| match kind.magnitude(word) {
        None => Some((71, "BadNumber")),
        Some(n) => (!kind.allows(n)).then_some((72, "OutOfRange")),
    });
    let (code, name) = faulty.expect("a line that was refused is faulty");
    fault(code, name)
}

/// The fault of a class line, if it has one. None stands for a missing line.
pub fn in_class_line(line: Option<&[u8]>) -> Option<Fault> {
    let fault = |code, name| Some(Fault::InLine(code, name, 1));
    let line = line.unwrap_or(b"");
    if first_word(line) != b"classes" || numbers_after(line).any(|number| number.is_none()) {
        return fault(23, "BadLine");
    }
    if numbers_after(line).count() > 32 {
        return fault(20, "TooMany");
    }
    let mut below = 0;
    for class in numbers_after(line).flatten() {
        if !(2..=1024).contains(&class) {
            return fault(21, "OutOfRange");
        }
        if class <= below {
            return fault(22, "NotAscending");
        }
        below = class;
    }
    None
}

// where the line `large` is among the sizes
const AFTER_SIZES: u128 = LARGEST as u128 + 1;

// the first fault of a profile's lines
fn in_counts(lines: Lines) -> Fault {
    in_lines(lines, 1, (30, "BadLine"))
}

// the first fault of the lines of a history or a timeline
fn in_moments(lines: Lines) -> Fault {
    if lines.peek() == Some(TIMELINE) {
        return in_events(lines);
    }
    in_snapshots(lines)
}

// the first fault of a timeline's lines
fn in_events(mut lines: Lines) -> Fault {
    if lines.next() != Some(TIMELINE) {
        return lines.fault(37, "BadTimeline");
    }
    let mut live = vec![0_u32; AFTER_SIZES as usize + 1];
    while let Some(line) = lines.next() {
        let word = line.strip_prefix(b"-").unwrap_or(line);
        let size = match size_of(word) {
            Some(size) => size,
            None => return lines.fault(37, "BadTimeline"),
        };
        let blocks = &mut live[size as usize];
        if word.len() == line.len() {
            *blocks += 1;
        } else if *blocks == 0 {
            return lines.fault(38, "NotLive");
        } else {
            *blocks -= 1;
        }
    }
    unreachable!("a timeline that was refused is faulty")
}

// whether a line names moments: 1 to 1,024 ascending numbers up to 1,000,000,000
fn are_moments(line: &[u8]) -> bool {
    let most = u128::from(GREATEST_COUNT);
    let mut next = 0;
    let ascends = numbers_after(line).all(|number| {
        let ascends = number.map_or(false, |n| n >= next && n <= most);
        next = number.map_or(0, |n| n + 1);
        ascends
    });
    ascends && (1..=MOST_SNAPSHOTS as usize).contains(&numbers_after(line).count())
}

// the first fault of a history's lines
fn in_snapshots(mut lines: Lines) -> Fault {
    let most = u128::from(MOST_SNAPSHOTS);
    let line = lines.next().unwrap_or(b"");
    match line.strip_prefix(b"snapshots ").and_then(number_of) {
        Some(snapshots) if (1..=most).contains(&snapshots) => {
            in_lines(lines, snapshots as usize, (35, "WrongLength"))
        }
        _ => lines.fault(34, "BadSnapshots"),
    }
}

// the first fault of lines of a size and so many counts
fn in_lines(mut lines: Lines, counts: usize, wrong_length: (u8, &'static str)) -> Fault {
    let mut next = 0;
    while let Some(line) = lines.next() {
        let are_numbers = || numbers_after(line).all(|number| number.is_some());
        let size = match size_of(first_word(line)) {
            Some(size) if next <= AFTER_SIZES && are_numbers() => size,
            _ => return lines.fault(30, "BadLine"),
        };
        if numbers_after(line).count() != counts {
            return lines.fault(wrong_length.0, wrong_length.1);
        }
        if size < next {
            return lines.fault(31, "NotAscending");
        }
        let most = numbers_after(line).flatten().max().unwrap_or(0);
        if !(1..=u128::from(GREATEST_COUNT)).contains(&most) {
            return lines.fault(32, "CountOutOfRange");
        }
        next = size + 1;
    }
    unreachable!("a profile or a history that was refused is faulty")
}

// passes over the lines of a sheet, or of a fit by the word of its cost, or up to the first faulty one
fn pass_sheet(lines: &mut Lines, cost_word: &[u8]) -> Option<()> {
    let fits = |number: Option<u128>| number.map_or(false, |n| n < 1 << 64);
    let one = |line: &[u8], name: &[u8]| {
        let word = line.strip_prefix(name)?.strip_prefix(b" ")?;
        number_of(word).filter(|n| fits(Some(*n)))
    };
    if in_class_line(lines.next()).is_some() {
        return None;
    }
    one(lines.next()?, b"limit").filter(|limit| (1..=32).contains(limit))?;
    if lines.are_at(b"step") {
        one(lines.next()?, b"step").filter(|step| matches!(step, 2 | 4 | 8))?;
    }
    if lines.are_at(b"forced") {
        one(lines.next()?, b"forced").filter(|class| *class == 1024)?;
    }
    one(lines.next()?, cost_word)?;
    for number in 1.. {
        if !lines.are_at(b"row") {
            break;
        }
        let row = lines.next()?;
        let is_short = numbers_after(row).count() <= MOST_IN_ROW;
        if number > MOST_ROWS || !is_short || !numbers_after(row).all(fits) {
            return None;
        }
    }
    Some(())
}

// what a word of an event has to be: a number up to this, the same with a sign, from 1 on, a byte
enum Kind {
    UpTo(u128),
    Signed(u128),
    OneUpTo(u128),
    Byte,
}

use Kind::{Byte, OneUpTo, Signed, UpTo};

const V: Kind = UpTo(1023);
const N: Kind = UpTo(2_147_483_647);
const OFF: Kind = Signed(1_048_576);
const LEN: Kind = OneUpTo(64);

const FORMS: [(&str, &[Kind]); 8] = [
    ("malloc", &[V, N]),
    ("calloc", &[V, N]),
    ("realloc", &[V, N]),
    ("free", &[V]),
    ("load", &[V, OFF, LEN]),
    ("store", &[V, OFF, LEN, Byte]),
    ("addg", &[V, V, UpTo(63), UpTo(15)]),
    ("subg", &[V, V, UpTo(63), UpTo(15)]),
];

impl Kind {
    // without its sign; None where the word does not have the spelling
    fn magnitude(&self, word: &[u8]) -> Option<u128> {
        match (self, word) {
            (Signed(_), [b'-', digits @ ..]) => number_of(digits).filter(|n| *n > 0),
            (Byte, _) => crate::text::hex_byte(word).map(u128::from),
            _ => number_of(word),
        }
    }

    fn allows(&self, n: u128) -> bool {
        match self {
            UpTo(most) | Signed(most) => n <= *most,
            OneUpTo(most) => n >= 1 && n <= *most,
            Byte => true,
        }
    }
}

// the number that a word spells; one that is out of every range where it has many digits
fn number_of(word: &[u8]) -> Option<u128> {
    match word {
        [b'0'] => Some(0),
        [b'1'..=b'9', ..] if word.iter().all(u8::is_ascii_digit) => {
            Some(std::str::from_utf8(word).ok()?.parse().unwrap_or(u128::MAX))
        }
        _ => None,
    }
}

// the size that a word names, with `large` after all others
fn size_of(word: &[u8]) -> Option<u128> {
    match word {
        b"large" => Some(AFTER_SIZES),
        word => number_of(word).filter(|size| *size < AFTER_SIZES),
    }
}

fn first_word(line: &[u8]) -> &[u8] {
    line.split(|byte| *byte == b' ').next().unwrap_or(line)
}

// the words after the first one, each with the number that it spells
fn numbers_after(line: &[u8]) -> impl Iterator<Item = Option<u128>> + '_ {
    line.split(|byte| *byte == b' ').skip(1).map(number_of)
}

// the lines of a text, one by one; the last may lack its newline
struct Lines<'a> {
    rest: &'a [u8],
    passed: usize,
    // so many lines are the first of two texts, of which alone lines are found at first; or 0
    first: usize,
    // whether the last call of `next` found one
    has_line: bool,
}

impl<'a> Lines<'a> {
    fn new(text: &'a [u8]) -> Lines<'a> {
        Lines::of_two(text, 0)
    }

    fn of_two(text: &'a [u8], first: usize) -> Lines<'a> {
        Lines {
            rest: text,
            passed: 0,
            first,
            has_line: true,
        }
    }

    // goes on to the second text, if all lines of the first one were passed
    fn end_first(&mut self) -> Option<()> {
        self.has_line = self.first == 0 || self.passed == self.first;
        self.first = 0;
        self.has_line.then_some(())
    }

    // the next line, which is not passed over
    fn peek(&self) -> Option<&'a [u8]> {
        let line = self.rest.split(|byte| *byte == b'\n').next();
        let is_out = self.first > 0 && self.passed == self.first;
        line.filter(|_| !self.rest.is_empty() && !is_out)
    }

    fn next(&mut self) -> Option<&'a [u8]> {
        let line = self.peek();
        self.has_line = line.is_some();
        self.passed += usize::from(self.has_line);
        let len = line.map_or(0, <[u8]>::len);
        self.rest = self.rest.get(len + 1..).unwrap_or(b"");
        line
    }

    // whether the next line has this first word
    fn are_at(&self, word: &[u8]) -> bool {
        self.peek().map(first_word) == Some(word)
    }

    // the fault of the last line, or of the one that is missing
    fn fault(&self, code: u8, name: &'static str) -> Fault {
        Fault::InLine(code, name, self.passed + usize::from(!self.has_line))
    }
}
