//! Sheets: a table, and the rows that show that it is a best one. A fit is one for the footprint.

use crate::score::read_classes;
use crate::text::{push_number, Scanner};

/// The word of the line that has a sheet's cost.
pub const WASTE: &[u8] = b"waste";

/// The word of that line in a fit.
pub const FOOTPRINT: &[u8] = b"footprint";

/// The most rows of a sheet.
pub const MOST_ROWS: usize = 32;

/// The most numbers of a row.
pub const MOST_IN_ROW: usize = 1023;

/// The largest class, in granules.
pub const LARGEST_CLASS: u32 = 1024;

pub struct Sheet {
    pub classes: Vec<u32>,
    pub limit: usize,
    pub step: u32,
    /// Whether the table has to have class 1024.
    pub forced: bool,
    /// The waste of a sheet, the footprint of a fit.
    pub cost: u64,
    /// A number for each place but the last, and then a 0 for the last one.
    pub rows: Vec<Vec<u64>>,
}

impl Sheet {
    /// Reads a sheet, or a fit where the cost has its word.
    pub fn read(text: &mut Scanner, cost_word: &[u8]) -> Option<Sheet> {
        let classes = read_classes(text)?;
        text.expect(b"limit ")?;
        let limit = text.number_to(32).filter(|limit| *limit > 0)? as usize;
        text.end_line()?;
        let mut step = 1;
        if text.skip(b"step ") {
            step = text.number().filter(|step| matches!(step, 2 | 4 | 8))? as u32;
            text.end_line()?;
        }
        let forced = text.skip(b"forced ");
        if forced {
            text.number().filter(|class| *class == u64::from(LARGEST_CLASS))?;
            text.end_line()?;
        }
        text.expect(cost_word)?;
        text.expect(b" ")?;
        let cost = text.number()?;
        text.end_line()?;
        let mut rows = Vec::new();
        while text.skip(b"row") {
            if rows.len() == MOST_ROWS {
                return None;
            }
            rows.push(read_row(text)?);
        }
        Some(Sheet {
            classes,
            limit,
            step,
            forced,
            cost,
            rows,
        })
    }

    /// Whether the table lacks a class that it has to have.
    pub fn lacks_class(&self) -> bool {
        self.forced && self.classes.last() != Some(&LARGEST_CLASS)
    }

    /// The line that says what a checker that finds no fault showed, over what was counted.
    pub fn claim(&self, cost_word: &str, counted: &str) -> String {
        let (cost, limit, step) = (self.cost, self.limit, self.step);
        let forced = if self.forced { LARGEST_CLASS } else { 0 };
        format!("claim {cost_word} {cost} limit {limit} step {step} forced {forced} {counted}\n")
    }

    pub fn write(&self, text: &mut Vec<u8>, cost_word: &[u8]) {
        text.extend_from_slice(b"classes");
        for class in &self.classes {
            text.push(b' ');
            push_number(text, u64::from(*class));
        }
        push_line(text, b"\nlimit", &[self.limit as u64]);
        if self.step > 1 {
            push_line(text, b"step", &[u64::from(self.step)]);
        }
        if self.forced {
            push_line(text, b"forced", &[u64::from(LARGEST_CLASS)]);
        }
        push_line(text, cost_word, &[self.cost]);
        for row in &self.rows {
            push_line(text, b"row", &row[..row.len() - 1]);
        }
    }
}

// the numbers of a row, and the 0 of the last place
fn read_row(text: &mut Scanner) -> Option<Vec<u64>> {
    let mut row = Vec::with_capacity(MOST_IN_ROW + 1);
    while text.skip(b" ") {
        if row.len() == MOST_IN_ROW {
            return None;
        }
        row.push(text.number()?);
    }
    text.end_line()?;
    row.push(0);
    Some(row)
}

/// Appends a line of a word and numbers.
pub fn push_line(text: &mut Vec<u8>, name: &[u8], numbers: &[u64]) {
    text.extend_from_slice(name);
    for number in numbers {
        text.push(b' ');
        push_number(text, *number);
    }
    text.push(b'\n');
}
