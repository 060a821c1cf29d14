//! `tune`: the table of least waste, with the rows that show it.

use crate::profile::Profile;
use crate::sheet::Sheet;
use crate::spans::Spans;
use std::ops::Range;

/// The sheet of a profile for at most `limit` classes that are multiples of the step, with class 1024
/// if it is forced.
pub fn tune(profile: &Profile, limit: usize, step: u32, forced: bool) -> Sheet {
    let spans = Spans::new(profile, step, forced);
    let mut rows = vec![Row::first(&spans)];
    for k in 1..limit {
        rows.push(Row::after(&spans, &rows[k - 1]));
    }
    Sheet {
        classes: table(spans.last(), |place| spans.need(place), &rows),
        limit,
        step,
        forced,
        cost: rows[limit - 1].rests[0],
        rows: rows.into_iter().map(|row| row.rests).collect(),
    }
}

/// The needs at the least ends, from place 0 and the last row on.
pub fn table(last: usize, need: impl Fn(usize) -> u32, rows: &[Row]) -> Vec<u32> {
    let mut classes = Vec::new();
    let mut place = 0;
    for row in rows.iter().rev() {
        if place < last {
            place = row.ends[place];
            classes.push(need(place));
        }
    }
    classes
}

/// A row: the least cost above each place, 0 for the last one, and the least ends where it is
/// reached.
pub struct Row {
    pub rests: Vec<u64>,
    pub ends: Vec<usize>,
}

impl Row {
    /// A row that is not filled, with the last place as each end.
    pub fn new(last: usize) -> Row {
        Row {
            rests: vec![0; last + 1],
            ends: vec![last; last],
        }
    }

    /// The row of one class.
    fn first(spans: &Spans) -> Row {
        let last = spans.last();
        let mut row = Row::new(last);
        for i in 0..last {
            row.rests[i] = spans.waste(i, last);
        }
        row
    }

    /// The row of one class more.
    fn after(spans: &Spans, before: &Row) -> Row {
        let last = spans.last();
        let mut row = Row::new(last);
        row.fill(spans, &before.rests, 0..last, 1..last + 1);
        row
    }

    /// Fills the places of a part by halving. A later place has no earlier least end, so those
    /// before the middle place have ends up to its end, and those after it have ends from it on.
    fn fill(&mut self, spans: &Spans, before: &[u64], part: Range<usize>, ends: Range<usize>) {
        if part.is_empty() {
            return;
        }
        let middle = part.start + part.len() / 2;
        let (rest, end) = spans.least_end(middle, ends.start.max(middle + 1)..ends.end, before);
        self.rests[middle] = rest;
        self.ends[middle] = end;
        self.fill(spans, before, part.start..middle, ends.start..end + 1);
        self.fill(spans, before, middle + 1..part.end, end..ends.end);
    }
}
