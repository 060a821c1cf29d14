//! `check`: whether a sheet shows that its table is a best one.

use crate::profile::Profile;
use crate::score::waste;
use crate::sheet::Sheet;
use crate::spans::Spans;
use std::ops::Range;

/// The first condition that the sheet breaks, as its code and name.
pub fn refusal(profile: &Profile, sheet: &Sheet) -> Option<&'static str> {
    if sheet.classes.iter().any(|class| class % sheet.step != 0) {
        return Some("39 OffStep");
    }
    if sheet.classes.len() > sheet.limit {
        return Some("40 OverLimit");
    }
    match waste(&sheet.classes, profile) {
        Err(_) => Some("41 NotServing"),
        Ok(_) if sheet.lacks_class() => Some("41 NotServing"),
        Ok(waste) if waste != sheet.cost => Some("42 WasteWrong"),
        Ok(_) => rows_refusal(&Spans::new(profile, sheet.step, sheet.forced), sheet),
    }
}

fn rows_refusal(spans: &Spans, sheet: &Sheet) -> Option<&'static str> {
    let last = spans.last();
    let rows = &sheet.rows;
    if rows.len() != sheet.limit || rows.iter().any(|row| row.len() != last + 1) {
        return Some("43 Shape");
    }
    if (0..last).any(|i| rows[0][i] > spans.waste(i, last)) {
        return Some("44 LastClass");
    }
    let pairs = || rows.iter().zip(&rows[1..]);
    if pairs().any(|(before, row)| row.iter().zip(before).any(|(number, above)| number > above)) {
        return Some("45 StageDrop");
    }
    if !pairs().all(|(before, row)| edges_hold(spans, before, row, 0..last, 0..last + 1)) {
        return Some("46 Edge");
    }
    (rows[sheet.limit - 1][0] != sheet.cost).then_some("47 NotTight")
}

/// Whether no number of a part of a row is more than its edge to any of these ends allows, by
/// halving: the tightest end of the middle place is as tight for an earlier place as any later one,
/// and for a later place as any earlier one. No sum is too large for 64 bits: by the conditions
/// before this one no number is more than a span's waste, which is below 2^58.
fn edges_hold(
    spans: &Spans,
    before: &[u64],
    row: &[u64],
    part: Range<usize>,
    ends: Range<usize>,
) -> bool {
    if part.is_empty() {
        return true;
    }
    let middle = part.start + part.len() / 2;
    let (bound, end) = spans.least_end(middle, ends.start.max(middle + 1)..ends.end, before);
    row[middle] <= bound
        && edges_hold(spans, before, row, part.start..middle, ends.start..end + 1)
        && edges_hold(spans, before, row, middle + 1..part.end, end..ends.end)
}
