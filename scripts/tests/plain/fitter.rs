//! `fit`: the table of least footprint, with the rows that show it; and `check-fit`.

use crate::history::History;
use crate::history_spans::HistorySpans;
use crate::sheet::Sheet;
use crate::tuner::{table, Row};

/// The fit of a history for at most `limit` classes that are multiples of the step, with class 1024
/// if it is forced. The rows are filled place by place, from the last one on, with the footprints
/// from one place kept at a time.
pub fn fit(history: &History, limit: usize, step: u32, forced: bool) -> Sheet {
    let spans = HistorySpans::new(history, step, forced);
    let last = spans.last();
    let mut rows: Vec<Row> = (0..limit).map(|_| Row::new(last)).collect();
    let mut costs = vec![0; last + 1];
    for i in (0..last).rev() {
        spans.write_from(i, &mut costs);
        rows[0].rests[i] = costs[last];
        for k in 1..limit {
            let (rest, end) = least_end(i, &costs, &rows[k - 1].rests);
            rows[k].rests[i] = rest;
            rows[k].ends[i] = end;
        }
    }
    Sheet {
        classes: table(last, |place| spans.need(place), &rows),
        limit,
        step,
        forced,
        cost: rows[limit - 1].rests[0],
        rows: rows.into_iter().map(|row| row.rests).collect(),
    }
}

// the least footprint from place `i` on, and the least end that has it
fn least_end(i: usize, costs: &[u64], rests: &[u64]) -> (u64, usize) {
    let (mut least, mut end) = (u64::MAX, i + 1);
    for (j, (cost, rest)) in (i + 1..).zip(costs[i + 1..].iter().zip(&rests[i + 1..])) {
        let footprint = cost + rest;
        if footprint < least {
            (least, end) = (footprint, j);
        }
    }
    (least, end)
}

/// The first condition that the fit breaks, as its code and name.
pub fn refusal(history: &History, fit: &Sheet) -> Option<&'static str> {
    if fit.classes.iter().any(|class| class % fit.step != 0) {
        return Some("39 OffStep");
    }
    if fit.classes.len() > fit.limit {
        return Some("40 OverLimit");
    }
    match history.footprint(&fit.classes) {
        Err(_) => Some("41 NotServing"),
        Ok(_) if fit.lacks_class() => Some("41 NotServing"),
        Ok(footprint) if footprint != fit.cost => Some("49 FootprintWrong"),
        Ok(_) => rows_refusal(&HistorySpans::new(history, fit.step, fit.forced), fit),
    }
}

fn rows_refusal(spans: &HistorySpans, fit: &Sheet) -> Option<&'static str> {
    let last = spans.last();
    let rows = &fit.rows;
    if rows.len() != fit.limit || rows.iter().any(|row| row.len() != last + 1) {
        return Some("43 Shape");
    }
    if (0..last).any(|i| rows[0][i] > spans.to_last(i)) {
        return Some("44 LastClass");
    }
    let mut pairs = rows.iter().zip(&rows[1..]);
    if pairs.any(|(before, row)| row.iter().zip(before).any(|(number, above)| number > above)) {
        return Some("45 StageDrop");
    }
    if !edges_hold(spans, rows) {
        return Some("46 Edge");
    }
    (rows[fit.limit - 1][0] != fit.cost).then_some("47 NotTight")
}

/// Whether no number is more than one of its edges allows. No sum is too large for 64 bits: by the
/// conditions before this one no number is more than a span's footprint, which is below 2^58.
fn edges_hold(spans: &HistorySpans, rows: &[Vec<u64>]) -> bool {
    let mut costs = vec![0; spans.last() + 1];
    (0..spans.last()).all(|i| {
        spans.write_from(i, &mut costs);
        let mut pairs = rows.iter().zip(&rows[1..]);
        pairs.all(|(before, row)| row[i] <= least_end(i, &costs, before).0)
    })
}
