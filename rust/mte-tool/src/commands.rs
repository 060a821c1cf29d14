//! The commands over texts, each of at most 67,108,864 bytes. An [`Error`] has the first fault's code and line.
//! Written by `scripts/tests/formats` from `scripts/mte_scripts/formats.py`.
use crate::calls::{Cost, Error, Verdict};
use crate::options::Options;
use crate::texts::{call, call_on, Fit, Text};
use mte_tool_sys as c;

/// What the table of a class line, such as `classes 2 8`, wastes on a profile.
///
/// # Errors
/// The input's first fault, or that memory ran out.
pub fn score(classes: &[u8], profile: &[u8]) -> Result<Cost, Error> {
    Ok(call_on(c::mte_tool_score, classes, profile, &Options::default())?.cost())
}

/// The sheet of the table of least waste on a profile, by `limit`, `step` and `largest_class`.
///
/// # Errors
/// The input's first fault, an option out of its range, or that memory ran out.
pub fn tune(profile: &[u8], options: &Options) -> Result<Text, Error> {
    Ok(call(c::mte_tool_tune, profile, options)?.text)
}

/// Whether a sheet shows that no table of its limit, step and forced class wastes less on a profile.
///
/// # Errors
/// The input's first fault, or that memory ran out.
pub fn check(sheet: &[u8], profile: &[u8]) -> Result<Verdict, Error> {
    Ok(call_on(c::mte_tool_check, sheet, profile, &Options::default())?.verdict())
}

/// What the table of a class line takes of memory over a history or a timeline.
///
/// # Errors
/// The input's first fault, or that memory ran out.
pub fn footprint(classes: &[u8], history: &[u8]) -> Result<Cost, Error> {
    Ok(call_on(c::mte_tool_footprint, classes, history, &Options::default())?.cost())
}

/// The fit of the table of least footprint over a history or a timeline, by `limit`, `step` and `largest_class`.
///
/// # Errors
/// The input's first fault, an option out of its range, or that memory ran out.
pub fn fit(history: &[u8], options: &Options) -> Result<Fit, Error> {
    Ok(call(c::mte_tool_fit, history, options)?.fit())
}

/// Whether a fit shows that no table of its limit, step and forced class takes less over a history or a timeline.
///
/// # Errors
/// The input's first fault, or that memory ran out.
pub fn check_fit(fit: &[u8], history: &[u8]) -> Result<Verdict, Error> {
    Ok(call_on(c::mte_tool_check_fit, fit, history, &Options::default())?.verdict())
}

/// The profile of a trace.
///
/// # Errors
/// The input's first fault, or that memory ran out.
pub fn profile(trace: &[u8]) -> Result<Text, Error> {
    Ok(call(c::mte_tool_profile, trace, &Options::default())?.text)
}

/// The report of the tagged heap over the table of a class line on a trace, by `granules`, `quarantine` and `seed`.
///
/// # Errors
/// The input's first fault, an option out of its range, or that memory ran out.
pub fn replay(classes: &[u8], trace: &[u8], options: &Options) -> Result<Text, Error> {
    Ok(call_on(c::mte_tool_replay, classes, trace, options)?.text)
}

/// The sheet of a trace's profile, and then the report with its table, by `limit`, `step`, `granules`, `quarantine` and `seed`.
///
/// # Errors
/// The input's first fault, an option out of its range, or that memory ran out.
pub fn run(trace: &[u8], options: &Options) -> Result<Text, Error> {
    Ok(call(c::mte_tool_run, trace, options)?.text)
}

/// The most live blocks of each class of a class line over a timeline, and when.
///
/// # Errors
/// The input's first fault, or that memory ran out.
pub fn peaks(classes: &[u8], timeline: &[u8]) -> Result<Text, Error> {
    Ok(call_on(c::mte_tool_peaks, classes, timeline, &Options::default())?.text)
}
