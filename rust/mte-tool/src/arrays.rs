//! The same over numbers. Sizes are in bytes, ascending, from 0 to 16,368; classes in granules of 16 bytes, ascending, from 2 to 1,024. An
//! [`Error`] has the code, and in `at` the index of the first faulty entry.
use crate::calls::{is_yes, no_result, Cost, Error, Verdict};
use crate::options::Options;
use mte_tool_sys as c;

const MOST_CLASSES: usize = 32;
const MOST_NEEDS: usize = 1023;
const MOST_MOMENTS: usize = 1024;

/// How often each size is requested.
#[derive(Debug, Clone, Copy)]
pub struct Profile<'a> {
    /// The sizes.
    pub sizes: &'a [u32],
    /// A count for each, 1 to 1,000,000,000.
    pub counts: &'a [u32],
}

/// How many blocks of each size were live at some snapshots.
#[derive(Debug, Clone, Copy)]
pub struct History<'a> {
    /// The sizes.
    pub sizes: &'a [u32],
    /// For each size its blocks at each snapshot, size after size: 0 to 1,000,000,000, and not all 0.
    pub counts: &'a [u32],
    /// How many snapshots there are, 1 to 1,024.
    pub snapshots: usize,
}

/// The requests and frees of a run.
#[derive(Debug, Clone, Copy)]
pub struct Timeline<'a> {
    /// The size of each event's block. Blocks of more than 16,368 bytes count for nothing.
    pub sizes: &'a [u32],
    /// Not 0 where the event frees such a block.
    pub frees: &'a [u8],
}

/// A table with its certificate.
#[derive(Debug, Clone, Default, PartialEq, Eq, Hash)]
#[non_exhaustive]
pub struct Table {
    /// In granules of 16 bytes, ascending.
    pub classes: Vec<u16>,
    /// What it wastes, or takes of memory, in bytes.
    pub bytes: u64,
    /// Its certificate: as many rows as the limit, row after row.
    pub rows: Vec<u64>,
    /// Of a timeline the moments that the certificate names, each by the events before it.
    pub moments: Vec<u32>,
    /// False only of a timeline, and then there is no certificate.
    pub is_least: bool,
    /// If it is not shown to be least: no table takes less than these bytes.
    pub bound: u64,
}

impl Table {
    /// A table as somebody claims it, for a check: its classes, what it costs and its rows. Of a timeline it also needs its `moments`.
    #[must_use]
    pub fn new(classes: Vec<u16>, bytes: u64, rows: Vec<u64>) -> Table {
        Table { classes, bytes, rows, is_least: true, ..Table::default() }
    }
}

impl Profile<'_> {
    fn to_c(self) -> Result<c::mte_tool_profile_arrays, Error> {
        if self.sizes.len() != self.counts.len() {
            return Err(Error::misuse("a profile has a count for each size"));
        }
        Ok(c::mte_tool_profile_arrays { sizes: self.sizes.as_ptr(), counts: self.counts.as_ptr(), length: self.sizes.len() })
    }
}

impl History<'_> {
    fn to_c(self) -> Result<c::mte_tool_history_arrays, Error> {
        if self.sizes.len().checked_mul(self.snapshots) != Some(self.counts.len()) {
            return Err(Error::misuse("a history has a count for each size at each snapshot"));
        }
        let (sizes, counts) = (self.sizes.as_ptr(), self.counts.as_ptr());
        Ok(c::mte_tool_history_arrays { sizes, counts, length: self.sizes.len(), snapshots: self.snapshots })
    }
}

impl Timeline<'_> {
    fn to_c(self) -> Result<c::mte_tool_timeline_arrays, Error> {
        if self.sizes.len() != self.frees.len() {
            return Err(Error::misuse("a timeline says of each size whether it is freed"));
        }
        Ok(c::mte_tool_timeline_arrays { sizes: self.sizes.as_ptr(), frees: self.frees.as_ptr(), length: self.sizes.len() })
    }
}

fn cost(call: impl FnOnce(&mut c::mte_tool_result) -> c::mte_tool_end) -> Result<Cost, Error> {
    let mut result = no_result();
    let end = call(&mut result);
    Ok(Cost::of(is_yes(end, &result, &[])?, &result))
}

fn verdict(call: impl FnOnce(&mut c::mte_tool_result) -> c::mte_tool_end) -> Result<Verdict, Error> {
    let mut result = no_result();
    let end = call(&mut result);
    Ok(Verdict::of(is_yes(end, &result, &[])?, result.code))
}

/// Makes a tuner's call with room for all that it can give. A limit out of its range gets some room too, and is refused.
fn tuned(
    options: &Options,
    length: usize,
    most_moments: usize,
    call: impl FnOnce(&mut Table, &mut c::mte_tool_result) -> c::mte_tool_end,
) -> Result<Table, Error> {
    let limit = usize::try_from(options.limit).map_or(MOST_CLASSES, |limit| limit.min(MOST_CLASSES));
    let places = MOST_NEEDS.min(length.saturating_add(usize::from(options.largest_class)));
    let mut result = no_result();
    let mut table =
        Table { classes: vec![0; MOST_CLASSES], rows: vec![0; limit * places], moments: vec![0; most_moments], ..Table::default() };
    let end = call(&mut table, &mut result);
    table.is_least = is_yes(end, &result, &[])?;
    table.classes.truncate(result.classes as usize);
    table.rows.truncate(if table.is_least { limit * result.places as usize } else { 0 });
    table.moments.truncate(if table.is_least { result.moments as usize } else { 0 });
    table.bytes = result.bytes;
    table.bound = result.bound;
    Ok(table)
}

/// The number of the class that serves a request of so many bytes: its place in the table, from 0 on.
///
/// ```
/// assert_eq!((mte_tool::class_of(&[2, 4, 9], 40), mte_tool::class_of(&[2, 4, 9], 1000)), (Some(1), None));
/// ```
#[must_use]
pub fn class_of(classes: &[u16], size: usize) -> Option<usize> {
    // SAFETY: the slice is there during the call, with its length
    usize::try_from(unsafe { c::mte_tool_class_of(classes.as_ptr(), classes.len(), size) }).ok()
}

/// What a table wastes on a profile.
///
/// # Errors
/// The first fault of an array, or that memory ran out.
pub fn score_profile(classes: &[u16], profile: Profile) -> Result<Cost, Error> {
    let profile = profile.to_c()?;
    // SAFETY: here and below, the slices are there during the call, with their lengths, and the structures begin with their sizes
    cost(|result| unsafe { c::mte_tool_score_profile(std::ptr::null(), classes.as_ptr(), classes.len(), &profile, result) })
}

/// What a table takes of memory over a history.
///
/// # Errors
/// The first fault of an array, or that memory ran out.
pub fn footprint_history(classes: &[u16], history: History) -> Result<Cost, Error> {
    let history = history.to_c()?;
    cost(|result| unsafe { c::mte_tool_footprint_history(std::ptr::null(), classes.as_ptr(), classes.len(), &history, result) })
}

/// What a table takes of memory over a timeline.
///
/// # Errors
/// The first fault of an array, or that memory ran out.
pub fn footprint_timeline(classes: &[u16], timeline: Timeline) -> Result<Cost, Error> {
    let timeline = timeline.to_c()?;
    cost(|result| unsafe { c::mte_tool_footprint_timeline(std::ptr::null(), classes.as_ptr(), classes.len(), &timeline, result) })
}

/// The table of least waste on a profile, by the options `limit`, `step` and `largest_class`.
///
/// # Errors
/// The first fault of an array, an option out of its range, or that memory ran out.
pub fn tune_profile(profile: Profile, options: &Options) -> Result<Table, Error> {
    let (data, chosen) = (profile.to_c()?, options.to_c());
    tuned(options, data.length, 0, |to, result| unsafe {
        let (classes, rows) = (&mut to.classes, &mut to.rows);
        c::mte_tool_tune_profile(&chosen, &data, classes.as_mut_ptr(), classes.len(), rows.as_mut_ptr(), rows.len(), result)
    })
}

/// The table of least footprint over a history, by the options `limit`, `step` and `largest_class`.
///
/// # Errors
/// The first fault of an array, an option out of its range, or that memory ran out.
pub fn fit_history(history: History, options: &Options) -> Result<Table, Error> {
    let (data, chosen) = (history.to_c()?, options.to_c());
    tuned(options, data.length, 0, |to, result| unsafe {
        let (classes, rows) = (&mut to.classes, &mut to.rows);
        c::mte_tool_fit_history(&chosen, &data, classes.as_mut_ptr(), classes.len(), rows.as_mut_ptr(), rows.len(), result)
    })
}

/// The table of least footprint over a timeline, by the options `limit`, `step` and `largest_class`; `is_least` says
/// whether that is shown.
///
/// ```
/// let timeline = mte_tool::Timeline { sizes: &[16, 40, 16, 40], frees: &[0, 0, 1, 0] };
/// let table = mte_tool::fit_timeline(timeline, &mte_tool::Options::new(2))?;
/// assert!(table.is_least && mte_tool::check_fit_timeline(&table, timeline, &mte_tool::Options::new(2))?.is_optimal());
/// # Ok::<(), mte_tool::Error>(())
/// ```
///
/// # Errors
/// The first fault of an array, an option out of its range, or that memory ran out.
pub fn fit_timeline(timeline: Timeline, options: &Options) -> Result<Table, Error> {
    let (data, chosen) = (timeline.to_c()?, options.to_c());
    tuned(options, data.length, MOST_MOMENTS, |to, result| unsafe {
        let (classes, rows, moments) = (&mut to.classes, &mut to.rows, &mut to.moments);
        c::mte_tool_fit_timeline(
            &chosen,
            &data,
            classes.as_mut_ptr(),
            classes.len(),
            rows.as_mut_ptr(),
            rows.len(),
            moments.as_mut_ptr(),
            moments.len(),
            result,
        )
    })
}

/// Whether a table's rows show that no table within the options (`limit`, `step`, `largest_class`) wastes less on a profile.
///
/// # Errors
/// The first fault of an array, arrays of lengths that don't fit together, an option out of its range, or that memory ran out.
pub fn check_profile(table: &Table, profile: Profile, options: &Options) -> Result<Verdict, Error> {
    let (data, chosen) = (profile.to_c()?, options.to_c());
    let Table { classes, bytes, rows, .. } = table;
    verdict(|result| unsafe {
        c::mte_tool_check_profile(&chosen, classes.as_ptr(), classes.len(), *bytes, rows.as_ptr(), rows.len(), &data, result)
    })
}

/// The same of a footprint over a history.
///
/// # Errors
/// The first fault of an array, arrays of lengths that don't fit together, an option out of its range, or that memory ran out.
pub fn check_fit_history(table: &Table, history: History, options: &Options) -> Result<Verdict, Error> {
    let (data, chosen) = (history.to_c()?, options.to_c());
    let Table { classes, bytes, rows, .. } = table;
    verdict(|result| unsafe {
        c::mte_tool_check_fit_history(&chosen, classes.as_ptr(), classes.len(), *bytes, rows.as_ptr(), rows.len(), &data, result)
    })
}

/// The same over a timeline, by the moments that the table names.
///
/// # Errors
/// The first fault of an array, arrays of lengths that don't fit together, an option out of its range, or that memory ran out.
pub fn check_fit_timeline(table: &Table, timeline: Timeline, options: &Options) -> Result<Verdict, Error> {
    let (data, chosen) = (timeline.to_c()?, options.to_c());
    let Table { classes, bytes, rows, moments, .. } = table;
    verdict(|result| unsafe {
        c::mte_tool_check_fit_timeline(
            &chosen,
            classes.as_ptr(),
            classes.len(),
            *bytes,
            rows.as_ptr(),
            rows.len(),
            moments.as_ptr(),
            moments.len(),
            &data,
            result,
        )
    })
}
