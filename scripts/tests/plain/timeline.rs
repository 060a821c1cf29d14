//! Timelines: the requests and frees of a run in their order, by size; and the table of least
//! footprint over every moment of one.

use crate::fitter;
use crate::history::{History, MOST_SNAPSHOTS};
use crate::profile::{GREATEST_COUNT, LARGEST};
use crate::sheet::{push_line, Sheet};
use crate::text::Scanner;

/// The first line of a timeline.
pub const TIMELINE: &[u8] = b"timeline";

// larger sizes go by the next one
const LARGE: usize = LARGEST + 1;

const ROUNDS: usize = 1024;

pub struct Timeline {
    // a request as its size, a free as the bits of its size turned over
    events: Vec<i16>,
}

/// What `fit` finds over a timeline.
pub enum Found {
    /// The fit over some moments, which no table betters over all.
    Least(Sheet, Vec<usize>),
    /// The best table that was tried with what it takes, and a bound of all tables.
    Between(Vec<u32>, u64, u64),
}

/// Whether a text is a timeline, by its first line.
pub fn is_timeline(text: &[u8]) -> bool {
    text.split(|byte| *byte == b'\n').next() == Some(TIMELINE)
}

impl Timeline {
    /// Reads `timeline`, and then lines `N`, `-N`, `large` and `-large`.
    pub fn read(text: &mut Scanner) -> Option<Timeline> {
        text.expect(TIMELINE)?;
        text.end_line()?;
        let mut live = vec![0_u32; LARGE + 1];
        let mut events = Vec::new();
        while text.len() > 0 {
            let is_free = text.skip(b"-");
            let size = if text.skip(b"large") {
                LARGE
            } else {
                text.number_to(LARGEST as u64)? as usize
            };
            text.end_line()?;
            if is_free {
                live[size] = live[size].checked_sub(1)?;
                events.push(!(size as i16));
            } else {
                live[size] += 1;
                events.push(size as i16);
            }
        }
        Some(Timeline { events })
    }

    /// What is counted, in the words of a claim.
    pub fn counted_words(&self) -> String {
        format!("events {}", self.events.len())
    }

    // each event that is counted: its size, and whether it is a free
    fn counted(&self) -> impl Iterator<Item = (usize, bool)> + '_ {
        let split = |event: &i16| match *event {
            n if n < 0 => (!n as usize, true),
            n => (n as usize, false),
        };
        self.events.iter().map(split)
    }

    /// What a table takes over every moment. Or the least counted size that no class serves.
    pub fn footprint(&self, classes: &[u32]) -> Result<u64, usize> {
        match self.unserved(classes) {
            Some(size) => Err(size),
            None => Ok(self.peaks(classes).0),
        }
    }

    fn unserved(&self, classes: &[u32]) -> Option<usize> {
        let last = classes.last().map(|class| 16 * *class as usize - 16);
        let requests = self.counted().filter(|(_, is_free)| !is_free);
        let sizes = requests.map(|(size, _)| size);
        sizes
            .filter(|size| *size != LARGE && last.map_or(true, |last| *size > last))
            .min()
    }

    // what the classes take, and for each the first moment at which most of its blocks are live
    fn peaks(&self, classes: &[u32]) -> (u64, Vec<usize>) {
        let class_of = class_numbers(classes);
        // the last is for what has no class
        let mut live = vec![0_u32; classes.len() + 1];
        let mut most = live.clone();
        let mut firsts = vec![0; classes.len() + 1];
        for (at, (size, is_free)) in self.counted().enumerate() {
            let number = class_of[size];
            if is_free {
                live[number] -= 1;
            } else {
                live[number] += 1;
                if live[number] > most[number] {
                    (most[number], firsts[number]) = (live[number], at + 1);
                }
            }
        }
        firsts.truncate(classes.len());
        let blocks = classes.iter().zip(&most);
        let bytes = blocks.map(|(class, most)| 16 * u64::from(*class) * u64::from(*most));
        (bytes.sum(), firsts)
    }

    /// The lines of what the blocks of a table come to. Or the least counted size that no class serves.
    pub fn table_peaks(&self, classes: &[u32]) -> Result<Vec<u8>, usize> {
        if let Some(size) = self.unserved(classes) {
            return Err(size);
        }
        let class_of = class_numbers(classes);
        // the last is for what has no class, which counts for nothing
        let mut live = vec![0_u64; classes.len() + 1];
        let mut most = live.clone();
        let mut firsts = live.clone();
        let (mut bytes, mut most_bytes) = (0, 0);
        let (mut free, mut most_free) = (0_u64, 0);
        for (at, (size, is_free)) in self.counted().enumerate() {
            let number = class_of[size];
            let Some(class) = classes.get(number) else {
                continue;
            };
            if is_free {
                live[number] -= 1;
                bytes -= 16 * u64::from(*class);
                free += 1;
            } else {
                live[number] += 1;
                bytes += 16 * u64::from(*class);
                if live[number] > most[number] {
                    (most[number], firsts[number]) = (live[number], at as u64 + 1);
                } else {
                    free -= 1;
                }
            }
            (most_bytes, most_free) = (most_bytes.max(bytes), most_free.max(free));
        }
        let mut text = Vec::new();
        push_line(&mut text, b"peaks", &most[..classes.len()]);
        push_line(&mut text, b"moments", &firsts[..classes.len()]);
        push_line(&mut text, b"live", &[most_bytes]);
        push_line(&mut text, b"freed", &[most_free]);
        Ok(text)
    }

    // the first moment at which a block of the largest counted size is live
    fn largest_moment(&self) -> usize {
        let (mut largest, mut moment) = (None, 0);
        for (at, (size, is_free)) in self.counted().enumerate() {
            if !is_free && size != LARGE && largest.map_or(true, |largest| size > largest) {
                (largest, moment) = (Some(size), at + 1);
            }
        }
        moment
    }

    // the history of some moments, which ascend
    fn history(&self, moments: &[usize]) -> History {
        let mut sizes: Vec<usize> = self.counted().map(|(size, _)| size).collect();
        sizes.sort_unstable();
        sizes.dedup();
        let mut live = vec![0_u32; LARGE + 1];
        let mut columns = Vec::new();
        let mut events = self.counted();
        let mut passed = 0;
        for moment in moments {
            for (size, is_free) in events.by_ref().take(moment - passed) {
                if is_free {
                    live[size] -= 1;
                } else {
                    live[size] += 1;
                }
            }
            passed = *moment;
            columns.push(sizes.iter().map(|size| live[*size]).collect());
        }
        History::of_columns(&sizes, &columns)
    }

    /// The table of least footprint over every moment. It is fitted over some moments, to which those
    /// are added at which it takes more.
    pub fn fit(&self, limit: usize, step: u32, forced: bool) -> Found {
        let kept = self.largest_moment();
        let mut moments = vec![kept];
        let mut best: Option<(Vec<u32>, u64)> = None;
        let mut bound = 0;
        for _ in 0..ROUNDS {
            let fit = fitter::fit(&self.history(&moments), limit, step, forced);
            let (takes, firsts) = self.peaks(&fit.classes);
            if takes == fit.cost {
                return Found::Least(fit, moments);
            }
            if moments.len() > MOST_SNAPSHOTS as usize - firsts.len() {
                moments = vec![kept];
            }
            moments.extend(firsts);
            moments.sort_unstable();
            moments.dedup();
            bound = bound.max(fit.cost);
            if best.as_ref().map_or(true, |(_, least)| takes < *least) {
                best = Some((fit.classes, takes));
            }
        }
        let (classes, takes) = best.unwrap_or_default();
        Found::Between(classes, takes, bound)
    }

    /// The first condition that a fit over these moments breaks, as its code and name.
    pub fn refusal(&self, moments: &[usize], fit: &Sheet) -> Option<&'static str> {
        if moments.iter().any(|moment| *moment > self.events.len()) {
            return Some("53 NotMoments");
        }
        fitter::refusal(&self.history(moments), fit).or(match self.footprint(&fit.classes) {
            Err(_) => Some("41 NotServing"),
            Ok(footprint) => (footprint != fit.cost).then_some("49 FootprintWrong"),
        })
    }
}

// the number of the class of each size, and as many as there are where it has none
fn class_numbers(classes: &[u32]) -> Vec<usize> {
    let mut class_of = vec![classes.len(); LARGE + 1];
    let mut from = 0;
    for (number, class) in classes.iter().enumerate() {
        let end = 16 * *class as usize - 15;
        class_of[from..end].fill(number);
        from = end;
    }
    class_of
}

/// Reads the line that names the moments of a fit, if it comes next; the line itself may be faulty.
pub fn read_moments(text: &mut Scanner) -> Option<Option<Vec<usize>>> {
    if !text.skip(b"moments ") {
        return Some(None);
    }
    let mut moments = Vec::new();
    let mut next = 0;
    while moments.len() < MOST_SNAPSHOTS as usize {
        let number = text.number_to(GREATEST_COUNT).filter(|n| *n >= next)?;
        moments.push(number as usize);
        next = number + 1;
        if !text.skip(b" ") {
            text.end_line()?;
            return Some(Some(moments));
        }
    }
    None
}
