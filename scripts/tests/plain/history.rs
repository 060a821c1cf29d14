//! Histories: the blocks that were live at some snapshots, by size.

use crate::profile::{GREATEST_COUNT, LARGEST};
use crate::text::Scanner;

/// The most snapshots of a history.
pub const MOST_SNAPSHOTS: u64 = 1024;

pub struct History {
    /// How many snapshots there are.
    pub snapshots: usize,
    sizes: Vec<usize>,
    // for each of these sizes its count at each snapshot
    counts: Vec<u32>,
}

impl History {
    /// Reads `snapshots T`, then lines `SIZE N1 .. NT`, ascending, and perhaps a line
    /// `large N1 .. NT` after them.
    pub fn read(text: &mut Scanner) -> Option<History> {
        text.expect(b"snapshots ")?;
        let snapshots = text.number_to(MOST_SNAPSHOTS).filter(|count| *count > 0)? as usize;
        text.end_line()?;
        let mut history = History {
            snapshots,
            sizes: Vec::new(),
            counts: Vec::new(),
        };
        let mut next = 0;
        while text.len() > 0 {
            if text.skip(b"large") {
                read_counts(text, snapshots, |_| ())?;
                return (text.len() == 0).then_some(history);
            }
            let size = text.number_to(LARGEST as u64)?;
            if size < next {
                return None;
            }
            history.sizes.push(size as usize);
            read_counts(text, snapshots, |count| history.counts.push(count))?;
            next = size + 1;
        }
        Some(history)
    }

    /// The history of these snapshots, each with a count for every one of these sizes, which ascend;
    /// large ones count for nothing.
    pub fn of_columns(sizes: &[usize], columns: &[Vec<u32>]) -> History {
        let mut history = History {
            snapshots: columns.len(),
            sizes: Vec::new(),
            counts: Vec::new(),
        };
        for (at, size) in sizes.iter().enumerate() {
            if *size <= LARGEST && columns.iter().any(|column| column[at] > 0) {
                history.sizes.push(*size);
                history
                    .counts
                    .extend(columns.iter().map(|column| column[at]));
            }
        }
        history
    }

    /// What is counted, in the words of a claim.
    pub fn counted(&self) -> String {
        format!("snapshots {}", self.snapshots)
    }

    /// The counted sizes, ascending, each with its count at each snapshot.
    pub fn sizes(&self) -> impl Iterator<Item = (usize, &[u32])> {
        let counts = self.counts.chunks_exact(self.snapshots);
        self.sizes.iter().copied().zip(counts)
    }

    /// What a table takes: for each class the bytes of a block times the most blocks that are live
    /// at one snapshot. Or the least counted size that no class serves.
    pub fn footprint(&self, classes: &[u32]) -> Result<u64, usize> {
        let mut footprint = 0;
        let mut blocks = vec![0; self.snapshots];
        let mut sizes = self.sizes().peekable();
        for class in classes {
            let payload = 16 * *class as usize - 16;
            blocks.fill(0);
            while let Some((_, counts)) = sizes.next_if(|(size, _)| *size <= payload) {
                add(&mut blocks, counts);
            }
            footprint += 16 * u64::from(*class) * blocks.iter().max().unwrap_or(&0);
        }
        match sizes.next() {
            Some((size, _)) => Err(size),
            None => Ok(footprint),
        }
    }
}

/// Adds the counts of a size to those of others.
pub fn add(blocks: &mut [u64], counts: &[u32]) {
    for (sum, count) in blocks.iter_mut().zip(counts) {
        *sum += u64::from(*count);
    }
}

// the counts at the end of a line, not all of them 0
fn read_counts(text: &mut Scanner, snapshots: usize, mut take: impl FnMut(u32)) -> Option<()> {
    let mut any = 0;
    for _ in 0..snapshots {
        text.expect(b" ")?;
        let count = text.number_to(GREATEST_COUNT)? as u32;
        any |= count;
        take(count);
    }
    text.end_line()?;
    (any > 0).then_some(())
}
