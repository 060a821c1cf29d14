//! The footprint of one class for the needs from one place to another, from a sum for each snapshot
//! that each place keeps.

use crate::history::{add, History};
use crate::sheet::LARGEST_CLASS;

/// The places of a history from place 0, which is below all needs, to the largest need.
pub struct HistorySpans {
    needs: Vec<u32>,
    // for each snapshot the blocks up to each place
    sums: Vec<Vec<u64>>,
}

impl HistorySpans {
    /// A need for each size, and for class 1024 if it is forced.
    pub fn new(history: &History, step: u32, forced: bool) -> HistorySpans {
        let mut spans = HistorySpans {
            needs: vec![0],
            sums: vec![vec![0]; history.snapshots],
        };
        let mut blocks = vec![0; history.snapshots];
        for (size, counts) in history.sizes() {
            let need = need_of(size, step);
            if need > spans.needs[spans.last()] {
                spans.push(need, &blocks);
            }
            add(&mut blocks, counts);
            spans.set_last(&blocks);
        }
        if forced && spans.needs[spans.last()] < LARGEST_CLASS {
            spans.push(LARGEST_CLASS, &blocks);
        }
        spans
    }

    fn push(&mut self, need: u32, blocks: &[u64]) {
        self.needs.push(need);
        for (sums, sum) in self.sums.iter_mut().zip(blocks) {
            sums.push(*sum);
        }
    }

    fn set_last(&mut self, blocks: &[u64]) {
        let last = self.last();
        for (sums, sum) in self.sums.iter_mut().zip(blocks) {
            sums[last] = *sum;
        }
    }

    /// The number of the last place.
    pub fn last(&self) -> usize {
        self.needs.len() - 1
    }

    /// The need at a place, in granules.
    pub fn need(&self, place: usize) -> u32 {
        self.needs[place]
    }

    /// The footprint of one class for the needs above place `i`.
    pub fn to_last(&self, i: usize) -> u64 {
        let blocks = self.sums.iter().map(|sums| sums[self.last()] - sums[i]);
        16 * u64::from(self.needs[self.last()]) * blocks.max().unwrap_or(0)
    }

    /// Writes the footprints of one class for the needs above place `i` up to each later place.
    pub fn write_from(&self, i: usize, costs: &mut [u64]) {
        let costs = &mut costs[i + 1..];
        costs.fill(0);
        for sums in &self.sums {
            let before = sums[i];
            for (cost, sum) in costs.iter_mut().zip(&sums[i + 1..]) {
                *cost = (*cost).max(sum - before);
            }
        }
        for (cost, need) in costs.iter_mut().zip(&self.needs[i + 1..]) {
            *cost *= 16 * u64::from(*need);
        }
    }
}

// the granules that a size needs with its header, rounded up to the step
fn need_of(size: usize, step: u32) -> u32 {
    let granules = 1 + ((size + 15) / 16).max(1) as u32;
    (granules + step - 1) / step * step
}
