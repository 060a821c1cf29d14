//! What it wastes to serve the needs from one place to another by one class, from two sums that
//! each place keeps.

use crate::profile::Profile;
use crate::sheet::LARGEST_CLASS;
use std::ops::Range;

/// A need with requests, and the sums up to it.
struct Place {
    need: u32,
    payload: u64,
    requests: u64,
    bytes: u64,
}

/// The places of a profile from place 0, which is below all needs, to the largest need.
pub struct Spans {
    places: Vec<Place>,
}

impl Spans {
    /// Each multiple of the step up to 1024 granules is a need; it is one of the profile where a
    /// request needs it, and so is the last if its class is forced.
    pub fn new(profile: &Profile, step: u32, forced: bool) -> Spans {
        let mut places = vec![Place {
            need: 0,
            payload: 0,
            requests: 0,
            bytes: 0,
        }];
        let (mut requests, mut bytes) = (0, 0);
        let mut start = 0;
        for need in (step.max(2)..=LARGEST_CLASS).step_by(step as usize) {
            let end = 16 * need as usize - 15;
            let before = requests;
            for (n, count) in (start..end).zip(&profile.counts[start..end]) {
                requests += u64::from(*count);
                bytes += u64::from(*count) * n as u64;
            }
            if requests > before || (forced && need == LARGEST_CLASS) {
                places.push(Place {
                    need,
                    payload: 16 * u64::from(need) - 16,
                    requests,
                    bytes,
                });
            }
            start = end;
        }
        Spans { places }
    }

    /// The number of the last place.
    pub fn last(&self) -> usize {
        self.places.len() - 1
    }

    /// The need at a place, in granules.
    pub fn need(&self, place: usize) -> u32 {
        self.places[place].need
    }

    /// What the requests above place `i` up to place `j` lose in the class of place `j`.
    pub fn waste(&self, i: usize, j: usize) -> u64 {
        waste_between(&self.places[i], &self.places[j])
    }

    /// The least waste from place `i` on, and the least end that has it: one class up to one of
    /// these ends, and `rests` from there on.
    #[inline]
    pub fn least_end(&self, i: usize, ends: Range<usize>, rests: &[u64]) -> (u64, usize) {
        let from = &self.places[i];
        let (mut least, mut end) = (u64::MAX, ends.start);
        let places = &self.places[ends.clone()];
        for (j, (to, rest)) in ends.clone().zip(places.iter().zip(&rests[ends])) {
            let waste = waste_between(from, to) + rest;
            if waste < least {
                (least, end) = (waste, j);
            }
        }
        (least, end)
    }
}

fn waste_between(from: &Place, to: &Place) -> u64 {
    to.payload * (to.requests - from.requests) - (to.bytes - from.bytes)
}
