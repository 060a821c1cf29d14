//! Profiles: how often each size was requested.

use crate::text::{push_number, Scanner};

/// The largest size that any class serves, in bytes.
pub const LARGEST: usize = 16 * 1024 - 16;

/// The most that a size is counted.
pub const GREATEST_COUNT: u64 = 1_000_000_000;

pub struct Profile {
    /// How often each size was requested.
    pub counts: Vec<u32>,
    /// How often a larger one was.
    pub large: u32,
}

impl Profile {
    pub fn new() -> Profile {
        Profile {
            counts: vec![0; LARGEST + 1],
            large: 0,
        }
    }

    /// Counts a request of `n` bytes.
    pub fn add(&mut self, n: u32) {
        match self.counts.get_mut(n as usize) {
            Some(count) => *count += 1,
            None => self.large += 1,
        }
    }

    /// Reads lines `SIZE COUNT`, ascending, and perhaps a line `large COUNT` after them.
    pub fn read(text: &mut Scanner) -> Option<Profile> {
        let mut profile = Profile::new();
        let mut next = 0;
        while text.len() > 0 {
            let size = match text.number() {
                Some(size) => size,
                None => {
                    text.expect(b"large ")?;
                    profile.large = read_count(text)?;
                    return (text.len() == 0).then_some(profile);
                }
            };
            if size < next || size > LARGEST as u64 {
                return None;
            }
            text.expect(b" ")?;
            profile.counts[size as usize] = read_count(text)?;
            next = size + 1;
        }
        Some(profile)
    }

    /// What is counted, in the words of a claim.
    pub fn counted(&self) -> String {
        let counts = self.counts.iter().map(|count| u64::from(*count));
        let sizes = counts.clone().filter(|count| *count > 0).count();
        let requests: u64 = counts.clone().sum();
        let bytes: u64 = (0..).zip(counts).map(|(size, count)| size * count).sum();
        let large = self.large;
        format!("sizes {sizes} requests {requests} bytes {bytes} large {large}")
    }

    pub fn write(&self, text: &mut Vec<u8>) {
        for (size, count) in self.counts.iter().enumerate() {
            if *count > 0 {
                push_number(text, size as u64);
                push_count(text, *count);
            }
        }
        if self.large > 0 {
            text.extend_from_slice(b"large");
            push_count(text, self.large);
        }
    }
}

// the count at the end of a line
fn read_count(text: &mut Scanner) -> Option<u32> {
    let count = text.number_to(GREATEST_COUNT)?;
    text.end_line()?;
    (count > 0).then_some(count as u32)
}

fn push_count(text: &mut Vec<u8>, count: u32) {
    text.push(b' ');
    push_number(text, u64::from(count));
    text.push(b'\n');
}
