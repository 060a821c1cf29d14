//! `score`: what a class table wastes on a profile.

use crate::profile::Profile;
use crate::text::Scanner;

/// The classes of a class line, in granules.
pub fn read_classes(text: &mut Scanner) -> Option<Vec<u32>> {
    let mut classes = Vec::new();
    let mut below = 1;
    text.expect(b"classes")?;
    while text.skip(b" ") {
        let class = text.number_to(1024)? as u32;
        if class <= below || classes.len() == 32 {
            return None;
        }
        classes.push(class);
        below = class;
    }
    text.end_line()?;
    Some(classes)
}

/// The bytes that a table loses by rounding the requests up, or the least counted size that no
/// class serves.
pub fn waste(classes: &[u32], profile: &Profile) -> Result<u64, usize> {
    let mut waste = 0;
    let mut start = 0;
    for class in classes {
        let end = 16 * *class as usize - 15;
        for (n, count) in (start..end).zip(&profile.counts[start..end]) {
            waste += u64::from(*count) * (end - 1 - n) as u64;
        }
        start = end;
    }
    match profile.counts[start..].iter().position(|count| *count > 0) {
        Some(above) => Err(start + above),
        None => Ok(waste),
    }
}
