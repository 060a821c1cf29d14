//! Seeded events: chunks at 1,024 variables that are filled, read, resized and freed, and some
//! calls that are refused.

use crate::trace::{Event, Place};

pub struct Generator {
    state: u64,
    held: [bool; 1024],
    sizes: [u32; 1024],
}

impl Generator {
    /// The events of a seed other than 0.
    pub fn new(seed: u64) -> Generator {
        let state = seed.wrapping_mul(0x9E37_79B9_7F4A_7C15);
        Generator {
            state,
            held: [false; 1024],
            sizes: [0; 1024],
        }
    }

    pub fn next_event(&mut self) -> Event {
        let mut s = self.state;
        s ^= s << 13;
        s ^= s >> 7;
        s ^= s << 17;
        self.state = s;
        let v = (s & 1023) as u16;
        let k = s >> 10 & 15;
        let n = (((s >> 14 & 1023) * (s >> 24 & 1023)) >> 10) as u32;
        let c = (s >> 34 & 63) as u8;
        let d = (s >> 40 & 1023) as u32;
        let byte = (s >> 50 & 255) as u8;
        let e = s >> 58 & 31;
        let place = v as usize;
        if !self.held[place] {
            match e {
                0 => return Event::Free { v },
                1 => {
                    let at = Place::new(v, 0);
                    return Event::Load { at, len: 8 };
                }
                _ => {}
            }
            self.held[place] = true;
            self.sizes[place] = n;
            return if k < 12 {
                Event::Malloc { v, n }
            } else {
                Event::Calloc { v, n }
            };
        }
        if k < 3 {
            self.held[place] = false;
            return Event::Free { v };
        }
        if k < 5 {
            self.sizes[place] = n;
            return Event::Realloc { v, n };
        }
        let len = if e < 8 { 1 + c } else { 1 + (c & 15) };
        let room = self.sizes[place].saturating_sub(len as u32);
        let off = (d % (room + 1) + if e == 31 { 16 } else { 0 }) as i32;
        let at = Place::new(v, off);
        if k < 11 {
            Event::Load { at, len }
        } else {
            Event::Store { at, len, byte }
        }
    }
}
