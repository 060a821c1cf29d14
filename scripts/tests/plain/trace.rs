//! Events, a line for each.

use crate::lines::Line;
use crate::text::{push_hex, push_number};

/// Where an access is: a variable, and an offset from the address in it.
#[derive(Clone, Copy)]
pub struct Place(u32);

/// An event, in eight bytes.
#[derive(Clone, Copy)]
pub enum Event {
    Malloc { v: u16, n: u32 },
    Calloc { v: u16, n: u32 },
    Realloc { v: u16, n: u32 },
    Free { v: u16 },
    Load { at: Place, len: u8 },
    Store { at: Place, len: u8, byte: u8 },
    Addg { v: u16, w: u16, u6: u8, u4: u8 },
    Subg { v: u16, w: u16, u6: u8, u4: u8 },
}

const MOST_VARIABLE: u32 = 1023;
const MOST_OFFSET: u32 = 1_048_576;

impl Place {
    pub fn new(v: u16, off: i32) -> Place {
        Place(u32::from(v) << 22 | (off + MOST_OFFSET as i32) as u32)
    }

    pub fn v(self) -> u16 {
        (self.0 >> 22) as u16
    }

    pub fn off(self) -> i32 {
        (self.0 & 0x3f_ffff) as i32 - MOST_OFFSET as i32
    }
}

// the first four letters of an event as the word that they are in a text
const fn four(letters: &[u8; 4]) -> u32 {
    u32::from_le_bytes(*letters)
}

const MALLOC: u32 = four(b"mall");
const CALLOC: u32 = four(b"call");
const REALLOC: u32 = four(b"real");
const FREE: u32 = four(b"free");
const LOAD: u32 = four(b"load");
const STORE: u32 = four(b"stor");
const ADDG: u32 = four(b"addg");
const SUBG: u32 = four(b"subg");

impl Event {
    /// The event that the first line of a text spells, and how many bytes the line has with its
    /// newline. A valid line has at most 26, and the text goes on for 40 bytes after it.
    #[inline(always)]
    pub fn read(text: &[u8]) -> Option<(Event, usize)> {
        let mut line = Line::new(text)?;
        let event = match u32::from_le_bytes(line.take()?) {
            LOAD => {
                line.expect(b" ")?;
                let (at, len) = read_range(&mut line, b'\n')?;
                Event::Load { at, len }
            }
            STORE => {
                line.expect(b"e ")?;
                let (at, len) = read_range(&mut line, b' ')?;
                let byte = line.hex_byte()?;
                line.expect(b"\n")?;
                Event::Store { at, len, byte }
            }
            MALLOC => {
                line.expect(b"oc ")?;
                let (v, n) = read_request(&mut line)?;
                Event::Malloc { v, n }
            }
            FREE => {
                line.expect(b" ")?;
                let v = line.number(b'\n', MOST_VARIABLE)? as u16;
                Event::Free { v }
            }
            REALLOC => {
                line.expect(b"loc ")?;
                let (v, n) = read_request(&mut line)?;
                Event::Realloc { v, n }
            }
            CALLOC => {
                line.expect(b"oc ")?;
                let (v, n) = read_request(&mut line)?;
                Event::Calloc { v, n }
            }
            ADDG => {
                line.expect(b" ")?;
                let (v, w, u6, u4) = read_moves(&mut line)?;
                Event::Addg { v, w, u6, u4 }
            }
            SUBG => {
                line.expect(b" ")?;
                let (v, w, u6, u4) = read_moves(&mut line)?;
                Event::Subg { v, w, u6, u4 }
            }
            _ => return None,
        };
        Some((event, line.len()))
    }

    /// The size that the event requests.
    pub fn request(&self) -> Option<u32> {
        match *self {
            Event::Malloc { n, .. } | Event::Calloc { n, .. } | Event::Realloc { n, .. } => Some(n),
            _ => None,
        }
    }

    /// Appends the event's line.
    pub fn write(&self, text: &mut Vec<u8>) {
        match *self {
            Event::Malloc { v, n } => push_words(text, b"malloc", &[v as i64, n as i64]),
            Event::Calloc { v, n } => push_words(text, b"calloc", &[v as i64, n as i64]),
            Event::Realloc { v, n } => push_words(text, b"realloc", &[v as i64, n as i64]),
            Event::Free { v } => push_words(text, b"free", &[v as i64]),
            Event::Load { at, len } => {
                push_words(text, b"load", &[at.v() as i64, at.off() as i64, len as i64])
            }
            Event::Store { at, len, byte } => {
                push_words(
                    text,
                    b"store",
                    &[at.v() as i64, at.off() as i64, len as i64],
                );
                text.push(b' ');
                push_hex(text, &[byte; 16], 1);
            }
            Event::Addg { v, w, u6, u4 } => {
                push_words(text, b"addg", &[v as i64, w as i64, u6 as i64, u4 as i64])
            }
            Event::Subg { v, w, u6, u4 } => {
                push_words(text, b"subg", &[v as i64, w as i64, u6 as i64, u4 as i64])
            }
        }
        text.push(b'\n');
    }
}

#[inline(always)]
fn read_request(line: &mut Line) -> Option<(u16, u32)> {
    let v = line.number(b' ', MOST_VARIABLE)? as u16;
    let n = line.number(b'\n', 2_147_483_647)?;
    Some((v, n))
}

// a variable, an offset and a length, and the byte after them
#[inline(always)]
fn read_range(line: &mut Line, after: u8) -> Option<(Place, u8)> {
    let v = line.number(b' ', MOST_VARIABLE)? as u16;
    let below = line.next()? == *b"-";
    if below {
        line.expect(b"-")?;
    }
    let off = line.number(b' ', MOST_OFFSET)? as i32;
    let len = line.number(after, 64)? as u8;
    if len == 0 || (below && off == 0) {
        return None;
    }
    Some((Place::new(v, if below { -off } else { off }), len))
}

fn read_moves(line: &mut Line) -> Option<(u16, u16, u8, u8)> {
    let v = line.number(b' ', MOST_VARIABLE)? as u16;
    let w = line.number(b' ', MOST_VARIABLE)? as u16;
    let u6 = line.number(b' ', 63)? as u8;
    let u4 = line.number(b'\n', 15)? as u8;
    Some((v, w, u6, u4))
}

fn push_words(text: &mut Vec<u8>, name: &[u8], numbers: &[i64]) {
    text.extend_from_slice(name);
    for number in numbers {
        text.extend_from_slice(if *number < 0 { b" -" } else { b" " });
        push_number(text, number.unsigned_abs());
    }
}
