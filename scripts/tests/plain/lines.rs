//! The lines of standard input, and the words of a short line.

use crate::faults::{Fault, INPUT_TOO_LONG, READ_FAULT};
use crate::text::{hex_byte, Scanner, LONGEST_INPUT, PIECE};
use std::io::Read;

// so many bytes can be read after each line that `each_line` hands out
const SPARE: usize = 40;

/// Hands the lines of standard input to `take`, one by one: the text from a line on, which has its
/// newline and at least 40 bytes after it, and the line's number. It returns how many bytes the line
/// has with its newline, or nothing where the line is faulty; `fault` then says what is wrong with
/// it. The rest is read nonetheless, since a longer input has another fault. Kept are one piece and
/// an unfinished line.
pub fn each_line(
    mut take: impl FnMut(&[u8], usize) -> Option<usize>,
    fault: impl Fn(&[u8], usize) -> Fault,
) -> Result<(), Fault> {
    let mut input = std::io::stdin().lock();
    let mut piece = vec![0; PIECE];
    let (mut read, mut lines, mut kept) = (0, 0, 0);
    let mut found = Ok(());
    loop {
        if kept + SPARE >= piece.len() {
            piece.resize(2 * piece.len(), 0);
        }
        let room = piece.len() - SPARE;
        let n = input.read(&mut piece[kept..room]).map_err(|_| READ_FAULT)?;
        read += n;
        if read > LONGEST_INPUT {
            return Err(INPUT_TOO_LONG);
        }
        let last = piece[kept..kept + n]
            .iter()
            .rposition(|byte| *byte == b'\n');
        let mut end = last.map_or(0, |last| kept + last + 1);
        kept += n;
        if n == 0 && kept > 0 {
            // the last line lacks its newline
            piece[kept] = b'\n';
            end = kept + 1;
        }
        if found.is_ok() {
            found = take_lines(&piece[..end + SPARE], &mut lines, &mut take, &fault);
        }
        if n == 0 {
            return found;
        }
        if found.is_err() {
            end = kept;
        }
        piece.copy_within(end..kept, 0);
        kept -= end;
    }
}

fn take_lines(
    mut text: &[u8],
    lines: &mut usize,
    take: &mut impl FnMut(&[u8], usize) -> Option<usize>,
    fault: &impl Fn(&[u8], usize) -> Fault,
) -> Result<(), Fault> {
    while text.len() > SPARE {
        *lines += 1;
        let len = take(text, *lines).ok_or_else(|| fault(first_line(text), *lines))?;
        text = &text[len..];
    }
    Ok(())
}

// the first line of a text, without its newline
fn first_line(text: &[u8]) -> &[u8] {
    text.split(|byte| *byte == b'\n').next().unwrap_or(text)
}

/// The first bytes of a line and of what follows it, read word by word.
pub struct Line<'a> {
    bytes: &'a [u8; SPARE],
    at: u32,
}

impl<'a> Line<'a> {
    #[inline(always)]
    pub fn new(text: &'a [u8]) -> Option<Line<'a>> {
        let bytes = text.get(..SPARE)?.try_into().ok()?;
        Some(Line { bytes, at: 0 })
    }

    /// The bytes that were read.
    #[inline(always)]
    pub fn len(&self) -> usize {
        self.at as usize
    }

    /// The next bytes, which are not passed over.
    #[inline(always)]
    pub fn next<const N: usize>(&self) -> Option<[u8; N]> {
        let from = self.at as usize;
        self.bytes.get(from..from + N)?.try_into().ok()
    }

    /// The next bytes.
    #[inline(always)]
    pub fn take<const N: usize>(&mut self) -> Option<[u8; N]> {
        let taken = self.next()?;
        self.at += N as u32;
        Some(taken)
    }

    /// Passes over these bytes, which must come next.
    #[inline(always)]
    pub fn expect<const N: usize>(&mut self, bytes: &[u8; N]) -> Option<()> {
        (self.take()? == *bytes).then_some(())
    }

    /// The byte that comes next as two hexadecimal digits.
    #[inline(always)]
    pub fn hex_byte(&mut self) -> Option<u8> {
        hex_byte(&self.take::<2>()?)
    }

    /// The number that comes next, which is at most `most`. Passes over it and the byte after it,
    /// which must be `after`.
    #[inline(always)]
    pub fn number(&mut self, after: u8, most: u32) -> Option<u32> {
        let [first, second, third, fourth] = self.next::<4>()?;
        let (n, len) = if second == after {
            (digit(first)?, 1)
        } else if third == after {
            (10 * first_digit(first)? + digit(second)?, 2)
        } else if fourth == after {
            let tens = 10 * first_digit(first)? + digit(second)?;
            (10 * tens + digit(third)?, 3)
        } else {
            long_number(&self.bytes[self.at as usize..], after)?
        };
        self.at += len + 1;
        (n <= most).then_some(n)
    }
}

#[inline(always)]
fn digit(byte: u8) -> Option<u32> {
    let n = byte.wrapping_sub(b'0');
    (n < 10).then_some(u32::from(n))
}

// a digit that others follow
#[inline(always)]
fn first_digit(byte: u8) -> Option<u32> {
    let above = byte.wrapping_sub(b'1');
    (above < 9).then_some(u32::from(above) + 1)
}

// a number at the front of a text, and how many digits it has; `after` comes after it
#[inline(never)]
fn long_number(text: &[u8], after: u8) -> Option<(u32, u32)> {
    let mut digits = Scanner::new(text);
    let n = digits.number_to(u64::from(u32::MAX))?;
    let len = digits.passed();
    digits.expect(&[after])?;
    Some((n as u32, len as u32))
}
