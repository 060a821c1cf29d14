//! Text in and out: standard input, words and numbers.

use crate::faults::{Fault, INPUT_TOO_LONG, READ_FAULT};
use std::io::Read;

/// So many bytes are read at once.
pub const PIECE: usize = 65_536;

pub const LONGEST_INPUT: usize = 67_108_864;

// so many digits always fit 64 bits
const MOST_DIGITS: usize = 19;

/// All of standard input.
pub fn read_all() -> Result<Vec<u8>, Fault> {
    let mut input = std::io::stdin().lock();
    let mut piece = vec![0; PIECE];
    let mut text = Vec::new();
    loop {
        match input.read(&mut piece).map_err(|_| READ_FAULT)? {
            0 => return Ok(text),
            n if text.len() + n > LONGEST_INPUT => return Err(INPUT_TOO_LONG),
            n => text.extend_from_slice(&piece[..n]),
        }
    }
}

/// Reads the first of two texts, and gives what is left for the second. The first one is so many
/// lines and nothing else, or what `read` reads where they are 0.
pub fn read_first<'a, T>(
    input: &'a [u8],
    lines: usize,
    read: impl FnOnce(&mut Scanner<'a>) -> Option<T>,
) -> Option<(T, Scanner<'a>)> {
    if lines == 0 {
        let mut text = Scanner::new(input);
        return Some((read(&mut text)?, text));
    }
    let (first, rest) = input.split_at(end_of_lines(input, lines)?);
    let mut text = Scanner::new(first);
    let value = read(&mut text)?;
    (text.len() == 0).then_some((value, Scanner::new(rest)))
}

// where so many lines end, of which the last may lack its newline
fn end_of_lines(text: &[u8], lines: usize) -> Option<usize> {
    let mut ends = text.split_inclusive(|byte| *byte == b'\n');
    let first: Vec<usize> = ends.by_ref().take(lines).map(<[u8]>::len).collect();
    (first.len() == lines).then_some(first.iter().sum())
}

/// The byte that a word of two hexadecimal digits spells.
pub fn hex_byte(word: &[u8]) -> Option<u8> {
    match word {
        [high, low] => Some(16 * hex_digit(*high)? + hex_digit(*low)?),
        _ => None,
    }
}

/// Reads a text from its front.
pub struct Scanner<'a> {
    text: &'a [u8],
    at: usize,
}

impl<'a> Scanner<'a> {
    pub fn new(text: &'a [u8]) -> Scanner<'a> {
        Scanner { text, at: 0 }
    }

    /// How many bytes are left.
    pub fn len(&self) -> usize {
        self.text.len() - self.at
    }

    /// Passes over these bytes where they come next, and says whether they do.
    #[inline]
    pub fn skip(&mut self, bytes: &[u8]) -> bool {
        let next = self.text.get(self.at..self.at + bytes.len());
        let found = next == Some(bytes);
        if found {
            self.at += bytes.len();
        }
        found
    }

    /// Passes over these bytes, which must come next.
    #[inline]
    pub fn expect(&mut self, bytes: &[u8]) -> Option<()> {
        self.skip(bytes).then_some(())
    }

    /// Passes over the newline that ends a line; the last line may lack it.
    #[inline]
    pub fn end_line(&mut self) -> Option<()> {
        if self.at == self.text.len() {
            return Some(());
        }
        self.expect(b"\n")
    }

    /// How many bytes were read.
    pub fn passed(&self) -> usize {
        self.at
    }

    /// The bytes that are left.
    pub fn rest(&self) -> &'a [u8] {
        &self.text[self.at..]
    }

    /// The next eight bytes as a word, the first one lowest. What is after the end is 0.
    #[inline]
    pub fn word(&self) -> u64 {
        self.word_at(self.at)
    }

    #[inline]
    fn word_at(&self, from: usize) -> u64 {
        match self.text.get(from..from + 8) {
            Some(bytes) => u64::from_le_bytes(bytes.try_into().unwrap()),
            None => self.last_word(from),
        }
    }

    #[cold]
    fn last_word(&self, from: usize) -> u64 {
        let last = &self.text[from..];
        let mut bytes = [0; 8];
        bytes[..last.len()].copy_from_slice(last);
        u64::from_le_bytes(bytes)
    }

    /// The number that comes next: digits with no 0 in front of others, and below 2^64. What is no such
    /// number is not passed over.
    #[inline]
    pub fn number(&mut self) -> Option<u64> {
        let word = self.word();
        let (mut len, mut n) = digits_in(word);
        let mut more = len;
        while more == 8 {
            let (next, low) = digits_in(self.word_at(self.at + len));
            n = n.wrapping_mul(TENS[next]).wrapping_add(low);
            len += next;
            more = next;
        }
        if len == 0 || len > MOST_DIGITS || (len > 1 && word as u8 == b'0') {
            return self.odd_number(len);
        }
        self.at += len;
        Some(n)
    }

    // the number of so many digits, where they are none, begin with a 0 or may not fit 64 bits
    #[cold]
    fn odd_number(&mut self, len: usize) -> Option<u64> {
        let digits = &self.text[self.at..self.at + len];
        if digits.is_empty() || digits[0] == b'0' {
            return None;
        }
        let n = std::str::from_utf8(digits).ok()?.parse().ok()?;
        self.at += len;
        Some(n)
    }

    /// The number that comes next, which is at most `most`.
    #[inline]
    pub fn number_to(&mut self, most: u64) -> Option<u64> {
        self.number().filter(|n| *n <= most)
    }
}

/// The digit 0 eight times.
pub const ZERO_DIGITS: u64 = 0x3030_3030_3030_3030;

// 10 to each power that a word of digits can have
const TENS: [u64; 9] = [
    1,
    10,
    100,
    1_000,
    10_000,
    100_000,
    1_000_000,
    10_000_000,
    100_000_000,
];

// how many digits a word begins with, and the number that they spell
#[inline]
fn digits_in(word: u64) -> (usize, u64) {
    let digits = word ^ ZERO_DIGITS;
    match end_of_digits(digits) {
        0 => (0, 0),
        bits => (bits as usize / 8, spelled(digits, bits)),
    }
}

// how many bits of a word the digits before the first other byte take
#[inline(always)]
fn end_of_digits(digits: u64) -> u32 {
    // a byte has its high bit if it is above 9 and all before it are not
    let others = (digits.wrapping_add(0x7676_7676_7676_7676) | digits) & 0x8080_8080_8080_8080;
    others.trailing_zeros() & !7
}

// the number that the digits in the first bits spell: they are moved to the end, behind zeros, and
// added up to four pairs, two fours and one number
#[inline(always)]
fn spelled(digits: u64, bits: u32) -> u64 {
    let n = digits.wrapping_shl(64 - bits);
    let n = (10 * n + (n >> 8)) & 0x00ff_00ff_00ff_00ff;
    let n = (100 * n + (n >> 16)) & 0x0000_ffff_0000_ffff;
    (10_000 * n + (n >> 32)) & 0xffff_ffff
}

fn hex_digit(byte: u8) -> Option<u8> {
    match byte {
        b'0'..=b'9' => Some(byte - b'0'),
        b'a'..=b'f' => Some(byte - b'a' + 10),
        _ => None,
    }
}

/// Appends a number in decimal digits.
#[inline]
pub fn push_number(text: &mut Vec<u8>, n: u64) {
    if n >= TENS[8] {
        push_number_above(text, n);
    } else {
        let digits = digits_of(n);
        let zeros = (digits | 1 << 56).trailing_zeros() / 8;
        let spelled = (digits | ZERO_DIGITS) >> (8 * zeros);
        push_first(text, &spelled.to_le_bytes(), 8 - zeros as usize);
    }
}

// a number of more than eight digits
fn push_number_above(text: &mut Vec<u8>, n: u64) {
    push_number(text, n / TENS[8]);
    let digits = digits_of(n % TENS[8]) | ZERO_DIGITS;
    text.extend_from_slice(&digits.to_le_bytes());
}

// the eight digits of a number below 10^8, the first one lowest: it is cut into two fours, these into
// pairs, and these into digits
#[inline]
fn digits_of(n: u64) -> u64 {
    let high = n / 10_000;
    let fours = high | (n - 10_000 * high) << 32;
    let high = ((fours * 5243) >> 19) & 0x0000_007f_0000_007f;
    let pairs = high | (fours - 100 * high) << 16;
    let high = ((pairs * 103) >> 10) & 0x000f_000f_000f_000f;
    high | (pairs - 10 * high) << 8
}

// appends the first bytes of an array: all of them, and then takes back the others
#[inline]
fn push_first<const N: usize>(text: &mut Vec<u8>, bytes: &[u8; N], len: usize) {
    let end = text.len() + len;
    text.extend_from_slice(bytes);
    text.truncate(end);
}

/// Appends two digits for each of the first bytes.
#[inline]
pub fn push_hex(text: &mut Vec<u8>, bytes: &[u8; 16], len: usize) {
    let mut digits = [0; 32];
    for (pair, byte) in digits.chunks_exact_mut(2).zip(bytes) {
        // both at once, the high one first
        let byte = u16::from(*byte);
        let numbers = byte >> 4 | (byte & 15) << 8;
        let letters = (numbers + 0x0606) >> 4 & 0x0101;
        let spelled = numbers + 0x3030 + letters * u16::from(b'a' - b'9' - 1);
        pair.copy_from_slice(&spelled.to_le_bytes());
    }
    push_first(text, &digits, 2 * len);
}
