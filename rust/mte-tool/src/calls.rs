//! What all calls share: how a call ended, and what it found.
use crate::codes::Code;
use mte_tool_sys as c;
use std::ffi::CStr;
use std::fmt;
use std::os::raw::c_char;

/// Why a call gave no answer.
#[derive(Debug, Clone, Copy, PartialEq, Eq, Hash)]
#[non_exhaustive]
pub enum End {
    /// The input is refused.
    Refused,
    /// Memory ran out.
    OutOfMemory,
    /// An option is out of its range.
    BadOption,
    /// The call is not as it has to be, such as arrays of lengths that don't fit together.
    Misuse,
}

impl Code {
    /// Its number in docs/FORMATS.md.
    #[must_use]
    pub fn number(self) -> u32 {
        self.into()
    }

    /// The word after its number in the text of a refusal, as `BadLine`; empty if this library does not know it.
    #[must_use]
    pub fn name(self) -> &'static str {
        // SAFETY: of any number the library gives a string that is never freed
        unsafe { words(c::mte_tool_code_name(self.number())) }
    }

    /// What it means.
    #[must_use]
    pub fn sentence(self) -> &'static str {
        // SAFETY: as in `name`
        unsafe { words(c::mte_tool_code_sentence(self.number())) }
    }
}

impl fmt::Display for Code {
    fn fmt(&self, f: &mut fmt::Formatter<'_>) -> fmt::Result {
        f.write_str(self.sentence())
    }
}

/// Why a call gave no answer, and where. It is shown as the first fault of the input, as `30 BadLine line 2`, or as a sentence.
#[derive(Debug, Clone, PartialEq, Eq, Hash)]
#[non_exhaustive]
pub struct Error {
    /// What it is.
    pub end: End,
    /// That of the input's fault, if it has one.
    pub code: Option<Code>,
    /// The line of a text's fault, from 1 on; 0 without one.
    pub line: u64,
    /// The index of the first faulty entry of arrays, from 0 on.
    pub at: u64,
    said: String,
}

impl fmt::Display for Error {
    fn fmt(&self, f: &mut fmt::Formatter<'_>) -> fmt::Result {
        f.write_str(&self.said)
    }
}

impl std::error::Error for Error {}

impl Error {
    pub(crate) fn misuse(said: &str) -> Error {
        Error { end: End::Misuse, code: None, line: 0, at: 0, said: said.to_string() }
    }
}

/// The verdict on a sheet or a fit.
#[derive(Debug, Clone, Copy, PartialEq, Eq, Hash)]
pub enum Verdict {
    /// No table within the limit and step, and with class 1024 if it is forced, costs less.
    Optimal,
    /// The condition of this code is not met.
    Refused(Code),
}

impl Verdict {
    /// Whether it is a yes.
    #[must_use]
    pub fn is_optimal(self) -> bool {
        self == Verdict::Optimal
    }

    pub(crate) fn of(is_yes: bool, code: u32) -> Verdict {
        if is_yes {
            Verdict::Optimal
        } else {
            Verdict::Refused(code.into())
        }
    }
}

/// What a table costs.
#[derive(Debug, Clone, Copy, PartialEq, Eq, Hash)]
pub enum Cost {
    /// What it wastes, or takes of memory, in bytes.
    Bytes(u64),
    /// This size, in bytes, is the least one without a class.
    NoClass(u64),
}

impl Cost {
    pub(crate) fn of(is_yes: bool, result: &c::mte_tool_result) -> Cost {
        if is_yes {
            Cost::Bytes(result.bytes)
        } else {
            Cost::NoClass(result.at)
        }
    }
}

/// A string of the library.
///
/// # Safety
/// It is one that is never freed.
unsafe fn words(at: *const c_char) -> &'static str {
    CStr::from_ptr(at).to_str().unwrap_or_default()
}

/// The version of the library that runs.
#[must_use]
pub fn version() -> &'static str {
    // SAFETY: a string that is never freed
    unsafe { words(c::mte_tool_version()) }
}

/// The same as a number: 10,000, 100 and 1 times its three.
#[must_use]
pub fn version_number() -> u32 {
    // SAFETY: it takes nothing
    unsafe { c::mte_tool_version_number() }
}

fn end_sentence(end: c::mte_tool_end) -> &'static str {
    // SAFETY: of any number the library gives a string that is never freed
    unsafe { words(c::mte_tool_end_sentence(end)) }
}

pub(crate) fn no_result() -> c::mte_tool_result {
    let size = std::mem::size_of::<c::mte_tool_result>();
    c::mte_tool_result { size, code: 0, classes: 0, line: 0, at: 0, bytes: 0, bound: 0, places: 0, moments: 0 }
}

/// The code of a result or an outcome, if it has one.
pub(crate) fn code_of(number: u32) -> Option<Code> {
    (number != c::MTE_TOOL_CODE_NONE).then(|| number.into())
}

/// Whether an end is a yes; an error where there is no answer. The text is what the call left.
pub(crate) fn is_yes(end: c::mte_tool_end, result: &c::mte_tool_result, text: &[u8]) -> Result<bool, Error> {
    let code = code_of(result.code);
    let error = |kind| {
        let said = match (text, code) {
            ([], Some(code)) => code.sentence().to_string(),
            ([], None) => end_sentence(end).to_string(),
            _ => String::from_utf8_lossy(text).into_owned(),
        };
        Err(Error { end: kind, code, line: result.line, at: result.at, said })
    };
    match end {
        c::MTE_TOOL_DONE => Ok(true),
        c::MTE_TOOL_NO => Ok(false),
        c::MTE_TOOL_REFUSED => error(End::Refused),
        c::MTE_TOOL_OUT_OF_MEMORY => error(End::OutOfMemory),
        c::MTE_TOOL_BAD_OPTION => error(End::BadOption),
        _ => error(End::Misuse),
    }
}
