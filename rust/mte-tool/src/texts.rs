//! Texts, and calls over them.
use crate::calls::{is_yes, no_result, Cost, Error, Verdict};
use crate::options::Options;
use mte_tool_sys as c;
use std::alloc::{handle_alloc_error, Layout};
use std::fmt;
use std::hash::{Hash, Hasher};
use std::ops::Deref;

/// A text of the library's memory: its bytes.
///
/// ```
/// let sheet = mte_tool::tune(b"16 5\n", &mte_tool::Options::new(1))?;
/// let copy = sheet.clone();
/// assert!(copy == sheet && copy.as_ref().starts_with(b"classes 2\n") && Vec::from(copy) == sheet.to_vec());
/// fn is_for_threads<T: Send + Sync>(_: T) {}
/// is_for_threads(sheet);
/// # Ok::<(), mte_tool::Error>(())
/// ```
pub struct Text(c::mte_tool_text);

// SAFETY: nothing but the text has its memory, which any thread may read and free
unsafe impl Send for Text {}
unsafe impl Sync for Text {}

impl Text {
    fn new() -> Text {
        Text(c::mte_tool_text { bytes: std::ptr::null_mut(), length: 0, room: 0 })
    }
}

impl Deref for Text {
    type Target = [u8];

    fn deref(&self) -> &[u8] {
        if self.0.length == 0 {
            return &[];
        }
        // SAFETY: the library keeps so many bytes there
        unsafe { std::slice::from_raw_parts(self.0.bytes.cast(), self.0.length) }
    }
}

impl Drop for Text {
    fn drop(&mut self) {
        // SAFETY: a text of the library's
        unsafe { c::mte_tool_text_free(&mut self.0) }
    }
}

impl Clone for Text {
    /// Where there is no memory for it the program ends, as for a vector.
    fn clone(&self) -> Text {
        let mut copy = Text::new();
        // SAFETY: the bytes are there during the call, and are no part of the new text
        if unsafe { c::mte_tool_text_append(&mut copy.0, self.as_ptr().cast(), self.len()) } != c::MTE_TOOL_DONE {
            handle_alloc_error(Layout::for_value::<[u8]>(self));
        }
        copy
    }
}

impl Default for Text {
    /// The empty text.
    fn default() -> Text {
        Text::new()
    }
}

impl AsRef<[u8]> for Text {
    fn as_ref(&self) -> &[u8] {
        self
    }
}

impl PartialEq for Text {
    fn eq(&self, other: &Text) -> bool {
        **self == **other
    }
}

impl Eq for Text {}

impl PartialEq<[u8]> for Text {
    fn eq(&self, other: &[u8]) -> bool {
        **self == *other
    }
}

impl Hash for Text {
    fn hash<H: Hasher>(&self, state: &mut H) {
        (**self).hash(state);
    }
}

impl From<Text> for Vec<u8> {
    fn from(text: Text) -> Vec<u8> {
        text.to_vec()
    }
}

impl fmt::Debug for Text {
    fn fmt(&self, f: &mut fmt::Formatter<'_>) -> fmt::Result {
        write!(f, "{:?}", String::from_utf8_lossy(self))
    }
}

impl fmt::Display for Text {
    fn fmt(&self, f: &mut fmt::Formatter<'_>) -> fmt::Result {
        f.write_str(&String::from_utf8_lossy(self))
    }
}

/// A fit.
#[derive(Debug, Clone, PartialEq, Eq, Hash)]
#[non_exhaustive]
pub struct Fit {
    /// The fit.
    pub text: Text,
    /// Whether its table is shown to be least; always of a history.
    pub is_least: bool,
}

/// What a call over texts gave.
pub(crate) struct Answer {
    is_yes: bool,
    pub(crate) text: Text,
    result: c::mte_tool_result,
}

impl Answer {
    pub(crate) fn cost(self) -> Cost {
        Cost::of(self.is_yes, &self.result)
    }

    pub(crate) fn fit(self) -> Fit {
        Fit { text: self.text, is_least: self.is_yes }
    }

    pub(crate) fn verdict(self) -> Verdict {
        Verdict::of(self.is_yes, self.result.code)
    }
}

/// Makes a call over one text.
pub(crate) fn call(command: c::Command, input: &[u8], options: &Options) -> Result<Answer, Error> {
    // SAFETY: all that is pointed to is there during the call, and begins with its size
    answer(|text, result| unsafe { command(&options.to_c(), input.as_ptr().cast(), input.len(), text, result) })
}

/// Makes a call over a first text and another.
pub(crate) fn call_on(command: c::CommandOn, first: &[u8], input: &[u8], options: &Options) -> Result<Answer, Error> {
    // SAFETY: as in `call`
    answer(|text, result| unsafe {
        command(&options.to_c(), first.as_ptr().cast(), first.len(), input.as_ptr().cast(), input.len(), text, result)
    })
}

/// Makes a call that fills a text.
pub(crate) fn answer(call: impl FnOnce(&mut c::mte_tool_text, &mut c::mte_tool_result) -> c::mte_tool_end) -> Result<Answer, Error> {
    let (mut text, mut result) = (Text::new(), no_result());
    let end = call(&mut text.0, &mut result);
    Ok(Answer { is_yes: is_yes(end, &result, &text)?, text, result })
}
