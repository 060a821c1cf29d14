//! One modelled heap with memory tags (docs/HEAP.md).
use crate::calls::{is_yes, no_result, Error};
use crate::codes::Code;
use crate::options::Options;
use mte_tool_sys as c;
use std::fmt;
use std::ptr::NonNull;

/// What a granule is.
#[derive(Debug, Clone, Copy, PartialEq, Eq, Hash)]
#[non_exhaustive]
pub enum Granule {
    /// Of no slot.
    Slack,
    /// The header of a slot.
    Header,
    /// After the bytes of a chunk.
    Tail,
    /// Of a freed chunk.
    Dead,
    /// Of a live chunk.
    Live,
    /// What a later library says that has no name here.
    Other(u32),
}

impl Granule {
    fn of(number: u32) -> Granule {
        match number {
            0 => Granule::Slack,
            1 => Granule::Header,
            2 => Granule::Tail,
            3 => Granule::Dead,
            4 => Granule::Live,
            _ => Granule::Other(number),
        }
    }
}

/// A granule as it is.
#[derive(Debug, Clone, Copy, PartialEq, Eq, Hash)]
#[non_exhaustive]
pub struct GranuleState {
    /// What it is.
    pub kind: Granule,
    /// Its tag, 0 to 15.
    pub tag: u8,
    /// The number of its slot, from 0 on in the order of addresses, and the slot's first granule; `None` of slack.
    pub slot: Option<(u32, u32)>,
}

/// Why the heap or the machine refused a call. Nothing changed.
#[derive(Debug, Clone, Copy, PartialEq, Eq, Hash)]
#[non_exhaustive]
pub struct Refusal {
    /// [`Code::Unmapped`] or [`Code::TagCheck`] of an access, and others of a request or a free.
    pub code: Code,
    /// Of a tag fault the lowest granule whose tag differs, from the region's start.
    pub granule: u32,
    /// That granule's tag.
    pub memory_tag: u8,
    /// The address's tag.
    pub pointer_tag: u8,
    /// What that granule is.
    pub kind: Granule,
}

impl fmt::Display for Refusal {
    fn fmt(&self, f: &mut fmt::Formatter<'_>) -> fmt::Result {
        f.write_str(self.code.sentence())
    }
}

impl std::error::Error for Refusal {}

/// Why a call on a heap gave nothing.
#[derive(Debug, Clone, PartialEq, Eq, Hash)]
#[non_exhaustive]
pub enum HeapError {
    /// The heap or the machine refused it.
    Refused(Refusal),
    /// The call can't be made, such as a load of 65 bytes.
    Call(Error),
}

impl HeapError {
    /// The refusal, if it is one.
    #[must_use]
    pub fn refusal(&self) -> Option<Refusal> {
        match self {
            HeapError::Refused(refusal) => Some(*refusal),
            HeapError::Call(_) => None,
        }
    }
}

impl fmt::Display for HeapError {
    fn fmt(&self, f: &mut fmt::Formatter<'_>) -> fmt::Result {
        match self {
            HeapError::Refused(refusal) => refusal.fmt(f),
            HeapError::Call(error) => error.fmt(f),
        }
    }
}

impl std::error::Error for HeapError {}

impl From<Error> for HeapError {
    fn from(error: Error) -> HeapError {
        HeapError::Call(error)
    }
}

impl From<Refusal> for HeapError {
    fn from(refusal: Refusal) -> HeapError {
        HeapError::Refused(refusal)
    }
}

/// A heap with its tagged memory. An address is a number of 64 bits with its tag in bits 56 to 59, and no place of the process.
///
/// ```
/// let mut heap = mte_tool::Heap::new(&[4, 8], &mte_tool::Options::default())?;
/// let p = heap.malloc(40)?;
/// heap.store(p + 32, b"the last")?;
/// assert_eq!(heap.granule(1)?.slot, Some((0, 0)));
/// heap.free(p)?;
/// let mut room = [0; 8];
/// let refusal = heap.load(p, &mut room).unwrap_err().refusal().ok_or("no refusal")?;
/// assert_eq!((refusal.code, refusal.kind), (mte_tool::Code::TagCheck, mte_tool::Granule::Dead));
/// fn is_for_threads<T: Send + Sync>(_: T) {}
/// is_for_threads(heap);
/// # Ok::<(), Box<dyn std::error::Error>>(())
/// ```
#[derive(Debug)]
pub struct Heap(NonNull<c::mte_tool_heap>);

// SAFETY: nothing but the heap has its memory, which any thread may use and free
unsafe impl Send for Heap {}
// SAFETY: every call takes the heap for itself
unsafe impl Sync for Heap {}

impl Drop for Heap {
    fn drop(&mut self) {
        // SAFETY: a heap of the library's, which nobody has any more
        unsafe { c::mte_tool_heap_close(self.0.as_ptr()) }
    }
}

fn no_outcome() -> c::mte_tool_outcome {
    let size = std::mem::size_of::<c::mte_tool_outcome>();
    c::mte_tool_outcome { size, value: 0, code: 0, granule: 0, memory_tag: 0, pointer_tag: 0, granule_kind: 0, reserved: 0 }
}

/// A tag, which has 4 bits.
fn tag(number: u32) -> u8 {
    (number & 15) as u8
}

/// What a call gave.
fn made(call: impl FnOnce(&mut c::mte_tool_outcome) -> c::mte_tool_end) -> Result<c::mte_tool_outcome, HeapError> {
    let mut outcome = no_outcome();
    let end = call(&mut outcome);
    if is_yes(end, &c::mte_tool_result { code: outcome.code, ..no_result() }, &[])? {
        return Ok(outcome);
    }
    Err(HeapError::Refused(Refusal {
        code: outcome.code.into(),
        granule: outcome.granule,
        memory_tag: tag(outcome.memory_tag),
        pointer_tag: tag(outcome.pointer_tag),
        kind: Granule::of(outcome.granule_kind),
    }))
}

impl Heap {
    /// A heap over a table of classes in granules of 16 bytes, ascending, from 2 to 1,024; by the options `granules`, `quarantine` and
    /// `seed`.
    ///
    /// # Errors
    /// The first fault of the classes, an option out of its range, or that memory ran out.
    pub fn new(classes: &[u16], options: &Options) -> Result<Heap, Error> {
        let (mut held, mut outcome) = (std::ptr::null_mut(), no_outcome());
        // SAFETY: here and below, the slices are there during the call, with their lengths, and the structures begin with their sizes
        let end = unsafe { c::mte_tool_heap_new(&mut held, &options.to_c(), classes.as_ptr(), classes.len(), &mut outcome) };
        is_yes(end, &c::mte_tool_result { code: outcome.code, ..no_result() }, &[])?;
        NonNull::new(held).map(Heap).ok_or_else(|| Error::misuse("the library made no heap"))
    }

    /// What a granule is, by its number from the region's start on.
    ///
    /// # Errors
    /// A number past the region, with the end [`End::BadOption`](crate::End::BadOption).
    pub fn granule(&mut self, number: u64) -> Result<GranuleState, HeapError> {
        let outcome = made(|to| unsafe { c::mte_tool_heap_granule(self.0.as_ptr(), number, to) })?;
        let (kind, slot) = (Granule::of(outcome.granule_kind), u32::try_from(outcome.value).unwrap_or(u32::MAX));
        Ok(GranuleState { kind, tag: tag(outcome.memory_tag), slot: (kind != Granule::Slack).then_some((slot, outcome.granule)) })
    }

    /// The address of a chunk of so many bytes.
    ///
    /// # Errors
    /// A refusal.
    pub fn malloc(&mut self, size: usize) -> Result<u64, HeapError> {
        Ok(made(|to| unsafe { c::mte_tool_heap_malloc(self.0.as_ptr(), size, to) })?.value)
    }

    /// The same, of zeros.
    ///
    /// # Errors
    /// A refusal.
    pub fn calloc(&mut self, size: usize) -> Result<u64, HeapError> {
        Ok(made(|to| unsafe { c::mte_tool_heap_calloc(self.0.as_ptr(), size, to) })?.value)
    }

    /// The address with another size for the chunk at an address; of 0 it is `malloc`.
    ///
    /// # Errors
    /// A refusal.
    pub fn realloc(&mut self, address: u64, size: usize) -> Result<u64, HeapError> {
        Ok(made(|to| unsafe { c::mte_tool_heap_realloc(self.0.as_ptr(), address, size, to) })?.value)
    }

    /// Frees the chunk at an address; 0 is let pass.
    ///
    /// # Errors
    /// A refusal.
    pub fn free(&mut self, address: u64) -> Result<(), HeapError> {
        made(|to| unsafe { c::mte_tool_heap_free(self.0.as_ptr(), address, to) }).map(drop)
    }

    /// Reads 1 to 64 bytes from an address on.
    ///
    /// # Errors
    /// A refusal, another number of bytes, or an address in the region with tag 0.
    pub fn load(&mut self, address: u64, room: &mut [u8]) -> Result<(), HeapError> {
        made(|to| unsafe { c::mte_tool_heap_load(self.0.as_ptr(), address, room.as_mut_ptr().cast(), room.len(), to) }).map(drop)
    }

    /// Writes 1 to 64 bytes from an address on.
    ///
    /// # Errors
    /// A refusal, another number of bytes, or an address in the region with tag 0.
    pub fn store(&mut self, address: u64, bytes: &[u8]) -> Result<(), HeapError> {
        made(|to| unsafe { c::mte_tool_heap_store(self.0.as_ptr(), address, bytes.as_ptr().cast(), bytes.len(), to) }).map(drop)
    }

    /// The address so many granules (0 to 63) further up, with its tag counted up by so many steps (0 to 15).
    ///
    /// # Errors
    /// A number out of its range, with the end [`End::BadOption`](crate::End::BadOption).
    pub fn addg(&mut self, address: u64, granules: u64, step: u64) -> Result<u64, HeapError> {
        Ok(made(|to| unsafe { c::mte_tool_heap_addg(self.0.as_ptr(), address, granules, step, to) })?.value)
    }
}
