//! Memory with tags, and the headers in it.

pub const GRANULE: usize = 16;
pub const REGION_START: u64 = 1 << 36;
pub const TAG_MASK: u64 = 15 << 56;

// so many bytes and tags are after the last ones, so that each can be read with the 15 after it
const SPARE: usize = 16;

// times a tag: that tag eight times
const EACH_BYTE: u64 = 0x0101_0101_0101_0101;

#[derive(Clone, Copy, PartialEq)]
pub enum State {
    Fresh,
    Live,
    Quarantined,
    Freed,
}

/// What the granule before a chunk says of the chunk's slot.
#[derive(Clone, Copy)]
pub struct Header {
    pub state: State,
    /// The bytes that the last request wanted.
    pub size: u32,
    pub tag: u8,
    /// The number of the class.
    pub class: u8,
    /// Whether the slot's number is odd.
    pub odd: bool,
    /// The chunk after this one in a list; 0 is none.
    pub next: u32,
}

pub enum Fault {
    Unmapped,
    Tag {
        granule: u32,
        memory_tag: u8,
        pointer_tag: u8,
    },
}

/// Granules of bytes, and a tag for each granule. A chunk is named by its first granule.
pub struct Memory {
    bytes: Vec<u8>,
    tags: Vec<u8>,
    granules: u32,
}

impl Memory {
    pub fn new(granules: u32) -> Memory {
        Memory {
            bytes: vec![0; GRANULE * granules as usize + SPARE],
            tags: vec![0; granules as usize + SPARE],
            granules,
        }
    }

    /// The granule that an address without a tag is the first byte of.
    pub fn granule_at(&self, address: u64) -> Option<u32> {
        let from = address.wrapping_sub(REGION_START);
        let granule = from / GRANULE as u64;
        let within = granule < u64::from(self.granules) && from % GRANULE as u64 == 0;
        within.then_some(granule as u32)
    }

    #[inline]
    pub fn set_tags(&mut self, first: u32, end: u32, tag: u8) {
        self.tags[first as usize..end as usize].fill(tag);
    }

    #[inline]
    pub fn header(&self, chunk: u32) -> Header {
        let word = word_at(&self.bytes, GRANULE * (chunk as usize - 1));
        Header {
            state: match word & 3 {
                0 => State::Fresh,
                1 => State::Live,
                2 => State::Quarantined,
                _ => State::Freed,
            },
            size: (word >> 2 & 0x3fff) as u32,
            tag: (word >> 16 & 15) as u8,
            class: (word >> 20 & 31) as u8,
            odd: word >> 25 & 1 == 1,
            next: (word >> 32) as u32,
        }
    }

    #[inline]
    pub fn set_header(&mut self, chunk: u32, header: &Header) {
        let word = header.state as u64
            | u64::from(header.size) << 2
            | u64::from(header.tag) << 16
            | u64::from(header.class) << 20
            | u64::from(header.odd) << 25
            | u64::from(header.next) << 32;
        let from = GRANULE * (chunk as usize - 1);
        self.bytes[from..from + 8].copy_from_slice(&word.to_le_bytes());
    }

    /// The place of an access, unless it is not mapped or touches a granule with another tag. `len`
    /// is 1 to 64.
    pub fn check(&self, address: u64, len: u8) -> Result<usize, Fault> {
        // what is before the region or has one of the bits above the tag is far behind the region
        let from = (address & !TAG_MASK).wrapping_sub(REGION_START);
        let end = GRANULE as u64 * u64::from(self.granules);
        if from > end - u64::from(len) {
            return Err(Fault::Unmapped);
        }
        let from = from as usize;
        let first = from / GRANULE;
        let last = (from + usize::from(len) - 1) / GRANULE;
        let pointer_tag = logical_tag(address);
        let differing = word_at(&self.tags, first) ^ (u64::from(pointer_tag) * EACH_BYTE);
        // of the eight tags only those of the granules that are touched, which are five at most
        if differing << (56 - 8 * (last - first)) == 0 {
            return Ok(from);
        }
        let granule = first + differing.trailing_zeros() as usize / 8;
        Err(Fault::Tag {
            granule: granule as u32,
            memory_tag: self.tags[granule],
            pointer_tag,
        })
    }

    /// Sixteen bytes from a place of the region on; those after the region are 0.
    pub fn sixteen(&self, from: usize) -> &[u8; 16] {
        self.bytes[from..from + 16].try_into().unwrap()
    }

    #[inline]
    pub fn fill(&mut self, from: usize, len: usize, byte: u8) {
        self.bytes[from..from + len].fill(byte);
    }

    /// Copies the first bytes of a chunk into another one.
    pub fn copy(&mut self, from: u32, to: u32, len: usize) {
        let start = GRANULE * from as usize;
        self.bytes
            .copy_within(start..start + len, GRANULE * to as usize);
    }
}

fn word_at(bytes: &[u8], from: usize) -> u64 {
    u64::from_le_bytes(bytes[from..from + 8].try_into().unwrap())
}

pub fn logical_tag(address: u64) -> u8 {
    (address >> 56 & 15) as u8
}
