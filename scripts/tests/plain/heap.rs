//! The tagged heap: slots by class, tags, and a quarantine.

use crate::memory::{logical_tag, Header, Memory, State, GRANULE, REGION_START, TAG_MASK};

/// Why a call gave no pointer, or refused one.
#[derive(Clone, Copy, PartialEq)]
pub enum Reason {
    Large,
    NoClass,
    Exhausted,
    Misplaced,
    NotLive,
    WrongTag,
}

// the place of the set bit that has `skipped` set ones below it
const fn nth_set_bit(mut bits: u16, mut skipped: u32) -> u8 {
    while skipped > 0 {
        bits &= bits - 1;
        skipped -= 1;
    }
    bits.trailing_zeros() as u8
}

pub const fn choose_tag(tag: u8, offset: u8, exclude: u16) -> u8 {
    let allowed = (!exclude).rotate_right(tag as u32 + 1);
    if allowed == 0 {
        return 0;
    }
    if offset == 0 && exclude >> tag & 1 == 0 {
        return tag;
    }
    let skipped = (offset as u32).saturating_sub(1) % allowed.count_ones();
    (tag + 1 + nth_set_bit(allowed, skipped)) % 16
}

// the tag that a slot draws: for an even and an odd slot, by its last tag, the tag drawn before and
// the offset
static DRAWN: [[[[u8; 16]; 16]; 16]; 2] = [drawn(0x5555), drawn(0xAAAB)];

const fn drawn(exclude: u16) -> [[[u8; 16]; 16]; 16] {
    let mut drawn = [[[0; 16]; 16]; 16];
    let mut i = 0;
    while i < 4096 {
        let (last, tag, offset) = (i >> 8, i >> 4 & 15, i & 15);
        drawn[last][tag][offset] = choose_tag(tag as u8, offset as u8, exclude | 1 << last | 1);
        i += 1;
    }
    drawn
}

/// What numbers below 2^18 are divided by, from 1 to 2^18: the quotient is a product.
#[derive(Clone, Copy)]
struct Divisor {
    divisor: u32,
    inverse: u64,
}

impl Divisor {
    fn new(divisor: u32) -> Divisor {
        // greater than 2^40 by the divisor, by less than one part in 2^22 of the dividend's range
        let inverse = (1 << 40) / u64::from(divisor) + 1;
        Divisor { divisor, inverse }
    }

    fn quotient(self, n: u32) -> u32 {
        ((u64::from(n) * self.inverse) >> 40) as u32
    }
}

/// The slots of a class, one after another, and which of them are free.
struct Class {
    granules: Divisor,
    start: u32,
    slots: u32,
    // how many slots the classes before it have
    before: u32,
    // how many slots were ever given out, and the chunk that was freed last
    used: u32,
    freed: u32,
}

impl Class {
    fn block_granules(&self) -> u32 {
        self.granules.divisor
    }

    fn chunk(&self, slot: u32) -> u32 {
        self.start + slot * self.block_granules() + 1
    }

    // the slot that a granule of this class is in
    fn slot_at(&self, granule: u32) -> Option<u32> {
        let slot = self.granules.quotient(granule - self.start);
        (slot < self.slots).then_some(slot)
    }
}

/// What a heap is made with.
pub struct Settings {
    /// The size of the region, in granules of 16 bytes.
    pub granules: u32,
    /// What the random tags begin with.
    pub seed: u16,
    /// The bytes of freed blocks that are held back.
    pub quarantine: u64,
}

/// A heap. In its lists 0 is no chunk.
pub struct Heap {
    pub memory: Memory,
    classes: Vec<Class>,
    // the granules of each class's slots
    share: Divisor,
    // the class of blocks of at least so many granules
    class_for: Vec<Option<u8>>,
    seed: u16,
    tag: u8,
    // the quarantine: the oldest chunk, the newest, and the bytes held
    oldest: u32,
    newest: u32,
    most_held: u64,
    held: u64,
}

fn chunk_granules(n: u32) -> u32 {
    ((n + 15) / 16).max(1)
}

impl Heap {
    pub fn new(classes: &[u32], settings: &Settings) -> Heap {
        let share = settings.granules / classes.len().max(1) as u32;
        let mut class_for = Vec::new();
        let mut before = 0;
        let with_slots = |(number, granules): (usize, &u32)| {
            class_for.resize(*granules as usize + 1, Some(number as u8));
            let class = Class {
                granules: Divisor::new(*granules),
                start: share * number as u32,
                slots: share / granules,
                before,
                used: 0,
                freed: 0,
            };
            before += class.slots;
            class
        };
        let classes = classes.iter().enumerate().map(with_slots).collect();
        class_for.resize(1025, None);
        Heap {
            memory: Memory::new(settings.granules),
            classes,
            share: Divisor::new(share),
            class_for,
            seed: settings.seed,
            tag: 0,
            oldest: 0,
            newest: 0,
            most_held: settings.quarantine,
            held: 0,
        }
    }

    fn draw(&mut self, odd: bool, last: u8) -> u8 {
        let seed = self.seed;
        let offset = (seed ^ seed >> 2 ^ seed >> 3 ^ seed >> 5) & 15;
        let by_tag = &DRAWN[usize::from(odd)][usize::from(last & 15)];
        self.tag = by_tag[usize::from(self.tag & 15)][usize::from(offset)];
        self.seed = (seed >> 4) + (offset << 12);
        self.tag
    }

    fn class_for(&self, n: u32) -> Result<u8, Reason> {
        match self.class_for.get(1 + chunk_granules(n) as usize) {
            Some(class) => class.ok_or(Reason::NoClass),
            None => Err(Reason::Large),
        }
    }

    // a free chunk of a class, off its list, and its header
    fn take_chunk(&mut self, number: u8) -> Option<(u32, Header)> {
        let class = &mut self.classes[usize::from(number)];
        if class.freed != 0 {
            let chunk = class.freed;
            let header = self.memory.header(chunk);
            class.freed = header.next;
            return Some((chunk, header));
        }
        let slot = class.used;
        if slot == class.slots {
            return None;
        }
        class.used += 1;
        let header = Header {
            state: State::Fresh,
            size: 0,
            tag: 0,
            class: number,
            odd: (class.before + slot) % 2 == 1,
            next: 0,
        };
        Some((class.chunk(slot), header))
    }

    // makes a chunk a live one of `n` bytes; what it had before after them is tagged 0
    #[inline]
    fn set_live(&mut self, chunk: u32, before: &Header, n: u32, tag: u8) {
        let header = Header {
            state: State::Live,
            size: n,
            tag,
            next: 0,
            ..*before
        };
        self.memory.set_header(chunk, &header);
        let end = chunk + chunk_granules(n);
        let end_before = chunk + chunk_granules(before.size);
        self.memory.set_tags(chunk, end, tag);
        if end < end_before {
            self.memory.set_tags(end, end_before, 0);
        }
    }

    // a new chunk, its tag, and the bytes of its block that it leaves unused
    fn allocate(&mut self, n: u32) -> Result<(u32, u8, u32), Reason> {
        let number = self.class_for(n)?;
        let (chunk, before) = self.take_chunk(number).ok_or(Reason::Exhausted)?;
        let tag = self.draw(before.odd, before.tag);
        self.set_live(chunk, &before, n, tag);
        Ok((chunk, tag, self.loss(number, n)))
    }

    fn loss(&self, number: u8, n: u32) -> u32 {
        16 * self.classes[usize::from(number)].block_granules() - 16 - n
    }

    /// The pointer to a new chunk of `n` bytes, and the bytes of its block that it leaves unused.
    pub fn malloc(&mut self, n: u32) -> Result<(u64, u32), Reason> {
        let (chunk, tag, loss) = self.allocate(n)?;
        Ok((pointer(chunk, tag), loss))
    }

    /// The same, filled with zeros.
    pub fn calloc(&mut self, n: u32) -> Result<(u64, u32), Reason> {
        let (chunk, tag, loss) = self.allocate(n)?;
        let len = GRANULE * chunk_granules(n) as usize;
        self.memory.fill(GRANULE * chunk as usize, len, 0);
        Ok((pointer(chunk, tag), loss))
    }

    // the live chunk that a pointer is for, and its header
    #[inline]
    fn chunk(&self, p: u64) -> Result<(u32, Header), Reason> {
        let granule = self.memory.granule_at(p & !TAG_MASK);
        let granule = granule.ok_or(Reason::Misplaced)?;
        let (class, slot) = self.slot_at(granule).ok_or(Reason::Misplaced)?;
        if class.chunk(slot) != granule {
            return Err(Reason::Misplaced);
        }
        let header = self.memory.header(granule);
        if header.state != State::Live {
            return Err(Reason::NotLive);
        }
        if header.tag != logical_tag(p) {
            return Err(Reason::WrongTag);
        }
        Ok((granule, header))
    }

    // the class of a granule, and which of its slots the granule is in
    fn slot_at(&self, granule: u32) -> Option<(&Class, u32)> {
        let class = self.classes.get(self.share.quotient(granule) as usize)?;
        Some((class, class.slot_at(granule)?))
    }

    pub fn free(&mut self, p: u64) -> Result<(), Reason> {
        if p == 0 {
            return Ok(());
        }
        let (chunk, header) = self.chunk(p)?;
        self.release(chunk, &header);
        Ok(())
    }

    fn block_bytes(&self, class: u8) -> u64 {
        16 * u64::from(self.classes[usize::from(class)].block_granules())
    }

    // puts a chunk into the quarantine
    fn release(&mut self, chunk: u32, header: &Header) {
        let other = self.draw(header.odd, header.tag);
        let after = Header {
            state: State::Quarantined,
            next: 0,
            ..*header
        };
        self.memory.set_header(chunk, &after);
        let end = chunk + chunk_granules(header.size);
        self.memory.set_tags(chunk, end, other);
        if self.newest == 0 {
            self.oldest = chunk;
        } else {
            let before = Header {
                next: chunk,
                ..self.memory.header(self.newest)
            };
            self.memory.set_header(self.newest, &before);
        }
        self.newest = chunk;
        self.held += self.block_bytes(header.class);
        while self.held > self.most_held {
            self.let_go();
        }
    }

    // takes the oldest chunk out of the quarantine
    fn let_go(&mut self) {
        let chunk = self.oldest;
        let before = self.memory.header(chunk);
        self.held -= self.block_bytes(before.class);
        self.oldest = before.next;
        if self.oldest == 0 {
            self.newest = 0;
        }
        let class = &mut self.classes[usize::from(before.class)];
        let after = Header {
            state: State::Freed,
            next: class.freed,
            ..before
        };
        class.freed = chunk;
        self.memory.set_header(chunk, &after);
    }

    pub fn realloc(&mut self, p: u64, n: u32) -> Result<(u64, u32), Reason> {
        if p == 0 {
            return self.malloc(n);
        }
        let (chunk, header) = self.chunk(p)?;
        if self.class_for(n) == Ok(header.class) {
            self.set_live(chunk, &header, n, header.tag);
            return Ok((p, self.loss(header.class, n)));
        }
        let (new, tag, loss) = self.allocate(n)?;
        self.memory.copy(chunk, new, header.size.min(n) as usize);
        self.release(chunk, &header);
        Ok((pointer(new, tag), loss))
    }

    /// What a granule is for an access that faults there.
    pub fn kind(&self, granule: u32) -> &'static str {
        let (class, slot) = match self.slot_at(granule) {
            Some(found) => found,
            None => return "slack",
        };
        let chunk = class.chunk(slot);
        if granule < chunk {
            return "header";
        }
        let header = self.memory.header(chunk);
        if granule - chunk >= chunk_granules(header.size) {
            return "tail";
        }
        match header.state {
            State::Fresh => "tail",
            State::Live => "other",
            State::Quarantined | State::Freed => "dead",
        }
    }
}

fn pointer(chunk: u32, tag: u8) -> u64 {
    REGION_START + 16 * u64::from(chunk) + (u64::from(tag) << 56)
}
