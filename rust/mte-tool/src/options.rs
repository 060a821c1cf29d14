//! The options of all calls. Written by `scripts/tests/formats` from `scripts/mte_scripts/formats.py`.
use mte_tool_sys as c;

/// The options. Each call reads its own; a number out of its range is an error with the end
/// [`End::BadOption`](crate::End::BadOption).
///
/// ```
/// let options = mte_tool::Options::new(8).step(2).largest_class(true);
/// assert!(mte_tool::tune(b"16 5\n", &options)?.starts_with(b"classes 2 1024\n"));
/// # Ok::<(), mte_tool::Error>(())
/// ```
#[derive(Debug, Clone, PartialEq, Eq, Hash)]
#[non_exhaustive]
pub struct Options {
    /// The granules of the heap, 64 to 262,144.
    pub granules: u64,
    /// The bytes of freed blocks that the heap holds back, 0 to 4,194,304.
    pub quarantine: u64,
    /// The seed of the random tags, 1 to 65,535.
    pub seed: u64,
    /// The most classes of the table, 1 to 32.
    pub limit: u64,
    /// The granules that each class is a multiple of: 1, 2, 4 or 8.
    pub step: u64,
    /// Whether the table must have class 1024: 0 or 1.
    pub largest_class: bool,
}

impl Default for Options {
    /// The program's defaults, for a call that reads no limit.
    fn default() -> Options {
        Options::new(0)
    }
}

impl Options {
    /// The program's defaults, with this limit.
    #[must_use]
    pub fn new(limit: u64) -> Options {
        Options { granules: 65_536, quarantine: 65_536, seed: 1, limit, step: 1, largest_class: false }
    }

    /// The granules of the heap, 64 to 262,144.
    #[must_use]
    pub fn granules(mut self, granules: u64) -> Options {
        self.granules = granules;
        self
    }

    /// The bytes of freed blocks that the heap holds back, 0 to 4,194,304.
    #[must_use]
    pub fn quarantine(mut self, quarantine: u64) -> Options {
        self.quarantine = quarantine;
        self
    }

    /// The seed of the random tags, 1 to 65,535.
    #[must_use]
    pub fn seed(mut self, seed: u64) -> Options {
        self.seed = seed;
        self
    }

    /// The most classes of the table, 1 to 32.
    #[must_use]
    pub fn limit(mut self, limit: u64) -> Options {
        self.limit = limit;
        self
    }

    /// The granules that each class is a multiple of: 1, 2, 4 or 8.
    #[must_use]
    pub fn step(mut self, step: u64) -> Options {
        self.step = step;
        self
    }

    /// Whether the table must have class 1024: 0 or 1.
    #[must_use]
    pub fn largest_class(mut self, largest_class: bool) -> Options {
        self.largest_class = largest_class;
        self
    }

    pub(crate) fn to_c(&self) -> c::mte_tool_options {
        c::mte_tool_options {
            size: std::mem::size_of::<c::mte_tool_options>(),
            granules: self.granules,
            quarantine: self.quarantine,
            seed: self.seed,
            limit: self.limit,
            step: self.step,
            largest_class: u64::from(self.largest_class),
        }
    }
}
