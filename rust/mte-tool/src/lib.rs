//! The engines of `mte_tool`: the block sizes that lose the least for a program's requests, with certificates, and a heap with memory tags.
//!
//! The texts are those of the program's commands, whose formats docs/FORMATS.md has:
//!
//! ```
//! let profile = b"16 500\n24 70\n100 3\n";
//! let sheet = mte_tool::tune(profile, &mte_tool::Options::new(2))?;
//! assert!(sheet.starts_with(b"classes 2 8\n"));
//! assert!(mte_tool::check(&sheet, profile)?.is_optimal());
//! # Ok::<(), mte_tool::Error>(())
//! ```
//!
//! Whoever counts requests has numbers and no text:
//!
//! ```
//! let profile = mte_tool::Profile { sizes: &[16, 24, 100], counts: &[500, 70, 3] };
//! let table = mte_tool::tune_profile(profile, &mte_tool::Options::new(2))?;
//! assert_eq!((&table.classes[..], table.bytes), (&[2, 8][..], 6196));
//! # Ok::<(), mte_tool::Error>(())
//! ```
//!
//! What can't be answered is an [`Error`], with the code and where it is:
//!
//! ```
//! let error = mte_tool::tune(b"16 500\n16 1\n", &mte_tool::Options::new(2)).unwrap_err();
//! assert_eq!((error.code, error.line), (Some(mte_tool::Code::SizesNotAscending), 2));
//! assert_eq!(error.to_string(), "31 NotAscending line 2");
//! ```
//!
//! What comes first is a class line, a sheet or a fit, and nothing else; its last line may lack the newline:
//!
//! ```
//! assert_eq!(mte_tool::score(b"classes 2 8", b"9 1000\n24 70\n")?, mte_tool::Cost::Bytes(13160));
//! assert_eq!(mte_tool::score(b"classes 2 8\n9 1000\n", b"24 70\n").unwrap_err().code, Some(mte_tool::Code::BadClassLine));
//! let rows = b"classes 2 64\nlimit 2\nwaste 18000\nrow 1029000 18000 0 0\nrow 18000 0 0 0\n";
//! let long = [&rows[..], b"0 1000000000\n"].concat();
//! assert_eq!(mte_tool::check(&long, b"33 1000\n1000 1000\n").unwrap_err().line, 6);
//! let fused = b"classes 64 1001\nlimit 2\nwaste 10009790\nrow 10234670 10075000 10000000\nrow 10009790 1";
//! assert!(!mte_tool::check(fused, b"16 1000000\n33 10\n1000 5\n15990 1000000\n")?.is_optimal());
//! # Ok::<(), mte_tool::Error>(())
//! ```
//!
//! All types are `Send` and `Sync`: calls in many threads are independent, and those on one [`Heap`] want it for themselves.
#![warn(missing_docs, clippy::pedantic)]

mod arrays;
mod calls;
mod claims;
mod codes;
mod commands;
mod heap;
mod options;
mod texts;

pub use arrays::{
    check_fit_history, check_fit_timeline, check_profile, class_of, fit_history, fit_timeline, footprint_history, footprint_timeline,
    score_profile, tune_profile, History, Profile, Table, Timeline,
};
pub use calls::{version, version_number, Cost, End, Error, Verdict};
pub use claims::{check_claim, check_fit_claim, CheckAnswer, Claim, Counts};
pub use codes::Code;
pub use commands::{check, check_fit, fit, footprint, peaks, profile, replay, run, score, tune};
pub use heap::{Granule, GranuleState, Heap, HeapError, Refusal};
pub use options::Options;
pub use texts::{Fit, Text};
