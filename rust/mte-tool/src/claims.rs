//! What a check showed, as numbers.
use crate::calls::{Error, Verdict};
use crate::codes::Code;
use crate::options::Options;
use crate::texts::{answer, Answer};
use mte_tool_sys as c;
use std::fmt;

/// What was counted.
#[derive(Debug, Clone, Copy, PartialEq, Eq, Hash)]
#[non_exhaustive]
pub enum Counts {
    /// A profile.
    #[non_exhaustive]
    Profile {
        /// How many sizes it has.
        sizes: u64,
        /// How often these were requested.
        requests: u64,
        /// The bytes of these requests.
        bytes: u64,
        /// The requests that are larger than all that a class serves, which are in none of the other numbers.
        large: u64,
    },
    /// A history of so many snapshots.
    History(u64),
    /// A timeline of so many events.
    Timeline(u64),
}

/// What a check showed: of the tables of at most `limit` classes, all multiples of `step` granules, that serve all that
/// was counted, and that have the class `forced` if there is one, none costs less than `cost`. That is what the table of
/// the sheet or the fit costs. It is shown as the line of the program's `check --claim`.
///
/// ```
/// use mte_tool::{CheckAnswer, Counts};
/// let sheet = b"classes 2 4\nlimit 2\nwaste 16\nrow 48 16 0\nrow 16 0 0\n";
/// match mte_tool::check_claim(sheet, b"16 1\n32 1\n48 1\n")? {
///     CheckAnswer::Optimal(claim) => {
///         assert_eq!((claim.cost, claim.limit, claim.step, claim.forced), (16, 2, 1, None));
///         assert!(matches!(claim.counted, Counts::Profile { sizes: 3, requests: 3, bytes: 96, large: 0, .. }));
///         assert!(claim.to_string().starts_with("claim waste 16 limit 2 step 1 forced 0 sizes 3 "));
///     }
///     CheckAnswer::Refused(code) => panic!("{}", code.sentence()),
/// }
/// # Ok::<(), mte_tool::Error>(())
/// ```
#[derive(Debug, Clone, PartialEq, Eq, Hash)]
#[non_exhaustive]
pub struct Claim {
    /// In bytes: the waste on a profile, the footprint over a history or a timeline.
    pub cost: u64,
    /// The most classes.
    pub limit: u64,
    /// The granules that each class is a multiple of.
    pub step: u64,
    /// The class that each table has to have.
    pub forced: Option<u64>,
    /// What was counted.
    pub counted: Counts,
    line: String,
}

impl fmt::Display for Claim {
    fn fmt(&self, f: &mut fmt::Formatter<'_>) -> fmt::Result {
        f.write_str(&self.line)
    }
}

/// The verdict of a check, with what it showed.
#[derive(Debug, Clone, PartialEq, Eq, Hash)]
pub enum CheckAnswer {
    /// No table costs less, of those that the claim is of.
    Optimal(Claim),
    /// The condition of this code is not met.
    Refused(Code),
}

fn no_claim() -> c::mte_tool_claim {
    let size = std::mem::size_of::<c::mte_tool_claim>();
    c::mte_tool_claim {
        size,
        kind: c::MTE_TOOL_CLAIM_NONE,
        cost: 0,
        limit: 0,
        step: 0,
        forced: 0,
        sizes: 0,
        requests: 0,
        bytes: 0,
        large: 0,
        snapshots: 0,
        events: 0,
    }
}

/// A claim, with its line of the answer; none if it is of a kind that is not known here.
fn claim_of(found: &c::mte_tool_claim, text: &[u8]) -> Option<Claim> {
    let counted = match found.kind {
        c::MTE_TOOL_CLAIM_PROFILE => {
            Counts::Profile { sizes: found.sizes, requests: found.requests, bytes: found.bytes, large: found.large }
        }
        c::MTE_TOOL_CLAIM_HISTORY => Counts::History(found.snapshots),
        c::MTE_TOOL_CLAIM_TIMELINE => Counts::Timeline(found.events),
        _ => return None,
    };
    let (cost, limit, step) = (found.cost, found.limit, found.step);
    let forced = (found.forced != 0).then_some(found.forced);
    let line = String::from_utf8_lossy(text).lines().nth(1)?.to_string();
    Some(Claim { cost, limit, step, forced, counted, line })
}

fn check_with_claim(check: c::CheckClaim, first: &[u8], input: &[u8]) -> Result<CheckAnswer, Error> {
    let (options, mut found) = (Options::default().to_c(), no_claim());
    // SAFETY: all that is pointed to is there during the call, and begins with its size
    let answer: Answer = answer(|text, result| unsafe {
        check(&options, first.as_ptr().cast(), first.len(), input.as_ptr().cast(), input.len(), text, &mut found, result)
    })?;
    let claim = claim_of(&found, &answer.text);
    match (answer.verdict(), claim) {
        (Verdict::Refused(code), _) => Ok(CheckAnswer::Refused(code)),
        (Verdict::Optimal, Some(claim)) => Ok(CheckAnswer::Optimal(claim)),
        (Verdict::Optimal, None) => Err(Error::misuse("what the check showed is of no known kind")),
    }
}

/// Whether a sheet shows that its table is one of least waste on a profile, and of which tables that holds.
///
/// # Errors
/// The input's first fault, or that memory ran out.
pub fn check_claim(sheet: &[u8], profile: &[u8]) -> Result<CheckAnswer, Error> {
    check_with_claim(c::mte_tool_check_claim, sheet, profile)
}

/// Whether a fit shows that its table is one of least footprint over a history or a timeline, and of which tables that
/// holds.
///
/// # Errors
/// The input's first fault, or that memory ran out.
pub fn check_fit_claim(fit: &[u8], history: &[u8]) -> Result<CheckAnswer, Error> {
    check_with_claim(c::mte_tool_check_fit_claim, fit, history)
}
