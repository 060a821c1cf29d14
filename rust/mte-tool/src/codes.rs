//! The codes of docs/FORMATS.md. Written by `scripts/tests/formats` from `scripts/mte_scripts/formats.py`.

/// Why an input is refused, why a verdict is no, or why the heap or the machine refuses a call.
#[derive(Debug, Clone, Copy, PartialEq, Eq, Hash)]
#[non_exhaustive]
pub enum Code {
    /// There are more than 32 classes.
    TooManyClasses,
    /// A class is not from 2 to 1024.
    ClassOutOfRange,
    /// A class is not above the one before it.
    ClassesNotAscending,
    /// The class line is not `classes` and then numbers.
    BadClassLine,
    /// A line is not a size up to 16,368, or `large`, and then counts.
    BadCountLine,
    /// A size is not above the one before it.
    SizesNotAscending,
    /// A count is above 1,000,000,000, or all of a line are 0.
    CountOutOfRange,
    /// The count is 1,000,000,000, and no request more is counted.
    CountFull,
    /// The history's first line is not `snapshots T`, T from 1 to 1024.
    BadSnapshots,
    /// A line does not have T numbers, one for each snapshot.
    WrongLength,
    /// A line is not of a fit's form, or is missing.
    BadFit,
    /// A line of the timeline is none of its four forms.
    BadTimeline,
    /// A free of a size of which no block is live.
    SizeNotLive,
    /// This is not so: each class is a multiple of the step.
    OffStep,
    /// This is not so: the table has at most K classes.
    OverLimit,
    /// This is not so: each counted size has a class.
    NotServing,
    /// This is not so: the waste is the table's on the profile.
    WasteWrong,
    /// This is not so: there are K rows, with a number for each distinct need.
    Shape,
    /// A number of the first row is above the cost of one class on all that comes after its place.
    LastClass,
    /// A number is above the one at its place in the row before.
    StageDrop,
    /// A number is above the cost of one class up to a later place, and the number there in the row before.
    Edge,
    /// The first number of the last row is not the cost of the table.
    NotTight,
    /// A line is not of a sheet's form, or is missing.
    BadSheet,
    /// This is not so: the footprint is the table's over the history.
    FootprintWrong,
    /// A byte is not in the region, or one of the bits 60 to 63 of the address is 1.
    Unmapped,
    /// An address is not aligned.
    Alignment,
    /// A granule's tag differs from the address's.
    TagCheck,
    /// This is not so: no number of `moments` is above the number of events.
    NotMoments,
    /// More than 16,368 bytes are requested.
    Large,
    /// No class of the table serves the request.
    NoClass,
    /// No slot of the request's class is left.
    Exhausted,
    /// No chunk of a slot begins at the address.
    Misplaced,
    /// The chunk there is not live.
    ChunkNotLive,
    /// The address has another tag than the chunk.
    WrongTag,
    /// A line is no event, or has a word too many or too few.
    BadWord,
    /// A word is no number of its kind, or not in its one spelling.
    BadNumber,
    /// A number is not in its range.
    NumberOutOfRange,
    /// A line has more than 80 bytes.
    LineTooLong,
    /// There is a line after 1,000,000 events.
    TooManyEvents,
    /// There are more than 67,108,864 bytes.
    InputTooLong,
    /// A read failed.
    ReadFault,
    /// A write failed, or took no byte.
    WriteFault,
    /// The step is 3, 5, 6 or 7; nothing is read then.
    BadOption,
    /// One of a later library, that has no name here.
    Other(u32),
}

impl From<u32> for Code {
    fn from(number: u32) -> Code {
        match number {
            20 => Code::TooManyClasses,
            21 => Code::ClassOutOfRange,
            22 => Code::ClassesNotAscending,
            23 => Code::BadClassLine,
            30 => Code::BadCountLine,
            31 => Code::SizesNotAscending,
            32 => Code::CountOutOfRange,
            33 => Code::CountFull,
            34 => Code::BadSnapshots,
            35 => Code::WrongLength,
            36 => Code::BadFit,
            37 => Code::BadTimeline,
            38 => Code::SizeNotLive,
            39 => Code::OffStep,
            40 => Code::OverLimit,
            41 => Code::NotServing,
            42 => Code::WasteWrong,
            43 => Code::Shape,
            44 => Code::LastClass,
            45 => Code::StageDrop,
            46 => Code::Edge,
            47 => Code::NotTight,
            48 => Code::BadSheet,
            49 => Code::FootprintWrong,
            50 => Code::Unmapped,
            51 => Code::Alignment,
            52 => Code::TagCheck,
            53 => Code::NotMoments,
            60 => Code::Large,
            61 => Code::NoClass,
            62 => Code::Exhausted,
            63 => Code::Misplaced,
            64 => Code::ChunkNotLive,
            65 => Code::WrongTag,
            70 => Code::BadWord,
            71 => Code::BadNumber,
            72 => Code::NumberOutOfRange,
            73 => Code::LineTooLong,
            74 => Code::TooManyEvents,
            80 => Code::InputTooLong,
            81 => Code::ReadFault,
            82 => Code::WriteFault,
            83 => Code::BadOption,
            _ => Code::Other(number),
        }
    }
}

impl From<Code> for u32 {
    fn from(code: Code) -> u32 {
        match code {
            Code::TooManyClasses => 20,
            Code::ClassOutOfRange => 21,
            Code::ClassesNotAscending => 22,
            Code::BadClassLine => 23,
            Code::BadCountLine => 30,
            Code::SizesNotAscending => 31,
            Code::CountOutOfRange => 32,
            Code::CountFull => 33,
            Code::BadSnapshots => 34,
            Code::WrongLength => 35,
            Code::BadFit => 36,
            Code::BadTimeline => 37,
            Code::SizeNotLive => 38,
            Code::OffStep => 39,
            Code::OverLimit => 40,
            Code::NotServing => 41,
            Code::WasteWrong => 42,
            Code::Shape => 43,
            Code::LastClass => 44,
            Code::StageDrop => 45,
            Code::Edge => 46,
            Code::NotTight => 47,
            Code::BadSheet => 48,
            Code::FootprintWrong => 49,
            Code::Unmapped => 50,
            Code::Alignment => 51,
            Code::TagCheck => 52,
            Code::NotMoments => 53,
            Code::Large => 60,
            Code::NoClass => 61,
            Code::Exhausted => 62,
            Code::Misplaced => 63,
            Code::ChunkNotLive => 64,
            Code::WrongTag => 65,
            Code::BadWord => 70,
            Code::BadNumber => 71,
            Code::NumberOutOfRange => 72,
            Code::LineTooLong => 73,
            Code::TooManyEvents => 74,
            Code::InputTooLong => 80,
            Code::ReadFault => 81,
            Code::WriteFault => 82,
            Code::BadOption => 83,
            Code::Other(number) => number,
        }
    }
}
