//! The refusal numbers and the answers of document 01.

/// The refusal table, one case a line.
#[derive(Clone, Copy, Debug, PartialEq, Eq, PartialOrd, Ord, Hash)]
pub enum Refusal {
    /// Fewer than 4 bytes, or the first two bytes aren't the mark.
    NoMark = 1,
    /// N not 2 to 8 (in the header, in rows to be written, or asked of fresh).
    BadN = 2,
    /// Length not exactly that of the record or table for this N.
    WrongLength = 3,
    /// Lengths right, but not well formed.
    NotWellFormed = 4,
    /// A copy number is N or more.
    NoSuchCopy = 5,
    /// One copy named twice in a meeting; or two loose records with the same own number.
    SameCopy = 6,
    /// An unrelated slice between the pair.
    Unrelated = 7,
    /// Two loose records with different N.
    DifferentN = 8,
    /// A program line that can't be read, or program input over 65,536 bytes.
    Unreadable = 9,
}

impl Refusal {
    pub const ALL: [Refusal; 9] = [
        Refusal::NoMark,
        Refusal::BadN,
        Refusal::WrongLength,
        Refusal::NotWellFormed,
        Refusal::NoSuchCopy,
        Refusal::SameCopy,
        Refusal::Unrelated,
        Refusal::DifferentN,
        Refusal::Unreadable,
    ];

    /// The number in the refusal table.
    pub fn number(self) -> u8 {
        self as u8
    }
}

/// The answer of one slice, of a against b.
#[derive(Clone, Copy, Debug, PartialEq, Eq, Hash)]
pub enum SliceAnswer {
    Level,
    Behind,
    Ahead,
    Unrelated,
}

/// The answer of a comparison.
#[derive(Clone, Copy, Debug, PartialEq, Eq, PartialOrd, Ord, Hash)]
pub enum Comparison {
    Equal = 0,
    Older = 1,
    Newer = 2,
    Conflicting = 3,
}

impl Comparison {
    pub const ALL: [Comparison; 4] = [
        Comparison::Equal,
        Comparison::Older,
        Comparison::Newer,
        Comparison::Conflicting,
    ];

    pub fn number(self) -> u8 {
        self as u8
    }

    /// The name that the program prints.
    pub fn name(self) -> &'static str {
        match self {
            Comparison::Equal => "equal",
            Comparison::Older => "older",
            Comparison::Newer => "newer",
            Comparison::Conflicting => "conflicting",
        }
    }

    /// The rule shared by stamps and counters: are some behind, are some ahead.
    pub fn from_parts(some_behind: bool, some_ahead: bool) -> Comparison {
        match (some_behind, some_ahead) {
            (false, false) => Comparison::Equal,
            (true, false) => Comparison::Older,
            (false, true) => Comparison::Newer,
            (true, true) => Comparison::Conflicting,
        }
    }
}

/// The list of superfluous copies: a mask with bit i for copy i, and its count of ones.
#[derive(Clone, Copy, Debug, PartialEq, Eq, Hash)]
pub struct Superfluous {
    pub mask: u32,
    pub count: u32,
}

impl Superfluous {
    /// Mask and count of the copies listed.
    pub fn of(copies: &[usize]) -> Superfluous {
        let mut mask = 0;
        for &i in copies {
            mask += 2u32.pow(i as u32);
        }
        let count = copies.len() as u32;
        Superfluous { mask, count }
    }
}
