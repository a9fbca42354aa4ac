//! The job: one sheet, its kerf and up to twelve piece types, with the ranges
//! of document 01, "Numbers of a job".

use std::ops::RangeInclusive;

/// "piece types n: 1 to 12".
pub const MAX_TYPES: usize = 12;

/// "the placement count at most 600".
pub const MAX_PLACEMENTS: u64 = 600;

/// The refusals of document 01, "Refusal numbers". The place is kept only by
/// those whose place is not fixed.
#[derive(Clone, Copy, Debug, PartialEq, Eq)]
pub enum Refusal {
    NotInGrammar(usize),
    OutOfRange(usize),
    NothingFits,
    ArenaFull,
    BufferFull,
    UnknownType(usize),
    OutsideSheet(usize),
    AboveDemand(usize),
    Overlap(usize),
    CannotBeParted,
    InputTooLong,
}

impl Refusal {
    /// Column "no." of the table.
    pub fn number(self) -> u64 {
        match self {
            Refusal::NotInGrammar(_) => 1,
            Refusal::OutOfRange(_) => 2,
            Refusal::NothingFits => 3,
            Refusal::ArenaFull => 4,
            Refusal::BufferFull => 5,
            Refusal::UnknownType(_) => 6,
            Refusal::OutsideSheet(_) => 7,
            Refusal::AboveDemand(_) => 8,
            Refusal::Overlap(_) => 9,
            Refusal::CannotBeParted => 10,
            Refusal::InputTooLong => 11,
        }
    }

    /// Column "place returned" of the table.
    pub fn place(self) -> u64 {
        match self {
            Refusal::NotInGrammar(place)
            | Refusal::OutOfRange(place)
            | Refusal::UnknownType(place)
            | Refusal::OutsideSheet(place)
            | Refusal::AboveDemand(place)
            | Refusal::Overlap(place) => place as u64,
            Refusal::NothingFits
            | Refusal::ArenaFull
            | Refusal::BufferFull
            | Refusal::CannotBeParted => 0,
            Refusal::InputTooLong => 32_768,
        }
    }

    /// Column "arena" of the table: is it zeros afterwards, or untouched?
    pub fn clears_arena(self) -> bool {
        matches!(self, Refusal::ArenaFull | Refusal::BufferFull)
    }
}

/// A length along the sheet and a width across it. The derived order is "the
/// least length, then the least width".
#[derive(Clone, Copy, Debug, PartialEq, Eq, PartialOrd, Ord, Hash)]
pub struct Size {
    pub length: u32,
    pub width: u32,
}

impl Size {
    /// "A horizontal build of A and B has length lA+lB and the larger of the
    /// two widths."
    pub fn beside(self, other: Size) -> Size {
        Size {
            length: self.length + other.length,
            width: self.width.max(other.width),
        }
    }

    /// "A vertical build has the larger of the two lengths and width wA+wB."
    pub fn above(self, other: Size) -> Size {
        Size {
            length: self.length.max(other.length),
            width: self.width + other.width,
        }
    }

    /// Length and width change places.
    pub fn turned(self) -> Size {
        Size {
            length: self.width,
            width: self.length,
        }
    }

    /// An edge on the last line of `room` is still inside it.
    pub fn fits(self, room: Size) -> bool {
        self.length <= room.length && self.width <= room.width
    }
}

/// One piece type, every number in range.
#[derive(Clone, Copy, Debug)]
pub struct PieceType {
    /// "A piece takes up its grown size, l+k by w+k".
    pub grown: Size,
    pub profit: u64,
    pub demand: u8,
}

/// A job whose items are all in range.
#[derive(Clone, Debug)]
pub struct Job {
    pub sheet: Size,
    pub types: Vec<PieceType>,
}

/// "A job handed over as numbers holds the sheet's three numbers, a piece count
/// and room for 12 types." Nothing here is in range until it has been checked.
#[derive(Clone, Copy, Debug)]
pub struct JobNumbers {
    /// L, W and k.
    pub sheet: [u64; 3],
    pub count: u64,
    /// l, w, p and b of each type.
    pub types: [[u64; 4]; MAX_TYPES],
}

/// The range of an item of the job: "Items are numbered from 0 in reading
/// order, counts included."
fn range_of(item: usize) -> RangeInclusive<u64> {
    match item {
        0 => 1..=1,
        1 | 2 => 1..=5_000,
        3 => 0..=20,
        4 => 1..=MAX_TYPES as u64,
        _ => match (item - 5) % 4 {
            0 | 1 => 1..=5_000,
            2 => 1..=25_000_000,
            _ => 1..=50,
        },
    }
}

impl Job {
    /// Checks the items from the front; the first one out of range is refused
    /// with its number (refusal 2). Items behind the last type are not looked
    /// at. `items` must be as long as its own two counts say, once these are
    /// in range.
    pub fn from_items(items: &[u64]) -> Result<Job, Refusal> {
        let in_range = |item: usize| match range_of(item).contains(&items[item]) {
            true => Ok(items[item]),
            false => Err(Refusal::OutOfRange(item)),
        };
        // The sheet count goes first: where it is not 1, the numbers behind it
        // need not be a sheet and a piece count at all.
        in_range(0)?;
        let sheet = Size {
            length: in_range(1)? as u32,
            width: in_range(2)? as u32,
        };
        let kerf = in_range(3)? as u32;
        let count = in_range(4)? as usize;
        let types = (0..count)
            .map(|t| {
                let first = 5 + 4 * t;
                Ok(PieceType {
                    grown: Size {
                        length: in_range(first)? as u32 + kerf,
                        width: in_range(first + 1)? as u32 + kerf,
                    },
                    profit: in_range(first + 2)?,
                    demand: in_range(first + 3)? as u8,
                })
            })
            .collect::<Result<_, _>>()?;
        Ok(Job { sheet, types })
    }

    /// "It is checked with the same item numbers, the sheet count standing as
    /// 1; types past the count are not read."
    pub fn from_numbers(numbers: &JobNumbers) -> Result<Job, Refusal> {
        let mut items = vec![1];
        items.extend(numbers.sheet);
        items.push(numbers.count);
        let read = numbers.count.min(MAX_TYPES as u64) as usize;
        items.extend(numbers.types[..read].iter().flatten());
        Job::from_items(&items)
    }

    /// The number of the item that follows the last type: in a plan text, the
    /// placement count.
    pub fn items(&self) -> usize {
        5 + 4 * self.types.len()
    }

    /// Lengths and widths change places throughout.
    pub fn turned(&self) -> Job {
        let mut job = self.clone();
        job.sheet = job.sheet.turned();
        for kind in &mut job.types {
            kind.grown = kind.grown.turned();
        }
        job
    }

    /// Does a piece of type `t` (from 0) fit the sheet alone?
    pub fn fits_alone(&self, t: usize) -> bool {
        self.types[t].grown.fits(self.sheet)
    }
}
