//! A planner and a checker of guillotine cutting plans: one sheet, piece types with demands, a kerf, pieces that are never turned.
//!
//! This crate is a thin safe layer over `libvarandeco.a`, whose functions are proved to give the answer that the rules give on every
//! input. It has no dependencies, needs no heap and runs without `std`. What is proved ends at the library: this file is only tested.
//!
//! # Jobs and lists
//!
//! A job as numbers is a slice `L W k n` and then `l w p b` of each type: the sheet's length and width (1 to 5,000), the kerf (0 to 20), the number of
//! types (1 to 12), and of each type length and width (1 to 5,000), profit (1 to 25,000,000) and demand (1 to 50). A number that the slice is too short for
//! counts as 0; numbers behind the n types are not read. A list of placements is a slice of flat numbers, `type x y`, types numbered from 1; a rest of one or two
//! numbers counts for nothing. Texts hold the same numbers in sections, each after its count, one line to a sheet, a type and a placement.
//!
//! # Example
//!
//! ```
//! // a sheet of 10 by 6, no kerf, one type: 5 by 3, profit 15, demand 4
//! let job = [10, 6, 0, 1, 5, 3, 15, 4];
//! let mut arena = [0; 5 * varandeco::RECORD_BYTES];
//! let mut buffer = [0; varandeco::PLAN_NUMBERS];
//!
//! let plan = varandeco::plan_numbers(&job, &mut arena, &mut buffer).unwrap();
//! assert_eq!((plan.profit, plan.pieces, plan.outlines), (60, 4, 5));
//!
//! let list = &buffer[..plan.numbers()];
//! assert_eq!(list, [1, 0, 0, 1, 5, 0, 1, 0, 3, 1, 5, 3]);
//! assert_eq!(varandeco::check_numbers(&job, list).unwrap().profit, 60);
//!
//! // one record less than the job has outlines
//! let refusal = varandeco::plan_numbers(&job, &mut arena[..4 * varandeco::RECORD_BYTES], &mut buffer).unwrap_err();
//! assert_eq!(refusal, varandeco::Refusal { number: 4, place: 0 });
//! ```
#![cfg_attr(not(test), no_std)]

use core::fmt;

/// The bytes of a record in the arena.
pub const RECORD_BYTES: usize = 32;

/// The most records that the planner uses. A larger arena helps no more.
pub const RECORDS_MOST: usize = 65_535;

/// The flat numbers of a placement: type, x, y.
pub const PLACEMENT_NUMBERS: usize = 3;

/// The flat numbers of the longest plan, 600 placements: a plan buffer of this length is never too short.
pub const PLAN_NUMBERS: usize = 600 * PLACEMENT_NUMBERS;

const PLAN_ANSWER: usize = 7;
const CHECK_ANSWER: usize = 4;

mod library {
    // As include/varandeco.h declares them.
    extern "C" {
        pub fn varandeco_plan_numbers(job: *const u64, job_length: usize, arena: *mut u8, arena_length: usize, plan: *mut u64, plan_length: usize, answer: *mut u64, answer_length: usize) -> u64;
        pub fn varandeco_plan_text(text: *const u8, text_length: usize, arena: *mut u8, arena_length: usize, plan: *mut u64, plan_length: usize, answer: *mut u64, answer_length: usize) -> u64;
        pub fn varandeco_check_numbers(job: *const u64, job_length: usize, list: *const u64, list_length: usize, answer: *mut u64, answer_length: usize) -> u64;
        pub fn varandeco_check_text(text: *const u8, text_length: usize, answer: *mut u64, answer_length: usize) -> u64;
    }
}

/// Why there is no plan, or why a list is not accepted: a number of the refusal table and the place that it names.
#[derive(Clone, Copy, Debug, PartialEq, Eq)]
pub struct Refusal {
    /// 1 to 10, see [`Refusal::reason`].
    pub number: u64,
    /// For 1 the bytes up to where the text leaves the grammar; for 2 the item, counted from 0 as in a text (0 the sheet count, 1 L, 2 W, 3 k, 4 n,
    /// 5 l of type 1, and so on); for 6 to 9 the place in the list, from 0; else 0.
    pub place: u64,
}

impl Refusal {
    /// The refusal table in words.
    pub fn reason(&self) -> &'static str {
        match self.number {
            1 => "the text is not in the grammar",
            2 => "a number of the job is out of its range",
            3 => "no piece type fits the sheet",
            4 => "the job has more outlines than the arena has records",
            5 => "the best plan has more pieces than the plan buffer has room for",
            6 => "a type that the job does not have",
            7 => "a piece that is not wholly in the sheet",
            8 => "a piece more than its type's demand",
            9 => "a piece that overlaps an earlier one",
            10 => "no sequence of through cuts parts the pieces",
            _ => "no refusal of the table",
        }
    }
}

impl fmt::Display for Refusal {
    fn fmt(&self, f: &mut fmt::Formatter<'_>) -> fmt::Result {
        write!(f, "{} ({}, place {})", self.reason(), self.number, self.place)
    }
}

/// The best plan of a job, whose placements stand in front of the plan buffer.
#[derive(Clone, Copy, Debug, PartialEq, Eq)]
pub struct Plan {
    pub profit: u64,
    /// The outline that all its placements lie in, with its corner at (0, 0).
    pub length: u64,
    pub width: u64,
    pub pieces: u64,
    /// N, the number of the job's outlines: the records that its planning needs.
    pub outlines: u64,
}

impl Plan {
    /// The flat numbers of the plan in the plan buffer.
    pub fn numbers(&self) -> usize {
        self.pieces as usize * PLACEMENT_NUMBERS
    }
}

/// An accepted list.
#[derive(Clone, Copy, Debug, PartialEq, Eq)]
pub struct Drawing {
    pub profit: u64,
    pub pieces: u64,
}

fn planned(answer: [u64; PLAN_ANSWER]) -> Result<Plan, Refusal> {
    match answer {
        [0, _, profit, length, width, pieces, outlines] => Ok(Plan { profit, length, width, pieces, outlines }),
        [number, place, ..] => Err(Refusal { number, place }),
    }
}

fn checked(answer: [u64; CHECK_ANSWER]) -> Result<Drawing, Refusal> {
    match answer {
        [0, _, profit, pieces] => Ok(Drawing { profit, pieces }),
        [number, place, ..] => Err(Refusal { number, place }),
    }
}

/// Plans a job handed over as numbers, in a lent arena (any bytes; room for its length / 32 records) and a lent plan buffer (room for its length / 3 placements).
///
/// The plan's placements stand in the buffer in order of y, then x; the checker accepts them, and no list that it accepts for this job earns more. The
/// rest of the buffer, and after a refusal all of it, is untouched. The arena is all zeros after a plan and after refusals 4 and 5, and untouched after 1, 2 and 3.
pub fn plan_numbers(job: &[u64], arena: &mut [u8], buffer: &mut [u64]) -> Result<Plan, Refusal> {
    let mut answer = [0; PLAN_ANSWER];
    // SAFETY: four slices of these lengths, of which those that are written overlap no other.
    unsafe {
        library::varandeco_plan_numbers(job.as_ptr(), job.len(), arena.as_mut_ptr(), arena.len(), buffer.as_mut_ptr(), buffer.len(), answer.as_mut_ptr(), answer.len());
    }
    planned(answer)
}

/// Plans a job text; see [`plan_numbers`].
///
/// ```
/// let mut arena = [0; 32];
/// let mut buffer = [0; 3];
/// let plan = varandeco::plan_text(b"1\n10 6 0\n1\n10 6 60 1\n", &mut arena, &mut buffer).unwrap();
/// assert_eq!((plan.profit, plan.outlines), (60, 1));
/// ```
pub fn plan_text(text: &[u8], arena: &mut [u8], buffer: &mut [u64]) -> Result<Plan, Refusal> {
    let mut answer = [0; PLAN_ANSWER];
    // SAFETY: as in `plan_numbers`.
    unsafe {
        library::varandeco_plan_text(text.as_ptr(), text.len(), arena.as_mut_ptr(), arena.len(), buffer.as_mut_ptr(), buffer.len(), answer.as_mut_ptr(), answer.len());
    }
    planned(answer)
}

/// Checks a list of placements, drawn by anybody, for a job handed over as numbers: it is accepted exactly if every piece lies in the sheet, no type is used above
/// its demand, no two pieces overlap, and some sequence of through cuts parts them all.
pub fn check_numbers(job: &[u64], list: &[u64]) -> Result<Drawing, Refusal> {
    let mut answer = [0; CHECK_ANSWER];
    // SAFETY: three slices of these lengths; the answer, which is written, overlaps no other.
    unsafe {
        library::varandeco_check_numbers(job.as_ptr(), job.len(), list.as_ptr(), list.len(), answer.as_mut_ptr(), answer.len());
    }
    checked(answer)
}

/// Checks a plan text: a job and its placements; see [`check_numbers`].
///
/// ```
/// assert_eq!(varandeco::check_text(b"1\n10 6 0\n1\n5 3 15 4\n2\n1 0 0\n1 5 0\n").unwrap().profit, 30);
/// assert_eq!(varandeco::check_text(b"01").unwrap_err(), varandeco::Refusal { number: 1, place: 1 });
/// ```
pub fn check_text(text: &[u8]) -> Result<Drawing, Refusal> {
    let mut answer = [0; CHECK_ANSWER];
    // SAFETY: as in `check_numbers`.
    unsafe {
        library::varandeco_check_text(text.as_ptr(), text.len(), answer.as_mut_ptr(), answer.len());
    }
    checked(answer)
}

#[cfg(test)]
mod tests;
