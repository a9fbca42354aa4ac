//! How large the classes are that cases lead to. A class is all outlines with
//! the same counts; a planner that finds, sorts or pairs them class by class has
//! most to do where one has thousands.
//!
//! Only what finds room in the case's arena counts, class after class as
//! `outlines` lists them.

use crate::cases::{line, Case};
use crate::outlines::Outlines;
use crate::planner::arena_room;

/// A class with more outlines than this is a large one.
pub const LARGE: usize = 1_000;

/// The classes of a job, as far as an arena has room for them.
#[derive(Debug, PartialEq, Eq)]
pub struct Lodged {
    /// The most outlines of one class that are in the arena.
    pub largest: usize,
    /// The number of outlines of the class within which the arena is full.
    pub cut: Option<usize>,
}

impl Lodged {
    /// `classes` goes on at least to where the arena is full.
    pub fn in_arena(classes: &[usize], room: usize) -> Lodged {
        let mut left = room;
        let mut largest = 0;
        for &class in classes {
            largest = largest.max(class.min(left));
            if class > left {
                // An arena that is full before the first outline cuts no class.
                let cut = (left > 0).then_some(class);
                return Lodged { largest, cut };
            }
            left -= class;
        }
        Lodged { largest, cut: None }
    }
}

/// What is told of a file of cases.
#[derive(Debug, Default, PartialEq, Eq)]
pub struct Census {
    pub cases: usize,
    /// Cases with a large class.
    pub large: usize,
    /// Cases whose arena is full in the midst of a large class.
    pub cut: usize,
    /// The most outlines of one class.
    pub largest: usize,
}

impl Census {
    pub fn of(cases: &[Case]) -> Census {
        let mut census = Census {
            cases: cases.len(),
            ..Census::default()
        };
        // Cases of one job follow each other: it is listed once.
        for same in cases.chunk_by(|a, b| (a.kind, &a.payload) == (b.kind, &b.payload)) {
            let rooms = || same.iter().map(|case| arena_room(case.arena));
            let (Some(job), Some(most)) = (same[0].job_to_plan(), rooms().max()) else {
                continue;
            };
            let outlines = Outlines::up_to(&job, most);
            rooms().for_each(|room| census.add(Lodged::in_arena(outlines.classes(), room)));
        }
        census
    }

    /// The four numbers with single spaces between.
    pub fn line(&self) -> String {
        line(&[self.cases, self.large, self.cut, self.largest].map(|n| n as u64))
    }

    fn add(&mut self, lodged: Lodged) {
        self.large += usize::from(lodged.largest > LARGE);
        self.cut += usize::from(lodged.cut.is_some_and(|class| class > LARGE));
        self.largest = self.largest.max(lodged.largest);
    }
}
