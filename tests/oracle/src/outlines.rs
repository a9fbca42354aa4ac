//! All outlines of a job, count vector by count vector.
//!
//! A build is one piece or a join of two smaller builds, and the counts of a
//! join are the sum of the counts of its halves. So the sizes that belong to a
//! count vector are found by splitting it into two non-empty count vectors in
//! every way and joining every size of the one with every size of the other,
//! both ways. Vectors are taken by their total number of pieces, rising; both
//! parts of a split then have been done before.

use std::collections::{BTreeSet, HashMap, HashSet};
use std::hash::{BuildHasherDefault, Hash, Hasher};
use std::iter;

use crate::checker::Placement;
use crate::job::{Job, Size, MAX_TYPES};

/// How many pieces of each type. The derived order is "lexicographic order,
/// type 1 first, smaller first".
#[derive(Clone, Copy, Debug, PartialEq, Eq, PartialOrd, Ord)]
pub struct Counts([u8; MAX_TYPES]);

impl Counts {
    pub const NONE: Counts = Counts([0; MAX_TYPES]);

    /// One piece of type `t` (from 0).
    fn one(t: usize) -> Counts {
        Counts::NONE.with(t, 1)
    }

    pub fn of(self, t: usize) -> u8 {
        self.0[t]
    }

    /// The same counts, but `count` pieces of type `t`.
    pub fn with(mut self, t: usize, count: u8) -> Counts {
        self.0[t] = count;
        self
    }

    pub fn plus(self, other: Counts) -> Counts {
        Counts(std::array::from_fn(|t| self.0[t] + other.0[t]))
    }

    pub fn minus(self, other: Counts) -> Counts {
        Counts(std::array::from_fn(|t| self.0[t] - other.0[t]))
    }

    pub fn pieces(self) -> u64 {
        self.0.iter().map(|&count| u64::from(count)).sum()
    }

    /// The counts that follow in lexicographic order among those that exceed
    /// `limit` nowhere.
    pub fn next_within(mut self, limit: Counts) -> Option<Counts> {
        for t in (0..MAX_TYPES).rev() {
            if self.0[t] < limit.0[t] {
                self.0[t] += 1;
                return Some(self);
            }
            self.0[t] = 0;
        }
        None
    }

    /// Every way to split the counts into two non-empty ones, each pair once:
    /// the joins do not care which half is named first. As the first part
    /// rises, the second falls, so the pairs end where the two would cross.
    fn splits(self) -> impl Iterator<Item = (Counts, Counts)> {
        iter::successors(Counts::NONE.next_within(self), move |a| a.next_within(self))
            .map(move |a| (a, self.minus(a)))
            .take_while(|(a, b)| a <= b)
    }
}

impl Hash for Counts {
    fn hash<H: Hasher>(&self, state: &mut H) {
        let mut word = [0; 16];
        word[..MAX_TYPES].copy_from_slice(&self.0);
        state.write_u128(u128::from_le_bytes(word));
    }
}

/// A quick hash for counts and sizes; nobody picks them to make it collide.
#[derive(Default)]
pub struct QuickHasher(u64);

impl Hasher for QuickHasher {
    fn finish(&self) -> u64 {
        self.0 ^ (self.0 >> 32)
    }

    fn write(&mut self, bytes: &[u8]) {
        for &byte in bytes {
            self.write_u64(u64::from(byte));
        }
    }

    fn write_u32(&mut self, word: u32) {
        self.write_u64(u64::from(word));
    }

    fn write_u64(&mut self, word: u64) {
        self.0 = (self.0.rotate_left(29) ^ word).wrapping_mul(0x9fb2_1c65_1e98_df25);
    }

    fn write_u128(&mut self, word: u128) {
        self.write_u64(word as u64);
        self.write_u64((word >> 64) as u64);
    }
}

pub type QuickHash = BuildHasherDefault<QuickHasher>;
pub type QuickMap<K, V> = HashMap<K, V, QuickHash>;
pub type QuickSet<K> = HashSet<K, QuickHash>;

/// One outline: "Builds that agree in length, width and the count of every type
/// are one outline."
#[derive(Clone, Copy, Debug, PartialEq, Eq)]
pub struct Outline {
    pub profit: u64,
    pub size: Size,
    pub counts: Counts,
}

/// The outlines of one job. Those that have the same counts are a class.
pub struct Outlines<'j> {
    job: &'j Job,
    sizes: QuickMap<Counts, Vec<Size>>,
    number: usize,
    /// How many outlines each class has, as they were listed.
    classes: Vec<usize>,
}

impl<'j> Outlines<'j> {
    /// All outlines of the job, unless there are more than `room`.
    pub fn within(job: &'j Job, room: usize) -> Option<Self> {
        let outlines = Outlines::up_to(job, room);
        (outlines.number <= room).then_some(outlines)
    }

    /// The outlines of the job, class by class; the class that goes beyond `room`
    /// is the last one.
    pub fn up_to(job: &'j Job, room: usize) -> Self {
        let mut outlines = Outlines {
            job,
            sizes: QuickMap::default(),
            number: 0,
            classes: Vec::new(),
        };
        // "One piece whose grown size fits the sheet is a build."
        let singles: Vec<usize> = (0..job.types.len())
            .filter(|&t| job.fits_alone(t))
            .collect();
        let mut level: Vec<Counts> = singles.iter().map(|&t| Counts::one(t)).collect();
        for (&t, &counts) in singles.iter().zip(&level) {
            outlines.add(counts, vec![job.types[t].grown]);
        }
        while !level.is_empty() && outlines.number <= room {
            // Only vectors with one piece more than a vector that has builds
            // need be tried: taking a piece out of a build, and putting what it
            // was joined with in the place of the join, leaves a build that is
            // nowhere larger.
            let candidates: BTreeSet<Counts> = level
                .iter()
                .flat_map(|&counts| {
                    let addable = move |&&t: &&usize| counts.of(t) < job.types[t].demand;
                    let more = singles.iter().filter(addable);
                    more.map(move |&t| counts.with(t, counts.of(t) + 1))
                })
                .collect();
            level.clear();
            for counts in candidates {
                let sizes = outlines.joined_sizes(counts);
                if !sizes.is_empty() {
                    level.push(counts);
                    outlines.add(counts, sizes);
                    if outlines.number > room {
                        return outlines;
                    }
                }
            }
        }
        outlines
    }

    fn add(&mut self, counts: Counts, sizes: Vec<Size>) {
        self.number += sizes.len();
        self.classes.push(sizes.len());
        self.sizes.insert(counts, sizes);
    }

    fn sizes_of(&self, counts: Counts) -> &[Size] {
        self.sizes.get(&counts).map_or(&[], Vec::as_slice)
    }

    /// The different sizes of all joins with these counts: "A join is a build
    /// if length ≤ L, width ≤ W and, type by type, the added counts do not
    /// exceed the demand." The caller has seen to the demand.
    fn joined_sizes(&self, counts: Counts) -> Vec<Size> {
        // A class of thousands comes from millions of joins, most of them alike.
        let mut found = QuickSet::default();
        for (a, b) in counts.splits() {
            for &one in self.sizes_of(a) {
                for &other in self.sizes_of(b) {
                    let joins = [one.beside(other), one.above(other)];
                    found.extend(joins.iter().filter(|join| join.fits(self.job.sheet)));
                }
            }
        }
        let mut sizes: Vec<Size> = found.into_iter().collect();
        sizes.sort_unstable();
        sizes
    }

    /// "N is the number of different outlines of the job."
    pub fn number(&self) -> usize {
        self.number
    }

    /// How many outlines each class has, in the order in which they are listed:
    /// classes of fewer pieces first.
    pub fn classes(&self) -> &[usize] {
        &self.classes
    }

    /// "The best outline has the greatest profit; among those the least length,
    /// then the least width, then the counts that come first in lexicographic
    /// order". None if no piece fits alone.
    pub fn best(&self) -> Option<Outline> {
        self.sizes
            .iter()
            .flat_map(|(&counts, sizes)| {
                let profit = self.profit(counts);
                sizes.iter().map(move |&size| Outline {
                    profit,
                    size,
                    counts,
                })
            })
            .min_by_key(|o| (std::cmp::Reverse(o.profit), o.size, o.counts))
    }

    /// "Profit is the sum over its pieces."
    fn profit(&self, counts: Counts) -> u64 {
        let types = self.job.types.iter().enumerate();
        types
            .map(|(t, kind)| u64::from(counts.of(t)) * kind.profit)
            .sum()
    }

    /// Some placement of the outline with its corner at (0, 0), "in order of y,
    /// then x".
    pub fn placements(&self, outline: &Outline) -> Vec<Placement> {
        let mut list = Vec::new();
        self.place(outline.counts, outline.size, (0, 0), &mut list);
        list.sort_by_key(|p| (p.y, p.x));
        list
    }

    /// Finds a join that gives `size` once more and places its halves.
    fn place(&self, counts: Counts, size: Size, (x, y): (u64, u64), list: &mut Vec<Placement>) {
        if counts.pieces() == 1 {
            let kind = 1 + (0..MAX_TYPES).take_while(|&t| counts.of(t) == 0).count() as u64;
            list.push(Placement { kind, x, y });
            return;
        }
        for (a, b) in counts.splits() {
            for &one in self.sizes_of(a) {
                for &other in self.sizes_of(b) {
                    let corner = if one.beside(other) == size {
                        (x + u64::from(one.length), y)
                    } else if one.above(other) == size {
                        (x, y + u64::from(one.width))
                    } else {
                        continue;
                    };
                    self.place(a, one, (x, y), list);
                    self.place(b, other, corner, list);
                    return;
                }
            }
        }
        unreachable!("every outline of two or more pieces is a join");
    }
}
