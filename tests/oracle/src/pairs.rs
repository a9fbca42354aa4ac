//! All outlines once more, as they are defined: the pieces that fit alone, and
//! whatever a join of any two of them makes, until nothing new comes.

use std::collections::HashSet;

use crate::job::Job;
use crate::outlines::{Counts, Outline, QuickHash};

/// All outlines of the job, in the order in which they come up.
pub fn outlines(job: &Job) -> Vec<Outline> {
    let mut all: Vec<Outline> = Vec::new();
    let mut known = HashSet::with_hasher(QuickHash::default());
    let mut add = |all: &mut Vec<Outline>, outline: Outline| {
        if known.insert((outline.size, outline.counts)) {
            all.push(outline);
        }
    };
    for t in (0..job.types.len()).filter(|&t| job.fits_alone(t)) {
        let outline = Outline {
            profit: job.types[t].profit,
            size: job.types[t].grown,
            counts: Counts::NONE.with(t, 1),
        };
        add(&mut all, outline);
    }
    let mut next = 0;
    while next < all.len() {
        for other in 0..=next {
            let (a, b) = (all[next], all[other]);
            let counts = a.counts.plus(b.counts);
            let asked = |t: usize| counts.of(t) <= job.types[t].demand;
            if !(0..job.types.len()).all(asked) {
                continue;
            }
            for size in [a.size.beside(b.size), a.size.above(b.size)] {
                if size.fits(job.sheet) {
                    let profit = a.profit + b.profit;
                    let outline = Outline {
                        profit,
                        size,
                        counts,
                    };
                    add(&mut all, outline);
                }
            }
        }
        next += 1;
    }
    all
}

/// "The best outline has the greatest profit; among those the least length, then
/// the least width, then the counts that come first in lexicographic order".
pub fn best(mut outlines: Vec<Outline>) -> Option<Outline> {
    outlines.sort_by(|a, b| {
        let profits = b.profit.cmp(&a.profit);
        profits
            .then(a.size.length.cmp(&b.size.length))
            .then(a.size.width.cmp(&b.size.width))
            .then(a.counts.cmp(&b.counts))
    });
    outlines.first().copied()
}
