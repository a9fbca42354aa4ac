//! The planner's answer: refusals 3, 4 and 5 of document 01, or the best plan.

use crate::checker::{check, Placement};
use crate::job::{Job, Refusal};
use crate::outlines::{Outline, Outlines};
use crate::{pairs, strips, topdown};

/// The most records that are ever used.
pub const MOST_RECORDS: usize = 65_535;

/// "Its room is its length divided by 32, rounded down, and at most 65,535
/// records."
pub fn arena_room(bytes: u64) -> usize {
    (bytes / 32).min(MOST_RECORDS as u64) as usize
}

/// "its room is its length divided by 3, rounded down."
pub fn buffer_room(numbers: u64) -> u64 {
    numbers / 3
}

/// Jobs up to this effort have their profit computed a second time.
const SMALL: u128 = 60_000;

/// Jobs with at most so many outlines have them listed a second time.
const FEW: usize = 60;

/// Strips with more outlines than this are not split: it would take long.
const MANY: u64 = 5_000;

/// The answer to a job in range.
#[derive(Debug)]
pub struct Plan {
    pub best: Outline,
    /// N.
    pub outlines: u64,
    pub placements: Vec<Placement>,
}

/// Plans a job with an arena for `records` records and a buffer for
/// `placements` placements.
pub fn plan(job: &Job, records: usize, placements: u64) -> Result<Plan, Refusal> {
    if !(0..job.types.len()).any(|t| job.fits_alone(t)) {
        return Err(Refusal::NothingFits);
    }
    let within = |plan: &Plan| plan.outlines <= records as u64;
    let plan = match strips::plan(job) {
        None => split(job, records),
        Some(strip) if strip.outlines > MANY => Some(strip).filter(within),
        Some(strip) => {
            let plan = split(job, records);
            let known = |plan: &Plan| (plan.best, plan.outlines);
            let expected = Some(&strip).filter(|strip| within(strip)).map(known);
            assert_eq!(plan.as_ref().map(known), expected, "{job:?}");
            plan
        }
    };
    let plan = plan.ok_or(Refusal::ArenaFull)?;
    if plan.best.counts.pieces() > placements {
        return Err(Refusal::BufferFull);
    }
    // "They are a list that the checker accepts"
    assert_eq!(
        check(job, &plan.placements),
        Ok(plan.best.profit),
        "{job:?}"
    );
    Ok(plan)
}

/// The plan by splitting count vectors, unless there are more than `records`
/// outlines; compared with the other methods where the job is small.
fn split(job: &Job, records: usize) -> Option<Plan> {
    let outlines = Outlines::within(job, records)?;
    let best = outlines.best().expect("some type fits alone");
    if topdown::effort(job) <= SMALL {
        assert_eq!(best.profit, topdown::optimum(job), "{job:?}");
    }
    if outlines.number() <= FEW {
        let all = pairs::outlines(job);
        assert_eq!(outlines.number(), all.len(), "{job:?}");
        assert_eq!(Some(best), pairs::best(all), "{job:?}");
    }
    Some(Plan {
        best,
        outlines: outlines.number() as u64,
        placements: outlines.placements(&best),
    })
}
