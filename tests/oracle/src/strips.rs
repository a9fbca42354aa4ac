//! Strips, whose plan is known without a search: no two pieces fit above each
//! other, and all that are asked for fit side by side. Then every build is a row
//! of pieces, its length the sum of theirs and its width their greatest, so that
//! each count vector within the demands but zero is one outline. N is the product
//! of all demands plus 1 each, less 1, and the best outline has every piece.

use crate::checker::Placement;
use crate::job::{Job, Size};
use crate::outlines::{Counts, Outline};
use crate::planner::Plan;

/// The plan of a strip that lies along the sheet, or stands across it; none of
/// any other job.
pub fn plan(job: &Job) -> Option<Plan> {
    lying(job).or_else(|| lying(&job.turned()).map(stood_up))
}

fn lying(job: &Job) -> Option<Plan> {
    let fitting = || (0..job.types.len()).filter(|&t| job.fits_alone(t));
    let least = fitting().map(|t| job.types[t].grown.width).min()?;
    let mut best = Outline {
        profit: 0,
        size: Size {
            length: 0,
            width: 0,
        },
        counts: Counts::NONE,
    };
    let mut vectors: u64 = 1;
    let mut placements = Vec::new();
    for t in fitting() {
        let kind = job.types[t];
        for _ in 0..kind.demand {
            placements.push(Placement {
                kind: t as u64 + 1,
                x: u64::from(best.size.length),
                y: 0,
            });
            best.size.length += kind.grown.length;
        }
        best.size.width = best.size.width.max(kind.grown.width);
        best.profit += u64::from(kind.demand) * kind.profit;
        best.counts = best.counts.with(t, kind.demand);
        vectors = vectors.saturating_mul(u64::from(kind.demand) + 1);
    }
    let strip = 2 * least > job.sheet.width && best.size.length <= job.sheet.length;
    strip.then_some(Plan {
        best,
        outlines: vectors - 1,
        placements,
    })
}

/// Lengths and widths change places.
fn stood_up(mut plan: Plan) -> Plan {
    plan.best.size = plan.best.size.turned();
    for p in &mut plan.placements {
        (p.x, p.y) = (p.y, p.x);
    }
    plan
}
