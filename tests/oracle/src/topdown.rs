//! The greatest profit a second time, from the other end: by cutting the sheet.
//!
//! A region of a by b with demands d left over yields one piece that fits it,
//! or nothing, or it is cut through by some line and the demands are dealt out
//! to its two parts. Every line and every way to deal are tried, so this is for
//! small jobs only. It knows nothing of builds and outlines.

use crate::job::{Job, Size, MAX_TYPES};
use crate::outlines::{Counts, QuickMap};

/// The greatest profit that cutting the sheet can yield.
pub fn optimum(job: &Job) -> u64 {
    let mut cutter = Cutter {
        job,
        known: QuickMap::default(),
    };
    cutter.best(job.sheet, cutter.demands())
}

/// About how many steps `optimum` may take: regions, times lines, times ways to
/// deal out any demands.
pub fn effort(job: &Job) -> u128 {
    let Size { length, width } = job.sheet;
    let (length, width) = (u128::from(length), u128::from(width));
    let cutter = Cutter {
        job,
        known: QuickMap::default(),
    };
    let demands = cutter.usable(job.sheet, cutter.demands());
    let dealings: u128 = (0..MAX_TYPES)
        .map(|t| u128::from(demands.of(t)))
        .map(|d| (d + 1) * (d + 2) / 2)
        .product();
    (length * width * (length + width) / 2).saturating_mul(dealings)
}

struct Cutter<'j> {
    job: &'j Job,
    known: QuickMap<(u32, u32, Counts), u64>,
}

impl Cutter<'_> {
    fn demands(&self) -> Counts {
        let types = self.job.types.iter().enumerate();
        types.fold(Counts::NONE, |d, (t, kind)| d.with(t, kind.demand))
    }

    /// The part of the demands that can matter in the region: none of a type
    /// that does not fit it, and no more pieces than its area holds.
    fn usable(&self, region: Size, demands: Counts) -> Counts {
        let types = self.job.types.iter().enumerate();
        types.fold(demands, |d, (t, kind)| {
            let holds = if kind.grown.fits(region) {
                region.length * region.width / (kind.grown.length * kind.grown.width)
            } else {
                0
            };
            d.with(t, u32::from(d.of(t)).min(holds) as u8)
        })
    }

    fn best(&mut self, region: Size, demands: Counts) -> u64 {
        let demands = self.usable(region, demands);
        if demands == Counts::NONE {
            return 0;
        }
        let state = (region.length, region.width, demands);
        if let Some(&profit) = self.known.get(&state) {
            return profit;
        }
        let types = self.job.types.iter().enumerate();
        let wanted = types.filter(|&(t, _)| demands.of(t) > 0);
        let mut best = wanted.map(|(_, kind)| kind.profit).max().unwrap_or(0);
        // A line past the middle gives the same two parts, named the other way.
        for at in 1..=region.length / 2 {
            let parts = [at, region.length - at].map(|length| Size { length, ..region });
            best = best.max(self.best_of_parts(parts, demands));
        }
        for at in 1..=region.width / 2 {
            let parts = [at, region.width - at].map(|width| Size { width, ..region });
            best = best.max(self.best_of_parts(parts, demands));
        }
        self.known.insert(state, best);
        best
    }

    /// Deals the demands out to the two parts in every way.
    fn best_of_parts(&mut self, [one, other]: [Size; 2], demands: Counts) -> u64 {
        let mut best = 0;
        let mut dealt = Some(Counts::NONE);
        while let Some(first) = dealt {
            let profit = self.best(one, first) + self.best(other, demands.minus(first));
            best = best.max(profit);
            dealt = first.next_within(demands);
        }
        best
    }
}
