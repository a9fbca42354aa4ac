//! Jobs for the planner.

use std::iter;

use super::Draft;
use crate::outlines::Outlines;
use crate::rng::Rng;

/// A random job, most often one with 12 to 300 outlines.
pub fn planner_job(rng: &mut Rng) -> Draft {
    let least = if rng.one_in(3) { 0 } else { 12 };
    let most = if rng.one_in(12) { 1_500 } else { 300 };
    for _ in 0..30 {
        let draft = random_job(rng);
        let job = draft.job().ok();
        let outlines = job.as_ref().and_then(|job| Outlines::within(job, most));
        if outlines.is_some_and(|outlines| outlines.number() >= least) {
            return draft;
        }
    }
    random_job(rng)
}

/// A random job with 1,500 to 30,000 outlines.
pub fn large_job(rng: &mut Rng) -> Draft {
    loop {
        let draft = crowded_job(rng);
        let job = draft.job().ok();
        let outlines = job.as_ref().and_then(|job| Outlines::within(job, 30_000));
        if outlines.is_some_and(|outlines| outlines.number() >= 1_500) {
            return draft;
        }
    }
}

pub fn random_job(rng: &mut Rng) -> Draft {
    let mut draft = match rng.below(20) {
        0..=9 => small_job(rng),
        10..=12 => scaled_job(rng),
        13 | 14 => strip_job(rng),
        15 | 16 => many_types_job(rng),
        17 => tight_job(rng),
        18 => nothing_fits_job(rng),
        _ => end_of_range_job(rng),
    };
    set_profits(rng, &mut draft);
    draft
}

pub fn kerf(rng: &mut Rng) -> u64 {
    *rng.pick(&[0, 0, 0, 1, 1, 2])
}

/// Sheets of 1 to 12, 1 to 4 types, demands of 1 to 4.
pub fn small_job(rng: &mut Rng) -> Draft {
    let (length, width) = (rng.between(1, 12), rng.between(1, 12));
    let count = rng.between(1, 4) as usize;
    let most = rng.between(1, 4);
    // Some jobs have pieces larger than the sheet, some only small ones.
    let reach = *rng.pick(&[0, 0, 0, 1, 3]);
    let shrink = *rng.pick(&[1, 1, 1, 2]);
    let types = iter::repeat_with(|| {
        let l = rng.between(1, (length / shrink).max(1) + reach);
        let w = rng.between(1, (width / shrink).max(1) + reach);
        [l, w, 1, rng.between(1, most)]
    });
    let types = types.take(count).collect();
    Draft {
        sheet: [length, width, kerf(rng)],
        types,
        list: Vec::new(),
    }
}

/// A small job drawn large, up to the largest sheets.
fn scaled_job(rng: &mut Rng) -> Draft {
    let mut draft = small_job(rng);
    let longest = draft.sheet[0].max(draft.sheet[1]);
    let scale = *rng.pick(&[7, 50, 5_000 / longest]);
    let spare = *rng.pick(&[0, 0, 1, 20]);
    for number in &mut draft.sheet[..2] {
        *number = (*number * scale + spare).min(5_000);
    }
    for kind in &mut draft.types {
        for number in &mut kind[..2] {
            *number = (*number * scale).min(5_000);
        }
    }
    draft.sheet[2] = *rng.pick(&[0, 0, 1, 5, 20]);
    draft
}

/// A sheet one piece wide, with demands up to 50.
fn strip_job(rng: &mut Rng) -> Draft {
    let kerf = kerf(rng);
    let count = *rng.pick(&[1, 1, 2, 2, 3]);
    let width = rng.between(1, 5_000 - kerf);
    let types: Vec<[u64; 4]> = iter::repeat_with(|| {
        let demand = match count {
            1 => rng.between(1, 50),
            2 => rng.between(1, 16),
            _ => rng.between(1, 6),
        };
        [rng.between(1, 5), width, 1, demand]
    })
    .take(count)
    .collect();
    let all: u64 = types.iter().map(|t| (t[0] + kerf) * t[3]).sum();
    let length = *rng.pick(&[all, all + 1, all.saturating_sub(1), all / 2]);
    let (length, width) = (length.clamp(1, 5_000), width + kerf);
    let mut draft = Draft {
        sheet: [length, width, kerf],
        types,
        list: Vec::new(),
    };
    if rng.one_in(2) {
        turn(&mut draft);
    }
    draft
}

/// Lengths and widths change places throughout.
pub fn turn(draft: &mut Draft) {
    draft.sheet.swap(0, 1);
    for kind in &mut draft.types {
        kind.swap(0, 1);
    }
    for placement in &mut draft.list {
        placement.swap(1, 2);
    }
}

/// 5 to 12 types of which few go together.
fn many_types_job(rng: &mut Rng) -> Draft {
    let (length, width) = (rng.between(6, 40), rng.between(6, 40));
    let count = rng.between(5, 12) as usize;
    let types = iter::repeat_with(|| {
        let l = rng.between(length / 3, length + 2);
        let w = rng.between(width / 3, width + 2);
        [l, w, 1, rng.between(1, 2)]
    });
    let types = types.take(count).collect();
    Draft {
        sheet: [length, width, kerf(rng)],
        types,
        list: Vec::new(),
    }
}

/// 4 to 12 types, most of which go together in several ways.
fn crowded_job(rng: &mut Rng) -> Draft {
    let (length, width) = (rng.between(20, 100), rng.between(20, 60));
    let count = rng.between(4, 12) as usize;
    let most = rng.between(1, 5);
    let types = iter::repeat_with(|| {
        let l = rng.between(length / 7, length * 2 / 3);
        let w = rng.between(width / 7, width * 2 / 3);
        [l, w, 1, rng.between(1, most)]
    });
    let types = types.take(count).collect();
    let mut draft = Draft {
        sheet: [length, width, kerf(rng)],
        types,
        list: Vec::new(),
    };
    if rng.one_in(2) {
        turn(&mut draft);
    }
    set_profits(rng, &mut draft);
    draft
}

/// One type that fits the sheet exactly, is one too long or one too wide.
fn tight_job(rng: &mut Rng) -> Draft {
    let kerf = *rng.pick(&[0, 0, 1, 2, 20]);
    let (l, w) = (rng.between(1, 9), rng.between(1, 9));
    let (along, across) = (rng.between(1, 4), rng.between(1, 3));
    let off = [0, 0, 0, 1];
    let length = (along * (l + kerf) - rng.pick(&off)).max(1);
    let width = (across * (w + kerf) - rng.pick(&off)).max(1);
    let demand = along * across + 1 - rng.below(3).min(along * across);
    Draft {
        sheet: [length, width, kerf],
        types: vec![[l, w, 1, demand]],
        list: Vec::new(),
    }
}

/// Every type is too long or too wide, most by one.
fn nothing_fits_job(rng: &mut Rng) -> Draft {
    let mut draft = small_job(rng);
    let [length, width, kerf] = draft.sheet;
    for kind in &mut draft.types {
        let more = *rng.pick(&[1, 1, 1, 2, 100]);
        if rng.one_in(2) {
            kind[0] = (length + more).saturating_sub(kerf).max(1);
        } else {
            kind[1] = (width + more).saturating_sub(kerf).max(1);
        }
    }
    draft
}

/// Numbers at the far ends of their ranges.
fn end_of_range_job(rng: &mut Rng) -> Draft {
    let kerf = *rng.pick(&[0, 20]);
    let count = rng.between(1, 3) as usize;
    let types = iter::repeat_with(|| {
        let l = *rng.pick(&[5_000, 5_000 - kerf, 2_500 - kerf, 1_250]);
        let w = *rng.pick(&[5_000, 5_000 - kerf, 2_500 - kerf, 1_250]);
        [l, w, 1, *rng.pick(&[1, 2, 50])]
    });
    let types = types.take(count).collect();
    Draft {
        sheet: [*rng.pick(&[5_000, 4_999]), *rng.pick(&[5_000, 2_500]), kerf],
        types,
        list: Vec::new(),
    }
}

/// Profits with and without ties.
pub fn set_profits(rng: &mut Rng, draft: &mut Draft) {
    let way = rng.below(9);
    let kerf = draft.sheet[2];
    for kind in &mut draft.types {
        let [l, w, ..] = *kind;
        let profit = match way {
            0 => 1,
            1 | 2 => l * w,
            3 => (l + kerf) * (w + kerf),
            4 => l + w,
            5 => rng.between(1, 3),
            6 => *rng.pick(&[1, 24_999_999, 25_000_000]),
            _ => rng.between(1, 30),
        };
        kind[2] = profit.clamp(1, 25_000_000);
    }
}
