//! Drawings for the checker: jobs with a list of placements.

use super::jobs::{kerf, planner_job, set_profits, small_job, turn};
use super::Draft;
use crate::job::MAX_TYPES;
use crate::outlines::Outlines;
use crate::rng::Rng;

/// A rectangle of lines: columns x to x + l, rows y to y + w.
#[derive(Clone, Copy)]
struct Region {
    x: u64,
    y: u64,
    l: u64,
    w: u64,
}

/// A job with a list for it. Without damage it breaks no rule but perhaps the
/// last one. Some sheets have room left over, so that a piece that is moved is
/// not always moved off the sheet.
pub fn drawing(rng: &mut Rng) -> Draft {
    let mut draft = tight_drawing(rng);
    for side in &mut draft.sheet[..2] {
        *side = (*side + *rng.pick(&[0, 0, 1, 10])).min(5_000);
    }
    draft
}

fn tight_drawing(rng: &mut Rng) -> Draft {
    match rng.below(60) {
        0..=19 => cut_drawing(rng, 0),
        20..=31 => cut_drawing(rng, 30),
        32..=39 => cut_drawing(rng, 100),
        40..=55 => mosaic(rng),
        56 if rng.one_in(5) => full_sheet(rng),
        56 => {
            // The empty list.
            let mut draft = small_job(rng);
            set_profits(rng, &mut draft);
            draft
        }
        _ => planned_drawing(rng),
    }
}

/// Divides a sheet into regions and puts pieces into them. Regions become
/// pinwheels with a chance of `pinwheels` in a hundred, otherwise they are cut
/// through.
fn cut_drawing(rng: &mut Rng, pinwheels: u64) -> Draft {
    let kerf = *rng.pick(&[0, 0, 0, 1, 1, 2, 20]);
    let unit = kerf + 1;
    let scale = *rng.pick(&[1, 1, 1, 3, 30]);
    let sheet = Region {
        x: 0,
        y: 0,
        l: (unit * scale * rng.between(3, 16)).min(5_000),
        w: (unit * scale * rng.between(3, 16)).min(5_000),
    };
    let mut leaves = Vec::new();
    let depth = rng.between(1, 6) as u32;
    divide(rng, sheet, unit, pinwheels, depth, &mut leaves);
    let mut draft = furnish(rng, sheet, kerf, &leaves);
    if rng.one_in(2) {
        rng.shuffle(&mut draft.list);
    }
    // A pinwheel without one of its arms can be parted, without its middle not.
    if pinwheels > 0 && rng.one_in(3) && !draft.list.is_empty() {
        let gone = rng.index(draft.list.len());
        draft.list.remove(gone);
    }
    if rng.one_in(2) {
        turn(&mut draft); // the pinwheel turns the other way
    }
    draft
}

fn divide(
    rng: &mut Rng,
    region: Region,
    unit: u64,
    pinwheels: u64,
    depth: u32,
    leaves: &mut Vec<Region>,
) {
    let Region { x, y, l, w } = region;
    let mut parts = Vec::new();
    if depth > 0 {
        if l >= 3 * unit && w >= 3 * unit && rng.below(100) < pinwheels {
            parts = pinwheel(rng, region, unit);
        } else if rng.one_in(4) {
            // Equal strips, so that some sizes come up again and again.
            let number = rng.between(2, 4);
            if rng.one_in(2) && l / number >= unit {
                let l = l / number;
                parts.extend((0..number).map(|i| Region {
                    x: x + i * l,
                    l,
                    ..region
                }));
            } else if w / number >= unit {
                let w = w / number;
                parts.extend((0..number).map(|i| Region {
                    y: y + i * w,
                    w,
                    ..region
                }));
            }
        } else if rng.one_in(2) && l >= 2 * unit {
            let at = rng.between(unit, l - unit);
            parts.push(Region { l: at, ..region });
            parts.push(Region {
                x: x + at,
                l: l - at,
                ..region
            });
        } else if w >= 2 * unit {
            let at = rng.between(unit, w - unit);
            parts.push(Region { w: at, ..region });
            parts.push(Region {
                y: y + at,
                w: w - at,
                ..region
            });
        }
    }
    if parts.is_empty() {
        leaves.push(region);
    }
    for part in parts {
        divide(rng, part, unit, pinwheels, depth - 1, leaves);
    }
}

/// Four arms around a middle. No line crosses the region without crossing an
/// arm.
fn pinwheel(rng: &mut Rng, region: Region, unit: u64) -> Vec<Region> {
    let Region { x, y, l, w } = region;
    let mut inner = |length: u64| {
        let first = rng.between(unit, length - 2 * unit);
        (first, rng.between(first + unit, length - unit))
    };
    let (x1, x2) = inner(l);
    let (y1, y2) = inner(w);
    let lines = |from_x, to_x, from_y, to_y| Region {
        x: x + from_x,
        y: y + from_y,
        l: to_x - from_x,
        w: to_y - from_y,
    };
    vec![
        lines(0, x2, 0, y1),
        lines(x2, l, 0, y2),
        lines(x1, l, y2, w),
        lines(0, x1, y1, w),
        lines(x1, x2, y1, y2),
    ]
}

/// Puts a piece into each region: one that fills it, as long as there is a type
/// left for it, or another that fits.
fn furnish(rng: &mut Rng, sheet: Region, kerf: u64, leaves: &[Region]) -> Draft {
    let mut types: Vec<[u64; 4]> = Vec::new();
    let mut list = Vec::new();
    for leaf in leaves {
        let size = (leaf.l - kerf, leaf.w - kerf);
        let same = types.iter().position(|t| (t[0], t[1]) == size && t[3] < 50);
        let fits = |t: &[u64; 4]| t[0] <= size.0 && t[1] <= size.1 && t[3] < 50;
        let chosen = match same {
            Some(t) if !rng.one_in(10) => Some(t),
            _ if types.is_empty() || types.len() < MAX_TYPES && !rng.one_in(20) => {
                types.push([size.0, size.1, 1, 0]);
                Some(types.len() - 1)
            }
            _ => types.iter().position(fits),
        };
        if let Some(t) = chosen {
            let [l, w, _, used] = &mut types[t];
            *used += 1;
            let x = leaf.x + rng.below(leaf.l - kerf - *l + 1);
            let y = leaf.y + rng.below(leaf.w - kerf - *w + 1);
            list.push([t as u64 + 1, x, y]);
        }
    }
    for kind in &mut types {
        kind[3] = (kind[3] + *rng.pick(&[0, 0, 1, 3])).clamp(1, 50);
    }
    let mut draft = Draft {
        sheet: [sheet.l, sheet.w, kerf],
        types,
        list,
    };
    set_profits(rng, &mut draft);
    draft
}

/// A small grid filled at random with pieces of a few cells. Such a list is
/// often not to be parted, and often only just.
fn mosaic(rng: &mut Rng) -> Draft {
    let kerf = *rng.pick(&[0, 0, 1, 2]);
    let cell = kerf + rng.between(1, 3);
    let (columns, rows) = (rng.between(2, 7) as usize, rng.between(2, 7) as usize);
    let shapes = [
        (1, 1),
        (1, 2),
        (2, 1),
        (2, 2),
        (1, 3),
        (3, 1),
        (2, 3),
        (3, 2),
    ];
    let count = rng.between(1, 4) as usize;
    let shapes: Vec<(usize, usize)> = (0..count).map(|_| *rng.pick(&shapes)).collect();
    let gaps = *rng.pick(&[100, 10, 5, 3]);
    let mut taken = vec![vec![false; columns]; rows];
    let mut list = Vec::new();
    let mut used = vec![0; count];
    for row in 0..rows {
        for column in 0..columns {
            let t = rng.index(count);
            let (l, w) = shapes[t];
            let inside = column + l <= columns && row + w <= rows;
            if !inside || rng.one_in(gaps) || used[t] == 50 {
                continue;
            }
            let cells = || (row..row + w).flat_map(|r| (column..column + l).map(move |c| (r, c)));
            if cells().all(|(r, c)| !taken[r][c]) {
                cells().for_each(|(r, c)| taken[r][c] = true);
                used[t] += 1;
                list.push([t as u64 + 1, column as u64 * cell, row as u64 * cell]);
            }
        }
    }
    if rng.one_in(2) {
        rng.shuffle(&mut list);
    }
    let types = shapes.iter().zip(&used).map(|(&(l, w), &used)| {
        let (l, w) = (l as u64 * cell - kerf, w as u64 * cell - kerf);
        [l, w, 1, (used + *rng.pick(&[0, 0, 2])).clamp(1, 50)]
    });
    let types = types.collect();
    let mut draft = Draft {
        sheet: [columns as u64 * cell, rows as u64 * cell, kerf],
        types,
        list,
    };
    set_profits(rng, &mut draft);
    draft
}

/// 600 pieces, the most there can be, and sometimes one more.
fn full_sheet(rng: &mut Rng) -> Draft {
    let kerf = kerf(rng);
    let (l, w) = (rng.between(1, 20), rng.between(1, 20));
    let (columns, rows) = *rng.pick(&[(25, 24), (600, 1), (24, 26), (100, 6)]);
    let (l, columns) = if columns == 600 {
        (1, columns)
    } else {
        (l, columns)
    };
    let profit = *rng.pick(&[25_000_000, 7]);
    let mut list: Vec<[u64; 3]> = (0..columns * rows)
        .map(|i| {
            [
                i % 12 + 1,
                i % columns * (l + kerf),
                i / columns * (w + kerf),
            ]
        })
        .collect();
    list.truncate(*rng.pick(&[600, 600, 601, 599]));
    if rng.one_in(2) {
        rng.shuffle(&mut list);
    }
    Draft {
        sheet: [columns * (l + kerf), rows * (w + kerf), kerf],
        types: vec![[l, w, profit, 50]; MAX_TYPES],
        list,
    }
}

/// What the planner itself would draw.
fn planned_drawing(rng: &mut Rng) -> Draft {
    let mut draft = planner_job(rng);
    let Ok(job) = draft.job() else { return draft };
    if let Some(outlines) = Outlines::within(&job, 1_500) {
        if let Some(best) = outlines.best() {
            let list = outlines.placements(&best);
            draft.list = list.iter().map(|p| [p.kind, p.x, p.y]).collect();
        }
    }
    draft
}
