//! Jobs by the size of their classes: boards with a class above 1,000 outlines,
//! and jobs with classes of just so many outlines.

use std::iter;

use super::jobs::{kerf, set_profits, turn};
use super::Draft;
use crate::classes::{Lodged, LARGE};
use crate::job::MAX_TYPES;
use crate::outlines::Outlines;
use crate::planner::MOST_RECORDS;
use crate::rng::Rng;

/// A job with its classes, in the order in which they are listed: all of them,
/// or where they go beyond the largest arena those up to there.
pub struct Board {
    pub draft: Draft,
    pub classes: Vec<usize>,
    /// The pieces of the best outline listed.
    pub pieces: u64,
}

impl Board {
    fn list(draft: Draft) -> Option<Board> {
        let job = draft.job().ok()?;
        let outlines = Outlines::up_to(&job, MOST_RECORDS);
        Some(Board {
            classes: outlines.classes().to_vec(),
            pieces: outlines.best()?.counts.pieces(),
            draft,
        })
    }

    /// N, or where that is above the most records some number above them.
    pub fn outlines(&self) -> usize {
        self.classes.iter().sum()
    }

    /// A room that ends within a large class, picked at random.
    pub fn room_within_large_class(&self, rng: &mut Rng) -> usize {
        let large: Vec<usize> = (0..self.classes.len())
            .filter(|&i| self.classes[i] > LARGE)
            .collect();
        let i = *rng.pick(&large);
        let start: usize = self.classes[..i].iter().sum();
        let inside = rng.between(1, self.classes[i] as u64 - 1) as usize;
        (start + inside).min(MOST_RECORDS)
    }
}

/// A job with a class above 1,000 outlines in the largest arena.
pub fn board(rng: &mut Rng) -> Board {
    loop {
        let mut draft = match rng.below(16) {
            0 => squares(rng),
            1..=4 => kit(rng),
            _ => cut_board(rng),
        };
        set_profits(rng, &mut draft);
        let board = Board::list(draft);
        let large = |b: &Board| Lodged::in_arena(&b.classes, MOST_RECORDS).largest > LARGE;
        if let Some(board) = board.filter(large) {
            return board;
        }
    }
}

/// Sheets as they are sold, and any others.
fn sheet(rng: &mut Rng) -> [u64; 3] {
    let sold = [
        [2_440, 1_220],
        [3_000, 1_500],
        [2_800, 2_070],
        [2_500, 1_250],
        [5_000, 5_000],
    ];
    let any = [rng.between(500, 5_000), rng.between(500, 5_000)];
    let [length, width] = match rng.below(3) {
        0 => any,
        _ => *rng.pick(&sold),
    };
    [length, width, rng.between(0, 5)]
}

/// Two or three types of which the sheet has room for many.
fn cut_board(rng: &mut Rng) -> Draft {
    let sheet @ [length, width, kerf] = sheet(rng);
    // The smallest and the largest pieces go so many times along the sheet, and
    // across it. Two large demands make far more outlines than there is room for.
    let (count, demands, (most, fewest)) = *rng.pick(&[
        (3, (2, 6), (20, 4)),
        (3, (2, 6), (20, 4)),
        (3, (4, 8), (20, 4)),
        (2, (6, 12), (24, 8)),
        (2, (6, 12), (24, 8)),
        (2, (2, 50), (24, 8)),
    ]);
    let side = |rng: &mut Rng, sheet: u64| {
        let least = (sheet / most).saturating_sub(kerf).max(1);
        rng.between(least, sheet / fewest)
    };
    let types = iter::repeat_with(|| {
        let (l, w) = (side(rng, length), side(rng, width));
        [l, w, 1, rng.between(demands.0, demands.1)]
    });
    let types = types.take(count).collect();
    drawn(rng, sheet, types)
}

/// One type, of which nearly all that are asked for fit in a row, along and across.
fn squares(rng: &mut Rng) -> Draft {
    let kerf = rng.between(0, 5);
    let (l, w) = (rng.between(1, 95), rng.between(1, 95));
    let length = rng.between(48 * (l + kerf), 5_000);
    let width = rng.between(48 * (w + kerf), 5_000);
    drawn(rng, [length, width, kerf], vec![[l, w, 1, 50]])
}

/// Four to eight types, one or two pieces of each, and nearly all go together.
fn kit(rng: &mut Rng) -> Draft {
    let (count, demand) = *rng.pick(&[(7, 1), (8, 1), (8, 1), (4, 2), (5, 2)]);
    let [length, width] = [(); 2].map(|()| rng.between(1_500, 5_000));
    let sheet = [length, width, rng.between(0, 5)];
    let types = iter::repeat_with(|| [rng.between(90, 700), rng.between(90, 700), 1, demand]);
    let types = types.take(count).collect();
    drawn(rng, sheet, types)
}

fn drawn(rng: &mut Rng, sheet: [u64; 3], types: Vec<[u64; 4]>) -> Draft {
    let mut draft = Draft {
        sheet,
        types,
        list: Vec::new(),
    };
    if rng.one_in(2) {
        turn(&mut draft);
    }
    draft
}

/// Sorts change their method with the number that they sort, and halve it: classes
/// on both sides of such numbers. Classes of one and two outlines are everywhere.
const TURNS: [usize; 5] = [11, 12, 13, 24, 25];

/// A job with a class of such a size and others behind it, or with many classes.
pub fn turning_job(rng: &mut Rng) -> Draft {
    if rng.one_in(4) {
        return job_with(rng, twelve_types, |classes| classes.len() >= 200);
    }
    let size = *rng.pick(&TURNS);
    job_with(rng, tight_board, |classes| {
        classes.iter().rev().skip(1).any(|&class| class == size)
    })
}

/// A job with at most 3,000 outlines whose classes are as wanted.
fn job_with(
    rng: &mut Rng,
    draw: impl Fn(&mut Rng) -> Draft,
    wanted: impl Fn(&[usize]) -> bool,
) -> Draft {
    loop {
        let mut draft = draw(rng);
        set_profits(rng, &mut draft);
        let job = draft.job().ok();
        let outlines = job.as_ref().and_then(|job| Outlines::within(job, 3_000));
        if outlines.is_some_and(|outlines| wanted(outlines.classes())) {
            return draft;
        }
    }
}

/// One to three types of which more are asked for than the sheet has room for.
fn tight_board(rng: &mut Rng) -> Draft {
    let (length, width) = (rng.between(10, 5_000), rng.between(10, 5_000));
    let count = rng.between(1, 3) as usize;
    let types = iter::repeat_with(|| {
        let l = rng.between((length / 7).max(1), length / 2);
        let w = rng.between((width / 7).max(1), width / 2);
        [l, w, 1, rng.between(3, 50)]
    });
    let types = types.take(count).collect();
    let kerf = kerf(rng);
    drawn(rng, [length, width, kerf], types)
}

/// As many types as there may be, each going with most others.
fn twelve_types(rng: &mut Rng) -> Draft {
    let (length, width) = (rng.between(20, 5_000), rng.between(20, 5_000));
    let types = iter::repeat_with(|| {
        let l = rng.between(length / 4, length * 2 / 3);
        let w = rng.between(width / 4, width * 2 / 3);
        [l, w, 1, rng.between(1, 3)]
    });
    let types = types.take(MAX_TYPES).collect();
    let kerf = kerf(rng);
    drawn(rng, [length, width, kerf], types)
}
