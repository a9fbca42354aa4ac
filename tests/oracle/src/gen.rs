//! Random cases that look for the edges: arenas and buffers that are just large
//! enough or just too small, numbers on both sides of their ranges, drawings
//! that can and cannot be cut, and texts with one byte wrong.

use std::iter;

use crate::cases::{line, Case};
use crate::job::{Job, JobNumbers, Refusal};
use crate::outlines::Outlines;
use crate::planner::MOST_RECORDS;
use crate::rng::Rng;
use crate::{text, topdown};

mod boards;
mod drawings;
mod faults;
mod jobs;

use boards::{board, turning_job};
use drawings::drawing;
use faults::{damage_list, damage_text, miscounted_text, spoil_some, spoilt_count};
use jobs::{large_job, planner_job, random_job};

/// The greatest number of 8 digits.
const MAX_NUMBER: u64 = 99_999_999;

/// A job, and for the checker a list, before it is written as text or numbers.
#[derive(Clone, Debug)]
struct Draft {
    /// L, W and k.
    sheet: [u64; 3],
    /// l, w, p and b of each type.
    types: Vec<[u64; 4]>,
    /// Type, x and y of each placement.
    list: Vec<[u64; 3]>,
}

impl Draft {
    /// The numbers to hand over. What stands past the count is not to be read:
    /// it is nonsense, or a type that no planner would leave out.
    fn numbers(&self, rng: &mut Rng) -> JobNumbers {
        let [length, width, kerf] = self.sheet;
        let tempting = [1, 1, 25_000_000, 50];
        let fitting = [
            length.saturating_sub(kerf),
            width.saturating_sub(kerf),
            1_000,
            1,
        ];
        let nonsense = [[0; 4], [u64::MAX; 4], tempting, fitting];
        JobNumbers {
            sheet: self.sheet,
            count: self.types.len() as u64,
            types: std::array::from_fn(|t| match self.types.get(t) {
                Some(numbers) => *numbers,
                None => *rng.pick(&nonsense),
            }),
        }
    }

    fn job(&self) -> Result<Job, Refusal> {
        Job::from_numbers(&self.numbers(&mut Rng::new(0)))
    }

    /// The job text, or with `listed` the plan text.
    fn text(&self, listed: bool) -> Vec<u8> {
        let mut text = String::new();
        section(&mut text, &[self.sheet]);
        section(&mut text, &self.types);
        if listed {
            section(&mut text, &self.list);
        }
        text.into_bytes()
    }
}

/// Writes a count and its lines, no number above 8 digits.
fn section<const N: usize>(text: &mut String, lines: &[[u64; N]]) {
    *text += &format!("{}\n", lines.len());
    for numbers in lines {
        *text += &line(&numbers.map(|n| n.min(MAX_NUMBER)));
        *text += "\n";
    }
}

/// A source of cases of one kind, 1 to 4 as in `cases`; 5: a case of kind 1
/// whose job has many outlines; 6 and 7: a case of kind 1 or 3 whose job has a
/// class above 1,000 outlines, or classes of the sizes where sorts change.
pub struct Generator {
    kind: u8,
    rng: Rng,
    /// Cases of the last job that are still to come.
    waiting: Vec<Case>,
}

impl Generator {
    pub fn new(kind: u8, seed: u64) -> Self {
        // Different kinds with one seed should not walk in step.
        let rng = Rng::new(seed ^ u64::from(kind) << 56);
        Generator {
            kind,
            rng,
            waiting: Vec::new(),
        }
    }

    pub fn case(&mut self) -> Case {
        if let Some(case) = self.waiting.pop() {
            return case;
        }
        let rng = &mut self.rng;
        match self.kind {
            1 => plan_text(rng),
            2 => Case::check(2, plan_list_text(rng)),
            3 => plan_numbers(rng),
            4 => Case::check(4, list_numbers(rng)),
            5 => plan_large(rng),
            6 => {
                let (first, others) = plan_board(rng);
                self.waiting = others;
                first
            }
            _ => plan_turning(rng),
        }
    }
}

/// Random jobs small enough for cutting the sheet in every way.
pub fn small_jobs(seed: u64) -> impl Iterator<Item = Job> {
    let mut rng = Rng::new(seed);
    iter::repeat_with(move || random_job(&mut rng))
        .filter_map(|draft| draft.job().ok())
        .filter(|job| topdown::effort(job) <= 400_000)
}

/// Kind 1: a job text, right or wrong, with arena and buffer.
fn plan_text(rng: &mut Rng) -> Case {
    let mut draft = planner_job(rng);
    let mut text = match rng.below(100) {
        0..=19 => {
            spoil_some(rng, &mut draft, MAX_NUMBER);
            draft.text(false)
        }
        20..=24 => miscounted_text(rng, &draft, false),
        _ => draft.text(false),
    };
    if rng.below(100) < 35 {
        for _ in 0..*rng.pick(&[1, 1, 1, 2, 3]) {
            damage_text(rng, &mut text);
        }
    }
    lend(rng, text::read_job(&text).ok(), 1_500, 1, text)
}

/// The text of a job with many outlines, with arena and buffer.
fn plan_large(rng: &mut Rng) -> Case {
    let draft = large_job(rng);
    lend(rng, draft.job().ok(), 30_000, 1, draft.text(false))
}

/// A job with a large class, in arenas around N and in one that is full in the
/// midst of such a class.
fn plan_board(rng: &mut Rng) -> (Case, Vec<Case>) {
    let board = board(rng);
    let (kind, payload) = text_or_numbers(rng, &board.draft);
    let mut rooms = vec![board.room_within_large_class(rng)];
    match board.outlines() {
        all @ ..=MOST_RECORDS => rooms.extend([all, *rng.pick(&[all - 1, all + 1])]),
        _ => rooms.push(MOST_RECORDS),
    }
    let mut cases = rooms.into_iter().map(|room| {
        let arena = 32 * room as u64 + *rng.pick(&[0, 0, 1, 31]);
        lend_bytes(rng, arena, board.pieces, kind, payload.clone())
    });
    let first = cases.next().expect("an arena at least");
    (first, cases.collect())
}

/// A job with classes of sizes where sorts change, or with many classes.
fn plan_turning(rng: &mut Rng) -> Case {
    let draft = turning_job(rng);
    let (kind, payload) = text_or_numbers(rng, &draft);
    lend(rng, draft.job().ok(), 3_000, kind, payload)
}

/// The job as the payload of a case of kind 1 or 3.
fn text_or_numbers(rng: &mut Rng, draft: &Draft) -> (u8, Vec<u8>) {
    match rng.below(2) {
        0 => (1, draft.text(false)),
        _ => (3, line(&flat(&draft.numbers(rng))).into_bytes()),
    }
}

/// Kind 3: a job as numbers, with arena and buffer.
fn plan_numbers(rng: &mut Rng) -> Case {
    let mut draft = planner_job(rng);
    if rng.below(100) < 20 {
        spoil_some(rng, &mut draft, u64::MAX);
    }
    let mut numbers = draft.numbers(rng);
    if rng.below(100) < 4 {
        numbers.count = spoilt_count(rng, numbers.count);
    }
    let payload = line(&flat(&numbers)).into_bytes();
    lend(rng, Job::from_numbers(&numbers).ok(), 1_500, 3, payload)
}

/// Kind 2: a plan text.
fn plan_list_text(rng: &mut Rng) -> Vec<u8> {
    let mut draft = drawing(rng);
    if rng.below(100) < 50 {
        damage_list(rng, &mut draft, MAX_NUMBER);
    }
    let mut text = match rng.below(100) {
        0..=7 => {
            spoil_some(rng, &mut draft, MAX_NUMBER);
            draft.text(true)
        }
        8..=10 => miscounted_text(rng, &draft, true),
        11 => draft.text(false),
        _ => draft.text(true),
    };
    if rng.below(100) < 30 {
        for _ in 0..*rng.pick(&[1, 1, 1, 2, 3]) {
            damage_text(rng, &mut text);
        }
    }
    text
}

/// Kind 4: a job as numbers and a flat list.
fn list_numbers(rng: &mut Rng) -> Vec<u8> {
    let mut draft = drawing(rng);
    if rng.below(100) < 60 {
        damage_list(rng, &mut draft, u64::MAX);
    }
    if rng.below(100) < 8 {
        spoil_some(rng, &mut draft, u64::MAX);
    }
    let mut numbers = draft.numbers(rng);
    if rng.below(100) < 3 {
        numbers.count = spoilt_count(rng, numbers.count);
    }
    let mut list = draft.list.concat();
    if rng.one_in(5) {
        // One or two numbers too many or too few.
        let extra = rng.between(1, 2) as usize;
        if rng.one_in(2) {
            list.truncate(list.len().saturating_sub(extra));
        } else {
            list.extend(iter::repeat_with(|| *rng.pick(&[0, 1, u64::MAX])).take(extra));
        }
    }
    line(&[flat(&numbers), list].concat()).into_bytes()
}

fn flat(numbers: &JobNumbers) -> Vec<u64> {
    let mut all = numbers.sheet.to_vec();
    all.push(numbers.count);
    all.extend(numbers.types.as_flattened());
    all
}

/// Adds an arena and a buffer that are just enough or just too small for the
/// job, if there is one and it has no more than `most` outlines.
fn lend(rng: &mut Rng, job: Option<Job>, most: usize, kind: u8, payload: Vec<u8>) -> Case {
    let outlines = job.as_ref().and_then(|job| Outlines::within(job, most));
    let known = outlines.and_then(|o| Some((o.number() as u64, o.best()?.counts.pieces())));
    let (outlines, pieces) = known.unwrap_or((rng.between(1, 300), rng.between(1, 8)));
    let arena = match rng.below(20) {
        0..=5 => 32 * outlines,
        6..=8 => 32 * outlines + rng.between(1, 31),
        9 | 10 => 32 * outlines - 1,
        11 => 32 * (outlines - 1) + rng.below(32),
        12..=14 => 32 * (outlines + 1),
        15..=17 => rng.below(64 * outlines + 1),
        18 => rng.below(33),
        // More than the 65,535 records that are ever used.
        _ if known.is_some() && rng.one_in(8) => 32 * 65_535 + rng.below(100),
        _ => 32 * outlines + 320,
    };
    lend_bytes(rng, arena, pieces, kind, payload)
}

/// Adds an arena of so many bytes, filled with anything, and a buffer that is
/// just enough or just too small for the pieces.
fn lend_bytes(rng: &mut Rng, arena: u64, pieces: u64, kind: u8, payload: Vec<u8>) -> Case {
    let buffer = match rng.below(20) {
        0..=5 => 3 * pieces,
        6 | 7 => 3 * pieces - 1,
        8 => 3 * pieces - 3,
        9..=11 => 3 * pieces + rng.between(1, 2),
        12..=16 => 3 * pieces + rng.between(3, 40),
        17 => rng.below(3),
        _ => rng.below(6 * pieces),
    };
    let random = rng.below(256) as u8;
    Case {
        kind,
        arena,
        fill: *rng.pick(&[0, 255, 255, 1, random, random]),
        buffer,
        payload,
    }
}

#[cfg(test)]
mod tests {
    use super::*;
    use crate::cases::Expected;
    use crate::classes::Census;
    use std::collections::BTreeMap;

    /// How often each answer comes up among the cases of a kind.
    fn census(kind: u8, count: usize) -> BTreeMap<u64, usize> {
        let mut generator = Generator::new(kind, 5);
        let mut numbers = BTreeMap::new();
        for _ in 0..count {
            let number = match generator.case().expected().unwrap() {
                Expected::Planned(answer) => answer.map_or_else(Refusal::number, |_| 0),
                Expected::Checked(answer) => answer.map_or_else(Refusal::number, |_| 0),
            };
            *numbers.entry(number).or_default() += 1;
        }
        println!("kind {kind}: {numbers:?}");
        numbers
    }

    #[test]
    fn every_answer_comes_up_often() {
        let expected: [(u8, &[u64]); 4] = [
            (1, &[0, 1, 2, 3, 4, 5]),
            (2, &[0, 1, 2, 6, 7, 8, 9, 10]),
            (3, &[0, 2, 3, 4, 5]),
            (4, &[0, 2, 6, 7, 8, 9, 10]),
        ];
        for (kind, numbers) in expected {
            let census = census(kind, 3_000);
            assert!(census.keys().eq(numbers), "{census:?}");
            assert!(census.values().all(|&often| often >= 60), "{census:?}");
        }
    }

    fn cases(kind: u8, count: usize) -> Vec<Case> {
        let mut generator = Generator::new(kind, 5);
        iter::repeat_with(|| generator.case()).take(count).collect()
    }

    /// Most cases have a large class, and many an arena that is full within one.
    #[test]
    fn boards_have_large_classes() {
        let classes = Census::of(&cases(6, 60));
        println!("kind 6: {classes:?}");
        assert!(classes.large >= 50 && classes.cut >= 20, "{classes:?}");
        let numbers = census(6, 60);
        assert!(numbers.keys().eq(&[0, 4, 5]), "{numbers:?}");
    }

    /// Every job has a class of 11, 12, 13, 24 or 25 outlines, each often, or many
    /// classes.
    #[test]
    fn classes_where_sorts_change() {
        let mut often: BTreeMap<usize, usize> = BTreeMap::new();
        let mut many = 0;
        for case in cases(7, 300) {
            let job = case.job_to_plan().unwrap();
            let outlines = Outlines::up_to(&job, usize::MAX);
            let classes = outlines.classes();
            many += usize::from(classes.len() >= 200);
            for size in [1, 2, 11, 12, 13, 24, 25] {
                *often.entry(size).or_default() += usize::from(classes.contains(&size));
            }
        }
        println!("kind 7: {often:?}, {many} with many classes");
        assert!(often.values().all(|&jobs| jobs >= 50), "{often:?}");
        assert!(many >= 50, "{many}");
    }

    #[test]
    fn a_seed_names_its_cases() {
        let stream = |seed| {
            let mut bytes = Vec::new();
            let mut generator = Generator::new(3, seed);
            for _ in 0..20 {
                generator.case().write(&mut bytes).unwrap();
            }
            bytes
        };
        assert_eq!(stream(1), stream(1));
        assert_ne!(stream(1), stream(2));
    }
}
