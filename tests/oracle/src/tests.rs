//! The two planners against each other, the planner against the checker, and
//! every row of the tables.

use std::collections::BTreeMap;

use crate::cases::{answer, compare, verify, Case};
use crate::checker::{can_be_parted, can_be_parted_by_definition, check, Area, Placement};
use crate::classes::{Census, Lodged, LARGE};
use crate::gen::{small_jobs, Generator};
use crate::job::{Job, JobNumbers, Refusal};
use crate::outlines::{Counts, Outlines};
use crate::planner::{plan, MOST_RECORDS};
use crate::rng::Rng;
use crate::tables::{class_rows, large_rows, rows, strip_rows, Row};
use crate::{pairs, strips, text, topdown};

fn agree(row: &Row) {
    let answer = answer(&row.case).unwrap();
    let words = row.answer.split(' ').count();
    let leading: Vec<&str> = answer.split(' ').take(words).collect();
    assert_eq!(
        leading.join(" "),
        row.answer,
        "{}, kind {}",
        row.name,
        row.case.kind
    );
}

#[test]
fn rows_of_the_document() {
    rows().iter().for_each(agree);
}

#[test]
fn rows_with_many_outlines() {
    large_rows().iter().for_each(agree);
    strip_rows().iter().for_each(agree);
}

#[test]
fn rows_with_large_classes() {
    class_rows().iter().for_each(agree);
    let cases: Vec<Case> = class_rows().into_iter().map(|row| row.case).collect();
    let census = Census {
        cases: 31,
        large: 21,
        cut: 9,
        largest: 6_701,
    };
    assert_eq!(Census::of(&cases), census);
}

/// The jobs of the rows by their classes, each once.
fn class_jobs() -> Vec<Job> {
    let mut cases: Vec<Case> = class_rows().into_iter().map(|row| row.case).collect();
    cases.dedup_by(|a, b| a.payload == b.payload);
    let jobs = cases.iter().map(Case::job_to_plan);
    jobs.collect::<Option<_>>().unwrap()
}

/// Class by class, N and the best outline once more, on jobs with large classes
/// and with classes of the sizes where a sort changes its method.
#[test]
fn classes_by_joining_everything() {
    let mut met: Vec<usize> = Vec::new();
    for job in class_jobs() {
        let Some(outlines) = Outlines::within(&job, 20_000) else {
            continue;
        };
        let all = pairs::outlines(&job);
        let mut joined: BTreeMap<Counts, usize> = BTreeMap::new();
        for outline in &all {
            *joined.entry(outline.counts).or_default() += 1;
        }
        let mut joined: Vec<usize> = joined.into_values().collect();
        let mut classes = outlines.classes().to_vec();
        joined.sort_unstable();
        classes.sort_unstable();
        assert_eq!(classes, joined, "{job:?}");
        assert_eq!(outlines.number(), all.len(), "{job:?}");
        assert_eq!(outlines.best(), pairs::best(all), "{job:?}");
        met.extend(classes);
    }
    for size in [1, 2, 11, 12, 13, 24, 25] {
        assert!(met.contains(&size), "no class of {size} outlines");
    }
    // Squares of 49 and of 50, and the seven parts.
    let large: Vec<usize> = met.into_iter().filter(|&class| class > LARGE).collect();
    assert_eq!(large, [1_027, 1_074, 1_817]);
}

/// The listing ends with the class that goes beyond the room, and is the same
/// up to there.
#[test]
fn outlines_up_to_a_room() {
    for job in small_jobs(12).take(500) {
        let all = Outlines::up_to(&job, usize::MAX);
        let number: usize = all.classes().iter().sum();
        assert_eq!(all.number(), number);
        for room in [0, 1, number / 2, number.saturating_sub(1), number] {
            let some = Outlines::up_to(&job, room);
            assert!(all.classes().starts_with(some.classes()), "{job:?}");
            assert_eq!(some.number() <= room, number <= room);
            assert_eq!(Outlines::within(&job, room).is_some(), number <= room);
        }
    }
}

#[test]
fn classes_in_an_arena() {
    let lodged = |room| {
        let Lodged { largest, cut } = Lodged::in_arena(&[1, 1, 4, 7, 3], room);
        (largest, cut)
    };
    assert_eq!(lodged(0), (0, None));
    assert_eq!(lodged(1), (1, None));
    assert_eq!(lodged(3), (1, Some(4)));
    assert_eq!(lodged(6), (4, None));
    assert_eq!(lodged(7), (4, Some(7)));
    assert_eq!(lodged(12), (6, Some(7)));
    assert_eq!(lodged(13), (7, None));
    assert_eq!(lodged(15), (7, Some(3)));
    assert_eq!(lodged(16), (7, None));
    assert_eq!(lodged(MOST_RECORDS), (7, None));
}

/// "The planner: profit 7, outline 3 by 3, counts 1, 2, 1."
#[test]
fn pinwheel_counts() {
    let job = text::read_job(b"1\n3 3 0\n3\n2 1 2 2\n1 2 2 2\n1 1 1 1\n").unwrap();
    let plan = plan(&job, 2_000, 600).unwrap();
    assert_eq!([0, 1, 2].map(|t| plan.best.counts.of(t)), [1, 2, 1]);
}

/// Ties: the least length, then the least width, then the counts.
#[test]
fn ties() {
    // Two types of one profit: the second has the smaller size.
    let job = text::read_job(b"1\n5 5 0\n2\n4 3 7 1\n3 4 7 1\n").unwrap();
    let best = plan(&job, 2_000, 600).unwrap().best;
    assert_eq!((best.profit, best.size.length, best.size.width), (7, 3, 4));
    // Equal in everything but the type: counts 0,1 come before 1,0.
    let job = text::read_job(b"1\n5 5 0\n2\n4 3 7 1\n4 3 7 1\n").unwrap();
    let best = plan(&job, 2_000, 600).unwrap().best;
    assert_eq!([0, 1].map(|t| best.counts.of(t)), [0, 1]);
}

/// Every number of a job on both sides of both ends of its range.
#[test]
fn ranges() {
    let good = [10, 10, 1, 2, 3, 3, 9, 1, 4, 4, 16, 1];
    let ends = [(1, 5_000), (1, 5_000), (0, 20), (1, 12)].into_iter();
    let of_type = [(1, 5_000), (1, 5_000), (1, 25_000_000), (1, 50)];
    let ends: Vec<(u64, u64)> = ends.chain(of_type).chain(of_type).collect();
    let read = |numbers: &[u64]| {
        let types = std::array::from_fn(|t| match t {
            0 | 1 => std::array::from_fn(|i| numbers[4 + 4 * t + i]),
            _ => [1, 1, 1, 1],
        });
        let sheet = [numbers[0], numbers[1], numbers[2]];
        let count = numbers[3];
        Job::from_numbers(&JobNumbers {
            sheet,
            count,
            types,
        })
        .err()
    };
    assert_eq!(read(&good), None);
    for (i, &(low, high)) in ends.iter().enumerate() {
        let with = |number| {
            let mut numbers = good;
            numbers[i] = number;
            read(&numbers)
        };
        let refused = Some(Refusal::OutOfRange(i + 1));
        assert_eq!(with(low), None);
        assert_eq!(with(high), None);
        assert_eq!(with(high + 1), refused);
        assert_eq!(with(u64::MAX), refused);
        if low > 0 {
            assert_eq!(with(low - 1), refused);
        }
    }
}

#[test]
fn positions_of_any_size() {
    let job = text::read_job(b"1\n10 6 0\n1\n5 3 15 4\n").unwrap();
    for (x, y) in [
        (u64::MAX, 0),
        (0, u64::MAX),
        (u64::MAX - 4, 0),
        (1 << 32, 0),
        (6, 0),
        (0, 4),
    ] {
        let list = Placement::list(&[1, 5, 3, 1, x, y]);
        assert_eq!(check(&job, &list), Err(Refusal::OutsideSheet(1)));
    }
    // One or two numbers are lost.
    assert_eq!(check(&job, &Placement::list(&[1, 5, 3, 9])), Ok(15));
    assert_eq!(check(&job, &Placement::list(&[1, 5, 3, 9, 9])), Ok(15));
    assert_eq!(check(&job, &Placement::list(&[9, 9])), Ok(0));
}

#[test]
fn builds_and_cuts_earn_the_same() {
    for job in small_jobs(3).take(4_000) {
        let outlines = Outlines::within(&job, usize::MAX).unwrap();
        let built = outlines.best().map_or(0, |best| best.profit);
        assert_eq!(built, topdown::optimum(&job), "{job:?}");
    }
}

/// N and the best outline once more, on small jobs.
#[test]
fn outlines_by_joining_everything() {
    let mut compared = 0;
    for job in small_jobs(4).take(3_000) {
        let Some(outlines) = Outlines::within(&job, 250) else {
            continue;
        };
        let all = pairs::outlines(&job);
        assert_eq!(outlines.number(), all.len(), "{job:?}");
        assert_eq!(outlines.best(), pairs::best(all), "{job:?}");
        compared += 1;
    }
    assert!(compared > 1_500, "only {compared} jobs were small enough");
}

/// The formula for strips against splitting count vectors.
#[test]
fn strips_by_formula() {
    let mut compared = 0;
    for job in small_jobs(7).take(3_000) {
        let Some(strip) = strips::plan(&job) else {
            continue;
        };
        let outlines = Outlines::within(&job, usize::MAX).unwrap();
        assert_eq!(outlines.number() as u64, strip.outlines, "{job:?}");
        assert_eq!(outlines.best(), Some(strip.best), "{job:?}");
        assert_eq!(check(&job, &strip.placements), Ok(strip.best.profit));
        compared += 1;
    }
    assert!(compared > 300, "only {compared} jobs were strips");
}

/// "no accepted plan for that job earns more": every list of every tiny job.
#[test]
fn no_accepted_list_earns_more() {
    /// The greatest profit among all accepted lists that go on from `list`; the
    /// entries are taken in one fixed order, as the order of a list does not
    /// matter for being accepted.
    fn greatest(job: &Job, list: &mut Vec<Placement>, from: usize, all: &[Placement]) -> u64 {
        let mut best = match check(job, list) {
            Ok(profit) => profit,
            // More pieces may not help a list that breaks a rule, and a set that
            // cannot be parted has no larger set that can.
            Err(_) => return 0,
        };
        for next in from..all.len() {
            list.push(all[next]);
            best = best.max(greatest(job, list, next + 1, all));
            list.pop();
        }
        best
    }
    let mut tried = 0;
    for job in small_jobs(6)
        .filter(|j| j.sheet.length * j.sheet.width <= 9)
        .take(400)
    {
        let mut all = Vec::new();
        for kind in 1..=job.types.len() as u64 {
            for x in 0..u64::from(job.sheet.length) {
                for y in 0..u64::from(job.sheet.width) {
                    all.push(Placement { kind, x, y });
                }
            }
        }
        let planned = match plan(&job, usize::MAX, 600) {
            Ok(plan) => plan.best.profit,
            Err(refusal) => {
                assert_eq!(refusal, Refusal::NothingFits);
                0
            }
        };
        assert_eq!(greatest(&job, &mut Vec::new(), 0, &all), planned, "{job:?}");
        tried += 1;
    }
    assert_eq!(tried, 400);
}

/// The first dividing line decides as well as any.
#[test]
fn parting_by_first_line_and_by_definition() {
    let mut rng = Rng::new(9);
    let mut parted = 0;
    let count = 30_000;
    for _ in 0..count {
        // Random bars on a small grid, those that overlap left out.
        let mut areas: Vec<Area> = Vec::new();
        let side = rng.between(4, 9);
        for _ in 0..*rng.pick(&[40, 400]) {
            let (x, y) = (rng.below(side), rng.below(side));
            let &(l, w) = rng.pick(&[(1, 2), (2, 1), (1, 3), (3, 1), (2, 4)]);
            let area = Area {
                x: (x, x + l),
                y: (y, y + w),
            };
            let free = |a: &Area| {
                a.x.1 <= area.x.0 || area.x.1 <= a.x.0 || a.y.1 <= area.y.0 || area.y.1 <= a.y.0
            };
            if areas.len() < 24 && areas.iter().all(free) {
                areas.push(area);
            }
        }
        let answer = can_be_parted(&areas);
        assert_eq!(answer, can_be_parted_by_definition(&areas), "{areas:?}");
        parted += u32::from(answer);
    }
    assert!((count / 10..count * 9 / 10).contains(&parted), "{parted}");
}

/// Our own answers pass, and answers with any one number changed do not.
#[test]
fn a_changed_answer_is_noticed() {
    let mut rng = Rng::new(8);
    for kind in 1..=4 {
        let mut generator = Generator::new(kind, 77);
        for _ in 0..300 {
            let case = generator.case();
            let line = answer(&case).unwrap();
            compare(&case, &line).unwrap();
            let mut words: Vec<u64> = line.split(' ').map(|w| w.parse().unwrap()).collect();
            let at = rng.index(words.len());
            words[at] += 1;
            let changed: Vec<String> = words.iter().map(u64::to_string).collect();
            let changed = changed.join(" ");
            // A placement may be moved into a gap and still be right.
            let head = if kind % 2 == 1 { 8 } else { 4 };
            if at < head || words[0] != 0 || at >= head + 3 * words[5] as usize {
                assert!(compare(&case, &changed).is_err(), "{line} and {changed}");
            }
            assert!(compare(&case, &format!("{line} 0")).is_err());
            assert!(compare(&case, "").is_err());
            if let Some((shorter, _)) = line.rsplit_once(' ') {
                assert!(compare(&case, shorter).is_err());
            }
        }
    }
}

#[test]
fn files_of_cases() {
    let mut bytes = Vec::new();
    let rows = rows();
    for row in &rows {
        row.case.write(&mut bytes).unwrap();
    }
    let cases = Case::read_all(&bytes).unwrap();
    assert_eq!(cases.len(), rows.len());
    let lines: Vec<String> = cases.iter().map(|case| answer(case).unwrap()).collect();
    let mut out = Vec::new();
    assert!(verify(&cases, &(lines.join("\n") + "\n"), &mut out).unwrap());
    let told = format!("{} cases, 0 wrong\n", rows.len());
    assert_eq!(String::from_utf8(out).unwrap(), told);
    // One answer too few.
    let fewer = lines[1..].join("\n");
    assert!(!verify(&cases[1..], &lines[2..].join("\n"), &mut Vec::new()).unwrap());
    assert!(verify(&cases[1..], &fewer, &mut Vec::new()).unwrap());
    assert!(Case::read_all(&bytes[..bytes.len() - 1]).is_err());
}
