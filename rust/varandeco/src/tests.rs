// The tables of document 01, and slices of every awkward length.
use super::*;
use std::vec;
use std::vec::Vec;

const SAMPLE: [u64; 8] = [10, 6, 0, 1, 5, 3, 15, 4];
const PINWHEEL_JOB: [u64; 16] = [3, 3, 0, 3, 2, 1, 2, 2, 1, 2, 2, 2, 1, 1, 1, 1];
const PINWHEEL: [u64; 15] = [1, 0, 0, 2, 2, 0, 1, 1, 2, 2, 0, 1, 3, 1, 1];

fn plan(job: &[u64], records: usize, placements: usize) -> Result<Plan, Refusal> {
    plan_numbers(job, &mut vec![7; records * RECORD_BYTES], &mut vec![7; placements * PLACEMENT_NUMBERS])
}

fn refused<T>(number: u64, place: u64) -> Result<T, Refusal> {
    Err(Refusal { number, place })
}

fn profit(answer: Result<Plan, Refusal>) -> u64 {
    answer.unwrap().profit
}

#[test]
fn planner_rows() {
    assert_eq!(plan(&SAMPLE, 5, 4), Ok(Plan { profit: 60, length: 10, width: 6, pieces: 4, outlines: 5 }));
    assert_eq!(plan(&SAMPLE, 4, 4), refused(4, 0));
    assert_eq!(plan(&SAMPLE, 5, 3), refused(5, 0));
    assert_eq!(plan_numbers(&SAMPLE, &mut [0; 159], &mut [0; 12]), refused(4, 0));
    assert_eq!(plan(&[10, 6, 0, 1, 10, 6, 60, 1], 1, 1), Ok(Plan { profit: 60, length: 10, width: 6, pieces: 1, outlines: 1 }));
    assert_eq!(plan(&[10, 6, 1, 1, 10, 6, 60, 1], 1, 1), refused(3, 0));
    assert_eq!(plan(&[4, 1, 0, 2, 2, 1, 5, 1, 2, 1, 3, 1], 3, 2).map(|p| (p.profit, p.outlines)), Ok((8, 3)));
    assert_eq!(plan(&PINWHEEL_JOB, 100, 5).map(|p| (p.profit, p.length, p.width)), Ok((7, 3, 3)));
    assert_eq!(profit(plan(&[2, 5, 0, 4, 1, 2, 2, 1, 1, 3, 3, 1, 1, 1, 1, 1, 1, 4, 4, 1], 100, 4)), 10);
}

#[test]
fn checker_rows() {
    assert_eq!(check_numbers(&SAMPLE, &[1, 0, 0, 1, 5, 0]), Ok(Drawing { profit: 30, pieces: 2 }));
    assert_eq!(check_numbers(&SAMPLE, &[1, 0, 0, 1, 4, 0]), refused(9, 1));
    assert_eq!(check_numbers(&SAMPLE, &[1, 6, 0]), refused(7, 0));
    assert_eq!(check_numbers(&SAMPLE, &[1, 0, 0].repeat(5)), refused(8, 4));
    assert_eq!(check_numbers(&PINWHEEL_JOB, &PINWHEEL), refused(10, 0));
    assert_eq!(check_numbers(&PINWHEEL_JOB, &PINWHEEL[3..]), Ok(Drawing { profit: 7, pieces: 4 }));
    assert_eq!(check_numbers(&SAMPLE, &[0, 0, 0]), refused(6, 0));
    assert_eq!(check_numbers(&SAMPLE, &[1, 0, 0, 2, 0, 0]), refused(6, 1));
    assert_eq!(check_numbers(&SAMPLE, &[1, u64::MAX, u64::MAX]), refused(7, 0));
    assert_eq!(check_numbers(&SAMPLE, &[1, 0, u64::MAX - 2]), refused(7, 0));
}

#[test]
fn a_rest_of_one_or_two_numbers_is_lost() {
    assert_eq!(check_numbers(&SAMPLE, &[]), Ok(Drawing { profit: 0, pieces: 0 }));
    assert_eq!(check_numbers(&SAMPLE, &[9]), Ok(Drawing { profit: 0, pieces: 0 }));
    assert_eq!(check_numbers(&SAMPLE, &[1, 0, 0, 9, 9]), Ok(Drawing { profit: 15, pieces: 1 }));
}

#[test]
fn text_rows() {
    let plan = |text: &[u8]| plan_text(text, &mut [0; 160], &mut [0; 12]);
    assert_eq!(plan(b""), refused(1, 0));
    assert_eq!(plan(b"01"), refused(1, 1));
    assert_eq!(profit(plan(b"1\n10 6 0\n1\n5 3 15 4\n")), 60);
    assert_eq!(plan(b"1\n10 6 0\n1\n5 3 15 4"), refused(1, 19));
    assert_eq!(profit(plan(b"1\n10 5000 0\n1\n10 5000 1 1\n")), 1);
    assert_eq!(plan(b"1\n10 5001 0\n1\n10 5000 1 1\n"), refused(2, 2));
    assert_eq!(plan(b"1\n10 6 0\n0\n"), refused(2, 4));
    assert_eq!(check_text(b""), refused(1, 0));
    assert_eq!(check_text(b"1\n10 6 0\n1\n5 3 15 4\n0\n"), Ok(Drawing { profit: 0, pieces: 0 }));
    assert_eq!(check_text(b"1\n10 6 0\n1\n5 3 15 4\n2\n1 0 0\n1 4 0\n"), refused(9, 1));
}

#[test]
fn a_short_job_is_refused_where_its_first_number_lacks() {
    let full: Vec<u64> = SAMPLE[..4].iter().chain(SAMPLE[4..].repeat(12).iter()).copied().collect();
    let with_count = |n: u64| { let mut job = full.clone(); job[2] = 1; job[3] = n; job };
    for n in 1..=12u64 {
        let job = with_count(n);
        let needed = 4 + 4 * n as usize;
        for length in 0..needed {
            // L is item 1 and the kerf may be 0
            let item = if length == 2 { 4 } else { length as u64 + 1 };
            assert_eq!(check_numbers(&job[..length], &[]), refused(2, item), "{n} types, {length} numbers");
        }
        for length in needed..=job.len() {
            assert_eq!(check_numbers(&job[..length], &[]), Ok(Drawing { profit: 0, pieces: 0 }));
        }
    }
    assert_eq!(check_numbers(&with_count(13), &[]), refused(2, 4));
    assert_eq!(check_numbers(&with_count(u64::MAX), &[]), refused(2, 4));
    assert_eq!(check_numbers(&[10, 6, 0, 1, 5, 3, 15, 4, u64::MAX], &[]), Ok(Drawing { profit: 0, pieces: 0 }));
}

#[test]
fn buffers_afterwards() {
    for records in 0..8 {
        for rest in 0..2 {
            for numbers in 0..16 {
                let mut arena = vec![7; records * RECORD_BYTES + rest];
                let mut buffer = vec![9; numbers];
                let answer = plan_numbers(&SAMPLE, &mut arena, &mut buffer);
                assert!(arena.iter().all(|b| *b == 0));
                let (number, kept) = if records < 5 { (4, 0) } else if numbers < 12 { (5, 0) } else { (0, 12) };
                assert_eq!(answer.map_or_else(|r| r.number, |_| 0), number);
                assert!(buffer[kept..].iter().all(|x| *x == 9));
                if number == 0 {
                    assert_eq!(check_numbers(&SAMPLE, &buffer[..kept]), Ok(Drawing { profit: 60, pieces: 4 }));
                }
            }
        }
    }
    let mut arena = [7; 64];
    assert_eq!(plan_numbers(&[1, 1, 0, 1, 2, 2, 1, 1], &mut arena, &mut []), refused(3, 0));
    assert_eq!(plan_text(b"2\n", &mut arena, &mut []), refused(1, 2));
    assert_eq!(plan_numbers(&[], &mut arena, &mut []), refused(2, 1));
    assert_eq!(arena, [7; 64]);
}

#[test]
fn an_answer_of_any_length() {
    let whole = [0, 0, 60, 10, 6, 4, 5];
    for length in 0..12 {
        let (mut arena, mut buffer, mut answer) = ([0; 160], [0; 12], vec![9; length]);
        let number = unsafe { library::varandeco_plan_numbers(SAMPLE.as_ptr(), 8, arena.as_mut_ptr(), 160, buffer.as_mut_ptr(), 12, answer.as_mut_ptr(), length) };
        assert_eq!(number, 0);
        let told = length.min(7);
        assert_eq!(answer[..told], whole[..told]);
        assert!(answer[told..].iter().all(|x| *x == 9));
    }
    for length in 0..8 {
        let mut answer = vec![9; length];
        let number = unsafe { library::varandeco_check_text(b"01".as_ptr(), 2, answer.as_mut_ptr(), length) };
        assert_eq!(number, 1);
        let told = length.min(4);
        assert_eq!(answer[..told], [1, 1, 0, 0][..told]);
        assert!(answer[told..].iter().all(|x| *x == 9));
    }
}

#[test]
fn null_slices_have_their_answer() {
    use core::ptr::{null, null_mut};
    unsafe {
        assert_eq!(library::varandeco_plan_text(null(), 0, null_mut(), 0, null_mut(), 0, null_mut(), 0), 1);
        assert_eq!(library::varandeco_plan_numbers(null(), 0, null_mut(), 0, null_mut(), 0, null_mut(), 0), 2);
        assert_eq!(library::varandeco_plan_numbers(SAMPLE.as_ptr(), 8, null_mut(), 0, null_mut(), 0, null_mut(), 0), 4);
        assert_eq!(library::varandeco_check_numbers(null(), 0, null(), 0, null_mut(), 0), 2);
        assert_eq!(library::varandeco_check_numbers(SAMPLE.as_ptr(), 8, null(), 0, null_mut(), 0), 0);
        assert_eq!(library::varandeco_check_text(null(), 0, null_mut(), 0), 1);
    }
}

#[test]
fn refusals_in_words() {
    assert_eq!(check_numbers(&SAMPLE, &[1, 6, 0]).unwrap_err().to_string(), "a piece that is not wholly in the sheet (7, place 0)");
}
