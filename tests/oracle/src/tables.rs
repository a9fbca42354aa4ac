//! The rows of document 01, "Tables on both sides of each line" and "Texts", as
//! cases with the leading numbers of their answers, and a few rows more.

use crate::cases::Case;

mod classes;

pub use classes::class_rows;

pub struct Row {
    /// What the row is about.
    #[cfg_attr(not(test), allow(dead_code))]
    pub name: &'static str,
    pub case: Case,
    /// number, place, profit, length, width, pieces, N and arena; or number,
    /// place, profit and pieces.
    #[cfg_attr(not(test), allow(dead_code))]
    pub answer: &'static str,
}

const JOB: &str = "1\n10 6 0\n1\n5 3 15 4\n";
const PINWHEEL: &str = "1\n3 3 0\n3\n2 1 2 2\n1 2 2 2\n1 1 1 1\n";

/// A job text, an arena filled with 255 and a buffer.
fn plan(name: &'static str, text: &str, arena: u64, buffer: u64, answer: &'static str) -> Row {
    let payload = text.as_bytes().to_vec();
    let case = Case {
        kind: 1,
        arena,
        fill: 255,
        buffer,
        payload,
    };
    Row { name, case, answer }
}

/// The same job handed over as numbers; what is left of the room for 12 types
/// is filled up with `nines`.
fn plan_numbers(name: &'static str, row: &Row, nines: u64, answer: &'static str) -> Row {
    let text = String::from_utf8_lossy(&row.case.payload).into_owned();
    let mut words: Vec<String> = text.split_whitespace().skip(1).map(String::from).collect();
    words.resize(52, nines.to_string());
    let case = Case {
        kind: 3,
        payload: words.join(" ").into_bytes(),
        ..row.case.clone()
    };
    Row { name, case, answer }
}

/// A plan text: a job text and a section of placements.
fn check(name: &'static str, job: &str, list: &str, answer: &'static str) -> Row {
    let text = format!("{job}{}\n{list}", list.lines().count());
    Row {
        name,
        case: Case::check(2, text.into_bytes()),
        answer,
    }
}

/// A text to read, by the planner and by the checker.
fn texts(name: &'static str, text: &str, planned: &'static str, checked: &'static str) -> [Row; 2] {
    let by_checker = Row {
        name,
        case: Case::check(2, text.as_bytes().to_vec()),
        answer: checked,
    };
    [plan(name, text, 160, 12, planned), by_checker]
}

/// A strip of 1 by 1 pieces: N is the product of (demand + 1), less 1.
fn strip(demands: &[u32]) -> String {
    let length: u32 = demands.iter().sum();
    let types: String = demands.iter().map(|b| format!("1 1 1 {b}\n")).collect();
    format!("1\n{} 1 0\n{}\n{types}", length.max(100), demands.len())
}

pub fn rows() -> Vec<Row> {
    let thirteen = "1\n10 6 0\n13\n".to_string() + &"5 3 15 4\n".repeat(13);
    let many = "1 0 0\n".repeat(601);
    let mut rows = vec![
        plan("the job", JOB, 64_000, 1_800, "0 0 60 10 6 4 5 0"),
        plan("5 records", JOB, 160, 12, "0 0 60 10 6 4 5 0"),
        plan("4 records", JOB, 128, 12, "4 0 0 0 0 0 0 0"),
        plan("159 bytes", JOB, 159, 12, "4 0 0 0 0 0 0 0"),
        plan("161 bytes", JOB, 161, 14, "0 0 60 10 6 4 5 0"),
        plan("no arena", JOB, 0, 12, "4 0 0 0 0 0 0 0"),
        plan("room for 3 placements", JOB, 160, 9, "5 0 0 0 0 0 0 0"),
        plan(
            "room for 3 placements and two numbers",
            JOB,
            160,
            11,
            "5 0 0 0 0 0 0 0",
        ),
        plan("neither arena nor buffer", JOB, 0, 0, "4 0 0 0 0 0 0 0"),
        plan(
            "one piece",
            "1\n10 6 0\n1\n10 6 60 1\n",
            32,
            3,
            "0 0 60 10 6 1 1 0",
        ),
        plan(
            "with kerf 1",
            "1\n10 6 1\n1\n10 6 60 1\n",
            32,
            3,
            "3 0 0 0 0 0 0 1",
        ),
        plan(
            "3 goes before 4",
            "1\n10 6 1\n1\n10 6 60 1\n",
            31,
            0,
            "3 0 0 0 0 0 0 1",
        ),
        plan(
            "two halves",
            "1\n4 1 0\n2\n2 1 5 1\n2 1 3 1\n",
            96,
            6,
            "0 0 8 4 1 2 3 0",
        ),
        plan("pinwheel", PINWHEEL, 64_000, 1_800, "0 0 7 3 3 4 24 0"),
        plan(
            "2 by 5",
            "1\n2 5 0\n4\n1 2 2 1\n1 3 3 1\n1 1 1 1\n1 4 4 1\n",
            64_000,
            1_800,
            "0 0 10 2 5 4 23 0",
        ),
        plan(
            "N = 2000",
            &strip(&[2, 22, 28]),
            64_000,
            1_800,
            "0 0 52 52 1 52 2000 0",
        ),
        plan(
            "N = 2000, 1999 records",
            &strip(&[2, 22, 28]),
            63_999,
            1_800,
            "4 0 0 0 0 0 0 0",
        ),
        plan(
            "N = 2001",
            &strip(&[1, 6, 10, 12]),
            64_000,
            1_800,
            "4 0 0 0 0 0 0 0",
        ),
        plan(
            "N = 2001, 2001 records",
            &strip(&[1, 6, 10, 12]),
            64_032,
            87,
            "0 0 29 29 1 29 2001 0",
        ),
        check("no placement", JOB, "", "0 0 0 0"),
        check("two side by side", JOB, "1 0 0\n1 5 0\n", "0 0 30 2"),
        check("two overlapping", JOB, "1 0 0\n1 4 0\n", "9 1 0 0"),
        check("outside", JOB, "1 6 0\n", "7 0 0 0"),
        check("five of four", JOB, &"1 0 0\n".repeat(5), "8 4 0 0"),
        check("type 0", JOB, "1 0 0\n0 5 0\n", "6 1 0 0"),
        check("type 2", JOB, "1 9 0\n2 5 0\n", "6 1 0 0"),
        check("601 placements", JOB, &many, "2 9 0 0"),
        check("600 placements", JOB, &many[6..], "8 4 0 0"),
        check(
            "pinwheel",
            PINWHEEL,
            "1 0 0\n2 2 0\n1 1 2\n2 0 1\n3 1 1\n",
            "10 0 0 0",
        ),
        check(
            "pinwheel without its first entry",
            PINWHEEL,
            "2 2 0\n1 1 2\n2 0 1\n3 1 1\n",
            "0 0 7 4",
        ),
        check(
            "pinwheel without its middle",
            PINWHEEL,
            "1 0 0\n2 2 0\n1 1 2\n2 0 1\n",
            "10 0 0 0",
        ),
    ];
    let refusals: [(_, &str, _, _); 19] = [
        ("empty text", "", "1 0 0 0 0 0 0 1", "1 0 0 0"),
        ("leading zero", "01", "1 1 0 0 0 0 0 1", "1 1 0 0"),
        ("space for LF", "1 ", "1 1 0 0 0 0 0 1", "1 1 0 0"),
        ("nine digits", "123456789", "1 8 0 0 0 0 0 1", "1 8 0 0"),
        ("huge count", "99999999\n", "1 9 0 0 0 0 0 1", "1 9 0 0"),
        ("both counts 0", "0\n0\n", "2 0 0 0 0 0 0 1", "1 4 0 0"),
        ("three counts 0", "0\n0\n0\n", "1 4 0 0 0 0 0 1", "2 0 0 0"),
        (
            "no last LF",
            "1\n10 6 0\n1\n5 3 15 4",
            "1 19 0 0 0 0 0 1",
            "1 19 0 0",
        ),
        (
            "behind the end",
            "1\n10 6 0\n1\n5 3 15 4\n \n",
            "1 20 0 0 0 0 0 1",
            "1 20 0 0",
        ),
        ("CRLF", "1\r\n10 6 0\r\n", "1 1 0 0 0 0 0 1", "1 1 0 0"),
        (
            "two sheets",
            "2\n10 6 0\n10 6 0\n1\n5 3 15 4\n",
            "2 0 0 0 0 0 0 1",
            "1 27 0 0",
        ),
        (
            "W of 5,000",
            "1\n10 5000 0\n1\n5 5000 15 1\n",
            "0 0 15 5 5000 1 1 0",
            "1 26 0 0",
        ),
        (
            "W of 5,001",
            "1\n10 5001 0\n1\n5 3 15 4\n",
            "2 2 0 0 0 0 0 1",
            "1 23 0 0",
        ),
        (
            "W of 5,001, checked",
            "1\n10 5001 0\n1\n5 3 15 4\n0\n",
            "1 23 0 0 0 0 0 1",
            "2 2 0 0",
        ),
        (
            "piece count 0",
            "1\n10 6 0\n0\n",
            "2 4 0 0 0 0 0 1",
            "1 11 0 0",
        ),
        (
            "piece count 0, checked",
            "1\n10 6 0\n0\n0\n",
            "1 11 0 0 0 0 0 1",
            "2 4 0 0",
        ),
        ("piece count 13", &thirteen, "2 4 0 0 0 0 0 1", "1 129 0 0"),
        (
            "profit out of range",
            "1\n9 9 0\n1\n9 9 25000001 51\n",
            "2 7 0 0 0 0 0 1",
            "1 26 0 0",
        ),
        (
            "kerf out of range",
            "1\n9 9 21\n1\n0 9 1 1\n",
            "2 3 0 0 0 0 0 1",
            "1 19 0 0",
        ),
    ];
    for (name, text, planned, checked) in refusals {
        rows.extend(texts(name, text, planned, checked));
    }
    let nonsense = [
        ("numbers", 0),
        ("numbers, nines behind", 9),
        ("numbers, largest", u64::MAX),
    ];
    for (name, nines) in nonsense {
        rows.push(plan_numbers(name, &rows[1], nines, rows[1].answer));
        rows.push(plan_numbers(name, &rows[10], nines, rows[10].answer));
    }
    rows
}

/// A job with 65,534 outlines, and one more for each type that takes up the
/// whole sheet and so goes with no other piece.
fn near_the_most(sheets: usize) -> String {
    let types = "25 12 300 3\n32 7 224 3\n29 20 580 1\n52 11 572 2\n14 9 126 4\n13 24 312 2\n";
    let more = "86 46 1 1\n".repeat(sheets);
    format!("1\n86 46 0\n{}\n{types}{more}", 6 + sheets)
}

/// Published jobs, and N at the most records that are ever used; in arenas for
/// one record less than N, for N, and for one more or as many as there may be.
pub fn large_rows() -> Vec<Row> {
    let of1 = include_str!("../../../examples/published/P3.job");
    let of2 = include_str!("../../../examples/published/P4.job");
    let pg4 = include_str!("../../../examples/published/PG4.job");
    let [most, above] = [1, 2].map(near_the_most);
    let (refused, largest) = ("4 0 0 0 0 0 0 0", 32 * 65_540);
    let of1_answer = "0 0 2737 70 40 10 36595 0";
    let of2_answer = "0 0 2690 70 40 10 33425 0";
    let most_answer = "0 0 3696 84 46 10 65535 0";
    vec![
        plan("OF1, N - 1", of1, 32 * 36_594, 30, refused),
        plan("OF1, N", of1, 32 * 36_595, 30, of1_answer),
        plan("OF1, N + 1", of1, 32 * 36_596, 31, of1_answer),
        plan("OF1, 9 pieces", of1, 32 * 36_595, 29, "5 0 0 0 0 0 0 0"),
        plan("OF2, N - 1", of2, 32 * 33_425 - 1, 30, refused),
        plan("OF2, N", of2, 32 * 33_425, 30, of2_answer),
        plan("OF2, N + 1", of2, 32 * 33_426, 30, of2_answer),
        plan("65535, N - 1", &most, 32 * 65_535 - 1, 30, refused),
        plan("65535, N", &most, 32 * 65_535, 30, most_answer),
        plan("65535, N + 5", &most, largest, 30, most_answer),
        plan("65536, N - 1", &above, 32 * 65_535, 30, refused),
        plan("65536, N", &above, 32 * 65_536, 30, refused),
        plan("65536, N + 4", &above, largest, 30, refused),
        plan("PG4, the largest arena", pg4, largest, 30, refused),
    ]
}

/// Strips with up to 65,535 outlines, for which there is a formula; the second
/// stands across the sheet.
pub fn strip_rows() -> Vec<Row> {
    let four = strip(&[14, 15, 15, 16]);
    let twelve = strip(&[3, 3, 3, 3, 1, 1, 1, 1, 1, 1, 1, 1]).replace("100 1 0", "1 100 0");
    let (four_answer, twelve_answer) = ("0 0 60 60 1 60 65279 0", "0 0 20 1 20 20 65535 0");
    vec![
        plan("strip, N", &four, 32 * 65_279, 180, four_answer),
        plan("strip, 65535", &twelve, 32 * 65_535, 60, twelve_answer),
    ]
}
