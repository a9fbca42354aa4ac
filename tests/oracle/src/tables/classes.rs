//! Rows by the size of their classes, the outlines that have the same counts.

use super::{plan, Row};

const REFUSED: &str = "4 0 0 0 0 0 0 0";

/// More than the records that are ever used, in bytes.
const LARGEST: u64 = 32 * 65_540;

/// A job text out of its lines, but for the counts.
fn job(sheet: &str, types: &[&str]) -> String {
    let (count, types) = (types.len(), types.join("\n"));
    format!("1\n{sheet}\n{count}\n{types}\n")
}

/// A job in arenas for one record less than N, for N and for one more.
fn around(
    name: &'static str,
    job: &str,
    outlines: u64,
    pieces: u64,
    answer: &'static str,
) -> [Row; 3] {
    let room = |records: u64| 32 * records;
    [
        plan(name, job, room(outlines) - 1, 3 * pieces, REFUSED),
        plan(name, job, room(outlines), 3 * pieces, answer),
        plan(name, job, room(outlines + 1), 3 * pieces + 1, answer),
    ]
}

/// Jobs with a class above 1,000 outlines; jobs with classes of 1, 2, 11, 12, 13,
/// 24 and 25 outlines; and a job with 2,445 classes.
pub fn class_rows() -> Vec<Row> {
    let mut rows = two_type_rows();
    rows.extend(square_rows());
    rows.extend(cupboard_rows());
    rows.extend(rows_near_the_most());
    rows.extend(small_class_rows());
    rows
}

/// Two types of few sizes, so that each outline comes from thousands of joins;
/// these take longest. The first two have more outlines than there may be records.
fn two_type_rows() -> Vec<Row> {
    let boards = job("2440 1220 4", &["100 100 1 50", "200 150 3 2"]);
    let panels = job("3000 1500 3", &["250 250 6 20", "300 200 6 20"]);
    let units = job("5000 5000 0", &["1 1 1 2", "1 1 1 50"]);
    let units_answer = "0 0 52 1 52 52 56294 0";
    vec![
        plan("boards", &boards, LARGEST, 160, REFUSED),
        plan("panels", &panels, LARGEST, 160, REFUSED),
        plan("units", &units, 32 * 56_294, 156, units_answer),
    ]
}

/// One type: its last class, of 50 pieces, has 1,074 outlines, and 16,556 come
/// before it.
fn square_rows() -> Vec<Row> {
    let squares = job("5000 5000 0", &["100 100 1 50"]);
    let answer = "0 0 50 100 5000 50 17630 0";
    let (all, before) = (32 * 17_630, 32 * 16_556);
    let mut rows = Vec::from(around("squares", &squares, 17_630, 50, answer));
    rows.extend([
        plan("49 pieces", &squares, all, 149, "5 0 0 0 0 0 0 0"),
        plan("49th class whole", &squares, before, 150, REFUSED),
        plan("50th class begun", &squares, before + 32, 150, REFUSED),
        plan("50th class cut", &squares, 32 * 17_000, 150, REFUSED),
    ]);
    rows
}

/// The parts of a cupboard, one of each: the last class of seven has 1,817
/// outlines, that of all eight has 6,701.
fn cupboard_rows() -> Vec<Row> {
    let parts = [
        "720 560 12 1",
        "597 140 4 1",
        "564 300 6 1",
        "500 450 8 1",
        "396 297 5 1",
        "380 264 5 1",
        "350 198 3 1",
        "447 100 2 1",
    ];
    let [seven, eight] = [7, 8].map(|count| job("2800 2070 3", &parts[..count]));
    let seven_answer = "0 0 43 736 2029 7 8390 0";
    let eight_answer = "0 0 45 782 2033 8 41447 0";
    let mut rows = Vec::from(around("seven parts", &seven, 8_390, 7, seven_answer));
    rows.extend(around("eight parts", &eight, 41_447, 8, eight_answer));
    rows.push(plan("eight, cut", &eight, 32 * 37_000, 24, REFUSED));
    rows
}

/// A job with 65,534 outlines, 5,854 of them with all ten pieces, and one more
/// for each type that takes up the whole sheet.
fn near_the_most(sheets: usize) -> String {
    let mut types = vec![
        "540 210 11 2",
        "270 510 14 2",
        "240 230 6 2",
        "370 230 9 2",
        "310 320 10 2",
    ];
    types.resize(types.len() + sheets, "2359 2051 1 1");
    job("2363 2055 4", &types)
}

fn rows_near_the_most() -> Vec<Row> {
    let [most, above] = [1, 2].map(near_the_most);
    let answer = "0 0 100 588 2012 10 65535 0";
    let mut rows = Vec::from(around("65535", &most, 65_535, 10, answer));
    rows.extend([
        plan("65536, N - 1", &above, 32 * 65_535, 30, REFUSED),
        plan("65536, N", &above, 32 * 65_536, 30, REFUSED),
    ]);
    rows
}

/// Two jobs with classes on both sides of the numbers where a sort changes its
/// method, and twelve types with many classes.
fn small_class_rows() -> Vec<Row> {
    let two = job("244 122 3", &["87 35 3045 11", "46 20 920 8"]);
    let three = job(
        "244 122 0",
        &["52 30 1560 4", "89 41 3649 3", "81 46 3726 5"],
    );
    let twelve = job(
        "244 122 1",
        &[
            "44 30 1320 1",
            "81 68 5508 1",
            "119 38 4522 1",
            "50 53 2650 1",
            "43 60 2580 1",
            "40 40 1600 1",
            "43 75 3225 1",
            "58 67 3886 1",
            "62 45 2790 1",
            "78 47 3666 1",
            "73 72 5256 1",
            "98 66 6468 1",
        ],
    );
    let two_answer = "0 0 22870 229 115 11 577 0";
    let three_answer = "0 0 24870 243 122 9 653 0";
    let twelve_answer = "0 0 26568 240 122 7 30229 0";
    let mut rows = Vec::from(around("two types", &two, 577, 11, two_answer));
    rows.extend(around("three types", &three, 653, 9, three_answer));
    rows.extend(around("twelve types", &twelve, 30_229, 7, twelve_answer));
    rows
}
