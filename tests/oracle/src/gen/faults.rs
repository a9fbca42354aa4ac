//! Faults in numbers, in lists and in texts.

use super::{section, Draft};
use crate::job::MAX_TYPES;
use crate::rng::Rng;

/// Puts one number, or a few, on either side of either end of its range.
pub fn spoil_some(rng: &mut Rng, draft: &mut Draft, limit: u64) {
    for _ in 0..*rng.pick(&[1, 1, 1, 2, 3]) {
        let item = rng.index(3 + 4 * draft.types.len());
        let (number, low, high) = if item < 3 {
            let (low, high): (u64, u64) = [(1, 5_000), (1, 5_000), (0, 20)][item];
            (&mut draft.sheet[item], low, high)
        } else {
            let ends = [(1, 5_000), (1, 5_000), (1, 25_000_000), (1, 50)];
            let (low, high) = ends[(item - 3) % 4];
            (&mut draft.types[(item - 3) / 4][(item - 3) % 4], low, high)
        };
        // The last few catch a number that is kept in too few bits.
        let tries = [
            low,
            low.saturating_sub(1),
            0,
            high,
            high + 1,
            high + 1,
            limit,
            number.saturating_add(1 << 8),
            number.saturating_add(1 << 16),
            number.saturating_add(1 << 32),
        ];
        *number = (*rng.pick(&tries)).min(limit);
    }
}

/// A piece count that is wrong, or reads more or fewer types than there are.
pub fn spoilt_count(rng: &mut Rng, count: u64) -> u64 {
    let tries = [
        0,
        13,
        12,
        count + 1,
        count - 1,
        u64::MAX,
        count + (1 << 8),
        count + (1 << 32),
    ];
    *rng.pick(&tries)
}

/// A text of the grammar whose counts are out of range.
pub fn miscounted_text(rng: &mut Rng, draft: &Draft, listed: bool) -> Vec<u8> {
    let mut text = String::new();
    let sheets = match rng.below(200) {
        0 => 6_000, // a text above 32,768 bytes
        1..=50 => 0,
        51..=100 => 2,
        _ => 1,
    };
    section(&mut text, &vec![draft.sheet; sheets]);
    match rng.below(4) {
        0 => section::<4>(&mut text, &[]),
        1 => section(&mut text, &[draft.types[0]; MAX_TYPES + 1]),
        _ => section(&mut text, &draft.types),
    }
    if listed {
        section(&mut text, &draft.list);
    }
    text.into_bytes()
}

/// One to three small faults in the list, or in the job that it was drawn for.
pub fn damage_list(rng: &mut Rng, draft: &mut Draft, limit: u64) {
    for _ in 0..*rng.pick(&[1, 1, 1, 2, 3]) {
        if draft.list.is_empty() {
            draft.list.push([1, 0, 0]);
        }
        let at = rng.index(draft.list.len());
        let types = draft.types.len() as u64;
        match rng.below(14) {
            0..=2 => {
                let number = &mut draft.list[at][1 + rng.index(2)];
                *number = match rng.one_in(2) {
                    true => number.saturating_add(1),
                    false => number.saturating_sub(1),
                };
            }
            3 => {
                let twice = draft.list[at];
                draft.list.insert(rng.index(draft.list.len() + 1), twice);
            }
            4 | 5 => {
                let [length, width, _] = draft.sheet;
                let more = [rng.between(1, types), rng.below(length), rng.below(width)];
                draft.list.insert(rng.index(draft.list.len() + 1), more);
            }
            6 => {
                let kind = &mut draft.list[at][0];
                let far = [1 << 8, 1 << 16, 1 << 32].map(|bits| kind.saturating_add(bits));
                let wrong = [0, types + 1, types + 1, limit, *rng.pick(&far)];
                *kind = *rng.pick(&wrong);
            }
            7 | 8 => {
                // Positions of any size, and such that would be right with some
                // high bits lost.
                let number = &mut draft.list[at][1 + rng.index(2)];
                let far = [
                    limit,
                    limit - rng.below(60),
                    number.saturating_add(1 << 16),
                    number.saturating_add(1 << 32),
                    number.saturating_add(1 << 63),
                    number.saturating_add(5_000),
                    (1 << 63) - 1,
                    (1 << 32) - 1,
                ];
                *number = (*rng.pick(&far)).min(limit);
            }
            9 => {
                draft.list.remove(at);
            }
            10 => {
                let other = rng.index(draft.list.len());
                let kind = draft.list[at][0];
                draft.list[at][0] = draft.list[other][0];
                draft.list[other][0] = kind;
            }
            11 => {
                let kind = rng.index(draft.types.len());
                draft.types[kind][3] = draft.types[kind][3].saturating_sub(1).max(1);
            }
            12 => draft.sheet[2] = (draft.sheet[2] + 1).min(20),
            _ => {
                let side = rng.index(2);
                draft.sheet[side] = draft.sheet[side].saturating_sub(1).max(1);
            }
        }
    }
}

/// A byte that might stand in a text, or one that never does.
fn random_byte(rng: &mut Rng) -> u8 {
    match rng.below(4) {
        0 => rng.between(b'0'.into(), b'9'.into()) as u8,
        1 => *rng.pick(b" \n"),
        2 => *rng.pick(b"\r\t\0-+.,x\x80\xb2\xff\x0b/:"),
        _ => rng.below(256) as u8,
    }
}

/// One fault in the text; some leave it a text of the grammar.
pub fn damage_text(rng: &mut Rng, text: &mut Vec<u8>) {
    if text.is_empty() {
        text.push(random_byte(rng));
        return;
    }
    let at = rng.index(text.len());
    let digits: Vec<usize> = (0..text.len())
        .filter(|&i| text[i].is_ascii_digit() && (i == 0 || !text[i - 1].is_ascii_digit()))
        .collect();
    match rng.below(20) {
        0 | 1 => {
            text.remove(at);
        }
        2 | 3 => text.insert(rng.index(text.len() + 1), random_byte(rng)),
        4 | 5 => text[at] = random_byte(rng),
        6 if at > 0 => text.swap(at - 1, at),
        7 | 8 => text.truncate(at),
        9 => {
            let behind = ["\n", " ", "0", "0\n", "\0", "\r\n", "1 0 0\n"];
            text.extend_from_slice(rng.pick(&behind).as_bytes());
        }
        10 => {
            // CRLF, everywhere or once.
            let everywhere = rng.one_in(2);
            let ends: Vec<usize> = (0..text.len()).filter(|&i| text[i] == b'\n').collect();
            if !ends.is_empty() {
                let once = *rng.pick(&ends);
                for &end in ends.iter().rev().filter(|&&end| everywhere || end == once) {
                    text.insert(end, b'\r');
                }
            }
        }
        11 | 12 if !digits.is_empty() => text.insert(*rng.pick(&digits), b'0'),
        13 | 14 if !digits.is_empty() => {
            // A number of 8 digits, or of 9.
            let start = *rng.pick(&digits);
            let length = text[start..]
                .iter()
                .take_while(|b| b.is_ascii_digit())
                .count();
            let wanted = rng.between(8, 9) as usize;
            let more = vec![*rng.pick(b"0123456789"); wanted.saturating_sub(length)];
            text.splice(start + length..start + length, more);
        }
        15 => {
            let blanks: Vec<usize> = (0..text.len()).filter(|&i| text[i] <= b' ').collect();
            if !blanks.is_empty() {
                let blank = *rng.pick(&blanks);
                text.insert(blank, *rng.pick(b"  \n"));
            }
        }
        16 => {
            text.pop();
        }
        17 => recount(rng, text),
        18 => {
            // A line once more, or once less.
            let mut lines: Vec<&[u8]> = text.split_inclusive(|&b| b == b'\n').collect();
            let line = rng.index(lines.len());
            if rng.one_in(2) {
                lines.remove(line);
            } else {
                lines.insert(line, lines[line]);
            }
            *text = lines.concat();
        }
        19 if rng.one_in(2) => text.extend_from_within(..),
        _ => text.clear(),
    }
}

/// Puts another count into the place of one of the two or three counts.
fn recount(rng: &mut Rng, text: &mut Vec<u8>) {
    let mut lines: Vec<&[u8]> = text.split(|&b| b == b'\n').collect();
    // A count is a line without a space, and not what follows the last LF.
    let body = lines.len() - 1;
    let counts: Vec<usize> = (0..body).filter(|&i| !lines[i].contains(&b' ')).collect();
    if counts.is_empty() {
        return;
    }
    let others = [
        "0",
        "1",
        "2",
        "3",
        "12",
        "13",
        "600",
        "601",
        "4294967297",
        "65537",
        "99999999",
        "10000000",
        "100000000",
        "00",
        "",
        "-1",
    ];
    lines[*rng.pick(&counts)] = rng.pick(&others).as_bytes();
    *text = lines.join(&b'\n');
}
