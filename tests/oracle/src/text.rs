//! The reader of job texts and plan texts, written from document 01, "Texts".
//!
//! The grammar is regular once the counts are kept as numbers, so the reader is
//! a small automaton that takes one byte at a time:
//!
//! ```text
//! text    = section section [section]
//! section = count LF line{count}
//! line    = number SP number SP ... number LF
//! number  = 0 | [1-9][0-9]{0,7}
//! ```
//!
//! The automaton has no dead states: from wherever it stands, digits, spaces
//! and line ends can be written that lead to the end of some text. (A count,
//! however large, asks for a finite number of lines.) So a beginning is the
//! beginning of some text of the grammar exactly if every byte of it is taken,
//! and the longest such beginning ends before the first byte that is not taken.

use crate::job::{Job, Refusal, MAX_PLACEMENTS};

use crate::checker::Placement;

/// How many numbers stand on a line of each section of a job text: `L W k` and
/// `l w p b`.
const JOB_TEXT: &[usize] = &[3, 4];

/// "A plan text has a third section, placements": `type x y`.
const PLAN_TEXT: &[usize] = &[3, 4, 3];

/// "Numbers are decimal, 1 to 8 digits".
const MAX_DIGITS: u32 = 8;

/// What the number being read is.
#[derive(Clone, Copy)]
enum Expect {
    /// The count of the section.
    Count { section: usize },
    /// A number inside a line; `lines` are still to be read, this one included.
    Field {
        section: usize,
        lines: u64,
        field: usize,
    },
    /// Nothing: "Nothing follows the last line."
    End,
}

struct Automaton {
    shape: &'static [usize],
    expect: Expect,
    /// The digits of the present number read so far.
    value: u64,
    digits: u32,
    /// The finished numbers. Their number is bounded by the text's length; the
    /// counts, which may be any number, size nothing.
    items: Vec<u64>,
}

impl Automaton {
    fn new(shape: &'static [usize]) -> Self {
        Automaton {
            shape,
            expect: Expect::Count { section: 0 },
            value: 0,
            digits: 0,
            items: Vec::new(),
        }
    }

    /// Takes one byte, or says that no text goes on with it here.
    fn take(&mut self, byte: u8) -> bool {
        if matches!(self.expect, Expect::End) {
            return false;
        }
        if byte.is_ascii_digit() {
            // "no leading zero except 0 itself"
            let after_zero = self.digits == 1 && self.value == 0;
            if after_zero || self.digits == MAX_DIGITS {
                return false;
            }
            self.value = self.value * 10 + u64::from(byte - b'0');
            self.digits += 1;
            return true;
        }
        if self.digits == 0 || byte != self.separator() {
            return false;
        }
        self.items.push(self.value);
        self.expect = self.next();
        self.value = 0;
        self.digits = 0;
        true
    }

    /// What ends the present number: "Lines end in LF", "one space between".
    fn separator(&self) -> u8 {
        match self.expect {
            Expect::Field { section, field, .. } if field + 1 < self.shape[section] => b' ',
            _ => b'\n',
        }
    }

    /// What follows the present number, which has just been ended.
    fn next(&self) -> Expect {
        match self.expect {
            Expect::Count { section } => self.line(section, self.value),
            Expect::Field {
                section,
                lines,
                field,
            } if field + 1 < self.shape[section] => Expect::Field {
                section,
                lines,
                field: field + 1,
            },
            Expect::Field { section, lines, .. } => self.line(section, lines - 1),
            Expect::End => Expect::End,
        }
    }

    /// The start of a line of `section`, or of what follows its last line.
    fn line(&self, section: usize, lines: u64) -> Expect {
        if lines > 0 {
            Expect::Field {
                section,
                lines,
                field: 0,
            }
        } else if section + 1 < self.shape.len() {
            Expect::Count {
                section: section + 1,
            }
        } else {
            Expect::End
        }
    }
}

/// The items of a text of the grammar, or refusal 1.
fn items(text: &[u8], shape: &'static [usize]) -> Result<Vec<u64>, Refusal> {
    let mut automaton = Automaton::new(shape);
    for (place, &byte) in text.iter().enumerate() {
        if !automaton.take(byte) {
            return Err(Refusal::NotInGrammar(place));
        }
    }
    match automaton.expect {
        Expect::End => Ok(automaton.items),
        // All of the text begins some longer text.
        _ => Err(Refusal::NotInGrammar(text.len())),
    }
}

/// Reads a job text: refusal 1 over the whole text, then refusal 2.
pub fn read_job(text: &[u8]) -> Result<Job, Refusal> {
    Job::from_items(&items(text, JOB_TEXT)?)
}

/// Reads a plan text. "Numbers inside placement lines have no range of their
/// own", so the placement count is the last item that can be out of range.
pub fn read_plan(text: &[u8]) -> Result<(Job, Vec<Placement>), Refusal> {
    let items = items(text, PLAN_TEXT)?;
    let job = Job::from_items(&items)?;
    let count = job.items();
    if items[count] > MAX_PLACEMENTS {
        return Err(Refusal::OutOfRange(count));
    }
    Ok((job, Placement::list(&items[count + 1..])))
}

#[cfg(test)]
mod tests {
    use super::*;
    use crate::rng::Rng;
    use std::collections::HashSet;

    fn place(text: &str, shape: &'static [usize]) -> Option<usize> {
        match items(text.as_bytes(), shape) {
            Ok(_) => None,
            Err(Refusal::NotInGrammar(place)) => Some(place),
            Err(other) => panic!("{other:?} from the grammar"),
        }
    }

    #[test]
    fn places_in_the_text() {
        for (text, expected) in [
            ("", Some(0)),
            ("01", Some(1)),
            ("0", Some(1)),
            ("0\n", Some(2)),
            ("0\n0", Some(3)),
            ("0\n0\n", None),
            ("0\n0\n\n", Some(4)),
            ("0\n0\n0\n", Some(4)),
            ("1 ", Some(1)),
            ("1\r\n", Some(1)),
            ("12345678", Some(8)),
            ("123456789", Some(8)),
            ("99999999\n1 1", Some(12)),
            (" 1", Some(0)),
            ("\n", Some(0)),
            ("-1", Some(0)),
            ("+1", Some(0)),
            ("1\n10 6 0\n1\n5 3 15 4\n", None),
            ("1\n10 6 0\n1\n5 3 15 4", Some(19)),
            ("1\n10 6 0\n1\n5 3 15 4 ", Some(19)),
            ("1\n10 6 0\n1\n5 3 15 4\n\0", Some(20)),
            ("1\n10  6", Some(5)),
            ("1\n10 6\n", Some(6)),
            ("1\n10 6 0 ", Some(8)),
            ("1\n10 6 00", Some(8)),
            ("2\n10 6 0\n1\n", Some(10)),
            ("0\n2\n5 3 15 4\n", Some(13)),
        ] {
            assert_eq!(place(text, JOB_TEXT), expected, "{text:?}");
        }
        assert_eq!(place("0\n0\n", PLAN_TEXT), Some(4));
        assert_eq!(place("0\n0\n0\n", PLAN_TEXT), None);
        assert_eq!(place("0\n0\n1\n1 0 0\n", PLAN_TEXT), None);
        assert_eq!(place("0\n0\n1\n1 0 0 0\n", PLAN_TEXT), Some(11));
    }

    #[test]
    fn grammar_goes_before_range() {
        // Sheet count 7 is out of range, but the text also ends too early.
        assert_eq!(read_job(b"7\n").unwrap_err(), Refusal::NotInGrammar(2),);
        assert_eq!(read_job(b"0\n0\n").unwrap_err(), Refusal::OutOfRange(0));
        let two = b"2\n9 9 0\n9 9 0\n1\n1 1 1 1\n";
        assert_eq!(read_job(two).unwrap_err(), Refusal::OutOfRange(0));
        let many = "1\n9 9 0\n13\n".to_string() + &"1 1 1 1\n".repeat(13);
        assert_eq!(
            read_job(many.as_bytes()).unwrap_err(),
            Refusal::OutOfRange(4)
        );
    }

    /// Membership a second time, by taking lines off the front.
    fn is_job_text(text: &[u8]) -> bool {
        fn number(word: &[u8]) -> Option<u64> {
            let plain = word.iter().all(u8::is_ascii_digit) && (1..=8).contains(&word.len());
            (plain && (word == b"0" || word[0] != b'0'))
                .then(|| std::str::from_utf8(word).unwrap().parse().unwrap())
        }
        let Some(body) = text.strip_suffix(b"\n") else {
            return false;
        };
        let mut lines = body.split(|&b| b == b'\n');
        for fields in [3, 4] {
            let Some(count) = lines.next().and_then(number) else {
                return false;
            };
            for _ in 0..count {
                let Some(line) = lines.next() else {
                    return false;
                };
                let words: Vec<_> = line.split(|&b| b == b' ').collect();
                if words.len() != fields || words.iter().any(|w| number(w).is_none()) {
                    return false;
                }
            }
        }
        lines.next().is_none()
    }

    /// Every string of up to ten bytes over a small alphabet: the reader takes
    /// exactly the texts of the grammar, and no text of the grammar begins with
    /// more of a refused string than the reader's place.
    #[test]
    fn every_short_string() {
        let alphabet = *b"01 \n";
        let mut beginnings = HashSet::new();
        let mut strings = Vec::new();
        for length in 0..=10u32 {
            for mut code in 0..4usize.pow(length) {
                let mut text = vec![0; length as usize];
                for byte in &mut text {
                    *byte = alphabet[code % 4];
                    code /= 4;
                }
                let member = is_job_text(&text);
                assert_eq!(items(&text, JOB_TEXT).is_ok(), member, "{text:?}");
                if member {
                    for end in 0..=text.len() {
                        beginnings.insert(text[..end].to_vec());
                    }
                }
                if length <= 6 {
                    strings.push(text);
                }
            }
        }
        assert!(beginnings.contains(b"1\n0 0 0\n0\n".as_slice()));
        for text in strings {
            if let Err(refusal) = items(&text, JOB_TEXT) {
                let longest = (0..=text.len())
                    .rev()
                    .find(|&end| beginnings.contains(&text[..end]));
                assert!(longest.unwrap() <= refusal.place() as usize, "{text:?}");
            }
        }
    }

    /// The other half: what stands before the place does begin a text. It is
    /// completed here by the shortest bytes that go on.
    #[test]
    fn the_part_before_the_place_can_be_completed() {
        let mut rng = Rng::new(11);
        for _ in 0..20_000 {
            let length = rng.below(24) as usize;
            let noise: Vec<u8> = (0..length).map(|_| *rng.pick(b"001123  \n\n\n")).collect();
            let Err(refusal) = items(&noise, JOB_TEXT) else {
                continue;
            };
            let mut text = noise[..refusal.place() as usize].to_vec();
            if text
                .split(|&b| b == b'\n')
                .any(|w| w.len() > 2 && !w.contains(&b' '))
            {
                continue; // a count with many digits: too many lines to add
            }
            while !is_job_text(&text) {
                assert!(text.len() < 4_000, "{noise:?}");
                let step = *b"\n 0"
                    .iter()
                    .find(|&&byte| {
                        let longer = [text.as_slice(), &[byte]].concat();
                        items(&longer, JOB_TEXT)
                            .map_or_else(|r| r.place() as usize, |_| longer.len())
                            == longer.len()
                    })
                    .expect("some byte goes on");
                text.push(step);
            }
        }
    }
}
