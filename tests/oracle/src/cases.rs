//! Cases and answers: their files, what is expected of each case, and the
//! comparison.
//!
//! A file of cases is a byte stream of cases one after the other. Each is a
//! header line `KIND A F B T` of five decimal numbers and then T bytes of
//! payload:
//!
//! | kind | the case | payload | answer line |
//! |---|---|---|---|
//! | 1 | plan a job text | the text | `number place profit length width pieces N arena` and the buffer |
//! | 2 | check a plan text | the text | `number place profit pieces` |
//! | 3 | plan a job as numbers | L W k n and 48 numbers | as for 1 |
//! | 4 | check a list for a job as numbers | the same, then the flat list | as for 2 |
//!
//! A is the arena's length in bytes, F the byte it is filled with beforehand, B
//! the buffer's length in numbers; number i of the buffer holds 1000000+i
//! beforehand. In the answer, `arena` is 0 for zeros, 1 for untouched and 2 for
//! anything else; where zeros and untouched are the same thing it is 0.

use std::fmt::Write as _;
use std::io::{self, Write};

use crate::checker::{check, Placement};
use crate::job::{Job, JobNumbers, Refusal, MAX_TYPES};
use crate::outlines::{Counts, Outline};
use crate::planner::{arena_room, buffer_room, plan, Plan};
use crate::text;

/// The numbers of a job handed over: L W k n, and l w p b of 12 types.
const JOB_NUMBERS: usize = 4 + 4 * MAX_TYPES;

#[derive(Clone, Debug)]
pub struct Case {
    pub kind: u8,
    pub arena: u64,
    pub fill: u8,
    pub buffer: u64,
    pub payload: Vec<u8>,
}

/// Number i of the buffer before the planner has it.
fn before(i: usize) -> u64 {
    1_000_000 + i as u64
}

impl Case {
    /// A case that lends neither arena nor buffer.
    pub fn check(kind: u8, payload: Vec<u8>) -> Case {
        Case {
            kind,
            arena: 0,
            fill: 0,
            buffer: 0,
            payload,
        }
    }

    pub fn write(&self, out: &mut impl Write) -> io::Result<()> {
        let length = self.payload.len();
        let Case {
            kind,
            arena,
            fill,
            buffer,
            payload,
        } = self;
        writeln!(out, "{kind} {arena} {fill} {buffer} {length}")?;
        out.write_all(payload)
    }

    /// Takes all cases of a file apart.
    pub fn read_all(mut bytes: &[u8]) -> Result<Vec<Case>, String> {
        let mut cases = Vec::new();
        while !bytes.is_empty() {
            let wrong = || format!("the header of case {} is malformed", cases.len());
            let end = bytes.iter().position(|&b| b == b'\n').ok_or_else(wrong)?;
            let header = numbers(&bytes[..end]).ok_or_else(wrong)?;
            let &[kind @ 1..=4, arena, fill @ 0..=255, buffer, length] = header.as_slice() else {
                return Err(wrong());
            };
            bytes = &bytes[end + 1..];
            if length > bytes.len() as u64 {
                return Err(format!("case {} is cut off", cases.len()));
            }
            let (payload, rest) = bytes.split_at(length as usize);
            bytes = rest;
            cases.push(Case {
                kind: kind as u8,
                arena,
                fill: fill as u8,
                buffer,
                payload: payload.to_vec(),
            });
        }
        Ok(cases)
    }

    /// The payload of kinds 3 and 4: the job's numbers and the flat list.
    fn numbers(&self) -> Result<(JobNumbers, Vec<u64>), String> {
        let all = numbers(&self.payload).filter(|all| all.len() >= JOB_NUMBERS);
        let all = all.ok_or("the payload is not the numbers of a job")?;
        let (job, list) = all.split_at(JOB_NUMBERS);
        let job = JobNumbers {
            sheet: [job[0], job[1], job[2]],
            count: job[3],
            types: std::array::from_fn(|t| std::array::from_fn(|i| job[4 + 4 * t + i])),
        };
        Ok((job, list.to_vec()))
    }

    /// The job of a case that plans one which is in range.
    pub fn job_to_plan(&self) -> Option<Job> {
        match self.kind {
            1 => text::read_job(&self.payload).ok(),
            3 => Job::from_numbers(&self.numbers().ok()?.0).ok(),
            _ => None,
        }
    }

    /// What is expected of the case.
    pub fn expected(&self) -> Result<Expected, String> {
        let planned = |job: Result<Job, Refusal>| {
            let answer = job.and_then(|job| {
                let plan = plan(&job, arena_room(self.arena), buffer_room(self.buffer))?;
                Ok((job, plan))
            });
            Expected::Planned(answer)
        };
        let checked = |answer: Result<(Job, Vec<Placement>), Refusal>| {
            let answer =
                answer.and_then(|(job, list)| Ok((check(&job, &list)?, list.len() as u64)));
            Expected::Checked(answer)
        };
        Ok(match self.kind {
            1 => planned(text::read_job(&self.payload)),
            2 => checked(text::read_plan(&self.payload)),
            3 => planned(Job::from_numbers(&self.numbers()?.0)),
            _ => {
                let (job, list) = self.numbers()?;
                checked(Job::from_numbers(&job).map(|job| (job, Placement::list(&list))))
            }
        })
    }

    /// What the arena must look like afterwards: 0 for zeros, 1 for untouched.
    fn arena_afterwards(&self, answer: &Result<(Job, Plan), Refusal>) -> u64 {
        let cleared = answer
            .as_ref()
            .map_or_else(|refusal| refusal.clears_arena(), |_| true);
        u64::from(!cleared && self.arena > 0 && self.fill != 0)
    }
}

/// Decimal numbers with single spaces between.
fn numbers(bytes: &[u8]) -> Option<Vec<u64>> {
    let text = std::str::from_utf8(bytes).ok()?;
    text.split(' ').map(|word| word.parse().ok()).collect()
}

/// The answer to a case: the accepted plan with its job, or profit and pieces
/// of the accepted list, or the refusal.
pub enum Expected {
    Planned(Result<(Job, Plan), Refusal>),
    Checked(Result<(u64, u64), Refusal>),
}

/// The names of the leading numbers of a planner's answer line.
const PLANNED: [&str; 8] = [
    "number", "place", "profit", "length", "width", "pieces", "N", "arena",
];

/// The names of the numbers of a checker's answer line.
const CHECKED: [&str; 4] = ["number", "place", "profit", "pieces"];

/// number, place, profit, length, width, pieces and N. "All other fields of a
/// refusal are 0."
pub fn plan_fields(answer: Result<&Plan, Refusal>) -> [u64; 7] {
    match answer {
        Ok(plan) => {
            let Outline {
                profit,
                size,
                counts,
            } = plan.best;
            let (length, width) = (u64::from(size.length), u64::from(size.width));
            [0, 0, profit, length, width, counts.pieces(), plan.outlines]
        }
        Err(refusal) => [refusal.number(), refusal.place(), 0, 0, 0, 0, 0],
    }
}

/// number, place, profit and pieces.
pub fn check_fields(answer: Result<(u64, u64), Refusal>) -> [u64; 4] {
    match answer {
        Ok((profit, pieces)) => [0, 0, profit, pieces],
        Err(refusal) => [refusal.number(), refusal.place(), 0, 0],
    }
}

/// The numbers as words with single spaces between.
pub fn line(numbers: &[u64]) -> String {
    let mut line = String::new();
    for (i, number) in numbers.iter().enumerate() {
        let gap = if i == 0 { "" } else { " " };
        let _ = write!(line, "{gap}{number}");
    }
    line
}

/// The whole expected answer line, with a placement of our own choice where
/// several are right.
pub fn answer(case: &Case) -> Result<String, String> {
    Ok(match case.expected()? {
        Expected::Checked(answer) => line(&check_fields(answer)),
        Expected::Planned(answer) => {
            let plan = answer
                .as_ref()
                .map(|(_, plan)| plan)
                .map_err(|&refusal| refusal);
            let mut all = plan_fields(plan).to_vec();
            all.push(case.arena_afterwards(&answer));
            let placements = plan.iter().flat_map(|plan| &plan.placements);
            let mut buffer: Vec<u64> = placements.flat_map(|p| [p.kind, p.x, p.y]).collect();
            buffer.extend((buffer.len()..case.buffer as usize).map(before));
            all.extend(buffer);
            line(&all)
        }
    })
}

/// Compares an answer line with what is expected; the error says what is wrong.
pub fn compare(case: &Case, answer_line: &str) -> Result<(), String> {
    let expected = case.expected()?;
    let got = numbers(answer_line.as_bytes()).ok_or("the answer is not a line of numbers")?;
    let (names, fields): (&[&str], Vec<u64>) = match &expected {
        Expected::Checked(answer) => (&CHECKED, check_fields(*answer).to_vec()),
        Expected::Planned(answer) => {
            let plan = answer
                .as_ref()
                .map(|(_, plan)| plan)
                .map_err(|&refusal| refusal);
            let mut fields = plan_fields(plan).to_vec();
            fields.push(case.arena_afterwards(answer));
            (&PLANNED, fields)
        }
    };
    for ((name, want), have) in names.iter().zip(&fields).zip(&got) {
        if want != have {
            let (want, have) = (line(&fields), line(&got[..got.len().min(names.len())]));
            return Err(format!("{name} is wrong: {have} instead of {want}"));
        }
    }
    let length = names.len() + case.buffer as usize;
    if got.len() != length {
        return Err(format!("{} numbers instead of {length}", got.len()));
    }
    let buffer = &got[names.len()..];
    let written = match &expected {
        Expected::Planned(Ok((job, plan))) => {
            let written = 3 * plan.best.counts.pieces() as usize;
            compare_placements(job, &plan.best, &Placement::list(&buffer[..written]))?;
            written
        }
        _ => 0,
    };
    // "The rest of the buffer keeps its numbers." "Every refusal leaves the plan
    // buffer [...] untouched."
    match (written..buffer.len()).find(|&i| buffer[i] != before(i)) {
        Some(i) => Err(format!("number {i} of the buffer is now {}", buffer[i])),
        None => Ok(()),
    }
}

/// "In the end the placements stand in order of y, then x, all within the best
/// outline with its corner at (0, 0). They are a list that the checker accepts,
/// with exactly that outline's counts."
fn compare_placements(job: &Job, best: &Outline, list: &[Placement]) -> Result<(), String> {
    let profit = check(job, list)
        .map_err(|refusal| format!("the checker refuses the placements: {refusal:?}"))?;
    assert_eq!(
        profit,
        list.iter()
            .map(|p| job.types[p.kind as usize - 1].profit)
            .sum()
    );
    let mut counts = Counts::NONE;
    for p in list {
        let t = p.kind as usize - 1;
        counts = counts.with(t, counts.of(t) + 1);
    }
    if counts != best.counts {
        return Err("the placements are not the best outline's counts".into());
    }
    if !list
        .windows(2)
        .all(|two| (two[0].y, two[0].x) < (two[1].y, two[1].x))
    {
        return Err("the placements are not in order of y, then x".into());
    }
    let within = |p: &Placement| {
        let grown = job.types[p.kind as usize - 1].grown;
        p.x + u64::from(grown.length) <= u64::from(best.size.length)
            && p.y + u64::from(grown.width) <= u64::from(best.size.width)
    };
    match list.iter().position(|p| !within(p)) {
        Some(place) => Err(format!("placement {place} leaves the best outline")),
        None => Ok(()),
    }
}

/// How many mismatches are told.
const TOLD: usize = 20;

/// Compares all answers with all cases, tells of the first mismatches and gives
/// true if everything agrees.
pub fn verify(cases: &[Case], answers: &str, out: &mut impl Write) -> io::Result<bool> {
    let lines: Vec<&str> = answers.split_terminator('\n').collect();
    let mut wrong = 0;
    for (i, (case, answer)) in cases.iter().zip(&lines).enumerate() {
        if let Err(what) = compare(case, answer) {
            wrong += 1;
            if wrong <= TOLD {
                writeln!(out, "case {i}, kind {}: {what}", case.kind)?;
            }
        }
    }
    if lines.len() != cases.len() {
        writeln!(out, "{} cases but {} answers", cases.len(), lines.len())?;
        // A case without an answer is wrong as well.
        wrong += cases.len().saturating_sub(lines.len());
    }
    writeln!(out, "{} cases, {wrong} wrong", cases.len())?;
    Ok(wrong == 0 && lines.len() == cases.len())
}
