//! A reference program for the guillotine cutting planner and checker of
//! document 01: all outlines by splitting count vectors and where they are few
//! again by joining all pairs, strips by a formula, the optimum again by cutting
//! the sheet from the top, parting straight from its definition, and texts by an
//! automaton.
//!
//! ```text
//! oracle plan [RECORDS [PLACEMENTS]]   plans the job text on standard input
//! oracle check                         checks the plan text on standard input
//! oracle gen KIND SEED COUNT           writes COUNT random cases of a kind
//! oracle tables                        writes the rows of document 01 as cases
//! oracle tables large|strips           writes rows around 65,535 outlines
//! oracle tables classes                writes rows by the size of their classes
//! oracle classes CASES                 prints how large the cases' classes are
//! oracle answers CASES                 prints the expected answer lines
//! oracle verify CASES ANSWERS          compares answer lines with the expected
//! oracle cross SEED COUNT              plans random jobs by both methods
//! ```

mod cases;
mod checker;
mod classes;
mod gen;
mod job;
mod outlines;
mod pairs;
mod planner;
mod rng;
mod strips;
mod tables;
mod text;
mod topdown;

use std::error::Error;
use std::io::{self, BufWriter, Read, Write};
use std::process::ExitCode;
use std::{env, fs};

use cases::Case;
use job::Refusal;

/// "programs: input above 32,768 bytes" is refusal 11.
const MAX_INPUT: usize = 32_768;

/// "Each has an arena of 2,000 records [...] "plan" has a plan buffer for 600
/// placements."
const RECORDS: usize = 2_000;
const PLACEMENTS: u64 = 600;

fn main() -> ExitCode {
    let arguments: Vec<String> = env::args().skip(1).collect();
    match run(&arguments) {
        Ok(true) => ExitCode::SUCCESS,
        Ok(false) => ExitCode::from(1),
        Err(error) => {
            eprintln!("oracle: {error}");
            ExitCode::from(2)
        }
    }
}

/// Runs one subcommand; false means that a comparison found something wrong.
fn run(arguments: &[String]) -> Result<bool, Box<dyn Error>> {
    let words: Vec<&str> = arguments.iter().map(String::as_str).collect();
    let out = &mut BufWriter::new(io::stdout().lock());
    let agreed = match words.as_slice() {
        ["plan"] => plan_program(RECORDS, PLACEMENTS, out)?,
        ["plan", records] => plan_program(records.parse()?, PLACEMENTS, out)?,
        ["plan", records, placements] => plan_program(records.parse()?, placements.parse()?, out)?,
        ["check"] => check_program(out)?,
        ["gen", kind @ ("1" | "2" | "3" | "4" | "5" | "6" | "7"), seed, count] => {
            let mut generator = gen::Generator::new(kind.parse()?, seed.parse()?);
            for _ in 0..count.parse::<u64>()? {
                generator.case().write(out)?;
            }
            true
        }
        ["tables"] => write_rows(&tables::rows(), out)?,
        ["tables", "large"] => write_rows(&tables::large_rows(), out)?,
        ["tables", "strips"] => write_rows(&tables::strip_rows(), out)?,
        ["tables", "classes"] => write_rows(&tables::class_rows(), out)?,
        ["classes", cases] => {
            let census = classes::Census::of(&Case::read_all(&fs::read(cases)?)?);
            writeln!(out, "{}", census.line())?;
            true
        }
        ["answers", cases] => {
            for case in Case::read_all(&fs::read(cases)?)? {
                writeln!(out, "{}", cases::answer(&case)?)?;
            }
            true
        }
        ["verify", cases, answers] => {
            let cases = Case::read_all(&fs::read(cases)?)?;
            cases::verify(&cases, &String::from_utf8_lossy(&fs::read(answers)?), out)?
        }
        ["cross", seed, count] => cross(seed.parse()?, count.parse()?, out)?,
        _ => return Err("plan | check | gen | tables | classes | answers | verify | cross".into()),
    };
    out.flush()?;
    Ok(agreed)
}

fn write_rows(rows: &[tables::Row], out: &mut impl Write) -> io::Result<bool> {
    rows.iter().try_for_each(|row| row.case.write(out))?;
    Ok(true)
}

/// Standard input, unless it is above 32,768 bytes.
fn input() -> io::Result<Result<Vec<u8>, Refusal>> {
    let mut bytes = Vec::new();
    io::stdin()
        .lock()
        .take(MAX_INPUT as u64 + 1)
        .read_to_end(&mut bytes)?;
    Ok(match bytes.len() {
        0..=MAX_INPUT => Ok(bytes),
        _ => Err(Refusal::InputTooLong),
    })
}

/// ""plan" reads a job text and prints one line: number, place, profit, length,
/// width, pieces, N. On number 0 a placement section follows."
fn plan_program(records: usize, placements: u64, out: &mut impl Write) -> io::Result<bool> {
    let answer = input()?
        .and_then(|text| text::read_job(&text))
        .and_then(|job| planner::plan(&job, records, placements));
    let fields = cases::plan_fields(answer.as_ref().map_err(|&refusal| refusal));
    writeln!(out, "{}", cases::line(&fields))?;
    if let Ok(plan) = answer {
        writeln!(out, "{}", plan.placements.len())?;
        for p in plan.placements {
            writeln!(out, "{} {} {}", p.kind, p.x, p.y)?;
        }
    }
    Ok(true)
}

/// ""check" reads a plan text and prints: number, place, profit, pieces."
fn check_program(out: &mut impl Write) -> io::Result<bool> {
    let answer = input()?
        .and_then(|text| text::read_plan(&text))
        .and_then(|(job, list)| Ok((checker::check(&job, &list)?, list.len() as u64)));
    writeln!(out, "{}", cases::line(&cases::check_fields(answer)))?;
    Ok(true)
}

/// Plans random small jobs by splitting count vectors and by cutting the sheet.
fn cross(seed: u64, count: u64, out: &mut impl Write) -> io::Result<bool> {
    let mut wrong = 0;
    for job in gen::small_jobs(seed).take(count as usize) {
        let outlines = outlines::Outlines::within(&job, usize::MAX).expect("room for all");
        let built = outlines.best().map_or(0, |best| best.profit);
        let cut = topdown::optimum(&job);
        if built != cut {
            wrong += 1;
            writeln!(out, "{built} by builds, {cut} by cuts: {job:?}")?;
        }
    }
    writeln!(out, "{count} jobs, {wrong} wrong")?;
    Ok(wrong == 0)
}

#[cfg(test)]
mod tests;
