//! The programs "plan" and "batch" beside plain Rust programs that do the same, as processes from start to end. That both print the same is asserted.
//!
//! programs FOLDER: FOLDER is where the Rust programs are.
use std::fs::File;
use std::path::Path;
use std::process::{Command, Stdio};
use std::time::Instant;

const TURNS: usize = 21;

struct Program {
    words: Vec<String>,
}

impl Program {
    fn command(&self, input: &Path) -> Command {
        let mut command = Command::new(&self.words[0]);
        command.args(&self.words[1..]).stdin(File::open(input).expect("an input"));
        command
    }

    fn output(&self, input: &Path) -> String {
        let out = self.command(input).output().expect("a program");
        assert!(out.status.success(), "{:?}", self.words);
        String::from_utf8(out.stdout).unwrap()
    }

    /// Microseconds of one run: of the processor, and of the clock on the wall.
    fn time(&self, input: &Path) -> [f64; 2] {
        let (start, used) = (Instant::now(), measure::children());
        let status = self.command(input).stdout(Stdio::null()).status().expect("a program");
        assert!(status.success(), "{:?}", self.words);
        [measure::children() - used, start.elapsed().as_secs_f64() * 1e6]
    }
}

/// Medians of the programs' times on an input, by turns.
fn by_turns(programs: &[Program], input: &Path) -> Vec<[f64; 2]> {
    let mut times = vec![[vec![], vec![]]; programs.len()];
    for _ in 0..TURNS {
        for (p, times) in programs.iter().zip(times.iter_mut()) {
            let [used, waited] = p.time(input);
            times[0].push(used);
            times[1].push(waited);
        }
    }
    times.into_iter().map(|t| t.map(measure::median)).collect()
}

/// The first lines are equal and both plans have as many pieces of each type; whether they are the same to the byte.
fn agree(name: &str, ours: &str, theirs: &str) -> bool {
    let head = |s: &str| s.lines().next().map(String::from);
    let types = |s: &str| {
        let mut types: Vec<String> = s.lines().skip(2).map(|l| l.split(' ').next().unwrap().to_string()).collect();
        types.sort();
        types
    };
    assert_eq!((head(ours), types(ours)), (head(theirs), types(theirs)), "{name}");
    ours == theirs
}

/// A job's row; the bar is how many times the time in Rust the program may take.
fn plan(programs: &[Program], name: &str, job: &Path, bar: Option<f64>) {
    let same = agree(name, &programs[0].output(job), &programs[1].output(job));
    let t = by_turns(programs, job);
    for (clock, what) in ["processor", "wall clock"].iter().enumerate() {
        let ratio = t[0][clock] / t[1][clock];
        let held = bar.map_or("-".to_string(), |bar| format!("at most {bar:.1}: {}", if ratio <= bar { "held" } else { "missed" }));
        println!("| {name} | {what} | {:.2} | {:.2} | {ratio:.2} | {} | {held} |", t[0][clock] / 1e3, t[1][clock] / 1e3, if same { "yes" } else { "no" });
    }
}

/// Cases that are refused at their first byte: all that is left to do is to print the answer and so many numbers of the buffer.
fn cases(folder: &Path, count: usize, numbers: usize) -> std::path::PathBuf {
    let path = folder.join(format!("{count}-of-{numbers}.cases"));
    std::fs::write(&path, format!("1 0 0 {numbers} 0\n").repeat(count)).unwrap();
    path
}

/// Microseconds of processor time for each case more.
fn each_case(programs: &[Program], folder: &Path, numbers: usize) -> Vec<f64> {
    let (few, many) = (10, 2_010);
    let input = cases(folder, few, numbers);
    let ours = programs[0].output(&input);
    assert_eq!(ours.split_whitespace().count(), few * (8 + numbers));
    for p in programs {
        assert_eq!(p.output(&input), ours, "{:?}", p.words);
    }
    let less = by_turns(programs, &input);
    let more = by_turns(programs, &cases(folder, many, numbers));
    less.iter().zip(&more).map(|(l, m)| (m[0] - l[0]) / (many - few) as f64).collect()
}

fn writing(programs: &[Program], folder: &Path) {
    let rows = [("an answer of 8 numbers", each_case(programs, folder, 0)), ("an answer and a plan buffer of 1,800 numbers", each_case(programs, folder, 1_800))];
    let difference = rows[0].1.iter().zip(&rows[1].1).map(|(a, b)| b - a).collect();
    for (name, t) in rows.into_iter().chain([("the difference: 1,800 numbers", difference)]) {
        println!("| {name} | {:.1} | {:.1} | {:.2} | {:.1} | {:.2} |", t[0], t[1], t[0] / t[1], t[2], t[0] / t[2]);
    }
}

fn main() {
    let folder = std::env::args().nth(1).expect("a folder");
    let folder = Path::new(&folder);
    let program = |words: &str| Program { words: words.split(' ').map(String::from).collect() };
    let beside = |words: &str| program(&format!("{}/{words}", folder.display()));
    println!("## The program plan\n\n| job | time | plan, ms | in Rust, ms | ratio | same plan | bar |\n|---|---|---|---|---|---|---|");
    let plans = [program("crates/program_plan/out/program_plan"), beside("plan_program")];
    plan(&plans, "strip with 2,000 outlines", Path::new("tests/texts/planner-outlines-2000.job"), Some(2.0));
    plan(&plans, "job with 5 outlines: start and end", Path::new("examples/sample.job"), None);
    println!("\n## Writing\n\n| a line of | batch, us | Rust, the same method, us | ratio | Rust's own formatting, us | ratio |\n|---|---|---|---|---|---|");
    writing(&[program("crates/batch/out/batch"), beside("batch_program"), beside("batch_program formatted")], folder);
}
