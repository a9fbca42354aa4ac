//! The library's planner beside plain Rust: class by class, the fastest that we know, and joining all pairs. Milliseconds of processor time, and ratios.
//! That all find the same number of outlines and the same best one is asserted on each job, and that the checker accepts each plan.
//!
//! planner FOLDER [--no-all-pairs]: FOLDER has the published jobs.
//!   --no-all-pairs   leaves out joining all pairs in Rust
//! Built with `--cfg before` there is an older library beside this one (bench/run planner --before).
use jobs::Job;
use measure::{by_turns, Taken};
use peers::peer;
use peers::planner_peer::{self, Answer, Record, RECORDS_MOST, RECORD_BYTES};

/// A run that takes longer has one turn.
const PATIENCE: f64 = 1e6;

#[derive(Clone, Copy, PartialEq)]
enum By {
    Library,
    Classes,
    AllPairs,
    #[cfg(before)]
    Before,
}

/// A planner with what is lent to it, and what it answered last.
struct Planner {
    by: By,
    bytes: Vec<u8>,
    records: Vec<Record>,
    buffer: Vec<u64>,
    answer: Answer,
}

impl Planner {
    fn new(by: By) -> Planner {
        let in_rust = matches!(by, By::Classes | By::AllPairs);
        let (bytes, records) = if in_rust { (0, RECORDS_MOST) } else { (RECORDS_MOST * RECORD_BYTES, 0) };
        Planner { by, bytes: vec![0; bytes], records: vec![Record::default(); records], buffer: vec![0; varandeco::PLAN_NUMBERS], answer: [0; 7] }
    }

    fn plan(&mut self, job: &Job) {
        self.answer = match self.by {
            By::Library => self.by_library(job),
            By::Classes => self.by_peer(job, planner_peer::class_by_class),
            By::AllPairs => self.by_peer(job, planner_peer::all_pairs),
            #[cfg(before)]
            By::Before => self.by_library_before(job),
        }
    }

    fn by_library(&mut self, job: &Job) -> Answer {
        match varandeco::plan_text(job.text.as_bytes(), &mut self.bytes, &mut self.buffer) {
            Ok(p) => [0, 0, p.profit, p.length, p.width, p.pieces, p.outlines],
            Err(r) => [r.number, r.place, 0, 0, 0, 0, 0],
        }
    }

    #[cfg(before)]
    fn by_library_before(&mut self, job: &Job) -> Answer {
        extern "C" {
            fn varandeco_plan_text_before(text: *const u8, text_length: usize, arena: *mut u8, arena_length: usize, plan: *mut u64, plan_length: usize, answer: *mut u64, answer_length: usize) -> u64;
        }
        let (text, arena, plan, mut answer) = (job.text.as_bytes(), &mut self.bytes, &mut self.buffer, [0; 7]);
        // SAFETY: as in the crate varandeco, four slices of which those that are written overlap no other.
        unsafe {
            varandeco_plan_text_before(text.as_ptr(), text.len(), arena.as_mut_ptr(), arena.len(), plan.as_mut_ptr(), plan.len(), answer.as_mut_ptr(), answer.len());
        }
        answer
    }

    fn by_peer(&mut self, job: &Job, method: planner_peer::Method) -> Answer {
        planner_peer::plan(peer::job_of_text(job.text.as_bytes()), &mut self.records, &mut self.buffer, method)
    }

    /// How many pieces of each type the plan has; the checker accepts it with the profit of the answer.
    fn counts(&self, job: &Job) -> Vec<usize> {
        let list = &self.buffer[..3 * self.answer[5] as usize];
        if self.answer[0] == 0 {
            let accepted = varandeco::check_numbers(&job.numbers(), list).expect(&job.name);
            assert_eq!((accepted.profit, accepted.pieces), (self.answer[2], self.answer[5]), "{}", job.name);
        }
        (1..=peer::TYPES as u64).map(|t| list.chunks_exact(3).filter(|p| p[0] == t).count()).collect()
    }
}

/// What was found on a job.
struct Found {
    answer: Answer,
    times: Vec<(By, Taken)>,
}

impl Found {
    fn time(&self, by: By) -> Option<&Taken> {
        self.times.iter().find(|(b, _)| *b == by).map(|(_, t)| t)
    }

    fn ratio(&self, a: By, b: By) -> Option<f64> {
        Some(self.time(a)?.ratio(self.time(b)?))
    }

    fn outlines(&self) -> String {
        if self.answer[0] == 0 { self.answer[6].to_string() } else { format!("refusal {}", self.answer[0]) }
    }

    fn milliseconds(&self, by: By) -> String {
        told(self.time(by).map(|t| format!("{:.2}{}", t.median() / 1e3, if t.once() { " (once)" } else { "" })))
    }
}

fn told(cell: Option<String>) -> String {
    cell.unwrap_or("-".to_string())
}

fn told_ratio(ratio: Option<f64>) -> String {
    told(ratio.map(|r| format!("{r:.2}")))
}

/// All planners on a job, by turns.
fn measure_job(job: &Job, planners: &mut [Planner]) -> Found {
    let mut runs: Vec<_> = planners.iter_mut().map(|p| (PATIENCE, || p.plan(job))).collect();
    let taken = by_turns(&mut runs);
    let first = &planners[0];
    for p in planners.iter() {
        assert_eq!((p.answer, p.counts(job)), (first.answer, first.counts(job)), "{}", job.name);
    }
    Found { answer: first.answer, times: planners.iter().map(|p| p.by).zip(taken).collect() }
}

/// How many times the time of Rust joining all pairs the library may take on any job.
const ALL_PAIRS_BAR: f64 = 1.1;

/// How many bars were held, and how many missed.
#[derive(Default)]
struct Tally {
    held: usize,
    missed: usize,
}

impl Tally {
    fn told(&mut self, what: &str, ratio: f64, bar: f64) -> String {
        let held = ratio <= bar;
        if held {
            self.held += 1;
        } else {
            self.missed += 1;
        }
        format!("{what} at most {bar:.1}: {}", if held { "held" } else { "missed" })
    }
}

struct Bench {
    planners: Vec<Planner>,
    tally: Tally,
}

impl Bench {
    /// The bar is how many times the time of Rust class by class the library may take.
    fn table(&mut self, name: &str, jobs: &[Job], bar: f64) {
        println!("\n### {name}\n");
        let (mut names, mut line) = ("| job | N | library, ms | Rust class by class, ms | ratio | Rust all pairs, ms | ratio | bars |".to_string(), "|---|---|---|---|---|---|---|---|".to_string());
        if cfg!(before) {
            names.push_str(" library before, ms | times faster |");
            line.push_str("---|---|");
        }
        println!("{names}\n{line}");
        for job in jobs {
            let f = measure_job(job, &mut self.planners);
            println!("| {} | {} | {} |", job.name, f.outlines(), self.cells(&f, bar).join(" | "));
        }
    }

    fn cells(&mut self, f: &Found, bar: f64) -> Vec<String> {
        let ratios = [By::Classes, By::AllPairs].map(|by| f.ratio(By::Library, by));
        let bars = ratios.into_iter().zip([("class by class", bar), ("all pairs", ALL_PAIRS_BAR)]);
        let bars: Vec<_> = bars.filter_map(|(ratio, (what, bar))| ratio.map(|r| self.tally.told(what, r, bar))).collect();
        let mut cells = vec![f.milliseconds(By::Library)];
        for (by, ratio) in [By::Classes, By::AllPairs].into_iter().zip(ratios) {
            cells.extend([f.milliseconds(by), told_ratio(ratio)]);
        }
        cells.push(bars.join("; "));
        #[cfg(before)]
        cells.extend([f.milliseconds(By::Before), told_ratio(f.ratio(By::Before, By::Library))]);
        cells
    }

    /// Jobs that have more and more outlines; behind a time stands the power of N by which it grew, and in the last line the power from the first to the last.
    fn growth(&mut self, name: &str, jobs: &[Job]) {
        println!("\n### {name}\n\n| job | N | library, ms | power of N | Rust class by class, ms | power of N | ratio |\n|---|---|---|---|---|---|---|");
        let mut found: Vec<Found> = vec![];
        for job in jobs {
            let f = measure_job(job, &mut self.planners[..LIBRARY_AND_CLASSES]);
            let cell = |by: By| format!("{} | {}", f.milliseconds(by), told(found.last().and_then(|b| power(by, b, &f))));
            println!("| {} | {} | {} | {} | {} |", job.name, f.outlines(), cell(By::Library), cell(By::Classes), told_ratio(f.ratio(By::Library, By::Classes)));
            found.push(f);
        }
        let whole = |by: By| told(found.iter().rev().find_map(|last| power(by, &found[0], last)));
        println!("| all of them | | | {} | | {} | |", whole(By::Library), whole(By::Classes));
    }
}

/// The power of N by which a planner's time grew from one job to another.
fn power(by: By, from: &Found, to: &Found) -> Option<String> {
    let time = to.time(by)?.median() / from.time(by)?.median();
    Some(format!("{:.1}", time.ln() / (to.answer[6] as f64 / from.answer[6] as f64).ln()))
}

/// These planners come first.
const LIBRARY_AND_CLASSES: usize = 2;

fn main() {
    let words: Vec<String> = std::env::args().skip(1).collect();
    let folder = words.first().expect("the folder of the published jobs");
    let mut planners = vec![Planner::new(By::Library), Planner::new(By::Classes)];
    if !words.iter().any(|w| w == "--no-all-pairs") {
        planners.push(Planner::new(By::AllPairs));
    }
    #[cfg(before)]
    planners.push(Planner::new(By::Before));
    let mut bench = Bench { planners, tally: Tally::default() };
    println!("## Planning");
    bench.table("Published jobs", &jobs::published(folder), 2.0);
    bench.table("Large classes", &jobs::large_classes(), 1.5);
    bench.table("Kitchens", &jobs::kitchens(), 1.5);
    bench.table("Strips", &jobs::strips(), 1.5);
    println!("\n## How the time grows with N");
    for (name, jobs) in jobs::growing(folder) {
        bench.growth(name, &jobs);
    }
    println!("\nBars: {} held, {} missed.", bench.tally.held, bench.tally.missed);
}
