//! Searches for the jobs that take the library longest, with an arena of 65,535 records and with one of 2,000. First come the jobs that the planner is measured on and jobs drawn at random:
//! few types, sizes of 1 and others, sheets that are thin or square. Then the slowest ten climb: a number of one is changed, and stays changed if that takes longer.
//! The drawing is seeded; what is kept hangs on times.
//!
//! worst FOLDER [SECONDS]: FOLDER has the published jobs; SECONDS is how long each search lasts.
use jobs::Job;
use measure::{by_turns, now};
use varandeco::RECORD_BYTES;

const SECONDS: f64 = 60.0;

/// How many jobs climb, and are told.
const KEPT: usize = 10;

/// The part of the time in which jobs are drawn.
const DRAWING: f64 = 0.3;

/// Microseconds that are soon spent again.
const SHORT: f64 = 1e5;

/// A change has to take so many times as long to stay: less may be chance.
const GAIN: f64 = 1.02;

const SIDE: u64 = 5_000;
const KERF: u64 = 20;
const DEMAND: u64 = 50;
const TYPES: u64 = 4;

/// Xorshift.
struct Dice(u64);

impl Dice {
    fn below(&mut self, n: u64) -> u64 {
        self.0 ^= self.0 << 13;
        self.0 ^= self.0 >> 7;
        self.0 ^= self.0 << 17;
        (self.0 >> 16) % n
    }

    fn among(&mut self, least: u64, most: u64) -> u64 {
        least + self.below(most - least + 1)
    }

    /// Small numbers as often as large ones.
    fn size(&mut self, most: u64) -> u64 {
        let magnitude = [1, 10, 100, most][self.below(4) as usize];
        self.among(1, magnitude.min(most))
    }
}

/// L, W, k and then l, w, b of each type. The profit is 1: the time does not hang on it.
type Numbers = Vec<u64>;

fn numbers_of(job: &Job) -> Numbers {
    let numbers = job.numbers();
    let types = numbers[4..].chunks_exact(4).flat_map(|t| [t[0], t[1], t[3]]);
    numbers[..3].iter().copied().chain(types).collect()
}

fn job_of(numbers: &[u64]) -> Job {
    let types: Vec<_> = numbers[3..].chunks_exact(3).map(|t| [t[0], t[1], 1, t[2]]).collect();
    Job::plain([numbers[0], numbers[1], numbers[2]], &types)
}

/// Draws one of a job's numbers. Every other size of a piece is so that some fit on the sheet, whose sides stand before it.
fn drawn_number(dice: &mut Dice, before: &[u64], at: usize) -> u64 {
    match (at, at % 3) {
        (0 | 1, _) => [SIDE, dice.size(SIDE)][dice.below(2) as usize],
        (2, _) => [0, dice.among(0, KERF)][dice.below(2) as usize],
        (_, 2) => [DEMAND, dice.among(1, DEMAND)][dice.below(2) as usize],
        (_, way) => {
            let most = [(before[way] / 4).max(1), SIDE / 4][dice.below(2) as usize];
            dice.size(most)
        }
    }
}

fn add_type(dice: &mut Dice, numbers: &mut Numbers) {
    for at in 3..6 {
        numbers.push(drawn_number(dice, numbers, at));
    }
}

fn drawn_job(dice: &mut Dice) -> Numbers {
    let mut numbers: Numbers = (0..3).map(|at| drawn_number(dice, &[], at)).collect();
    for _ in 0..dice.among(1, TYPES) {
        add_type(dice, &mut numbers);
    }
    numbers
}

/// One number is drawn anew or moves to a neighbour; or a type comes or goes.
fn changed(dice: &mut Dice, numbers: &Numbers) -> Numbers {
    let mut changed = numbers.clone();
    let types = (numbers.len() as u64 - 3) / 3;
    match dice.below(10) {
        0 if types < TYPES => add_type(dice, &mut changed),
        1 if types > 1 => changed.truncate(numbers.len() - 3),
        other => {
            let at = dice.below(numbers.len() as u64) as usize;
            let [least, most] = match (at, at % 3) {
                (2, _) => [0, KERF],
                (3.., 2) => [1, DEMAND],
                _ => [1, SIDE],
            };
            changed[at] = match other {
                2 | 3 => (numbers[at] + 1).min(most),
                4 | 5 => numbers[at].saturating_sub(1).max(least),
                _ => drawn_number(dice, numbers, at),
            };
        }
    }
    changed
}

struct Library {
    arena: Vec<u8>,
    buffer: Vec<u64>,
}

impl Library {
    fn plan(&mut self, job: &Job) -> Result<varandeco::Plan, varandeco::Refusal> {
        varandeco::plan_text(job.text.as_bytes(), &mut self.arena, &mut self.buffer)
    }

    /// Microseconds of one run; of a short one, the shorter of two.
    fn time(&mut self, numbers: &[u64]) -> f64 {
        let job = job_of(numbers);
        let mut run = || {
            let start = now();
            let _ = self.plan(&job);
            now() - start
        };
        let time = run();
        if time < SHORT { time.min(run()) } else { time }
    }

    fn median(&mut self, job: &Job) -> f64 {
        let mut run = || {
            let _ = self.plan(job);
        };
        by_turns(&mut [(1e6, &mut run)])[0].median()
    }
}

struct Slow {
    numbers: Numbers,
    time: f64,
}

/// Keeps the slowest, the slowest first.
fn keep(kept: &mut Vec<Slow>, new: Slow) {
    let at = kept.partition_point(|slow| slow.time >= new.time);
    kept.insert(at, new);
    kept.truncate(KEPT);
}

/// The slowest that are found from these jobs and drawn ones.
fn search(library: &mut Library, known: &[Numbers], seconds: f64) -> Vec<Slow> {
    let mut dice = Dice(0x2545_F491_4F6C_DD1D);
    let mut kept = vec![];
    for numbers in known {
        let time = library.time(numbers);
        keep(&mut kept, Slow { numbers: numbers.clone(), time });
    }
    let start = now();
    let spent = || (now() - start) / 1e6 / seconds;
    while spent() < DRAWING {
        let numbers = drawn_job(&mut dice);
        let time = library.time(&numbers);
        keep(&mut kept, Slow { numbers, time });
    }
    while spent() < 1.0 {
        for slow in &mut kept {
            let numbers = changed(&mut dice, &slow.numbers);
            let time = library.time(&numbers);
            if time > GAIN * slow.time {
                *slow = Slow { numbers, time };
            }
        }
    }
    kept
}

fn table(records: usize, plain: &Job, known: &[Numbers], seconds: f64) {
    let mut library = Library { arena: vec![0; records * RECORD_BYTES], buffer: vec![0; varandeco::PLAN_NUMBERS] };
    let mut slowest: Vec<_> = search(&mut library, known, seconds).iter().map(|slow| job_of(&slow.numbers)).map(|job| (library.median(&job), job)).collect();
    slowest.sort_by(|a, b| b.0.total_cmp(&a.0));
    slowest.dedup_by(|a, b| a.1.text == b.1.text);
    let plain_time = library.median(plain);
    println!("\n### With {records} records\n\n| job (L W k; l w p b of each type) | N | library, ms | times {} |\n|---|---|---|---|", plain.name);
    for (time, job) in &slowest {
        let outlines = library.plan(job).map_or_else(|refusal| format!("refusal {}", refusal.number), |plan| plan.outlines.to_string());
        println!("| {} | {outlines} | {:.2} | {:.1} |", job.name, time / 1e3, time / plain_time);
    }
    println!("\n{} takes {:.2} ms.", plain.name, plain_time / 1e3);
}

fn main() {
    let words: Vec<String> = std::env::args().skip(1).collect();
    let folder = words.first().expect("the folder of the published jobs");
    let seconds = words.get(1).map_or(SECONDS, |seconds| seconds.parse().expect("seconds"));
    let known: Vec<_> = [jobs::published(folder), jobs::large_classes(), jobs::kitchens(), jobs::strips()].iter().flatten().map(numbers_of).collect();
    println!("## The slowest jobs");
    table(65_535, &jobs::of1(folder), &known, seconds);
    table(2_000, &jobs::strip_of_2000(), &known, seconds);
}
