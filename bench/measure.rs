//! How times are taken: processor time, medians, and runs that take turns, so that whatever else the machine does meets all of them alike.

#[repr(C)]
struct Clock {
    seconds: i64,
    nanoseconds: i64,
}

/// Of what a system tells of processes: their processor time as user and as system, in seconds and microseconds, and fourteen other numbers.
#[repr(C)]
struct Usage {
    times: [[i64; 2]; 2],
    others: [i64; 14],
}

extern "C" {
    fn clock_gettime(clock: i32, now: *mut Clock) -> i32;
    fn getrusage(who: i32, usage: *mut Usage) -> i32;
}

/// The processor time of this process, in microseconds: other programs on the machine count for less than on a wall clock.
pub fn now() -> f64 {
    let mut t = Clock { seconds: 0, nanoseconds: 0 };
    unsafe { clock_gettime(2, &mut t) };
    t.seconds as f64 * 1e6 + t.nanoseconds as f64 * 1e-3
}

/// The processor time of all programs that this process started and that have ended, in microseconds.
pub fn children() -> f64 {
    let mut u = Usage { times: [[0; 2]; 2], others: [0; 14] };
    unsafe { getrusage(-1, &mut u) };
    u.times.iter().map(|[seconds, microseconds]| *seconds as f64 * 1e6 + *microseconds as f64).sum()
}

pub fn median(mut v: Vec<f64>) -> f64 {
    v.sort_by(|a, b| a.partial_cmp(b).unwrap());
    v[v.len() / 2]
}

/// Turns of each run.
const TURNS: usize = 5;

/// What a turn lasts at least: shorter runs are repeated, and the turn's time is their mean.
const TURN: f64 = 20_000.0;

/// The microseconds of one run, as the mean of a turn.
fn turn(run: &mut impl FnMut()) -> f64 {
    let (start, mut repeats) = (now(), 0);
    while now() - start < TURN {
        run();
        repeats += 1;
    }
    (now() - start) / repeats as f64
}

/// The microseconds of each turn of a run.
pub struct Taken {
    times: Vec<f64>,
}

impl Taken {
    pub fn median(&self) -> f64 {
        median(self.times.clone())
    }

    pub fn once(&self) -> bool {
        self.times.len() == 1
    }

    /// The median of the ratios that the turns had.
    pub fn ratio(&self, to: &Taken) -> f64 {
        if self.times.len() == to.times.len() {
            median(self.times.iter().zip(&to.times).map(|(a, b)| a / b).collect())
        } else {
            self.median() / to.median()
        }
    }
}

/// Runs take turns, five each; but one that takes longer than the patience with it, in microseconds, has a single turn.
pub fn by_turns<F: FnMut()>(runs: &mut [(f64, F)]) -> Vec<Taken> {
    let mut taken: Vec<_> = runs.iter().map(|_| Taken { times: vec![] }).collect();
    for _ in 0..TURNS {
        for ((patience, run), taken) in runs.iter_mut().zip(&mut taken) {
            if taken.times.iter().all(|t| *t < *patience) {
                taken.times.push(turn(run));
            }
        }
    }
    taken
}

/// Five turns of each.
pub fn side_by_side(runs: &mut [&mut dyn FnMut()]) -> Vec<Taken> {
    let mut runs: Vec<_> = runs.iter_mut().map(|run| (f64::INFINITY, run)).collect();
    by_turns(&mut runs)
}

/// A value of which the compiler knows nothing. (std::hint::black_box is younger than the oldest Rust that this is built by.)
pub fn black_box<T: Copy>(value: T) -> T {
    unsafe { std::ptr::read_volatile(&value) }
}

/// An answer that nobody needs, but that the compiler must not leave out.
pub fn black_box_only<T: Copy>(answer: T) {
    black_box(answer);
}
