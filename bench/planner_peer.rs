//! The planner in plain Rust, by two methods that list all outlines of a job: class by class (classes_peer), the fastest that we know, which the library is measured by; and by
//! joining all pairs of records, which is as simple as it gets. Then the best outline is unfolded and put in order.
pub use crate::classes_peer::class_by_class;
use crate::peer::{Job, Piece, TYPES};

/// number, place, profit, length, width, pieces, N
pub type Answer = [u64; 7];

/// The counts of all types, a byte each. They stay below 128: the top bit of each byte is free.
#[derive(Clone, Copy, Default, PartialEq, Eq)]
pub struct Counts(pub u64, pub u64);

const TOP: u64 = 0x8080_8080_8080_8080;

impl Counts {
    pub fn one_of(t: usize) -> Counts {
        if t < 8 {
            Counts(1 << (8 * t), 0)
        } else {
            Counts(0, 1 << (8 * (t - 8)))
        }
    }

    pub fn of(self, t: usize) -> u64 {
        (if t < 8 { self.0 >> (8 * t) } else { self.1 >> (8 * (t - 8)) }) & 255
    }

    /// So many pieces of each that there is one of here.
    pub fn times(self, n: u64) -> Counts {
        Counts(self.0 * n, self.1 * n)
    }

    pub fn plus(self, c: Counts) -> Counts {
        Counts(self.0 + c.0, self.1 + c.1)
    }

    pub fn less(self, c: Counts) -> Counts {
        Counts(self.0 - c.0, self.1 - c.1)
    }

    /// No count is above that of `c`: the top bit that is set for each byte of `c` is borrowed by none.
    pub fn within(self, c: Counts) -> bool {
        ((c.0 | TOP) - self.0) & ((c.1 | TOP) - self.1) & TOP == TOP
    }

    pub fn pieces(self) -> u64 {
        (0..TYPES).map(|t| self.of(t)).sum()
    }

    /// Numbers that are in the counts' lexicographic order, type 1 first.
    pub fn order(self) -> (u64, u64) {
        (self.0.swap_bytes(), self.1.swap_bytes())
    }

    pub fn mixed(self) -> u64 {
        self.0.wrapping_mul(0x9E37_79B9_7F4A_7C15) ^ self.1.wrapping_mul(0xC2B2_AE3D_27D4_EB4F)
    }
}

/// Along, across.
pub type Size = [u16; 2];

const SINGLE: u8 = 0;

/// How a record that is joined along (0) or across (1) was made.
fn joined(way: usize) -> u8 {
    1 + way as u8
}

/// An outline and how it was made, as large as the library's records.
#[derive(Clone, Copy, Default)]
#[repr(align(32))]
pub struct Record {
    counts: u64,
    more_counts: u32,
    size: Size,
    /// The two records that were joined; or the type of a single piece, from 0.
    halves: [u16; 2],
    how: u8,
}

impl Record {
    fn new(counts: Counts, size: Size, how: u8, halves: [u16; 2]) -> Record {
        Record { counts: counts.0, more_counts: counts.1 as u32, size, how, halves }
    }

    fn counts(&self) -> Counts {
        Counts(self.counts, self.more_counts as u64)
    }
}

/// The bytes of a record, and the most records that are used.
pub const RECORD_BYTES: usize = std::mem::size_of::<Record>();
pub const RECORDS_MOST: usize = 65_535;
const _: () = assert!(RECORD_BYTES == 32);

/// There are more outlines than records.
pub struct Full;

fn grown(job: &Job, p: &Piece) -> [u64; 2] {
    [p.length + job.kerf, p.width + job.kerf]
}

/// The pieces that fit the sheet alone: type, from 0, and grown size.
pub fn singles(job: &Job) -> impl Iterator<Item = (usize, Size)> + '_ {
    let sides = sides(job);
    let grown = job.types[..job.count as usize].iter().map(move |p| grown(job, p).map(|s| s as u16)).enumerate();
    grown.filter(move |(_, size)| size[0] <= sides[0] && size[1] <= sides[1])
}

pub fn sides(job: &Job) -> Size {
    [job.length as u16, job.width as u16]
}

pub fn demands(job: &Job) -> Counts {
    (0..job.count as usize).fold(Counts::default(), |c, t| c.plus(Counts::one_of(t).times(job.types[t].demand)))
}

/// The size of a join: the sum in its way, the larger in the other.
pub fn join(a: Size, b: Size, way: usize) -> Size {
    let mut size = [a[0].max(b[0]), a[1].max(b[1])];
    size[way] = a[way] + b[way];
    size
}

/// The records so far, and a table of their places plus 1, by counts and size.
struct Hashed<'a> {
    records: &'a mut [Record],
    n: usize,
    table: Vec<u16>,
}

impl Hashed<'_> {
    fn add(&mut self, new: Record) -> Result<(), Full> {
        let size = (new.size[0] as u64) << 16 | new.size[1] as u64;
        let mut h = (new.counts().mixed() ^ size.wrapping_mul(0x1656_67B1_9E37_79F9)) as usize >> 46;
        while self.table[h] != 0 {
            let r = &self.records[self.table[h] as usize - 1];
            if r.counts() == new.counts() && r.size == new.size {
                return Ok(());
            }
            h = (h + 1) % self.table.len();
        }
        *self.records.get_mut(self.n).ok_or(Full)? = new;
        self.n += 1;
        self.table[h] = self.n as u16;
        Ok(())
    }
}

/// Lists all outlines of a job that is in range by joining each record with all up to itself, both ways: how many.
fn list_all_pairs(job: &Job, records: &mut [Record]) -> Result<usize, Full> {
    let mut l = Hashed { records, n: 0, table: vec![0; 1 << 18] };
    for (t, size) in singles(job) {
        l.add(Record::new(Counts::one_of(t), size, SINGLE, [t as u16, 0]))?;
    }
    let (sides, demands) = (sides(job), demands(job));
    let mut i = 0;
    while i < l.n {
        let a = l.records[i];
        let room = demands.less(a.counts());
        for k in 0..=i {
            let b = l.records[k];
            if b.counts().within(room) {
                for way in 0..2 {
                    if a.size[way] + b.size[way] <= sides[way] {
                        l.add(Record::new(a.counts().plus(b.counts()), join(a.size, b.size, way), joined(way), [i as u16, k as u16]))?;
                    }
                }
            }
        }
        i += 1;
    }
    Ok(l.n)
}

pub fn profit(job: &Job, counts: Counts) -> u64 {
    job.types[..job.count as usize].iter().enumerate().map(|(t, p)| counts.of(t) * p.profit).sum()
}

/// The record of the greatest profit; among those of the least length, then width, then of the counts that come first.
fn best(job: &Job, records: &[Record]) -> usize {
    let rank = |r: &Record| (profit(job, r.counts()), std::cmp::Reverse((r.size, r.counts().order())));
    (0..records.len()).max_by_key(|&i| rank(&records[i])).unwrap()
}

/// Lays a record with its corner at a place into the front of the buffer: how many numbers its placements take up.
fn lay(records: &[Record], i: usize, corner: [u64; 2], buffer: &mut [u64]) -> usize {
    let r = &records[i];
    if r.how == SINGLE {
        buffer[..3].copy_from_slice(&[r.halves[0] as u64 + 1, corner[0], corner[1]]);
        return 3;
    }
    let way = r.how as usize - 1;
    let [first, second] = r.halves.map(|half| half as usize);
    let mut behind = corner;
    behind[way] += records[first].size[way] as u64;
    let n = lay(records, first, corner, buffer);
    n + lay(records, second, behind, &mut buffer[n..])
}

/// Puts placements in order of y, then x, by insertion.
pub fn order(list: &mut [u64]) {
    let key = |list: &[u64], i: usize| (list[3 * i + 2], list[3 * i + 1]);
    for i in 1..list.len() / 3 {
        let mut k = i;
        while 0 < k && key(list, k) < key(list, k - 1) {
            let (before, here) = list.split_at_mut(3 * k);
            before[3 * k - 3..].swap_with_slice(&mut here[..3]);
            k -= 1;
        }
    }
}

/// How a job is planned that is in range and has a piece that fits: in an arena that has so much room, with the plan in front of the buffer.
pub type Method = fn(&Job, &mut [Record], &mut [u64]) -> Answer;

pub fn refused(number: u64) -> Answer {
    [number, 0, 0, 0, 0, 0, 0]
}

/// All outlines are listed: the best one's plan, in front of the buffer.
fn plan_listed(job: &Job, records: &[Record], buffer: &mut [u64]) -> Answer {
    let top = best(job, records);
    let Record { size, .. } = records[top];
    let counts = records[top].counts();
    if buffer.len() as u64 / 3 < counts.pieces() {
        return refused(5);
    }
    let numbers = lay(records, top, [0, 0], buffer);
    order(&mut buffer[..numbers]);
    [0, 0, profit(job, counts), size[0] as u64, size[1] as u64, counts.pieces(), records.len() as u64]
}

/// Plans by joining all pairs.
pub fn all_pairs(job: &Job, arena: &mut [Record], buffer: &mut [u64]) -> Answer {
    match list_all_pairs(job, arena) {
        Err(Full) => refused(4),
        Ok(n) => plan_listed(job, &arena[..n], buffer),
    }
}

/// Plans a job that is in range. The arena comes back as the library's does: wiped, whatever the method does with it.
pub fn plan_job(job: &Job, arena: &mut [Record], buffer: &mut [u64], method: Method) -> Answer {
    if singles(job).next().is_none() {
        return refused(3);
    }
    let room = arena.len().min(RECORDS_MOST);
    let answer = method(job, &mut arena[..room], buffer);
    arena.fill(Record::default());
    answer
}

/// Plans a job, or says why its text or numbers are refused.
pub fn plan(job: Result<Job, [u64; 2]>, arena: &mut [Record], buffer: &mut [u64], method: Method) -> Answer {
    match job {
        Err([number, place]) => [number, place, 0, 0, 0, 0, 0],
        Ok(job) => plan_job(&job, arena, buffer, method),
    }
}
