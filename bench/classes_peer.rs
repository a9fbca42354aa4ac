//! The planner class by class, as fast as plain Rust with a heap does it: what the library is measured by.
//!
//! A class is all outlines with the same counts. Classes are listed in order of their pieces, and each with two pieces or more is made of pairs of classes that add up to it.
//!
//! - A build less any piece is a build. So counts are a class only if they are one with any piece less; and then each part of them is a class.
//! - Joins in one way may be taken in any order. So a first half is a single piece or ends in a join in the other way, and of all that are joined it may be
//!   the one that comes first by any measure that adds up: its pieces, or its place among the parts of the counts.
//! - Large classes are joined by words of bits (groups_peer), small ones outline by outline (orders_peer).
//! - How an outline was made is not kept: for the best one it is found out again.
use crate::groups_peer::Groups;
use crate::orders_peer::Orders;
use crate::peer::{Job, TYPES};
use crate::planner_peer::{order, profit, refused, sides, singles, Answer, Counts, Full, Record, Size};
use std::cmp::Reverse;
use std::ops::{Add, Sub};

/// How many pieces of a type there can be on the sheet.
fn most(job: &Job, t: usize, size: Size) -> u64 {
    let sides = sides(job);
    job.types[t].demand.min((sides[0] / size[0]) as u64 * (sides[1] / size[1]) as u64)
}

/// The sizes in one way that outlines can have, in order: a size is told by its rank.
pub struct Ranks {
    pub sizes: Vec<u16>,
    pub of: Vec<u16>,
}

impl Ranks {
    fn new(job: &Job, way: usize) -> Ranks {
        let side = sides(job)[way] as usize;
        let mut reached = vec![false; side + 1];
        reached[0] = true;
        for (t, size) in singles(job) {
            let step = size[way] as usize;
            // the fewest pieces of this type that a sum takes
            let mut pieces = vec![0; side + 1];
            for sum in step..=side {
                if !reached[sum] && reached[sum - step] && pieces[sum - step] < most(job, t, size) {
                    reached[sum] = true;
                    pieces[sum] = pieces[sum - step] + 1;
                }
            }
        }
        let sizes: Vec<u16> = (1..=side as u16).filter(|&sum| reached[sum as usize]).collect();
        let mut of = vec![0; side + 1];
        for (rank, &size) in sizes.iter().enumerate() {
            of[size as usize] = rank as u16;
        }
        Ranks { sizes, of }
    }
}

/// What a class has: how many outlines, their least size each way, and the least of those that may be first halves in it.
pub struct Closed {
    pub outlines: usize,
    pub least: Size,
    pub least_first: [Option<u16>; 2],
}

/// The outlines of all classes and of the one that grows.
pub trait Outlines {
    fn new(sides: Size, ranks: [Ranks; 2]) -> Self;
    /// The class that grows is a single piece.
    fn put(&mut self, piece: Size);
    /// Joins the first halves of class a with all of class b: the class that grows has what fits.
    fn join(&mut self, way: usize, a: usize, b: usize);
    /// What has grown is the next class, if there is anything.
    fn close(&mut self) -> Option<Closed>;
    /// The least length of a class, and its least width with that.
    fn least_of(&self, p: usize) -> Size;
    /// Two outlines of classes a and b whose join in a way has these sizes. All sizes are in the way, and in the other.
    fn halves_of(&self, sum_and_larger: Size, way: usize, a: usize, b: usize) -> Option<[Size; 2]>;
}

/// More than any sheet has room for.
const NEVER: u16 = 0x3FFF;

/// The least sizes of a class, along in the lower half and across in the upper: of what may be a first half, and of all. All of them 0 where there is no class.
#[derive(Clone, Copy, Default)]
struct Least {
    first: u32,
    all: u32,
}

fn packed(size: Size) -> u32 {
    size[0] as u32 | (size[1] as u32) << 16
}

/// Whether the least first half of a class fits along with the least of another, and whether it fits across.
fn fit(sides: Size, first: Least, rest: Least) -> [bool; 2] {
    let room = (packed(sides) | 0x8000_8000) - (first.first + rest.all);
    [room & 0x8000 != 0, room & 0x8000_0000 != 0]
}

/// A number for counts. Numbers add up as counts do, and different counts within the demands have different numbers.
trait Number: Copy + Default + Add<Output = Self> + Sub<Output = Self> + TryFrom<u128> {}

impl Number for u32 {}
impl Number for u128 {}

/// Classes by the numbers of their counts.
trait Table {
    type Number: Number;
    /// For so many numbers.
    fn new(numbers: u128) -> Self;
    fn least(&self, number: Self::Number) -> Least;
    fn place(&self, number: Self::Number) -> usize;
    fn enter(&mut self, number: Self::Number, least: Least, place: usize);
}

/// A row for each number.
struct Direct {
    leasts: Vec<[u32; 2]>,
    places: Vec<u16>,
}

/// The most numbers that have a row each: with more of them most rows would be empty.
const DIRECT_MOST: u128 = 1 << 20;

impl Table for Direct {
    type Number = u32;

    fn new(numbers: u128) -> Direct {
        Direct { leasts: vec![[0; 2]; numbers as usize], places: vec![0; numbers as usize] }
    }

    fn least(&self, number: u32) -> Least {
        let [first, all] = self.leasts[number as usize];
        Least { first, all }
    }

    fn place(&self, number: u32) -> usize {
        self.places[number as usize] as usize
    }

    fn enter(&mut self, number: u32, least: Least, place: usize) {
        self.leasts[number as usize] = [least.first, least.all];
        self.places[number as usize] = place as u16;
    }
}

#[derive(Clone, Copy, Default)]
struct Row {
    number: u128,
    least: Least,
    place: u16,
}

/// Rows by hashing, at most half of them taken.
struct Hashed {
    rows: Vec<Row>,
    taken: usize,
}

impl Hashed {
    fn row(&self, number: u128) -> usize {
        let mixed = (number as u64).wrapping_mul(0x9E37_79B9_7F4A_7C15) ^ ((number >> 64) as u64).wrapping_mul(0xC2B2_AE3D_27D4_EB4F);
        let mut h = (mixed >> 32) as usize & (self.rows.len() - 1);
        while self.rows[h].number != number && self.rows[h].number != 0 {
            h = (h + 1) & (self.rows.len() - 1);
        }
        h
    }

    fn widen(&mut self) {
        let wider = vec![Row::default(); 2 * self.rows.len()];
        for row in std::mem::replace(&mut self.rows, wider).into_iter().filter(|row| row.number != 0) {
            let h = self.row(row.number);
            self.rows[h] = row;
        }
    }
}

impl Table for Hashed {
    type Number = u128;

    fn new(_: u128) -> Hashed {
        Hashed { rows: vec![Row::default(); 1 << 10], taken: 0 }
    }

    fn least(&self, number: u128) -> Least {
        self.rows[self.row(number)].least
    }

    fn place(&self, number: u128) -> usize {
        self.rows[self.row(number)].place as usize
    }

    fn enter(&mut self, number: u128, least: Least, place: usize) {
        self.taken += 1;
        if 2 * self.taken > self.rows.len() {
            self.widen();
        }
        let h = self.row(number);
        self.rows[h] = Row { number, least, place: place as u16 };
    }
}

/// The first halves of pairs that fit, by way.
struct Pairs<N> {
    firsts: [Vec<N>; 2],
    ends: [usize; 2],
}

impl<N: Number> Pairs<N> {
    /// There will be so many at most.
    fn clear(&mut self, most: usize) {
        for firsts in self.firsts.iter_mut().filter(|firsts| firsts.len() <= most) {
            firsts.resize(most + 1, N::default());
        }
        self.ends = [0; 2];
    }

    /// Without a branch, since the processor could not foretell whether a pair fits.
    fn keep(&mut self, first: N, fit: [bool; 2]) {
        for way in 0..2 {
            self.firsts[way][self.ends[way]] = first;
            self.ends[way] += fit[way] as usize;
        }
    }
}

#[derive(Clone, Copy)]
struct Class<N> {
    counts: Counts,
    number: N,
}

struct Lister<T: Table, O: Outlines> {
    sides: Size,
    /// The least size of a piece, each way.
    least: Size,
    types: usize,
    demands: Counts,
    room: usize,
    /// The number of a single piece, by type.
    ones: [T::Number; TYPES],
    table: T,
    classes: Vec<Class<T::Number>>,
    outlines: O,
    n: usize,
    /// Classes that may be first halves, and how many of them have at most half of the pieces that classes now have.
    halves: Vec<Class<T::Number>>,
    half: usize,
    parts: Vec<T::Number>,
    pairs: Pairs<T::Number>,
}

impl<T: Table, O: Outlines> Lister<T, O> {
    fn new(job: &Job, room: usize, ranks: [Ranks; 2]) -> Self {
        let mut numbers = 1;
        let mut ones = [T::Number::default(); TYPES];
        let mut demands = Counts::default();
        for (t, size) in singles(job) {
            ones[t] = T::Number::try_from(numbers).ok().unwrap();
            demands = demands.plus(Counts::one_of(t).times(most(job, t, size)));
            numbers *= most(job, t, size) as u128 + 1;
        }
        Lister {
            sides: sides(job),
            least: [0, 1].map(|way| singles(job).map(|(_, size)| size[way]).min().unwrap()),
            types: job.count as usize,
            demands,
            room,
            ones,
            table: T::new(numbers),
            classes: vec![],
            outlines: O::new(sides(job), ranks),
            n: 0,
            halves: vec![],
            half: 0,
            parts: vec![],
            pairs: Pairs { firsts: [vec![], vec![]], ends: [0; 2] },
        }
    }

    /// Enters the class that has grown, if it has any outline.
    fn close(&mut self, class: Class<T::Number>) -> Result<(), Full> {
        if let Some(Closed { outlines, least, least_first }) = self.outlines.close() {
            self.n += outlines;
            if self.n > self.room {
                return Err(Full);
            }
            let first = [0, 1].map(|way: usize| least_first[way].filter(|size| size + self.least[way] <= self.sides[way]).unwrap_or(NEVER));
            self.table.enter(class.number, Least { first: packed(first), all: packed(least) }, self.classes.len());
            self.classes.push(class);
            if first != [NEVER; 2] {
                self.halves.push(class);
            }
        }
        Ok(())
    }

    /// Lists the numbers of the parts of some counts in order, as many as are wanted or some more.
    fn list_parts(&mut self, counts: Counts, wanted: usize) {
        if self.parts.len() < 2 * wanted {
            self.parts.resize(2 * wanted, T::Number::default());
        }
        let mut end = 1;
        for t in (0..self.types).filter(|&t| counts.of(t) != 0) {
            let n = end;
            for _ in 0..counts.of(t) {
                if end >= wanted {
                    return;
                }
                let (before, next) = self.parts.split_at_mut(end);
                for (part, less) in next[..n].iter_mut().zip(&before[end - n..]) {
                    *part = *less + self.ones[t];
                }
                end += n;
            }
        }
    }

    /// Finds the pairs of a class that fit. Whichever are fewer are walked: the parts of its counts that come before their rest, or all that may be first halves.
    fn find_pairs(&mut self, class: Class<T::Number>) {
        let all: u128 = (0..self.types).map(|t| class.counts.of(t) as u128 + 1).product();
        let parts = (all - 1) / 2;
        if (self.half as u128) < parts {
            self.pairs.clear(self.half);
            for half in &self.halves[..self.half] {
                if half.counts.within(class.counts) && half.counts != class.counts {
                    let fit = fit(self.sides, self.table.least(half.number), self.table.least(class.number - half.number));
                    self.pairs.keep(half.number, fit);
                }
            }
        } else {
            let parts = parts as usize;
            self.list_parts(class.counts, parts + 1);
            self.pairs.clear(parts);
            for &part in &self.parts[1..=parts] {
                self.pairs.keep(part, fit(self.sides, self.table.least(part), self.table.least(class.number - part)));
            }
        }
    }

    /// The places of a pair of classes.
    fn pair(&self, class: Class<T::Number>, way: usize, i: usize) -> [usize; 2] {
        let first = self.pairs.firsts[way][i];
        [self.table.place(first), self.table.place(class.number - first)]
    }

    /// Adds the class with one piece more than another, if there is one.
    fn add_target(&mut self, from: Class<T::Number>, t: usize) -> Result<(), Full> {
        let class = Class { counts: from.counts.plus(Counts::one_of(t)), number: from.number + self.ones[t] };
        let is_class = |number: T::Number| self.table.least(number).all != 0;
        if (0..t).any(|t| class.counts.of(t) != 0 && !is_class(class.number - self.ones[t])) {
            return Ok(());
        }
        self.find_pairs(class);
        for way in 0..2 {
            for i in 0..self.pairs.ends[way] {
                let [a, b] = self.pair(class, way, i);
                self.outlines.join(way, a, b);
            }
        }
        self.close(class)
    }

    /// Adds the classes with one piece more than another, of its last type or a later one.
    fn add_next(&mut self, class: Class<T::Number>) -> Result<(), Full> {
        let pieces = class.counts.pieces() + 1;
        while self.half < self.halves.len() && 2 * self.halves[self.half].counts.pieces() <= pieces {
            self.half += 1;
        }
        for t in (0..self.types).rev() {
            if class.counts.of(t) < self.demands.of(t) {
                self.add_target(class, t)?;
            }
            if class.counts.of(t) != 0 {
                break;
            }
        }
        Ok(())
    }

    fn add_all(&mut self, job: &Job) -> Result<(), Full> {
        for (t, size) in singles(job) {
            self.outlines.put(size);
            self.close(Class { counts: Counts::one_of(t), number: self.ones[t] })?;
        }
        let mut p = 0;
        while p < self.classes.len() {
            self.add_next(self.classes[p])?;
            p += 1;
        }
        Ok(())
    }

    /// The class of the greatest profit; among those of the least length, then width, then of the counts that come first.
    fn best(&self, job: &Job) -> usize {
        let rank = |&p: &usize| (profit(job, self.classes[p].counts), Reverse((self.outlines.least_of(p), self.classes[p].counts.order())));
        (0..self.classes.len()).max_by_key(rank).unwrap()
    }

    /// Lays an outline of a class with its corner at a place into the front of the buffer: how many numbers its placements take up.
    fn lay(&mut self, p: usize, size: Size, corner: [u64; 2], buffer: &mut [u64]) -> usize {
        let class = self.classes[p];
        if class.counts.pieces() == 1 {
            let t = (0..TYPES).find(|&t| class.counts.of(t) == 1).unwrap();
            buffer[..3].copy_from_slice(&[t as u64 + 1, corner[0], corner[1]]);
            return 3;
        }
        let seen = |way: usize, size: Size| [size[way], size[1 - way]];
        self.find_pairs(class);
        for way in 0..2 {
            for i in 0..self.pairs.ends[way] {
                let [a, b] = self.pair(class, way, i);
                if let Some([first, second]) = self.outlines.halves_of(seen(way, size), way, a, b) {
                    let mut behind = corner;
                    behind[way] += first[0] as u64;
                    let n = self.lay(a, seen(way, first), corner, buffer);
                    return n + self.lay(b, seen(way, second), behind, &mut buffer[n..]);
                }
            }
        }
        unreachable!("an outline that no pair makes")
    }

    fn plan(&mut self, job: &Job, buffer: &mut [u64]) -> Answer {
        if self.add_all(job).is_err() {
            return refused(4);
        }
        let top = self.best(job);
        let counts = self.classes[top].counts;
        if buffer.len() as u64 / 3 < counts.pieces() {
            return refused(5);
        }
        let size = self.outlines.least_of(top);
        let numbers = self.lay(top, size, [0, 0], buffer);
        order(&mut buffer[..numbers]);
        [0, 0, profit(job, counts), size[0] as u64, size[1] as u64, counts.pieces(), self.n as u64]
    }
}

fn plan_with<O: Outlines>(job: &Job, room: usize, ranks: [Ranks; 2], buffer: &mut [u64]) -> Answer {
    let numbers: u128 = singles(job).map(|(t, size)| most(job, t, size) as u128 + 1).product();
    if numbers <= DIRECT_MOST {
        Lister::<Direct, O>::new(job, room, ranks).plan(job, buffer)
    } else {
        Lister::<Hashed, O>::new(job, room, ranks).plan(job, buffer)
    }
}

/// Classes will be large: there are few types, or few sizes that outlines can have. But where all are of one length or of one width, each class has one outline.
fn large_classes(job: &Job, ranks: &[Ranks; 2]) -> bool {
    let [lengths, widths] = [ranks[0].sizes.len(), ranks[1].sizes.len()];
    lengths.min(widths) > 1 && (job.count <= 4 || lengths * widths <= 1 << 14)
}

/// Plans class by class. Of the arena only its room counts.
pub fn class_by_class(job: &Job, arena: &mut [Record], buffer: &mut [u64]) -> Answer {
    let ranks = [0, 1].map(|way| Ranks::new(job, way));
    if large_classes(job, &ranks) {
        plan_with::<Groups>(job, arena.len(), ranks, buffer)
    } else {
        plan_with::<Orders>(job, arena.len(), ranks, buffer)
    }
}
