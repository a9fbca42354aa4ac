//! How much the library tries (docs/DECISIONS.md): the library's own way of listing outlines in plain Rust, which counts what it does and is no peer in speed.
//! What it lists is held to the fastest peer: the same number of outlines, or both are refused. A job that fills the arena is counted to the end of the class that has no room.
//!
//! In an arena of records, the records of a class stand one behind the other; classes stand in order of their pieces and are found by their counts. Every class but the
//! single pieces has one piece more than a class before it, of that class's last type or a later one. For such counts, each class with at most half the pieces is joined
//! with the class of the rest, both ways. In a class's two orders the sizes rise, so that the joins of a record, and the records, end at the first that does not fit.
//!
//! counts FOLDER: FOLDER has the published jobs.
use peers::peer::{self, Job};
use peers::planner_peer::{self, demands, join, sides, singles, Counts, Full, Record, Size, RECORDS_MOST};
use std::collections::{HashMap, HashSet};

/// What is counted.
#[derive(Default)]
struct Tally {
    /// Two records, to be joined in a way.
    tries: u64,
    /// Those that fit.
    joins: u64,
    /// Classes whose counts are within those of a class that grows, with at most half of its pieces.
    halves: u64,
    /// Those that are not passed over by their sizes.
    halves_tried: u64,
}

/// Outlines with the same counts, in order of their length and of their width.
struct Class {
    counts: Counts,
    pieces: u64,
    orders: [Vec<Size>; 2],
    /// It may be the first half of joins in a way.
    can: [bool; 2],
}

struct Lister {
    sides: Size,
    /// The least grown size of any type, each way.
    least: Size,
    classes: Vec<Class>,
    places: HashMap<(u64, u64), usize>,
    outlines: usize,
    tally: Tally,
}

impl Lister {
    /// Some piece fits beside the least record; and a class of which no record is a join in the other way is not needed, since joins of one way may be taken in any order.
    fn can(&self, orders: &[Vec<Size>; 2], pieces: u64, way: usize) -> bool {
        let other = 1 - way;
        let most = orders[other].last().unwrap()[other];
        orders[way][0][way] + self.least[way] <= self.sides[way] && (pieces == 1 || most >= 2 * self.least[other])
    }

    fn enter(&mut self, counts: Counts, sizes: impl Iterator<Item = Size> + Clone) {
        let orders = [0, 1].map(|way| {
            let mut order: Vec<Size> = sizes.clone().collect();
            order.sort_by_key(|size| size[way]);
            order
        });
        let pieces = counts.pieces();
        let can = [0, 1].map(|way| self.can(&orders, pieces, way));
        self.places.insert(counts.order(), self.classes.len());
        self.outlines += orders[0].len();
        self.classes.push(Class { counts, pieces, orders, can });
    }

    /// Joins the records of class a with those of class b.
    fn add_rows(&mut self, found: &mut HashSet<Size>, a: usize, b: usize, way: usize) {
        for x in &self.classes[a].orders[way] {
            for (k, y) in self.classes[b].orders[way].iter().enumerate() {
                self.tally.tries += 1;
                if x[way] + y[way] > self.sides[way] {
                    if k == 0 {
                        return;
                    }
                    break;
                }
                self.tally.joins += 1;
                found.insert(join(*x, *y, way));
            }
        }
    }

    /// Adds the class of these counts, if there is one.
    fn add_target(&mut self, counts: Counts) -> Result<(), Full> {
        let mut found = HashSet::new();
        let halves = self.classes.partition_point(|class| 2 * class.pieces <= counts.pieces());
        for a in 0..halves {
            let Class { counts: part, can, .. } = self.classes[a];
            if part.within(counts) {
                self.tally.halves += 1;
                if can[0] || can[1] {
                    self.tally.halves_tried += 1;
                    if let Some(&rest) = self.places.get(&counts.less(part).order()) {
                        (0..2).filter(|&way| can[way]).for_each(|way| self.add_rows(&mut found, a, rest, way));
                    }
                }
            }
        }
        if self.outlines + found.len() > RECORDS_MOST {
            return Err(Full);
        }
        if !found.is_empty() {
            self.enter(counts, found.iter().copied());
        }
        Ok(())
    }
}

fn list(job: &Job) -> (Result<usize, Full>, Tally) {
    let least = [0, 1].map(|way| singles(job).map(|(_, size)| size[way]).min().unwrap());
    let mut l = Lister { sides: sides(job), least, classes: vec![], places: HashMap::new(), outlines: 0, tally: Tally::default() };
    for (t, size) in singles(job) {
        l.enter(Counts::one_of(t), [size].into_iter());
    }
    let demands = demands(job);
    let mut p = 0;
    while p < l.classes.len() {
        let counts = l.classes[p].counts;
        for t in (0..job.count as usize).rev() {
            if counts.of(t) < demands.of(t) && l.add_target(counts.plus(Counts::one_of(t))).is_err() {
                return (Err(Full), l.tally);
            }
            if counts.of(t) != 0 {
                break;
            }
        }
        p += 1;
    }
    (Ok(l.outlines), l.tally)
}

fn main() {
    let folder = std::env::args().nth(1).expect("counts FOLDER");
    let jobs = [jobs::published(&folder), jobs::large_classes(), jobs::kitchens(), jobs::strips()];
    let mut records = vec![Record::default(); RECORDS_MOST];
    let mut buffer = vec![0; 1800];
    println!("| job | outlines | tries | joins that fit | tries to a join | first halves | not passed over |");
    println!("|---|---|---|---|---|---|---|");
    for jobs::Job { name, text } in jobs.into_iter().flatten() {
        let job = peer::job_of_text(text.as_bytes()).unwrap();
        let (listed, t) = list(&job);
        let answer = planner_peer::plan_job(&job, &mut records, &mut buffer, planner_peer::class_by_class);
        assert_eq!(listed.as_ref().ok().map(|&n| n as u64), Some(answer[6]).filter(|_| answer[0] == 0), "{name}");
        let outlines = listed.map_or("refusal 4".to_string(), |n| n.to_string());
        println!("| {name} | {outlines} | {} | {} | {:.1} | {} | {} |", t.tries, t.joins, t.tries as f64 / t.joins.max(1) as f64, t.halves, t.halves_tried);
    }
}
