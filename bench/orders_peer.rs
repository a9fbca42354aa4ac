//! Classes as their outlines in order of length and in order of width. A join is looked for in a map, which has two bits for each size: whether an outline of the class that grows
//! ends in a join along, and whether in one across.
use crate::classes_peer::{Closed, Outlines, Ranks};
use crate::planner_peer::Size;
use std::ops::Range;

/// An outline in the order of one way: its size in this way, then in the other, and how it ends.
#[derive(Clone, Copy, PartialEq, Eq, PartialOrd, Ord)]
struct Outline(u32);

const SIZE_BITS: u32 = 13;

/// How a single piece ends: it may be a first half both ways.
const SINGLE: u32 = 3;

impl Outline {
    fn new(in_way: u32, in_other: u32, ends: u32) -> Outline {
        Outline(in_way << (SIZE_BITS + 2) | in_other << 2 | ends)
    }

    fn in_way(self) -> u32 {
        self.0 >> (SIZE_BITS + 2)
    }

    fn in_other(self) -> u32 {
        self.0 >> 2 & ((1 << SIZE_BITS) - 1)
    }

    fn size(self) -> Size {
        [self.in_way() as u16, self.in_other() as u16]
    }

    /// Some build of it ends in a join in this way, or it is a single piece.
    fn ends(self, way: usize) -> bool {
        self.0 >> way & 1 == 1
    }
}

/// The class that grows, in a map of all sizes that outlines can have: a cell for each, in rows of one width.
struct Map {
    ranks: [Ranks; 2],
    /// Two bits for each cell.
    bits: Vec<u64>,
    /// The cells that have any.
    cells: Vec<u32>,
}

/// The cells of a word.
const CELLS: u32 = 32;

impl Map {
    fn new(ranks: [Ranks; 2]) -> Map {
        let cells = ranks[0].sizes.len() * ranks[1].sizes.len();
        Map { ranks, bits: vec![0; cells / CELLS as usize + 1], cells: vec![] }
    }

    fn row(&self) -> u32 {
        self.ranks[0].sizes.len() as u32
    }

    fn mark(&mut self, size: [u32; 2], ends: u32) {
        let [length, width] = [0, 1].map(|way: usize| self.ranks[way].of[size[way] as usize] as u32);
        let cell = width * self.row() + length;
        let (word, at) = (&mut self.bits[(cell / CELLS) as usize], cell % CELLS * 2);
        if *word >> at & 3 == 0 {
            self.cells.push(cell);
        }
        *word |= (ends as u64) << at;
    }

    /// The size of a cell, and how its outline ends.
    fn at(&self, cell: u32) -> ([u32; 2], u32) {
        let ranks = [cell % self.row(), cell / self.row()];
        let ends = self.bits[(cell / CELLS) as usize] >> (cell % CELLS * 2);
        ([0, 1].map(|way: usize| self.ranks[way].sizes[ranks[way] as usize] as u32), ends as u32 & 3)
    }

    fn clear(&mut self) {
        for cell in self.cells.drain(..) {
            self.bits[(cell / CELLS) as usize] = 0;
        }
    }
}

pub struct Orders {
    sides: Size,
    /// The outlines of all classes, class behind class, by way.
    orders: [Vec<Outline>; 2],
    /// Where each class begins, and the next one that there will be.
    starts: Vec<u32>,
    map: Map,
}

impl Orders {
    fn range(&self, p: usize) -> Range<usize> {
        self.starts[p] as usize..self.starts[p + 1] as usize
    }

    fn order(&self, p: usize, way: usize) -> &[Outline] {
        &self.orders[way][self.range(p)]
    }

    fn join_in<const WAY: usize>(&mut self, a: usize, b: usize) {
        let side = self.sides[WAY] as u32;
        let (a, b) = (self.range(a), self.range(b));
        let rest = &self.orders[WAY][b];
        for x in self.orders[WAY][a].iter().filter(|x| x.ends(1 - WAY)) {
            if x.in_way() + rest[0].in_way() > side {
                break;
            }
            for y in rest.iter().take_while(|y| x.in_way() + y.in_way() <= side) {
                let (sum, larger) = (x.in_way() + y.in_way(), x.in_other().max(y.in_other()));
                self.map.mark(if WAY == 0 { [sum, larger] } else { [larger, sum] }, 1 << WAY);
            }
        }
    }
}

impl Outlines for Orders {
    fn new(sides: Size, ranks: [Ranks; 2]) -> Orders {
        Orders { sides, orders: [vec![], vec![]], starts: vec![0], map: Map::new(ranks) }
    }

    fn put(&mut self, piece: Size) {
        self.map.mark(piece.map(u32::from), SINGLE);
    }

    fn join(&mut self, way: usize, a: usize, b: usize) {
        if way == 0 {
            self.join_in::<0>(a, b);
        } else {
            self.join_in::<1>(a, b);
        }
    }

    fn close(&mut self) -> Option<Closed> {
        let outlines = self.map.cells.len();
        if outlines == 0 {
            return None;
        }
        let start = self.orders[0].len();
        for &cell in &self.map.cells {
            let ([length, width], ends) = self.map.at(cell);
            self.orders[0].push(Outline::new(length, width, ends));
            self.orders[1].push(Outline::new(width, length, ends));
        }
        self.map.clear();
        for order in &mut self.orders {
            order[start..].sort_unstable();
        }
        let p = self.starts.len() - 1;
        self.starts.push(self.orders[0].len() as u32);
        Some(Closed {
            outlines,
            least: [0, 1].map(|way: usize| self.order(p, way)[0].in_way() as u16),
            least_first: [0, 1].map(|way: usize| self.order(p, way).iter().find(|o| o.ends(1 - way)).map(|o| o.in_way() as u16)),
        })
    }

    fn least_of(&self, p: usize) -> Size {
        self.order(p, 0)[0].size()
    }

    fn halves_of(&self, [sum, larger]: Size, way: usize, a: usize, b: usize) -> Option<[Size; 2]> {
        let rest = self.order(b, way);
        for [x, other] in self.order(a, way).iter().filter(|x| x.ends(1 - way)).map(|x| x.size()).filter(|&[x, other]| x < sum && other <= larger) {
            let wanted = [sum - x, if other == larger { 0 } else { larger }];
            let k = rest.partition_point(|y| y.size() < wanted);
            if let Some(y) = rest.get(k).map(|y| y.size()).filter(|y| y[0] == wanted[0] && y[1] <= larger) {
                return Some([[x, other], y]);
            }
        }
        None
    }
}
