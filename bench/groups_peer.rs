//! Classes as groups of outlines that have the same size in one way. The sizes in the other way are bits, one for each sum of pieces that there can be.
//!
//! All joins of two groups in that way have the same size in it. In the other they have all sizes of both groups that are no less than the least of either: so bits are joined by the
//! word, and no outline is looked for. While a class grows there is a row of bits for each size, for joins along by their length, for joins across by their width.
use crate::classes_peer::{Closed, Outlines, Ranks};
use crate::planner_peer::Size;

const WORD: usize = 64;

fn for_bits(mut bits: u64, mut f: impl FnMut(usize)) {
    while bits != 0 {
        f(bits.trailing_zeros() as usize);
        bits &= bits - 1;
    }
}

fn words(ranks: &Ranks) -> usize {
    (ranks.sizes.len() + WORD - 1) / WORD
}

/// Outlines of a group whose other sizes have their bits in the same word.
#[derive(Clone, Copy)]
struct Part {
    size: u16,
    word: u16,
    bits: u64,
}

impl Part {
    /// The least rank.
    fn least(&self) -> u16 {
        self.word * WORD as u16 + self.bits.trailing_zeros() as u16
    }

    fn has(&self, rank: u16) -> bool {
        self.word == rank / WORD as u16 && self.bits >> (rank % WORD as u16) & 1 == 1
    }
}

/// A group's size in one way, and the least rank of the other sizes.
#[derive(Clone, Copy)]
struct Head {
    size: u16,
    least: u16,
}

/// Groups in one way of all classes, class behind class, in order of size.
struct List {
    parts: Vec<Part>,
    /// Of groups that may have several parts.
    heads: Vec<Head>,
    /// Where parts and heads of each class begin, and those of the next one that there will be.
    starts: Vec<[u32; 2]>,
}

impl List {
    fn new() -> List {
        List { parts: vec![], heads: vec![], starts: vec![[0; 2]] }
    }

    fn parts(&self, p: usize) -> &[Part] {
        &self.parts[self.starts[p][0] as usize..self.starts[p + 1][0] as usize]
    }

    fn heads(&self, p: usize) -> &[Head] {
        &self.heads[self.starts[p][1] as usize..self.starts[p + 1][1] as usize]
    }

    fn add(&mut self, size: u16, word: usize, bits: u64) {
        if bits != 0 {
            self.parts.push(Part { size, word: word as u16, bits });
        }
    }

    /// The parts from `start` on are a group, if there are any.
    fn end_group(&mut self, start: usize) {
        if let Some(part) = self.parts.get(start) {
            self.heads.push(Head { size: part.size, least: part.least() });
        }
    }

    fn end_class(&mut self) {
        self.starts.push([self.parts.len() as u32, self.heads.len() as u32]);
    }
}

/// The class that grows, in one way: for each rank in it a row of words with the bits of the other sizes.
struct Grown {
    words: usize,
    bits: Vec<u64>,
    /// Which rows have bits, and of each row with several words, which words.
    rows: Vec<u64>,
    marks: Vec<u128>,
}

impl Grown {
    fn new(ranks: &Ranks, others: &Ranks) -> Grown {
        let rows = ranks.sizes.len();
        Grown { words: words(others), bits: vec![0; rows * words(others)], rows: vec![0; words(ranks)], marks: vec![0; rows] }
    }

    fn is_empty(&self) -> bool {
        self.rows.iter().all(|&rows| rows == 0)
    }

    /// Where rows have one word.
    fn add_only(&mut self, rank: usize, bits: u64) {
        self.bits[rank] |= bits;
        self.rows[rank / WORD] |= 1 << (rank % WORD);
    }

    fn add(&mut self, rank: usize, word: usize, bits: u64) {
        self.bits[rank * self.words + word] |= bits;
        self.rows[rank / WORD] |= 1 << (rank % WORD);
        self.marks[rank] |= 1 << word;
    }

    fn insert(&mut self, rank: usize, other: usize) {
        if self.words == 1 {
            self.add_only(rank, 1 << other);
        } else {
            self.add(rank, other / WORD, 1 << (other % WORD));
        }
    }

    /// Adds the outlines that another has in the other way.
    fn turn(&mut self, from: &Grown) {
        for (i, &rows) in from.rows.iter().enumerate() {
            for_bits(rows, |row| {
                let other = WORD * i + row;
                for_words(from.words, from.marks[other], |word| {
                    for_bits(from.bits[other * from.words + word], |bit| self.insert(WORD * word + bit, other));
                });
            });
        }
    }
}

/// Calls with each word of a row that is marked; where rows have one word it needs no mark.
fn for_words(words: usize, mut marks: u128, mut f: impl FnMut(usize)) {
    if words == 1 {
        return f(0);
    }
    while marks != 0 {
        f(marks.trailing_zeros() as usize);
        marks &= marks - 1;
    }
}

/// Joins groups whose other sizes have their bits in one word.
fn join_words(firsts: &[Part], rest: &[Part], side: u16, ranks: &Ranks, grown: &mut Grown) {
    // all bits from the least one on
    let from = |bits: u64| bits | bits.wrapping_neg();
    for x in firsts {
        if x.size + rest[0].size > side {
            break;
        }
        for y in rest {
            let sum = x.size + y.size;
            if sum > side {
                break;
            }
            grown.add_only(ranks.of[sum as usize] as usize, (x.bits | y.bits) & from(x.bits) & from(y.bits));
        }
    }
}

/// Joins parts of groups with other groups, as far as the larger size is the part's own.
fn join_parts(parts: &[Part], others: &[Head], side: u16, ranks: &Ranks, grown: &mut Grown) {
    for x in parts {
        if x.size + others[0].size > side {
            break;
        }
        for y in others {
            let sum = x.size + y.size;
            if sum > side {
                break;
            }
            let less = y.least.saturating_sub(x.word * WORD as u16);
            let bits = if less < WORD as u16 { x.bits >> less << less } else { 0 };
            if bits != 0 {
                grown.add(ranks.of[sum as usize] as usize, x.word as usize, bits);
            }
        }
    }
}

pub struct Groups {
    sides: Size,
    ranks: [Ranks; 2],
    /// By way: all outlines, and those that may be first halves in it.
    all: [List; 2],
    firsts: [List; 2],
    /// By way: the joins in it, and those in the other.
    grown: [Grown; 2],
    turned: [Grown; 2],
}

impl Groups {
    /// Makes lists of what has grown, in one way: how many outlines.
    fn add_lists(&mut self, way: usize) -> usize {
        let (grown, turned, all, firsts) = (&mut self.grown[way], &mut self.turned[way], &mut self.all[way], &mut self.firsts[way]);
        let (sizes, words) = (&self.ranks[way].sizes, grown.words);
        let mut outlines = 0;
        for i in 0..grown.rows.len() {
            for_bits(grown.rows[i] | turned.rows[i], |row| {
                let rank = WORD * i + row;
                let starts = [all.parts.len(), firsts.parts.len()];
                for_words(words, grown.marks[rank] | turned.marks[rank], |word| {
                    let (joined, first) = (&mut grown.bits[rank * words + word], &mut turned.bits[rank * words + word]);
                    outlines += (*joined | *first).count_ones() as usize;
                    all.add(sizes[rank], word, *joined | *first);
                    firsts.add(sizes[rank], word, *first);
                    (*joined, *first) = (0, 0);
                });
                if words > 1 {
                    all.end_group(starts[0]);
                    firsts.end_group(starts[1]);
                    (grown.marks[rank], turned.marks[rank]) = (0, 0);
                }
            });
            (grown.rows[i], turned.rows[i]) = (0, 0);
        }
        all.end_class();
        firsts.end_class();
        outlines
    }
}

impl Outlines for Groups {
    fn new(sides: Size, ranks: [Ranks; 2]) -> Groups {
        let grown = || [Grown::new(&ranks[0], &ranks[1]), Grown::new(&ranks[1], &ranks[0])];
        let lists = || [List::new(), List::new()];
        Groups { sides, all: lists(), firsts: lists(), grown: grown(), turned: grown(), ranks }
    }

    fn put(&mut self, piece: Size) {
        let [length, width] = [0, 1].map(|way: usize| self.ranks[way].of[piece[way] as usize] as usize);
        self.grown[0].insert(length, width);
        self.grown[1].insert(width, length);
    }

    fn join(&mut self, way: usize, a: usize, b: usize) {
        let (side, ranks, grown) = (self.sides[way], &self.ranks[way], &mut self.grown[way]);
        let (firsts, all) = (&self.firsts[way], &self.all[way]);
        if grown.words == 1 {
            join_words(firsts.parts(a), all.parts(b), side, ranks, grown);
        } else {
            join_parts(firsts.parts(a), all.heads(b), side, ranks, grown);
            join_parts(all.parts(b), firsts.heads(a), side, ranks, grown);
        }
    }

    fn close(&mut self) -> Option<Closed> {
        if self.grown.iter().all(Grown::is_empty) {
            return None;
        }
        self.turned[0].turn(&self.grown[1]);
        self.turned[1].turn(&self.grown[0]);
        let p = self.all[0].starts.len() - 1;
        let outlines = self.add_lists(0);
        self.add_lists(1);
        Some(Closed {
            outlines,
            least: [0, 1].map(|way: usize| self.all[way].parts(p)[0].size),
            least_first: [0, 1].map(|way: usize| self.firsts[way].parts(p).first().map(|part| part.size)),
        })
    }

    fn least_of(&self, p: usize) -> Size {
        let least = &self.all[0].parts(p)[0];
        [least.size, self.ranks[1].sizes[least.least() as usize]]
    }

    fn halves_of(&self, [sum, larger]: Size, way: usize, a: usize, b: usize) -> Option<[Size; 2]> {
        let others = &self.ranks[1 - way];
        let rank = others.of[larger as usize];
        let least = |part: &Part| [part.size, others.sizes[part.least() as usize]];
        for x in self.firsts[way].parts(a).iter().filter(|x| x.least() <= rank) {
            for y in self.all[way].parts(b).iter().filter(|y| x.size + y.size == sum && y.least() <= rank) {
                if x.has(rank) {
                    return Some([[x.size, larger], least(y)]);
                }
                if y.has(rank) {
                    return Some([least(x), [y.size, larger]]);
                }
            }
        }
        None
    }
}
