//! The checker of placement lists: refusals 6 to 10 of document 01, in that
//! order, "each tried over the whole list before the next".

use std::collections::HashMap;

use crate::job::{Job, Refusal};

/// A type (from 1) and the position of its corner; any numbers at all.
#[derive(Clone, Copy, Debug, PartialEq, Eq)]
pub struct Placement {
    pub kind: u64,
    pub x: u64,
    pub y: u64,
}

impl Placement {
    /// "A length of flat numbers that is not a multiple of 3 loses its last
    /// one or two numbers."
    pub fn list(flat: &[u64]) -> Vec<Placement> {
        flat.chunks_exact(3)
            .map(|three| Placement {
                kind: three[0],
                x: three[1],
                y: three[2],
            })
            .collect()
    }
}

/// The lines between which a grown piece lies: columns x.0 to x.1, rows y.0 to
/// y.1. "A grown piece at (x, y) occupies the columns between lines x and x+l+k
/// and the rows between lines y and y+w+k."
#[derive(Clone, Copy, Debug, PartialEq, Eq)]
pub struct Area {
    pub x: Span,
    pub y: Span,
}

/// The two lines between which something lies in one direction.
type Span = (u64, u64);

impl Area {
    /// "Two pieces whose edges lie on one line touch and do not overlap."
    fn overlaps(&self, other: &Area) -> bool {
        let share = |a: Span, b: Span| a.0 < b.1 && b.0 < a.1;
        share(self.x, other.x) && share(self.y, other.y)
    }
}

/// The profit of an accepted list, or the first refusal.
pub fn check(job: &Job, list: &[Placement]) -> Result<u64, Refusal> {
    // 6: a type not in 1 to n.
    let known = 1..=job.types.len() as u64;
    if let Some(place) = list.iter().position(|p| !known.contains(&p.kind)) {
        return Err(Refusal::UnknownType(place));
    }
    let type_of = |p: &Placement| &job.types[p.kind as usize - 1];

    // 7: a piece not wholly in the sheet. "Positions in a list are whole numbers
    // from 0 up, of any size": an edge past the largest number is outside too.
    let edges = |at: u64, size: u32, end: u32| {
        at.checked_add(u64::from(size))
            .filter(|&far| far <= u64::from(end))
            .map(|far| (at, far))
    };
    let mut areas = Vec::with_capacity(list.len());
    for (place, p) in list.iter().enumerate() {
        let grown = type_of(p).grown;
        let x = edges(p.x, grown.length, job.sheet.length);
        let y = edges(p.y, grown.width, job.sheet.width);
        match (x, y) {
            (Some(x), Some(y)) => areas.push(Area { x, y }),
            _ => return Err(Refusal::OutsideSheet(place)),
        }
    }

    // 8: a piece that takes its type above the demand.
    let mut used = vec![0; job.types.len()];
    for (place, p) in list.iter().enumerate() {
        let used = &mut used[p.kind as usize - 1];
        *used += 1;
        if *used > u32::from(type_of(p).demand) {
            return Err(Refusal::AboveDemand(place));
        }
    }

    // 9: a piece that overlaps an earlier one.
    let overlapping = |&place: &usize| areas[..place].iter().any(|a| a.overlaps(&areas[place]));
    if let Some(place) = (0..areas.len()).find(overlapping) {
        return Err(Refusal::Overlap(place));
    }

    // 10: the pieces cannot be parted.
    let parted = can_be_parted(&areas);
    if areas.len() <= 12 {
        assert_eq!(parted, can_be_parted_by_definition(&areas));
    }
    if !parted {
        return Err(Refusal::CannotBeParted);
    }
    Ok(list.iter().map(|p| type_of(p).profit).sum())
}

/// One of the two directions: where a piece lies in it.
type Side = fn(&Area) -> Span;

/// A line across the sheet divides the columns, one along it the rows.
const SIDES: [Side; 2] = [|a| a.x, |a| a.y];

/// The lines worth trying in one direction: the far edges of the pieces.
///
/// They are enough. Take any line with every piece wholly on one side and some
/// piece on each. Move it back to the last far edge of the pieces before it: no
/// piece changes sides, so it divides the set in the same way.
fn lines(areas: &[Area], side: Side) -> Vec<u64> {
    let mut lines: Vec<u64> = areas.iter().map(|a| side(a).1).collect();
    lines.sort_unstable();
    lines.dedup();
    lines
}

/// Parts `areas` by `line`, if every one lies wholly on one side or the other
/// and there is at least one on each.
fn part(areas: &[Area], side: Side, line: u64) -> Option<(Vec<Area>, Vec<Area>)> {
    if areas.iter().any(|a| side(a).0 < line && line < side(a).1) {
        return None;
    }
    let (before, behind): (Vec<Area>, Vec<Area>) = areas.iter().partition(|a| side(a).1 <= line);
    (!before.is_empty() && !behind.is_empty()).then_some((before, behind))
}

/// Can the set be parted? Every edge line is tried, and the first that divides
/// the set decides.
///
/// No line need be taken back. If a set can be parted, so can every subset: the
/// same lines do it, those that no longer have a piece on each side being left
/// out. So if the whole can be parted, both sides of any dividing line can; and
/// if both sides can, the whole can by definition.
pub fn can_be_parted(areas: &[Area]) -> bool {
    let mut regions = vec![areas.to_vec()];
    while let Some(region) = regions.pop() {
        if region.len() <= 1 {
            continue;
        }
        let divided = SIDES.iter().find_map(|&side| {
            lines(&region, side)
                .into_iter()
                .find_map(|line| part(&region, side, line))
        });
        match divided {
            Some((before, behind)) => regions.extend([before, behind]),
            None => return false,
        }
    }
    true
}

/// The same, word for word from "Parting a list": at most one piece, or *some*
/// line with every piece wholly on one side or the other, at least one on each
/// side, and both sides can be parted. Sets are bit masks over `areas`, each
/// looked at once.
pub fn can_be_parted_by_definition(areas: &[Area]) -> bool {
    fn parted(set: u64, areas: &[Area], known: &mut HashMap<u64, bool>) -> bool {
        if set.count_ones() <= 1 {
            return true;
        }
        if let Some(&answer) = known.get(&set) {
            return answer;
        }
        let members: Vec<usize> = (0..areas.len()).filter(|i| set >> i & 1 == 1).collect();
        let mut answer = false;
        for side in SIDES {
            // Every line there is, from the first edge of all to the last.
            let first = members
                .iter()
                .map(|&i| side(&areas[i]).0)
                .min()
                .unwrap_or(0);
            let last = members
                .iter()
                .map(|&i| side(&areas[i]).1)
                .max()
                .unwrap_or(0);
            let mut seen = 0;
            for line in first..=last {
                let before = members.iter().filter(|&&i| side(&areas[i]).1 <= line);
                let before = before.fold(0, |set, i| set | 1 << i);
                let behind = members.iter().filter(|&&i| side(&areas[i]).0 >= line);
                let behind = behind.fold(0, |set, i| set | 1 << i);
                let divides = before != 0 && behind != 0 && before | behind == set;
                if divides && before != seen {
                    seen = before;
                    answer |= parted(before, areas, known) && parted(behind, areas, known);
                }
            }
        }
        known.insert(set, answer);
        answer
    }
    assert!(areas.len() <= 64, "a set is one word");
    let all = (0..areas.len()).fold(0, |set, i| set | 1 << i);
    parted(all, areas, &mut HashMap::new())
}
