//! The jobs that the planners are measured on, in families, and families of jobs that grow.

pub struct Job {
    pub name: String,
    pub text: String,
}

/// Length, width, profit, demand.
type Type = [u64; 4];

impl Job {
    /// A sheet is its length, its width and the kerf.
    pub fn of(name: &str, sheet: [u64; 3], types: &[Type]) -> Job {
        let lines: String = types.iter().map(|[l, w, p, b]| format!("{l} {w} {p} {b}\n")).collect();
        Job { name: name.to_string(), text: format!("1\n{} {} {}\n{}\n{lines}", sheet[0], sheet[1], sheet[2], types.len()) }
    }

    /// A job that is named by its numbers.
    pub fn plain(sheet: [u64; 3], types: &[Type]) -> Job {
        let types_told: String = types.iter().map(|[l, w, p, b]| format!("; {l} {w} {p} {b}")).collect();
        Job::of(&format!("{} {} {}{types_told}", sheet[0], sheet[1], sheet[2]), sheet, types)
    }

    /// L, W, k, n and the types' numbers.
    pub fn numbers(&self) -> Vec<u64> {
        self.text.split_whitespace().skip(1).map(|n| n.parse().unwrap()).collect()
    }
}

fn published_as(folder: &str, file: &str, name: &str) -> Job {
    let path = format!("{folder}/{file}.job");
    Job { name: name.to_string(), text: std::fs::read_to_string(&path).expect(&path) }
}

pub fn of1(folder: &str) -> Job {
    published_as(folder, "P3", "OF1")
}

/// The published jobs that are in range, in this folder. The last two have more outlines than the largest arena has records.
pub fn published(folder: &str) -> Vec<Job> {
    let same = |name| published_as(folder, name, name);
    let mut jobs = vec![of1(folder), published_as(folder, "P4", "OF2")];
    jobs.extend(["P1", "P5", "P7", "P8", "EP1", "PG1", "PG3", "PG4", "P6"].map(same));
    jobs
}

/// Few types of small pieces on large sheets: thousands of outlines with the same counts.
pub fn large_classes() -> Vec<Job> {
    vec![
        Job::plain([5000, 5000, 0], &[[100, 100, 1, 50]]),
        Job::plain([2440, 1220, 4], &[[100, 100, 1, 50], [200, 150, 3, 2]]),
        Job::plain([3000, 1500, 3], &[[250, 250, 6, 20], [300, 200, 6, 20]]),
        Job::plain([5000, 5000, 0], &[[1, 1, 1, 2], [1, 1, 1, 50]]),
        Job::plain([117, 5000, 0], &[[1, 1, 1, 3], [1, 1, 1, 50]]),
    ]
}

/// Length and width of the boards that kitchens are cut from, and the kerf.
fn chipboard(kerf: u64) -> [u64; 3] {
    [2800, 2070, kerf]
}

fn panel(kerf: u64) -> [u64; 3] {
    [2440, 1220, kerf]
}

fn plywood(kerf: u64) -> [u64; 3] {
    [3050, 1525, kerf]
}

/// A job whose profit is the area.
fn kitchen(name: &str, sheet: [u64; 3], types: &[[u64; 3]]) -> Job {
    let types: Vec<Type> = types.iter().map(|&[l, w, b]| [l, w, l * w, b]).collect();
    Job::of(name, sheet, &types)
}

/// Made up, as a joiner has them: lengths, widths and demands.
pub fn kitchens() -> Vec<Job> {
    vec![
        kitchen("fillers", chipboard(5), &[[100, 100, 40]]),
        kitchen("plinths", plywood(4), &[[1200, 100, 30], [600, 100, 10]]),
        kitchen("stiffeners", chipboard(4), &[[564, 100, 24], [464, 100, 16]]),
        kitchen("boxes of two heights", plywood(5), &[[400, 300, 14], [400, 200, 14]]),
        kitchen("boxes of three sizes", plywood(3), &[[400, 300, 14], [400, 200, 14], [294, 194, 14]]),
        kitchen("small fronts", panel(4), &[[396, 140, 16], [296, 140, 16]]),
        kitchen("fronts of three lengths", chipboard(4), &[[396, 140, 12], [296, 140, 12], [596, 140, 6]]),
        kitchen("fronts of three widths", chipboard(4), &[[596, 140, 10], [596, 284, 8], [596, 356, 6]]),
        kitchen("drawers", panel(3), &[[500, 140, 12], [464, 140, 12], [500, 480, 4]]),
        kitchen("shelves and uprights", chipboard(4), &[[1800, 300, 6], [764, 300, 12], [764, 100, 6]]),
        kitchen("sides and shelves", chipboard(4), &[[720, 560, 8], [564, 520, 12], [564, 300, 6]]),
        kitchen("worktops", plywood(5), &[[2000, 600, 2], [900, 600, 3], [600, 600, 4], [600, 100, 8]]),
        kitchen("island", plywood(4), &[[900, 720, 4], [450, 720, 6], [864, 420, 6], [864, 100, 6]]),
        base_cupboards(6),
        kitchen("tall cupboard", chipboard(4), &[[2000, 560, 2], [564, 560, 4], [564, 520, 6], [1994, 596, 1], [564, 100, 2]]),
        kitchen("six types", chipboard(4), &[[720, 560, 4], [720, 320, 4], [564, 540, 3], [564, 300, 4], [716, 596, 3], [596, 140, 4]]),
        kitchen("seven types", plywood(4), &[[720, 560, 2], [720, 300, 2], [564, 560, 2], [564, 300, 2], [716, 296, 2], [596, 140, 2], [1200, 100, 2]]),
        kitchen("eight types", chipboard(4), &[[720, 560, 2], [720, 320, 4], [564, 540, 2], [564, 300, 3], [716, 596, 2], [716, 396, 2], [596, 140, 3], [2000, 100, 2]]),
    ]
}

/// So many sides and rails, and as much as goes with them.
fn base_cupboards(sides: u64) -> Job {
    kitchen(&format!("base cupboards, {sides} sides"), chipboard(5), &[[720, 560, sides], [564, 560, sides / 2], [564, 100, sides], [564, 520, sides - sides / 3]])
}

/// A sheet of 100 by 1 and types of 1 by 1: any counts within the demands are an outline.
fn strip(demands: &[u64]) -> Job {
    let types: Vec<_> = demands.iter().map(|&b| [1, 1, 1, b]).collect();
    let told: Vec<_> = demands.iter().map(|b| b.to_string()).collect();
    Job::of(&format!("strip, demands {}", told.join(", ")), [100, 1, 0], &types)
}

/// As many outlines as the program's arena has records.
pub fn strip_of_2000() -> Job {
    strip(&[2, 22, 28])
}

pub fn strips() -> Vec<Job> {
    vec![strip_of_2000(), strip(&[13; 4]), strip(&[14, 15, 15, 16])]
}

/// Of each family, jobs that have more and more outlines.
pub fn growing(folder: &str) -> Vec<(&'static str, Vec<Job>)> {
    let of1 = of1(folder).numbers();
    let types: Vec<Type> = of1[4..].chunks_exact(4).map(|t| [t[0], t[1], t[2], t[3]]).collect();
    let longer = |&length: &u64| Job::of(&format!("OF1 on {length} by {}", of1[1]), [length, of1[1], of1[2]], &types);
    vec![
        ("OF1 on sheets of other lengths", [42, 46, 50, 54, 58, 62, 66, 70, 74].iter().map(longer).collect()),
        ("Strips of four types with the same demand", [5, 7, 9, 11, 13].iter().map(|&b| strip(&[b; 4])).collect()),
        ("Large classes of one type", [10, 20, 30, 40, 50].iter().map(|&b| Job::plain([5000, 5000, 0], &[[100, 100, 1, b]])).collect()),
        ("Large classes of two types", [8, 12, 16, 20, 24].iter().map(|&b| Job::plain([2440, 1220, 4], &[[100, 100, 1, b], [200, 150, 3, 2]])).collect()),
        ("A kitchen with growing demands", [2, 3, 4, 5, 6].iter().map(|&sides| base_cupboards(sides)).collect()),
    ]
}
