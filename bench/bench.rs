//! The library beside plain Rust of the same method, on the same inputs in one run: medians of five, in microseconds of processor time, and their ratios.
//! That both answer the same is asserted on each input.
use measure::{black_box, black_box_only, side_by_side};
use peers::peer;

fn answer(r: Result<varandeco::Drawing, varandeco::Refusal>) -> peer::Answer {
    match r {
        Ok(d) => [0, 0, d.profit, d.pieces],
        Err(r) => [r.number, r.place, 0, 0],
    }
}

fn read(name: &str, text: &[u8], expected: peer::Answer) {
    assert_eq!(answer(varandeco::check_text(text)), expected, "{name}");
    assert_eq!(peer::check_text(text, peer::library_sort), expected, "{name}");
    let t = side_by_side(&mut [
        &mut || black_box_only(varandeco::check_text(black_box(text))),
        &mut || black_box_only(peer::check_text(black_box(text), peer::library_sort)),
    ]);
    println!("| {name} | {} | {:.1} | {:.1} | {:.2} |", text.len(), t[0].median(), t[1].median(), t[0].ratio(&t[1]));
}

/// A drawing: the sizes of its upright and its lying pieces, and where they lie.
struct Drawn {
    job: Vec<u64>,
    list: Vec<u64>,
}

/// Pieces of two kinds, spread over types of demand 50: the first u types are upright.
fn drawn(sheet: [u64; 2], kinds: [[u64; 2]; 2], upright_types: u64, pieces: &[(usize, u64, u64)]) -> Drawn {
    let mut job = vec![sheet[0], sheet[1], 0, 12];
    for t in 0..12 {
        let [l, w] = kinds[if t < upright_types { 0 } else { 1 }];
        job.extend([l, w, l * w, 50]);
    }
    let mut used = [0, 0];
    let mut list = vec![];
    for &(kind, x, y) in pieces {
        let t = if kind == 0 { used[0] / 50 } else { upright_types + used[1] / 50 };
        used[kind] += 1;
        list.extend([t + 1, x, y]);
    }
    Drawn { job, list }
}

/// Each turn frees one piece, along and across by turns, and the near lines along rise while those across fall.
fn staircase(n: u64) -> Drawn {
    let (h, top) = (400, 1_000);
    let pieces: Vec<_> = (0..n / 2).flat_map(|i| [(0, i, top - i - h), (1, i + 1, top - 1 - i)]).chain((n % 2 == 1).then(|| (0, n / 2, top - n / 2 - h))).collect();
    drawn([top, top], [[1, h], [h, 1]], 6, &pieces)
}

/// The same with every other piece somewhere on its line, so that the two orders have little to do with each other.
fn scattered_staircase(n: u64) -> Drawn {
    let (h, top) = (400, 1_000);
    let somewhere = |i: u64, room: u64| if i % 2 == 0 { 0 } else { i * 7_919 % (room + 1) };
    let pieces: Vec<_> = (0..(n + 1) / 2)
        .flat_map(|i| {
            let room = top - i - h - 1;
            [(0, i, room + 1 - somewhere(i, room)), (1, i + 1 + somewhere(i, room), top - 1 - i)]
        })
        .take(n as usize)
        .collect();
    drawn([top, top], [[1, h], [h, 1]], 6, &pieces)
}

/// A grid, its pieces in a scattered order.
fn grid(n: u64, columns: u64) -> Drawn {
    let pieces: Vec<_> = (0..n).map(|i| i * 337 % n).enumerate().map(|(k, i)| ((k >= 300) as usize, i % columns * 200, i / columns * 200)).collect();
    drawn([4_800, 5_000], [[200, 200], [200, 200]], 6, &pieces)
}

/// Pinwheels inside pinwheels, from the outside in. Closed ones have four arms and cannot be parted; of each open one an arm is taken away.
fn pinwheels(n: u64, closed: bool) -> Drawn {
    let (s, a) = (1_000, 550);
    let arms = |i: u64| [(0, i, s - i - a), (1, s - i - a, s - 1 - i), (0, s - 1 - i, i), (1, i, i)];
    let each = if closed { 4 } else { 3 };
    let pieces: Vec<_> = (0..n / each).flat_map(|i| arms(i).into_iter().take(each as usize)).collect();
    drawn([s, s], [[1, a], [a, 1]], if closed { 6 } else { 8 }, &pieces)
}

fn check(name: &str, n: u64, d: &Drawn) {
    let ours = answer(varandeco::check_numbers(&d.job, &d.list));
    assert_eq!(d.list.len() / 3, n as usize);
    assert_eq!(ours, peer::check_numbers(&d.job, &d.list, peer::library_sort), "{name}");
    assert_eq!(ours, peer::check_numbers(&d.job, &d.list, peer::shell_sort), "{name}");
    let t = side_by_side(&mut [
        &mut || black_box_only(varandeco::check_numbers(black_box(&d.job), black_box(&d.list))),
        &mut || black_box_only(peer::check_numbers(black_box(&d.job), black_box(&d.list), peer::shell_sort)),
        &mut || black_box_only(peer::check_numbers(black_box(&d.job), black_box(&d.list), peer::library_sort)),
    ]);
    let [library, shell, rust] = [0, 1, 2].map(|i| t[i].median());
    println!("| {name} | {n} | {} | {library:.1} | {shell:.1} | {:.2} | {rust:.1} | {:.2} |", ours[0], t[0].ratio(&t[1]), t[0].ratio(&t[2]));
}

fn main() {
    println!("## Reading\n\n| text | bytes | library, us | plain Rust, us | ratio |\n|---|---|---|---|---|");
    let job = "1\n10 6 0\n1\n5 3 15 4\n";
    // 32,768 bytes of placements: one line more than a plan may have is enough for refusal 2, told when all is read
    let lines = (32_768 - job.len() - 5) / 18;
    let mut text = format!("{job}{lines}\n");
    text += &"12345 67890 12345\n".repeat(lines - 1);
    text += &format!("12345 67890 {}\n", "1".repeat(32_768 - text.len() - 13));
    assert_eq!(text.len(), 32_768);
    read("placement lines, more than a plan may have", text.as_bytes(), [2, 9, 0, 0]);
    let broken = [&text.as_bytes()[..32_767], b"x"].concat();
    read("the same, with its last byte damaged", &broken, [1, 32_767, 0, 0]);
    let digits = (32_768 - job.len() - 5) / 6;
    let mut short = format!("{job}{digits}\n");
    short += &"1 0 0\n".repeat(digits);
    read("the same, of one digit each", short.as_bytes(), [2, 9, 0, 0]);
    let kept = format!("{job}600\n{}", "12345678 12345678 12345678\n".repeat(600));
    read("600 placements, kept", kept.as_bytes(), [6, 0, 0, 0]);

    println!("\n## Checking\n\n| list | pieces | answer | library, us | plain Rust (Shell's sort), us | ratio | plain Rust (its own sort), us | ratio |\n|---|---|---|---|---|---|---|---|");
    for n in [75, 150, 300, 600] {
        check("staircase, one piece freed each turn", n, &staircase(n));
    }
    for n in [75, 150, 300, 600] {
        check("staircase, scattered", n, &scattered_staircase(n));
    }
    for (n, columns) in [(75, 15), (150, 15), (300, 20), (600, 24)] {
        check("grid, scattered", n, &grid(n, columns));
    }
    for n in [75, 150, 300, 600] {
        check("open pinwheels, nested", n, &pinwheels(n, false));
    }
    for n in [76, 152, 300, 600] {
        check("closed pinwheels, nested", n, &pinwheels(n, true));
    }
}
