//! The writers in plain Rust, by the library's method: all bytes that are asked for, into lent bytes, or none where they do not fit.

fn digit_count(n: u64) -> usize {
    let (mut count, mut left) = (1, n / 10);
    while 0 < left {
        count += 1;
        left /= 10;
    }
    count
}

/// A number in decimal digits and the byte behind it, into the front of a slice that has room for them: the place behind.
fn put_number(mut n: u64, end: u8, out: &mut [u8]) -> usize {
    let mut scratch = [0; 20];
    let mut from = scratch.len();
    loop {
        from -= 1;
        scratch[from] = b'0' + (n % 10) as u8;
        n /= 10;
        if n == 0 {
            break;
        }
    }
    let digits = &scratch[from..];
    out[..digits.len()].copy_from_slice(digits);
    out[digits.len()] = end;
    digits.len() + 1
}

fn needed(numbers: &[u64]) -> usize {
    numbers.iter().map(|&n| digit_count(n) + 1).sum()
}

fn put_line(numbers: &[u64], out: &mut [u8]) -> usize {
    let mut at = 0;
    for (i, &n) in numbers.iter().enumerate() {
        at += put_number(n, if i + 1 < numbers.len() { b' ' } else { b'\n' }, &mut out[at..]);
    }
    at
}

/// How a line of numbers is written: how many bytes, or none where they do not fit.
pub type Line = fn(&[u64], &mut [u8]) -> Option<usize>;

/// A line of numbers, one space between.
pub fn line(numbers: &[u64], out: &mut [u8]) -> Option<usize> {
    (needed(numbers) <= out.len()).then(|| put_line(numbers, out))
}

/// The same by Rust's own formatting.
pub fn formatted_line(numbers: &[u64], out: &mut [u8]) -> Option<usize> {
    use std::io::Write;
    let room = out.len();
    let mut rest = out;
    for (i, n) in numbers.iter().enumerate() {
        write!(rest, "{}{}", n, if i + 1 < numbers.len() { ' ' } else { '\n' }).ok()?;
    }
    Some(room - rest.len())
}

/// A placement section: its count, and a line for each placement.
pub fn placement_section(list: &[u64], out: &mut [u8]) -> Option<usize> {
    let count = [(list.len() / 3) as u64];
    let lines = list.chunks_exact(3);
    if needed(&count) + lines.clone().map(needed).sum::<usize>() > out.len() {
        return None;
    }
    let mut at = put_line(&count, out);
    for l in lines {
        at += put_line(l, &mut out[at..]);
    }
    Some(at)
}
