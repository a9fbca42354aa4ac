//! What the program "batch" does with a case of kind 1 that lends no arena, in plain Rust: a header line `1 0 F B T` and T bytes, a job text, which is planned with a plan buffer of B numbers.
//! One line for each case: the answer, what is in the arena (0 for zeros) and every number of the buffer. With an argument the lines are written by Rust's own formatting.
use peers::{peer, planner_peer, writer_peer};
use std::io::{Read, Write};

const INPUT: usize = 2_097_152;
const NUMBERS: usize = 8_192;
/// 8,192 numbers of at most 20 digits, each with a byte behind it.
const LINE: usize = 172_032;
/// The numbers of an answer line before those of the buffer.
const HEAD: usize = 8;

/// Five numbers from a place on, each with a byte behind it, and the place behind them.
fn header(input: &[u8], mut at: usize) -> Option<([u64; 5], usize)> {
    let mut numbers = [0u64; 5];
    for n in numbers.iter_mut() {
        while input.get(at)?.is_ascii_digit() {
            *n = n.checked_mul(10)?.checked_add((input[at] - b'0') as u64)?;
            at += 1;
        }
        at += 1;
    }
    Some((numbers, at))
}

fn answer(text: &[u8], line: &mut [u64]) {
    let (head, buffer) = line.split_at_mut(HEAD);
    for (i, n) in buffer.iter_mut().enumerate() {
        *n = 1_000_000 + i as u64;
    }
    head[..7].copy_from_slice(&planner_peer::plan(peer::job_of_text(text), &mut [], buffer, planner_peer::class_by_class));
    head[7] = 0;
}

fn main() {
    let write: writer_peer::Line = if std::env::args().len() > 1 { writer_peer::formatted_line } else { writer_peer::line };
    let mut input = vec![];
    std::io::stdin().lock().take(INPUT as u64).read_to_end(&mut input).unwrap();
    let mut line = [0; NUMBERS];
    let mut at = 0;
    while let Some(([1, 0, _, numbers, bytes], from)) = header(&input, at) {
        at = from + bytes as usize;
        let line = &mut line[..HEAD + numbers as usize];
        answer(&input[from..at], line);
        let mut out = [0; LINE];
        if let Some(end) = write(line, &mut out) {
            std::io::stdout().write_all(&out[..end]).unwrap();
        }
    }
}
