//! The program "plan" in plain Rust: reads a job text from standard input and prints its plan, with an arena of 2,000 records.
use peers::{peer, planner_peer, writer_peer};
use std::io::{Read, Write};

const INPUT_MOST: usize = 32_768;

fn main() {
    let mut input = [0; INPUT_MOST + 1];
    let mut arena = [planner_peer::Record::default(); 2_000];
    let mut buffer = [0; 3 * peer::PIECES];
    let (mut n, mut standard_input) = (0, std::io::stdin().lock());
    while n < input.len() {
        match standard_input.read(&mut input[n..]) {
            Ok(0) | Err(_) => break,
            Ok(more) => n += more,
        }
    }
    let answer = if n > INPUT_MOST {
        [11, INPUT_MOST as u64, 0, 0, 0, 0, 0]
    } else {
        planner_peer::plan(peer::job_of_text(&input[..n]), &mut arena, &mut buffer, planner_peer::class_by_class)
    };
    let print = |bytes: &[u8]| std::io::stdout().write_all(bytes).unwrap();
    let mut out = [0; 256];
    if let Some(end) = writer_peer::line(&answer, &mut out) {
        print(&out[..end]);
    }
    if answer[0] == 0 {
        let mut out = [0; 8_192];
        if let Some(end) = writer_peer::placement_section(&buffer[..3 * answer[5] as usize], &mut out) {
            print(&out[..end]);
        }
    }
}
