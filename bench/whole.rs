//! The test of a schedule's length, made as often as it is told: by adding up row lengths, as `is_whole` of `forwarding_steps` does, or by a division; or neither, for
//! what the loop around it takes. Arguments: added, divided or neither, the rows, the links, how often. Prints the nanoseconds of one test; with a further
//! argument nothing, so that the instructions of a run repeat.

use std::hint::black_box;
use std::time::Instant;

#[inline(never)]
fn added(n: usize, links: usize, bytes: usize) -> bool {
    if links == 0 {
        return bytes == 0;
    }
    let mut at = 0;
    let mut rows = 0;
    while at < bytes {
        if bytes - at < links {
            return false;
        }
        at += links;
        rows += 1;
    }
    n - 1 <= rows
}

#[inline(never)]
fn divided(n: usize, links: usize, bytes: usize) -> bool {
    if links == 0 {
        return bytes == 0;
    }
    bytes % links == 0 && n - 1 <= bytes / links
}

#[inline(never)]
fn neither(_: usize, _: usize, _: usize) -> bool {
    true
}

fn main() {
    let words: Vec<String> = std::env::args().skip(1).collect();
    let test = match words[0].as_str() {
        "added" => added,
        "divided" => divided,
        _ => neither,
    };
    let [rows, links, times] = [1, 2, 3].map(|i| words[i].parse::<usize>().unwrap());
    let began = Instant::now();
    for _ in 0..times {
        assert!(test(black_box(2), black_box(links), black_box(rows * links)));
    }
    if words.len() == 4 {
        println!("{:.1}", began.elapsed().as_nanos() as f64 / times as f64);
    }
}
