//! What bench/listing compares with the proved program `listing`: the same work in plain Rust (`plain`), plain Rust that goes other ways to the same bytes
//! (`tuned`), and plain Dijkstra for all destinations with every shortest next hop, which makes no test and prints a sum (`ecmp`). All read a topology
//! stream on standard input.
#[allow(dead_code)]
mod plain;
mod reading;
mod tuned;

use plain::{Arcs, Mode, Topology, ROUTERS, TABLE};
use std::io::{Read, Write};

/// The bytes of input that are read at most.
const INPUT: u64 = 65536;
/// Room for every listing: no line is longer than 62 bytes, 16 entries and four other numbers, of which the rank and the count may have three digits, and a
/// number is written ahead by a byte.
const LISTING: usize = 64 * ROUTERS * ROUTERS;

/// Bytes as text, a space behind each; the last byte says how many bytes they are.
const TEXT: [[u8; 8]; 256] = {
    let mut text = [[0; 8]; 256];
    let mut n = 0;
    while n < 256 {
        let (hundreds, tens, ones) = (b'0' + (n / 100) as u8, b'0' + (n / 10 % 10) as u8, b'0' + (n % 10) as u8);
        text[n] = match n {
            0..=9 => [ones, b' ', 0, 0, 0, 0, 0, 2],
            10..=99 => [tens, ones, b' ', 0, 0, 0, 0, 3],
            _ => [hundreds, tens, ones, b' ', 0, 0, 0, 4],
        };
        n += 1;
    }
    text
};

/// Text as far as it is written.
struct Page<'a> {
    bytes: &'a mut [u8],
    at: usize,
}

impl Page<'_> {
    #[inline(always)]
    fn put(&mut self, number: u8) {
        let text = TEXT[number as usize];
        self.bytes[self.at..self.at + 4].copy_from_slice(&text[..4]);
        self.at += text[7] as usize;
    }

    /// Numbers, then the row or a dash, and a newline for the last space.
    #[inline(always)]
    fn put_line(&mut self, d: u8, u: u8, rank: u8, greatest: u8, row: &[u8]) {
        for number in [d, u, rank, greatest] {
            self.put(number);
        }
        for &v in row {
            self.put(v);
        }
        if row.is_empty() {
            self.bytes[self.at] = b'-';
            self.at += 2;
        }
        self.bytes[self.at - 1] = b'\n';
    }
}

/// The lines of one destination, the topology tested and its arcs laid out.
fn put_destination(t: &Topology, a: &Arcs, d: u8, table: &mut [u8; TABLE], page: &mut Page) {
    let n = t.routers;
    let ds = plain::distances(a, n, d as usize);
    let mut order = [0; ROUTERS];
    let reached = plain::place_all(t, a, &ds, d, Mode::ShortestPath, &mut order);
    plain::fill(t, a, &ds, d, t.limit, &order[..reached], table);
    let mut greatest = [255; ROUTERS];
    for &u in &order[..reached] {
        let row = plain::entries(table, u as usize);
        greatest[u as usize] = row.iter().map(|&v| greatest[v as usize] + 1).max().unwrap_or(0);
    }
    for (u, row) in table[4..4 + 19 * n].chunks_exact(19).enumerate() {
        page.put_line(d, u as u8, row[1], greatest[u], &row[3..3 + row[2] as usize]);
    }
}

fn plain_lines(t: &Topology, a: &Arcs, page: &mut Page) {
    let mut table = [0; TABLE];
    for d in 0..t.routers as u8 {
        put_destination(t, a, d, &mut table, page);
    }
}

fn tuned_lines(t: &Topology, a: &Arcs, page: &mut Page) {
    let mut lines = tuned::Lines::blank();
    for d in 0..t.routers {
        tuned::fill(t, a, d, &mut lines);
        for u in 0..t.routers {
            let row = &lines.row[u][..lines.count[u] as usize];
            page.put_line(d as u8, u as u8, lines.rank[u], lines.greatest[u], row);
        }
    }
}

/// What the listing program prints; how the lines are made is handed over.
fn listing(input: &[u8], put_lines: impl Fn(&Topology, &Arcs, &mut Page)) -> Vec<u8> {
    let t = match reading::read(input) {
        Ok(t) => t,
        Err((number, at)) => return format!("refused {number} {at}\n").into_bytes(),
    };
    if !plain::is_sound(&t) {
        return b"refused 14 0\n".to_vec();
    }
    let mut bytes = vec![0; LISTING];
    let mut page = Page { bytes: &mut bytes, at: 0 };
    put_lines(&t, &plain::arcs_of(&t), &mut page);
    let written = page.at;
    bytes.truncate(written);
    bytes
}

/// A sum over the next hops of ECMP.
fn ecmp(input: &[u8]) -> Vec<u8> {
    let t = reading::trusted(input);
    let a = plain::arcs_of(&t);
    let mut sum = 0u64;
    for d in 0..t.routers {
        let (_, hops) = plain::ecmp(&a, t.routers, d);
        sum += hops[..t.routers].iter().map(|&h| h as u64).sum::<u64>();
    }
    format!("{sum}\n").into_bytes()
}

fn main() {
    let mut input = Vec::with_capacity(INPUT as usize);
    let _ = std::io::stdin().lock().take(INPUT).read_to_end(&mut input);
    let out = match std::env::args().nth(1).as_deref() {
        Some("ecmp") => ecmp(&input),
        Some("tuned") => listing(&input, tuned_lines),
        _ => listing(&input, plain_lines),
    };
    // Whoever reads the listing may have enough before its end.
    let _ = std::io::stdout().write_all(&out);
}
