//! What bench/run, bench/count and bench/walks compare with the proved program: the same work in plain Rust, and plain Dijkstra. Both take the proved
//! program's input: the kind, how often, and a topology stream. The kind is the mode, `s` or `f` for orders and `S` or `F` for tables; `g` for greatest hop
//! counts, `w` for walks, `W` for walks over ten times the rows. In `blocks` the states of a schedule are tested in blocks, in `plain` one by one. `input`
//! makes the input: it takes a network's name, the kind and how often.
mod plain;
#[allow(dead_code)]
mod reading;

use plain::{Mode, Topology, Walked, ROUTERS, TABLE};
use std::hint::black_box;
use std::io::{Read, Write};

/// The links of a network: two places each, the cost from the first to the second, and the cost back.
type Links = Vec<(u8, u8, u16, u16)>;

/// Links at one cost both ways.
fn level(links: impl Iterator<Item = (u8, u8, u16)>) -> Links {
    links.map(|(a, b, cost)| (a, b, cost, cost)).collect()
}

/// A ring in which each router is linked to the next few, the first of them at cost 1, the others at this cost.
fn ring(routers: u32, next: u32, cost: u16) -> Links {
    level((0..routers).flat_map(|u| (1..=next).map(move |k| (u as u8, ((u + k) % routers) as u8, if k == 1 { 1 } else { cost }))))
}

/// A random network of 64: a random tree, and then random links up to 256, at most 16 neighbours to a router, costs 1 to 65,535; each way, if told so.
fn random(each_way: bool) -> Links {
    let mut seed: u64 = 42;
    let mut next = |n: u64| {
        seed = seed.wrapping_mul(6364136223846793005).wrapping_add(1442695040888963407);
        (seed >> 33) % n
    };
    let mut links: Links = Vec::new();
    let mut degree = [0; 64];
    while links.len() < 256 {
        let built = links.len() as u64 + 1;
        let (a, b) = if built < 64 { (built, next(built)) } else { (next(64), next(64)) };
        let (a, b) = (a as u8, b as u8);
        let there = links.iter().any(|l| (l.0, l.1) == (a, b) || (l.1, l.0) == (a, b));
        if a == b || there || degree[a as usize] == 16 || degree[b as usize] == 16 {
            continue;
        }
        degree[a as usize] += 1;
        degree[b as usize] += 1;
        let cost = next(65535) as u16 + 1;
        links.push((a, b, cost, if each_way { next(65535) as u16 + 1 } else { cost }));
    }
    links
}

/// A grid of 8 by 8, all at cost 1: 112 links.
fn grid() -> Links {
    let across = (0..64u8).filter(|u| u % 8 < 7).map(|u| (u, u + 1, 1));
    let down = (0..56u8).map(|u| (u, u + 8, 1));
    level(across.chain(down))
}

/// A line of 64 in the order of places, all at cost 1: 63 links.
fn line() -> Links {
    level((0..63).map(|u| (u, u + 1, 1)))
}

/// A line of 64 against the order of places at cost 1, with chords over one router so dear that every shortest path goes along the line: 125 links.
fn against() -> Links {
    let along = (1..64u8).rev().map(|u| (u, u - 1, 1));
    let over = (2..64u8).rev().map(|u| (u, u - 2, 65535));
    level(along.chain(over))
}

/// A binary tree of 64, all at cost 1: 63 links.
fn tree() -> Links {
    level((1..64).map(|u| ((u - 1) / 2, u, 1)))
}

fn network(name: &str) -> Links {
    match name {
        // Each router is linked to the next four, all at cost 1: 256 links, and many equal paths.
        "ring" => ring(64, 4, 1),
        "random" => random(false),
        "slopes" => random(true),
        "grid" => grid(),
        "line" => line(),
        "against" => against(),
        // The same ring with links to all but the next so dear that every shortest path goes round the ring link by link.
        "chords" => ring(64, 4, 65535),
        "tree" => tree(),
        // For growth, of so many routers: each is linked to the next two, all at cost 1.
        _ => ring(name.strip_prefix("ring").and_then(|n| n.parse().ok()).expect("a network"), 2, 1),
    }
}

/// The input for a network, its limit, 16, first: no row is cut.
fn input(kind: u8, times: u16, links: &Links) -> Vec<u8> {
    let mut bytes = vec![kind, (times >> 8) as u8, times as u8, 8, 16];
    let last = links.iter().map(|l| l.0.max(l.1)).max().expect("links") as u32;
    for id in 1..last + 2 {
        bytes.push(1);
        bytes.extend(id.wrapping_mul(2654435761).to_be_bytes());
    }
    let mut record = |kind: u8, from: u8, to: u8, cost: u16| {
        bytes.extend([kind, from, to]);
        bytes.extend(cost.to_be_bytes());
    };
    for &(a, b, cost, back) in links {
        if cost == back {
            record(2, a, b, cost);
        } else {
            record(4, a, b, cost);
            record(4, b, a, back);
        }
    }
    bytes.push(3);
    bytes
}

fn added(sum: u32, byte: u8) -> u32 {
    (sum * 31 + byte as u32) % 65521
}

/// Here and below the topology is handed over behind a black box, so that every call makes its tests: the compiler would make one test for all calls.
fn orders(t: &Topology, mode: Mode, times: u32) -> u32 {
    let mut sum = 0;
    for _ in 0..times {
        for d in 0..t.routers as u8 {
            let mut out = [0u8; ROUTERS];
            plain::build(black_box(t), d, mode, &mut out);
            sum = out.iter().fold(sum, |s, &b| added(s, b));
        }
    }
    sum
}

fn tables(t: &Topology, mode: Mode, times: u32) -> u32 {
    let mut sum = 0;
    for _ in 0..times {
        if !plain::is_sound(black_box(t)) {
            return 0;
        }
        let a = plain::arcs_of(t);
        for d in 0..t.routers as u8 {
            let mut out = [0u8; TABLE];
            plain::table(t, &a, d, mode, &mut out);
            sum = out.iter().step_by(7).fold(sum, |s, &b| added(s, b));
        }
    }
    sum
}

/// The table of destination 0 for the order in shortest-path mode.
fn first_table(t: &Topology) -> Vec<u8> {
    let mut out = vec![0; 4 + 19 * t.routers];
    plain::table(t, &plain::arcs_of(t), 0, Mode::ShortestPath, &mut out);
    out
}

fn counts(t: &Topology, times: u32) -> u32 {
    let table = first_table(t);
    let mut sum = 0;
    for _ in 0..times {
        let mut out = [0u8; ROUTERS];
        plain::greatest_hops(black_box(t), &table, &mut out);
        sum = out.iter().fold(sum, |s, &b| added(s, b));
    }
    sum
}

/// Walks from every start over a schedule in which link l is down in row h where l + h is a multiple of three.
fn walks(t: &Topology, rows: usize, times: u32, over: impl Fn(&[u8]) -> Option<usize>) -> u32 {
    let table = first_table(t);
    let schedule: Vec<u8> = (0..rows).flat_map(|h| (0..t.links).map(move |l| u8::from((l + h) % 3 != 0))).collect();
    let mut sum = 0;
    for _ in 0..times {
        for u in 0..t.routers as u8 {
            sum = match plain::walk(black_box(t), &table, u, &schedule, &over) {
                Walked::Delivered(station, hops) => added(added(sum, station), hops),
                Walked::Dropped(station, hops) => added(added(sum, station), hops + 128),
                Walked::Refused((number, _)) => added(sum, number),
            };
        }
    }
    sum
}

fn next_hops(t: &Topology, times: u32) -> u32 {
    let mut sum = 0;
    for _ in 0..times {
        let a = plain::arcs_of(t);
        for d in 0..t.routers {
            let (_, hops) = plain::ecmp(&a, t.routers, d);
            sum = hops.iter().fold(sum, |s, &h| added(s, h as u8));
        }
    }
    sum
}

fn main() {
    let args: Vec<String> = std::env::args().collect();
    if args[1] == "input" {
        let times: u16 = args[4].parse().expect("a number");
        std::io::stdout().write_all(&input(args[3].as_bytes()[0], times, &network(&args[2]))).expect("standard output");
        return;
    }
    let mut bytes = Vec::new();
    std::io::stdin().read_to_end(&mut bytes).expect("standard input");
    let mode = if bytes[0].to_ascii_lowercase() == b's' { Mode::ShortestPath } else { Mode::Free };
    let times = u32::from(bytes[1]) * 256 + u32::from(bytes[2]);
    let t = reading::trusted(&bytes[3..]);
    match args[1].as_str() {
        "plain" if bytes[0] == b'g' => println!("{}", counts(&t, times)),
        "plain" if bytes[0] == b'w' => println!("{}", walks(&t, t.routers - 1, times, plain::first_over)),
        "plain" if bytes[0] == b'W' => println!("{}", walks(&t, 10 * (t.routers - 1), times, plain::first_over)),
        "blocks" if bytes[0] == b'w' => println!("{}", walks(&t, t.routers - 1, times, plain::first_over_in_blocks)),
        "blocks" if bytes[0] == b'W' => println!("{}", walks(&t, 10 * (t.routers - 1), times, plain::first_over_in_blocks)),
        "blocks" => println!("{}", counts(&t, times)),
        "plain" if bytes[0].is_ascii_lowercase() => println!("{}", orders(&t, mode, times)),
        "plain" => println!("{}", tables(&t, mode, times)),
        _ => println!("{}", next_hops(&t, times)),
    }
}
