//! Reading a topology stream in plain Rust, with every refusal of the rules, and without any.
use crate::plain::{Link, Topology, LINKS, NEIGHBOURS, ROUTERS};

const NONE: Link = Link { first: 0, second: 0, cost: 0, back: 0 };
/// The halves that a stream has at most, lone ones too.
const HALVES: usize = 2 * LINKS;

fn empty() -> Topology {
    Topology { routers: 0, links: 0, limit: 3, id: [0; ROUTERS], link: [NONE; LINKS] }
}

/// The halves listed so far: how many, by sender a bit for each receiver, and by both the cost.
struct Halves {
    count: usize,
    to: [u64; ROUTERS],
    cost: [[u16; ROUTERS]; ROUTERS],
}

impl Halves {
    fn none() -> Halves {
        Halves { count: 0, to: [0; ROUTERS], cost: [[0; ROUTERS]; ROUTERS] }
    }

    fn has(&self, from: usize, to: usize) -> bool {
        self.to[from] >> to & 1 == 1
    }

    fn crowded(&self, from: usize) -> bool {
        self.to[from].count_ones() as usize == NEIGHBOURS
    }

    /// The number of the first test that a half fails, or a link as both its halves, 5 to 10, or 0.
    fn fault(&self, routers: usize, from: u8, to: u8, cost: u16, both: bool) -> u8 {
        let (a, b) = (from as usize, to as usize);
        if a >= routers || b >= routers {
            5
        } else if a == b {
            6
        } else if cost == 0 {
            7
        } else if self.has(a, b) || both && self.has(b, a) {
            8
        } else if self.count + usize::from(both) >= HALVES {
            9
        } else if self.crowded(a) || both && self.crowded(b) {
            10
        } else {
            0
        }
    }

    /// Lists a half; where its opposite is listed, the two are the topology's next link.
    fn add(&mut self, t: &mut Topology, from: u8, to: u8, cost: u16) {
        let (a, b) = (from as usize, to as usize);
        self.count += 1;
        self.to[a] |= 1 << b;
        self.cost[a][b] = cost;
        if self.has(b, a) {
            t.link[t.links] = Link { first: to, second: from, cost: self.cost[b][a], back: cost };
            t.links += 1;
        }
    }
}

/// The topology of a stream, or the number of a refusal and where it points.
pub fn read(stream: &[u8]) -> Result<Topology, (u8, usize)> {
    let mut t = empty();
    let mut halves = Halves::none();
    let mut at = 0;
    while let [kind, rest @ ..] = &stream[at..] {
        let mut fault = 0;
        let body = match (kind, rest) {
            (1, &[a, b, c, d, ..]) => {
                let id = u32::from_be_bytes([a, b, c, d]);
                if t.id[..t.routers].contains(&id) {
                    fault = 3;
                } else if t.routers == ROUTERS {
                    fault = 4;
                } else {
                    t.id[t.routers] = id;
                    t.routers += 1;
                }
                4
            }
            (2 | 4, &[from, to, high, low, ..]) => {
                let (cost, both) = (u16::from_be_bytes([high, low]), *kind == 2);
                fault = halves.fault(t.routers, from, to, cost, both);
                if fault == 0 {
                    halves.add(&mut t, from, to, cost);
                    if both {
                        halves.add(&mut t, to, from, cost);
                    }
                }
                4
            }
            (3, []) if t.routers == 0 => return Err((12, at)),
            (3, []) => return Ok(t),
            (3, _) => return Err((11, at + 1)),
            (8, &[limit, ..]) => {
                if limit < 1 || limit > 16 {
                    fault = 16;
                }
                t.limit = limit;
                1
            }
            (1 | 2 | 4 | 8, _) => return Err((1, at)),
            _ => return Err((2, at)),
        };
        if fault != 0 {
            return Err((fault, at));
        }
        at += 1 + body;
    }
    Err((1, at))
}

/// The topology of a stream that is taken to be sound.
pub fn trusted(stream: &[u8]) -> Topology {
    let mut t = empty();
    let mut halves = Halves::none();
    let mut rest = stream;
    loop {
        rest = match *rest {
            [1, a, b, c, d, ref rest @ ..] => {
                t.id[t.routers] = u32::from_be_bytes([a, b, c, d]);
                t.routers += 1;
                rest
            }
            [2, first, second, high, low, ref rest @ ..] => {
                let cost = u16::from_be_bytes([high, low]);
                t.link[t.links] = Link { first, second, cost, back: cost };
                t.links += 1;
                rest
            }
            [4, from, to, high, low, ref rest @ ..] => {
                halves.add(&mut t, from, to, u16::from_be_bytes([high, low]));
                rest
            }
            [8, limit, ref rest @ ..] => {
                t.limit = limit;
                rest
            }
            _ => return t,
        }
    }
}
