//! The lines of one destination in plain Rust by other ways to the same, where those are faster: Dijkstra for the distances, sets of routers as bits, and each
//! row sorted when its router is placed, with no table between.
use crate::plain::{Arcs, Topology, NEIGHBOURS, ROUTERS};

/// The places of a set of bits.
fn places(set: u64) -> impl Iterator<Item = usize> {
    let mut rest = set;
    std::iter::from_fn(move || {
        let first = rest.trailing_zeros() as usize;
        (rest != 0).then(|| {
            rest &= rest - 1;
            first % ROUTERS
        })
    })
}

/// The arcs of the router at u: place, the cost of sending there, and that of sending back.
fn arcs(a: &Arcs, u: usize) -> impl Iterator<Item = (usize, u32, u32)> + '_ {
    let slots = u * NEIGHBOURS..u * NEIGHBOURS + a.count[u] as usize;
    let costs = a.cost[slots.clone()].iter().zip(&a.back[slots.clone()]);
    a.to[slots].iter().zip(costs).map(|(&v, (&cost, &back))| (v as usize % ROUTERS, cost as u32, back as u32))
}

/// What is known of one destination.
pub struct Lines {
    pub rank: [u8; ROUTERS],
    pub greatest: [u8; ROUTERS],
    pub count: [u8; ROUTERS],
    pub row: [[u8; NEIGHBOURS]; ROUTERS],
}

impl Lines {
    /// Every router as one that has no path.
    pub fn blank() -> Lines {
        Lines { rank: [255; ROUTERS], greatest: [255; ROUTERS], count: [0; ROUTERS], row: [[0; NEIGHBOURS]; ROUTERS] }
    }

    fn clear(&mut self) {
        (self.rank, self.greatest, self.count) = ([255; ROUTERS], [255; ROUTERS], [0; ROUTERS]);
    }
}

/// The distances, and how many shortest next hops each router has: all of them are done before it is the nearest.
fn distances(a: &Arcs, d: usize) -> ([u32; ROUTERS], [u8; ROUTERS]) {
    let mut ds = [u32::MAX; ROUTERS];
    let mut left = [0; ROUTERS];
    ds[d] = 0;
    let mut open = 1u64 << d;
    while open != 0 {
        let (mut u, mut nearest) = (0, u32::MAX);
        for v in places(open) {
            if ds[v] < nearest {
                (u, nearest) = (v, ds[v]);
            }
        }
        open ^= 1 << u;
        for (v, _, back) in arcs(a, u) {
            let through = nearest + back;
            if through < ds[v] {
                ds[v] = through;
                left[v] = 1;
                open |= 1 << v;
            } else if through == ds[v] {
                left[v] += 1;
            }
        }
    }
    (ds, left)
}

/// Fills in the lines of a destination. Where no router is ready, all that have a path are placed.
pub fn fill(t: &Topology, a: &Arcs, d: usize, lines: &mut Lines) {
    lines.clear();
    let (ds, mut left) = distances(a, d);
    let mut weight: [u64; ROUTERS] = std::array::from_fn(|u| t.id[u] as u64);
    let mut keys = [0; NEIGHBOURS];
    let (mut placed, mut ready, mut next) = (0u64, 0u64, d);
    for rank in 0..t.routers {
        let u = next;
        let mut n = 0;
        for (v, cost, back) in arcs(a, u) {
            if placed >> v & 1 == 1 {
                let mut carried = ((cost + ds[v]) as u64) << 40 | ((u32::MAX - t.id[v]) as u64) << 8 | v as u64;
                for here in &mut keys[..n] {
                    (*here, carried) = ((*here).min(carried), (*here).max(carried));
                }
                keys[n] = carried;
                n += 1;
            } else {
                weight[v] += 1 << 32;
                if ds[u] + back == ds[v] {
                    left[v] -= 1;
                    ready |= u64::from(left[v] == 0) << v;
                }
            }
        }
        let n = n.min(t.limit as usize);
        let mut greatest = 0;
        for (entry, key) in lines.row[u].iter_mut().zip(&keys[..n]) {
            *entry = *key as u8;
            greatest = greatest.max(lines.greatest[*key as usize % ROUTERS] + 1);
        }
        (lines.rank[u], lines.greatest[u], lines.count[u]) = (rank as u8, greatest, n as u8);
        placed |= 1 << u;
        ready &= !(1 << u);
        if ready == 0 {
            break;
        }
        let mut most = 0;
        for v in places(ready) {
            if weight[v] >= most {
                (next, most) = (v, weight[v]);
            }
        }
    }
}
