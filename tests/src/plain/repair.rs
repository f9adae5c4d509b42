//! A smallest jumper set: one pass down the node numbers and one pass up, where each obstacle has been grown by the clearance.
//!
//! Wires without a point that may be cut hold their nodes together in a cluster, named by its lowest node, its root. A node whose
//! wire has such a point is a branch of the cluster its parent is in, its host. All wire of a net weighs less than 2^32.

use super::net::{net_of, Net, Versioned};
use crate::Answer;

const MOST: usize = 256;

/// What no cut can change, for each node number.
struct Clusters {
    /// The lowest and the highest position of the wire that may be cut; 0 if there is none.
    low: [u16; MOST],
    high: [u16; MOST],
    factor: [u8; MOST],
    root: [u8; MOST],
    /// A branch's host; otherwise the node itself, which is no node's host below it.
    host: [u8; MOST],
    weight: [u32; MOST],
    gate: [bool; MOST],
}

impl Clusters {
    /// The weight of a branch's wire between the lowest and the highest point that may be cut.
    fn between(&self, r: usize) -> u32 {
        u32::from(self.factor[r]) * u32::from(self.high[r] - self.low[r])
    }
}

fn clusters(net: Net<9>, stage: u32) -> Clusters {
    let mut c = Clusters {
        low: [0; MOST],
        high: [0; MOST],
        factor: [0; MOST],
        root: [0; MOST],
        host: [0; MOST],
        weight: [0; MOST],
        gate: [false; MOST],
    };
    let mut component = [0u8; MOST];
    let mut source = [false; MOST];
    for (i, node) in net.nodes.iter().enumerate() {
        component[i] = i as u8;
        c.root[i] = i as u8;
        c.host[i] = i as u8;
        if i > 0 && u32::from(net.layer(i)) <= stage {
            let wire = net.wire(i);
            let factor = u32::from(wire.factor);
            component[i] = component[wire.parent];
            let above = c.root[wire.parent];
            let low = net.lowest(&wire);
            if low > 0 {
                let high = net.highest(&wire, wire.length - 1);
                (c.low[i], c.high[i], c.factor[i]) = (low as u16, high as u16, wire.factor);
                c.host[i] = above;
                c.weight[i] += factor * low;
                c.weight[usize::from(above)] += factor * (wire.length - high);
            } else {
                c.root[i] = above;
                c.weight[usize::from(above)] += factor * wire.length;
            }
        }
        source[usize::from(component[i])] |= node[4] & 2 != 0;
    }
    for (i, node) in net.nodes.iter().enumerate() {
        if node[4] & 1 != 0 && !source[usize::from(component[i])] {
            c.gate[usize::from(c.root[i])] = true;
        }
    }
    c
}

/// What the pass down finds for each node number.
struct Counts {
    /// Fewest points in the branch; least weight it adds with them; least weight it adds without a gate.
    fewest: [u16; MOST],
    adds: [u32; MOST],
    ungated: [Option<u32>; MOST],
    any_ok: [bool; MOST],
    closed: [u32; MOST],
    shut: [bool; MOST],
    near: [u16; MOST],
    total: usize,
}

impl Counts {
    const EMPTY: Counts = Counts {
        fewest: [0; MOST],
        adds: [0; MOST],
        ungated: [None; MOST],
        any_ok: [false; MOST],
        closed: [0; MOST],
        shut: [false; MOST],
        near: [0; MOST],
        total: 0,
    };
}

/// The pass down, into empty counts; none if no set is legal. A function of its own, so that its loops keep in registers what they need.
#[inline(never)]
fn count_pass(net: Net<9>, c: &Clusters, limit: u32, k: &mut Counts) -> Option<()> {
    let n = net.count();
    let hosts = &c.host[..n];
    for r in (0..n).rev() {
        let root = r as u8;
        if c.root[r] != root {
            continue;
        }
        let (mut points, mut without) = (0, 0);
        let (mut sum_adds, mut sum_ungated) = (0, 0);
        for j in r + 1..n {
            if hosts[j] == root {
                points += k.fewest[j];
                sum_adds += k.adds[j];
                match k.ungated[j] {
                    Some(u) => sum_ungated += u,
                    None => without += 1,
                }
            }
        }
        let fixed = c.weight[r];
        let any = if fixed > limit {
            None
        } else {
            let mut cut = 0;
            while fixed + sum_adds > limit {
                // the heaviest, the lowest of several; what is cut adds nothing more
                let (mut most, mut heaviest) = (0, 0);
                for j in r + 1..n {
                    if hosts[j] == root && k.adds[j] > most {
                        (most, heaviest) = (k.adds[j], j);
                    }
                }
                k.shut[heaviest] = true;
                k.adds[heaviest] = 0;
                sum_adds -= most;
                cut += 1;
            }
            Some(cut)
        };
        let none = if c.gate[r] { None } else { Some(without) };
        let (any_ok, ungated_ok) = match (any, none) {
            (None, None) => return None,
            (Some(a), Some(u)) => (a <= u, u <= a),
            (a, u) => (a.is_some(), u.is_some()),
        };
        points += if any_ok { any? } else { none? };
        let ungated = ungated_ok.then_some(fixed + sum_ungated);
        let closed = if any_ok { fixed + sum_adds } else { ungated? };
        k.any_ok[r] = any_ok;
        k.closed[r] = closed;
        if c.low[r] == 0 {
            k.total += usize::from(points);
            continue;
        }
        let between = c.between(r);
        k.fewest[r] = points;
        match ungated {
            Some(u) => {
                k.ungated[r] = Some(u + between);
                k.adds[r] = if closed + between <= limit {
                    closed + between
                } else {
                    u + between
                };
            }
            None if closed + between <= limit => k.adds[r] = closed + between,
            None => {
                let factor = u32::from(c.factor[r]);
                let farthest = u32::from(c.low[r]) + (limit - closed) / factor;
                let near = net.highest(&net.wire(r), farthest);
                k.fewest[r] += 1;
                k.near[r] = near as u16;
                k.adds[r] = factor * (u32::from(c.high[r]) - near);
                k.ungated[r] = Some(k.adds[r]);
            }
        }
    }
    Some(())
}

pub fn repair(stage: u32, limit: u32, clearance: u16, file: &[u8], out: &mut [u8]) -> Answer {
    if stage == 0 || stage > 16 {
        return Answer::refused(1, 0);
    }
    // for obstacles that the file has without a layer, or smaller than they count
    let mut table;
    let net = match net_of(file) {
        Ok(Versioned::One(net)) if net.obstacles.is_empty() => net.grown(0, &mut []),
        Ok(Versioned::One(net)) => {
            table = [[0; 9]; MOST];
            net.grown(clearance, &mut table)
        }
        Ok(Versioned::Two(net)) if clearance == 0 || net.obstacles.is_empty() => net,
        Ok(Versioned::Two(net)) => {
            table = [[0; 9]; MOST];
            net.grown(clearance, &mut table)
        }
        Err(refusal) => return refusal,
    };
    repair_of(net, stage, limit, out)
}

fn repair_of(net: Net<9>, stage: u32, limit: u32, out: &mut [u8]) -> Answer {
    let c = clusters(net, stage);
    let mut k = Counts::EMPTY;
    if count_pass(net, &c, limit, &mut k).is_none() {
        return Answer::refused(15, 0);
    }
    if 3 * k.total > out.len() {
        return Answer::refused(16, 3 * k.total);
    }
    // the pass up: which roots stay without a gate, and which points are taken
    let mut ungated = [false; MOST];
    let mut entries = out.as_chunks_mut::<3>().0.iter_mut();
    let mut push = |wire: usize, position: u16| {
        if let Some(entry) = entries.next() {
            let [low, high] = position.to_le_bytes();
            *entry = [wire as u8, low, high];
        }
    };
    for r in 0..net.count() {
        if usize::from(c.root[r]) != r {
            continue;
        }
        if c.low[r] == 0 {
            ungated[r] = !k.any_ok[r];
            continue;
        }
        let above = ungated[usize::from(c.host[r])];
        let cut = if above {
            k.ungated[r].is_none()
        } else {
            k.shut[r]
        };
        if k.near[r] > 0 {
            push(r, k.near[r]);
        } else if above && !cut {
            ungated[r] = true;
        } else {
            ungated[r] = !(k.any_ok[r] && k.closed[r] + c.between(r) <= limit);
        }
        if cut {
            push(r, c.high[r]);
        }
    }
    Answer::done(k.total)
}
