//! The least number of jumpers by a table over node and jumper count, for nets too large to try every set.
//!
//! For a node and a number of jumpers below it: the least weight of the piece open at the node, if that piece has a gate, and if it
//! has none. A component with a source needs no jumper. Of a wire's jumpers only the lowest and the highest matter: the pieces
//! between them have no node.

use super::net::Net;

const NONE: u64 = u64::MAX;

/// Least weights of the open piece by the number of jumpers.
#[derive(Clone)]
struct Open {
    gated: Vec<u64>,
    plain: Vec<u64>,
}

impl Open {
    fn new(most: usize) -> Open {
        Open {
            gated: vec![NONE; most + 1],
            plain: vec![NONE; most + 1],
        }
    }

    fn most(&self) -> usize {
        self.gated.len() - 1
    }
}

fn lower(cell: &mut u64, weight: u64) {
    *cell = (*cell).min(weight);
}

/// The open piece of a parent with one more branch.
fn join(parent: &Open, branch: &Open, limit: u64) -> Open {
    let mut joined = Open::new(parent.most() + branch.most());
    for a in 0..=parent.most() {
        for (weight, gate) in [(parent.gated[a], true), (parent.plain[a], false)] {
            if weight == NONE {
                continue;
            }
            for b in 0..=branch.most() {
                if branch.gated[b] != NONE && weight + branch.gated[b] <= limit {
                    lower(&mut joined.gated[a + b], weight + branch.gated[b]);
                }
                if branch.plain[b] != NONE {
                    let sum = weight + branch.plain[b];
                    if !gate {
                        lower(&mut joined.plain[a + b], sum);
                    } else if sum <= limit {
                        lower(&mut joined.gated[a + b], sum);
                    }
                }
            }
        }
    }
    joined
}

/// What wire i, with 0, 1 or 2 jumpers, adds to the piece open at the parent.
fn up_the_wire(net: &Net, i: usize, below: &Open, limit: u64, clearance: u16) -> Open {
    let (length, factor) = (net.length(i), net.factor(i));
    let weight = length as u64 * factor;
    let free: Vec<u64> = (1..length)
        .filter(|&t| !net.barred(i, t, clearance))
        .map(|t| t as u64)
        .collect();
    let jumpers = free.len().min(2);
    let mut above = Open::new(below.most() + jumpers);
    for c in 0..=below.most() {
        if below.plain[c] != NONE {
            lower(&mut above.plain[c], below.plain[c] + weight);
            for &t in &free {
                lower(&mut above.plain[c + 1], weight - t * factor);
            }
        }
        if below.gated[c] != NONE {
            if below.gated[c] + weight <= limit {
                lower(&mut above.gated[c], below.gated[c] + weight);
            }
            // the lower jumper at t closes the piece below
            for (k, &t) in free.iter().enumerate() {
                if below.gated[c] + t * factor > limit {
                    break;
                }
                lower(&mut above.plain[c + 1], weight - t * factor);
                if let Some(&last) = free[k + 1..].last() {
                    lower(&mut above.plain[c + 2], weight - last * factor);
                }
            }
        }
    }
    above
}

/// The least number of jumpers of a legal set, or none if no set is legal.
pub fn least(net: &Net, stage: u32, limit: u32, clearance: u16) -> Option<usize> {
    let limit = u64::from(limit);
    let count = net.nodes.len();
    let mut component = vec![0; count];
    let mut safe = vec![false; count];
    for i in 0..count {
        component[i] = if i > 0 && net.present(stage, i) {
            component[net.parent(i)]
        } else {
            i
        };
        safe[component[i]] |= net.source(i);
    }
    let mut open: Vec<Open> = (0..count)
        .map(|i| {
            let mut alone = Open::new(0);
            if net.gate(i) {
                alone.gated[0] = 0;
            } else {
                alone.plain[0] = 0;
            }
            alone
        })
        .collect();
    let mut total = 0;
    for i in (0..count).rev() {
        if safe[component[i]] {
            continue;
        }
        if component[i] == i {
            let fewest = (0..=open[i].most())
                .find(|&c| open[i].gated[c] != NONE || open[i].plain[c] != NONE);
            total += fewest?;
        } else {
            let branch = up_the_wire(net, i, &open[i], limit, clearance);
            let parent = net.parent(i);
            open[parent] = join(&open[parent], &branch, limit);
        }
    }
    Some(total)
}
