//! Smallest jumper sets by trying every set of points, smaller sets first.

use super::net::Net;
use super::report::{free_points, joined, Elements, Point};

/// A stage with everything joined that no jumper can part, so that many sets can be judged.
pub struct Judge {
    points: Vec<Point>,
    /// The two parts on either side of each point.
    sides: Vec<(usize, usize)>,
    weight: Vec<u64>,
    gate: Vec<bool>,
    source: Vec<bool>,
}

impl Judge {
    pub fn new(net: &Net, stage: u32, clearance: u16) -> Judge {
        let elements = Elements::new(net, stage);
        let points = free_points(net, stage, clearance);
        let mut groups = joined(net, stage, &elements, |point| {
            points.binary_search(&point).is_ok()
        });
        let mut part_of = vec![usize::MAX; elements.count];
        let mut parts = 0;
        for e in 0..elements.count {
            let g = groups.find(e);
            if part_of[g] == usize::MAX {
                part_of[g] = parts;
                parts += 1;
            }
            part_of[e] = part_of[g];
        }
        let mut judge = Judge {
            sides: points
                .iter()
                .map(|&(i, t)| {
                    (
                        part_of[elements.step(i, t)],
                        part_of[elements.step(i, t + 1)],
                    )
                })
                .collect(),
            points,
            weight: vec![0; parts],
            gate: vec![false; parts],
            source: vec![false; parts],
        };
        for i in 0..elements.nodes {
            judge.gate[part_of[i]] |= net.gate(i);
            judge.source[part_of[i]] |= net.source(i);
        }
        for i in 1..elements.nodes {
            if net.present(stage, i) {
                for t in 1..=net.length(i) {
                    judge.weight[part_of[elements.step(i, t)]] += net.factor(i);
                }
            }
        }
        judge
    }

    pub fn points(&self) -> &[Point] {
        &self.points
    }

    /// The points whose bit is set.
    pub fn set(&self, mask: u32) -> Vec<Point> {
        (0..self.points.len())
            .filter(|&k| mask >> k & 1 == 1)
            .map(|k| self.points[k])
            .collect()
    }

    /// The set of the points whose bit is set is legal.
    pub fn legal(&self, limit: u32, mask: u32) -> bool {
        const MOST: usize = 64;
        let parts = self.weight.len();
        assert!(parts <= MOST);
        let mut above = [0u8; MOST];
        for (p, a) in above.iter_mut().enumerate() {
            *a = p as u8;
        }
        fn find(above: &[u8; MOST], mut p: usize) -> usize {
            while above[p] as usize != p {
                p = above[p] as usize;
            }
            p
        }
        for (k, &(a, b)) in self.sides.iter().enumerate() {
            if mask >> k & 1 == 0 {
                let (a, b) = (find(&above, a), find(&above, b));
                above[a.max(b)] = a.min(b) as u8;
            }
        }
        let mut weight = [0u64; MOST];
        let mut gate = [false; MOST];
        let mut source = [false; MOST];
        for p in 0..parts {
            let g = find(&above, p);
            weight[g] += self.weight[p];
            gate[g] |= self.gate[p];
            source[g] |= self.source[p];
        }
        (0..parts).all(|g| !(gate[g] && !source[g] && weight[g] > u64::from(limit)))
    }

    /// All smallest legal sets; none if no set is legal.
    pub fn smallest(&self, limit: u32, all: bool) -> Vec<u32> {
        let count = self.points.len();
        assert!(count < 25);
        let mut found = Vec::new();
        for size in 0..=count {
            let mut mask: u64 = (1 << size) - 1;
            while mask < 1 << count {
                if self.legal(limit, mask as u32) {
                    found.push(mask as u32);
                    if !all {
                        return found;
                    }
                }
                if mask == 0 {
                    break;
                }
                // the next number with as many ones
                let low = mask & mask.wrapping_neg();
                let next = mask + low;
                mask = (((mask ^ next) >> 2) / low) | next;
            }
            if !found.is_empty() {
                return found;
            }
        }
        found
    }
}

/// The least number of jumpers of a legal set, or none if no set is legal.
pub fn least(net: &Net, stage: u32, limit: u32, clearance: u16) -> Option<usize> {
    let judge = Judge::new(net, stage, clearance);
    judge
        .smallest(limit, false)
        .first()
        .map(|mask| mask.count_ones() as usize)
}

/// Every smallest legal set, each rising.
pub fn smallest_sets(net: &Net, stage: u32, limit: u32, clearance: u16) -> Vec<Vec<Point>> {
    let judge = Judge::new(net, stage, clearance);
    judge
        .smallest(limit, true)
        .into_iter()
        .map(|mask| judge.set(mask))
        .collect()
}
