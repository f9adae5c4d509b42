//! Wires step by step: of a net as a router writes it, and of a net file. Nothing here is the command's.

use antenna_tests::reference::net::Net;
use std::collections::{BTreeMap, BTreeSet};

/// A step: layer, x and y of its lower end, whether it runs along y.
pub type Step = (u8, i64, i64, bool);

/// A layer, x and y.
pub type At = (u8, i64, i64);

/// Steps between ends, and vias between ends, which a stage has from a layer on.
#[derive(Default)]
pub struct Metal {
    pub ends: usize,
    pub steps: Vec<(Step, usize, usize)>,
    pub vias: Vec<(u8, usize, usize)>,
    /// The ends at points on layers, of a net of the router.
    pub points: BTreeMap<At, usize>,
    /// The points that its text names.
    pub named: BTreeSet<At>,
}

/// The step between neighbouring points.
fn step(layer: u8, a: (i64, i64), b: (i64, i64)) -> Step {
    (layer, a.0.min(b.0), a.1.min(b.1), a.0 == b.0)
}

/// The points from one to another.
pub fn points(a: (i64, i64), b: (i64, i64)) -> Vec<(i64, i64)> {
    assert!(a.0 == b.0 || a.1 == b.1);
    let (dx, dy) = ((b.0 - a.0).signum(), (b.1 - a.1).signum());
    let length = (b.0 - a.0).abs() + (b.1 - a.1).abs();
    let points = (0..=length).map(|t| (a.0 + t * dx, a.1 + t * dy));
    points.collect()
}

impl Metal {
    /// Of the words behind '+ ROUTED' as qrouter writes them, moved. A via of more than two layers is a stack.
    pub fn of_router(words: &[&str], moved: (i64, i64)) -> Metal {
        let mut metal = Metal::default();
        let (mut layer, mut last, mut begun) = (0, (0, 0), false);
        let mut k = 0;
        while k < words.len() {
            let word = words[k];
            if let Some(number) = word.strip_prefix("metal") {
                (layer, begun) = (number.parse().unwrap(), false);
                k += 1;
            } else if word == "(" {
                let value = |word: &str, last: i64, moved: i64| match word {
                    "*" => last,
                    _ => word.parse::<i64>().unwrap() + moved,
                };
                let x = value(words[k + 1], last.0, moved.0);
                let y = value(words[k + 2], last.1, moved.1);
                assert_eq!(words[k + 3], ")");
                if begun {
                    metal.draw(layer, last, (x, y));
                }
                metal.named.insert((layer, x, y));
                (last, begun) = ((x, y), true);
                k += 4;
            } else {
                if let Some((high, low)) = word.strip_prefix('M').and_then(|w| w.split_once("_M")) {
                    let (high, low): (u8, u8) = (high.parse().unwrap(), low.parse().unwrap());
                    for low in low..high {
                        let (a, b) = (metal.end(low, last), metal.end(low + 1, last));
                        metal.vias.push((low + 1, a, b));
                    }
                } else {
                    assert_eq!(word, "NEW");
                }
                k += 1;
            }
        }
        metal.steps.sort();
        metal.steps.dedup();
        metal.vias.sort();
        metal.vias.dedup();
        metal
    }

    fn end(&mut self, layer: u8, (x, y): (i64, i64)) -> usize {
        let next = self.ends;
        let end = *self.points.entry((layer, x, y)).or_insert(next);
        self.ends = self.ends.max(end + 1);
        end
    }

    fn draw(&mut self, layer: u8, a: (i64, i64), b: (i64, i64)) {
        let along = points(a, b);
        for pair in along.windows(2) {
            let key = step(layer, pair[0], pair[1]);
            let mut ends = [self.end(layer, pair[0]), self.end(layer, pair[1])];
            ends.sort();
            self.steps.push((key, ends[0], ends[1]));
        }
    }

    /// Of a net file: only its nodes join wires. The ends inside wire i, by their position, are returned too.
    pub fn of_net(net: &Net) -> (Metal, Vec<Inside>) {
        let mut metal = Metal {
            ends: net.nodes.len(),
            ..Metal::default()
        };
        let mut inside = Vec::new();
        let at = |i: usize| (i64::from(net.nodes[i].x), i64::from(net.nodes[i].y));
        for i in 1..net.nodes.len() {
            let (layer, parent) = (net.wire(i).layer, net.parent(i));
            assert_eq!(net.wire(i).factor, 1);
            let along = points(at(i), at(parent));
            if along.len() == 1 {
                metal.vias.push((layer, i, parent));
                continue;
            }
            let mut last = i;
            for (t, pair) in along.windows(2).enumerate() {
                let mut to = parent;
                if t + 2 < along.len() {
                    to = metal.ends;
                    metal.ends += 1;
                    let (x, y) = pair[1];
                    let at = (layer, x, y);
                    inside.push(Inside { at, end: to });
                }
                metal.steps.push((step(layer, pair[0], pair[1]), last, to));
                last = to;
            }
        }
        metal.steps.sort();
        (metal, inside)
    }

    pub fn steps(&self) -> Vec<Step> {
        self.steps.iter().map(|(step, _, _)| *step).collect()
    }

    /// The ends at which two steps meet and nothing else, and that the text does not name: points for jumpers.
    pub fn plain(&self) -> BTreeMap<At, usize> {
        let mut met = vec![0; self.ends];
        for &(_, a, b) in &self.steps {
            met[a] += 1;
            met[b] += 1;
        }
        for &(_, a, b) in &self.vias {
            met[a] += 3;
            met[b] += 3;
        }
        let points = self.points.iter().map(|(at, end)| (*at, *end));
        points
            .filter(|(at, end)| met[*end] == 2 && !self.named.contains(at))
            .collect()
    }
}

/// An end inside a wire.
pub struct Inside {
    pub at: At,
    pub end: usize,
}
