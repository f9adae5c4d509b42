//! The tracks that wires run along, cut into the stretches between neighbouring points.

use super::route::Point;
use std::collections::HashMap;

/// A layer, whether the track runs along y, and its own coordinate.
#[derive(Clone, Copy, PartialEq, Eq, Hash)]
pub struct Track {
    pub layer: u8,
    pub along_y: bool,
    pub own: i64,
}

impl Track {
    /// The track from one point to another, and from where to where along it; none if they differ in x and y, or in neither.
    pub fn of(layer: u8, from: Point, to: Point) -> Option<(Track, i64, i64)> {
        let track = |along_y, own| Track {
            layer,
            along_y,
            own,
        };
        match (from.x == to.x, from.y == to.y) {
            (false, true) => Some((track(false, from.y), from.x, to.x)),
            (true, false) => Some((track(true, from.x), from.y, to.y)),
            _ => None,
        }
    }

    pub fn point(&self, along: i64) -> Point {
        match self.along_y {
            true => Point {
                x: self.own,
                y: along,
            },
            false => Point {
                x: along,
                y: self.own,
            },
        }
    }
}

/// The points of one track, and which stretches between neighbours are taken.
#[derive(Default)]
struct Cuts {
    points: Vec<i64>,
    /// For each stretch the first at or behind it that is not taken, as far as known.
    free: Vec<usize>,
}

#[derive(Default)]
pub struct Tracks(HashMap<Track, Cuts>);

impl Tracks {
    /// A track that some wire runs along.
    pub fn open(&mut self, track: Track) {
        self.0.entry(track).or_default();
    }

    /// A point, on those tracks through it that are open.
    pub fn cut(&mut self, layer: u8, point: Point) {
        for (along_y, own, along) in [(false, point.y, point.x), (true, point.x, point.y)] {
            let track = Track {
                layer,
                along_y,
                own,
            };
            if let Some(cuts) = self.0.get_mut(&track) {
                cuts.points.push(along);
            }
        }
    }

    /// After the last cut.
    pub fn close(&mut self) {
        for cuts in self.0.values_mut() {
            cuts.points.sort();
            cuts.points.dedup();
            cuts.free = (0..=cuts.points.len()).collect();
        }
    }

    /// The stretches between two points of a track that no wire has taken yet, from the first point on.
    pub fn take(&mut self, track: Track, from: i64, to: i64) -> Vec<(Point, Point)> {
        let Some(cuts) = self.0.get_mut(&track) else {
            return Vec::new();
        };
        let (low, high) = (from.min(to), from.max(to));
        let end = cuts.points.partition_point(|&along| along < high);
        let mut k = cuts.next(cuts.points.partition_point(|&along| along < low));
        let mut taken = Vec::new();
        while k < end {
            cuts.free[k] = k + 1;
            taken.push((track.point(cuts.points[k]), track.point(cuts.points[k + 1])));
            k = cuts.next(k + 1);
        }
        if from > to {
            taken.reverse();
            taken.iter_mut().for_each(|(a, b)| std::mem::swap(a, b));
        }
        taken
    }
}

impl Cuts {
    /// The first stretch at or behind one that is free; what was walked is shortened for the next time.
    fn next(&mut self, begin: usize) -> usize {
        let mut k = begin;
        while self.free[k] != k {
            k = self.free[k];
        }
        let mut walked = begin;
        while walked != k {
            walked = std::mem::replace(&mut self.free[walked], k);
        }
        k
    }
}
