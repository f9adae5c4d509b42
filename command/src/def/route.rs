//! The routing of one net as its statement has it: paths, and vias between their layers.

use super::layers::{layer, Vias};
use super::place::{brief, Reason};
use super::scan::Word;
use std::collections::HashMap;

#[derive(Clone, Copy, Debug, PartialEq, Eq, Hash, PartialOrd, Ord)]
pub struct Point {
    pub x: i64,
    pub y: i64,
}

/// A point on a layer.
#[derive(Clone, Copy, Debug, PartialEq, Eq, Hash, PartialOrd, Ord)]
pub struct Node {
    pub point: Point,
    pub layer: u8,
}

/// A point of a path, and the place of its '(' in the text.
#[derive(Clone, Copy)]
pub struct Spot {
    pub point: Point,
    pub at: usize,
}

pub struct Path {
    pub layer: u8,
    pub spots: Vec<Spot>,
}

/// It joins all layers from the lowest to the highest.
#[derive(Clone, Copy)]
pub struct Via {
    pub point: Point,
    pub low: u8,
    pub high: u8,
    pub at: usize,
}

#[derive(Default)]
pub struct Route {
    pub paths: Vec<Path>,
    pub vias: Vec<Via>,
    /// It names no via: the vias are those that the library's own form has.
    pub own_form: bool,
}

/// A whole number of 32 bits.
pub fn whole(word: &[u8]) -> Option<i64> {
    let value: i32 = std::str::from_utf8(word).ok()?.parse().ok()?;
    (word[0] != b'+').then_some(value.into())
}

impl Route {
    /// From the words behind a net's name, which stands at a place, to its ';'.
    pub fn of(words: &[Word], at: usize, vias: &Vias) -> Result<Route, Reason> {
        let mut reader = Reader {
            words,
            k: 0,
            vias,
            end: words.last().map_or(at, Word::end),
            route: Route::default(),
        };
        while let Some(word) = reader.next() {
            let wiring = ["ROUTED", "FIXED", "COVER", "NOSHIELD"];
            if word.is("+") && reader.peek().is_some_and(|next| next.any(&wiring)) {
                reader.k += 1;
                reader.wiring()?;
            }
        }
        if !words.last().is_some_and(|word| word.is(";")) {
            return Err(Reason::text(reader.end, "its ';' is missing".into()));
        }
        let mut route = reader.route;
        if route.paths.is_empty() {
            return Err(Reason::text(at, "it has no route".into()));
        }
        if route.vias.is_empty() {
            route.own_form = true;
            route.climb();
        }
        Ok(route)
    }

    /// Where no via is named, a path that begins at a point known only on other layers changes from the first of these.
    fn climb(&mut self) {
        let mut known: HashMap<Point, Vec<u8>> = HashMap::new();
        for path in &self.paths {
            for (k, spot) in path.spots.iter().enumerate() {
                let layers = known.entry(spot.point).or_default();
                if layers.contains(&path.layer) {
                    continue;
                }
                if let (0, Some(&first)) = (k, layers.first()) {
                    self.vias.push(Via {
                        point: spot.point,
                        low: first.min(path.layer),
                        high: first.max(path.layer),
                        at: spot.at,
                    });
                }
                layers.push(path.layer);
            }
        }
    }

    pub fn spots(&self) -> impl Iterator<Item = &Spot> {
        self.paths.iter().flat_map(|path| &path.spots)
    }
}

struct Reader<'a, 'b> {
    words: &'b [Word<'a>],
    k: usize,
    vias: &'b Vias<'a>,
    /// Where the text of the net ends.
    end: usize,
    route: Route,
}

impl<'a> Reader<'a, '_> {
    fn peek(&self) -> Option<Word<'a>> {
        self.words.get(self.k).copied()
    }

    fn next(&mut self) -> Option<Word<'a>> {
        let word = self.peek();
        self.k += usize::from(word.is_some());
        word
    }

    /// What was expected is not what stands here.
    fn wrong(&self, word: Option<Word>, expected: &str) -> Reason {
        match word {
            Some(word) => {
                let message = format!("'{}' stands where {expected}", brief(word.bytes));
                Reason::text(word.at, message)
            }
            None => Reason::text(self.end, format!("it ends where {expected}")),
        }
    }

    /// Paths with 'NEW' between them, up to a '+' or ';'.
    fn wiring(&mut self) -> Result<(), Reason> {
        loop {
            let word = self.next();
            let Some(layer) = word.and_then(|word| layer(word.bytes)) else {
                return Err(self.wrong(word, "a layer, metal1 to metal16, should stand"));
            };
            self.path(layer)?;
            if !self.peek().is_some_and(|word| word.is("NEW")) {
                return Ok(());
            }
            self.k += 1;
        }
    }

    /// Points and vias, up to a word that ends the path. Behind a via the path goes on on the via's other layer.
    fn path(&mut self, layer: u8) -> Result<(), Reason> {
        let begin = |layer| Path {
            layer,
            spots: Vec::new(),
        };
        let mut path = begin(layer);
        let mut last = None;
        loop {
            let word = self.peek();
            match word {
                Some(word) if word.any(&["NEW", "+", ";"]) => break,
                None => break,
                Some(word) if word.is("(") => {
                    let spot = self.spot(last)?;
                    path.spots.push(spot);
                    last = Some(spot);
                }
                Some(word) if self.passed(word) => {
                    if word.is("VIRTUAL") {
                        // no metal leads to the next point
                        let layer = path.layer;
                        self.route
                            .paths
                            .push(std::mem::replace(&mut path, begin(layer)));
                    }
                }
                Some(_) => {
                    let other = self.via(path.layer, last)?;
                    let done = std::mem::replace(&mut path, begin(other));
                    self.route.paths.push(done);
                    path.spots.extend(last);
                }
            }
        }
        if last.is_none() {
            return Err(self.wrong(self.peek(), "a point, '( X Y )', should stand"));
        }
        self.route.paths.push(path);
        Ok(())
    }

    /// Passes over words that add no wire: rules, styles, masks and rectangles.
    fn passed(&mut self, word: Word) -> bool {
        let words = if word.any(&["TAPER", "VIRTUAL"]) {
            1
        } else if word.any(&["TAPERRULE", "STYLE", "MASK"]) {
            2
        } else if word.is("RECT") {
            let rest = &self.words[self.k..];
            let close = rest.iter().position(|word| word.is(")"));
            close.map_or(rest.len(), |close| close + 1)
        } else {
            return false;
        };
        self.k = (self.k + words).min(self.words.len());
        true
    }

    /// '( X Y )', where '*' is the coordinate of the point before; an extension may stand behind.
    fn spot(&mut self, last: Option<Spot>) -> Result<Spot, Reason> {
        let at = self.next().map_or(self.end, |word| word.at);
        let x = self.coordinate(last.map(|last| last.point.x))?;
        let y = self.coordinate(last.map(|last| last.point.y))?;
        if self.peek().is_some_and(|word| whole(word.bytes).is_some()) {
            self.k += 1;
        }
        match self.next() {
            Some(word) if word.is(")") => Ok(Spot {
                point: Point { x, y },
                at,
            }),
            word => Err(self.wrong(word, "')' should close the point")),
        }
    }

    fn coordinate(&mut self, last: Option<i64>) -> Result<i64, Reason> {
        let word = self.next();
        let value = match word {
            Some(word) if word.is("*") => last,
            Some(word) => whole(word.bytes),
            None => None,
        };
        value.ok_or_else(|| self.wrong(word, "a coordinate, a whole number, should stand"))
    }

    /// A via at the point before, and the layer it leads to.
    fn via(&mut self, layer: u8, last: Option<Spot>) -> Result<u8, Reason> {
        let word = self.next();
        let (Some(word), Some(spot)) = (word, last) else {
            return Err(self.wrong(word, "a point, '( X Y )', should stand"));
        };
        let name = brief(word.bytes);
        let Some((low, high)) = self.vias.span(word.bytes) else {
            let message = format!("the layers of via '{name}' are not known: VIAS has none of this name, and the name does not say them");
            return Err(Reason::text(word.at, message));
        };
        let other = match layer {
            _ if layer == low => high,
            _ if layer == high => low,
            _ => {
                let message = format!("via '{name}' joins metal{low} and metal{high}, and the path is on metal{layer}");
                return Err(Reason::text(word.at, message));
            }
        };
        self.orientation();
        self.route.vias.push(Via {
            point: spot.point,
            low,
            high,
            at: word.at,
        });
        Ok(other)
    }

    /// A via may be turned; it joins the same layers.
    fn orientation(&mut self) {
        let turned = ["N", "S", "E", "W", "FN", "FS", "FE", "FW"];
        self.k += usize::from(self.peek().is_some_and(|word| word.any(&turned)));
    }
}
