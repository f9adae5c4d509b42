//! Routes from DEF: one net's routing read from DEF text (refusals 17 to 19), then the version 1 file of its sections (4 to 11, 16).
//!
//! The text is cut into words, the words give points as far as the form holds, and only then the points are made nodes.

use super::net::{write, Net, Node, Wire};
use crate::Answer;
use std::collections::HashMap;

/// A word of the text.
struct Word<'a> {
    bytes: &'a [u8],
    /// Of its first byte.
    place: usize,
}

/// A point whose `)` has been read.
struct Point {
    x: u16,
    y: u16,
    layer: u8,
    /// Of its `(`.
    place: usize,
    /// The path it belongs to, from 0, and its number there, from 0.
    path: usize,
    number: usize,
}

/// The place where the text leaves the form.
struct Left(usize);

fn words(text: &[u8], from: usize) -> Vec<Word<'_>> {
    let parts = |byte: u8| [9, 10, 13, 32].contains(&byte);
    let mut words = Vec::new();
    let mut at = from;
    while at < text.len() {
        if parts(text[at]) {
            at += 1;
            continue;
        }
        let place = at;
        while at < text.len() && !parts(text[at]) {
            at += 1;
        }
        let bytes = &text[place..at];
        words.push(Word { bytes, place });
    }
    words
}

/// A number of 1 to 5 digits, 0 to 65,535.
fn number(word: &[u8]) -> Option<u16> {
    let digits = word.iter().all(|byte| byte.is_ascii_digit());
    if !digits || word.len() > 5 {
        return None;
    }
    std::str::from_utf8(word).unwrap().parse().ok()
}

/// The layer of `metal1` to `metal16`.
fn layer(word: &[u8]) -> Option<u8> {
    (1..=16).find(|n| format!("metal{n}").as_bytes() == word)
}

struct Reader<'a> {
    words: Vec<Word<'a>>,
    /// The number of words that have been taken.
    taken: usize,
    text_length: usize,
    points: Vec<Point>,
}

impl Reader<'_> {
    /// Where the next word begins, or the text's length if there is none.
    fn place(&self) -> usize {
        self.words
            .get(self.taken)
            .map_or(self.text_length, |word| word.place)
    }

    /// Takes the next word as what it means.
    fn take<T>(&mut self, meaning: impl Fn(&[u8]) -> Option<T>) -> Result<T, Left> {
        let next = self.words.get(self.taken);
        let meant = next.and_then(|word| meaning(word.bytes));
        let meant = meant.ok_or(Left(self.place()))?;
        self.taken += 1;
        Ok(meant)
    }

    fn take_word(&mut self, wanted: &str) -> Result<(), Left> {
        self.take(|word| (word == wanted.as_bytes()).then_some(()))
    }

    fn next_is(&self, wanted: &str) -> bool {
        let next = self.words.get(self.taken);
        next.is_some_and(|word| word.bytes == wanted.as_bytes())
    }

    /// A coordinate; `*` repeats the one before, if there is one.
    fn coordinate(&mut self, before: Option<u16>) -> Result<u16, Left> {
        self.take(|word| if word == b"*" { before } else { number(word) })
    }

    fn point(&mut self, layer: u8, path: usize, number: usize) -> Result<(), Left> {
        let before = match number {
            0 => None,
            _ => self.points.last().map(|point| (point.x, point.y)),
        };
        let place = self.place();
        self.take_word("(")?;
        let x = self.coordinate(before.map(|point| point.0))?;
        let y = self.coordinate(before.map(|point| point.1))?;
        self.take_word(")")?;
        self.points.push(Point {
            x,
            y,
            layer,
            place,
            path,
            number,
        });
        Ok(())
    }

    fn path(&mut self, path: usize) -> Result<(), Left> {
        let layer = self.take(layer)?;
        self.point(layer, path, 0)?;
        self.point(layer, path, 1)?;
        let mut number = 2;
        while self.next_is("(") {
            self.point(layer, path, number)?;
            number += 1;
        }
        Ok(())
    }

    /// The place after `;`.
    fn routing(&mut self) -> Result<usize, Left> {
        self.take_word("+")?;
        self.take_word("ROUTED")?;
        self.path(0)?;
        let mut path = 1;
        while self.next_is("NEW") {
            self.take_word("NEW")?;
            self.path(path)?;
            path += 1;
        }
        let end = self.place() + 1;
        self.take_word(";")?;
        Ok(end)
    }
}

/// The nodes and wires of a routing. There may be more than a file can have.
#[derive(Default)]
struct Tree {
    nodes: Vec<Node>,
    /// The layer of each node.
    layers: Vec<u8>,
    /// Parent and layer of wire i at i - 1.
    wires: Vec<(usize, u8)>,
    /// The node at a point on a layer.
    on_layer: HashMap<(u16, u16, u8), usize>,
    /// The lowest node at a point.
    lowest: HashMap<(u16, u16), usize>,
}

impl Tree {
    fn node(&self, x: u16, y: u16, layer: u8) -> Option<usize> {
        self.on_layer.get(&(x, y, layer)).copied()
    }

    /// A new node, on its wire if it has one.
    fn add(&mut self, point: &Point, wire: Option<(usize, u8)>) -> usize {
        let (x, y, layer) = (point.x, point.y, point.layer);
        let i = self.nodes.len();
        self.nodes.push(Node { x, y, flags: 0 });
        self.layers.push(layer);
        self.wires.extend(wire);
        self.on_layer.insert((x, y, layer), i);
        self.lowest.entry((x, y)).or_insert(i);
        i
    }

    /// The node of a path's first point, if it has one or gets one.
    fn start(&mut self, point: &Point) -> Option<usize> {
        if point.path == 0 {
            return Some(self.add(point, None));
        }
        let known = self.node(point.x, point.y, point.layer);
        known.or_else(|| {
            let &lowest = self.lowest.get(&(point.x, point.y))?;
            let higher = point.layer.max(self.layers[lowest]);
            Some(self.add(point, Some((lowest, higher))))
        })
    }

    /// The new node of a later point of a path, unless the point is a node already.
    fn go_on(&mut self, point: &Point, before: usize) -> Option<usize> {
        match self.node(point.x, point.y, point.layer) {
            Some(_) => None,
            None => Some(self.add(point, Some((before, point.layer)))),
        }
    }
}

/// The tree of the points, after refusal 18.
fn tree(points: &[Point]) -> Result<Tree, Answer> {
    let mut tree = Tree::default();
    let mut before = 0;
    for point in points {
        let node = match point.number {
            0 => tree.start(point),
            _ => tree.go_on(point, before),
        };
        before = node.ok_or(Answer::refused(18, point.place))?;
    }
    Ok(tree)
}

/// Joins the pins' flags to those of their nodes, after refusal 19.
fn join(pins: &[u8], tree: &mut Tree) -> Result<(), Answer> {
    for (k, pin) in pins.chunks(6).enumerate() {
        let node = match *pin {
            [x0, x1, y0, y1, layer, _] => {
                let (x, y) = (u16::from_le_bytes([x0, x1]), u16::from_le_bytes([y0, y1]));
                tree.node(x, y, layer)
            }
            _ => None,
        };
        let node = node.ok_or(Answer::refused(19, k))?;
        tree.nodes[node].flags |= pin[5];
    }
    Ok(())
}

/// One net's routing read from a place of the text on; the place of a done answer is that after `;`, the count that of the bytes written.
pub fn def(text: &[u8], place: usize, pins: &[u8], obstacles: &[u8], out: &mut [u8]) -> Answer {
    let mut reader = Reader {
        words: words(text, place),
        taken: 0,
        text_length: text.len(),
        points: Vec::new(),
    };
    let read = reader.routing();
    // a point is whole before a later word leaves the form, so 18 is the earlier of the two
    let mut tree = match tree(&reader.points) {
        Ok(tree) => tree,
        Err(refusal) => return refusal,
    };
    let end = match read {
        Ok(end) => end,
        Err(Left(place)) => return Answer::refused(17, place),
    };
    if let Err(refusal) = join(pins, &mut tree) {
        return refusal;
    }
    let wire = |&(parent, layer): &(usize, u8)| Wire {
        // no parent is 256 or more where a file can have all the nodes
        parent: parent as u8,
        layer,
        factor: 1,
    };
    let net = Net {
        version: 1,
        wires: tree.wires.iter().map(wire).collect(),
        nodes: tree.nodes,
        obstacles: Vec::new(),
    };
    let (nodes, wires) = (net.node_section(), net.wire_section());
    let answer = write(net.version, &nodes, &wires, obstacles, out);
    match answer.number {
        0 => Answer {
            place: end as u64,
            ..answer
        },
        _ => answer,
    }
}
