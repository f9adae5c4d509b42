//! Routes from DEF in one pass over the text, with a table of the first 256 nodes; past it the text is read again.

use super::net::write;
use crate::Answer;

/// A file has no more nodes.
const MOST: usize = 256;

/// Bytes of a pin.
const PIN: usize = 6;

/// A point read whole.
#[derive(Clone, Copy)]
struct Point {
    /// x + 65,536 y.
    at: u32,
    layer: u8,
    /// It is the first of its path.
    first: bool,
    /// Of its `(`.
    place: usize,
}

/// Reads one net's routing point by point. A word that leaves the form is an error: its place.
struct Reader<'a> {
    text: &'a [u8],
    next: usize,
    /// Where the last word began.
    start: usize,
    layer: u8,
    x: u16,
    y: u16,
    /// The points of this path so far; 2 stands for more.
    points: u8,
}

fn parts(byte: u8) -> bool {
    matches!(byte, 9 | 10 | 13 | 32)
}

impl<'a> Reader<'a> {
    /// The reader before the first point.
    fn new(text: &'a [u8], place: usize) -> Result<Reader<'a>, usize> {
        let mut reader = Reader {
            text,
            next: place.min(text.len()),
            start: 0,
            layer: 0,
            x: 0,
            y: 0,
            points: 0,
        };
        reader.expect(b"+")?;
        reader.expect(b"ROUTED")?;
        reader.path()?;
        Ok(reader)
    }

    /// The next word; none is left if it is empty.
    fn word(&mut self) -> &'a [u8] {
        let behind = &self.text[self.next..];
        let blanks = behind.iter().take_while(|&&byte| parts(byte)).count();
        let behind = &behind[blanks..];
        let length = behind.iter().take_while(|&&byte| !parts(byte)).count();
        self.start = self.next + blanks;
        self.next = self.start + length;
        &behind[..length]
    }

    fn expect(&mut self, wanted: &[u8]) -> Result<(), usize> {
        if self.word() == wanted {
            Ok(())
        } else {
            Err(self.start)
        }
    }

    /// The head of a path: its layer.
    fn path(&mut self) -> Result<(), usize> {
        self.layer = match self.word() {
            [b'm', b'e', b't', b'a', b'l', n @ b'1'..=b'9'] => n - b'0',
            [b'm', b'e', b't', b'a', b'l', b'1', n @ b'0'..=b'6'] => 10 + n - b'0',
            _ => return Err(self.start),
        };
        self.points = 0;
        Ok(())
    }

    fn coordinate(&mut self, before: u16) -> Result<u16, usize> {
        let word = self.word();
        if word == b"*" && self.points > 0 {
            return Ok(before);
        }
        if word.is_empty() || word.len() > 5 {
            return Err(self.start);
        }
        let mut number = 0;
        for &byte in word {
            let digit = byte.wrapping_sub(b'0');
            if digit > 9 {
                return Err(self.start);
            }
            number = 10 * number + u32::from(digit);
        }
        number.try_into().map_err(|_| self.start)
    }

    /// The next point, or none after `;`.
    fn point(&mut self) -> Result<Option<Point>, usize> {
        let mut word = self.word();
        if self.points == 2 {
            if word == b";" {
                return Ok(None);
            }
            if word == b"NEW" {
                self.path()?;
                word = self.word();
            }
        }
        let place = self.start;
        if word != b"(" {
            return Err(place);
        }
        self.x = self.coordinate(self.x)?;
        self.y = self.coordinate(self.y)?;
        self.expect(b")")?;
        let first = self.points == 0;
        self.points = (self.points + 1).min(2);
        Ok(Some(Point {
            at: u32::from(self.x) + 65536 * u32::from(self.y),
            layer: self.layer,
            first,
            place,
        }))
    }
}

/// The routing: the first 256 nodes in a table, and the text for those behind.
struct Route<'a> {
    text: &'a [u8],
    /// Where reading began.
    from: usize,
    /// The place after the last byte read.
    end: usize,
    /// All nodes; past the table a via's may be counted more than once.
    count: usize,
    at: [u32; MOST],
    layers: [u8; MOST],
    parents: [u8; MOST],
    wires: [u8; MOST],
    flags: [u8; MOST],
}

impl<'a> Route<'a> {
    fn new(text: &'a [u8], from: usize) -> Route<'a> {
        Route {
            text,
            from,
            end: from,
            count: 0,
            at: [0; MOST],
            layers: [0; MOST],
            parents: [0; MOST],
            wires: [0; MOST],
            flags: [0; MOST],
        }
    }

    fn kept(&self) -> usize {
        self.count.min(MOST)
    }

    /// The lowest node at a point that passes a test, among those in the table. Most points are new: a block without the point is passed over in a few steps.
    fn first(&self, at: u32, test: impl Fn(usize) -> bool) -> Option<usize> {
        const BLOCK: usize = 16;
        let kept = self.kept();
        for (k, block) in self.at.chunks_exact(BLOCK).enumerate() {
            let start = k * BLOCK;
            if start >= kept {
                break;
            }
            if block
                .iter()
                .fold(false, |some, &known| some | (known == at))
            {
                let mut within = start..kept.min(start + BLOCK);
                if let Some(node) = within.find(|&i| self.at[i] == at && test(i)) {
                    return Some(node);
                }
            }
        }
        None
    }

    fn lowest(&self, at: u32) -> Option<usize> {
        self.first(at, |_| true)
    }

    /// The node at a point on a layer, if it is in the table.
    fn node(&self, at: u32, layer: u8) -> Option<usize> {
        self.first(at, |i| self.layers[i] == layer)
    }

    /// A point before this place, in the text, is one that is looked for.
    fn reached(&self, before: usize, wanted: impl Fn(&Point) -> bool) -> bool {
        let Ok(mut reader) = Reader::new(self.text, self.from) else {
            return false;
        };
        while let Ok(Some(point)) = reader.point() {
            if point.place >= before {
                return false;
            }
            if wanted(&point) {
                return true;
            }
        }
        false
    }

    /// A node past the table stands at a point on a layer.
    fn behind(&self, before: usize, at: u32, layer: u8) -> bool {
        self.count > MOST && self.reached(before, |point| point.at == at && point.layer == layer)
    }

    /// A new node; its number, which only counts if it is in the table.
    fn add(&mut self, point: &Point, parent: usize, wire: u8) -> usize {
        let i = self.count;
        self.count += 1;
        if i < MOST {
            self.at[i] = point.at;
            self.layers[i] = point.layer;
            self.parents[i] = parent as u8;
            self.wires[i] = wire;
        }
        i
    }

    /// The node of a point, hung on the node before; refusal 18 if there can be none.
    fn hang(&mut self, point: &Point, before: usize) -> Result<usize, Answer> {
        let refused = Err(Answer::refused(18, point.place));
        let node = self.node(point.at, point.layer);
        if !point.first {
            if node.is_some() || self.behind(point.place, point.at, point.layer) {
                return refused;
            }
            return Ok(self.add(point, before, point.layer));
        }
        if self.count == 0 {
            return Ok(self.add(point, 0, 0));
        }
        if let Some(node) = node {
            return Ok(node);
        }
        if let Some(lowest) = self.lowest(point.at) {
            let higher = point.layer.max(self.layers[lowest]);
            return Ok(self.add(point, lowest, higher));
        }
        // past the table the node's own number is not needed, only that there is one
        if self.count > MOST && self.reached(point.place, |known| known.at == point.at) {
            return Ok(self.count);
        }
        refused
    }

    /// All of the text up to its `;`.
    fn read(&mut self) -> Result<(), Answer> {
        let left = |place| Answer::refused(17, place);
        let mut reader = Reader::new(self.text, self.from).map_err(left)?;
        let mut before = 0;
        while let Some(point) = reader.point().map_err(left)? {
            before = self.hang(&point, before)?;
        }
        self.end = reader.next;
        Ok(())
    }

    /// The pins' flags joined to those of their nodes.
    fn join(&mut self, pins: &[u8]) -> Result<(), Answer> {
        let (pins, cut) = pins.as_chunks::<PIN>();
        for (k, &[x0, x1, y0, y1, layer, flags]) in pins.iter().enumerate() {
            let at = u32::from_le_bytes([x0, x1, y0, y1]);
            if let Some(node) = self.node(at, layer) {
                self.flags[node] |= flags;
            } else if !self.behind(self.end, at, layer) {
                return Err(Answer::refused(19, k));
            }
        }
        if cut.is_empty() {
            Ok(())
        } else {
            Err(Answer::refused(19, pins.len()))
        }
    }

    /// The file of at most 256 nodes.
    fn file(&self, obstacles: &[u8], out: &mut [u8]) -> Answer {
        let (mut nodes, mut wires) = ([[0; 5]; MOST], [[0; 3]; MOST]);
        for i in 0..self.count {
            let [x0, x1, y0, y1] = self.at[i].to_le_bytes();
            nodes[i] = [x0, x1, y0, y1, self.flags[i]];
            wires[i] = [self.parents[i], self.wires[i], 1];
        }
        let nodes = nodes[..self.count].as_flattened();
        let wires = wires[1..self.count].as_flattened();
        let answer = write(1, nodes, wires, obstacles, out);
        if answer.number != 0 {
            return answer;
        }
        Answer {
            place: self.end as u64,
            ..answer
        }
    }
}

fn route<'a>(text: &'a [u8], place: usize, pins: &[u8]) -> Result<Route<'a>, Answer> {
    let mut route = Route::new(text, place);
    route.read()?;
    route.join(pins)?;
    if route.count > MOST {
        return Err(Answer::refused(4, 0));
    }
    Ok(route)
}

pub fn def(text: &[u8], place: usize, pins: &[u8], obstacles: &[u8], out: &mut [u8]) -> Answer {
    match route(text, place, pins) {
        Ok(route) => route.file(obstacles, out),
        Err(refusal) => refusal,
    }
}
