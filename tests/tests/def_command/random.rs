//! Random nets as a router would write them, crowded so that wires meet, cross, overlap and change layer at shared points.

use super::metal::{points, At, Metal};
use super::notes::{lost_as_noted, notes, Via};
use super::{antenna, folder_of};
use antenna_tests::random::Random;
use antenna_tests::reference::net::net_of;
use std::fs;

struct Path {
    layer: u8,
    points: Vec<(i64, i64)>,
}

impl Path {
    /// Its points, and one somewhere on each of its wires.
    fn at(&self, random: &mut Random) -> Vec<At> {
        let mut all = self.points.clone();
        for pair in self.points.windows(2) {
            all.push(random.pick(&points(pair[0], pair[1])));
        }
        all.into_iter().map(|(x, y)| (self.layer, x, y)).collect()
    }
}

/// Paths that begin at what is there already, now and then by a via; then in any order and direction.
pub fn net(random: &mut Random) -> Vec<String> {
    let mut words = Vec::new();
    let mut paths = Vec::new();
    if random.chance(1, 8) {
        paths = returning(random, &mut words);
    }
    let mut known: Vec<At> = vec![(2, 10, 10)];
    known.extend(paths.iter().flat_map(|path| path.at(random)));
    for _ in 0..random.range(2, 7) {
        let (mut layer, x, y) = random.pick(&known);
        if random.chance(2, 3) {
            let height = if random.chance(1, 8) { 2 } else { 1 };
            let up = layer <= height || (layer < 5 && random.chance(1, 2));
            let other = if up { layer + height } else { layer - height };
            let of_path = random.pick(&[layer, other]);
            words.push(via(of_path, (x, y), layer, other));
            layer = other;
        }
        let mut points = vec![(x, y)];
        for _ in 0..random.range(1, 3) {
            points.push(from(random, points[points.len() - 1]));
        }
        let path = Path { layer, points };
        known.extend(path.at(random));
        paths.push(path);
    }
    for mut path in paths {
        if random.chance(1, 2) {
            path.points.reverse();
        }
        let points = path.points.iter().map(|(x, y)| format!("( {x} {y} )"));
        let points: Vec<String> = points.collect();
        words.push(format!("metal{} {}", path.layer, points.join(" ")));
    }
    for k in (1..words.len()).rev() {
        words.swap(k, random.below(k as u64 + 1) as usize);
    }
    words
}

/// A path of a point and the via there, which is defined where it has more than two layers.
fn via(of_path: u8, (x, y): (i64, i64), a: u8, b: u8) -> String {
    format!("metal{of_path} ( {x} {y} ) M{}_M{}", a.max(b), a.min(b))
}

const VIAS: &str = "\
VIAS 4 ;
- M3_M1 + LAYERS metal1 cut metal3 ;
- M4_M2 + LAYERS metal2 cut metal4 ;
- M5_M3 + LAYERS metal3 cut metal5 ;
- M6_M4 + LAYERS metal4 cut metal6 ;
END VIAS
";

/// A point beside another one, on one of its two tracks.
fn from(random: &mut Random, (x, y): (i64, i64)) -> (i64, i64) {
    let far = random.range(1, 4) as i64 * random.pick(&[1, 3, -3, -1]);
    match random.chance(1, 2) {
        true if x + far >= 0 => (x + far, y),
        false if y + far >= 0 => (x, y + far),
        _ => (x, y),
    }
}

/// From a point on one layer away, on the next back, with vias there to the layers below and above, and perhaps a stack down.
fn returning(random: &mut Random, words: &mut Vec<String>) -> Vec<Path> {
    let point = (10, 10);
    let far = from(random, point);
    let low = random.range(1, 3) as u8;
    let path = |layer, to| Path {
        layer,
        points: vec![point, to],
    };
    for (layer, point) in (low..).zip([point, far, point]) {
        words.push(via(layer, point, layer, layer + 1));
    }
    let stack = random.range(1, low.into()) as u8..low;
    words.extend(stack.map(|layer| via(layer, point, layer, layer + 1)));
    let ends = [from(random, point), far, far, from(random, point)];
    (low..)
        .zip(ends)
        .map(|(layer, to)| path(layer, to))
        .collect()
}

/// Nets as a file has them, each with a number as its name.
pub fn text_of(nets: &[Vec<String>]) -> String {
    let entries = nets.iter().enumerate();
    let entries =
        entries.map(|(k, paths)| format!("- n{k} + ROUTED {} ;\n", paths.join("\n NEW ")));
    VIAS.to_string() + &entries.collect::<String>()
}

pub fn metal_of(paths: &[String]) -> Metal {
    let joined = paths.join(" NEW ");
    let words: Vec<&str> = joined.split(' ').collect();
    Metal::of_router(&words, (0, 0))
}

/// Why a net was not read, if that was told.
pub fn reason(errors: &str, net: &str) -> Option<String> {
    let named = format!(": net '{net}': ");
    let mut lines = errors.lines().filter_map(|line| line.split_once(&named));
    let error = lines.find(|(place, _)| !place.ends_with(": note"));
    error.map(|(_, why)| why.into())
}

/// The library's form cannot say it.
pub fn is_crowded(why: &str) -> bool {
    why == "layers change at a point in a way that the library's form cannot say"
}

/// It is no tree, and so it was told.
pub fn is_no_tree(metal: &Metal, why: &str) -> bool {
    let alone = metal.steps().is_empty() && why == "it has no wire";
    let apart = metal.parts() > 1 && why.contains(" parts: ");
    let round = metal.loops() > 0 && why.contains("loop");
    alone || apart || round
}

/// A net is read if and only if it is a tree, apart from the few that the library's form cannot say; and it is read as it is drawn.
#[test]
fn read_as_drawn() {
    let (mut read, mut noted, mut crowded, mut unread) = (0, 0, 0, 0);
    for seed in 0..20 {
        let mut random = Random::new(seed);
        let nets: Vec<Vec<String>> = (0..300).map(|_| net(&mut random)).collect();
        let text = text_of(&nets);
        let folder = folder_of("random");
        let words = ["-", "--text", "-o", folder.to_str().unwrap()];
        let ran = antenna(&words, text.as_bytes());
        let again = antenna(&["-", "--text"], ran.text.as_bytes());
        assert!(again.text == ran.text && again.status == Some(0) && again.errors.is_empty());
        for (k, paths) in nets.iter().enumerate() {
            let (metal, joined) = (metal_of(paths), paths.join(" NEW "));
            let name = format!("n{k}");
            let error = reason(&ran.errors, &name);
            let notes = notes(&ran.errors, &name, &text);
            let file = fs::read(folder.join(format!("{name}.net")));
            assert_eq!(file.is_ok(), error.is_none(), "{joined}");
            let tree = metal.is_tree();
            match error {
                None => {
                    assert!(tree, "{joined}");
                    as_drawn(&metal, &file.unwrap(), &notes, &joined);
                    read += 1;
                    noted += usize::from(!notes.is_empty());
                }
                Some(why) => {
                    assert!(notes.is_empty(), "{joined}");
                    let told = if tree {
                        is_crowded(&why)
                    } else {
                        is_no_tree(&metal, &why)
                    };
                    assert!(told, "{joined}: {why}");
                    crowded += usize::from(tree);
                    unread += usize::from(!tree);
                }
            }
        }
    }
    println!("{read} read, {noted} with a note, {crowded} not in the form, {unread} no trees");
    assert!(read > 1000 && unread > 1000, "{read} {unread}");
    assert!(
        noted > 50 && crowded * 20 < read,
        "{noted} {crowded} of {read}"
    );
}

/// The same steps, joined alike at each stage, and after a cut at any point where a jumper can stand; such points are lost only
/// where a note says so.
fn as_drawn(metal: &Metal, file: &[u8], notes: &[Via], text: &str) {
    let net = net_of(file).unwrap();
    let (written, inside) = Metal::of_net(&net);
    assert_eq!(written.steps(), metal.steps(), "{text}");
    let plain = metal.plain();
    lost_as_noted(plain.keys().copied().collect(), &inside, notes, text);
    for stage in 1..=6 {
        assert_eq!(
            written.pieces(stage, None),
            metal.pieces(stage, None),
            "{text} at {stage}"
        );
        for point in &inside {
            let pieces = metal.pieces(stage, Some(plain[&point.at]));
            assert_eq!(
                written.pieces(stage, Some(point.end)),
                pieces,
                "{text} at {stage}"
            );
        }
    }
}
