//! Pictures: read back as the elements they are made of.

use super::{antenna, sample, samples, stored};
use antenna_tests::generate;
use antenna_tests::random::Random;
use antenna_tests::reference::net::{Net, Obstacle};
use antenna_tests::reference::report;
use antenna_tests::root;

/// Where the net begins in a picture, and the longer side of a net of few and of many nodes.
const EDGE: f64 = 60.0;
const FEW: f64 = 560.0;
const MANY: f64 = 1000.0;

/// A picture's elements, one a line.
pub struct Picture {
    pub lines: Vec<String>,
}

pub fn field(line: &str, name: &str) -> f64 {
    let value = line.split(&format!(" {name}=\"")).nth(1).expect(line);
    value.split('"').next().unwrap().parse().expect(line)
}

/// What stands between the tags of a line.
fn text(line: &str) -> &str {
    line.split('>').nth(1).unwrap().split('<').next().unwrap()
}

impl Picture {
    pub fn new(net: &str, options: &[&str], list: &[u8]) -> Picture {
        let list: &[&[u8]] = if list.is_empty() { &[] } else { &[list] };
        let jumpers: &[&str] = if list.is_empty() {
            &[]
        } else {
            &["--jumpers", "-"]
        };
        let ran = antenna(&[&["draw", net], jumpers, options].concat(), &list.concat());
        assert!(ran.status < 2, "{}", ran.errors);
        assert!(ran.text.starts_with("<svg ") && ran.text.ends_with("</svg>\n"));
        assert!(!ran.text.contains("NaN") && !ran.text.contains("inf"));
        Picture {
            lines: ran.text.lines().map(str::to_owned).collect(),
        }
    }

    /// A net with the jumpers that repair puts on it.
    pub fn repaired(net: &str, options: &[&str]) -> Picture {
        let list = antenna(&[&["repair", net], options].concat(), &[]);
        Picture::new(net, options, &list.out)
    }

    /// The elements before the legend, and the legend.
    pub fn parts(&self) -> (&[String], &[String]) {
        let legend = |line: &String| line.starts_with("<g font-size");
        let at = self.lines.iter().position(legend).unwrap();
        (&self.lines[..at], &self.lines[at..])
    }

    pub fn with<'a>(&'a self, start: &'a str, what: &'a str) -> impl Iterator<Item = &'a String> {
        let (net, _) = self.parts();
        let is = move |line: &&String| line.starts_with(start) && line.contains(what);
        net.iter().filter(is)
    }

    /// Labels in letters of a size of their own: what they say, and their middles.
    fn small_labels(&self) -> Vec<(&str, (f64, f64))> {
        let middle = |line: &String| {
            let (letters, count) = (field(line, "font-size"), text(line).len() as f64);
            let (left, foot) = (field(line, "x"), field(line, "y"));
            (left + 0.32 * letters * count, foot - 0.35 * letters)
        };
        let labels = self.with("<text", "font-size");
        labels.map(|line| (text(line), middle(line))).collect()
    }

    fn labels<'a>(&'a self, colour: &'a str) -> impl Iterator<Item = &'a String> {
        self.with("<text", colour)
    }

    /// The lines of the summary, and what the legend says below it.
    fn said(&self) -> (Vec<&str>, Vec<&str>) {
        let (_, legend) = self.parts();
        let texts = legend
            .iter()
            .filter(|line| line.starts_with("<text") && !line.contains("middle"));
        let texts: Vec<&str> = texts.map(|line| text(line)).collect();
        let summary = 1 + texts.iter().take_while(|line| line.ends_with(':')).count();
        (texts[..summary].to_vec(), texts[summary..].to_vec())
    }

    pub fn summary(&self) -> Vec<&str> {
        self.said().0
    }

    pub fn legend(&self) -> Vec<&str> {
        self.said().1
    }

    /// The colour that the legend gives a layer.
    fn colour(&self, layer: u8) -> &str {
        let (_, legend) = self.parts();
        let name = format!(">layer {layer}<");
        let at = legend.iter().position(|line| line.contains(&name)).unwrap();
        legend[at - 1]
            .split("stroke=\"")
            .nth(1)
            .unwrap()
            .split('"')
            .next()
            .unwrap()
    }
}

const HARM: &str = "fill=\"#d00\"";
const JUMPER: &str = "fill=\"#606\"";

/// In the picture of 256 nodes every jumper, and every harmful piece, has a label, and no label covers another.
#[test]
fn labels_of_a_large_net() {
    let at = |stage, limit| ["--stage", stage, "--limit", limit];
    for (picture, jumpers, harmful) in [
        (Picture::repaired("clock-256.net", &at("1", "100")), 128, 0),
        (Picture::repaired("clock-256.net", &at("6", "1500")), 32, 0),
        (Picture::new("clock-256.net", &at("1", "100"), &[]), 0, 64),
    ] {
        assert_eq!(picture.labels(JUMPER).count(), jumpers);
        assert_eq!(picture.labels(HARM).count(), harmful);
        let letters = field(&picture.lines[0], "font-size");
        let labels: Vec<&String> = picture.labels("paint-order").collect();
        for (k, one) in labels.iter().enumerate() {
            for other in &labels[..k] {
                let (left, right) = if field(one, "x") < field(other, "x") {
                    (one, other)
                } else {
                    (other, one)
                };
                let wide = 0.6 * letters * text(left).len() as f64;
                let beside = field(right, "x") - field(left, "x") >= wide;
                assert!(
                    beside || (field(one, "y") - field(other, "y")).abs() >= 0.9 * letters,
                    "{one} {other}"
                );
            }
        }
    }
}

/// Jumpers have labels, and the legend says so, if there are no more than a smallest set can have.
#[test]
fn labels_of_jumpers() {
    let text = "node 0 at 0 0\nnode 1 at 65535 0\nwire 1 to 0 layer 1 factor 1\n";
    let net = stored("labels-of-jumpers.net", text.as_bytes());
    for (jumpers, labels, item) in [
        (510, 510, "jumper, wire:position"),
        (511, 0, "jumper"),
        (65_534, 0, "jumper"),
    ] {
        let list: String = (1..=jumpers).map(|t| format!("1 {t}\n")).collect();
        let picture = Picture::new(&net, &["--limit=0"], list.as_bytes());
        assert_eq!(picture.with("<g><title>jumper ", "").count(), jumpers);
        assert_eq!(picture.labels(JUMPER).count(), labels);
        assert_eq!(picture.legend(), ["node", item, "layer 1"]);
    }
}

/// The weights shown are those of the harmful pieces, as an independent report has them.
#[test]
fn weights_of_harmful_pieces() {
    let mut shown_in_all = 0;
    for name in samples() {
        for (stage, limit) in [(1, 6), (3, 30), (16, 1)] {
            let options = [format!("--stage={stage}"), format!("--limit={limit}")];
            let picture = Picture::new(&name, &options.each_ref().map(String::as_str), &[]);
            let weight = |line: &String| text(line).trim_start_matches("weight ").parse().unwrap();
            let mut shown: Vec<u64> = picture.labels(HARM).map(weight).collect();
            let pieces = report::pieces(&sample(&name), stage, &[]);
            let harmful = pieces.iter().filter(|piece| piece.harmful(limit));
            let mut weights: Vec<u64> = harmful.map(|piece| piece.weight).collect();
            shown.sort();
            weights.sort();
            assert_eq!(shown, weights, "{name} at stage {stage}");
            shown_in_all += shown.len();
        }
    }
    assert!(shown_in_all > 64);
}

/// Every piece with wire in it says weight, harm and layers of its record, on nets and jumpers of any kind.
#[test]
fn pieces_of_random_nets() {
    let mut random = Random::new(11);
    let (mut drawn, mut harmful) = (0, 0);
    for _ in 0..60 {
        let net = generate::any_net(&mut random);
        let stage = generate::stage(&mut random, &net);
        let limit = generate::limit(&mut random, &net);
        let points = generate::jumpers(&mut random, &net, stage, 0);
        let list: String = points
            .iter()
            .map(|(wire, t)| format!("{wire} {t}\n"))
            .collect();
        let file = stored("random.net", &net.file());
        let options = [format!("--stage={stage}"), format!("--limit={limit}")];
        let picture = Picture::new(
            &file,
            &options.each_ref().map(String::as_str),
            list.as_bytes(),
        );
        let titles = picture.with("<g><title>piece ", "");
        let mut titles: Vec<String> = titles.map(|line| line.clone()).collect();
        let pieces = report::pieces(&net, stage, &points);
        for piece in pieces.iter().filter(|piece| piece.weight > 0) {
            let name = match piece.name {
                (number, 0) => format!("node {number}"),
                (wire, t) => format!("wire {wire} from {t}"),
            };
            let layers = (1..=16).filter(|n| piece.layers >> (n - 1) & 1 == 1);
            let layers: Vec<String> = layers.map(|n| n.to_string()).collect();
            let harm = if piece.harmful(limit) {
                ", harmful"
            } else {
                ""
            };
            let title = format!(
                "<g><title>piece {name}: weight {}, layers {}{harm}</title>",
                piece.weight,
                layers.join(", ")
            );
            let at = titles.iter().position(|line| *line == title);
            titles.swap_remove(at.expect(&title));
            harmful += usize::from(piece.harmful(limit));
            drawn += 1;
        }
        assert!(titles.is_empty(), "{titles:?}");
    }
    assert!(drawn > 500 && harmful > 10, "{drawn} {harmful}");
}

#[test]
fn legend_has_what_is_there() {
    let harmful = "harmful, with its weight";
    let features = ["gate", "source", "node", "via"];
    let made = [
        "obstacle",
        "×3 factor",
        "layer 1",
        "layer 2",
        "layer 3",
        "layer 4, not made yet",
    ];
    for (picture, expected) in [
        (
            Picture::new("a.net", &["--limit=13"], &[]),
            &["gate", "layer 1"][..],
        ),
        (
            Picture::new("a.net", &["--limit=12"], &[]),
            &["gate", harmful, "layer 1"],
        ),
        (
            Picture::repaired("a.net", &["--limit=12"]),
            &["gate", "jumper, wire:position", "layer 1"],
        ),
        (
            Picture::new("c.net", &["--limit=12"], &[]),
            &["gate", "node", "obstacle", "layer 1"],
        ),
        (
            Picture::new("source.net", &["--limit=100", "--stage=1"], &[]),
            &[
                "gate",
                "source",
                "node",
                "via not made yet",
                "factor over 1",
                "layer 1",
            ],
        ),
        (
            Picture::repaired("straps.net", &["--limit=60", "--stage=3"]),
            &[
                "gate",
                "jumper, wire:position",
                "obstacle, with its layer",
                "obstacle that does not count at this stage",
                "layer 3",
                "layer 4, not made yet",
            ],
        ),
        (
            Picture::new("crossing.net", &["--limit=24", "--stage=3"], &[]),
            &[
                "gate",
                "node",
                "obstacle, with its layer",
                "layer 1",
                "layer 3",
            ],
        ),
        (
            Picture::repaired(
                "clearance.net",
                &["--limit=100", "--stage=3", "--clearance=10"],
            ),
            &[
                "gate",
                "node",
                "jumper, wire:position",
                "obstacle, with its layer",
                "obstacle that does not count at this stage",
                "clearance round an obstacle",
                "layer 3",
            ],
        ),
        (
            Picture::new("features.net", &["--limit=30", "--stage=3"], &[]),
            &[
                &features[..],
                &[harmful, "obstacle", "factor over 1"],
                &made[2..],
            ]
            .concat(),
        ),
    ] {
        assert_eq!(picture.legend(), expected);
    }
}

/// A line in the colour of its layer for each wire, and a diamond for each via.
#[test]
fn layers_and_vias() {
    let net = sample("features.net");
    let picture = Picture::new("features.net", &["--limit=30", "--stage=3"], &[]);
    for layer in 1..=3 {
        let wires =
            (1..net.nodes.len()).filter(|&i| net.wire(i).layer == layer && net.length(i) > 0);
        let colour = format!("stroke=\"{}\" stroke-width=\"5\"", picture.colour(layer));
        assert_eq!(
            picture.with("<line", &colour).count(),
            wires.count(),
            "layer {layer}"
        );
    }
    assert_eq!(picture.with("<line", "stroke-dasharray").count(), 2);
    assert_eq!(picture.with("<path", "Z\" fill=\"white\"").count(), 2);
    let early = Picture::new("features.net", &["--limit=30", "--stage=1"], &[]);
    assert_eq!(early.with("<path", "Z\" fill=\"white\"").count(), 0);
    assert_eq!(early.with("<path", "Z\" fill=\"none\"").count(), 2);
}

/// Coordinates of the net to those of its picture.
pub fn scale(net: &Net) -> impl Fn((u16, u16)) -> (f64, f64) {
    let side = if net.nodes.len() <= 40 { FEW } else { MANY };
    let x1 = net.nodes.iter().map(|node| node.x).min().unwrap();
    let x2 = net.nodes.iter().map(|node| node.x).max().unwrap();
    let y1 = net.nodes.iter().map(|node| node.y).min().unwrap();
    let y2 = net.nodes.iter().map(|node| node.y).max().unwrap();
    let step = side / f64::from((x2 - x1).max(y2 - y1).max(1));
    move |(x, y)| {
        let right = f64::from(x) - f64::from(x1);
        let down = f64::from(y2) - f64::from(y);
        (EDGE + step * right, EDGE + step * down)
    }
}

/// The points inside wires that no obstacle bars at the clearance, as the picture has them, each with its wire's layer.
fn free_points(net: &Net, clearance: u16) -> Vec<(u8, (f64, f64))> {
    let scale = scale(net);
    let wires = 1..net.nodes.len();
    let points = wires.flat_map(|i| (1..net.length(i)).map(move |t| (i, t)));
    let free = points.filter(|&(i, t)| !net.barred(i, t, clearance));
    free.map(|(i, t)| (net.wire(i).layer, scale(net.point(i, t))))
        .collect()
}

/// An obstacle that a picture has: its number and layer, where these are said, and its rectangle.
pub struct Drawn<'a> {
    pub named: Option<(usize, u8)>,
    pub rectangle: [f64; 4],
    line: &'a str,
}

impl Drawn<'_> {
    pub fn faint(&self) -> bool {
        self.line.contains("stroke-dasharray")
    }
}

impl Picture {
    pub fn obstacles(&self) -> Vec<Drawn<'_>> {
        let (net, _) = self.parts();
        let is = |line: &str| line.starts_with("<rect") && line.contains("fill-opacity");
        let pairs = net.windows(2).filter(|pair| is(&pair[1]));
        let drawn = pairs.map(|pair| Drawn {
            named: named(&pair[0]),
            rectangle: rectangle(&pair[1]),
            line: &pair[1],
        });
        drawn.collect()
    }
}

fn named(line: &str) -> Option<(usize, u8)> {
    let title = line.strip_prefix("<g><title>obstacle ")?;
    let (number, layer) = title.strip_suffix("</title>")?.split_once(": layer ")?;
    Some((number.parse().ok()?, layer.parse().ok()?))
}

/// Left, top, right, bottom.
fn rectangle(line: &str) -> [f64; 4] {
    let (left, top) = (field(line, "x"), field(line, "y"));
    let (width, height) = (field(line, "width"), field(line, "height"));
    [left, top, left + width, top + height]
}

/// No rectangle of an obstacle holds a free point of a wire that it counts for, whatever the clearance.
#[test]
fn obstacles_cover_no_free_point() {
    let single = stored(
        "single.net",
        b"node 0 at 0 0 gate\nnode 1 at 200 0\nnode 2 at 200 90 gate\nwire 1 to 0 layer 1 factor 1\nwire 2 to 1 layer 1 factor 1\nobstacle 100 0 to 100 0\nobstacle 50 1 to 60 1\nobstacle 201 0 to 300 80\n",
    );
    let mut rectangles = 0;
    for name in [samples(), vec![single]].concat() {
        let net = sample(&name);
        for clearance in [0, 1, 6, 65535] {
            let free = free_points(&net, clearance);
            let options = ["--limit=0", &format!("--clearance={clearance}")];
            let picture = Picture::new(&name, &options, &[]);
            for obstacle in picture.obstacles() {
                let [left, top, right, bottom] = obstacle.rectangle;
                let highest = obstacle.named.map_or(16, |(_, layer)| layer);
                let inside = |&&(layer, (x, y)): &&(u8, (f64, f64))| {
                    layer <= highest && left < x && x < right && top < y && y < bottom
                };
                assert_eq!(free.iter().find(inside), None, "{name}: {}", obstacle.line);
                rectangles += 1;
            }
        }
    }
    assert!(rectangles >= 68, "{rectangles}");
}

/// Does the point lie in what the obstacle bars at the clearance?
pub fn near(o: &Obstacle, (x, y): (u16, u16), clearance: u16) -> bool {
    let outside =
        |low: u16, high: u16, at: u16| low.saturating_sub(at).max(at.saturating_sub(high));
    outside(o.x1, o.x2, x).max(outside(o.y1, o.y2, y)) <= clearance
}

/// The wires of the stage with a point inside them that the obstacle bars if it counts for them.
fn near_wires(net: &Net, stage: u32, o: &Obstacle, clearance: u16) -> Vec<usize> {
    let present = (1..net.nodes.len()).filter(|&i| net.present(stage, i));
    let has = |&i: &usize| (1..net.length(i)).any(|t| near(o, net.point(i, t), clearance));
    present.filter(has).collect()
}

/// The obstacle counts for a wire of the stage that it is near to, or, if there is none, for any wire of the stage.
pub fn counts(net: &Net, stage: u32, o: &Obstacle, clearance: u16) -> bool {
    let near = near_wires(net, stage, o, clearance);
    let present = (1..net.nodes.len()).filter(|&i| net.present(stage, i));
    let all = if near.is_empty() {
        present.collect()
    } else {
        near
    };
    net.version == 1 || all.iter().any(|&i| net.wire(i).layer <= o.layer)
}

/// In version 2 every obstacle has its layer on it, and is faint if it does not count for the stage's wires at the clearance; in version 1 none has or is.
#[test]
fn layers_of_obstacles() {
    let mut random = Random::new(13);
    // version 1; counts, with a point near and without; faint, with a point near and without
    let mut seen = [0; 5];
    // faint at clearance 0 and not at another, and the other way round
    let mut turned = [0; 2];
    for _ in 0..300 {
        let net = generate::any_net(&mut random);
        let stage = generate::stage(&mut random, &net);
        let clearance = random.pick(&[0, 0, 1, 3, 9, 65535]);
        let file = stored("layers.net", &net.file());
        let options = [
            "--limit=9",
            &format!("--stage={stage}"),
            &format!("--clearance={clearance}"),
        ];
        let picture = Picture::new(&file, &options, &[]);
        let drawn = picture.obstacles();
        let mut labels = picture.small_labels();
        for obstacle in &drawn {
            let Some((number, layer)) = obstacle.named else {
                assert!(net.version == 1 && !obstacle.faint());
                seen[0] += 1;
                continue;
            };
            let own = &net.obstacles[number];
            assert_eq!((net.version, layer), (2, own.layer));
            let counted = counts(&net, stage, own, clearance);
            assert_eq!(obstacle.faint(), !counted, "{number} at stage {stage}");
            let none = near_wires(&net, stage, own, clearance).is_empty();
            seen[1 + 2 * usize::from(!counted) + usize::from(none)] += 1;
            if counted != counts(&net, stage, own, 0) {
                turned[usize::from(!counted)] += 1;
            }
            // labels are in the order of their obstacles
            let (text, middle) = labels.remove(0);
            assert_eq!(text, format!("L{layer}"));
            let [left, top, right, bottom] = obstacle.rectangle;
            assert!(left - 0.2 <= middle.0 && middle.0 <= right + 0.2, "{text}");
            assert!(top - 0.2 <= middle.1 && middle.1 <= bottom + 0.2, "{text}");
        }
        assert_eq!(labels, []);
        let faint = "obstacle that does not count at this stage";
        let said = picture.legend().contains(&faint);
        assert_eq!(said, drawn.iter().any(|obstacle| obstacle.faint()));
    }
    assert!(seen.iter().all(|&n| n > 5), "{seen:?}");
    assert!(turned.iter().all(|&n| n > 2), "{turned:?}");
}

/// The middle of each cross, and of each gate with half its width.
fn crosses_and_gates(picture: &Picture) -> (Vec<(f64, f64, f64)>, Vec<(f64, f64, f64)>) {
    let cross = |line: &String| {
        let numbers = line
            .split(['M', 'L', ' ', '"'])
            .filter_map(|word| word.parse().ok());
        let n: Vec<f64> = numbers.take(4).collect();
        (
            (n[0] + n[2]) / 2.0,
            (n[1] + n[3]) / 2.0,
            (n[2] - n[0]) / 2.0,
        )
    };
    let gate = |line: &String| {
        let half = field(line, "width") / 2.0;
        (field(line, "x") + half, field(line, "y") + half, half)
    };
    (
        picture
            .with("<path", "stroke=\"#606\"")
            .map(cross)
            .collect(),
        picture.with("<rect", "fill=\"#222\"").map(gate).collect(),
    )
}

/// A jumper one step from each gate, where none is barred.
fn beside_gates(name: &str) -> String {
    let net = sample(name);
    let wires = (1..net.nodes.len()).filter(|&i| net.gate(i) && !net.barred(i, 1, 0));
    wires.map(|i| format!("{i} 1\n")).collect()
}

/// Gates are drawn after crosses, and no cross lies under a gate.
#[test]
fn crosses_hide_no_gate() {
    let near = stored(
        "near.net",
        b"node 0 at 0 0 gate\nnode 1 at 2 0 gate\nnode 2 at 100 0 gate\nnode 3 at 100 60\nwire 1 to 0 layer 1 factor 1\nwire 2 to 1 layer 1 factor 1\nwire 3 to 2 layer 1 factor 1\n",
    );
    let mut crosses_in_all = 0;
    for (name, list, stage, limit) in [
        (near.as_str(), "1 1\n2 1\n3 59\n", "1", "0"),
        ("features.net", "", "3", "30"),
        ("a.net", "1 1\n1 12\n", "1", "1"),
        ("clock-256.net", &beside_gates("clock-256.net"), "1", "5"),
    ] {
        let options = ["--stage", stage, "--limit", limit];
        let picture = match list {
            "" => Picture::repaired(name, &options),
            _ => Picture::new(name, &options, list.as_bytes()),
        };
        let place = |what: &str| {
            let has = |line: &String| line.contains(what);
            let (net, _) = picture.parts();
            (
                net.iter().position(has).unwrap(),
                net.iter().rposition(has).unwrap(),
            )
        };
        assert!(
            place("stroke=\"#606\"").1 < place("fill=\"#222\"").0,
            "{name}"
        );
        let (crosses, gates) = crosses_and_gates(&picture);
        for (x, y, half) in &crosses {
            for (gate_x, gate_y, gate_half) in &gates {
                let away = (x - gate_x).abs().max((y - gate_y).abs());
                assert!(away >= gate_half + 0.8 * half - 0.2, "{name}: {x} {y}");
            }
        }
        assert!(!gates.is_empty());
        crosses_in_all += crosses.len();
    }
    assert!(crosses_in_all > 100, "{crosses_in_all}");
}

/// A cross that would lie on a gate moves along its wire, over an obstacle that does not count for the wire too; where one that counts bars points it stands beside the wire.
#[test]
fn crosses_at_straps() {
    for (corners, layer, clearance, along) in [
        ("190 0 to 198 0", 2, 0, true),
        ("190 0 to 198 0", 3, 0, false),
        ("190 0 to 198 0", 4, 0, false),
        ("190 5 to 193 9", 3, 4, true),
        ("190 5 to 193 9", 3, 5, false),
        ("190 5 to 193 9", 2, 5, true),
    ] {
        let net = format!(
            "version 2\nnode 0 at 0 0 gate\nnode 1 at 200 0 gate\nwire 1 to 0 layer 3 factor 1\nobstacle {corners} layer {layer}\n"
        );
        let net = stored("moved.net", net.as_bytes());
        let options = ["--limit=200", &format!("--clearance={clearance}")];
        let picture = Picture::new(&net, &options, b"1 1\n");
        let (crosses, gates) = crosses_and_gates(&picture);
        let [(x, y, _)] = crosses[..] else {
            panic!("{} crosses", crosses.len())
        };
        let (gate_x, gate_y, _) = gates[1];
        let case = format!("layer {layer}, clearance {clearance}");
        assert_eq!((y - gate_y).abs() < 0.2, along, "{case}");
        assert_eq!(gate_x - x > 10.0, along, "{case}");
    }
}

/// The pictures of README are those the command draws, and their letters are 11 pixels high or more where two share a page of 860.
#[test]
fn pictures_of_readme() {
    let at = ["--stage", "3", "--limit", "30"];
    for (name, picture) in [
        ("before", Picture::new("features.net", &at, &[])),
        ("after", Picture::repaired("features.net", &at)),
        (
            "straps",
            Picture::repaired("straps.net", &["--stage", "3", "--limit", "60"]),
        ),
        (
            "clearance",
            Picture::repaired(
                "clearance.net",
                &["--stage", "3", "--limit", "100", "--clearance", "10"],
            ),
        ),
    ] {
        let kept = std::fs::read_to_string(root().join(format!("docs/{name}.svg"))).unwrap();
        let same = kept.lines().eq(picture.lines.iter());
        assert!(same, "docs/{name}.svg is not what the command draws");
        let head = &picture.lines[0];
        assert!(field(head, "font-size") * 430.0 / field(head, "width") >= 11.0);
    }
}
