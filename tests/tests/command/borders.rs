//! Pictures with a clearance: the border that it keeps free round obstacles.

use super::pictures::{counts, field, near, scale, Picture};
use super::{samples, stored};
use antenna_tests::generate;
use antenna_tests::random::Random;
use antenna_tests::reference::net::Net;

const ITEM: &str = "clearance round an obstacle";

/// Left, top, right, bottom of each border.
fn borders(picture: &Picture) -> Vec<[f64; 4]> {
    let Some(line) = shape(picture) else {
        return Vec::new();
    };
    let outlines = line.split('"').nth(1).unwrap().split_terminator('Z');
    let border = |outline: &str| {
        let numbers = outline.split(['M', ' ', 'H', 'V']);
        let n: Vec<f64> = numbers.filter_map(|word| word.parse().ok()).collect();
        let [left, top, right, bottom, again] = n[..] else {
            panic!("{outline}")
        };
        assert_eq!(left, again);
        [left, top, right, bottom]
    };
    outlines.map(border).collect()
}

/// The element that has the borders.
fn shape(picture: &Picture) -> Option<&String> {
    let mut shapes = picture.with("<path", "stroke-dasharray=\"7 4\"");
    let first = shapes.next();
    assert_eq!(shapes.next(), None);
    first
}

fn options(stage: u32, clearance: u16) -> [String; 3] {
    [
        "--limit=30".into(),
        format!("--stage={stage}"),
        format!("--clearance={clearance}"),
    ]
}

fn drawn(net: &str, stage: u32, clearance: u16) -> Picture {
    let options = options(stage, clearance);
    Picture::new(net, &options.each_ref().map(String::as_str), &[])
}

/// Is the point in the area, or at most so far outside?
fn within([left, top, right, bottom]: &[f64; 4], (x, y): (f64, f64), far: f64) -> bool {
    left - far <= x && x <= right + far && top - far <= y && y <= bottom + far
}

/// Points inside wires: all of a short wire, some of a long one.
fn points(net: &Net) -> impl Iterator<Item = (u16, u16)> + '_ {
    let on = |i: usize| (1..net.length(i)).step_by(1 + net.length(i) / 300);
    (1..net.nodes.len()).flat_map(move |i| on(i).map(move |t| net.point(i, t)))
}

/// A point of a wire lies in a border if and only if an obstacle that counts at the stage is near to it, but for what is rounded; and each obstacle that counts lies in a border.
#[test]
fn borders_hold_what_is_near() {
    const ROUNDED: f64 = 0.1;
    let mut random = Random::new(17);
    let mut seen = [0; 2];
    let mut held = 0;
    for _ in 0..150 {
        let net = generate::any_net(&mut random);
        let stage = generate::stage(&mut random, &net);
        let clearance = random.pick(&[1, 1, 2, 3, 7, 40, 65535]);
        let picture = drawn(&stored("borders.net", &net.file()), stage, clearance);
        let borders = borders(&picture);
        let counting = net.obstacles.iter();
        let counting: Vec<_> = counting
            .filter(|o| counts(&net, stage, o, clearance))
            .collect();
        let scale = scale(&net);
        for point in points(&net) {
            let is_near = counting.iter().any(|o| near(o, point, clearance));
            let far = if is_near { ROUNDED } else { -ROUNDED };
            let is_held = borders.iter().any(|b| within(b, scale(point), far));
            assert_eq!(is_held, is_near, "{point:?} at clearance {clearance}");
            seen[usize::from(is_near)] += 1;
        }
        for obstacle in picture.obstacles().iter().filter(|o| !o.faint()) {
            let [left, top, right, bottom] = obstacle.rectangle;
            let corners = [(left, top), (right, bottom)];
            let holds = |b: &[f64; 4]| corners.iter().all(|&at| within(b, at, ROUNDED));
            assert!(borders.iter().any(holds), "{:?}", obstacle.rectangle);
            held += 1;
        }
        assert_eq!(picture.legend().contains(&ITEM), !borders.is_empty());
    }
    assert!(
        seen.iter().all(|&n| n > 1000) && held > 100,
        "{seen:?} {held}"
    );
}

/// A border lies behind all the rest, changes nothing of it and does not leave the picture, however large the clearance is; without a clearance there is none.
#[test]
fn borders_change_nothing_else() {
    let mut bordered = [0; 2];
    for name in samples() {
        for stage in [1, 3, 16] {
            let stage_of = ["--limit=30", &format!("--stage={stage}")];
            let before = Picture::new(&name, &stage_of, &[]);
            assert!(drawn(&name, stage, 0).lines == before.lines, "{name}");
            assert_eq!(shape(&before), None);
            assert!(!before.legend().contains(&ITEM));
            let picture = drawn(&name, stage, 65535);
            let (mut rest, (plain, _)) = (picture.parts().0.to_vec(), before.parts());
            if let Some(shape) = shape(&picture) {
                assert_eq!(rest.iter().position(|line| line == shape), Some(3));
                rest.remove(3);
            }
            // the head and the title differ
            assert!(rest[2..] == plain[2..], "{name} at stage {stage}");
            let head = |picture: &Picture| field(&picture.lines[0], "width");
            assert_eq!(head(&picture), head(&before));
            let height = field(&before.lines[plain.len() + 1], "y");
            let page = [20.0, 20.0, head(&before) - 20.0, height - 20.0];
            let borders = borders(&picture);
            for &[left, top, right, bottom] in &borders {
                let inside = |&at: &(f64, f64)| within(&page, at, 0.1);
                assert!([(left, top), (right, bottom)].iter().all(inside), "{name}");
                assert!(left < right && top < bottom, "{name}");
            }
            bordered[usize::from(!borders.is_empty())] += 1;
        }
    }
    assert!(bordered.iter().all(|&n| n > 5), "{bordered:?}");
}

/// A border can be seen where its obstacle is not; an obstacle that does not count has none.
#[test]
fn which_obstacles_have_a_border() {
    for (layer, clearance, seen) in [
        (3, 900, false),
        (3, 990, false),
        (3, 995, true),
        (3, 65535, true),
        (2, 995, false),
        (2, 65535, false),
    ] {
        let net = format!(
            "version 2\nnode 0 at 1000 1000 gate\nnode 1 at 1100 1000\nwire 1 to 0 layer 3 factor 1\nobstacle 1040 2000 to 1060 2040 layer {layer}\n"
        );
        let picture = drawn(&stored("far.net", net.as_bytes()), 3, clearance);
        let case = format!("layer {layer}, clearance {clearance}");
        assert_eq!(borders(&picture).len(), usize::from(seen), "{case}");
        assert_eq!(picture.legend().contains(&ITEM), seen, "{case}");
        assert_eq!(picture.obstacles().len(), 0, "{case}");
    }
}

/// The summary says the clearance if there is one.
#[test]
fn summary_says_the_clearance() {
    let plain = "stage 3, limit 30: 1 piece, 1 harmful, 0 jumpers";
    assert_eq!(drawn("clearance.net", 3, 0).summary(), [plain]);
    let picture = drawn("clearance.net", 3, 7);
    let lines = [
        "stage 3, limit 30, clearance 7:",
        "1 piece, 1 harmful, 0 jumpers",
    ];
    assert_eq!(picture.summary(), lines);
    assert_eq!(
        picture.lines[1],
        format!("<title>{}</title>", lines.join(" "))
    );
}
