//! Texts with more points than a file has nodes.

use super::{compare, of_text, ENOUGH};
use crate::generate::def::damage::damage_route;
use crate::generate::def::route::{points, route, Shape};
use crate::generate::def::text::text;
use crate::generate::def::{pin, Case};
use crate::random::Random;
use crate::{Answer, Def};

/// One path of so many points on metal1, from 0 0 on along x, and no `;` yet.
pub fn chain(points: usize) -> String {
    let mut text = String::from("+ ROUTED metal1 ( 0 0 )");
    for x in 1..points {
        text += &format!(" ( {x} 0 )");
    }
    text
}

/// A chain of points, and what stands behind it: `^` marks the place of refusals 17 and 18. Nodes from 256 on are in no file.
fn after(def: Def, chain: &str, behind: &str, number: u32) {
    let place = match behind.find('^') {
        Some(at) => chain.len() + at,
        None => 0,
    };
    let case = of_text([chain, &behind.replacen('^', "", 1)].concat());
    let answer = compare(def, &case, ENOUGH);
    assert_eq!(answer, Answer::refused(number, place), "{behind:?}");
}

/// 17 and 18 come before 4, however many points stand before them.
pub fn thousands_of_points(def: Def) {
    let chain = chain(5000);
    after(def, &chain, " ;", 4);
    after(def, &chain, " ^;x", 17);
    after(def, &chain, " ^( 4000 0 ) ;", 18);
    after(def, &chain, " NEW metal1 ( 4000 0 ) ( 4000 1 ) ;", 4);
    after(def, &chain, " NEW metal1 ^( 4000 1 ) ( 4000 2 ) ;", 18);
}

/// Every kind of point behind a full table.
pub fn behind_the_table(def: Def) {
    for points in [257, 258, 300, 700] {
        let chain = chain(points);
        let last = points - 1;
        let after = |behind: String, number: u32| after(def, &chain, &behind, number);
        after(" ;".into(), 4);
        after("^".into(), 17);
        after(" ^x".into(), 17);
        after(" ( 1 ^x ) ;".into(), 17);
        after(format!(" ^( {last} 0 ) ( {points} 0 ) ;"), 18);
        after(format!(" ( {points} 0 ) ;"), 4);
        // points known near the start, at the table's end, and behind it
        for known in [0, 1, 254, 255, 256, last / 2, last] {
            after(format!(" ^( {known} 0 ) ;"), 18);
            after(format!(" ( {known} 0 ^; ;"), 17);
            after(format!(" NEW metal1 ( {known} 0 ) ^;"), 17);
            after(format!(" NEW metal1 ( {known} 0 ) ( {known} 7 ) ;"), 4);
            after(format!(" NEW metal1 ^( {known} 1 ) ( {known} 7 ) ;"), 18);
            after(format!(" NEW metal2 ^( {known} 1 ) ( {known} 0 ) ;"), 18);
            let via = format!(" NEW metal2 ( {known} 0 )");
            after(format!("{via} ( {known} 7 ) ;"), 4);
            after(format!("{via} ^( * * ) ;"), 18);
            after(format!("{via} ( 7 7 ) ^( {known} 0 ) ;"), 18);
            // the via's node is known on its layer now
            let again = format!("{via} ( {known} 7 ) NEW metal2");
            after(format!("{again} ( {known} 0 ) ( {known} 8 ) ;"), 4);
            after(format!("{again} ( {known} 7 ) ^( {known} 0 ) ;"), 18);
            after(format!("{again} ^( 9 9 ) ( 9 8 ) ;"), 18);
            // known on another layer only
            let there = format!(" NEW metal2 ( 3 0 ) ( 3 7 ) ( {known} 0 ) ( 4 4 ) ;");
            after(there, 4);
        }
    }
}

/// Pins on nodes past the most of a file: 19 comes before 4.
pub fn pins_past_the_most(def: Def) {
    let text = chain(2000) + " NEW metal2 ( 1500 0 ) ( 1500 3 ) ;";
    let call = |pins: Vec<u8>| {
        let case = Case {
            pins,
            ..of_text(text.as_str())
        };
        compare(def, &case, ENOUGH)
    };
    let on = [0, 1, 255, 256, 257, 1500, 1999].map(|x| pin((x, 0, 1), 255));
    let on = [
        on.concat(),
        pin((1500, 0, 2), 1).to_vec(),
        pin((1500, 3, 2), 1).to_vec(),
    ]
    .concat();
    assert_eq!(call(on.clone()), Answer::refused(4, 0));
    for lost in [
        (2000, 0, 1),
        (1500, 3, 1),
        (1499, 0, 2),
        (0, 1, 1),
        (3, 0, 0),
        (3, 0, 255),
    ] {
        let pins = [
            on.clone(),
            pin(lost, 0).to_vec(),
            pin((0, 9, 9), 0).to_vec(),
        ]
        .concat();
        assert_eq!(call(pins), Answer::refused(19, 9), "{lost:?}");
    }
    let cut = [on.clone(), vec![0; 5]].concat();
    assert_eq!(call(cut), Answer::refused(19, 9));
}

/// 256 nodes are a file, 257 are not; then 4 comes before 6, 7, 10, 11 and 16.
pub fn the_most_nodes(def: Def) {
    let done = |text: &str| {
        let answer = compare(def, &of_text(text), ENOUGH);
        let place = text.len() as u64;
        let count = 28 + 5 * 256 + 3 * 255;
        let expected = Answer {
            number: 0,
            place,
            count,
        };
        assert_eq!(answer, expected);
    };
    done(&(chain(256) + " ;"));
    done(&(chain(255) + " NEW metal1 ( 200 0 ) ( 200 1 ) ;"));
    // the via is node 254 and 255
    done(&(chain(254) + " NEW metal9 ( 253 0 ) ( 253 1 ) ;"));
    done(&(chain(252) + " NEW metal9 ( 3 0 ) ( 3 1 ) NEW metal2 ( 3 1 ) ( 3 2 ) ;"));
    for text in [
        chain(256) + " ( 300 9 ) ;",
        chain(256) + " NEW metal1 ( 200 0 ) ( 200 1 ) ;",
        chain(255) + " NEW metal9 ( 253 0 ) ( 253 1 ) ;",
    ] {
        for obstacles in [vec![], vec![0], vec![9, 0, 0, 0, 0, 0, 0, 0]] {
            for lent in [0, ENOUGH] {
                let case = Case {
                    pins: pin((7, 0, 1), 255).to_vec(),
                    obstacles: obstacles.clone(),
                    ..of_text(text.as_str())
                };
                assert_eq!(compare(def, &case, lent), Answer::refused(4, 0));
            }
        }
    }
}

/// Random routings with more nodes than a file has, good and damaged, with pins on all their parts.
pub fn random_long_texts(def: Def, cases: usize) {
    let mut random = Random::new(90);
    let mut met = [0usize; 20];
    for _ in 0..cases {
        let shape = Shape {
            paths: random.range(20, 60),
            points: random.range(10, 20),
            longest: random.pick(&[3, 30, 3000]),
            layers: random.pick(&[1, 2, 16]),
        };
        let mut paths = route(&mut random, shape);
        if paths.is_empty() {
            continue;
        }
        let nodes = points(&paths);
        let mut pins = Vec::new();
        for _ in 0..random.below(20) {
            pins.extend(pin(random.pick(&nodes), random.below(4) as u8));
        }
        if random.chance(1, 4) && !pins.is_empty() {
            let k = random.below(pins.len() as u64) as usize;
            pins[k] ^= 1;
        }
        if random.chance(1, 2) {
            // mostly far behind the first 256 nodes
            let from = random.below(paths.len() as u64) as usize;
            damage_route(&mut random, &mut paths[from..]);
        }
        let mut case = of_text(text(&mut random, &paths));
        case.pins = pins;
        if random.chance(1, 4) {
            let end = case.text.len() - random.below(100) as usize;
            case.text.truncate(end);
        }
        met[compare(def, &case, ENOUGH).number as usize] += 1;
    }
    println!("def answers by number, long texts: {met:?}");
    for number in [0, 4, 17, 18, 19] {
        assert!(met[number] * 50 > cases, "refusal {number}");
    }
}
