//! The net that a text describes, by hand: a whole file, points, nodes and wires, pins, and what is tried first.

use super::marked::{done, refused};
use super::{compare, of_text, ENOUGH};
use crate::generate::def::{pin, Case};
use crate::{Answer, Def};

/// A file byte by byte.
fn whole_file(def: Def) {
    let text = b"+ ROUTED metal2 ( 10 300 ) ( 10 65535 ) NEW metal3 ( 10 300 ) ( 12 * ) ;";
    let pins = [10, 0, 44, 1, 2, 1, 12, 0, 44, 1, 3, 2, 10, 0, 44, 1, 2, 2];
    let obstacles = [1, 0, 2, 0, 3, 0, 4, 0];
    let mut out = [0xee; 70];
    let answer = def(text, 0, &pins, &obstacles, &mut out);
    let expected = [
        1, 0, 3, 0, // version 1, three pairs
        28, 0, 0, 0, 20, 0, 0, 0, // four nodes
        48, 0, 0, 0, 9, 0, 0, 0, // three wires
        57, 0, 0, 0, 8, 0, 0, 0, // an obstacle
        10, 0, 44, 1, 3, // both pins here joined
        10, 0, 255, 255, 0, //
        10, 0, 44, 1, 0, // node 0's point on metal3
        12, 0, 44, 1, 2, //
        0, 2, 1, // along metal2
        0, 3, 1, // the via, of the higher layer
        2, 3, 1, //
        1, 0, 2, 0, 3, 0, 4, 0, //
        0xee, 0xee, 0xee, 0xee, 0xee, // as they were
    ];
    assert_eq!((answer.number, answer.place, answer.count), (0, 72, 65));
    assert_eq!(out, expected);
}

/// A point is judged by 18 once its `)` has been read, and not before.
fn whole_points(def: Def) {
    // a later point that is a node already
    refused(
        def,
        18,
        &[
            "+ ROUTED metal1 ( 0 0 ) ^( 0 0 ) ;",
            "+ ROUTED metal1 ( 0 0 ) ( 5 0 ) ^( 0 0 ) ;",
            "+ ROUTED metal1 ( 0 0 ) ( 5 0 ) ^( 0 0 ) x",
            "+ ROUTED metal1 ( 0 0 ) ( 5 0 ) ^( 0 0 )",
            "+ ROUTED metal1 ( 0 0 ) ( 5 0 ) NEW metal1 ( 5 0 ) ^( 0 0 ) ;",
        ],
    );
    refused(
        def,
        17,
        &[
            "+ ROUTED metal1 ( 0 0 ) ( 5 0 ) ( 0 0 ^x ;",
            "+ ROUTED metal1 ( 0 0 ) ( 5 0 ) ( 0 0^",
            "+ ROUTED metal1 ( 0 0 ) ( 5 0 ) ( 0 ^65536 ) ;",
            "+ ROUTED metal1 ( 0 0 ) ( 5 0 ) ( 0 0 ^); ;",
        ],
    );
    // a path after the first that begins at an unknown point
    refused(
        def,
        18,
        &[
            "+ ROUTED metal1 ( 0 0 ) ( 5 0 ) NEW metal1 ^( 1 0 ) ( 1 5 ) ;",
            "+ ROUTED metal1 ( 0 0 ) ( 5 0 ) NEW metal2 ^( 0 5 ) ( 0 6 ) ;",
            "+ ROUTED metal1 ( 0 0 ) ( 5 0 ) NEW metal1 ^( 1 0 ) x",
        ],
    );
    refused(
        def,
        17,
        &[
            "+ ROUTED metal1 ( 0 0 ) ( 5 0 ) NEW metal1 ( 1 ^* ) ( 1 5 ) ;",
            "+ ROUTED metal1 ( 0 0 ) ( 5 0 ) NEW metal1 ( 1 0 ^( 1 5 ) ;",
        ],
    );
    // of two such points the earlier
    refused(
        def,
        18,
        &[
            "+ ROUTED metal1 ( 0 0 ) ^( 0 0 ) NEW metal1 ( 9 9 ) ( 9 8 ) ;",
            "+ ROUTED metal1 ( 0 0 ) ( 5 0 ) NEW metal1 ^( 9 9 ) ( 9 9 ) ;",
        ],
    );
}

/// Nodes are points on layers, numbered as the text first reaches them.
fn nodes(def: Def) {
    // a branch from the middle of a path, on the same layer
    let text = "+ ROUTED metal1 ( 0 0 ) ( 5 0 ) ( 9 0 ) NEW metal1 ( 5 0 ) ( 5 7 ) ;^";
    done(
        def,
        text,
        &[(0, 0), (5, 0), (9, 0), (5, 7)],
        &[(0, 1), (1, 1), (1, 1)],
    );
    // a via up, then a via down from it, both of the higher layer
    let text =
        "+ ROUTED metal2 ( 0 0 ) ( 5 0 ) NEW metal3 ( 5 0 ) ( 5 7 ) NEW metal1 ( 5 7 ) ( 6 7 ) ;^";
    let nodes = [(0, 0), (5, 0), (5, 0), (5, 7), (5, 7), (6, 7)];
    done(def, text, &nodes, &[(0, 2), (1, 3), (2, 3), (3, 3), (4, 1)]);
    // a later point that is known on another layer: a new node, hung on the point before and on nothing else
    let text = "+ ROUTED metal1 ( 0 0 ) ( 5 0 ) NEW metal2 ( 0 0 ) ( 0 4 ) ( 5 4 ) ( 5 0 ) ;^";
    let nodes = [(0, 0), (5, 0), (0, 0), (0, 4), (5, 4), (5, 0)];
    done(def, text, &nodes, &[(0, 1), (0, 2), (2, 2), (3, 2), (4, 2)]);
    // a via hangs on the lowest node of its point, whatever that node's layer: here node 1, not node 2
    let text =
        "+ ROUTED metal5 ( 0 0 ) ( 5 0 ) NEW metal2 ( 5 0 ) ( 5 1 ) NEW metal3 ( 5 0 ) ( 5 2 ) ;^";
    let nodes = [(0, 0), (5, 0), (5, 0), (5, 1), (5, 0), (5, 2)];
    done(def, text, &nodes, &[(0, 5), (1, 5), (2, 2), (1, 5), (4, 3)]);
    // a path that begins at a via's own node makes no other
    let text =
        "+ ROUTED metal1 ( 0 0 ) ( 5 0 ) NEW metal2 ( 5 0 ) ( 5 1 ) NEW metal2 ( 5 0 ) ( 5 2 ) ;^";
    let nodes = [(0, 0), (5, 0), (5, 0), (5, 1), (5, 2)];
    done(def, text, &nodes, &[(0, 1), (1, 2), (2, 2), (2, 2)]);
    // x and y are told apart
    let text = "+ ROUTED metal1 ( 1 2 ) ( 2 2 ) ( 2 1 ) NEW metal1 ( 2 1 ) ( 1 1 ) ;^";
    done(
        def,
        text,
        &[(1, 2), (2, 2), (2, 1), (1, 1)],
        &[(0, 1), (1, 1), (2, 1)],
    );
}

/// A call with pins and obstacles; its answer.
fn with(def: Def, text: &str, pins: &[u8], obstacles: &[u8], lent: usize) -> Answer {
    let case = Case {
        pins: pins.into(),
        obstacles: obstacles.into(),
        ..of_text(text)
    };
    compare(def, &case, lent)
}

const TWO: &str = "+ ROUTED metal1 ( 0 0 ) ( 5 0 ) ;";

/// Pins are tried in order, a cut one is the last, and flags join by or.
fn pins(def: Def) {
    let (at_0, at_5) = ((0, 0, 1), (5, 0, 1));
    for (pins, answer) in [
        (pin((0, 0, 2), 1).to_vec(), Answer::refused(19, 0)),
        (pin((0, 0, 0), 1).to_vec(), Answer::refused(19, 0)),
        (pin((0, 0, 255), 1).to_vec(), Answer::refused(19, 0)),
        (pin((0, 5, 1), 1).to_vec(), Answer::refused(19, 0)),
        (pin((256, 0, 1), 1).to_vec(), Answer::refused(19, 0)),
        (
            [pin(at_0, 1), pin((4, 0, 1), 1)].concat(),
            Answer::refused(19, 1),
        ),
        (
            [pin((4, 0, 1), 1), pin((4, 0, 1), 1)].concat(),
            Answer::refused(19, 0),
        ),
        (vec![0], Answer::refused(19, 0)),
        (pin(at_0, 1)[..5].to_vec(), Answer::refused(19, 0)),
        (
            [pin(at_0, 1).to_vec(), pin(at_5, 1)[..5].to_vec()].concat(),
            Answer::refused(19, 1),
        ),
        (
            [pin(at_0, 1).to_vec(), pin((4, 0, 1), 1).to_vec(), vec![0]].concat(),
            Answer::refused(19, 1),
        ),
        // over 3 is none of 19's business
        (pin(at_0, 4).to_vec(), Answer::refused(7, 0)),
        (
            [pin(at_5, 255), pin(at_0, 3)].concat(),
            Answer::refused(7, 1),
        ),
        (
            [pin(at_5, 4), pin((4, 0, 1), 1)].concat(),
            Answer::refused(19, 1),
        ),
    ] {
        assert_eq!(with(def, TWO, &pins, &[], ENOUGH), answer, "{pins:?}");
    }
    let pins = [pin(at_5, 1), pin(at_0, 2), pin(at_5, 0), pin(at_5, 2)].concat();
    let mut out = [0; 41];
    assert_eq!(def(TWO.as_bytes(), 0, &pins, &[], &mut out).number, 0);
    assert_eq!((out[32], out[37]), (2, 3));
    // a point on two layers has two nodes, each with its own flags
    let text = "+ ROUTED metal1 ( 0 0 ) ( 5 0 ) NEW metal2 ( 0 0 ) ( 0 5 ) ;";
    let pins = [pin((0, 0, 2), 1), pin((0, 0, 1), 2)].concat();
    let mut out = [0; 57];
    assert_eq!(def(text.as_bytes(), 0, &pins, &[], &mut out).count, 57);
    assert_eq!([out[32], out[37], out[42], out[47]], [2, 0, 1, 0]);
}

/// What is tried first: 17 or 18, then 19, then 4 to 11, then 16.
fn order(def: Def) {
    let (lost, over, good) = (pin((9, 9, 1), 1), pin((0, 0, 1), 4), pin((0, 0, 1), 1));
    let (reversed, cut, fine) = ([9, 0, 9, 0, 8, 0, 8, 0], [0; 7], [0; 8]);
    let broken = "+ ROUTED metal1 ( 0 0 ) ( 5 0 ) ";
    let again = "+ ROUTED metal1 ( 0 0 ) ( 0 0 ) ;";
    let slanted = "+ ROUTED metal1 ( 0 0 ) ( 5 5 ) ;";
    for (text, pins, obstacles, answer) in [
        (broken, &lost, &cut[..], Answer::refused(17, 32)),
        (again, &lost, &cut, Answer::refused(18, 24)),
        (slanted, &lost, &cut, Answer::refused(19, 0)),
        (slanted, &over, &cut, Answer::refused(6, 0)),
        (slanted, &over, &reversed, Answer::refused(7, 0)),
        (slanted, &good, &reversed, Answer::refused(10, 1)),
        (TWO, &good, &reversed, Answer::refused(11, 0)),
        (TWO, &good, &fine, Answer::refused(16, 49)),
    ] {
        for lent in [0, 1, 48] {
            assert_eq!(with(def, text, pins, obstacles, lent), answer);
        }
    }
    // the second wire is the slanted one; a via never is
    let text = "+ ROUTED metal1 ( 0 0 ) ( 5 0 ) NEW metal2 ( 5 0 ) ( 6 1 ) ;";
    assert_eq!(with(def, text, &[], &[], 0), Answer::refused(10, 3));
    let obstacles = [[0; 8], reversed].concat();
    assert_eq!(with(def, TWO, &[], &obstacles, 0), Answer::refused(11, 1));
    let obstacles = [0; 8 * 257];
    assert_eq!(
        with(def, TWO, &[], &obstacles, ENOUGH),
        Answer::refused(6, 0)
    );
    assert_eq!(with(def, TWO, &[], &obstacles[8..], ENOUGH).number, 0);
    // obstacles are those of version 1: nines are not taken, and of eight of them no byte is a layer
    let nine = [0, 0, 0, 0, 0, 0, 0, 0, 17];
    assert_eq!(with(def, TWO, &[], &nine, ENOUGH), Answer::refused(6, 0));
    assert_eq!(with(def, TWO, &[], &[0; 72], ENOUGH).number, 0);
    let obstacles = nine.repeat(8);
    assert_eq!(
        with(def, TWO, &[], &obstacles, ENOUGH),
        Answer::refused(11, 1)
    );
    // text, pins, obstacles and buffer of no bytes
    assert_eq!(with(def, "", &[], &[], 0), Answer::refused(17, 0));
    assert_eq!(with(def, TWO, &[], &[], 0), Answer::refused(16, 41));
}

pub fn all(def: Def) {
    for part in [whole_file, whole_points, nodes, pins, order] {
        part(def);
    }
}
