//! The form of the text, by hand: words, layers, numbers, `*`, places, nets one behind another.

use super::marked::{done, marked, refused};
use super::{compare, of_text, ENOUGH};
use crate::generate::def::Case;
use crate::{Answer, Def};

/// A word is a longest run of bytes other than 9, 10, 13 and 32.
fn words(def: Def) {
    done(
        def,
        "+ ROUTED metal1 ( 0 0 ) ( 5 0 ) ;^",
        &[(0, 0), (5, 0)],
        &[(0, 1)],
    );
    done(
        def,
        "\t\n\r +\tROUTED\nmetal1\r( 0\r\n0 )\t\t( 5 0 ) ;^ ;",
        &[(0, 0), (5, 0)],
        &[(0, 1)],
    );
    refused(
        def,
        17,
        &[
            "^+ROUTED metal1 ( 0 0 ) ( 5 0 ) ;",
            "^ROUTED metal1 ( 0 0 ) ( 5 0 ) ;",
            "+ ^routed metal1 ( 0 0 ) ( 5 0 ) ;",
            "+ ^ROUTEDmetal1 ( 0 0 ) ( 5 0 ) ;",
            "+ ROUTED ^( 0 0 ) ( 5 0 ) ;",
            "+ ROUTED ^NEW metal1 ( 0 0 ) ( 5 0 ) ;",
            "+ ROUTED metal1 ^(0 0 ) ( 5 0 ) ;",
            "+ ROUTED metal1 ^(10 0 ) ( 5 0 ) ;",
            "+ ROUTED metal1 ( 0 ^0) ( 5 0 ) ;",
            "+ ROUTED metal1 ( 0 0 ^)( 5 0 ) ;",
            "+ ROUTED metal1 ( 0 0 ^0 ) ( 5 0 ) ;",
            "+ ROUTED metal1 ( 0 0 ) ( 5 0 ) ^;x",
            "+ ROUTED metal1 ( 0 0 ) ( 5 0 ) ^NEW; metal1 ( 0 0 ) ( 0 5 ) ;",
            "+ ROUTED metal1 ( 0 0 ) ( 5 0 ) ^metal1 ( 0 0 ) ( 0 5 ) ;",
            "+ ROUTED metal1 ( 0 0 ) ( 5 0 ) NEW ^NEW metal1 ( 0 0 ) ( 0 5 ) ;",
            "+ ROUTED metal1 ( 0 0 ) ( 5 0 ) NEW ^;",
            "+ ROUTED metal1 ( 0 0 ) ( 5 0 ) ^+ ROUTED metal1 ( 0 0 ) ( 0 5 ) ;",
            "^\x0b+ ROUTED metal1 ( 0 0 ) ( 5 0 ) ;",
            "^\x00 + ROUTED metal1 ( 0 0 ) ( 5 0 ) ;",
            "+ ROUTED metal1 ( 0 0 ) ^\x0c( 5 0 ) ;",
        ],
    );
}

/// Layers are `metal1` to `metal16`, and nothing else.
fn layers(def: Def) {
    for layer in 1..=16 {
        let text = format!("+ ROUTED metal{layer} ( 0 0 ) ( 5 0 ) ;^");
        done(def, &text, &[(0, 0), (5, 0)], &[(0, layer)]);
    }
    for word in [
        "metal0", "metal01", "metal17", "metal19", "metal20", "metal99", "metal016", "metal160",
        "metal", "metal1.", "Metal1", "met1", "metal:", "metal/", "metal1:",
    ] {
        let first = format!("+ ROUTED ^{word} ( 0 0 ) ( 5 0 ) ;");
        let second = format!("+ ROUTED metal1 ( 0 0 ) ( 5 0 ) NEW ^{word} ( 0 0 ) ( 0 5 ) ;");
        refused(def, 17, &[&first, &second]);
    }
}

/// Numbers have 1 to 5 digits and are at most 65,535.
fn numbers(def: Def) {
    done(
        def,
        "+ ROUTED metal1 ( 00012 0 ) ( 00012 00005 ) ;^",
        &[(12, 0), (12, 5)],
        &[(0, 1)],
    );
    done(
        def,
        "+ ROUTED metal1 ( 00000 000 ) ( 0 9 ) ;^",
        &[(0, 0), (0, 9)],
        &[(0, 1)],
    );
    let (case, place) = marked("+ ROUTED metal1 ( 65535 65535 ) ( 65535 0 ) ;^");
    let mut out = [0; 41];
    let answer = def(&case.text, 0, &[], &[], &mut out);
    assert_eq!((answer.number, answer.place), (0, place as u64));
    assert_eq!(out[28..38], [255, 255, 255, 255, 0, 255, 255, 0, 0, 0]);
    for word in [
        "65536", "000012", "000000", "065535", "99999", "100000", "-1", "+1", "1.0", "0x1", "1e3",
        "a", "/", ":", "**", "5*", "65535.",
    ] {
        for text in [
            format!("+ ROUTED metal1 ( ^{word} 0 ) ( 5 0 ) ;"),
            format!("+ ROUTED metal1 ( 0 ^{word} ) ( 5 0 ) ;"),
            format!("+ ROUTED metal1 ( 0 0 ) ( ^{word} 0 ) ;"),
            format!("+ ROUTED metal1 ( 0 0 ) ( 5 ^{word} ) ;"),
        ] {
            refused(def, 17, &[&text]);
        }
    }
}

/// `*` repeats a coordinate of the point before, and never stands in a path's first point.
fn stars(def: Def) {
    let nodes = [(7, 8), (9, 8), (9, 3), (1, 3)];
    let wires = [(0, 1), (1, 1), (2, 1)];
    done(
        def,
        "+ ROUTED metal1 ( 7 8 ) ( 9 * ) ( * 3 ) ( 1 * ) ;^",
        &nodes,
        &wires,
    );
    refused(
        def,
        17,
        &[
            "+ ROUTED metal1 ( ^* 0 ) ( 5 0 ) ;",
            "+ ROUTED metal1 ( 0 ^* ) ( 5 0 ) ;",
            "+ ROUTED metal1 ( 0 0 ) ( 5 0 ) NEW metal1 ( ^* 0 ) ( 5 5 ) ;",
            "+ ROUTED metal1 ( 0 0 ) ( 5 0 ) NEW metal1 ( 5 ^* ) ( 5 5 ) ;",
            "+ ROUTED metal1 ( 0 0 ) ( 5 0 ) NEW metal2 ( 5 ^* ) ( 5 5 ) ;",
        ],
    );
    refused(
        def,
        18,
        &[
            "+ ROUTED metal1 ( 0 0 ) ^( * * ) ;",
            "+ ROUTED metal1 ( 0 0 ) ( 5 0 ) NEW metal2 ( 5 0 ) ^( * * ) ;",
        ],
    );
}

/// Where the form is left: the word's first byte, or the text's length if no word is left.
fn places(def: Def) {
    refused(
        def,
        17,
        &[
            "^",
            " \n\t\r^",
            "^ROUTED",
            "+^",
            "+ \n^",
            "+ ^ROUT",
            "+ ROUTED^",
            "+ ROUTED ^metal",
            "+ ROUTED metal1^",
            "+ ROUTED metal1 (^",
            "+ ROUTED metal1 ( 0^",
            "+ ROUTED metal1 ( 0 0 ^",
            "+ ROUTED metal1 ( 0 0 )^",
            "+ ROUTED metal1 ( 0 0 ) ( 5 0 )^",
            "+ ROUTED metal1 ( 0 0 ) ( 5 0 )\n  ^",
            "+ ROUTED metal1 ( 0 0 ) ( 5 0 ) ^NE",
            "+ ROUTED metal1 ( 0 0 ) ( 5 0 ) NEW^",
            "+ ROUTED metal1 ( 0 0 ) ( 5 0 ) NEW metal1 ( 0 0 )  ^",
        ],
    );
    let text = "xy+ ROUTED metal1 ( 0 0 ) ( 5 0 ) ;";
    for (place, answer) in [
        (0, Answer::refused(17, 0)),
        (1, Answer::refused(17, 1)),
        (3, Answer::refused(17, 4)),
        (5, Answer::refused(17, 5)),
        (34, Answer::refused(17, 34)),
        (35, Answer::refused(17, 35)),
        (36, Answer::refused(17, 35)),
        (usize::MAX, Answer::refused(17, 35)),
        (
            2,
            Answer {
                number: 0,
                place: 35,
                count: 41,
            },
        ),
    ] {
        let case = Case {
            place,
            ..of_text(text)
        };
        assert_eq!(compare(def, &case, ENOUGH), answer, "from {place}");
    }
}

/// A path has two points or more: with one it is left at the word that should have been its second `(`.
fn one_point(def: Def) {
    refused(
        def,
        17,
        &[
            "+ ROUTED metal1 ( 0 0 ) ^;",
            "+ ROUTED metal1 ( 0 0 ) ^NEW metal1 ( 0 0 ) ( 5 0 ) ;",
            "+ ROUTED metal1 ( 0 0 ) ( 5 0 ) NEW metal1 ( 5 0 ) ^;",
            "+ ROUTED metal1 ( 0 0 ) ( 5 0 ) NEW metal2 ( 5 0 ) ^;",
            "+ ROUTED metal1 ( 0 0 ) ( 5 0 ) NEW metal1 ( 5 0 ) ^NEW metal1 ( 5 0 ) ( 5 5 ) ;",
        ],
    );
    refused(
        def,
        18,
        &[
            "+ ROUTED metal1 ( 0 0 ) ( 5 0 ) NEW metal1 ^( 6 0 ) ;",
            "+ ROUTED metal1 ( 0 0 ) ( 5 0 ) NEW metal1 ^( 6 0 )",
        ],
    );
}

/// Nets one behind another, read from the place that each answer gives.
fn several(def: Def) {
    let text = "+ ROUTED metal1 ( 0 0 ) ( 5 0 ) ;\n- b\n + ROUTED metal2 ( 0 0 ) ( 0 5 ) ; + ROUTED metal3 ( 1 1 ) ( 1 2 ) ;\n";
    let mut case = of_text(text);
    for (place, number, answered) in [
        (0, 0, 33),
        (33, 17, 34),
        (38, 0, 72),
        (72, 0, 106),
        (106, 17, 107),
    ] {
        case.place = place;
        let answer = compare(def, &case, ENOUGH);
        assert_eq!((answer.number, answer.place), (number, answered));
    }
}

pub fn all(def: Def) {
    for part in [words, layers, numbers, stars, places, one_point, several] {
        part(def);
    }
}
