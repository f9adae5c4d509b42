//! Texts whose answers are worked out by hand: `^` marks the answer's place in a text and is not part of it.

use super::{compare, of_text, ENOUGH};
use crate::generate::def::Case;
use crate::reference::net::file;
use crate::{Answer, Def};

/// The text, and the place that was marked.
pub fn marked(text: &str) -> (Case, usize) {
    let place = text.find('^').expect("a mark");
    (of_text(text.replacen('^', "", 1)), place)
}

/// Each of the texts meets this refusal.
pub fn refused(def: Def, number: u32, texts: &[&str]) {
    for text in texts {
        let (case, place) = marked(text);
        let answer = compare(def, &case, ENOUGH);
        assert_eq!(answer, Answer::refused(number, place), "{text:?}");
    }
}

/// The net has these nodes (x, y) and, from wire 1 on, these wires (parent, layer); flags are 0 and factors 1.
pub fn done(def: Def, text: &str, nodes: &[(u8, u8)], wires: &[(u8, u8)]) {
    let (case, place) = marked(text);
    let nodes: Vec<u8> = nodes.iter().flat_map(|&(x, y)| [x, 0, y, 0, 0]).collect();
    let wires: Vec<u8> = wires.iter().flat_map(|&(p, layer)| [p, layer, 1]).collect();
    let expected = file(1, &nodes, &wires, &[]);
    assert_eq!(compare(def, &case, ENOUGH).place, place as u64, "{text:?}");
    let mut out = vec![0; expected.len()];
    let answer = def(&case.text, 0, &[], &[], &mut out);
    assert_eq!(answer.count, expected.len() as u64, "{text:?}");
    assert_eq!(out, expected, "{text:?}");
}
