//! What routers write, small: how it is rewritten, and where what cannot be is named.

use super::{antenna, folder_of, names_in, read_by_library};
use antenna_tests::root;
use std::fs;

/// The text that a net becomes.
fn rewritten(text: &str) -> String {
    let ran = antenna(&["-", "--text"], text.as_bytes());
    assert_eq!((ran.status, ran.errors.as_str()), (Some(0), ""), "{text}");
    let words: Vec<&str> = ran.text.split_whitespace().collect();
    words.join(" ")
}

/// The line that names a net which is not read.
fn named(text: &str) -> String {
    let ran = antenna(&["-"], text.as_bytes());
    assert_eq!(ran.status, Some(2), "{text}: {}", ran.text);
    ran.errors
}

#[test]
fn texts_that_are_rewritten() {
    for (text, expected) in [
        // a path that ends on the tree is turned round
        (
            "+ ROUTED metal1 ( 0 0 ) ( 9 0 ) NEW metal1 ( 9 7 ) ( 9 5 ) ( 9 0 ) ;",
            "+ ROUTED metal1 ( 0 0 ) ( 9 * ) ( * 5 ) ( * 7 ) ;",
        ),
        // a wire is parted where a path ends in its middle, begins there, or crosses it
        (
            "+ ROUTED metal1 ( 0 0 ) ( 9 0 ) NEW metal1 ( 4 7 ) ( 4 0 ) ;",
            "+ ROUTED metal1 ( 0 0 ) ( 4 * ) ( 9 * ) NEW metal1 ( 4 0 ) ( * 7 ) ;",
        ),
        (
            "+ ROUTED metal1 ( 0 0 ) ( 9 0 ) NEW metal1 ( 4 0 ) ( 4 7 ) ;",
            "+ ROUTED metal1 ( 0 0 ) ( 4 * ) ( 9 * ) NEW metal1 ( 4 0 ) ( * 7 ) ;",
        ),
        (
            "+ ROUTED metal1 ( 0 3 ) ( 9 3 ) NEW metal1 ( 4 0 ) ( 4 7 ) ;",
            "+ ROUTED metal1 ( 0 3 ) ( 4 * ) ( 9 * ) NEW metal1 ( 4 3 ) ( * 0 ) NEW metal1 ( 4 3 ) ( * 7 ) ;",
        ),
        // what two paths draw is there once
        (
            "+ ROUTED metal1 ( 0 0 ) ( 9 0 ) NEW metal1 ( 12 0 ) ( 4 0 ) ;",
            "+ ROUTED metal1 ( 0 0 ) ( 4 * ) ( 9 * ) ( 12 * ) ;",
        ),
        // vias, at the end of a path, alone, and in its middle, where the layer changes
        (
            "+ ROUTED metal1 ( 0 0 ) ( 9 0 ) M2_M1 NEW metal2 ( 9 0 ) ( 9 5 ) ;",
            "+ ROUTED metal1 ( 0 0 ) ( 9 * ) NEW metal2 ( 9 0 ) ( * 5 ) ;",
        ),
        (
            "+ ROUTED metal1 ( 0 0 ) ( 9 0 ) NEW metal2 ( 9 0 ) ( 9 5 ) NEW metal2 ( 9 0 ) M2_M1 ;",
            "+ ROUTED metal1 ( 0 0 ) ( 9 * ) NEW metal2 ( 9 0 ) ( * 5 ) ;",
        ),
        (
            "+ ROUTED metal1 ( 0 0 ) ( 9 0 ) VIA12 ( 9 5 ) via2_FR FN ( 3 5 ) ;",
            "+ ROUTED metal1 ( 0 0 ) ( 9 * ) NEW metal2 ( 9 0 ) ( * 5 ) NEW metal3 ( 9 5 ) ( 3 * ) ;",
        ),
        (
            "+ ROUTED M2 ( 0 0 ) ( 9 0 ) via2_1 ( 9 5 ) M4M3_PR ( 3 5 ) VIA45_X ( 3 9 ) via5 ( 0 9 ) ;",
            "+ ROUTED metal2 ( 0 0 ) ( 9 * ) NEW metal3 ( 9 0 ) ( * 5 ) NEW metal4 ( 9 5 ) ( 3 * ) \
             NEW metal5 ( 3 5 ) ( * 9 ) NEW metal6 ( 3 9 ) ( 0 * ) ;",
        ),
        (
            "+ ROUTED metal10 ( 0 0 ) ( 9 0 ) via10_HV ( 9 5 ) ;",
            "+ ROUTED metal10 ( 0 0 ) ( 9 * ) NEW metal11 ( 9 0 ) ( * 5 ) ;",
        ),
        // a via down to a pin has no place in the form, but its point has
        (
            "+ ROUTED metal2 ( 0 0 ) ( 9 0 ) NEW metal1 ( 4 0 ) M2_M1 ;",
            "+ ROUTED metal2 ( 0 0 ) ( 4 * ) ( 9 * ) ;",
        ),
        // a stack of vias
        (
            "+ ROUTED metal1 ( 0 0 ) ( 9 0 ) M2_M1 NEW metal2 ( 9 0 ) M3_M2 NEW metal3 ( 9 0 ) ( 9 5 ) ;",
            "+ ROUTED metal1 ( 0 0 ) ( 9 * ) NEW metal3 ( 9 0 ) ( * 5 ) ;",
        ),
        // a via of three layers meets a wire in the middle
        (
            "VIAS 1 ; - tall + RECT metal1 ( 0 0 ) ( 1 1 ) + RECT metal2 ( 0 0 ) ( 1 1 ) + RECT metal3 ( 0 0 ) ( 1 1 ) ; END VIAS\n\
             NETS 1 ; - a + ROUTED metal1 ( 5 5 ) ( 5 0 ) tall ( 9 0 ) NEW metal2 ( 0 0 ) ( 7 0 ) ; END NETS",
            "+ ROUTED metal1 ( 5 5 ) ( * 0 ) NEW metal3 ( 5 0 ) ( 9 * ) NEW metal2 ( 5 0 ) ( 0 * ) NEW metal2 ( 5 0 ) ( 7 * ) ;",
        ),
        // three layers at a point are not reached on the highest first
        (
            "+ ROUTED metal3 ( 0 0 ) ( 9 0 ) M3_M2 ( 9 5 ) NEW metal1 ( 9 0 ) ( 9 -5 ) NEW metal1 ( 9 0 ) M2_M1 ;",
            "+ ROUTED metal2 ( 9 5 ) ( * 10 ) NEW metal3 ( 9 5 ) ( 0 * ) NEW metal1 ( 9 5 ) ( * 0 ) ;",
        ),
        // coordinates begin at 0, or at the die's corner
        (
            "+ ROUTED metal1 ( -5 -70000 ) ( 5 * ) ;",
            "+ ROUTED metal1 ( 0 0 ) ( 10 * ) ;",
        ),
        (
            "DIEAREA ( 100000 200000 ) ( 110000 210000 ) ; NETS 1 ; - a + ROUTED metal1 ( 100005 200000 ) ( 100007 * ) ; END NETS",
            "+ ROUTED metal1 ( 5 0 ) ( 7 * ) ;",
        ),
        // rules, styles, masks, extensions, rectangles, other layer names, several routes, properties, comments
        (
            "- a ( u1 A + SYNTHESIZED ) + ROUTED M1 TAPERRULE wide STYLE 2 ( 0 0 0 ) MASK 1 ( 9 0 7 )\n\
             # ; + ROUTED metal1 ( 1 1 ) ;\n\
             RECT ( -1 -1 1 1 ) VIRTUAL ( 9 4 ) + PROPERTY p \"; - x\" + FIXED met1 TAPER ( 9 0 ) ( 9 4 ) + USE SIGNAL ;",
            "+ ROUTED metal1 ( 0 0 ) ( 9 * ) ( * 4 ) ;",
        ),
        // vias that the file defines
        (
            "VIAS 2 ; - up + RECT metal4 ( 0 0 ) ( 1 1 ) + RECT cut ( 0 0 ) ( 1 1 ) + RECT metal5 ( 0 0 ) ( 1 1 ) ;\n\
             - M2_M1 + VIARULE r + LAYERS met3 via3 met4 ; END VIAS\n\
             NETS 1 ; - a + ROUTED metal4 ( 0 0 ) ( 9 0 ) up ( 9 5 ) NEW metal4 ( 0 0 ) M2_M1 ( 0 5 ) ; END NETS",
            "+ ROUTED metal4 ( 0 0 ) ( 9 * ) NEW metal5 ( 9 0 ) ( * 5 ) NEW metal3 ( 0 0 ) ( * 5 ) ;",
        ),
    ] {
        assert_eq!(rewritten(text), expected, "{text}");
        assert_eq!(rewritten(expected), expected);
    }
}

/// The word that is named stands behind the bar.
#[test]
fn nets_that_are_named() {
    let lines =
        (1..6).map(|k| format!("NEW metal1 ( 0 {k} ) ( 9 * ) NEW metal1 ( {k} 0 ) |( * 9 ) "));
    let grid = lines.collect::<String>().replacen('|', "", 4);
    let grid = format!("- a + ROUTED metal2 ( 0 0 ) ( 9 0 ) {grid};");
    let parts = "in 2 parts: only a cell can join this one to the first";
    let joined = "a loop: this wire joins what is joined already";
    for (text, told) in [
        ("- a + ROUTED metal1 ( 0 0 ) ( 9 0 ) ( 9 9 ) ( 0 9 ) |( 0 0 ) ;", joined),
        ("- a + ROUTED metal1 ( 0 0 ) ( 9 0 ) ( 9 9 ) ( 4 9 ) |( 4 0 ) ;", joined),
        ("- a + ROUTED metal1 ( 0 0 ) ( 9 0 ) M2_M1 ( 9 5 ) M2_M1 ( 4 5 ) |( 4 0 ) ;", joined),
        ("- a + ROUTED metal1 ( 0 0 ) ( 9 0 ) M2_M1 NEW metal2 ( 9 0 ) |( 0 0 ) M2_M1 ;", joined),
        (&grid, "loops: its wires on metal1 meet too often for a tree"),
        ("- a + ROUTED metal1 ( 0 0 ) ( 9 0 )\nNEW metal2 ( 9 0 ) |( 9 5 ) M3_M2 ;", parts),
        ("- a + ROUTED metal1 ( 0 0 ) ( 9 0 ) NEW metal1 ( 4 4 ) |M2_M1 ;", parts),
        ("- |a + ROUTED metal1 ( 0 0 ) M2_M1 ;", "it has no wire"),
        ("- |a + ROUTED metal1 ( 0 0 ) ( 0 * ) ;", "it has no wire"),
        ("- |a ( u A ) + USE SIGNAL ;", "it has no route"),
        ("- a + ROUTED metal1 ( 0 0 ) |( 9 9 ) ;", "refused 10 1: wire 1: its ends differ in x and in y (put a node at the corner)"),
        ("- a + ROUTED metal2 ( 5 5 ) |( 5 0 ) M3_M2 ( 13 0 ) M4_M3 ( 5 0 ) M5_M4 ( 0 0 ) ;", "layers change at a point in a way that the library's form cannot say"),
        ("- a + ROUTED metal1 ( 0 0 ) |( 65536 0 ) ;", "x 65536 is 65536 steps from 0, and 0 to 65535 can be written: try --grid"),
        ("- a + ROUTED |metal17 ( 0 0 ) ( 9 0 ) ;", "'metal17' stands where a layer, metal1 to metal16, should stand"),
        ("- a + ROUTED |metal01 ( 0 0 ) ( 9 0 ) ;", "'metal01' stands where a layer, metal1 to metal16, should stand"),
        ("- a + ROUTED |( 0 0 ) ( 9 0 ) ;", "'(' stands where a layer, metal1 to metal16, should stand"),
        ("- a + ROUTED metal1 ( 0 |* ) ( 9 0 ) ;", "'*' stands where a coordinate, a whole number, should stand"),
        ("- a + ROUTED metal1 ( 0 0 ) ( |9.5 0 ) ;", "'9.5' stands where a coordinate, a whole number, should stand"),
        ("- a + ROUTED metal1 ( 0 0 ) ( |3000000000 0 ) ;", "'3000000000' stands where a coordinate, a whole number, should stand"),
        ("- a + ROUTED metal1 |(0 0) ;", "'(0' stands where a point, '( X Y )', should stand"),
        ("- a + ROUTED metal1 |;", "';' stands where a point, '( X Y )', should stand"),
        ("- a + ROUTED metal1 |M2_M1 ( 0 0 ) ;", "'M2_M1' stands where a point, '( X Y )', should stand"),
        ("- a + ROUTED metal1 ( 0 0 ) ( 9 0 ) |knob ;", "the layers of via 'knob' are not known: VIAS has none of this name, and the name does not say them"),
        ("- a + ROUTED metal1 ( 0 0 ) ( 9 0 ) |M3_M2 ;", "via 'M3_M2' joins metal2 and metal3, and the path is on metal1"),
        ("- a + ROUTED metal1 ( 0 0 ) ( 9 0|", "it ends where ')' should close the point"),
        ("- a + ROUTED metal1 ( 0 0 ) ( 9 0 )|", "its ';' is missing"),
    ] {
        let before = text.split('|').next().unwrap();
        let (above, beside) = before.rsplit_once('\n').unwrap_or(("", before));
        let line = above.lines().count() + 1;
        let column = beside.len() + 1;
        let expected = format!("antenna: -:{line}:{column}: net 'a': {told}\n");
        assert_eq!(named(&text.replace('|', "")), expected, "{text}");
    }
    assert_eq!(
        named("- ;"),
        "antenna: -:1:1: net '0': a net without a name\n"
    );
    let control = named("- \x1b[31m\u{e9} + USE CLOCK ;");
    assert_eq!(
        control,
        "antenna: -:1:3: net '\\x1b[31m\\xc3\\xa9': it has no route\n"
    );
}

/// The nets around one that is not read are, also where its ';' is missing.
#[test]
fn others_go_on() {
    let good = |name: &str| format!("- {name} + ROUTED metal1 ( 0 0 ) ( 9 0 ) ;\n");
    for bad in [
        "- bad + ROUTED metal1 ( 0 0 ) ( 9 0 )\n",
        "- bad + ROUTED metal1 ( 0 0 ;\n",
        "- bad\n",
        "- bad ( u A ) ;\n",
        "- one + ROUTED metal1 ( 0 0 ) ( 9 0 ) ;\n",
    ] {
        let (one, two) = (good("one"), good("two"));
        let text = format!("NETS 4 ;\n{one}{bad}{two}{bad}END NETS\n");
        let ran = antenna(&["-"], text.as_bytes());
        assert_eq!(ran.status, Some(2));
        let read = ran
            .text
            .lines()
            .filter(|line| line.contains(": 2 nodes, 1 wire, 0 vias, length 9, layers 1"));
        assert_eq!(read.count(), 2, "{text}: {}", ran.text);
        assert!(
            ran.text
                .ends_with("2 of 4 nets read; 0 0 is 0 0 of the file\n"),
            "{}",
            ran.text
        );
    }
    let text = format!("NETS 3 ;\n{}{}", good("one"), good("two"));
    let ran = antenna(&["-"], text.as_bytes());
    let told = "antenna: -:1:1: NETS 3, but 2 are there\n";
    assert_eq!((ran.status, ran.errors.as_str()), (Some(2), told));
    let lost = text.replace("3 ;", "2 ;").replace("- two", "two");
    let ran = antenna(&["-"], lost.as_bytes());
    assert_eq!((ran.status, ran.errors.as_str()), (Some(0), ""));
    assert!(ran.text.contains("\n1: 2 nodes"), "{}", ran.text);
    let ran = antenna(&["-"], b"VERSION 5.6 ;\nSPECIALNETS 1 ;\n- vdd + ROUTED metal1 40 ( 0 0 ) ( 9 0 ) ;\nEND SPECIALNETS\n");
    assert_eq!(
        (ran.status, ran.errors.as_str()),
        (Some(2), "antenna: -: no net is in this file\n")
    );
}

/// The sample in the library's own form: the command reads what the library alone reads.
#[test]
fn own_form_is_the_librarys() {
    let folder = folder_of("own-form");
    let ran = antenna(&["own-form.def", "-o", folder.to_str().unwrap()], &[]);
    assert_eq!((ran.status, ran.errors.as_str()), (Some(0), ""));
    let text = fs::read(root().join("examples/def/own-form.def")).unwrap();
    let read = read_by_library(&text);
    assert!(read.len() >= 4);
    assert_eq!(names_in(&folder).len(), read.len());
    for (k, file) in read.iter().enumerate() {
        assert!(
            fs::read(folder.join(format!("{k}.net"))).unwrap() == *file,
            "net {k}"
        );
    }
}
