//! Two layer changes at one point that are not joined there: one via stands a step beside it, where both layers run, and is told.

use super::antenna;
use super::notes::NOTE;

const NET: &str = "+ ROUTED metal2 ( 0 5 ) ( 0 0 ) M3_M2 ( 8 0 ) M4_M3 ( 0 0 ) |M5_M4 ( 20 0 ) ;";

/// What becomes of a net whose vias behind bars stand beside their points; each is told, and that is no error.
fn rewritten(net: &str) -> String {
    let mut told = String::new();
    for (k, (at, _)) in net.match_indices('|').enumerate() {
        let column = "- a ".len() + at - k + 1;
        told += &format!("antenna: -:1:{column}: note: net 'a': {NOTE}\n");
    }
    let text = format!("- a {}", net.replace('|', ""));
    let ran = antenna(&["-", "--text"], text.as_bytes());
    assert_eq!((ran.status, ran.errors), (Some(0), told), "{net}");
    let words: Vec<&str> = ran.text.split_whitespace().collect();
    words.join(" ")
}

#[test]
fn via_beside_its_point() {
    let expected = "+ ROUTED metal2 ( 0 5 ) ( * 0 ) NEW metal3 ( 0 0 ) ( 8 * ) NEW metal4 ( 8 0 ) ( 1 * ) ( 0 * ) \
                    NEW metal5 ( 1 0 ) ( 0 * ) NEW metal5 ( 1 0 ) ( 20 * ) ;";
    assert_eq!(rewritten(NET), expected);
    // read back it is a net like any other
    assert_eq!(rewritten(expected), expected);
}

/// The vias below the one that is moved have no wire there any more, and are no part of their own.
#[test]
fn stack_below_it() {
    let net = |stack: &str| {
        format!(
            "+ ROUTED metal3 ( 8 0 ) ( 8 5 ) {stack} NEW metal3 ( 0 0 ) ( 8 0 ) \
             NEW metal3 ( 0 0 ) |M4_M3 ( 20 0 ) M5_M4 ( 20 9 ) ( 0 9 ) ( 0 0 ) M6_M5 ( 0 -5 ) ;"
        )
    };
    let expected = rewritten(&net(""));
    for stack in [
        "NEW metal2 ( 0 0 ) M3_M2",
        "NEW metal1 ( 0 0 ) M2_M1 NEW metal2 ( 0 0 ) M3_M2",
    ] {
        assert_eq!(rewritten(&net(stack)), expected);
    }
}

/// A via that shares its point with a wire alone stays there, if moving the other one is enough.
#[test]
fn only_where_it_must() {
    let net =
        "+ ROUTED metal3 ( 10 10 ) ( 10 13 ) ( 22 13 ) NEW metal4 ( 16 13 ) ( 10 13 ) ( 10 10 ) \
               NEW metal3 ( 10 10 ) M4_M3 NEW metal3 ( 10 13 ) M3_M2 NEW metal4 ( 10 13 ) |M5_M4 \
               NEW metal5 ( 10 13 ) ( 10 10 ) NEW metal2 ( 10 13 ) ( 10 22 ) ;";
    rewritten(net);
}

/// The last line counts nets, and the notes of one net are in the order of its text.
#[test]
fn nets_are_counted() {
    let twice = "+ ROUTED metal2 ( 40 5 ) ( 40 0 ) M3_M2 ( 32 0 ) M4_M3 ( 40 0 ) |M5_M4 ( 20 0 ) \
                 M5_M4 ( 20 9 ) M4_M3 ( 12 9 ) M3_M2 ( 20 9 ) |M2_M1 ( 0 9 ) ;";
    rewritten(twice);
    let plain = "+ ROUTED metal1 ( 0 0 ) ( 9 0 ) ;";
    for (nets, told) in [
        (vec![plain], "1 of 1 net read"),
        (vec![NET], "1 of 1 net read, 1 with a via beside its point"),
        (
            vec![NET, plain, twice],
            "3 of 3 nets read, 2 with a via beside its point",
        ),
        (
            vec![NET, "+ ROUTED ;"],
            "1 of 2 nets read, 1 with a via beside its point",
        ),
    ] {
        let ran = antenna(&["-"], nets.join("\n").replace('|', "").as_bytes());
        let last = format!("{told}; 0 0 is 0 0 of the file");
        assert_eq!(ran.text.lines().last(), Some(last.as_str()));
        let read = nets.len() == ran.text.matches(" nodes, ").count();
        assert_eq!(ran.status, Some(if read { 0 } else { 2 }));
    }
}
