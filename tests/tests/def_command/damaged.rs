//! Any bytes: the command answers with its own words and status, whatever it is given.

use super::{antenna, folder_of, names_in, Ran};
use antenna_tests::random::Random;
use antenna_tests::root;
use std::fs;
use std::time::{Duration, Instant};

/// Some of the router's file: vias, pins and nets.
fn text() -> Vec<u8> {
    let text = fs::read_to_string(root().join("examples/def/router.def")).unwrap();
    let lines: Vec<&str> = text.lines().collect();
    let parts = [
        &lines[..45],
        &lines[323..340],
        &lines[483..600],
        &lines[3026..3040],
    ];
    let own = fs::read_to_string(root().join("examples/def/own-form.def")).unwrap();
    format!("{}\nEND SPECIALNETS\n{own}", parts.concat().join("\n")).into_bytes()
}

fn answers(ran: &Ran, what: &str) {
    assert!(
        matches!(ran.status, Some(0 | 2)),
        "{what}: {:?}",
        ran.status
    );
    for line in ran.errors.lines() {
        assert!(line.starts_with("antenna: -:"), "{what}: {line}");
    }
    let mut lines = ran.errors.lines();
    let noted = lines.all(|line| line.contains(": note: net '"));
    assert_eq!(ran.status == Some(0), noted, "{what}");
}

#[test]
fn text_cut_short() {
    let text = text();
    for length in (0..text.len()).step_by(7) {
        let ran = antenna(&["-"], &text[..length]);
        answers(&ran, &format!("cut at {length}"));
    }
}

/// Bytes changed, words moved or left out; what is read is read back by the library, and stays in the folder.
#[test]
fn text_changed() {
    let text = text();
    let mut random = Random::new(11);
    let outer = folder_of("damaged");
    let folder = outer.join("in");
    let mut read = 0;
    for k in 0..600 {
        let mut changed = text.clone();
        for _ in 0..random.range(1, 12) {
            let at = random.below(changed.len() as u64) as usize;
            match random.below(4) {
                0 => changed[at] = random.next() as u8,
                1 => changed[at] = random.pick(b" \n;()+-*/.\"#\0"),
                2 => drop(changed.remove(at)),
                _ => {
                    let end = (at + random.below(200) as usize).min(changed.len());
                    let copied = changed[at..end].to_vec();
                    let to = random.below(changed.len() as u64) as usize;
                    changed.splice(to..to, copied);
                }
            }
        }
        let words = ["-", "--text", "-o", folder.to_str().unwrap()];
        let ran = antenna(&words, &changed);
        answers(&ran, &format!("change {k}"));
        read += super::read_by_library(ran.text.as_bytes()).len();
        assert_eq!(names_in(&outer), ["in"]);
        assert!(names_in(&folder).iter().all(|name| name.ends_with(".net")));
    }
    assert!(read > 1000, "{read}");
}

#[test]
fn bytes_that_are_no_text() {
    let mut random = Random::new(12);
    for k in 0..200 {
        let words: [&[u8]; 12] = [
            b"+ ROUTED",
            b"metal1",
            b"( 0 0 )",
            b"( * 9 )",
            b"NEW",
            b";",
            b"- a",
            b"M2_M1",
            b"\"",
            b"# ",
            b"END NETS",
            b"\xff\0",
        ];
        let mut text = Vec::new();
        for _ in 0..random.below(60) {
            text.extend(random.pick(&words));
            text.push(random.pick(b"  \n\t"));
        }
        answers(&antenna(&["-"], &text), &format!("text {k}"));
    }
}

/// A net of 100,000 points, a comb, a staircase or a grid, is named in a moment.
#[test]
fn large_nets() {
    let stairs: String = (1..50_000)
        .map(|k| format!("( {k} * ) ( * {k} )\n"))
        .collect();
    let comb = |k: usize| format!("NEW metal1 ( {k} 0 ) ( * 9 )\n");
    let comb: String = (0..50_000).map(comb).collect();
    let grid =
        |k: usize| format!("NEW metal1 ( {k} 0 ) ( * 60000 ) NEW metal1 ( 0 {k} ) ( 60000 * )\n");
    let grid: String = (0..25_000).map(grid).collect();
    let over: String = (1..50_000)
        .map(|k| format!("NEW metal1 ( 0 0 ) ( {k} * )\n"))
        .collect();
    for (text, told) in [
        (
            format!("metal1 ( 0 0 ) {stairs}"),
            "it has 99999 nodes, and a net file at most 256",
        ),
        (
            format!("metal1 ( 0 0 ) ( 60000 0 ) {comb}"),
            "it has 100001 nodes, and a net file at most 256",
        ),
        (
            format!("metal1 ( 0 0 ) ( 60000 0 ) {grid}"),
            "loops: its wires on metal1 meet too often for a tree",
        ),
        (
            format!("metal1 ( 0 0 ) ( 60000 0 ) {over}"),
            "it has 50001 nodes, and a net file at most 256",
        ),
    ] {
        let begun = Instant::now();
        let ran = antenna(&["-"], format!("- big + ROUTED {text} ;").as_bytes());
        let took = begun.elapsed();
        assert!(
            ran.errors.contains(told),
            "{}",
            &ran.errors[..ran.errors.len().min(300)]
        );
        assert_eq!(
            ran.text,
            "big: unreadable\n0 of 1 net read; 0 0 is 0 0 of the file\n"
        );
        assert!(took < Duration::from_secs(10), "{told}: {took:?}");
    }
}
