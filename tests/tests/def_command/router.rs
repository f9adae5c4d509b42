//! What a router wrote: every net that is a tree is read, each as the wires it has; the others are named.

use super::metal::Metal;
use super::notes::{lost_as_noted, Via, NOTE};
use super::{antenna, folder_of, names_in, read_by_library};
use antenna_tests::reference::net::net_of;
use antenna_tests::root;
use std::fs;
use std::process::Command;

/// The die begins at -320 -300.
const MOVED: (i64, i64) = (320, 300);

/// The via of net _34_ that stands beside its point.
const NOTED: Via = ([4, 5], 4960 + MOVED.0, 5400 + MOVED.1);

struct Routed {
    name: String,
    line: usize,
    metal: Metal,
    /// Every coordinate is a multiple of 5.
    in_fives: bool,
}

impl Routed {
    /// The name of its file: of the bytes that are escaped these names have two.
    fn file(&self) -> String {
        let name = self.name.replace('[', "%5B").replace(']', "%5D");
        format!("{name}.net")
    }
}

/// Each net of the file.
fn nets() -> Vec<Routed> {
    let text = fs::read_to_string(root().join("examples/def/router.def")).unwrap();
    let begin = text.find("\nNETS ").unwrap();
    let begin = begin + text[begin..].find(";\n").unwrap() + 2;
    let end = text.find("\nEND NETS").unwrap() + 1;
    let mut at = begin;
    let mut nets = Vec::new();
    for net in text[begin..end].split_inclusive(';') {
        let words: Vec<&str> = net.split_whitespace().collect();
        if let ["-", name, ..] = words[..] {
            let routed = words.iter().position(|word| *word == "ROUTED").unwrap();
            let words = &words[routed + 1..words.len() - 1];
            let mut numbers = words.iter().filter_map(|word| word.parse::<i64>().ok());
            nets.push(Routed {
                name: name.into(),
                line: text[..=at + net.find('-').unwrap()].lines().count(),
                metal: Metal::of_router(words, MOVED),
                in_fives: numbers.all(|number| number % 5 == 0),
            });
        }
        at += net.len();
    }
    nets
}

const READ: &str =
    "224 of 253 nets read, 1 with a via beside its point; 0 0 is -320 -300 of the file\n";

fn is_note(line: &str) -> bool {
    line.contains(": note: ")
}

/// It is told of one net, at the via, whatever is printed; the text printed has nothing of it.
#[test]
fn via_beside_its_point_is_told() {
    let note = format!("antenna: router.def:1170:39: note: net '_34_': {NOTE}");
    let folder = folder_of("router-note");
    let outputs: [&[&str]; 4] = [
        &[],
        &["-o", folder.to_str().unwrap()],
        &["--text"],
        &["--text", "-o", folder.to_str().unwrap()],
    ];
    for words in outputs {
        let ran = antenna(&[&["router.def"], words].concat(), &[]);
        let notes: Vec<&str> = ran.errors.lines().filter(|line| is_note(line)).collect();
        assert_eq!(notes, [note.as_str()]);
        assert_eq!(ran.text.ends_with(READ), !words.contains(&"--text"));
        assert!(!ran.text.contains("note"));
    }
    let text = fs::read_to_string(root().join("examples/def/router.def")).unwrap();
    let line = text.lines().nth(1169).unwrap();
    assert_eq!(&line[..38], "  NEW metal4 ( 5040 5400 ) ( 4960 * ) ");
    assert_eq!(line[38..].trim_end(), "M5_M4");
}

#[test]
fn trees_are_read_and_others_named() {
    let folder = folder_of("router");
    let ran = antenna(&["router.def", "-o", folder.to_str().unwrap()], &[]);
    assert_eq!((ran.status, ran.text.as_str()), (Some(2), READ));
    let nets = nets();
    assert_eq!(nets.len(), 253);
    let trees = nets.iter().filter(|net| net.metal.is_tree());
    let mut names: Vec<String> = trees.map(Routed::file).collect();
    names.sort();
    assert_eq!(names.len(), 224);
    assert_eq!(names_in(&folder), names);
    let others: Vec<&Routed> = nets.iter().filter(|net| !net.metal.is_tree()).collect();
    let errors: Vec<&str> = ran.errors.lines().filter(|line| !is_note(line)).collect();
    assert_eq!((errors.len(), others.len()), (29, 29));
    for (error, net) in errors.iter().zip(others) {
        let rest = error.strip_prefix("antenna: router.def:").unwrap();
        let (at, rest) = rest.split_once(':').unwrap();
        let at: usize = at.parse().unwrap();
        assert!((net.line..net.line + 60).contains(&at), "{error}");
        let (name, parts) = (&net.name, net.metal.parts());
        let told =
            format!(": net '{name}': in {parts} parts: only a cell can join this one to the first");
        assert!(rest.ends_with(&told), "{error}");
    }
}

/// The steps of each layer are those of the text, and at every stage they are joined as there; so they are after a cut in a wire,
/// and a jumper can stand where it can in the text, apart from the points that the note tells of.
#[test]
fn nets_are_what_the_text_draws() {
    let folder = folder_of("router-nets");
    antenna(&["router.def", "-o", folder.to_str().unwrap()], &[]);
    let mut cuts = 0;
    for routed in nets().iter().filter(|net| net.metal.is_tree()) {
        let (name, metal) = (&routed.name, &routed.metal);
        let net = net_of(&fs::read(folder.join(routed.file())).unwrap()).unwrap();
        let (written, inside) = Metal::of_net(&net);
        assert_eq!(written.steps(), metal.steps(), "{name}");
        for stage in 1..=16 {
            let pieces = metal.pieces(stage, None);
            assert_eq!(written.pieces(stage, None), pieces, "{name} at {stage}");
        }
        let plain = metal.plain();
        let notes: &[Via] = if name == "_34_" { &[NOTED] } else { &[] };
        lost_as_noted(plain.keys().copied().collect(), &inside, notes, name);
        for (k, point) in inside.iter().enumerate() {
            // wires of a hundred steps and more are cut at least once
            if k % 99 == 0 {
                cuts += 1;
                let pieces = metal.pieces(16, Some(plain[&point.at]));
                assert_eq!(written.pieces(16, Some(point.end)), pieces, "{name}");
            }
        }
    }
    assert!(cuts > 3000, "{cuts}");
}

/// What --text prints is in the library's form, is read back unchanged, and gives the same net files.
#[test]
fn text_is_read_back() {
    let folder = folder_of("router-text");
    let words = ["router.def", "--text", "-o", folder.to_str().unwrap()];
    let text = antenna(&words, &[]).text;
    let again = folder_of("router-again");
    let words = ["-", "--text", "-o", again.to_str().unwrap()];
    let ran = antenna(&words, text.as_bytes());
    assert_eq!((ran.status, ran.errors.as_str()), (Some(0), ""));
    assert!(ran.text == text);
    let read = read_by_library(text.as_bytes());
    assert_eq!(read.len(), 224);
    let nets = nets();
    for (k, net) in nets.iter().filter(|net| net.metal.is_tree()).enumerate() {
        let files = [folder.join(net.file()), again.join(format!("{k}.net"))];
        for file in files {
            assert!(fs::read(&file).unwrap() == read[k], "{}", file.display());
        }
    }
}

#[test]
fn line_for_each_net() {
    let ran = antenna(&["router.def"], &[]);
    let lines: Vec<&str> = ran.text.lines().collect();
    assert_eq!(lines.len(), 254);
    let clock = "clock: 18 nodes, 10 wires, 7 vias, length 8120, layers 1,2,3";
    assert_eq!(lines[..2], [clock, "clock_bF$buf4: unreadable"]);
    let unread = lines.iter().filter(|line| line.ends_with(": unreadable"));
    assert_eq!(unread.count(), 29);
}

/// A net with a coordinate off the grid is named, the others are divided.
#[test]
fn grid_of_the_router() {
    let folder = folder_of("router-grid");
    let words = ["router.def", "--grid", "5", "-o", folder.to_str().unwrap()];
    let ran = antenna(&words, &[]);
    let nets = nets();
    let read = nets
        .iter()
        .filter(|net| net.metal.is_tree() && net.in_fives);
    let read: Vec<&Routed> = read.collect();
    assert_eq!(read.len(), 197);
    let told = "197 of 253 nets read, 1 with a via beside its point; 0 0 is -320 -300 of the file, a step is 5\n";
    assert_eq!((ran.status, ran.text.as_str()), (Some(2), told));
    let off = " is no multiple of the grid, 5";
    let said = ran.errors.lines().filter(|line| line.ends_with(off));
    let off = nets.iter().filter(|net| !net.in_fives);
    assert_eq!(said.count(), off.count());
    for net in read {
        let divided = net_of(&fs::read(folder.join(net.file())).unwrap()).unwrap();
        let steps = net.metal.steps().len();
        assert_eq!(5 * divided.total_weight() as usize, steps, "{}", net.name);
    }
}

/// The picture in the documents is that of the router's net.
#[test]
fn picture_of_a_net() {
    let folder = folder_of("picture");
    antenna(&["router.def", "-o", folder.to_str().unwrap()], &[]);
    let drawn = Command::new(root().join("command/target/release/antenna"))
        .arg("draw")
        .arg(folder.join("reset.net"))
        .args(["--stage", "6", "--limit", "2000"])
        .output()
        .unwrap();
    let stored = fs::read(root().join("docs/reset.svg")).unwrap();
    assert!(drawn.stdout == stored);
}
