//! Net files of version 1 and of version 2, where obstacles have layers, as files and in text form.

use super::{antenna, sample, samples, stored};
use antenna_tests::generate;
use antenna_tests::random::Random;
use antenna_tests::reference::net::{net_of, Net};
use antenna_tests::root;

/// File to text to file, and text to file to text: each gives back what it began with, and the text says the version.
#[test]
fn files_and_texts_are_inverse() {
    let mut random = Random::new(12);
    let (mut nets, mut without_obstacles) = ([0; 2], [0; 2]);
    for _ in 0..100 {
        let net = generate::any_net(&mut random);
        let file = net.file();
        let text = antenna(&["unpack", "-"], &file);
        assert_eq!((text.status, text.errors.as_str()), (0, ""));
        assert_eq!(text.text.starts_with("version 2\n"), net.version == 2);
        assert_eq!(
            text.text.contains("version"),
            net.version == 2,
            "{}",
            text.text
        );
        assert!(antenna(&["pack", "-"], &text.out).out == file);
        assert_eq!(antenna(&["unpack", "-"], &text.out).text, text.text);
        assert!(antenna(&["pack", "-"], &file).out == file);
        let version = net.version as usize - 1;
        nets[version] += 1;
        without_obstacles[version] += usize::from(net.obstacles.is_empty());
    }
    assert!(nets.iter().all(|&n| n > 20), "{nets:?}");
    assert!(
        without_obstacles.iter().all(|&n| n > 2),
        "{without_obstacles:?}"
    );
}

/// A text of version 1 may say so, and a comment may stand before the version.
#[test]
fn first_line_of_a_text() {
    let net = "node 0 at 0 0\nobstacle 1 2 to 3 4";
    let pack = |text: String| antenna(&["pack", "-"], text.as_bytes()).out;
    let (first, second) = (pack(format!("{net}\n")), pack(format!("version 1\n{net}")));
    assert_eq!(first[..2], [1, 0]);
    assert_eq!(first.len(), 28 + 5 + 8);
    assert_eq!(first, second);
    let layered = pack(format!("# straps\n\n version 2 # layers\n{net} layer 7\n"));
    assert_eq!(layered[..2], [2, 0]);
    assert_eq!(layered[33..], [1, 0, 2, 0, 3, 0, 4, 0, 7]);
}

#[test]
fn texts_with_a_wrong_version() {
    for (text, told) in [
        (
            "version 2\nnode 0 at 0 0\nversion 2",
            "-:3: the version is given twice",
        ),
        (
            "version 1\nversion 1\nnode 0 at 0 0",
            "-:2: the version is given twice",
        ),
        (
            "node 0 at 0 0\nversion 2",
            "-:2: the version comes before the first record",
        ),
        ("version\nnode 0 at 0 0", "-:1: a version is 'version N'"),
        (
            "version 2 2\nnode 0 at 0 0",
            "-:1: a version is 'version N'",
        ),
        ("version two\nnode 0 at 0 0", "-:1: 'two' is no number"),
        (
            "version 4294967296\nnode 0 at 0 0",
            "-:1: '4294967296' is no number from 0 to 4294967295",
        ),
        ("version 0\nnode 0 at 0 0", "-:1: refused 2 0: "),
        // what its records are is not known
        ("# new\nversion 3\nstrap 0 0 to 1 1", "-:2: refused 2 0: "),
        ("version 65537\nnode 0 at 0 0", "-:1: refused 2 0: "),
        ("version 65538\nnode 0 at 0 0", "-:1: refused 2 0: "),
        ("version 4294967295\nnode 0 at 0 0", "-:1: refused 2 0: "),
    ] {
        let ran = antenna(&["pack", "-"], text.as_bytes());
        assert_eq!((ran.status, ran.text.as_str()), (2, ""), "{text}");
        assert!(ran.errors.contains(told), "{text}: {}", ran.errors);
    }
}

/// Obstacles with and without a layer; what is wrong with the layer, and with the corners, the library says.
#[test]
fn texts_with_wrong_obstacles() {
    let form = "an obstacle is 'obstacle X1 Y1 to X2 Y2";
    let in_2 = format!("{form} layer L'");
    let missing = format!(
        "-:3: its layer is missing: in version 2 {in_2}, and layer 16 bars points of every wire"
    );
    let begin = "-:2: an obstacle has a layer only in version 2: begin with 'version 2'";
    let (form_1, form_2) = (format!("-:2: {form}'"), format!("-:3: {in_2}"));
    for (version, obstacles, told) in [
        ("", "obstacle 0 0 to 1 1 layer 3", begin),
        ("", "obstacle 0 0 to 1 1 layer", begin),
        ("", "obstacle 0 0 to 1 1 3", &form_1),
        ("", "obstacle 0 0 1 1", &form_1),
        ("version 2\n", "obstacle 0 0 to 1 1", &missing),
        ("version 2\n", "obstacle 0 0 to 1 1 3", &form_2),
        ("version 2\n", "obstacle 0 0 to 1 1 layer", &form_2),
        ("version 2\n", "obstacle 0 0 to 1 1 layer 3 4", &form_2),
        ("version 2\n", "obstacle 0 0 1 1 layer 3", &form_2),
        (
            "version 2\n",
            "obstacle 0 0 to 1 1 layer 256",
            "-:3: '256' is no number from 0 to 255",
        ),
        (
            "version 2\n",
            "obstacle 0 0 to 1 1 layer 0",
            "-:3: refused 20 0: obstacle 0: its layer is not 1 to 16",
        ),
        (
            "version 2\n",
            "obstacle 0 0 to 1 1 layer 16\nobstacle 0 0 to 1 1 layer 17",
            "-:4: refused 20 1: obstacle 1: ",
        ),
        (
            "version 2\n",
            "obstacle 1 0 to 0 1 layer 17",
            "-:3: refused 11 0: ",
        ),
        (
            "version 2\n",
            "obstacle 0 0 to 1 1 layer 17\nobstacle 1 0 to 0 1 layer 3",
            "-:3: refused 20 0: ",
        ),
    ] {
        let text = format!("{version}node 0 at 0 0\n{obstacles}\n");
        let ran = antenna(&["pack", "-"], text.as_bytes());
        assert_eq!((ran.status, ran.text.as_str()), (2, ""), "{text}");
        assert!(ran.errors.contains(told), "{text}: {}", ran.errors);
    }
    for (version, layer) in [("", ""), ("version 2\n", " layer 9")] {
        let obstacles = |count| format!("obstacle 0 0 to 1 1{layer}\n").repeat(count);
        let pack = |count| {
            let text = format!("{version}node 0 at 0 0\n{}", obstacles(count));
            antenna(&["pack", "-"], text.as_bytes())
        };
        assert_eq!(pack(256).status, 0);
        assert!(pack(257).errors.contains("-: refused 6 0: "));
    }
}

/// The net of a sample of version 2 in version 1: without the layers of its obstacles.
fn in_version_1(name: &str) -> String {
    let text = std::fs::read_to_string(root().join("examples/nets").join(name)).unwrap();
    let mut older = String::new();
    for line in text.lines().filter(|line| *line != "version 2") {
        let end = match line.starts_with("obstacle") {
            true => line.find(" layer ").unwrap(),
            false => line.len(),
        };
        older += &format!("{}\n", &line[..end]);
    }
    stored(&format!("older-{name}"), older.as_bytes())
}

/// The net of a sample of version 1 in version 2, as the manual says: each obstacle on layer 16.
#[test]
fn samples_in_version_2() {
    let mut obstacles = 0;
    for name in samples() {
        let net = sample(&name);
        if net.version == 2 {
            continue;
        }
        let text = antenna(&["unpack", &name], &[]).text;
        let layered = |line: &str| match line.starts_with("obstacle") {
            true => format!("{line} layer 16\n"),
            false => format!("{line}\n"),
        };
        let lines: String = text.lines().map(layered).collect();
        let newer = antenna(&["pack", "-"], format!("version 2\n{lines}").as_bytes()).out;
        assert_eq!(
            net_of(&newer),
            Ok(Net {
                version: 2,
                ..net.clone()
            })
        );
        obstacles += net.obstacles.len();
    }
    assert!(obstacles > 5, "{obstacles}");
}

/// What the samples of version 2 show: in version 1 every obstacle bars points of every wire.
#[test]
fn samples_in_version_1() {
    for (name, limit, second, first) in [
        ("straps.net", "60", "3 jumpers", "4 jumpers"),
        ("crossing.net", "13", "1 jumper", "refused 15 0"),
        ("crossing.net", "23", "1 jumper", "refused 15 0"),
        ("crossing.net", "24", "0 jumpers", "0 jumpers"),
    ] {
        let older = in_version_1(name);
        let file = antenna(&["pack", &older], &[]).out;
        assert_eq!(net_of(&file).unwrap().version, 1);
        let nets = ["repair", name, &older, "--stage=3", "--limit", limit];
        let ran = antenna(&nets, &[]);
        let told = format!("{name}: {second}\n{older}: {first}\n");
        assert_eq!(ran.text, told, "{}", ran.errors);
    }
}

/// A jumper over a strap of a lower layer is legal; one under a strap of its own wire's layer or of a higher one is not.
#[test]
fn jumpers_at_straps() {
    for (layer, status) in [(1, 0), (2, 0), (3, 2), (4, 2), (16, 2)] {
        let net = format!(
            "version 2\nnode 0 at 0 0 gate\nnode 1 at 13 0 gate\nwire 1 to 0 layer 3 factor 1\nobstacle 6 0 to 7 0 layer {layer}\n"
        );
        let net = stored(&format!("strap-{layer}.net"), net.as_bytes());
        for name in ["report", "check", "draw"] {
            let ran = antenna(&[name, &net, "--limit=7", "--jumpers", "-"], b"1 6\n");
            assert_eq!(ran.status, status, "{name}, layer {layer}: {}", ran.errors);
            assert_eq!(ran.errors.contains("-:1: refused 14 0: "), status == 2);
        }
        let repaired = antenna(&["repair", &net, "--limit=7"], &[]).text;
        let count = if status == 0 {
            "jumpers 1"
        } else {
            "jumpers 2"
        };
        assert_eq!(repaired.lines().next(), Some(count), "layer {layer}");
    }
}
