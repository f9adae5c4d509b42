//! Several nets in a run: a line each, and the highest status.

use super::{antenna, samples, stored, Ran};

fn lines(ran: &Ran) -> Vec<&str> {
    ran.text.lines().collect()
}

#[test]
fn line_for_each_net() {
    let nets = ["a.net", "j.net", "c.net"];
    let run = |name: &str, options: &[&str]| antenna(&[&[name], &nets[..], options].concat(), &[]);
    let ran = run("report", &["--limit=12"]);
    assert_eq!(ran.status, 1);
    assert_eq!(
        lines(&ran),
        [
            "a.net: 1 piece, 1 harmful, the heaviest 13",
            "j.net: 1 piece, 1 harmful, the heaviest 80",
            "c.net: 1 piece, 0 harmful"
        ]
    );
    let ran = run("repair", &["--limit=12"]);
    assert_eq!(ran.status, 0);
    assert_eq!(
        lines(&ran),
        ["a.net: 1 jumper", "j.net: 1 jumper", "c.net: 0 jumpers"]
    );
    let ran = run("repair", &["--limit=11"]);
    assert_eq!(ran.status, 1);
    assert_eq!(lines(&ran)[2], "c.net: refused 15 0");
    assert!(ran
        .errors
        .starts_with("antenna: c.net: refused 15 0: no set of jumpers will do"));
}

/// A net that is refused or cannot be read has a line too, and the nets after it are judged.
#[test]
fn net_that_is_refused() {
    for (limit, nets, status) in [
        ("13", ["a.net", "none.net", "j.net"], 2),
        ("80", ["none.net", "a.net", "j.net"], 2),
        ("80", ["a.net", "j.net", "none.net"], 2),
        ("80", ["a.net", "j.net", "c.net"], 0),
    ] {
        let ran = antenna(&[&["report"], &nets[..], &["--limit", limit]].concat(), &[]);
        assert_eq!(ran.status, status);
        let lines = lines(&ran);
        assert_eq!(lines.len(), 3);
        for (net, line) in nets.iter().zip(lines) {
            assert!(line.starts_with(&format!("{net}: ")), "{line}");
            assert_eq!(line.ends_with(": unreadable"), *net == "none.net", "{line}");
        }
    }
    let broken = stored("eleven.net", b"node 0 at 0 0\nobstacle 3 3 to 2 4\n");
    let ran = antenna(&["repair", &broken, "a.net", "--limit=13"], &[]);
    assert_eq!(ran.status, 2);
    assert_eq!(
        lines(&ran),
        [&format!("{broken}: refused 11 0"), "a.net: 0 jumpers"]
    );
    assert!(
        ran.errors.contains(":2: refused 11 0: obstacle 0"),
        "{}",
        ran.errors
    );
}

/// One list for all nets, or one for each in their order.
#[test]
fn lists_of_several_nets() {
    let (one, two) = (stored("one.txt", b"1 6\n"), stored("two.txt", b"2 9\n"));
    let nets = ["check", "a.net", "j.net", "--limit=20", "--stage=1"];
    let ran = antenna(
        &[&nets[..], &["--jumpers", &one, "--jumpers", &two]].concat(),
        &[],
    );
    assert_eq!(ran.status, 0, "{}", ran.errors);
    assert_eq!(
        lines(&ran),
        [
            "a.net: legal with 1 jumper, not smallest: antenna repair needs 0 jumpers",
            "j.net: legal with 1 jumper, smallest: no legal set has fewer"
        ]
    );
    let ran = antenna(&[&nets[..], &["--jumpers", "-"]].concat(), b"1 6\n");
    assert_eq!(ran.status, 1, "{}", ran.errors);
    assert_eq!(
        lines(&ran)[1],
        "j.net: not legal: 1 harmful piece, antenna repair needs 1 jumper"
    );
    let ran = antenna(
        &[&nets[..], &["--jumpers", &one, "--jumpers", "none.txt"]].concat(),
        &[],
    );
    assert_eq!(ran.status, 2, "{}", ran.errors);
    assert!(lines(&ran)[0].starts_with("a.net: legal"));
    assert_eq!(lines(&ran)[1], "j.net: unreadable");
    let three = ["--jumpers", &one, "--jumpers", &two, "--jumpers", &one];
    let ran = antenna(&[&nets[..], &three].concat(), &[]);
    assert_eq!((ran.status, ran.text.as_str()), (2, ""));
    assert!(
        ran.errors.contains("3 jumper lists for 2 nets"),
        "{}",
        ran.errors
    );
}

/// With --json an object on a line for each net, the same as for the net alone.
#[test]
fn objects_of_several_nets() {
    let names = samples();
    let names: Vec<&str> = names.iter().map(String::as_str).collect();
    for name in ["report", "repair"] {
        let options = ["--limit=11", "--stage=1", "--json"];
        let ran = antenna(&[&[name], &names[..], &options].concat(), &[]);
        let alone = names
            .iter()
            .map(|net| antenna(&[&[name, *net], &options[..]].concat(), &[]).text);
        assert_eq!(ran.text, alone.collect::<String>());
        assert_eq!(lines(&ran).len(), names.len());
    }
}
