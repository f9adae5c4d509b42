//! The command for people, run whole, and the sample nets.

#[path = "command/borders.rs"]
mod borders;
#[path = "command/clearance.rs"]
mod clearance;
#[path = "command/pictures.rs"]
mod pictures;
#[path = "command/several.rs"]
mod several;
#[path = "command/versions.rs"]
mod versions;
#[path = "command/writing.rs"]
mod writing;

use antenna_tests::library;
use antenna_tests::reference::net::{net_of, Net};
use antenna_tests::reference::report::{legal, pieces, Point};
use antenna_tests::reference::table;
use antenna_tests::root;
use antenna_tests::suite::repair::{chain, net_a, net_c, net_j};
use std::io::Write;
use std::path::PathBuf;
use std::process::{Command, Stdio};

/// What the command wrote to its two outputs, and its status.
struct Ran {
    out: Vec<u8>,
    text: String,
    errors: String,
    status: i32,
}

/// The command, in the folder of the samples.
fn command(words: &[&str]) -> Command {
    let mut command = Command::new(root().join("command/target/release/antenna"));
    command
        .args(words)
        .current_dir(root().join("examples/nets"));
    command
}

fn antenna(words: &[&str], input: &[u8]) -> Ran {
    let mut child = command(words)
        .stdin(Stdio::piped())
        .stdout(Stdio::piped())
        .stderr(Stdio::piped())
        .spawn()
        .expect("the command is built");
    let _ = child.stdin.take().unwrap().write_all(input);
    let output = child.wait_with_output().unwrap();
    Ran {
        text: String::from_utf8_lossy(&output.stdout).into_owned(),
        out: output.stdout,
        errors: String::from_utf8_lossy(&output.stderr).into_owned(),
        status: output.status.code().unwrap(),
    }
}

/// A file of the tests' own.
fn stored(name: &str, bytes: &[u8]) -> String {
    let path = PathBuf::from(env!("CARGO_TARGET_TMPDIR")).join(name);
    std::fs::write(&path, bytes).unwrap();
    path.to_str().unwrap().into()
}

fn samples() -> Vec<String> {
    let mut names: Vec<String> = std::fs::read_dir(root().join("examples/nets"))
        .unwrap()
        .map(|entry| entry.unwrap().file_name().into_string().unwrap())
        .filter(|name| name.ends_with(".net"))
        .collect();
    names.sort();
    names
}

/// The net of a sample, as the independent reader sees it.
fn sample(name: &str) -> Net {
    net_of(&antenna(&["pack", name], &[]).out).expect("a sample is accepted")
}

/// "WIRE POSITION" on each line, or with commas between.
fn points<'a>(words: impl Iterator<Item = &'a str>) -> Vec<Point> {
    words
        .map(|pair| {
            let (wire, position) = pair.trim().split_once(' ').unwrap();
            (wire.parse().unwrap(), position.parse().unwrap())
        })
        .collect()
}

/// Every sample says what it shows and its answers, and they are right.
#[test]
fn samples_and_their_answers() {
    assert!(samples().len() >= 10);
    for name in samples() {
        let text = std::fs::read_to_string(root().join("examples/nets").join(&name)).unwrap();
        let net = sample(&name);
        assert!(text.starts_with("# "), "{name} says what it shows");
        let mut answers = 0;
        for line in text.lines() {
            let Some(line) = line.strip_prefix("# stage ") else {
                continue;
            };
            answers += 1;
            let (case, answer) = line.split_once(": ").unwrap();
            let (case, clearance) = match case.split_once(" clearance ") {
                Some((case, clearance)) => (case, Some(clearance)),
                None => (case, None),
            };
            let (stage, limit) = case.split_once(" limit ").unwrap();
            let mut words = vec!["repair", &name, "--stage", stage, "--limit", limit];
            words.extend(clearance.iter().flat_map(|c| ["--clearance", c]));
            let ran = antenna(&words, &[]);
            let (stage, limit) = (stage.parse().unwrap(), limit.parse().unwrap());
            let clearance = clearance.map_or(0, |c| c.parse().unwrap());
            let least = table::least(&net, stage, limit, clearance);
            if answer == "refused 15" {
                assert_eq!(least, None, "{name}: {line}");
                assert_eq!(ran.status, 1);
                let told = format!("antenna: {name}: refused 15 0: ");
                assert!(ran.errors.starts_with(&told), "{}", ran.errors);
                continue;
            }
            assert_eq!(ran.status, 0, "{name}: {}", ran.errors);
            let set = points(ran.text.lines().skip(1));
            let count = format!("jumpers {}", set.len());
            assert_eq!(ran.text.lines().next(), Some(count.as_str()));
            assert_eq!(least, Some(set.len()), "{name}: {line}");
            assert!(
                legal(&net, stage, limit, clearance, &set),
                "{name}: {set:?}"
            );
            match answer.split_once(" at ") {
                None => assert_eq!(answer, count, "{name}"),
                Some((start, list)) => {
                    assert_eq!(start, count, "{name}");
                    assert_eq!(set, points(list.split(',')), "{name}");
                }
            }
        }
        assert!(answers > 0, "{name} has no answer");
    }
}

/// As many jumpers as a wire can have: a line for each piece, and the verdict on the list.
#[test]
fn jumpers_at_all_points() {
    let net = chain(&[0, 65535], &[1, 0], &[]);
    let jumpers: Vec<Point> = (1..65_535).map(|t| (1, t)).collect();
    let list: String = jumpers.iter().map(|(i, t)| format!("{i} {t}\n")).collect();
    let file = stored("jumpers-at-all-points", &net.file());
    let run = |name: &str| {
        let words = [name, &file, "--jumpers", "-", "--limit", "1"];
        antenna(&words, list.as_bytes())
    };
    let report = run("report");
    let expected = pieces(&net, 16, &jumpers).into_iter().map(|piece| {
        let name = match piece.name {
            (node, 0) => format!("node {node}"),
            (wire, position) => format!("wire {wire} from {position}"),
        };
        format!("{name} {} ", piece.weight)
    });
    let mut lines = report.text.lines().skip(1);
    for expected in expected {
        let words: Vec<&str> = lines.next().unwrap().split_whitespace().collect();
        assert!(words.join(" ").starts_with(&expected), "{expected}");
    }
    assert_eq!((lines.next(), report.status), (None, 0));
    assert_eq!(
        run("check").text,
        "legal: no piece is harmful with 65534 jumpers\nnot smallest: antenna repair needs 1 jumper\n"
    );
}

#[test]
fn named_nets_are_document_01s() {
    assert_eq!(sample("a.net"), net_a(&[]));
    assert_eq!(sample("j.net"), net_j(0));
    assert_eq!(sample("c.net"), net_c());
    assert_eq!(sample("clock-256.net").nodes.len(), 256);
}

#[test]
fn pack_and_unpack_are_inverse() {
    for name in samples() {
        let packed = antenna(&["pack", &name], &[]);
        assert_eq!(packed.status, 0, "{}", packed.errors);
        let text = antenna(&["unpack", "-"], &packed.out);
        assert_eq!(text.status, 0, "{}", text.errors);
        assert_eq!(antenna(&["pack", "-"], &text.out).out, packed.out);
    }
}

/// The commands that a document shows, each with the lines it shows below.
fn shown(document: &str) -> Vec<(String, String)> {
    let text = std::fs::read_to_string(root().join(document)).unwrap();
    let mut shown: Vec<(String, String)> = Vec::new();
    let mut open = false;
    for line in text.lines() {
        let line = line.strip_prefix("    ");
        if let Some(command) = line.and_then(|line| line.strip_prefix("$ ")) {
            shown.push((command.into(), String::new()));
            open = true;
        } else if let (Some(line), true) = (line, open) {
            let (_, below) = shown.last_mut().unwrap();
            *below += &format!("{line}\n");
        } else {
            open = false;
        }
    }
    shown
}

/// What the documents show of the command is what it prints.
#[test]
fn shown_in_the_documents() {
    let folder = PathBuf::from(env!("CARGO_TARGET_TMPDIR")).join("shown");
    let _ = std::fs::remove_dir_all(&folder);
    std::fs::create_dir(&folder).unwrap();
    // not a link: rt ci, which runs before the tests, takes none in a checkout
    let examples = root().join("examples");
    let copied = Command::new("cp")
        .arg("-r")
        .args([&examples, &folder])
        .status();
    assert!(copied.unwrap().success());
    let built = root().join("command/target/release");
    let path = format!("{}:{}", built.display(), std::env::var("PATH").unwrap());
    let commands = ["README.md", "docs/METHOD.md"].map(shown).concat();
    assert!(commands.len() >= 7);
    for (command, below) in commands {
        let ran = Command::new("sh")
            .args(["-c", &command])
            .current_dir(&folder)
            .env("PATH", &path)
            .output()
            .unwrap();
        assert_eq!(String::from_utf8_lossy(&ran.stderr), "", "{command}");
        assert_eq!(String::from_utf8_lossy(&ran.stdout), below, "{command}");
    }
}

/// A net at stage 1 with a jumper list from standard input.
fn listed<'a>(name: &'a str, net: &'a str, limit: &'a str) -> Vec<&'a str> {
    let options = ["--jumpers", "-", "--stage", "1", "--limit", limit];
    [&[name, net], &options[..]].concat()
}

#[test]
fn report_and_repair() {
    let ran = antenna(&["report", "a.net", "--limit", "6"], &[]);
    assert_eq!(ran.status, 1);
    let lines: Vec<&str> = ran.text.lines().collect();
    let fields: Vec<&str> = lines[1].split_whitespace().collect();
    assert_eq!(lines.len(), 2);
    assert_eq!(fields, ["node", "0", "13", "yes", "-", "YES", "1"]);
    let repaired = antenna(&["repair", "a.net", "--limit", "6"], &[]);
    assert_eq!(repaired.status, 0);
    let ran = antenna(&listed("report", "a.net", "6"), &repaired.out);
    assert_eq!(ran.status, 0);
    assert_eq!(ran.text.lines().count(), 4);
    assert!(!ran.text.contains("YES"), "{}", ran.text);
    let ran = antenna(&["repair", "a.net", "--limit", "1", "--json"], &[]);
    assert_eq!(
        ran.text,
        "{\"net\": \"a.net\", \"jumpers\": [{\"wire\": 1, \"position\": 1}, {\"wire\": 1, \"position\": 12}]}\n"
    );
    let ran = antenna(&["report", "a.net", "--limit", "12", "--json"], &[]);
    assert_eq!(
        ran.text,
        "{\"net\": \"a.net\", \"pieces\": [{\"number\": 0, \"position\": 0, \"weight\": 13, \"gate\": true, \"source\": false, \"harmful\": true, \"layers\": [1]}]}\n"
    );
}

/// The word smallest without a "not" stands only where repair needs as many jumpers as the list has.
#[test]
fn check_says_what_repair_said() {
    for (list, limit, status, told) in [
        ("1 4\n1 8\n", "6", 0, "smallest: no legal set has fewer"),
        (
            "1 4\n1 7\n1 12\n",
            "6",
            0,
            "not smallest: antenna repair needs 2 jumpers",
        ),
        ("1 6\n", "6", 1, "antenna repair needs 2 jumpers"),
        // as many as repair needs, but not legal
        ("1 1\n1 2\n", "6", 1, "antenna repair needs 2 jumpers"),
        ("1 6\n", "0", 1, "no set of jumpers is legal at this limit"),
    ] {
        let ran = antenna(&listed("check", "a.net", limit), list.as_bytes());
        assert_eq!(ran.status, status, "{list}");
        assert_eq!(ran.text.lines().last(), Some(told), "{list}");
        let legal = if status == 0 {
            "legal: "
        } else {
            "not legal: "
        };
        assert!(ran.text.starts_with(legal), "{list}: {}", ran.text);
    }
    for (list, limit, told) in [
        (
            "1 4\n1 8\n",
            "6",
            "\"legal\": true, \"smallest\": true, \"jumpers\": 2, \"fewest\": 2",
        ),
        (
            "1 1\n1 2\n",
            "6",
            "\"legal\": false, \"smallest\": false, \"jumpers\": 2, \"fewest\": 2",
        ),
        (
            "1 6\n",
            "0",
            "\"legal\": false, \"smallest\": false, \"jumpers\": 1, \"fewest\": null",
        ),
    ] {
        let words = [&listed("check", "a.net", limit)[..], &["--json"]].concat();
        let ran = antenna(&words, list.as_bytes());
        assert_eq!(ran.text, format!("{{\"net\": \"a.net\", {told}}}\n"));
    }
}

#[test]
fn jumper_lists_in_text_form() {
    for (text, told) in [
        (
            "jumpers 2\n1 4\n",
            "-:1: 'jumpers 2', but the list has 1 jumper",
        ),
        (
            "# none\njumpers 0\n1 4\n",
            "-:2: 'jumpers 0', but the list has 1 jumper",
        ),
        ("jumpers\n1 4\n", "-:1: a jumper is 'WIRE POSITION'"),
        ("jumpers x\n1 4\n", "-:1: 'x' is no number"),
        ("jumpers 1\njumpers 1\n1 4\n", "-:2: 'jumpers' is no number"),
        ("1 4\njumpers 1\n", "-:2: 'jumpers' is no number"),
        ("1 70000\n", "-:1: '70000' is no number from 0 to 65535"),
        ("1 +4\n", "-:1: '+4' is no number"),
        ("jumpers 2\n1 8\n\n1 4\n", "-:4: refused 12 1"),
        ("1 4\n1 13\n", "-:2: refused 13 1"),
    ] {
        for name in ["report", "check", "draw"] {
            let ran = antenna(&listed(name, "a.net", "6"), text.as_bytes());
            assert_eq!(ran.status, 2, "{text}");
            assert_eq!(ran.text, "", "{text}");
            assert!(ran.errors.contains(told), "{text}: {}", ran.errors);
        }
    }
    let ran = antenna(&listed("report", "barred-middle.net", "6"), b"1 2\n");
    assert_eq!(ran.status, 2);
    assert!(ran.errors.contains("-:1: refused 14 0"), "{}", ran.errors);
    let ran = antenna(
        &listed("check", "a.net", "6"),
        b"jumpers 2 # two\n\n1 4\n1 8\n",
    );
    assert_eq!(ran.status, 0, "{}", ran.errors);
}

/// Each command with the options it takes, and with one that it does not.
#[test]
fn options_of_each_command() {
    const VALUED: [&str; 9] = [
        "--limit",
        "--stage",
        "--clearance",
        "--jumpers",
        "--output",
        "-o",
        "--grid",
        "--pins",
        "--obstacles",
    ];
    for (name, taken) in [
        (
            "report",
            &["--limit", "--stage", "--clearance", "--jumpers", "--json"][..],
        ),
        ("repair", &["--limit", "--stage", "--clearance", "--json"]),
        (
            "check",
            &["--limit", "--stage", "--clearance", "--jumpers", "--json"],
        ),
        (
            "draw",
            &[
                "--limit",
                "--stage",
                "--clearance",
                "--jumpers",
                "--output",
                "-o",
            ],
        ),
        ("pack", &["--output", "-o"]),
        ("unpack", &["--output", "-o"]),
        (
            "def",
            &[
                "--output",
                "-o",
                "--grid",
                "--pins",
                "--obstacles",
                "--clearance",
                "--text",
            ],
        ),
    ] {
        for option in [
            &VALUED[..],
            &["--json", "--text", "--limt", "-x", "--version"],
        ]
        .concat()
        {
            let word = match VALUED.contains(&option) {
                true => format!("{option}=7"),
                false => option.into(),
            };
            let ran = antenna(&[name, &word, "none.net"], &[]);
            let told = format!("antenna: '{name}' takes no option '{word}'\n");
            assert_eq!(ran.status, 2);
            assert_eq!(
                ran.errors.starts_with(&told),
                !taken.contains(&option),
                "{name}: {}",
                ran.errors
            );
        }
    }
}

#[test]
fn values_of_options() {
    let same = antenna(&["repair", "a.net", "--limit", "6", "--stage", "1"], &[]);
    for words in [
        ["repair", "--limit=6", "--stage=1", "a.net"],
        ["repair", "--stage=1", "--limit=6", "a.net"],
    ] {
        assert_eq!(antenna(&words, &[]).text, same.text);
    }
    let net = std::fs::read(root().join("examples/nets/a.net")).unwrap();
    let ran = antenna(&["repair", "--limit=6", "--", "-"], &net);
    assert_eq!(ran.text, same.text);
    for (words, told) in [
        (&["report", "a.net"][..], "--limit is missing"),
        (
            &["report", "a.net", "--limit", "x"],
            "--limit wants a number",
        ),
        (&["report", "a.net", "--limit="], "--limit wants a number"),
        (
            &["report", "a.net", "--limit=4294967296"],
            "--limit wants a number",
        ),
        (&["report", "a.net", "--limit=-1"], "--limit wants a number"),
        (&["report", "a.net", "--limit"], "--limit wants a value"),
        (
            &["report", "a.net", "--limit=3", "--limit", "3"],
            "--limit is given twice",
        ),
        (
            &["report", "a.net", "--limit=3", "--json=yes"],
            "--json takes no value",
        ),
        (
            &["repair", "a.net", "--limit=3", "--clearance=65536"],
            "--clearance wants a number: '65536' is no number from 0 to 65535",
        ),
        (
            &["check", "a.net", "--limit=3", "--clearance", "x"],
            "--clearance wants a number",
        ),
        (
            &["draw", "a.net", "--limit=3", "--clearance=-1"],
            "--clearance wants a number",
        ),
        (
            &["report", "a.net", "--limit=3", "--clearance="],
            "--clearance wants a number",
        ),
        (
            &["report", "a.net", "--limit=3", "--clearance"],
            "--clearance wants a value",
        ),
        (
            &[
                "repair",
                "a.net",
                "--limit=3",
                "--clearance=0",
                "--clearance=0",
            ],
            "--clearance is given twice",
        ),
        (&["report", "--limit=3"], "no net named"),
        (
            &["check", "a.net", "--limit=3"],
            "'check' wants a jumper list",
        ),
        (
            &["draw", "a.net", "b.net", "--limit", "3"],
            "one file too many: 'b.net'",
        ),
        (&["pack", "a.net", "b.net"], "one file too many: 'b.net'"),
        (
            &["report", "-", "-", "--limit=3"],
            "standard input can be read only once",
        ),
        (
            &["check", "-", "--jumpers=-", "--limit=3"],
            "standard input can be read only once",
        ),
        (&["def", "a.def", "--grid=0"], "--grid is at least 1"),
        (&["def", "a.def", "--grid=x"], "--grid wants a number"),
        (
            &["def", "a.def", "--pins=x", "--pins=x"],
            "--pins is given twice",
        ),
        (&["def", "a.def", "--text=yes"], "--text takes no value"),
        (
            &["def", "a.def", "--clearance=3"],
            "--clearance wants obstacles: --obstacles FILE",
        ),
        (
            &["def", "a.def", "--pins=x", "--clearance=0"],
            "--clearance wants obstacles: --obstacles FILE",
        ),
        (
            &["def", "a.def", "--obstacles=x", "--clearance=2147483648"],
            "--clearance wants a number: '2147483648' is no number from 0 to 2147483647",
        ),
        (
            &["def", "a.def", "--obstacles=x", "--clearance=-1"],
            "--clearance wants a number: '-1' is no number from 0 to 2147483647",
        ),
        (
            &["def", "a.def", "--obstacles=x", "--clearance=1.5"],
            "--clearance wants a number",
        ),
        (
            &["def", "a.def", "--obstacles=x", "--clearance"],
            "--clearance wants a value",
        ),
        (
            &["def", "--obstacles=x", "--clearance=1", "--clearance=1"],
            "--clearance is given twice",
        ),
        (
            &["def", "-", "--obstacles=-"],
            "standard input can be read only once",
        ),
        (
            &["def", "a.def", "--pins=-", "--obstacles=-"],
            "standard input can be read only once",
        ),
        (&[], "no command given"),
        (&["mend", "a.net"], "there is no command 'mend'"),
    ] {
        let ran = antenna(words, &[]);
        assert_eq!(ran.status, 2, "{words:?}");
        assert_eq!(ran.text, "", "{words:?}");
        assert!(
            ran.errors.starts_with(&format!("antenna: {told}")),
            "{words:?}: {}",
            ran.errors
        );
    }
}

#[test]
fn help_and_version() {
    for name in ["report", "repair", "check", "draw", "pack", "unpack", "def"] {
        let ran = antenna(&[name, "--help"], &[]);
        assert_eq!(ran.status, 0);
        assert!(
            ran.text.starts_with(&format!("antenna {name} ")),
            "{}",
            ran.text
        );
        let ran = antenna(&["--help"], &[]);
        assert!(
            ran.text.contains(&format!("antenna {name} ")),
            "{}",
            ran.text
        );
    }
    let page = std::fs::read_to_string(root().join("docs/man/antenna.1")).unwrap();
    for word in [
        "limit",
        "stage",
        "clearance",
        "jumpers",
        "json",
        "output",
        "grid",
        "pins",
        "obstacles",
        "text",
        "help",
        "version",
    ] {
        assert!(page.contains(&format!("\\-\\-{word}")), "{word}");
    }
    let version = format!(
        "antenna {}.{}\n",
        library::VERSION_MAJOR,
        library::VERSION_MINOR
    );
    let ran = antenna(&["--version"], &[]);
    assert_eq!((ran.status, ran.text), (0, version));
}

/// 0 fine, 1 a harmful piece or no fix, 2 a file refused or unreadable: the same in every command.
#[test]
fn status_of_each_command() {
    let one = stored("six.txt", b"1 6\n");
    let two = stored("six-seven.txt", b"1 6\n1 7\n");
    for (words, limit, status) in [
        (&["report", "a.net"][..], "13", 0),
        (&["report", "a.net"], "12", 1),
        (&["report", "a.net", "--jumpers", &one], "7", 0),
        (&["report", "a.net", "--jumpers", &one], "6", 1),
        (&["repair", "a.net"], "1", 0),
        (&["repair", "a.net"], "0", 1),
        (&["check", "a.net", "--jumpers", &one], "7", 0),
        (&["check", "a.net", "--jumpers", &two], "7", 0),
        (&["check", "a.net", "--jumpers", &one], "6", 1),
        (&["check", "a.net", "--jumpers", &one], "0", 1),
        (&["draw", "a.net"], "13", 0),
        (&["draw", "a.net"], "12", 1),
        (&["draw", "a.net", "--jumpers", &one], "7", 0),
    ] {
        let ran = antenna(&[words, &["--limit", limit]].concat(), &[]);
        assert_eq!(ran.status, status, "{words:?} at {limit}: {}", ran.errors);
    }
}

#[test]
fn refused_in_each_command() {
    let list = stored("twenty.txt", b"1 20\n");
    let broken = stored(
        "ten.net",
        b"node 0 at 0 0\nnode 1 at 5 5\nwire 1 to 0 layer 1 factor 1\n",
    );
    let short = stored("two.net", &[1, 0, 3]);
    let mut newer = antenna(&["pack", "straps.net"], &[]).out;
    newer[0] = 3;
    let newer = stored("newer.net", &newer);
    let stage = ["--limit=13", "--stage=17"];
    for (name, options) in [
        ("report", &["--limit=13"][..]),
        ("repair", &["--limit=13"]),
        ("check", &["--limit=13", "--jumpers", "/dev/null"]),
        ("draw", &["--limit=13"]),
        ("pack", &[]),
        ("unpack", &[]),
    ] {
        let mut cases = vec![
            (
                [&[name, "none.net"], options].concat(),
                "antenna: none.net: ",
            ),
            (
                [&[name, &broken], options].concat(),
                "ten.net:3: refused 10 1",
            ),
            ([&[name, &short], options].concat(), "two.net: refused 2 0"),
            (
                [&[name, &newer], options].concat(),
                "newer.net: refused 2 0",
            ),
        ];
        if !options.is_empty() {
            let words = [&[name, "a.net"], &stage[..], &options[1..]].concat();
            cases.push((words, "antenna: a.net: refused 1 0"));
        }
        if ["report", "check", "draw"].contains(&name) {
            let listed = |list| vec![name, "a.net", "--limit=13", "--jumpers", list];
            cases.push((listed("none.txt"), "antenna: none.txt: "));
            cases.push((listed(&list), "twenty.txt:1: refused 13 0"));
        }
        for (words, told) in cases {
            let ran = antenna(&words, &[]);
            assert_eq!((ran.status, ran.text.as_str()), (2, ""), "{words:?}");
            assert!(ran.errors.contains(told), "{words:?}: {}", ran.errors);
        }
    }
}

/// A refusal with --json is an object too; its net and its message are quoted.
#[test]
fn refusals_as_json() {
    let ran = antenna(&["repair", "a.net", "--limit", "0", "--json"], &[]);
    assert_eq!(ran.status, 1);
    let told = "{\"net\": \"a.net\", \"refused\": 15, \"place\": 0, \"message\": \"a.net: refused 15 0: no set";
    assert!(ran.text.starts_with(told), "{}", ran.text);
    let ran = antenna(
        &["report", "-", "--limit", "0", "--json"],
        b"node 0 at \"\\\x1b 1",
    );
    assert_eq!(ran.status, 2);
    assert_eq!(
        ran.text,
        "{\"net\": \"-\", \"refused\": null, \"place\": null, \"message\": \"-:1: '\\\"\\\\\\u001b' is no number from 0 to 65535\"}\n"
    );
    assert!(!ran.errors.contains('\x1b'), "{}", ran.errors);
}

#[test]
fn texts_that_say_no_net() {
    for (text, told) in [
        ("node 0 at 0 0\nnode 2 at 5 0", "-:2: the next number is 1"),
        (
            "node 0 at 0 70000",
            "-:1: '70000' is no number from 0 to 65535",
        ),
        ("node 0 at 0 0 gaet", "-:1: 'gaet' is neither"),
        (
            "# a net\nnod 0 at 0 0",
            "-:2: 'nod' is no version, node, wire or obstacle",
        ),
        ("node 0 0 0", "-:1: a node is"),
        (
            "jumpers 1\n1 6\n",
            "-:1: this is a jumper list: name it by --jumpers",
        ),
        (
            "node 0 at 0 0\nnode 1 at 5 5\nwire 1 to 0 layer 1 factor 1",
            "-:3: refused 10 1",
        ),
        (
            "node 0 at 0 0\nnode 1 at 5 0\nwire 1 to 1 layer 1 factor 1",
            "-:3: refused 8 1",
        ),
        (
            "node 0 at 0 0\nnode 1 at 5 0\nwire 1 to 0 layer 0 factor 1",
            "-:3: refused 9 1",
        ),
        ("node 0 at 0 0\n\nobstacle 3 3 to 2 4", "-:3: refused 11 0"),
        ("node 0 at 0 0\nnode 1 at 5 0\n", "-: refused 5 0"),
        ("", "-: refused 4 0"),
    ] {
        let ran = antenna(&["pack", "-"], text.as_bytes());
        assert_eq!(ran.status, 2, "{text}");
        assert!(ran.errors.contains(told), "{text}: {}", ran.errors);
    }
}
