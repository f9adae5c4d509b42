//! --clearance: report, repair, check and draw judge points by it.

use super::{antenna, points, samples, stored};
use antenna_tests::generate;
use antenna_tests::random::Random;
use antenna_tests::reference::report::{free_points, legal};
use antenna_tests::reference::table;

/// Without the option the clearance is 0.
#[test]
fn clearance_0_is_none() {
    for name in samples() {
        for words in [
            &["report", &name, "--limit=30", "--stage=3"][..],
            &["report", &name, "--limit=30", "--json"],
            &["repair", &name, "--limit=30", "--stage=3"],
            &["repair", &name, "--limit=30", "--json"],
            &["check", &name, "--limit=30", "--jumpers=/dev/null"],
            &["draw", &name, "--limit=30", "--stage=3"],
        ] {
            let (ran, same) = (
                antenna(words, &[]),
                antenna(&[words, &["--clearance=0"]].concat(), &[]),
            );
            assert_eq!(
                (ran.text, ran.errors, ran.status),
                (same.text, same.errors, same.status),
                "{words:?}"
            );
        }
    }
}

/// A jumper is barred if it is at most the clearance outside in x, and at most that far outside in y, of an obstacle that counts for its wire.
#[test]
fn jumpers_near_an_obstacle() {
    // the obstacle is 3 steps above the wire, from 100 to 110 of its 200 points
    for (x, clearance, layer, barred) in [
        (105, 0, 3, false),
        (105, 2, 3, false),
        (105, 3, 3, true),
        (105, 3, 2, false),
        (105, 3, 16, true),
        (100, 3, 3, true),
        (97, 3, 3, true),
        (96, 3, 3, false),
        (96, 4, 3, true),
        (113, 3, 3, true),
        (114, 3, 3, false),
        (199, 88, 3, false),
        (199, 89, 3, true),
        (199, 65535, 3, true),
        (1, 65535, 2, false),
    ] {
        let net = format!(
            "version 2\nnode 0 at 200 0 gate\nnode 1 at 0 0\nwire 1 to 0 layer 3 factor 1\nobstacle 100 3 to 110 9 layer {layer}\n"
        );
        let net = stored("near-obstacle.net", net.as_bytes());
        let (list, option) = (format!("1 {x}\n"), format!("--clearance={clearance}"));
        for name in ["report", "check", "draw"] {
            let words = [name, &net, "--limit=200", &option, "--jumpers=-"];
            let ran = antenna(&words, list.as_bytes());
            let case = format!("{name}, {x} at clearance {clearance}, layer {layer}");
            assert_eq!(ran.status, if barred { 2 } else { 0 }, "{case}");
            let told = ran.errors.contains("-:1: refused 14 0: jumper 0: ");
            assert_eq!(told, barred, "{case}: {}", ran.errors);
        }
    }
}

/// What repair finds keeps clear and is smallest at its clearance, and check says so; a list with a barred point is refused there.
#[test]
fn repair_and_check_agree() {
    let mut random = Random::new(18);
    let (mut refused, mut more, mut barred) = (0, 0, 0);
    for _ in 0..2500 {
        let net = generate::any_net(&mut random);
        let stage = generate::stage(&mut random, &net);
        let limit = generate::limit(&mut random, &net);
        let clearance = random.pick(&[1, 2, 3, 9, 65535]);
        if legal(&net, stage, limit, clearance, &[]) {
            continue;
        }
        let file = stored("clear.net", &net.file());
        let options = [
            format!("--stage={stage}"),
            format!("--limit={limit}"),
            format!("--clearance={clearance}"),
        ];
        let run = |name: &str, more: &[&str], input: &[u8]| {
            let options = options.each_ref().map(String::as_str);
            antenna(&[&[name, &file], &options[..], more].concat(), input)
        };
        let ran = run("repair", &[], &[]);
        let least = table::least(&net, stage, limit, clearance);
        let without = table::least(&net, stage, limit, 0);
        let Some(least) = least else {
            assert_eq!(ran.status, 1, "{}", ran.errors);
            assert!(ran.errors.contains(": refused 15 0: "), "{}", ran.errors);
            refused += usize::from(without.is_some());
            continue;
        };
        let set = points(ran.text.lines().skip(1));
        assert_eq!(set.len(), least);
        assert!(legal(&net, stage, limit, clearance, &set), "{set:?}");
        let checked = run("check", &["--jumpers=-"], &ran.out);
        assert_eq!(checked.status, 0, "{}", checked.errors);
        assert!(checked.text.ends_with("smallest: no legal set has fewer\n"));
        more += usize::from(without != Some(least));
        let at_0 = free_points(&net, stage, 0);
        let Some(at) = at_0.iter().position(|&(i, t)| net.barred(i, t, clearance)) else {
            continue;
        };
        let list: String = at_0[..=at]
            .iter()
            .map(|(i, t)| format!("{i} {t}\n"))
            .collect();
        let ran = run("check", &["--jumpers=-"], list.as_bytes());
        let told = format!("-:{}: refused 14 {at}: ", at + 1);
        assert_eq!(ran.status, 2);
        assert!(ran.errors.contains(&told), "{told} {}", ran.errors);
        barred += 1;
    }
    assert!(
        refused > 5 && more > 5 && barred > 20,
        "{refused} {more} {barred}"
    );
}

/// One list at several clearances: legal and smallest are meant at each.
#[test]
fn one_list_at_several_clearances() {
    for (list, clearance, status, told) in [
        (
            "1 59\n2 24\n",
            "0",
            0,
            "not smallest: antenna repair needs 1 jumper",
        ),
        (
            "1 59\n2 24\n",
            "7",
            0,
            "not smallest: antenna repair needs 1 jumper",
        ),
        ("1 59\n2 24\n", "10", 0, "smallest: no legal set has fewer"),
        ("2 100\n", "7", 0, "smallest: no legal set has fewer"),
        ("", "33", 1, "antenna repair needs 2 jumpers"),
        (
            "",
            "34",
            1,
            "no set of jumpers is legal at this limit and clearance",
        ),
    ] {
        let at = ["--stage=3", "--limit=100", "--clearance", clearance];
        let words = [&["check", "clearance.net", "--jumpers=-"], &at[..]].concat();
        let ran = antenna(&words, list.as_bytes());
        assert_eq!(ran.status, status, "{list} at {clearance}: {}", ran.errors);
        assert_eq!(ran.text.lines().last(), Some(told), "{list} at {clearance}");
    }
}

/// The clearance is that of every net of a run.
#[test]
fn several_nets_at_a_clearance() {
    let nets = ["repair", "straps.net", "clearance.net", "--stage=3"];
    for (clearance, first, second) in [
        ("0", "2 jumpers", "1 jumper"),
        ("10", "2 jumpers", "2 jumpers"),
        ("33", "3 jumpers", "2 jumpers"),
        ("34", "3 jumpers", "refused 15 0"),
        ("44", "refused 15 0", "refused 15 0"),
    ] {
        let options = ["--limit=90", "--clearance", clearance];
        let ran = antenna(&[&nets[..], &options].concat(), &[]);
        let lines = format!("straps.net: {first}\nclearance.net: {second}\n");
        assert_eq!(ran.text, lines, "{clearance}");
    }
}
