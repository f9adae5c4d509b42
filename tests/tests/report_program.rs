//! The report program, run whole.

use antenna_tests::suite::program::{check_report, expected_report, input, many_inputs, run};
use antenna_tests::suite::repair::{net_a, of_layer};
use std::path::Path;

fn program() -> &'static Path {
    Path::new(concat!(env!("CARGO_MANIFEST_DIR"), "/../target/bin/report"))
}

#[test]
fn net_a_with_limit_12() {
    let input = input(1, 12, &net_a(&[]).file());
    assert_eq!(expected_report(&input), "0 0 13 5 1 1 1\n");
    check_report(program(), &input, &[]);
}

#[test]
fn net_a_in_version_2() {
    let mut net = net_a(&[]);
    net.version = 2;
    for (layer, lines) in [(1, "0 0 13 5 1 1 1\n"), (0, "refused 20 0\n")] {
        net.obstacles = vec![of_layer(layer, [0, 0, 13, 0])];
        let input = input(1, 12, &net.file());
        assert_eq!(run(program(), &input, &[]), lines);
    }
}

#[test]
fn many() {
    many_inputs(
        |input, stretches| check_report(program(), input, stretches),
        1_500,
    );
}
