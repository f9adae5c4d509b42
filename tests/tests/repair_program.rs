//! The repair program, run whole.

use antenna_tests::suite::program::{check_repair, input, many_inputs, run};
use antenna_tests::suite::repair::{net_a, of_layer};
use std::path::Path;

fn program() -> &'static Path {
    Path::new(concat!(env!("CARGO_MANIFEST_DIR"), "/../target/bin/repair"))
}

#[test]
fn net_a_prints_whole() {
    let file = net_a(&[]).file();
    for (limit, lines) in [
        (13, "jumpers 0\n"),
        (1, "jumpers 2\n1 1\n1 12\n"),
        (0, "refused 15 0\n"),
    ] {
        assert_eq!(run(program(), &input(1, limit, &file), &[]), lines);
    }
    assert_eq!(run(program(), &input(0, 1, &file), &[]), "refused 1 0\n");
    assert_eq!(run(program(), &[], &[]), "refused 1 0\n");
}

/// An obstacle over the whole wire, on a layer below the wire's and on the wire's own.
#[test]
fn net_a_in_version_2() {
    let mut net = net_a(&[]);
    net.version = 2;
    net.wires[0].layer = 5;
    for (layer, lines) in [
        (4, "jumpers 2\n1 1\n1 12\n"),
        (5, "refused 15 0\n"),
        (17, "refused 20 0\n"),
    ] {
        net.obstacles = vec![of_layer(layer, [0, 0, 13, 0])];
        let input = input(5, 1, &net.file());
        assert_eq!(run(program(), &input, &[]), lines);
    }
}

#[test]
fn many() {
    many_inputs(
        |input, stretches| check_repair(program(), input, stretches),
        1_500,
    );
}
