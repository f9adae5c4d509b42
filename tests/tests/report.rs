//! The proved report.

use antenna_tests::library::report as call;
use antenna_tests::suite::{first_nodes, report};

#[test]
fn random_calls() {
    report::random_calls(call, 60_000);
}

#[test]
fn one_wrong_entry() {
    report::one_wrong_entry(call, 20_000);
}

#[test]
fn every_length_lent() {
    report::every_length_lent(call);
}

#[test]
fn many_jumpers() {
    report::many_jumpers(call);
}

#[test]
fn heaviest() {
    report::heaviest(call);
}

#[test]
fn first_nodes_of_random_nets() {
    first_nodes::random_nets(call, 20_000);
}

#[test]
fn first_nodes_with_long_lists() {
    first_nodes::long_lists(call);
}

#[test]
fn first_nodes_with_the_longest_list() {
    first_nodes::longest_list(call);
}
