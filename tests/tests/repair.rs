//! The proved repair.

use antenna_tests::library::repair as call;
use antenna_tests::suite::repair;

#[test]
fn small_nets_against_every_set() {
    repair::small_nets(call, 220_000);
}

#[test]
fn large_nets_against_the_table() {
    repair::large_nets(call, 5_000);
}

#[test]
fn refusals_in_order() {
    repair::refusals_in_order(call, 20_000);
}

#[test]
fn named_nets() {
    repair::named_nets(call);
}

#[test]
fn shortcuts() {
    repair::shortcuts(call);
}

#[test]
fn worst_nets() {
    repair::worst_nets_are_right(call);
    let slowest = repair::worst_nets(call);
    println!("slowest: {slowest:.3} ms");
    assert!(slowest < 5_000.0);
}
