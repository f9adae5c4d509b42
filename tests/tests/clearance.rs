//! The clearance round obstacles, by the proved library.

use antenna_tests::library::{repair, report};
use antenna_tests::suite::clearance;

#[test]
fn round_a_rectangle() {
    clearance::round_a_rectangle(report, repair);
}

#[test]
fn along_an_axis() {
    clearance::along_an_axis(report, repair);
}

#[test]
fn in_the_corners() {
    clearance::in_the_corners(report, repair);
}

#[test]
fn the_longest_wire() {
    clearance::the_longest_wire(report, repair);
}

#[test]
fn every_two_layers() {
    clearance::every_two_layers(report, repair);
}

#[test]
fn gaps_close() {
    clearance::gaps_close(report, repair);
}

#[test]
fn every_point() {
    clearance::every_point(report, 20_000);
}

#[test]
fn every_set_by_report() {
    clearance::every_set_by_report(report, repair, 20_000);
}

#[test]
fn larger_obstacles() {
    clearance::larger_obstacles(report, repair, 20_000);
}

#[test]
fn report_changes_by_14_alone() {
    clearance::report_changes_by_14_alone(report, 60_000);
}

#[test]
fn larger_clearances() {
    clearance::larger_clearances(repair, 20_000);
}
