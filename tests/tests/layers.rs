//! Versions and obstacles with a layer, by the proved library.

use antenna_tests::library::{read, repair, report, write};
use antenna_tests::suite::layers::{self, Calls};

const CALLS: Calls = Calls {
    read,
    write,
    report,
    repair,
};

#[test]
fn every_two_layers() {
    layers::every_two_layers(report, repair);
}

#[test]
fn version_1_counts_for_every_wire() {
    layers::version_1_counts_for_every_wire(report, repair);
}

#[test]
fn several_over_a_point() {
    layers::several_over_a_point(report, repair);
}

#[test]
fn crossing_wires() {
    layers::crossing_wires(report, repair);
}

#[test]
fn straps() {
    layers::straps(report, repair);
}

#[test]
fn all_on_layer_16() {
    layers::all_on_layer_16(report, repair, 20_000);
}

#[test]
fn repaired_is_reported() {
    layers::repaired_is_reported(report, repair, 50_000);
}

#[test]
fn corners_and_layers_in_order() {
    layers::corners_and_layers_in_order(CALLS);
}

#[test]
fn layers_in_range() {
    layers::layers_in_range(CALLS);
}

#[test]
fn section_lengths() {
    layers::section_lengths(read, write);
}

#[test]
fn versions_of_the_writer() {
    layers::versions_of_the_writer(write);
}

#[test]
fn versions_of_the_reader() {
    layers::versions_of_the_reader(read);
}

#[test]
fn whole_files() {
    layers::whole_files(read, write);
}
