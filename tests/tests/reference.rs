//! The independent implementations against each other: what the tests of the library rest on.

use antenna_tests::generate::clearance::clearance;
use antenna_tests::generate::{any_net, jumpers, small_case, stage};
use antenna_tests::plain::def::def;
use antenna_tests::plain::net::{read, write};
use antenna_tests::plain::repair::repair;
use antenna_tests::plain::report::report;
use antenna_tests::random::Random;
use antenna_tests::reference::repair::Judge;
use antenna_tests::reference::report::{legal, pieces};
use antenna_tests::reference::{repair as every_set, table};
use antenna_tests::suite;

#[test]
fn every_set_and_table_agree() {
    let mut random = Random::new(1);
    for _ in 0..50_000 {
        let (net, stage, limit, clearance) = small_case(&mut random, 11);
        assert_eq!(
            every_set::least(&net, stage, limit, clearance),
            table::least(&net, stage, limit, clearance),
            "{net:?} stage {stage} limit {limit} clearance {clearance}"
        );
    }
}

/// Sets judged by joined parts are judged as by the pieces themselves.
#[test]
fn judge_and_pieces_agree() {
    let mut random = Random::new(2);
    for _ in 0..20_000 {
        let (net, stage, limit, clearance) = small_case(&mut random, 11);
        let judge = Judge::new(&net, stage, clearance);
        let mask = random.next() as u32 & ((1 << judge.points().len()) - 1);
        assert_eq!(
            judge.legal(limit, mask),
            legal(&net, stage, limit, clearance, &judge.set(mask)),
            "{net:?} stage {stage} limit {limit} clearance {clearance} set {mask:b}"
        );
    }
}

/// What document 01 says of all pieces: their number, and their weights added.
#[test]
fn number_and_weight_of_pieces() {
    let mut random = Random::new(3);
    for _ in 0..5_000 {
        let net = any_net(&mut random);
        let stage = stage(&mut random, &net);
        let clearance = clearance(&mut random, &net);
        let set = jumpers(&mut random, &net, stage, clearance);
        let present: Vec<usize> = (1..net.nodes.len())
            .filter(|&i| net.present(stage, i))
            .collect();
        let pieces = pieces(&net, stage, &set);
        assert_eq!(
            pieces.len(),
            net.nodes.len() - present.len() + set.len(),
            "{net:?}"
        );
        let weight: u64 = pieces.iter().map(|p| p.weight).sum();
        let made: u64 = present.iter().map(|&i| net.weight(i)).sum();
        assert_eq!(weight, made, "{net:?}");
    }
}

#[test]
fn plain_reader() {
    suite::net::random_files(read, 20_000);
    suite::net::cut_at_every_length(read);
    suite::net::heads_at_the_edges(read, 5_000);
    suite::net::very_long_files(read);
    suite::net::smallest_files(read);
}

#[test]
fn plain_writer() {
    suite::net::random_sections(write, 20_000);
    suite::net::every_length_lent(write);
    suite::net::very_long_sections(write);
    suite::net::smallest_sections(write);
    suite::net::written_is_read(read, write);
    suite::net::read_is_written(read, write, 10_000);
}

#[test]
fn plain_layers() {
    let calls = suite::layers::Calls {
        read,
        write,
        report,
        repair,
    };
    suite::layers::every_two_layers(report, repair);
    suite::layers::version_1_counts_for_every_wire(report, repair);
    suite::layers::several_over_a_point(report, repair);
    suite::layers::crossing_wires(report, repair);
    suite::layers::straps(report, repair);
    suite::layers::all_on_layer_16(report, repair, 2_000);
    suite::layers::repaired_is_reported(report, repair, 5_000);
    suite::layers::corners_and_layers_in_order(calls);
    suite::layers::layers_in_range(calls);
    suite::layers::section_lengths(read, write);
    suite::layers::versions_of_the_writer(write);
    suite::layers::versions_of_the_reader(read);
    suite::layers::whole_files(read, write);
}

#[test]
fn plain_clearance() {
    suite::clearance::round_a_rectangle(report, repair);
    suite::clearance::along_an_axis(report, repair);
    suite::clearance::in_the_corners(report, repair);
    suite::clearance::the_longest_wire(report, repair);
    suite::clearance::every_two_layers(report, repair);
    suite::clearance::gaps_close(report, repair);
    suite::clearance::every_point(report, 2_000);
    suite::clearance::every_set_by_report(report, repair, 2_000);
    suite::clearance::larger_obstacles(report, repair, 2_000);
    suite::clearance::report_changes_by_14_alone(report, 10_000);
    suite::clearance::larger_clearances(repair, 5_000);
}

#[test]
fn plain_report() {
    suite::report::random_calls(report, 10_000);
    suite::report::one_wrong_entry(report, 10_000);
    suite::report::every_length_lent(report);
    suite::report::many_jumpers(report);
    suite::report::heaviest(report);
    suite::first_nodes::random_nets(report, 2_000);
    suite::first_nodes::long_lists(report);
    suite::first_nodes::longest_list(report);
}

#[test]
fn plain_repair() {
    suite::repair::small_nets(repair, 20_000);
    suite::repair::large_nets(repair, 500);
    suite::repair::refusals_in_order(repair, 10_000);
    suite::repair::named_nets(repair);
    suite::repair::shortcuts(repair);
    suite::repair::worst_nets_are_right(repair);
    println!("slowest: {:.3} ms", suite::repair::worst_nets(repair));
}

#[test]
fn plain_def() {
    suite::def::random_texts(def, 40_000);
    suite::def::cut_at_every_byte(def);
    suite::def::every_length_lent(def);
    suite::def::written_is_read(def, read);
    suite::def::several_nets(def);
    suite::def::very_long(def);
    suite::def::form::all(def);
    suite::def::net::all(def);
    suite::def::long::behind_the_table(def);
    suite::def::long::pins_past_the_most(def);
    suite::def::long::the_most_nodes(def);
    suite::def::long::random_long_texts(def, 200);
}
