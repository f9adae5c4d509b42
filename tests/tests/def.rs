//! Routes from DEF by the proved library.

use antenna_tests::library::{def as call, read};
use antenna_tests::suite::def;

#[test]
fn random_texts() {
    def::random_texts(call, 220_000);
}

#[test]
fn cut_at_every_byte() {
    def::cut_at_every_byte(call);
}

#[test]
fn damaged_at_every_byte() {
    def::damaged_at_every_byte(call);
}

#[test]
fn words_joined() {
    def::words_joined(call);
}

#[test]
fn every_length_lent() {
    def::every_length_lent(call);
}

#[test]
fn written_is_read() {
    def::written_is_read(call, read);
}

#[test]
fn several_nets() {
    def::several_nets(call);
}

#[test]
fn very_long() {
    def::very_long(call);
}

#[test]
fn form_by_hand() {
    def::form::all(call);
}

#[test]
fn net_by_hand() {
    def::net::all(call);
}

#[test]
fn thousands_of_points() {
    def::long::thousands_of_points(call);
}

#[test]
fn behind_the_table() {
    def::long::behind_the_table(call);
}

#[test]
fn pins_past_the_most() {
    def::long::pins_past_the_most(call);
}

#[test]
fn the_most_nodes() {
    def::long::the_most_nodes(call);
}

#[test]
fn random_long_texts() {
    def::long::random_long_texts(call, 1_000);
}
