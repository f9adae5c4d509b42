//! The proved reader.

use antenna_tests::library::read;
use antenna_tests::suite::net;

#[test]
fn random_files() {
    net::random_files(read, 120_000);
}

#[test]
fn cut_at_every_length() {
    net::cut_at_every_length(read);
}

#[test]
fn damaged_at_every_byte() {
    net::files_damaged_at_every_byte(read);
}

#[test]
fn heads_at_the_edges() {
    net::heads_at_the_edges(read, 20_000);
}

#[test]
fn very_long_files() {
    net::very_long_files(read);
}

#[test]
fn smallest_files() {
    net::smallest_files(read);
}
