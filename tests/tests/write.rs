//! The proved writer.

use antenna_tests::library::{read, write};
use antenna_tests::suite::net;

#[test]
fn random_sections() {
    net::random_sections(write, 120_000);
}

#[test]
fn damaged_at_every_byte() {
    net::sections_damaged_at_every_byte(write);
}

#[test]
fn every_length_lent() {
    net::every_length_lent(write);
}

#[test]
fn very_long_sections() {
    net::very_long_sections(write);
}

#[test]
fn smallest_sections() {
    net::smallest_sections(write);
}

#[test]
fn written_is_read() {
    net::written_is_read(read, write);
}

#[test]
fn read_is_written() {
    net::read_is_written(read, write, 60_000);
}
