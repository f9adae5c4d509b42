//! The tests of each call, for any implementation of it: the library, and the plain program, which shows that they can be passed.

pub mod clearance;
pub mod def;
pub mod first_nodes;
pub mod fuzz;
pub mod layers;
pub mod met;
pub mod net;
pub mod program;
pub mod repair;
pub mod report;
