//! Document 01, routes from DEF, obstacles with a layer and the clearance round them once more, written from their words alone and as plainly as possible.

pub mod def;
pub mod net;
pub mod repair;
pub mod report;
pub mod table;
