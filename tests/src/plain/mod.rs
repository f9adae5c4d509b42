//! The method of the proved library as a plain Rust program: what its speed is measured against, and one more implementation to
//! compare with.

pub mod def;
pub mod net;
pub mod repair;
pub mod report;
