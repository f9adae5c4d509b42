//! Answers as the implementations in Rust make them.

use crate::library::Answer;

impl Answer {
    pub fn done(count: usize) -> Answer {
        Answer {
            number: 0,
            place: 0,
            count: count as u64,
        }
    }

    pub fn refused(number: u32, place: usize) -> Answer {
        Answer {
            number,
            place: place as u64,
            count: 0,
        }
    }
}
