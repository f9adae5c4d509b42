//! `antenna report`: every piece.

use super::run::Finding;
use crate::case::Case;
use crate::pieces::{self, Piece};
use crate::words::{count, Refusal, FINE, HARMFUL};

pub fn find(case: &Case) -> Result<Finding, Refusal> {
    let pieces = case.report()?;
    let harmful: Vec<&Piece> = pieces.iter().filter(|piece| piece.harmful).collect();
    let heaviest = match harmful.iter().map(|piece| piece.weight).max() {
        Some(weight) => format!(", the heaviest {weight}"),
        None => String::new(),
    };
    Ok(Finding {
        status: status(&pieces),
        whole: pieces::table(&pieces),
        line: format!(
            "{}, {} harmful{heaviest}",
            count(pieces.len(), "piece"),
            harmful.len()
        ),
        json: pieces::json(&pieces),
    })
}

pub fn status(pieces: &[Piece]) -> u8 {
    if pieces.iter().any(|piece| piece.harmful) {
        HARMFUL
    } else {
        FINE
    }
}
