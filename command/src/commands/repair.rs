//! `antenna repair`: a smallest set of jumpers.

use super::run::Finding;
use crate::case::Case;
use crate::words::{count, Refusal, FINE};

pub fn find(case: &Case) -> Result<Finding, Refusal> {
    let list = case.repair()?;
    Ok(Finding {
        status: FINE,
        whole: list.lines(),
        line: count(list.len(), "jumper"),
        json: list.json(),
    })
}
