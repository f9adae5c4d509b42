//! `antenna check`: is a jumper list legal, and is it smallest? Report and repair say so.

use super::report::status;
use super::run::Finding;
use crate::case::Case;
use crate::library::REFUSED_NO_LEGAL_SET;
use crate::pieces::{self, Piece};
use crate::words::{count, Refusal};

pub fn find(case: &Case) -> Result<Finding, Refusal> {
    let pieces = case.report()?;
    let fewest = match case.repair() {
        Ok(list) => Some(list.len()),
        Err(refusal) if refusal.number() == Some(REFUSED_NO_LEGAL_SET) => None,
        Err(refusal) => return Err(refusal),
    };
    let placed = case.list.len();
    let status = status(&pieces);
    let harmful: Vec<Piece> = pieces.into_iter().filter(|piece| piece.harmful).collect();
    let legal = harmful.is_empty();
    let json = format!(
        "\"legal\": {legal}, \"smallest\": {}, \"jumpers\": {placed}, \"fewest\": {}",
        legal && fewest == Some(placed),
        fewest.map_or("null".into(), |fewest| fewest.to_string())
    );
    let (whole, line) = if legal {
        let smallest = smallest(case, placed, fewest)?;
        let placed = count(placed, "jumper");
        (
            format!("legal: no piece is harmful with {placed}\n{smallest}\n"),
            format!("legal with {placed}, {smallest}"),
        )
    } else {
        let harmful_count = count(harmful.len(), "harmful piece");
        let repair = match fewest {
            Some(fewest) => format!("antenna repair needs {}", count(fewest, "jumper")),
            None if case.clearance > 0 => {
                "no set of jumpers is legal at this limit and clearance".into()
            }
            None => "no set of jumpers is legal at this limit".into(),
        };
        (
            format!(
                "not legal: {harmful_count}\n{}{repair}\n",
                pieces::table(&harmful)
            ),
            format!("not legal: {harmful_count}, {repair}"),
        )
    };
    Ok(Finding {
        status,
        whole,
        line,
        json,
    })
}

/// Whether a legal list is smallest. Report and repair cannot disagree; if they do it is said, and nothing else.
fn smallest(case: &Case, placed: usize, fewest: Option<usize>) -> Result<String, Refusal> {
    match fewest {
        Some(fewest) if fewest == placed => Ok("smallest: no legal set has fewer".into()),
        Some(fewest) if fewest < placed => Ok(format!(
            "not smallest: antenna repair needs {}",
            count(fewest, "jumper")
        )),
        _ => Err(case.contradicts("report finds a set legal that repair does not")),
    }
}
