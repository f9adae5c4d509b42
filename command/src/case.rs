//! A net and a jumper list at a stage, a limit and a clearance, and what the library says of them.

use crate::library::{self, Answer, JUMPER_BYTES, RECORD_BYTES};
use crate::list::List;
use crate::net::Net;
use crate::pieces::Piece;
use crate::words::Refusal;

pub struct Case {
    name: String,
    pub net: Net,
    pub list: List,
    pub stage: u32,
    pub limit: u32,
    pub clearance: u16,
}

impl Case {
    pub fn load(
        name: &str,
        stage: u32,
        limit: u32,
        clearance: u16,
        list: Option<Result<List, Refusal>>,
    ) -> Result<Case, Refusal> {
        Ok(Case {
            name: name.into(),
            net: Net::load(name)?,
            list: list.unwrap_or_else(|| Ok(List::default()))?,
            stage,
            limit,
            clearance,
        })
    }

    /// Every piece.
    pub fn report(&self) -> Result<Vec<Piece>, Refusal> {
        let (net, list) = (&self.net.file, &self.list.bytes);
        let (stage, limit, clearance) = (self.stage, self.limit, self.clearance);
        let call = |out: &mut [u8]| library::report(stage, limit, clearance, net, list, out);
        let records = called(call, RECORD_BYTES).map_err(|answer| self.refusal(answer))?;
        Ok(records.chunks(RECORD_BYTES).map(Piece::of_record).collect())
    }

    /// A smallest jumper list.
    pub fn repair(&self) -> Result<List, Refusal> {
        let (stage, limit, clearance) = (self.stage, self.limit, self.clearance);
        let call = |out: &mut [u8]| library::repair(stage, limit, clearance, &self.net.file, out);
        let bytes = called(call, JUMPER_BYTES).map_err(|answer| self.refusal(answer))?;
        Ok(List::of_bytes(bytes))
    }

    fn refusal(&self, answer: Answer) -> Refusal {
        match answer.number {
            library::REFUSED_JUMPER_LIST..=library::REFUSED_JUMPER_BARRED => {
                Refusal::at(&self.list.place(answer.place as usize), answer)
            }
            _ => Refusal::at(&self.name, answer),
        }
    }

    /// The library's answers do not fit together.
    pub fn contradicts(&self, how: &str) -> Refusal {
        Refusal::text(format!("{}: {how}: please report this error", self.name))
    }
}

/// What a call writes, into a buffer as large as it says.
fn called(call: impl Fn(&mut [u8]) -> Answer, width: usize) -> Result<Vec<u8>, Answer> {
    let mut out = Vec::new();
    loop {
        let answer = call(&mut out);
        match answer.number {
            library::DONE => {
                out.truncate(width * answer.count as usize);
                return Ok(out);
            }
            library::REFUSED_BUFFER if answer.place as usize > out.len() => {
                out.resize(answer.place as usize, 0)
            }
            _ => return Err(answer),
        }
    }
}
