//! `antenna draw`: a net as a picture.

use super::report::status;
use crate::case::Case;
use crate::list::List;
use crate::options::Options;
use crate::words::Failure;
use crate::{draw, files};

pub fn draw(options: &Options) -> Result<u8, Failure> {
    let limit = options.limit()?;
    let list = options.jumpers.first().map(|name| List::load(name));
    let (stage, clearance) = (options.stage(), options.clearance());
    let case = Case::load(&options.nets[0], stage, limit, clearance, list)?;
    let pieces = case.report()?;
    let picture = draw::svg(&case, &pieces)?;
    files::store(options.out.as_deref(), picture.as_bytes())?;
    Ok(status(&pieces))
}
