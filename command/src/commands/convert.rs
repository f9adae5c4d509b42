//! `antenna pack` and `antenna unpack`: text form to net file, and back.

use crate::files;
use crate::net::Net;
use crate::options::Options;
use crate::text;
use crate::words::{Failure, FINE};

pub fn pack(options: &Options) -> Result<u8, Failure> {
    let net = Net::load(&options.nets[0])?;
    files::store(options.out.as_deref(), &net.file)?;
    Ok(FINE)
}

pub fn unpack(options: &Options) -> Result<u8, Failure> {
    let net = Net::load(&options.nets[0])?;
    files::store(options.out.as_deref(), text::net(&net).as_bytes())?;
    Ok(FINE)
}
