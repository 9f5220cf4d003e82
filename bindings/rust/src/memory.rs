//! Memory for the calls that give a `Vec`.

use crate::{Error, Result};

/// What a call writes, in memory of its own: `room` bytes are enough for it.
///
/// The call is first made with no memory, so that one that is refused by an earlier question, or writes nothing, is over
/// before memory is sought: a window may be 2^60 bases long. Memory that cannot be had is memory too short.
pub(crate) fn owned(room: u128, mut call: impl FnMut(&mut [u8]) -> Result<usize>) -> Result<Vec<u8>> {
    match call(&mut []) {
        Err(Error::ShortMemory) => {}
        Err(refusal) => return Err(refusal),
        Ok(_) => return Ok(Vec::new()),
    }
    let room = usize::try_from(room).map_err(|_| Error::ShortMemory)?;
    let mut out = Vec::new();
    out.try_reserve_exact(room).map_err(|_| Error::ShortMemory)?;
    out.resize(room, 0);
    let count = call(&mut out)?;
    out.truncate(count);
    Ok(out)
}
