use crate::error::Error;
use crate::ffi;

/// Appends zeros to the area until it has at least so many bytes.
pub(crate) fn grow(area: &mut Vec<u8>, len: usize) -> Result<(), Error> {
    let missing = len.saturating_sub(area.len());
    area.try_reserve(missing).map_err(|_| Error::OutOfMemory)?;
    area.resize(area.len() + missing, 0);
    Ok(())
}

/// The bytes that a call writes to its area, which it gets again and larger where it has no room.
/// The call returns a status and a length; `expected` bytes are most often enough.
pub(crate) fn written(
    expected: usize,
    mut call: impl FnMut(&mut [u8]) -> (u32, usize),
) -> Result<Vec<u8>, Error> {
    let mut area = Vec::new();
    grow(&mut area, expected)?;
    loop {
        match call(&mut area) {
            (ffi::DONE, len) => {
                area.truncate(len);
                return Ok(area);
            }
            (ffi::NO_ROOM, len) => grow(&mut area, len)?,
            (status, _) => return Err(Error::of_status(status)),
        }
    }
}
