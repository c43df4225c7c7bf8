use crate::{error::Error, ffi, MAX_SCALARS};

/// The scalars of UTF-8 bytes, and where they stand there.
#[derive(Clone, Debug, PartialEq, Eq)]
pub struct Decoded {
    scalars: Vec<u32>,
    positions: Vec<u32>,
}

impl Decoded {
    pub fn scalars(&self) -> &[u32] {
        &self.scalars
    }

    /// Where each scalar starts, in bytes, and behind these the number of bytes: a cell more than there are scalars.
    pub fn positions(&self) -> &[u32] {
        &self.positions
    }

    /// An end in bytes; none for an end over the number of scalars.
    pub fn end_in_bytes(&self, end: usize) -> Option<usize> {
        ffi::end_in_bytes(&self.positions, self.scalars.len(), end)
    }

    pub(crate) fn into_scalars(self) -> Vec<u32> {
        self.scalars
    }
}

/// The scalars of UTF-8 bytes, with their positions. Refused with 1 and 2.
pub fn decode(bytes: &[u8]) -> Result<Decoded, Error> {
    let most = bytes.len().min(MAX_SCALARS);
    let (mut scalars, mut positions) = (vec![0; most], vec![0; most + 1]);
    let count = ffi::decode(bytes, &mut scalars, &mut positions)?;
    scalars.truncate(count);
    positions.truncate(count + 1);
    Ok(Decoded { scalars, positions })
}
