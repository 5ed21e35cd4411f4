//! The envelope around a program or a set-up: two length bytes, big-endian, and a version byte.

use crate::reply::Refusal;

pub const LENGTH_BYTES: usize = 2;
pub const LONGEST_PROGRAM: usize = 385;
pub const LONGEST_SET_UP: usize = 770;
const SHORTEST: usize = 2;
const VERSION: u8 = 1;

/// The length that the first two bytes announce, if it is one that may stand there.
pub fn announced_length(first: u8, second: u8, longest: usize) -> Result<usize, Refusal> {
    let length = usize::from(u16::from_be_bytes([first, second]));
    if (SHORTEST..=longest).contains(&length) {
        Ok(length)
    } else {
        Err(Refusal::BadLength)
    }
}

/// What stands behind the version byte; the order of the tests is the document's 1, 2, 1, 2, 3.
pub fn open(bytes: &[u8], longest: usize) -> Result<&[u8], Refusal> {
    let (length, inside) = match bytes {
        [first, second, inside @ ..] => (announced_length(*first, *second, longest)?, inside),
        _ => return Err(Refusal::TooFewBytes),
    };
    if inside.len() < length {
        return Err(Refusal::TooFewBytes);
    }
    if inside.len() > length {
        return Err(Refusal::BadLength);
    }
    match inside {
        [VERSION, content @ ..] => Ok(content),
        _ => Err(Refusal::BadVersion),
    }
}
