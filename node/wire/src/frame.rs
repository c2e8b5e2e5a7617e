//! Frames: messages behind their lengths, on a stream.

use crate::message::{Malformed, Message};
use std::io::{self, Read};

/// The longest message that is read: 1 MiB, and room for the fields around the blocks.
pub const LONGEST: usize = (1 << 20) + (64 << 10);

/// A frame without a message.
pub const HEARTBEAT_FRAME: [u8; 4] = [0; 4];

/// Reads the bytes of a frame; `None` of a heartbeat. A stream with a timeout bounds how long that takes.
///
/// # Errors
///
/// Those of the stream, and `InvalidData` where the frame is longer than [`LONGEST`]: the rest of the stream means nothing then.
pub fn read_frame(stream: &mut impl Read) -> io::Result<Option<Vec<u8>>> {
    let mut length = [0; 4];
    stream.read_exact(&mut length)?;
    let length = u32::from_be_bytes(length) as usize;
    if length > LONGEST {
        return Err(io::Error::new(io::ErrorKind::InvalidData, "a frame is too long"));
    }
    if length == 0 {
        return Ok(None);
    }
    let mut bytes = vec![0; length];
    stream.read_exact(&mut bytes)?;
    Ok(Some(bytes))
}

/// Reads a message from its frame; heartbeats before it are passed over.
///
/// # Errors
///
/// Those of [`read_frame`], and `InvalidData` where the frame is no message.
pub fn read_message(stream: &mut impl Read) -> io::Result<Message> {
    loop {
        if let Some(bytes) = read_frame(stream)? {
            return Message::decode(&bytes).map_err(io::Error::from);
        }
    }
}

impl From<Malformed> for io::Error {
    fn from(error: Malformed) -> io::Error {
        io::Error::new(io::ErrorKind::InvalidData, error)
    }
}
