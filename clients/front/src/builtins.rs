//! The clients' built-in processors. They are defined before the first connection, so that no
//! stranger's classes leave them without room.

use crate::classes::class_of;
use crate::request::{frame_length, LONGEST};
use crate::server::Server;
use crate::shared::Shared;
use log::{debug, warn};
use std::io::{self, Read, Write};

const FILES: [&[u8]; 7] = [
    include_bytes!("../../processors/GetAndPut.class"),
    include_bytes!("../../processors/GetAndRemove.class"),
    include_bytes!("../../processors/GetAndReplace.class"),
    include_bytes!("../../processors/PutIfAbsent.class"),
    include_bytes!("../../processors/RemoveIf.class"),
    include_bytes!("../../processors/Replace.class"),
    include_bytes!("../../processors/ReplaceIf.class"),
];

const END: [u8; 5] = [0, 0, 0, 1, 8];
const ENDED: [u8; 5] = [0, 0, 0, 1, 9];

/// The connection that the built-in processors are shown to come from, and its peer.
const FRONT: (u64, &str) = (0, "the front");

/// Defines the built-in processors in one round of the server. An error means that the server has
/// ended, or that its replies are invalid.
pub fn define(server: &mut Server, shared: &mut Shared) -> io::Result<()> {
    let mut text = Vec::new();
    for file in FILES {
        text.extend_from_slice(&(file.len() as u32 + 1).to_be_bytes());
        text.push(1);
        text.extend_from_slice(file);
    }
    text.extend_from_slice(&END);
    server.input.write_all(&text)?;
    let mut accepted = 0;
    for file in FILES {
        let reply = read_frame(&mut server.output)?;
        if let Some(class) = class_of(&reply) {
            shared.tally.class(class.number, class.steps);
            shared.classes.note(class, file, FRONT.0, FRONT.1.to_string());
            shared.classes.resolve(file, Some(class));
            accepted += 1;
        } else {
            warn!("the server doesn't take a built-in processor of the clients: {:?}", &reply[4..]);
        }
    }
    debug!("the server has {} built-in processors of the clients", accepted);
    if read_frame(&mut server.output)? == ENDED {
        Ok(())
    } else {
        Err(io::ErrorKind::InvalidData.into())
    }
}

/// Reads a frame, with its length.
fn read_frame(from: &mut impl Read) -> io::Result<Vec<u8>> {
    let mut frame = vec![0; 4];
    from.read_exact(&mut frame)?;
    let length = u32::from_be_bytes([frame[0], frame[1], frame[2], frame[3]]) as usize;
    frame.resize(4 + length.min(LONGEST + 1), 0);
    from.read_exact(&mut frame[4..])?;
    match frame_length(&frame)? {
        Some(_) => Ok(frame),
        None => Err(io::ErrorKind::InvalidData.into()),
    }
}

#[cfg(test)]
mod tests {
    use super::*;
    use crate::class_name::class_name;

    #[test]
    fn each_file_is_a_processor_of_the_clients() {
        for file in FILES {
            assert!(class_name(file).starts_with("jentry.processors."));
        }
    }

    #[test]
    fn a_frame_is_read_whole() {
        assert_eq!(read_frame(&mut &ENDED[..]).expect("a frame"), ENDED);
        for bytes in [&[0, 0, 0, 0][..], &[0, 0, 0, 2, 1], &[255, 255, 255, 255, 1]] {
            assert!(read_frame(&mut &bytes[..]).is_err(), "{:?}", bytes);
        }
    }
}
