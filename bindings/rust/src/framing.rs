//! Packets over a stream of bytes, in the intermediate form alone. This is plain Rust, and not proved.

use std::io::{self, ErrorKind, Read, Write};

const START: [u8; 4] = [0xee; 4];
const PACKET_BYTES_MAX: usize = 1_048_576;

/// One end of a connection: each packet stands behind its length in 4 bytes, the lowest first.
#[derive(Debug)]
pub struct Wire<S>(S);

impl<S> Wire<S> {
    /// An end of a connection that has begun.
    pub fn over(stream: S) -> Self {
        Wire(stream)
    }
}

impl<S: Write> Wire<S> {
    /// A client's end of a new connection, which sends the four bytes that name the form.
    ///
    /// # Errors
    ///
    /// Those of the stream.
    pub fn client(mut stream: S) -> io::Result<Self> {
        stream.write_all(&START)?;
        Ok(Wire(stream))
    }

    /// Sends a packet.
    ///
    /// # Errors
    ///
    /// Those of the stream, which may have taken a part.
    pub fn send(&mut self, packet: &[u8]) -> io::Result<()> {
        let len = u32::try_from(packet.len()).map_err(|_| io::Error::new(ErrorKind::InvalidInput, "no packet is so long"))?;
        self.0.write_all(&[&len.to_le_bytes(), packet].concat())
    }
}

impl<S: Read> Wire<S> {
    /// A server's end of a new connection, which takes these four bytes.
    ///
    /// # Errors
    ///
    /// Those of the stream; `InvalidData` where it is of another form.
    pub fn server(mut stream: S) -> io::Result<Self> {
        let mut start = [0; 4];
        stream.read_exact(&mut start)?;
        if start != START {
            return Err(io::Error::new(ErrorKind::InvalidData, "the connection isn't of the intermediate form"));
        }
        Ok(Wire(stream))
    }

    /// Waits for the next packet.
    ///
    /// # Errors
    ///
    /// Those of the stream; `UnexpectedEof` where the connection has ended, `InvalidData` where no packet has such a length.
    pub fn receive(&mut self) -> io::Result<Vec<u8>> {
        let mut len = [0; 4];
        self.0.read_exact(&mut len)?;
        let len = u32::from_le_bytes(len) as usize;
        if len > PACKET_BYTES_MAX {
            return Err(io::Error::new(ErrorKind::InvalidData, "no packet is so long"));
        }
        let mut packet = vec![0; len];
        self.0.read_exact(&mut packet)?;
        Ok(packet)
    }
}
