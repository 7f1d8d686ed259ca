//! Reads a client's stream from standard input as a server of tungstenite does, and prints the numbers of messages and
//! payload bytes that it received.

use std::error::Error;
use std::fs::File;
use std::io::{self, BufReader, Read, Write};
use std::os::fd::AsFd;
use tungstenite::error::ProtocolError::ResetWithoutClosingHandshake;
use tungstenite::protocol::{Role, WebSocket};
use tungstenite::Error::Protocol;

/// What the client sends comes from standard input, in blocks of 65,536 bytes. What the server answers is dropped.
struct Client(BufReader<File>);

impl Client {
    fn new() -> io::Result<Self> {
        let input = io::stdin().as_fd().try_clone_to_owned()?;
        Ok(Client(BufReader::with_capacity(65_536, File::from(input))))
    }
}

impl Read for Client {
    fn read(&mut self, into: &mut [u8]) -> io::Result<usize> {
        self.0.read(into)
    }
}

impl Write for Client {
    fn write(&mut self, bytes: &[u8]) -> io::Result<usize> {
        Ok(bytes.len())
    }

    fn flush(&mut self) -> io::Result<()> {
        Ok(())
    }
}

fn main() -> Result<(), Box<dyn Error>> {
    let mut server = WebSocket::from_raw_socket(Client::new()?, Role::Server, None);
    let (mut messages, mut payload) = (0u64, 0);
    loop {
        match server.read() {
            Ok(message) => {
                messages += 1;
                payload += message.len();
            }
            // the stream's end, without a Close
            Err(Protocol(ResetWithoutClosingHandshake)) => break,
            Err(error) => return Err(error.into()),
        }
    }
    println!("{messages} {payload}");
    Ok(())
}
