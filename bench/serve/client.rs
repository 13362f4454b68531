//! One conversation of an LMTP client (RFC 2033) over a socket.
//! Each reply is read, and must have the code that is due.

use std::io::{self, Read, Write};
use std::net::{SocketAddr, TcpStream};
use std::time::Duration;

/// How long a read or a write may take.
const PATIENCE: Duration = Duration::from_secs(60);
/// More bytes than any reply has.
const REPLY_LIMIT: usize = 65_536;

pub struct Client {
    stream: TcpStream,
    said: Vec<u8>,
}

impl Client {
    /// Connects, and hears the greeting and the answer to LHLO.
    pub fn greet(address: SocketAddr) -> Result<Client, String> {
        let stream = connect(address).map_err(|error| format!("connect {address}: {error}"))?;
        let mut client = Client { stream, said: Vec::with_capacity(4096) };
        client.hear(b"220", "greeting")?;
        client.ask(b"LHLO relay.example\r\n", b"250", "LHLO")?;
        Ok(client)
    }

    /// Sends these bytes, and hears one reply with that code.
    pub fn ask(&mut self, bytes: &[u8], code: &[u8; 3], what: &str) -> Result<(), String> {
        self.stream.write_all(bytes).map_err(|error| format!("{what}: {error}"))?;
        self.hear(code, what)
    }

    /// Hears one reply with that code, which may have several lines.
    pub fn hear(&mut self, code: &[u8; 3], what: &str) -> Result<(), String> {
        loop {
            let line = self.line(what)?;
            if !line.starts_with(code) {
                return Err(format!("{what}: {}", String::from_utf8_lossy(&line)));
            }
            if line.get(3) != Some(&b'-') {
                return Ok(());
            }
        }
    }

    /// Says QUIT, and hears its reply and then the end of the stream: a reply too many would show.
    pub fn quit(mut self) -> Result<(), String> {
        self.ask(b"QUIT\r\n", b"221", "QUIT")?;
        let after = self.said.len() + self.fill("end of stream")?;
        if after > 0 {
            Err(format!("{after} bytes after the reply to QUIT"))
        } else {
            Ok(())
        }
    }

    fn line(&mut self, what: &str) -> Result<Vec<u8>, String> {
        loop {
            if let Some(end) = self.said.windows(2).position(|two| two == b"\r\n") {
                let line = self.said[..end].to_vec();
                self.said.drain(..end + 2);
                return Ok(line);
            }
            if self.said.len() > REPLY_LIMIT {
                return Err(format!("{what}: a line without an end"));
            }
            if self.fill(what)? == 0 {
                return Err(format!("{what}: end of stream"));
            }
        }
    }

    fn fill(&mut self, what: &str) -> Result<usize, String> {
        let mut piece = [0; 4096];
        let size = self.stream.read(&mut piece).map_err(|error| format!("{what}: {error}"))?;
        self.said.extend_from_slice(&piece[..size]);
        Ok(size)
    }
}

fn connect(address: SocketAddr) -> io::Result<TcpStream> {
    let stream = TcpStream::connect_timeout(&address, PATIENCE)?;
    stream.set_nodelay(true)?;
    stream.set_read_timeout(Some(PATIENCE))?;
    stream.set_write_timeout(Some(PATIENCE))?;
    Ok(stream)
}
