//! The least that a server with a mailbox of mbox files can do in plain Rust, with none of our code: a thread for each
//! connection, which appends each message to its mailbox's file and syncs it before it answers. It checks nothing,
//! quotes nothing and tells nobody of a fault: what it reaches is a bound for those that do.
//!
//! usage: plain FOLDER ADDRESS:PORT
//!
//! It serves RFC 2033 without pipelining, one recipient a message and more, until it is killed.

use std::fs::{File, OpenOptions};
use std::io::{self, BufRead, BufReader, Write};
use std::net::{TcpListener, TcpStream};
use std::path::{Path, PathBuf};
use std::thread;

const END: &[u8] = b"\r\n.\r\n";

fn main() -> io::Result<()> {
    let words: Vec<String> = std::env::args().skip(1).collect();
    let [folder, address] = &words[..] else {
        return Err(io::Error::other("usage: plain FOLDER ADDRESS:PORT"));
    };
    let folder = PathBuf::from(folder);
    for stream in TcpListener::bind(address)?.incoming() {
        let (stream, folder) = (stream?, folder.clone());
        thread::spawn(move || serve(stream, &folder));
    }
    Ok(())
}

/// One conversation. The mailboxes' files stay open to its end.
fn serve(stream: TcpStream, folder: &Path) -> io::Result<()> {
    stream.set_nodelay(true)?;
    let mut replies = stream.try_clone()?;
    let mut input = BufReader::with_capacity(65_536, stream);
    let mut files: Vec<(String, File)> = Vec::new();
    let mut recipients: Vec<String> = Vec::new();
    let (mut line, mut message) = (Vec::new(), Vec::new());
    replies.write_all(b"220 mx.example\r\n")?;
    loop {
        line.clear();
        if input.read_until(b'\n', &mut line)? == 0 {
            return Ok(());
        }
        match &line[..4] {
            b"RCPT" => {
                let text = String::from_utf8_lossy(&line);
                recipients.push(text.split(['<', '@']).nth(1).unwrap_or("u0").to_string());
                replies.write_all(b"250 2.1.5 Ok\r\n")?;
            }
            b"DATA" => {
                replies.write_all(b"354 Go ahead\r\n")?;
                read_message(&mut input, &mut message)?;
                let mut answers = Vec::new();
                for name in recipients.drain(..) {
                    store(folder, &mut files, name, &message)?;
                    answers.extend_from_slice(b"250 2.0.0 Stored\r\n");
                }
                replies.write_all(&answers)?;
            }
            b"QUIT" => return replies.write_all(b"221 2.0.0 Bye\r\n"),
            _ => replies.write_all(b"250 2.1.0 Ok\r\n")?,
        }
    }
}

/// The bytes up to the line that is a dot alone.
fn read_message(input: &mut impl BufRead, message: &mut Vec<u8>) -> io::Result<()> {
    message.clear();
    while !message.ends_with(END) {
        let piece = input.fill_buf()?;
        if piece.is_empty() {
            return Err(io::ErrorKind::UnexpectedEof.into());
        }
        let size = piece.len();
        message.extend_from_slice(piece);
        input.consume(size);
    }
    Ok(())
}

/// Appends the message to that mailbox, and syncs it.
fn store(folder: &Path, files: &mut Vec<(String, File)>, name: String, message: &[u8]) -> io::Result<()> {
    let at = match files.iter().position(|(held, _)| *held == name) {
        Some(at) => at,
        None => {
            let file = OpenOptions::new().create(true).append(true).open(folder.join(format!("{name}.mbox")))?;
            files.push((name, file));
            files.len() - 1
        }
    };
    let file = &mut files[at].1;
    file.write_all(message)?;
    file.sync_data()
}
