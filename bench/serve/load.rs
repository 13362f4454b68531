//! Delivers messages to an LMTP server by several connections at once, and says how long that took.
//!
//! usage: load ADDRESS:PORT TAG CONNECTIONS CONVERSATIONS MESSAGES RECIPIENTS SIZE BOXES
//!
//! Each connection has a thread, which holds CONVERSATIONS one after the other and sends MESSAGES in each,
//! of SIZE bytes with header and CRLFs, without pipelining. Recipient j of a message on connection c is the
//! mailbox with number (c * RECIPIENTS + j) mod BOXES, `u0` and so on. A message's id is <TAG.c.i@load>, i
//! counted over the thread's conversations.
//!
//! Prints the line of timing.rs; a message's time is from MAIL to its last reply. Ends with status 1 where a
//! reply isn't the one that is due.

mod client;
mod timing;

use client::Client;
use std::net::SocketAddr;
use std::process::ExitCode;
use std::time::Instant;

struct Work {
    address: SocketAddr,
    tag: String,
    connections: usize,
    conversations: usize,
    messages: usize,
    recipients: usize,
    size: usize,
    boxes: usize,
}

fn main() -> ExitCode {
    let Some(work) = read_words() else {
        eprintln!("usage: load ADDRESS:PORT TAG CONNECTIONS CONVERSATIONS MESSAGES RECIPIENTS SIZE BOXES");
        return ExitCode::from(2);
    };
    match timing::print_times(work.connections, work.recipients, |number| deliver(&work, number)) {
        Ok(()) => ExitCode::SUCCESS,
        Err(fault) => {
            eprintln!("load: {fault}");
            ExitCode::FAILURE
        }
    }
}

fn read_words() -> Option<Work> {
    let mut words = std::env::args().skip(1);
    let address: SocketAddr = words.next()?.parse().ok()?;
    let tag = words.next()?;
    let numbers: Vec<usize> =
        words.map(|word| word.parse().ok().filter(|&n| n > 0)).collect::<Option<_>>()?;
    let [connections, conversations, messages, recipients, size, boxes] = numbers[..] else {
        return None;
    };
    let work = Work { address, tag, connections, conversations, messages, recipients, size, boxes };
    // A load is for this machine alone, and a body has its CRLF at least.
    (address.ip().is_loopback() && size >= header(&work, 0, 0).len() + 2).then_some(work)
}

/// All conversations of a connection, and the milliseconds of each message.
fn deliver(work: &Work, connection: usize) -> Result<Vec<f64>, String> {
    let recipients: Vec<String> = (0..work.recipients)
        .map(|place| (connection * work.recipients + place) % work.boxes)
        .map(|number| format!("RCPT TO:<u{number}@mx.example>\r\n"))
        .collect();
    let body = body(work.size - header(work, 0, 0).len());
    let mut times = Vec::with_capacity(work.conversations * work.messages);
    for _ in 0..work.conversations {
        let mut client = Client::greet(work.address)?;
        for _ in 0..work.messages {
            let message = [header(work, connection, times.len()).as_bytes(), &body, b".\r\n"].concat();
            let begun = Instant::now();
            send(&mut client, &recipients, &message)?;
            times.push(begun.elapsed().as_secs_f64() * 1e3);
        }
        client.quit()?;
    }
    Ok(times)
}

fn send(client: &mut Client, recipients: &[String], message: &[u8]) -> Result<(), String> {
    client.ask(b"MAIL FROM:<load@a.example>\r\n", b"250", "MAIL")?;
    for recipient in recipients {
        client.ask(recipient.as_bytes(), b"250", "RCPT")?;
    }
    client.ask(b"DATA\r\n", b"354", "DATA")?;
    client.ask(message, b"250", "final reply")?;
    for _ in 1..recipients.len() {
        client.hear(b"250", "final reply")?;
    }
    Ok(())
}

/// That many bytes, more than one, in lines of 64 with their CRLF. None begins with a dot.
fn body(size: usize) -> Vec<u8> {
    let mut text = Vec::with_capacity(size);
    while text.len() < size {
        let left = size - text.len();
        // the last line is never a single byte, in which no CRLF has room
        let line = if left <= 66 { left } else { 64 };
        text.extend((0..line - 2).map(|at| b'a' + (at % 26) as u8));
        text.extend_from_slice(b"\r\n");
    }
    text
}

// It is as long for each message, so that one body fits all.
fn header(work: &Work, connection: usize, number: usize) -> String {
    let id = format!("Message-ID: <{}.{connection}.{number}@load>", work.tag);
    format!(
        "From: <load@a.example>\r\nSubject: load\r\n{id}\r\nX-Fill: {:x>1$}\r\n\r\n",
        "",
        80 - id.len().min(80)
    )
}
