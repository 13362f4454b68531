//! What the disk alone allows: each delivery is an append to a mailbox's file and an fdatasync of it, with no
//! protocol.
//!
//! usage: floor FOLDER THREADS MESSAGES RECIPIENTS SIZE BOXES
//!
//! Each thread does what a connection of `load` with the same numbers asks for: its copies go to the same
//! files. Prints the line of timing.rs.

mod timing;

use std::fs::{File, OpenOptions};
use std::io::{self, Write};
use std::path::Path;
use std::process::ExitCode;
use std::time::Instant;

struct Work {
    threads: usize,
    messages: usize,
    recipients: usize,
    size: usize,
    boxes: usize,
}

fn main() -> ExitCode {
    let words: Vec<String> = std::env::args().skip(1).collect();
    let numbers: Vec<usize> =
        words.iter().skip(1).filter_map(|word| word.parse().ok()).filter(|&n| n > 0).collect();
    let [threads, messages, recipients, size, boxes] = numbers[..] else {
        eprintln!("usage: floor FOLDER THREADS MESSAGES RECIPIENTS SIZE BOXES");
        return ExitCode::from(2);
    };
    let work = Work { threads, messages, recipients, size, boxes };
    let folder = Path::new(&words[0]);
    let append = |number| append(&work, folder, number).map_err(|fault| fault.to_string());
    match timing::print_times(work.threads, work.recipients, append) {
        Ok(()) => ExitCode::SUCCESS,
        Err(fault) => {
            eprintln!("floor: {fault}");
            ExitCode::FAILURE
        }
    }
}

fn open(work: &Work, folder: &Path, thread: usize) -> io::Result<Vec<File>> {
    (0..work.recipients)
        .map(|place| (thread * work.recipients + place) % work.boxes)
        .map(|number| folder.join(format!("u{number}.mbox")))
        .map(|path| OpenOptions::new().create(true).append(true).open(path))
        .collect()
}

/// All that one thread appends, and the milliseconds of each message.
fn append(work: &Work, folder: &Path, thread: usize) -> io::Result<Vec<f64>> {
    let mut files = open(work, folder, thread)?;
    let record: Vec<u8> = (1..=work.size).map(|at| if at % 64 == 0 { b'\n' } else { b'x' }).collect();
    let mut times = Vec::with_capacity(work.messages);
    for _ in 0..work.messages {
        let begun = Instant::now();
        for file in &mut files {
            file.write_all(&record)?;
            file.sync_data()?;
        }
        times.push(begun.elapsed().as_secs_f64() * 1e3);
    }
    Ok(times)
}
