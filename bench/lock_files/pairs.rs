//! How long it takes to make, write and remove a lock file, and to link it from a file that stays and remove that link,
//! which is what a turn at a mailbox does. Prints the microseconds of both, medians of five rounds.
//! usage: pairs FOLDER
use std::fs::{File, FileTimes, OpenOptions, hard_link, remove_file};
use std::io::{Result, Write};
use std::path::Path;
use std::time::{Instant, SystemTime};

const ROUNDS: usize = 5;
const PAIRS: u32 = 10_000;

fn make(lock: &Path) -> Result<()> {
    let mut file = OpenOptions::new().write(true).create_new(true).open(lock)?;
    file.metadata()?;
    file.write_all(b"12345:mx.example")?;
    lock.symlink_metadata()?;
    remove_file(lock)
}

fn link(source: &File, path: &Path, lock: &Path) -> Result<()> {
    source.set_times(FileTimes::new().set_modified(SystemTime::now()))?;
    hard_link(path, lock)?;
    source.metadata()?;
    lock.symlink_metadata()?;
    remove_file(lock)
}

fn micros(mut pair: impl FnMut() -> Result<()>) -> Result<f64> {
    let start = Instant::now();
    for _ in 0..PAIRS {
        pair()?;
    }
    Ok(start.elapsed().as_secs_f64() * 1e6 / f64::from(PAIRS))
}

fn median(mut times: Vec<f64>) -> f64 {
    times.sort_by(f64::total_cmp);
    times[times.len() / 2]
}

fn main() -> Result<()> {
    let folder = std::env::args().nth(1).expect("a folder");
    let (lock, path) = (Path::new(&folder).join("a.lock"), Path::new(&folder).join("a.source.lock"));
    let mut source = File::create(&path)?;
    source.write_all(b"12345:mx.example")?;
    let (mut made, mut linked) = (Vec::new(), Vec::new());
    for _ in 0..ROUNDS {
        made.push(micros(|| make(&lock))?);
        linked.push(micros(|| link(&source, &path, &lock))?);
    }
    println!("made {:.1} us, linked {:.1} us", median(made), median(linked));
    remove_file(&path)
}
