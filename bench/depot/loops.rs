//! The same work in plain Rust: a message in a Vec under a Mutex that several threads read in pieces, and an Arc of its
//! own for each thread, cloned and dropped. Prints the same lines as src/main.rt does.

use std::hint::black_box;
use std::sync::{Arc, Mutex};
use std::thread;
use std::time::Instant;

const SIZE: usize = 16_384;
const PIECE: usize = 512;
const ROUNDS: u32 = 20_000;
const MESSAGES: u32 = 100_000;
const HOLDS: u32 = 100;

fn main() {
    for threads in [1, 2, 4] {
        let message = Mutex::new(vec![7u8; SIZE]);
        let start = Instant::now();
        let bytes = by(threads, || read_whole(&message));
        println!("read {threads} {} bytes={bytes}", start.elapsed().as_micros());
    }
    for threads in [1, 2, 4] {
        let start = Instant::now();
        let turns = by(threads, take_turns);
        println!("holds {threads} {} turns={turns}", start.elapsed().as_micros());
    }
}

fn by(threads: u32, work: impl Fn() -> u64 + Sync) -> u64 {
    thread::scope(|scope| {
        let all: Vec<_> = (0..threads).map(|_| scope.spawn(&work)).collect();
        all.into_iter().map(|one| one.join().unwrap()).sum()
    })
}

fn read_whole(message: &Mutex<Vec<u8>>) -> u64 {
    let mut total = 0;
    let mut out = [0u8; PIECE];
    for _ in 0..ROUNDS {
        for piece in 0..SIZE / PIECE {
            let bytes = message.lock().unwrap();
            out.copy_from_slice(&bytes[piece * PIECE..][..PIECE]);
            drop(bytes);
            total += black_box(&out).len() as u64;
        }
    }
    total
}

fn take_turns() -> u64 {
    let mut turns = 0;
    for _ in 0..MESSAGES {
        let message = black_box(Arc::new(0u8));
        for _ in 1..HOLDS {
            let one = black_box(Arc::clone(&message));
            drop(one);
            turns += 1;
        }
    }
    turns
}
