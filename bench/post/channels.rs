//! The same work as src/, over std's channels and with an Arc in a hold's place: what ours are measured against. Prints
//! the same lines as src/main.rt does.

use std::hint::black_box;
use std::sync::Arc;
use std::sync::mpsc::{Receiver, SyncSender, sync_channel};
use std::thread;
use std::time::Instant;

const CAPACITY: usize = 16;
const COPIES: u32 = 100;
const MESSAGES: u32 = 4_000;
const TRIP_MESSAGES: u32 = 1_000;

/// A text that lies in the value itself.
#[allow(dead_code)]
struct Text {
    length: usize,
    bytes: [u8; 256],
}

impl Text {
    fn new(text: &[u8]) -> Text {
        let mut bytes = [0; 256];
        bytes[..text.len()].copy_from_slice(text);
        Text {
            length: text.len(),
            bytes,
        }
    }
}

#[allow(dead_code)]
#[derive(Clone, Copy)]
struct Txn {
    lane: u32,
    number: u32,
}

#[allow(dead_code)]
struct Envelope {
    sender: Text,
    client: Text,
    txn: Txn,
    moment: u32,
}

#[allow(dead_code)]
struct Post {
    txn: Txn,
    place: u32,
    mailbox: u32,
    envelope: Envelope,
    message: Arc<[u8]>,
}

#[allow(dead_code)]
struct Slip {
    txn: Txn,
    place: u32,
    worker: u32,
    outcome: u8,
}

fn message() -> Arc<[u8]> {
    Arc::from(&[7; 512][..])
}

fn copy_of(lane: u32, number: u32, place: u32, message: Arc<[u8]>) -> Post {
    let txn = Txn { lane, number };
    Post {
        txn,
        place,
        mailbox: 0,
        envelope: Envelope {
            sender: Text::new(black_box(b"carl@a.example")),
            client: Text::new(black_box(b"relay.example")),
            txn,
            moment: 7,
        },
        message,
    }
}

// The copies of one message, the last of which has what is left of it.
fn copies(lane: u32, number: u32) -> impl Iterator<Item = Post> {
    let mut left = Some(message());
    (1..=COPIES).filter_map(move |place| {
        let place = place % COPIES;
        let one = if place == 0 { left.take() } else { left.clone() };
        Some(copy_of(lane, number, place, one?))
    })
}

fn main() {
    for lanes in [1, 2, 4] {
        measure_posts(lanes);
    }
    measure_trips();
}

fn run_lane(to: SyncSender<Post>, lane: u32, messages: u32) {
    for number in 0..messages {
        for copy in copies(lane, number) {
            if to.send(copy).is_err() {
                return;
            }
        }
    }
}

fn measure_posts(lanes: u32) {
    let (to, from) = sync_channel(CAPACITY);
    let start = Instant::now();
    let threads: Vec<_> = (0..lanes)
        .map(|lane| {
            let to = to.clone();
            thread::spawn(move || run_lane(to, lane, MESSAGES / lanes))
        })
        .collect();
    drop(to);
    let mut taken = 0;
    let mut sum = 0u32;
    while taken < MESSAGES * COPIES {
        let Ok(copy) = from.recv() else { break };
        let copy: Post = black_box(copy);
        taken += 1;
        sum = sum.wrapping_add(copy.txn.number);
    }
    let took = start.elapsed().as_micros();
    for one in threads {
        one.join().unwrap();
    }
    println!("posts-{lanes} {took} taken={taken} sum={sum}");
}

fn run_worker(from: Receiver<Post>, answer: SyncSender<Slip>) {
    while let Ok(copy) = from.recv() {
        let Post {
            txn,
            place,
            message,
            ..
        } = black_box(copy);
        drop(message);
        let slip = Slip {
            txn,
            place,
            worker: 0,
            outcome: 0,
        };
        if answer.send(slip).is_err() {
            return;
        }
    }
}

fn measure_trips() {
    let (to, from) = sync_channel(CAPACITY);
    let (answer, slips) = sync_channel(COPIES as usize);
    let there = thread::spawn(move || run_worker(from, answer));
    let start = Instant::now();
    let mut trips = 0;
    'trips: for number in 0..TRIP_MESSAGES {
        for copy in copies(0, number) {
            if to.send(copy).is_err() || slips.recv().is_err() {
                break 'trips;
            }
            trips += 1;
        }
    }
    let took = start.elapsed().as_micros();
    drop(to);
    there.join().unwrap();
    println!("trips {took} trips={trips}");
}
