//! The same work as src/, byte by byte, by a plain loop each: what the parts of the server are measured against.
//! Prints the same lines as src/main.rt does: the counts are the same, but for the calls.

use std::hint::black_box;
use std::time::Instant;

const CR: u8 = b'\r';
const LF: u8 = b'\n';

fn main() {
    let mut text = mail_text();

    let start = Instant::now();
    let read = read_lines(&text);
    let took = start.elapsed().as_micros();
    println!(
        "lines {took} lines={} letters={} last={}",
        read.lines, read.letters, read.last
    );

    let start = Instant::now();
    let sink = write_record(&text);
    let took = start.elapsed().as_micros();
    println!("record {took} bytes={}", sink.bytes);
    println!("calls {} pieces={}", sink.flushes, text.chunks(512).len());

    text.extend_from_slice(b".\r\n");
    let start = Instant::now();
    let made = read_data(&text);
    let took = start.elapsed().as_micros();
    println!(
        "data {took} bytes={} sum={} ended={}",
        made.bytes, made.sum, made.ended
    );
}

// The text, as in src/text.rt.

const LINES: usize = 921_820;
const LETTERS: [u8; 32] = *b"abcdefghijklmnopqrstuvwxyz      ";

fn mail_text() -> Vec<u8> {
    let mut text = Vec::with_capacity(65 << 20);
    let mut seed = 1;
    for _ in 0..LINES {
        seed = next(seed);
        text.extend_from_slice(prefix(seed));
        seed = next(seed);
        for _ in 0..60 + seed % 21 {
            seed = next(seed);
            text.push(LETTERS[(seed >> 27) as usize % 32]);
        }
        text.extend_from_slice(b"\r\n");
    }
    text
}

fn prefix(seed: u32) -> &'static [u8] {
    match seed >> 28 {
        0 => b"..",
        1 => b"From ",
        2 => b">From ",
        _ => b"",
    }
}

fn next(seed: u32) -> u32 {
    seed.wrapping_mul(1_664_525).wrapping_add(1_013_904_223)
}

// Lines: the letters of a line are kept, up to 1,022, and its CR after them.

struct Read {
    lines: u64,
    letters: u64,
    last: u64,
}

#[inline(never)]
fn read_lines(text: &[u8]) -> Read {
    let mut read = Read {
        lines: 0,
        letters: 0,
        last: 0,
    };
    let mut kept = [0; 1023];
    let mut len = 0;
    let mut too_long = false;
    let mut before = LF;
    for piece in text.chunks(4096) {
        for &byte in piece {
            if byte == LF && before == CR {
                if !too_long {
                    count_line(&mut read, black_box(&kept[..len - 1]));
                }
                (len, too_long) = (0, false);
            } else if len < kept.len() {
                kept[len] = byte;
                len += 1;
            } else {
                too_long = true;
            }
            before = byte;
        }
    }
    read
}

fn count_line(read: &mut Read, line: &[u8]) {
    read.lines += 1;
    read.letters += line.len() as u64;
    read.last += u64::from(line.last().copied().unwrap_or(0));
}

// Data: a machine of five states.

#[derive(Clone, Copy)]
enum DataPlace {
    InText,
    AfterCr,
    LineStart,
    AfterDot,
    AfterDotCr,
}

struct Made {
    bytes: u64,
    sum: u64,
    ended: bool,
}

#[inline(never)]
fn read_data(text: &[u8]) -> Made {
    let mut made = Made {
        bytes: 0,
        sum: 0,
        ended: false,
    };
    let mut out = [0; 4096];
    let mut len = 0;
    let mut place = DataPlace::LineStart;
    'data: for piece in text.chunks(4096) {
        for &byte in piece {
            place = match (place, byte) {
                (DataPlace::LineStart, b'.') => DataPlace::AfterDot,
                (DataPlace::AfterDot, CR) => DataPlace::AfterDotCr,
                (DataPlace::AfterDotCr, LF) => {
                    made.ended = true;
                    break 'data;
                }
                (DataPlace::AfterDotCr, _) => {
                    put(CR, &mut out, &mut len, &mut made);
                    put(byte, &mut out, &mut len, &mut made);
                    begun(byte)
                }
                (DataPlace::AfterCr, LF) => {
                    put(byte, &mut out, &mut len, &mut made);
                    DataPlace::LineStart
                }
                _ => {
                    put(byte, &mut out, &mut len, &mut made);
                    begun(byte)
                }
            };
        }
        count_made(&mut made, black_box(&out[..len]));
        len = 0;
    }
    count_made(&mut made, black_box(&out[..len]));
    made
}

fn begun(byte: u8) -> DataPlace {
    if byte == CR {
        DataPlace::AfterCr
    } else {
        DataPlace::InText
    }
}

fn put(byte: u8, out: &mut [u8; 4096], len: &mut usize, made: &mut Made) {
    if *len == out.len() {
        count_made(made, black_box(&out[..]));
        *len = 0;
    }
    out[*len] = byte;
    *len += 1;
}

#[inline(never)]
fn count_made(made: &mut Made, bytes: &[u8]) {
    made.bytes += bytes.len() as u64;
    for &byte in bytes {
        made.sum += u64::from(byte);
    }
}

// Records: LF for CRLF, and one `>` more before `From ` at a line's start or after its `>`s.

const FROM: &[u8] = b"From ";

#[derive(Clone, Copy)]
enum Held {
    Start,
    Marks,
    Word(usize),
    Inside,
    Cr,
}

// It counts what it is given in parts of 512 bytes.
struct Sink {
    part: [u8; 512],
    len: usize,
    bytes: u64,
    flushes: u64,
}

impl Sink {
    fn put(&mut self, byte: u8) {
        if self.len == self.part.len() {
            self.flush();
        }
        self.part[self.len] = byte;
        self.len += 1;
    }

    fn put_all(&mut self, bytes: &[u8]) {
        for &byte in bytes {
            self.put(byte);
        }
    }

    #[inline(never)]
    fn flush(&mut self) {
        self.bytes += black_box(&self.part[..self.len]).len() as u64;
        self.flushes += 1;
        self.len = 0;
    }
}

#[inline(never)]
fn write_record(text: &[u8]) -> Sink {
    let mut sink = Sink {
        part: [0; 512],
        len: 0,
        bytes: 0,
        flushes: 0,
    };
    let mut held = Held::Start;
    for piece in text.chunks(512) {
        for &byte in piece {
            held = write_byte(&mut sink, held, byte);
        }
    }
    match held {
        Held::Start | Held::Marks | Held::Inside => {}
        Held::Word(n) => sink.put_all(&FROM[..n]),
        Held::Cr => sink.put(CR),
    }
    if !matches!(held, Held::Start) {
        sink.put(LF);
    }
    sink.put(LF);
    sink.flush();
    sink
}

fn write_byte(sink: &mut Sink, held: Held, byte: u8) -> Held {
    match held {
        Held::Start | Held::Marks if byte == b'>' => {
            sink.put(byte);
            Held::Marks
        }
        Held::Start | Held::Marks => write_word(sink, 0, byte),
        Held::Word(n) => write_word(sink, n, byte),
        Held::Inside => write_inside(sink, byte),
        Held::Cr => {
            if byte != LF {
                sink.put(CR);
            }
            write_inside(sink, byte)
        }
    }
}

// After n bytes of `From `, which are held back.
fn write_word(sink: &mut Sink, n: usize, byte: u8) -> Held {
    if byte != FROM[n] {
        sink.put_all(&FROM[..n]);
        return write_inside(sink, byte);
    }
    if n + 1 < FROM.len() {
        return Held::Word(n + 1);
    }
    sink.put(b'>');
    sink.put_all(FROM);
    Held::Inside
}

fn write_inside(sink: &mut Sink, byte: u8) -> Held {
    match byte {
        CR => Held::Cr,
        LF => {
            sink.put(LF);
            Held::Start
        }
        _ => {
            sink.put(byte);
            Held::Inside
        }
    }
}
