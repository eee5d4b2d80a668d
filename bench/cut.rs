//! Validating and cutting a text: `rigcactus_cut` beside `std::str::from_utf8` with `is_char_boundary`, and beside glibc's `mbrtowc`.
//!
//! A line for each text has its name, its bytes, the calls of a round, and a number for each side:
//!
//!     cut           nanoseconds of a call: the best round, the sides in turn
//!     cut count     0 for each side; each runs once in a call of counted_round, whose instructions callgrind counts

use std::ffi::{c_char, c_int};
use std::hint::black_box;
use std::process::ExitCode;
use std::time::{Duration, Instant};

extern "C" {
    fn rigcactus_cut(text: *const u8, text_len: usize, room: u64) -> u64;
    fn setlocale(category: c_int, locale: *const c_char) -> *const c_char;
    fn mbrtowc(to: *mut i32, from: *const u8, length: usize, state: *mut u64) -> usize;
}

const BYTES: usize = 16_384;

/// The lengths at which texts are also cut, to see how cost grows.
const LENGTHS: [usize; 8] = [100, 200, 500, 1_000, 2_000, 4_000, 8_000, 16_000];

/// How long the rounds of a text go on, how many there are at most, and how many bytes a round reads.
const ROUNDS_TIME: Duration = Duration::from_millis(400);
const MOST_ROUNDS: usize = 1_500;
const ROUND_BYTES: usize = 163_840;

/// The room: about half of the text, and inside a character where all have two, three or four bytes.
fn room(text: &[u8]) -> u64 {
    text.len() as u64 / 2 - 1
}

fn rigcactus(text: &[u8], room: u64) -> u64 {
    // SAFETY: the pointer and the length are those of a slice, and the service writes nothing.
    unsafe { rigcactus_cut(text.as_ptr(), text.len(), room) }
}

/// The same by the standard library.
fn std_library(text: &[u8], room: u64) -> u64 {
    if text.len() > BYTES {
        return 2;
    }
    let Ok(text) = std::str::from_utf8(text) else {
        return 3;
    };
    let mut length = text.len().min(room as usize);
    while !text.is_char_boundary(length) {
        length -= 1;
    }
    length as u64 * 256
}

/// The same by glibc, one character after another.
fn glibc(text: &[u8], room: u64) -> u64 {
    let (mut at, mut kept, mut state, mut character) = (0, 0, 0, 0);
    while at < text.len() {
        // SAFETY: the pointer and the length are those of the rest of a slice; glibc's state is of eight bytes, all zero at first.
        let length = unsafe { mbrtowc(&mut character, text[at..].as_ptr(), text.len() - at, &mut state) };
        if length > 4 {
            return 3;
        }
        at += length.max(1);
        if at as u64 <= room {
            kept = at;
        }
    }
    kept as u64 * 256
}

type Side = fn(&[u8], u64) -> u64;

const SIDES: [(&str, Side); 3] = [("rigcactus", rigcactus), ("std", std_library), ("mbrtowc", glibc)];

/// Numbers that look random and are the same in every run.
struct Random(u64);

impl Random {
    fn below(&mut self, end: usize) -> usize {
        self.0 = self.0.wrapping_mul(6_364_136_223_846_793_005).wrapping_add(1_442_695_040_888_963_407);
        (self.0 >> 33) as usize % end
    }
}

/// A text of so many bytes made of words that `next` draws, with letters at its end where one does not fit any more.
fn text(bytes: usize, mut next: impl FnMut(&mut Random) -> String) -> Vec<u8> {
    let mut random = Random(1);
    let mut text = Vec::with_capacity(bytes);
    loop {
        let word = next(&mut random);
        if text.len() + word.len() > bytes {
            text.resize(bytes, b'a');
            return text;
        }
        text.extend_from_slice(word.as_bytes());
    }
}

/// Words of a list in no order, with the same character between any two, if any.
fn words(bytes: usize, list: &[&str], between: &str) -> Vec<u8> {
    text(bytes, |random| format!("{}{between}", list[random.below(list.len())]))
}

const ASCII: [&str; 8] = ["Anna", "pass", "for", "a", "walk-in", "clinic", "Peter", "12.50"];
const LATIN: [&str; 8] = ["Zoë", "Françoise", "Noël", "Łukasz", "Peter", "Jürgen", "Müller", "Siobhán"];
const TWO: [&str; 6] = ["Ελένη", "Παπαδάκη", "Анна", "Щербакова", "ليلى", "חנה"];
const THREE: [&str; 6] = ["王秀英", "佐藤", "नीता", "शर्मा", "김민준", "สมชาย"];
const FOUR: [&str; 6] = ["🌵", "🏨", "🩺", "🎫", "👩", "𠮷"];

fn texts() -> Vec<(String, Vec<u8>)> {
    let mixed = [&ASCII[..], &LATIN, &TWO, &THREE, &FOUR].concat();
    let planes = |random: &mut Random| char::from_u32(0x10000 + random.below(0x100000) as u32).unwrap().to_string();
    let scattered = |random: &mut Random| if random.below(8) == 0 { "é" } else { "e" }.to_string();
    let mut texts = vec![
        ("ascii".to_string(), words(BYTES, &ASCII, " ")),
        ("latin".to_string(), words(BYTES, &LATIN, " ")),
        ("scattered".to_string(), text(BYTES, scattered)),
        ("two".to_string(), words(BYTES, &TWO, "")),
        ("three".to_string(), words(BYTES, &THREE, "")),
        ("four".to_string(), words(BYTES, &FOUR, "")),
        ("planes".to_string(), text(BYTES, planes)),
        ("mixed".to_string(), words(BYTES, &mixed, " ")),
    ];
    texts.extend(LENGTHS.map(|length| (format!("ascii-{length}"), words(length, &ASCII, " "))));
    texts.extend(LENGTHS.map(|length| (format!("mixed-{length}"), words(length, &mixed, " "))));
    texts
}

/// How many calls a round has.
fn calls(text: &[u8]) -> usize {
    ROUND_BYTES / text.len()
}

/// A round of a side. It has a name of its own for callgrind to find it by.
#[no_mangle]
#[inline(never)]
fn counted_round(side: Side, text: &[u8]) {
    for _ in 0..calls(text) {
        black_box(side(black_box(text), black_box(room(text))));
    }
}

/// The time of a round, in nanoseconds for each call.
fn round_time(side: Side, text: &[u8]) -> f64 {
    let start = Instant::now();
    counted_round(side, text);
    start.elapsed().as_nanos() as f64 / calls(text) as f64
}

/// The best time of each side.
fn times(text: &[u8]) -> [f64; 3] {
    let mut best = [f64::INFINITY; 3];
    let start = Instant::now();
    for _ in 0..MOST_ROUNDS {
        for (best, (_, side)) in best.iter_mut().zip(SIDES) {
            *best = best.min(round_time(side, text));
        }
        if start.elapsed() > ROUNDS_TIME {
            break;
        }
    }
    best
}

/// A round of each side, one after another.
fn count(text: &[u8]) -> [f64; 3] {
    SIDES.map(|(_, side)| {
        counted_round(side, text);
        0.0
    })
}

fn bench(measure: fn(&[u8]) -> [f64; 3]) -> ExitCode {
    println!("{:<12}{:>8}{:>8}{:>14}{:>14}{:>14}", "set", "bytes", "inputs", SIDES[0].0, SIDES[1].0, SIDES[2].0);
    for (name, text) in texts() {
        let [ours, theirs, others] = SIDES.map(|(_, side)| side(&text, room(&text)));
        if ours != theirs || ours != others {
            println!("{name}: the sides do not agree");
            return ExitCode::from(1);
        }
        let [ours, theirs, others] = measure(&text);
        println!("{name:<12}{:>8}{:>8}{ours:>14.1}{theirs:>14.1}{others:>14.1}", text.len(), calls(&text));
    }
    ExitCode::SUCCESS
}

fn main() -> ExitCode {
    // SAFETY: the text ends in a zero byte, and no other thread is there.
    if unsafe { setlocale(0, c"C.UTF-8".as_ptr()) }.is_null() {
        eprintln!("there is no locale C.UTF-8");
        return ExitCode::from(3);
    }
    match std::env::args().skip(1).collect::<Vec<_>>().as_slice() {
        [] => bench(times),
        [word] if word == "count" => bench(count),
        _ => {
            eprintln!("usage: cut [count]");
            ExitCode::from(2)
        }
    }
}
