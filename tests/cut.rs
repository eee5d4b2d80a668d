//! `rigcactus_cut` against `std::str::from_utf8` and `is_char_boundary`.

use crate::lent::{Fenced, Guarded};
use crate::random::Random;
use crate::refusals::{NOT_UTF8, TOO_LONG};
use crate::Options;

extern "C" {
    fn rigcactus_cut(text: *const u8, text_len: usize, room: u64) -> u64;
}

const MOST_BYTES: usize = 16_384;

/// The longest text that is made, in bytes.
const LONGEST: usize = MOST_BYTES + 8;

/// Differences that are printed, at most.
const PRINTED: u64 = 10;

fn cut(text: &[u8], room: u64) -> u64 {
    // SAFETY: the pointer and the length are those of a slice, and the service writes nothing.
    unsafe { rigcactus_cut(text.as_ptr(), text.len(), room) }
}

/// What the standard library says of a text.
enum Judged<'a> {
    Text(&'a str),
    Refused(u64),
}

fn judge(bytes: &[u8]) -> Judged<'_> {
    if bytes.len() > MOST_BYTES {
        return Judged::Refused(TOO_LONG);
    }
    match std::str::from_utf8(bytes) {
        Ok(text) => Judged::Text(text),
        Err(_) => Judged::Refused(NOT_UTF8),
    }
}

/// The answer that is due.
fn answer(judged: &Judged, room: u64) -> u64 {
    match judged {
        Judged::Refused(number) => *number,
        Judged::Text(text) => {
            let mut length = usize::try_from(room).unwrap_or(usize::MAX).min(text.len());
            while !text.is_char_boundary(length) {
                length -= 1;
            }
            length as u64 * 256
        }
    }
}

/// The answer that is due to a text and a room.
pub fn due(text: &[u8], room: u64) -> u64 {
    answer(&judge(text), room)
}

/// Counts of answers, by kind. Only answers that were due are counted here.
#[derive(Default)]
struct Counts {
    texts: u64,
    whole: u64,
    at_the_room: u64,
    before_the_room: u64,
    too_long: u64,
    not_utf8: u64,
    differences: u64,
}

impl Counts {
    fn add(&mut self, text: &[u8], room: u64, due: u64) {
        let count = match due {
            TOO_LONG => &mut self.too_long,
            NOT_UTF8 => &mut self.not_utf8,
            _ if due == text.len() as u64 * 256 => &mut self.whole,
            _ if due / 256 == room => &mut self.at_the_room,
            _ => &mut self.before_the_room,
        };
        *count += 1;
    }

    fn kinds(&self) -> [(&'static str, u64); 5] {
        [
            ("accepted, the whole text kept", self.whole),
            ("accepted, cut at the room", self.at_the_room),
            ("accepted, cut before the room", self.before_the_room),
            ("refused, TOO LONG (2)", self.too_long),
            ("refused, NOT UTF-8 (3)", self.not_utf8),
        ]
    }

    fn print(&self, what: &str) {
        println!("cut: {what}");
        println!("  {:<32}{:>12}", "texts", self.texts);
        let mut calls = self.differences;
        for (kind, count) in self.kinds() {
            println!("  {kind:<32}{count:>12}");
            calls += count;
        }
        println!("  {:<32}{calls:>12}", "calls");
        println!("  {:<32}{:>12}", "differences", self.differences);
    }
}

/// Where texts are tried, and what came of it.
struct Trial {
    guarded: Guarded,
    fenced: Fenced,
    counts: Counts,
}

impl Trial {
    fn new() -> Trial {
        Trial { guarded: Guarded::new(LONGEST), fenced: Fenced::new(LONGEST), counts: Counts::default() }
    }

    fn differ(&mut self, text: &[u8], room: u64, what: &str) {
        self.counts.differences += 1;
        if self.counts.differences <= PRINTED {
            let shown: Vec<String> = text.iter().take(64).map(|b| format!("{b:02X}")).collect();
            let more = if text.len() > 64 { " .." } else { "" };
            eprintln!("cut: {} bytes [{}{more}], room {room}: {what}", text.len(), shown.join(" "));
        }
    }

    fn compare(&mut self, text: &[u8], room: u64, got: u64, due: u64) {
        if got == due {
            self.counts.add(text, room, due);
        } else {
            self.differ(text, room, &format!("answered {got}, due is {due}"));
        }
    }

    /// Tries a text at some rooms, between guards.
    fn guard(&mut self, text: &[u8], rooms: impl Iterator<Item = u64>, shift: usize, guard: u8) {
        self.guarded.place(text, shift, guard);
        self.counts.texts += 1;
        let judged = judge(text);
        for room in rooms {
            let got = cut(self.guarded.bytes(), room);
            self.compare(text, room, got, answer(&judged, room));
        }
        if !self.guarded.is_unchanged(text) {
            self.differ(text, 0, "the text or a guard byte was changed");
        }
    }

    /// Tries a short text at every room, or, where it is to be refused, at none and at one that holds it.
    fn short(&mut self, text: &[u8]) {
        let most = text.len() as u64 + 1;
        let step = if matches!(judge(text), Judged::Text(_)) { 1 } else { most as usize };
        self.guard(text, (0..=most).step_by(step), text.len(), 0x80);
    }

    /// Tries a text once at each fence, and in memory of just its size, where a memory checker sees a read beside it.
    fn fence(&mut self, text: &[u8], room: u64) {
        let due = due(text, room);
        let first = cut(self.fenced.place_first(text), room);
        let last = cut(self.fenced.place_last(text), room);
        let alone = cut(&Box::<[u8]>::from(text), room);
        for got in [first, last, alone] {
            self.compare(text, room, got, due);
        }
    }
}

// ---- Rooms ---------------------------------------------------------------------------------------------------------

/// Rooms that no text fills, some of them the same as a small one in 32 bits or in 56.
const FAR: [u64; 7] = [16_385, 1 << 32, (1 << 32) + 1, 1 << 56, (1 << 56) + 2, 1 << 63, u64::MAX];

/// The rooms for a text: every one, for a short text; for a long one those near its ends and near some places inside.
fn rooms(text: &[u8], random: &mut Random) -> Vec<u64> {
    let length = text.len() as u64;
    let mut rooms: Vec<u64> = FAR.to_vec();
    if matches!(judge(text), Judged::Refused(_)) {
        rooms.extend([0, 1, length / 2, length - 1, length, length + 1]);
    } else if length <= 512 {
        rooms.extend(0..=length + 2);
    } else {
        let mut near = |place: u64| rooms.extend(place.saturating_sub(5)..=place + 5);
        near(0);
        near(length);
        for _ in 0..24 {
            near(random.below(text.len()) as u64);
        }
    }
    rooms
}

// ---- Texts ---------------------------------------------------------------------------------------------------------

/// The first and the last character of each row of the table of lead bytes.
const EDGES: [char; 18] = [
    '\0', '\u{7F}', '\u{80}', '\u{7FF}', '\u{800}', '\u{FFF}', '\u{1000}', '\u{CFFF}', '\u{D000}', '\u{D7FF}', '\u{E000}',
    '\u{FFFF}', '\u{10000}', '\u{3FFFF}', '\u{40000}', '\u{FFFFF}', '\u{100000}', '\u{10FFFF}',
];

/// Bytes at which a range of that table begins or ends.
const BYTES: [u8; 26] = [
    0x00, 0x61, 0x7F, 0x80, 0x8F, 0x90, 0x9F, 0xA0, 0xBF, 0xC0, 0xC1, 0xC2, 0xDF, 0xE0, 0xE1, 0xEC, 0xED, 0xEE, 0xEF, 0xF0, 0xF1,
    0xF3, 0xF4, 0xF5, 0xF8, 0xFF,
];

/// A character of one to four bytes.
fn character(random: &mut Random, width: usize) -> char {
    let (first, last) = [(0, 0x7F), (0x80, 0x7FF), (0x800, 0xFFFF), (0x10000, 0x10FFFF)][width - 1];
    loop {
        if let Some(c) = char::from_u32(random.from(first, last) as u32) {
            return c;
        }
    }
}

/// A text of whole characters, as long as asked.
fn whole_text(random: &mut Random, length: usize) -> Vec<u8> {
    let kind = random.below(7);
    let stranger = random.below(length + 1);
    let mut text = Vec::with_capacity(length + 4);
    while text.len() < length {
        let c = match kind {
            0..=3 => character(random, kind + 1),
            4 => random.one_of(&EDGES),
            // ASCII with one other character in it.
            5 if text.len() == stranger => character(random, 4),
            5 => character(random, 1),
            _ => {
                let width = random.from(1, 4);
                character(random, width)
            }
        };
        // The last bytes are ASCII where the character would be too long.
        if text.len() + c.len_utf8() > length {
            text.push(b'a');
        } else {
            text.extend(c.encode_utf8(&mut [0; 4]).bytes());
        }
    }
    text
}

/// Changes a text in one place, keeping its length in most ways.
fn damage(random: &mut Random, text: &mut Vec<u8>) {
    if text.is_empty() {
        return;
    }
    let at = random.below(text.len());
    match random.below(7) {
        0 => text[at] = random.byte(),
        1 => text[at] = random.one_of(&BYTES),
        2 => text[at] ^= 1 << random.below(8),
        3 => text.swap(at, 0),
        4 => text.insert(at, random.one_of(&BYTES)),
        5 => drop(text.remove(at)),
        _ => text.truncate(at),
    }
}

fn length(random: &mut Random) -> usize {
    match random.below(1000) {
        0 => random.from(MOST_BYTES - 4, MOST_BYTES + 4),
        1 => random.from(401, MOST_BYTES),
        2..=99 => random.from(97, 400),
        100..=399 => random.from(0, 96),
        _ => random.from(0, 24),
    }
}

/// A text: whole, damaged, or bytes without a plan.
pub fn text(random: &mut Random) -> Vec<u8> {
    let length = length(random);
    match random.below(10) {
        0 => (0..length).map(|_| random.byte()).collect(),
        1 => (0..length).map(|_| random.one_of(&BYTES)).collect(),
        2..=4 => {
            let mut text = whole_text(random, length);
            damage(random, &mut text);
            while random.once_in(4) {
                damage(random, &mut text);
            }
            text
        }
        _ => whole_text(random, length),
    }
}

// ---- The trials ----------------------------------------------------------------------------------------------------

/// What guards are made of: a tail byte, which would complete a character that the text's end cuts, a letter, and bytes that stand in
/// no text.
const GUARDS: [u8; 4] = [0x80, b'a', 0xFF, 0xC3];

/// Texts made from a seed.
fn made_texts(options: &Options) -> Counts {
    let mut random = Random::new(options.seed);
    let mut trial = Trial::new();
    for _ in 0..options.cases {
        let text = text(&mut random);
        let rooms = rooms(&text, &mut random);
        let some_room = random.one_of(&rooms);
        trial.guard(&text, rooms.into_iter(), random.below(64), random.one_of(&GUARDS));
        trial.fence(&text, some_room);
    }
    trial.counts
}

/// Every text of up to three bytes, and those of four whose last two are among some bytes.
fn short_texts() -> Counts {
    let mut trial = Trial::new();
    let some = [0x00, 0x7F, 0x80, 0x81, 0xBE, 0xBF, 0xC0, 0xFF];
    trial.short(&[]);
    for a in 0..=255 {
        trial.short(&[a]);
        for b in 0..=255 {
            trial.short(&[a, b]);
            for c in 0..=255 {
                trial.short(&[a, b, c]);
            }
            for c in some {
                for d in some {
                    trial.short(&[a, b, c, d]);
                }
            }
        }
    }
    trial.counts
}

/// Whether the service and the standard library agree.
pub fn run(options: &Options) -> bool {
    let made = made_texts(options);
    made.print(&format!("{} texts made from seed {}", options.cases, options.seed));
    let mut alike = made.differences == 0;
    // A run of some size that never gave one of the answers has not tried what it should.
    if options.cases >= 100_000 {
        for (kind, count) in made.kinds() {
            if count == 0 {
                println!("cut: no answer was '{kind}'");
                alike = false;
            }
        }
    }
    if !options.only_made {
        let short = short_texts();
        short.print("every text of 0 to 3 bytes, and texts of 4");
        alike &= short.differences == 0;
    }
    alike
}
