//! `rigcactus_list` against a second lister of sets of times (places.rs).

use crate::lent::{Fenced, Guarded};
use crate::places::{self, Listed, Stretch, MOST_INTERVALS, STRETCH_BYTES};
use crate::random::Random;
use crate::records::{Maker, LONGEST};
use crate::refusals::{
    self, ACCEPTED, CLOCK, DATE, MARKUP, NOT_UTF8, NO_ROOM, NUMBERS, OFFSET, RULE, SHAPE, TOO_LONG, TOO_MANY, TYPE, UNKNOWN_BOUND, VALUE, ZONE,
};
use crate::table;
use crate::tick::{agreed_offset, Calendar};
use crate::units;
use crate::Options;

/// Whether the library has the service. Where it has not, the second lister answers for it, and only the table and the shares are tried.
const HAS_SERVICE: bool = cfg!(rigcactus_list);

#[cfg(rigcactus_list)]
fn list(record: &[u8], offset: i64, list: &mut [u8], _: &Listed) -> u64 {
    extern "C" {
        fn rigcactus_list(record: *const u8, record_len: usize, offset: i64, list: *mut u8, list_len: usize) -> u64;
    }
    // SAFETY: the pointers and the lengths are those of slices, of which one can be written and is no part of the other.
    unsafe { rigcactus_list(record.as_ptr(), record.len(), offset, list.as_mut_ptr(), list.len()) }
}

#[cfg(not(rigcactus_list))]
fn list(_: &[u8], _: i64, list: &mut [u8], listed: &Listed) -> u64 {
    list.copy_from_slice(&listed.after(list));
    listed.answer(list.len())
}

/// Differences that are printed, at most.
const PRINTED: u64 = 10;

/// What guards are made of: bytes that would go on with a record, and one that stands in none.
const GUARDS: [u8; 6] = [b' ', b'>', b'"', b'a', 0x80, 0xFF];

/// The longest list that is lent, in bytes.
const LONGEST_LIST: usize = 8192;

/// The answers there are; of a thousand, how many at least are to be each.
const LEAST_SHARES: [(u64, u64); 15] = [
    (ACCEPTED, 350),
    (OFFSET, 8),
    (TOO_LONG, 3),
    (NOT_UTF8, 2),
    (MARKUP, 20),
    (TYPE, 40),
    (SHAPE, 15),
    (VALUE, 15),
    (DATE, 20),
    (CLOCK, 12),
    (ZONE, 8),
    (RULE, 15),
    (UNKNOWN_BOUND, 60),
    (TOO_MANY, 15),
    (NO_ROOM, 90),
];

/// Of a thousand accepted records, how many at least are to be of each kind.
const KINDS: [(&str, u64); 14] = [
    ("no stretch", 150),
    ("one stretch", 300),
    ("2 to 7 stretches", 120),
    ("8 to 31 stretches", 20),
    ("32 stretches", 2),
    ("as many stretches as intervals", 120),
    ("room for no more", 250),
    ("a length that is no multiple of 32", 300),
    ("8 levels", 100),
    ("an end without a bound", 200),
    ("a single instant", 60),
    ("a single gap", 30),
    ("stretches that a gap parts", 25),
    ("stretches that an instant parts", 40),
];

// ---- Counting and comparing ----------------------------------------------------------------------------------------

/// Counts of answers, by number, and of accepted records by kind. Only answers that were due are counted here.
#[derive(Default)]
struct Counts {
    calls: u64,
    by_number: [u64; NUMBERS],
    by_kind: [u64; KINDS.len()],
    by_bounds: units::Counts,
    below_zero: u64,
    differences: u64,
}

/// Of which kinds an accepted record is, in the order of `KINDS`.
fn kinds(listed: &Listed, length: usize) -> [bool; KINDS.len()] {
    let stretches = &listed.stretches;
    let top = listed.tree.as_ref().unwrap();
    let one = |holds: fn(&Stretch) -> bool| stretches.iter().any(holds);
    let two = |holds: fn(&Stretch, &Stretch) -> bool| stretches.windows(2).any(|pair| holds(&pair[0], &pair[1]));
    [
        stretches.is_empty(),
        stretches.len() == 1,
        (2..=7).contains(&stretches.len()),
        (8..=31).contains(&stretches.len()),
        stretches.len() == MOST_INTERVALS,
        stretches.len() == places::intervals(top),
        stretches.len() == length / STRETCH_BYTES,
        length % STRETCH_BYTES != 0,
        top.depth() == 8,
        one(|s| s[0] == 0 || s[2] == 0),
        one(|s| s[0] == 2 && s[2] == 2 && s[1] == s[3]),
        one(|s| s[0] == 1 && s[2] == 1 && s[1] + 1 == s[3]),
        two(|a, b| a[2] == 2 && b[0] == 2 && a[3] + 1 == b[1]),
        two(|a, b| a[2] == 1 && b[0] == 1 && a[3] == b[1]),
    ]
}

impl Counts {
    fn add(&mut self, listed: &Listed, length: usize, offset: i64, calendar: &Calendar) {
        let number = (listed.answer(length) & 0xFF) as usize;
        self.by_number[number] += 1;
        if let Some(tree) = &listed.tree {
            self.by_bounds.add(number as u64, tree, offset, calendar);
        }
        if number == 0 {
            for (count, is_so) in self.by_kind.iter_mut().zip(kinds(listed, length)) {
                *count += u64::from(is_so);
            }
            self.below_zero += u64::from(listed.stretches.iter().any(|s| s[1] < 0 || s[3] < 0));
        }
    }

    fn print(&self, what: &str) {
        println!("list: {what}");
        println!("  {:<46}{:>12}", "calls", self.calls);
        for (number, _) in LEAST_SHARES {
            println!("  {:<46}{:>12}", refusals::name(number), self.by_number[number as usize]);
        }
        for ((kind, _), count) in KINDS.iter().zip(self.by_kind) {
            println!("  {:<46}{count:>12}", format!("accepted, {kind}"));
        }
        for (kind, count) in self.by_bounds.rows() {
            println!("  {kind:<46}{count:>12}");
        }
        println!("  {:<46}{:>12}", "accepted, a tick below 0", self.below_zero);
        println!("  {:<46}{:>12}", "differences", self.differences);
    }

    /// Whether every number and kind occurred in good measure. A run that hardly gave some answer has not tried what it should.
    fn is_broad(&self) -> bool {
        let mut broad = self.below_zero > 0;
        for (number, least) in LEAST_SHARES {
            if self.by_number[number as usize] * 1000 < self.calls * least {
                println!("list: under {least} of 1000 answers were {}", refusals::name(number));
                broad = false;
            }
        }
        for ((kind, least), count) in KINDS.iter().zip(self.by_kind) {
            if count * 1000 < self.by_number[0] * least {
                println!("list: under {least} of 1000 accepted records had {kind}");
                broad = false;
            }
        }
        for (kind, least) in self.by_bounds.rare(self.calls) {
            println!("list: under {least} of 1000000 calls were {kind}");
            broad = false;
        }
        broad
    }
}

/// Where records are tried, and what came of it.
struct Trial {
    calendar: Calendar,
    guarded: Guarded,
    guarded_list: Guarded,
    fenced: Fenced,
    fenced_list: Fenced,
    /// What lists are filled with before: bytes without a plan.
    pattern: Vec<u8>,
    counts: Counts,
}

impl Trial {
    fn new(random: &mut Random) -> Trial {
        Trial {
            calendar: Calendar::new(),
            guarded: Guarded::new(LONGEST),
            guarded_list: Guarded::new(LONGEST_LIST),
            fenced: Fenced::new(LONGEST),
            fenced_list: Fenced::new(LONGEST_LIST),
            pattern: (0..2 * LONGEST_LIST).map(|_| random.byte()).collect(),
            counts: Counts::default(),
        }
    }

    fn differ(&mut self, record: &[u8], offset: i64, length: usize, what: &str) {
        self.counts.differences += 1;
        if self.counts.differences <= PRINTED {
            let more = if record.len() > 4000 { " .." } else { "" };
            let shown = record[..record.len().min(4000)].escape_ascii();
            eprintln!("list: {} bytes [{shown}{more}], offset {offset}, a list of {length} bytes: {what}", record.len());
        }
    }

    /// Tries a record with two lists.
    fn attempt(&mut self, record: &[u8], offset: i64, random: &mut Random) {
        let listed = places::list(record, offset, &self.calendar);
        self.attempt_list(record, offset, &listed, random);
        self.attempt_list(record, offset, &listed, random);
    }

    /// Tries a record and a list between guards, or at fences, or in memory of just their sizes, where a memory checker sees a read or a
    /// write beside it.
    fn attempt_list(&mut self, record: &[u8], offset: i64, listed: &Listed, random: &mut Random) {
        self.counts.calls += 1;
        let length = length_of_list(random, listed);
        let start = random.below(LONGEST_LIST);
        let before = self.pattern[start..start + length].to_vec();
        let due_after = listed.after(&before);
        let (answer, is_due_after) = match random.below(8) {
            0 => {
                let lent = self.fenced_list.place_first(&before);
                (list(self.fenced.place_first(record), offset, lent, listed), *lent == due_after[..])
            }
            1 => {
                let lent = self.fenced_list.place_last(&before);
                (list(self.fenced.place_last(record), offset, lent, listed), *lent == due_after[..])
            }
            2 => {
                let mut lent = Box::<[u8]>::from(&before[..]);
                (list(&Box::<[u8]>::from(record), offset, &mut lent, listed), *lent == due_after[..])
            }
            _ => {
                self.guarded.place(record, random.below(64), random.one_of(&GUARDS));
                self.guarded_list.place(&before, random.below(64), random.byte());
                let answer = list(self.guarded.bytes(), offset, self.guarded_list.bytes_mut(), listed);
                if !self.guarded.is_unchanged(record) {
                    self.differ(record, offset, length, "the record or a guard byte was changed");
                }
                (answer, self.guarded_list.is_unchanged(&due_after))
            }
        };
        let due = listed.answer(length);
        if answer != due {
            self.differ(record, offset, length, &format!("answered {answer}, due is {due}"));
        } else if !is_due_after {
            self.differ(record, offset, length, "the list, or a byte beside it, is not what is due");
        } else {
            self.counts.add(listed, length, offset, &self.calendar);
        }
    }
}

/// The length of a list, in bytes: with room for none, one less than there are, as many, one more, or any.
fn length_of_list(random: &mut Random, listed: &Listed) -> usize {
    let stretches = listed.stretches.len();
    let room = match random.below(16) {
        0 => 0,
        1..=3 => stretches.saturating_sub(1),
        4..=7 => stretches,
        8..=10 => stretches + 1,
        11 => random.below(LONGEST_LIST / STRETCH_BYTES),
        _ => random.below(MOST_INTERVALS + 4),
    };
    let rest = match random.below(4) {
        0 => 31,
        1 => random.below(STRETCH_BYTES),
        _ => 0,
    };
    room * STRETCH_BYTES + rest
}

// ---- The trials ----------------------------------------------------------------------------------------------------

/// The numbers that a table writes.
fn stretches_of(text: &str) -> Vec<Stretch> {
    if text == "-" {
        return Vec::new();
    }
    let numbers: Vec<i64> = text.split(',').map(|number| number.parse().unwrap()).collect();
    numbers.chunks(4).map(|stretch| stretch.try_into().unwrap()).collect()
}

/// The records of tests/records/list.txt: the second lister and the service are to give what stands there.
fn stored_records() -> bool {
    let calendar = Calendar::new();
    let (mut count, mut alike) = (0, true);
    for (number, line) in table::lines(include_str!("records/list.txt")) {
        let words: Vec<&str> = line.splitn(5, ' ').collect();
        let refusal: u64 = words[0].parse().unwrap();
        let offset: i64 = words[1].parse().unwrap();
        let before = vec![0xA5; words[2].parse().unwrap()];
        let stretches = stretches_of(words[3]);
        let record = table::bytes(words[4]);

        let answer = if refusal == 0 { (stretches.len() as u64) << 8 } else { refusal };
        let numbers: Vec<u8> = stretches.iter().flatten().flat_map(|number| number.to_le_bytes()).collect();
        let mut after = before.clone();
        after[..numbers.len()].copy_from_slice(&numbers);

        let listed = places::list(&record, offset, &calendar);
        let mut lent = before.clone();
        let given = list(&record, offset, &mut lent, &listed);
        let second = listed.answer(before.len());
        if (given, second) != (answer, answer) {
            eprintln!("tests/records/list.txt:{number}: answered {given}, the second lister says {second}, due is {answer}");
            alike = false;
        } else if lent != after || listed.after(&before) != after {
            eprintln!("tests/records/list.txt:{number}: the list is not what is due; the second lister says {:?}", listed.stretches);
            alike = false;
        }
        count += 1;
    }
    println!("list: {count} stored records");
    alike
}

/// Records made from a seed, half as many as calls.
fn made_records(options: &Options) -> Counts {
    let mut random = Random::new(options.seed);
    let mut trial = Trial::new(&mut random);
    for _ in 0..options.cases / 2 {
        let offset = match random.below(8) {
            0 => agreed_offset(&mut random),
            1 => random.one_of(&[-840, 840]),
            2 => random.from(0, 1680) as i64 - 840,
            _ => 0,
        };
        let record = Maker { random: &mut random, offset, calendar: &trial.calendar }.record_to_list();
        trial.attempt(&record, offset, &mut random);
    }
    trial.counts
}

/// Whether the service and the second lister agree.
pub fn run(options: &Options) -> bool {
    if !HAS_SERVICE {
        println!("list: the library has no such service, and the second lister is tried alone");
    }
    let mut alike = stored_records();
    let made = made_records(options);
    made.print(&format!("{} records made from seed {}, each with two lists", options.cases / 2, options.seed));
    alike &= made.differences == 0;
    if options.cases >= 100_000 {
        alike &= made.is_broad();
    }
    alike
}
