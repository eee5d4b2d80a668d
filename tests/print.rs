//! `rigcactus_print` against a second printer of lists (printed.rs).

use std::collections::BTreeSet;

use crate::lent::{Fenced, Guarded};
use crate::lists::{self, LAST_TICK};
use crate::places::{Stretch, STRETCH_BYTES};
use crate::printed::{self, Dates, Fault, Printed, MOST_STRETCHES};
use crate::random::Random;
use crate::records::Maker;
use crate::series::{self, TICKS_IN_A_DAY, TICKS_IN_A_SECOND};
use crate::table;
use crate::tally::Counts;
use crate::tick::Calendar;
use crate::Options;

/// Whether the library has the service. Where it has not, the second printer answers for it, and only the table and the shares are tried.
const HAS_SERVICE: bool = cfg!(rigcactus_print);

#[cfg(rigcactus_print)]
fn print(list: &[u8], record: &mut [u8], _: &Printed) -> u64 {
    extern "C" {
        fn rigcactus_print(list: *const u8, list_len: usize, record: *mut u8, record_len: usize) -> u64;
    }
    // SAFETY: the pointers and the lengths are those of slices, of which one can be written and is no part of the other.
    unsafe { rigcactus_print(list.as_ptr(), list.len(), record.as_mut_ptr(), record.len()) }
}

#[cfg(not(rigcactus_print))]
fn print(_: &[u8], record: &mut [u8], printed: &Printed) -> u64 {
    record.copy_from_slice(&printed.after(record));
    printed.answer(record.len())
}

extern "C" {
    fn rigcactus_check(record: *const u8, record_len: usize, offset: i64) -> u64;
    fn rigcactus_list(record: *const u8, record_len: usize, offset: i64, list: *mut u8, list_len: usize) -> u64;
}

/// What checking a record answers, what listing it does, and the list.
fn check_and_list(record: &[u8], offset: i64) -> (u64, u64, Vec<u8>) {
    let mut list = vec![0xA5; MOST_STRETCHES * STRETCH_BYTES];
    // SAFETY: the pointers and the lengths are those of slices, of which one can be written and is no part of the other.
    let (checked, listed) = unsafe {
        let checked = rigcactus_check(record.as_ptr(), record.len(), offset);
        (checked, rigcactus_list(record.as_ptr(), record.len(), offset, list.as_mut_ptr(), list.len()))
    };
    list.truncate((listed >> 8) as usize * STRETCH_BYTES);
    (checked, listed, list)
}

/// Differences that are printed, at most.
const PRINTED: u64 = 10;

/// How many bytes of a list are shown where there is a difference, at most.
const LONGEST_SHOWN: usize = 41 * STRETCH_BYTES;

/// What guards are made of: bytes of kinds and ticks.
const GUARDS: [u8; 5] = [0, 1, 2, 0x80, 0xFF];

/// The longest list that is tried, in bytes, and the longest record that is lent.
const LONGEST_LIST: usize = 65_537 * STRETCH_BYTES;
const LONGEST_RECORD: usize = 8192;

/// The bytes of a record around its terms, and the most that a term has.
const AROUND: usize = 31;
const TERM: usize = 147;

/// Agreed offsets that a record is read back under. It says its own, so that none changes anything.
const OFFSETS: [i64; 5] = [-840, -1, 0, 60, 840];

// ---- Comparing -----------------------------------------------------------------------------------------------------

/// Where lists are tried, and what came of it.
struct Trial {
    dates: Dates,
    guarded: Guarded,
    guarded_record: Guarded,
    fenced: Fenced,
    fenced_record: Fenced,
    /// What lent records are filled with before: bytes without a plan.
    pattern: Vec<u8>,
    counts: Counts,
}

impl Trial {
    fn new(random: &mut Random) -> Trial {
        Trial {
            dates: Dates::new(),
            guarded: Guarded::new(LONGEST_LIST),
            guarded_record: Guarded::new(LONGEST_RECORD),
            fenced: Fenced::new(LONGEST_LIST),
            fenced_record: Fenced::new(LONGEST_RECORD),
            pattern: (0..2 * LONGEST_RECORD).map(|_| random.byte()).collect(),
            counts: Counts::default(),
        }
    }

    fn differ(&mut self, list: &[u8], what: &str) {
        self.counts.differences += 1;
        if self.counts.differences <= PRINTED {
            let shown = printed::stretches(&list[..list.len().min(LONGEST_SHOWN)]);
            eprintln!("print: a list of {} bytes {shown:?}, {what}", list.len());
        }
    }

    /// Tries a list with a record of some length, and reads back what is printed of it.
    fn attempt(&mut self, list: &[u8], random: &mut Random) {
        let printed = printed::print(list, &self.dates);
        let length = length_of_record(random, list, &printed);
        self.attempt_record(list, &printed, length, random);
        if printed.faults.is_empty() {
            let any = random.from(0, 1680) as i64 - 840;
            let offset = if random.once_in(4) { any } else { random.one_of(&OFFSETS) };
            self.read_back(list, &printed.record, offset);
        }
    }

    /// Tries a list with room for its record, if it has one, and reads it back; of the longest ones, one in many.
    fn attempt_with_room(&mut self, list: &[u8], random: &mut Random) {
        let printed = printed::print(list, &self.dates);
        let length = printed.record.len() + random.one_of(&[0, 0, 1, 1000]);
        self.attempt_record(list, &printed, length, random);
        if printed.faults.is_empty() && (list.len() < MOST_STRETCHES * STRETCH_BYTES || random.once_in(32)) {
            self.read_back(list, &printed.record, random.one_of(&OFFSETS));
        }
    }

    /// Tries a list and a record between guards, or at fences, or in memory of just their sizes, where a memory checker sees a read or a
    /// write beside it.
    fn attempt_record(&mut self, list: &[u8], printed: &Printed, length: usize, random: &mut Random) {
        self.counts.calls += 1;
        let start = random.below(LONGEST_RECORD);
        let before = self.pattern[start..start + length].to_vec();
        let due_after = printed.after(&before);
        let (answer, is_due_after) = match random.below(8) {
            0 => {
                let lent = self.fenced_record.place_first(&before);
                (print(self.fenced.place_first(list), lent, printed), *lent == due_after[..])
            }
            1 => {
                let lent = self.fenced_record.place_last(&before);
                (print(self.fenced.place_last(list), lent, printed), *lent == due_after[..])
            }
            2 => {
                let mut lent = Box::<[u8]>::from(&before[..]);
                (print(&Box::<[u8]>::from(list), &mut lent, printed), *lent == due_after[..])
            }
            _ => {
                self.guarded.place(list, random.below(64), random.one_of(&GUARDS));
                self.guarded_record.place(&before, random.below(64), random.byte());
                let answer = print(self.guarded.bytes(), self.guarded_record.bytes_mut(), printed);
                if !self.guarded.is_unchanged(list) {
                    self.differ(list, "a byte of it or a guard byte was changed");
                }
                (answer, self.guarded_record.is_unchanged(&due_after))
            }
        };
        let due = printed.answer(length);
        if answer != due {
            self.differ(list, &format!("a record of {length} bytes: answered {answer}, due is {due}, {:?}", printed.faults));
        } else if !is_due_after {
            self.differ(list, &format!("a record of {length} bytes: it, or a byte beside it, is not what is due"));
        } else {
            self.counts.add(list, printed, length, &self.dates);
        }
    }

    /// A record that was printed is accepted, and listing it gives the list back.
    fn read_back(&mut self, list: &[u8], record: &[u8], offset: i64) {
        self.counts.read_back += 1;
        let (checked, listed, again) = check_and_list(record, offset);
        let due = ((list.len() / STRETCH_BYTES) as u64) << 8;
        if (checked, listed) != (0, due) || again != list {
            let again = printed::stretches(&again);
            self.differ(list, &format!("read back under offset {offset}: checked {checked}, listed {listed}, {again:?}"));
        }
    }
}

/// The length of a lent record: about that of the record, or of what it could be, or none, or any.
fn length_of_record(random: &mut Random, list: &[u8], printed: &Printed) -> usize {
    let length = match printed.faults.is_empty() {
        true => printed.record.len(),
        false => (AROUND + list.len() / STRETCH_BYTES * TERM).min(LONGEST_RECORD - 2),
    };
    match random.below(16) {
        0 => 0,
        1 => length - 2,
        2..=4 => length - 1,
        5..=8 => length,
        9..=10 => length + 1,
        11 => length + 2,
        12..=13 => random.below(length),
        14 => LONGEST_RECORD,
        _ => random.below(LONGEST_RECORD),
    }
}

// ---- The trials ----------------------------------------------------------------------------------------------------

/// The lists of tests/records/print.txt: the second printer and the service are to give what stands there. What is printed is read back.
fn stored_lists() -> bool {
    let mut random = Random::new(1);
    let mut trial = Trial::new(&mut random);
    let (mut count, mut alike) = (0, true);
    for (number, line) in table::lines(include_str!("records/print.txt")) {
        let words: Vec<&str> = line.splitn(4, ' ').collect();
        let refusal: u64 = words[0].parse().unwrap();
        let length: usize = words[1].parse().unwrap();
        let (list, record) = (table::list(words[2]), words[3].as_bytes());

        let printed = printed::print(&list, &trial.dates);
        let answer = if refusal == 0 { (record.len() as u64) << 8 } else { refusal };
        if printed.answer(length) != answer || refusal == 0 && printed.record != record {
            eprintln!("tests/records/print.txt:{number}: due is {answer}, the second printer says {}", printed.answer(length));
            alike = false;
        }
        for _ in 0..16 {
            trial.attempt_record(&list, &printed, length, &mut random);
        }
        if refusal == 0 {
            OFFSETS.iter().for_each(|offset| trial.read_back(&list, record, *offset));
        }
        count += 1;
    }
    println!("print: {count} stored lists");
    alike && trial.counts.differences == 0
}

/// Lists made from a seed.
fn made_lists(options: &Options) -> Counts {
    let mut random = Random::new(options.seed);
    let mut trial = Trial::new(&mut random);
    for _ in 0..options.cases {
        let list = lists::list(&mut random);
        trial.attempt(&list, &mut random);
    }
    trial.counts
}

/// What listing writes is printed, or has a tick outside years 0001 to 9999: of records made from a seed, one for ten cases.
fn listed_records(options: &Options) -> bool {
    let mut random = Random::new(options.seed);
    let mut trial = Trial::new(&mut random);
    let calendar = Calendar::new();
    let [mut in_years, mut outside] = [0; 2];
    for _ in 0..options.cases / 10 {
        let offset = random.one_of(&OFFSETS);
        let record = Maker { random: &mut random, offset, calendar: &calendar }.record_to_list();
        let (_, listed, list) = check_and_list(&record, offset);
        if listed & 0xFF != 0 {
            continue;
        }
        let faults = printed::print(&list, &trial.dates).faults;
        if faults.iter().any(|fault| *fault != Fault::OutsideYears) {
            trial.differ(&list, &format!("which was listed, is improper: {faults:?}"));
        }
        *if faults.is_empty() { &mut in_years } else { &mut outside } += 1;
        trial.attempt(&list, &mut random);
    }
    println!("print: {in_years} lists of made records, and {outside} with a tick outside years 0001 to 9999");
    println!("  {:<52}{:>12}", "differences", trial.counts.differences);
    trial.counts.differences == 0 && (options.cases < 100_000 || in_years > 0 && outside > 0)
}

/// Every short list of bounds side by side, about the years' ends and those of all numbers too.
fn short_lists() -> Counts {
    let mut random = Random::new(2);
    let mut trial = Trial::new(&mut random);
    let mut attempt = |stretches: &[Stretch]| trial.attempt_with_room(&lists::bytes(stretches), &mut random);
    for first in [-2, -1, 3, LAST_TICK - 1, i64::MIN, i64::MAX - 3] {
        let bounds = [&series::neighbours(first, 4)[..], &series::bad_bounds(first + 1)].concat();
        (1..=2).for_each(|count| series::every_list(&bounds, count, &mut attempt));
    }
    series::every_list(&series::neighbours(3, 3), 3, &mut attempt);
    series::every_list(&series::edges(), 1, &mut attempt);
    trial.counts
}

/// Every length of a list up to 40 stretches, and some far greater ones; and every length of a lent record for some lists.
fn every_length() -> Counts {
    let mut random = Random::new(3);
    let mut trial = Trial::new(&mut random);
    let long: Vec<Stretch> = (0..65_537).map(|i| [2, 2 * i, 1, 2 * i + 1]).collect();
    let long = lists::bytes(&long);
    (0..=40 * STRETCH_BYTES).for_each(|length| trial.attempt_with_room(&long[..length], &mut random));
    for count in [64, 256, 257, 65_536, 65_537] {
        let too_many = Printed { faults: BTreeSet::from([Fault::TooMany]), record: Vec::new() };
        trial.attempt_record(&long[..count * STRETCH_BYTES], &too_many, LONGEST_RECORD, &mut random);
    }
    for stretches in series::some_lists() {
        let list = lists::bytes(&stretches);
        let printed = printed::print(&list, &trial.dates);
        for length in 0..=printed.record.len() + 40 {
            trial.attempt_record(&list, &printed, length, &mut random);
        }
        (-840..=840).step_by(60).for_each(|offset| trial.read_back(&list, &printed.record, offset));
    }
    trial.counts
}

/// Every day of years 1 to 9999, every second of some days and every fraction of some seconds, by their first and last ticks.
fn every_moment() -> Counts {
    let mut random = Random::new(4);
    let mut trial = Trial::new(&mut random);
    let days = trial.dates.count() as i64;
    if days != 3_652_059 {
        println!("print: {days} days are tried, and years 1 to 9999 have 3652059");
        trial.counts.differences += 1;
    }
    let mut attempt = |stretches: &[Stretch]| trial.attempt_with_room(&lists::bytes(stretches), &mut random);
    series::every_span(0, TICKS_IN_A_DAY, days, &mut attempt);
    // The first day, 29 February 2000, 2 May 2024 and the last day.
    for day in [0, 730_178, 739_007, days - 1] {
        series::every_span(day * TICKS_IN_A_DAY, TICKS_IN_A_SECOND, 86_400, &mut attempt);
        series::every_span((day + 1) * TICKS_IN_A_DAY - TICKS_IN_A_SECOND, 1, TICKS_IN_A_SECOND, &mut attempt);
    }
    trial.counts
}

/// Whether the service and the second printer agree.
pub fn run(options: &Options) -> bool {
    if !HAS_SERVICE {
        println!("print: the library has no such service, and the second printer is tried alone");
    }
    let mut alike = stored_lists();
    let made = made_lists(options);
    made.print(&format!("{} lists made from seed {}", options.cases, options.seed));
    alike &= made.differences == 0;
    if options.cases >= 100_000 {
        alike &= made.is_broad();
    }
    alike &= listed_records(options);
    if !options.only_made {
        let short = short_lists();
        short.print("every short list of some bounds");
        let lengths = every_length();
        lengths.print("every length of a list, and of a lent record for some lists");
        let moments = every_moment();
        moments.print("every day of years 1 to 9999, every second of some days, every fraction of some seconds");
        alike &= [short, lengths, moments].iter().all(|counts| counts.differences == 0);
    }
    alike
}
