//! The functions of daily totals as a host links them, each called with memory that is lent so that a read or a write beside it shows.

use crate::lent::{Fenced, Guarded};
use crate::money::Given;
use crate::random::Random;
use crate::records::LONGEST;

/// Whether the library has the functions. Where it has not, the second keeper answers for them, and only the table and the shares are
/// tried.
pub const HAS_SERVICE: bool = cfg!(rigcactus_totals_add);

/// What is answered, and the numbers that may be written, afterwards.
#[derive(Clone, PartialEq, Debug)]
pub struct Outcome {
    pub answer: u64,
    pub numbers: Vec<u64>,
}

#[cfg(rigcactus_totals_add)]
extern "C" {
    fn rigcactus_totals_open(table: *mut u64) -> u64;
    fn rigcactus_totals_start(table: *mut u64, desk: u64) -> u64;
    fn rigcactus_totals_add(table: *mut u64, desk: u64, record: *const u8, record_len: usize, offset: i64) -> u64;
    fn rigcactus_totals_report(table: *const u64, desk: u64, report: *mut u64) -> u64;
}

#[cfg(rigcactus_totals_add)]
fn open(table: &mut [u64], _: &Outcome) -> u64 {
    assert!(table.len() == 103);
    // SAFETY: the pointer leads to 103 numbers that can be written.
    unsafe { rigcactus_totals_open(table.as_mut_ptr()) }
}

#[cfg(rigcactus_totals_add)]
fn start(table: &mut [u64], desk: u64, _: &Outcome) -> u64 {
    assert!(table.len() == 103);
    // SAFETY: the pointer leads to 103 numbers that can be written.
    unsafe { rigcactus_totals_start(table.as_mut_ptr(), desk) }
}

#[cfg(rigcactus_totals_add)]
fn add(table: &mut [u64], desk: u64, record: &[u8], offset: i64, _: &Outcome) -> u64 {
    assert!(table.len() == 103);
    // SAFETY: the pointers lead to 103 numbers that can be written, and to so many bytes that are no part of them.
    unsafe { rigcactus_totals_add(table.as_mut_ptr(), desk, record.as_ptr(), record.len(), offset) }
}

#[cfg(rigcactus_totals_add)]
fn report(table: &[u8], desk: u64, report: &mut [u64], _: &Outcome) -> u64 {
    assert!(table.len() == 8 * 103 && table.as_ptr().cast::<u64>().is_aligned() && report.len() == 35);
    // SAFETY: the pointers lead to 103 numbers, and to 35 that can be written and are no part of them.
    unsafe { rigcactus_totals_report(table.as_ptr().cast(), desk, report.as_mut_ptr()) }
}

#[cfg(not(rigcactus_totals_add))]
fn due_written(numbers: &mut [u64], due: &Outcome) -> u64 {
    numbers.copy_from_slice(&due.numbers);
    due.answer
}

#[cfg(not(rigcactus_totals_add))]
fn open(table: &mut [u64], due: &Outcome) -> u64 {
    due_written(table, due)
}

#[cfg(not(rigcactus_totals_add))]
fn start(table: &mut [u64], _: u64, due: &Outcome) -> u64 {
    due_written(table, due)
}

#[cfg(not(rigcactus_totals_add))]
fn add(table: &mut [u64], _: u64, _: &[u8], _: i64, due: &Outcome) -> u64 {
    due_written(table, due)
}

#[cfg(not(rigcactus_totals_add))]
fn report(_: &[u8], _: u64, report: &mut [u64], due: &Outcome) -> u64 {
    due_written(report, due)
}

/// What guards are made of: bytes that would go on with a record, letters, and bytes of numbers.
const GUARDS: [u8; 6] = [b' ', b'>', b'A', 0, 0x80, 0xFF];

fn bytes_of(numbers: &[u64]) -> Vec<u8> {
    numbers.iter().flat_map(|number| number.to_le_bytes()).collect()
}

/// The numbers that bytes are which begin at a multiple of eight.
fn numbers_in(bytes: &mut [u8]) -> &mut [u64] {
    // SAFETY: any eight bytes are a number.
    let (before, numbers, after) = unsafe { bytes.align_to_mut() };
    assert!(before.is_empty() && after.is_empty());
    numbers
}

/// Where numbers and bytes are lent.
pub struct Lender {
    guarded_numbers: Guarded,
    guarded_bytes: Guarded,
    fenced_numbers: Fenced,
    fenced_bytes: Fenced,
}

impl Lender {
    pub fn new() -> Lender {
        Lender {
            guarded_numbers: Guarded::new(8 * 103),
            guarded_bytes: Guarded::new(LONGEST),
            fenced_numbers: Fenced::new(8 * 103),
            fenced_bytes: Fenced::new(LONGEST),
        }
    }

    /// Opens a table, and says what came of it; or none, where memory beside it was changed.
    pub fn open(&mut self, table: &[u64], due: &Outcome, random: &mut Random) -> Option<Outcome> {
        self.lend(table, &[], 0, random, &|table, _| open(table, due))
    }

    /// Starts a desk's day.
    pub fn start(&mut self, table: &[u64], desk: u64, due: &Outcome, random: &mut Random) -> Option<Outcome> {
        self.lend(table, &[], 0, random, &|table, _| start(table, desk, due))
    }

    /// Adds a record of a desk to a table. None also where the record was changed.
    pub fn add(&mut self, table: &[u64], desk: u64, given: &Given, due: &Outcome, random: &mut Random) -> Option<Outcome> {
        let shift = random.below(64);
        self.lend(table, &given.0, shift, random, &|table, record| add(table, desk, record, given.1, due))
    }

    /// Has a desk's part of a table reported. None also where the table was changed.
    pub fn report(&mut self, table: &[u64], desk: u64, before: &[u64], due: &Outcome, random: &mut Random) -> Option<Outcome> {
        let shift = 8 * random.below(8);
        self.lend(before, &bytes_of(table), shift, random, &|numbers, table| report(table, desk, numbers, due))
    }

    /// Lends numbers to be written and bytes to be read, between guards, or at fences, or in memory of just their sizes, where a memory
    /// checker sees what happens beside it.
    fn lend(&mut self, numbers: &[u64], bytes: &[u8], shift: usize, random: &mut Random, call: &Call) -> Option<Outcome> {
        let place = random.below(8);
        let before = bytes_of(numbers);
        match place {
            0 | 1 => {
                let (first, last) = (&mut self.fenced_numbers, &mut self.fenced_bytes);
                let lent = if place == 0 { first.place_first(&before) } else { first.place_last(&before) };
                let read = if place == 0 { last.place_last(bytes) } else { last.place_first(bytes) };
                outcome(numbers_in(lent), read, bytes, call)
            }
            2 => outcome(&mut Box::<[u64]>::from(numbers), &Box::<[u8]>::from(bytes), bytes, call),
            _ => {
                self.guarded_numbers.place(&before, 8 * random.below(8), random.one_of(&GUARDS));
                self.guarded_bytes.place(bytes, shift, random.one_of(&GUARDS));
                let outcome = outcome(numbers_in(self.guarded_numbers.bytes_mut()), self.guarded_bytes.bytes(), bytes, call)?;
                let beside = self.guarded_numbers.is_unchanged(&bytes_of(&outcome.numbers)) && self.guarded_bytes.is_unchanged(bytes);
                beside.then_some(outcome)
            }
        }
    }
}

/// A call with numbers that may be written and bytes that may not.
type Call<'a> = dyn Fn(&mut [u64], &[u8]) -> u64 + 'a;

/// What comes of a call, unless the bytes are no longer those that were lent.
fn outcome(numbers: &mut [u64], bytes: &[u8], lent: &[u8], call: &Call) -> Option<Outcome> {
    let answer = call(numbers, bytes);
    (bytes == lent).then(|| Outcome { answer, numbers: numbers.to_vec() })
}
