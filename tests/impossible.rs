//! Impossible times, each tried one and all: every date with every clock and every written offset that built.rs has, cut off at each
//! precision, alone and in records, beside other faults; and texts of the wrong form with impossible parts in them. What is due follows
//! from how each is built.

use crate::built::{self, Record, Time};
use crate::places::STRETCH_BYTES;
use crate::refusals::{self, ACCEPTED, CLOCK, DATE, NO_ROOM, NUMBERS, OFFSET, PRECEDENCE, TYPE, VALUE, ZONE};
use crate::Options;

extern "C" {
    fn rigcactus_tick(text: *const u8, text_len: usize, offset: i64, tick: *mut i64) -> u64;
    fn rigcactus_check(record: *const u8, record_len: usize, offset: i64) -> u64;
    fn rigcactus_list(record: *const u8, record_len: usize, offset: i64, list: *mut u8, list_len: usize) -> u64;
    fn rigcactus_compare(first: *const u8, first_len: usize, second: *const u8, second_len: usize, offset: i64) -> u64;
    fn rigcactus_totals_add(table: *mut u64, desk: u64, record: *const u8, record_len: usize, offset: i64) -> u64;
}

/// Differences that are printed, at most.
const PRINTED: u64 = 10;

/// Agreed offsets that may be, and one that may not.
const AGREED: [i64; 3] = [0, -90, 840];
const FAR: i64 = 841;

/// How a comparison is packed that is unknown.
const UNKNOWN: u64 = 3 << 16;

/// What answers are counted by: the service, and for a comparison the record that is refused.
#[derive(Clone, Copy)]
enum Column {
    Tick,
    Check,
    List,
    First,
    Second,
    Totals,
}

const COLUMNS: [(Column, &str); 6] = [
    (Column::Tick, "tick"),
    (Column::Check, "check"),
    (Column::List, "list"),
    (Column::First, "compare, 1st"),
    (Column::Second, "compare, 2nd"),
    (Column::Totals, "totals"),
];

/// Of the answers in each column but the last, how many at least are to be VALUE, DATE, CLOCK and ZONE; in the last, none.
const LEAST: u64 = 1_000;

/// What came of the calls: how often each number was given, where it was due.
#[derive(Default)]
struct Trial {
    counts: [[u64; NUMBERS]; COLUMNS.len()],
    differences: u64,
}

/// The number that is due for something with these faults, under an agreed offset.
fn due(faults: &[&[u64]], agreed: i64) -> u64 {
    let far: &[u64] = if agreed == FAR { &[OFFSET] } else { &[] };
    refusals::first(faults.iter().copied().chain([far]).flatten())
}

impl Trial {
    /// Holds an answer, and whether what is lent is as it should be afterwards, against what is due.
    fn compare(&mut self, column: Column, answer: u64, due: u64, is_due_after: bool, what: impl Fn() -> String) {
        if answer == due && is_due_after {
            self.counts[column as usize][(due & 0xFF) as usize] += 1;
            return;
        }
        self.differences += 1;
        if self.differences <= PRINTED {
            let service = COLUMNS[column as usize].1;
            let after = if is_due_after { "" } else { ", and what is lent is not as it should be" };
            eprintln!("impossible: {service}, {}: answered {answer:#x}, due is {due:#x}{after}", what());
        }
    }

    fn tick(&mut self, time: &Time, agreed: i64) {
        const BEFORE: i64 = -77;
        let mut tick = BEFORE;
        // SAFETY: the pointer and the length are those of a slice, and the tick is no part of it.
        let answer = unsafe { rigcactus_tick(time.text.as_ptr(), time.text.len(), agreed, &mut tick) };
        let (due, after) = match due(&[&time.faults], agreed) {
            ACCEPTED => (time.precision << 8, time.tick_at(agreed)),
            refusal => (refusal, BEFORE),
        };
        self.compare(Column::Tick, answer, due, tick == after, || format!("[{}], offset {agreed}", time.text));
    }

    fn check(&mut self, record: &Record, agreed: i64) {
        // SAFETY: the pointer and the length are those of a slice, and the service writes nothing.
        let answer = unsafe { rigcactus_check(record.bytes.as_ptr(), record.bytes.len(), agreed) };
        self.compare(Column::Check, answer, due(&[&record.faults], agreed), true, || shown(record, agreed));
    }

    /// Lists a record into so many bytes.
    fn list(&mut self, record: &Record, agreed: i64, length: usize) {
        let before = [0xA5; 2 * STRETCH_BYTES];
        let mut list = before;
        // SAFETY: the pointers and the lengths are those of slices, of which one can be written and is no part of the other.
        let answer = unsafe { rigcactus_list(record.bytes.as_ptr(), record.bytes.len(), agreed, list.as_mut_ptr(), length) };
        let mut after = before;
        let no_room: &[u64] = if length < STRETCH_BYTES { &[NO_ROOM] } else { &[] };
        let others = record.listing.as_ref().err().map_or(&[][..], |faults| faults);
        let due = match (due(&[&record.faults, others, no_room], agreed), &record.listing) {
            (ACCEPTED, Ok(stretch)) => {
                after[..STRETCH_BYTES].copy_from_slice(stretch.map(i64::to_le_bytes).as_flattened());
                1 << 8
            }
            (refusal, _) => refusal,
        };
        self.compare(Column::List, answer, due, list == after, || format!("{}, a list of {length} bytes", shown(record, agreed)));
    }

    /// Compares two records. If nothing is wrong with either, one of them is null.
    fn pair(&mut self, first: &Record, second: &Record, agreed: i64) {
        let (one, two) = (&first.bytes, &second.bytes);
        // SAFETY: the pointers and the lengths are those of slices, and the service writes nothing.
        let answer = unsafe { rigcactus_compare(one.as_ptr(), one.len(), two.as_ptr(), two.len(), agreed) };
        let others: &[u64] = if first.of_type == second.of_type && !first.of_type.starts_with('Q') { &[] } else { &[TYPE] };
        let (column, due) = match [&first.faults, &second.faults].map(|faults| due(&[faults], agreed)) {
            [ACCEPTED, ACCEPTED] if others.is_empty() => (Column::First, UNKNOWN),
            [ACCEPTED, ACCEPTED] => (Column::Second, 2 << 8 | TYPE),
            [ACCEPTED, refusal] => (Column::Second, 2 << 8 | refusal),
            [refusal, _] => (Column::First, 1 << 8 | refusal),
        };
        self.compare(column, answer, due, true, || format!("{} and {}", shown(first, agreed), shown(second, agreed)));
    }

    /// Adds a record, which is no amount of money, to an empty table.
    fn add(&mut self, record: &Record, agreed: i64) {
        let mut table = [0; 103];
        // SAFETY: the pointers lead to 103 numbers that can be written, and to so many bytes that are no part of them.
        let answer = unsafe { rigcactus_totals_add(table.as_mut_ptr(), 1, record.bytes.as_ptr(), record.bytes.len(), agreed) };
        let mut after = [0; 103];
        after[3] = 1;
        self.compare(Column::Totals, answer, due(&[&record.faults, &[TYPE]], agreed), table == after, || shown(record, agreed));
    }

    /// Tries a record with every service that takes one: listed with no room, with a byte too few, with enough and with more; and compared
    /// with a null of its type, as the first and as the second.
    fn attempt(&mut self, record: &Record, agreed: i64) {
        self.check(record, agreed);
        for length in [0, STRETCH_BYTES - 1, STRETCH_BYTES, 2 * STRETCH_BYTES] {
            self.list(record, agreed, length);
        }
        let null = null_of(&record.of_type);
        self.pair(record, &null, agreed);
        self.pair(&null, record, agreed);
        self.add(record, agreed);
    }

    fn print(&self) {
        println!("  {:<20}{}", "", COLUMNS.map(|(_, name)| format!("{name:>14}")).concat());
        for number in [ACCEPTED].into_iter().chain(PRECEDENCE.map(|(number, _)| number)) {
            let counts = COLUMNS.map(|(column, _)| self.counts[column as usize][number as usize]);
            if counts != [0; COLUMNS.len()] {
                println!("  {:<20}{}", refusals::name(number), counts.map(|count| format!("{count:>14}")).concat());
            }
        }
        println!("  {:<20}{:>14}", "differences", self.differences);
    }

    fn is_broad(&self) -> bool {
        let is_so = |column: Column, number: u64| match (column, self.counts[column as usize][number as usize]) {
            (Column::Totals, count) => count == 0,
            (_, count) => count >= LEAST,
        };
        COLUMNS.iter().all(|(column, _)| [VALUE, DATE, CLOCK, ZONE].into_iter().all(|number| is_so(*column, number)))
    }
}

fn shown(record: &Record, agreed: i64) -> String {
    format!("[{}], offset {agreed}", record.bytes[..record.bytes.len().min(2000)].escape_ascii())
}

fn null_of(of_type: &str) -> Record {
    let bytes = format!("<t xsi:type=\"{of_type}\" nullFlavor=\"NI\"/>").into_bytes();
    Record { bytes, of_type: of_type.to_string(), faults: Vec::new(), listing: Err(vec![TYPE]) }
}

// ---- The trials ----------------------------------------------------------------------------------------------------

/// Every time by itself, and every text of the wrong form.
fn alone(trial: &mut Trial, times: &[Time], wrong_forms: &[Time]) {
    for (i, time) in times.iter().enumerate() {
        AGREED.iter().for_each(|agreed| trial.tick(time, *agreed));
        if i % 16 == 0 {
            trial.tick(time, FAR);
        }
    }
    for (i, time) in wrong_forms.iter().enumerate() {
        trial.tick(time, AGREED[i % AGREED.len()]);
    }
}

/// Every time in records in which nothing else is wrong, and some texts of the wrong form. Beside other faults the times are those of fourteen
/// digits, and some others.
fn in_records(trial: &mut Trial, times: &[Time], wrong_forms: &[Time]) {
    let good_places = built::good_places();
    let some_wrong: Vec<&Time> = wrong_forms.iter().step_by(211).collect();
    let whole: Vec<&Time> = times.iter().enumerate().filter(|(i, time)| time.precision == 14 || i % 50 == 0).map(|(_, time)| time).collect();
    for (i, time) in times.iter().chain(some_wrong.iter().copied()).enumerate() {
        let agreed = if i % 16 == 0 { FAR } else { AGREED[i % AGREED.len()] };
        good_places.iter().for_each(|place| trial.attempt(&place.holding(time, agreed), agreed));
    }
    for place in built::places_beside_faults() {
        for (i, time) in whole.iter().chain(&some_wrong).enumerate() {
            let agreed = if i % 16 == 0 { FAR } else { AGREED[i % AGREED.len()] };
            trial.attempt(&place.holding(time, agreed), agreed);
        }
    }
}

/// Two times: as the bounds of an interval, in two members of a set, and in two records, with all that can be wrong with each.
fn in_pairs(trial: &mut Trial, times: &[Time], wrong_forms: &[Time]) {
    let mut some = built::some_of_each(times);
    some.extend(wrong_forms.iter().step_by(wrong_forms.len() / 4).cloned());
    for (i, time) in times.iter().enumerate() {
        for other in some.iter().skip(i % 4).step_by(4) {
            let agreed = AGREED[i % AGREED.len()];
            trial.attempt(&built::between(time, other, agreed), agreed);
            trial.attempt(&built::between(other, time, agreed), agreed);
        }
    }
    let places = built::good_places();
    for (first, second) in some.iter().flat_map(|first| some.iter().map(move |second| (first, second))) {
        AGREED.iter().for_each(|agreed| trial.attempt(&built::members(first, second), *agreed));
        if first.faults.is_empty() && second.faults.is_empty() {
            continue;
        }
        for (i, one) in places.iter().enumerate() {
            for two in &places {
                let agreed = AGREED[i % AGREED.len()];
                trial.pair(&one.holding(first, agreed), &two.holding(second, agreed), agreed);
            }
        }
    }
}

/// Whether the services say of each which part is impossible.
pub fn run(options: &Options) -> bool {
    if options.only_made {
        return true;
    }
    let (times, wrong_forms) = (built::times(), built::wrong_forms());
    let mut trial = Trial::default();
    alone(&mut trial, &times, &wrong_forms);
    in_records(&mut trial, &times, &wrong_forms);
    in_pairs(&mut trial, &times, &wrong_forms);
    println!("impossible: {} texts of the right form and {} of the wrong form, alone and in records", times.len(), wrong_forms.len());
    trial.print();
    let is_broad = trial.is_broad();
    if !is_broad {
        println!("impossible: VALUE, DATE, CLOCK or ZONE was given too rarely by some service, or by totals");
    }
    is_broad && trial.differences == 0
}
