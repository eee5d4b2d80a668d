//! Bounds to the year, the month, the day, the hour, the minute and finer, at the ends of months and years, each tried one and all: against
//! nothing, against ticks about its unit, against each other, in sets, in comparisons and printed. What is due follows from a table of units
//! whose days were counted by hand; the services and the second implementations are to give it.

use crate::bounds;
use crate::faults;
use crate::likeness;
use crate::places::{self, Stretch, STRETCH_BYTES};
use crate::printed::Dates;
use crate::refusals::{self, ACCEPTED, NOT_WRITABLE, NO_ROOM, NUMBERS, RULE};
use crate::tick::Calendar;
use crate::Options;

extern "C" {
    fn rigcactus_check(record: *const u8, record_len: usize, offset: i64) -> u64;
    fn rigcactus_list(record: *const u8, record_len: usize, offset: i64, list: *mut u8, list_len: usize) -> u64;
    fn rigcactus_compare(first: *const u8, first_len: usize, second: *const u8, second_len: usize, offset: i64) -> u64;
    fn rigcactus_print(list: *const u8, list_len: usize, record: *mut u8, record_len: usize) -> u64;
}

/// Differences that are printed, at most.
const PRINTED: u64 = 10;

const DAY: i64 = 864_000_000;
const HOUR: i64 = 36_000_000;
const MINUTE: i64 = 600_000;
const SECOND: i64 = 10_000;

/// Agreed offsets.
const AGREED: [i64; 5] = [0, 120, -90, 840, -840];

/// Written offsets, or none: how many minutes each is.
const ZONES: [(&str, Option<i64>); 5] = [("", None), ("+0000", Some(0)), ("+0530", Some(330)), ("-1400", Some(-840)), ("+14", Some(840))];

// ---- Units ---------------------------------------------------------------------------------------------------------

/// A time by its digits, the tick at which it starts at offset 0, the ticks of its smallest unit if that is coarser than a second, and the
/// digits of the next one if there is such a year.
struct Unit {
    digits: &'static str,
    start: i64,
    lasts: Option<i64>,
    next: &'static str,
}

/// A year, a month or a day, with the days before it and in it.
const fn days(digits: &'static str, before: i64, days: i64, next: &'static str) -> Unit {
    Unit { digits, start: before * DAY, lasts: Some(days * DAY), next }
}

/// An hour of a day, with the days before.
const fn hour(digits: &'static str, before: i64, hour: i64, next: &'static str) -> Unit {
    Unit { digits, start: before * DAY + hour * HOUR, lasts: Some(HOUR), next }
}

/// A minute of a day, with the days before.
const fn minute(digits: &'static str, before: i64, minute: i64, next: &'static str) -> Unit {
    Unit { digits, start: before * DAY + minute * MINUTE, lasts: Some(MINUTE), next }
}

/// A second of a day or a part of one, with the days before, in ticks.
const fn ticks(digits: &'static str, before: i64, ticks: i64) -> Unit {
    Unit { digits, start: before * DAY + ticks, lasts: None, next: "" }
}

const UNITS: [Unit; 60] = [
    days("0001", 0, 365, "0002"),
    days("1900", 693_595, 365, "1901"),
    days("2000", 730_119, 366, "2001"),
    days("2023", 738_520, 365, "2024"),
    days("2024", 738_885, 366, "2025"),
    days("9999", 3_651_694, 365, ""),
    days("000101", 0, 31, "000102"),
    days("190002", 693_626, 28, "190003"),
    days("200002", 730_150, 29, "200003"),
    days("202302", 738_551, 28, "202303"),
    days("202312", 738_854, 31, "202401"),
    days("202401", 738_885, 31, "202402"),
    days("202402", 738_916, 29, "202403"),
    days("202404", 738_976, 30, "202405"),
    days("202412", 739_220, 31, "202501"),
    days("999911", 3_651_998, 30, "999912"),
    days("999912", 3_652_028, 31, ""),
    days("00010101", 0, 1, "00010102"),
    days("19000228", 693_653, 1, "19000301"),
    days("20000228", 730_177, 1, "20000229"),
    days("20000229", 730_178, 1, "20000301"),
    days("20230228", 738_578, 1, "20230301"),
    days("20231231", 738_884, 1, "20240101"),
    days("20240131", 738_915, 1, "20240201"),
    days("20240228", 738_943, 1, "20240229"),
    days("20240229", 738_944, 1, "20240301"),
    days("20240401", 738_976, 1, "20240402"),
    days("20240430", 739_005, 1, "20240501"),
    days("20240501", 739_006, 1, "20240502"),
    days("20241231", 739_250, 1, "20250101"),
    days("99991230", 3_652_057, 1, "99991231"),
    days("99991231", 3_652_058, 1, ""),
    hour("0001010100", 0, 0, "0001010101"),
    hour("1900022823", 693_653, 23, "1900030100"),
    hour("2023022823", 738_578, 23, "2023030100"),
    hour("2023123123", 738_884, 23, "2024010100"),
    hour("2024022823", 738_943, 23, "2024022900"),
    hour("2024022923", 738_944, 23, "2024030100"),
    hour("2024043000", 739_005, 0, "2024043001"),
    hour("2024043012", 739_005, 12, "2024043013"),
    hour("2024043023", 739_005, 23, "2024050100"),
    hour("9999123123", 3_652_058, 23, ""),
    minute("000101010000", 0, 0, "000101010001"),
    minute("202302282359", 738_578, 1439, "202303010000"),
    minute("202312312359", 738_884, 1439, "202401010000"),
    minute("202402282359", 738_943, 1439, "202402290000"),
    minute("202402292359", 738_944, 1439, "202403010000"),
    minute("202404300000", 739_005, 0, "202404300001"),
    minute("202404301159", 739_005, 719, "202404301200"),
    minute("202404302359", 739_005, 1439, "202405010000"),
    minute("999912312359", 3_652_058, 1439, ""),
    ticks("00010101000000", 0, 0),
    ticks("20240430000000", 739_005, 0),
    ticks("20240430120000", 739_005, 12 * HOUR),
    ticks("20240430235959", 739_005, DAY - SECOND),
    ticks("20240430235959.5", 739_005, DAY - SECOND / 2),
    ticks("20240430235959.999", 739_005, DAY - 10),
    ticks("20240430235959.9999", 739_005, DAY - 1),
    ticks("20240501000000.00", 739_006, 0),
    ticks("99991231235959.9999", 3_652_058, DAY - 1),
];

/// A time as it is written in a bound: its tick, and the start of the next unit if it is coarser than a second.
#[derive(Clone)]
struct Time {
    text: String,
    tick: i64,
    next: Option<i64>,
}

/// A kind and a tick, as a list has them.
type Bound = [i64; 2];

const UNBOUNDED: Bound = [0, 0];

impl Unit {
    /// The unit with each offset that it can have, under an agreed one.
    fn times(&self, agreed: i64) -> Vec<Time> {
        let zones = if self.digits.len() < 10 { &ZONES[..1] } else { &ZONES[..] };
        zones.iter().map(|zone| self.time(*zone, agreed)).collect()
    }

    fn time(&self, (zone, minutes): (&str, Option<i64>), agreed: i64) -> Time {
        let tick = self.start - minutes.unwrap_or(agreed) * MINUTE;
        Time { text: format!("{}{zone}", self.digits), tick, next: self.lasts.map(|ticks| tick + ticks) }
    }
}

impl Time {
    /// What it reads as, as a low.
    fn low(&self, is_closed: bool) -> Bound {
        match self.next {
            Some(next) if !is_closed => [2, next],
            _ => [if is_closed { 2 } else { 1 }, self.tick],
        }
    }

    /// What it reads as, as a high.
    fn high(&self, is_closed: bool) -> Bound {
        match self.next {
            Some(next) if is_closed => [1, next],
            _ => [if is_closed { 2 } else { 1 }, self.tick],
        }
    }
}

// ---- What is due ---------------------------------------------------------------------------------------------------

/// The flags of an interval.
const FLAGS: [[bool; 2]; 4] = [[true, true], [true, false], [false, true], [false, false]];

/// What is due for a record: RULE, or its stretches.
#[derive(Clone, PartialEq)]
enum Due {
    Crossed,
    Listed(Vec<Stretch>),
}
use Due::*;

/// The stretches of an interval: one, or none where its low lies after its high.
fn between(low: Bound, high: Bound) -> Vec<Stretch> {
    let first = 2 * low[1] + i64::from(low[0] == 1);
    let last = 2 * high[1] - i64::from(high[0] == 1);
    let has_place = low[0] == 0 || high[0] == 0 || first <= last;
    if has_place { vec![[low[0], low[1], high[0], high[1]]] } else { vec![] }
}

/// What is due for an interval between two times.
fn due(low: &Time, high: &Time, [low_closed, high_closed]: [bool; 2]) -> Due {
    let last = match high.next {
        Some(next) if high_closed => next - 1,
        _ => high.tick,
    };
    if low.tick > last { Crossed } else { Listed(between(low.low(low_closed), high.high(high_closed))) }
}

/// What is left of all times without at most one stretch.
fn without(stretches: &[Stretch]) -> Vec<Stretch> {
    let other = |kind: i64| 3 - kind;
    let Some([low_kind, low, high_kind, high]) = stretches.first().copied() else {
        return vec![[0; 4]];
    };
    let before = (low_kind != 0).then_some([0, 0, other(low_kind), low]);
    let after = (high_kind != 0).then_some([other(high_kind), high, 0, 0]);
    before.into_iter().chain(after).collect()
}

// ---- Records -------------------------------------------------------------------------------------------------------

/// An interval under a name; `*` is an unbounded end, whose flag is not written.
fn interval(name: &str, low: &str, high: &str, flags: [bool; 2]) -> String {
    let side = |name: &str, flavor: &str, text: &str, is_closed: bool| match text {
        "*" => (String::new(), format!("<{name} nullFlavor=\"{flavor}\"/>")),
        _ => (format!(" {name}Closed=\"{is_closed}\""), format!("<{name} value=\"{text}\"/>")),
    };
    let (low_flag, low) = side("low", "NINF", low, flags[0]);
    let (high_flag, high) = side("high", "PINF", high, flags[1]);
    format!("<{name} xsi:type=\"IVL_TS\"{low_flag}{high_flag}>{low}{high}</{name}>")
}

fn set(of_type: &str, members: &[String]) -> String {
    format!("<t xsi:type=\"{of_type}\">{}</t>", members.concat())
}

// ---- Trying --------------------------------------------------------------------------------------------------------

/// The services, of which calls are counted.
const COLUMNS: [&str; 4] = ["check", "list", "compare", "print"];

struct Trial {
    calendar: Calendar,
    dates: Dates,
    counts: [[u64; NUMBERS]; COLUMNS.len()],
    /// Accepted intervals with a low inside the unit of a closed high, and with an open low that is pushed past the high.
    inside: u64,
    pushed: u64,
    differences: u64,
}

impl Trial {
    fn new() -> Trial {
        let counts = [[0; NUMBERS]; COLUMNS.len()];
        Trial { calendar: Calendar::new(), dates: Dates::new(), counts, inside: 0, pushed: 0, differences: 0 }
    }

    /// Holds what a service and the second implementation answered, and whether what is lent is as it should be, against what is due.
    fn expect(&mut self, column: usize, answers: [u64; 2], due: u64, is_due_after: bool, what: impl Fn() -> String) {
        if answers == [due; 2] && is_due_after {
            self.counts[column][(due & 0xFF) as usize] += 1;
            return;
        }
        self.differences += 1;
        if self.differences <= PRINTED {
            let [answer, second] = answers;
            let after = if is_due_after { "" } else { ", and what is lent is not as it should be" };
            eprintln!("last_day: {}, {}: answered {answer:#x}, the second implementation says {second:#x}, due is {due:#x}{after}", COLUMNS[column], what());
        }
    }

    /// Checks a record.
    fn check(&mut self, record: &str, agreed: i64, due: &Due) {
        let number = if *due == Crossed { RULE } else { ACCEPTED };
        // SAFETY: the pointer and the length are those of a slice, and the service writes nothing.
        let answer = unsafe { rigcactus_check(record.as_ptr(), record.len(), agreed) };
        let second = faults::judge(record.as_bytes(), agreed, &self.calendar).number();
        self.expect(0, [answer, second], number, true, || format!("[{record}], offset {agreed}"));
    }

    /// Lists a record into so many bytes.
    fn list(&mut self, record: &str, agreed: i64, due: &Due, length: usize) {
        let before = [0xA5; 3 * STRETCH_BYTES];
        let (mut list, mut after) = (before, before);
        // SAFETY: the pointers and the lengths are those of slices, of which one can be written and is no part of the other.
        let answer = unsafe { rigcactus_list(record.as_ptr(), record.len(), agreed, list.as_mut_ptr(), length) };
        let number = match due {
            Crossed => RULE,
            Listed(stretches) if stretches.len() > length / STRETCH_BYTES => NO_ROOM,
            Listed(stretches) => {
                for (place, number) in after.chunks_mut(8).zip(stretches.iter().flatten()) {
                    place.copy_from_slice(&number.to_le_bytes());
                }
                (stretches.len() as u64) << 8
            }
        };
        let second = places::list(record.as_bytes(), agreed, &self.calendar);
        let is_due_after = list == after && second.after(&before[..length]) == after[..length];
        self.expect(1, [answer, second.answer(length)], number, is_due_after, || format!("[{record}], offset {agreed}, a list of {length} bytes"));
    }

    /// Tries a record with room for no stretch, with a byte too few for one, and with enough.
    fn attempt(&mut self, record: &str, agreed: i64, due: &Due) {
        self.check(record, agreed, due);
        for length in [0, STRETCH_BYTES - 1, 3 * STRETCH_BYTES] {
            self.list(record, agreed, due, length);
        }
    }

    /// Tries an interval alone, and as a member of sets of each type.
    fn attempt_interval(&mut self, low: &str, high: &str, flags: [bool; 2], agreed: i64, due: &Due) {
        self.attempt(&interval("t", low, high, flags), agreed, due);
        let member = |name: &str| interval(name, low, high, flags);
        let all = |name: &str| interval(name, "*", "*", [false; 2]);
        let none = interval("subtrahend", "20240430120000", "20240430120000", [true, false]);
        let rest = match due {
            Crossed => Crossed,
            Listed(stretches) => Listed(without(stretches)),
        };
        let room = 3 * STRETCH_BYTES;
        self.list(&set("QSU_TS", &[member("term")]), agreed, due, room);
        self.list(&set("QSI_TS", &[all("term"), member("term")]), agreed, due, room);
        self.list(&set("QSD_TS", &[member("minuend"), none]), agreed, due, room);
        self.list(&set("QSD_TS", &[all("minuend"), member("subtrahend")]), agreed, &rest, room);
    }

    /// Tries an interval between two times, and counts what is new of it.
    fn attempt_between(&mut self, low: &Time, high: &Time, flags: [bool; 2], agreed: i64) {
        let due = due(low, high, flags);
        if due != Crossed {
            let to = high.high(flags[1])[1];
            self.inside += u64::from(low.tick > high.tick);
            self.pushed += u64::from(!flags[0] && low.next.is_some_and(|next| next > to));
        }
        self.attempt_interval(&low.text, &high.text, flags, agreed, &due);
    }
}

// ---- The trials ----------------------------------------------------------------------------------------------------

/// Every unit as a low and as a high, the other end being unbounded; and as both.
fn alone(trial: &mut Trial, times: &[Time], agreed: i64) {
    for time in times {
        let second = bounds::time(&time.text, agreed, &trial.calendar).map(|second| (second.tick, second.next));
        if second != Some((time.tick, time.next)) {
            eprintln!("last_day: the second implementation reads {} as {second:?}, due is {:?}", time.text, (time.tick, time.next));
            trial.differences += 1;
        }
        for is_closed in [true, false] {
            let from = Listed(between(time.low(is_closed), UNBOUNDED));
            let to = Listed(between(UNBOUNDED, time.high(is_closed)));
            trial.attempt_interval(&time.text, "*", [is_closed, false], agreed, &from);
            trial.attempt_interval("*", &time.text, [false, is_closed], agreed, &to);
        }
        FLAGS.iter().for_each(|flags| trial.attempt_between(time, time, *flags, agreed));
    }
}

/// Every unit with ticks about its start and about the next one's, on either side: a tick before, at and after each, and inside.
fn about(trial: &mut Trial, times: &[Time], agreed: i64) {
    for time in times {
        let next = time.next.unwrap_or(time.tick + 1);
        let inside = time.tick + (next - time.tick) / 2;
        for tick in [time.tick - 1, time.tick, time.tick + 1, inside, next - 2, next - 1, next, next + 1] {
            let Some(text) = trial.dates.timestamp(tick) else {
                continue;
            };
            let other = Time { text, tick, next: None };
            for flags in FLAGS {
                trial.attempt_between(&other, time, flags, agreed);
                trial.attempt_between(time, &other, flags, agreed);
            }
        }
    }
}

/// Every two units, with offsets that change from pair to pair.
fn in_pairs(trial: &mut Trial, agreed: i64) {
    for (i, one) in UNITS.iter().enumerate() {
        for (j, two) in UNITS.iter().enumerate() {
            let (lows, highs) = (one.times(agreed), two.times(agreed));
            let (low, high) = (&lows[(i + j) % lows.len()], &highs[(2 * i + j) % highs.len()]);
            FLAGS.iter().for_each(|flags| trial.attempt_between(low, high, *flags, agreed));
        }
    }
}

/// What units that follow each other make in sets: up to one, closed, and from the next on there is no break.
fn in_sets(trial: &mut Trial, unit: &Unit, zone: (&str, Option<i64>), agreed: i64) {
    let Time { text, tick: start, next } = unit.time(zone, agreed);
    let (next, following) = (next.unwrap(), format!("{}{}", unit.next, zone.0));
    let to = |name: &str, is_closed: bool| interval(name, "*", &text, [false, is_closed]);
    let from = |name: &str, is_closed: bool| interval(name, &text, "*", [is_closed, false]);
    let from_next = |name: &str| interval(name, &following, "*", [true, false]);
    let before_next = |name: &str| interval(name, "*", &following, [false, false]);
    let whole = |name: &str| interval(name, &text, &text, [true, true]);
    let all = |name: &str| interval(name, "*", "*", [false, false]);
    let (everything, the_unit) = (vec![[0; 4]], vec![[2, start, 1, next]]);
    let (but_the_unit, on) = (vec![[0, 0, 1, start], [2, next, 0, 0]], vec![[2, start, 0, 0]]);
    let nested = set("QSI_TS", &[to("term", true), from("term", true)]).replacen("<t ", "<term ", 1).replace("</t>", "</term>");
    let sets = [
        (set("QSU_TS", &[to("term", true), from_next("term")]), everything.clone()),
        (set("QSU_TS", &[from_next("term"), to("term", true)]), everything.clone()),
        (set("QSU_TS", &[to("term", true), from("term", false)]), everything.clone()),
        (set("QSU_TS", &[to("term", false), from("term", true)]), everything),
        (set("QSU_TS", &[to("term", false), from("term", false)]), but_the_unit.clone()),
        (set("QSU_TS", &[nested, from("term", false)]), on),
        (set("QSI_TS", &[to("term", true), from_next("term")]), vec![]),
        (set("QSI_TS", &[to("term", true), from("term", false)]), vec![]),
        (set("QSI_TS", &[to("term", true), from("term", true)]), the_unit.clone()),
        (set("QSI_TS", &[before_next("term"), from("term", true)]), the_unit.clone()),
        (set("QSD_TS", &[from("minuend", true), from_next("subtrahend")]), the_unit.clone()),
        (set("QSD_TS", &[from("minuend", true), from("subtrahend", false)]), the_unit.clone()),
        (set("QSD_TS", &[to("minuend", true), to("subtrahend", false)]), the_unit),
        (set("QSD_TS", &[to("minuend", true), whole("subtrahend")]), vec![[0, 0, 1, start]]),
        (set("QSD_TS", &[from("minuend", false), from_next("subtrahend")]), vec![]),
        (set("QSD_TS", &[all("minuend"), whole("subtrahend")]), but_the_unit),
    ];
    for (record, stretches) in sets {
        trial.attempt(&record, agreed, &Listed(stretches));
    }
}

/// Intervals that are compared, by their bounds, with the answer as it is packed: yes is 1, no 2 and unknown 3.
type Interval = (&'static str, &'static str, [bool; 2]);
const COMPARED: [(Interval, Interval, u64); 14] = [
    (("20240401", "20240430", [true, true]), ("20240401", "20240501", [true, false]), 2 << 16),
    (("20240401", "20240430", [true, true]), ("20240401", "20240430", [true, true]), 1 << 16),
    (("20240401", "20240430", [true, true]), ("20240401", "20240430", [true, false]), 2 << 16),
    (("20240430", "20240504", [false, false]), ("20240501", "20240504", [true, false]), 2 << 16),
    (("20240430", "20240504", [false, false]), ("20240430", "20240504", [true, false]), 2 << 16),
    (("20240401", "20240430", [true, true]), ("20240401", "202404", [true, true]), 3 << 16),
    (("20240401", "20240430", [true, true]), ("20240401", "2024043023", [true, true]), 3 << 16),
    (("20240401", "20240430", [true, true]), ("20240401", "20240430235959.9999", [true, true]), 3 << 16),
    (("20240401", "20240430", [true, true]), ("20240401", "20240501000000.0000", [true, false]), 2 << 16),
    (("2024", "2024", [true, true]), ("202401", "202412", [true, true]), 3 << 16),
    (("9999", "9999", [true, true]), ("9999", "99991231", [true, true]), 3 << 16),
    // A low inside the unit of a closed high can be compared, and is RULE where the high is open.
    (("2024043012", "20240430", [true, true]), ("2024043012", "20240430", [true, true]), 1 << 16),
    (("2024043012", "20240430", [true, true]), ("2024043012", "20240430", [true, false]), 2 << 8 | RULE),
    (("20240430235959.9999", "20240430", [true, true]), ("20240501", "20240430", [true, true]), 2 << 8 | RULE),
];

fn in_comparisons(trial: &mut Trial, agreed: i64) {
    for (one, two, due) in COMPARED {
        let [one, two] = [one, two].map(|(low, high, flags)| interval("t", low, high, flags));
        let turned = if due & 0xFF == RULE { 1 << 8 | RULE } else { due };
        for (first, second, due) in [(&one, &two, due), (&two, &one, turned)] {
            // SAFETY: the pointers and the lengths are those of slices, and the service writes nothing.
            let answer = unsafe { rigcactus_compare(first.as_ptr(), first.len(), second.as_ptr(), second.len(), agreed) };
            let again = likeness::compare(first.as_bytes(), second.as_bytes(), agreed, &trial.calendar).due.packed();
            trial.expect(2, [answer, again], due, true, || format!("[{first}] and [{second}], offset {agreed}"));
        }
    }
}

/// Intervals that are listed and printed, the agreed offset, and whether a tick lies outside years 0001 to 9999 then.
const PRINTED_BACK: [(Interval, i64, bool); 17] = [
    (("20240401", "20240430", [true, true]), 0, false),
    (("2024", "9999", [true, true]), 0, true),
    (("2024", "9999", [true, false]), 0, false),
    (("2024", "9999", [true, true]), -1, true),
    (("2024", "9999", [true, true]), 1, false),
    (("2024", "9999", [true, true]), -840, true),
    (("2024", "9999", [true, true]), 840, false),
    (("2024", "999912", [true, true]), 0, true),
    (("2024", "99991231", [true, true]), 0, true),
    (("2024", "99991230", [true, true]), 0, false),
    (("2024", "9999123123", [true, true]), 0, true),
    (("2024", "999912312359-0001", [true, true]), 0, true),
    (("2024", "999912312359+0001", [true, true]), 0, false),
    (("2024", "99991231235959.9999", [true, true]), 0, false),
    (("9999", "*", [false, false]), 0, true),
    (("9999", "9999", [false, true]), 0, false),
    (("0001", "0001", [true, true]), 1, true),
];

fn in_print(trial: &mut Trial) {
    for ((low, high, flags), agreed, is_outside) in PRINTED_BACK {
        let record = interval("t", low, high, flags);
        let (mut list, mut printed, mut again) = ([0; STRETCH_BYTES], [0; 1000], [0; STRETCH_BYTES]);
        // SAFETY: the pointers and the lengths are those of slices, of which one can be written and is no part of the other.
        let (listed, answer, relisted) = unsafe {
            let listed = rigcactus_list(record.as_ptr(), record.len(), agreed, list.as_mut_ptr(), list.len());
            let list_len = (listed >> 8) as usize * STRETCH_BYTES;
            let answer = rigcactus_print(list.as_ptr(), list_len, printed.as_mut_ptr(), printed.len());
            (listed, answer, rigcactus_list(printed.as_ptr(), (answer >> 8) as usize, agreed, again.as_mut_ptr(), again.len()))
        };
        let number = if is_outside { NOT_WRITABLE } else { ACCEPTED };
        let is_the_same = is_outside || (relisted, again) == (listed, list);
        trial.expect(3, [answer & 0xFF; 2], number, is_the_same, || format!("[{record}], offset {agreed}"));
    }
}

/// Whether the services and the second implementations read each as it is due.
pub fn run(options: &Options) -> bool {
    if options.only_made {
        return true;
    }
    let mut trial = Trial::new();
    for agreed in AGREED {
        let times: Vec<Time> = UNITS.iter().flat_map(|unit| unit.times(agreed)).collect();
        alone(&mut trial, &times, agreed);
        about(&mut trial, &times, agreed);
        in_pairs(&mut trial, agreed);
        for unit in UNITS.iter().filter(|unit| !unit.next.is_empty()) {
            let zones = if unit.digits.len() < 10 { &ZONES[..1] } else { &ZONES[..] };
            zones.iter().for_each(|zone| in_sets(&mut trial, unit, *zone, agreed));
        }
        in_comparisons(&mut trial, agreed);
    }
    in_print(&mut trial);
    println!("last_day: {} units, alone, about each other and in sets", UNITS.len());
    println!("  {:<20}{}", "", COLUMNS.map(|name| format!("{name:>14}")).concat());
    for number in [ACCEPTED, RULE, NOT_WRITABLE, NO_ROOM] {
        println!("  {:<20}{}", refusals::name(number), trial.counts.map(|counts| format!("{:>14}", counts[number as usize])).concat());
    }
    println!("  {:<46}{:>12}", "accepted, a low inside a closed high's unit", trial.inside);
    println!("  {:<46}{:>12}", "accepted, an open low pushed past its high", trial.pushed);
    println!("  {:<46}{:>12}", "differences", trial.differences);
    trial.differences == 0 && trial.inside > 0 && trial.pushed > 0
}
