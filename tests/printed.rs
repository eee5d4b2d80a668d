//! A second printer of lists, written from the rules page and the request alone: it judges a list by one clause of the request's sentence
//! after another, and writes the record with dates that it finds by going through the calendar day by day.

use std::collections::BTreeSet;

use crate::places::{Stretch, STRETCH_BYTES};
use crate::refusals::{NOT_WRITABLE, NO_ROOM};
use crate::tick::month_length;

/// What can be wrong with a list: the ways of being improper, in the order of the request's sentence, and a tick that no timestamp has.
#[derive(Clone, Copy, PartialEq, Eq, PartialOrd, Ord, Debug)]
pub enum Fault {
    Length,
    TooMany,
    Kind,
    UnboundedTick,
    UnboundedInside,
    NoPlace,
    OutOfOrder,
    Overlapping,
    NoneBetween,
    OutsideYears,
}

/// The faults in words, in their order.
pub const FAULTS: [&str; 10] = [
    "a length that is no multiple of 32",
    "over 32 stretches",
    "a bad kind",
    "an unbounded end with a tick",
    "an unbounded end inside the list",
    "a stretch with no place",
    "stretches out of order",
    "stretches that overlap",
    "stretches with no place between",
    "a tick outside years 0001 to 9999",
];

pub const MOST_STRETCHES: usize = 32;

/// What a list is: all that is wrong with it; and its record, where nothing is.
pub struct Printed {
    pub faults: BTreeSet<Fault>,
    pub record: Vec<u8>,
}

impl Printed {
    /// The answer that is due for a lent record of so many bytes.
    pub fn answer(&self, length: usize) -> u64 {
        match () {
            _ if !self.faults.is_empty() => NOT_WRITABLE,
            _ if self.record.len() > length => NO_ROOM,
            _ => (self.record.len() as u64) << 8,
        }
    }

    /// What a lent record is afterwards that was as said before.
    pub fn after(&self, before: &[u8]) -> Vec<u8> {
        let mut after = before.to_vec();
        if self.answer(before.len()) & 0xFF == 0 {
            after[..self.record.len()].copy_from_slice(&self.record);
        }
        after
    }
}

pub fn print(list: &[u8], dates: &Dates) -> Printed {
    let faults = judge(list, dates);
    let record = if faults.is_empty() { record(&stretches(list), dates) } else { String::new() };
    Printed { faults, record: record.into_bytes() }
}

/// The stretches of a list, and not what is left over of its bytes.
pub fn stretches(list: &[u8]) -> Vec<Stretch> {
    let numbers: Vec<i64> = list.chunks_exact(8).map(|number| i64::from_le_bytes(number.try_into().unwrap())).collect();
    numbers.chunks_exact(4).map(|stretch| stretch.try_into().unwrap()).collect()
}

// ---- The judge -----------------------------------------------------------------------------------------------------

/// A place of the line, for ticks of any size: a tick is twice its number, the gap after it is one more.
type Place = i128;

const BEFORE_ALL: Place = -1 << 100;
const AFTER_ALL: Place = 1 << 100;

/// All that is wrong with a list.
fn judge(list: &[u8], dates: &Dates) -> BTreeSet<Fault> {
    let stretches = stretches(list);
    let mut faults = BTreeSet::new();
    if list.len() % STRETCH_BYTES != 0 {
        faults.insert(Fault::Length);
    }
    if stretches.len() > MOST_STRETCHES {
        faults.insert(Fault::TooMany);
    }
    let mut runs = Vec::new();
    for (i, [low_kind, low_tick, high_kind, high_tick]) in stretches.iter().copied().enumerate() {
        let low = bound_fault(low_kind, low_tick, i == 0, dates);
        let high = bound_fault(high_kind, high_tick, i + 1 == stretches.len(), dates);
        faults.extend(low.into_iter().chain(high));
        // A bound of no kind has no place, and that of an unbounded end inside a list is not asked for.
        if [low, high].iter().any(|fault| matches!(fault, Some(Fault::Kind | Fault::UnboundedInside))) {
            continue;
        }
        let run = (first_place(low_kind, low_tick), last_place(high_kind, high_tick));
        if run.0 > run.1 {
            faults.insert(Fault::NoPlace);
        } else {
            runs.push(run);
        }
    }
    for (i, earlier) in runs.iter().enumerate() {
        faults.extend(runs[i + 1..].iter().filter_map(|later| order_fault(*earlier, *later)));
    }
    faults
}

fn bound_fault(kind: i64, tick: i64, is_outer: bool, dates: &Dates) -> Option<Fault> {
    match kind {
        0 if !is_outer => Some(Fault::UnboundedInside),
        0 => (tick != 0).then_some(Fault::UnboundedTick),
        1 | 2 => dates.date(tick).is_none().then_some(Fault::OutsideYears),
        _ => Some(Fault::Kind),
    }
}

fn first_place(kind: i64, tick: i64) -> Place {
    match kind {
        0 => BEFORE_ALL,
        1 => 2 * Place::from(tick) + 1,
        _ => 2 * Place::from(tick),
    }
}

fn last_place(kind: i64, tick: i64) -> Place {
    match kind {
        0 => AFTER_ALL,
        1 => 2 * Place::from(tick) - 1,
        _ => 2 * Place::from(tick),
    }
}

/// What is wrong between a stretch and one that stands later in the list, each from its first place to its last.
fn order_fault(earlier: (Place, Place), later: (Place, Place)) -> Option<Fault> {
    match () {
        _ if later.1 < earlier.0 => Some(Fault::OutOfOrder),
        _ if later.0 <= earlier.1 => Some(Fault::Overlapping),
        _ if later.0 == earlier.1 + 1 => Some(Fault::NoneBetween),
        _ => None,
    }
}

// ---- The record ----------------------------------------------------------------------------------------------------

const TICKS_IN_A_DAY: i64 = 864_000_000;

/// Every day of years 1 to 9999, one after another, by its year, month and day.
pub struct Dates(Vec<(u16, u8, u8)>);

impl Dates {
    pub fn new() -> Dates {
        let mut dates = Vec::new();
        for year in 1..=9999 {
            for month in 1..=12 {
                dates.extend((1..=month_length(year, month)).map(|day| (year as u16, month as u8, day as u8)));
            }
        }
        Dates(dates)
    }

    /// How many days there are.
    pub fn count(&self) -> usize {
        self.0.len()
    }

    /// The year, month and day of a tick, where it has one of those years.
    pub fn date(&self, tick: i64) -> Option<(u16, u8, u8)> {
        let days = usize::try_from(tick.div_euclid(TICKS_IN_A_DAY)).ok()?;
        self.0.get(days).copied()
    }

    /// The full timestamp of a tick, at offset zero.
    pub fn timestamp(&self, tick: i64) -> Option<String> {
        let (year, month, day) = self.date(tick)?;
        let clock = tick % TICKS_IN_A_DAY;
        let (seconds, fraction) = (clock / 10_000, clock % 10_000);
        let (hour, minute, second) = (seconds / 3600, seconds / 60 % 60, seconds % 60);
        Some(format!("{year:04}{month:02}{day:02}{hour:02}{minute:02}{second:02}.{fraction:04}+0000"))
    }
}

/// The record of a proper list.
fn record(stretches: &[Stretch], dates: &Dates) -> String {
    let empty = [[1, 0, 1, 0]];
    let stretches = if stretches.is_empty() { &empty } else { stretches };
    let terms: String = stretches.iter().map(|stretch| term(*stretch, dates)).collect();
    format!("<stay xsi:type=\"QSU_TS\">{terms}</stay>")
}

fn term([low_kind, low_tick, high_kind, high_tick]: Stretch, dates: &Dates) -> String {
    let flag = |name: &str, kind: i64| match kind {
        0 => String::new(),
        _ => format!(" {name}Closed=\"{}\"", kind == 2),
    };
    let bound = |name: &str, flavor: &str, kind: i64, tick: i64| match kind {
        0 => format!("<{name} nullFlavor=\"{flavor}\"/>"),
        _ => format!("<{name} value=\"{}\"/>", dates.timestamp(tick).unwrap()),
    };
    let flags = flag("low", low_kind) + &flag("high", high_kind);
    let bounds = bound("low", "NINF", low_kind, low_tick) + &bound("high", "PINF", high_kind, high_tick);
    format!("<term xsi:type=\"IVL_TS\"{flags}>{bounds}</term>")
}
