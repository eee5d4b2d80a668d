//! How bounds of intervals are read, for the second judge and the second lister: written from the rules page and the request that the last
//! day of a pass is a whole day alone. Where a next unit begins is found in a calendar that was counted day by day.

use crate::tick::{self, Calendar};

const DAY: i64 = 864_000_000;
const HOUR: i64 = 36_000_000;
const MINUTE: i64 = 600_000;

#[derive(Clone, Copy, PartialEq, Debug)]
pub enum Bound {
    Unbounded,
    Open(i64),
    Closed(i64),
}
use Bound::*;

/// The time of a bound: its tick, its precision, and the start of the next unit if it is coarser than a second.
#[derive(Clone, Copy)]
pub struct Time {
    pub tick: i64,
    pub precision: u64,
    pub next: Option<i64>,
}

/// The time that a text is, if it is one.
pub fn time(text: &str, offset: i64, calendar: &Calendar) -> Option<Time> {
    let (tick, precision) = tick::read(text, offset, calendar).ok()?;
    let next = ticks_to_next(text, precision, calendar).map(|ticks| tick + ticks);
    Some(Time { tick, precision, next })
}

/// How many ticks after the start of its smallest written unit the next one starts, if the unit is coarser than a second.
fn ticks_to_next(text: &str, precision: u64, calendar: &Calendar) -> Option<i64> {
    let number = |from: usize, to: usize| text[from..to].parse::<i64>().unwrap();
    let days_before = |year: i64, month: i64| calendar.days_before(year, month, 1).unwrap();
    let year = number(0, 4);
    Some(match precision {
        4 => (days_before(year + 1, 1) - days_before(year, 1)) * DAY,
        6 if number(4, 6) == 12 => (days_before(year + 1, 1) - days_before(year, 12)) * DAY,
        6 => (days_before(year, number(4, 6) + 1) - days_before(year, number(4, 6))) * DAY,
        8 => DAY,
        10 => HOUR,
        12 => MINUTE,
        _ => return None,
    })
}

/// What a low reads as: an open one that is coarser than a second is closed at the next unit's start.
pub fn low(time: Time, is_closed: bool) -> Bound {
    match time.next {
        _ if is_closed => Closed(time.tick),
        Some(next) => Closed(next),
        None => Open(time.tick),
    }
}

/// What a high reads as: a closed one that is coarser than a second is open at the next unit's start.
pub fn high(time: Time, is_closed: bool) -> Bound {
    match time.next {
        _ if !is_closed => Open(time.tick),
        Some(next) => Open(next),
        None => Closed(time.tick),
    }
}

/// Whether two bounds are crossed: the low's own tick is after the last one that a closed coarse high takes in, or else after the high's.
pub fn are_crossed(low: Time, high: Time, is_high_closed: bool) -> bool {
    let last = match high.next {
        Some(next) if is_high_closed => next - 1,
        _ => high.tick,
    };
    low.tick > last
}
