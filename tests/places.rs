//! A second lister of sets of times, written from the rules page and the request that the last day of a pass is a whole day alone: it asks of
//! one place after another whether the set means it.

use std::collections::BTreeSet;

use crate::bounds::{self, Bound, Time};
use crate::faults::{self, is_null};
use crate::markup::Element;
use crate::refusals::{self, NO_ROOM, TOO_MANY, TYPE, UNKNOWN_BOUND};
use crate::tick::Calendar;

/// A place of the line: a tick is twice its number, the gap after it is one more.
type Place = i64;

use Bound::{Closed, Open, Unbounded};

enum Set {
    Interval(Bound, Bound),
    Union(Vec<Set>),
    Intersection(Vec<Set>),
    Difference(Box<Set>, Box<Set>),
}

/// The types whose values can be listed.
const TIMES: [&str; 4] = ["IVL_TS", "QSU_TS", "QSI_TS", "QSD_TS"];

pub const MOST_INTERVALS: usize = 32;

/// How many bytes of a list a stretch takes.
pub const STRETCH_BYTES: usize = 32;

/// Low kind, low tick, high kind, high tick.
pub type Stretch = [i64; 4];

/// What a record is, for a list with room enough: its number, its tree, where it has one, and its stretches, where it is accepted.
pub struct Listed {
    pub number: u64,
    pub tree: Option<Element>,
    pub stretches: Vec<Stretch>,
}

impl Listed {
    /// The answer that is due for a list of so many bytes.
    pub fn answer(&self, length: usize) -> u64 {
        match self.number {
            0 if self.stretches.len() > length / STRETCH_BYTES => NO_ROOM,
            0 => (self.stretches.len() as u64) << 8,
            number => number,
        }
    }

    /// What a list is afterwards that was as said before.
    pub fn after(&self, before: &[u8]) -> Vec<u8> {
        let mut after = before.to_vec();
        if self.answer(before.len()) & 0xFF == 0 {
            let numbers = self.stretches.iter().flatten();
            let written: Vec<u8> = numbers.flat_map(|number| number.to_le_bytes()).collect();
            after[..written.len()].copy_from_slice(&written);
        }
        after
    }
}

/// Lists a record. Whether a set is known, and how many intervals it has, is asked of one with no other fault, since those come first.
pub fn list(record: &[u8], offset: i64, calendar: &Calendar) -> Listed {
    let judged = faults::judge(record, offset, calendar);
    let mut numbers = judged.faults;
    let mut stretches = Vec::new();
    if let Some(top) = &judged.tree {
        if !top.get("xsi:type").is_some_and(|t| TIMES.contains(&t)) {
            numbers.insert(TYPE);
        }
        if numbers.is_empty() {
            let set = read(top, offset, calendar);
            if set.is_none() {
                numbers.insert(UNKNOWN_BOUND);
            }
            if intervals(top) > MOST_INTERVALS {
                numbers.insert(TOO_MANY);
            }
            if numbers.is_empty() {
                stretches = draw(&set.unwrap());
            }
        }
    }
    Listed { number: refusals::first(&numbers), tree: judged.tree, stretches }
}

// ---- From a record to its set --------------------------------------------------------------------------------------

/// How many intervals are written in an element.
pub fn intervals(element: &Element) -> usize {
    usize::from(element.get("xsi:type") == Some("IVL_TS")) + element.children.iter().map(intervals).sum::<usize>()
}

/// The set that an accepted element writes, if all of it is known.
fn read(element: &Element, offset: i64, calendar: &Calendar) -> Option<Set> {
    if is_null(element) {
        return None;
    }
    if element.get("xsi:type") == Some("IVL_TS") {
        let time = |text: &str| bounds::time(text, offset, calendar);
        let low = bound(element, ["low", "lowClosed", "NINF"], time, bounds::low)?;
        let high = bound(element, ["high", "highClosed", "PINF"], time, bounds::high)?;
        return Some(Set::Interval(low, high));
    }
    let mut members = Vec::new();
    for child in &element.children {
        members.push(read(child, offset, calendar)?);
    }
    Some(match element.get("xsi:type") {
        Some("QSU_TS") => Set::Union(members),
        Some("QSI_TS") => Set::Intersection(members),
        _ => {
            let subtrahend = members.pop().unwrap();
            Set::Difference(Box::new(members.pop().unwrap()), Box::new(subtrahend))
        }
    })
}

/// A bound by its name, its flag and the flavor with which it is unbounded, if it is known.
fn bound(
    interval: &Element,
    [name, flag, unbounded]: [&str; 3],
    time: impl Fn(&str) -> Option<Time>,
    read: fn(Time, bool) -> Bound,
) -> Option<Bound> {
    let bound = interval.children.iter().find(|child| child.name == name)?;
    if let Some(flavor) = bound.get("nullFlavor") {
        return (flavor == unbounded).then_some(Unbounded);
    }
    Some(read(time(bound.get("value")?)?, interval.get(flag) == Some("true")))
}

// ---- From a set to its stretches -----------------------------------------------------------------------------------

impl Set {
    fn means(&self, place: Place) -> bool {
        match self {
            Set::Union(terms) => terms.iter().any(|term| term.means(place)),
            Set::Intersection(terms) => terms.iter().all(|term| term.means(place)),
            Set::Difference(minuend, subtrahend) => minuend.means(place) && !subtrahend.means(place),
            Set::Interval(low, high) => {
                let from_low = match *low {
                    Unbounded => true,
                    Open(tick) => place > 2 * tick,
                    Closed(tick) => place >= 2 * tick,
                };
                let to_high = match *high {
                    Unbounded => true,
                    Open(tick) => place < 2 * tick,
                    Closed(tick) => place <= 2 * tick,
                };
                from_low && to_high
            }
        }
    }

    /// The tick of every bound.
    fn ticks(&self, ticks: &mut BTreeSet<i64>) {
        match self {
            Set::Union(members) | Set::Intersection(members) => members.iter().for_each(|member| member.ticks(ticks)),
            Set::Difference(minuend, subtrahend) => {
                minuend.ticks(ticks);
                subtrahend.ticks(ticks);
            }
            Set::Interval(low, high) => {
                for bound in [low, high] {
                    if let Open(tick) | Closed(tick) = *bound {
                        ticks.insert(tick);
                    }
                }
            }
        }
    }
}

/// The stretches of a set. Where no bound lies all places are alike, so it is enough to ask of each bound's tick, of the gaps beside it,
/// and of one place beyond each end, which stands for all that lie there.
fn draw(set: &Set) -> Vec<Stretch> {
    let mut ticks = BTreeSet::new();
    set.ticks(&mut ticks);
    let mut places: BTreeSet<Place> = ticks.iter().flat_map(|tick| [2 * tick - 1, 2 * tick, 2 * tick + 1]).collect();
    let before_all = places.first().map_or(0, |place| place - 1);
    let after_all = places.last().map_or(1, |place| place + 1);
    places.extend([before_all, after_all]);

    let mut stretches = Vec::new();
    let mut run: Option<(Place, Place)> = None;
    for place in places {
        if set.means(place) {
            run = Some((run.map_or(place, |(first, _)| first), place));
        } else {
            stretches.extend(run.take());
        }
    }
    stretches.extend(run);
    let numbers = |(first, last): (Place, Place)| {
        let [low_kind, low_tick] = if first == before_all { [0, 0] } else { numbers_of(first, first - 1) };
        let [high_kind, high_tick] = if last == after_all { [0, 0] } else { numbers_of(last, last + 1) };
        [low_kind, low_tick, high_kind, high_tick]
    };
    stretches.into_iter().map(numbers).collect()
}

/// The kind and the tick of a bound: closed at a place that is a tick, else open at the tick beside the gap.
fn numbers_of(place: Place, beside: Place) -> [i64; 2] {
    if place % 2 == 0 { [2, place / 2] } else { [1, beside / 2] }
}
