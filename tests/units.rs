//! Makes intervals whose bounds lie about a unit of time, as a day: one bound is the unit, and the other its start, a time inside it, its last
//! tick or the start of the next one. And counts what bounds records have that are coarser than a second.

use crate::bounds::{self, Time};
use crate::markup::Element;
use crate::random::Random;
use crate::records::Maker;
use crate::refusals::{ACCEPTED, RULE};
use crate::tick::{self, month_length, Calendar};

// ---- Texts ---------------------------------------------------------------------------------------------------------

/// Seconds at which units end or begin: ends of months, of February in years of each kind and of years, and the first and the last there are.
const EDGES: [&str; 14] = [
    "20240430235959", "20240131235959", "20240228235959", "20240229235959", "20230228235959", "19000228235959", "20000229235959",
    "20231231235959", "20241231235959", "20240501000000", "20240615123045", "20240630120059", "00010101000000", "99991231235959",
];

/// The digits of a second: mostly one at which units end or begin.
pub fn edge(random: &mut Random) -> String {
    if !random.once_in(4) {
        return random.one_of(&EDGES).to_string();
    }
    let year = tick::year(random);
    let parts = tick::parts(random, year);
    format!("{year:04}{}", parts.map(|part| format!("{part:02}")).concat())
}

/// The start of a time's smallest unit, to the tick.
fn start_of_unit(local: &str) -> String {
    format!("{local}{}", &"00000101000000.0000"[local.len()..])
}

/// The last tick of a time's smallest unit.
pub fn last_of_unit(local: &str) -> String {
    let day = match local.len() {
        4 => format!("{local}1231"),
        6 => format!("{local}{:02}", month_length(local[..4].parse().unwrap(), local[4..].parse().unwrap())),
        _ => local.to_string(),
    };
    format!("{day}{}", &"00000000235959.9999"[day.len()..])
}

/// The next unit, of a time down to a second: one more in the smallest part, or else its first value and one more in the part before. None
/// after year 9999.
pub fn next_unit(local: &str) -> Option<String> {
    let mut parts: Vec<usize> = vec![local[..4].parse().unwrap()];
    parts.extend((4..local.len()).step_by(2).map(|at| local[at..at + 2].parse::<usize>().unwrap()));
    for at in (0..parts.len()).rev() {
        let (first, last) = match at {
            0 => (1, 9999),
            1 => (1, 12),
            2 => (1, month_length(parts[0], parts[1])),
            3 => (0, 23),
            _ => (0, 59),
        };
        if parts[at] < last {
            parts[at] += 1;
            return Some(format!("{:04}{}", parts[0], parts[1..].iter().map(|part| format!("{part:02}")).collect::<String>()));
        }
        parts[at] = first;
    }
    None
}

/// A time inside the smallest unit of another, with more parts written.
fn inside_unit(random: &mut Random, local: &str) -> String {
    let mut text = local.to_string();
    while text.len() < 14 && (text == local || random.once_in(2)) {
        let (first, last) = match text.len() {
            4 => (1, 12),
            6 => (1, month_length(text[..4].parse().unwrap(), text[4..].parse().unwrap())),
            8 => (0, 23),
            _ => (0, 59),
        };
        let part = random.from(first, last);
        text += &format!("{:02}", random.one_of(&[first, last, part]));
    }
    if text.len() == 14 && (text == local || random.once_in(2)) {
        text += random.one_of(&[".0", ".5", ".0001", ".9999"]);
    }
    text
}

// ---- Intervals -----------------------------------------------------------------------------------------------------

impl Maker<'_> {
    /// A time to so many digits, and an offset of its own, where it can have one, or none.
    fn unit(&mut self, edge: &str) -> (String, String) {
        let local = edge[..self.random.one_of(&[4, 6, 8, 8, 10, 12, 14])].to_string();
        let has_zone = local.len() >= 10 && self.random.once_in(2);
        (local, if has_zone { tick::zone(self.random) } else { String::new() })
    }

    /// A time about a unit, at the same offset. Once in two it is written with another offset, if it has a clock.
    fn time_about(&mut self, local: &str, zone: &str) -> String {
        let text = match self.random.below(8) {
            0 => local.to_string(),
            1 => start_of_unit(local),
            2 | 3 => inside_unit(self.random, local),
            4 | 5 => last_of_unit(local),
            _ => match next_unit(local) {
                Some(next) if self.random.once_in(2) => next,
                Some(next) => start_of_unit(&next),
                None => last_of_unit(local),
            },
        };
        if self.random.once_in(2) { self.with_other_zone(&text, zone) } else { format!("{text}{zone}") }
    }

    /// An interval about a unit of which a second is part. Two of three times the unit is the high. The bounds may be crossed.
    pub fn interval_about(&mut self, name: &str, edge: &str, flags: [&str; 2]) -> Element {
        let (local, zone) = self.unit(edge);
        let other = self.time_about(&local, &zone);
        let unit = format!("{local}{zone}");
        let (low, high) = if self.random.once_in(3) { (unit, other) } else { (other, unit) };
        let element = Element::new(name).with("xsi:type", "IVL_TS").with("lowClosed", flags[0]).with("highClosed", flags[1]);
        element.holding(Element::new("low").with("value", &low)).holding(Element::new("high").with("value", &high))
    }

    /// The same with bounds that are not crossed: they change places where they would be.
    pub fn uncrossed_about(&mut self, name: &str, edge: &str, flags: [&str; 2]) -> Element {
        let mut interval = self.interval_about(name, edge, flags);
        let times = valued(&interval, self.offset.clamp(-840, 840), self.calendar);
        if times.is_some_and(|(low, high)| bounds::are_crossed(low, high, flags[1] == "true")) {
            let [low, high] = &mut interval.children[..] else { unreachable!() };
            std::mem::swap(&mut low.attributes, &mut high.attributes);
        }
        interval
    }

    pub fn flags(&mut self) -> [&'static str; 2] {
        self.random.one_of(&[["true", "true"], ["true", "false"], ["false", "true"], ["false", "false"]])
    }
}

// ---- Counts --------------------------------------------------------------------------------------------------------

/// Kinds of bounds; of a million records that are checked or listed, how many at least are to have each, and be accepted, or RULE.
const KINDS: [(&str, u64); 16] = [
    ("accepted, a closed high to the year", 10_000),
    ("accepted, a closed high to the month", 10_000),
    ("accepted, a closed high to the day", 10_000),
    ("accepted, a closed high to the hour", 10_000),
    ("accepted, a closed high to the minute", 10_000),
    ("accepted, an open low to the year", 10_000),
    ("accepted, an open low to the month", 10_000),
    ("accepted, an open low to the day", 10_000),
    ("accepted, an open low to the hour", 10_000),
    ("accepted, an open low to the minute", 10_000),
    ("accepted, a low inside a closed high's unit", 10_000),
    ("accepted, a low at a closed high's last tick", 3_000),
    ("accepted, an open low pushed past its high", 3_000),
    ("accepted, a closed high to the end of 9999", 2_000),
    ("RULE, a low a tick after a closed high's unit", 250),
    ("RULE, a low inside an open high's unit", 500),
];

/// The coarse precisions, in the order of `KINDS`.
const COARSE: [u64; 5] = [4, 6, 8, 10, 12];

/// The times of an interval that has two.
fn valued(interval: &Element, offset: i64, calendar: &Calendar) -> Option<(Time, Time)> {
    let [low, high] = &interval.children[..] else {
        return None;
    };
    let time = |bound: &Element, name: &str| bounds::time(bound.get("value").filter(|_| bound.name == name)?, offset, calendar);
    time(low, "low").zip(time(high, "high"))
}

/// How many records had each kind of bounds.
#[derive(Default)]
pub struct Counts([u64; KINDS.len()]);

impl Counts {
    /// Counts a record for which a number was due, once for each kind that any of its intervals has.
    pub fn add(&mut self, number: u64, tree: &Element, offset: i64, calendar: &Calendar) {
        let mut found = [false; KINDS.len()];
        if [ACCEPTED, RULE].contains(&number) {
            find(number, tree, offset, calendar, &mut found);
        }
        for (count, is_so) in self.0.iter_mut().zip(found) {
            *count += u64::from(is_so);
        }
    }

    /// The kinds, with how often each occurred.
    pub fn rows(&self) -> impl Iterator<Item = (&'static str, u64)> + '_ {
        KINDS.iter().zip(self.0).map(|((kind, _), count)| (*kind, count))
    }

    /// The kinds that are rarer among so many records than they should be, and their least shares of a million.
    pub fn rare(&self, records: u64) -> impl Iterator<Item = (&'static str, u64)> + '_ {
        KINDS.iter().zip(self.0).filter(move |((_, least), count)| count * 1_000_000 < records * least).map(|(kind, _)| *kind)
    }
}

/// Looks for the kinds of bounds of all intervals in an element.
fn find(number: u64, element: &Element, offset: i64, calendar: &Calendar, found: &mut [bool; KINDS.len()]) {
    element.children.iter().for_each(|child| find(number, child, offset, calendar, found));
    if element.get("xsi:type") != Some("IVL_TS") {
        return;
    }
    let is_closed = |flag: &str| element.get(flag) == Some("true");
    let is_open = |flag: &str| element.get(flag) == Some("false");
    for bound in &element.children {
        let Some(time) = bound.get("value").and_then(|text| bounds::time(text, offset, calendar)) else {
            continue;
        };
        let at = COARSE.iter().position(|precision| *precision == time.precision);
        let is_high = bound.name == "high" && is_closed("highClosed");
        let is_low = bound.name == "low" && is_open("lowClosed");
        let Some(at) = at.filter(|_| number == ACCEPTED && (is_high || is_low)) else {
            continue;
        };
        found[if is_high { at } else { COARSE.len() + at }] = true;
        let digits = time.precision as usize;
        found[13] |= is_high && bound.get("value").unwrap()[..digits] == "999912312359"[..digits];
    }
    let Some((low, high)) = valued(element, offset, calendar) else {
        return;
    };
    let next = high.next.unwrap_or(high.tick);
    let (is_inside, to_end) = (high.tick < low.tick && low.tick < next, is_closed("highClosed"));
    let is_pushed = is_open("lowClosed") && low.next.is_some_and(|start| start > if to_end { next } else { high.tick });
    found[10] |= number == ACCEPTED && is_inside && to_end;
    found[11] |= number == ACCEPTED && is_inside && to_end && low.tick == next - 1;
    found[12] |= number == ACCEPTED && is_pushed;
    found[14] |= number == RULE && high.next.is_some() && to_end && low.tick == next;
    found[15] |= number == RULE && is_inside && !to_end;
}
