//! A second comparer of records, written from the rules page alone, over the trees that they are.

use crate::faults::{self, is_null, ten_thousandths};
use crate::markup::Element;
use crate::refusals::TYPE;
use crate::tick::{self, Calendar};

#[derive(Clone, Copy, PartialEq, Debug)]
pub enum Answer {
    Yes = 1,
    No = 2,
    Unknown = 3,
}
use Answer::*;

/// The types whose values can be compared.
pub const COMPARED: [&str; 6] = ["TS", "IVL_TS", "MO", "II", "CD", "EN"];

/// What is due for two records.
#[derive(Clone, Copy, PartialEq, Debug)]
pub enum Due {
    Answered(Answer),
    /// The record, 1 or 2, and its number.
    Refused(u64, u64),
}

impl Due {
    /// The same as the service packs it.
    pub fn packed(self) -> u64 {
        match self {
            Due::Answered(answer) => (answer as u64) << 16,
            Due::Refused(record, number) => record << 8 | number,
        }
    }
}

/// What is due, and the type of the first record, where it is accepted.
pub struct Compared {
    pub due: Due,
    pub of_type: Option<String>,
}

/// Compares two records: the first is judged, then the second, and then the types are looked at.
pub fn compare(first: &[u8], second: &[u8], offset: i64, calendar: &Calendar) -> Compared {
    let mut trees = Vec::new();
    for (record, bytes) in [(1, first), (2, second)] {
        let judged = faults::judge(bytes, offset, calendar);
        if judged.number() != 0 {
            return Compared { due: Due::Refused(record, judged.number()), of_type: None };
        }
        trees.push(judged.tree.unwrap());
    }
    let types = [trees[0].get("xsi:type").unwrap(), trees[1].get("xsi:type").unwrap()];
    let due = if types[0] != types[1] || !COMPARED.contains(&types[0]) {
        Due::Refused(2, TYPE)
    } else {
        let comparer = Comparer { offset, calendar };
        Due::Answered(comparer.values(types[0], &trees[0], &trees[1]))
    };
    Compared { due, of_type: Some(types[0].to_string()) }
}

/// One no makes no, else one unknown makes unknown.
fn together(answers: &[Answer]) -> Answer {
    match answers {
        _ if answers.contains(&No) => No,
        _ if answers.contains(&Unknown) => Unknown,
        _ => Yes,
    }
}

fn yes_if(holds: bool) -> Answer {
    if holds { Yes } else { No }
}

/// Whether an attribute is the same in both, absence too.
fn same(name: &str, a: &Element, b: &Element) -> Answer {
    yes_if(a.get(name) == b.get(name))
}

/// A timestamp: its precision, its tick, and the tick that its span ends before.
struct Span {
    precision: u64,
    tick: i64,
    end: i64,
}

/// A side of an interval.
enum Side<'a> {
    /// Missing or null.
    NotKnown,
    Unbounded,
    Valued(&'a Element),
}

struct Comparer<'a> {
    offset: i64,
    calendar: &'a Calendar,
}

impl Comparer<'_> {
    fn values(&self, of_type: &str, a: &Element, b: &Element) -> Answer {
        if is_null(a) || is_null(b) {
            return Unknown;
        }
        match of_type {
            "TS" => self.points(a, b),
            "IVL_TS" => together(&[
                self.sides("low", "lowClosed", "NINF", a, b),
                self.sides("high", "highClosed", "PINF", a, b),
            ]),
            "MO" => {
                let amount = |element: &Element| ten_thousandths(element.get("value").unwrap());
                together(&[yes_if(amount(a) == amount(b)), same("currency", a, b)])
            }
            "II" => together(&[same("root", a, b), same("extension", a, b)]),
            "CD" if a.get("code").is_none() || b.get("code").is_none() => Unknown,
            "CD" => together(&[same("code", a, b), same("codeSystem", a, b)]),
            _ => names(a, b),
        }
    }

    /// Two timestamps, of which none is null.
    fn points(&self, a: &Element, b: &Element) -> Answer {
        let (a, b) = (self.span(a), self.span(b));
        if (a.precision, a.tick) == (b.precision, b.tick) {
            return Yes;
        }
        let share_a_tick = a.tick < b.end && b.tick < a.end;
        if share_a_tick { Unknown } else { No }
    }

    fn span(&self, element: &Element) -> Span {
        const DAY: i64 = 864_000_000;
        let text = element.get("value").unwrap();
        let (tick, precision) = tick::read(text, self.offset, self.calendar).unwrap();
        let year: usize = text[..4].parse().unwrap();
        let days_of = |month: usize| tick::month_length(year, month) as i64;
        let length = match precision {
            4 => (1..=12).map(days_of).sum::<i64>() * DAY,
            6 => days_of(text[4..6].parse().unwrap()) * DAY,
            8 => DAY,
            10 => DAY / 24,
            12 => DAY / 24 / 60,
            14 => 10_000,
            15 => 1_000,
            16 => 100,
            17 => 10,
            _ => 1,
        };
        Span { precision, tick, end: tick + length }
    }

    fn sides(&self, name: &str, flag: &str, unbounded: &str, a: &Element, b: &Element) -> Answer {
        match (side(a, name, unbounded), side(b, name, unbounded)) {
            (Side::NotKnown, _) | (_, Side::NotKnown) => Unknown,
            (Side::Unbounded, Side::Unbounded) => Yes,
            (Side::Valued(low_a), Side::Valued(low_b)) => together(&[self.points(low_a, low_b), same(flag, a, b)]),
            _ => No,
        }
    }
}

fn side<'a>(interval: &'a Element, name: &str, unbounded: &str) -> Side<'a> {
    match interval.children.iter().find(|child| child.name == name) {
        None => Side::NotKnown,
        Some(bound) => match bound.get("nullFlavor") {
            None => Side::Valued(bound),
            Some(flavor) if flavor == unbounded => Side::Unbounded,
            Some(_) => Side::NotKnown,
        },
    }
}

fn names(a: &Element, b: &Element) -> Answer {
    if a.children.len() != b.children.len() {
        return No;
    }
    let part = |(a, b): (&Element, &Element)| match is_null(a) || is_null(b) {
        true => Unknown,
        false => together(&[same("type", a, b), same("value", a, b)]),
    };
    let parts: Vec<Answer> = a.children.iter().zip(&b.children).map(part).collect();
    together(&parts)
}
