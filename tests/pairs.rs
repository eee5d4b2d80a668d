//! Makes pairs of records to compare: a good one, and a copy of it with a change, which comparison is to see or not to see.

use crate::faults::PART_TYPES;
use crate::likeness::COMPARED;
use crate::markup::{write, Element, Spelling};
use crate::random::Random;
use crate::records::{amount, currency, flavor, oid, qualifiers, text, timestamp, Maker, SET_TYPES};
use crate::units::{last_of_unit, next_unit};

/// Sets an attribute, in place or at the end.
fn set(element: &mut Element, name: &str, value: &str) {
    match element.attributes.iter_mut().find(|(n, _)| n == name) {
        Some((_, old)) => *old = value.to_string(),
        None => element.attributes.push((name.to_string(), value.to_string())),
    }
}

fn unset(element: &mut Element, name: &str) {
    element.attributes.retain(|(n, _)| n != name);
}

/// Makes an element null, with nothing else but its type.
fn make_null(random: &mut Random, element: &mut Element) {
    element.attributes.retain(|(name, _)| name == "xsi:type");
    element.children.clear();
    set(element, "nullFlavor", flavor(random));
}

// ---- Changes of texts ----------------------------------------------------------------------------------------------

/// A text with one character more, less or other than another, or another text.
fn other_text(random: &mut Random, old: &str) -> String {
    let mut characters: Vec<char> = old.chars().collect();
    let at = random.below(characters.len());
    match random.below(4) {
        0 => characters.push(' '),
        1 if characters.len() > 1 => drop(characters.remove(at)),
        2 => characters[at] = random.one_of(&['a', '&', '<', '>', '"', '\'', ';', '\u{EB}', '\u{10000}']),
        _ => return text(random),
    }
    characters.into_iter().collect()
}

/// An amount that is the same, written in another way, or nearly the same.
fn other_amount(random: &mut Random, old: &str) -> String {
    let (sign, digits) = old.split_at(usize::from(old.starts_with('-')));
    let has_point = digits.contains('.');
    match random.below(8) {
        0 => format!("{sign}0{digits}"),
        1 => format!("{old}{}", if has_point { "0" } else { ".0" }),
        2 => format!("{old}{}", if has_point { "" } else { ".0000" }),
        3 if has_point => old.trim_end_matches('0').trim_end_matches('.').to_string(),
        4 => random.one_of(&["0", "-0", "0.0", "-0.0000", "000"]).to_string(),
        5 => if sign.is_empty() { format!("-{digits}") } else { digits.to_string() },
        6 => format!("{old}{}", if has_point { "1" } else { ".0001" }),
        _ => amount(random),
    }
}

/// Where the offset of a timestamp begins, or its end.
fn zone_start(text: &str) -> usize {
    text.find(['+', '-']).unwrap_or(text.len())
}

/// The first time after the span of a year or a month, in days or in ticks.
fn after_span(random: &mut Random, local: &str, zone: &str) -> String {
    let year: usize = local[..4].parse().unwrap();
    let month: usize = local.get(4..6).map_or(12, |m| m.parse().unwrap());
    let (year, month) = if month == 12 { (year + 1, 1) } else { (year, month + 1) };
    match local.len() {
        4 | 6 if year <= 9999 => format!("{year:04}{month:02}{}", random.one_of(&["01", "0100", "01000000.0000"])),
        _ => format!("{}{zone}", last_of_unit(local)),
    }
}

impl Maker<'_> {
    /// A timestamp that is the same instant, written in another way, or overlaps another, or lies beside it.
    fn other_time(&mut self, old: &str) -> String {
        let (local, zone) = old.split_at(zone_start(old));
        let last = local.len() - 1;
        match self.random.below(12) {
            // Less precise.
            0 | 1 => match local.len() {
                4 => old.to_string(),
                6 | 8 | 10 => local[..local.len() - 2].to_string(),
                12 | 14 => format!("{}{zone}", &local[..local.len() - 2]),
                16 => format!("{}{zone}", &local[..14]),
                _ => format!("{}{zone}", &local[..last]),
            },
            // More precise.
            2 | 3 => match local.len() {
                4 | 6 => format!("{local}{}", self.random.one_of(&["01", "02", "12"])),
                8 | 10 | 12 => format!("{local}{}{zone}", self.random.one_of(&["00", "01", "23"])),
                14 => format!("{local}.{}{zone}", self.random.one_of(&["0", "1", "9"])),
                15..=18 => format!("{local}{}{zone}", self.random.one_of(&["0", "1", "9"])),
                _ => old.to_string(),
            },
            4 | 5 => self.with_other_zone(local, zone),
            // The unit beside it, mostly.
            6 | 7 => {
                let digit = local.as_bytes()[last];
                let beside = if digit == b'9' || digit > b'0' && self.random.once_in(2) { digit - 1 } else { digit + 1 };
                format!("{}{}{zone}", &local[..last], beside as char)
            }
            8 => local.to_string(),
            9 => format!("{}{zone}", last_of_unit(local)),
            10 => after_span(self.random, local, zone),
            _ => timestamp(self.random),
        }
    }

    /// The same instant with another offset: the agreed one written, or an hour more on both, where the day has one.
    pub fn with_other_zone(&mut self, local: &str, zone: &str) -> String {
        if local.len() < 10 {
            return local.to_string();
        }
        let agreed = self.offset.clamp(-840, 840);
        if zone.is_empty() {
            return format!("{local}{}{:02}{:02}", if agreed < 0 { '-' } else { '+' }, agreed.abs() / 60, agreed.abs() % 60);
        }
        let hour: i64 = local[8..10].parse().unwrap();
        let hours: i64 = zone[1..3].parse().unwrap();
        let minutes: i64 = zone.get(3..).filter(|m| !m.is_empty()).map_or(0, |m| m.parse().unwrap());
        let from_utc = (hours * 60 + minutes) * if zone.starts_with('-') { -1 } else { 1 };
        let later = if self.random.once_in(2) { 1 } else { -1 };
        let (hour, from_utc) = (hour + later, from_utc + later * 60);
        if !(0..24).contains(&hour) || from_utc.abs() > 840 {
            return format!("{local}{zone}");
        }
        let sign = if from_utc < 0 { '-' } else { '+' };
        format!("{}{hour:02}{}{sign}{:02}{:02}", &local[..8], &local[10..], from_utc.abs() / 60, from_utc.abs() % 60)
    }

    // ---- Changes of records ----------------------------------------------------------------------------------------------

    /// Changes the value of an attribute, if it is there.
    fn change_text(&mut self, element: &mut Element, name: &str, other: fn(&mut Random, &str) -> String) {
        if let Some(old) = element.get(name) {
            let new = other(self.random, old);
            set(element, name, &new);
        }
    }

    fn change_time(&mut self, element: &mut Element) {
        if let Some(old) = element.get("value").map(str::to_string) {
            let new = self.other_time(&old);
            set(element, "value", &new);
        }
    }

    /// Writes a bound that is coarser than a second as the next unit's start, with the other flag: listed, it means the same.
    fn change_to_next(&mut self, interval: &mut Element, at: usize, flag: &str) {
        let Some(old) = interval.children[at].get("value") else {
            return;
        };
        let (local, zone) = old.split_at(zone_start(old));
        if let Some(next) = Some(local).filter(|local| local.len() < 14).and_then(next_unit) {
            let other = if interval.get(flag) == Some("true") { "false" } else { "true" };
            let text = format!("{next}{zone}");
            set(&mut interval.children[at], "value", &text);
            set(interval, flag, other);
        }
    }

    fn change_interval(&mut self, interval: &mut Element) {
        let side = self.random.below(2);
        let (name, flag, unbounded) = [("low", "lowClosed", "NINF"), ("high", "highClosed", "PINF")][side];
        let at = interval.children.iter().position(|child| child.name == name);
        match (self.random.below(9), at) {
            (0 | 1, _) => match interval.get(flag) {
                Some("true") => set(interval, flag, "false"),
                Some(_) => set(interval, flag, "true"),
                None => set(interval, flag, "false"),
            },
            (2, Some(at)) => drop(interval.children.remove(at)),
            (3, Some(at)) => interval.children[at].attributes = vec![("nullFlavor".to_string(), flavor(self.random).to_string())],
            (4, Some(at)) => {
                interval.children[at].attributes = vec![("nullFlavor".to_string(), unbounded.to_string())];
                unset(interval, flag);
            }
            (5, None) => {
                let to = if side == 0 { 0 } else { interval.children.len() };
                interval.children.insert(to, Element::new(name).with("nullFlavor", unbounded));
                unset(interval, flag);
            }
            (6, Some(at)) => self.change_to_next(interval, at, flag),
            (_, Some(at)) => {
                let mut bound = interval.children[at].clone();
                self.change_time(&mut bound);
                interval.children[at] = bound;
            }
            _ => {}
        }
    }

    fn change_code(&mut self, code: &mut Element) {
        match self.random.below(7) {
            0 => {
                unset(code, "code");
                code.children.clear();
            }
            1 => self.change_text(code, "code", other_text),
            2 => set(code, "codeSystem", &oid(self.random)),
            3 => set(code, "codeSystemName", &text(self.random)),
            4 => unset(code, "codeSystemVersion"),
            5 => code.children.clear(),
            _ => {
                if code.get("code").is_some() {
                    code.children = vec![Element::new("displayName").with("value", &text(self.random))];
                }
            }
        }
    }

    fn change_name(&mut self, name: &mut Element) {
        if name.children.is_empty() {
            return;
        }
        let at = self.random.below(name.children.len());
        let part = &mut name.children[at];
        match self.random.below(10) {
            0 => name.children.swap(0, at),
            1 => drop(name.children.remove(at)),
            2 => {
                let twice = name.children[at].clone();
                name.children.insert(at, twice);
            }
            3 => set(part, "type", self.random.one_of(&PART_TYPES)),
            4 => unset(part, "type"),
            5 if part.get("nullFlavor").is_none() => set(part, "qualifier", &qualifiers(self.random)),
            6 => unset(part, "qualifier"),
            7 => make_null(self.random, part),
            _ => {
                let mut changed = name.children[at].clone();
                self.change_text(&mut changed, "value", other_text);
                name.children[at] = changed;
            }
        }
    }

    /// Changes a record in one place.
    fn change(&mut self, record: &mut Element) {
        match self.random.below(24) {
            0 | 1 => return make_null(self.random, record),
            2 => record.name = "other".to_string(),
            3 => set(record, "xmlns:xsi", &text(self.random)),
            4 => return record.attributes.rotate_left(1),
            _ => {}
        }
        match record.get("xsi:type") {
            Some("TS") => self.change_time(record),
            Some("IVL_TS") => self.change_interval(record),
            Some("MO") if self.random.once_in(4) => set(record, "currency", &currency(self.random)),
            Some("MO") => self.change_text(record, "value", other_amount),
            Some("II") => match self.random.below(5) {
                0 => unset(record, "extension"),
                1 => set(record, "extension", &text(self.random)),
                2 => set(record, "root", &oid(self.random)),
                _ => self.change_text(record, "extension", other_text),
            },
            Some("CD") => self.change_code(record),
            _ => self.change_name(record),
        }
    }

    // ---- Pairs -----------------------------------------------------------------------------------------------------------

    /// Two trees of one type that can be compared.
    fn alike(&mut self) -> (Element, Element) {
        let of_type = self.random.one_of(&COMPARED);
        let first = self.good_of(of_type);
        let mut second = if self.random.once_in(16) { self.good_of(of_type) } else { first.clone() };
        let changes = self.random.one_of(&[0, 1, 1, 1, 1, 2]);
        for _ in 0..changes {
            self.change(&mut second);
        }
        if self.random.once_in(2) { (first, second) } else { (second, first) }
    }

    /// A timestamp or an interval with an impossible time, and now and then another fault.
    fn impossible_time(&mut self) -> Element {
        let of_type = self.random.one_of(&["TS", "IVL_TS"]);
        let mut record = self.good_of(of_type);
        self.damage_times(&mut record);
        if self.random.once_in(4) {
            self.damage(&mut record);
        }
        record
    }

    fn spelled(&mut self, tree: &Element) -> Vec<u8> {
        let spelling = Spelling::any(self.random);
        write(tree, spelling, self.random)
    }

    /// Two records to compare: mostly of one type and nearly the same, else of two types, of a set type, or with one that is not good.
    pub fn pair(&mut self) -> (Vec<u8>, Vec<u8>) {
        let (mut first, mut second) = self.alike();
        match self.random.below(32) {
            0 | 1 => return (self.record(), self.spelled(&second)),
            2 | 3 => return (self.spelled(&first), self.record()),
            4 => return (self.record(), self.record()),
            5 => second = self.good(),
            6 => {
                let of_type = self.random.one_of(&SET_TYPES);
                first = self.good_of(of_type);
                second = if self.random.once_in(2) { first.clone() } else { self.good() };
            }
            7 => self.damage(&mut first),
            8 => self.damage(&mut second),
            9 => {
                first = self.impossible_time();
                second = if self.random.once_in(2) { first.clone() } else { second };
            }
            10 => {
                second = self.impossible_time();
                first = if self.random.once_in(2) { self.good_of("TS") } else { first };
            }
            _ => {}
        }
        (self.spelled(&first), self.spelled(&second))
    }
}
