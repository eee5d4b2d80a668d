//! Makes set records to list: nested, of few intervals and of many, whose bounds lie so close together that stretches touch, stay apart
//! by a gap, or are a single instant. In one of four the bounds are years, months, days, hours and minutes about one second, and times inside
//! these units, at their last ticks and at the next one's start; one in thirty of those intervals may be crossed.

use crate::faults::FLAVORS;
use crate::markup::{write, Element, Spelling, MOST_OPEN};
use crate::places::MOST_INTERVALS;
use crate::random::Random;
use crate::records::{damage_bytes, flavor, timestamp, Maker, LONGEST, SET_TYPES};
use crate::units::{edge, next_unit};

/// Where the bounds of a record lie.
#[derive(Clone, Copy, PartialEq)]
enum Line {
    /// On ticks one after another.
    Ticks,
    /// An hour apart.
    Hours,
    /// About the first and the last times that can be written.
    Ends,
    /// On days one after another, and about units that end there.
    Units,
    Anywhere,
}

/// What the intervals of one record have in common.
struct Plan {
    line: Line,
    /// The second that units lie about.
    edge: String,
    /// How many places of the line bounds lie on.
    width: usize,
    /// How often of 8 times a lone interval is put into a set of its own.
    deep: usize,
    /// Once in so many intervals and sets one is not known, if ever.
    unknown: Option<usize>,
}

impl Maker<'_> {
    // ---- Bounds --------------------------------------------------------------------------------------------------------

    /// A timestamp at a place of a line, with an offset of its own or without, and with more digits than it needs now and then.
    fn time_at(&mut self, Plan { line, edge, .. }: &Plan, place: usize) -> String {
        match line {
            Line::Anywhere => return timestamp(self.random),
            Line::Ends => return time_at_an_end(self.random),
            Line::Units => return self.day_at(edge, place),
            _ => {}
        }
        let zone = if self.random.once_in(2) { None } else { Some(self.random.from(0, 1680) as i64 - 840) };
        let from_utc = zone.unwrap_or(self.offset.clamp(-840, 840));
        let (hours, fraction) = if *line == Line::Ticks { (0, place) } else { (place, 0) };
        let minutes = 36 * 60 + hours as i64 * 60 + from_utc;
        let (day, hour, minute) = (1 + minutes / 1440, minutes / 60 % 24, minutes % 60);

        let digits = format!("202405{day:02}{hour:02}{minute:02}00");
        let needed = match () {
            _ if fraction > 0 || *line == Line::Ticks && !self.random.once_in(8) => 14,
            _ if minute > 0 => 12,
            _ if hour > 0 || zone.is_some() => 10,
            _ => 8,
        };
        let written = if self.random.once_in(2) { needed } else { self.random.from(needed / 2, 7) * 2 };
        let mut text = digits[..written].to_string();
        if fraction > 0 || written == 14 && self.random.once_in(2) {
            let all = format!("{fraction:04}");
            let least = all.trim_end_matches('0').len().max(1);
            text += &format!(".{}", &all[..self.random.from(least, 4)]);
        }
        if let Some(zone) = zone {
            text.push(if zone < 0 { '-' } else { '+' });
            text += &format!("{:02}{:02}", zone.abs() / 60, zone.abs() % 60);
            if zone % 60 == 0 && self.random.once_in(2) {
                text.truncate(text.len() - 2);
            }
        }
        text
    }

    /// The start of a day, so many after that of a second: to the day, or to a finer unit.
    fn day_at(&mut self, edge: &str, days: usize) -> String {
        let mut day = edge[..8].to_string();
        for _ in 0..days {
            day = next_unit(&day).unwrap_or(day);
        }
        day + &"000000.0000"[..self.random.one_of(&[0, 0, 0, 2, 4, 6, 11])]
    }

    /// An interval from one place to another, its bounds in order by their ticks.
    fn interval_at(&mut self, name: &str, plan: &Plan, from: usize, to: usize, flags: [&str; 2]) -> Element {
        let mut low = Element::new("low").with("value", &self.time_at(plan, from));
        let mut high = Element::new("high").with("value", &self.time_at(plan, to));
        if self.tick(&low) > self.tick(&high) {
            std::mem::swap(&mut low.attributes, &mut high.attributes);
        }
        let element = Element::new(name).with("xsi:type", "IVL_TS").with("lowClosed", flags[0]).with("highClosed", flags[1]);
        element.holding(low).holding(high)
    }

    /// An interval: as long as the line, short, or of one place or none.
    fn any_interval(&mut self, name: &str, plan: &Plan) -> Element {
        let from = self.random.below(plan.width);
        let longest = match self.random.below(4) {
            0 => 0,
            1 => plan.width,
            _ => 2,
        };
        let to = self.random.from(from, (from + longest).min(plan.width));
        let flags = self.flags();
        let mut interval = match self.random.below(30) {
            _ if plan.line != Line::Units => self.interval_at(name, plan, from, to, flags),
            0 => self.interval_about(name, &plan.edge, flags),
            1..=20 => self.uncrossed_about(name, &plan.edge, flags),
            _ => self.interval_at(name, plan, from, to, flags),
        };
        for side in 0..2 {
            if self.random.once_in(10) {
                self.open_end(&mut interval, side);
            }
        }
        if plan.unknown.is_some_and(|n| self.random.once_in(n)) {
            self.forget(&mut interval);
        }
        interval
    }

    /// Makes the low of an interval unbounded, or its high.
    fn open_end(&mut self, interval: &mut Element, side: usize) {
        let (flag, flavor) = [("lowClosed", "NINF"), ("highClosed", "PINF")][side];
        interval.children[side].attributes = vec![("nullFlavor".to_string(), flavor.to_string())];
        interval.attributes.retain(|(name, _)| name != flag);
        if self.random.once_in(2) {
            interval.attributes.push((flag.to_string(), "false".to_string()));
        }
    }

    /// Makes an interval one that is not known: null, or with a bound that is missing or null.
    fn forget(&mut self, interval: &mut Element) {
        let side = self.random.below(2);
        match self.random.below(4) {
            0 => {
                interval.attributes.retain(|(name, _)| name == "xsi:type");
                interval.children.clear();
                interval.attributes.push(("nullFlavor".to_string(), flavor(self.random).to_string()));
            }
            1 => drop(interval.children.remove(side)),
            2 => interval.children.clear(),
            _ => {
                let flavors: Vec<&str> = FLAVORS.into_iter().filter(|f| !["NINF", "PINF"].contains(f)).collect();
                interval.children[side].attributes = vec![("nullFlavor".to_string(), self.random.one_of(&flavors).to_string())];
            }
        }
    }

    // ---- Sets ----------------------------------------------------------------------------------------------------------

    fn null_set(&mut self, name: &str) -> Element {
        let of_type = self.random.one_of(&["IVL_TS", "QSU_TS", "QSI_TS", "QSD_TS"]);
        Element::new(name).with("xsi:type", of_type).with("nullFlavor", flavor(self.random))
    }

    /// A set of so many intervals, in so many levels at most. A set takes a level, an interval with its bounds two.
    fn set_of_intervals(&mut self, name: &str, plan: &Plan, count: usize, levels: usize) -> Element {
        if count == 0 {
            return self.null_set(name);
        }
        if count == 1 && (levels < 3 || self.random.below(8) >= plan.deep) {
            return self.any_interval(name, plan);
        }
        let of_two = count > 1 && (levels > 3 || count == 2);
        let of_type = if of_two && self.random.below(5) < 2 { "QSD_TS" } else { self.random.one_of(&["QSU_TS", "QSU_TS", "QSI_TS"]) };
        let counts = match of_type {
            "QSD_TS" => {
                let first = self.random.from(1, count - 1);
                vec![first, count - first]
            }
            _ if levels == 3 || self.random.once_in(4) => vec![1; count],
            _ => {
                let members = self.random.from(1, count.min(4));
                self.split(count, members)
            }
        };
        let mut element = Element::new(name).with("xsi:type", of_type);
        for (i, count) in counts.into_iter().enumerate() {
            let name = match of_type {
                "QSD_TS" => ["minuend", "subtrahend"][i],
                _ => "term",
            };
            element = element.holding(self.set_of_intervals(name, plan, count, levels - 1));
        }
        if of_type != "QSD_TS" && plan.unknown.is_some_and(|n| self.random.once_in(n)) {
            element = element.holding(self.null_set("term"));
        }
        element
    }

    /// So many numbers, none 0, that make a sum.
    fn split(&mut self, sum: usize, members: usize) -> Vec<usize> {
        let mut counts = vec![1; members];
        for _ in members..sum {
            counts[self.random.below(members)] += 1;
        }
        counts
    }

    /// A union of intervals that lie apart or touch, in no order, so that many stretches remain.
    fn row(&mut self, name: &str, plan: &Plan, count: usize) -> Element {
        let step = self.random.from(1, 3);
        let touching = self.random.once_in(2);
        let all_flags = self.random.one_of(&[Some(["true", "true"]), Some(["false", "false"]), None]);
        let mut intervals: Vec<Element> = Vec::new();
        for i in 0..count {
            let to = i * step + if touching { step } else { self.random.below(step) };
            let flags = all_flags.unwrap_or_else(|| self.flags());
            let mut interval = self.interval_at("term", plan, i * step, to, flags);
            if i == 0 && self.random.once_in(8) {
                self.open_end(&mut interval, 0);
            }
            if i == count - 1 && self.random.once_in(8) {
                self.open_end(&mut interval, 1);
            }
            intervals.insert(self.random.below(intervals.len() + 1), interval);
        }
        let mut set = Element::new(name).with("xsi:type", "QSU_TS");
        set.children = intervals;
        set
    }

    /// A row, or what it leaves of an interval that is longer.
    fn row_or_rest(&mut self, plan: &Plan, count: usize) -> Element {
        if count == 1 || self.random.once_in(2) {
            return self.row("stay", plan, count);
        }
        let flags = self.flags();
        let mut whole = self.interval_at("minuend", plan, 0, 3 * count, flags);
        for side in 0..2 {
            if self.random.once_in(2) {
                self.open_end(&mut whole, side);
            }
        }
        let row = self.row("subtrahend", plan, count - 1);
        Element::new("stay").with("xsi:type", "QSD_TS").holding(whole).holding(row)
    }

    /// A good set record, known in all its bounds or not; seldom one whose bounds are crossed.
    fn set_record(&mut self) -> Element {
        let line = match self.random.below(20) {
            0..=10 => Line::Ticks,
            11..=12 => Line::Hours,
            13 => Line::Ends,
            14..=18 => Line::Units,
            _ => Line::Anywhere,
        };
        let plan = Plan {
            line,
            edge: edge(self.random),
            width: self.random.one_of(&[2, 4, 8, 16]),
            deep: self.random.one_of(&[0, 2, 7]),
            unknown: if self.random.once_in(6) { Some(self.random.from(1, 4)) } else { None },
        };
        if self.random.below(8) < 3 {
            let count = match self.random.below(32) {
                0..=15 => self.random.from(1, 4),
                16..=25 => self.random.from(5, 12),
                26..=27 => self.random.from(13, MOST_INTERVALS),
                28..=30 => MOST_INTERVALS,
                _ => MOST_INTERVALS + 1,
            };
            return self.row_or_rest(&plan, count);
        }
        let count = match self.random.below(64) {
            0 => 0,
            1..=45 => self.random.from(1, 4),
            46..=57 => self.random.from(5, 12),
            58..=59 => self.random.from(13, MOST_INTERVALS),
            60 => MOST_INTERVALS,
            61..=62 => MOST_INTERVALS + 1,
            _ => self.random.from(MOST_INTERVALS + 1, 40),
        };
        // One level too many is MARKUP.
        let levels = if self.random.once_in(32) { MOST_OPEN + 1 } else { MOST_OPEN };
        self.set_of_intervals("stay", &plan, count, levels)
    }

    /// A record to list, as bytes: mostly a good set, else one that is damaged, or a record of any kind.
    pub fn record_to_list(&mut self) -> Vec<u8> {
        let kind = self.random.below(100);
        if kind < 10 {
            return self.record();
        }
        let mut tree = self.set_record();
        if kind < 20 {
            self.damage(&mut tree);
        }
        if (25..30).contains(&kind) {
            self.damage_times(&mut tree);
            if self.random.once_in(3) {
                self.damage(&mut tree);
            }
        }
        if kind == 20 {
            let of_type = self.random.one_of(&SET_TYPES);
            tree.attributes[0].1 = of_type.to_string();
        }
        let mut record = match kind {
            21 => self.long(tree),
            _ => {
                let spelling = if self.random.once_in(4) { Spelling::any(self.random) } else { Spelling::PLAIN };
                write(&tree, spelling, self.random)
            }
        };
        if (22..25).contains(&kind) {
            damage_bytes(self.random, &mut record);
        }
        record.truncate(LONGEST);
        record
    }
}

/// A time about the first or the last that can be written.
fn time_at_an_end(random: &mut Random) -> String {
    let text = random.one_of(&["0001", "000101010000", "00010101000000.000", "99991231235959.999", "9999123123", "9999"]);
    let digit = if text.contains('.') { random.below(10).to_string() } else { String::new() };
    let zones: &[&str] = if text.len() < 10 { &[""] } else { &["", "", "+14", "-1400", "+0000", "+0001", "-0001"] };
    format!("{text}{digit}{}", random.one_of(zones))
}
