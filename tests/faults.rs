//! A second judge of records, written from the rules page and the requests to say which part of a time is wrong and that the last day of a
//! pass is a whole day alone: it goes through the tree that a record is and collects all its faults. The number that is due is the one that
//! comes first (refusals.rs).

use std::collections::BTreeSet;

use crate::bounds::{self, Time};
use crate::markup::{self, Element};
use crate::refusals::{self, MARKUP, NOT_UTF8, OFFSET, RULE, SHAPE, TOO_LONG, TYPE, VALUE};
use crate::tick::{self, Calendar};

pub const MOST_BYTES: usize = 16_384;

pub const TYPES: [&str; 9] = ["TS", "IVL_TS", "QSU_TS", "QSI_TS", "QSD_TS", "MO", "II", "CD", "EN"];

pub const FLAVORS: [&str; 15] =
    ["NI", "INV", "DER", "OTH", "NINF", "PINF", "UNC", "MSK", "NA", "UNK", "ASKU", "NAV", "NASK", "QS", "TRC"];

pub const PART_TYPES: [&str; 4] = ["FAM", "GIV", "TITLE", "DEL"];

pub const QUALIFIERS: [&str; 13] = ["LS", "AC", "NB", "PR", "HON", "BR", "AD", "SP", "MID", "CL", "IN", "PFX", "SFX"];

/// Where an element stands, as far as `xsi:type` and `xmlns` go by it.
#[derive(Clone, Copy, PartialEq)]
enum Standing {
    Top,
    InSet,
    Elsewhere,
}

/// All that is wrong with a record, by the numbers of refusals; its tree, where it has one.
pub struct Judged {
    pub faults: BTreeSet<u64>,
    pub tree: Option<Element>,
}

impl Judged {
    /// The number that is due.
    pub fn number(&self) -> u64 {
        refusals::first(&self.faults)
    }
}

/// Judges a record. What stands in a record can be asked only of one that is markup, and ticks only at an offset that may be.
pub fn judge(record: &[u8], offset: i64, calendar: &Calendar) -> Judged {
    let mut judge = Judge { faults: BTreeSet::new(), offset, calendar };
    let text = std::str::from_utf8(record);
    let tree = text.ok().and_then(markup::read);
    judge.claim((-840..=840).contains(&offset), OFFSET);
    judge.claim(record.len() <= MOST_BYTES, TOO_LONG);
    judge.claim(text.is_ok(), NOT_UTF8);
    judge.claim(tree.is_some(), MARKUP);
    if let Some(top) = tree.as_ref().filter(|_| !judge.faults.contains(&OFFSET)) {
        judge.top(top);
    }
    Judged { faults: judge.faults, tree }
}

pub fn is_null(element: &Element) -> bool {
    element.get("nullFlavor").is_some()
}

struct Judge<'a> {
    faults: BTreeSet<u64>,
    offset: i64,
    calendar: &'a Calendar,
}

impl Judge<'_> {
    /// Notes a fault unless the claim holds.
    fn claim(&mut self, holds: bool, otherwise: u64) {
        if !holds {
            self.faults.insert(otherwise);
        }
    }

    /// The text of an attribute, if there is one, has its form.
    fn form(&mut self, element: &Element, name: &str, has_form: impl Fn(&str) -> bool) {
        self.claim(element.get(name).is_none_or(has_form), VALUE);
    }

    // ---- What all elements have in common ----------------------------------------------------------------------------

    /// Judges the attributes of an element against those of its own that it may carry, and `nullFlavor`.
    fn attributes(&mut self, element: &Element, standing: Standing, own: &[&str]) {
        for (name, _) in &element.attributes {
            let allowed = match name.as_str() {
                "xsi:type" => standing != Standing::Elsewhere,
                "nullFlavor" => true,
                n if n.starts_with("xmlns") => standing == Standing::Top,
                n => own.contains(&n),
            };
            self.claim(allowed, SHAPE);
        }
        self.form(element, "nullFlavor", |text| FLAVORS.contains(&text));
        let carries_own = own.iter().any(|name| element.get(name).is_some());
        self.claim(!(is_null(element) && carries_own), RULE);
    }

    /// The children that are allowed, from left to right: `may_follow` is asked of the allowed ones before and of a name.
    fn children<'e>(&mut self, element: &'e Element, may_follow: impl Fn(&[&Element], &str) -> bool) -> Vec<&'e Element> {
        let mut allowed = Vec::new();
        for child in &element.children {
            if may_follow(&allowed, &child.name) {
                allowed.push(child);
            } else {
                self.claim(false, SHAPE);
            }
        }
        self.claim(!(is_null(element) && !allowed.is_empty()), RULE);
        allowed
    }

    fn no_children(&mut self, element: &Element) {
        self.children(element, |_, _| false);
    }

    // ---- Types -------------------------------------------------------------------------------------------------------

    fn top(&mut self, element: &Element) {
        let standing = Standing::Top;
        match element.get("xsi:type") {
            Some("TS") => self.point(element, standing),
            Some("MO") => self.money(element),
            Some("II") => self.identifier(element),
            Some("CD") => self.code(element),
            Some("EN") => self.name(element),
            _ => self.set(element, standing),
        }
    }

    /// An interval or a set of times.
    fn set(&mut self, element: &Element, standing: Standing) {
        match element.get("xsi:type") {
            Some("IVL_TS") => self.interval(element, standing),
            Some("QSU_TS" | "QSI_TS") => self.terms(element, standing),
            Some("QSD_TS") => self.difference(element, standing),
            _ => self.claim(false, TYPE),
        }
    }

    fn point(&mut self, element: &Element, standing: Standing) {
        self.attributes(element, standing, &["value"]);
        self.no_children(element);
        if let Some(Err(faults)) = element.get("value").map(|text| tick::read(text, self.offset, self.calendar)) {
            self.faults.extend(faults);
        }
        self.claim(element.get("value").is_some() || is_null(element), RULE);
    }

    fn interval(&mut self, element: &Element, standing: Standing) {
        self.attributes(element, standing, &["lowClosed", "highClosed"]);
        self.form(element, "lowClosed", |text| text == "true" || text == "false");
        self.form(element, "highClosed", |text| text == "true" || text == "false");
        let bounds = self.children(element, |before, name| match name {
            "low" => before.is_empty(),
            "high" => before.iter().all(|b| b.name != "high"),
            _ => false,
        });
        for bound in &bounds {
            self.point(bound, Standing::Elsewhere);
            let (flag, unbounded, never) = match bound.name.as_str() {
                "low" => (element.get("lowClosed"), "NINF", "PINF"),
                _ => (element.get("highClosed"), "PINF", "NINF"),
            };
            let flavor = bound.get("nullFlavor");
            self.claim(flavor.is_some() || flag.is_some(), RULE);
            self.claim(!(flavor == Some(unbounded) && flag == Some("true")), RULE);
            self.claim(flavor != Some(never), RULE);
        }
        if let [low, high] = bounds[..] {
            let is_high_closed = element.get("highClosed") == Some("true");
            let times = self.time(low).zip(self.time(high));
            self.claim(!times.is_some_and(|(low, high)| bounds::are_crossed(low, high, is_high_closed)), RULE);
        }
    }

    /// The time of a bound that has a value.
    fn time(&self, bound: &Element) -> Option<Time> {
        bounds::time(bound.get("value")?, self.offset, self.calendar)
    }

    fn terms(&mut self, element: &Element, standing: Standing) {
        self.attributes(element, standing, &[]);
        let terms = self.children(element, |_, name| name == "term");
        self.claim(is_null(element) || !terms.is_empty(), SHAPE);
        for term in terms {
            self.set(term, Standing::InSet);
        }
    }

    fn difference(&mut self, element: &Element, standing: Standing) {
        self.attributes(element, standing, &[]);
        let sides = self.children(element, |before, name| match before.len() {
            0 => name == "minuend",
            1 => name == "subtrahend",
            _ => false,
        });
        self.claim(is_null(element) || sides.len() == 2, SHAPE);
        for side in sides {
            self.set(side, Standing::InSet);
        }
    }

    fn money(&mut self, element: &Element) {
        self.attributes(element, Standing::Top, &["value", "currency"]);
        self.no_children(element);
        self.form(element, "value", |text| ten_thousandths(text).is_some());
        self.form(element, "currency", |text| text.len() == 3 && text.bytes().all(|b| b.is_ascii_uppercase()));
        let (value, currency) = (element.get("value").is_some(), element.get("currency").is_some());
        self.claim(value == currency && (value || is_null(element)), RULE);
    }

    fn identifier(&mut self, element: &Element) {
        self.attributes(element, Standing::Top, &["root", "extension"]);
        self.no_children(element);
        self.form(element, "root", is_oid);
        self.form(element, "extension", is_filled);
        self.claim(element.get("root").is_some() || is_null(element), RULE);
    }

    fn code(&mut self, element: &Element) {
        self.attributes(element, Standing::Top, &["code", "codeSystem", "codeSystemName", "codeSystemVersion"]);
        self.form(element, "codeSystem", is_oid);
        for name in ["code", "codeSystemName", "codeSystemVersion"] {
            self.form(element, name, is_filled);
            self.claim(element.get(name).is_none() || element.get("codeSystem").is_some(), RULE);
        }
        let display_names = self.children(element, |before, name| name == "displayName" && before.is_empty());
        for display_name in &display_names {
            self.display_name(display_name);
            self.claim(element.get("code").is_some(), RULE);
        }
        let says_something = element.get("code").is_some() || element.get("codeSystem").is_some();
        self.claim(is_null(element) || says_something, RULE);
    }

    /// This one takes no `nullFlavor`.
    fn display_name(&mut self, element: &Element) {
        self.claim(element.attributes.len() == 1 && element.get("value").is_some(), SHAPE);
        self.claim(element.children.is_empty(), SHAPE);
        self.form(element, "value", is_filled);
    }

    fn name(&mut self, element: &Element) {
        self.attributes(element, Standing::Top, &[]);
        let parts = self.children(element, |_, name| name == "part");
        self.claim(is_null(element) || !parts.is_empty(), SHAPE);
        for part in parts {
            self.attributes(part, Standing::Elsewhere, &["value", "type", "qualifier"]);
            self.no_children(part);
            self.form(part, "type", |text| PART_TYPES.contains(&text));
            self.form(part, "qualifier", |text| text.split(' ').all(|q| QUALIFIERS.contains(&q)));
            let qualifiers: Vec<&str> = part.get("qualifier").unwrap_or("").split(' ').collect();
            self.claim(is_null(part) || part.get("value").is_some_and(is_filled), RULE);
            self.claim(!(qualifiers.contains(&"PFX") && qualifiers.contains(&"SFX")), RULE);
        }
    }
}

// ---- Forms of texts ------------------------------------------------------------------------------------------------

fn is_filled(text: &str) -> bool {
    !text.is_empty()
}

fn are_digits(text: &str, least: usize, most: usize) -> bool {
    (least..=most).contains(&text.len()) && text.bytes().all(|b| b.is_ascii_digit())
}

/// The amount that a text writes.
pub fn ten_thousandths(text: &str) -> Option<i64> {
    let (negative, unsigned) = match text.strip_prefix('-') {
        Some(rest) => (true, rest),
        None => (false, text),
    };
    let (whole, fraction) = unsigned.split_once('.').unwrap_or((unsigned, "0"));
    if !are_digits(whole, 1, 12) || !are_digits(fraction, 1, 4) {
        return None;
    }
    let amount: i64 = format!("{whole}{fraction:0<4}").parse().ok()?;
    Some(if negative { -amount } else { amount })
}

fn is_oid(text: &str) -> bool {
    let numbers: Vec<&str> = text.split('.').collect();
    let is_number = |n: &&str| are_digits(n, 1, 128) && (!n.starts_with('0') || n.len() == 1);
    let two_at_least = numbers.len() >= 2;
    let first_two_fit = |first: &str, second: &str| match first {
        "0" | "1" => second.len() <= 2 && second.parse().is_ok_and(|s: u64| s <= 39),
        "2" => true,
        _ => false,
    };
    text.len() <= 128 && two_at_least && numbers.iter().all(is_number) && first_two_fit(numbers[0], numbers[1])
}
