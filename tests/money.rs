//! Makes records for daily totals: amounts that bring a total to zero or to an end of its range, nulls, other types, and records that are
//! refused for every reason.

use crate::day::{self, row_at, Currency, Table, ALL_ROWS, MOST_TOTAL};
use crate::faults::TYPES;
use crate::markup::{write, Element, Spelling};
use crate::random::Random;
use crate::records::{self, damage_bytes, flavor, Maker, LONGEST};
use crate::tick::agreed_offset;

/// The largest amount that a record can have, 999999999999.9999.
pub const MOST_AMOUNT: i128 = 9_999_999_999_999_999;

/// A record and the agreed offset.
pub type Given = (Vec<u8>, i64);

/// What a desk's day is like.
pub struct Style {
    pub currencies: Vec<Currency>,
    /// Whether nearly all amounts are as large as can be, and of this sign, so that some 900 of them bring a total to the end of its range.
    pub huge: Option<i128>,
}

/// Currencies of which none is another.
pub fn currencies(random: &mut Random, count: usize) -> Vec<Currency> {
    // Beside each other there are such as differ in one letter, or have the same letters in another order.
    const NEAR: [&[u8; 3]; 12] =
        [b"EUR", b"EUS", b"EVR", b"FUR", b"RUE", b"URE", b"AAA", b"ZZZ", b"AAZ", b"ZAA", b"AZA", b"USD"];
    let mut chosen = Vec::new();
    while chosen.len() < count {
        let near = random.once_in(2);
        let next = if near { *random.one_of(&NEAR) } else { records::currency(random).as_bytes().try_into().unwrap() };
        if !chosen.contains(&next) {
            chosen.push(next);
        }
    }
    chosen
}

impl Style {
    /// One currency, some, as many as there are rows, or more.
    pub fn any(random: &mut Random) -> Style {
        let huge = match random.below(20) {
            0 => Some(1),
            1 => Some(-1),
            _ => None,
        };
        let count = if huge.is_some() { 1 } else { random.one_of(&[1, 2, 3, 5, 15, 16, 17, 17, 20, 40, 40, 40]) };
        Style { currencies: currencies(random, count), huge }
    }
}

/// What the days of both desks are like: each has currencies of its own, or both have the same.
pub fn styles(random: &mut Random) -> [Style; 2] {
    let mut styles = [Style::any(random), Style::any(random)];
    if random.once_in(2) {
        let count = if styles[1].huge.is_some() { 1 } else { styles[0].currencies.len() };
        styles[1].currencies = styles[0].currencies[..count].to_vec();
    }
    styles
}

// ---- Amounts -------------------------------------------------------------------------------------------------------

/// The total of a desk's currency in a table, 0 where it is not held.
fn total_of(table: &Table, desk: u64, currency: Currency) -> i128 {
    let held = table[0].min(ALL_ROWS as u64) as usize;
    let row = table[7..row_at(held)].chunks(3).find(|row| row[..2] == [desk, day::number(currency)]);
    row.map_or(0, |row| i128::from(row[2] as i64))
}

/// An amount for a currency of this total: it comes to zero, or to an end of the range, or just beyond; or any other.
fn amount(random: &mut Random, total: i128, huge: Option<i128>) -> i128 {
    let sign = random.one_of(&[1, 1, -1]);
    if let Some(huge) = huge.filter(|_| !random.once_in(16)) {
        return huge * MOST_AMOUNT;
    }
    let wanted = match random.below(16) {
        0 | 1 => -total,
        2 | 3 => MOST_TOTAL - total + random.one_of(&[-1, 0, 0, 1, 1]),
        4 | 5 => -MOST_TOTAL - total - random.one_of(&[-1, 0, 0, 1, 1]),
        6 => sign * MOST_AMOUNT,
        7 => 0,
        8 | 9 => sign * (i128::from(random.next() >> random.below(60)) % (MOST_AMOUNT + 1)),
        _ => sign * 2_500 * random.from(1, 20) as i128,
    };
    match wanted.abs() <= MOST_AMOUNT {
        true => wanted,
        false => sign * 625 * random.from(1, 80) as i128,
    }
}

/// Writes an amount, with zeros before it and behind it or not, and zero with a sign or not.
pub fn written(random: &mut Random, amount: i128) -> String {
    let sign = if amount < 0 || amount == 0 && random.once_in(2) { "-" } else { "" };
    let (whole, fraction) = (amount.abs() / 10_000, format!("{:04}", amount.abs() % 10_000));
    let width = if random.once_in(4) { random.from(1, 12) } else { 1 };
    let mut fraction = fraction.as_str();
    while fraction.ends_with('0') && !random.once_in(4) {
        fraction = &fraction[..fraction.len() - 1];
    }
    let point = if fraction.is_empty() { "" } else { "." };
    format!("{sign}{whole:0width$}{point}{fraction}")
}

// ---- Records -------------------------------------------------------------------------------------------------------

pub fn money(value: &str, currency: Currency) -> Element {
    Element::new("t").with("xsi:type", "MO").with("value", value).with("currency", &String::from_utf8_lossy(&currency))
}

/// Texts that are no amount, and texts that are no currency.
const NO_AMOUNTS: [&str; 22] = [
    "", "-", ".", "1.", ".5", "-.5", "+1", "--1", "1-", "1,5", "1 ", " 1", "1e3", "0x1", "1.2.3", "0.00000", "0000000000001",
    "1000000000000", "-1000000000000.0", "NaN", "1/", "1:",
];
const NO_CURRENCIES: [&str; 16] = [
    "", "E", "EU", "EURO", "eur", "Eur", "EUr", "E1R", "@AB", "A@B", "AB@", "[AB", "A[B", "AB[", "\u{C4}A", " EUR",
];

impl Maker<'_> {
    /// A record for a desk's day with this table: about two of three are added where there is a row.
    pub fn record_to_add(&mut self, style: &Style, table: &Table, desk: u64) -> Given {
        let offset = match self.random.below(20) {
            0 => self.random.one_of(&[i64::MIN, -841, -840, 840, 841, i64::MAX]),
            1 | 2 => agreed_offset(self.random),
            _ => 0,
        };
        self.offset = offset;
        let currency = self.random.one_of(&style.currencies);
        let value = amount(self.random, total_of(table, desk, currency), style.huge);
        let value = written(self.random, value);
        let tree = money(&value, currency);
        let mut record = match self.random.below(1000) {
            0..650 => self.any_spelling(tree),
            650..720 => self.null_money(),
            720..780 => self.other_type(&value, currency),
            780..830 => self.wrong_text(&value, currency),
            830..870 => self.half(tree),
            870..910 => self.misshapen(tree),
            910..913 => self.long(tree),
            913..960 => self.damaged_bytes(tree),
            960..980 => self.record(),
            _ => self.damaged_money(tree),
        };
        record.truncate(LONGEST);
        (record, offset)
    }

    /// Written in one of many ways, with attributes that are ignored now and then.
    fn any_spelling(&mut self, mut tree: Element) -> Vec<u8> {
        if self.random.once_in(8) {
            tree = tree.with(self.random.one_of(&["xmlns", "xmlns:xsi", "xmlnsx"]), "urn:a");
        }
        let by = self.random.below(tree.attributes.len());
        tree.attributes.rotate_left(by);
        let spelling = Spelling::any(self.random);
        write(&tree, spelling, self.random)
    }

    fn null_money(&mut self) -> Vec<u8> {
        let tree = Element::new("t").with("xsi:type", "MO").with("nullFlavor", flavor(self.random));
        self.any_spelling(tree)
    }

    /// A record of another type, or of none: good, null, damaged, or with the attributes of an amount.
    fn other_type(&mut self, value: &str, currency: Currency) -> Vec<u8> {
        let of_type = self.random.one_of(&TYPES);
        let mut tree = match self.random.below(4) {
            0 => money(value, currency),
            1 => Element::new("t").with("xsi:type", "MO").with("nullFlavor", flavor(self.random)),
            _ => self.good_of(of_type),
        };
        let other = self.random.one_of(&["TS", "II", "CD", "EN", "IVL_TS", "QSU_TS", "mo", "MO ", "M", "MOO", "PQ", ""]);
        if self.random.once_in(3) {
            let of_type = self.random.one_of(&["TS", "IVL_TS", "QSU_TS", "QSD_TS"]);
            tree = self.good_of(of_type);
            self.damage_times(&mut tree);
            return self.any_spelling(tree);
        }
        match self.random.below(6) {
            0 => tree.attributes.retain(|(name, _)| name != "xsi:type"),
            1..=3 => tree.attributes[0].1 = other.to_string(),
            _ => self.damage(&mut tree),
        }
        self.spelled_if_any(tree)
    }

    fn spelled_if_any(&mut self, tree: Element) -> Vec<u8> {
        if tree.attributes.is_empty() { write(&tree, Spelling::PLAIN, self.random) } else { self.any_spelling(tree) }
    }

    /// An amount or a currency, or both, of wrong form, beside a `nullFlavor` now and then.
    fn wrong_text(&mut self, value: &str, currency: Currency) -> Vec<u8> {
        let mut tree = money(value, currency);
        let which = self.random.below(3);
        if which != 0 {
            tree.attributes[1].1 = self.random.one_of(&NO_AMOUNTS).to_string();
        }
        if which != 1 {
            tree.attributes[2].1 = self.random.one_of(&NO_CURRENCIES).to_string();
        }
        if self.random.once_in(6) {
            tree = tree.with("nullFlavor", self.random.one_of(&["NI", "x", ""]));
        }
        self.any_spelling(tree)
    }

    /// Without a value, a currency or both; or null beside them.
    fn half(&mut self, mut tree: Element) -> Vec<u8> {
        match self.random.below(4) {
            0 => drop(tree.attributes.remove(1)),
            1 => drop(tree.attributes.remove(2)),
            2 => tree.attributes.truncate(1),
            _ => tree = tree.with("nullFlavor", flavor(self.random)),
        }
        self.any_spelling(tree)
    }

    /// With an attribute or a child that an amount does not have, with or without a value of wrong form.
    fn misshapen(&mut self, mut tree: Element) -> Vec<u8> {
        if self.random.once_in(4) {
            tree.attributes[1].1 = self.random.one_of(&NO_AMOUNTS).to_string();
        }
        let tree = match self.random.below(3) {
            0 => tree.holding(Element::new("translation")),
            1 => tree.holding(Element::new("low").with("value", "2024")),
            _ => tree.with(self.random.one_of(&["Value", "unit", "root", "lowClosed", "xsi:Type"]), "1"),
        };
        self.any_spelling(tree)
    }

    /// With bytes changed, or with one that makes it no text.
    fn damaged_bytes(&mut self, tree: Element) -> Vec<u8> {
        let mut record = self.any_spelling(tree);
        match self.random.once_in(2) {
            true => {
                let at = self.random.below(record.len() + 1);
                record.insert(at, self.random.one_of(&[0x80, 0xBF, 0xC0, 0xC3, 0xE2, 0xED, 0xF4, 0xF5, 0xFF]));
            }
            false => damage_bytes(self.random, &mut record),
        }
        record
    }

    /// With damage to the tree, of any kind.
    fn damaged_money(&mut self, mut tree: Element) -> Vec<u8> {
        self.damage(&mut tree);
        self.spelled_if_any(tree)
    }
}
