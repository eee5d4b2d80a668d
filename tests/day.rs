//! A second keeper of the daily totals of two desks, written from the rules page and the requests alone: it keeps a list of all amounts that
//! were added, and by which desk, and sums it anew whenever it is asked. A start strikes a desk's amounts from the list. A table that is
//! handed in is judged by one clause of the requests' sentences after another.

use std::collections::BTreeSet;

use crate::faults::{self, is_null, ten_thousandths};
use crate::refusals::{DAMAGED, DAY_FULL, NO_DESK, NO_ROW, TOTAL, TYPE};
use crate::tick::Calendar;

/// How many rows are held; for desk 1, then desk 2, the counts of records added, null and refused; then rows of a desk, a currency and a
/// total.
pub type Table = [u64; 103];

/// The counts of records added, null and refused of one desk; then rows of a currency and its total.
pub type Report = [u64; 35];

pub type Currency = [u8; 3];

/// A desk, a currency, and an amount or a total.
pub type Row = (u64, Currency, i128);

pub const DESKS: [u64; 2] = [1, 2];

/// How many rows a table has, and how many of them one desk may hold.
pub const ALL_ROWS: usize = 32;
pub const MOST_ROWS: usize = 16;
pub const MOST_COUNTED: u128 = 1_000_000;
pub const MOST_TOTAL: i128 = 9_000_000_000_000_000_000;

/// The answers for a record that is added, and for one that is null.
pub const ADDED: u64 = 1 << 8;
pub const NULL: u64 = 2 << 8;

// ---- Records -------------------------------------------------------------------------------------------------------

/// What a record is, whatever the table.
#[derive(Clone, Copy, PartialEq, Debug)]
pub enum Record {
    Refused(u64),
    Null,
    Amount(Currency, i64),
}

/// Reads a record, which the second judge judges, but that another type than MO is TYPE in its place.
pub fn read(record: &[u8], offset: i64, calendar: &Calendar) -> Record {
    let mut judged = faults::judge(record, offset, calendar);
    if judged.tree.as_ref().is_some_and(|top| top.get("xsi:type") != Some("MO")) {
        judged.faults.insert(TYPE);
    }
    match &judged.tree {
        Some(top) if judged.faults.is_empty() => match (top.get("currency"), top.get("value")) {
            (Some(currency), Some(value)) => {
                Record::Amount(currency.as_bytes().try_into().unwrap(), ten_thousandths(value).unwrap())
            }
            _ => {
                assert!(is_null(top));
                Record::Null
            }
        },
        _ => Record::Refused(judged.number()),
    }
}

// ---- Tables --------------------------------------------------------------------------------------------------------

/// Where in a table the counts of a desk begin.
pub fn counts_at(desk: u64) -> usize {
    if desk == 1 { 1 } else { 4 }
}

/// Where in a table a row begins, counted from 0.
pub fn row_at(row: usize) -> usize {
    7 + 3 * row
}

/// What can be wrong with a table, in the order of the requests' sentences.
#[derive(Clone, Copy, PartialEq, Eq, PartialOrd, Ord, Debug)]
pub enum Damage {
    Rows,
    Form,
    Twice,
    Range,
    Counts,
    Held,
    Neither,
}

/// The same in words: the first five are said of a desk's part, the others of the whole table.
pub const DAMAGES: [&str; 7] = [
    "over 16 rows",
    "a currency of wrong form",
    "a currency that is held twice",
    "a total out of range",
    "counts whose sum is over 1,000,000",
    "over 32 rows",
    "a row of neither desk",
];

/// A currency as a number: its letters are the lowest bytes, the first one lowest.
pub fn number(currency: Currency) -> u64 {
    let [first, second, third] = currency.map(u64::from);
    first + 256 * second + 65_536 * third
}

/// The currency that a number is, if it is one.
fn currency(number: u64) -> Option<Currency> {
    let [first, second, third, rest @ ..] = number.to_le_bytes();
    let letters = [first, second, third];
    (letters.iter().all(u8::is_ascii_uppercase) && rest == [0; 5]).then_some(letters)
}

/// The rows that a table holds, or as many as it has room for: desk, currency and total.
fn held(table: &Table) -> &[[u64; 3]] {
    let (rows, _) = table[7..].as_chunks();
    &rows[..table[0].min(ALL_ROWS as u64) as usize]
}

fn counts(table: &Table, desk: u64) -> [u64; 3] {
    table[counts_at(desk)..][..3].try_into().unwrap()
}

fn sum(counts: [u64; 3]) -> u128 {
    counts.map(u128::from).iter().sum()
}

fn total(total: u64) -> i128 {
    i128::from(total as i64)
}

/// What is wrong with a desk's part: its rows, and its counts.
fn faults_of(rows: &[[u64; 3]], counts: [u64; 3]) -> impl Iterator<Item = Damage> {
    let is_held_before = |i: usize| rows[..i].iter().any(|row| row[1] == rows[i][1]);
    let clauses = [
        (Damage::Rows, rows.len() > MOST_ROWS),
        (Damage::Form, rows.iter().any(|row| currency(row[1]).is_none())),
        (Damage::Twice, (0..rows.len()).any(is_held_before)),
        (Damage::Range, rows.iter().any(|row| total(row[2]).abs() > MOST_TOTAL)),
        (Damage::Counts, sum(counts) > MOST_COUNTED),
    ];
    clauses.into_iter().filter(|(_, applies)| *applies).map(|(damage, _)| damage)
}

/// All that is wrong with a table, each with the desk in whose part it is, or with 0 where it is in neither's.
pub fn damage(table: &Table) -> BTreeSet<(u64, Damage)> {
    let rows = held(table);
    let mut damage = BTreeSet::new();
    for desk in DESKS {
        let part: Vec<[u64; 3]> = rows.iter().filter(|row| row[0] == desk).copied().collect();
        damage.extend(faults_of(&part, counts(table, desk)).map(|fault| (desk, fault)));
    }
    if table[0] > ALL_ROWS as u64 {
        damage.insert((0, Damage::Held));
    }
    if rows.iter().any(|row| !DESKS.contains(&row[0])) {
        damage.insert((0, Damage::Neither));
    }
    damage
}

// ---- Days ----------------------------------------------------------------------------------------------------------

/// The totals of amounts by desk and currency, in the order in which these first stand in the list.
fn summed(amounts: &[Row]) -> Vec<Row> {
    let mut rows: Vec<Row> = Vec::with_capacity(ALL_ROWS);
    for (desk, currency, amount) in amounts {
        match rows.iter_mut().find(|row| row.0 == *desk && row.1 == *currency) {
            Some(row) => row.2 += amount,
            None => rows.push((*desk, *currency, *amount)),
        }
    }
    rows
}

/// The days of both desks: all that was added since the start of each.
pub struct Days {
    /// The numbers as they were written last: those past the rows held stay.
    table: Table,
    pub damage: BTreeSet<(u64, Damage)>,
    /// What was added, in order, and by which desk. A total that stands in a table that is handed in counts as one amount.
    amounts: Vec<Row>,
    /// Desks, currencies and their totals, in the order in which they were first added: the list summed anew after each change.
    rows: Vec<Row>,
    /// How many records of each desk were added, null and refused.
    counts: [[u64; 3]; 2],
}

impl Days {
    /// Days with an empty table.
    pub fn open() -> Days {
        Days::go_on(&[0; 103])
    }

    /// Days that go on with a table that is handed in.
    pub fn go_on(table: &Table) -> Days {
        let damage = damage(table);
        let amounts = match damage.is_empty() {
            true => held(table).iter().map(|row| (row[0], currency(row[1]).unwrap(), total(row[2]))).collect(),
            false => Vec::new(),
        };
        Days { table: *table, damage, rows: summed(&amounts), amounts, counts: DESKS.map(|desk| counts(table, desk)) }
    }

    /// What every call of a desk is refused for, if it is.
    pub fn refusal(&self, desk: u64) -> Option<u64> {
        if !DESKS.contains(&desk) {
            return Some(NO_DESK);
        }
        (!self.damage.is_empty()).then_some(DAMAGED)
    }

    /// What is to be answered for a record of a desk.
    pub fn due(&self, desk: u64, record: Record) -> u64 {
        if let Some(refusal) = self.refusal(desk) {
            return refusal;
        }
        if self.counted(desk) == MOST_COUNTED {
            return DAY_FULL;
        }
        let (currency, amount) = match record {
            Record::Refused(number) => return number,
            Record::Null => return NULL,
            Record::Amount(currency, amount) => (currency, i128::from(amount)),
        };
        let rows = self.rows(desk);
        let total = rows.iter().find(|row| row.0 == currency).map(|row| row.1);
        match total {
            None if rows.len() == MOST_ROWS => NO_ROW,
            _ if (total.unwrap_or(0) + amount).abs() > MOST_TOTAL => TOTAL,
            _ => ADDED,
        }
    }

    /// Takes a record of a desk that is answered so.
    pub fn take(&mut self, desk: u64, record: Record, answer: u64) {
        if matches!(answer, NO_DESK | DAMAGED | DAY_FULL) {
            return;
        }
        let counts = &mut self.counts[desk as usize - 1];
        match (answer, record) {
            (ADDED, Record::Amount(currency, amount)) => {
                self.amounts.push((desk, currency, amount.into()));
                counts[0] += 1;
            }
            (NULL, _) => counts[1] += 1,
            _ => counts[2] += 1,
        }
        self.write();
    }

    /// Starts a desk's day anew, and says what is to be answered.
    pub fn start(&mut self, desk: u64) -> u64 {
        if let Some(refusal) = self.refusal(desk) {
            return refusal;
        }
        self.amounts.retain(|amount| amount.0 != desk);
        self.counts[desk as usize - 1] = [0; 3];
        self.write();
        0
    }

    /// How many records of a desk count.
    pub fn counted(&self, desk: u64) -> u128 {
        sum(self.counts[desk as usize - 1])
    }

    /// Desks, currencies and their totals, in the order of the table.
    pub fn all_rows(&self) -> &[Row] {
        &self.rows
    }

    /// Currencies and their totals of one desk, in the order in which they were first added.
    pub fn rows(&self, desk: u64) -> Vec<(Currency, i128)> {
        self.rows.iter().filter(|row| row.0 == desk).map(|row| (row.1, row.2)).collect()
    }

    /// The table of this moment.
    pub fn table(&self) -> Table {
        self.table
    }

    /// Writes rows and counts into the table. What stands past them is as it was.
    fn write(&mut self) {
        self.rows = summed(&self.amounts);
        let mut numbers = vec![self.rows.len() as u64];
        numbers.extend(self.counts.as_flattened());
        numbers.extend(self.rows.iter().flat_map(|row| [row.0, number(row.1), row.2 as u64]));
        self.table[..numbers.len()].copy_from_slice(&numbers);
    }

    /// What is to be answered when a desk's report is asked for, and what a report is afterwards that was as said before.
    pub fn report(&self, desk: u64, before: &Report) -> (u64, Report) {
        if let Some(refusal) = self.refusal(desk) {
            return (refusal, *before);
        }
        let rows = self.rows(desk);
        let mut numbers = self.counts[desk as usize - 1].to_vec();
        numbers.extend(rows.iter().flat_map(|row| [number(row.0), row.1 as u64]));
        let mut report = *before;
        report[..numbers.len()].copy_from_slice(&numbers);
        ((rows.len() as u64) << 8, report)
    }
}
