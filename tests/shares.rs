//! Counts of what adding to daily totals answered, and starting and reporting them, and whether every answer occurred in good measure.

use crate::day::{Days, Record, ADDED, ALL_ROWS, DAMAGES, DESKS, MOST_COUNTED, MOST_ROWS, MOST_TOTAL, NULL};
use crate::money::MOST_AMOUNT;
use crate::refusals::{
    self, DAMAGED, DAY_FULL, MARKUP, NOT_UTF8, NO_DESK, NO_ROW, OFFSET, RULE, SHAPE, TOO_LONG, TOTAL, TYPE, VALUE,
};

/// Of ten thousand answers to a record, how many at least are to be each.
const ANSWERS: [(u64, u64); 15] = [
    (ADDED, 2_500),
    (NULL, 300),
    (NO_DESK, 100),
    (DAMAGED, 1_000),
    (DAY_FULL, 200),
    (OFFSET, 150),
    (TOO_LONG, 2),
    (NOT_UTF8, 50),
    (MARKUP, 80),
    (TYPE, 300),
    (SHAPE, 150),
    (VALUE, 150),
    (RULE, 150),
    (NO_ROW, 200),
    (TOTAL, 100),
];

fn name_of(answer: u64) -> String {
    match answer {
        ADDED => "added".to_string(),
        NULL => "null".to_string(),
        refusal => refusals::name(refusal),
    }
}

/// Of ten thousand answers to a record, how many at least are to be TYPE with an impossible time in the record, which is not told then.
const LEAST_OF_TIMES: u64 = 40;

/// Of ten thousand answers to a record, how many at least are to be of each kind that one desk's part decides.
const KINDS: [(&str, u64); 22] = [
    ("added, a new currency", 200),
    ("added, the 16th currency", 30),
    ("added, with 16 currencies held", 500),
    ("added, the total comes to zero", 100),
    ("added, the total is below zero", 500),
    ("added, the total comes to the upper end", 15),
    ("added, the total comes to the lower end", 15),
    ("added, a new currency with an amount of zero", 10),
    ("added, the millionth record", 20),
    ("null, the millionth record", 2),
    ("refused, the millionth record", 10),
    ("refused by itself, with 16 currencies held", 200),
    ("NO ROW for an amount of zero", 10),
    ("NO ROW, every total at an end", 10),
    ("TOTAL above, by a ten-thousandth", 5),
    ("TOTAL below, by a ten-thousandth", 5),
    ("TOTAL above, with the largest amount", 10),
    ("TOTAL below, with the largest amount", 10),
    ("DAMAGED, and a million counted", 20),
    ("DAMAGED, and a record refused by itself", 200),
    ("DAY FULL, and a record refused by itself", 50),
    ("DAY FULL, and a currency without a row", 10),
];

/// The same of those that the other desk's part could be mistaken for.
const KINDS_OF_TWO: [(&str, u64); 11] = [
    ("added, a currency that the other desk holds too", 500),
    ("added, a new currency, with 16 held by the other desk", 20),
    ("added, the 32nd row", 10),
    ("added, with 32 rows held", 100),
    ("added, the other desk's day is full", 100),
    ("NO ROW, with fewer held by the other desk", 50),
    ("NO ROW, in a currency that the other desk holds", 20),
    ("DAY FULL, and the other desk's day is not", 100),
    ("TOTAL, in a currency that the other desk holds too", 20),
    ("DAMAGED in the other desk's part alone", 200),
    ("DAMAGED in the desk's own part alone", 200),
];

/// Of ten thousand answers to a record, how many at least are to be DAMAGED for each reason alone, and for several.
const LEAST_OF_DAMAGE: u64 = 20;

/// Of a thousand starts, how many at least are to be of each kind.
const STARTS: [(&str, u64); 7] = [
    ("no row", 10),
    ("1 to 15 rows", 50),
    ("16 rows", 50),
    ("the other desk's rows move up", 50),
    ("a full day", 10),
    ("DAMAGED", 50),
    ("NO DESK", 5),
];

/// Of a thousand reports, how many at least are to be of each kind.
const REPORTS: [(&str, u64); 6] =
    [("no row", 20), ("1 to 15 rows", 200), ("16 rows", 100), ("a million records", 20), ("DAMAGED", 80), ("NO DESK", 1)];

/// Counts of answers that were due, of their kinds, of starts and of reports.
#[derive(Default)]
pub struct Counts {
    pub opened: u64,
    pub records: u64,
    by_answer: [u64; ANSWERS.len()],
    pub impossible_times: u64,
    by_kind: [u64; KINDS.len()],
    by_kind_of_two: [u64; KINDS_OF_TWO.len()],
    /// By the desk in whose part the damage is, or 0, and by its reason.
    by_damage: [[u64; DAMAGES.len()]; 3],
    several: u64,
    starts: u64,
    by_start: [u64; STARTS.len()],
    reports: u64,
    by_report: [u64; REPORTS.len()],
    /// Calls that were made again for one desk with a table of its own.
    pub alone: u64,
    pub differences: u64,
}

/// Of which kinds an answer is, in the order of `KINDS`: the days are as they were before the record was given.
fn kinds(days: &Days, desk: u64, record: Record, answer: u64) -> [bool; KINDS.len()] {
    let rows = days.rows(desk);
    let (amount, held) = match record {
        Record::Amount(currency, amount) => (i128::from(amount), rows.iter().find(|row| row.0 == currency)),
        _ => (MOST_AMOUNT + 1, None),
    };
    let total = held.map_or(0, |row| row.1) + amount;
    let by_itself = matches!(record, Record::Refused(_));
    let all_held = rows.len() == MOST_ROWS;
    let without_row = all_held && matches!(record, Record::Amount(..)) && held.is_none();
    let last = days.counted(desk) + 1 == MOST_COUNTED;
    let added = answer == ADDED;
    [
        added && held.is_none(),
        added && held.is_none() && rows.len() + 1 == MOST_ROWS,
        added && all_held,
        added && total == 0,
        added && total < 0,
        added && total == MOST_TOTAL,
        added && total == -MOST_TOTAL,
        added && held.is_none() && total == 0,
        added && last,
        answer == NULL && last,
        answer & 0xFF != 0 && last,
        record == Record::Refused(answer) && all_held,
        answer == NO_ROW && amount == 0,
        answer == NO_ROW && rows.iter().all(|row| row.1.abs() == MOST_TOTAL),
        answer == TOTAL && total == MOST_TOTAL + 1,
        answer == TOTAL && total == -MOST_TOTAL - 1,
        answer == TOTAL && amount == MOST_AMOUNT,
        answer == TOTAL && amount == -MOST_AMOUNT,
        answer == DAMAGED && days.counted(desk) == MOST_COUNTED,
        answer == DAMAGED && by_itself,
        answer == DAY_FULL && by_itself,
        answer == DAY_FULL && without_row,
    ]
}

/// The same in the order of `KINDS_OF_TWO`.
fn kinds_of_two(days: &Days, desk: u64, record: Record, answer: u64) -> [bool; KINDS_OF_TWO.len()] {
    let (own, other) = (days.rows(desk), days.rows(3 - desk));
    let holds = |rows: &[([u8; 3], i128)]| matches!(record, Record::Amount(currency, _) if rows.iter().any(|row| row.0 == currency));
    let held = own.len() + other.len();
    let other_is_full = days.counted(3 - desk) == MOST_COUNTED;
    let damage_in = |desk: u64| days.damage.iter().all(|damage| damage.0 == desk);
    let added = answer == ADDED;
    [
        added && holds(&other),
        added && !holds(&own) && other.len() == MOST_ROWS,
        added && !holds(&own) && held + 1 == ALL_ROWS,
        added && held == ALL_ROWS,
        added && other_is_full,
        answer == NO_ROW && other.len() < MOST_ROWS,
        answer == NO_ROW && holds(&other),
        answer == DAY_FULL && !other_is_full,
        answer == TOTAL && holds(&other),
        answer == DAMAGED && damage_in(3 - desk),
        answer == DAMAGED && damage_in(desk),
    ]
}

/// Raises those counts that something is to be counted for.
fn raise(counts: &mut [u64], is_so: &[bool]) {
    for (count, is_so) in counts.iter_mut().zip(is_so) {
        *count += u64::from(*is_so);
    }
}

impl Counts {
    /// Counts an answer that is due for a record of a desk: the days are as they were before.
    pub fn add(&mut self, days: &Days, desk: u64, record: Record, answer: u64) {
        let at = ANSWERS.iter().position(|share| share.0 == answer).unwrap();
        self.records += 1;
        self.by_answer[at] += 1;
        if answer == NO_DESK {
            return;
        }
        raise(&mut self.by_kind, &kinds(days, desk, record, answer));
        raise(&mut self.by_kind_of_two, &kinds_of_two(days, desk, record, answer));
        if answer == DAMAGED {
            match Vec::from_iter(&days.damage)[..] {
                [(desk, damage)] => self.by_damage[*desk as usize][*damage as usize] += 1,
                _ => self.several += 1,
            }
        }
    }

    /// How often an answer was due.
    pub fn answered(&self, answer: u64) -> u64 {
        ANSWERS.iter().zip(self.by_answer).filter(|(share, _)| share.0 == answer).map(|(_, count)| count).sum()
    }

    /// Counts a start: the days are as they were before.
    pub fn add_start(&mut self, days: &Days, desk: u64, answer: u64) {
        self.starts += 1;
        let started = answer == 0;
        let rows = if started { days.rows(desk).len() } else { 0 };
        let moved = days.all_rows().iter().skip_while(|row| row.0 != desk).any(|row| row.0 != desk);
        let is_so = [
            started && rows == 0,
            started && (1..MOST_ROWS).contains(&rows),
            started && rows == MOST_ROWS,
            started && moved,
            started && days.counted(desk) == MOST_COUNTED,
            answer == DAMAGED,
            answer == NO_DESK,
        ];
        raise(&mut self.by_start, &is_so);
    }

    /// Counts a report.
    pub fn add_report(&mut self, days: &Days, desk: u64, answer: u64) {
        self.reports += 1;
        let rows = (answer >> 8) as usize;
        let reported = answer & 0xFF == 0;
        let is_so = [
            reported && rows == 0,
            reported && (1..MOST_ROWS).contains(&rows),
            reported && rows == MOST_ROWS,
            reported && days.counted(desk) == MOST_COUNTED,
            answer == DAMAGED,
            answer == NO_DESK,
        ];
        raise(&mut self.by_report, &is_so);
    }

    /// The damages by their reasons, with how often each occurred alone.
    fn damages(&self) -> Vec<(String, u64)> {
        let mut damages = Vec::new();
        for (at, damage) in DAMAGES.iter().enumerate() {
            match at < 5 {
                true => damages.extend(DESKS.map(|desk| (format!("DAMAGED for {damage}, desk {desk}"), self.by_damage[desk as usize][at]))),
                false => damages.push((format!("DAMAGED for {damage}"), self.by_damage[0][at])),
            }
        }
        damages.push(("DAMAGED for several reasons".to_string(), self.several));
        damages
    }

    /// What occurred, how often, and how often of so many times ten thousand it has to at least.
    fn rows(&self) -> Vec<(String, u64, u64, u64)> {
        let mut rows = Vec::new();
        for ((answer, least), count) in ANSWERS.iter().zip(self.by_answer) {
            rows.push((name_of(*answer), count, self.records, *least));
        }
        rows.push(("TYPE, and an impossible time".to_string(), self.impossible_times, self.records, LEAST_OF_TIMES));
        let by_kind = self.by_kind.iter().chain(&self.by_kind_of_two);
        for ((kind, least), count) in KINDS.iter().chain(&KINDS_OF_TWO).zip(by_kind) {
            rows.push((kind.to_string(), *count, self.records, *least));
        }
        rows.extend(self.damages().into_iter().map(|(damage, count)| (damage, count, self.records, LEAST_OF_DAMAGE)));
        for ((kind, least), count) in STARTS.iter().zip(self.by_start) {
            rows.push((format!("starts, {kind}"), count, self.starts, 10 * least));
        }
        for ((kind, least), count) in REPORTS.iter().zip(self.by_report) {
            rows.push((format!("reports, {kind}"), count, self.reports, 10 * least));
        }
        rows
    }

    /// Prints what occurred.
    pub fn print(&self, what: &str) {
        println!("totals: {what}");
        let sums = [
            ("tables opened", self.opened),
            ("records given", self.records),
            ("starts", self.starts),
            ("reports", self.reports),
            ("calls made again for one desk alone", self.alone),
        ];
        let rows = self.rows().into_iter().map(|(row, count, _, _)| (row, count));
        for (row, count) in sums.map(|(sum, count)| (sum.to_string(), count)).into_iter().chain(rows).filter(|row| row.1 > 0) {
            println!("  {row:<56}{count:>12}");
        }
        println!("  {:<56}{:>12}", "differences", self.differences);
    }

    /// Whether every answer and kind occurred in good measure. A run that hardly gave some answer has not tried what it should.
    pub fn is_broad(&self) -> bool {
        let mut broad = true;
        for (row, count, of, least) in self.rows() {
            if count * 10_000 < of * least {
                println!("totals: under {least} of 10000 were: {row}");
                broad = false;
            }
        }
        broad
    }
}
