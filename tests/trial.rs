//! One call of daily totals after another, each held against what the second keeper (day.rs) says is due: the answer, and every number of
//! the table and of the report.

use crate::day::{self, Days, Record, Report, Table, DESKS};
use crate::faults;
use crate::lender::{Lender, Outcome};
use crate::money::Given;
use crate::random::Random;
use crate::refusals::{CLOCK, DATE, TYPE, ZONE};
use crate::shares::Counts;
use crate::tick::Calendar;

/// Differences that are printed, at most.
const PRINTED: u64 = 10;

/// Where tables and records are tried, and what came of it.
pub struct Trial {
    pub calendar: Calendar,
    pub lender: Lender,
    pub counts: Counts,
    pub random: Random,
}

impl Trial {
    pub fn new(seed: u64) -> Trial {
        Trial { calendar: Calendar::new(), lender: Lender::new(), counts: Counts::default(), random: Random::new(seed) }
    }

    /// Holds what came of a call against what is due.
    pub fn compare(&mut self, came: Option<Outcome>, due: &Outcome, what: impl Fn() -> String) {
        if came.as_ref() == Some(due) {
            return;
        }
        self.counts.differences += 1;
        if self.counts.differences <= PRINTED {
            match came {
                None => eprintln!("totals: {}: what may not be written was changed", what()),
                Some(came) => eprintln!("totals: {}: came to {came:?}, due is {due:?}", what()),
            }
        }
    }

    /// Opens a table, whatever it was before.
    pub fn open(&mut self, before: &Table) -> Days {
        self.counts.opened += 1;
        let due = Outcome { answer: 0, numbers: vec![0; 103] };
        let came = self.lender.open(before, &due, &mut self.random);
        self.compare(came, &due, || format!("opening {before:?}"));
        Days::open()
    }

    /// Starts a desk's day.
    pub fn start(&mut self, days: &mut Days, desk: u64) -> u64 {
        let before = days.table();
        let answer = days.refusal(desk).unwrap_or(0);
        self.counts.add_start(days, desk, answer);
        days.start(desk);
        let due = Outcome { answer, numbers: days.table().to_vec() };
        let came = self.lender.start(&before, desk, &due, &mut self.random);
        self.compare(came, &due, || format!("starting desk {desk} of {before:?}"));
        answer
    }

    /// Gives a record of a desk to the days and to their table. The days are what is due, so that one difference does not bring others.
    pub fn add(&mut self, days: &mut Days, desk: u64, given: &Given) -> u64 {
        let read = day::read(&given.0, given.1, &self.calendar);
        let answer = self.add_read(days, desk, given, read);
        if answer == TYPE {
            let faults = faults::judge(&given.0, given.1, &self.calendar).faults;
            self.counts.impossible_times += u64::from([DATE, CLOCK, ZONE].iter().any(|fault| faults.contains(fault)));
        }
        answer
    }

    /// The same with a record that was read before.
    pub fn add_read(&mut self, days: &mut Days, desk: u64, given: &Given, read: Record) -> u64 {
        let before = days.table();
        let answer = days.due(desk, read);
        self.counts.add(days, desk, read, answer);
        days.take(desk, read, answer);
        let due = Outcome { answer, numbers: days.table().to_vec() };
        let came = self.lender.add(&before, desk, given, &due, &mut self.random);
        self.compare(came, &due, || {
            let shown = given.0[..given.0.len().min(2000)].escape_ascii();
            format!("adding {} bytes [{shown}], offset {}, desk {desk}, to {before:?}", given.0.len(), given.1)
        });
        answer
    }

    /// Numbers for a report to be before it is written.
    pub fn filled(&mut self) -> Report {
        let fill = self.random.next();
        std::array::from_fn(|i| fill.wrapping_mul(2 * i as u64 + 1))
    }

    /// Has a desk's day reported, into memory that has other numbers before.
    pub fn report(&mut self, days: &Days, desk: u64) -> u64 {
        let (before, table) = (self.filled(), days.table());
        let (answer, report) = days.report(desk, &before);
        let due = Outcome { answer, numbers: report.to_vec() };
        let came = self.lender.report(&table, desk, &before, &due, &mut self.random);
        self.counts.add_report(days, desk, answer);
        self.compare(came, &due, || format!("reporting desk {desk} of {table:?}"));
        answer
    }

    pub fn report_both(&mut self, days: &Days) {
        for desk in DESKS {
            self.report(days, desk);
        }
    }

    /// Tries a table that is handed in: both desks are reported; then a record of a desk is added, and apart from that its day is started,
    /// and both are reported again.
    pub fn attempt(&mut self, handed: &Table, desk: u64, given: &Given) {
        let mut days = Days::go_on(handed);
        self.report_both(&days);
        self.add(&mut days, desk, given);
        self.report_both(&days);
        let mut days = Days::go_on(handed);
        self.start(&mut days, desk);
        self.report_both(&days);
    }
}
