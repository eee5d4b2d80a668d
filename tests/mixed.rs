//! Histories of two desks that share a table of daily totals: their calls are mixed in any order, and then each desk's are made again with
//! a table of its own, where they are to come to the same.

use crate::day::{Days, Report, Table, ADDED, DESKS, MOST_ROWS};
use crate::lender::{Outcome, HAS_SERVICE};
use crate::limits;
use crate::money::{self, Given, Style};
use crate::random::Random;
use crate::records::Maker;
use crate::refusals::NO_ROW;
use crate::rows::{self, NO_DESKS};
use crate::trial::Trial;

pub enum Call {
    Start,
    Add(Given),
    Report,
}

/// A call that was made, what was answered, and what the desk's report was afterwards in memory of zeros.
struct Made {
    desk: u64,
    call: Call,
    answer: u64,
    reported: (u64, Report),
}

/// What two desks did from the opening of their table on.
pub struct History<'a> {
    pub trial: &'a mut Trial,
    pub days: Days,
    made: Vec<Made>,
}

impl History<'_> {
    pub fn begin<'a>(trial: &'a mut Trial, before: &Table) -> History<'a> {
        let days = trial.open(before);
        History { trial, days, made: Vec::new() }
    }

    /// Makes a call, and has both desks reported, and the one that called if it is none.
    pub fn call(&mut self, desk: u64, call: Call) -> u64 {
        let answer = match &call {
            Call::Start => self.trial.start(&mut self.days, desk),
            Call::Add(given) => self.trial.add(&mut self.days, desk, given),
            Call::Report => self.trial.report(&self.days, desk),
        };
        self.trial.report_both(&self.days);
        if !DESKS.contains(&desk) {
            self.trial.report(&self.days, desk);
        }
        let reported = self.days.report(desk, &[0; 35]);
        self.made.push(Made { desk, call, answer, reported });
        answer
    }

    /// Makes each desk's calls again, alone.
    pub fn end(self) {
        if HAS_SERVICE {
            DESKS.iter().for_each(|desk| alone(self.trial, *desk, &self.made));
        }
    }
}

/// Makes one desk's calls again with a table of its own: the answers and the reports are to be those that it got beside the other. The table
/// is what the functions make of it, call after call.
fn alone(trial: &mut Trial, desk: u64, history: &[Made]) {
    let any = Outcome { answer: 0, numbers: Vec::new() };
    let opened = trial.lender.open(&[u64::MAX; 103], &any, &mut trial.random);
    let mut table = opened.map_or(vec![0; 103], |outcome| outcome.numbers);
    for made in history.iter().filter(|made| made.desk == desk) {
        let came = match &made.call {
            Call::Start => trial.lender.start(&table, desk, &any, &mut trial.random),
            Call::Add(given) => trial.lender.add(&table, desk, given, &any, &mut trial.random),
            Call::Report => Some(Outcome { answer: made.answer, numbers: table.clone() }),
        };
        let due = Outcome { answer: made.answer, numbers: Vec::new() };
        let answer = came.map(|outcome| {
            table = outcome.numbers;
            Outcome { answer: outcome.answer, numbers: Vec::new() }
        });
        trial.compare(answer, &due, || format!("a call of desk {desk} alone"));
        let due = Outcome { answer: made.reported.0, numbers: made.reported.1.to_vec() };
        let came = trial.lender.report(&table, desk, &[0; 35], &any, &mut trial.random);
        trial.compare(came, &due, || format!("a report of desk {desk} alone"));
        trial.counts.alone += 1;
    }
}

// ---- Any calls -----------------------------------------------------------------------------------------------------

/// How the calls of a history are mixed: of ten, how many are desk 1's, and once in how many a day is started.
struct Mix {
    styles: [Style; 2],
    first: usize,
    start: usize,
}

impl Mix {
    /// A desk with amounts as large as can be makes most of the calls, and hardly starts anew, so that it comes to the end of the range.
    fn any(random: &mut Random) -> Mix {
        let styles = money::styles(random);
        let (first, start) = match styles.each_ref().map(|style| style.huge.is_some()) {
            [true, _] => (9, random.one_of(&[1_000, 10_000])),
            [_, true] => (1, random.one_of(&[1_000, 10_000])),
            _ => (random.one_of(&[1, 5, 5, 9]), random.one_of(&[10, 60, 400, 10_000])),
        };
        Mix { styles, first, start }
    }

    fn desk(&self, random: &mut Random) -> u64 {
        match random.below(40) {
            0 => random.one_of(&NO_DESKS),
            _ => if random.below(10) < self.first { 1 } else { 2 },
        }
    }

    fn length(&self, random: &mut Random) -> usize {
        match random.below(8) {
            _ if self.styles.iter().any(|style| style.huge.is_some()) => random.from(1700, 2500),
            0 => random.from(1000, 3000),
            1..=3 => random.from(200, 1000),
            _ => random.from(0, 200),
        }
    }

    fn call(&self, history: &History, desk: u64, random: &mut Random) -> Call {
        if random.once_in(self.start) {
            return Call::Start;
        }
        if random.once_in(16) {
            return Call::Report;
        }
        let style = &self.styles[usize::from(desk == 2)];
        let mut maker = Maker { random, offset: 0, calendar: &history.trial.calendar };
        Call::Add(maker.record_to_add(style, &history.days.table(), desk))
    }
}

/// Histories made from a seed, up to so many records.
pub fn histories(trial: &mut Trial, records: u64) {
    let mut random = Random::new(trial.random.next());
    while trial.counts.records < records {
        let mix = Mix::any(&mut random);
        let before = rows::rubbish(&mut random, &mix.styles);
        let mut history = History::begin(trial, &before);
        for _ in 0..mix.length(&mut random) {
            let desk = mix.desk(&mut random);
            let call = mix.call(&history, desk, &mut random);
            history.call(desk, call);
        }
        history.end();
    }
}

// ---- Rows that are used again --------------------------------------------------------------------------------------

/// Both desks hold all their rows; then one of them starts anew, and fills its rows with other currencies, while the other adds to its own:
/// hundreds of times.
pub fn rounds(trial: &mut Trial) {
    let mut random = Random::new(trial.random.next());
    let mut history = History::begin(trial, &[7; 103]);
    DESKS.iter().for_each(|desk| fill(&mut history, *desk, &mut random));
    for _ in 0..400 {
        let desk = random.one_of(&DESKS);
        let kept = history.days.rows(3 - desk);
        assert!(history.call(desk, Call::Start) == 0 && history.days.rows(3 - desk) == kept);
        fill(&mut history, desk, &mut random);
    }
    history.end();
}

/// Fills the rows of a desk, and tries one more; in between the other desk adds to a row that it holds.
fn fill(history: &mut History, desk: u64, random: &mut Random) {
    let currencies = money::currencies(random, MOST_ROWS + 1);
    for (i, currency) in currencies.iter().enumerate() {
        let name = String::from_utf8_lossy(currency);
        let answer = history.call(desk, Call::Add(limits::amount("0.5", &name)));
        assert!(answer == if i < MOST_ROWS { ADDED } else { NO_ROW });
        let others = history.days.rows(3 - desk);
        if !others.is_empty() && random.once_in(4) {
            let name = random.one_of(&others).0;
            history.call(3 - desk, Call::Add(limits::amount("-1.25", &String::from_utf8_lossy(&name))));
        }
    }
}
