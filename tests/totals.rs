//! `rigcactus_totals_open`, `rigcactus_totals_start`, `rigcactus_totals_add` and `rigcactus_totals_report` against a second keeper of the
//! daily totals of two desks (day.rs).

use crate::day::{self, Days, Record, Report, Table, ADDED, DESKS, NULL};
use crate::lender::HAS_SERVICE;
use crate::limits;
use crate::mixed;
use crate::money::{self, Given};
use crate::random::Random;
use crate::records::Maker;
use crate::refusals::{DAY_FULL, NO_ROW, TOTAL};
use crate::rows::{self, NO_DESKS};
use crate::shares::Counts;
use crate::table;
use crate::trial::Trial;
use crate::Options;

// ---- Stored tables -------------------------------------------------------------------------------------------------

/// What a line of tests/records/totals.txt says: a call of a desk with a table, the answer, and the numbers afterwards.
struct Stored {
    call: String,
    desk: u64,
    answer: u64,
    before: Table,
    /// The table afterwards, or the report.
    after: Vec<u64>,
    given: Given,
}

/// Reads a line. Where it says nothing of a number, that is one of those past.
fn stored(line: &str, past: &Table) -> Stored {
    let words: Vec<&str> = line.splitn(7, ' ').collect();
    let before = table::totals(words[3], past);
    let untouched: Report = past[..35].try_into().unwrap();
    let after = match (words[0], words[4]) {
        ("report", "=") => untouched.to_vec(),
        ("report", report) => table::report(report, &untouched).to_vec(),
        (_, "=") => before.to_vec(),
        (_, after) => table::totals(after, past).to_vec(),
    };
    let answer = match words[2] {
        "added" => ADDED,
        "null" => NULL,
        rows if rows.starts_with('+') => rows[1..].parse::<u64>().unwrap() << 8,
        refusal => refusal.parse().unwrap(),
    };
    let given = match words.get(6) {
        Some(record) => (table::bytes(record), words[5].parse().unwrap()),
        None => (Vec::new(), 0),
    };
    Stored { call: words[0].to_string(), desk: words[1].parse().unwrap(), answer, before, after, given }
}

/// The same with the desks exchanged: what is due for one is due for the other.
fn exchanged(stored: &Stored) -> Stored {
    let other = |desk: u64| if DESKS.contains(&desk) { 3 - desk } else { desk };
    let exchange = |table: &[u64]| -> Table {
        let mut numbers: Table = table.try_into().unwrap();
        numbers[1..7].rotate_left(3);
        (0..day::ALL_ROWS).for_each(|row| numbers[day::row_at(row)] = other(numbers[day::row_at(row)]));
        numbers
    };
    let after = if stored.call == "report" { stored.after.clone() } else { exchange(&stored.after).to_vec() };
    Stored { call: stored.call.clone(), desk: other(stored.desk), before: exchange(&stored.before), after, given: stored.given.clone(), ..*stored }
}

/// What the second keeper says to a line.
fn second(trial: &Trial, stored: &Stored, past: &Table) -> (u64, Vec<u64>) {
    let mut days = Days::go_on(&stored.before);
    match stored.call.as_str() {
        "add" => {
            let read = day::read(&stored.given.0, stored.given.1, &trial.calendar);
            let answer = days.due(stored.desk, read);
            days.take(stored.desk, read, answer);
            (answer, days.table().to_vec())
        }
        "start" => (days.start(stored.desk), days.table().to_vec()),
        "report" => {
            let (answer, report) = days.report(stored.desk, past[..35].try_into().unwrap());
            (answer, report.to_vec())
        }
        call => panic!("no call: {call}"),
    }
}

/// The tables of tests/records/totals.txt: the second keeper and the functions are to come to what stands there, and for the other desk to
/// the same.
fn stored_tables() -> bool {
    let mut trial = Trial::new(1);
    let (mut count, mut alike) = (0, true);
    for (number, line) in table::lines(include_str!("records/totals.txt")) {
        let past = std::array::from_fn(|_| trial.random.next());
        let read = stored(line, &past);
        for stored in [exchanged(&read), read] {
            let (answer, after) = second(&trial, &stored, &past);
            if (answer, &after) != (stored.answer, &stored.after) {
                eprintln!("tests/records/totals.txt:{number}: due is {}, the second keeper says {answer}, {after:?}", stored.answer);
                alike = false;
            }
            for _ in 0..8 {
                trial.attempt(&stored.before, stored.desk, &stored.given);
                trial.report(&Days::go_on(&stored.before), stored.desk);
            }
        }
        count += 1;
    }
    println!("totals: {count} stored tables");
    alike && trial.counts.differences == 0
}

// ---- Tables that are handed in -------------------------------------------------------------------------------------

/// Tables made from a seed and handed in, damaged and not, up to so many records: one is added to each, or two or three, and a day is started
/// now and then.
fn made_tables(trial: &mut Trial, records: u64) {
    let mut random = Random::new(trial.random.next());
    while trial.counts.records < records {
        let mut styles = money::styles(&mut random);
        styles.iter_mut().for_each(|style| style.huge = style.huge.filter(|_| random.once_in(4)));
        let make = if random.once_in(3) { rows::damaged } else { rows::proper };
        let mut days = Days::go_on(&make(&mut random, &styles));
        trial.report_both(&days);
        for _ in 0..random.from(1, 3) {
            let desk = if random.once_in(40) { random.one_of(&NO_DESKS) } else { random.one_of(&DESKS) };
            if random.once_in(4) {
                trial.start(&mut days, desk);
                continue;
            }
            let mut maker = Maker { random: &mut random, offset: 0, calendar: &trial.calendar };
            let given = maker.record_to_add(&styles[usize::from(desk == 2)], &days.table(), desk);
            trial.add(&mut days, desk, &given);
        }
        trial.report_both(&days);
    }
}

/// Every kind of damage at every row, and both sides of every limit of a table.
fn every_damage() -> Counts {
    let mut trial = Trial::new(2);
    let records = limits::few_records();
    let mut count = 0;
    let mut one = |table: &Table| {
        count += 1;
        trial.attempt(table, DESKS[count % 2], &records[count / 2 % records.len()]);
    };
    limits::every_byte(&mut one);
    limits::every_two_rows(&mut one);
    limits::every_total(&mut one);
    limits::every_count(&mut one);
    limits::every_desk(&mut one);
    let mut all = |table: &Table| {
        for (given, desk) in records.iter().flat_map(|given| DESKS.map(|desk| (given, desk))) {
            trial.attempt(table, desk, given);
        }
    };
    limits::every_row_count(&mut all);
    limits::every_share(&mut all);
    limits::every_past(&mut all);
    trial.counts
}

/// Totals at both ends of the range, in every row.
fn every_end() -> Counts {
    let mut trial = Trial::new(3);
    limits::every_end(|table, desk, given| trial.attempt(table, desk, given));
    trial.counts
}

/// Every two reasons for a refusal at once: tables of every kind with records of every kind; and a desk that is none with each of them.
fn every_order() -> Counts {
    let mut trial = Trial::new(4);
    let tables = limits::many_tables();
    for (i, given) in limits::many_records().iter().enumerate() {
        let read = day::read(&given.0, given.1, &trial.calendar);
        for table in &tables {
            trial.add_read(&mut Days::go_on(table), 1, given, read);
        }
        for (j, table) in tables.iter().enumerate().skip(i % 8).step_by(8) {
            let desk = NO_DESKS[(i + j / 8) % NO_DESKS.len()];
            trial.add_read(&mut Days::go_on(table), desk, given, read);
        }
    }
    for (table, desk) in tables.iter().flat_map(|table| NO_DESKS.map(|desk| (table, desk))) {
        trial.start(&mut Days::go_on(table), desk);
        trial.report(&Days::go_on(table), desk);
    }
    trial.counts
}

// ---- Days from the opening on --------------------------------------------------------------------------------------

/// Two desks whose tables are opened and come to a total at each end of the range, by 900 of the largest amounts and one that just fits; one
/// desk goes to one end, and the other to the other, in turn.
fn full_totals() -> Counts {
    let mut trial = Trial::new(5);
    for signs in [["", "-"], ["-", ""]] {
        let mut days = trial.open(&[7; 103]);
        for value in ["999999999999.9999"; 902].iter().chain(&["0.0901", "0.0900", "0.0001", "0"]) {
            trial.add(&mut days, 1, &limits::amount(&format!("{}{value}", signs[0]), "EUR"));
            trial.add(&mut days, 2, &limits::amount(&format!("{}{value}", signs[1]), "EUR"));
        }
        trial.report_both(&days);
        // Desk 1 goes to the other end, and desk 2 begins anew.
        trial.start(&mut days, 2);
        for value in ["999999999999.9999"; 1802].iter().chain(&["0.0901", "0.0900", "0.0001", "0"]) {
            trial.add(&mut days, 1, &limits::amount(&format!("{}{value}", signs[1]), "EUR"));
        }
        trial.report_both(&days);
    }
    trial.counts
}

/// A desk that is given a million records, and then some more, while the other adds now and then; its day is started anew in the end.
fn full_day() -> Counts {
    let mut trial = Trial::new(6);
    let given: Vec<Given> = limits::few_records();
    let read: Vec<Record> = given.iter().map(|(record, offset)| day::read(record, *offset, &trial.calendar)).collect();
    let mut days = trial.open(&[u64::MAX; 103]);
    for i in 0..1_000_008 {
        // Few are added, so that the list that is summed each time stays short.
        let kind = if i % 20_000 < 2 { i % 20_000 } else { 2 + i % 2 };
        trial.add_read(&mut days, 1, &given[kind], read[kind]);
        if i % 50_000 == 7 {
            trial.add_read(&mut days, 2, &given[i / 50_000 % 4], read[i / 50_000 % 4]);
        }
    }
    for desk in [2, 1, 2, 1] {
        let answers: Vec<u64> = (0..4).map(|kind| trial.add_read(&mut days, desk, &given[kind], read[kind])).collect();
        assert!(answers.iter().all(|answer| (*answer == DAY_FULL) == (desk == 1)));
    }
    trial.report_both(&days);
    trial.start(&mut days, 1);
    (0..4).for_each(|kind| assert!(trial.add_read(&mut days, 1, &given[kind], read[kind]) != DAY_FULL));
    trial.report_both(&days);
    trial.counts
}

/// Rows that are freed by a start and used again.
fn rounds() -> Counts {
    let mut trial = Trial::new(7);
    mixed::rounds(&mut trial);
    trial.counts
}

/// What is made from a seed: half of the records in histories from an opened table on, half to tables that are handed in.
fn made(options: &Options) -> bool {
    let mut trial = Trial::new(options.seed);
    mixed::histories(&mut trial, options.cases / 2);
    let in_days = [NO_ROW, TOTAL].map(|answer| trial.counts.answered(answer));
    made_tables(&mut trial, options.cases);
    let made = trial.counts;
    made.print(&format!("{} records made from seed {}, in histories and to tables that are handed in", made.records, options.seed));
    println!("  {:<56}{:>12}", "NO ROW in histories from an opened table on", in_days[0]);
    println!("  {:<56}{:>12}", "TOTAL in histories from an opened table on", in_days[1]);
    let broad = options.cases < 100_000 || made.is_broad() && !in_days.contains(&0);
    broad && made.differences == 0
}

/// Whether the functions and the second keeper agree.
pub fn run(options: &Options) -> bool {
    if !HAS_SERVICE {
        println!("totals: the library has no such functions, and the second keeper is tried alone");
    }
    let mut alike = stored_tables();
    alike &= made(options);
    if !options.only_made {
        let series = [
            ("every damage of a table, and both sides of every limit", every_damage()),
            ("totals at the ends of the range", every_end()),
            ("tables of every kind with records of every kind", every_order()),
            ("days that come to the ends of the range", full_totals()),
            ("a day of a million records", full_day()),
            ("rows that are freed and used again", rounds()),
        ];
        for (what, counts) in series {
            counts.print(what);
            alike &= counts.differences == 0;
        }
    }
    alike
}
