//! Compares the services, as a host links them, with other implementations on the same inputs: Rust's standard library, or one that
//! stands in the service's file here.
//!
//!     services [--cases N] [--seed S] [--only-made] [--service NAME]
//!
//! N is how many texts, records, pairs or lists are tried with each service (500000), made from the seed S (1); a record to list is tried
//! with two lists, and half as many are made. The same N and S make the same ones. Besides, every text and list of some kinds is tried, as
//! every short one, every day, every impossible time and bounds of every precision, unless --only-made is given. NAME is the one service to
//! try, `impossible` for the impossible times alone or `last_day` for those bounds. A table says how often each answer occurred. The exit
//! status is 1 where a service and the other implementation differ, or where some answer hardly occurred, and 2 for bad usage.

mod bounds;
mod built;
mod check;
mod compare;
mod cut;
mod day;
mod faults;
mod impossible;
mod last_day;
mod lender;
mod lent;
mod likeness;
mod limits;
mod list;
mod lists;
mod markup;
mod mixed;
mod money;
mod options;
mod pairs;
mod places;
mod print;
mod printed;
mod random;
mod records;
mod refusals;
mod rows;
mod series;
mod sets;
mod shares;
mod table;
mod tally;
mod tick;
mod totals;
mod trial;
mod units;

use std::process::ExitCode;

use options::Options;

/// What tries each service, and says whether it agrees with the other implementation; and what tries impossible times, and bounds of every
/// precision, with all of them.
const SERVICES: [(&str, fn(&Options) -> bool); 9] = [
    ("cut", cut::run),
    ("tick", tick::run),
    ("check", check::run),
    ("list", list::run),
    ("compare", compare::run),
    ("print", print::run),
    ("totals", totals::run),
    ("impossible", impossible::run),
    ("last_day", last_day::run),
];

fn options() -> Option<Options> {
    let mut options = Options { cases: 500_000, seed: 1, only_made: false, service: None };
    let mut words = std::env::args().skip(1);
    while let Some(word) = words.next() {
        match word.as_str() {
            "--cases" => options.cases = words.next()?.parse().ok()?,
            "--seed" => options.seed = words.next()?.parse().ok()?,
            "--only-made" => options.only_made = true,
            "--service" => options.service = Some(words.next().filter(|word| SERVICES.iter().any(|(name, _)| name == word))?),
            _ => return None,
        }
    }
    Some(options)
}

fn main() -> ExitCode {
    let Some(options) = options() else {
        eprintln!("usage: services [--cases N] [--seed S] [--only-made] [--service NAME]");
        return ExitCode::from(2);
    };
    let mut alike = true;
    for (name, run) in SERVICES {
        if options.service.as_ref().is_none_or(|only| only == name) {
            alike &= run(&options);
        }
    }
    if alike { ExitCode::SUCCESS } else { ExitCode::from(1) }
}
