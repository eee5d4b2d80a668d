//! Counts of what printing lists answered, and whether every answer occurred in good measure.

use crate::lists::LAST_TICK;
use crate::places::Stretch;
use crate::printed::{self, Dates, Printed, FAULTS, MOST_STRETCHES};
use crate::refusals::{NOT_WRITABLE, NO_ROOM};

/// Of a thousand answers, how many at least are to be accepted, NO ROOM and NOT WRITABLE, in this order.
const LEAST_SHARES: [(u64, &str, u64); 3] = [(0, "ACCEPTED", 200), (NO_ROOM, "NO ROOM", 120), (NOT_WRITABLE, "NOT WRITABLE", 300)];

/// Of a thousand answers, how many at least are to be NOT WRITABLE for each fault alone.
const LEAST_OF_FAULT: u64 = 5;

/// Of a thousand accepted lists, how many at least are to be of each kind.
const KINDS: [(&str, u64); 16] = [
    ("no stretch", 30),
    ("one stretch", 200),
    ("2 to 7 stretches", 300),
    ("8 to 31 stretches", 60),
    ("32 stretches", 20),
    ("room for no byte more", 150),
    ("an end without a bound", 200),
    ("no bound at all", 5),
    ("a single instant", 200),
    ("a single gap", 100),
    ("stretches that a gap parts", 100),
    ("stretches that an instant parts", 100),
    ("the first tick of year 0001", 5),
    ("the last tick of year 9999", 5),
    ("29 February", 5),
    ("a whole second", 5),
];

/// Counts of answers, of refused lists by what is wrong with them, and of accepted ones by kind. Only answers that were due are counted.
#[derive(Default)]
pub struct Counts {
    pub calls: u64,
    by_answer: [u64; LEAST_SHARES.len()],
    one_byte_short: u64,
    by_fault: [u64; FAULTS.len()],
    several_faults: u64,
    refused_without_room: u64,
    by_kind: [u64; KINDS.len()],
    pub read_back: u64,
    pub differences: u64,
}

/// Of which kinds an accepted list is, in the order of `KINDS`.
fn kinds(stretches: &[Stretch], printed: &Printed, length: usize, dates: &Dates) -> [bool; KINDS.len()] {
    let one = |holds: fn(&Stretch) -> bool| stretches.iter().any(holds);
    let two = |holds: fn(&Stretch, &Stretch) -> bool| stretches.windows(2).any(|pair| holds(&pair[0], &pair[1]));
    let bounds = || stretches.iter().flat_map(|s| [(s[0], s[1]), (s[2], s[3])]).filter(|(kind, _)| *kind != 0);
    [
        stretches.is_empty(),
        stretches.len() == 1,
        (2..=7).contains(&stretches.len()),
        (8..=31).contains(&stretches.len()),
        stretches.len() == MOST_STRETCHES,
        printed.record.len() == length,
        one(|s| s[0] == 0 || s[2] == 0),
        stretches == [[0; 4]],
        one(|s| s[0] == 2 && s[2] == 2 && s[1] == s[3]),
        one(|s| s[0] == 1 && s[2] == 1 && s[1] + 1 == s[3]),
        two(|a, b| a[2] == 2 && b[0] == 2 && a[3] + 1 == b[1]),
        two(|a, b| a[2] == 1 && b[0] == 1 && a[3] == b[1]),
        bounds().any(|(_, tick)| tick == 0),
        bounds().any(|(_, tick)| tick == LAST_TICK),
        bounds().any(|(_, tick)| matches!(dates.date(tick), Some((_, 2, 29)))),
        bounds().any(|(_, tick)| tick % 10_000 == 0),
    ]
}

impl Counts {
    pub fn add(&mut self, list: &[u8], printed: &Printed, length: usize, dates: &Dates) {
        let number = printed.answer(length) & 0xFF;
        let at = LEAST_SHARES.iter().position(|share| share.0 == number).unwrap();
        self.by_answer[at] += 1;
        match number {
            0 => {
                for (count, is_so) in self.by_kind.iter_mut().zip(kinds(&printed::stretches(list), printed, length, dates)) {
                    *count += u64::from(is_so);
                }
            }
            NO_ROOM => self.one_byte_short += u64::from(printed.record.len() == length + 1),
            _ => {
                match Vec::from_iter(&printed.faults)[..] {
                    [fault] => self.by_fault[*fault as usize] += 1,
                    _ => self.several_faults += 1,
                }
                self.refused_without_room += u64::from(length == 0);
            }
        }
    }

    /// What occurred, how often, and how often of so many times it has to at least.
    fn rows(&self) -> Vec<(String, u64, u64, u64)> {
        let mut rows = Vec::new();
        for ((number, name, least), count) in LEAST_SHARES.iter().zip(self.by_answer) {
            rows.push((format!("{name} ({number})"), count, self.calls, *least));
        }
        let accepted = self.by_answer[0];
        for ((kind, least), count) in KINDS.iter().zip(self.by_kind) {
            rows.push((format!("accepted, {kind}"), count, accepted, *least));
        }
        rows.push(("NO ROOM by one byte".to_string(), self.one_byte_short, self.calls, 20));
        for (fault, count) in FAULTS.iter().zip(self.by_fault) {
            rows.push((format!("NOT WRITABLE for {fault}"), count, self.calls, LEAST_OF_FAULT));
        }
        rows.push(("NOT WRITABLE for several reasons".to_string(), self.several_faults, self.calls, 20));
        rows.push(("NOT WRITABLE, and no room at all".to_string(), self.refused_without_room, self.calls, 20));
        rows
    }

    /// Prints what occurred.
    pub fn print(&self, what: &str) {
        println!("print: {what}");
        println!("  {:<52}{:>12}", "calls", self.calls);
        for (row, count, _, _) in self.rows().into_iter().filter(|(_, count, _, _)| *count > 0) {
            println!("  {row:<52}{count:>12}");
        }
        println!("  {:<52}{:>12}", "records read back", self.read_back);
        println!("  {:<52}{:>12}", "differences", self.differences);
    }

    /// Whether every answer, fault and kind occurred in good measure. A run that hardly gave some answer has not tried what it should.
    pub fn is_broad(&self) -> bool {
        let mut broad = true;
        for (row, count, of, least) in self.rows() {
            if count * 1000 < of * least {
                println!("print: under {least} of 1000 were: {row}");
                broad = false;
            }
        }
        broad
    }
}
