//! `rigcactus_check` against a second judge of records (faults.rs).

use crate::faults::{self, TYPES};
use crate::lent::{Fenced, Guarded};
use crate::markup::{self, Spelling};
use crate::random::Random;
use crate::records::{Maker, LONGEST};
use crate::refusals::{
    self, ACCEPTED, CLOCK, DATE, MARKUP, NOT_UTF8, NUMBERS, OFFSET, RULE, SHAPE, TOO_LONG, TYPE, VALUE, ZONE,
};
use crate::table;
use crate::tick::{agreed_offset, Calendar};
use crate::units;
use crate::Options;

/// Whether the library has the service. Where it has not, the second judge answers for it, and only the table and the shares are tried.
const HAS_SERVICE: bool = cfg!(rigcactus_check);

#[cfg(rigcactus_check)]
fn check(record: &[u8], offset: i64, _: &Calendar) -> u64 {
    extern "C" {
        fn rigcactus_check(record: *const u8, record_len: usize, offset: i64) -> u64;
    }
    // SAFETY: the pointer and the length are those of a slice, and the service writes nothing.
    unsafe { rigcactus_check(record.as_ptr(), record.len(), offset) }
}

#[cfg(not(rigcactus_check))]
fn check(record: &[u8], offset: i64, calendar: &Calendar) -> u64 {
    faults::judge(record, offset, calendar).number()
}

/// Differences that are printed, at most.
const PRINTED: u64 = 10;

/// What guards are made of: bytes that would go on with a record, and one that stands in none.
const GUARDS: [u8; 6] = [b' ', b'>', b'"', b'a', 0x80, 0xFF];

/// The answers there are; of a thousand, how many at least are to be each.
const LEAST_SHARES: [(u64, u64); 12] = [
    (ACCEPTED, 200),
    (OFFSET, 10),
    (TOO_LONG, 3),
    (NOT_UTF8, 10),
    (MARKUP, 50),
    (TYPE, 30),
    (SHAPE, 80),
    (VALUE, 80),
    (DATE, 18),
    (CLOCK, 12),
    (ZONE, 8),
    (RULE, 80),
];

/// Of a million records that got as far as to have a type, how many at least are to be accepted, or refused for SHAPE, VALUE or RULE,
/// with each type; and for DATE, CLOCK or ZONE with each that can have times in it.
const LEAST_OF_TYPE: u64 = 2_000;

/// Answers that are counted by type.
const BY_TYPE: [u64; 8] = [ACCEPTED, TYPE, SHAPE, VALUE, DATE, CLOCK, ZONE, RULE];

/// Two faults of one record, of which the first is the answer; of a million records, how many at least are to have both, and none that comes
/// before.
const TOGETHER: [([u64; 2], u64); 15] = [
    ([TYPE, DATE], 100),
    ([TYPE, CLOCK], 100),
    ([TYPE, ZONE], 100),
    ([SHAPE, DATE], 500),
    ([SHAPE, CLOCK], 500),
    ([SHAPE, ZONE], 500),
    ([VALUE, DATE], 400),
    ([VALUE, CLOCK], 400),
    ([VALUE, ZONE], 400),
    ([DATE, CLOCK], 5_000),
    ([DATE, ZONE], 5_000),
    ([CLOCK, ZONE], 2_500),
    ([DATE, RULE], 500),
    ([CLOCK, RULE], 400),
    ([ZONE, RULE], 200),
];

// ---- Counting and comparing ----------------------------------------------------------------------------------------

/// Counts of answers, by number and by type. Only answers that were due are counted here.
#[derive(Default)]
struct Counts {
    records: u64,
    by_number: [u64; NUMBERS],
    by_type: [[u64; NUMBERS]; TYPES.len()],
    together: [u64; TOGETHER.len()],
    by_bounds: units::Counts,
    differences: u64,
}

impl Counts {
    fn add(&mut self, judged: &faults::Judged, offset: i64, calendar: &Calendar) {
        let number = judged.number() as usize;
        self.by_number[number] += 1;
        let written = judged.tree.as_ref().and_then(|top| top.get("xsi:type"));
        if let Some(of_type) = TYPES.iter().position(|t| written == Some(t)) {
            self.by_type[of_type][number] += 1;
        }
        for (count, ([first, other], _)) in self.together.iter_mut().zip(TOGETHER) {
            *count += u64::from(judged.number() == first && judged.faults.contains(&other));
        }
        if let Some(tree) = &judged.tree {
            self.by_bounds.add(judged.number(), tree, offset, calendar);
        }
    }

    fn print(&self, what: &str) {
        println!("check: {what}");
        println!("  {:<32}{:>12}", "records", self.records);
        for (number, _) in LEAST_SHARES {
            println!("  {:<32}{:>12}", refusals::name(number), self.by_number[number as usize]);
        }
        println!("  {:<32}{:>12}", "differences", self.differences);
        for (([first, other], _), count) in TOGETHER.iter().zip(self.together) {
            println!("  {:<32}{count:>12}", format!("{}, also {}", refusals::name(*first), refusals::name(*other)));
        }
        for (kind, count) in self.by_bounds.rows() {
            println!("  {kind:<46}{count:>12}");
        }
        println!("  {:<12}{}", "by type", BY_TYPE.map(|number| format!("{:>14}", refusals::name(number))).concat());
        for (of_type, counts) in TYPES.iter().zip(self.by_type) {
            println!("  {of_type:<12}{}", BY_TYPE.map(|number| format!("{:>14}", counts[number as usize])).concat());
        }
    }

    /// Whether every number occurred in good measure. A run that hardly gave some answer has not tried what it should.
    fn is_broad(&self) -> bool {
        let mut rare = Vec::new();
        let mut ask = |what: String, count: u64, least: u64| {
            if count * 1_000_000 < self.records * least {
                rare.push(format!("check: under {least} of 1000000 answers were {what}"));
            }
        };
        for (number, least) in LEAST_SHARES {
            ask(refusals::name(number), self.by_number[number as usize], 1_000 * least);
        }
        for (of_type, counts) in TYPES.iter().zip(self.by_type) {
            let has_times = of_type.ends_with("TS");
            for number in BY_TYPE.into_iter().filter(|number| *number != TYPE && (has_times || ![DATE, CLOCK, ZONE].contains(number))) {
                ask(format!("{} for {of_type}", refusals::name(number)), counts[number as usize], LEAST_OF_TYPE);
            }
        }
        for (([first, other], least), count) in TOGETHER.iter().zip(self.together) {
            ask(format!("{}, also {}", refusals::name(*first), refusals::name(*other)), count, *least);
        }
        let rare_bounds = self.by_bounds.rare(self.records);
        rare.extend(rare_bounds.map(|(kind, least)| format!("check: under {least} of 1000000 records were {kind}")));
        rare.iter().for_each(|what| println!("{what}"));
        rare.is_empty()
    }
}

/// Where records are tried, and what came of it.
struct Trial {
    calendar: Calendar,
    guarded: Guarded,
    fenced: Fenced,
    counts: Counts,
}

impl Trial {
    fn new() -> Trial {
        Trial { calendar: Calendar::new(), guarded: Guarded::new(LONGEST), fenced: Fenced::new(LONGEST), counts: Counts::default() }
    }

    fn differ(&mut self, record: &[u8], offset: i64, what: &str) {
        self.counts.differences += 1;
        if self.counts.differences <= PRINTED {
            let more = if record.len() > 2000 { " .." } else { "" };
            let shown = record[..record.len().min(2000)].escape_ascii();
            eprintln!("check: {} bytes [{shown}{more}], offset {offset}: {what}", record.len());
        }
    }

    /// Tries a record between guards, or at a fence, or in memory of just its size, where a memory checker sees a read beside it.
    fn attempt(&mut self, record: &[u8], offset: i64, random: &mut Random) {
        self.counts.records += 1;
        let judged = faults::judge(record, offset, &self.calendar);
        let due = judged.number();
        let answer = match random.below(8) {
            0 => check(self.fenced.place_first(record), offset, &self.calendar),
            1 => check(self.fenced.place_last(record), offset, &self.calendar),
            2 => check(&Box::<[u8]>::from(record), offset, &self.calendar),
            _ => {
                self.guarded.place(record, random.below(64), random.one_of(&GUARDS));
                let answer = check(self.guarded.bytes(), offset, &self.calendar);
                if !self.guarded.is_unchanged(record) {
                    self.differ(record, offset, "the record or a guard byte was changed");
                }
                answer
            }
        };
        if answer == due {
            self.counts.add(&judged, offset, &self.calendar);
        } else {
            self.differ(record, offset, &format!("answered {answer}, due is {due}"));
        }
    }
}

// ---- The trials ----------------------------------------------------------------------------------------------------

/// The records of tests/records/check.txt: the second judge and the service are to give the number that stands there.
fn stored_records() -> bool {
    let calendar = Calendar::new();
    let (mut count, mut alike) = (0, true);
    for (number, line) in table::lines(include_str!("records/check.txt")) {
        let mut words = line.splitn(3, ' ');
        let due: u64 = words.next().unwrap().parse().unwrap();
        let offset: i64 = words.next().unwrap().parse().unwrap();
        let record = table::bytes(words.next().unwrap());
        let judged = faults::judge(&record, offset, &calendar).number();
        let answer = check(&record, offset, &calendar);
        if (judged, answer) != (due, due) {
            eprintln!("tests/records/check.txt:{number}: answered {answer}, the second judge says {judged}, due is {due}");
            alike = false;
        }
        count += 1;
    }
    println!("check: {count} stored records");
    alike
}

/// Good records: the second judge accepts them, and reads the tree that was written.
fn good_records(options: &Options) -> bool {
    let mut random = Random::new(options.seed);
    let calendar = Calendar::new();
    for _ in 0..options.cases / 20 {
        let offset = random.from(0, 1680) as i64 - 840;
        let tree = Maker { random: &mut random, offset, calendar: &calendar }.good();
        let spelling = Spelling::any(&mut random);
        let record = markup::write(&tree, spelling, &mut random);
        let judged = faults::judge(&record, offset, &calendar);
        if judged.tree != Some(tree) || !judged.faults.iter().all(|fault| *fault == TOO_LONG) {
            eprintln!("check: the second judge refuses [{}], offset {offset}: {:?}", record.escape_ascii(), judged.faults);
            return false;
        }
    }
    println!("check: {} good records", options.cases / 20);
    true
}

/// Records made from a seed.
fn made_records(options: &Options) -> Counts {
    let mut random = Random::new(options.seed);
    let mut trial = Trial::new();
    for _ in 0..options.cases {
        let offset = if random.once_in(4) { agreed_offset(&mut random) } else { 0 };
        let record = Maker { random: &mut random, offset, calendar: &trial.calendar }.record();
        trial.attempt(&record, offset, &mut random);
    }
    trial.counts
}

/// Whether the service and the second judge agree.
pub fn run(options: &Options) -> bool {
    if !HAS_SERVICE {
        println!("check: the library has no such service, and the second judge is tried alone");
    }
    let mut alike = stored_records() & good_records(options);
    let made = made_records(options);
    made.print(&format!("{} records made from seed {}", options.cases, options.seed));
    alike &= made.differences == 0;
    if options.cases >= 100_000 {
        alike &= made.is_broad();
    }
    alike
}
