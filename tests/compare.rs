//! `rigcactus_compare` against a second comparer of records (likeness.rs).

use crate::lent::{Fenced, Guarded};
use crate::likeness::{self, Answer, Compared, Due, COMPARED};
use crate::random::Random;
use crate::records::{Maker, LONGEST};
use crate::refusals::{
    self, CLOCK, DATE, MARKUP, NOT_UTF8, NUMBERS, OFFSET, RULE, SHAPE, TOO_LONG, TYPE, VALUE, ZONE,
};
use crate::table;
use crate::tick::{agreed_offset, Calendar};
use crate::Options;

/// Whether the library has the service. Where it has not, the second comparer answers for it, and only the table and the shares are tried.
const HAS_SERVICE: bool = cfg!(rigcactus_compare);

#[cfg(rigcactus_compare)]
fn compare(first: &[u8], second: &[u8], offset: i64, _: Due) -> u64 {
    extern "C" {
        fn rigcactus_compare(first: *const u8, first_len: usize, second: *const u8, second_len: usize, offset: i64) -> u64;
    }
    // SAFETY: the pointers and the lengths are those of slices, and the service writes nothing.
    unsafe { rigcactus_compare(first.as_ptr(), first.len(), second.as_ptr(), second.len(), offset) }
}

#[cfg(not(rigcactus_compare))]
fn compare(_: &[u8], _: &[u8], _: i64, due: Due) -> u64 {
    due.packed()
}

/// Differences that are printed, at most.
const PRINTED: u64 = 10;

/// What guards are made of: bytes that would go on with a record, and one that stands in none.
const GUARDS: [u8; 6] = [b' ', b'>', b'"', b'a', 0x80, 0xFF];

const ANSWERS: [Answer; 3] = [Answer::Yes, Answer::No, Answer::Unknown];

/// Of a thousand answers, how many at least are to be yes, no and unknown with each type that can be compared.
const LEAST_OF_ANSWER: u64 = 10;

/// The refusals there are; of ten thousand answers, how many at least are to refuse the first record by each, and the second.
const LEAST_REFUSED: [(u64, [u64; 2]); 11] = [
    (OFFSET, [80, 0]),
    (TOO_LONG, [1, 1]),
    (NOT_UTF8, [5, 5]),
    (MARKUP, [80, 60]),
    (TYPE, [80, 500]),
    (SHAPE, [100, 80]),
    (VALUE, [100, 80]),
    (DATE, [60, 60]),
    (CLOCK, [50, 50]),
    (ZONE, [40, 40]),
    (RULE, [120, 100]),
];

// ---- Counting and comparing ----------------------------------------------------------------------------------------

/// Counts of answers, by type, and of refusals, by record and number. Only answers that were due are counted here.
#[derive(Default)]
struct Counts {
    pairs: u64,
    by_answer: [[u64; 3]; COMPARED.len()],
    refused: [[u64; NUMBERS]; 2],
    differences: u64,
}

impl Counts {
    fn add(&mut self, compared: &Compared) {
        match compared.due {
            Due::Answered(answer) => {
                let of_type = COMPARED.iter().position(|t| compared.of_type.as_deref() == Some(t)).unwrap();
                self.by_answer[of_type][answer as usize - 1] += 1;
            }
            Due::Refused(record, number) => self.refused[record as usize - 1][number as usize] += 1,
        }
    }

    fn print(&self, what: &str) {
        println!("compare: {what}");
        println!("  {:<32}{:>12}", "pairs", self.pairs);
        println!("  {:<12}{:>12}{:>12}{:>12}", "by type", "yes", "no", "unknown");
        for (of_type, [yes, no, unknown]) in COMPARED.iter().zip(self.by_answer) {
            println!("  {of_type:<12}{yes:>12}{no:>12}{unknown:>12}");
        }
        println!("  {:<20}{:>12}{:>12}", "refused", "the first", "the second");
        for (number, _) in LEAST_REFUSED {
            let [first, second] = self.refused.map(|counts| counts[number as usize]);
            println!("  {:<20}{first:>12}{second:>12}", refusals::name(number));
        }
        println!("  {:<32}{:>12}", "differences", self.differences);
    }

    /// Whether every answer and refusal occurred in good measure. A run that hardly gave some answer has not tried what it should.
    fn is_broad(&self) -> bool {
        let mut broad = true;
        for (of_type, counts) in COMPARED.iter().zip(self.by_answer) {
            for (answer, count) in ANSWERS.iter().zip(counts) {
                if count * 1000 < self.pairs * LEAST_OF_ANSWER {
                    println!("compare: under {LEAST_OF_ANSWER} of 1000 answers were {answer:?} for {of_type}");
                    broad = false;
                }
            }
        }
        for (number, least) in LEAST_REFUSED {
            for (record, (counts, least)) in self.refused.iter().zip(least).enumerate() {
                if counts[number as usize] * 10_000 < self.pairs * least {
                    println!("compare: under {least} of 10000 answers refused record {} with {}", record + 1, refusals::name(number));
                    broad = false;
                }
            }
        }
        broad
    }
}

/// Where pairs are tried, and what came of it.
struct Trial {
    calendar: Calendar,
    guarded: [Guarded; 2],
    fenced: [Fenced; 2],
    counts: Counts,
}

impl Trial {
    fn new() -> Trial {
        Trial {
            calendar: Calendar::new(),
            guarded: [Guarded::new(LONGEST), Guarded::new(LONGEST)],
            fenced: [Fenced::new(LONGEST), Fenced::new(LONGEST)],
            counts: Counts::default(),
        }
    }

    fn differ(&mut self, first: &[u8], second: &[u8], offset: i64, what: &str) {
        self.counts.differences += 1;
        if self.counts.differences <= PRINTED {
            let shown = |record: &[u8]| format!("[{}]", record[..record.len().min(2000)].escape_ascii());
            eprintln!("compare: {} and {}, offset {offset}: {what}", shown(first), shown(second));
        }
    }

    /// Tries a pair between guards, or at fences, or in memory of just its size, where a memory checker sees a read beside it; or, where
    /// both are the same, in the same place.
    fn attempt(&mut self, first: &[u8], second: &[u8], offset: i64, random: &mut Random) {
        self.counts.pairs += 1;
        let compared = likeness::compare(first, second, offset, &self.calendar);
        let due = compared.due;
        let [one, two] = &mut self.fenced;
        let answer = match random.below(8) {
            _ if first == second && random.once_in(2) => compare(first, first, offset, due),
            0 => compare(one.place_first(first), two.place_last(second), offset, due),
            1 => compare(one.place_last(first), two.place_first(second), offset, due),
            2 => compare(&Box::<[u8]>::from(first), &Box::<[u8]>::from(second), offset, due),
            _ => {
                for (guarded, record) in self.guarded.iter_mut().zip([first, second]) {
                    guarded.place(record, random.below(64), random.one_of(&GUARDS));
                }
                let answer = compare(self.guarded[0].bytes(), self.guarded[1].bytes(), offset, due);
                if !self.guarded[0].is_unchanged(first) || !self.guarded[1].is_unchanged(second) {
                    self.differ(first, second, offset, "a record or a guard byte was changed");
                }
                answer
            }
        };
        if answer == due.packed() {
            self.counts.add(&compared);
        } else {
            self.differ(first, second, offset, &format!("answered {answer:#x}, due is {:#x}, {due:?}", due.packed()));
        }
    }
}

// ---- The trials ----------------------------------------------------------------------------------------------------

/// What a table says is due.
fn due_of(word: &str) -> Due {
    match word {
        "yes" => Due::Answered(Answer::Yes),
        "no" => Due::Answered(Answer::No),
        "unknown" => Due::Answered(Answer::Unknown),
        _ => {
            let (record, number) = word.split_once(':').unwrap();
            Due::Refused(record.parse().unwrap(), number.parse().unwrap())
        }
    }
}

/// The pairs of tests/records/compare.txt: the second comparer and the service are to give what stands there; and, where it is an answer,
/// the same with the records in the other order.
fn stored_pairs() -> bool {
    let calendar = Calendar::new();
    let (mut count, mut alike) = (0, true);
    for (number, line) in table::lines(include_str!("records/compare.txt")) {
        let words: Vec<&str> = line.splitn(3, ' ').collect();
        let due = due_of(words[0]);
        let offset: i64 = words[1].parse().unwrap();
        let (first, second) = words[2].split_once(" ~ ").unwrap();
        let mut orders = vec![(table::bytes(first), table::bytes(second))];
        if let Due::Answered(_) = due {
            orders.push((table::bytes(second), table::bytes(first)));
        }
        for (first, second) in orders {
            let compared = likeness::compare(&first, &second, offset, &calendar);
            let answer = compare(&first, &second, offset, due);
            if (answer, compared.due) != (due.packed(), due) {
                let second = compared.due;
                eprintln!("tests/records/compare.txt:{number}: answered {answer:#x}, the second comparer says {second:?}, due is {due:?}");
                alike = false;
            }
        }
        count += 1;
    }
    println!("compare: {count} stored pairs");
    alike
}

/// Pairs made from a seed.
fn made_pairs(options: &Options) -> Counts {
    let mut random = Random::new(options.seed);
    let mut trial = Trial::new();
    for _ in 0..options.cases {
        let offset = match random.below(8) {
            0 => agreed_offset(&mut random),
            1 | 2 => random.from(0, 1680) as i64 - 840,
            _ => 0,
        };
        let (first, second) = Maker { random: &mut random, offset, calendar: &trial.calendar }.pair();
        trial.attempt(&first, &second, offset, &mut random);
    }
    trial.counts
}

/// Whether the service and the second comparer agree.
pub fn run(options: &Options) -> bool {
    if !HAS_SERVICE {
        println!("compare: the library has no such service, and the second comparer is tried alone");
    }
    let mut alike = stored_pairs();
    let made = made_pairs(options);
    made.print(&format!("{} pairs made from seed {}", options.cases, options.seed));
    alike &= made.differences == 0;
    if options.cases >= 100_000 {
        alike &= made.is_broad();
    }
    alike
}
