//! `rigcactus_tick` against a second reader of timestamps, which counts the days of the calendar one by one and says which parts of a time
//! are impossible.

use crate::lent::{Fenced, Guarded};
use crate::random::Random;
use crate::refusals::{self, CLOCK, DATE, NUMBERS, OFFSET, TOO_LONG, VALUE, ZONE};
use crate::Options;

extern "C" {
    fn rigcactus_tick(text: *const u8, text_len: usize, offset: i64, tick: *mut i64) -> u64;
}

const MOST_BYTES: usize = 16_384;

/// How many ticks a day has, and a minute.
const DAY: i64 = 864_000_000;
const MINUTE: i64 = 600_000;

/// The longest text that is made, in bytes.
const LONGEST: usize = MOST_BYTES + 8;

/// Differences that are printed, at most.
const PRINTED: u64 = 10;

fn tick(text: &[u8], offset: i64, tick: &mut i64) -> u64 {
    // SAFETY: the pointer and the length are those of a slice, and the tick is no part of it.
    unsafe { rigcactus_tick(text.as_ptr(), text.len(), offset, tick) }
}

// ---- The second reader ---------------------------------------------------------------------------------------------

/// A day of the calendar, and how many days come before it from 0001-01-01 on.
#[derive(Clone, Copy)]
struct Day {
    year: usize,
    month: usize,
    day: usize,
    before: i64,
}

const FIRST_DAY: Day = Day { year: 1, month: 1, day: 1, before: 0 };

pub fn month_length(year: usize, month: usize) -> usize {
    match month {
        2 if year % 400 == 0 => 29,
        2 if year % 100 == 0 => 28,
        2 if year % 4 == 0 => 29,
        2 => 28,
        4 | 6 | 9 | 11 => 30,
        _ => 31,
    }
}

impl Day {
    fn next(self) -> Day {
        let before = self.before + 1;
        if self.day < month_length(self.year, self.month) {
            Day { day: self.day + 1, before, ..self }
        } else if self.month < 12 {
            Day { month: self.month + 1, day: 1, before, ..self }
        } else {
            Day { year: self.year + 1, month: 1, day: 1, before }
        }
    }
}

/// How many days come before each day of years 1 to 9999, and before the first day of year 10000.
pub struct Calendar(Vec<Option<i64>>);

impl Calendar {
    pub fn new() -> Calendar {
        let mut before = vec![None; 10_000 * 12 * 31];
        let mut day = FIRST_DAY;
        while day.year <= 9999 {
            before[Calendar::place(day.year, day.month, day.day)] = Some(day.before);
            day = day.next();
        }
        before.push(Some(day.before));
        Calendar(before)
    }

    fn place(year: usize, month: usize, day: usize) -> usize {
        (year * 12 + month - 1) * 31 + day - 1
    }

    /// None where there is no such day.
    pub fn days_before(&self, year: i64, month: i64, day: i64) -> Option<i64> {
        if !(1..=12).contains(&month) || !(1..=31).contains(&day) {
            return None;
        }
        self.0[Calendar::place(year as usize, month as usize, day as usize)]
    }
}

/// What is due: a tick and a precision, or a refusal.
#[derive(Clone, Copy, PartialEq)]
pub enum Due {
    At { tick: i64, precision: u64 },
    Refused(u64),
}

impl Due {
    /// The answer as the service packs it.
    pub fn answer(self) -> u64 {
        match self {
            Due::At { precision, .. } => precision * 256,
            Due::Refused(refusal) => refusal,
        }
    }

    /// What the lent number is afterwards.
    pub fn after(self, before: i64) -> i64 {
        match self {
            Due::At { tick, .. } => tick,
            Due::Refused(_) => before,
        }
    }
}

fn is_digits(text: &str) -> bool {
    text.bytes().all(|b| b.is_ascii_digit())
}

/// The number that digits write, of which there are at most 18.
fn number(digits: &str) -> i64 {
    digits.parse().unwrap()
}

/// A text of the right form, in its parts.
struct Written<'a> {
    /// The digits before any point: a year, and what follows it up to a second at most.
    whole: &'a str,
    /// The digits after a point.
    fraction: &'a str,
    /// A sign with hours and minutes, if an offset is written.
    zone: &'a str,
}

/// Takes a text apart at its sign and at its point. None where its form is wrong, whatever its digits say.
fn take_apart(text: &str) -> Option<Written<'_>> {
    let (local, zone) = text.split_at(text.find(['+', '-']).unwrap_or(text.len()));
    let (whole, fraction) = match local.split_once('.') {
        Some((whole, fraction)) => (whole, Some(fraction)),
        None => (local, None),
    };
    if !is_digits(whole) || ![4, 6, 8, 10, 12, 14].contains(&whole.len()) {
        return None;
    }
    if fraction.is_some_and(|f| !is_digits(f) || f.is_empty() || f.len() > 4 || whole.len() < 14) {
        return None;
    }
    if !zone.is_empty() && (whole.len() < 10 || !is_digits(&zone[1..]) || ![3, 5].contains(&zone.len())) {
        return None;
    }
    Some(Written { whole, fraction: fraction.unwrap_or(""), zone })
}

/// The minutes of a written offset, if there can be such a one.
fn zone_minutes(zone: &str) -> Option<i64> {
    let minutes = if zone.len() == 5 { number(&zone[3..]) } else { 0 };
    let all = number(&zone[1..3]) * 60 + minutes;
    let possible = minutes < 60 && all <= 14 * 60;
    possible.then_some(if zone.starts_with('-') { -all } else { all })
}

/// The tick and the precision of a text; or all that is wrong with it, the form alone or any of date, clock and offset.
pub fn read(text: &str, agreed: i64, calendar: &Calendar) -> Result<(i64, u64), Vec<u64>> {
    let Some(Written { whole, fraction, zone }) = take_apart(text) else {
        return Err(vec![VALUE]);
    };
    // Digits that are written, or else those of the first value.
    let part = |from: usize, to: usize| number(whole.get(from..to).unwrap_or(&"00000101000000"[from..to]));
    let days = calendar.days_before(part(0, 4), part(4, 6), part(6, 8));
    let (hours, minutes, seconds) = (part(8, 10), part(10, 12), part(12, 14));
    let is_time_of_day = hours <= 23 && minutes <= 59 && seconds <= 59;
    let offset = if zone.is_empty() { Some(agreed) } else { zone_minutes(zone) };
    let (Some(days), true, Some(offset)) = (days, is_time_of_day, offset) else {
        let parts = [(DATE, days.is_none()), (CLOCK, !is_time_of_day), (ZONE, offset.is_none())];
        return Err(parts.into_iter().filter(|(_, is_impossible)| *is_impossible).map(|(number, _)| number).collect());
    };
    let in_seconds = days * 86_400 + hours * 3_600 + minutes * 60 + seconds - offset * 60;
    let fraction_ticks = if fraction.is_empty() { 0 } else { number(fraction) * 10_i64.pow(4 - fraction.len() as u32) };
    let tick = in_seconds * 10_000 + fraction_ticks;
    Ok((tick, (whole.len() + fraction.len()) as u64))
}

pub fn due(text: &[u8], agreed: i64, calendar: &Calendar) -> Due {
    if !(-840..=840).contains(&agreed) {
        return Due::Refused(OFFSET);
    }
    if text.len() > MOST_BYTES {
        return Due::Refused(TOO_LONG);
    }
    let Some(text) = std::str::from_utf8(text).ok().filter(|text| text.is_ascii()) else {
        return Due::Refused(VALUE);
    };
    match read(text, agreed, calendar) {
        Ok((tick, precision)) => Due::At { tick, precision },
        Err(faults) => Due::Refused(refusals::first(&faults)),
    }
}

// ---- Counting and comparing ----------------------------------------------------------------------------------------

/// What the service can refuse a text for; of a thousand answers to made texts, how many at least are to be each.
const LEAST_REFUSED: [(u64, u64); 6] = [(OFFSET, 80), (TOO_LONG, 2), (VALUE, 150), (DATE, 60), (CLOCK, 30), (ZONE, 30)];

/// What can be impossible in a text of the right form, and a name for it; of ten thousand answers to made texts, how many at least are to
/// be to such.
const IMPOSSIBLE: [(&[u64], &str, u64); 7] = [
    (&[DATE], "date alone", 400),
    (&[CLOCK], "clock alone", 300),
    (&[ZONE], "offset alone", 300),
    (&[DATE, CLOCK], "date and clock", 50),
    (&[DATE, ZONE], "date and offset", 50),
    (&[CLOCK, ZONE], "clock and offset", 50),
    (&[DATE, CLOCK, ZONE], "date, clock and offset", 20),
];

/// Counts of answers, by kind. Only answers that were due are counted here.
#[derive(Default)]
struct Counts {
    texts: u64,
    by_precision: [u64; 19],
    below_zero: u64,
    refused: [u64; NUMBERS],
    /// In the order of `IMPOSSIBLE`.
    by_impossible: [u64; IMPOSSIBLE.len()],
    differences: u64,
}

impl Counts {
    fn add(&mut self, due: Due) {
        match due {
            Due::At { tick, precision } => {
                self.by_precision[precision as usize] += 1;
                self.below_zero += u64::from(tick < 0);
            }
            Due::Refused(refusal) => self.refused[refusal as usize] += 1,
        }
    }

    fn kinds(&self) -> Vec<(String, u64)> {
        let mut kinds: Vec<(String, u64)> = [4, 6, 8, 10, 12, 14, 15, 16, 17, 18]
            .map(|p| (format!("accepted, precision {p}"), self.by_precision[p as usize]))
            .to_vec();
        for (refusal, _) in LEAST_REFUSED {
            kinds.push((format!("refused, {}", refusals::name(refusal)), self.refused[refusal as usize]));
        }
        kinds
    }

    fn print(&self, what: &str) {
        println!("tick: {what}");
        println!("  {:<32}{:>12}", "texts", self.texts);
        let mut calls = self.differences;
        for (kind, count) in self.kinds() {
            println!("  {kind:<32}{count:>12}");
            calls += count;
        }
        println!("  {:<32}{calls:>12}", "calls");
        println!("  {:<32}{:>12}", "of these with a tick below 0", self.below_zero);
        for ((_, name, _), count) in IMPOSSIBLE.iter().zip(self.by_impossible).filter(|(_, count)| *count > 0) {
            println!("  {:<32}{count:>12}", format!("impossible {name}"));
        }
        println!("  {:<32}{:>12}", "differences", self.differences);
    }

    /// Whether every answer occurred in good measure among made texts. A run that hardly gave one has not tried what it should.
    fn is_broad(&self) -> bool {
        let below_zero = ("accepted, a tick below 0".to_string(), self.below_zero);
        let mut rows: Vec<(String, u64, u64)> = self.kinds().into_iter().chain([below_zero]).map(|(kind, count)| (kind, count, 1)).collect();
        let calls: u64 = self.by_precision.iter().chain(&self.refused).sum();
        for (refusal, least) in LEAST_REFUSED {
            rows.push((refusals::name(refusal), self.refused[refusal as usize], calls * least / 1_000));
        }
        for ((_, name, least), count) in IMPOSSIBLE.iter().zip(self.by_impossible) {
            rows.push((format!("to an impossible {name}"), count, self.texts * least / 10_000));
        }
        rows.retain(|(_, count, least)| count < least);
        for (kind, count, least) in &rows {
            println!("tick: {count} answers were '{kind}', and {least} should be");
        }
        rows.is_empty()
    }
}

/// A text, an agreed offset, what the lent number is before, and what is due.
#[derive(Clone, Copy)]
struct Case<'a> {
    text: &'a [u8],
    offset: i64,
    before: i64,
    due: Due,
}

/// How many numbers stand on each side of a lent one.
const BESIDE: usize = 8;

/// Where texts are tried, and what came of it.
struct Trial {
    guarded: Guarded,
    fenced: Fenced,
    fenced_tick: Fenced,
    counts: Counts,
}

/// Eight bytes at a page's edge as the number that they are.
fn as_tick(bytes: &mut [u8]) -> &mut i64 {
    // SAFETY: any eight bytes are a number.
    let (_, ticks, _) = unsafe { bytes.align_to_mut::<i64>() };
    &mut ticks[0]
}

impl Trial {
    fn new() -> Trial {
        Trial { guarded: Guarded::new(LONGEST), fenced: Fenced::new(LONGEST), fenced_tick: Fenced::new(8), counts: Counts::default() }
    }

    fn differ(&mut self, case: Case, what: &str) {
        self.counts.differences += 1;
        if self.counts.differences <= PRINTED {
            let Case { text, offset, .. } = case;
            let more = if text.len() > 64 { " .." } else { "" };
            let shown = text[..text.len().min(64)].escape_ascii();
            eprintln!("tick: {} bytes [{shown}{more}], offset {offset}: {what}", text.len());
        }
    }

    /// Compares an answer, and the lent number after it, with those that are due.
    fn compare(&mut self, case: Case, answer: u64, after: i64) {
        let (due_answer, due_after) = (case.due.answer(), case.due.after(case.before));
        if (answer, after) == (due_answer, due_after) {
            self.counts.add(case.due);
        } else {
            self.differ(case, &format!("answered {answer} with the number {after}, due are {due_answer} and {due_after}"));
        }
    }

    /// Tries a text where it stands.
    fn ask(&mut self, case: Case) {
        self.counts.texts += 1;
        let mut lent = case.before;
        let answer = tick(case.text, case.offset, &mut lent);
        self.compare(case, answer, lent);
    }

    /// Tries a text between guards, with numbers on both sides of the lent one.
    fn guard(&mut self, case: Case, shift: usize, guard: u8) {
        self.guarded.place(case.text, shift, guard);
        self.counts.texts += 1;
        let mut numbers = [case.before; 2 * BESIDE + 1];
        let answer = tick(self.guarded.bytes(), case.offset, &mut numbers[BESIDE]);
        self.compare(case, answer, numbers[BESIDE]);
        numbers[BESIDE] = case.before;
        if numbers != [case.before; 2 * BESIDE + 1] {
            self.differ(case, "a number beside the lent one was changed");
        }
        if !self.guarded.is_unchanged(case.text) {
            self.differ(case, "the text or a guard byte was changed");
        }
    }

    /// Tries a text once at each fence, with the number at a fence too, and in memory of just its size, where a memory checker sees a
    /// read beside it.
    fn fence(&mut self, case: Case) {
        let lent = as_tick(self.fenced_tick.place_first(&case.before.to_ne_bytes()));
        let first = (tick(self.fenced.place_first(case.text), case.offset, lent), *lent);
        let lent = as_tick(self.fenced_tick.place_last(&case.before.to_ne_bytes()));
        let last = (tick(self.fenced.place_last(case.text), case.offset, lent), *lent);
        let mut lent = Box::new(case.before);
        let alone = (tick(&Box::<[u8]>::from(case.text), case.offset, &mut lent), *lent);
        for (answer, after) in [first, last, alone] {
            self.compare(case, answer, after);
        }
    }
}

// ---- Texts ---------------------------------------------------------------------------------------------------------

/// Bytes that stand in timestamps, or beside what does in ASCII, or in other ways to write a time.
const BYTES: &[u8] = b"0123456789+-./:,ZTz \0\n\x7F\x80\xB0\xFF";

/// An agreed offset: one that may be, mostly; else one at a limit, or one of all there are.
pub fn agreed_offset(random: &mut Random) -> i64 {
    const EDGES: [i64; 14] = [-842, -841, -840, -839, 839, 840, 841, 842, i64::MIN, i64::MAX, 1 << 32, (1 << 32) + 60, -(1 << 32), 0];
    match random.below(16) {
        0 => random.one_of(&EDGES),
        1 => random.next() as i64,
        _ => random.from(0, 1680) as i64 - 840,
    }
}

pub fn year(random: &mut Random) -> usize {
    match random.below(8) {
        0 => 1,
        1 => 9999,
        2 => random.from(1, 99) * 100,
        3 => random.from(1990, 2030),
        _ => random.from(1, 9999),
    }
}

/// A written offset that may be.
pub fn zone(random: &mut Random) -> String {
    let sign = random.one_of(&['+', '-']);
    let minutes = if random.once_in(8) { 840 } else { random.from(0, 840) };
    if random.once_in(2) {
        format!("{sign}{:02}{:02}", minutes / 60, minutes % 60)
    } else {
        format!("{sign}{:02}", minutes / 60)
    }
}

/// A written offset that no place has.
fn impossible_zone(random: &mut Random) -> String {
    let sign = random.one_of(&['+', '-']);
    let digits = random.one_of(&["1401", "1459", "1500", "2400", "9959", "15", "24", "99", "0060", "0090", "0099", "1360", "1399"]);
    format!("{sign}{digits}")
}

/// A written offset that no place has, or that is barely one, or that is none by its form.
fn far_zone(random: &mut Random) -> String {
    if random.once_in(2) {
        return impossible_zone(random);
    }
    let sign = random.one_of(&['+', '-']);
    let digits = random.one_of(&["1400", "1359", "0059", "14", "00", "0", "000", "00000", ""]);
    format!("{sign}{digits}")
}

/// The numbers MM, DD, hh, mm, ss of a time in a year.
pub fn parts(random: &mut Random, year: usize) -> [usize; 5] {
    let month = random.from(1, 12);
    let last = month_length(year, month);
    let day = if random.once_in(4) { last } else { random.from(1, last) };
    [month, day, random.from(0, 23), random.from(0, 59), random.from(0, 59)]
}

/// A year and so many of the numbers that follow it, in digits.
fn digits_of(year: usize, parts: &[usize]) -> String {
    parts.iter().fold(format!("{year:04}"), |text, part| text + &format!("{part:02}"))
}

/// Brings a number of a time, or its written offset, to a limit or past it.
fn spoil(random: &mut Random, year: &mut usize, parts: &mut [usize; 5], zone: &mut String) {
    match random.below(9) {
        0 => parts[0] = random.one_of(&[0, 1, 12, 13, 99]),
        1 => parts[1] = random.one_of(&[0, 1, 28, 29, 30, 31, 32, 99]),
        2 => *year = 0,
        3 => parts[2] = random.one_of(&[0, 23, 24, 99]),
        4 => parts[3] = random.one_of(&[0, 59, 60, 99]),
        5 => parts[4] = random.one_of(&[0, 59, 60, 99]),
        _ => *zone = far_zone(random),
    }
}

/// A timestamp as it should be, or with numbers in it at a limit or past it.
fn timestamp(random: &mut Random) -> Vec<u8> {
    let mut year = year(random);
    let mut parts = parts(random, year);
    let count = random.from(0, 5);
    let mut zone = if count >= 3 && random.once_in(2) { zone(random) } else { String::new() };
    if random.once_in(3) {
        spoil(random, &mut year, &mut parts, &mut zone);
        while random.once_in(2) {
            spoil(random, &mut year, &mut parts, &mut zone);
        }
    }
    let mut text = digits_of(year, &parts[..count]);
    if count == 5 && !random.once_in(4) || random.once_in(50) {
        let digits = if random.once_in(8) { random.from(0, 6) } else { random.from(1, 4) };
        text.push('.');
        text.extend((0..digits).map(|_| (b'0' + random.below(10) as u8) as char));
    }
    (text + &zone).into_bytes()
}

/// A timestamp of the right form whose date, clock or offset is impossible, or several of these.
pub fn impossible(random: &mut Random) -> String {
    // Where several are, the first is told; so those that come later are chosen alone more often.
    const PARTS: [[bool; 3]; 12] = {
        let (date, clock, zone) = ([true, false, false], [false, true, false], [false, false, true]);
        [date, date, clock, clock, clock, zone, zone, zone, [true, true, false], [true, false, true], [false, true, true], [true; 3]]
    };
    let [wrong_date, wrong_clock, wrong_zone] = random.one_of(&PARTS);
    let mut year = year(random);
    let mut parts = parts(random, year);
    let count = random.from(if wrong_clock || wrong_zone { 3 } else { 0 }, 5);
    if wrong_date {
        // A month or a day counts only where it is written.
        match random.below(3).min(count) {
            0 => year = 0,
            1 => parts[0] = random.one_of(&[0, 13, 99]),
            _ => parts[1] = random.one_of(&[0, month_length(year, parts[0]) + 1, 99]),
        }
    }
    if wrong_clock {
        let at = random.from(2, count - 1);
        parts[at] = random.one_of(if at == 2 { &[24, 25, 99] } else { &[60, 61, 99] });
    }
    let zone = match wrong_zone {
        true => impossible_zone(random),
        false if count >= 3 && random.once_in(2) => zone(random),
        false => String::new(),
    };
    let fraction = if count == 5 { random.one_of(&["", ".0", ".9999"]) } else { "" };
    digits_of(year, &parts[..count]) + fraction + &zone
}

/// Changes a text in one place.
fn damage(random: &mut Random, text: &mut Vec<u8>) {
    if text.is_empty() {
        return;
    }
    let at = random.below(text.len());
    match random.below(9) {
        0 => text[at] = random.byte(),
        1 => text[at] = random.one_of(BYTES),
        2 => text[at] ^= 1 << random.below(8),
        3 => text.swap(at, 0),
        4 => text.insert(at, random.one_of(BYTES)),
        5 => drop(text.remove(at)),
        6 => text.push(random.one_of(BYTES)),
        7 => text.extend_from_within(at..),
        _ => text.truncate(at),
    }
}

/// Makes a text about as long as the limit.
fn lengthen(random: &mut Random, text: &mut Vec<u8>) {
    let byte = random.one_of(BYTES);
    text.resize(random.from(MOST_BYTES - 4, MOST_BYTES + 4), byte);
}

/// A text: a timestamp, an impossible one, a damaged one, a long one, or bytes without a plan.
pub fn text(random: &mut Random) -> Vec<u8> {
    let mut text = if random.once_in(6) { impossible(random).into_bytes() } else { timestamp(random) };
    match random.below(1000) {
        0..=9 => lengthen(random, &mut text),
        10..=59 => return (0..random.from(0, 24)).map(|_| random.one_of(BYTES)).collect(),
        60..=79 => return (0..random.from(0, 24)).map(|_| random.byte()).collect(),
        80..=299 => {
            damage(random, &mut text);
            while random.once_in(4) {
                damage(random, &mut text);
            }
        }
        _ => {}
    }
    text
}

// ---- The trials ----------------------------------------------------------------------------------------------------

/// What guards are made of: bytes that would go on with a timestamp, and one that stands in none.
const GUARDS: [u8; 5] = [b'0', b'1', b'+', b'.', 0xFF];

/// Texts made from a seed.
fn made_texts(options: &Options, calendar: &Calendar) -> Counts {
    let mut random = Random::new(options.seed);
    let mut trial = Trial::new();
    for _ in 0..options.cases {
        let text = text(&mut random);
        let offset = agreed_offset(&mut random);
        let case = Case { text: &text, offset, before: random.next() as i64, due: due(&text, offset, calendar) };
        trial.guard(case, random.below(64), random.one_of(&GUARDS));
        trial.fence(case);
        if let Due::Refused(DATE | CLOCK | ZONE) = case.due {
            let faults = read(std::str::from_utf8(&text).unwrap(), offset, calendar).unwrap_err();
            trial.counts.by_impossible[IMPOSSIBLE.iter().position(|(of, _, _)| *of == faults).unwrap()] += 1;
        }
    }
    trial.counts
}

/// Every day of years 1 to 9999, alone and with a time and a written offset, and every date beside them: year 0, months 0 and 13, and
/// days from 0 to 32 that a month does not have, alone and with a time up to each of its units. What is due goes by a day that is moved
/// on one by one.
fn every_day() -> Counts {
    let mut random = Random::new(1);
    let mut trial = Trial::new();
    let mut day = FIRST_DAY;
    for (year, month) in (0..=9999).flat_map(|year| (0..=13).map(move |month| (year, month))) {
        for number in 0..=32 {
            let offset = random.from(0, 1680) as i64 - 840;
            let before = random.next() as i64;
            let shift = random.below(64);
            let date = format!("{year:04}{month:02}{number:02}");
            if (day.year, day.month, day.day) != (year, month, number) {
                let text = format!("{date}235959.9999+1400");
                let case = |end: usize| Case { text: &text.as_bytes()[..end], offset, before, due: Due::Refused(DATE) };
                trial.guard(case(8), shift, b'0');
                for end in [10, 12, 14, 16, 17, 18, 19, 24] {
                    trial.ask(case(end));
                }
                continue;
            }
            let start = day.before * DAY;
            let due = Due::At { tick: start - offset * MINUTE, precision: 8 };
            trial.guard(Case { text: date.as_bytes(), offset, before, due }, shift, b'0');

            let [_, _, hour, minute, second] = parts(&mut random, year);
            let fraction = random.below(10_000);
            let east = offset >= 0;
            let (hours, minutes) = (offset.abs() / 60, offset.abs() % 60);
            let sign = if east { '+' } else { '-' };
            let text = format!("{date}{hour:02}{minute:02}{second:02}.{fraction:04}{sign}{hours:02}{minutes:02}");
            let clock = ((hour * 60 + minute) * 60 + second) * 10_000 + fraction;
            let due = Due::At { tick: start + clock as i64 - offset * MINUTE, precision: 18 };
            trial.guard(Case { text: text.as_bytes(), offset: -offset, before, due }, shift, b'0');
            day = day.next();
        }
    }
    if day.before != 3_652_059 {
        println!("tick: {} days were tried, and years 1 to 9999 have 3652059", day.before);
        trial.counts.differences += 1;
    }
    trial.counts
}

/// Every year, month, date of four digits, clock, fraction, written offset and agreed offset, each by itself, whether or not it may be.
fn every_part(calendar: &Calendar) -> Counts {
    let mut random = Random::new(2);
    let mut trial = Trial::new();
    let mut attempt = |text: String, offset: i64| {
        let case = Case { text: text.as_bytes(), offset, before: random.next() as i64, due: due(text.as_bytes(), offset, calendar) };
        trial.guard(case, random.below(64), b'0');
    };
    for offset in -2_000..=2_000 {
        attempt("20240229".to_string(), offset);
        attempt("2024022923+01".to_string(), offset);
    }
    // All numbers of so many digits, between two texts.
    let mut each = |before: &str, width: usize, after: &str| {
        for number in 0..10_usize.pow(width as u32) {
            attempt(format!("{before}{number:0width$}{after}"), 60);
        }
    };
    each("", 4, "");
    each("", 6, "");
    for year in ["1900", "2000", "2023", "2024"] {
        each(year, 4, "");
        each(year, 4, "235959");
    }
    for width in [2, 4, 6] {
        each("20240229", width, "");
    }
    each("20240229", 6, ".9999-1400");
    for width in 1..=5 {
        each("20240229235959.", width, "");
        for before in ["2024022923", "202402292359", "20240229235959", "20240229235959.9999"] {
            each(&format!("{before}+"), width, "");
            each(&format!("{before}-"), width, "");
        }
    }
    trial.counts
}

/// Writes a number in as many digits as there is room for.
fn put(digits: &mut [u8], mut number: usize) {
    for digit in digits.iter_mut().rev() {
        *digit = b'0' + (number % 10) as u8;
        number /= 10;
    }
}

/// A time of a day as `YYYYMMDDhhmmss.ffff`, and where that may end, with the tick that it then has at offset 0.
struct Moment {
    text: [u8; 19],
    ends: [(usize, i64); 10],
}

impl Moment {
    /// The time is the ticks since the day began.
    fn new(day: Day, time: i64, calendar: &Calendar) -> Moment {
        let mut text = *b"YYYYMMDDhhmmss.ffff";
        let (second, fraction) = (time as usize / 10_000, time as usize % 10_000);
        put(&mut text[..8], day.year * 10_000 + day.month * 100 + day.day);
        put(&mut text[8..14], second / 3_600 * 10_000 + second / 60 % 60 * 100 + second % 60);
        put(&mut text[15..], fraction);

        let first_of = |month: usize| calendar.days_before(day.year as i64, month as i64, 1).unwrap() * DAY;
        let start = day.before * DAY;
        // What is left of the time in whole units of so many ticks.
        let to = |unit: i64| start + time - time % unit;
        let ends = [
            (4, first_of(1)),
            (6, first_of(day.month)),
            (8, start),
            (10, to(60 * MINUTE)),
            (12, to(MINUTE)),
            (14, to(10_000)),
            (16, to(1_000)),
            (17, to(100)),
            (18, to(10)),
            (19, to(1)),
        ];
        Moment { text, ends }
    }
}

/// A written offset: `+hhmm`, `-hhmm`, `+hh` or `-hh`, by the number of its form.
struct Zone {
    text: [u8; 5],
    length: usize,
    minutes: i64,
}

impl Zone {
    fn new(form: usize, minutes: usize) -> Zone {
        let mut text = if form % 2 == 0 { *b"+hhmm" } else { *b"-hhmm" };
        put(&mut text[1..], minutes / 60 * 100 + minutes % 60);
        let (length, minutes) = if form < 2 { (5, minutes as i64) } else { (3, minutes as i64 / 60 * 60) };
        Zone { text, length, minutes: if form % 2 == 0 { minutes } else { -minutes } }
    }
}

/// Tries a moment up to each of its ends, with no offset, and with this one where one may be written. What follows a text with no offset
/// in memory would go on with it.
fn each_end(trial: &mut Trial, moment: &Moment, agreed: i64, zone: &Zone, before: i64) {
    for (end, tick) in moment.ends {
        let at = |offset: i64| Due::At { tick: tick - offset * MINUTE, precision: (end - usize::from(end > 14)) as u64 };
        trial.ask(Case { text: &moment.text[..end], offset: agreed, before, due: at(agreed) });
        if end >= 10 {
            let mut text = [b'0'; 24];
            text[..end].copy_from_slice(&moment.text[..end]);
            text[end..end + 5].copy_from_slice(&zone.text);
            trial.ask(Case { text: &text[..end + zone.length], offset: agreed, before, due: at(zone.minutes) });
        }
    }
}

/// Every day of years 1 to 9999 at every precision. The steps of the time from day to day have no factor in common with the seconds of a
/// day, nor with the fractions of a second, so that all of these occur; and the written offset comes by all that there are, in each form.
/// The first and the last day of a year are tried at their first and last ticks too, with the offsets that are farthest. What is due goes
/// by a day that is moved on one by one.
fn every_precision(calendar: &Calendar) -> Counts {
    const AGREED: [i64; 3] = [-840, 0, 840];
    let mut random = Random::new(3);
    let mut trial = Trial::new();
    let mut day = FIRST_DAY;
    while day.year <= 9999 {
        let count = day.before;
        let time = count * 52_667 % 86_400 * 10_000 + count * 3_819 % 10_000;
        let zone = Zone::new(count as usize % 4, count as usize * 271 % 841);
        each_end(&mut trial, &Moment::new(day, time, calendar), random.one_of(&AGREED), &zone, random.next() as i64);
        if [(1, 1), (12, 31)].contains(&(day.month, day.day)) {
            for (time, agreed) in [0, DAY - 1].into_iter().flat_map(|time| AGREED.map(|agreed| (time, agreed))) {
                let moment = Moment::new(day, time, calendar);
                for form in 0..4 {
                    each_end(&mut trial, &moment, agreed, &Zone::new(form, 840), random.next() as i64);
                }
            }
        }
        day = day.next();
    }
    trial.counts
}

/// Texts that are a byte away from timestamps and from what begins one: each byte replaced by every other. And in texts of eight and of
/// fourteen digits, and in a longest one, two neighbours replaced by every two bytes, and three by bytes about those that mean something:
/// a reader that takes several bytes at a time must keep them apart.
fn near_texts(calendar: &Calendar) -> Counts {
    // Digits, which go on after the fourteenth, and longest timestamps.
    const LONG: [&[u8]; 7] = [
        b"202402291201010101010101",
        b"000101010000000000000000",
        b"999912312359595959595959",
        b"190003011111111111111111",
        b"20240229235959.9999+1400",
        b"00010101000000.0000-0000",
        b"20000229090909.0909-0959",
    ];
    const ABOUT: [u8; 16] = [0, 1, b'*', b'+', b'-', b'.', b'/', b'0', b'9', b':', b'@', 0x7F, 0x80, 0xB0, 0xBA, 0xFF];
    let all: Vec<u8> = (0..=255).collect();
    let mut random = Random::new(4);
    let mut trial = Trial::new();
    // Replaces so many neighbours, at every place, by all there are of some bytes.
    let mut replace = |text: &[u8], width: usize, by: &[u8]| {
        let mut changed = text.to_vec();
        for at in 0..=text.len() - width {
            for mut choice in 0..by.len().pow(width as u32) {
                for byte in &mut changed[at..at + width] {
                    *byte = by[choice % by.len()];
                    choice /= by.len();
                }
                let offset = random.one_of(&[-840, 0, 60]);
                let case = Case { text: &changed, offset, before: random.next() as i64, due: due(&changed, offset, calendar) };
                trial.guard(case, random.below(64), random.one_of(&GUARDS));
            }
            changed.copy_from_slice(text);
        }
    };
    for text in LONG {
        for length in 1..=text.len() {
            replace(&text[..length], 1, &all);
        }
    }
    for text in [&LONG[0][..8], &LONG[0][..14], &LONG[1][..14], &LONG[2][..14], LONG[4]] {
        replace(text, 2, &all);
        replace(text, 3, &ABOUT);
    }
    trial.counts
}

/// Whether the service and the second reader agree.
pub fn run(options: &Options) -> bool {
    let calendar = Calendar::new();
    let made = made_texts(options, &calendar);
    made.print(&format!("{} texts made from seed {}", options.cases, options.seed));
    let mut alike = made.differences == 0;
    if options.cases >= 100_000 {
        alike &= made.is_broad();
    }
    if !options.only_made {
        let days = every_day();
        days.print("every day of years 1 to 9999, alone and with a time, and dates that there are not");
        let precisions = every_precision(&calendar);
        precisions.print("every day of years 1 to 9999 at every precision, with a written offset and without");
        let parts = every_part(&calendar);
        parts.print("every month, clock, fraction, written offset and agreed offset, each by itself, those that may not be too");
        let near = near_texts(&calendar);
        near.print("texts with a byte replaced by every other, and with two and three neighbours replaced");
        alike &= [days, precisions, parts, near].iter().all(|counts| counts.differences == 0);
    }
    alike
}
