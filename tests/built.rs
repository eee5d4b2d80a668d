//! Times that are built of dates, clocks and offsets, possible and impossible ones, and records that are built around them. What is wrong
//! with each is known from what it is built of, and no reader is asked.

use crate::places::Stretch;
use crate::refusals::{
    CLOCK, DATE, MARKUP, NOT_UTF8, RULE, SHAPE, TOO_LONG, TOO_MANY, TYPE, UNKNOWN_BOUND, VALUE, ZONE,
};

const TICKS_IN_A_DAY: i64 = 864_000_000;
const TICKS_IN_A_MINUTE: i64 = 600_000;
const TICKS_IN_A_SECOND: i64 = 10_000;

// ---- Parts ---------------------------------------------------------------------------------------------------------

/// Year, month and day, or hour, minute and second; and which of them is impossible where it is written.
struct Parts {
    digits: [&'static str; 3],
    is_wrong: [bool; 3],
}

const fn parts(digits: [&'static str; 3], is_wrong: [bool; 3]) -> Parts {
    Parts { digits, is_wrong }
}

const NONE: [bool; 3] = [false; 3];
const FIRST: [bool; 3] = [true, false, false];
const SECOND: [bool; 3] = [false, true, false];
const THIRD: [bool; 3] = [false, false, true];

/// Dates, and how many days come before the year, the month and the day of each, as far as there are such.
const DATES: [(Parts, [i64; 3]); 13] = [
    (parts(["2024", "05", "17"], NONE), [738_885, 739_006, 739_022]),
    (parts(["0001", "01", "01"], NONE), [0, 0, 0]),
    (parts(["2000", "02", "29"], NONE), [730_119, 730_150, 730_178]),
    (parts(["9999", "12", "31"], NONE), [3_651_694, 3_652_028, 3_652_058]),
    (parts(["0000", "01", "01"], FIRST), [0; 3]),
    (parts(["2024", "00", "15"], SECOND), [738_885, 0, 0]),
    (parts(["2024", "13", "15"], SECOND), [738_885, 0, 0]),
    (parts(["2024", "05", "00"], THIRD), [738_885, 739_006, 0]),
    (parts(["1900", "02", "29"], THIRD), [693_595, 693_626, 0]),
    (parts(["2024", "04", "31"], THIRD), [738_885, 738_976, 0]),
    (parts(["2024", "13", "31"], SECOND), [738_885, 0, 0]),
    (parts(["0000", "02", "30"], [true, false, true]), [0; 3]),
    (parts(["0000", "99", "99"], [true; 3]), [0; 3]),
];

/// Clocks, and the seconds that come before the hour, the minute and the second of each, as far as there are such.
const CLOCKS: [(Parts, [i64; 3]); 11] = [
    (parts(["00", "00", "00"], NONE), [0, 0, 0]),
    (parts(["23", "59", "59"], NONE), [82_800, 86_340, 86_399]),
    (parts(["09", "30", "07"], NONE), [32_400, 34_200, 34_207]),
    (parts(["24", "00", "00"], FIRST), [0; 3]),
    (parts(["99", "59", "59"], FIRST), [0; 3]),
    (parts(["12", "60", "30"], SECOND), [43_200, 0, 0]),
    (parts(["12", "30", "60"], THIRD), [43_200, 45_000, 0]),
    (parts(["24", "60", "00"], [true, true, false]), [0; 3]),
    (parts(["24", "00", "60"], [true, false, true]), [0; 3]),
    (parts(["00", "60", "60"], [false, true, true]), [0; 3]),
    (parts(["99", "99", "99"], [true; 3]), [0; 3]),
];

/// Written offsets, or none: how many minutes each is, where it is possible.
const ZONES: [(&str, Option<i64>); 21] = [
    ("", Some(0)),
    ("+00", Some(0)),
    ("-0000", Some(0)),
    ("+01", Some(60)),
    ("-0130", Some(-90)),
    ("+0059", Some(59)),
    ("+1359", Some(839)),
    ("+14", Some(840)),
    ("+1400", Some(840)),
    ("-1400", Some(-840)),
    ("+1401", None),
    ("-1401", None),
    ("+0060", None),
    ("-0060", None),
    ("+0099", None),
    ("+1360", None),
    ("+15", None),
    ("-15", None),
    ("+2400", None),
    ("+99", None),
    ("-9999", None),
];

/// Fractions, and the ticks of each.
const FRACTIONS: [(&str, i64); 3] = [("", 0), (".5", 5_000), (".0001", 1)];

// ---- Times ---------------------------------------------------------------------------------------------------------

/// A text for a time.
#[derive(Clone)]
pub struct Time {
    pub text: String,
    /// All that is wrong with it: VALUE, or any of DATE, CLOCK and ZONE.
    pub faults: Vec<u64>,
    /// Its tick at an agreed offset of 0, its precision, and the ticks of its smallest unit if that is coarser than a second, where nothing is
    /// wrong.
    tick: i64,
    pub precision: u64,
    lasts: Option<i64>,
    /// Whether it has an offset of its own.
    has_zone: bool,
}

impl Time {
    /// The tick at an agreed offset.
    pub fn tick_at(&self, agreed: i64) -> i64 {
        if self.has_zone { self.tick } else { self.tick - agreed * TICKS_IN_A_MINUTE }
    }

    /// A text of the wrong form.
    fn of_wrong_form(text: String) -> Time {
        Time { text, faults: vec![VALUE], tick: 0, precision: 0, lasts: None, has_zone: false }
    }
}

/// So many of the parts of a date or a clock: their digits, whether one of them is impossible, and what comes before the last.
fn cut((parts, before): &(Parts, [i64; 3]), count: usize) -> (String, bool, i64) {
    (parts.digits[..count].concat(), parts.is_wrong[..count].contains(&true), before[count - 1])
}

/// How many ticks the smallest unit of a date and a clock has, if it is coarser than a second: for the years and months of `DATES`.
fn ticks_of_unit(digits: &str) -> Option<i64> {
    Some(match digits {
        "2024" | "2000" => 366 * TICKS_IN_A_DAY,
        "200002" => 29 * TICKS_IN_A_DAY,
        "190002" => 28 * TICKS_IN_A_DAY,
        "202404" => 30 * TICKS_IN_A_DAY,
        _ => match digits.len() {
            4 => 365 * TICKS_IN_A_DAY,
            6 => 31 * TICKS_IN_A_DAY,
            8 => TICKS_IN_A_DAY,
            10 => 60 * TICKS_IN_A_MINUTE,
            12 => TICKS_IN_A_MINUTE,
            _ => return None,
        },
    })
}

/// Each date cut off after its year, its month and its day, with no clock.
fn dates() -> Vec<Time> {
    let mut times = Vec::new();
    for (date, count) in DATES.iter().flat_map(|date| [1, 2, 3].map(|count| (date, count))) {
        let (text, is_wrong, days) = cut(date, count);
        let faults = if is_wrong { vec![DATE] } else { vec![] };
        let (precision, lasts) = (text.len() as u64, ticks_of_unit(&text));
        times.push(Time { text, faults, tick: days * TICKS_IN_A_DAY, precision, lasts, has_zone: false });
    }
    times
}

/// A whole date with a clock of so many parts, a fraction and a written offset.
fn time(date: &(Parts, [i64; 3]), clock: &(Parts, [i64; 3]), count: usize, fraction: (&str, i64), zone: (&str, Option<i64>)) -> Time {
    let (date, is_wrong_date, days) = cut(date, 3);
    let (clock, is_wrong_clock, seconds) = cut(clock, count);
    let parts = [(DATE, is_wrong_date), (CLOCK, is_wrong_clock), (ZONE, zone.1.is_none())];
    let tick = days * TICKS_IN_A_DAY + seconds * TICKS_IN_A_SECOND + fraction.1 - zone.1.unwrap_or(0) * TICKS_IN_A_MINUTE;
    Time {
        text: format!("{date}{clock}{}{}", fraction.0, zone.0),
        faults: parts.into_iter().filter(|(_, is_wrong)| *is_wrong).map(|(number, _)| number).collect(),
        tick,
        precision: (8 + clock.len() + fraction.0.len().saturating_sub(1)) as u64,
        lasts: ticks_of_unit(&format!("{date}{clock}")),
        has_zone: !zone.0.is_empty(),
    }
}

/// Every time of the right form that can be built: each date with each clock and each offset, cut off at each precision.
pub fn times() -> Vec<Time> {
    let mut times = dates();
    for (date, clock) in DATES.iter().flat_map(|date| CLOCKS.iter().map(move |clock| (date, clock))) {
        for zone in ZONES {
            times.extend([1, 2].map(|count| time(date, clock, count, FRACTIONS[0], zone)));
            times.extend(FRACTIONS.map(|fraction| time(date, clock, 3, fraction, zone)));
        }
    }
    times
}

/// For each thing that can be wrong with a time of the right form, and for nothing, some times of that kind: the first, and others far apart.
pub fn some_of_each(times: &[Time]) -> Vec<Time> {
    const EACH: usize = 4;
    const KINDS: [&[u64]; 8] = [&[], &[DATE], &[CLOCK], &[ZONE], &[DATE, CLOCK], &[DATE, ZONE], &[CLOCK, ZONE], &[DATE, CLOCK, ZONE]];
    let mut some = Vec::new();
    for kind in KINDS {
        let of_kind: Vec<&Time> = times.iter().filter(|time| time.faults == kind).collect();
        some.extend((0..EACH).map(|i| of_kind[i * (of_kind.len() - 1) / (EACH - 1)].clone()));
    }
    some
}

/// What makes a form wrong: it stands behind the digits of a date and as much of a clock as there is, whatever they say, and before the
/// offset or in its place.
const BETWEEN: [&str; 9] = [".", ".00000", ".5.5", ",5", "x", " ", "0", "T", ".-5"];
const IN_PLACE: [&str; 14] = ["Z", "z", "+", "-", "+1", "+140", "+01000", "+01:00", "+-1", "++01", "+01+01", "+0x", " +01", "+01 "];

/// Texts of the wrong form, with dates, clocks and offsets that are possible in them and with impossible ones.
pub fn wrong_forms() -> Vec<Time> {
    let mut texts: Vec<String> = ["", "2", "20", "202", " 2024", "2024 ", "2024Z", "2024.5", "+2024", "-0001"].map(String::from).to_vec();
    for (date, zone) in DATES.iter().flat_map(|date| ZONES.map(|(zone, _)| (date, zone))) {
        let whole = cut(date, 3).0;
        // An offset after a date without a clock, a date with hyphens, and one after a space.
        texts.extend([1, 2, 3].iter().filter(|_| !zone.is_empty()).map(|count| cut(date, *count).0 + zone));
        texts.push(format!("{}-{}-{}{zone}", date.0.digits[0], date.0.digits[1], date.0.digits[2]));
        texts.push(format!(" {whole}{zone}"));
        for clock in CLOCKS.iter().flat_map(|clock| [1, 2, 3].map(|count| cut(clock, count).0)) {
            texts.extend(BETWEEN.map(|between| format!("{whole}{clock}{between}{zone}")));
            texts.push(format!("{whole}T{clock}{zone}"));
            texts.push(format!("{whole}{clock}{zone}Z"));
            texts.push(format!("{whole}{clock}{zone} "));
            // A fraction of a minute or an hour, and eight digits for a clock.
            texts.push(if clock.len() < 6 { format!("{whole}{clock}.5{zone}") } else { format!("{whole}{clock}00{zone}") });
            if zone.is_empty() {
                texts.extend(IN_PLACE.map(|place| format!("{whole}{clock}{place}")));
            }
        }
    }
    texts.into_iter().map(Time::of_wrong_form).collect()
}

// ---- Records -------------------------------------------------------------------------------------------------------

/// What listing makes of a record with nothing wrong in it: a stretch, by the time's tick; or what it is refused for.
type Listing = Result<fn(i64) -> Stretch, &'static [u64]>;

/// A record with a place for a time, and what else is wrong with it, whatever the time.
pub struct Place {
    /// With `@` for the time.
    record: String,
    /// What follows the record.
    rest: &'static [u8],
    /// Whether the time is judged.
    is_judged: bool,
    faults: &'static [u64],
    listing: Listing,
}

/// A record, all that it could be refused for by checking, and by listing besides, and its stretch where it can be listed.
pub struct Record {
    pub bytes: Vec<u8>,
    pub of_type: String,
    pub faults: Vec<u64>,
    pub listing: Result<Stretch, Vec<u64>>,
}

impl Place {
    fn new(record: impl Into<String>, faults: &'static [u64], listing: Listing) -> Place {
        Place { record: record.into(), rest: b"", is_judged: true, faults, listing }
    }

    /// A place where no time is looked for.
    fn ignored(record: &str, faults: &'static [u64], listing: Listing) -> Place {
        Place { is_judged: false, ..Place::new(record, faults, listing) }
    }

    fn with_rest(self, rest: &'static [u8]) -> Place {
        Place { rest, ..self }
    }

    /// The record with a time, under an agreed offset.
    pub fn holding(&self, time: &Time, agreed: i64) -> Record {
        let of_type = self.record.split_once("xsi:type=\"").and_then(|(_, after)| after.split('"').next());
        let of_time: &[u64] = if self.is_judged { &time.faults } else { &[] };
        Record {
            bytes: [self.record.replace('@', &time.text).as_bytes(), self.rest].concat(),
            of_type: of_type.unwrap_or("TS").to_string(),
            faults: [self.faults, of_time].concat(),
            listing: self.listing.map(|stretch| stretch(time.tick_at(agreed))).map_err(|faults| faults.to_vec()),
        }
    }
}

/// An interval between two times, both included. Where there are such times it is RULE that one is after the other, and after all of its unit
/// if that is coarser than a second.
pub fn between(low: &Time, high: &Time, agreed: i64) -> Record {
    let (first, start) = (low.tick_at(agreed), high.tick_at(agreed));
    let [high_kind, high_tick] = high.lasts.map_or([2, start], |ticks| [1, start + ticks]);
    let last = if high_kind == 1 { high_tick - 1 } else { high_tick };
    let mut faults = [&low.faults[..], &high.faults[..]].concat();
    if faults.is_empty() && first > last {
        faults.push(RULE);
    }
    let bounds = interval(BOTH_CLOSED, &LOW.replace('@', &low.text), &format!("<high value=\"{}\"/>", high.text));
    Record { bytes: bounds.into_bytes(), of_type: "IVL_TS".to_string(), faults, listing: Ok([2, first, high_kind, high_tick]) }
}

/// A set of two members, each with a time; it is not known where the second ends, so that listing has a reason to refuse it.
pub fn members(first: &Time, second: &Time) -> Record {
    let open = "<subtrahend xsi:type=\"IVL_TS\" lowClosed=\"false\"><low value=\"@\"/></subtrahend>";
    let minuend = MEMBER.replace("term", "minuend").replace('@', &first.text);
    Record {
        bytes: format!("<t xsi:type=\"QSD_TS\">{minuend}{}</t>", open.replace('@', &second.text)).into_bytes(),
        of_type: "QSD_TS".to_string(),
        faults: [&first.faults[..], &second.faults[..]].concat(),
        listing: Err(vec![UNKNOWN_BOUND]),
    }
}

const FROM: Listing = Ok(|tick| [2, tick, 0, 0]);
const BEFORE: Listing = Ok(|tick| [0, 0, 1, tick]);
const ANOTHER_TYPE: Listing = Err(&[TYPE]);
const NOT_KNOWN: Listing = Err(&[UNKNOWN_BOUND]);

/// An interval from a time on, as a member of a set.
const MEMBER: &str = "<term xsi:type=\"IVL_TS\" lowClosed=\"true\"><low value=\"@\"/><high nullFlavor=\"PINF\"/></term>";

const ALL: &str = "xsi:type=\"IVL_TS\"><low nullFlavor=\"NINF\"/><high nullFlavor=\"PINF\"/>";
const NO_PLACE: &str = "xsi:type=\"IVL_TS\" lowClosed=\"false\" highClosed=\"true\"><low value=\"2024\"/><high value=\"2024\"/>";

static SPACES: [u8; 16_384] = [b' '; 16_384];

/// A union with the member above, and others before or after it.
fn union(before: &str, after: &str) -> String {
    format!("<t xsi:type=\"QSU_TS\">{before}{MEMBER}{after}</t>")
}

/// An interval with two flags, a low and a high.
fn interval(flags: &str, low: &str, high: &str) -> String {
    format!("<t xsi:type=\"IVL_TS\" {flags}>{low}{high}</t>")
}

const LOW: &str = "<low value=\"@\"/>";
const BOTH_CLOSED: &str = "lowClosed=\"true\" highClosed=\"true\"";

/// Records in which nothing else is wrong, at every place that a time can have.
pub fn good_places() -> Vec<Place> {
    let low = MEMBER.replace("term", "minuend");
    let less = MEMBER.replace("term", "subtrahend");
    let (deep, end) = ("<term xsi:type=\"QSI_TS\">".repeat(5), "</term>".repeat(5));
    vec![
        Place::new("<t xsi:type=\"TS\" value=\"@\"/>", &[], ANOTHER_TYPE),
        Place::new(MEMBER.replace("term", "t"), &[], FROM),
        Place::new("<t xsi:type=\"IVL_TS\" highClosed=\"false\"><low nullFlavor=\"NINF\"/><high value=\"@\"/></t>", &[], BEFORE),
        Place::new(union("", ""), &[], FROM),
        Place::new(format!("<t xsi:type=\"QSI_TS\"><term {ALL}</term>{MEMBER}</t>"), &[], FROM),
        Place::new(format!("<t xsi:type=\"QSD_TS\">{low}<subtrahend {NO_PLACE}</subtrahend></t>"), &[], FROM),
        Place::new(format!("<t xsi:type=\"QSD_TS\"><minuend {ALL}</minuend>{less}</t>"), &[], BEFORE),
        Place::new(union("", "").replace(MEMBER, &format!("{deep}{MEMBER}{end}")), &[], FROM),
    ]
}

/// Records in which something else is wrong that comes before an impossible time.
fn places_after_others() -> Vec<Place> {
    let point = || Place::new("<t xsi:type=\"TS\" value=\"@\"/>", &[TOO_LONG], ANOTHER_TYPE);
    vec![
        point().with_rest(&SPACES),
        Place { faults: &[NOT_UTF8], ..point().with_rest(b"\xFF") },
        Place { faults: &[MARKUP], ..point().with_rest(b"<") },
        Place::new(union("", "<term/>"), &[TYPE], FROM),
        Place::new(union("<term xsi:type=\"TS\"/>", ""), &[TYPE], FROM),
        Place::new("<t value=\"@\"/>", &[TYPE], ANOTHER_TYPE),
        Place::new("<t xsi:type=\"TS\" value=\"@\" a=\"\"/>", &[SHAPE], ANOTHER_TYPE),
        Place::new("<t xsi:type=\"TS\" value=\"@\"><low/></t>", &[SHAPE], ANOTHER_TYPE),
        Place::new(interval("lowClosed=\"true\"", "<low a=\"\" value=\"@\"/>", ""), &[SHAPE], NOT_KNOWN),
        Place::new(union("", "<width/>"), &[SHAPE], FROM),
        Place::new(union("<term xsi:type=\"QSI_TS\"/>", ""), &[SHAPE], FROM),
        Place::new(interval("lowClosed=\"x\"", LOW, ""), &[VALUE], NOT_KNOWN),
        Place::new(interval("highClosed=\"x\" lowClosed=\"true\"", LOW, ""), &[VALUE], NOT_KNOWN),
        Place::new("<t xsi:type=\"TS\" value=\"@\" nullFlavor=\"x\"/>", &[VALUE, RULE], ANOTHER_TYPE),
        Place::new(interval(BOTH_CLOSED, LOW, "<high value=\"2024Z\"/>"), &[VALUE], NOT_KNOWN),
        Place::new(interval(BOTH_CLOSED, "<low value=\"\"/>", "<high value=\"@\"/>"), &[VALUE], NOT_KNOWN),
        Place::new(union("", "<term xsi:type=\"QSU_TS\" nullFlavor=\"x\"/>"), &[VALUE], NOT_KNOWN),
        Place::new(union("<term xsi:type=\"IVL_TS\" lowClosed=\"true\"><low value=\"2024+01\"/></term>", ""), &[VALUE], NOT_KNOWN),
    ]
}

/// Records with another impossible time.
fn places_beside_times() -> Vec<Place> {
    let closed = |low: &str, high: &str| interval(BOTH_CLOSED, low, high);
    vec![
        Place::new(closed(LOW, "<high value=\"19000229\"/>"), &[DATE], NOT_KNOWN),
        Place::new(closed(LOW, "<high value=\"2024050124\"/>"), &[CLOCK], NOT_KNOWN),
        Place::new(closed(LOW, "<high value=\"2024050123+15\"/>"), &[ZONE], NOT_KNOWN),
        Place::new(closed("<low value=\"202413\"/>", "<high value=\"@\"/>"), &[DATE], NOT_KNOWN),
        Place::new(closed("<low value=\"202405010960\"/>", "<high value=\"@\"/>"), &[CLOCK], NOT_KNOWN),
        Place::new(closed("<low value=\"2024050109-0060\"/>", "<high value=\"@\"/>"), &[ZONE], NOT_KNOWN),
        Place::new(closed("<low value=\"2024050124-0060\"/>", "<high value=\"@\"/>"), &[CLOCK, ZONE], NOT_KNOWN),
        Place::new(union("", "<term xsi:type=\"IVL_TS\" highClosed=\"true\"><high value=\"20240431\"/></term>"), &[DATE], NOT_KNOWN),
    ]
}

/// Records in which something else is wrong that comes after an impossible time.
fn places_before_others() -> Vec<Place> {
    let crossed = format!("<term xsi:type=\"IVL_TS\" {BOTH_CLOSED}><low value=\"2025\"/><high value=\"2024\"/></term>");
    let many = format!("<term {ALL}</term>").repeat(32);
    let missing = "<term xsi:type=\"IVL_TS\"/>";
    vec![
        Place::new("<t xsi:type=\"TS\" value=\"@\" nullFlavor=\"NI\"/>", &[RULE], ANOTHER_TYPE),
        Place::new(interval("lowClosed=\"false\"", "<low value=\"@\" nullFlavor=\"NINF\"/>", ""), &[RULE], NOT_KNOWN),
        Place::new(interval("", LOW, ""), &[RULE], NOT_KNOWN),
        Place::new(interval("", LOW, "<high nullFlavor=\"NINF\"/>"), &[RULE], NOT_KNOWN),
        Place::new(interval(BOTH_CLOSED, LOW, "<high/>"), &[RULE], NOT_KNOWN),
        Place::new(interval(BOTH_CLOSED, LOW, "<high nullFlavor=\"PINF\"/>"), &[RULE], NOT_KNOWN),
        Place::new(interval("nullFlavor=\"UNK\" lowClosed=\"true\"", LOW, ""), &[RULE], NOT_KNOWN),
        Place::new(union("", "").replace("\"QSU_TS\"", "\"QSU_TS\" nullFlavor=\"NI\""), &[RULE], NOT_KNOWN),
        Place::new(union(&crossed, ""), &[RULE], FROM),
        Place::new(union("", &crossed), &[RULE], FROM),
        Place::new(interval("lowClosed=\"true\"", LOW, ""), &[], NOT_KNOWN),
        Place::new(interval("lowClosed=\"true\"", LOW, "<high nullFlavor=\"UNK\"/>"), &[], NOT_KNOWN),
        Place::new(union(missing, ""), &[], NOT_KNOWN),
        Place::new(union("", "<term xsi:type=\"QSD_TS\" nullFlavor=\"NI\"/>"), &[], NOT_KNOWN),
        Place::new(union("", &many), &[], Err(&[TOO_MANY])),
        Place::new(union(missing, &many), &[], Err(&[TOO_MANY, UNKNOWN_BOUND])),
    ]
}

/// Records in which the time stands where none is looked for.
fn places_that_are_none() -> Vec<Place> {
    let point = "xsi:type=\"TS\" value=\"2024\"";
    vec![
        Place::ignored(&format!("<t {point}>{LOW}</t>"), &[SHAPE], ANOTHER_TYPE),
        Place::ignored(&interval(BOTH_CLOSED, "<high value=\"2024\"/>", LOW), &[SHAPE], NOT_KNOWN),
        Place::ignored(&interval(BOTH_CLOSED, "<low value=\"2024\"/>", LOW), &[SHAPE], NOT_KNOWN),
        Place::ignored(&union("", &format!("<width>{LOW}</width>")).replace(MEMBER, &format!("<term {ALL}</term>")), &[SHAPE], FROM),
        Place::ignored(&format!("<t xsi:type=\"QSU_TS\"><term>{LOW}</term></t>"), &[TYPE], FROM),
        Place::ignored(&format!("<t {point} xmlns=\"@\"/>"), &[], ANOTHER_TYPE),
        Place::ignored("<t xsi:type=\"II\" root=\"1.2\" extension=\"a@\"/>", &[], ANOTHER_TYPE),
    ]
}

/// Places with something else wrong, and such where no time is looked for.
pub fn places_beside_faults() -> Vec<Place> {
    [places_after_others(), places_beside_times(), places_before_others(), places_that_are_none()].into_iter().flatten().collect()
}
