//! The refusals: their numbers and names, and which is given where several apply.

/// What an answer says that is no refusal.
pub const ACCEPTED: u64 = 0;

pub const OFFSET: u64 = 1;
pub const TOO_LONG: u64 = 2;
pub const NOT_UTF8: u64 = 3;
pub const MARKUP: u64 = 4;
pub const TYPE: u64 = 5;
pub const SHAPE: u64 = 6;
pub const VALUE: u64 = 7;
pub const RULE: u64 = 8;
pub const UNKNOWN_BOUND: u64 = 9;
pub const TOO_MANY: u64 = 10;
pub const NO_ROOM: u64 = 11;
pub const NOT_WRITABLE: u64 = 12;
pub const DATE: u64 = 13;
pub const CLOCK: u64 = 14;
pub const ZONE: u64 = 15;
pub const NO_ROW: u64 = 16;
pub const TOTAL: u64 = 17;
pub const DAMAGED: u64 = 21;
pub const NO_DESK: u64 = 23;
pub const DAY_FULL: u64 = 25;

/// Room for a count by each number, 0 among them.
pub const NUMBERS: usize = 26;

/// All refusals by name. Where several apply the one that stands first here is given: the list decides, and not the size of a number.
pub const PRECEDENCE: [(u64, &str); 20] = [
    (NO_DESK, "NO DESK"),
    (DAMAGED, "DAMAGED"),
    (DAY_FULL, "DAY FULL"),
    (OFFSET, "OFFSET"),
    (TOO_LONG, "TOO LONG"),
    (NOT_UTF8, "NOT UTF-8"),
    (MARKUP, "MARKUP"),
    (TYPE, "TYPE"),
    (SHAPE, "SHAPE"),
    (VALUE, "VALUE"),
    (DATE, "DATE"),
    (CLOCK, "CLOCK"),
    (ZONE, "ZONE"),
    (RULE, "RULE"),
    (UNKNOWN_BOUND, "UNKNOWN BOUND"),
    (TOO_MANY, "TOO MANY"),
    (NOT_WRITABLE, "NOT WRITABLE"),
    (NO_ROOM, "NO ROOM"),
    (NO_ROW, "NO ROW"),
    (TOTAL, "TOTAL"),
];

/// The one that is given of those that apply; 0 where none does.
pub fn first<'a>(applying: impl IntoIterator<Item = &'a u64>) -> u64 {
    let place = |number: &&u64| PRECEDENCE.iter().position(|(listed, _)| listed == *number).expect("a number of a refusal");
    applying.into_iter().min_by_key(place).copied().unwrap_or(ACCEPTED)
}

/// The name of a refusal and its number, as tables of counts have it.
pub fn name(number: u64) -> String {
    let listed = PRECEDENCE.iter().find(|(listed, _)| *listed == number);
    format!("{} ({number})", listed.map_or("ACCEPTED", |(_, name)| name))
}
