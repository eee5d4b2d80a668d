//! The second implementations of the services behind a C interface, for tests/fuzz/services.c: each function takes what the service
//! takes, and answers and writes what is due.

// Only what says what is due is used of the files here, and not what makes texts and counts answers.
#![allow(dead_code)]

#[path = "../bounds.rs"]
mod bounds;
#[path = "../cut.rs"]
mod cut;
#[path = "../day.rs"]
mod day;
#[path = "../faults.rs"]
mod faults;
#[path = "../lent.rs"]
mod lent;
#[path = "../likeness.rs"]
mod likeness;
#[path = "../markup.rs"]
mod markup;
#[path = "../options.rs"]
mod options;
#[path = "../places.rs"]
mod places;
#[path = "../printed.rs"]
mod printed;
#[path = "../random.rs"]
mod random;
#[path = "../refusals.rs"]
mod refusals;
#[path = "../tick.rs"]
mod tick;

use std::slice;
use std::sync::OnceLock;

use day::{Days, Report, Table};
use options::Options;
use printed::Dates;
use tick::Calendar;

fn calendar() -> &'static Calendar {
    static CALENDAR: OnceLock<Calendar> = OnceLock::new();
    CALENDAR.get_or_init(Calendar::new)
}

fn dates() -> &'static Dates {
    static DATES: OnceLock<Dates> = OnceLock::new();
    DATES.get_or_init(Dates::new)
}

/// # Safety
/// The pointer leads to so many bytes, which nobody changes during the call.
#[no_mangle]
pub unsafe extern "C" fn second_cut(text: *const u8, text_len: usize, room: u64) -> u64 {
    cut::due(slice::from_raw_parts(text, text_len), room)
}

/// # Safety
/// The pointers lead to so many bytes, which nobody changes during the call, and to a number that is no part of them.
#[no_mangle]
pub unsafe extern "C" fn second_tick(text: *const u8, text_len: usize, offset: i64, tick: *mut i64) -> u64 {
    let due = tick::due(slice::from_raw_parts(text, text_len), offset, calendar());
    *tick = due.after(*tick);
    due.answer()
}

/// # Safety
/// The pointer leads to so many bytes, which nobody changes during the call.
#[no_mangle]
pub unsafe extern "C" fn second_check(record: *const u8, record_len: usize, offset: i64) -> u64 {
    faults::judge(slice::from_raw_parts(record, record_len), offset, calendar()).number()
}

/// # Safety
/// The pointers lead to so many bytes, of which nobody else changes any during the call, and which do not overlap.
#[no_mangle]
pub unsafe extern "C" fn second_list(record: *const u8, record_len: usize, offset: i64, list: *mut u8, list_len: usize) -> u64 {
    let lent = slice::from_raw_parts_mut(list, list_len);
    let listed = places::list(slice::from_raw_parts(record, record_len), offset, calendar());
    lent.copy_from_slice(&listed.after(lent));
    listed.answer(list_len)
}

/// # Safety
/// The pointers lead to so many bytes, which nobody changes during the call.
#[no_mangle]
pub unsafe extern "C" fn second_compare(first: *const u8, first_len: usize, second: *const u8, second_len: usize, offset: i64) -> u64 {
    let (first, second) = (slice::from_raw_parts(first, first_len), slice::from_raw_parts(second, second_len));
    likeness::compare(first, second, offset, calendar()).due.packed()
}

/// # Safety
/// The pointers lead to so many bytes, of which nobody else changes any during the call, and which do not overlap.
#[no_mangle]
pub unsafe extern "C" fn second_print(list: *const u8, list_len: usize, record: *mut u8, record_len: usize) -> u64 {
    let lent = slice::from_raw_parts_mut(record, record_len);
    let printed = printed::print(slice::from_raw_parts(list, list_len), dates());
    lent.copy_from_slice(&printed.after(lent));
    printed.answer(record_len)
}

/// # Safety
/// The pointer leads to a table, of which nobody else changes anything during the call.
#[no_mangle]
pub unsafe extern "C" fn second_totals_start(table: *mut Table, desk: u64) -> u64 {
    let mut days = Days::go_on(&*table);
    let answer = days.start(desk);
    *table = days.table();
    answer
}

/// # Safety
/// The pointers lead to a table and to so many bytes, of which nobody else changes any during the call, and which do not overlap.
#[no_mangle]
pub unsafe extern "C" fn second_totals_add(table: *mut Table, desk: u64, record: *const u8, record_len: usize, offset: i64) -> u64 {
    let mut days = Days::go_on(&*table);
    let record = day::read(slice::from_raw_parts(record, record_len), offset, calendar());
    let answer = days.due(desk, record);
    days.take(desk, record, answer);
    *table = days.table();
    answer
}

/// # Safety
/// The pointers lead to a table and to a report, of which nobody else changes any during the call, and which do not overlap.
#[no_mangle]
pub unsafe extern "C" fn second_totals_report(table: *const Table, desk: u64, report: *mut Report) -> u64 {
    let (answer, after) = Days::go_on(&*table).report(desk, &*report);
    *report = after;
    answer
}
