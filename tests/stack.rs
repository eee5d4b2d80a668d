//! Measures how much stack each service takes: it is called on a stack of its own, filled with a word that nothing writes by chance, and
//! afterwards the lowest word that changed is looked for.
//!
//!     stack [--cases N] [--seed S]
//!
//! N is how many inputs are made for each service (10000) from the seed S (1), beside those that are made to go deep and those of
//! tests/records. The exit status is 1 where a service takes more than docs/C-API.md says, and 2 for bad usage.

// Only what makes inputs is used of the files here, and not what tries them.
#![allow(dead_code)]

mod bounds;
mod check;
mod compare;
mod cut;
mod day;
mod faults;
mod lender;
mod lent;
mod likeness;
mod limits;
mod list;
mod lists;
mod markup;
mod mixed;
mod money;
mod options;
mod pairs;
mod places;
mod print;
mod printed;
mod random;
mod records;
mod refusals;
mod rows;
mod series;
mod sets;
mod shares;
mod table;
mod tally;
mod tick;
mod totals;
mod trial;
mod units;

use std::ffi::c_void;
use std::process::ExitCode;

use day::{Table, DESKS};
use options::Options;
use random::Random;
use records::Maker;
use tick::Calendar;

extern "C" {
    fn rigcactus_cut(text: *const u8, text_len: usize, room: u64) -> u64;
    fn rigcactus_tick(text: *const u8, text_len: usize, offset: i64, tick: *mut i64) -> u64;
    fn rigcactus_check(record: *const u8, record_len: usize, offset: i64) -> u64;
    fn rigcactus_list(record: *const u8, record_len: usize, offset: i64, list: *mut u8, list_len: usize) -> u64;
    fn rigcactus_compare(first: *const u8, first_len: usize, second: *const u8, second_len: usize, offset: i64) -> u64;
    fn rigcactus_print(list: *const u8, list_len: usize, record: *mut u8, record_len: usize) -> u64;
    fn rigcactus_totals_open(table: *mut u64) -> u64;
    fn rigcactus_totals_start(table: *mut u64, desk: u64) -> u64;
    fn rigcactus_totals_add(table: *mut u64, desk: u64, record: *const u8, record_len: usize, offset: i64) -> u64;
    fn rigcactus_totals_report(table: *const u64, desk: u64, report: *mut u64) -> u64;

    /// Calls a service with five words on the stack that ends at `top`.
    fn call_on_stack(top: *mut u64, service: *const c_void, words: *const u64) -> u64;
    fn mmap(address: *mut c_void, length: usize, protection: i32, flags: i32, file: i32, offset: i64) -> *mut c_void;
    fn mprotect(address: *mut c_void, length: usize, protection: i32) -> i32;
}

std::arch::global_asm!(
    ".globl call_on_stack",
    "call_on_stack:",
    "push rbp",
    "mov rbp, rsp",
    "mov rsp, rdi",
    "mov rax, rsi",
    "mov r10, rdx",
    "mov rdi, [r10]",
    "mov rsi, [r10 + 8]",
    "mov rdx, [r10 + 16]",
    "mov rcx, [r10 + 24]",
    "mov r8, [r10 + 32]",
    "call rax",
    "mov rsp, rbp",
    "pop rbp",
    "ret",
);

#[derive(Clone, Copy, PartialEq)]
enum Service {
    Cut,
    Tick,
    Check,
    List,
    Compare,
    Print,
    TotalsOpen,
    TotalsStart,
    TotalsAdd,
    TotalsReport,
}
use Service::*;

/// The services, and the most bytes of stack that each is said to take.
const SERVICES: [(Service, &str, usize); 10] = [
    (Cut, "cut", 256),
    (Tick, "tick", 1024),
    (Check, "check", 8192),
    (List, "list", 49152),
    (Compare, "compare", 9216),
    (Print, "print", 1024),
    (TotalsOpen, "totals_open", 256),
    (TotalsStart, "totals_start", 4096),
    (TotalsAdd, "totals_add", 12288),
    (TotalsReport, "totals_report", 4096),
];

// ---- The stack -----------------------------------------------------------------------------------------------------

const PAGE: usize = 4096;
const WORDS: usize = 128 * 1024 / 8;
const PAINT: u64 = 0xA5C3_96E1_7B2D_584F;

/// Painted memory above a page that nobody may touch.
struct Stack {
    words: &'static mut [u64],
}

impl Stack {
    fn new() -> Stack {
        // SAFETY: the mapping is new, nothing else knows its address, and it is never unmapped. All but its first page is made accessible
        // before a slice is made of it.
        unsafe {
            let base = mmap(std::ptr::null_mut(), PAGE + 8 * WORDS, 0, 0x22, -1, 0);
            assert!(base as isize != -1, "mmap failed");
            let inside = base.cast::<u8>().add(PAGE);
            assert!(mprotect(inside.cast(), 8 * WORDS, 3) == 0, "mprotect failed");
            let words = std::slice::from_raw_parts_mut(inside.cast::<u64>(), WORDS);
            words.fill(PAINT);
            Stack { words }
        }
    }

    /// Calls a service and says how many bytes of stack were written, the return address included.
    fn measure(&mut self, service: Service, input: &Input) -> usize {
        let (first, second) = (&input.first, &input.second);
        let mut tick = 0_i64;
        let mut list = [0_u8; 1024];
        let mut record = [0_u8; 8192];
        let (mut table, mut report) = (input.table, [0_u64; 35]);
        let (at, length, number) = (first.as_ptr() as u64, first.len() as u64, input.number as u64);
        let (table, desk) = (table.as_mut_ptr() as u64, input.desk);
        let (function, words): (*const c_void, [u64; 5]) = match service {
            Cut => (rigcactus_cut as *const c_void, [at, length, number, 0, 0]),
            Tick => (rigcactus_tick as *const c_void, [at, length, number, &raw mut tick as u64, 0]),
            Check => (rigcactus_check as *const c_void, [at, length, number, 0, 0]),
            List => (rigcactus_list as *const c_void, [at, length, number, list.as_mut_ptr() as u64, 1024]),
            Compare => (rigcactus_compare as *const c_void, [at, length, second.as_ptr() as u64, second.len() as u64, number]),
            Print => (rigcactus_print as *const c_void, [at, length, record.as_mut_ptr() as u64, 8192, 0]),
            TotalsOpen => (rigcactus_totals_open as *const c_void, [table, 0, 0, 0, 0]),
            TotalsStart => (rigcactus_totals_start as *const c_void, [table, desk, 0, 0, 0]),
            TotalsAdd => (rigcactus_totals_add as *const c_void, [table, desk, at, length, number]),
            TotalsReport => (rigcactus_totals_report as *const c_void, [table, desk, report.as_mut_ptr() as u64, 0, 0]),
        };
        // SAFETY: the words are the service's arguments, with pointers to memory of the lengths beside them, and the stack is free.
        unsafe { call_on_stack(self.words.as_mut_ptr().add(WORDS), function, words.as_ptr()) };
        let lowest = self.words.iter().position(|word| *word != PAINT).unwrap_or(WORDS);
        self.words[lowest..].fill(PAINT);
        8 * (WORDS - lowest)
    }
}

// ---- Inputs --------------------------------------------------------------------------------------------------------

/// A text, a list, a record or two; the room or the agreed offset; the table that a record is added to, and the desk that adds it.
struct Input {
    what: String,
    first: Vec<u8>,
    second: Vec<u8>,
    number: i64,
    table: Table,
    desk: u64,
}

/// An input with a table of all rows, which has an amount of desk 2 in EUR go to the last one, and the rows of desk 2 move up over those of
/// desk 1.
fn input(what: &str, first: impl Into<Vec<u8>>) -> Input {
    let first = first.into();
    let table = table::totals("32:16,0,0/16,0,0:1.AAA-AAO=0,1.EUR=0,2.AAA-AAO=0,2.EUR=0", &[0; 103]);
    Input { what: what.to_string(), second: first.clone(), first, number: 0, table, desk: 2 }
}

/// An interval, its bounds at a place of a line, so that those of different places lie apart; at place 0 it has no bounds.
fn interval(name: &str, place: usize) -> String {
    if place == 0 {
        return format!("<{name} xsi:type=\"IVL_TS\"/>");
    }
    let (low, high) = (1000 + 20 * place, 1010 + 20 * place);
    let flags = "lowClosed=\"true\" highClosed=\"false\"";
    format!("<{name} xsi:type=\"IVL_TS\" {flags}><low value=\"{low}0229235959.9999+1400\"/><high value=\"{high}0228235959.9999-1400\"/></{name}>")
}

/// Sets within sets, of the types given from the outside in, each with an interval before or after the inner set; in the innermost set
/// so many intervals. With seven levels these have no bounds, for which no level is left.
fn nested(types: &[usize], inner_last: bool, many: usize) -> String {
    let mut place = 0;
    let mut next = |name: &str| {
        place += usize::from(types.len() < 7);
        interval(name, place)
    };
    let mut record = String::new();
    for (level, of_type) in types.iter().enumerate().rev() {
        let names = if *of_type == 2 { ["minuend", "subtrahend"] } else { ["term", "term"] };
        let content = if level + 1 == types.len() {
            let more: String = (0..many).map(|_| next("term")).collect();
            if *of_type == 2 { next(names[0]) + &next(names[1]) } else { more }
        } else if inner_last {
            next(names[0]) + &record.replace("NAME", names[1])
        } else {
            record.replace("NAME", names[0]) + &next(names[1])
        };
        record = format!("<NAME xsi:type=\"{}\">{content}</NAME>", records::SET_TYPES[*of_type]);
    }
    record.replace("NAME", "t")
}

/// Sets within sets and an interval in the innermost, whose bound has elements inside it that are not allowed, up to the eighth level, and
/// there a tag of many attributes: it is read again where the judge passes the bound.
fn crowded_bounds() -> Vec<Input> {
    let attributes = many_attributes();
    let around = |name: &str, of_type: &str, inside: String| format!("<{name} xsi:type=\"{of_type}\">{inside}</{name}>");
    (0..=5)
        .map(|sets| {
            let (open, close) = ("<a>".repeat(5 - sets), "</a>".repeat(5 - sets));
            let bounds = format!("<low>{open}<b{attributes}/>{close}</low>");
            let mut record = around("NAME", "IVL_TS", bounds);
            for _ in 0..sets {
                record = around("NAME", "QSU_TS", record.replace("NAME", "term"));
            }
            input("many attributes inside a bound", record.replace("NAME", "t"))
        })
        .collect()
}

/// Every nesting of the three types of sets, of one to seven levels.
fn nested_sets() -> Vec<Input> {
    let mut inputs = Vec::new();
    for levels in 1..=7 {
        for number in 0..3_usize.pow(levels) {
            let types: Vec<usize> = (0..levels).map(|level| number / 3_usize.pow(level) % 3).collect();
            for (inner_last, many) in [(false, 2), (true, 2), (false, 26), (true, 26)] {
                inputs.push(input("sets within sets", nested(&types, inner_last, many)));
            }
        }
    }
    inputs
}

/// A row of the same texts, as many as there is room for in the longest record, between two others.
fn filled(before: &str, one: &str, after: &str) -> String {
    let count = (faults::MOST_BYTES - before.len() - after.len()) / one.len();
    format!("{before}{}{after}", one.repeat(count))
}

fn many_attributes() -> String {
    (0..1200).map(|n| format!(" a{n:04}=\"{n}\"")).collect()
}

/// Records that are long, wide or deep, of every type.
fn long_records() -> Vec<Input> {
    let part = "<part value=\"&amp;&lt;\u{10FFFF}\" type=\"TITLE\" qualifier=\"LS AC NB PR HON BR AD SP MID CL IN PFX\"/>";
    let deep = "<a>".repeat(7);
    let end = "</a>".repeat(7);
    let attributes = many_attributes();
    let oid = format!("2.{}", "9".repeat(126));
    vec![
        input("many parts", filled("<t xsi:type=\"EN\">", part, "</t>")),
        input("a long part", filled("<t xsi:type=\"EN\"><part value=\"", "&quot;\u{EB}", "\"/></t>")),
        input("many qualifiers", filled("<t xsi:type=\"EN\"><part value=\"a\" qualifier=\"SFX", " HON", "\"/></t>")),
        input("an amount", "<t xsi:type=\"MO\" value=\"-999999999999.9999\" currency=\"EUR\"/>"),
        input("a long value", filled("<t xsi:type=\"MO\" currency=\"EUR\" value=\"", "9", "\"/>")),
        input("a long identifier", filled(&format!("<t xsi:type=\"II\" root=\"{oid}\" extension=\""), "&apos;", "\"/>")),
        input(
            "a code",
            format!("<t xsi:type=\"CD\" code=\"a\" codeSystem=\"{oid}\" codeSystemName=\"a\" codeSystemVersion=\"a\"><displayName value=\"a\"/></t>"),
        ),
        input("a timestamp", "<t xsi:type=\"TS\" value=\"99991231235959.9999-1400\"/>"),
        input("an impossible timestamp", "<t xsi:type=\"TS\" value=\"20241332246060.9999-9999\"/>"),
        input("an interval", interval("t", 1)),
        input("an interval of impossible times", interval("t", 1).replace("0229", "0230").replace("-1400", "-1401")),
        input("many terms", filled("<t xsi:type=\"QSU_TS\">", &interval("term", 1), "</t>")),
        input("siblings at the eighth level", filled(&deep, "<b/>", &end)),
        input("siblings at the ninth level", filled(&format!("{deep}<a>"), "<b/>", &format!("</a>{end}"))),
        input("tags without an end", filled("", "<a>", "")),
        input("white space", filled("<t xsi:type=\"TS\"", " ", "value=\"2024\"/>")),
        input("many attributes", format!("<t xsi:type=\"TS\"{attributes}/>")),
        input("many attributes at the eighth level", format!("{deep}<t{attributes}/>{end}")),
        input("a name twice at the eighth level", format!("{deep}<t{attributes} a0000=\"\"/>{end}")),
        input("a long name", filled("<", "a", "/>")),
        input("a long attribute's name", filled("<t xsi:type=\"TS\" ", "a", "=\"\"/>")),
    ]
}

/// Texts that are long or wide.
fn long_texts() -> Vec<Input> {
    let mut inputs: Vec<Input> = [("ASCII", "a"), ("two bytes", "\u{EB}"), ("four bytes", "\u{10FFFF}"), ("digits", "9"), ("all widths", "a\u{EB}\u{20AC}\u{10000}")]
        .map(|(what, one)| input(what, filled("", one, "")))
        .into_iter()
        .collect();
    inputs.extend(["0001", "99991231235959.9999+1400", "20000229", "2024050112-14", "20240501123059.1+0530"].map(|text| input(text, text)));
    inputs.extend(["19000229", "20240501123060", "2024050112+1401", "20241332246060.9999-9999"].map(|text| input(text, text)));
    inputs.push(input("too long", vec![b'a'; faults::MOST_BYTES + 1]));
    inputs.push(input("none", ""));
    inputs
}

/// Lists with and without stretches, and one of more than there may be.
fn short_and_long_lists() -> Vec<Input> {
    let mut inputs: Vec<Input> = series::some_lists().iter().map(|stretches| input("a list", lists::bytes(stretches))).collect();
    inputs.push(input("too many stretches", lists::bytes(&[[0; 4]; 512])));
    inputs
}

/// The records of tests/records, the pairs, the lists and the tables.
fn stored() -> Vec<Input> {
    let mut inputs = Vec::new();
    for (table, count) in [(include_str!("records/check.txt"), 3), (include_str!("records/list.txt"), 5)] {
        for (number, line) in table::lines(table) {
            let words: Vec<&str> = line.splitn(count, ' ').collect();
            let mut input = input(&format!("a stored record, line {number}"), table::bytes(words[count - 1]));
            input.number = words[1].parse().unwrap();
            inputs.push(input);
        }
    }
    for (number, line) in table::lines(include_str!("records/compare.txt")) {
        let words: Vec<&str> = line.splitn(3, ' ').collect();
        let (first, second) = words[2].split_once(" ~ ").unwrap();
        let mut input = input(&format!("a stored pair, line {number}"), table::bytes(first));
        (input.second, input.number) = (table::bytes(second), words[1].parse().unwrap());
        inputs.push(input);
    }
    for (number, line) in table::lines(include_str!("records/print.txt")) {
        inputs.push(input(&format!("a stored list, line {number}"), table::list(line.split(' ').nth(2).unwrap())));
    }
    for (number, line) in table::lines(include_str!("records/totals.txt")) {
        let words: Vec<&str> = line.splitn(7, ' ').collect();
        let mut input = input(&format!("a stored table, line {number}"), table::bytes(words.get(6).unwrap_or(&"")));
        (input.desk, input.table) = (words[1].parse().unwrap(), table::totals(words[3], &[u64::MAX; 103]));
        input.number = words.get(5).map_or(0, |offset| offset.parse().unwrap());
        inputs.push(input);
    }
    inputs
}

/// An input that is made from random numbers, as tests/services.rs makes it.
fn made(service: Service, random: &mut Random, calendar: &Calendar) -> Input {
    let offset = random.from(0, 1680) as i64 - 840;
    let styles = money::styles(random);
    let table = if random.once_in(4) { rows::damaged(random, &styles) } else { rows::proper(random, &styles) };
    let desk = random.one_of(&DESKS);
    let mut maker = Maker { random, offset, calendar };
    let (first, second) = match service {
        Cut => (cut::text(maker.random), Vec::new()),
        Tick => (tick::text(maker.random), Vec::new()),
        Check => (maker.record(), Vec::new()),
        List => (maker.record_to_list(), Vec::new()),
        Compare => maker.pair(),
        Print => (lists::list(maker.random), Vec::new()),
        TotalsAdd => (maker.record_to_add(&styles[desk as usize - 1], &table, desk).0, Vec::new()),
        TotalsOpen | TotalsStart | TotalsReport => (Vec::new(), Vec::new()),
    };
    Input { what: "a made input".to_string(), first, second, number: offset, table, desk }
}

// ---- The measurement -----------------------------------------------------------------------------------------------

/// The most that some inputs take, and one of those that do.
fn most<'a>(stack: &mut Stack, service: Service, inputs: impl Iterator<Item = &'a Input>) -> (usize, &'a Input) {
    let measured = inputs.map(|input| (stack.measure(service, input), input));
    measured.reduce(|most, next| if next.0 > most.0 { next } else { most }).unwrap()
}

fn options() -> Option<Options> {
    let mut options = Options { cases: 10_000, seed: 1, only_made: false, service: None };
    let mut words = std::env::args().skip(1);
    while let Some(word) = words.next() {
        match word.as_str() {
            "--cases" => options.cases = words.next()?.parse().ok()?,
            "--seed" => options.seed = words.next()?.parse().ok()?,
            _ => return None,
        }
    }
    Some(options)
}

fn main() -> ExitCode {
    let Some(options) = options() else {
        eprintln!("usage: stack [--cases N] [--seed S]");
        return ExitCode::from(2);
    };
    let calendar = Calendar::new();
    let mut random = Random::new(options.seed);
    let mut stack = Stack::new();
    let inputs: Vec<Input> = [nested_sets(), crowded_bounds(), long_records(), long_texts(), short_and_long_lists(), stored()].into_iter().flatten().collect();
    let mut within = true;
    for (service, name, bound) in SERVICES {
        let (bytes, deepest) = most(&mut stack, service, inputs.iter());
        let bytes_of_made = (0..options.cases).map(|_| stack.measure(service, &made(service, &mut random, &calendar))).max().unwrap_or(0);
        let shown = deepest.first[..deepest.first.len().min(60)].escape_ascii();
        println!("{name:<14}{bytes:>8} bytes of stack at most, {bytes_of_made:>8} with inputs that are made; {bound:>8} are said to be enough");
        println!("        by {}: {shown}", deepest.what);
        within &= bytes.max(bytes_of_made) <= bound;
    }
    println!("{} inputs and {} that are made for each service", inputs.len(), options.cases);
    if within { ExitCode::SUCCESS } else { ExitCode::from(1) }
}
