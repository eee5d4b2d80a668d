//! Writes the inputs that the fuzzer begins with, one file for each, to a folder that is there:
//!
//!     seeds FOLDER
//!
//! They are the records, lists and tables of tests/records, the records of examples/records, the names of examples/names, some timestamps, and
//! intervals and sets with bounds about units that are coarser than a second, in the form that tests/fuzz/services.c reads.

// A report is no part of an input, and is not read.
#[allow(dead_code)]
#[path = "../table.rs"]
mod table;

use std::fs;
use std::path::{Path, PathBuf};

/// The services by their numbers in an input.
const CUT: u8 = 0;
const TICK: u8 = 1;
const CHECK: u8 = 2;
const LIST: u8 = 3;
const COMPARE: u8 = 4;
const PRINT: u8 = 5;
const TOTALS: u8 = 6;

/// What parts records and steps in an input.
const PART: u8 = 0xFF;

/// Timestamps of each precision, with an offset and without; such whose date, clock or offset is impossible; and texts of another form: some
/// are a byte away from a timestamp.
const TIMESTAMPS: [&[u8]; 56] = [
    b"0001", b"9999", b"202405", b"19700101", b"20000229", b"19000229", b"2024050112", b"2024050112+01", b"2024050112-0130",
    b"202405011230", b"202405011230-0130", b"202405011230+14", b"20240501093000", b"20240501093000+0100", b"20240501093000-05",
    b"20240501093000.5", b"20240501093000.25+0530", b"20240501093000.125-11", b"20000101000000.0001+0000", b"99991231235959.9999",
    b"0001010100+14", b"2024050112Z", b"20240501+01", b"20240501093000.", b"2024050109300:", b"2024050/093000", b"2024050/:93000",
    b"2024\xB0501093000", b"2024050109300", b"",
    b"0000", b"202400", b"202413", b"20240500", b"20240431", b"1900022900", b"19000229235959.9999+1400", b"2024050124", b"202405010060",
    b"20240501000060", b"20240501246060.5-05", b"2024050123+1401", b"2024050123-15", b"202405012359+0060", b"20240501235959.1-9999",
    b"1900022924", b"1900022923+15", b"1900022924+15", b"2024050124+15", b"20241332246060.0001-9999", b"19000229Z", b"1900022924+140",
    b"19000229+0100", b"1900022924.5", b"0000000000000000", b"20240501246060.00000+1401",
];

/// Bounds of each precision, and such as lie in the unit of another, at its last tick and at the start of the next.
const BOUNDS: [&str; 12] = [
    "2024", "202404", "20240430", "2024043023", "202404302359", "20240430235959", "20240430235959.9999", "20240501", "2024043012+0530", "9999",
    "9999123123-1400", "00010101",
];

struct Writer {
    folder: PathBuf,
    count: usize,
}

impl Writer {
    fn write(&mut self, service: u8, offset: i64, room: usize, bytes: &[u8]) {
        let mut input = vec![service];
        // Offsets that do not fit two bytes stand for those that are refused.
        input.extend(i16::try_from(offset).unwrap_or(i16::MAX).to_le_bytes());
        input.extend((room as u16).to_le_bytes());
        input.push(0xA4);
        input.extend(bytes);
        self.count += 1;
        fs::write(self.folder.join(format!("{:05}", self.count)), input).unwrap();
    }

    /// The stored records: each checked and listed; those of list.txt with their lists, which are printed too; the pairs, and the lists.
    fn tables(&mut self) {
        for (_, line) in table::lines(include_str!("../records/check.txt")) {
            let words: Vec<&str> = line.splitn(3, ' ').collect();
            let (offset, record) = (words[1].parse().unwrap(), table::bytes(words[2]));
            self.write(CHECK, offset, 0, &record);
            self.write(LIST, offset, 1024, &record);
        }
        for (_, line) in table::lines(include_str!("../records/list.txt")) {
            let words: Vec<&str> = line.splitn(5, ' ').collect();
            self.write(LIST, words[1].parse().unwrap(), words[2].parse().unwrap(), &table::bytes(words[4]));
            if words[3] != "-" {
                self.write(PRINT, words[1].parse().unwrap(), 8191, &table::list(words[3]));
            }
        }
        for (_, line) in table::lines(include_str!("../records/compare.txt")) {
            let words: Vec<&str> = line.splitn(3, ' ').collect();
            let (first, second) = words[2].split_once(" ~ ").unwrap();
            let pair = [table::bytes(first), table::bytes(second)].join(&PART);
            self.write(COMPARE, words[1].parse().unwrap(), 0, &pair);
        }
        for (_, line) in table::lines(include_str!("../records/print.txt")) {
            let words: Vec<&str> = line.splitn(4, ' ').collect();
            self.write(PRINT, 0, words[1].parse().unwrap(), &table::list(words[2]));
        }
    }

    /// The stored tables of daily totals, each with its call; and days that begin with an empty table, in which the desks give all short
    /// records in turn, and start anew now and then.
    fn totals(&mut self) {
        let mut days = Vec::new();
        for (i, (_, line)) in table::lines(include_str!("../records/totals.txt")).enumerate() {
            let words: Vec<&str> = line.splitn(7, ' ').collect();
            let numbers = table::totals(words[3], &[0xA5A5_A5A5_A5A5_A5A5; 103]);
            let offset = words.get(5).map_or(0, |offset| offset.parse().unwrap());
            let record = words.get(6).map_or(Vec::new(), |record| table::bytes(record));
            let step = step(words[0], words[1], &record);
            self.write(TOTALS, offset, 0, &[numbers.map(u64::to_le_bytes).as_flattened(), &step].concat());
            if words[0] == "add" && record.len() < 200 {
                days.push(self::step(if i % 20 == 0 { "start" } else { "add" }, ["1", "2"][i % 2], &record));
            }
        }
        for steps in days.chunks(50) {
            self.write(TOTALS, 0, 0, &[vec![0; 8 * 103], steps.join(&PART)].concat());
        }
        self.write(TOTALS, 0, 0, b"");
    }

    /// Intervals between every two of some bounds, with their flags in turn, alone and less a day: each listed, and those alone checked.
    fn bounds(&mut self) {
        const FLAGS: [&str; 4] = ["true true", "false true", "true false", "false false"];
        let day = "<subtrahend xsi:type=\"IVL_TS\" lowClosed=\"true\" highClosed=\"true\"><low value=\"20240430\"/><high value=\"20240430\"/></subtrahend>";
        for (i, (low, high)) in BOUNDS.iter().flat_map(|low| BOUNDS.map(|high| (low, high))).enumerate() {
            let (low_closed, high_closed) = FLAGS[(i + i / 12) % 4].split_once(' ').unwrap();
            let flags = format!("xsi:type=\"IVL_TS\" lowClosed=\"{low_closed}\" highClosed=\"{high_closed}\"");
            let bounds = format!("<low value=\"{low}\"/><high value=\"{high}\"/>");
            let offset = [0, 120, -840, 840][i % 4];
            self.write(CHECK, offset, 0, format!("<t {flags}>{bounds}</t>").as_bytes());
            self.write(LIST, offset, 32, format!("<t {flags}>{bounds}</t>").as_bytes());
            self.write(LIST, offset, 64, format!("<t xsi:type=\"QSD_TS\"><minuend {flags}>{bounds}</minuend>{day}</t>").as_bytes());
        }
    }

    fn examples(&mut self) {
        for record in files("examples/records") {
            self.write(CHECK, 120, 0, &record);
            self.write(LIST, 120, 64, &record);
            self.write(COMPARE, 120, 0, &record);
        }
        for name in files("examples/names") {
            for room in [0, name.len() / 2, name.len()] {
                self.write(CUT, 0, room, &name);
            }
        }
        for text in TIMESTAMPS {
            self.write(TICK, 0, 0, text);
            self.write(TICK, -840, 0, text);
        }
    }
}

/// What a call does to a table of totals: a byte that says which it is and of which desk, and the record. A report is written at every step,
/// so that for one alone a null record does.
fn step(call: &str, desk: &str, record: &[u8]) -> Vec<u8> {
    let desk = match desk {
        "0" | "1" | "2" | "3" => desk.as_bytes()[0],
        _ => b'9',
    };
    match call {
        "start" => vec![desk | 4],
        "report" => [&[desk], &b"<t xsi:type=\"MO\" nullFlavor=\"NI\"/>"[..]].concat(),
        _ => [&[desk], record].concat(),
    }
}

/// What the files of a folder hold, in the order of their names.
fn files(folder: &str) -> Vec<Vec<u8>> {
    let mut paths: Vec<PathBuf> = fs::read_dir(folder).unwrap().map(|entry| entry.unwrap().path()).collect();
    paths.sort();
    paths.iter().map(|path| fs::read(path).unwrap()).collect()
}

fn main() {
    let folder = std::env::args().nth(1).expect("usage: seeds FOLDER");
    let mut writer = Writer { folder: Path::new(&folder).to_path_buf(), count: 0 };
    writer.tables();
    writer.totals();
    writer.bounds();
    writer.examples();
    println!("{} inputs in {folder}", writer.count);
}
