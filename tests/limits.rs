//! Series of tables of daily totals and of records, each tried one and all: both sides of every limit, every kind of damage at every row,
//! and every two reasons for a refusal at once.

use crate::day::{counts_at, number, row_at, Currency, Row, Table, ALL_ROWS, DESKS, MOST_ROWS, MOST_TOTAL};
use crate::faults::MOST_BYTES;
use crate::money::{Given, MOST_AMOUNT};
use crate::rows::{with_rows, END_TOTALS, NO_DESKS, TOO_MANY_ROWS};

const EUR: Currency = *b"EUR";

/// A currency that no table of these series holds.
const NEW: &str = "XYZ";

/// Currencies, the first EUR. Each but the first is a letter away from another one.
fn currency(number: usize) -> Currency {
    match number {
        0 => EUR,
        1..16 => [b'E', b'U', b'A' + number as u8],
        _ => [b'F', b'U', b'A' + number as u8 - 16],
    }
}

pub fn amount(value: &str, currency: &str) -> Given {
    (format!("<t xsi:type=\"MO\" value=\"{value}\" currency=\"{currency}\"/>").into_bytes(), 0)
}

/// An amount in ten-thousandths, written out.
fn written(amount: i128) -> String {
    let sign = if amount < 0 { "-" } else { "" };
    format!("{sign}{}.{:04}", amount.abs() / 10_000, amount.abs() % 10_000)
}

/// How the rows of two desks lie: in turn, or one desk's before the other's.
const ORDERS: [fn(usize) -> (u64, usize); 3] = [
    |row| (1 + row as u64 % 2, row / 2),
    |row| (1 + row as u64 / 16, row % 16),
    |row| (2 - row as u64 / 16, row % 16),
];

/// Numbers that are no row.
const PAST: Table = [0xA5A5_A5A5_A5A5_A5A5; 103];

/// A table of so many rows in an order, their totals as said, and past them numbers that are no row. Both desks have the same currencies.
fn ordered(order: usize, rows: usize, total: impl Fn(usize) -> i128) -> Table {
    let row = |row: usize| {
        let (desk, number) = ORDERS[order](row);
        (desk, currency(number), total(row))
    };
    let rows: Vec<Row> = (0..rows).map(row).collect();
    with_rows(&PAST, [[7, 5, 3], [2, 4, 6]], &rows)
}

/// The same with the rows in turn.
fn table(rows: usize, total: impl Fn(usize) -> i128) -> Table {
    ordered(0, rows, total)
}

fn small(row: usize) -> i128 {
    10_000 * row as i128 - 40_000
}

/// One record of each kind: added to a row that is held, added to a new one, null, and refused.
pub fn few_records() -> Vec<Given> {
    let null = b"<t xsi:type=\"MO\" nullFlavor=\"NI\"/>".to_vec();
    vec![amount("1.5", "EUR"), amount("-2", NEW), (null, 0), amount("1", "eur")]
}

// ---- Damage --------------------------------------------------------------------------------------------------------

/// Every byte of the currency of every row replaced by every other.
pub fn every_byte(mut each: impl FnMut(&Table)) {
    for (row, place, byte) in (0..ALL_ROWS).flat_map(|row| (0..8).flat_map(move |place| (0..=255).map(move |byte| (row, place, byte)))) {
        let mut table = table(ALL_ROWS, small);
        let mut bytes = table[row_at(row) + 1].to_le_bytes();
        bytes[place] = byte;
        table[row_at(row) + 1] = u64::from_le_bytes(bytes);
        each(&table);
    }
}

/// Every two rows of one currency, of one desk and of two, in tables of every length that has them, and of some that no longer hold the
/// second.
pub fn every_two_rows(mut each: impl FnMut(&Table)) {
    for held in 1..=ALL_ROWS {
        for (first, second) in (0..ALL_ROWS).flat_map(|second| (0..second).map(move |first| (first, second))) {
            let mut table = table(held, small);
            let (desk, number) = (1 + first as u64 % 2, number(currency(first / 2)));
            table[row_at(second) + 1] = number;
            each(&table);
            table[row_at(second)] = desk;
            each(&table);
        }
    }
}

/// Every row with a total at an end of the range, at an end of all numbers, or beside one.
pub fn every_total(mut each: impl FnMut(&Table)) {
    for held in 1..=ALL_ROWS {
        for (row, total) in (0..ALL_ROWS).flat_map(|row| END_TOTALS.map(|total| (row, total))) {
            let mut table = table(held, small);
            table[row_at(row) + 2] = total as u64;
            each(&table);
        }
    }
}

/// Every three counts of each desk of some about a million, and of some whose sum in 64 bits is small; beside few of the other desk, and
/// beside a million.
pub fn every_count(mut each: impl FnMut(&Table)) {
    const HALF: u64 = 1 << 63;
    const COUNTS: [u64; 18] = [
        0, 1, 2, 333_333, 333_334, 499_999, 500_000, 500_001, 999_998, 999_999, 1_000_000, 1_000_001, 1 << 32, HALF - 1, HALF, HALF + 1,
        u64::MAX - 999_999, u64::MAX,
    ];
    for (choice, desk) in (0..COUNTS.len().pow(3)).flat_map(|choice| DESKS.map(|desk| (choice, desk))) {
        let mut table = table(2, small);
        let digits = [choice, choice / COUNTS.len(), choice / COUNTS.len().pow(2)];
        table[counts_at(desk)..][..3].copy_from_slice(&digits.map(|digit| COUNTS[digit % COUNTS.len()]));
        each(&table);
        table[counts_at(3 - desk)..][..3].copy_from_slice(&[1, 999_999, 0]);
        each(&table);
    }
}

/// Every count of rows up to 300, and some far greater ones, over 32 good rows in every order.
pub fn every_row_count(mut each: impl FnMut(&Table)) {
    for (held, order) in (0..=300).chain(TOO_MANY_ROWS).flat_map(|held| [(held, 0), (held, 1), (held, 2)]) {
        let mut table = ordered(order, ALL_ROWS, small);
        table[0] = held;
        each(&table);
    }
}

/// Every two counts of rows that the desks can have in one table, those of one before the other's, and in turn.
pub fn every_share(mut each: impl FnMut(&Table)) {
    for (first, second) in (0..=ALL_ROWS).flat_map(|first| (0..=ALL_ROWS - first).map(move |second| (first, second))) {
        let of_desk = |desk: u64, count: usize| (0..count).map(move |row| (desk, currency(row), small(row)));
        let mut rows: Vec<Row> = of_desk(1, first).chain(of_desk(2, second)).collect();
        each(&with_rows(&PAST, [[7, 5, 3], [2, 4, 6]], &rows));
        rows.sort_by_key(|row| (row.2, row.0));
        each(&with_rows(&PAST, [[7, 5, 3], [2, 4, 6]], &rows));
    }
}

/// Every row with a desk that is none, in tables of every length, those that do not hold the row too.
pub fn every_desk(mut each: impl FnMut(&Table)) {
    for held in 1..=ALL_ROWS {
        for (row, desk) in (0..ALL_ROWS).flat_map(|row| NO_DESKS.map(|desk| (row, desk))) {
            let mut table = table(held, small);
            table[row_at(row)] = desk;
            each(&table);
        }
    }
}

/// Every count of rows, with all past them such as would be damage if they were held.
pub fn every_past(mut each: impl FnMut(&Table)) {
    let pasts = [
        [0, 0, 0],
        [1, number(EUR), 5],
        [2, number(EUR), 5],
        [1, number(*b"XYZ"), 70_000],
        [u64::MAX, u64::MAX, u64::MAX],
        [2, number(*b"xyz"), 1 << 63],
        [3, number(*b"XYZ"), 70_000],
    ];
    for (held, past) in (0..=ALL_ROWS).flat_map(|held| pasts.map(|past| (held, past))) {
        let mut table = table(held, small);
        for row in held..ALL_ROWS {
            table[row_at(row)..row_at(row + 1)].copy_from_slice(&past);
        }
        each(&table);
    }
}

// ---- The ends of the range -----------------------------------------------------------------------------------------

/// A total that is so far from an end of the range, and amounts that just fit, and a ten-thousandth less and more; in every row of tables
/// of some lengths. The desk is the row's.
pub fn every_end(mut each: impl FnMut(&Table, u64, &Given)) {
    const FAR: [i128; 10] = [0, 1, 2, 9_999, 10_000, 10_001, MOST_AMOUNT - 1, MOST_AMOUNT, MOST_AMOUNT + 1, 2 * MOST_AMOUNT];
    for (held, row) in [1, 2, 3, 16, 17, 31, 32].into_iter().flat_map(|held| (0..held).map(move |row| (held, row))) {
        for (far, sign) in FAR.into_iter().flat_map(|far| [(far, 1), (far, -1)]) {
            // The other rows are at the other end, or at the same, where nothing more fits; so is the other desk's of the same currency.
            let table = table(held, |at| if at == row { sign * (MOST_TOTAL - far) } else { [MOST_TOTAL, -MOST_TOTAL][at / 2 % 2] });
            let currency = String::from_utf8(currency(row / 2).to_vec()).unwrap();
            for amount in [far - 1, far, far + 1, 0, 1, -1, MOST_AMOUNT, -MOST_AMOUNT].map(|amount| sign * amount) {
                if amount.abs() <= MOST_AMOUNT {
                    each(&table, 1 + row as u64 % 2, &self::amount(&written(amount), &currency));
                }
            }
        }
    }
}

// ---- The order of refusals -----------------------------------------------------------------------------------------

/// Records of every kind, with one reason to be refused, with several, and with none.
pub fn many_records() -> Vec<Given> {
    let plain = |text: &str| (text.as_bytes().to_vec(), 0);
    let mut records: Vec<Given> = Vec::new();
    for value in ["1", "-1", "0", "-0", "12.50", "999999999999.9999", "-999999999999.9999"] {
        records.extend([amount(value, "EUR"), amount(value, NEW)]);
    }
    records.extend(MONEY.map(plain));
    records.extend(OTHER_TYPES.map(plain));
    records.extend(NO_MARKUP.map(plain));
    records.push((b"<t xsi:type=\"MO\" value=\"1\" currency=\"EUR\xFF\"/>".to_vec(), 0));
    records.push((b"\xC3".to_vec(), 0));
    // As long as may be, and a byte more, of each of those.
    for (record, _) in records.clone() {
        for length in [MOST_BYTES, MOST_BYTES + 1] {
            let mut long = record.clone();
            long.resize(length, b' ');
            records.push((long, 0));
        }
    }
    let offsets = [i64::MIN, -841, -840, 840, 841, i64::MAX];
    let moved: Vec<Given> = records.iter().enumerate().map(|(i, (record, _))| (record.clone(), offsets[i % offsets.len()])).collect();
    records.extend(moved);
    records
}

/// Amounts that are null, or refused for SHAPE, VALUE or RULE, or for several.
const MONEY: [&str; 16] = [
    "<t xsi:type=\"MO\" nullFlavor=\"UNK\"/>",
    "<t nullFlavor=\"PINF\" xsi:type=\"MO\" xmlns=\"a\"></t>",
    "<t xsi:type=\"MO\" value=\"1\" currency=\"EUR\" unit=\"1\"/>",
    "<t xsi:type=\"MO\" value=\"1\" currency=\"EUR\"><low/></t>",
    "<t xsi:type=\"MO\" value=\"x\" currency=\"EUR\" unit=\"1\"/>",
    "<t xsi:type=\"MO\" unit=\"1\"/>",
    "<t xsi:type=\"MO\" value=\"1.\" currency=\"EUR\"/>",
    "<t xsi:type=\"MO\" value=\"1\" currency=\"EU\"/>",
    "<t xsi:type=\"MO\" value=\"1000000000000\" currency=\"XYZ\"/>",
    "<t xsi:type=\"MO\" value=\"\" currency=\"\"/>",
    "<t xsi:type=\"MO\" value=\"x\"/>",
    "<t xsi:type=\"MO\" nullFlavor=\"x\"/>",
    "<t xsi:type=\"MO\" value=\"1\"/>",
    "<t xsi:type=\"MO\" currency=\"XYZ\"/>",
    "<t xsi:type=\"MO\"/>",
    "<t xsi:type=\"MO\" nullFlavor=\"NI\" value=\"1\" currency=\"EUR\"/>",
];

/// Other types: accepted by themselves, null, and with a further reason, as an impossible time; and no type at all.
const OTHER_TYPES: [&str; 19] = [
    "<t xsi:type=\"TS\" value=\"2024\"/>",
    "<t xsi:type=\"TS\" value=\"2024x\"/>",
    "<t xsi:type=\"TS\" value=\"19000229\"/>",
    "<t xsi:type=\"TS\" value=\"2024022924\"/>",
    "<t xsi:type=\"TS\" value=\"2024022923+1401\"/>",
    "<t xsi:type=\"IVL_TS\" lowClosed=\"true\"><low value=\"0000010124+15\"/></t>",
    "<t xsi:type=\"QSU_TS\"><term xsi:type=\"IVL_TS\" highClosed=\"true\"><high value=\"202413\"/></term></t>",
    "<t xsi:type=\"TS\" nullFlavor=\"NI\"/>",
    "<t xsi:type=\"TS\" value=\"2024\" currency=\"EUR\"/>",
    "<t xsi:type=\"TS\"/>",
    "<t xsi:type=\"II\" root=\"1.2\"/>",
    "<t xsi:type=\"CD\" code=\"1\"/>",
    "<t xsi:type=\"EN\"><part value=\"a\"/></t>",
    "<t xsi:type=\"IVL_TS\"/>",
    "<t xsi:type=\"QSU_TS\"><term xsi:type=\"MO\" value=\"1\" currency=\"EUR\"/></t>",
    "<t xsi:type=\"QSU_TS\"><term xsi:type=\"IVL_TS\"/></t>",
    "<t xsi:type=\"mo\" value=\"1\" currency=\"EUR\"/>",
    "<t value=\"1\" currency=\"EUR\"/>",
    "<t xsi:type=\"PQ\" nullFlavor=\"NI\"/>",
];

const NO_MARKUP: [&str; 4] = [
    "",
    "<t xsi:type=\"MO\" value=\"1\" currency=\"EUR\">",
    "<t xsi:type=\"MO\" value=\"1\" value=\"1\" currency=\"EUR\"/>",
    "<t xsi:type=\"TS\" value='2024'/>",
];

/// Rows of desk 1 with and without one for EUR, and with room for another currency or none; with totals inside the range, and all at one end.
fn good_rows() -> Vec<Vec<Row>> {
    let mut tables = Vec::new();
    for (held, end) in [0, 1, 15, 16].into_iter().flat_map(|held| [(held, None), (held, Some(MOST_TOTAL)), (held, Some(-MOST_TOTAL))]) {
        let rows = |first: usize| (first..first + held).map(|row| (1, currency(row), end.unwrap_or_else(|| small(row)))).collect();
        tables.extend([rows(0), rows(1)]);
    }
    tables
}

/// Damage in one place: in desk 1's part, in desk 2's, or in neither's. A table has rows of desk 2 first, and of desk 1 after them.
fn damages(first: usize) -> [(usize, u64); 12] {
    let out = (MOST_TOTAL + 1) as u64;
    [
        (0, 33),
        (0, u64::MAX),
        (row_at(first) + 1, number(*b"EUr")),
        (row_at(first) + 2, out),
        (2, u64::MAX),
        (3, 1_000_001),
        (row_at(0), 3),
        (row_at(0), 0),
        (row_at(0) + 1, 0),
        (row_at(1) + 1, number(EUR)),
        (row_at(0) + 2, out),
        (4, 1_000_001),
    ]
}

/// Tables for calls of desk 1: each as it is, with counts of 999,999, of a million and of one more, and with every damage, beside such counts
/// too. Desk 2 holds two rows or sixteen, and has a few records counted or a million.
pub fn many_tables() -> Vec<Table> {
    let mut tables = Vec::new();
    for (i, good) in good_rows().into_iter().enumerate() {
        let others = if i / 2 % 2 == 0 { 2 } else { MOST_ROWS };
        let mut rows: Vec<Row> = (0..others).map(|row| (2, currency(row), small(row))).collect();
        rows.extend(good);
        for counts in [[7, 5, 3], [999_999, 0, 0], [0, 999_000, 1_000], [0, 0, 1_000_001]] {
            let other = if i / 4 % 2 == 0 { [2, 4, 6] } else { [1, 0, 999_999] };
            let table = with_rows(&PAST, [counts, other], &rows);
            tables.push(table);
            tables.extend(damages(others).map(|(at, number)| {
                let mut damaged = table;
                damaged[at] = number;
                damaged
            }));
        }
    }
    tables
}
