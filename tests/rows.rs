//! Makes tables of daily totals of two desks: with rows that their days can come to, with others that are not damaged, and damaged in every
//! way, in either desk's part. Rows past those held have rubbish in them.

use crate::day::{counts_at, number, row_at, Currency, Row, Table, ALL_ROWS, DESKS, MOST_ROWS, MOST_TOTAL};
use crate::money::Style;
use crate::random::Random;

/// The number that a total is in a table. It takes more than the range, up to what fits into 64 bits.
pub fn total(total: i128) -> u64 {
    total as u64
}

/// Totals at the ends of the range and of what can be written, and beside them.
pub const END_TOTALS: [i128; 8] = [
    MOST_TOTAL - 1,
    MOST_TOTAL,
    MOST_TOTAL + 1,
    i64::MAX as i128,
    -MOST_TOTAL + 1,
    -MOST_TOTAL,
    -MOST_TOTAL - 1,
    i64::MIN as i128,
];

/// Counts of rows that are too many: just so, and such as look small in their lowest bytes.
pub const TOO_MANY_ROWS: [u64; 14] = [
    33, 34, 63, 64, 255, 256, 288, 65_536, 1 << 32, (1 << 32) + 1, 1 << 63, (1 << 63) + 32, u64::MAX - 31, u64::MAX,
];

/// Numbers that are no desk: those beside 1 and 2, and such as look like one in their lowest bytes.
pub const NO_DESKS: [u64; 12] = [
    0, 3, 4, 255, 256, 257, 258, (1 << 32) + 1, 1 << 63, (1 << 63) + 2, u64::MAX - 1, u64::MAX,
];

/// A table with these counts and rows, and the numbers of another one past them.
pub fn with_rows(past: &Table, counts: [[u64; 3]; 2], rows: &[Row]) -> Table {
    let mut table = *past;
    table[0] = rows.len() as u64;
    table[1..7].copy_from_slice(counts.as_flattened());
    for (i, row) in rows.iter().enumerate() {
        table[row_at(i)..row_at(i + 1)].copy_from_slice(&[row.0, number(row.1), total(row.2)]);
    }
    table
}

/// Numbers without a plan, or such as stand in rows.
pub fn rubbish(random: &mut Random, styles: &[Style; 2]) -> Table {
    let kind = random.below(4);
    std::array::from_fn(|i| match (kind, i % 3) {
        (0, _) => 0,
        (1, _) => u64::MAX,
        (2, 1) => random.one_of(&DESKS),
        (2, 2) => number(random.one_of(&styles[i % 2].currencies)),
        _ => random.next(),
    })
}

/// Counts whose sum is at most a million, and often near it.
fn counts(random: &mut Random) -> [u64; 3] {
    let sum = match random.below(8) {
        0 => 0,
        1 => 1_000_000,
        2 => 999_999,
        3 => random.from(999_990, 999_998),
        4 => random.from(0, 1_000_000),
        _ => random.from(0, 2_000),
    };
    let added = random.from(0, sum);
    let null = random.from(0, sum - added);
    let mut counts = [added, null, sum - added - null].map(|count| count as u64);
    counts.rotate_left(random.below(3));
    counts
}

fn any_total(random: &mut Random) -> i128 {
    match random.below(8) {
        0 => 0,
        1 => MOST_TOTAL,
        2 => -MOST_TOTAL,
        3 => MOST_TOTAL - i128::from(random.next() >> random.from(8, 63)),
        4 => i128::from(random.next() >> random.from(8, 63)) - MOST_TOTAL,
        5 => i128::from(random.next()) % MOST_TOTAL,
        _ => random.from(0, 20_000_000) as i128 - 10_000_000,
    }
}

/// The rows of a desk, their currencies of its own, and of others where they are not enough.
fn rows_of(random: &mut Random, desk: u64, currencies: &[Currency]) -> Vec<Row> {
    let count = match random.below(8) {
        0 => 0,
        1 | 2 => MOST_ROWS - 1,
        3..=5 => MOST_ROWS,
        _ => random.from(0, MOST_ROWS),
    };
    let mut chosen = currencies.to_vec();
    chosen.rotate_left(random.below(currencies.len()));
    let mut next = [b'Q', b'A', b'A'];
    while chosen.len() < count {
        if !chosen.contains(&next) {
            chosen.insert(random.below(chosen.len() + 1), next);
        }
        next[2] += 1;
    }
    // All at an end of the range once in a while: then there is no row that could take an amount of a new currency.
    let all = random.once_in(4).then(|| random.one_of(&[MOST_TOTAL, -MOST_TOTAL]));
    chosen[..count].iter().map(|c| (desk, *c, all.unwrap_or_else(|| any_total(random)))).collect()
}

/// The rows of both desks in one order, in which each desk's keep theirs.
fn mingled(random: &mut Random, parts: [Vec<Row>; 2]) -> Vec<Row> {
    let count = parts[0].len() + parts[1].len();
    let mut parts = parts.map(Vec::into_iter);
    let apart = random.once_in(4);
    let mut rows = Vec::with_capacity(count);
    while rows.len() < count {
        let turn = if apart { 0 } else { random.below(2) };
        rows.extend(parts[turn].next().or_else(|| parts[1 - turn].next()));
    }
    rows
}

/// A table that is not damaged, with rows of both desks.
pub fn proper(random: &mut Random, styles: &[Style; 2]) -> Table {
    let parts = DESKS.map(|desk| rows_of(random, desk, &styles[desk as usize - 1].currencies));
    let rows = mingled(random, parts);
    let past = rubbish(random, styles);
    let counts = [counts(random), counts(random)];
    with_rows(&past, counts, &rows)
}

// ---- Damage --------------------------------------------------------------------------------------------------------

/// A currency of wrong form: letters missing, too many, of the other case or just beside capitals, or bytes above the third.
fn wrong_form(random: &mut Random, currency: u64) -> u64 {
    let place = 8 * random.below(3);
    let without = currency & !(0xFF << place);
    match random.below(9) {
        0 => 0,
        1 => without,
        2 => currency & 0xFFFF,
        3 => currency | u64::from(b'A') << 24,
        4 => currency | 1 << random.from(24, 63),
        5 => currency | 0x20 << place,
        6 => without | u64::from(random.one_of(b"@[`a0 \x80\xC1")) << place,
        7 => currency << 8,
        _ => random.next(),
    }
}

/// Counts whose sum is over a million: by one, by much, or so that a sum of 64 bits would be small again.
fn too_many_counted(random: &mut Random) -> [u64; 3] {
    let small = random.below(1_000_001) as u64;
    let mut counts = match random.below(6) {
        0 => [small, 1_000_001 - small, 0],
        1 => [small, 1_000_000, 1],
        2 => [u64::MAX, small, 1],
        3 => [1 << 63, 1 << 63, small],
        4 => {
            let large = random.next() | 1 << 62;
            [large, large.wrapping_neg(), small]
        }
        _ => [random.next() >> random.below(40), random.next(), 1_000_000],
    };
    counts.rotate_left(random.below(3));
    counts
}

fn out_of_range(random: &mut Random) -> u64 {
    let beyond = i128::from(random.next() >> random.from(7, 63));
    total(match random.below(4) {
        0 => random.one_of(&[i64::MIN, i64::MAX]).into(),
        1 => random.one_of(&[MOST_TOTAL + 1, -MOST_TOTAL - 1]),
        2 => MOST_TOTAL + 1 + beyond,
        _ => -MOST_TOTAL - 1 - beyond,
    })
}

/// Gives a desk more rows than it may hold, each of a currency of its own, among rows of the other.
fn crowd(random: &mut Random, table: &mut Table) {
    let (desk, count) = (random.one_of(&DESKS), random.from(MOST_ROWS + 1, ALL_ROWS));
    let least = random.from(MOST_ROWS + 1, count);
    let rows: Vec<Row> = (0..count)
        .map(|i| (if i < least { desk } else { 3 - desk }, [b'C', b'A' + i as u8 % 26, b'A' + i as u8 / 26], any_total(random)))
        .collect();
    *table = with_rows(table, [counts(random), counts(random)], &rows);
}

/// Says that more rows are held than there are, over 32 good rows or over what there is.
fn overfill(random: &mut Random, table: &mut Table) {
    if random.once_in(2) {
        let rows: Vec<Row> = (0..ALL_ROWS).map(|i| (1 + i as u64 % 2, [b'C', b'A', b'A' + i as u8 / 2], any_total(random))).collect();
        *table = with_rows(table, [counts(random), counts(random)], &rows);
    }
    table[0] = random.one_of(&TOO_MANY_ROWS);
}

/// Gives a desk a currency twice, if it has two rows.
fn hold_twice(random: &mut Random, table: &mut Table, rows: usize) {
    let row = random.below(rows);
    let others: Vec<usize> = (0..rows).filter(|other| *other != row && table[row_at(*other)] == table[row_at(row)]).collect();
    if !others.is_empty() {
        table[row_at(row) + 1] = table[row_at(random.one_of(&others)) + 1];
    }
}

/// Damages a table in one way, if it has rows enough for it.
fn damage_once(random: &mut Random, table: &mut Table) {
    let rows = table[0].min(ALL_ROWS as u64) as usize;
    let at = row_at(random.below(rows.max(1)));
    match random.below(7) {
        0 => overfill(random, table),
        1 => crowd(random, table),
        2 if rows > 0 => table[at + 1] = wrong_form(random, table[at + 1]),
        3 if rows > 0 => hold_twice(random, table, rows),
        4 if rows > 0 => table[at + 2] = out_of_range(random),
        5 if rows > 0 => table[at] = random.one_of(&NO_DESKS),
        _ => {
            let from = counts_at(random.one_of(&DESKS));
            table[from..from + 3].copy_from_slice(&too_many_counted(random));
        }
    }
}

/// A table that is damaged in one way, or in several.
pub fn damaged(random: &mut Random, styles: &[Style; 2]) -> Table {
    let mut table = proper(random, styles);
    damage_once(random, &mut table);
    while random.once_in(3) {
        damage_once(random, &mut table);
    }
    table
}
