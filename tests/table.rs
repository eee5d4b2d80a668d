//! The tables of tests/records: lines of words and texts, as the head of tests/records/check.txt says, lists, as that of print.txt, and
//! tables of daily totals, as that of totals.txt.

/// The lines that say something, with their numbers from 1 on.
pub fn lines(table: &'static str) -> impl Iterator<Item = (usize, &'static str)> {
    table.lines().enumerate().map(|(i, line)| (i + 1, line)).filter(|(_, line)| !line.is_empty() && !line.starts_with('#'))
}

/// The bytes that a text of a table writes. A table is part of the test, so that one that is not as it should be ends it.
pub fn bytes(text: &str) -> Vec<u8> {
    let mut bytes = Vec::new();
    let mut rest = text;
    while let Some((before, after)) = rest.split_once('\\') {
        bytes.extend(before.bytes());
        let (escape, after) = after.split_at(1);
        rest = after;
        match escape {
            "n" => bytes.push(b'\n'),
            "t" => bytes.push(b'\t'),
            "r" => bytes.push(b'\r'),
            "\\" => bytes.push(b'\\'),
            "x" => {
                bytes.push(u8::from_str_radix(&rest[..2], 16).unwrap());
                rest = &rest[2..];
            }
            "{" => {
                let (repeated, after) = rest.split_once('}').unwrap();
                let (count, text) = repeated.split_once(' ').unwrap();
                bytes.extend(self::bytes(text).repeat(count.parse().unwrap()));
                rest = after;
            }
            "[" | "(" => {
                let (interval, after) = rest.split_at(rest.find([']', ')']).unwrap() + 1);
                bytes.extend(self::interval(escape == "[", interval).bytes());
                rest = after;
            }
            _ => panic!("no escape: \\{escape}"),
        }
    }
    bytes.extend(rest.bytes());
    bytes
}

/// The bytes of the list that a text of print.txt writes: its numbers, and so many bytes more, each 0.
pub fn list(text: &str) -> Vec<u8> {
    let (numbers, more) = text.split_once('+').unwrap_or((text, "0"));
    let numbers = numbers.split(',').filter(|number| *number != "-");
    let mut list: Vec<u8> = numbers.flat_map(|number| number.parse::<i64>().unwrap().to_le_bytes()).collect();
    list.resize(list.len() + more.parse::<usize>().unwrap(), 0);
    list
}

/// The table of daily totals that a text of totals.txt writes, with the numbers of another one where it says nothing.
pub fn totals(text: &str, other: &[u64; 103]) -> [u64; 103] {
    let mut parts = text.split(':');
    let mut numbers: Vec<u64> = vec![parts.next().unwrap().parse().unwrap()];
    numbers.extend(parts.next().unwrap().split('/').flat_map(counts));
    for row in parts.next().unwrap().split(',').filter(|row| *row != "-") {
        let (desk, row) = row.split_once('.').unwrap();
        let desk: u64 = desk.parse().unwrap();
        numbers.extend(rows(row).flat_map(|[currency, total]| [desk, currency, total]));
    }
    let mut table = *other;
    table[..numbers.len()].copy_from_slice(&numbers);
    table
}

/// The report that a text of totals.txt writes, with the numbers of another one where it says nothing.
pub fn report(text: &str, other: &[u64; 35]) -> [u64; 35] {
    let (three, all) = text.split_once(':').unwrap();
    let mut numbers = counts(three).to_vec();
    numbers.extend(all.split(',').filter(|row| *row != "-").flat_map(rows).flatten());
    let mut report = *other;
    report[..numbers.len()].copy_from_slice(&numbers);
    report
}

/// The three counts of a desk that `3,1,0` writes, or `-` for none.
fn counts(text: &str) -> [u64; 3] {
    let text = if text == "-" { "0,0,0" } else { text };
    let counts: Vec<u64> = text.split(',').map(|count| count.parse().unwrap()).collect();
    counts.try_into().unwrap()
}

/// The currencies and totals that `EUR=5` or `AAA-AAP=5` writes.
fn rows(text: &str) -> impl Iterator<Item = [u64; 2]> {
    let (currencies, total) = text.split_once('=').unwrap();
    let total: i64 = total.parse().unwrap();
    self::currencies(currencies).map(move |currency| [currency, total as u64])
}

/// The currencies that `EUR`, `0x525545` or `AAA-AAP` writes, as numbers.
fn currencies(text: &str) -> impl Iterator<Item = u64> {
    let letters = |text: &str| text.bytes().rev().fold(0, |number, letter| number << 8 | u64::from(letter));
    let (first, last) = match (text.strip_prefix("0x"), text.split_once('-')) {
        (Some(digits), _) => [u64::from_str_radix(digits, 16).unwrap(); 2].into(),
        (None, Some((first, last))) => (letters(first), letters(last)),
        (None, None) => (letters(text), letters(text)),
    };
    (0..=(last - first) >> 16).map(move |step| first + (step << 16))
}

/// The interval that `NAME LOW,HIGH]` or `NAME LOW,HIGH)` writes.
fn interval(low_closed: bool, written: &str) -> String {
    let (name, bounds) = written.split_once(' ').unwrap();
    let (low, high) = bounds[..bounds.len() - 1].split_once(',').unwrap();
    let bound = |name: &str, flavor: &str, tick: &str| match tick {
        "*" => format!("<{name} nullFlavor=\"{flavor}\"/>"),
        _ => format!("<{name} value=\"00010101000000.{tick:0>4}\"/>"),
    };
    let flags = format!("lowClosed=\"{low_closed}\" highClosed=\"{}\"", bounds.ends_with(']'));
    let (low, high) = (bound("low", "NINF", low), bound("high", "PINF", high));
    format!("<{name} xsi:type=\"IVL_TS\" {flags}>{low}{high}</{name}>")
}
