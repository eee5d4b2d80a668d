//! Texts of one tag: its names are all different, or one of them occurs twice. Small tags have it at every two places; tags of some
//! hundred attributes, of as many as 16,384 bytes hold and of more than that, at the first and the last place and at every distance
//! from them, or some.

use crate::random::Random;
use std::collections::{HashMap, HashSet};

/// A text, and whether all names are different.
pub struct Tag {
    pub text: Vec<u8>,
    pub distinct: bool,
}

/// The names that the types' attributes have, and others that occur in records.
const KNOWN: [&str; 18] = [
    "value", "nullFlavor", "xsi:type", "xmlns", "xmlns:xsi", "lowClosed", "highClosed", "currency", "root", "extension", "code", "codeSystem", "codeSystemName",
    "codeSystemVersion", "type", "qualifier", "validTimeLow", "validTimeHigh",
];

const LETTERS: &[u8] = b"abcdefghijklmnopqrstuvwxyz";

/// The number that the library makes of a name. Names of one number are told apart by their bytes alone.
fn number(name: &str) -> usize {
    name.bytes().fold(0, |h, c| (h + c as usize) * 40_503 % 1_048_576)
}

/// Names of four letters, first those that share their number with the most others.
fn by_number() -> Vec<String> {
    let mut groups: HashMap<usize, Vec<String>> = HashMap::new();
    for k in 0..LETTERS.len().pow(4) {
        let name: String = (0..4).map(|i| LETTERS[k / LETTERS.len().pow(i) % LETTERS.len()] as char).collect();
        groups.entry(number(&name)).or_default().push(name);
    }
    let mut groups: Vec<Vec<String>> = groups.into_values().collect();
    groups.sort_by_key(|g| (usize::MAX - g.len(), g[0].clone()));
    groups.concat()
}

/// Names of one byte and of two.
fn shortest() -> Vec<String> {
    let of = |a: u8| std::iter::once(vec![a]).chain(LETTERS.iter().chain(b"0123456789.-:_").map(move |&b| vec![a, b]));
    LETTERS.iter().chain(b"ABCDEFGHIJKLMNOPQRSTUVWXYZ_").flat_map(|&a| of(a)).map(|n| String::from_utf8(n).unwrap()).collect()
}

/// Lists of at most so many different names: those of the types; of one length, first and last byte; each the beginning of the next; of
/// one number; the shortest.
fn families(most: usize) -> Vec<Vec<String>> {
    let mut families = vec![
        KNOWN.iter().map(|n| n.to_string()).collect(),
        (0..most).map(|k| format!("n{k:04}n")).collect(),
        (1..=100).map(|k| "x".repeat(k)).collect(),
        by_number(),
        shortest(),
    ];
    families.iter_mut().for_each(|names: &mut Vec<String>| names.truncate(most));
    families
}

fn tag(names: &[String], random: &mut Random) -> Tag {
    let mut text = b"<a".to_vec();
    for name in names {
        text.push(random.one_of(b" \t\r\n"));
        text.extend(name.as_bytes());
        text.extend(random.one_of(&["=\"\"", " = \"/>\"", "=\"&lt;\"", "=\"x=\""]).as_bytes());
    }
    text.extend(random.one_of(&["/>", " />", "></a>"]).as_bytes());
    Tag { text, distinct: names.iter().collect::<HashSet<_>>().len() == names.len() }
}

/// The names with that of one place at another too.
fn twice(names: &[String], first: usize, second: usize, random: &mut Random) -> Tag {
    let mut names = names.to_vec();
    names[second] = names[first].clone();
    tag(&names, random)
}

/// Tags of up to 12 attributes, with a name at every two places.
fn add_small(tags: &mut Vec<Tag>, names: &[String], random: &mut Random) {
    for n in 1..=12 {
        tags.push(tag(&names[..n], random));
        for second in 1..n {
            tags.extend((0..second).map(|first| twice(&names[..n], first, second, random)));
        }
    }
}

/// A tag with all the names, and with a name at the first or the last place and at some distance from there.
fn add_large(tags: &mut Vec<Tag>, names: &[String], step: usize, random: &mut Random) {
    let last = names.len() - 1;
    tags.push(tag(names, random));
    for distance in (1..=last).step_by(step).chain([last]) {
        tags.push(twice(names, 0, distance, random));
        tags.push(twice(names, last - distance, last, random));
    }
}

pub fn tags() -> Vec<Tag> {
    let mut random = Random::new(1);
    let mut tags = Vec::new();
    for names in families(3_200) {
        add_small(&mut tags, &names, &mut random);
        for (count, step) in [(300, 1), (1_600, 100), (3_200, 1_000)] {
            add_large(&mut tags, &names[..count.min(names.len())], step, &mut random);
        }
    }
    tags
}
