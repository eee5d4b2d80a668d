//! Compares `markup::is_document`, by way of the crate `markup_bench`, with another reader of the rules page's markup, on made texts:
//! valid ones, the same damaged in one to three bytes, and random pieces of markup; and on tags in which a name occurs twice (names.rs).
//! The reader below goes by tags and quotes, and keeps the names of open elements in a list.
//!
//!     reader [CASES [SEED]]
//!
//! CASES texts (1000000) are made from SEED (1). The exit status is 1 where the two differ.

mod names;
#[path = "../random.rs"]
mod random;

use random::Random;
use std::collections::HashSet;
use std::process::ExitCode;

extern "C" {
    fn markup_bench_is_document(text: *const u8, length: usize) -> u64;
}

fn ours(text: &[u8]) -> bool {
    unsafe { markup_bench_is_document(text.as_ptr(), text.len()) == 1 }
}

// ---- the other reader

fn is_space(c: u8) -> bool {
    b" \t\r\n".contains(&c)
}

fn trim(mut s: &[u8]) -> &[u8] {
    while let [first, rest @ ..] = s {
        if !is_space(*first) {
            break;
        }
        s = rest;
    }
    while let [rest @ .., last] = s {
        if !is_space(*last) {
            break;
        }
        s = rest;
    }
    s
}

fn is_name(s: &[u8]) -> bool {
    let goes_on = |c: &u8| c.is_ascii_alphanumeric() || b"._-:".contains(c);
    s.first().is_some_and(|c| c.is_ascii_alphabetic() || *c == b'_') && s.iter().all(goes_on)
}

fn is_value(s: &[u8]) -> bool {
    let references: [&[u8]; 5] = [b"amp;", b"lt;", b"gt;", b"quot;", b"apos;"];
    let noncharacter = |w: &[u8]| w == b"\xEF\xBF\xBE" || w == b"\xEF\xBF\xBF";
    s.iter().all(|&c| c >= 32 && c != b'<')
        && !s.windows(3).any(noncharacter)
        && s.split(|&c| c == b'&').skip(1).all(|after| references.iter().any(|r| after.starts_with(r)))
}

/// Whether what follows the name of a tag is attributes: the parts between quotes are values, the others names with `=`.
fn are_attributes(s: &[u8]) -> bool {
    let parts: Vec<&[u8]> = s.split(|&c| c == b'"').collect();
    let mut names = HashSet::new();
    for pair in parts.chunks(2) {
        let [before, value] = pair else {
            return trim(pair[0]).is_empty();
        };
        let Some(name) = trim(before).strip_suffix(b"=").map(trim) else {
            return false;
        };
        if !before.first().is_some_and(|&c| is_space(c)) || !is_name(name) || !is_value(value) || !names.insert(name) {
            return false;
        }
    }
    false
}

/// Where the tag that begins a text ends: at the first `>` that no quotes surround.
fn tag_end(s: &[u8]) -> Option<usize> {
    let mut quoted = false;
    s.iter().position(|&c| {
        quoted ^= c == b'"';
        c == b'>' && !quoted
    })
}

fn theirs(text: &[u8]) -> bool {
    let mut rest = trim(text);
    let mut open: Vec<&[u8]> = Vec::new();
    let mut begun = false;
    while !rest.is_empty() {
        let Some(end) = tag_end(rest) else {
            return false;
        };
        let Some(tag) = rest[..end].strip_prefix(b"<") else {
            return false;
        };
        if begun && open.is_empty() {
            return false;
        }
        begun = true;
        if let Some(name) = tag.strip_prefix(b"/") {
            let at = name.iter().position(|&c| is_space(c)).unwrap_or(name.len());
            if open.pop() != Some(&name[..at]) || !trim(&name[at..]).is_empty() {
                return false;
            }
        } else {
            let inside = tag.strip_suffix(b"/");
            let body = inside.unwrap_or(tag);
            let at = body.iter().position(|&c| is_space(c)).unwrap_or(body.len());
            if !is_name(&body[..at]) || !are_attributes(&body[at..]) || open.len() == 8 {
                return false;
            }
            if inside.is_none() {
                open.push(&body[..at]);
            }
        }
        rest = trim(&rest[end + 1..]);
    }
    begun && open.is_empty()
}

// ---- texts

fn add_space(text: &mut Vec<u8>, random: &mut Random, most: usize) {
    for _ in 0..random.below(most + 1) {
        text.push(random.one_of(b" \t\r\n"));
    }
}

fn add_value(text: &mut Vec<u8>, random: &mut Random) {
    let pieces: [&str; 16] =
        ["a", "20240501", " ", "&amp;", "&lt;", "&gt;", "&quot;", "&apos;", ">", "'", "\u{eb}", "\u{5f20}", "\u{fffd}", "\u{ffbf}", "/>", "="];
    let wrong: [&[u8]; 8] = [b"&", b"<", b"\t", b"\x1F", b"\xEF\xBF\xBE", b"\xEF\xBF\xBF", b"&nbsp;", b"&amp"];
    for _ in 0..random.below(5) {
        let piece = if random.once_in(200) { random.one_of(&wrong) } else { random.one_of(&pieces).as_bytes() };
        text.extend(piece);
    }
}

fn add_element(text: &mut Vec<u8>, random: &mut Random, depth: usize) {
    let names: [&str; 10] = ["a", "b", "low", "high", "xsi:type", "value", "_", "A-1.b:c", "xmlns", "aa"];
    let name = random.one_of(&names);
    text.push(b'<');
    text.extend(name.as_bytes());
    for _ in 0..(if random.once_in(2) { random.below(4) } else { 0 }) {
        text.push(random.one_of(b" \t\r\n"));
        text.extend(random.one_of(&names).as_bytes());
        let room = random.below(6) / 5;
        add_space(text, random, room);
        text.push(b'=');
        add_space(text, random, room);
        text.push(b'"');
        add_value(text, random);
        text.push(b'"');
    }
    let room = random.below(6) / 5;
    add_space(text, random, room);
    if depth == 0 || random.once_in(4) {
        text.extend(b"/>");
        return;
    }
    text.push(b'>');
    for _ in 0..random.below(4) {
        add_space(text, random, room);
        let inner = if random.once_in(3) { 0 } else { depth - 1 };
        add_element(text, random, inner);
    }
    add_space(text, random, room);
    text.extend(b"</");
    text.extend(name.as_bytes());
    add_space(text, random, room);
    text.push(b'>');
}

fn valid(random: &mut Random) -> Vec<u8> {
    let mut text = Vec::new();
    add_space(&mut text, random, 1);
    if random.once_in(20) {
        let height = random.from(1, 12);
        text.extend(b"<a>".repeat(height));
        text.extend(b"</a>".repeat(height));
    } else {
        let depth = random.below(9);
        add_element(&mut text, random, depth);
    }
    add_space(&mut text, random, 1);
    text
}

fn any_byte(random: &mut Random) -> u8 {
    if random.once_in(6) { random.byte() } else { random.one_of(b"<>/=\"' \t\n&;ab:_-.0!\0\xEF\xBF\xBE") }
}

fn damage(text: &mut Vec<u8>, random: &mut Random) {
    for _ in 0..random.from(1, 3) {
        if text.is_empty() {
            return;
        }
        let at = random.below(text.len());
        match random.below(3) {
            0 => text[at] = any_byte(random),
            1 => drop(text.remove(at)),
            _ => text.insert(at, any_byte(random)),
        }
    }
}

fn pieces(random: &mut Random) -> Vec<u8> {
    let pieces: [&str; 20] = ["<a", "<b", ">", "/>", "</a>", "</b", " ", "b=", "c=\"", "\"", "\"1\"", "'", "&amp;", "&lt", "=", "<", "/", "\n", "<a>", "<a/>"];
    let mut text = Vec::new();
    for _ in 0..random.below(12) {
        if random.once_in(8) {
            text.push(any_byte(random));
        } else {
            text.extend(random.one_of(&pieces).as_bytes());
        }
    }
    text
}

/// Whether both readers answer alike, and as is due where that is known; if not, the text is shown.
fn agree(text: &[u8], due: Option<bool>) -> Option<bool> {
    let (a, b) = (ours(text), theirs(text));
    if a == b && due.unwrap_or(a) == a {
        return Some(a);
    }
    println!("Rigcactus: {a}, the other reader: {b}, due: {due:?}: {:?}", String::from_utf8_lossy(text));
    None
}

fn main() -> ExitCode {
    let mut words = std::env::args().skip(1).map(|w| w.parse().unwrap_or(0));
    let cases: u64 = words.next().unwrap_or(1_000_000);
    let mut random = Random::new(words.next().unwrap_or(1));
    let kinds = ["valid, but for a rare fault", "damaged", "random", "a tag, a name twice or not"];
    let mut counts = [[0u64; 2]; 4];
    for k in 0..cases {
        let kind = (k % 3) as usize;
        let mut text = if kind == 2 { pieces(&mut random) } else { valid(&mut random) };
        if kind == 1 {
            damage(&mut text, &mut random);
        }
        let Some(accepted) = agree(&text, None) else {
            return ExitCode::from(1);
        };
        counts[kind][accepted as usize] += 1;
    }
    for tag in names::tags() {
        if agree(&tag.text, Some(tag.distinct)).is_none() {
            return ExitCode::from(1);
        }
        counts[3][tag.distinct as usize] += 1;
    }
    for (kind, [refused, accepted]) in kinds.iter().zip(counts) {
        println!("{kind:<28}{accepted:>10} accepted{refused:>10} refused");
    }
    ExitCode::SUCCESS
}
