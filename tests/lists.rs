//! Makes lists to print: proper ones of few stretches and of many, that lie apart by one place or by years, about the first and the last
//! tick that can be written, or as far out as numbers go; and such that are improper in one way, or in several.

use crate::places::{Stretch, STRETCH_BYTES};
use crate::printed::MOST_STRETCHES;
use crate::random::Random;

/// The last tick of year 9999. The first of year 0001 is 0.
pub const LAST_TICK: i64 = 3_155_378_975_999_999;

/// A place of the line, for ticks of any size: a tick is twice its number, the gap after it is one more.
type Place = i128;

const FIRST_PLACE: Place = 0;
const LAST_PLACE: Place = 2 * LAST_TICK as Place;

/// Days that are easily lost, by the days before them: 29 February of 0004, 0400, 2000, 2024 and 9996, and 1 March 1900.
const DAYS: [i64; 6] = [1_154, 145_790, 730_178, 738_944, 3_650_657, 693_654];

/// The places of the least tick and of the greatest that a number can be.
const LEAST_PLACE: Place = 2 * i64::MIN as Place;
const GREATEST_PLACE: Place = 2 * i64::MAX as Place;

/// The bytes of a list that has these stretches.
pub fn bytes(stretches: &[Stretch]) -> Vec<u8> {
    stretches.iter().flatten().flat_map(|number| number.to_le_bytes()).collect()
}

/// A list as bytes: a proper one, in three of five times; else one that is improper in a way, and now and then in another too.
pub fn list(random: &mut Random) -> Vec<u8> {
    if random.once_in(64) {
        let numbers = random.from(0, 12);
        return (0..8 * numbers + random.below(8)).map(|_| if random.once_in(2) { 0 } else { random.byte() }).collect();
    }
    let mut ways = Vec::new();
    if random.below(5) < 2 {
        ways.push(random.below(4));
        while random.once_in(6) {
            ways.push(random.below(4));
        }
    }
    let times = |way: usize| ways.iter().filter(|one| **one == way).count();
    let count = count(random);
    let mut runs = runs(random, count);
    (0..times(0)).for_each(|_| disorder(random, &mut runs));
    let mut stretches: Vec<Stretch> = runs.into_iter().map(stretch).collect();
    open_ends(random, &mut stretches);
    (0..times(1) + times(2)).for_each(|_| spoil(random, &mut stretches));
    let mut list = bytes(&stretches);
    (0..times(3)).for_each(|_| spoil_bytes(random, &mut list));
    list
}

/// How many stretches a list has.
fn count(random: &mut Random) -> usize {
    match random.below(64) {
        0..=3 => 0,
        4..=20 => 1,
        21..=50 => random.from(2, 7),
        51..=58 => random.from(8, MOST_STRETCHES - 1),
        59..=61 => MOST_STRETCHES,
        62 => MOST_STRETCHES + 1,
        _ => random.from(MOST_STRETCHES + 1, 40),
    }
}

// ---- Proper lists --------------------------------------------------------------------------------------------------

/// A number from 0 to below `end`, of any size.
fn below(random: &mut Random, end: Place) -> Place {
    let number = u128::from(random.next()) << 64 | u128::from(random.next());
    (number % end.max(1) as u128) as Place
}

/// So many stretches by their first and last places, in order, with one place or more between one and the next.
fn runs(random: &mut Random, count: usize) -> Vec<(Place, Place)> {
    let widest = LAST_PLACE / (2 * count as Place + 2);
    let spread = random.one_of(&[1, 2, 2, 4, 20_000, 2 * 864_000_000, widest, widest]);
    let mut at = 0;
    let mut runs = Vec::new();
    for _ in 0..count {
        let last = at + below(random, spread);
        runs.push((at, last));
        at = last + 2 + below(random, spread);
    }
    let end = runs.last().map_or(0, |run| run.1);
    let start = start(random, end);
    runs.into_iter().map(|(first, last)| (start + first, start + last)).collect()
}

/// Where a list begins that ends so many places after it: inside the years, mostly; else about a midnight, or about the ends of the years
/// or of all numbers.
fn start(random: &mut Random, end: Place) -> Place {
    let little = below(random, 6);
    match random.below(32) {
        0 => FIRST_PLACE - 3 + little,
        1 => FIRST_PLACE,
        2 => LAST_PLACE + 3 - little - end,
        3 => LAST_PLACE - end,
        4 => FIRST_PLACE - below(random, end + 1),
        5 => LAST_PLACE - below(random, end + 1),
        6 => LEAST_PLACE + little,
        7 => GREATEST_PLACE - little - end,
        8 => LEAST_PLACE + below(random, GREATEST_PLACE - end - LEAST_PLACE),
        9 => 2 * 864_000_000 * Place::from(random.one_of(&DAYS)) - 3 + little,
        10 => 2 * 864_000_000 * Place::from(random.one_of(&DAYS) + 1) + 3 - little - end,
        _ => FIRST_PLACE + below(random, LAST_PLACE + 1 - end),
    }
}

/// The numbers of a stretch by its first and last places.
fn stretch((first, last): (Place, Place)) -> Stretch {
    let [low_kind, low_tick] = bound(first, first - 1);
    let [high_kind, high_tick] = bound(last, last + 1);
    [low_kind, low_tick, high_kind, high_tick]
}

/// The kind and the tick of a bound: closed at a place that is a tick, else open at the tick beside the gap.
fn bound(place: Place, beside: Place) -> [i64; 2] {
    if place % 2 == 0 { [2, (place / 2) as i64] } else { [1, (beside / 2) as i64] }
}

/// Makes the list's outer ends unbounded, now and then.
fn open_ends(random: &mut Random, stretches: &mut [Stretch]) {
    if random.once_in(5) {
        if let Some(first) = stretches.first_mut() {
            first[..2].fill(0);
        }
    }
    if random.once_in(5) {
        if let Some(last) = stretches.last_mut() {
            last[2..].fill(0);
        }
    }
}

// ---- Improper ones -------------------------------------------------------------------------------------------------

/// Puts stretches out of order, or has one begin in the one before it or just behind it.
fn disorder(random: &mut Random, runs: &mut [(Place, Place)]) {
    if runs.len() < 2 {
        return;
    }
    let i = random.from(1, runs.len() - 1);
    let before = runs[i - 1];
    match random.below(8) {
        0 | 1 => runs.swap(i - 1, i),
        2 => runs.swap(random.below(i), i),
        3 => runs[i] = before,
        4 | 5 => runs[i].0 = before.1 + 1,
        _ => runs[i].0 = before.0.max(before.1 - below(random, 3)),
    }
}

/// A kind that is none, also where a part of its bytes is taken for it.
fn bad_kind(random: &mut Random) -> i64 {
    let kind = random.below(3) as i64;
    match random.below(4) {
        0 => random.one_of(&[-1, 3, 4, 255, i64::MAX, i64::MIN]),
        1 => kind + (1 << random.from(8, 62)),
        2 => i64::MIN + kind,
        _ => random.next() as i64 | 4,
    }
}

/// Makes a kind bad, or an end unbounded that may not be so, or a stretch one with no place.
fn spoil(random: &mut Random, stretches: &mut [Stretch]) {
    let Some(last) = stretches.len().checked_sub(1) else {
        return;
    };
    let (any, side) = (random.from(0, last), random.one_of(&[0, 2]));
    match random.below(4) {
        0 => stretches[any][side] = bad_kind(random),
        1 => {
            let tick = random.next() as i64;
            let tick = random.one_of(&[1, -1, LAST_TICK, 1 << 32, i64::MIN, i64::MAX, tick]);
            let outer = if side == 0 { 0 } else { last };
            stretches[outer][side..side + 2].copy_from_slice(&[0, tick]);
        }
        2 if last > 0 => {
            let inner = random.from(1, last) - side / 2;
            stretches[inner][side..side + 2].fill(0);
        }
        _ => empty(random, &mut stretches[any]),
    }
}

/// Leaves a stretch no place: its bounds at one tick and not both closed, or its low after its high.
fn empty(random: &mut Random, stretch: &mut Stretch) {
    let tick = random.one_of(&[stretch[1], stretch[3]]);
    *stretch = match random.below(5) {
        0 => [1, tick, 1, tick],
        1 => [1, tick, 2, tick],
        2 => [2, tick, 1, tick],
        3 => [stretch[0], tick, stretch[2], tick.saturating_sub(1)],
        _ => [stretch[2], stretch[3], stretch[0], stretch[1]],
    };
}

/// Makes a list longer or shorter by less than a stretch, or changes a bit of it.
fn spoil_bytes(random: &mut Random, list: &mut Vec<u8>) {
    let few = random.from(1, STRETCH_BYTES - 1);
    match random.below(4) {
        0 => list.extend(vec![random.one_of(&[0, 1, 2, 0xFF]); few]),
        1 => list.extend((0..few).map(|_| random.byte())),
        2 => list.truncate(list.len().saturating_sub(few)),
        _ if list.is_empty() => {}
        _ => {
            let at = random.below(list.len());
            list[at] ^= 1 << random.below(8);
        }
    }
}
