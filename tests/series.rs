//! Series of lists to print, each tried one and all: the short lists of some bounds, and every day, second and fraction as a bound.

use crate::lists::LAST_TICK;
use crate::places::Stretch;
use crate::printed::MOST_STRETCHES;

pub const TICKS_IN_A_SECOND: i64 = 10_000;
pub const TICKS_IN_A_DAY: i64 = 864_000_000;

/// A bound: its kind and its tick.
pub type Bound = [i64; 2];

/// Bounds at ticks that follow each other, open and closed, and the unbounded one.
pub fn neighbours(first: i64, count: i64) -> Vec<Bound> {
    let mut bounds = vec![[0, 0]];
    bounds.extend((0..count).flat_map(|i| [[1, first + i], [2, first + i]]));
    bounds
}

/// An unbounded one with a tick, and two of no kind.
pub fn bad_bounds(tick: i64) -> [Bound; 3] {
    [[0, tick], [3, tick], [-1, tick]]
}

/// Bounds of every kind, and of one that is none, at the first ticks and the last ones of years and of all numbers, and beside them.
pub fn edges() -> Vec<Bound> {
    let (second_year, last_year) = (365 * TICKS_IN_A_DAY, LAST_TICK + 1 - 365 * TICKS_IN_A_DAY);
    let ticks = [
        [i64::MIN, i64::MIN + 1, -TICKS_IN_A_DAY],
        [-1, 0, 1],
        [second_year - 1, second_year, second_year + 1],
        [last_year - 1, last_year, last_year + 1],
        [LAST_TICK - 1, LAST_TICK, LAST_TICK + 1],
        [LAST_TICK + TICKS_IN_A_DAY, i64::MAX - 1, i64::MAX],
    ];
    ticks.as_flattened().iter().flat_map(|tick| (0..=3).map(move |kind| [kind, *tick])).collect()
}

/// Every list of so many stretches whose bounds are of those given.
pub fn every_list(bounds: &[Bound], count: usize, mut each: impl FnMut(&[Stretch])) {
    for number in 0..bounds.len().pow(2 * count as u32) {
        let mut rest = number;
        let mut next = || {
            let bound = bounds[rest % bounds.len()];
            rest /= bounds.len();
            bound
        };
        let stretches: Vec<Stretch> = (0..count).map(|_| [next(), next()].as_flattened().try_into().unwrap()).collect();
        each(&stretches);
    }
}

/// So many spans of time that follow each other, of so many ticks each, in lists of 32 stretches: a stretch from a span's first tick to
/// its last. Its bounds are open and closed in turn, but where both are at one tick.
pub fn every_span(first: i64, ticks: i64, count: i64, mut each: impl FnMut(&[Stretch])) {
    let span = |i: i64| {
        let low = first + i * ticks;
        let [low_kind, high_kind] = if ticks == 1 { [2, 2] } else { [1 + i % 2, 1 + i / 2 % 2] };
        [low_kind, low, high_kind, low + ticks - 1]
    };
    let all: Vec<Stretch> = (0..count).map(span).collect();
    all.chunks(MOST_STRETCHES).for_each(|stretches| each(stretches));
}

/// Some proper lists, from none to 32 stretches, with unbounded ends and without.
pub fn some_lists() -> Vec<Vec<Stretch>> {
    let noon = 638_502_480_000_000;
    let many = |kind: i64| (0..MOST_STRETCHES as i64).map(|i| [kind, noon + 2 * i, kind, noon + 2 * i + 1]).collect();
    vec![
        vec![],
        vec![[0; 4]],
        vec![[0, 0, 2, noon]],
        vec![[1, noon, 0, 0]],
        vec![[2, noon, 2, noon]],
        vec![[1, noon, 1, noon + 1]],
        vec![[2, 638_501_184_000_000, 1, noon], [1, noon, 1, 638_503_776_000_000]],
        vec![[0, 0, 1, 0], [1, 0, 2, noon], [2, LAST_TICK, 0, 0]],
        many(1),
        many(2),
    ]
}
