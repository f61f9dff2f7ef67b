//! Numbers outside document 01's ranges, each just outside or far outside.

use crate::random::Random;

const FAR: u64 = u32::MAX as u64;

pub fn depth(random: &Random) -> u64 {
    random.one_of(&[0, 1, 7, 9, 11, 13, 14, 16, 32, 64, FAR])
}

/// A count just above `high`, or 0, or far above.
pub fn count(random: &Random, high: u64) -> u64 {
    random.one_of(&[0, high + 1, FAR])
}

/// A number just above `high`, or far above.
pub fn above(random: &Random, high: u64) -> u64 {
    random.one_of(&[high + 1, high + 2, FAR])
}

/// A signed number outside `low..=high`.
pub fn signed(random: &Random, low: i64, high: i64) -> i64 {
    random.one_of(&[low - 1, high + 1, i32::MIN as i64, i32::MAX as i64])
}

pub fn delta(random: &Random) -> i64 {
    signed(random, -128, 127)
}

pub fn stride(random: &Random, least: u64) -> u64 {
    random.one_of(&[0, least.saturating_sub(1), 8193, FAR])
}

pub fn subsampling(random: &Random) -> (u64, u64) {
    random.one_of(&[(0, 1), (2, 0), (0, 2), (1, 2), (2, 1), (2, 2), (FAR, 0), (1, FAR), (FAR, FAR)])
}

pub fn cap(random: &Random) -> u64 {
    random.one_of(&[0, 3, 5, 6, 7, 9, 12, 15, 17, 32, 64, 4096, FAR])
}

/// Leaves out the end of a list of which `needed` entries are used.
pub fn shorten<T>(random: &Random, list: &mut Vec<T>, needed: u64) {
    let keep = random.one_of(&[needed.saturating_sub(1), needed / 2, 0]);
    list.truncate(keep as usize);
}

/// A step table with one to three faults; none of them mends the length that another spoiled.
pub fn steps(random: &Random, steps: &mut Vec<u32>) {
    let good = steps.len();
    for _ in 0..random.size(1, 3) {
        match random.below(6) {
            0 => steps.truncate(random.one_of(&[0, 1, 255, 351])),
            1 => steps.resize(steps.len() + 1 + (steps.len() + 1 == good) as usize, 64),
            2 if !steps.is_empty() => steps[0] = random.one_of(&[0, 63, 65, u32::MAX]),
            _ if !steps.is_empty() => {
                let at = random.below(steps.len() as u64) as usize;
                steps[at] = random.one_of(&[1_048_577, u32::MAX]);
            }
            _ => (),
        }
    }
}

/// Tile starts with a fault: 0, the number of columns or more, one twice, or two that fall.
pub fn starts(random: &Random, starts: &mut Vec<u16>, cols: u64) {
    let n = starts.len();
    let at = random.below(n.max(1) as u64) as usize;
    match random.below(4) {
        0 if n > 0 => starts.insert(at, starts[at]),
        1 if n > 1 => starts.swap(at, (at + 1) % n),
        2 => starts.push(random.one_of(&[cols, cols + 1, 65535]).min(65535) as u16),
        _ => starts.insert(0, 0),
    }
}

/// Keep marks with a fault: some that are neither 0 nor 1 at places below `n`.
pub fn keep(random: &Random, marks: &mut [u8], n: u64) {
    for _ in 0..random.size(1, 3) {
        let at = random.below(n.max(1)) as usize;
        if at < marks.len() {
            marks[at] = random.one_of(&[2, 3, 128, 255]);
        }
    }
}

/// Some samples above top, at places below `limit`.
pub fn samples(random: &Random, plane: &mut [u16], limit: usize, top: u64) {
    for _ in 0..random.size(1, 3) {
        let at = random.below(limit.max(1) as u64) as usize;
        if at < plane.len() {
            plane[at] = random.one_of(&[top + 1, 65535]) as u16;
        }
    }
}
