//! What a coder's pictures look like: block tilings, qindex entries, samples with steps between blocks, and bins on a scale.

use crate::random::Random;
use crate::refusals;

/// Leaves of a random partition of a picture of that many luma cells, four numbers a leaf.
pub fn tiling(random: &Random, columns: u64, rows: u64) -> Vec<u32> {
    let mut leaves = Vec::new();
    for row in (0..rows).step_by(16) {
        for column in (0..columns).step_by(16) {
            split(random, &mut leaves, (row, column), (16, 16), (columns, rows));
        }
    }
    leaves
}

/// Splits one block in quarters, halves or four strips, or keeps it.
fn split(random: &Random, leaves: &mut Vec<u32>, at: (u64, u64), size: (u64, u64), cells: (u64, u64)) {
    if at.0 >= cells.1 || at.1 >= cells.0 {
        return;
    }
    let (w, h) = size;
    let (across, down) = match random.below(8) {
        0 | 1 => (2, 2),
        2 => (2, 1),
        3 => (1, 2),
        4 => (4, 1),
        5 => (1, 4),
        _ => (1, 1),
    };
    if (across, down) == (1, 1) || w < across || h < down {
        let whole = if random.once_in(12) { 4096 } else { 0 };
        leaves.extend([at.0 as u32, at.1 as u32, w as u32 | whole, h as u32]);
        return;
    }
    let (w, h) = (w / across, h / down);
    for r in 0..down {
        for c in 0..across {
            split(random, leaves, (at.0 + r * h, at.1 + c * w), (w, h), cells);
        }
    }
}

/// A leaf anywhere, of any good size, near the cells given.
pub fn stray_leaf(random: &Random, columns: u64, rows: u64) -> [u32; 4] {
    let near = |random: &Random, n: u64| if random.once_in(10) { random.below(1024) } else { random.below(n.min(1000) + 2) };
    let size = |random: &Random| 1u32 << random.below(7);
    let flag = |random: &Random| if random.once_in(5) { 4096 } else { 0 };
    let (row, column) = (near(random, rows), near(random, columns));
    [row as u32, column as u32, size(random) | flag(random), size(random) | flag(random)]
}

/// A leaf with one bad number.
pub fn bad_leaf(random: &Random) -> [u32; 4] {
    let mut leaf = [random.below(1024) as u32, random.below(1024) as u32, 1 << random.below(7), 1 << random.below(7)];
    let far = random.one_of(&[1024, u32::MAX]);
    let size = random.one_of(&[0, 3, 5, 12, 63, 65, 128, 2048, 4096, 4099, 8192, 4224, u32::MAX]);
    let at = random.below(4) as usize;
    leaf[at] = if at < 2 { far } else { size };
    leaf
}

/// Qindex entries: alike in runs, most of them where thresholds are not 0.
pub fn qindices(random: &Random, n: usize) -> Vec<u16> {
    let mut list = Vec::with_capacity(n);
    let mut now = qindex(random);
    for _ in 0..n {
        if random.once_in(6) {
            now = qindex(random);
        }
        list.push(now);
    }
    list
}

fn qindex(random: &Random) -> u16 {
    match random.below(8) {
        0 => random.below(65536) as u16,
        1 => random.below(352) as u16,
        _ => random.size(110, 300) as u16,
    }
}

/// A plane of blocks: each its own level and slope, with a little noise.
pub fn samples(random: &Random, stride: usize, rows: usize, depth: u64, spare: usize) -> Vec<u16> {
    let top = refusals::top(depth) as i64;
    let unit = 1i64 << (depth - 8);
    let kind = random.below(10);
    let block = random.one_of(&[4, 8, 16, 32]);
    let middle = random.one_of(&[0, top / 2, top, random.below(top as u64) as i64]);
    let spread = unit * random.one_of(&[2, 6, 12, 30]);
    let noise = random.one_of(&[0, 0, 1, unit]);
    let across = stride.div_ceil(block);
    let levels: Vec<i64> = (0..across * rows.div_ceil(block)).map(|_| middle + random.within(-spread, spread)).collect();
    let slope = random.within(-2, 2);
    let mut plane = Vec::with_capacity(stride * rows + spare);
    for i in 0..stride * rows + spare {
        let (y, x) = (i / stride, i % stride);
        let value = match kind {
            0 => random.within(0, top),
            1 => random.one_of(&[0, top]),
            2 => middle,
            _ if y >= rows => random.within(0, top),
            _ => levels[y / block * across + x / block] + slope * (x % block) as i64 + random.within(-noise, noise),
        };
        plane.push(value.clamp(0, top) as u16);
    }
    plane
}

/// A plane that filtering leaves as it is though every edge stores: one level, or cells that are a step of 1 apart. The list has `n` samples in rows of `stride`.
pub fn still(random: &Random, stride: usize, n: usize, depth: u64, step: u16) -> Vec<u16> {
    let top = refusals::top(depth) as u16;
    let level = random.one_of(&[0, 1, top / 2, top - 1, random.below(top as u64) as u16]);
    (0..n).map(|i| level + step * (((i / stride) / 4 + (i % stride) / 4) % 2) as u16).collect()
}

/// Blocks at the ends of the range: each at 0 or top or a little inside, level or leaning, so that what an edge would store often lies beyond the range.
pub fn saturated(random: &Random, stride: usize, n: usize, depth: u64) -> Vec<u16> {
    let top = refusals::top(depth) as i64;
    let unit = 1i64 << (depth - 8);
    let block = random.one_of(&[4, 8, 16]);
    let across = stride.div_ceil(block);
    let (end, both) = (random.once_in(2), random.once_in(3));
    let blocks: Vec<(bool, i64, i64)> = (0..across * n.div_ceil(stride).div_ceil(block))
        .map(|_| (end != (both && random.once_in(3)), random.one_of(&[0, 0, 1, unit, 3 * unit]), random.within(-1, 1)))
        .collect();
    let sample = |i: usize| {
        let (y, x) = (i / stride, i % stride);
        let (high, inside, lean) = blocks[y / block * across + x / block];
        let from_end = (inside + lean * (x % block + y % block) as i64).clamp(0, top);
        if high { top - from_end } else { from_end }
    };
    (0..n).map(|i| sample(i) as u16).collect()
}

/// Even blocks of `block` samples each way with small steps between them: an edge there filters as far as its lengths let it.
pub fn even(random: &Random, stride: usize, n: usize, depth: u64, block: usize) -> Vec<u16> {
    let top = refusals::top(depth) as i64;
    let across = stride.div_ceil(block);
    let (middle, step) = (random.within(40, top - 40), random.one_of(&[1, 1, 3, 1 << (depth - 8)]));
    let levels: Vec<i64> = (0..across * n.div_ceil(stride).div_ceil(block)).map(|_| (middle + step * random.within(-3, 3)).clamp(0, top)).collect();
    (0..n).map(|i| levels[i / stride / block * across + i % stride / block] as u16).collect()
}

/// A qindex at which both thresholds are on, at every depth and without deltas.
pub fn lit(random: &Random) -> u16 {
    random.size(170, 250) as u16
}

/// A bin on the scale as a coder leaves it: light that falls off over the picture, round fruit, each block at a coarse level of its own, and
/// over these a bright tag with thin dark bars. The list has `n` samples in rows of `stride`.
pub fn bin(random: &Random, stride: usize, n: usize, depth: u64) -> Vec<u16> {
    let top = refusals::top(depth) as i64;
    let unit = 1i64 << (depth - 8);
    let rows = n.div_ceil(stride);
    let fall = (random.within(-3, 3), random.within(-3, 3));
    let (fruit, block, coarse) = (random.one_of(&[12, 20, 28]), random.one_of(&[4, 8, 16]), unit * random.one_of(&[1, 4, 8]));
    let tag = (random.below(stride as u64) as usize, random.below(rows as u64) as usize, random.size(8, 60), random.size(6, 30));
    let (bar, gap) = (random.size(1, 3), random.size(1, 4));
    let light = |y: usize, x: usize| unit * (110 + (fall.0 * x as i64 + fall.1 * y as i64) / 4);
    let skin = |y: usize, x: usize| {
        let (dx, dy): (i64, i64) = ((x % fruit) as i64 - fruit as i64 / 2, (y % fruit) as i64 - fruit as i64 / 2);
        unit * ((fruit * fruit / 4) as i64 - dx * dx - dy * dy).max(0) / 4
    };
    let level = |y: usize, x: usize| (light(y, x) + skin(y, x)) / coarse * coarse;
    let on_tag = |y: usize, x: usize| x >= tag.0 && x < tag.0 + tag.2 && y >= tag.1 && y < tag.1 + tag.3;
    let sample = |i: usize| {
        let (y, x) = (i / stride, i % stride);
        match on_tag(y, x) {
            true if (x - tag.0) % (bar + gap) < bar => unit * 20,
            true => unit * 235,
            false => level(y / block * block, x / block * block) + random.within(0, 1),
        }
    };
    (0..n).map(|i| sample(i).clamp(0, top) as u16).collect()
}

/// Some entries more than needed, now and then.
pub fn spare(random: &Random) -> usize {
    random.one_of(&[0, 0, 0, 1, 5])
}
