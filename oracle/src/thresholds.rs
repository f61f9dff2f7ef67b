//! Thresholds of two blocks: kind 2 answered by the Rust on its own step table, kind 3 by document 01's words on any table.

use crate::line::Line;
use crate::random::Random;
use crate::{damage, refusals, rust, made::Made};

pub struct Case {
    pub curr: u64,
    pub prev: u64,
    pub delta_q: i64,
    pub delta_side: i64,
    pub depth: u64,
    pub steps: Vec<u32>,
}

pub const DEPTHS: [u64; 3] = [8, 10, 12];

const QINDICES: [u64; 24] =
    [0, 1, 2, 24, 25, 48, 49, 56, 57, 78, 79, 254, 255, 256, 302, 303, 304, 350, 351, 352, 391, 392, 1024, 65535];

fn qindex(random: &Random) -> u64 {
    match random.below(4) {
        0 => random.one_of(&QINDICES),
        1 => random.below(65536),
        _ => random.below(400),
    }
}

pub fn delta(random: &Random) -> i64 {
    match random.below(4) {
        0 => random.one_of(&[-128, -127, -1, 0, 1, 126, 127]),
        1 => random.within(-128, 127),
        _ => random.within(-12, 12),
    }
}

/// A table that document 01 takes: any entries up to the limit, most of them where q changes.
fn good_table(random: &Random) -> Vec<u32> {
    let limit = random.one_of(&[1, 600, 5_000, 61_440, 1_048_576]);
    let mut steps: Vec<u32> = (0..352).map(|_| random.below(limit + 1) as u32).collect();
    for step in steps.iter_mut() {
        if random.once_in(2) {
            let change = 512 * random.below(limit / 512 + 1) as u32;
            *step = (change + random.one_of(&[0, 1])).saturating_sub(5).min(1_048_576);
        }
        if random.once_in(8) {
            *step = 1_048_576;
        }
    }
    steps[0] = 64;
    steps
}

fn table(random: &Random, refused: bool) -> Vec<u32> {
    let mut steps = if random.once_in(2) { rust::quant::steps() } else { good_table(random) };
    if refused && random.once_in(2) {
        damage::steps(random, &mut steps);
    }
    steps
}

/// An index limited to 1..highest, or 64 at 0, read as document 01 says it.
fn step(c: &Case, i: i64) -> i64 {
    let highest = [255, 303, 351][(c.depth / 2 - 4) as usize];
    if i == 0 {
        64
    } else {
        c.steps[i.clamp(1, highest) as usize] as i64
    }
}

fn together(a: i64, b: i64) -> i64 {
    if a != 0 && b != 0 {
        (a + b + 1) / 2
    } else {
        a.max(b)
    }
}

/// q by document 01's words; side never looks at the table, so it is the Rust's.
fn plain(c: &Case) -> (i64, i64) {
    let q = |qindex: u64| ((step(c, qindex as i64 + 8 * c.delta_q) + 4) / 8) / 64;
    (together(q(c.curr), q(c.prev)), by_rust(c).1)
}

fn by_rust(c: &Case) -> (i64, i64) {
    rust::deblock::thresholds(c.curr as i64, c.prev as i64, c.delta_q, c.delta_side, c.depth)
}

fn damaged(random: &Random, c: &mut Case) {
    for _ in 0..random.size(1, 2) {
        match random.below(3) {
            0 => c.depth = damage::depth(random),
            1 => c.delta_q = damage::delta(random),
            _ => c.delta_side = damage::delta(random),
        }
    }
}

pub fn make(random: &Random, refused: bool, last: Option<&[u32]>) -> Made {
    let steps = match last {
        Some(steps) if !random.once_in(200) => steps.to_vec(),
        _ => table(random, refused || random.once_in(3)),
    };
    let mut c = Case {
        curr: qindex(random),
        prev: qindex(random),
        delta_q: delta(random),
        delta_side: delta(random),
        depth: random.one_of(&DEPTHS),
        steps,
    };
    if random.once_in(4) {
        c.prev = c.curr;
    }
    if refused {
        damaged(random, &mut c);
    }
    answered(c)
}

fn answered(c: Case) -> Made {
    let refusal = refusals::of_thresholds(&c);
    let rust_table = c.steps == rust::quant::steps();
    let (no, a, b) = match refusal {
        Some(r) => (r.no, r.place as i64, 0),
        None => {
            let (q, side) = if rust_table { by_rust(&c) } else { plain(&c) };
            assert!(!rust_table || plain(&c) == (q, side), "document 01's words and the Rust differ");
            (0, q, side)
        }
    };
    let mut line = Line::new(if rust_table { 2 } else { 3 });
    line.unsigned(&[c.curr, c.prev]).signed(&[c.delta_q, c.delta_side]).unsigned(&[c.depth, no]).signed(&[a, b]);
    Made { line, refusal, steps: Some(c.steps), ..Made::default() }
}
