//! One lone segment: kind 1, answered by the Rust's width choice and its filtered plane.

use crate::line::Line;
use crate::random::Random;
use crate::refusals::{self, reach, Edge, PAIRS};
use crate::rust::deblock::{self, Counts, Span, Watched};
use crate::thresholds::DEPTHS;
use crate::{damage, made::Made};

pub struct Case {
    pub columns: u64,
    pub rows: u64,
    pub stride: u64,
    pub depth: u64,
    pub q: u64,
    pub side: u64,
    pub pair: u64,
    pub direction: u64,
    pub x: u64,
    pub y: u64,
    pub plane: Vec<u16>,
}

impl Case {
    /// The segment's edge, once pair and direction are in range.
    pub fn edge(&self) -> Edge {
        Edge { x: self.x, y: self.y, direction: self.direction, lengths: PAIRS[self.pair as usize] }
    }

    fn span(&self) -> Span {
        let lengths = PAIRS[self.pair as usize];
        let stride = self.stride as usize;
        Span {
            base: self.y as usize * stride + self.x as usize,
            perp: if self.direction == 0 { 1 } else { stride },
            line: if self.direction == 0 { stride } else { 1 },
            lengths: (lengths.0 as i64, lengths.1 as i64),
        }
    }

    fn width(&self, q: u64, side: u64) -> usize {
        deblock::width(&self.plane, &self.span(), q as i64, side as i64)
    }

    /// The Rust's plane, and its stores, seen in a second run that must leave the same plane.
    fn filtered(&self) -> (Vec<u16>, Counts) {
        let plane = deblock::segment(&self.plane, &self.span(), self.q as i64, self.side as i64, self.depth);
        let mut watched = Watched::new(&self.plane);
        watched.segment(&self.span(), self.q as i64, self.side as i64, self.depth);
        let (seen, counts) = watched.end();
        assert!(seen == plane, "the segment that was watched left another plane");
        (plane, counts)
    }
}

/// A case whose edge has room, over noise.
fn roomy(random: &Random) -> Case {
    let pair = random.below(8);
    let direction = random.below(2);
    let lengths = PAIRS[pair as usize];
    let (before, after) = (reach(lengths.0), reach(lengths.1));
    let slack = random.one_of(&[0, 0, 1, 2, 5]);
    let (start, past) = (random.below(slack + 1), random.below(slack + 1));
    let (along, across) = (start + before + after + past, start + 4 + past);
    let (columns, rows) = if direction == 0 { (along, across) } else { (across, along) };
    let (x, y) = if direction == 0 { (start + before, start) } else { (start, start + before) };
    let mut c = Case {
        columns,
        rows,
        stride: columns + random.one_of(&[0, 0, 1, 3, 7]),
        depth: random.one_of(&DEPTHS),
        q: 0,
        side: 0,
        pair,
        direction,
        x,
        y,
        plane: Vec::new(),
    };
    at_the_ends(random, &mut c);
    let spare = random.one_of(&[0, 0, 0, 1, 9]);
    let limit = refusals::top(c.depth) + 1;
    c.plane = random.list((c.stride * c.rows) as usize + spare, limit).iter().map(|&s| s as u16).collect();
    c
}

/// Now and then the largest sizes.
fn at_the_ends(random: &Random, c: &mut Case) {
    if !random.once_in(400) {
        return;
    }
    match random.below(3) {
        0 => c.stride = 8192,
        1 => {
            c.x += 4096 - c.columns;
            c.columns = 4096;
            c.stride = 4096;
        }
        _ => {
            c.y += 4096 - c.rows;
            c.rows = 4096;
        }
    }
}

/// What stands across an edge: levels on both sides, slopes, noise, and one sample out of line.
struct Pattern {
    levels: (i64, i64),
    slopes: (i64, i64),
    noise: i64,
    odd: Option<(bool, u64, i64)>,
}

/// One level on both sides: nothing changes, whatever is stored.
fn even(random: &Random, top: i64) -> Pattern {
    let level = random.one_of(&[0, top / 2, top, random.within(0, top)]);
    Pattern { levels: (level, level), slopes: (0, 0), noise: 0, odd: None }
}

/// Both sides at one end of the range or at both, with a sample inside it that moves others beyond.
fn at_an_end(random: &Random, top: i64, unit: i64) -> Pattern {
    let (end, other) = (random.one_of(&[0, top]), random.one_of(&[0, top]));
    let by = random.within(1, 6 * unit);
    let odd = (random.once_in(2), random.below(2), if end == 0 { by } else { -by });
    Pattern { levels: (end, if random.once_in(4) { other } else { end }), slopes: (0, 0), noise: 0, odd: Some(odd) }
}

fn pattern(random: &Random, depth: u64) -> Pattern {
    let top = refusals::top(depth) as i64;
    let unit = 1 << (depth - 8);
    match random.below(12) {
        0 => return even(random, top),
        1 => return at_an_end(random, top, unit),
        _ => (),
    }
    let level = random.one_of(&[0, unit, top / 2, top - unit, top, random.within(0, top)]);
    let step = random.one_of(&[0, 1, -1, unit, -unit, random.within(-24 * unit, 24 * unit), random.within(-top, top)]);
    let slope = random.one_of(&[0, 0, 0, 1, -1, unit, random.within(-4 * unit, 4 * unit)]);
    let far = random.one_of(&[slope, slope, -slope, 0, random.within(-3, 3)]);
    let odd = (random.below(2) == 0, random.below(9), random.within(-8 * unit, 8 * unit));
    Pattern {
        levels: (level, level + step),
        slopes: (slope, far),
        noise: random.one_of(&[0, 0, 0, 1, 2, unit, 4 * unit]),
        odd: if random.once_in(3) { Some(odd) } else { None },
    }
}

/// Draws a pattern on the four lines.
fn draw(random: &Random, c: &mut Case, p: &Pattern) {
    let top = refusals::top(c.depth) as i64;
    let lengths = PAIRS[c.pair as usize];
    let span = c.span();
    for line in 0..4 {
        for after in [false, true] {
            let (level, slope, most) =
                if after { (p.levels.1, p.slopes.1, reach(lengths.1)) } else { (p.levels.0, -p.slopes.0, reach(lengths.0)) };
            for k in 0..most {
                let odd = p.odd.map_or(0, |(side, at, by)| if side == after && at == k { by } else { 0 });
                let value = level + slope * k as i64 + odd + random.within(-p.noise, p.noise);
                let across = if after { k as i64 } else { -(k as i64) - 1 };
                let place = span.base as i64 + (line * span.line) as i64 + across * span.perp as i64;
                c.plane[place as usize] = value.clamp(0, top) as u16;
            }
        }
    }
}

/// Two neighbouring thresholds in 0..=high between which the width reaches `wanted`, if there are any.
fn change(high: u64, wanted: usize, width: impl Fn(u64) -> usize) -> Option<(u64, u64)> {
    let (mut low, mut high) = (0, high);
    if width(low) >= wanted || width(high) < wanted {
        return None;
    }
    while high - low > 1 {
        let middle = (low + high) / 2;
        if width(middle) < wanted {
            low = middle;
        } else {
            high = middle;
        }
    }
    Some((low, high))
}

/// Thresholds at the ends, at random, or where the choice changes by one of them.
fn thresholds(random: &Random, c: &mut Case) {
    let unit = 1 << (c.depth - 8);
    c.q = random.one_of(&[0, 1, 2048, random.below(24 * unit), random.below(120), random.below(2049)]);
    c.side = random.one_of(&[0, 1, 839, random.below(52 * unit), random.below(840), random.below(840)]);
    let wanted = random.one_of(&[1, 2, 3, 4, 6, 8]);
    if random.once_in(3) {
        c.q = c.q.max(1);
        if let Some((under, over)) = change(839, wanted, |side| c.width(c.q, side)) {
            c.side = random.one_of(&[under, over]);
        }
    } else if random.once_in(2) {
        c.side = c.side.max(1);
        if let Some((under, over)) = change(2048, wanted, |q| c.width(q, c.side)) {
            c.q = random.one_of(&[under, over]);
        }
    }
}

/// Samples that the segment never looks at may be above top.
fn wild_outside(random: &Random, c: &mut Case) {
    let seen: Vec<u64> = refusals::segment_places(&c.edge(), c.stride).collect();
    for place in 0..c.plane.len() {
        if !seen.contains(&(place as u64)) && random.once_in(3) {
            c.plane[place] = random.one_of(&[refusals::top(c.depth) as u16 + 1, 65535]);
        }
    }
}

fn damaged(random: &Random, c: &mut Case) {
    let edge = c.edge();
    let (before, after) = (reach(edge.lengths.0), reach(edge.lengths.1));
    let places: Vec<u64> = refusals::segment_places(&edge, c.stride).collect();
    for _ in 0..random.one_of(&[1, 1, 2, 3]) {
        match random.below(14) {
            0 => c.depth = damage::depth(random),
            1 => c.columns = damage::count(random, 4096),
            2 => c.rows = damage::count(random, 4096),
            3 => c.stride = damage::stride(random, c.columns),
            4 => damage::shorten(random, &mut c.plane, c.stride.saturating_mul(c.rows)),
            5 => c.q = damage::above(random, 2048),
            6 => c.side = damage::above(random, 839),
            7 => c.pair = damage::above(random, 7),
            8 => c.direction = damage::above(random, 1),
            9 | 10 if edge.direction == 0 => c.x = random.one_of(&[0, before - 1, c.columns.saturating_sub(after - 1), 65535]).min(65535),
            9 | 10 => c.y = random.one_of(&[0, before - 1, c.rows.saturating_sub(after - 1), 65535]).min(65535),
            11 if edge.direction == 0 => c.y = random.one_of(&[c.rows.saturating_sub(3), c.rows, 65535]).min(65535),
            11 => c.x = random.one_of(&[c.columns.saturating_sub(3), c.columns, 65535]).min(65535),
            _ => {
                for _ in 0..random.size(1, 3) {
                    let at = random.one_of(&places) as usize;
                    if at < c.plane.len() {
                        c.plane[at] = random.one_of(&[4096, 65535, 1 << c.depth.min(15)]);
                    }
                }
            }
        }
    }
}

pub fn make(random: &Random, refused: bool, _: Option<&[u32]>) -> Made {
    let mut c = roomy(random);
    if !random.once_in(12) {
        let p = pattern(random, c.depth);
        draw(random, &mut c, &p);
    }
    thresholds(random, &mut c);
    if random.once_in(8) && c.plane.len() < 1000 {
        wild_outside(random, &mut c);
    }
    if refused {
        damaged(random, &mut c);
    }
    answered(c)
}

/// Steps of their own across the edge on lines 1 and 2, which don't decide the width, so that D meets its limit there at any width.
fn step_inside(random: &Random, c: &mut Case) {
    let top = refusals::top(c.depth);
    let span = c.span();
    for line in [1, 2] {
        let q0 = span.base + line * span.line;
        for place in [q0 - span.perp, q0] {
            c.plane[place] = random.one_of(&[0, top, random.below(top + 1)]) as u16;
        }
    }
}

/// As `make`, with D at its limit on two lines of most cases.
pub fn make_limits(random: &Random, refused: bool, _: Option<&[u32]>) -> Made {
    let mut c = roomy(random);
    let p = pattern(random, c.depth);
    draw(random, &mut c, &p);
    thresholds(random, &mut c);
    step_inside(random, &mut c);
    if refused {
        damaged(random, &mut c);
    }
    answered(c)
}

/// The window of the C side: four rows of eighteen samples, with a vertical edge between columns 8 and 9.
fn window(random: &Random) -> Case {
    let mut c = roomy(random);
    (c.columns, c.rows, c.stride, c.direction, c.x, c.y) = (18, 4, 18, 0, 9, 0);
    c.plane = random.list(72, refusals::top(c.depth) + 1).iter().map(|&s| s as u16).collect();
    c
}

/// A fault that a window can have.
fn damaged_window(random: &Random, c: &mut Case) {
    let places: Vec<u64> = refusals::segment_places(&c.edge(), c.stride).collect();
    for _ in 0..random.one_of(&[1, 1, 2, 3]) {
        match random.below(6) {
            0 => c.depth = damage::depth(random),
            1 => c.q = damage::above(random, 2048),
            2 => c.side = damage::above(random, 839),
            3 => c.pair = damage::above(random, 7),
            _ => c.plane[random.one_of(&places) as usize] = random.one_of(&[4096, 65535, 1 << c.depth.min(15)]),
        }
    }
}

/// As `make`, on windows of the C side; on every third D meets its limit on two lines.
pub fn make_window(random: &Random, refused: bool, _: Option<&[u32]>) -> Made {
    let mut c = window(random);
    if !random.once_in(12) {
        let p = pattern(random, c.depth);
        draw(random, &mut c, &p);
    }
    thresholds(random, &mut c);
    if random.once_in(3) {
        step_inside(random, &mut c);
    }
    if random.once_in(8) {
        wild_outside(random, &mut c);
    }
    if refused {
        damaged_window(random, &mut c);
    }
    answered(c)
}

fn answered(c: Case) -> Made {
    let refusal = refusals::of_segment(&c);
    let mut line = Line::new(1);
    line.unsigned(&[c.columns, c.rows, c.stride, c.depth, c.q, c.side, c.pair, c.direction, c.x, c.y]).list(&c.plane);
    if let Some(r) = refusal {
        line.unsigned(&[r.no, r.place, 0, 0]);
        return Made { line, refusal, ..Made::default() };
    }
    let width = c.width(c.q, c.side);
    let (plane, counts) = c.filtered();
    let before = width.min(PAIRS[c.pair as usize].0 as usize / 2 - 1);
    assert!(counts.stored == 4 * (before + width) as u64, "the Rust stored {} samples at width {width}", counts.stored);
    line.unsigned(&[0, width as u64, counts.stored, counts.changed]).entries(&plane);
    Made { line, refusal, width: Some(width), changed: plane != c.plane, counts: Some(counts), ..Made::default() }
}
