//! Ticket 8's rows as they are filled: planes cut into calls. The plane that all calls leave is the Rust's of the whole plane; what one call does is a plain reading of the ticket, which must end there.

use crate::line::Line;
use crate::made::Made;
use crate::plane::{self, Case};
use crate::random::Random;
use crate::record::{self, Entry};
use crate::refusals::{self, Refusal};
use crate::rust::deblock::Counts;
use crate::{keep, replay, tiles};

/// What is known between two calls.
#[derive(Clone, Copy)]
pub struct State {
    pub held: u64,
    pub spent: bool,
}

/// A call: what the caller does before it, and what it is handed.
#[derive(Clone, Copy)]
struct Call {
    /// The picture's rows come from this one up to that one.
    rows: (u64, u64),
    /// What stands in the rows beyond: its first number, and the step from each to the next.
    rubbish: (u16, u16),
    state: State,
    filled: u64,
}

/// What is due of a call.
struct Due {
    refusal: Option<Refusal>,
    counts: Counts,
    finals: u64,
    state: State,
}

/// The plane as the caller and the calls leave it, one after the other.
struct Camera<'a> {
    c: &'a Case,
    picture: &'a [u16],
    /// The edges in the plain order: all vertical ones, rows in order, then all horizontal ones.
    edges: Vec<Entry>,
    plane: Vec<u16>,
}

/// Where a row begins, or the plane's end.
fn place(c: &Case, row: u64) -> usize {
    row.saturating_mul(c.stride).min(c.plane.len() as u64) as usize
}

/// "After A rows below the full height, every vertical edge in them is done, and every horizontal edge with y+8 <= A. At full height everything is done."
fn done(e: &Entry, filled: u64, full: u64) -> bool {
    filled == full || e.y + if e.direction == 0 { 4 } else { 8 } <= filled
}

/// "All rows but the last twelve are final (none while A is under 12). At full height everything is."
fn final_rows(filled: u64, full: u64) -> u64 {
    if filled == full { full } else { filled.saturating_sub(12) }
}

impl Camera<'_> {
    fn fill(&mut self, call: &Call) {
        let (from, to) = (place(self.c, call.rows.0), place(self.c, call.rows.1));
        self.plane[from..to].copy_from_slice(&self.picture[from..to]);
        let mut sample = call.rubbish.0;
        for place in to..self.plane.len() {
            self.plane[place] = sample;
            sample = sample.wrapping_add(call.rubbish.1);
        }
    }

    /// The edges that are done after a call and were not before.
    fn call(&mut self, call: &Call) -> Due {
        self.fill(call);
        let (held, full) = (call.state.held, 4 * self.c.cells.1);
        if let Some(r) = refusals::of_rows(self.c, &self.plane, call.state, call.filled) {
            let state = State { held, spent: call.state.spent || r.no == 8 };
            return Due { refusal: Some(r), counts: Counts::default(), finals: 0, state };
        }
        let now = self.edges.iter().filter(|e| done(e, call.filled, full) && !done(e, held, full)).copied();
        let (plane, counts) = replay::run(now, self.c.stride, self.c.depth, &self.plane, keep::of(self.c));
        self.plane = plane;
        Due { refusal: None, counts, finals: final_rows(call.filled, full), state: State { held: call.filled, spent: false } }
    }
}

/// Counts that rise to the full height: one row of cells at a time, all at once, or any; now and then none at first, one twice, the full height twice.
fn cut(random: &Random, rows: u64) -> Vec<u64> {
    let often = random.one_of(&[2, 2, 3, 8]);
    let mut counts: Vec<u64> = match random.below(6) {
        0 | 1 if rows <= 100 => (1..=rows).collect(),
        2 => vec![rows],
        _ => (0..rows).filter(|_| random.once_in(often)).take(40).chain([rows]).collect(),
    };
    if random.once_in(3) {
        let at = random.below(counts.len() as u64) as usize;
        counts.insert(at, counts[at]);
    }
    if random.once_in(3) {
        counts.push(rows);
    }
    counts.iter().map(|n| 4 * n).collect()
}

/// The calls of such counts, each handed the state that the last one answers.
fn rising(counts: &[u64]) -> Vec<Call> {
    let before = [0].iter().chain(counts);
    let call = |(&held, &filled): (&u64, &u64)| Call { rows: (held, filled), rubbish: (0, 0), state: State { held, spent: false }, filled };
    before.zip(counts).map(call).collect()
}

/// Rubbish for each call, other than the last call's: far over top, just over it, within it, or any.
fn litter(random: &Random, depth: u64, calls: &mut [Call]) {
    let top = refusals::top(depth.min(12));
    let mut last = (0, 0);
    for call in calls {
        while call.rubbish == last {
            call.rubbish = match random.below(4) {
                0 => (65535, 0),
                1 => (top as u16 + 1, 0),
                2 => (random.below(top + 1) as u16, 0),
                _ => (random.below(65536) as u16, 1 + 2 * random.below(32768) as u16),
            };
        }
        last = call.rubbish;
    }
}

/// A count or a state that refusal 14 is for, where `held` rows of `full` are held.
fn bad_counts(random: &Random, held: u64, full: u64) -> (u64, u64) {
    let beyond = random.one_of(&[full + 1, full + 4, full + 8, u32::MAX as u64 - 3, 1 << 33]);
    let odd = random.size(1, 3) as u64;
    match random.below(6) {
        0 => (held, beyond),
        1 => (held, held + odd),
        2 => (beyond, random.one_of(&[held, full, beyond])),
        3 => (held + odd, random.one_of(&[held + odd, full])),
        4 if held > 0 => (held, 4 * random.below(held / 4)),
        _ => (full, if held < full { held } else { full - 4 }),
    }
}

/// Some calls more that are refused, by 14 or for a spent state, at any place among good ones; the next good call goes on as if they had not been.
fn disturb(random: &Random, calls: &mut Vec<Call>, full: u64, spent: bool) {
    for _ in 0..random.size(1, 3) {
        let at = random.below(calls.len() as u64 + 1) as usize;
        let next = calls.get(at).copied();
        let (true_held, filled) = next.map_or((full, full), |call| (call.rows.0, call.filled));
        let (held, asked) = if spent && random.once_in(2) { (true_held, filled) } else { bad_counts(random, true_held, full) };
        let come = if random.once_in(2) { true_held } else { filled.clamp(true_held, full) };
        calls.insert(at, Call { rows: (true_held, come), rubbish: (0, 0), state: State { held, spent }, filled: asked });
    }
}

/// A sample over top among the rows of a call; all calls after it have the spent state.
fn overexpose(random: &Random, c: &Case, picture: &mut [u16], calls: &mut Vec<Call>) {
    let fresh: Vec<usize> = (0..calls.len()).filter(|&k| calls[k].rows.0 < calls[k].rows.1).collect();
    let at = random.one_of(&[fresh[0], random.one_of(&fresh), fresh[fresh.len() - 1]]);
    let call = calls[at];
    for _ in 0..random.one_of(&[1, 1, 3]) {
        let (x, y) = (random.below(4 * c.cells.0), random.size(call.rows.0 as usize, call.rows.1 as usize - 1));
        picture[y * c.stride as usize + x as usize] = random.one_of(&[refusals::top(c.depth) + 1, 65535]) as u16;
    }
    calls.push(calls[calls.len() - 1]);
    calls[at + 1..].iter_mut().for_each(|later| later.state = State { held: call.state.held, spent: true });
}

/// Settings, lists or marks that are refused by 1 to 7 at every call, whatever the count; for a spent state by 15.
fn misset(random: &Random) -> (Case, Vec<Call>) {
    let mut c = plane::case(random, true);
    while refusals::plane_settings(&c).is_none() {
        c = plane::case(random, true);
    }
    let rows = c.cells.1.clamp(1, 10);
    let mut calls = rising(&cut(random, rows));
    calls.truncate(3);
    if random.once_in(3) {
        let spent = random.once_in(2);
        disturb(random, &mut calls, 4 * rows, spent);
    }
    (c, calls)
}

pub fn make(random: &Random, refused: bool, _: Option<&[u32]>) -> Made {
    let kind = if refused { random.below(6) } else { 6 };
    if kind < 2 {
        let (c, mut calls) = misset(random);
        litter(random, c.depth, &mut calls);
        return answered(&c, &c.plane, &calls);
    }
    let c = plane::with_few_rows(random);
    let mut picture = c.plane.clone();
    let mut calls = rising(&cut(random, c.cells.1));
    match kind {
        2 => disturb(random, &mut calls, 4 * c.cells.1, false),
        3 => disturb(random, &mut calls, 4 * c.cells.1, true),
        4 | 5 => overexpose(random, &c, &mut picture, &mut calls),
        _ => (),
    }
    litter(random, c.depth, &mut calls);
    answered(&c, &picture, &calls)
}

/// A call in a line: what the caller does, what is handed over, and what is due.
fn write(line: &mut Line, c: &Case, call: &Call, due: &Due) {
    let at = |row: u64| place(c, row) as u64;
    let r = due.refusal.unwrap_or(Refusal { no: 0, place: 0 });
    line.unsigned(&[at(call.rows.0), at(call.rows.1), call.rubbish.0 as u64, call.rubbish.1 as u64])
        .unsigned(&[call.state.held, call.state.spent as u64, call.filled])
        .unsigned(&[r.no, r.place, due.counts.stored, due.counts.changed, at(due.finals), due.finals])
        .unsigned(&[due.state.held, due.state.spent as u64]);
}

/// The calls on a picture, which is the good plane but for samples over top; what they leave and count is held to the Rust's whole plane.
fn answered(c: &Case, picture: &[u16], calls: &[Call]) -> Made {
    let whole = refusals::plane_settings(c).is_none().then(|| plane::filtered(c));
    let edges = whole.as_ref().map_or(Vec::new(), |_| record::entries(&tiles::plain(c)));
    let due = whole.as_ref().map_or(&[][..], |(plane, _)| plane);
    let mut camera = Camera { c, picture, edges, plane: vec![0; picture.len()] };
    let mut line = plane::asked(&Case { plane: picture.to_vec(), ..c.clone() }, 2);
    line.list(due).unsigned(&[calls.len() as u64]);
    let (mut sum, mut first, mut most) = (Counts::default(), None, 0);
    for call in calls {
        let one = camera.call(call);
        let n = place(c, one.finals);
        assert!(camera.plane[..n] == due[..n], "rows that are called final are not the whole run's");
        write(&mut line, c, call, &one);
        sum.add(one.counts);
        first = first.or(one.refusal);
        most = one.finals.max(most);
    }
    if let Some((_, counts)) = whole.as_ref().filter(|_| most == 4 * c.cells.1) {
        assert!(sum == *counts, "the calls have other counts than the whole run");
    }
    match (first, whole) {
        (None, Some((plane, counts))) => plane::accepted(line, plane, counts, c.clone()),
        _ => plane::refused(line, first, c.clone()),
    }
}
