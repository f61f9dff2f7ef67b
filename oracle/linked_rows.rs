//! `bihargesh_rows` beside the published Rust: the planes of `bihargesh_plane`, each sent in calls.
//!
//! What a call is due is a reading of ticket 8, apart from the proved code. A plane that the whole run accepts must end as that leaves it, with its counts as the sums of the calls';
//! the rows that an answer calls final are held to the whole run's after each call. One plane in four is held to the Rust after every call, counts too: the edges that are due by then are
//! the only ones marked. Rows that are not filled hold other numbers at each call, above top too, and must stay.

use crate::plane::{self, Case};
use crate::random::Random;
use crate::rust::deblock::Marks;
use crate::{made::Made, places, raw, refusals, same, settings, Compared, Due, Numbers, PlaneCase};
use std::sync::atomic::{AtomicU64, Ordering::Relaxed};

/// How many calls were due each number, 0 being an accepted one; and how many of those were held to the Rust.
static CALLS: [AtomicU64; 16] = [const { AtomicU64::new(0) }; 16];
static HELD: AtomicU64 = AtomicU64::new(0);

/// The same in words, where there were calls.
pub fn calls() -> Option<String> {
    let counts: Vec<u64> = CALLS.iter().map(|count| count.load(Relaxed)).collect();
    let refused: String = (1..16).filter(|&no| counts[no] > 0).map(|no| format!(", by {no}: {}", counts[no])).collect();
    let said = format!("{} calls accepted ({} held to the Rust at once){refused}", counts[0], HELD.load(Relaxed));
    (counts.iter().sum::<u64>() > 0).then_some(said)
}

/// A plane whose rows are sent.
struct Sent<'a> {
    random: &'a Random,
    case: PlaneCase,
    /// What its settings, grid and room are due by 1 to 7: 0 or a refusal.
    fixed: Due,
    /// How many entries each lent list of counts has.
    counted: usize,
}

impl Sent<'_> {
    fn cols(&self) -> usize {
        self.case.all[0] as usize
    }

    fn height(&self) -> usize {
        4 * self.case.all[1] as usize
    }

    fn stride(&self) -> usize {
        self.case.all[2] as usize
    }

    fn top(&self) -> u16 {
        refusals::top(self.case.all[8] as u64) as u16
    }

    /// What a call is due with these settings: "order 15, then 1 to 7 as in 01, 14, 8"; a state that can't be read is refused by 3 before.
    fn due(&self, by_settings: Due, state: &[usize], filled: usize, plane: &[u16]) -> Due {
        let bad_count = |n: usize| n > self.height() || n % 4 != 0;
        match state {
            [] | [_] => Due::refused(3),
            [_, spent, ..] if *spent != 0 => Due::refused(15),
            _ if by_settings.no != 0 => by_settings,
            [held, ..] if bad_count(*held) || bad_count(filled) || filled < *held => Due::refused(14),
            [held, ..] => {
                let mut new = (*held..filled).flat_map(|row| (0..self.cols()).flat_map(move |cell| (0..4).map(move |k| (row, 4 * cell + k))));
                let bad = new.find(|&(row, column)| plane[row * self.stride() + column] > self.top());
                bad.map_or(Due::refused(0), |(row, column)| Due { place: row * self.stride() + column, ..Due::refused(8) })
            }
        }
    }

    /// "all rows but the last twelve are final (none while A is under 12). At full height everything is done and final."
    fn last(&self, filled: usize) -> usize {
        if filled == self.height() { filled } else { filled.saturating_sub(12) }
    }

    /// One call, held to what it is due in all but an accepted one's plane and counts, which are left to the caller.
    fn call(&self, list: &[i32], due: Due, filled: usize, state: &mut Vec<usize>, plane: &mut [u16]) -> Result<Vec<usize>, String> {
        let PlaneCase { grid, qindex, tiles, keep, steps, .. } = &self.case;
        let (mut place, place_after) = places(self.random, due);
        let mut counts = vec![usize::MAX; self.counted];
        let lent = (grid.clone(), qindex.clone(), tiles.clone(), keep.clone(), steps.clone(), list.to_vec());
        let (before, mut state_after) = (plane.to_vec(), state.clone());
        let [v, h, w, t] = grid;
        // SAFETY: every pointer is that of a live list, beside its length.
        let answer = unsafe {
            raw::bihargesh_rows(
                plane.as_mut_ptr(), plane.len(), v.as_ptr(), v.len(), h.as_ptr(), h.len(), w.as_ptr(), w.len(), t.as_ptr(), t.len(),
                qindex.as_ptr(), qindex.len(), tiles.as_ptr(), tiles.len(), keep.as_ptr(), keep.len(), steps.as_ptr(), steps.len(),
                list.as_ptr(), list.len(), filled, state.as_mut_ptr(), state.len(), place.as_mut_ptr(), place.len(), counts.as_mut_ptr(), counts.len(),
            )
        };
        CALLS[due.no as usize].fetch_add(1, Relaxed);
        match due.no {
            0 => state_after[0] = filled,
            8 => state_after[1] = 1,
            _ => (),
        }
        let what = |what: &str| format!("{what} of a call with {filled} rows filled, due {},", due.no);
        same(&what("the answer"), answer, if due.no == 0 { self.last(filled) as i32 } else { -due.no })?;
        same(&what("the place"), place, place_after)?;
        same(&what("the state"), &*state, &state_after)?;
        same(&what("a list for reading"), (grid.clone(), qindex.clone(), tiles.clone(), keep.clone(), steps.clone(), list.to_vec()), lent)?;
        same(&what("a third count"), counts.get(2), (self.counted > 2).then_some(&usize::MAX))?;
        counts.truncate(2);
        if due.no != 0 {
            same(&what("the plane"), plane.to_vec(), before)?;
            same(&what("the counts"), &counts, &vec![0; counts.len()])?;
        }
        Ok(counts)
    }

    /// A call with a state, settings or a count that may be bad; it is made only where a refusal other than 8 is due, which leaves all.
    fn stray(&self, held: usize, plane: &mut [u16]) -> Result<(), String> {
        let random = self.random;
        let odd = [1, 2, 3, held + 1, held + 2, held.wrapping_sub(1), usize::MAX, usize::MAX - 3, 1 << 63, 1 << 32];
        let (list, by_settings) = settings(random, self.case.all.clone(), self.fixed, &[7]);
        let mut filled = if random.once_in(2) { held } else { held + 4 };
        let mut state = vec![held, 0];
        match random.below(8) {
            0 => state.truncate(random.size(0, 1)),
            1 => state[1] = random.one_of(&[1, 1, 2, 7, 256, 1 << 32, 1 << 63, usize::MAX]),
            2 => state[0] = random.one_of(&odd),
            3 => state[0] = filled + random.one_of(&[4, 8, 4096, 1 << 33]),
            4 => filled = random.one_of(&odd),
            5 => filled = held.wrapping_sub(random.one_of(&[4, 8])),
            6 => filled = 4 * random.size(0, 1100),
            _ => (),
        }
        if random.once_in(4) {
            state.extend([7, usize::MAX]);
        }
        let due = self.due(by_settings, &state, filled, plane);
        if ![0, 8].contains(&due.no) {
            self.call(&list, due, filled, &mut state, plane)?;
        }
        Ok(())
    }

    /// A call that is told of no new row: it does nothing, and a filled sample that is above top by now is not tested, since "only newly filled rows are tested for refusal 8".
    fn idle(&self, held: usize, state: &mut Vec<usize>, plane: &mut [u16]) -> Result<(), String> {
        let place = self.random.size(0, held - 1) * self.stride() + self.random.size(0, 4 * self.cols() - 1);
        let sample = std::mem::replace(&mut plane[place], 65535);
        let before = plane.to_vec();
        let counts = self.call(&self.case.all, Due::refused(0), held, state, plane)?;
        same("the plane after a call with no new row", &plane.to_vec(), &before)?;
        same("the counts of a call with no new row", &counts, &vec![0; counts.len()])?;
        plane[place] = sample;
        Ok(())
    }

    /// Anything from a row on.
    fn rubbish(&self, from: usize, plane: &mut [u16]) {
        let limit = self.random.one_of(&[65536, 65536, 2, 256]);
        plane.iter_mut().skip(from * self.stride()).for_each(|sample| *sample = (65535 - self.random.below(limit)) as u16);
    }
}

/// Counts that rise or stay up to full height: one row of cells after the other, all at once, or any; now and then one stands there twice, full height too.
fn cutting(random: &Random, rows: usize) -> Vec<usize> {
    let mut cuts: Vec<usize> = match random.below(5) {
        0 => (1..rows).collect(),
        1 => Vec::new(),
        _ => random.list(random.size(0, 6), rows as u64 + 1).iter().map(|&cut| cut as usize).collect(),
    };
    cuts.push(rows);
    if random.once_in(3) {
        cuts.push(random.one_of(&cuts));
    }
    if random.once_in(4) {
        cuts.push(rows);
    }
    cuts.sort();
    cuts.iter().map(|cut| 4 * cut).collect()
}

/// The rows filled so far and what was stored, by the Rust on the picture with no other edge marked than those that are due: "every vertical edge in them is done, and every horizontal edge with
/// y+8 <= A", and at full height every edge.
fn by_then(c: &Case, filled: usize) -> (Vec<u16>, [usize; 2]) {
    let (cols, from) = (c.cells.0 as usize, filled * c.stride as usize);
    let mut c = c.clone();
    for cell in 0..cols * c.cells.1 as usize {
        let y = 4 * (cell / cols);
        if y >= filled {
            c.marks.vertical[cell] = 0;
        }
        if y + 8 > filled && filled < 4 * c.cells.1 as usize {
            c.marks.horizontal[cell] = 0;
        }
    }
    c.plane.iter_mut().skip(from).for_each(|sample| *sample = 0);
    let (mut plane, counts) = plane::filtered(&c);
    plane.truncate(from);
    (plane, [counts.stored as usize, counts.changed as usize])
}

/// A plane's case as the oracle holds it, with the picture that is sent.
fn case_of(c: &PlaneCase, picture: &[u16]) -> Case {
    let n = |k: usize| c.all[k] as u64;
    let [vertical, horizontal, width, height] = c.grid.clone();
    Case {
        cells: (n(0), n(1)),
        stride: n(2),
        size: (n(3), n(4)),
        superblock: (n(5), n(6)),
        chroma: c.all[7] == 1,
        depth: n(8),
        delta_q: c.all[9] as i64,
        delta_side: c.all[10] as i64,
        marks: Marks { vertical, horizontal, width, height },
        qindex: c.qindex.clone(),
        starts: c.tiles.clone(),
        keep: c.keep.clone(),
        plane: picture.to_vec(),
        steps: c.steps.clone(),
    }
}

/// A plane that is refused by 1 to 7 at each call, whatever is filled.
fn never(sent: &Sent) -> Compared {
    let (random, mut plane) = (sent.random, sent.case.plane.clone());
    for _ in 0..random.size(1, 3) {
        let (list, by_settings) = settings(random, sent.case.all.clone(), sent.fixed, &[7]);
        let any = [0, 0, 4, 8, 12, 40, 2, 4096, usize::MAX];
        let mut state = vec![random.one_of(&any), random.one_of(&[0, 0, 0, 1, usize::MAX])];
        let due = sent.due(by_settings, &state, 0, &plane);
        sent.call(&list, due, random.one_of(&any), &mut state, &mut plane)?;
    }
    Ok(sent.fixed.no)
}

/// A picture that is sent, and what the whole run leaves and stores of it where it is accepted.
fn arrives(sent: &Sent, picture: &[u16], whole: Option<(&[u16], [usize; 2])>) -> Compared {
    let (random, stride) = (sent.random, sent.stride());
    let case = random.once_in(4).then(|| case_of(&sent.case, picture));
    let (mut plane, mut state, mut sums, mut held) = (vec![0; picture.len()], vec![0, 0], [0; 2], 0);
    if random.once_in(4) {
        state.push(77);
    }
    for filled in cutting(random, sent.height() / 4) {
        plane[held * stride..filled * stride].copy_from_slice(&picture[held * stride..filled * stride]);
        sent.rubbish(filled, &mut plane);
        if random.once_in(2) {
            sent.stray(held, &mut plane)?;
        }
        let beyond = plane[filled * stride..].to_vec();
        let due = sent.due(Due::refused(0), &state, filled, &plane);
        let counts = sent.call(&sent.case.all, due, filled, &mut state, &mut plane)?;
        if due.no != 0 {
            return spent(sent, &mut state, &mut plane);
        }
        counts.iter().zip(&mut sums).for_each(|(count, sum)| *sum += count);
        held = filled;
        same("what is not filled", &plane[held * stride..], &beyond[..])?;
        if let Some(c) = &case {
            let (rows, stored) = by_then(c, filled);
            same("the filled rows", &plane[..held * stride], &rows[..])?;
            same("the counts so far", &sums[..counts.len()], &stored[..counts.len()])?;
            HELD.fetch_add(1, Relaxed);
        }
        if held > 0 && random.once_in(6) {
            sent.idle(held, &mut state, &mut plane)?;
        }
        if let Some((after, _)) = whole {
            same("the final rows", &plane[..sent.last(filled) * stride], &after[..sent.last(filled) * stride])?;
        }
    }
    let Some((_, stored)) = whole else {
        return Err("a bad sample was not met".to_string());
    };
    same("the summed counts", &sums[..sent.counted.min(2)], &stored[..sent.counted.min(2)])?;
    Ok(0)
}

/// After 8: "the state is spent ... and each further call is refused", whatever it is told, and whatever the plane holds then.
fn spent(sent: &Sent, state: &mut Vec<usize>, plane: &mut [u16]) -> Compared {
    for _ in 0..2 {
        let filled = sent.random.one_of(&[state[0], state[0] + 4, sent.height(), sent.height() + 4, 2]);
        let (list, _) = settings(sent.random, sent.case.all.clone(), sent.fixed, &[7]);
        sent.rubbish(sent.random.size(0, sent.height()), plane);
        sent.call(&list, Due::refused(15), filled, state, plane)?;
    }
    Ok(8)
}

/// A plane's case: accepted, refused at each call, or accepted until a bad sample comes, which is planted into every sixth good one.
pub fn compare(random: &Random, made: &Made) -> Compared {
    let mut n = Numbers::of(made);
    let case = PlaneCase::of(made, &mut n);
    let due = n.counted();
    let fixed = if due.no == 8 { Due::refused(0) } else { Due { counts: [0, 0], ..due } };
    let sent = Sent { random, case, fixed, counted: random.one_of(&[0, 1, 2, 2, 2, 2, 3]) };
    let mut picture = sent.case.plane.clone();
    match due.no {
        0 => {
            let after: Vec<u16> = n.some(picture.len());
            if random.once_in(6) {
                let place = random.size(0, sent.height() - 1) * sent.stride() + random.size(0, 4 * sent.cols() - 1);
                picture[place] = random.one_of(&[sent.top() + 1, 65535]);
            }
            arrives(&sent, &picture, Some((&after, due.counts)))
        }
        8 => arrives(&sent, &picture, None),
        _ => never(&sent),
    }
}
