//! The functions of include/bihargesh.h beside the published Rust, linked into one program.
//!
//!     linked N SEED [NAME ..]    N cases of each function, or of those named: how many were accepted and refused, by number; 1 at the first difference
//!
//! The cases are the oracle's, with its answers: the Rust's where a case is accepted, document 01's refusals where not. Here they are lent as C
//! lends them, with a settings list that is sometimes too short or longer than needed, flags that are none, and bytes too few or too many.
//! Every lent list is compared whole afterwards, those for reading too; the counts of stored and changed samples are those of the Rust, watched store by store.
//! With tile starts or kept cells, which the Rust has no word for, planes are those of the oracle's plain readings, held to the Rust where that has an answer (src/tiles.rs, src/keep.rs).

#[path = "src/ccso.rs"]
mod ccso;
#[path = "src/damage.rs"]
mod damage;
#[path = "src/frame.rs"]
mod frame;
#[path = "src/grid.rs"]
mod grid;
#[path = "src/keep.rs"]
mod keep;
#[path = "src/line.rs"]
mod line;
mod linked_rows;
#[path = "src/made.rs"]
mod made;
#[path = "src/picture.rs"]
mod picture;
#[path = "src/plane.rs"]
mod plane;
#[path = "src/random.rs"]
mod random;
#[path = "../bindings/rust/src/raw.rs"]
mod raw;
#[path = "src/record.rs"]
mod record;
#[path = "src/refusals.rs"]
mod refusals;
#[path = "src/replay.rs"]
mod replay;
#[path = "src/rows.rs"]
mod rows;
#[path = "src/rust.rs"]
mod rust;
#[path = "src/segment.rs"]
mod segment;
#[path = "src/thresholds.rs"]
mod thresholds;
#[path = "src/tiles.rs"]
mod tiles;

// The published files name each other below `crate::av2`.
use rust as av2;

use made::{Made, Make};
use random::Random;
use std::fmt::Debug;
use std::process::exit;

/// What a case is due: 0 or the number of a refusal, with its place, and how many samples are stored and changed.
#[derive(Clone, Copy)]
struct Due {
    no: i32,
    place: usize,
    counts: [usize; 2],
}

impl Due {
    /// A refusal that has no place.
    fn refused(no: i32) -> Due {
        Due { no, place: 0, counts: [0, 0] }
    }
}

/// The number that was due, or what differs.
type Compared = Result<i32, String>;

/// The numbers of a case's line, read from the first on.
struct Numbers<'a> {
    all: &'a [i64],
    at: usize,
}

impl Numbers<'_> {
    /// A line without its kind.
    fn of(made: &Made) -> Numbers<'_> {
        Numbers { all: made.line.numbers(), at: 1 }
    }

    fn some<T: Entry>(&mut self, n: usize) -> Vec<T> {
        let from = self.at;
        self.at += n;
        self.all[from..self.at].iter().map(|&n| T::from(n)).collect()
    }

    fn one<T: Entry>(&mut self) -> T {
        self.some(1)[0]
    }

    fn list<T: Entry>(&mut self) -> Vec<T> {
        let n = self.all[self.at] as usize;
        self.at += 1;
        self.some(n)
    }

    fn size(&mut self) -> usize {
        self.one::<u64>() as usize
    }

    fn due(&mut self) -> Due {
        Due { no: self.one(), place: self.size(), counts: [0, 0] }
    }

    /// The same of a case that filters.
    fn counted(&mut self) -> Due {
        let due = self.due();
        Due { counts: [self.size(), self.size()], ..due }
    }
}

/// An entry of a lent list; a number that its type can't hold becomes one that is bad too.
trait Entry: Copy {
    fn from(n: i64) -> Self;
}

impl Entry for u8 {
    fn from(n: i64) -> u8 {
        n as u8
    }
}

impl Entry for u16 {
    fn from(n: i64) -> u16 {
        n.min(65535) as u16
    }
}

impl Entry for u32 {
    fn from(n: i64) -> u32 {
        u32::try_from(n).unwrap_or(u32::MAX)
    }
}

impl Entry for u64 {
    fn from(n: i64) -> u64 {
        n as u64
    }
}

impl Entry for i8 {
    fn from(n: i64) -> i8 {
        n.clamp(-128, 127) as i8
    }
}

impl Entry for i32 {
    fn from(n: i64) -> i32 {
        i32::try_from(n).unwrap_or(-1)
    }
}

fn same<T: PartialEq + Debug>(what: &str, got: T, due: T) -> Result<(), String> {
    if got == due {
        return Ok(());
    }
    Err(format!("{what} differs: {}", cut(&format!("got {got:?}, due {due:?}"))))
}

/// A long text's beginning.
fn cut(text: &str) -> String {
    text.chars().take(400).collect()
}

/// Settings as C lends them, and what a case is due with them: a short list is refused by 3 before all else, a flag that is none by 2
/// after the depth, and what stands beyond the numbers is not looked at.
fn settings(random: &Random, all: Vec<i32>, due: Due, flags: &[usize]) -> (Vec<i32>, Due) {
    let mut list = all;
    let most = list.len();
    match random.below(40) {
        0 => {
            list.truncate(random.one_of(&[0, 1, most / 2, most - 1]));
            return (list, Due::refused(3));
        }
        1 if !flags.is_empty() => {
            list[random.one_of(flags)] = random.one_of(&[2, 3, -1, i32::MIN, i32::MAX]);
            return (list, if due.no == 1 { due } else { Due::refused(2) });
        }
        2..=5 => list.extend([i32::MIN, -1, 7]),
        _ => (),
    }
    (list, due)
}

/// A lent list for the place of a refusal, and what is due in it.
fn places(random: &Random, due: Due) -> (Vec<usize>, Vec<usize>) {
    let lent = if random.once_in(10) { Vec::new() } else { vec![usize::MAX, 77] };
    let mut after = lent.clone();
    if due.no != 0 && !after.is_empty() {
        after[0] = due.place;
    }
    (lent, after)
}

/// A lent list for the counts, and what is due in it: as many of the two as it has entries.
fn tallies(random: &Random, due: Due) -> (Vec<usize>, Vec<usize>) {
    let lent = vec![usize::MAX; random.one_of(&[0, 1, 2, 2, 2, 2, 3])];
    let mut after = lent.clone();
    after.iter_mut().zip(due.counts).for_each(|(entry, count)| *entry = count);
    (lent, after)
}

/// Bytes of another length now and then.
fn miscounted(random: &Random, bytes: &mut Vec<u8>) -> bool {
    let lent = bytes.len();
    match random.below(40) {
        0 => bytes.truncate(random.one_of(&[0, 1, lent / 2, lent.saturating_sub(1)])),
        1 => bytes.extend(vec![0; random.size(1, 4)]),
        _ => (),
    }
    bytes.len() != lent
}

fn of_thresholds(random: &Random, made: &Made) -> Compared {
    let mut n = Numbers::of(made);
    let (curr, prev): (u16, u16) = (n.one(), n.one());
    let (delta_q, delta_side, depth): (i32, i32, u32) = (n.one(), n.one(), n.one());
    let (mut no, q, side): (i32, i32, i32) = (n.one(), n.one(), n.one());
    let mut steps: Vec<u8> = made.steps.as_deref().unwrap_or(&[]).iter().flat_map(|s| s.to_le_bytes()).collect();
    if steps.len() == 1408 && miscounted(random, &mut steps) && no != 1 {
        no = 4;
    }
    let lent = steps.clone();
    // SAFETY: every pointer is that of a live list, beside its length; so below.
    let answer = unsafe { raw::bihargesh_thresholds(curr, prev, delta_q, delta_side, depth, steps.as_ptr(), steps.len()) };
    same("the answer", answer, if no == 0 { q * 65536 + side } else { -no })?;
    same("the step table", steps, lent)?;
    Ok(no)
}

fn of_segment(random: &Random, made: &Made) -> Compared {
    let mut n = Numbers::of(made);
    let [_, _, _, depth, q, side, pair, _, _, _]: [u32; 10] = n.some(10).try_into().expect("ten numbers");
    let plane: Vec<u16> = n.list();
    let mut due = n.counted();
    let bytes = |samples: &[u16]| -> Vec<u8> { samples.iter().flat_map(|s| s.to_le_bytes()).collect() };
    let mut window = bytes(&plane);
    if miscounted(random, &mut window) && due.no != 1 {
        due = Due::refused(3);
    }
    let after = if due.no == 0 { bytes(&n.some::<u16>(72)) } else { window.clone() };
    let (mut counts, counts_after) = tallies(random, due);
    let answer = unsafe { raw::bihargesh_segment(window.as_mut_ptr(), window.len(), depth, pair, q, side, counts.as_mut_ptr(), counts.len()) };
    same("the answer", answer, if due.no == 0 { due.place as i32 } else { -due.no })?;
    same("the window", window, after)?;
    same("the counts", counts, counts_after)?;
    Ok(due.no)
}

/// The numbers of a plane's case, up to the plane.
struct PlaneCase {
    all: Vec<i32>,
    grid: [Vec<u8>; 4],
    qindex: Vec<u16>,
    tiles: Vec<u16>,
    keep: Vec<u8>,
    plane: Vec<u16>,
    steps: Vec<u32>,
}

impl PlaneCase {
    fn of(made: &Made, n: &mut Numbers) -> PlaneCase {
        PlaneCase {
            all: n.some(11),
            grid: [n.list(), n.list(), n.list(), n.list()],
            qindex: n.list(),
            tiles: n.list(),
            keep: n.list(),
            plane: n.list(),
            steps: made.steps.clone().unwrap_or_default(),
        }
    }
}

/// A plane by one of the two engines.
fn of_engine(engine: raw::Engine, random: &Random, made: &Made) -> Compared {
    let mut n = Numbers::of(made);
    let PlaneCase { all, grid, qindex, tiles, keep, mut plane, steps } = PlaneCase::of(made, &mut n);
    let due = n.counted();
    let (settings, due) = settings(random, all, due, &[7]);
    let after = if due.no == 0 { n.some(plane.len()) } else { plane.clone() };
    let (mut place, place_after) = places(random, due);
    let (mut counts, counts_after) = tallies(random, due);
    let lent = (grid.clone(), qindex.clone(), tiles.clone(), keep.clone(), steps.clone(), settings.clone());
    let [v, h, w, t] = &grid;
    let answer = unsafe {
        engine(
            plane.as_mut_ptr(), plane.len(), v.as_ptr(), v.len(), h.as_ptr(), h.len(), w.as_ptr(), w.len(), t.as_ptr(), t.len(),
            qindex.as_ptr(), qindex.len(), tiles.as_ptr(), tiles.len(), keep.as_ptr(), keep.len(), steps.as_ptr(), steps.len(),
            settings.as_ptr(), settings.len(), place.as_mut_ptr(), place.len(), counts.as_mut_ptr(), counts.len(),
        )
    };
    same("the answer", answer, -due.no)?;
    same("the place", place, place_after)?;
    same("the counts", counts, counts_after)?;
    same("the plane", plane, after)?;
    same("a list for reading", (grid, qindex, tiles, keep, steps, settings), lent)?;
    Ok(due.no)
}

fn of_plane(random: &Random, made: &Made) -> Compared {
    of_engine(raw::bihargesh_plane, random, made)
}

fn of_plane_plain(random: &Random, made: &Made) -> Compared {
    of_engine(raw::bihargesh_plane_plain, random, made)
}

/// A plane with a record of the edges, whose length stands as the place of an accepted case.
fn of_record_plane(random: &Random, made: &Made) -> Compared {
    let mut n = Numbers::of(made);
    let PlaneCase { all, grid, qindex, tiles, keep, mut plane, steps } = PlaneCase::of(made, &mut n);
    let mut record: Vec<u8> = n.list();
    let due = n.counted();
    let (settings, due) = settings(random, all, due, &[7]);
    let after = if due.no == 0 { (n.some(plane.len()), n.some(record.len())) } else { (plane.clone(), record.clone()) };
    let (mut place, place_after) = places(random, due);
    let (mut counts, counts_after) = tallies(random, due);
    let lent = (grid.clone(), qindex.clone(), tiles.clone(), keep.clone(), steps.clone(), settings.clone());
    let [v, h, w, t] = &grid;
    let answer = unsafe {
        raw::bihargesh_record_plane(
            plane.as_mut_ptr(), plane.len(), record.as_mut_ptr(), record.len(), v.as_ptr(), v.len(), h.as_ptr(), h.len(),
            w.as_ptr(), w.len(), t.as_ptr(), t.len(), qindex.as_ptr(), qindex.len(), tiles.as_ptr(), tiles.len(), keep.as_ptr(), keep.len(),
            steps.as_ptr(), steps.len(), settings.as_ptr(), settings.len(), place.as_mut_ptr(), place.len(),
            counts.as_mut_ptr(), counts.len(),
        )
    };
    same("the answer", answer, if due.no == 0 { due.place as i32 } else { -due.no })?;
    same("the place", place, place_after)?;
    same("the counts", counts, counts_after)?;
    same("the plane", plane, after.0)?;
    same("the record", record, after.1)?;
    same("a list for reading", (grid, qindex, tiles, keep, steps, settings), lent)?;
    Ok(due.no)
}

/// A record that is run again, beside segments of the Rust one after the other.
fn of_replay(random: &Random, made: &Made) -> Compared {
    let mut n = Numbers::of(made);
    let all = n.some(4);
    let (record, keep, mut plane): (Vec<u8>, Vec<u8>, Vec<u16>) = (n.list(), n.list(), n.list());
    let due = n.counted();
    let (settings, due) = settings(random, all, due, &[]);
    let after = if due.no == 0 { n.some(plane.len()) } else { plane.clone() };
    let (mut place, place_after) = places(random, due);
    let (mut counts, counts_after) = tallies(random, due);
    let lent = (record.clone(), keep.clone(), settings.clone());
    let answer = replay(&mut plane, &record, &keep, &settings, &mut place, &mut counts);
    same("the answer", answer, -due.no)?;
    same("the place", place, place_after)?;
    same("the counts", counts, counts_after)?;
    same("the plane", plane, after)?;
    same("a list for reading", (record, keep, settings), lent)?;
    Ok(due.no)
}

fn replay(plane: &mut [u16], record: &[u8], keep: &[u8], settings: &[i32], place: &mut [usize], counts: &mut [usize]) -> i32 {
    unsafe {
        raw::bihargesh_replay(
            plane.as_mut_ptr(), plane.len(), record.as_ptr(), record.len(), keep.as_ptr(), keep.len(), settings.as_ptr(), settings.len(),
            place.as_mut_ptr(), place.len(), counts.as_mut_ptr(), counts.len(),
        )
    }
}

/// A recorded plane that is accepted.
fn recorded(random: &Random, _: bool, steps: Option<&[u32]>) -> Made {
    record::make(random, false, steps)
}

/// Our own record of a plane, run again with the same keep marks on the plane as it was lent: the Rust's plane both times.
fn of_round_trip(_: &Random, made: &Made) -> Compared {
    let mut n = Numbers::of(made);
    let PlaneCase { all, grid, qindex, tiles, keep, plane: lent, steps } = PlaneCase::of(made, &mut n);
    let mut bytes: Vec<u8> = n.list();
    let due = n.counted();
    let after: Vec<u16> = n.some(lent.len());
    let (mut plane, mut place, mut counts) = (lent.clone(), [77], [[77; 2]; 2]);
    let [v, h, w, t] = &grid;
    let length = unsafe {
        raw::bihargesh_record_plane(
            plane.as_mut_ptr(), plane.len(), bytes.as_mut_ptr(), bytes.len(), v.as_ptr(), v.len(), h.as_ptr(), h.len(),
            w.as_ptr(), w.len(), t.as_ptr(), t.len(), qindex.as_ptr(), qindex.len(), tiles.as_ptr(), tiles.len(), keep.as_ptr(), keep.len(),
            steps.as_ptr(), steps.len(), all.as_ptr(), all.len(), place.as_mut_ptr(), place.len(), counts[0].as_mut_ptr(), 2,
        )
    };
    same("the length", length, due.place as i32)?;
    same("the recorded plane", &plane, &after)?;
    let mut again = lent;
    let answer = replay(&mut again, &bytes[..length as usize], &keep, &[all[0], all[1], all[2], all[8]], &mut place, &mut counts[1]);
    same("the answer", answer, 0)?;
    same("the plane", again, plane)?;
    same("the place", place, [77])?;
    same("the counts, both times", counts, [due.counts; 2])?;
    Ok(due.no)
}

/// The numbers of a TU grid's case; the last list is that of the keep marks.
struct Leaves {
    all: Vec<i32>,
    leaves: Vec<u16>,
    skips: Vec<u16>,
    marks: [Vec<u8>; 5],
    due: Due,
    built: Option<[Vec<u8>; 5]>,
}

impl Leaves {
    fn of(made: &Made) -> Leaves {
        let mut n = Numbers::of(made);
        let all = n.some(6);
        let (leaves, skips) = (n.list(), n.list());
        let marks: [Vec<u8>; 5] = [n.list(), n.list(), n.list(), n.list(), n.list()];
        let due = n.due();
        let built = (due.no == 0).then(|| [0, 1, 2, 3, 4].map(|k: usize| n.some(marks[k].len())));
        Leaves { all, leaves, skips, marks, due, built }
    }
}

fn of_tx_grid(random: &Random, made: &Made) -> Compared {
    let c = Leaves::of(made);
    let (settings, due) = settings(random, c.all, c.due, &[]);
    let after = c.built.filter(|_| due.no == 0).unwrap_or_else(|| c.marks.clone());
    let (mut place, place_after) = places(random, due);
    let mut marks = c.marks;
    let lent = (c.leaves.clone(), c.skips.clone(), settings.clone());
    let [v, h, w, t, k] = &mut marks;
    let answer = unsafe {
        raw::bihargesh_tx_grid(
            c.leaves.as_ptr(), c.leaves.len(), c.skips.as_ptr(), c.skips.len(), v.as_mut_ptr(), v.len(), h.as_mut_ptr(), h.len(),
            w.as_mut_ptr(), w.len(), t.as_mut_ptr(), t.len(), k.as_mut_ptr(), k.len(), settings.as_ptr(), settings.len(), place.as_mut_ptr(), place.len(),
        )
    };
    same("the answer", answer, -due.no)?;
    same("the place", place, place_after)?;
    same("the grid", marks, after)?;
    same("a list for reading", (c.leaves, c.skips, settings), lent)?;
    Ok(due.no)
}

/// The cases of `grid::make`, but that no list of leaves is cut.
fn whole_leaves(random: &Random, refused: bool, _: Option<&[u32]>) -> Made {
    grid::either(random, refused, true)
}

/// A list's leaves as records.
fn records(numbers: &[u16]) -> Vec<raw::Leaf> {
    numbers.chunks_exact(4).map(|n| raw::Leaf { row: n[0], col: n[1], w: n[2], h: n[3] }).collect()
}

/// Records, and beside them their numbers: both are held to what is due.
fn of_tx_grid_leaves(random: &Random, made: &Made) -> Compared {
    let c = Leaves::of(made);
    let (settings, due) = settings(random, c.all, c.due, &[]);
    let after = c.built.filter(|_| due.no == 0).unwrap_or_else(|| c.marks.clone());
    let (mut place, place_after) = places(random, due);
    let (leaves, skips) = (records(&c.leaves), records(&c.skips));
    let (mut marks, mut marks_by_numbers, mut place_by_numbers) = (c.marks.clone(), c.marks, place.clone());
    let lent = (leaves.clone(), skips.clone(), settings.clone());
    let [v, h, w, t, k] = &mut marks;
    let answer = unsafe {
        raw::bihargesh_tx_grid_leaves(
            leaves.as_ptr(), leaves.len(), skips.as_ptr(), skips.len(), v.as_mut_ptr(), v.len(), h.as_mut_ptr(), h.len(),
            w.as_mut_ptr(), w.len(), t.as_mut_ptr(), t.len(), k.as_mut_ptr(), k.len(), settings.as_ptr(), settings.len(), place.as_mut_ptr(), place.len(),
        )
    };
    let [v, h, w, t, k] = &mut marks_by_numbers;
    let answer_by_numbers = unsafe {
        raw::bihargesh_tx_grid(
            c.leaves.as_ptr(), c.leaves.len(), c.skips.as_ptr(), c.skips.len(), v.as_mut_ptr(), v.len(), h.as_mut_ptr(), h.len(),
            w.as_mut_ptr(), w.len(), t.as_mut_ptr(), t.len(), k.as_mut_ptr(), k.len(), settings.as_ptr(), settings.len(),
            place_by_numbers.as_mut_ptr(), place_by_numbers.len(),
        )
    };
    same("the answer", answer, -due.no)?;
    same("the place", &place, &place_after)?;
    same("the grid", &marks, &after)?;
    same("a list for reading", (leaves, skips, settings), lent)?;
    same("what the numbers give", (answer_by_numbers, place_by_numbers, marks_by_numbers), (answer, place, marks))?;
    Ok(due.no)
}

/// Keep marks over a rectangle: a negative row, column or size, which the oracle's numbers are not, is refused by 2.
fn of_keep_rectangle(random: &Random, made: &Made) -> Compared {
    let mut n = Numbers::of(made);
    let mut all: Vec<i32> = n.some(6);
    let mut keep: Vec<u8> = n.list();
    let mut due = n.due();
    if random.once_in(20) {
        all[random.size(2, 5)] = random.one_of(&[-1, -2, i32::MIN]);
    }
    if all[2..].iter().any(|&number| number < 0) {
        due = Due::refused(2);
    }
    let (settings, due) = settings(random, all, due, &[]);
    let after = if due.no == 0 { n.some(keep.len()) } else { keep.clone() };
    let (mut place, place_after) = places(random, due);
    let lent = settings.clone();
    let answer = unsafe {
        raw::bihargesh_keep_rectangle(keep.as_mut_ptr(), keep.len(), settings.as_ptr(), settings.len(), place.as_mut_ptr(), place.len())
    };
    same("the answer", answer, -due.no)?;
    same("the place", place, place_after)?;
    same("the keep marks", keep, after)?;
    same("a list for reading", settings, lent)?;
    Ok(due.no)
}

fn of_qindex_grid(random: &Random, made: &Made) -> Compared {
    let mut n = Numbers::of(made);
    let all = n.some(5);
    let (superblocks, mut qindex): (Vec<u16>, Vec<u16>) = (n.list(), n.list());
    let due = n.due();
    let (settings, due) = settings(random, all, due, &[]);
    let after = if due.no == 0 { n.some(qindex.len()) } else { qindex.clone() };
    let (mut place, place_after) = places(random, due);
    let lent = (superblocks.clone(), settings.clone());
    let answer = unsafe {
        raw::bihargesh_qindex_grid(
            superblocks.as_ptr(), superblocks.len(), qindex.as_mut_ptr(), qindex.len(),
            settings.as_ptr(), settings.len(), place.as_mut_ptr(), place.len(),
        )
    };
    same("the answer", answer, -due.no)?;
    same("the place", place, place_after)?;
    same("the grid", qindex, after)?;
    same("a list for reading", (superblocks, settings), lent)?;
    Ok(due.no)
}

/// A plane kind's five lists.
#[derive(Clone, PartialEq, Debug)]
struct Grid {
    marks: [Vec<u8>; 4],
    qindex: Vec<u16>,
}

impl Grid {
    fn lent(n: &mut Numbers) -> Grid {
        Grid { marks: [n.list(), n.list(), n.list(), n.list()], qindex: n.list() }
    }

    /// As many entries as a grid that was lent.
    fn left(n: &mut Numbers, lent: &Grid) -> Grid {
        Grid { marks: [0, 1, 2, 3].map(|k: usize| n.some(lent.marks[k].len())), qindex: n.some(lent.qindex.len()) }
    }
}

fn of_frame(random: &Random, made: &Made) -> Compared {
    let mut n = Numbers::of(made);
    let all = n.some(15);
    let read: [Vec<u16>; 4] = [n.list(), n.list(), n.list(), n.list()];
    let mut planes: [Vec<u16>; 3] = [n.list(), n.list(), n.list()];
    let mut grids = [Grid::lent(&mut n), Grid::lent(&mut n)];
    let starts: [Vec<u16>; 2] = [n.list(), n.list()];
    let kept: [Vec<u8>; 2] = [n.list(), n.list()];
    let steps = made.steps.clone().unwrap_or_default();
    let due = n.counted();
    let left = if due.no == 0 { [0, 1, 2].map(|k: usize| n.some(planes[k].len())) } else { planes.clone() };
    let built = if [0, 7, 8].contains(&due.no) { [0, 1].map(|k: usize| Grid::left(&mut n, &grids[k])) } else { grids.clone() };
    let (settings, now) = settings(random, all, due, &[4, 5]);
    // a fault of the settings list stands before all that the case is due
    let (left, built) = if now.no == due.no { (left, built) } else { (planes.clone(), grids.clone()) };
    let (mut place, place_after) = places(random, now);
    let (mut counts, counts_after) = tallies(random, now);
    let lent = (read.clone(), starts.clone(), kept.clone(), steps.clone(), settings.clone());
    let ([superblocks, leaves, chroma_leaves, skips], [tiles, chroma_tiles], [keep, chroma_keep]) = (&read, &starts, &kept);
    let ([y, u, v], [luma, chroma]) = (&mut planes, &mut grids);
    let ([lv, lh, lw, lt], [cv, ch, cw, ct]) = (&mut luma.marks, &mut chroma.marks);
    let answer = unsafe {
        raw::bihargesh_frame(
            y.as_mut_ptr(), y.len(), u.as_mut_ptr(), u.len(), v.as_mut_ptr(), v.len(),
            lv.as_mut_ptr(), lv.len(), lh.as_mut_ptr(), lh.len(), lw.as_mut_ptr(), lw.len(), lt.as_mut_ptr(), lt.len(),
            luma.qindex.as_mut_ptr(), luma.qindex.len(),
            cv.as_mut_ptr(), cv.len(), ch.as_mut_ptr(), ch.len(), cw.as_mut_ptr(), cw.len(), ct.as_mut_ptr(), ct.len(),
            chroma.qindex.as_mut_ptr(), chroma.qindex.len(),
            steps.as_ptr(), steps.len(), superblocks.as_ptr(), superblocks.len(), leaves.as_ptr(), leaves.len(),
            chroma_leaves.as_ptr(), chroma_leaves.len(), skips.as_ptr(), skips.len(),
            tiles.as_ptr(), tiles.len(), chroma_tiles.as_ptr(), chroma_tiles.len(),
            keep.as_ptr(), keep.len(), chroma_keep.as_ptr(), chroma_keep.len(),
            settings.as_ptr(), settings.len(), place.as_mut_ptr(), place.len(),
            counts.as_mut_ptr(), counts.len(),
        )
    };
    same("the answer", answer, -now.no)?;
    same("the place", place, place_after)?;
    same("the counts", counts, counts_after)?;
    same("a plane", planes, left)?;
    same("a grid", grids, built)?;
    same("a list for reading", (read, starts, kept, steps, settings), lent)?;
    Ok(now.no)
}

fn of_ccso(random: &Random, made: &Made) -> Compared {
    let mut n = Numbers::of(made);
    let all = n.some(16);
    let (luma, mut target): (Vec<u16>, Vec<u16>) = (n.list(), n.list());
    let (flags, offsets): (Vec<u8>, Vec<i8>) = (n.list(), n.list());
    let due = n.due();
    let (settings, due) = settings(random, all, due, &[]);
    let after = if due.no == 0 { n.some(target.len()) } else { target.clone() };
    let (mut place, place_after) = places(random, due);
    let lent = (luma.clone(), flags.clone(), offsets.clone(), settings.clone());
    let answer = unsafe {
        raw::bihargesh_ccso(
            luma.as_ptr(), luma.len(), target.as_mut_ptr(), target.len(), flags.as_ptr(), flags.len(), offsets.as_ptr(), offsets.len(),
            settings.as_ptr(), settings.len(), place.as_mut_ptr(), place.len(),
        )
    };
    same("the answer", answer, -due.no)?;
    same("the place", place, place_after)?;
    same("the target", target, after)?;
    same("a list for reading", (luma, flags, offsets, settings), lent)?;
    Ok(due.no)
}

/// The exported steps are the Rust's `qstep`, 352 entries; what is lent beyond them is kept, and so is a list that is too short.
fn of_steps() -> Result<(), String> {
    let lent = vec![7; 353];
    let due: Vec<u32> = rust::quant::steps().into_iter().chain([7]).collect();
    let (mut list, mut short) = (lent.clone(), lent[..351].to_vec());
    let answers = unsafe { [raw::bihargesh_steps(list.as_mut_ptr(), list.len()), raw::bihargesh_steps(short.as_mut_ptr(), short.len())] };
    same("the answer", answers, [0, -3])?;
    same("the steps", &list, &due)?;
    same("a list that is too short", &short[..], &lent[..351])
}

/// A function: what makes its cases, in turn; the kind of their lines where a maker has others too; and how one is compared.
struct Part {
    name: &'static str,
    makes: &'static [Make],
    kind: Option<i64>,
    compare: fn(&Random, &Made) -> Compared,
}

/// What makes the cases of both engines, and of planes whose rows are sent.
const PLANES: &[Make] = &[plane::make, plane::make_bins, plane::make_tiles, plane::make_room_at_one, plane::make_keep];

const PARTS: [Part; 14] = [
    Part { name: "bihargesh_thresholds", makes: &[thresholds::make], kind: None, compare: of_thresholds },
    Part { name: "bihargesh_segment", makes: &[segment::make_window], kind: None, compare: of_segment },
    Part { name: "bihargesh_plane", makes: PLANES, kind: None, compare: of_plane },
    Part { name: "bihargesh_plane_plain", makes: PLANES, kind: None, compare: of_plane_plain },
    Part { name: "bihargesh_rows", makes: PLANES, kind: None, compare: linked_rows::compare },
    Part { name: "bihargesh_record_plane", makes: &[record::make], kind: None, compare: of_record_plane },
    Part { name: "bihargesh_replay", makes: &[replay::make], kind: None, compare: of_replay },
    Part { name: "bihargesh_replay of bihargesh_record_plane", makes: &[recorded], kind: None, compare: of_round_trip },
    Part { name: "bihargesh_tx_grid", makes: &[grid::make], kind: Some(1), compare: of_tx_grid },
    Part { name: "bihargesh_tx_grid_leaves", makes: &[whole_leaves], kind: Some(1), compare: of_tx_grid_leaves },
    Part { name: "bihargesh_keep_rectangle", makes: &[grid::make_keep], kind: None, compare: of_keep_rectangle },
    Part { name: "bihargesh_qindex_grid", makes: &[grid::make], kind: Some(2), compare: of_qindex_grid },
    Part { name: "bihargesh_frame", makes: &[frame::make, frame::make_bins, frame::make_tiles, frame::make_keep], kind: None, compare: of_frame },
    Part { name: "bihargesh_ccso", makes: &[ccso::make], kind: None, compare: of_ccso },
];

/// How the cases of a part came out.
#[derive(Default)]
struct Counts {
    accepted: u64,
    changed: u64,
    refused: [u64; 14],
    /// With tile starts: all, and the accepted ones that would end otherwise without them.
    starts: [u64; 2],
    /// With kept cells: likewise.
    keep: [u64; 2],
}

impl Counts {
    fn print(&self, name: &str) {
        let cases = self.accepted + self.refused.iter().sum::<u64>();
        let mut said = vec![format!("{cases} cases, {} accepted ({} changed what was lent)", self.accepted, self.changed)];
        said.extend((1..self.refused.len()).filter(|&k| self.refused[k] > 0).map(|k| format!("by {k}: {}", self.refused[k])));
        for (what, [all, telling]) in [("tile starts", self.starts), ("kept cells", self.keep)] {
            said.extend((all > 0).then(|| format!("{all} with {what} ({telling} end otherwise without)")));
        }
        println!("linked: {name}: {}, 0 different", said.join(", "));
    }
}

/// N cases of a part, or the first that differs.
fn run(part: &Part, n: u64, seed: u64) -> Result<Counts, String> {
    let random = Random::new(seed);
    let mut counts = Counts::default();
    let mut last: Option<Vec<u32>> = None;
    let mut left = n;
    while left > 0 {
        let make = part.makes[left as usize % part.makes.len()];
        let made = make(&random, random.once_in(3), last.as_deref());
        last = made.steps.clone().filter(|_| !random.once_in(20));
        if part.kind.is_some_and(|kind| kind != made.line.numbers()[0]) {
            continue;
        }
        let no = (part.compare)(&random, &made).map_err(|what| {
            format!("{}, case {} of seed {seed}: {what}\n{}", part.name, n - left + 1, cut(&String::from_utf8_lossy(&made.line.text())))
        })?;
        counts.starts[0] += made.starts.is_some() as u64;
        counts.keep[0] += made.keep.is_some() as u64;
        if no == 0 {
            counts.accepted += 1;
            counts.changed += made.changed as u64;
            counts.starts[1] += (made.starts == Some(true)) as u64;
            counts.keep[1] += (made.keep == Some(true)) as u64;
        } else {
            counts.refused[no as usize] += 1;
        }
        left -= 1;
    }
    Ok(counts)
}

fn main() {
    let words: Vec<String> = std::env::args().skip(1).collect();
    let numbers: Vec<u64> = words.iter().take(2).filter_map(|w| w.parse().ok()).collect();
    let [n, seed] = numbers[..] else {
        eprintln!("linked N SEED [NAME ..]");
        exit(2);
    };
    let names = &words[2..];
    if let Some(name) = names.iter().find(|&name| PARTS.iter().all(|part| part.name != name)) {
        eprintln!("linked: no function '{name}'");
        exit(2);
    }
    match of_steps() {
        Ok(()) => println!("linked: bihargesh_steps: 352 steps, 0 different; a list of 351 refused by 3"),
        Err(what) => {
            println!("linked: a DIFFERENCE: bihargesh_steps: {what}");
            exit(1);
        }
    }
    for part in PARTS.iter().filter(|part| names.is_empty() || names.iter().any(|name| name == part.name)) {
        match run(part, n, seed) {
            Ok(counts) => counts.print(part.name),
            Err(what) => {
                println!("linked: a DIFFERENCE: {what}");
                exit(1);
            }
        }
    }
    if let Some(calls) = linked_rows::calls() {
        println!("linked: bihargesh_rows: {calls}");
    }
}
