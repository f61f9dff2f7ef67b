//! The two grids alone: kind 1 is the TU grid, kind 2 the qindex grid, each answered by the Rust's own; kind 3 is keep marks over a rectangle, by a plain reading of ticket 7.

use crate::line::Line;
use crate::plane::{cells, tuples};
use crate::random::Random;
use crate::rust::deblock::{self, Marks};
use crate::{damage, keep, picture, refusals, made::Made};

pub struct TxCase {
    pub cells: (u64, u64),
    pub sub: (u64, u64),
    pub cap: (u64, u64),
    pub leaves: Vec<u32>,
    pub skips: Vec<u32>,
    pub marks: Marks,
    /// Cleared whatever it holds (ticket 7).
    pub keep: Vec<u8>,
}

pub struct QindexCase {
    pub cells: (u64, u64),
    pub sub: (u64, u64),
    pub sb_cols: u64,
    pub entries: Vec<u16>,
    pub qindex: Vec<u16>,
}

/// A rectangle of cells and the keep marks that it is set in.
pub struct KeepCase {
    pub cells: (u64, u64),
    pub row: u64,
    pub column: u64,
    /// Its rows and columns.
    pub size: (u64, u64),
    pub keep: Vec<u8>,
}

pub const SUBSAMPLINGS: [(u64, u64); 3] = [(0, 0), (1, 0), (1, 1)];

pub fn size(pair: (u64, u64)) -> (usize, usize) {
    (pair.0 as usize, pair.1 as usize)
}

pub fn cap(random: &Random) -> u64 {
    random.one_of(&[1, 2, 4, 8, 8, 16, 16])
}

/// Contents before a grid is built: anything, and sometimes more than is needed.
pub fn contents(random: &Random, n: usize) -> Marks {
    Marks { vertical: anything(random, n), horizontal: anything(random, n), width: anything(random, n), height: anything(random, n) }
}

fn anything(random: &Random, n: usize) -> Vec<u8> {
    let spare = picture::spare(random);
    random.list(n + spare, 256).iter().map(|&m| m as u8).collect()
}

/// What was built, followed by what was lent beyond it.
fn over<T: Clone>(built: &[T], lent: &[T]) -> Vec<T> {
    let mut list = built.to_vec();
    list.extend_from_slice(&lent[built.len()..]);
    list
}

/// The four lists after the Rust built its grid over them.
pub fn marks_over(built: &Marks, lent: &Marks) -> Marks {
    Marks {
        vertical: over(&built.vertical, &lent.vertical),
        horizontal: over(&built.horizontal, &lent.horizontal),
        width: over(&built.width, &lent.width),
        height: over(&built.height, &lent.height),
    }
}

pub fn qindex_over(built: &[u16], lent: &[u16]) -> Vec<u16> {
    over(built, lent)
}

/// Leaves: a partition, strays over it, or strays alone.
fn leaves(random: &Random, c: &TxCase) -> Vec<u32> {
    let (columns, rows) = (c.cells.0 << c.sub.0, c.cells.1 << c.sub.1);
    let mut list = if random.once_in(3) { Vec::new() } else { picture::tiling(random, columns, rows) };
    for _ in 0..random.one_of(&[0, 0, 1, 3, 8]) {
        list.extend(picture::stray_leaf(random, columns, rows));
    }
    list
}

fn skips(random: &Random, c: &TxCase) -> Vec<u32> {
    let mut list = Vec::new();
    for _ in 0..random.one_of(&[0, 0, 1, 2, 4]) {
        let leaf = picture::stray_leaf(random, c.cells.0 << c.sub.0, c.cells.1 << c.sub.1);
        list.extend(leaf.map(|n| n & !4096));
    }
    list
}

fn good(random: &Random) -> TxCase {
    let cells = if random.once_in(1500) { random.one_of(&[(1024, 1), (1, 1024)]) } else { cells(random) };
    let mut c = TxCase {
        cells,
        sub: random.one_of(&SUBSAMPLINGS),
        cap: (cap(random), cap(random)),
        leaves: Vec::new(),
        skips: Vec::new(),
        marks: contents(random, (cells.0 * cells.1) as usize),
        keep: anything(random, (cells.0 * cells.1) as usize),
    };
    c.leaves = leaves(random, &c);
    c.skips = skips(random, &c);
    c
}

/// Puts a bad leaf among the others.
pub fn spoil_leaves(random: &Random, leaves: &mut Vec<u32>, leaf: [u32; 4]) {
    let at = 4 * random.below(leaves.len() as u64 / 4 + 1) as usize;
    leaves.splice(at..at, leaf);
}

/// A leaf list whose length is no multiple of 4.
pub fn rag(random: &Random, leaves: &mut Vec<u32>) {
    for _ in 0..random.size(1, 3) {
        leaves.push(1);
    }
}

/// A skip leaf that carries 4096.
pub fn whole_skip(random: &Random) -> [u32; 4] {
    let mut leaf = [0, 0, 1 << random.below(7), 1 << random.below(7)];
    leaf[random.size(2, 3)] |= 4096;
    leaf
}

fn damaged(random: &Random, c: &mut TxCase) {
    let n = c.cells.0 * c.cells.1;
    for _ in 0..random.one_of(&[1, 1, 2, 3]) {
        match random.below(15) {
            0 => c.cells.0 = damage::count(random, 1024),
            1 => c.cells.1 = damage::count(random, 1024),
            2 => c.sub = damage::subsampling(random),
            3 => c.cap.0 = damage::cap(random),
            4 => c.cap.1 = damage::cap(random),
            5 => rag(random, &mut c.leaves),
            6 => rag(random, &mut c.skips),
            7 => damage::shorten(random, &mut c.marks.vertical, n),
            8 => damage::shorten(random, &mut c.marks.horizontal, n),
            9 => damage::shorten(random, &mut c.marks.width, n),
            10 => damage::shorten(random, &mut c.marks.height, n),
            11 => {
                let leaf = picture::bad_leaf(random);
                spoil_leaves(random, &mut c.leaves, leaf);
            }
            12 => {
                let leaf = picture::bad_leaf(random);
                spoil_leaves(random, &mut c.skips, leaf);
            }
            13 => damage::shorten(random, &mut c.keep, n),
            _ => {
                let leaf = whole_skip(random);
                spoil_leaves(random, &mut c.skips, leaf);
            }
        }
    }
}

fn tx_answered(c: TxCase) -> Made {
    let refusal = refusals::of_tx_grid(&c);
    let mut line = Line::new(1);
    line.unsigned(&[c.cells.0, c.cells.1, c.sub.0, c.sub.1, c.cap.0, c.cap.1])
        .list(&c.leaves)
        .list(&c.skips)
        .list(&c.marks.vertical)
        .list(&c.marks.horizontal)
        .list(&c.marks.width)
        .list(&c.marks.height)
        .list(&c.keep);
    if let Some(r) = refusal {
        line.unsigned(&[r.no, r.place]);
        return Made { line, refusal, ..Made::default() };
    }
    let built = deblock::tx_grid(&tuples(&c.leaves), &tuples(&c.skips), size(c.cells), size(c.sub), size(c.cap));
    let marks = marks_over(&built, &c.marks);
    line.unsigned(&[0, 0])
        .entries(&marks.vertical)
        .entries(&marks.horizontal)
        .entries(&marks.width)
        .entries(&marks.height)
        .entries(&over(&vec![0; (c.cells.0 * c.cells.1) as usize], &c.keep));
    Made { line, refusal, changed: marks.vertical != c.marks.vertical, ..Made::default() }
}

fn good_qindex(random: &Random) -> QindexCase {
    let cells = cells(random);
    let n = (cells.0 * cells.1) as usize + picture::spare(random);
    let entries = random.one_of(&[1, 2, 3, 9, 40]);
    QindexCase {
        cells,
        sub: random.one_of(&SUBSAMPLINGS),
        sb_cols: random.one_of(&[1, 2, 3, 5, 127, 128]),
        entries: random.list(entries, 65536).iter().map(|&q| q as u16).collect(),
        qindex: random.list(n, 65536).iter().map(|&q| q as u16).collect(),
    }
}

fn damaged_qindex(random: &Random, c: &mut QindexCase) {
    let n = c.cells.0 * c.cells.1;
    for _ in 0..random.one_of(&[1, 1, 2]) {
        match random.below(6) {
            0 => c.cells.0 = damage::count(random, 1024),
            1 => c.cells.1 = damage::count(random, 1024),
            2 => c.sub = damage::subsampling(random),
            3 => c.sb_cols = damage::count(random, 128),
            4 => c.entries.clear(),
            _ => damage::shorten(random, &mut c.qindex, n),
        }
    }
}

fn qindex_answered(c: QindexCase) -> Made {
    let refusal = refusals::of_qindex_grid(&c);
    let mut line = Line::new(2);
    line.unsigned(&[c.cells.0, c.cells.1, c.sub.0, c.sub.1, c.sb_cols]).list(&c.entries).list(&c.qindex);
    if let Some(r) = refusal {
        line.unsigned(&[r.no, r.place]);
        return Made { line, refusal, ..Made::default() };
    }
    let built = deblock::qindex_grid(&c.entries, c.sb_cols as usize, size(c.cells), size(c.sub));
    let qindex = qindex_over(&built, &c.qindex);
    line.unsigned(&[0, 0]).entries(&qindex);
    Made { line, refusal, changed: qindex != c.qindex, ..Made::default() }
}

/// Where a rectangle begins in so many rows or columns, and how many it has: empty, inside, up to the border, past it, beyond, and as far as numbers go.
fn part(random: &Random, n: u64) -> (u64, u64) {
    let far = random.one_of(&[1024, 1025, i32::MAX as u64, u32::MAX as u64]);
    let at = match random.below(8) {
        0 => n + random.below(3),
        1 => far,
        _ => random.below(n),
    };
    let count = match random.below(8) {
        0 => 0,
        1 => far,
        2 => n.saturating_sub(at),
        3 => n.saturating_sub(at) + 1,
        _ => random.below(n) + 1,
    };
    (at, count)
}

fn good_keep(random: &Random) -> KeepCase {
    let cells = if random.once_in(1500) { random.one_of(&[(1024, 1), (1, 1024)]) } else { cells(random) };
    let ((row, rows), (column, columns)) = (part(random, cells.1), part(random, cells.0));
    KeepCase { cells, row, column, size: (rows, columns), keep: keep::marks(random, cells) }
}

fn damaged_keep(random: &Random, c: &mut KeepCase) {
    let n = c.cells.0 * c.cells.1;
    for _ in 0..random.one_of(&[1, 1, 2, 3]) {
        match random.below(7) {
            0 => c.cells.0 = damage::count(random, 1024),
            1 => c.cells.1 = damage::count(random, 1024),
            2 => damage::shorten(random, &mut c.keep, n),
            _ => damage::keep(random, &mut c.keep, n),
        }
    }
}

/// Ticket 7's rectangle: every cell of the plane that lies in it is kept, and the others stay.
pub fn rectangle(c: &KeepCase) -> Vec<u8> {
    let within = |at: u64, first: u64, count: u64| first <= at && at - first < count;
    let inside = |cell: u64| within(cell / c.cells.0, c.row, c.size.0) && within(cell % c.cells.0, c.column, c.size.1);
    let mut marks = c.keep.clone();
    (0..c.cells.0 * c.cells.1).filter(|&cell| inside(cell)).for_each(|cell| marks[cell as usize] = 1);
    marks
}

/// Keep marks over a rectangle.
pub fn make_keep(random: &Random, refused: bool, _: Option<&[u32]>) -> Made {
    let mut c = good_keep(random);
    if refused {
        damaged_keep(random, &mut c);
    }
    let refusal = refusals::of_rectangle(&c);
    let mut line = Line::new(3);
    line.unsigned(&[c.cells.0, c.cells.1, c.row, c.column, c.size.0, c.size.1]).list(&c.keep);
    if let Some(r) = refusal {
        line.unsigned(&[r.no, r.place]);
        return Made { line, refusal, ..Made::default() };
    }
    let marks = rectangle(&c);
    line.unsigned(&[0, 0]).entries(&marks);
    Made { line, refusal, changed: marks != c.keep, ..Made::default() }
}

/// A case of either grid; the TU grid's with whole leaves alone where that is asked for, as records are.
pub fn either(random: &Random, refused: bool, whole: bool) -> Made {
    if random.once_in(3) {
        let mut c = good_qindex(random);
        if refused {
            damaged_qindex(random, &mut c);
        }
        return qindex_answered(c);
    }
    let mut c = good(random);
    if refused {
        damaged(random, &mut c);
    }
    if whole {
        c.leaves.truncate(c.leaves.len() / 4 * 4);
        c.skips.truncate(c.skips.len() / 4 * 4);
    }
    tx_answered(c)
}

pub fn make(random: &Random, refused: bool, _: Option<&[u32]>) -> Made {
    either(random, refused, false)
}
