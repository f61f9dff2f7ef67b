//! A whole plane: kind 2, answered by the Rust's deblock_plane in both directions.

use crate::line::Line;
use crate::random::Random;
use crate::refusals::{self, Layout, Refusal};
use crate::rust::deblock::{self, Counts, Leaf, Marks, Settings};
use crate::thresholds::{delta, DEPTHS};
use crate::{damage, keep, made::Made, picture, record, replay, rust, tiles};

#[derive(Clone)]
pub struct Case {
    pub cells: (u64, u64),
    pub stride: u64,
    pub size: (u64, u64),
    pub superblock: (u64, u64),
    pub chroma: bool,
    pub depth: u64,
    pub delta_q: i64,
    pub delta_side: i64,
    pub marks: Marks,
    pub qindex: Vec<u16>,
    /// The columns in which a tile starts.
    pub starts: Vec<u16>,
    /// A mark of 1 for each kept cell.
    pub keep: Vec<u8>,
    pub plane: Vec<u16>,
    pub steps: Vec<u32>,
}

impl Case {
    pub fn layout(&self) -> Layout<'_> {
        Layout {
            cells: self.cells,
            size: self.size,
            superblock_height: self.superblock.1,
            chroma: self.chroma,
            starts: &self.starts,
            vertical: &self.marks.vertical,
            horizontal: &self.marks.horizontal,
            width: &self.marks.width,
            height: &self.marks.height,
            keep: &self.keep,
        }
    }

    pub fn settings(&self) -> Settings {
        let pair = |p: (u64, u64)| (p.0 as usize, p.1 as usize);
        Settings {
            cells: pair(self.cells),
            stride: self.stride as usize,
            size: pair(self.size),
            superblock: pair(self.superblock),
            chroma: self.chroma,
            depth: self.depth,
            delta_q: self.delta_q,
            delta_side: self.delta_side,
        }
    }
}

/// Leaves as the Rust takes them.
pub fn tuples(leaves: &[u32]) -> Vec<Leaf> {
    leaves.chunks_exact(4).map(|l| (l[0] as usize, l[1] as usize, l[2] as usize, l[3] as usize)).collect()
}

/// A number of cells each way: small mostly, now and then up to 300 samples, rarely all there are.
pub fn cells(random: &Random) -> (u64, u64) {
    let small = (random.size(1, 10) as u64, random.size(1, 10) as u64);
    match random.below(100) {
        0 => (random.size(1, 75) as u64, small.1),
        1 => (small.0, random.size(1, 75) as u64),
        2..=9 => (random.size(1, 36) as u64, random.size(1, 36) as u64),
        _ => small,
    }
}

/// Marks as a coder's grid has them.
fn tiled(random: &Random, cells: (u64, u64)) -> Marks {
    let leaves = tuples(&picture::tiling(random, cells.0, cells.1));
    let cap = random.one_of(&[(8, 8), (16, 16), (8, 16), (2, 4), (1, 1)]);
    deblock::tx_grid(&leaves, &[], (cells.0 as usize, cells.1 as usize), (0, 0), cap)
}

/// Marks and indices with no plan behind them.
fn scattered(random: &Random, cells: (u64, u64)) -> Marks {
    let n = (cells.0 * cells.1) as usize;
    let highest = random.one_of(&[1, 2, 3, 4, 7]);
    let often = random.one_of(&[1, 2, 5]);
    let marks = |random: &Random| (0..n).map(|_| random.once_in(often) as u8).collect();
    let (vertical, horizontal) = (marks(random), marks(random));
    let indices = |random: &Random| random.list(n, highest).iter().map(|&i| i as u8).collect();
    Marks { vertical, horizontal, width: indices(random), height: indices(random) }
}

/// Tile starts: none half of the time.
pub fn starts(random: &Random, cols: u64) -> Vec<u16> {
    if random.once_in(2) { Vec::new() } else { some_starts(random, cols) }
}

/// Tile starts, at least one where there are two columns: all columns, every k-th, or any.
pub fn some_starts(random: &Random, cols: u64) -> Vec<u16> {
    if cols < 2 {
        return Vec::new();
    }
    let k = random.size(1, cols as usize - 1) as u64;
    let often = random.one_of(&[2, 3, 8]);
    let taken: Vec<u16> = match random.below(6) {
        0 => (1..cols).map(|column| column as u16).collect(),
        1 | 2 => (1..cols).filter(|column| column % k == 0).map(|column| column as u16).collect(),
        _ => (1..cols).filter(|_| random.once_in(often)).map(|column| column as u16).collect(),
    };
    if taken.is_empty() { vec![k as u16] } else { taken }
}

/// Takes off the marks of edges that lack room.
fn make_room(c: &mut Case) {
    for direction in 0..2 {
        for i in 0..c.cells.0 * c.cells.1 {
            if c.layout().lacks_room(direction, i / c.cells.0, i % c.cells.0) {
                let marks = if direction == 0 { &mut c.marks.vertical } else { &mut c.marks.horizontal };
                marks[i as usize] = 0;
            }
        }
    }
}

/// A size for the border test: near the plane's own mostly.
fn border(random: &Random, most: u64) -> u64 {
    match random.below(6) {
        0 => random.size(1, most as usize) as u64,
        _ => (most - random.below(8).min(most - 1)).max(1),
    }
}

fn good(random: &Random) -> Case {
    good_of(random, if random.once_in(1500) { random.one_of(&[(1024, 1), (1, 1024)]) } else { cells(random) })
}

/// A good plane of so many cells, but for marks that lack room.
fn good_of(random: &Random, cells: (u64, u64)) -> Case {
    let stride = if random.once_in(500) && cells.1 < 3 { 8192 } else { 4 * cells.0 + random.one_of(&[0, 0, 1, 4, 7]) };
    let depth = random.one_of(&DEPTHS);
    let spare = picture::spare(random);
    let n = (cells.0 * cells.1) as usize;
    let marks = if random.once_in(2) { tiled(random, cells) } else { scattered(random, cells) };
    let mut c = Case {
        cells,
        stride,
        size: (border(random, 4 * cells.0), border(random, 4 * cells.1)),
        superblock: (random.one_of(&[8, 16]), random.one_of(&[8, 16])),
        chroma: random.once_in(2),
        depth,
        delta_q: delta(random),
        delta_side: delta(random),
        marks,
        qindex: picture::qindices(random, n + spare),
        starts: starts(random, cells.0),
        keep: keep::marks(random, cells),
        plane: picture::samples(random, stride as usize, 4 * cells.1 as usize, depth, spare),
        steps: rust::quant::steps(),
    };
    match random.below(12) {
        0 => still(random, &mut c),
        1 => saturate(random, &mut c),
        _ => (),
    }
    lengthen(random, &mut c.marks);
    wild_padding(random, &mut c);
    c
}

/// Even blocks of four cells each way, of a size index that has a shortened pair, and a tile start in some of their columns: a pair that should be shortened and is not, or the other way round, shows.
fn tell(random: &Random, c: &mut Case) {
    light(random, c);
    let index = if c.chroma { random.size(1, 6) } else { random.size(3, 6) } as u8;
    c.marks.width.fill(index);
    c.marks.height.fill(index);
    for i in 0..(c.cells.0 * c.cells.1) as usize {
        let (row, column) = (i / c.cells.0 as usize, i % c.cells.0 as usize);
        c.marks.vertical[i] = (column % 4 == 0) as u8;
        c.marks.horizontal[i] = (row % 4 == 0) as u8;
    }
    c.plane = picture::even(random, c.stride as usize, c.plane.len(), c.depth, 16);
    c.starts.extend((4..c.cells.0).step_by(4).filter(|_| random.once_in(2)).map(|column| column as u16));
    c.starts.sort();
    c.starts.dedup();
}

/// Both thresholds of every edge are on.
fn light(random: &Random, c: &mut Case) {
    c.qindex.iter_mut().for_each(|q| *q = picture::lit(random));
    (c.delta_q, c.delta_side) = (0, 0);
}

/// Every edge stores, and no store changes its sample; a step of 1 is too small for the narrowest blocks.
fn still(random: &Random, c: &mut Case) {
    let step = random.below(2) as u16;
    if step == 1 {
        c.marks.width.fill(0);
        c.marks.height.fill(0);
    }
    light(random, c);
    c.plane = picture::still(random, c.stride as usize, c.plane.len(), c.depth, step);
}

/// Samples at both ends of the range.
fn saturate(random: &Random, c: &mut Case) {
    light(random, c);
    c.plane = picture::saturated(random, c.stride as usize, c.plane.len(), c.depth);
}

/// Lists longer than needed, with anything in what is not used.
fn lengthen(random: &Random, marks: &mut Marks) {
    for list in [&mut marks.vertical, &mut marks.horizontal, &mut marks.width, &mut marks.height] {
        let spare = picture::spare(random);
        list.extend(random.list(spare, 256).iter().map(|&n| n as u8));
    }
}

/// Samples between the rows may be above top.
fn wild_padding(random: &Random, c: &mut Case) {
    let used = (4 * c.cells.0) as usize;
    for i in 0..c.plane.len() {
        if i % c.stride as usize >= used && random.once_in(4) {
            c.plane[i] = 65535;
        }
    }
}

fn damaged(random: &Random, c: &mut Case) {
    let n = c.cells.0 * c.cells.1;
    for _ in 0..random.one_of(&[1, 1, 2, 3]) {
        match random.below(30) {
            0 => c.depth = damage::depth(random),
            1 => c.cells.0 = damage::count(random, 1024),
            2 => c.cells.1 = damage::count(random, 1024),
            3 => c.stride = damage::stride(random, 4 * c.cells.0),
            4 => c.size.0 = damage::count(random, 4 * c.cells.0),
            5 => c.size.1 = damage::count(random, 4 * c.cells.1),
            6 => c.superblock.0 = random.one_of(&[0, 1, 4, 7, 9, 15, 17, 32]),
            7 => c.superblock.1 = random.one_of(&[0, 1, 4, 7, 9, 15, 17, 32]),
            8 => damage::shorten(random, &mut c.marks.vertical, n),
            9 => damage::shorten(random, &mut c.marks.horizontal, n),
            10 => damage::shorten(random, &mut c.marks.width, n),
            11 => damage::shorten(random, &mut c.marks.height, n),
            12 => damage::shorten(random, &mut c.qindex, n),
            13 => damage::shorten(random, &mut c.plane, c.stride.saturating_mul(4).saturating_mul(c.cells.1)),
            14 => damage::steps(random, &mut c.steps),
            15 => c.delta_q = damage::delta(random),
            16 => c.delta_side = damage::delta(random),
            17 | 18 | 19 => bad_cells(random, &mut c.marks, n),
            24 | 25 => damage::starts(random, &mut c.starts, c.cells.0),
            26 | 27 => damage::keep(random, &mut c.keep, n),
            28 => damage::shorten(random, &mut c.keep, n),
            _ => {
                let limit = c.plane.len();
                damage::samples(random, &mut c.plane, limit, refusals::top(c.depth.min(12)));
            }
        }
    }
}

/// Some marks and indices out of range.
fn bad_cells(random: &Random, marks: &mut Marks, n: u64) {
    for _ in 0..random.size(1, 3) {
        let at = random.below(n) as usize;
        let (list, value) = match random.below(4) {
            0 => (&mut marks.vertical, random.one_of(&[2, 255])),
            1 => (&mut marks.horizontal, random.one_of(&[2, 255])),
            2 => (&mut marks.width, random.one_of(&[7, 255])),
            _ => (&mut marks.height, random.one_of(&[7, 255])),
        };
        if at < list.len() {
            list[at] = value;
        }
    }
}

pub fn make(random: &Random, refused: bool, _: Option<&[u32]>) -> Made {
    answered(case(random, refused))
}

/// A plane to be accepted or, if asked so, refused.
pub fn case(random: &Random, refused: bool) -> Case {
    finished(random, refused, good(random))
}

/// As `make`, on pictures of bins.
pub fn make_bins(random: &Random, refused: bool, _: Option<&[u32]>) -> Made {
    let mut c = good(random);
    c.plane = picture::bin(random, c.stride as usize, c.plane.len(), c.depth);
    answered(finished(random, refused, c))
}

/// Dark planes: every qindex is 0 and no delta is above 0, so that every threshold is 0. What is refused has a sample above top, and nothing else.
pub fn make_dark(random: &Random, refused: bool, _: Option<&[u32]>) -> Made {
    let mut c = good(random);
    c.qindex.fill(0);
    c.delta_q = -(random.below(129) as i64);
    c.delta_side = -(random.below(129) as i64);
    make_room(&mut c);
    if refused {
        let (x, y) = (random.below(4 * c.cells.0), random.below(4 * c.cells.1));
        c.plane[(y * c.stride + x) as usize] = random.one_of(&[refusals::top(c.depth) + 1, 65535]) as u16;
    }
    let made = answered(c);
    assert!(!made.changed && made.counts.is_none_or(|counts| counts.stored == 0), "a dark plane was stored to");
    made
}

/// Planes with tile starts, now and then as wide as can be; what is refused has a bad list of them, and nothing else.
pub fn make_tiles(random: &Random, refused: bool, _: Option<&[u32]>) -> Made {
    let mut c = with_tiles(random);
    if refused {
        damage::starts(random, &mut c.starts, c.cells.0);
    }
    answered(c)
}

/// A plane with tile starts, to be accepted.
pub fn with_tiles(random: &Random) -> Case {
    let telling = random.once_in(2);
    let cells = match random.below(60) {
        0 => (1024, random.one_of(&[1, 1, 2])),
        _ if telling => (random.size(5, 20) as u64, random.size(1, 6) as u64),
        _ => cells(random),
    };
    let mut c = good_of(random, cells);
    c.starts = some_starts(random, cells.0);
    if telling {
        tell(random, &mut c);
    }
    make_room(&mut c);
    c
}

/// Planes with kept cells, half of them even blocks whose edges store as far as they can; what is refused has a bad mark among them, or too few, and nothing else.
pub fn make_keep(random: &Random, refused: bool, _: Option<&[u32]>) -> Made {
    let mut c = with_keep(random);
    if refused {
        spoil_keep(random, &mut c.keep, c.cells);
    }
    answered(c)
}

/// A fault in a list of keep marks.
pub fn spoil_keep(random: &Random, marks: &mut Vec<u8>, cells: (u64, u64)) {
    let n = cells.0 * cells.1;
    if random.once_in(3) { damage::shorten(random, marks, n) } else { damage::keep(random, marks, n) }
}

/// A plane with kept cells, to be accepted.
pub fn with_keep(random: &Random) -> Case {
    let telling = random.once_in(2);
    let cells = if telling { (random.size(5, 20) as u64, random.size(1, 6) as u64) } else { cells(random) };
    let mut c = good_of(random, cells);
    if telling {
        tell(random, &mut c);
    }
    make_room(&mut c);
    let marks = if random.once_in(3) { keep::near(random, &c) } else { keep::some(random, cells) };
    c.keep = keep::lengthened(random, marks);
    c
}

/// A plane to be accepted, two of three of them one to six cells high; every third has even blocks whose edges store as far as they can, and every second has no tile start and no kept cell.
pub fn with_few_rows(random: &Random) -> Case {
    let cells = match random.below(1500) {
        0 => (random.one_of(&[1, 2]), 1024),
        1..=1000 => (random.size(1, 12) as u64, random.size(1, 6) as u64),
        _ => cells(random),
    };
    let mut c = good_of(random, cells);
    if random.once_in(3) {
        tell(random, &mut c);
    }
    if random.once_in(2) {
        c = tiles::bare(&keep::open(&c));
    }
    make_room(&mut c);
    c
}

/// Chroma planes whose column 1 starts a tile and has a marked edge between blocks of index 2 to 6: its pair 6,10 reaches 3 before the edge. What is
/// refused is the same without that start: there the pair is 10,10 and reaches 5, where only 4 samples are.
pub fn make_room_at_one(random: &Random, refused: bool, _: Option<&[u32]>) -> Made {
    let cells = (random.size(3, 10) as u64, random.size(1, 4) as u64);
    let mut c = good_of(random, cells);
    (c.chroma, c.size.0) = (true, 4 * cells.0);
    for i in 0..(cells.0 * cells.1) as usize {
        c.marks.width[i] = random.size(2, 6) as u8;
    }
    (0..cells.1).for_each(|row| c.marks.vertical[(row * cells.0 + 1) as usize] = 1);
    c.starts = some_starts(random, cells.0);
    c.starts.retain(|&s| s != 1);
    c.starts.insert(0, 1);
    make_room(&mut c);
    assert!(c.layout().edge(0, 0, 1).is_some_and(|e| e.lengths == (6, 10)), "an edge in column 1 lacks room though a tile starts there");
    if refused {
        c.starts.remove(0);
    }
    answered(c)
}

fn finished(random: &Random, refused: bool, mut c: Case) -> Case {
    // A third of the refused cases lack room alone, a third lack nothing else.
    let kind = if refused { random.below(3) } else { 2 };
    if kind == 2 {
        make_room(&mut c);
    }
    if refused && kind > 0 {
        damaged(random, &mut c);
    }
    c
}

/// What is asked of a plane, in a line of a kind.
pub fn asked(c: &Case, kind: u64) -> Line {
    let mut line = Line::new(kind);
    line.unsigned(&[c.cells.0, c.cells.1, c.stride, c.size.0, c.size.1, c.superblock.0, c.superblock.1])
        .unsigned(&[c.chroma as u64, c.depth])
        .signed(&[c.delta_q, c.delta_side])
        .list(&c.marks.vertical)
        .list(&c.marks.horizontal)
        .list(&c.marks.width)
        .list(&c.marks.height)
        .list(&c.qindex)
        .list(&c.starts)
        .list(&c.keep)
        .list(&c.plane);
    line
}

/// The Rust's plane, with tile starts or kept cells by the readings that are held to it; and its stores: those of its segments in document 01's order, which must leave the same plane.
/// The plain order, which is the Rust's with one superblock across, must leave and store the same.
pub fn filtered(c: &Case) -> (Vec<u16>, Counts) {
    assert!(tiles::holds_bare(c) && tiles::holds_turned(c) != Some(false), "the reading of tile starts is not the Rust's");
    assert!(keep::holds(c) != Some(false), "the reading of kept cells is not the Rust's");
    let plane = tiles::read(c);
    let run = |c: &Case| replay::run(record::entries(c), c.stride, c.depth, &c.plane, keep::of(c));
    let (seen, counts) = run(c);
    assert!(seen == plane, "the segments that were watched left another plane");
    let plain = tiles::plain(c);
    assert!(tiles::holds_bare(&plain) && tiles::read(&plain) == plane, "the plain order leaves another plane");
    assert!(run(&plain) == (seen, counts), "the plain order has other counts");
    (plane, counts)
}

/// A refused plane.
pub fn refused(line: Line, refusal: Option<Refusal>, c: Case) -> Made {
    let keep = keep::any(&c.keep, c.cells.0.saturating_mul(c.cells.1)).then_some(false);
    Made { line, refusal, starts: c.starts.first().map(|_| false), keep, steps: Some(c.steps), ..Made::default() }
}

/// An accepted plane and what was stored.
pub fn accepted(line: Line, plane: Vec<u16>, counts: Counts, c: Case) -> Made {
    let (starts, keep) = (tiles::matter(&c, &plane), keep::matter(&c, &plane));
    Made { line, changed: plane != c.plane, counts: Some(counts), starts, keep, steps: Some(c.steps), ..Made::default() }
}

fn answered(c: Case) -> Made {
    let refusal = refusals::of_plane(&c);
    let mut line = asked(&c, 2);
    if let Some(r) = refusal {
        line.unsigned(&[r.no, r.place, 0, 0]);
        return refused(line, refusal, c);
    }
    let (plane, counts) = filtered(&c);
    line.unsigned(&[0, 0, counts.stored, counts.changed]).entries(&plane);
    accepted(line, plane, counts, c)
}
