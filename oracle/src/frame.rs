//! A whole frame: kind 2, answered by the Rust's deblock_frame.

use crate::grid::{self, size, SUBSAMPLINGS};
use crate::line::Line;
use crate::plane::{self, tuples};
use crate::random::Random;
use crate::refusals::{self, Layout};
use crate::rust::deblock::{self, Counts, Frame, Marks};
use crate::thresholds::{delta, DEPTHS};
use crate::{damage, keep, made::Made, picture, rust, tiles};

/// A plane kind's five lists.
pub struct Grid {
    pub marks: Marks,
    pub qindex: Vec<u16>,
}

pub struct Case {
    pub size: (u64, u64),
    pub sub: (u64, u64),
    pub chroma: (bool, bool),
    pub depth: u64,
    pub deltas: (i64, i64),
    pub strides: (u64, u64),
    pub cap: (u64, u64),
    pub chroma_cap: (u64, u64),
    pub entries: Vec<u16>,
    pub leaves: Vec<u32>,
    pub chroma_leaves: Vec<u32>,
    pub skips: Vec<u32>,
    pub planes: [Vec<u16>; 3],
    /// The columns in which a tile starts, of luma and of chroma.
    pub starts: [Vec<u16>; 2],
    /// Keep marks, of luma and of chroma.
    pub keep: [Vec<u8>; 2],
    pub luma_grid: Grid,
    pub chroma_grid: Grid,
    pub steps: Vec<u32>,
}

/// A size rounded up to 8, over 4.
fn cells(n: u64) -> u64 {
    n.div_ceil(8) * 2
}

impl Case {
    pub fn luma_cells(&self) -> (u64, u64) {
        (cells(self.size.0), cells(self.size.1))
    }

    pub fn chroma_cells(&self) -> (u64, u64) {
        (cells((self.size.0 + self.sub.0) >> self.sub.0), cells((self.size.1 + self.sub.1) >> self.sub.1))
    }

    fn uses_chroma(&self) -> bool {
        self.chroma.0 && self.chroma.1
    }

    /// The grids that the leaves and entries build, for one plane kind.
    pub fn build(&self, chroma: bool) -> Grid {
        let (cells, sub, cap, leaves) = if chroma {
            (self.chroma_cells(), self.sub, self.chroma_cap, &self.chroma_leaves)
        } else {
            (self.luma_cells(), (0, 0), self.cap, &self.leaves)
        };
        let sb_cols = self.size.0.div_ceil(64) as usize;
        Grid {
            marks: deblock::tx_grid(&tuples(leaves), &tuples(&self.skips), size(cells), size(sub), size(cap)),
            qindex: deblock::qindex_grid(&self.entries, sb_cols, size(cells), size(sub)),
        }
    }

    /// One of the planes as a case of its own, over the grid that is built for it.
    fn alone(&self, k: usize) -> plane::Case {
        let chroma = k > 0;
        let built = self.build(chroma);
        let (size, cells) = (self.layout(&built, chroma).size, if chroma { self.chroma_cells() } else { self.luma_cells() });
        let sub = if chroma { self.sub } else { (0, 0) };
        let delta = if chroma { self.deltas.1 } else { self.deltas.0 };
        plane::Case {
            cells,
            stride: if chroma { self.strides.1 } else { self.strides.0 },
            size,
            superblock: (16 >> sub.0, 16 >> sub.1),
            chroma,
            depth: self.depth,
            delta_q: delta,
            delta_side: delta,
            marks: built.marks,
            qindex: built.qindex,
            starts: self.starts[chroma as usize].clone(),
            keep: self.keep[chroma as usize].clone(),
            plane: self.planes[k].clone(),
            steps: self.steps.clone(),
        }
    }

    /// The plane kind's edges: the border is luma's size rounded up to 8, shifted for chroma.
    pub fn layout<'a>(&'a self, grid: &'a Grid, chroma: bool) -> Layout<'a> {
        let sub = if chroma { self.sub } else { (0, 0) };
        let border = |n: u64, shift: u64| (n.div_ceil(8) * 8) >> shift;
        Layout {
            cells: if chroma { self.chroma_cells() } else { self.luma_cells() },
            size: (border(self.size.0, sub.0), border(self.size.1, sub.1)),
            superblock_height: 16 >> sub.1,
            chroma,
            starts: &self.starts[chroma as usize],
            vertical: &grid.marks.vertical,
            horizontal: &grid.marks.horizontal,
            width: &grid.marks.width,
            height: &grid.marks.height,
            keep: &self.keep[chroma as usize],
        }
    }
}

fn length(random: &Random) -> u64 {
    match random.below(60) {
        0 => random.size(1, 300) as u64,
        1..=5 => random.size(1, 140) as u64,
        _ => random.size(1, 48) as u64,
    }
}

fn lent_grid(random: &Random, cells: (u64, u64)) -> Grid {
    let n = (cells.0 * cells.1) as usize;
    let spare = picture::spare(random);
    Grid {
        marks: grid::contents(random, n),
        qindex: random.list(n + spare, 65536).iter().map(|&q| q as u16).collect(),
    }
}

fn empty_grid() -> Grid {
    let none = Marks { vertical: Vec::new(), horizontal: Vec::new(), width: Vec::new(), height: Vec::new() };
    Grid { marks: none, qindex: Vec::new() }
}

/// Leaves of a partition that are coded as skipped.
fn skips(random: &Random, leaves: &[u32]) -> Vec<u32> {
    let often = random.one_of(&[2, 5, 1000]);
    leaves.chunks_exact(4).filter(|_| random.once_in(often)).flat_map(|l| [l[0], l[1], l[2] & !4096, l[3] & !4096]).collect()
}

fn stride(random: &Random, least: u64) -> u64 {
    least + random.one_of(&[0, 0, 1, 4, 7])
}

fn good(random: &Random) -> Case {
    good_of(random, (length(random), length(random)))
}

/// A good frame of a size.
fn good_of(random: &Random, size: (u64, u64)) -> Case {
    let mut c = Case {
        size,
        sub: random.one_of(&SUBSAMPLINGS),
        chroma: (!random.once_in(6), !random.once_in(6)),
        depth: random.one_of(&DEPTHS),
        deltas: (delta(random), delta(random)),
        strides: (0, 0),
        cap: (grid::cap(random), grid::cap(random)),
        chroma_cap: (grid::cap(random), grid::cap(random)),
        entries: Vec::new(),
        leaves: Vec::new(),
        chroma_leaves: Vec::new(),
        skips: Vec::new(),
        planes: [Vec::new(), Vec::new(), Vec::new()],
        starts: [Vec::new(), Vec::new()],
        keep: [Vec::new(), Vec::new()],
        luma_grid: empty_grid(),
        chroma_grid: empty_grid(),
        steps: rust::quant::steps(),
    };
    fill_luma(random, &mut c);
    fill_chroma(random, &mut c);
    c.starts = [plane::starts(random, c.luma_cells().0), plane::starts(random, c.chroma_cells().0)];
    c.keep = [keep::marks(random, c.luma_cells()), keep::marks(random, c.chroma_cells())];
    spoil_unused(random, &mut c);
    match random.below(12) {
        0 => light(random, &mut c, |random, stride, n, depth| picture::still(random, stride, n, depth, 0)),
        1 => light(random, &mut c, picture::saturated),
        _ => (),
    }
    c
}

/// A frame that leaves chroma alone takes any list of its tile starts and of its keep marks.
fn spoil_unused(random: &Random, c: &mut Case) {
    if !c.uses_chroma() && random.once_in(2) {
        let cells = c.chroma_cells();
        damage::starts(random, &mut c.starts[1], cells.0);
        plane::spoil_keep(random, &mut c.keep[1], cells);
    }
}

/// Even blocks of eight luma cells each way, with a tile start in some of their columns: one that is not minded shows.
fn tell(random: &Random, c: &mut Case) {
    let cells = c.luma_cells();
    let corners = (0..cells.1).step_by(8).flat_map(|row| (0..cells.0).step_by(8).map(move |column| (row as u32, column as u32)));
    c.leaves = corners.flat_map(|(row, column)| [row, column, 8, 8]).collect();
    (c.chroma_leaves, c.skips) = (c.leaves.clone(), Vec::new());
    (c.cap, c.chroma_cap) = ((16, 16), (16, 16));
    for (k, sub) in [0, c.sub.0].into_iter().enumerate() {
        c.starts[k] = (1..c.luma_cells().0.div_ceil(8)).filter(|_| random.once_in(2)).map(|n| (8 * n >> sub) as u16).collect();
    }
    let block = 32 >> c.sub.0;
    light(random, c, |random, stride, n, depth| picture::even(random, stride, n, depth, 32));
    for k in 1..if c.planes[1].is_empty() { 1 } else { 3 } {
        c.planes[k] = picture::even(random, c.strides.1 as usize, c.planes[k].len(), c.depth, block);
    }
}

/// Planes of a kind, with both thresholds of every edge on.
fn light(random: &Random, c: &mut Case, plane: fn(&Random, usize, usize, u64) -> Vec<u16>) {
    c.entries.iter_mut().for_each(|q| *q = picture::lit(random));
    c.deltas = (0, 0);
    redraw(random, c, plane);
}

/// Every plane that is lent, drawn anew.
fn redraw(random: &Random, c: &mut Case, plane: fn(&Random, usize, usize, u64) -> Vec<u16>) {
    for (k, stride) in [c.strides.0, c.strides.1, c.strides.1].into_iter().enumerate() {
        if !c.planes[k].is_empty() {
            c.planes[k] = plane(random, stride as usize, c.planes[k].len(), c.depth);
        }
    }
}

fn fill_luma(random: &Random, c: &mut Case) {
    let cells = c.luma_cells();
    c.strides.0 = stride(random, 4 * cells.0);
    let blocks = (c.size.0.div_ceil(64) * c.size.1.div_ceil(64)) as usize;
    let spare = picture::spare(random);
    c.entries = picture::qindices(random, blocks + spare);
    c.leaves = picture::tiling(random, cells.0, cells.1);
    c.skips = skips(random, &c.leaves);
    c.planes[0] = picture::samples(random, c.strides.0 as usize, 4 * cells.1 as usize, c.depth, spare);
    c.luma_grid = lent_grid(random, cells);
}

/// Chroma's lists; where the frame leaves chroma alone they may be empty, and its stride anything.
fn fill_chroma(random: &Random, c: &mut Case) {
    let luma = c.luma_cells();
    c.chroma_leaves = if random.once_in(2) { c.leaves.clone() } else { picture::tiling(random, luma.0, luma.1) };
    if !c.uses_chroma() && random.once_in(2) {
        c.strides.1 = random.one_of(&[0, 1, 8193, u32::MAX as u64]);
        return;
    }
    let cells = c.chroma_cells();
    c.strides.1 = stride(random, 4 * cells.0);
    for plane in 1..3 {
        let spare = picture::spare(random);
        c.planes[plane] = picture::samples(random, c.strides.1 as usize, 4 * cells.1 as usize, c.depth, spare);
    }
    c.chroma_grid = lent_grid(random, cells);
}

/// One of the five lists of a grid, cut short.
fn shorten_grid(random: &Random, g: &mut Grid) {
    let n = g.marks.vertical.len() as u64;
    match random.below(5) {
        0 => damage::shorten(random, &mut g.marks.vertical, n),
        1 => damage::shorten(random, &mut g.marks.horizontal, n),
        2 => damage::shorten(random, &mut g.marks.width, n),
        3 => damage::shorten(random, &mut g.marks.height, n),
        _ => damage::shorten(random, &mut g.qindex, n),
    }
}

/// Large leaves where no partition puts them, so that edges lack room; luma's, chroma's or both.
fn crowd(random: &Random, c: &mut Case) {
    let (columns, rows) = c.luma_cells();
    for _ in 0..random.size(1, 4) {
        let from_end = |n: u64| n.saturating_sub(1 + random.below(3));
        let (row, column) = random.one_of(&[(0, random.below(4)), (random.below(4), 0), (0, from_end(columns)), (from_end(rows), 0)]);
        let leaf = [row as u32, column as u32, 1 << random.size(1, 4), 1 << random.size(1, 4)];
        let before = [row as u32, 0, 4, 16];
        match random.below(3) {
            0 => c.leaves.extend(leaf),
            1 => c.chroma_leaves.extend(leaf),
            _ => c.skips.extend([before, leaf].concat()),
        }
    }
}

fn damaged(random: &Random, c: &mut Case) {
    for _ in 0..random.one_of(&[1, 1, 2, 3]) {
        if random.once_in(2) {
            damaged_settings(random, c);
        } else {
            damaged_lists(random, c);
        }
    }
}

fn damaged_settings(random: &Random, c: &mut Case) {
    let cols = [c.luma_cells().0, c.chroma_cells().0];
    match random.below(16) {
        0 => c.depth = damage::depth(random),
        1 => c.size.0 = damage::count(random, 4096),
        2 => c.size.1 = damage::count(random, 4096),
        3 => c.sub = damage::subsampling(random),
        4 => c.strides.0 = random.one_of(&[0, (c.strides.0 - c.strides.0 % 8).saturating_sub(1), 8193]),
        5 => c.strides.1 = random.one_of(&[0, (c.strides.1 - c.strides.1 % 8).saturating_sub(1), 8193]),
        6 => c.deltas.0 = damage::delta(random),
        7 => c.deltas.1 = damage::delta(random),
        8 => c.cap.0 = damage::cap(random),
        9 => c.cap.1 = damage::cap(random),
        10 => c.chroma_cap.0 = damage::cap(random),
        11 => damage::starts(random, &mut c.starts[0], cols[0]),
        12 => damage::starts(random, &mut c.starts[1], cols[1]),
        13 | 14 => spoil_keep(random, c),
        _ => c.chroma_cap.1 = damage::cap(random),
    }
}

/// A fault in the keep marks of luma or of chroma, whatever else is wrong.
fn spoil_keep(random: &Random, c: &mut Case) {
    let which = random.below(2) as usize;
    let n = c.keep[which].len() as u64;
    if n > 0 {
        plane::spoil_keep(random, &mut c.keep[which], (n, 1));
    }
}

fn damaged_lists(random: &Random, c: &mut Case) {
    let which = random.below(3) as usize;
    let leaf = if which == 2 && random.once_in(2) { grid::whole_skip(random) } else { picture::bad_leaf(random) };
    // A leaf that no partition has: its edges may lack room.
    let stray = picture::stray_leaf(random, 4, 4).map(|n| n & !4096);
    let top = refusals::top(c.depth.min(12));
    match random.below(14) {
        0 => {
            let needed = c.entries.len() as u64;
            damage::shorten(random, &mut c.entries, needed);
        }
        1 => damage::steps(random, &mut c.steps),
        2 => grid::rag(random, [&mut c.leaves, &mut c.chroma_leaves, &mut c.skips][which]),
        3 | 4 => grid::spoil_leaves(random, [&mut c.leaves, &mut c.chroma_leaves, &mut c.skips][which], leaf),
        5 | 6 | 10 | 11 => [&mut c.leaves, &mut c.chroma_leaves, &mut c.skips][which].extend(stray),
        7 => {
            let needed = c.planes[which].len() as u64;
            damage::shorten(random, &mut c.planes[which], needed);
        }
        8 => shorten_grid(random, if random.once_in(2) { &mut c.luma_grid } else { &mut c.chroma_grid }),
        _ => {
            let limit = c.planes[which].len();
            damage::samples(random, &mut c.planes[which], limit, top);
        }
    }
}

pub fn make(random: &Random, refused: bool, _: Option<&[u32]>) -> Made {
    finished(random, refused, good(random))
}

/// As `make`, on pictures of bins.
pub fn make_bins(random: &Random, refused: bool, _: Option<&[u32]>) -> Made {
    let mut c = good(random);
    redraw(random, &mut c, picture::bin);
    finished(random, refused, c)
}

/// Frames with kept cells of luma and chroma, half of them even blocks; what is refused has a bad mark among them, or too few, and nothing else.
pub fn make_keep(random: &Random, refused: bool, _: Option<&[u32]>) -> Made {
    let telling = random.once_in(2);
    let mut c = if telling { good_of(random, (random.size(49, 150) as u64, length(random))) } else { good(random) };
    if telling {
        tell(random, &mut c);
    }
    let cells = [c.luma_cells(), c.chroma_cells()];
    let kept = random.below(3) as usize;
    for k in (0..2).filter(|&k| k != kept) {
        c.keep[k] = keep::lengthened(random, keep::some(random, cells[k]));
    }
    spoil_unused(random, &mut c);
    if refused {
        let which = (c.uses_chroma() && random.once_in(2)) as usize;
        plane::spoil_keep(random, &mut c.keep[which], cells[which]);
    }
    answered(c)
}

/// Frames with tile starts of luma and chroma; what is refused has a bad list of them, and nothing else.
pub fn make_tiles(random: &Random, refused: bool, _: Option<&[u32]>) -> Made {
    let telling = random.once_in(2);
    let mut c = if telling { good_of(random, (random.size(49, 150) as u64, length(random))) } else { good(random) };
    let cols = [c.luma_cells().0, c.chroma_cells().0];
    c.starts = cols.map(|cols| plane::some_starts(random, cols));
    if telling {
        tell(random, &mut c);
    }
    spoil_unused(random, &mut c);
    if refused {
        let which = (c.uses_chroma() && random.once_in(2)) as usize;
        damage::starts(random, &mut c.starts[which], cols[which]);
    }
    answered(c)
}

fn finished(random: &Random, refused: bool, mut c: Case) -> Made {
    if refused && random.once_in(3) {
        crowd(random, &mut c);
    } else if refused {
        damaged(random, &mut c);
    }
    answered(c)
}

fn filtered(c: &Case) -> [Vec<u16>; 3] {
    let (leaves, chroma_leaves, skips) = (tuples(&c.leaves), tuples(&c.chroma_leaves), tuples(&c.skips));
    let frame = Frame {
        size: size(c.size),
        sub: size(c.sub),
        chroma: c.chroma,
        depth: c.depth,
        deltas: c.deltas,
        strides: size(c.strides),
        cap: size(c.cap),
        chroma_cap: size(c.chroma_cap),
        entries: &c.entries,
        leaves: &leaves,
        chroma_leaves: &chroma_leaves,
        skips: &skips,
    };
    deblock::frame(&frame, &c.planes)
}

/// What a frame's run leaves and stores.
struct Done {
    planes: [Vec<u16>; 3],
    counts: Counts,
    /// Of a frame with tile starts: whether a plane would end otherwise without them.
    starts: Option<bool>,
    /// Of a frame with kept cells: likewise.
    keep: Option<bool>,
}

/// Whether something matters to one plane more.
fn joined(so_far: Option<bool>, more: Option<bool>) -> Option<bool> {
    more.map_or(so_far, |matters| Some(matters || so_far == Some(true)))
}

/// Each filtered plane by itself over the built grid, with its tile starts and keep marks; without these it must be the Rust's plane of the frame.
fn watched(c: &Case) -> Done {
    let rust = filtered(c);
    let mut done = Done { planes: c.planes.clone(), counts: Counts::default(), starts: None, keep: None };
    for k in 0..if c.uses_chroma() { 3 } else { 1 } {
        let alone = c.alone(k);
        let (plane, more) = plane::filtered(&alone);
        assert!(tiles::read(&tiles::bare(&keep::open(&alone))) == rust[k], "a plane of a frame is another when it is run alone");
        done.starts = joined(done.starts, tiles::matter(&alone, &plane));
        done.keep = joined(done.keep, keep::matter(&alone, &plane));
        done.planes[k] = plane;
        done.counts.add(more);
    }
    done
}

fn write_grid(line: &mut Line, g: &Grid) {
    line.list(&g.marks.vertical).list(&g.marks.horizontal).list(&g.marks.width).list(&g.marks.height).list(&g.qindex);
}

/// A grid's five lists as the frame leaves them.
fn write_built(line: &mut Line, c: &Case, chroma: bool) {
    let lent = if chroma { &c.chroma_grid } else { &c.luma_grid };
    let (marks, qindex) = if chroma && !c.uses_chroma() {
        (lent.marks.clone(), lent.qindex.clone())
    } else {
        let built = c.build(chroma);
        (grid::marks_over(&built.marks, &lent.marks), grid::qindex_over(&built.qindex, &lent.qindex))
    };
    line.entries(&marks.vertical).entries(&marks.horizontal).entries(&marks.width).entries(&marks.height).entries(&qindex);
}

fn answered(c: Case) -> Made {
    let refusal = refusals::of_frame(&c);
    let mut line = Line::new(2);
    line.unsigned(&[c.size.0, c.size.1, c.sub.0, c.sub.1, c.chroma.0 as u64, c.chroma.1 as u64, c.depth])
        .signed(&[c.deltas.0, c.deltas.1])
        .unsigned(&[c.strides.0, c.strides.1, c.cap.0, c.cap.1, c.chroma_cap.0, c.chroma_cap.1])
        .list(&c.entries)
        .list(&c.leaves)
        .list(&c.chroma_leaves)
        .list(&c.skips);
    for plane in &c.planes {
        line.list(plane);
    }
    write_grid(&mut line, &c.luma_grid);
    write_grid(&mut line, &c.chroma_grid);
    line.list(&c.starts[0]).list(&c.starts[1]).list(&c.keep[0]).list(&c.keep[1]);
    let done = refusal.is_none().then(|| watched(&c));
    let counts = done.as_ref().map(|d| d.counts);
    let (no, place) = refusal.map_or((0, 0), |r| (r.no, r.place));
    line.unsigned(&[no, place]).unsigned(&counts.map_or([0, 0], |n| [n.stored, n.changed]));
    let changed = done.as_ref().is_some_and(|d| d.planes != c.planes);
    for plane in done.iter().flat_map(|d| &d.planes) {
        line.entries(plane);
    }
    if refusal.is_none_or(|r| r.no == 7 || r.no == 8) {
        write_built(&mut line, &c, false);
        write_built(&mut line, &c, true);
    }
    let lent = (c.starts.iter().any(|list| !list.is_empty()), c.keep.iter().any(|list| keep::any(list, list.len() as u64)));
    let (starts, keep) = done.map_or((lent.0.then_some(false), lent.1.then_some(false)), |d| (d.starts, d.keep));
    Made { line, refusal, changed, counts, starts, keep, steps: Some(c.steps), ..Made::default() }
}
