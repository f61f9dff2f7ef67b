//! Document 01's refusals in their order, read from its text alone: which number is given, and with which place.

use crate::{ccso, frame, grid, plane, rows, segment, thresholds};

#[derive(Clone, Copy, PartialEq, Debug)]
pub struct Refusal {
    pub no: u64,
    pub place: u64,
}

fn refuse(no: u64, bad: bool) -> Option<Refusal> {
    bad.then_some(Refusal { no, place: 0 })
}

fn refuse_at(no: u64, place: Option<u64>) -> Option<Refusal> {
    place.map(|place| Refusal { no, place })
}

fn outside(n: u64, low: u64, high: u64) -> bool {
    n < low || n > high
}

fn outside_signed(n: i64, low: i64, high: i64) -> bool {
    n < low || n > high
}

/// 1: depth is not 8, 10, 12.
fn depth(depth: u64) -> Option<Refusal> {
    refuse(1, ![8, 10, 12].contains(&depth))
}

pub fn top(depth: u64) -> u64 {
    (1 << depth) - 1
}

fn bad_subsampling(sub: (u64, u64)) -> bool {
    ![(0, 0), (1, 0), (1, 1)].contains(&sub)
}

fn bad_cells(cells: (u64, u64)) -> bool {
    outside(cells.0, 1, 1024) || outside(cells.1, 1, 1024)
}

fn short<T>(list: &[T], needed: u64) -> bool {
    (list.len() as u64) < needed
}

/// 4: the step table, with its first bad entry.
fn steps(steps: &[u32]) -> Option<Refusal> {
    if steps.len() != 352 {
        return refuse(4, true);
    }
    let bad = |i: usize| (i == 0 && steps[0] != 64) || steps[i] > 1_048_576;
    refuse_at(4, (0..352).find(|&i| bad(i)).map(|i| i as u64))
}

fn bad_delta(delta: i64) -> bool {
    outside_signed(delta, -128, 127)
}

/// Ticket 5: tile starts rise strictly, each above 0 and below the columns of cells.
fn bad_starts(starts: &[u16], cols: u64) -> bool {
    starts.iter().any(|&s| outside(s as u64, 1, cols - 1)) || starts.windows(2).any(|two| two[0] >= two[1])
}

pub fn of_thresholds(c: &thresholds::Case) -> Option<Refusal> {
    depth(c.depth)
        .or_else(|| steps(&c.steps))
        .or_else(|| refuse(5, bad_delta(c.delta_q) || bad_delta(c.delta_side)))
}

/// The lengths of a pair number, before and after.
pub const PAIRS: [(u64, u64); 8] = [(4, 4), (8, 8), (14, 14), (18, 18), (14, 18), (10, 10), (6, 8), (6, 10)];

/// How far a side of a length reaches.
pub fn reach(length: u64) -> u64 {
    match length {
        4 | 6 => 3,
        8 => 4,
        10 => 5,
        14 => 7,
        18 => 8,
        _ => unreachable!("no pair has a side of length {length}"),
    }
}

/// An edge's place and direction in a plane, direction 0 being a vertical edge.
#[derive(Clone, Copy)]
pub struct Edge {
    pub x: u64,
    pub y: u64,
    pub direction: u64,
    pub lengths: (u64, u64),
}

/// An edge has room when its four lines and both reaches along them lie in the plane.
pub fn has_room(e: &Edge, columns: u64, rows: u64) -> bool {
    let (before, after) = (reach(e.lengths.0), reach(e.lengths.1));
    if e.direction == 0 {
        e.y + 4 <= rows && e.x >= before && e.x + after <= columns
    } else {
        e.x + 4 <= columns && e.y >= before && e.y + after <= rows
    }
}

/// The first sample above top among those named, which come row by row.
fn too_large(plane: &[u16], top: u64, mut places: impl Iterator<Item = u64>) -> Option<u64> {
    places.find(|&p| plane[p as usize] as u64 > top)
}

/// The places of a rectangle, row by row.
fn rectangle(stride: u64, columns: std::ops::Range<u64>, rows: std::ops::Range<u64>) -> impl Iterator<Item = u64> {
    rows.flat_map(move |r| columns.clone().map(move |c| r * stride + c))
}

/// The samples that a segment may look at.
pub fn segment_places(e: &Edge, stride: u64) -> impl Iterator<Item = u64> {
    let (before, after) = (reach(e.lengths.0), reach(e.lengths.1));
    if e.direction == 0 {
        rectangle(stride, e.x - before..e.x + after, e.y..e.y + 4)
    } else {
        rectangle(stride, e.x..e.x + 4, e.y - before..e.y + after)
    }
}

pub fn of_segment(c: &segment::Case) -> Option<Refusal> {
    depth(c.depth)
        .or_else(|| refuse(2, outside(c.columns, 1, 4096) || outside(c.rows, 1, 4096) || outside(c.stride, c.columns, 8192)))
        .or_else(|| refuse(3, short(&c.plane, c.stride * c.rows)))
        .or_else(|| refuse(5, c.q > 2048 || c.side > 839 || c.pair > 7 || c.direction > 1))
        .or_else(|| refuse(7, !has_room(&c.edge(), c.columns, c.rows)))
        .or_else(|| refuse_at(8, too_large(&c.plane, top(c.depth), segment_places(&c.edge(), c.stride))))
}

/// The length ladder.
fn lengths(m: u8, chroma: bool, shortened: bool) -> (u64, u64) {
    match (m, chroma, shortened) {
        (0, _, _) => (4, 4),
        (1, true, true) => (6, 8),
        (1, _, _) => (8, 8),
        (_, true, false) => (10, 10),
        (_, true, true) => (6, 10),
        (2, false, _) => (14, 14),
        (_, false, false) => (18, 18),
        (_, false, true) => (14, 18),
    }
}

/// What the edges of a plane depend on.
pub struct Layout<'a> {
    pub cells: (u64, u64),
    pub size: (u64, u64),
    pub superblock_height: u64,
    pub chroma: bool,
    pub starts: &'a [u16],
    pub vertical: &'a [u8],
    pub horizontal: &'a [u8],
    pub width: &'a [u8],
    pub height: &'a [u8],
    pub keep: &'a [u8],
}

impl Layout<'_> {
    fn place(&self, row: u64, column: u64) -> usize {
        (row * self.cells.0 + column) as usize
    }

    /// Whether an edge has a shortened pair: a horizontal one in a superblock's first row, a vertical one in a tile's first column (ticket 5).
    pub fn shortened(&self, direction: u64, row: u64, column: u64) -> bool {
        if direction == 0 {
            self.starts.iter().any(|&s| s as u64 == column)
        } else {
            row % self.superblock_height == 0
        }
    }

    /// The edge of a cell, if there is one: column 0 and row 0 have none.
    pub fn edge(&self, direction: u64, row: u64, column: u64) -> Option<Edge> {
        let here = self.place(row, column);
        let (x, y) = (4 * column, 4 * row);
        let (marked, along, limit, index) = if direction == 0 {
            (column > 0 && self.vertical[here] == 1, x, self.size.0, self.width)
        } else {
            (row > 0 && self.horizontal[here] == 1, y, self.size.1, self.height)
        };
        if !marked {
            return None;
        }
        let other = if direction == 0 { here - 1 } else { self.place(row - 1, column) };
        let (border, most) = if self.chroma { (8, 1) } else { (16, 2) };
        let smaller = index[here].min(index[other]);
        let m = if along + border > limit { smaller.min(most) } else { smaller };
        Some(Edge { x, y, direction, lengths: lengths(m, self.chroma, self.shortened(direction, row, column)) })
    }

    /// 6: the first cell with a bad mark or index; from ticket 7 on a keep mark may be bad too.
    fn bad_cell(&self) -> Option<u64> {
        let bad = |i: &usize| self.vertical[*i] > 1 || self.horizontal[*i] > 1 || self.width[*i] > 6 || self.height[*i] > 6 || self.keep[*i] > 1;
        (0..(self.cells.0 * self.cells.1) as usize).find(bad).map(|i| i as u64)
    }

    pub fn lacks_room(&self, direction: u64, row: u64, column: u64) -> bool {
        self.edge(direction, row, column).is_some_and(|e| !has_room(&e, 4 * self.cells.0, 4 * self.cells.1))
    }

    /// 7: the first cell whose edge lacks room, vertical edges row by row, then horizontal.
    fn no_room(&self) -> Option<u64> {
        let cells = |direction: u64| {
            (0..self.cells.0 * self.cells.1).find(move |&i| self.lacks_room(direction, i / self.cells.0, i % self.cells.0))
        };
        cells(0).or_else(|| cells(1))
    }
}

/// 8 over all of a plane's cells.
pub fn plane_sample(plane: &[u16], cells: (u64, u64), stride: u64, depth: u64) -> Option<Refusal> {
    refuse_at(8, too_large(plane, top(depth), rectangle(stride, 0..4 * cells.0, 0..4 * cells.1)))
}

fn bad_stride(stride: u64, mi_cols: u64) -> bool {
    outside(stride, 4 * mi_cols, 8192)
}

/// 6 of keep marks alone: the first that is neither 0 nor 1.
pub fn bad_keep(keep: &[u8], cells: (u64, u64)) -> Option<Refusal> {
    let marks = &keep[..(cells.0 * cells.1) as usize];
    refuse_at(6, marks.iter().position(|&mark| mark > 1).map(|cell| cell as u64))
}

/// 1, 2 and 3 of a plane on which a record is run.
pub fn replay_plane(cells: (u64, u64), stride: u64, bits: u64, keep: &[u8], plane: &[u16]) -> Option<Refusal> {
    depth(bits)
        .or_else(|| refuse(2, bad_cells(cells) || bad_stride(stride, cells.0)))
        .or_else(|| refuse(3, short(plane, stride * 4 * cells.1) || short(keep, cells.0 * cells.1)))
}

/// 1 to 7 of a plane.
pub fn plane_settings(c: &plane::Case) -> Option<Refusal> {
    let n = || c.cells.0 * c.cells.1;
    let sizes = || {
        bad_cells(c.cells)
            || bad_stride(c.stride, c.cells.0)
            || outside(c.size.0, 1, 4 * c.cells.0)
            || outside(c.size.1, 1, 4 * c.cells.1)
            || ![8, 16].contains(&c.superblock.0)
            || ![8, 16].contains(&c.superblock.1)
    };
    let lists = || {
        [&c.marks.vertical, &c.marks.horizontal, &c.marks.width, &c.marks.height].iter().any(|l| short(l, n()))
            || short(&c.qindex, n())
            || short(&c.keep, n())
            || short(&c.plane, c.stride * 4 * c.cells.1)
    };
    depth(c.depth)
        .or_else(|| refuse(2, sizes()))
        .or_else(|| refuse(3, lists()))
        .or_else(|| steps(&c.steps))
        .or_else(|| refuse(5, bad_delta(c.delta_q) || bad_delta(c.delta_side) || bad_starts(&c.starts, c.cells.0)))
        .or_else(|| refuse_at(6, c.layout().bad_cell()))
        .or_else(|| refuse_at(7, c.layout().no_room()))
}

pub fn of_plane(c: &plane::Case) -> Option<Refusal> {
    plane_settings(c).or_else(|| plane_sample(&c.plane, c.cells, c.stride, c.depth))
}

/// Ticket 8's order, 15, 1 to 7, 14, 8: of a call on the plane as the caller has filled it.
pub fn of_rows(c: &plane::Case, plane: &[u16], state: rows::State, filled: u64) -> Option<Refusal> {
    let bad = |count: u64| count > 4 * c.cells.1 || count % 4 != 0;
    refuse(15, state.spent)
        .or_else(|| plane_settings(c))
        .or_else(|| refuse(14, bad(state.held) || bad(filled) || filled < state.held))
        .or_else(|| refuse_at(8, too_large(plane, top(c.depth), rectangle(c.stride, 0..4 * c.cells.0, state.held..filled))))
}

fn bad_cap(cap: (u64, u64)) -> bool {
    let bad = |n: u64| ![1, 2, 4, 8, 16].contains(&n);
    bad(cap.0) || bad(cap.1)
}

fn ragged(leaves: &[u32]) -> bool {
    leaves.len() % 4 != 0
}

/// 9: the first bad leaf of a list; a skip leaf must not carry 4096.
fn bad_leaf(leaves: &[u32], skip: bool) -> Option<Refusal> {
    let side = |n: u32| {
        let bare = n & !4096;
        !(bare.is_power_of_two() && bare <= 64) || (skip && n != bare)
    };
    let bad = |leaf: &[u32]| leaf[0] > 1023 || leaf[1] > 1023 || side(leaf[2]) || side(leaf[3]);
    refuse_at(9, leaves.chunks_exact(4).position(bad).map(|i| i as u64))
}

pub fn of_tx_grid(c: &grid::TxCase) -> Option<Refusal> {
    let n = || c.cells.0 * c.cells.1;
    let lists = || [&c.marks.vertical, &c.marks.horizontal, &c.marks.width, &c.marks.height, &c.keep].iter().any(|l| short(l, n()));
    refuse(2, bad_cells(c.cells) || bad_subsampling(c.sub))
        .or_else(|| refuse(3, lists() || ragged(&c.leaves) || ragged(&c.skips)))
        .or_else(|| refuse(5, bad_cap(c.cap)))
        .or_else(|| bad_leaf(&c.leaves, false))
        .or_else(|| bad_leaf(&c.skips, true))
}

pub fn of_qindex_grid(c: &grid::QindexCase) -> Option<Refusal> {
    refuse(2, bad_cells(c.cells) || bad_subsampling(c.sub) || outside(c.sb_cols, 1, 128))
        .or_else(|| refuse(3, c.entries.is_empty() || short(&c.qindex, c.cells.0 * c.cells.1)))
}

/// The checks of keep marks over a rectangle: 2, 3, 6.
pub fn of_rectangle(c: &grid::KeepCase) -> Option<Refusal> {
    refuse(2, bad_cells(c.cells)).or_else(|| refuse(3, short(&c.keep, c.cells.0 * c.cells.1))).or_else(|| bad_keep(&c.keep, c.cells))
}

/// A frame's lists that one plane kind needs: its planes, its five grids and its keep marks.
fn frame_lists(planes: &[&Vec<u16>], g: &frame::Grid, keep: &[u8], cells: (u64, u64), stride: u64) -> bool {
    let n = cells.0 * cells.1;
    planes.iter().any(|p| short(p, stride * 4 * cells.1))
        || short(keep, n)
        || [&g.marks.vertical, &g.marks.horizontal, &g.marks.width, &g.marks.height].iter().any(|l| short(l, n))
        || short(&g.qindex, n)
}

pub fn of_frame(c: &frame::Case) -> Option<Refusal> {
    let chroma = c.chroma.0 && c.chroma.1;
    let sizes = || {
        outside(c.size.0, 1, 4096)
            || outside(c.size.1, 1, 4096)
            || bad_subsampling(c.sub)
            || bad_stride(c.strides.0, c.luma_cells().0)
            || (chroma && bad_stride(c.strides.1, c.chroma_cells().0))
    };
    let lists = || {
        short(&c.entries, c.size.0.div_ceil(64) * c.size.1.div_ceil(64))
            || [&c.leaves, &c.chroma_leaves, &c.skips].iter().any(|l| ragged(l))
            || frame_lists(&[&c.planes[0]], &c.luma_grid, &c.keep[0], c.luma_cells(), c.strides.0)
            || (chroma && frame_lists(&[&c.planes[1], &c.planes[2]], &c.chroma_grid, &c.keep[1], c.chroma_cells(), c.strides.1))
    };
    let settings = || {
        bad_delta(c.deltas.0)
            || bad_delta(c.deltas.1)
            || bad_cap(c.cap)
            || bad_cap(c.chroma_cap)
            || bad_starts(&c.starts[0], c.luma_cells().0)
            || (chroma && bad_starts(&c.starts[1], c.chroma_cells().0))
    };
    depth(c.depth)
        .or_else(|| refuse(2, sizes()))
        .or_else(|| refuse(3, lists()))
        .or_else(|| steps(&c.steps))
        .or_else(|| refuse(5, settings()))
        .or_else(|| bad_leaf(&c.leaves, false))
        .or_else(|| bad_leaf(&c.chroma_leaves, false))
        .or_else(|| bad_leaf(&c.skips, true))
        .or_else(|| bad_keep(&c.keep[0], c.luma_cells()))
        .or_else(|| if chroma { bad_keep(&c.keep[1], c.chroma_cells()) } else { None })
        .or_else(|| of_built_frame(c, chroma))
}

/// 7 and 8 of a frame, on the grids that its leaves build: luma before chroma within each.
fn of_built_frame(c: &frame::Case, chroma: bool) -> Option<Refusal> {
    let luma = c.build(false);
    let luma_room = || refuse_at(7, c.layout(&luma, false).no_room());
    let chroma_room = || {
        let built = c.build(true);
        refuse_at(7, c.layout(&built, true).no_room())
    };
    let sample = |plane: usize, cells: (u64, u64), stride: u64| plane_sample(&c.planes[plane], cells, stride, c.depth);
    luma_room()
        .or_else(|| if chroma { chroma_room() } else { None })
        .or_else(|| sample(0, c.luma_cells(), c.strides.0))
        .or_else(|| if chroma { sample(1, c.chroma_cells(), c.strides.1) } else { None })
        .or_else(|| if chroma { sample(2, c.chroma_cells(), c.strides.1) } else { None })
}

pub fn of_ccso(c: &ccso::Case) -> Option<Refusal> {
    let band_bad = c.bands > 3;
    let used = || 16u64 << c.bands;
    let luma = || c.size.0 * c.size.1;
    let target = || c.target_size().0 * c.target_size().1;
    let lists = || {
        short(&c.luma, luma())
            || short(&c.target, target())
            || short(&c.flags, c.size.0.div_ceil(64) * c.size.1.div_ceil(64))
            || (!band_bad && short(&c.offsets, used()))
    };
    let cuts = || c.cuts.0 > c.cuts.1 || outside_signed(c.cuts.0, -4095, 4095) || outside_signed(c.cuts.1, -4095, 4095);
    let taps = || c.taps.iter().any(|t| outside_signed(t.0, -16, 16) || outside_signed(t.1, -16, 16));
    let offsets = || c.offsets[..used() as usize].iter().any(|&o| outside_signed(o as i64, -10, 7));
    let settings = || outside(c.scale, 1, 16) || cuts() || c.classes.iter().any(|&k| k > 3) || taps() || band_bad || offsets();
    depth(c.depth)
        .or_else(|| refuse(2, outside(c.size.0, 1, 4096) || outside(c.size.1, 1, 4096) || bad_subsampling(c.sub)))
        .or_else(|| refuse(3, lists()))
        .or_else(|| refuse(5, settings()))
        .or_else(|| refuse_at(8, too_large(&c.luma, top(c.depth), 0..luma())))
        .or_else(|| refuse_at(8, too_large(&c.target, top(c.depth), 0..target())))
}
