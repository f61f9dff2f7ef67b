//! Bihargesh, the proved AV2 loop filters, for Rust: safe calls of the static library libbihargesh.a, with a type for each answer.
//!
//! Every function takes any numbers and lists of any length. It does its work, or says why it does not and leaves every lent list as it was
//! (but a frame refused by `Room` or `Sample` has built its grids, and `Sample` spends the state of `deblock_rows`).
//! include/bihargesh.h says what each number means and which are accepted.
//!
//! ```
//! use bihargesh::{segment, thresholds, Counts, Reason, Thresholds};
//!
//! // both thresholds of the edge between two blocks of qindex 200, with the published steps
//! let steps: Vec<u8> = bihargesh::steps().iter().flat_map(|s| s.to_le_bytes()).collect();
//! let Thresholds { q, side } = thresholds(200, 200, 0, 0, 8, &steps)?;
//!
//! // a step from 100 to 108 on four lines of eighteen samples, two bytes a sample
//! let line = [[100u16; 9], [108; 9]].concat();
//! let mut window: Vec<u8> = line.repeat(4).iter().flat_map(|s| s.to_le_bytes()).collect();
//! let (width, counts) = segment(&mut window, 8, 3, q, side)?;
//! assert_eq!(width, 8);
//! assert_eq!(window[16], 104);
//!
//! // how many samples were stored, and how many of those differ from before: the outermost of a line stays here
//! assert_eq!(counts, Counts { stored: 64, changed: 56 });
//!
//! // what can't be done is refused, and the window stays as it was
//! assert_eq!(segment(&mut window, 9, 3, q, side), Err(Reason::Depth));
//! # Ok::<(), Reason>(())
//! ```

mod raw;

pub use raw::Leaf;
use raw::*;
use std::error::Error;
use std::fmt;

/// The version of the library and of this package.
pub const VERSION: &str = env!("CARGO_PKG_VERSION");

/// The refusals by name, in the order of their numbers.
#[derive(Clone, Copy, Debug, PartialEq, Eq)]
pub enum Reason {
    /// The depth is not 8, 10 or 12.
    Depth = 1,
    /// A size, stride, subsampling or count is out of range.
    Size,
    /// A list, keep marks too, is shorter than needed, or a list of leaves is cut.
    Length,
    /// The step table is bad.
    Steps,
    /// A delta, cap, threshold, pair, tile start or CCSO setting is out of range.
    Setting,
    /// A grid cell has a mark or keep mark other than 0 and 1, or a bad size index.
    Cell,
    /// An edge lacks room.
    Room,
    /// A used sample exceeds the depth's largest.
    Sample,
    /// A leaf is bad.
    Leaf,
    /// The buffer is too short for the record of a plane's edges.
    Buffer,
    /// A record has no header: fewer than five bytes, or another mark or version.
    Header,
    /// A record ends within an entry.
    Cut,
    /// An entry's direction, length pair, q or side is out of range.
    Entry,
    /// A count of filled rows, held or new, exceeds the plane or is no multiple of 4, or the new one is below the held.
    Rows,
    /// An earlier call on filled rows met a bad sample.
    Spent,
}

const REASONS: [Reason; 15] = [
    Reason::Depth,
    Reason::Size,
    Reason::Length,
    Reason::Steps,
    Reason::Setting,
    Reason::Cell,
    Reason::Room,
    Reason::Sample,
    Reason::Leaf,
    Reason::Buffer,
    Reason::Header,
    Reason::Cut,
    Reason::Entry,
    Reason::Rows,
    Reason::Spent,
];

impl Reason {
    /// Its number in include/bihargesh.h.
    pub fn number(self) -> u32 {
        self as u32
    }

    /// The reason of an answer below 0.
    fn of(answer: i32) -> Reason {
        REASONS[-answer as usize - 1]
    }
}

impl fmt::Display for Reason {
    fn fmt(&self, f: &mut fmt::Formatter) -> fmt::Result {
        f.write_str(match self {
            Reason::Depth => "the depth is not 8, 10 or 12",
            Reason::Size => "a size, stride, subsampling or count is out of range",
            Reason::Length => "a list is shorter than needed, or a list of leaves is cut",
            Reason::Steps => "the step table is not 352 entries from 64 on, each at most 1048576",
            Reason::Setting => "a delta, cap, threshold, length pair, tile start or CCSO setting is out of range",
            Reason::Cell => "a grid cell has a bad mark, keep mark or size index",
            Reason::Room => "an edge lacks room",
            Reason::Sample => "a sample exceeds the depth's largest",
            Reason::Leaf => "a leaf is bad",
            Reason::Buffer => "the buffer is too short for the record of a plane's edges",
            Reason::Header => "the record has fewer than five bytes, or another mark or version",
            Reason::Cut => "the record ends within an entry",
            Reason::Entry => "an entry of the record is out of range",
            Reason::Rows => "a count of filled rows exceeds the plane, is no multiple of 4 or is below the held one",
            Reason::Spent => "an earlier call on filled rows met a bad sample",
        })
    }
}

impl Error for Reason {}

/// Why an entry did nothing, and at which step, cell, leaf, entry of a record or sample: 0 where a refusal has no place.
#[derive(Clone, Copy, Debug, PartialEq, Eq)]
pub struct Refusal {
    pub reason: Reason,
    pub place: usize,
}

impl fmt::Display for Refusal {
    fn fmt(&self, f: &mut fmt::Formatter) -> fmt::Result {
        match self.reason {
            Reason::Steps | Reason::Cell | Reason::Room | Reason::Sample | Reason::Leaf | Reason::Cut | Reason::Entry => write!(f, "{}, at place {}", self.reason, self.place),
            _ => self.reason.fmt(f),
        }
    }
}

impl Error for Refusal {}

/// Both thresholds of an edge.
#[derive(Clone, Copy, Debug, PartialEq, Eq)]
pub struct Thresholds {
    pub q: u32,
    pub side: u32,
}

/// How many samples were stored, and how many of those stores gave a place another sample than it had.
#[derive(Clone, Copy, Debug, Default, PartialEq, Eq)]
pub struct Counts {
    pub stored: usize,
    pub changed: usize,
}

/// Settings of a plane.
#[derive(Clone, Copy, Debug, Default)]
pub struct Plane {
    pub cols: i32,
    pub rows: i32,
    pub stride: i32,
    pub width: i32,
    pub height: i32,
    pub superblock_width: i32,
    pub superblock_height: i32,
    pub chroma: bool,
    pub depth: i32,
    pub delta_q: i32,
    pub delta_side: i32,
}

/// What `deblock_rows` is told between two calls: how many rows the last accepted call was told are filled, and whether a bad sample has spent it.
/// Begin with `RowState::default()`.
#[derive(Clone, Copy, Debug, Default, PartialEq, Eq)]
pub struct RowState {
    pub held: usize,
    pub spent: bool,
}

/// Settings of a plane on which a record is run.
#[derive(Clone, Copy, Debug, Default)]
pub struct Replay {
    pub cols: i32,
    pub rows: i32,
    pub stride: i32,
    pub depth: i32,
}

/// A plane's grid: a number for each cell, row by row; and the column of cells in which each tile but the first begins, none for one tile.
/// `keep` is 1 for a cell whose samples are never stored and 0 for any other; it is asked for as the other lists are.
#[derive(Clone, Copy, Debug)]
pub struct Grid<'a> {
    pub vedge: &'a [u8],
    pub hedge: &'a [u8],
    pub sqw: &'a [u8],
    pub sqh: &'a [u8],
    pub qindex: &'a [u16],
    pub tiles: &'a [u16],
    pub keep: &'a [u8],
}

/// The four lists that a TU grid fills.
#[derive(Debug)]
pub struct Marks<'a> {
    pub vedge: &'a mut [u8],
    pub hedge: &'a mut [u8],
    pub sqw: &'a mut [u8],
    pub sqh: &'a mut [u8],
}

/// Settings of a TU grid.
#[derive(Clone, Copy, Debug, Default)]
pub struct TxGrid {
    pub cols: i32,
    pub rows: i32,
    pub ssx: i32,
    pub ssy: i32,
    pub cap_width: i32,
    pub cap_height: i32,
}

/// Settings of a kept rectangle: the plane's cells each way; its first row and column, how many rows and how many columns it has, in cells from 0 on.
#[derive(Clone, Copy, Debug, Default)]
pub struct Rectangle {
    pub cols: i32,
    pub rows: i32,
    pub row: i32,
    pub col: i32,
    pub height: i32,
    pub width: i32,
}

/// Settings of a qindex grid.
#[derive(Clone, Copy, Debug, Default)]
pub struct QindexGrid {
    pub cols: i32,
    pub rows: i32,
    pub ssx: i32,
    pub ssy: i32,
    pub superblocks_across: i32,
}

/// The planes of a frame; `u` and `v` may be empty where no chroma is filtered.
#[derive(Debug)]
pub struct Planes<'a> {
    pub y: &'a mut [u16],
    pub u: &'a mut [u16],
    pub v: &'a mut [u16],
}

/// A grid that a frame builds: its marks and size indices, and its qindex.
#[derive(Debug)]
pub struct BuiltGrid<'a> {
    pub marks: Marks<'a>,
    pub qindex: &'a mut [u16],
}

/// What a frame's grids are built from, four numbers a leaf; and the tile starts and keep marks of luma and of chroma, as a grid's, each in cells of its own.
#[derive(Clone, Copy, Debug)]
pub struct Blocks<'a> {
    pub superblocks: &'a [u16],
    pub leaves: &'a [u16],
    pub chroma_leaves: &'a [u16],
    pub skips: &'a [u16],
    pub tiles: &'a [u16],
    pub chroma_tiles: &'a [u16],
    pub keep: &'a [u8],
    pub chroma_keep: &'a [u8],
}

/// Settings of a frame.
#[derive(Clone, Copy, Debug, Default)]
pub struct Frame {
    pub width: i32,
    pub height: i32,
    pub ssx: i32,
    pub ssy: i32,
    pub has_chroma: bool,
    pub chroma_deblock: bool,
    pub depth: i32,
    pub delta_luma: i32,
    pub delta_chroma: i32,
    pub luma_stride: i32,
    pub chroma_stride: i32,
    pub cap_width: i32,
    pub cap_height: i32,
    pub chroma_cap_width: i32,
    pub chroma_cap_height: i32,
}

/// Settings of the CCSO offsets.
#[derive(Clone, Copy, Debug, Default)]
pub struct Ccso {
    pub width: i32,
    pub height: i32,
    pub ssx: i32,
    pub ssy: i32,
    pub depth: i32,
    pub scale: i32,
    pub lo: i32,
    pub hi: i32,
    pub below: i32,
    pub within: i32,
    pub above: i32,
    pub dx0: i32,
    pub dy0: i32,
    pub dx1: i32,
    pub dy1: i32,
    pub band_log2: i32,
}

/// A plane's settings in their order.
fn plane_settings(s: Plane) -> [i32; 11] {
    [s.cols, s.rows, s.stride, s.width, s.height, s.superblock_width, s.superblock_height, s.chroma as i32, s.depth, s.delta_q, s.delta_side]
}

/// What was asked for, or the refusal with its place.
fn told(answer: i32, place: [usize; 1]) -> Result<(), Refusal> {
    counted(answer, place).map(|_| ())
}

/// Both counts, or the refusal with its place.
fn filtered(answer: i32, place: [usize; 1], counts: [usize; 2]) -> Result<Counts, Refusal> {
    counted(answer, place).map(|_| both(counts))
}

/// Both counts from their list.
fn both([stored, changed]: [usize; 2]) -> Counts {
    Counts { stored, changed }
}

/// A count of bytes or rows, or the refusal with its place.
fn counted(answer: i32, place: [usize; 1]) -> Result<usize, Refusal> {
    if answer < 0 {
        return Err(Refusal { reason: Reason::of(answer), place: place[0] });
    }
    Ok(answer as usize)
}

// In each call below every pointer is that of a live list, beside its length, and the borrow checker keeps a `&mut` list apart from the others.

/// The 352 AC steps of the published encoder, for `deblock_plane` and `deblock_frame`.
///
/// ```
/// let steps = bihargesh::steps();
/// assert_eq!((steps[0], steps[1], steps[25], steps[351]), (64, 40, 80, steps[255]));
/// ```
pub fn steps() -> [u32; 352] {
    let mut list = [0; 352];
    // SAFETY: as above.
    unsafe { bihargesh_steps(list.as_mut_ptr(), list.len()) };
    list
}

/// Both thresholds of the edge between two blocks; `steps` has four bytes a step, low first.
pub fn thresholds(curr: u16, prev: u16, delta_q: i32, delta_side: i32, depth: u32, steps: &[u8]) -> Result<Thresholds, Reason> {
    // SAFETY: as above.
    let answer = unsafe { bihargesh_thresholds(curr, prev, delta_q, delta_side, depth, steps.as_ptr(), steps.len()) };
    if answer < 0 {
        return Err(Reason::of(answer));
    }
    Ok(Thresholds { q: answer as u32 >> 16, side: answer as u32 & 65535 })
}

/// Filters one segment on a window of 144 bytes; how many samples after the edge were filtered, and both counts.
pub fn segment(window: &mut [u8], depth: u32, pair: u32, q: u32, side: u32) -> Result<(usize, Counts), Reason> {
    let mut counts = [0; 2];
    // SAFETY: as above.
    let answer = unsafe { bihargesh_segment(window.as_mut_ptr(), window.len(), depth, pair, q, side, counts.as_mut_ptr(), counts.len()) };
    if answer < 0 {
        return Err(Reason::of(answer));
    }
    Ok((answer as usize, both(counts)))
}

/// A plane by one of the two functions that filter it.
fn deblock_by(engine: Engine, plane: &mut [u16], grid: Grid, steps: &[u32], s: Plane) -> Result<Counts, Refusal> {
    let settings = plane_settings(s);
    let (mut place, mut counts) = ([0], [0; 2]);
    // SAFETY: as above.
    let answer = unsafe {
        engine(
            plane.as_mut_ptr(), plane.len(), grid.vedge.as_ptr(), grid.vedge.len(), grid.hedge.as_ptr(), grid.hedge.len(),
            grid.sqw.as_ptr(), grid.sqw.len(), grid.sqh.as_ptr(), grid.sqh.len(), grid.qindex.as_ptr(), grid.qindex.len(),
            grid.tiles.as_ptr(), grid.tiles.len(), grid.keep.as_ptr(), grid.keep.len(), steps.as_ptr(), steps.len(),
            settings.as_ptr(), settings.len(), place.as_mut_ptr(), place.len(), counts.as_mut_ptr(), counts.len(),
        )
    };
    filtered(answer, place, counts)
}

/// Filters every marked edge of a plane; how many samples were stored and changed.
pub fn deblock_plane(plane: &mut [u16], grid: Grid, steps: &[u32], s: Plane) -> Result<Counts, Refusal> {
    deblock_by(bihargesh_plane, plane, grid, steps, s)
}

/// The same in an order that can be audited by eye: all vertical edges, rows in order, and then all horizontal edges, columns in order. The answer,
/// the counts and the plane are always those of `deblock_plane`, refusals included.
///
/// ```
/// use bihargesh::{deblock_plane, deblock_plane_plain, Grid, Plane};
///
/// // six cells with a vertical edge at the third, where a tile begins, on a step from 100 to 108
/// let grid = Grid { vedge: &[0, 0, 1, 0, 0, 0], hedge: &[0; 6], sqw: &[3; 6], sqh: &[0; 6], qindex: &[200; 6], tiles: &[2], keep: &[0; 6] };
/// let settings = Plane { cols: 6, rows: 1, stride: 24, width: 24, height: 4, superblock_width: 8, superblock_height: 8, depth: 8, ..Plane::default() };
/// let mut plane: Vec<u16> = [vec![100; 8], vec![108; 16]].concat().repeat(4);
/// let mut plain = plane.clone();
/// let counts = deblock_plane(&mut plane, grid, &bihargesh::steps(), settings);
/// assert_eq!(deblock_plane_plain(&mut plain, grid, &bihargesh::steps(), settings), counts);
/// assert_eq!(plain, plane);
/// assert!(plain[7] > 100);
/// ```
pub fn deblock_plane_plain(plane: &mut [u16], grid: Grid, steps: &[u32], s: Plane) -> Result<Counts, Refusal> {
    deblock_by(bihargesh_plane_plain, plane, grid, steps, s)
}

/// Filters what can be filtered of a plane of which the first `filled` rows are there, and leaves the state for the next call: how many rows from the top are final,
/// and both counts. Rows that are not filled may hold anything. Any cutting into calls with rising counts that ends at `4 * rows` leaves the plane of `deblock_plane`,
/// and the counts of the calls add up to its counts, where each call is lent the same grid, steps and settings and the filled rows as the last one left them.
/// Only newly filled rows are tested for `Reason::Sample`, which spends the state: each further call is refused by `Reason::Spent`. Every other refusal leaves the state.
///
/// ```
/// use bihargesh::{deblock_plane, deblock_rows, Grid, Plane, Reason, RowState};
///
/// // four cells one above the other, with a horizontal edge at the second, on a step from 100 to 108
/// let grid = Grid { vedge: &[0; 4], hedge: &[0, 1, 0, 0], sqw: &[1; 4], sqh: &[1; 4], qindex: &[200; 4], tiles: &[], keep: &[0; 4] };
/// let settings = Plane { cols: 1, rows: 4, stride: 4, width: 4, height: 16, superblock_width: 8, superblock_height: 8, depth: 8, ..Plane::default() };
/// let steps = bihargesh::steps();
/// let picture: Vec<u16> = [[100; 16], [108; 16], [108; 16], [108; 16]].concat();
/// let mut whole = picture.clone();
/// let counts = deblock_plane(&mut whole, grid, &steps, settings)?;
///
/// // the rows come in three parts; 65535 stands where none has come yet
/// let (mut plane, mut state, mut stored, mut from) = (vec![65535; 64], RowState::default(), 0, 0);
/// for (filled, told) in [(8, 0), (12, 0), (16, 16)] {
///     plane[4 * from..4 * filled].copy_from_slice(&picture[4 * from..4 * filled]);
///     let (last, here) = deblock_rows(&mut plane, grid, &steps, settings, filled, &mut state)?;
///     assert_eq!(last, told);
///     (stored, from) = (stored + here.stored, filled);
/// }
/// assert_eq!((plane, stored), (whole, counts.stored));
/// assert_eq!(state, RowState { held: 16, spent: false });
///
/// // a count that is no multiple of 4 is refused, and the state stays
/// let refusal = deblock_rows(&mut picture.clone(), grid, &steps, settings, 18, &mut state).unwrap_err();
/// assert_eq!((refusal.reason, state.held), (Reason::Rows, 16));
/// # Ok::<(), bihargesh::Refusal>(())
/// ```
pub fn deblock_rows(plane: &mut [u16], grid: Grid, steps: &[u32], s: Plane, filled: usize, state: &mut RowState) -> Result<(usize, Counts), Refusal> {
    let settings = plane_settings(s);
    let (mut place, mut counts, mut list) = ([0], [0; 2], [state.held, state.spent as usize]);
    // SAFETY: as above.
    let answer = unsafe {
        bihargesh_rows(
            plane.as_mut_ptr(), plane.len(), grid.vedge.as_ptr(), grid.vedge.len(), grid.hedge.as_ptr(), grid.hedge.len(),
            grid.sqw.as_ptr(), grid.sqw.len(), grid.sqh.as_ptr(), grid.sqh.len(), grid.qindex.as_ptr(), grid.qindex.len(),
            grid.tiles.as_ptr(), grid.tiles.len(), grid.keep.as_ptr(), grid.keep.len(), steps.as_ptr(), steps.len(),
            settings.as_ptr(), settings.len(), filled, list.as_mut_ptr(), list.len(), place.as_mut_ptr(), place.len(),
            counts.as_mut_ptr(), counts.len(),
        )
    };
    *state = RowState { held: list[0], spent: list[1] != 0 };
    counted(answer, place).map(|last| (last, both(counts)))
}

/// Filters every marked edge of a plane and writes the record of these edges into the beginning of a buffer; how many bytes it takes, and both counts.
/// `5 + 20 * cols * rows` bytes are always enough.
///
/// ```
/// use bihargesh::{record_plane, Counts, Grid, Plane, Reason, Refusal};
///
/// // three cells in a row, with a vertical edge at the second: the pair of lengths is 4, 4
/// let grid = Grid { vedge: &[0, 1, 0], hedge: &[0; 3], sqw: &[0; 3], sqh: &[0; 3], qindex: &[0; 3], tiles: &[], keep: &[0; 3] };
/// let settings = Plane { cols: 3, rows: 1, stride: 12, width: 12, height: 4, superblock_width: 8, superblock_height: 8, depth: 8, ..Plane::default() };
/// let (mut plane, mut record) = ([100; 48], [7; 16]);
/// let (length, counts) = record_plane(&mut plane, &mut record, grid, &bihargesh::steps(), settings)?;
/// assert_eq!((length, counts), (15, Counts { stored: 0, changed: 0 }));
/// assert_eq!(record, [b'E', b'D', b'G', 1, 0, 4, 0, 0, 0, 0, 0, 0, 0, 0, 0, 7]);
///
/// let refusal = record_plane(&mut plane, &mut record[..14], grid, &bihargesh::steps(), settings).unwrap_err();
/// assert_eq!(refusal, Refusal { reason: Reason::Buffer, place: 0 });
/// # Ok::<(), Refusal>(())
/// ```
pub fn record_plane(plane: &mut [u16], record: &mut [u8], grid: Grid, steps: &[u32], s: Plane) -> Result<(usize, Counts), Refusal> {
    let settings = plane_settings(s);
    let (mut place, mut counts) = ([0], [0; 2]);
    // SAFETY: as above.
    let answer = unsafe {
        bihargesh_record_plane(
            plane.as_mut_ptr(), plane.len(), record.as_mut_ptr(), record.len(), grid.vedge.as_ptr(), grid.vedge.len(),
            grid.hedge.as_ptr(), grid.hedge.len(), grid.sqw.as_ptr(), grid.sqw.len(), grid.sqh.as_ptr(), grid.sqh.len(),
            grid.qindex.as_ptr(), grid.qindex.len(), grid.tiles.as_ptr(), grid.tiles.len(), grid.keep.as_ptr(), grid.keep.len(),
            steps.as_ptr(), steps.len(), settings.as_ptr(), settings.len(), place.as_mut_ptr(), place.len(),
            counts.as_mut_ptr(), counts.len(),
        )
    };
    counted(answer, place).map(|length| (length, both(counts)))
}

/// Runs the edges of a record on a plane, one after the other; how many samples were stored and changed.
/// `record_plane`'s record, on the plane and with the keep marks that were lent there, gives the plane that it left, and its counts.
///
/// ```
/// use bihargesh::{replay, Counts, Reason, Refusal, Replay};
///
/// // an edge at x 8, pair 1, q 20, side 40, on a step from 100 to 108
/// let record = [b'E', b'D', b'G', 1, 0, 8, 0, 0, 0, 0, 1, 20, 0, 40, 0];
/// let settings = Replay { cols: 4, rows: 1, stride: 16, depth: 8 };
/// let mut plane: Vec<u16> = [[100; 8], [108; 8]].concat().repeat(4);
/// let mut kept = plane.clone();
/// assert_eq!(replay(&mut plane, &record, &[0; 4], settings)?, Counts { stored: 24, changed: 24 });
/// assert_eq!(plane[4..12], [100, 101, 102, 103, 105, 106, 107, 108]);
///
/// // the same with the cell before the edge kept
/// assert_eq!(replay(&mut kept, &record, &[0, 1, 0, 0], settings)?, Counts { stored: 12, changed: 12 });
/// assert_eq!(kept[4..12], [100, 100, 100, 100, 105, 106, 107, 108]);
///
/// let refusal = replay(&mut plane, &record[..14], &[0; 4], settings).unwrap_err();
/// assert_eq!(refusal, Refusal { reason: Reason::Cut, place: 0 });
/// assert_eq!(refusal.to_string(), "the record ends within an entry, at place 0");
/// # Ok::<(), Refusal>(())
/// ```
pub fn replay(plane: &mut [u16], record: &[u8], keep: &[u8], s: Replay) -> Result<Counts, Refusal> {
    let settings = [s.cols, s.rows, s.stride, s.depth];
    let (mut place, mut counts) = ([0], [0; 2]);
    // SAFETY: as above.
    let answer = unsafe {
        bihargesh_replay(
            plane.as_mut_ptr(), plane.len(), record.as_ptr(), record.len(), keep.as_ptr(), keep.len(), settings.as_ptr(), settings.len(),
            place.as_mut_ptr(), place.len(), counts.as_mut_ptr(), counts.len(),
        )
    };
    filtered(answer, place, counts)
}

/// Builds a plane's marks and size indices from its leaves and skip leaves, four numbers a leaf, and keeps no cell: `keep` is 0 for every cell afterwards.
pub fn build_tx_grid(leaves: &[u16], skips: &[u16], marks: Marks, keep: &mut [u8], s: TxGrid) -> Result<(), Refusal> {
    let settings = [s.cols, s.rows, s.ssx, s.ssy, s.cap_width, s.cap_height];
    let mut place = [0];
    // SAFETY: as above.
    let answer = unsafe {
        bihargesh_tx_grid(
            leaves.as_ptr(), leaves.len(), skips.as_ptr(), skips.len(), marks.vedge.as_mut_ptr(), marks.vedge.len(),
            marks.hedge.as_mut_ptr(), marks.hedge.len(), marks.sqw.as_mut_ptr(), marks.sqw.len(), marks.sqh.as_mut_ptr(), marks.sqh.len(),
            keep.as_mut_ptr(), keep.len(), settings.as_ptr(), settings.len(), place.as_mut_ptr(), place.len(),
        )
    };
    told(answer, place)
}

/// The same from leaves that are records.
///
/// ```
/// use bihargesh::{build_tx_grid_leaves, Leaf, Marks, Reason, Refusal, TxGrid};
///
/// let mut lists = [[9; 2]; 5];
/// let [vedge, hedge, sqw, sqh, keep] = &mut lists;
/// let settings = TxGrid { cols: 2, rows: 1, cap_width: 8, cap_height: 8, ..TxGrid::default() };
/// let leaves = [Leaf { row: 0, col: 0, w: 1, h: 1 }, Leaf { row: 0, col: 1, w: 1, h: 1 }];
/// build_tx_grid_leaves(&leaves, &[], Marks { vedge, hedge, sqw, sqh }, keep, settings)?;
/// assert_eq!(lists, [[1, 1], [1, 1], [0, 0], [0, 0], [0, 0]]);
///
/// let [vedge, hedge, sqw, sqh, keep] = &mut lists;
/// let refusal = build_tx_grid_leaves(&leaves[..1], &[Leaf::default()], Marks { vedge, hedge, sqw, sqh }, keep, settings).unwrap_err();
/// assert_eq!(refusal, Refusal { reason: Reason::Leaf, place: 0 });
/// # Ok::<(), Refusal>(())
/// ```
pub fn build_tx_grid_leaves(leaves: &[Leaf], skips: &[Leaf], marks: Marks, keep: &mut [u8], s: TxGrid) -> Result<(), Refusal> {
    let settings = [s.cols, s.rows, s.ssx, s.ssy, s.cap_width, s.cap_height];
    let mut place = [0];
    // SAFETY: as above.
    let answer = unsafe {
        bihargesh_tx_grid_leaves(
            leaves.as_ptr(), leaves.len(), skips.as_ptr(), skips.len(), marks.vedge.as_mut_ptr(), marks.vedge.len(),
            marks.hedge.as_mut_ptr(), marks.hedge.len(), marks.sqw.as_mut_ptr(), marks.sqw.len(), marks.sqh.as_mut_ptr(), marks.sqh.len(),
            keep.as_mut_ptr(), keep.len(), settings.as_ptr(), settings.len(), place.as_mut_ptr(), place.len(),
        )
    };
    told(answer, place)
}

/// Marks every cell of a rectangle as kept and leaves the other marks as they are; what lies beyond the plane is cut off.
///
/// ```
/// use bihargesh::{keep_rectangle, Reason, Rectangle, Refusal};
///
/// // two rows of three cells: the last two columns of the second row, and what would follow them
/// let mut keep = [0; 6];
/// let settings = Rectangle { cols: 3, rows: 2, row: 1, col: 1, height: 9, width: 2 };
/// keep_rectangle(&mut keep, settings)?;
/// assert_eq!(keep, [0, 0, 0, 0, 1, 1]);
///
/// let refusal = keep_rectangle(&mut keep, Rectangle { col: -1, ..settings }).unwrap_err();
/// assert_eq!(refusal, Refusal { reason: Reason::Size, place: 0 });
/// # Ok::<(), Refusal>(())
/// ```
pub fn keep_rectangle(keep: &mut [u8], s: Rectangle) -> Result<(), Refusal> {
    let settings = [s.cols, s.rows, s.row, s.col, s.height, s.width];
    let mut place = [0];
    // SAFETY: as above.
    let answer = unsafe { bihargesh_keep_rectangle(keep.as_mut_ptr(), keep.len(), settings.as_ptr(), settings.len(), place.as_mut_ptr(), place.len()) };
    told(answer, place)
}

/// Gives each cell of a plane the qindex of its superblock.
///
/// ```
/// use bihargesh::{build_qindex_grid, QindexGrid, Reason, Refusal};
///
/// let mut qindex = [0; 4];
/// let settings = QindexGrid { cols: 2, rows: 2, superblocks_across: 1, ..QindexGrid::default() };
/// build_qindex_grid(&[200], &mut qindex, settings)?;
/// assert_eq!(qindex, [200; 4]);
///
/// let refusal = build_qindex_grid(&[], &mut qindex, settings).unwrap_err();
/// assert_eq!(refusal, Refusal { reason: Reason::Length, place: 0 });
/// assert_eq!(refusal.to_string(), "a list is shorter than needed, or a list of leaves is cut");
/// # Ok::<(), Refusal>(())
/// ```
pub fn build_qindex_grid(superblocks: &[u16], qindex: &mut [u16], s: QindexGrid) -> Result<(), Refusal> {
    let settings = [s.cols, s.rows, s.ssx, s.ssy, s.superblocks_across];
    let mut place = [0];
    // SAFETY: as above.
    let answer = unsafe {
        bihargesh_qindex_grid(
            superblocks.as_ptr(), superblocks.len(), qindex.as_mut_ptr(), qindex.len(),
            settings.as_ptr(), settings.len(), place.as_mut_ptr(), place.len(),
        )
    };
    told(answer, place)
}

/// Filters a whole frame; how many samples of its planes were stored and changed. A refusal of `Room` or `Sample` leaves the grids built, every other leaves them as lent.
pub fn deblock_frame(planes: Planes, luma: BuiltGrid, chroma: BuiltGrid, steps: &[u32], b: Blocks, s: Frame) -> Result<Counts, Refusal> {
    let settings = [
        s.width, s.height, s.ssx, s.ssy, s.has_chroma as i32, s.chroma_deblock as i32, s.depth, s.delta_luma, s.delta_chroma, s.luma_stride,
        s.chroma_stride, s.cap_width, s.cap_height, s.chroma_cap_width, s.chroma_cap_height,
    ];
    let (mut place, mut counts) = ([0], [0; 2]);
    // SAFETY: as above.
    let answer = unsafe {
        bihargesh_frame(
            planes.y.as_mut_ptr(), planes.y.len(), planes.u.as_mut_ptr(), planes.u.len(), planes.v.as_mut_ptr(), planes.v.len(),
            luma.marks.vedge.as_mut_ptr(), luma.marks.vedge.len(), luma.marks.hedge.as_mut_ptr(), luma.marks.hedge.len(),
            luma.marks.sqw.as_mut_ptr(), luma.marks.sqw.len(), luma.marks.sqh.as_mut_ptr(), luma.marks.sqh.len(),
            luma.qindex.as_mut_ptr(), luma.qindex.len(),
            chroma.marks.vedge.as_mut_ptr(), chroma.marks.vedge.len(), chroma.marks.hedge.as_mut_ptr(), chroma.marks.hedge.len(),
            chroma.marks.sqw.as_mut_ptr(), chroma.marks.sqw.len(), chroma.marks.sqh.as_mut_ptr(), chroma.marks.sqh.len(),
            chroma.qindex.as_mut_ptr(), chroma.qindex.len(),
            steps.as_ptr(), steps.len(), b.superblocks.as_ptr(), b.superblocks.len(), b.leaves.as_ptr(), b.leaves.len(),
            b.chroma_leaves.as_ptr(), b.chroma_leaves.len(), b.skips.as_ptr(), b.skips.len(),
            b.tiles.as_ptr(), b.tiles.len(), b.chroma_tiles.as_ptr(), b.chroma_tiles.len(),
            b.keep.as_ptr(), b.keep.len(), b.chroma_keep.as_ptr(), b.chroma_keep.len(),
            settings.as_ptr(), settings.len(), place.as_mut_ptr(), place.len(),
            counts.as_mut_ptr(), counts.len(),
        )
    };
    filtered(answer, place, counts)
}

/// Adds the gated CCSO offsets to a plane.
pub fn apply_edge_gated(luma: &[u16], target: &mut [u16], flags: &[u8], offsets: &[i8], s: Ccso) -> Result<(), Refusal> {
    let settings = [
        s.width, s.height, s.ssx, s.ssy, s.depth, s.scale, s.lo, s.hi, s.below, s.within, s.above, s.dx0, s.dy0, s.dx1, s.dy1, s.band_log2,
    ];
    let mut place = [0];
    // SAFETY: as above.
    let answer = unsafe {
        bihargesh_ccso(
            luma.as_ptr(), luma.len(), target.as_mut_ptr(), target.len(), flags.as_ptr(), flags.len(),
            offsets.as_ptr(), offsets.len(), settings.as_ptr(), settings.len(), place.as_mut_ptr(), place.len(),
        )
    };
    told(answer, place)
}
