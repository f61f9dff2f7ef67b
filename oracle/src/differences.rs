//! What docs/DIFFERENCES.md says of the published Rust, each shown by running it.

use crate::plane::{self, Case};
use crate::random::Random;
use crate::rust::ccso::{Choice, BORDER};
use crate::rust::deblock::{self, Frame, Marks, Settings};
use crate::rust::quant;
use crate::{keep, tiles};
use std::panic;

/// What is said of the Rust, and whether it is so.
type Said = (&'static str, fn() -> bool);

const SAID: [Said; 20] = [
    ("read_line clamps an offset before the plane to its first sample", clamps_before),
    ("read_line clamps an offset past the plane to its last sample", clamps_after),
    ("f32 samples are cut to whole numbers when read", cuts),
    ("qstep gives entries 256..351 the step of 255", steps_end),
    ("base_q never shows in a qindex grid", base_hidden),
    ("build_qindex_grid panics on an empty list", empty_panics),
    ("deblock_plane panics on a short qindex list", short_panics),
    ("without its flags deblock_plane keeps the plane", flags_off),
    ("every tap of the CCSO supports lies within the replicated border", taps_within),
    ("deblock_plane filters with a superblock of 32 cells", superblock_32),
    ("deblock_plane filters a plane of 1025 columns of cells", cells_1025),
    ("deblock_plane filters a sample of 300 at depth 8", sample_300),
    ("deblock_frame takes sb_cols from its caller: 3 at width 65 gives other samples than 2", three_across),
    ("deblock_plane passes false for vertical edges: a superblock's first column is filtered as 8,8 where the turned plane's first row is as 6,8", never_shortens),
    ("the oracle's reading of tile starts is deblock_plane where there are none, on 1000 planes", reads_bare),
    ("the oracle's reading of tile starts is deblock_plane on the turned plane where every k-th column starts a tile, on 1000 planes", reads_turned),
    ("the oracle's reading of kept cells is deblock_plane where none is kept, on 1000 planes", reads_open),
    ("the oracle's reading of kept cells is deblock_plane asked for one edge after the other, what it stores in kept cells taken back, on the planes of at most 40 cells of 1000", reads_by_edges),
    ("with superblocks one cell wide deblock_plane leaves other samples than the plain order, on a plane of 4x2 cells", one_cell_wide),
    ("with superblocks of 8 or 16 cells it leaves the plain order's, which is its own with one superblock across, on 1000 planes", plain_order),
];

fn clamps_before() -> bool {
    deblock::line(&[5.0, 6.0, 7.0], 1, 1).0 == [5; 9]
}

fn clamps_after() -> bool {
    deblock::line(&[5.0, 6.0, 7.0], 1, 1).1 == [6, 7, 7, 7, 7, 7, 7, 7, 7]
}

fn cuts() -> bool {
    deblock::line(&[100.9, 8.5], 1, 1).0[0] == 100
}

fn steps_end() -> bool {
    quant::steps()[256..].iter().all(|&step| step == quant::steps()[255])
}

fn base_hidden() -> bool {
    let grid = |base| deblock::qindex_grid_from(base, &[1, 2, 3], 2, (40, 40), (0, 0));
    grid(0) == grid(65535)
}

/// Whether a call panics; what it would print is kept back.
fn panics(call: impl FnOnce() + panic::UnwindSafe) -> bool {
    let hook = panic::take_hook();
    panic::set_hook(Box::new(|_| ()));
    let ended = panic::catch_unwind(call);
    panic::set_hook(hook);
    ended.is_err()
}

fn empty_panics() -> bool {
    panics(|| drop(deblock::qindex_grid(&[], 1, (2, 2), (0, 0))))
}

/// A plane of two cells side by side with a step between them, and its edge marked.
fn two_cells() -> (Settings, Marks, Vec<u16>) {
    let settings =
        Settings { cells: (2, 1), stride: 8, size: (8, 4), superblock: (16, 16), chroma: false, depth: 8, delta_q: 0, delta_side: 0 };
    let marks = Marks { vertical: vec![0, 1], horizontal: vec![0, 0], width: vec![0, 0], height: vec![0, 0] };
    (settings, marks, (0..32).map(|i| if i % 8 < 4 { 100 } else { 108 }).collect())
}

fn short_panics() -> bool {
    let (settings, marks, plane) = two_cells();
    panics(move || drop(deblock::plane(&settings, &marks, &[200], &plane)))
}

fn flags_off() -> bool {
    let (settings, marks, plane) = two_cells();
    let run = |flags| deblock::plane_by(&settings, &marks, &[200, 200], &plane, flags);
    run((false, false)) == plane && run((true, true)) != plane
}

/// Whether the Rust changes the plane of two cells once its settings are changed.
fn filters(change: impl FnOnce(&mut Settings)) -> bool {
    let (mut settings, marks, plane) = two_cells();
    change(&mut settings);
    deblock::plane(&settings, &marks, &[200, 200], &plane) != plane
}

fn superblock_32() -> bool {
    filters(|s| s.superblock = (32, 32))
}

fn cells_1025() -> bool {
    let (mut settings, _, _) = two_cells();
    settings.cells = (1025, 1);
    settings.stride = 4100;
    settings.size = (4100, 4);
    let marks = Marks { vertical: vec![1; 1025], horizontal: vec![0; 1025], width: vec![0; 1025], height: vec![0; 1025] };
    let plane: Vec<u16> = (0..16400).map(|i| if i % 8 < 4 { 100 } else { 108 }).collect();
    deblock::plane(&settings, &marks, &[200; 1025], &plane) != plane
}

fn sample_300() -> bool {
    let (settings, marks, _) = two_cells();
    let plane: Vec<u16> = (0..32).map(|i| if i % 8 < 4 { 300 } else { 308 }).collect();
    deblock::plane(&settings, &marks, &[200, 200], &plane) != plane
}

/// Two superblocks across and two down: with three across the entries of the second row begin one later, at the first of qindex 200.
fn three_across() -> bool {
    let entries = [0, 0, 0, 200, 200, 200];
    let leaves: Vec<_> = (0..4).map(|k| (k / 2 * 16, k % 2 * 16, 16, 16)).collect();
    let frame = Frame {
        size: (65, 128),
        sub: (0, 0),
        chroma: (false, false),
        depth: 8,
        deltas: (0, 0),
        strides: (72, 72),
        cap: (1, 1),
        chroma_cap: (1, 1),
        entries: &entries,
        leaves: &leaves,
        chroma_leaves: &[],
        skips: &[],
    };
    let planes = [(0..72 * 128).map(|i| 100 + i % 72 / 4 % 2 * 6).collect(), vec![], vec![]];
    deblock::frame_by(&frame, 3, &planes) != deblock::frame_by(&frame, 2, &planes)
}

/// Chroma cells of index 1 with a step at column 8, where superblocks are 8 cells wide. Turned, row 8 is shortened where they are 8 cells high, and not where they are 16.
fn never_shortens() -> bool {
    let c = Case {
        cells: (9, 1),
        stride: 36,
        size: (36, 4),
        superblock: (8, 8),
        chroma: true,
        depth: 8,
        delta_q: 0,
        delta_side: 0,
        marks: Marks { vertical: vec![0, 0, 0, 0, 0, 0, 0, 0, 1], horizontal: vec![0; 9], width: vec![1; 9], height: vec![1; 9] },
        qindex: vec![200; 9],
        starts: Vec::new(),
        keep: vec![0; 9],
        plane: (0..144).map(|i| if i % 36 < 32 { 100 } else { 108 }).collect(),
        steps: quant::steps(),
    };
    let rust = deblock::plane(&c.settings(), &c.marks, &c.qindex, &c.plane);
    rust != tiles::turned(&c, 8) && rust == tiles::turned(&c, 16)
}

/// A thousand accepted planes with tile starts.
fn tiled_planes() -> impl Iterator<Item = Case> {
    let random = Random::new(5);
    (0..1000).map(move |_| plane::with_tiles(&random))
}

fn reads_bare() -> bool {
    tiled_planes().all(|c| tiles::holds_bare(&c))
}

/// The k is a tile start of the plane, so that a thousand planes have many; some hundred of them would end otherwise without their starts.
fn reads_turned() -> bool {
    let every = |c: Case| {
        let k = c.starts.first().copied().unwrap_or(1);
        Case { starts: (1..c.cells.0 as u16).filter(|column| column % k == 0).collect(), ..c }
    };
    let telling = tiled_planes().map(every).filter(|c| tiles::matter(c, &tiles::read(c)) == Some(true)).count();
    telling > 100 && tiled_planes().map(every).all(|c| tiles::holds_turned(&c) != Some(false))
}

/// A thousand accepted planes with kept cells.
fn kept_planes() -> impl Iterator<Item = Case> {
    let random = Random::new(7);
    (0..1000).map(move |_| plane::with_keep(&random))
}

fn reads_open() -> bool {
    kept_planes().all(|c| tiles::holds_bare(&c))
}

/// Some hundred of these planes would end otherwise without their kept cells, and samples in these end as they were lent.
fn reads_by_edges() -> bool {
    let (planes, stays) = (|| kept_planes().filter(|c| keep::holds(c).is_some()), |c: &Case| keep::of(c).into_iter().zip(tiles::read(c)).zip(&c.plane).all(|((kept, new), &lent)| !kept || new == lent));
    let telling = planes().filter(|c| keep::matter(c, &tiles::read(c)) == Some(true)).count();
    telling > 100 && planes().all(|c| keep::holds(&c) == Some(true)) && kept_planes().all(|c| stays(&c))
}

/// A vertical edge in column 2 and a horizontal one in column 0, which superblocks one cell wide do first: x = 5 and x = 10 of rows 0 to 3 tell. Two cells are wide enough.
fn one_cell_wide() -> bool {
    let marks = Marks { vertical: vec![0, 0, 1, 0, 0, 0, 0, 0], horizontal: vec![0, 0, 0, 0, 1, 0, 0, 0], width: vec![2; 8], height: vec![0; 8] };
    let plane: Vec<u16> = (0..128).map(|i| 100 + 2 * (i % 16 / 8 + i / 64)).collect();
    let by = |across| {
        let settings = Settings { cells: (4, 2), stride: 16, size: (16, 8), superblock: (across, 16), chroma: false, depth: 8, delta_q: 0, delta_side: 0 };
        deblock::plane(&settings, &marks, &[120; 8], &plane)
    };
    let ends = |plane: &[u16], five: u16, ten: u16| (0..4).all(|row| plane[16 * row + 5] == five && plane[16 * row + 10] == ten);
    let plain = by(4);
    deblock::thresholds(120, 120, 0, 0, 8) == (2, 2) && ends(&by(1), 100, 102) && ends(&plain, 101, 101) && [2, 8, 16].iter().all(|&across| by(across) == plain)
}

fn plain_order() -> bool {
    let by = |c: &Case, across: u64| deblock::plane(&Settings { superblock: (across as usize, c.superblock.1 as usize), ..c.settings() }, &c.marks, &c.qindex, &c.plane);
    tiled_planes().all(|c| [8, 16].iter().all(|&across| by(&c, across) == by(&c, c.cells.0)))
}

fn taps_within() -> bool {
    let taps = (0..7).flat_map(|support| Choice { scale: 0, quantizer: 0, support, classifier: 0, bands: 0 }.taps());
    taps.into_iter().all(|(dx, dy)| dx.abs().max(dy.abs()) <= BORDER)
}

/// Prints each sentence with its outcome; false where one does not hold.
pub fn show() -> bool {
    let mut all = true;
    for (words, holds) in SAID {
        let so = holds();
        println!("differences: {words}: {}", if so { "so" } else { "NOT SO" });
        all &= so;
    }
    all
}
